#!/usr/bin/env bash
# bench/work.sh: the time of an analysis for each pair of a node and a structure, with 2 to the power of 14 pairs against
# 2 to the power of 10: 14 nullary predicates, and 14 edges from the start node to itself, each of which turns one. With
# the fewer pairs the last four edges turn predicates that others turn too, so that in both programs as many edges leave
# a pair, and a structure is as large: only the number of pairs differs.
set -u
cd "$(dirname "$0")/.." || exit 1
own="${TVLA:-$PWD/crates/tvla/out/tvla}"
[ -x "$own" ] || { echo "skip: no built program"; exit 0; }
python3 - "$own" <<'END'
import resource, subprocess, sys, tempfile

EDGES = 14

def spent(program, words):
    before = resource.getrusage(resource.RUSAGE_CHILDREN)
    answer = subprocess.run([program] + words, capture_output=True)
    after = resource.getrusage(resource.RUSAGE_CHILDREN)
    assert answer.returncode == 0, answer.stderr
    return after.ru_utime - before.ru_utime

def pair(folder, turned):
    names = [f"b{k}" for k in range(EDGES)]
    text = " ".join(f"%p {name}()" for name in names) + "\n%%\n"
    text += "\n".join(f"%action Turn{name}() {{ {{ {name}() = !{name}() }} }}" for name in names) + "\n%%\n"
    text += "\n".join(f"L Turn{names[k % turned]}() L" for k in range(EDGES)) + "\n"
    open(folder + "/p", "w").write(text)
    open(folder + "/i", "w").write("%n = {} %p = {}")
    words = ["analyze", folder + "/p", folder + "/i", "--max-structures", "100000"]
    return min(spent(sys.argv[1], words) for _ in range(3)) / 2**turned

with tempfile.TemporaryDirectory() as folder:
    small, large = pair(folder, 10), pair(folder, 14)
    print(f"time for a pair, 2^14 pairs to 2^10, 14 edges each: {large / small:.2f}")
END
