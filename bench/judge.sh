#!/usr/bin/env bash
# bench/judge.sh: the processor time of checking a report of 2^13 structures to that of the analysis that wrote it, at most 4
# wanted: 13 nullary predicates, or 13 unary ones over one individual, each of which an edge from the start node to itself
# turns.
set -u
cd "$(dirname "$0")/.." || exit 1
own="${TVLA:-$PWD/crates/tvla/out/tvla}"
[ -x "$own" ] || { echo "skip: no built program"; exit 0; }
python3 - "$own" "${BITS:-13}" <<'END'
import resource, subprocess, sys, tempfile

own, bits = sys.argv[1], int(sys.argv[2])

def spent(words):
    before = resource.getrusage(resource.RUSAGE_CHILDREN)
    answer = subprocess.run([own] + words, capture_output=True)
    after = resource.getrusage(resource.RUSAGE_CHILDREN)
    assert answer.returncode == 0, answer.stderr
    return after.ru_utime + after.ru_stime - before.ru_utime - before.ru_stime, answer.stdout

def ratio(folder, var, initial):
    names = [f"b{k}" for k in range(bits)]
    text = " ".join(f"%p {name}({var})" for name in names) + "\n%%\n"
    text += "\n".join(f"%action Turn{name}() {{ {{ {name}({var}) = !{name}({var}) }} }}" for name in names) + "\n%%\n"
    text += "\n".join(f"L Turn{name}() L" for name in names) + "\n"
    files = {name: f"{folder}/{name}" for name in ("program", "initial", "report")}
    open(files["program"], "w").write(text)
    open(files["initial"], "w").write(initial)
    analysis, report = spent(["analyze", files["program"], files["initial"], "--max-structures", "100000"])
    open(files["report"], "wb").write(report)
    check, _ = spent(["check", files["program"], files["initial"], files["report"]])
    return check / analysis

with tempfile.TemporaryDirectory() as folder:
    for name, var, initial in (("nullary", "", "%n = {} %p = {}"), ("unary", "v", "%n = {u} %p = {}")):
        print(f"{name} predicates, {2**bits} structures: check to analysis {ratio(folder, var, initial):.1f}")
END
