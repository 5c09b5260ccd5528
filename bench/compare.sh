#!/usr/bin/env bash
# bench/compare.sh [OPTION..] [PROGRAM] [examples]: the built program and PROGRAM, another one with the same
# words (else the one that OTHER names), on the cases that bench/cases.py writes, or on the examples: for each
# case the least processor time of some turns, each repeated where it is short, and the peak of memory (where
# GNU time stands), with the ratios of ours to the other's; then their geometric means and the worst.
#   --times N      turns of each case, the programs one after the other (default 5); no turn begins once a
#                  case has taken its time limit
#   --seconds N    the time limit of a call: so much processor time, or by the clock where it only waits
#                  (default 60)
#   --only WORD    cases with this word in their names; any number of times
#   --list         only names the cases
# A case that one of them doesn't end in its time is shown so and left out of the means. It fails, and says
# why, where answers differ (status, standard output, and standard error unless both end at a limit), where
# one ends by a signal or with a status that no case has, and where no case could be compared. TVLA names a
# program in place of the built one.
set -u
cd "$(dirname "$0")/.." || exit 1
python3 -B - "$@" <<'END'
import argparse, filecmp, glob, math, os, shutil, subprocess, sys, tempfile, time

sys.path.insert(0, "bench")
from call import HAS_TIMER, measured, timed

ENOUGH = 0.1  # seconds of processor time after which a call isn't repeated in a turn
STATUSES = (0, 1, 4)  # done; rejected or stuck; a limit is met

asked = argparse.ArgumentParser(prog="bench/compare.sh")
asked.add_argument("other", nargs="?", default=os.environ.get("OTHER"), metavar="PROGRAM")
asked.add_argument("what", nargs="?", choices=["cases", "examples"], default="cases")
asked.add_argument("--times", type=int, default=5)
asked.add_argument("--seconds", type=int, default=60)
asked.add_argument("--only", action="append", default=[])
asked.add_argument("--list", action="store_true")
asked = asked.parse_args()


def of_cases():
    """The words of each case, and those that write its report, if there is one to be written."""
    subprocess.run([sys.executable, "-B", "bench/cases.py"], check=True)
    for file in sorted(glob.glob("bench/cases/*/words")):
        folder = os.path.dirname(file)
        by = f"{folder}/report_by"
        yield os.path.basename(folder), read_words(file), read_words(by) if os.path.exists(by) else None


def of_examples():
    for report in sorted(glob.glob("examples/*/report")):
        folder = os.path.dirname(report)
        for command, file in (("analyze", "program.tvp"), ("source", "program.src")):
            if os.path.exists(f"{folder}/{file}"):
                more = read_words(f"{folder}/options") if os.path.exists(f"{folder}/options") else []
                files = [f"{folder}/{file}", f"{folder}/initial.tvs"]
                yield os.path.basename(folder), [command, *files, *more], None


def read_words(file):
    with open(file, encoding="ascii") as lines:
        return lines.read().split()


def spent(command):
    """The processor time of one call, on average over some."""
    took, count = 0.0, 0
    while took < ENOUGH and count < 20:
        call = timed(command, asked.seconds)
        took, count = took + (math.inf if call.late else call.seconds), count + 1
    return took / count


def least(commands):
    """The least time of each command, and how many turns there were."""
    began, times, turns = time.monotonic(), [math.inf] * len(commands), 0
    while turns < asked.times and (not turns or time.monotonic() - began < asked.seconds):
        times = [min(known, spent(command)) for known, command in zip(times, commands)]
        turns += 1
    return times, turns


def answer(program, words, who):
    texts = (f"{scratch}/{who}.{file}" for file in ("out", "err"))
    return measured([program, *words], asked.seconds, f"{scratch}/note", *texts)


def fault(mine, theirs):
    """Why the two answers can't be compared, or in what they differ."""
    for who, call in (("ours", mine), ("the other", theirs)):
        if not call.late and call.code not in STATUSES:
            return f"{who} ended with {call.ended(asked.seconds)}"
    if mine.late or theirs.late:
        return None
    if mine.code != theirs.code:
        return f"the answers differ: {mine.ended(asked.seconds)} and {theirs.ended(asked.seconds)}"
    for file in ("out", "err") if mine.code != 4 else ("out",):
        if not filecmp.cmp(f"{scratch}/ours.{file}", f"{scratch}/other.{file}", shallow=False):
            return f"the answers differ in standard {'output' if file == 'out' else 'error'}"
    return None


def row(name, *columns):
    print(f"| `{name}` | " + " | ".join(columns) + " |", flush=True)


def told(call):
    return call.ended(asked.seconds) if call.late or call.code < 0 else f"{call.seconds:.3f}"


def compare(name, words, report_by):
    """Prints the row of a case; the ratios of time and memory, if the case counts."""
    if report_by:
        call = timed([other, *report_by], asked.seconds, f"bench/cases/{name}/report")
        if call.code or call.late:
            faults.append(f"{name}: the other wrote no report: {call.ended(asked.seconds)}")
            return None
    mine, theirs = answer(own, words, "ours"), answer(other, words, "other")
    why = fault(mine, theirs)
    if why:
        faults.append(f"{name}: {why}")
    if mine.late or theirs.late or why:
        row(name, told(mine), told(theirs), why or "left out", "", "", "")
        return None
    (ours, others), turns = least([[own, *words], [other, *words]])
    if math.inf in (ours, others):
        row(name, f"over {asked.seconds} s" if ours == math.inf else f"{ours:.3f}",
            f"over {asked.seconds} s" if others == math.inf else f"{others:.3f}", "left out", "", "", "")
        return None
    ratio = ours / others
    memory = mine.kilobytes / theirs.kilobytes if HAS_TIMER else None
    few = "" if turns == asked.times else f" ({turns} of {asked.times} turns)"
    known = [f"{mine.kilobytes:,}", f"{theirs.kilobytes:,}", f"{memory:.1f}"] if memory else ["-", "-", "-"]
    row(name, f"{ours:.3f}{few}", f"{others:.3f}", f"{ratio:.1f}", *known)
    return ratio, memory


def summed(name, ratios, tell):
    """A row of one number each for times and for memory."""
    times, memory = [time for time, _ in ratios], [memory for _, memory in ratios if memory]
    print(f"| {name} | | | {tell(times):.1f} | | | {format(tell(memory), '.1f') if memory else '-'} |")


def mean(ratios):
    return math.exp(sum(map(math.log, ratios)) / len(ratios))


cases = [case for case in (of_cases if asked.what == "cases" else of_examples)()
         if not asked.only or any(word in case[0] for word in asked.only)]
if asked.list:
    print(*(name for name, _, _ in cases), sep="\n")
    sys.exit(0)
own = os.environ.get("TVLA") or os.path.abspath("crates/tvla/out/tvla")
if not os.access(own, os.X_OK):
    print("skip: no built program")
    sys.exit(0)
other = asked.other and (shutil.which(asked.other) or asked.other)
if not other or not os.access(other, os.X_OK):
    asked.other or sys.exit("the other program? (the first word, or OTHER)")
    sys.exit(f"{asked.other} can't be run")
own, other = os.path.abspath(own), os.path.abspath(other)
scratch = tempfile.mkdtemp(prefix="compare-")
faults, counted = [], []
try:
    print("| Case | Ours, s | Other, s | Time | Ours, KB | Other, KB | Memory |", flush=True)
    print("|---|---|---|---|---|---|---|", flush=True)
    counted = [(case[0], ratios) for case in cases if (ratios := compare(*case))]
    if counted:
        ratios = [ratios for _, ratios in counted]
        summed("geometric mean", ratios, mean)
        summed("worst", ratios, max)
finally:
    shutil.rmtree(scratch)
print(f"{len(counted)} of {len(cases)} cases count")
for which, at in (("time", 0), ("memory", 1)):
    known = [(ratios[at], name) for name, ratios in counted if ratios[at]]
    if known:
        print(f"worst {which}: {max(known)[1]}, {max(known)[0]:.1f}")
if faults or not counted:
    print("FAILED:", *faults or ["no case could be compared"], sep="\n  ")
    sys.exit(1)
END
