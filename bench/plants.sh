#!/usr/bin/env bash
# Tries planted bodies: bench/plants.sh [--dry] [--crate NAME] [LIST..] (without a LIST: all of bench/plants/*.jsonl). Each line of a list is
# an edit of one source: its crate, its file, the text that stands there once (`old`), what stands there instead (`new`), what is expected
# (`refused`, `accepted`: the contracts let it through, as it means the same or promises no more, or `maybe`) and why. Each is laid into a copy of
# the crate, which is checked whole; told is each that comes out otherwise, and each that the contracts let through. --dry proves
# nothing: it says which `old` text doesn't stand once in its file. It ends with 1 where something comes out otherwise than expected.
set -u
. "$(dirname "$0")/scratch.sh"
dry='' named=''
while [ "$#" -gt 0 ]; do
  case "$1" in
    --dry) dry=1; shift ;;
    --crate) named="${2:?}"; shift 2 ;;
    -*) echo "usage: bench/plants.sh [--dry] [--crate NAME] [LIST..]" >&2; exit 64 ;;
    *) break ;;
  esac
done
lists=("$@")
[ "$#" -gt 0 ] || lists=(bench/plants/*.jsonl)
if [ -z "$dry" ]; then
  cp -r crates.txt HANDLES crates "$scratch"
  rm -rf "$scratch"/crates/*/must-fail
fi
python3 - "$scratch" "$dry" "$named" "${lists[@]}" <<'PYTHON'
import collections, json, os, subprocess, sys

room, dry, named, *lists = sys.argv[1:]
counts, strange = collections.Counter(), 0

def outcome(plant, path, text):
    """What the check of the crate says of the plant, and the line that says why."""
    with open(path, "w", encoding="utf-8") as file:
        file.write(text.replace(plant["old"], plant["new"]))
    ran = subprocess.run(["rt", "check", plant["crate"]], cwd=room, stdout=subprocess.PIPE, stderr=subprocess.STDOUT, text=True)
    with open(path, "w", encoding="utf-8") as file:
        file.write(text)
    lines = ran.stdout.rstrip().split("\n")
    if ran.returncode == 0:
        return "accepted", ""
    first = next((line for line in lines if ": error" in line), lines[0])
    return "refused" if lines[-1].startswith("logic=not-proved") else "not tried", first[:200]

for name in lists:
    for number, line in enumerate(open(name, encoding="utf-8"), 1):
        plant = json.loads(line)
        if named not in ("", plant["crate"]):
            continue
        path = os.path.join("" if dry else room, "crates", plant["crate"], plant["file"])
        text = open(path, encoding="utf-8").read() if os.path.isfile(path) else ""
        if text.count(plant["old"]) != 1:
            found, why = "not tried", f"its text stands {text.count(plant['old'])} times in {path}"
        else:
            found, why = ("standing", "") if dry else outcome(plant, path, text)
        counts[found] += 1
        is_strange = found == "not tried" or found != plant["expected"] != "maybe" and not dry
        strange += is_strange
        if is_strange or found == "accepted":
            print(f"{name}:{number}: {plant['crate']} {plant['file']}: {found}{'' if dry else ', expected ' + plant['expected']}: {why or plant['why']}", flush=True)
print(", ".join(f"{count} {found}" for found, count in sorted(counts.items())) + f"; {strange} otherwise than expected")
sys.exit(strange > 0)
PYTHON
