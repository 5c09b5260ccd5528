#!/usr/bin/env bash
# bench/fuzz.sh MINUTES [OTHER]: changes tokens and bytes of the texts of examples, and makes texts that are
# deep or wide (bench/texts.py: chains of definitions, formulas, many actions, replays of many steps, nested
# blocks), of which some are changed too; runs the built program on them for so many minutes, with each
# command that it has but `demo`, with one megabyte of stack. It stops at a signal, a status that the program
# hasn't, ten seconds of processor time or two gigabytes, tells the words and keeps the texts. With OTHER, a
# program with the same words, it also stops where status or texts differ, unless both end at a limit or one
# ends for lack of memory, and where a text takes over ten times as long and over 2 s. SEED=N begins
# elsewhere; GO_ON=1 goes on behind what it finds; MADE=N makes N per cent of the texts (default 30). TVLA
# names a program in place of the built one.
set -u
cd "$(dirname "$0")/.." || exit 1
own="${TVLA:-$PWD/crates/tvla/out/tvla}"
[ -x "$own" ] || { echo "skip: no built program"; exit 0; }
python3 -B - "$own" "${1:?how many minutes}" "${2:-}" "${SEED:-1}" "${GO_ON:-}" "${MADE:-30}" <<'END'
import collections, glob, os, random, re, resource, shutil, signal, sys, tempfile, time

sys.path.insert(0, "bench")
from texts import some_text

own, minutes, other, seed, go_on, made = sys.argv[1:]
SECONDS, KILOBYTES, STACK = 10, 2_000_000, 1_024
FACTOR, ENOUGH = 10, 2.0  # so many times the other's time, or so many seconds, are no fault
STATUSES = range(8)
TOKEN = re.compile(rb'"[^"\n]*"|%%|%[A-Za-z]+|1/2|\w+|==>|<->|->|==|!=|/\*.*?\*/|//[^\n]*|\s+|.', re.S)
EXTRA = rb"""%p %i %r %s %new %retain %f %t %message %action %% foreach in E A TC 0 1 1/2 ( ) { } [ ] , : +
- * = ! & | ? ==> <-> -> == != "x" " /* */ // # isNew sm unique function invfunction transitive reflexive
symmetric abs nonabs box pointer node structures map initial edge to end message tvla report 2 4294967295
4294967296 65536 256 257 00 v v_1 v_2 L1 L2 step free vars fields while if else
null""".split() + [b"\0", b"\xff"]


def read(name):
    with open(name, "rb") as file:
        return file.read()


def whole(name):
    """A program with its includes put in."""
    put = lambda found: whole(os.path.join(os.path.dirname(name), found[1].decode()))
    return re.sub(rb'(?m)^\s*#\s*include\s*"([^"\n]*)"\s*$', put, read(name))


def shown(command):
    """The texts of each call of the command that the examples tell of, in the order of its words."""
    for told in sorted(glob.glob("examples/*/README.md")):
        for line in re.findall(rf"\./tvla {command} ([^\n`]*)", read(told).decode()):
            names = [word for word in line.split() if os.path.exists(word)]
            yield [(whole if name.endswith(".tvp") else read)(name) for name in names]


cases = collections.defaultdict(list)
for program in sorted(glob.glob("examples/*/program.tvp") + glob.glob("examples/*.tvp")):
    folder = os.path.dirname(program)
    initial, report = program[:-3] + "tvs", folder + "/report"
    initial = folder + "/initial.tvs" if program.endswith("program.tvp") else initial
    if os.path.exists(initial):
        texts = [whole(program), read(initial)]
        cases["analyze"].append(texts)
        cases["join"].append(texts)
        cases["check"].append([*texts, read(report) if os.path.exists(report) else b"tvla report 2 end"])
for command in ("replay", "source"):
    cases[command] = list(shown(command))
known = [text for of_command in cases.values() for case in of_command for text in case]
pool = EXTRA * 5 + [t for text in known for t in set(TOKEN.findall(text)) if t.strip()]
# The names of the files of a command's texts, in the order of its words; which texts are changed; how often a
# command is taken.
FILES = {"analyze": "pi", "join": "pi", "check": "pir", "replay": "pistr", "source": "pi"}
CHANGED = {"check": [[0], [0], [1], [2], [0, 1]], "replay": [[0], [1], [2], [2], [3], [3], [4], [2, 3]]}
OFTEN = {"analyze": 3, "check": 4, "join": 1, "replay": 2, "source": 2}


def changed_tokens(rng, text):
    tokens = TOKEN.findall(text)
    for _ in range(1 + int(rng.expovariate(0.7))):
        at = rng.randrange(len(tokens) + 1)
        how = rng.randrange(7)
        if how == 0:
            tokens.insert(at, rng.choice(pool) + rng.choice([b"", b" "]))
        elif how == 1:
            del tokens[at : at + 1 + int(rng.expovariate(0.5))]
        elif how == 2 and tokens:
            tokens[at % len(tokens)] = rng.choice(pool)
        elif how == 3 and tokens:
            tokens[at % len(tokens)] = rng.choice(tokens)
        elif how == 4 and tokens:
            i, j = at % len(tokens), rng.randrange(len(tokens))
            tokens[i], tokens[j] = tokens[j], tokens[i]
        elif how == 5:
            end = at + 1 + int(rng.expovariate(0.1))
            tokens[at:at] = tokens[at:end] * rng.choice([1, 1, 2, 20])
        elif how == 6 and tokens:
            # another token of the same spelling class, so that most texts stay programs
            i = at % len(tokens)
            if re.fullmatch(rb"\w+", tokens[i]):
                tokens[i] = rng.choice([t for t in tokens if re.fullmatch(rb"\w+", t)])
    return b"".join(tokens)


SAME = [[b"E", b"A"], [b"&", b"|", b"->", b"<->"], [b"0", b"1", b"1/2"], [b"==", b"!="], [b"*", b"+"],
        [b"%i", b"%p"], [b"unique", b"abs", b"nonabs"],
        [b"function", b"invfunction", b"transitive", b"reflexive", b"symmetric"]]


def changed_kin(rng, text):
    """A token becomes one of its kind, or one that stands between the same neighbours: most texts keep a
    meaning."""
    tokens = [t for t in TOKEN.findall(text) if t.strip() and t[:2] not in (b"//", b"/*")]
    for _ in range(1 + int(rng.expovariate(0.7))):
        i = rng.randrange(1, max(2, len(tokens) - 1))
        if i + 1 >= len(tokens):
            break
        kin = [t for group in SAME if tokens[i] in group for t in group]
        kin = kin or [tokens[j] for j in range(1, len(tokens) - 1)
                      if tokens[j - 1] == tokens[i - 1] and tokens[j + 1] == tokens[i + 1]]
        tokens[i] = rng.choice(kin)
        if rng.random() < 0.1:
            tokens.insert(i, b"!")
    return b" ".join(tokens)


def changed_bytes(rng, text):
    out = bytearray(text)
    for _ in range(1 + int(rng.expovariate(0.7))):
        at = rng.randrange(len(out) + 1)
        how = rng.randrange(5)
        if how == 0:
            out[at:at] = bytes([rng.randrange(256)])
        elif how == 1:
            del out[at : at + 1 + int(rng.expovariate(0.1))]
        elif how == 2 and out:
            out[at % len(out)] ^= 1 << rng.randrange(8)
        elif how == 3:
            out[at:at] = out[at : at + 1 + int(rng.expovariate(0.02))]
        elif how == 4:
            del out[at:]
    return bytes(out)


def changed(rng, text):
    return rng.choice([changed_kin] * 6 + [changed_tokens] * 3 + [changed_bytes])(rng, text)


def run(program, words, folder, stack=None):
    """Status, out, err, seconds of processor time and kilobytes; a status below 0 is a signal. A program that
    waits for something is ended by the clock."""
    files = [os.open(f"{folder}/{name}", os.O_RDWR | os.O_CREAT | os.O_TRUNC) for name in ("out", "err")]
    child = os.fork()
    if not child:
        os.dup2(files[0], 1)
        os.dup2(files[1], 2)
        os.chdir(folder)
        resource.setrlimit(resource.RLIMIT_CPU, (SECONDS + 1, SECONDS + 2))
        resource.setrlimit(resource.RLIMIT_CORE, (0, 0))
        if stack:
            most = resource.getrlimit(resource.RLIMIT_STACK)[1]
            resource.setrlimit(resource.RLIMIT_STACK, (stack * 1024, most))
        os.execv(program, [program] + words)
    signal.signal(signal.SIGALRM, lambda *_: os.kill(child, signal.SIGKILL))
    signal.alarm(60 * SECONDS)
    _, ended, used = os.wait4(child, 0)
    signal.alarm(0)
    texts = []
    for file in files:
        os.lseek(file, 0, 0)
        texts.append(b"".join(iter(lambda: os.read(file, 1 << 20), b"")))
        os.close(file)
    return os.waitstatus_to_exitcode(ended), *texts, used.ru_utime + used.ru_stime, used.ru_maxrss


def differ(mine, theirs):
    if 7 in (mine[0], theirs[0]):
        return False
    if mine[0] == theirs[0] == 4:
        # of several limits that are met any may be told
        return False
    return mine[:3] != theirs[:3]


os.nice(19)
own, other = os.path.abspath(own), other and os.path.abspath(other)
folder = tempfile.mkdtemp(prefix="fuzz-")
usage = run(own, [], folder)[2].decode()
has_delta = "--delta" in usage
commands = [name for name, often in OFTEN.items() if f"tvla {name} " in usage and cases[name]
            for _ in range(often)]


def changed_call(rng):
    """A call on texts of an example, some of which are changed."""
    command = rng.choice(commands)
    texts = list(rng.choice(cases[command]))
    if rng.random() < 0.15:
        which = rng.randrange(len(texts))
        texts[which] = rng.choice(cases[command])[which] if rng.random() < 0.8 else rng.choice(known)
    for which in rng.choice(CHANGED.get(command, [[0], [0], [0], [1], [0, 1]])):
        texts[which] = changed(rng, texts[which])
    words = [command, *FILES[command]]
    if command in ("analyze", "join", "source"):
        words += ["--max-structures", rng.choice(["1", "20", "200"])]
    if command in ("analyze", "check", "join"):
        words += rng.choice([[], [], ["--recompute"], ["--delta"] if has_delta and command != "join" else []])
    if command == "check" and rng.random() < 0.3:
        words.append("--maps")
    return words, dict(zip(FILES[command], texts))


def made_call(rng):
    """A call on texts that are made, deep or wide, of which some are changed."""
    words, files = some_text(rng)
    while words[0] not in commands or ("--delta" in words and not has_delta):
        words, files = some_text(rng)
    files = {name: text.encode("ascii") for name, text in files.items()}
    if rng.random() < 0.2:
        name = rng.choice(list(files))
        files[name] = changed(rng, files[name])
    return words, files


began, n, found, slowest, largest = time.time(), int(seed), 0, 0, 0
statuses, calls = collections.Counter(), collections.Counter()
kept = None
while time.time() - began < 60 * float(minutes):
    n += 1
    rng = random.Random(n)
    words, files = made_call(rng) if rng.random() * 100 < float(made) else changed_call(rng)
    for name, text in files.items():
        with open(f"{folder}/{name}", "wb") as file:
            file.write(text)
    command = words[0]
    mine = run(own, words, folder, STACK)
    statuses[mine[0]] += 1
    calls[command] += 1
    slowest, largest = max(slowest, mine[3]), max(largest, mine[4])
    why = None
    if mine[3] > SECONDS or mine[0] == -signal.SIGXCPU:
        why = f"took {mine[3]:.1f} seconds"
    elif mine[0] < 0:
        why = f"ended by signal {-mine[0]}"
    elif mine[0] not in STATUSES:
        why = f"ended with status {mine[0]}"
    elif mine[4] > KILOBYTES:
        why = f"took {mine[4] // 1000} megabytes"
    elif other:
        theirs = run(other, words, folder)
        if theirs[0] >= 0 and differ(mine, theirs):
            why = f"differs: status {mine[0]} and {theirs[0]}, {mine[2][:80]!r} and {theirs[2][:80]!r}"
        elif theirs[0] >= 0 and mine[3] > max(ENOUGH, FACTOR * theirs[3]):
            why = f"took {mine[3]:.1f} seconds, the other {theirs[3]:.2f}"
    if why:
        found += 1
        kept = f"{folder}-{n}"
        shutil.copytree(folder, kept)
        print(f"SEED={n - 1}: {' '.join(words)} in {kept}: {why}", flush=True)
        if not go_on or found >= 50:
            break
shutil.rmtree(folder)
print(f"{calls.total()} calls, {found} found; {dict(calls)}; by status: {dict(sorted(statuses.items()))}; "
      f"slowest {slowest:.1f} s, largest {largest // 1000} MB")
sys.exit(1 if found else 0)
END
