#!/usr/bin/env bash
# bench/refuse.sh [flip] [check] [demo] [list] [join] [maps]: refused memory. The built program analyzes the flip and a
# list, makes up a program and joins the list, and checks the reports of the flip and of the list, with the first growth
# refused, then with the second, and so on until none is: each call has to end for lack of memory or as it does with
# enough, with the texts of that. STEP=N tries every Nth growth alone. A growth that is refused where words, files or
# sinks of the operating system are asked may also end as a faulty command line, a read fault or a write fault. A C
# compiler makes the library that refuses ($CC, or cc).
set -u
cd "$(dirname "$0")/.." || exit 1
own="${TVLA:-$PWD/crates/tvla/out/tvla}"
[ -x "$own" ] || { echo "skip: no built program"; exit 0; }
folder="$(mktemp -d)"
trap 'rm -rf "$folder"' EXIT
cat >"$folder/refuse.c" <<'END'
#include <errno.h>
#include <fcntl.h>
#include <stdlib.h>
#include <unistd.h>

extern void *__libc_malloc(size_t), *__libc_calloc(size_t, size_t), *__libc_realloc(void *, size_t);
extern void *__libc_memalign(size_t, size_t);

/* The number of the growth to be refused; what is left until then. */
static long left;
static int begun;

static int refuses(void) {
    if (!begun) {
        begun = 1;
        char *at = getenv("REFUSE");
        left = at ? atol(at) : 0;
    }
    if (left == 0 || --left > 0) return 0;
    close(creat(getenv("REFUSED"), 0600));
    errno = ENOMEM;
    return 1;
}

void *malloc(size_t n) { return refuses() ? NULL : __libc_malloc(n); }
void *calloc(size_t k, size_t n) { return refuses() ? NULL : __libc_calloc(k, n); }
void *realloc(void *p, size_t n) { return refuses() ? NULL : __libc_realloc(p, n); }
void *memalign(size_t a, size_t n) { return refuses() ? NULL : __libc_memalign(a, n); }
void *aligned_alloc(size_t a, size_t n) { return memalign(a, n); }
int posix_memalign(void **p, size_t a, size_t n) { return (*p = memalign(a, n)) ? 0 : ENOMEM; }
END
"${CC:-cc}" -O1 -fno-builtin -shared -fPIC -o "$folder/refuse.so" "$folder/refuse.c" || exit 1
python3 - "$own" "$folder" "${STEP:-1}" "$@" <<'END'
import collections, os, subprocess, sys

own, folder, step, *wanted = sys.argv[1:]
FAULTS = {2: b"usage: tvla ", 5: b"tvla: read fault\n", 6: b"tvla: write fault\n"}
flip = ["examples/flip.tvp", "examples/flip.tvs"]
list_ = ["examples/list_traverse/program.tvp", "examples/list_traverse/initial.tvs"]


def run(words, k=0):
    told = folder + "/told"
    if os.path.exists(told):
        os.remove(told)
    env = {"LD_PRELOAD": folder + "/refuse.so", "REFUSE": str(k), "REFUSED": told}
    ended = subprocess.run([own, *words], capture_output=True, env=env, timeout=600)
    return (ended.returncode, ended.stdout, ended.stderr), os.path.exists(told)


bad = 0
with open(folder + "/report", "wb") as file:
    file.write(run(["analyze", *flip])[0][1])
for name, words in [("flip", ["analyze", *flip]), ("check", ["check", *flip, folder + "/report"]),
                    ("demo", ["demo", "2"]), ("list", ["analyze", *list_]), ("join", ["join", *list_]),
                    ("maps", ["check", *list_, "examples/list_traverse/report", "--maps"])]:
    if wanted and name not in wanted:
        continue
    whole, _ = run(words)
    endings, k = collections.Counter(), 1 - int(step)
    while True:
        k += int(step)
        found, refused = run(words, k)
        if not refused:
            break
        code, out, err = found
        if found == (7, b"", b"tvla: out of memory\n"):
            endings["out of memory"] += 1
        elif found == whole:
            endings["as with enough"] += 1
        elif code in FAULTS and whole[1].startswith(out) and err.startswith(FAULTS[code][: len(err)]):
            endings[err.decode().split("\n")[0]] += 1
        else:
            bad += 1
            endings["WRONG"] += 1
            print(f"{name}: growth {k}: status {code}, {out[:60]!r}, {err[:60]!r}")
    print(f"{name}: {endings.total()} of some {k - 1} growths refused, one at a time: "
          + ", ".join(f"{n} {how!r}" for how, n in endings.most_common()), flush=True)
    if found != whole:
        bad += 1
        print(f"{name}: without a refusal it ends otherwise")
sys.exit(1 if bad else 0)
END
