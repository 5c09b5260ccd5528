#!/usr/bin/env bash
# bench/limits.sh [OPTION..] [WORD..]: the deepest and widest texts of each kind through the built program,
# which has a stack of one megabyte: a row each with the bytes of the text, how the call ended, processor time
# and the peak of memory (where GNU time stands). With words, only the rows that have one of them in their
# names.
#   --seconds N    the limit of a call: so much processor time, or by the clock where it only waits (default
#                  30)
#   --megabytes N  the limit of its address space (default 6000)
#   --stack N      kilobytes of stack (default 1024)
#   --tenths       has a tenth of each text run too, and tells the time as a multiple of it
#   --other NAME   runs another program with the same words (else the one that OTHER names), with the stack
#                  that a call has here, and tells its time; what takes over ten times that and over 2 s
#                  fails, and so do other answers. Beside a call of tvla-explain stands analyze of the same
#                  texts, of which it may take five times the time
#   --list         only names the rows
# It fails where a signal ends the program, where a limit is passed, and where a call ends otherwise than a
# row says. TVLA names a program in place of the built one, and TVLA_EXPLAIN one in place of tvla-explain, which
# some rows run, alone; where it isn't built, they are left out.
set -u
cd "$(dirname "$0")/.." || exit 1
python3 -B - "$@" <<'END'
import argparse, filecmp, os, shutil, sys, tempfile

sys.path.insert(0, "bench")
import texts
from call import measured
from texts import (BLOCKS, DEEP, DEEPEST, EMPTY, HIGHER, ONE, PLACES, TAIL, analyze, chain, check, deep, fill,
                   individuals, names_apart, replay, source)

MIB4, MIB64 = 4_194_304, 67_108_864
EXPLAIN = "tvla-explain: "  # the rows of this program, beside which analyze is run
FACTOR, ENOUGH = 10, 2.0  # so many times the other's time, or so many seconds, are no fault
TIMES_ANALYZE = 5  # so many times the time of analyze are none for tvla-explain
ROWS = []


def row(name, size, ends="status 0", tenth=None):
    """A row is a function from a size to a text: the words, and the files by their names."""
    def keep(make):
        ROWS.append((name, make, size, ends, tenth or max(1, size // 10)))
        return make
    return keep


# ---- definitions that rest on each other, differencing, many actions ----

for count in (41, 511):
    for upwards in (True, False):
        order = "" if upwards else ", the last one declared first"
        row(f"{count} definitions, each 198 times ! the one before{order}, --delta", count)(
            lambda size, upwards=upwards: texts.negations(size, 198, upwards))
row("511 definitions, each 198 times ! the one before", 511)(lambda size: texts.negations(size, 198, mode=""))
row("the same, --recompute", 511)(lambda size: texts.negations(size, 198, mode="--recompute"))
for count in (10, 100):
    row(f"{count} definitions of 100 atoms of the one before, --delta", count)(
        lambda size: texts.many_atoms(size, 100))
row("100 definitions of 150 atoms of the one before, --delta", 100)(lambda size: texts.many_atoms(size, 150))
row("100 definitions of 100 atoms of the one before", 100)(lambda size: texts.many_atoms(size, 100, mode=""))
for name, body in (("<->", "{0}() <-> {0}() & b()"), ("conditionals", "{0}() ? !{0}() : {0}() & c()"),
                   ("& and |", "{0}() & b() | {0}() & !b()"), ("one way", "{0}() & c() <-> b()")):
    row(f"updates that grow up to 65,536 nodes and over it: 12 definitions, {name}, --delta", 12)(
        lambda size, body=body: texts.doubled(size, 1, body))
row("the same in 100 actions", 100)(lambda size: texts.doubled(8, size))
row("updates of many sizes up to 65,536 nodes: 10 definitions, <->, and their pairs", 10)(texts.spread)
for nodes in (1, 20, 60):
    row(f"511 definitions of {nodes} nodes that rest on the next one, 16,384 empty actions", 16_384)(
        lambda size, nodes=nodes: analyze(texts.with_actions(texts.resting(511, nodes), size)))
row("the same with 20 nodes, --delta", 16_384)(
    lambda size: analyze(texts.with_actions(texts.resting(511, 20), size), EMPTY, "--delta"))
row("the same with 20 nodes and 1,638 actions that turn what the definitions rest on", 1_638)(
    lambda size: analyze(texts.with_actions(texts.resting(511, 20), size, " { b() = !b() } ")))
for count in (1_000, 10_000):
    row(f"replay: {count:,} steps of 511 definitions of 20 nodes and 16,384 actions", count)(
        lambda size: texts.steps(texts.resting(511, 20), 16_384, size))
row("512 definitions in a circle", 512, "program: DefinitionCycle")(texts.circle)
row("511 definitions, each of the 190 before it", 511)(lambda size: analyze(texts.fan(size, 190) + TAIL))
row("the same, --delta, by an action that turns what they rest on", 511)(
    lambda size: analyze(texts.fan(size, 190) + texts.TURN, EMPTY, "--delta"))


@row("500 definitions of 100 atoms and a closure over the next one, --delta, 100 actions", 500)
def _(count):
    preds = "%p c()\n%p b()\n%p n(v, w)\n"
    for k in range(count):
        under = f"d{k + 1}()" if k + 1 < count else "b()"
        preds += f"%i d{k}() = " + "c() | " * 100 + f"(E(v) TC(v, v)(x, y) {under})\n"
    edges = "".join(f"L T(x{k}) M\n" for k in range(100))
    return analyze(preds + "%%\n%action T(x) { { b() = !b() } }\n%%\n" + edges, EMPTY, "--delta")


def in_branches(levels, times, leaf, path=""):
    """So many files, each of which includes the next one so often; the first by a path."""
    names = [f"f{k}" for k in range(levels)]
    files = {"p": f'#include "{path}f0"\n' + TAIL, "i": EMPTY, f"f{levels}": leaf}
    for name, inner in zip(names, [*names[1:], f"f{levels}"]):
        files[name] = f'#include "{inner}"\n' * times
    return ["analyze", "p", "i"], files


row("program: eight files, each of which includes the next one five times", 5, tenth=4)(
    lambda size: in_branches(8, size, ""))
row("program: 13 files, each of which includes the next one twice, by a path of 3,900 bytes", 13, tenth=10)(
    lambda size: in_branches(size, 2, " ", "./" * 1_950))


@row("a rule of 32 variables along a chain of 250 individuals", 32, tenth=4)
def _(count):
    names = [f"z{k}" for k in range(count)]
    body = " & ".join(f"n({a}, {b})" for a, b in zip(names, names[1:]))
    preds = "%p n(v, w) function\n%p x(v)\n" + "".join(f"%p a{k}(v)\n" for k in range(8))
    return analyze(preds + f"%r x({names[0]}) & {body} ==> !x({names[-1]})\n" + TAIL,
                   chain(250, "x = {u0} " + names_apart(250, 8)))


@row("a caption of 8,000 pieces at 400 edges, each with a word of 100 bytes", 8_000)
def _(pieces):
    edges = "".join("L F(" + f"w{k}".ljust(100, "_") + ") L\n" for k in range(400))
    return analyze("%%\n%action F(a) { %t " + "+".join(["a"] * pieces) + " }\n%%\n" + edges)


@row("32 picked variables, one individual", 32, tenth=4)
def _(count):
    pre = " & ".join(f"x(z{k})" for k in range(count))
    initial = "%n = {u} %p = { x = {u} }"
    return analyze("%p x(v)\n%%\n%action F() { %p " + pre + " }\n%%\nL F() M\n", initial)


@row("focus on 250 individuals, of which seven are unknown", 250)
def _(count):
    preds = "".join(f"%p a{k}(v)\n" for k in range(8)) + "%p x(v)\n"
    unknown = ", ".join(f"u{u}:1/2" for u in range(0, min(count, 7)))
    text = "%%\n%action F() { %f { x(v) } }\n%%\nL F() M\n"
    initial = "%n = {" + individuals(count) + "} %p = { x = {" + unknown + "} " + names_apart(count, 8) + "}"
    return analyze(preds + text, initial)


@row("focus: more choices than a stage may have", 200, "too many splits")
def _(count):
    preds = "".join(f"%p a{k}(v)\n" for k in range(8)) + "%p x(v)\n"
    unknown = ", ".join(f"u{u}:1/2" for u in range(count))
    text = "%%\n%action F() { %f { x(v) } }\n%%\nL F() M\n"
    initial = "%n = {" + individuals(count) + "} %p = { x = {" + unknown + "} " + names_apart(count, 8) + "}"
    return analyze(preds + text, initial)


@row("check: an embedding of 250 individuals along a chain", 250)
def _(count):
    preds = "%p n(v, w) function\n%p x(v)\n" + "".join(f"%p a{k}(v)\n" for k in range(8))
    # but for a0, of which the report knows nothing, so that each individual has two images that are alike
    unknown = "a0 = {" + ", ".join(f"u{u}:1/2" for u in range(count)) + "}"
    initial = chain(count, "x = {u0} " + names_apart(count, 8))
    listed = chain(count, "x = {u0} " + names_apart(count, 8) + unknown)
    halves = " ".join(f"{name} = {{s:1/2}}" for name in ["x", "sm", *(f"a{k}" for k in range(8))])
    all_in_one = "%n = {s} %p = { n = {s->s:1/2} " + halves + " }"
    report = f"tvla report 2 node L structures 1 {listed} node M structures 1 {all_in_one} end"
    return check(preds + TAIL.replace("Skip() L", "Skip() M"), initial, report)


row("check --maps: the same", 250)(lambda size: (["check", "p", "i", "r", "--maps"], ROWS_BY_NAME[
    "check: an embedding of 250 individuals along a chain"](size)[1]))


@row("check: 10,000 structures with unknown flags at different places", 10_000)
def _(count):
    bits = (count - 1).bit_length()
    preds = "".join(f"%p f{k}()\n" for k in range(2 * bits)) + "%p g()\n"
    text = preds + "%%\n%action F() { { g() = !g() } }\n%%\nL F() M\n"

    def structures(more):
        """Of each pair of flags one is unknown, by a bit of the structure's number."""
        flags = (" ".join(f"f{2 * k + (n >> k & 1)} = 1/2" for k in range(bits)) for n in range(count))
        return "".join("%n = {} %p = { " + unknown + more + " }\n" for unknown in flags)

    report = f"node L structures {count}\n{structures('')}node M structures {count}\n{structures(' g = 1/2')}"
    return check(text, "", "tvla report 2\n" + report + "end\n")


# ---- width ----

row("program: one-letter tokens (words behind the edges)", MIB4)(
    lambda size: analyze(fill(size, lambda n: ",a", TAIL + "%%\na")))
row("program: one-letter tokens that are no program", MIB4, "program: Syntax at 1:1")(
    lambda size: analyze(fill(size, lambda n: "a ")))
row("program: a comment", MIB4)(lambda size: analyze(TAIL + "/*" + "*" * (size - len(TAIL) - 4) + "*/"))
TEN_ATOMS = "%r " + "&".join(["p(v)"] * 10) + "==>q(v)\n"
row("program: 50,000 rules of ten atoms, 1,000,000 formula nodes", 50_000)(
    lambda size: analyze("%p p(v)\n%p q(v)\n" + TEN_ATOMS * size + TAIL))
UNKNOWN = "%n = {" + individuals(8) + "} %p = { p = {" + ", ".join(f"u{u}:1/2" for u in range(8)) + "} }"
row("program: 50,000 rules of ten atoms, tried on 8 individuals", 50_000)(
    lambda size: analyze("%p p(v)\n%p q(v)\n" + TEN_ATOMS * size + TAIL, UNKNOWN))
row("program: 65,000 predicates of 64 bytes (too many)", 65_000, "program: TooMany")(
    lambda size: analyze("".join(f"%p p{n:056}()\n" for n in range(size)) + TAIL))
row("program: 512 predicates, names of 8,000 bytes", 8_000)(
    lambda size: analyze("".join(f"%p p{n:0{size}}()\n" for n in range(512)) + TAIL))
row("program: a name of 500,000 words in brackets", 500_000)(
    lambda size: analyze("%p p[a" + ",a" * size + "]()\n" + TAIL))
row("program: actions that no edge names", MIB4)(
    lambda size: analyze(fill(size, lambda n: f"%action a{n}(){{}}\n", "%%\n", TAIL[3:])))
row("program: 16,000 edges between 4,000 nodes, each with an action of its own", 16_000)(
    lambda size: analyze("%%\n" + "".join(f"%action a{n}() {{ }}\n" for n in range(size)) + "%%\n"
                         + "".join(f"L{n % 4000} a{n}() L{(n + 1) % 4000}\n" for n in range(size))))
row("program: edges (too many items)", MIB4, "program: TooManyItems")(
    lambda size: analyze(fill(size, lambda n: "L S() L\n", "%%\n%action S() { }\n%%\n")))
row("program: an action of 200,000 parameters", 200_000)(
    lambda size: analyze("%%\n%action F(" + ", ".join(f"q{n}" for n in range(size)) + ") { }\n%%\nL F("
                         + ", ".join(["x"] * size) + ") L\n"))
row("program: an action of 60,000 messages", 60_000)(
    lambda size: analyze("%p b()\n%%\n%action F() { " + '%message b() -> "m" ' * size + "}\n%%\nL F() M\n"))
row("program: an action of 60,000 focus formulas", 60_000)(
    lambda size: analyze("%p b()\n%%\n%action F() { %f { b()" + ", b()" * (size - 1) + " } }\n%%\nL F() M\n"))
row("program: members of one set", MIB4)(
    lambda size: analyze(fill(size, lambda n: f",m{n}", "%s S {a", "}\n" + TAIL)))
row("program: 60,000 members, each with a rule", 60_000)(
    lambda size: analyze("%s S {" + ", ".join(f"m{n}" for n in range(size)) + "}\n"
                         + "foreach (m in S) { %r 0 ==> 0 }\n" + TAIL))


@row("one node with 13 edges, each of which turns one of 13 flags, the last ones of eight words of 64", 13, tenth=9)
def _(count):
    flags = [64 * word + 63 - down for down in range(64) for word in range(8)][:count]
    preds = "%s F {" + ", ".join(f"f{k}" for k in range(512)) + "}\nforeach (f in F) { %p f() }\n"
    edges = "".join(f"L Turn(f{k}) L\n" for k in flags)
    text = preds + "%%\n%action Turn(b) { { b() = !b() } }\n%%\n" + edges
    return analyze(text, EMPTY, "--max-structures", "10000")


def closures_asked(size, times, more):
    """A precondition that asks so many closures of each two individuals, all over nothing around them."""
    names = "".join(f"%p b{k}()\n" for k in range(times)) + "%p c()\n%p n(v, w)\n%p z(v, w)\n"
    names += "".join(f"%p a{k}(v)\n" for k in range(8))
    asked = "".join(f"(TC(v, w)(a, b) n(a, b) & {more}!b{k}()) & " for k in range(times))
    pre = "E(u) E(v) E(w) " + asked + "(z(v, w) & z(w, v) | z(u, v) & z(v, u))"
    text = names + "%%\n%action See() { %p " + pre + " }\n%%\nL See() M\n"
    return analyze(text, chain(size, "c = 1 " + names_apart(size, 8)))


row("12 closures in a precondition, 256 individuals", 256, tenth=80)(
    lambda size: closures_asked(size, 12, ""))
row("8 closures in a precondition with bodies of 150 nodes that differ in the last one, 256 individuals", 256,
    tenth=80)(lambda size: closures_asked(size, 8, "c() & " * 150))


@row("focus on 8 flags, 490 fields of 256 individuals", 490)
def _(fields):
    preds = "%s M {" + ", ".join(f"m{k}" for k in range(fields)) + "}\nforeach (m in M) { %p m(v, w) }\n"
    preds += "".join(f"%p b{k}()\n" for k in range(8)) + "".join(f"%p a{k}(v)\n" for k in range(8))
    focus = " & ".join(f"b{k}()" for k in range(8))
    text = preds + "%%\n%action See() { %f { " + focus + " } %p 0 }\n%%\nL See() L\n"
    unknown = "".join(f"b{k} = 1/2 " for k in range(8))
    return analyze(text, "%n = {" + individuals(256) + "} %p = {" + unknown + names_apart(256, 8) + "}")


@row("a rule with a name of 2,000 words under four foreach over eight words of 200 bytes", 8, "program: NameUnknown",
     tenth=4)
def _(members):
    words = "%s M {" + ", ".join(f"m{k}".ljust(200, "_") for k in range(members)) + "}\n"
    loops = "".join(f"foreach (x{k} in M) {{ " for k in range(4))
    return analyze(words + loops + "%r r[" + ",".join(["x0"] * 2_000) + "]() ==> 0 " + "} " * 4 + "\n" + TAIL)


@row("a set of 2,000 words, and 1,100 names for it", 1_100)
def _(names):
    words = "%s S {" + ", ".join(f"m{k}" for k in range(2_000)) + "}\n"
    return analyze(words + "".join(f"%s S{k} S\n" for k in range(names)) + TAIL)


@row(EXPLAIN + "losses of 64,000 rules, two of which 1,000 equal structures contradict together", 40, "status 1",
     tenth=18)
def _(members):
    preds = "%s M {" + ", ".join(f"m{k}" for k in range(members)) + "}\n%p a()\n%p b()\n"
    rules = "foreach (x in M) { foreach (y in M) { foreach (z in M) { %r 0 ==> 0 } } }\n"
    both = "%r a() ==> b()\n%r a() ==> !b()\n"
    words, files = analyze(preds + rules + both + TAIL, "%n = {} %p = {a = 1 b = 1/2}\n" * 1_000)
    return ["losses", *words[1:]], files


@row(EXPLAIN + "losses of 300 rules of 180 quantifiers of 31 variables", 300, "status 1")
def _(rules):
    names = ", ".join(f"v{k}" for k in range(31))
    body = "".join("EA"[k % 2] + f"({names}) " for k in range(180))
    preds = "%s M {" + ", ".join(f"m{k}" for k in range(rules)) + "}\n%p a()\n%p b()\n"
    high = "foreach (x in M) { %r 0 & (" + body + "0) ==> 0 }\n"
    words, files = analyze(preds + high + "%r a() ==> b()\n%r a() ==> !b()\n" + TAIL, "%n = {} %p = {a = 1 b = 1/2}")
    return ["losses", *words[1:]], files


@row(EXPLAIN + "a trail of 4,096 structures of 256 individuals and 488 unary predicates", 12, tenth=8)
def _(bits):
    preds = "%s M {" + ", ".join(f"m{k}" for k in range(480)) + "}\nforeach (m in M) { %p m(v) nonabs }\n"
    preds += "".join(f"%p a{k}(v)\n" for k in range(8)) + "".join(f"%p c{k}()\n" for k in range(bits))
    carries = (" & ".join(f"c{j}()" for j in range(k)) or "1" for k in range(bits))
    updates = " ".join(f"c{k}() = c{k}() <-> !({carry})" for k, carry in enumerate(carries))
    program = preds + "%%\n%action Count() { { " + updates + " } }\n%%\nL Count() L\n"
    initial = "%n = {" + individuals(256) + "} %p = {" + names_apart(256, 8) + "}"
    words, files = analyze(program, initial)
    return ["structure", *words[1:], "L", str(2 ** bits - 1)], files


def eight(count, more="", preds=8):
    """A chain of so many individuals, of which none are merged."""
    return "".join(f"%p a{k}(v)\n" for k in range(preds)), chain(count, more + names_apart(count, preds))


@row("a chain of 250 individuals, n* defined and transitive", 250)
def _(count):
    pairs = ", ".join(f"u{u}->u{w}" for u in range(count) for w in range(u, count))
    preds, initial = eight(count, "x = {u0} t = {" + pairs + "} ")
    text = "%p x(v)\n%p n(v, w)\n%i t(v, w) = n*(v, w) transitive reflexive\n" + preds
    return analyze(text + "%%\n%action Cut() { { n(v, w) = n(v, w) & !x(v) } }\n%%\nL0 Cut() L1\n", initial)


@row("a chain of 250 individuals, a condition on its closure", 250)
def _(count):
    preds, initial = eight(count, "x = {u0} ")
    text = "%p x(v)\n%p n(v, w)\n" + preds
    return analyze(text + "%%\n%action See() { %p A(v, w) n*(v, w) | n*(w, v) }\n%%\nL0 See() L1\n", initial)


@row("closures over two individuals, one in the other, the inner ones over nothing of the outer", 90)
def _(count):
    ends = [(f"a{k % 2}", f"b{k % 2}") for k in range(count + 1)]
    around = "".join("TC({}, {})({}, {}) ".format(*one, *own) for one, own in zip(ends, ends[1:]))
    return analyze("%p x(v)\n%p n(v, w)\n%%\n%action See() { %p E(a0, b0) " + around + "n({}, {})".format(*ends[-1])
                   + " }\n%%\nL0 See() L1\n", "%n = {u0, u1} %p = { x = {u0} n = {u0->u1} }")


def long_rule(count):
    """A rule whose body has so many literals, in groups of 30."""
    groups = [f"p{n % 500}()" for n in range(count)]
    while len(groups) > 100 or "(" not in groups[0][:1]:
        groups = ["(" + "&".join(groups[at : at + 30]) + ")" for at in range(0, len(groups), 30)]
    preds = "".join(f"%p p{n}()\n" for n in range(500))
    return preds + "%p q()\n%r " + "&".join(groups) + " ==> q()\n" + TAIL


for count in (180, 1_000, 5_000):
    row(f"a rule of {count:,} literals", count)(lambda size: analyze(long_rule(size)))
SIX = "%p x(v)\n%p n(v, w)\n%r n(a, b) & n(b, c) & n(c, d) & n(d, e) & n(e, f) ==> x(a)\n" + TAIL


def six(count, pairs, marked):
    preds, _ = eight(count, preds=5)
    entries = "n = {" + ", ".join(pairs) + "} x = {" + individuals(count) * marked + "} "
    entries += names_apart(count, 5)
    return analyze(preds + SIX, "%n = {" + individuals(count) + "} %p = { " + entries + "}")


row("a rule of six variables, 30 individuals, all known", 30)(
    lambda size: six(size, [f"u{u}->u{u + 1}" for u in range(size - 1)], True))
row("a rule of six variables, 30 individuals, nothing known", 30)(
    lambda size: six(size, [f"u{u}->u{w}:1/2" for u in range(size) for w in range(size)], False))
row("a rule of six variables, 30 individuals, all in n", 30)(
    lambda size: six(size, [f"u{u}->u{w}" for u in range(size) for w in range(size)], True))


def in_line(count, pairs, variables):
    """A rule whose variables follow each other in n, of which the last two shouldn't."""
    names = "abcdefghijklmnopqrstuvwxyz"[:variables]
    steps = [f"n({v}, {w})" for v, w in zip(names, names[1:])]
    preds, _ = eight(count, preds=6)
    program = preds + "%p n(v, w)\n%r " + " & ".join([*steps, "!" + steps[-1]]) + " ==> 0\n" + TAIL
    entries = "n = {" + ", ".join(pairs) + "} " + names_apart(count, 6)
    return analyze(program, "%n = {" + individuals(count) + "} %p = { " + entries + "}")


row("a rule of nine variables in a line, 60 individuals, all in n", 60)(
    lambda size: in_line(size, [f"u{u}->u{w}" for u in range(size) for w in range(size)], 9))
row("a rule of nine variables in a line, 60 individuals, the first 30 unknown", 60)(
    lambda size: in_line(size, [f"u{u}->u{w}" + ":1/2" * (u < 30) for u in range(size) for w in range(size)], 9))


@row("four quantifiers, 40 individuals", 40)
def _(count):
    preds, initial = eight(count, "x = {u0} ", 6)
    pre = "A(a) E(b) A(c) E(d) n(a, b) | n(b, c) | n(c, d) | !x(d)"
    see = "%%\n%action See() { %p " + pre + " }\n%%\nL0 See() L1\n"
    return analyze("%p x(v)\n%p n(v, w)\n" + preds + see, initial)


def tied(count, length, pairs):
    """A precondition of so many quantifiers, each variable tied to the one before it."""
    names = [f"v{k}" for k in range(length)]
    bound = "".join(f"{'EA'[k % 2]}({name}) " for k, name in enumerate(names))
    pre = bound + " & ".join(f"n({v}, {w})" for v, w in zip(names, names[1:]))
    preds = "%p n(v, w)\n" + "".join(f"%p a{k}(v)\n" for k in range(8))
    entries = "n = {" + ", ".join(pairs) + "} " + names_apart(count, 8)
    return analyze(preds + "%%\n%action See() { %p " + pre + " }\n%%\nL0 See() L1\n",
                   "%n = {" + individuals(count) + "} %p = { " + entries + "}")


row("a run of 9 quantifiers over a chain of atoms, 40 individuals in a circle", 40)(
    lambda size: tied(size, 9, [f"u{u}->u{(u + 1) % size}" for u in range(size)]))
row("a run of 20 quantifiers over a chain of atoms, 200 individuals, nothing known", 200)(
    lambda size: tied(size, 20, [f"u{u}->u{w}:1/2" for u in range(size) for w in range(size)]))


def in_parts(count, levels, pairs):
    """A precondition of so many quantified parts, one in the other, in each of which one variable is free."""
    inner = f"n(v{levels - 1}, v{levels - 1})"
    for k in range(levels - 1, 0, -1):
        inner = f"{'AE'[k % 2]}(v{k}) n(v{k - 1}, v{k}) {'|&'[k % 2]} ({inner})"
    preds = "%p n(v, w)\n" + "".join(f"%p a{k}(v)\n" for k in range(8))
    entries = "n = {" + ", ".join(pairs) + "} " + names_apart(count, 8)
    return analyze(preds + "%%\n%action See() { %p A(v0) (" + inner + ") }\n%%\nL0 See() L1\n",
                   "%n = {" + individuals(count) + "} %p = { " + entries + "}")


for count, levels in ((20, 29), (70, 15)):
    row(f"{levels} quantified parts, one in the other, {count} individuals, nothing known", count)(
        lambda size, levels=levels: in_parts(size, levels, [f"u{u}->u{w}:1/2" for u in range(size) for w in range(size)]))


row("trace: 4 MiB of steps of a heap without individuals", MIB4)(
    lambda size: replay(TAIL, EMPTY, "step 0 " * (size // 7)))


@row("trace: 200 steps and 64,000 rules", 40, tenth=18)
def _(members):
    rules = "%s M {" + ", ".join(f"m{k}" for k in range(members)) + "}\n%p b()\n%p q(v)\n"
    rules += "foreach (x in M) { foreach (y in M) { foreach (z in M) { %r b() & q(v) ==> q(v) } } }\n"
    return replay(rules + TAIL, EMPTY, "step 0 " * 200)


row("trace: a step of 1,000,000 picks", 1_000_000, "status 1")(
    lambda size: replay(TAIL, ONE, "step 0 (0" + ", 0" * (size - 1) + ")"))


@row("trace: 1,000 steps of a heap of 256 individuals", 1_000)
def _(count):
    program = "%p x(v) unique\n%p n(v, w) function\n"
    program += "%i t(v, w) = n*(v, w) transitive reflexive\n%r t(v, w) ==> !n(w, v)\n"
    pairs = ", ".join(f"u{u}->u{w}" for u in range(256) for w in range(u, 256))
    return replay(program + TAIL, chain(256, "x = {u0} t = {" + pairs + "}"), "step 0 " * count)


row("source: 4 MiB of statements", MIB4, "source: TooMany")(
    lambda size: source(fill(size, lambda n: "x=x ", texts.SOURCE)))
row("source: 4,095 statements, as many as are taken", 4_095)(
    lambda size: source("vars {x} fields {n} " + "x=x " * size))
row("source: 2,047 loops, one behind the other", 2_047)(lambda size: texts.many_blocks("while", size))
row("source: 4 MiB of loops that are empty", MIB4, "source: TooMany")(
    lambda size: source(fill(size, lambda n: "while(*){}", texts.SOURCE)))
row("source: 4 MiB of names, the last one twice", MIB4, "source: NameTwice")(
    lambda size: source(fill(size, lambda n: f"x{n},", "vars {", "x0} fields {n} x0 = null")))
row("source: 4 MiB of braces that are open", MIB4, "source: TooDeep")(
    lambda size: source(fill(size, lambda n: "{", texts.SOURCE)))
ROWS_BY_NAME = {name: make for name, make, *_ in ROWS}

# ---- the table ----

asked = argparse.ArgumentParser(prog="bench/limits.sh")
asked.add_argument("wanted", nargs="*", metavar="WORD")
asked.add_argument("--seconds", type=int, default=30)
asked.add_argument("--megabytes", type=int, default=6000)
asked.add_argument("--stack", type=int, default=1024)
asked.add_argument("--tenths", action="store_true")
asked.add_argument("--other", default=os.environ.get("OTHER"))
asked.add_argument("--list", action="store_true")
asked = asked.parse_args()
rows = [row for row in ROWS if not asked.wanted or any(word in row[0] for word in asked.wanted)]
explain = os.path.abspath(os.environ.get("TVLA_EXPLAIN") or "crates/tvla_explain/out/tvla_explain")
if not asked.list and not os.access(explain, os.X_OK):
    rows = [row for row in rows if not row[0].startswith(EXPLAIN)]
if asked.list:
    print(*(row[0] for row in rows), sep="\n")
    sys.exit(0)
own = os.path.abspath(os.environ.get("TVLA") or "crates/tvla/out/tvla")
if not os.access(own, os.X_OK):
    print("skip: no built program")
    sys.exit(0)
other = asked.other and (shutil.which(asked.other) or asked.other)
if other and not os.access(other, os.X_OK):
    sys.exit(f"{asked.other} can't be run")
other = other and os.path.abspath(other)


def run(program, words, who, stack):
    """The call, and how it ended: what it said, else its status."""
    call = measured([program, *words], asked.seconds, "note", f"{who}.out", f"{who}.err", stack,
                    asked.megabytes * 1000)
    with open(f"{who}.err", "rb") as file:
        said = file.readline(200).decode("ascii", "replace").strip().removeprefix("tvla: ")
    return call, said if said and 0 <= call.code and not call.late else call.ended(asked.seconds)


def write(files):
    for name, text in files.items():
        with open(name, "w", encoding="ascii") as file:
            file.write(text)
    return sum(map(len, files.values()))


def in_time(call):
    return call.code >= 0 and not call.late


def judge(call, ended, wanted, told, times):
    """What fails in this row, if anything does. The other may be analyze, which says something else."""
    if call.late or call.code < 0 or ended != wanted:
        return f"{ended}, where {wanted} is wanted"
    if call.kilobytes and call.kilobytes > asked.megabytes * 1000:
        return f"over {asked.megabytes} MB"
    if not told or not in_time(told[0]):
        return None
    theirs, other_ended = told
    same = ended == other_ended and (call.code == 4 or filecmp.cmp("own.out", "other.out", shallow=False))
    if times == FACTOR and not same:
        return f"the other answers otherwise: {other_ended}"
    if call.seconds > max(ENOUGH, times * theirs.seconds):
        return f"{call.seconds:.2f} s, where the other takes {theirs.seconds:.2f} s"
    return None


scratch = tempfile.mkdtemp(prefix="limits-")
os.chdir(scratch)
columns = ["What", "Bytes", "Ends with", "Seconds", "Megabytes"]
columns += ["Times that of a tenth"] * asked.tenths + ["Other, s"] * bool(other)
print("| " + " | ".join(columns) + " |\n" + "|---" * len(columns) + "|", flush=True)
faults = []
try:
    for name, make, size, wanted, tenth in rows:
        words, files = make(size)
        length = write(files)
        program, beside, theirs, times = own, other, words, FACTOR
        if name.startswith(EXPLAIN):
            program, beside, theirs, times = explain, other and own, ["analyze", *words[1:3]], TIMES_ANALYZE
        call, ended = run(program, words, "own", asked.stack)
        told = run(beside, theirs, "other", "unlimited") if beside else None
        cells = [name, f"{length:,}", ended, f"{call.seconds:.2f}"]
        cells.append(f"{call.kilobytes / 1000:.0f}" if call.kilobytes else "-")
        fault = judge(call, ended, wanted, told, times)
        if asked.tenths:
            words, files = make(tenth)
            write(files)
            few = run(program, words, "own", asked.stack)[0].seconds
            cells.append(f"{call.seconds / few:.1f}" if call.seconds >= 0.03 else "")
        if other:
            cells.append("" if not told else f"{told[0].seconds:.2f}" if in_time(told[0]) else told[1])
        print("| " + " | ".join(cells) + " |", flush=True)
        if fault:
            faults.append(f"{name}: {fault}")
finally:
    os.chdir("/")
    shutil.rmtree(scratch)
print(f"{len(rows)} rows, {len(faults)} failed")
if faults or not rows:
    print("FAILED:", *faults or ["no such row"], sep="\n  ")
    sys.exit(1)
END
