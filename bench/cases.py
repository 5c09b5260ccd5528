#!/usr/bin/env python3
"""Writes the cases of bench/compare.sh into bench/cases/: one folder a case, with its files and with the
words of the call, one a line, in `words`, to be run from the root of this repository. Where a case has a
report to be checked or replayed against, `report_by` has the words of the call that writes it."""
import os
import shutil

FOLDER = "bench/cases"
CASES = {}


def case(name, program, initial="%n = {}\n%p = {}\n", options=(), command="analyze", files=None):
    """A call on these texts; `files` are further texts, by the names of their files, whose paths end the
    operands."""
    files = files or {}
    first = "program.src" if command == "source" else "program.tvp"
    texts = {first: program, "initial.tvs": initial, **files}
    CASES[name] = (texts, [command, *(f"{FOLDER}/{name}/{file}" for file in texts), *options], None)


def on_report(name, of, command="check", options=(), files=None):
    """A call on the texts of another case, and on the report that the words of this other case write."""
    texts, words, _ = CASES[of]
    files = files or {}
    places = [f"{FOLDER}/{of}/{file}" for file in texts]
    places += [f"{FOLDER}/{name}/{file}" for file in [*files, "report"]]
    CASES[name] = (files, [command, *places, *options], words)


# ---- structures ----

def structure(names, entries):
    """A structure of these individuals; an entry is a predicate and its items."""
    rows = "".join(f"  {pred} = {{{', '.join(items)}}}\n" for pred, items in entries if items)
    return f"%n = {{{', '.join(names)}}}\n%p = {{\n{rows}}}\n"


def cells(count):
    return [f"c{i}" for i in range(count)]


def told_apart(names):
    """Entries by which unary predicates tell the individuals apart: the digits of their numbers."""
    return [(f"b{k}", [name for i, name in enumerate(names) if i >> k & 1])
            for k in range(digits(len(names)))]


def digits(count):
    return max(1, (count - 1).bit_length())


def apart(count):
    return "".join(f"%p b{k}(v)\n" for k in range(digits(count)))


def halves(items):
    return [item + ":1/2" for item in items]


# ---- one thing each ----

def chain(count):
    """Cells in a row, reached from each other by a closure, which is defined, asked for and walked along."""
    names = cells(count)
    pairs = [f"{a}->{b}" for a, b in zip(names, names[1:])]
    reached = [f"{a}->{b}" for i, a in enumerate(names) for b in names[i:]]
    program = apart(count) + """%p x(v) unique
%p n(v, w) function
%i t[n](v, w) = n*(v, w)
%%
%action Reach() { %p A(v, w) x(v) -> n*(v, w) }
%action Next() { %f { E(w) x(w) & n(w, v) } { x(v) = E(w) x(w) & n(w, v) } }
%%
L0 Reach() L1
L1 Next() L1
"""
    return program, structure(names, told_apart(names) + [("x", names[:1]), ("n", pairs), ("t[n]", reached)])


def flags(count):
    """Flags each of which is turned by an edge of its own, so that all their values are reached."""
    preds = "".join(f"%p b{k}()\n" for k in range(count))
    acts = "".join(f"%action Turn{k}() {{ {{ b{k}() = !b{k}() }} }}\n" for k in range(count))
    edges = "".join(f"L Turn{k}() L\n" for k in range(count))
    return f"{preds}%%\n{acts}%%\n{edges}", "%n = {}\n%p = {}\n", ["--max-structures", "100000"]


LIST = """%s PVar {x, y, z}
#include "../../../examples/sll/preds.tvp"
%%
#include "../../../examples/sll/actions.tvp"
%%
"""
LIST_OF_TWO = structure(["h", "u"], [
    ("x", ["h"]), ("n", ["h->u:1/2", "u->u:1/2"]), ("t[n]", ["h->h", "h->u", "u->u:1/2"]),
    ("r[n,x]", ["h", "u"]), ("sm", ["u:1/2"])])


def straight(edges):
    """A long program without a loop, which copies and clears variables of a short list."""
    calls = ("Copy_Var(y, x)", "Copy_Var(z, y)", "Set_Null(y)", "Set_Null(z)")
    return LIST + "".join(f"L{k} {calls[k % 4]} L{k + 1}\n" for k in range(edges)), LIST_OF_TWO


def loops(count):
    """A long program of loops, one behind the other, each of which walks along a list by a variable of its
    own."""
    walkers = [f"w{k}" for k in range(count)]
    lines = "".join(
        f"A{k} Copy_Var({w}, x) B{k}\nB{k} Is_Not_Null_Var({w}) C{k}\nC{k} Get_Next_L({w}, {w}) B{k}\n"
        f"B{k} Is_Null_Var({w}) A{k + 1}\n" for k, w in enumerate(walkers))
    return LIST.replace("{x, y, z}", "{x, " + ", ".join(walkers) + "}") + lines, LIST_OF_TWO


def picks(count):
    """An action that picks two individuals, each in turn, of which the precondition lets few pass."""
    names = cells(count)
    pairs = [f"{a}->{b}" for a, b in zip(names, names[1:])]
    program = apart(count) + """%p x(v)
%p n(v, w)
%%
%action Pick() { %p n(a, b) & x(a) & !x(b) { x(v) = x(v) | v == b } }
%%
L Pick() L
"""
    return program, structure(names, told_apart(names) + [("x", names[:1]), ("n", pairs)])


def all_picks(count):
    """An action that picks two individuals and lets all pairs of different ones pass, each with a result of
    its own."""
    program = apart(count) + """%p met(v, w)
%%
%action Meet() { %p a != b { met(v, w) = met(v, w) | v == a & w == b } }
%%
Before Meet() After
"""
    return program, structure(cells(count), told_apart(cells(count))), ["--max-structures", "10000"]


def free_updates(count):
    """A field is given any values and then followed, with focus on what lies behind one of its cells."""
    program = apart(count) + """%p at(v) unique
%p next(v, w) function
%%
%action Forget() { { next(v, w) = 1/2 } }
%action Follow() { %f { E(w) at(w) & next(w, v) } { at(v) = E(w) at(w) & next(w, v) } }
%%
Known Forget() Open
Open Follow() Known
"""
    return program, structure(cells(count), told_apart(cells(count)) + [("at", cells(count)[:1])])


def quantifiers(depth, count):
    """A condition of nested quantifiers, by turns of either kind, over a graph of which half is unknown."""
    names = cells(count)
    bound = [f"a{k}" for k in range(depth)]
    parts = " & ".join(f"(d({a}, {b}) | m({b}) | {a} == {b})" for a, b in zip(bound, bound[1:]))
    asked = "".join(f"{'EA'[k % 2]}({a}) " for k, a in enumerate(bound))
    program = apart(count) + "%p m(v)\n%p d(v, w)\n%%\n"
    program += "%action Ask() { %p " + asked + parts + " }\n%%\nL0 Ask() L1\n"
    pairs = [f"{names[i]}->{names[(3 * i + 2) % count]}" for i in range(count)]
    return program, structure(names, told_apart(names) + [("m", halves(names[::2])), ("d", halves(pairs))])


def multisets(bits):
    """Individuals are made, each with any of the values of some marks, so that there are none, one or more of
    each."""
    marks = [f"m{k}" for k in range(bits)]
    acts = edges = ""
    for number in range(1 << bits):
        given = " ".join(f"{m}(v) = {m}(v) | isNew(v)" for k, m in enumerate(marks) if number >> k & 1)
        acts += f"%action Make{number}() {{ %new {{ {given} }} }}\n"
        edges += f"Sets Make{number}() Sets\n"
    preds = "".join(f"%p {m}(v)\n" for m in marks)
    return f"{preds}%%\n{acts}%%\n{edges}", "%n = {}\n%p = {}\n", ["--max-structures", "10000"]


def foreach_rules(count):
    """As many rules as three nested loops over a set make of one."""
    members = ", ".join(f"k{k}" for k in range(count))
    return f"""%s Key {{{members}}}
%p on()
%p off()
foreach (a in Key) {{ foreach (b in Key) {{ foreach (c in Key) {{ %r on() & off() ==> 0 }} }} }}
%%
%action Swap() {{ {{ on() = off() off() = on() }} }}
%%
L0 Swap() L1
""", "%n = {}\n%p = { on = 1 }\n"


def many_edges(count, nodes):
    """As many edges as a program may have, between few nodes, each with one of three actions on two flags."""
    acts = ("Both()", "Turn()", "Pass()")
    lines = "".join(f"P{k % nodes} {acts[k % 3]} P{(7 * k + k // nodes) % nodes}\n" for k in range(count))
    return f"""%p l()
%p r()
%%
%action Both() {{ %p l() | r() {{ l() = r() r() = l() }} }}
%action Turn() {{ {{ l() = !l() }} }}
%action Pass() {{ %p !l() {{ r() = l() | r() }} }}
%%
{lines}""", "%n = {}\n%p = { l = 1/2 r = 1/2 }\n"


def long_rules(literals, count):
    """Rules of so many literals, one for each of some flags of which nothing is known."""
    others = [f"q{k}" for k in range(count)]
    bodies = (" & ".join([f"(go() & {q}())"] * (literals // 2)) for q in others)
    rules = "".join(f"%r {body} ==> stop()\n" for body in bodies)
    preds = "%p go()\n%p stop()\n" + "".join(f"%p {q}()\n" for q in others)
    return (f"{preds}{rules}%%\n%action Stop() {{ {{ stop() = 1 }} }}\n%%\nL0 Stop() L1\n",
            "%n = {}\n%p = { go = 1 stop = 1/2 " + " ".join(f"{q} = 1/2" for q in others) + " }\n")


def definitions(count, size):
    """Definitions in a chain, each of what lies one step behind the one before, the last one declared
    first."""
    names = cells(size)
    ring = [f"{a}->{b}" for a, b in zip(names, names[1:] + names[:1])]
    defined = "".join(f"%i near{k}(v) = near{k - 1}(v) | (E(w) d(v, w) & near{k - 1}(w))\n"
                      for k in range(count, 0, -1))
    program = apart(size) + "%p here(v) unique\n%p d(v, w)\n" + defined + """%i near0(v) = here(v)
%%
%action Step() { %f { E(w) here(w) & d(w, v) } { here(v) = E(w) here(w) & d(w, v) } }
%%
Walk Step() Walk
"""
    unknown = [(f"near{k}", halves(names)) for k in range(count + 1)]
    entries = told_apart(names) + [("here", names[:1]), ("d", ring)] + unknown
    return program, structure(names, entries), ["--delta"]


def closures(count):
    """Conditions and updates by closures, of a field and of formulas, in a ring with a branch."""
    names = cells(count)
    pairs = [f"{a}->{b}" for a, b in zip(names, names[1:] + names[:1])] + [f"{names[0]}->{names[count // 2]}"]
    program = apart(count) + """%p s(v) unique
%p z(v) unique
%p seen(v)
%p d(v, w)
%%
%action Round() { %p A(a) E(b) s(b) & d+(b, a) { seen(v) = E(a) s(a) & d*(a, v) } }
%action Away() { %p E(a, b) s(a) & z(b) & (TC(a, b)(l, r) d(l, r) & !z(l)) }
%action Mark() { { seen(v) = E(a) s(a) & (v == a | TC(a, v)(l, r) d(l, r) & !z(r) | d(r, l) & z(r)) } }
%%
L0 Round() L1
L1 Away() L2
L2 Mark() L3
L3 Away() L0
"""
    entries = told_apart(names) + [("s", names[:1]), ("z", names[count // 3:][:1]), ("d", pairs)]
    return program, structure(names, entries)


# ---- lists of which only the variables and the field are updated, and sorts ----

def listed(variables, extra=""):
    """Predicates of lists that may have cycles and share cells."""
    return f"%s Ptr {{{', '.join(variables)}}}" + """
foreach (p in Ptr) { %p p(v) unique }
%p n(v, w) function
%i path(v, w) = n*(v, w) transitive reflexive
%i twice(v) = E(a, b) a != b & n(a, v) & n(b, v)
%i ring(v) = E(w) n(v, w) & path(w, v)
foreach (p in Ptr) { %i of[p](v) = E(w) p(w) & path(w, v) }
%r n(a, b) & path(a, c) & a != c ==> path(b, c)
%r path(a, b) & path(a, c) & !path(b, c) ==> path(c, b)
%r path(a, b) & a != b & !ring(a) ==> !path(b, a)
%r path(a, b) & ring(a) ==> ring(b)
%r !path(a, b) ==> !n(a, b)
foreach (p in Ptr) {
  %r p(a) & of[p](b) ==> path(a, b)
  %r of[p](a) & path(a, b) ==> of[p](b)
}
""" + extra + f"%i used(v) = {' | '.join(f'of[{p}](v)' for p in variables)} nonabs\n"


STATEMENTS = """%%
%action Any() { }
%action Nil(p) { { p(v) = 0 } }
%action Let(p, q) { %f { q(v) } { p(v) = q(v) } }
%action Next(p, q) {
  %f { E(w) q(w) & n(w, v) }
  %p E(v) q(v)
  %message !(E(v) q(v)) -> "null " + q
  { p(v) = E(w) q(w) & n(w, v) }
}
%action Cut(p) {
  %f { E(w) p(w) & n(w, v) }
  %p E(v) p(v)
  %message !(E(v) p(v)) -> "null " + p
  { n(v, w) = !p(v) & n(v, w) }
}
%action Join(p, q) {
  %f { p(v), q(v) }
  %p (E(v) p(v)) & !(E(v, w) p(v) & n(v, w))
  %message !(E(v) p(v)) -> "null " + p
  %message E(v, w) p(v) & n(v, w) -> "lost cells behind " + p
  { n(v, w) = n(v, w) | p(v) & q(w) }
}
%action IsCell(p) { %f { p(v) } %p E(v) p(v) }
%action IsNil(p) { %f { p(v) } %p !(E(v) p(v)) }
%action Good(p) { %f { p(v) } %message E(v) of[p](v) & (twice(v) | ring(v)) -> "no list " + p }
%action AllUsed() { %message E(v) !used(v) -> "lost cell" }
"""
ORDER = """%p le(v, w) reflexive transitive
%r !le(a, b) ==> le(b, a)
%i rises(v) = A(w) n(v, w) -> le(v, w)
%r rises(a) & n(a, b) ==> le(a, b)
"""
ORDERED = """%action LessEqual(p, q) { %f { p(v) & q(w) & le(v, w) } %p E(v, w) p(v) & q(w) & le(v, w) }
%action Greater(p, q) { %f { p(v) & q(w) & le(v, w) } %p E(v, w) p(v) & q(w) & !le(v, w) }
%action Sorted(p) { %message E(v) of[p](v) & !rises(v) -> "not sorted " + p }
"""


def some_lists(order):
    """The empty list, the list of one cell, and the longer ones, in variable `a`."""
    def with_order(names, summary):
        values = {1: ["h->h"], 2: ["h->h", "h->u:1/2", "u->h:1/2", "u->u:1/2"]}[len(names)]
        rises = halves(names) if summary else names
        return [("le", values), ("rises", rises)] if order else []
    one = [("a", ["h"]), ("path", ["h->h"]), ("of[a]", ["h"]), ("used", ["h"])] + with_order(["h"], False)
    more = [("a", ["h"]), ("n", ["h->u:1/2", "u->u:1/2"]), ("path", ["h->h", "h->u", "u->u:1/2"]),
            ("of[a]", ["h", "u"]), ("used", ["h", "u"]), ("sm", ["u:1/2"])] + with_order(["h", "u"], True)
    return "%n = {}\n%p = {}\n" + structure(["h"], one) + structure(["h", "u"], more)


REVERSE = """%%
Loop IsCell(a) R1
R1 Let(c, b) R2
R2 Let(b, a) R3
R3 Next(a, a) R4
R4 Cut(b) R5
R5 Join(b, c) R6
R6 Nil(c) Loop
Loop IsNil(a) Done
Done Good(b) Whole
Whole AllUsed() End
"""
DEAL = """%%
Loop IsCell(a) D1
D1 Let(d, a) D2
D2 Next(a, a) D3
D3 Cut(d) D4
D4 Any() Left
D4 Any() Right
Left Join(d, b) Left1
Left1 Let(b, d) D5
Right Join(d, c) Right1
Right1 Let(c, d) D5
D5 Nil(d) Loop
Loop IsNil(a) Done
Done Good(b) Done1
Done1 Good(c) Whole
Whole AllUsed() End
"""
# each cell of the list a is put into the sorted list s, at its place, which c looks for and p is behind
INSERTION = """%%
Loop IsCell(a) I1
I1 Let(e, a) I2
I2 Next(a, a) I3
I3 Cut(e) I4
I4 Let(c, s) Find
Find IsCell(c) I5
I5 LessEqual(c, e) I6
I6 Let(p, c) I7
I7 Next(c, c) Find
I5 Greater(c, e) Put
Find IsNil(c) Put
Put Join(e, c) I8
I8 IsNil(p) First
First Let(s, e) I11
I8 IsCell(p) I9
I9 Cut(p) I10
I10 Join(p, e) I11
I11 Nil(p) I12
I12 Nil(c) I13
I13 Nil(e) Loop
Loop IsNil(a) Done
Done Good(s) Done1
Done1 Sorted(s) Whole
Whole AllUsed() End
"""
# the greatest cell m of the list a, which p is behind, is put before the sorted list s, again and again
SELECTION = """%%
Loop IsCell(a) S1
S1 Let(m, a) S2
S2 Let(q, a) S3
S3 Next(c, a) Find
Find IsCell(c) S4
S4 LessEqual(m, c) S5
S5 Let(p, q) S6
S6 Let(m, c) S7
S4 Greater(m, c) S7
S7 Let(q, c) S8
S8 Next(c, c) Find
Find IsNil(c) Take
Take Next(c, m) S9
S9 Cut(m) S10
S10 IsNil(p) First
First Let(a, c) Put
S10 IsCell(p) S11
S11 Cut(p) S12
S12 Join(p, c) Put
Put Join(m, s) S13
S13 Let(s, m) S14
S14 Nil(m) S15
S15 Nil(p) S16
S16 Nil(q) S17
S17 Nil(c) Loop
Loop IsNil(a) Done
Done Good(s) Done1
Done1 Sorted(s) Whole
Whole AllUsed() End
"""


def lists(variables, edges):
    return listed(variables) + STATEMENTS + edges, some_lists(False)


def sort(variables, edges, acyclic=False):
    rule = "%r path(a, b) ==> !n(b, a)\n" if acyclic else ""
    return listed(variables, ORDER + rule) + STATEMENTS + ORDERED + edges, some_lists(True)


# ---- a hash table ----

def hash_table():
    """Buckets, of which each has a list: cells are put in front of one that is chosen anyhow, and one list is
    searched."""
    return """%s Ptr {b, f, k}
foreach (p in Ptr) { %p p(v) unique }
%p slot(v)
%p top(v, w) function invfunction
%p n(v, w) function
%i path(v, w) = n*(v, w) transitive reflexive
%i twice(v) = E(a, b) a != b & n(a, v) & n(b, v)
foreach (p in Ptr) { %i of[p](v) = E(w) p(w) & path(w, v) }
%i kept(v) = E(a, w) slot(a) & top(a, w) & path(w, v)
%r top(a, b) ==> slot(a)
%r top(a, b) ==> !slot(b)
%r n(a, b) ==> !slot(a)
%r n(a, b) ==> !slot(b)
%r path(a, b) ==> !n(b, a)
%r !path(a, b) ==> !n(a, b)
%r path(a, b) & a != b ==> !path(b, a)
%r n(a, b) & path(a, c) & a != c ==> path(b, c)
foreach (p in Ptr) {
  %r p(a) & of[p](c) ==> path(a, c)
  %r of[p](a) & path(a, c) ==> of[p](c)
}
%%
%action Hash() { { b(v) = 1/2 } }
%action Slot() { %f { b(v), slot(v) & b(v) } %p E(v) b(v) & slot(v) }
%action Nil(p) { { p(v) = 0 of[p](v) = 0 } }
%action New() {
  %new
  {
    k(v) = isNew(v)
    of[k](v) = isNew(v)
    path(v, w) = path(v, w) | isNew(v) & v == w
    twice(v) = twice(v)
    kept(v) = kept(v)
    foreach (p in Ptr - {k}) { of[p](v) = of[p](v) }
  }
}
%action Top(p) {
  %f { E(w) b(w) & top(w, v) }
  %message !(E(v) b(v)) -> "no slot"
  {
    p(v) = E(w) b(w) & top(w, v)
    of[p](v) = E(w, u) b(w) & top(w, u) & path(u, v)
  }
}
%action Link() {
  %f { k(v), f(v) }
  %message !(E(v) k(v)) -> "null k"
  {
    n(v, w) = n(v, w) | k(v) & f(w)
    path(v, w) = path(v, w) | (E(u) k(u) & path(v, u)) & of[f](w)
    twice(v) = twice(v) | f(v) & (E(w) n(w, v))
    foreach (p in Ptr) { of[p](v) = of[p](v) | of[f](v) & (E(w) k(w) & of[p](w)) }
    kept(v) = kept(v) | of[f](v) & (E(w) k(w) & kept(w))
  }
}
%action SetTop() {
  %f { b(v), k(v) }
  %message !(E(v) b(v)) -> "no slot"
  {
    top(v, w) = b(v) ? k(w) : top(v, w)
    kept(v) = (E(w) b(w)) & of[k](v) | kept(v) & !(E(w, u) b(w) & top(w, u) & path(u, v))
  }
}
%action Walk() {
  %f { E(w) f(w) & n(w, v) }
  %p E(v) f(v)
  %message !(E(v) f(v)) -> "null f"
  {
    f(v) = E(w) f(w) & n(w, v)
    of[f](v) = of[f](v) & !f(v)
  }
}
%action IsCell(p) { %f { p(v) } %p E(v) p(v) }
%action IsNil(p) { %f { p(v) } %p !(E(v) p(v)) }
%action Any() { }
%action Whole() {
  %message E(v) !kept(v) & !slot(v) -> "lost cell"
  %message E(v) twice(v) -> "shared cell"
}
%%
Fill Any() P1
P1 Hash() P2
P2 Slot() P3
P3 New() P4
P4 Top(f) P5
P5 Link() P6
P6 SetTop() P7
P7 Nil(f) P8
P8 Nil(k) P9
P9 Nil(b) Fill
Fill Any() Ask
Ask Whole() A1
A1 Hash() A2
A2 Slot() A3
A3 Top(f) A4
A4 IsCell(f) A5
A5 Walk() A4
A4 IsNil(f) End
""", structure(["s"], [("slot", ["s"]), ("path", ["s->s:1/2"]), ("sm", ["s:1/2"])])


# ---- source programs and replays ----

def source(blocks):
    """A source program of loops, one behind the other, each of which goes along a list and makes a copy of
    its length."""
    block = "y = x z = null while (y != null) { w = new w->n = z z = w w = null y = y->n }\n"
    return "vars {x, y, z, w} fields {n}\n" + block * blocks


def start_of_source():
    entries = [("x", ["h"]), ("n", ["h->u:1/2", "u->u:1/2"]), ("r[n,x]", ["h", "u"]), ("sm", ["u:1/2"])]
    return structure(["h", "u"], entries)


def walk_along(count):
    """A heap of so many cells in a row, and steps along the edge of `chain` that goes to the next one."""
    names = cells(count)
    pairs = [f"{a}->{b}" for a, b in zip(names, names[1:])]
    reached = [f"{a}->{b}" for i, a in enumerate(names) for b in names[i:]]
    heap = structure(names, told_apart(names) + [("x", names[:1]), ("n", pairs), ("t[n]", reached)])
    return {"start.tvs": heap, "trace": "step 0\n" + "step 1\n" * count}


def write_all():
    case("chain", *chain(48))
    case("chain_long", *chain(120))
    case("flags", *flags(14))
    case("flags_many", *flags(16))
    case("straight", *straight(4000))
    case("loops", *loops(160))
    case("picks", *picks(64))
    case("picks_all", *all_picks(64))
    case("free_updates", *free_updates(12))
    case("quantifiers", *quantifiers(7, 8))
    case("multisets", *multisets(3))
    case("foreach_rules", *foreach_rules(40))
    case("many_edges", *many_edges(16384, 64))
    case("long_rules", *long_rules(180, 64))
    case("definitions_delta", *definitions(12, 6))
    case("closures", *closures(70))
    for mode, options in (("given", []), ("recompute", ["--recompute"]), ("delta", ["--delta"])):
        case(f"reverse_{mode}", *lists("abc", REVERSE), options)
        case(f"deal_{mode}", *lists("abcd", DEAL), options)
    case("sort_insertion", *sort("asepc", INSERTION))
    case("sort_selection", *sort("asmpqc", SELECTION))
    case("sort_acyclic", *sort("asepc", INSERTION, acyclic=True))
    case("sort_acyclic_joined", *sort("asepc", INSERTION, acyclic=True), command="join")
    case("loops_joined", *loops(160), command="join")
    case("hash_table", *hash_table())
    case("hash_table_joined", *hash_table(), command="join")
    case("source", source(8), start_of_source(), command="source")
    on_report("hash_table_checked", "hash_table_joined")
    on_report("chain_checked", "chain_long", options=["--maps"])
    on_report("multisets_checked", "multisets")
    on_report("chain_replayed", "chain_long", "replay", files=walk_along(120))
    examples = [("insertion_sort", "analyze", ""), ("insertion_sort", "join", "_joined"),
                ("bubble_sort", "analyze", ""), ("bubble_sort", "check", "_checked")]
    for example, command, suffix in examples:
        files = ["program.tvp", "initial.tvs"] + ["report"] * (command == "check")
        CASES[example + suffix] = ({}, [command, *(f"examples/{example}/{file}" for file in files)], None)
    CASES["demo"] = ({}, ["demo", "16"], None)
    shutil.rmtree(FOLDER, ignore_errors=True)
    for name, (texts, words, report_by) in CASES.items():
        write(name, texts, words, report_by)


def write(name, texts, words, report_by):
    place = os.path.join(FOLDER, name)
    os.makedirs(place)
    lines = {"words": words, **({"report_by": report_by} if report_by else {})}
    lines = {file: "".join(word + "\n" for word in told) for file, told in lines.items()}
    for file, text in {**texts, **lines}.items():
        with open(os.path.join(place, file), "w", encoding="ascii") as out:
            out.write(text)


os.chdir(os.path.dirname(os.path.dirname(os.path.abspath(__file__))))
write_all()
