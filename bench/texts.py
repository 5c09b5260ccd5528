"""Texts that are deep or wide, for bench/limits.sh and bench/fuzz.sh. A text is the words of a call and the
files that it names, all in one folder: p a program or source program, i initial structures, r a report, s a
heap, t a trace."""

EMPTY = "%n = {} %p = {}"
ONE = "%n = {u} %p = {}"
TAIL = "%%\n%action Skip() { }\n%%\nL Skip() L\n"
NO_REPORT = "tvla report 2 end"
DEEPEST = 190  # of the 200 constructs that may be open at one place


def analyze(program, initial=EMPTY, *more):
    return ["analyze", "p", "i", *more], {"p": program, "i": initial}


def join(program, initial=EMPTY, *more):
    return ["join", "p", "i", *more], {"p": program, "i": initial}


def check(program, initial, report, *more):
    return ["check", "p", "i", "r", *more], {"p": program, "i": initial, "r": report}


def replay(program, start, trace):
    files = {"p": program, "i": EMPTY, "s": start, "t": trace, "r": NO_REPORT}
    return ["replay", "p", "i", "s", "t", "r"], files


def source(text, initial=EMPTY):
    return ["source", "p", "i"], {"p": text, "i": initial}


def individuals(count):
    return ", ".join(f"u{u}" for u in range(count))


def chain(count, more=""):
    edges = ", ".join(f"u{u}->u{u + 1}" for u in range(count - 1))
    return "%n = {" + individuals(count) + "} %p = { n = {" + edges + "} " + more + "}"


def names_apart(count, bits):
    """Entries of as many unary predicates a0, a1, .. as tell so many individuals apart."""
    parts = (", ".join(f"u{u}" for u in range(count) if u >> k & 1) for k in range(bits))
    return "".join(f"a{k} = {{{part}}} " for k, part in enumerate(parts))


def fill(size, item, before="", behind=""):
    """As many items, each from its number, as have room between the two texts."""
    parts, left, n = [before], size - len(before) - len(behind), 0
    while True:
        text = item(n)
        left -= len(text)
        if left < 0:
            return "".join(parts) + behind
        parts.append(text)
        n += 1


# ---- definitions that rest on each other ----

def in_chain(count, variables, first, body, upwards=True):
    """So many definitions d1, d2, .., each with a body of the one before, and d0, whose formula is `first`;
    declared in this order, or against it."""
    head = f"({', '.join(variables)})"
    lines = [f"%i d0{head} = {first}\n"] + [f"%i d{k}{head} = {body(f'd{k - 1}')}\n" for k in range(1, count)]
    return "".join(lines if upwards else reversed(lines))


TURN = "%%\n%action Turn() { { b() = !b() } }\n%%\nL Turn() M\n"


def negations(count, depth, upwards=True, mode="--delta"):
    """Definitions each of which negates the one before, so often, and an action that changes what the first
    rests on."""
    defined = in_chain(count, (), "b()", lambda name: "!" * depth + name + "()", upwards)
    return analyze("%p b()\n" + defined + TURN, EMPTY, *mode.split())


def many_atoms(count, atoms, quantifiers=10, initial=ONE, mode="--delta"):
    """Definitions each of which has so many atoms of the one before, under nested quantifiers."""
    bound = [f"q{k}" for k in range(quantifiers)]
    asked = "".join(f"{'EA'[k % 2]}({name}) " for k, name in enumerate(bound))
    free = ("a", "b", *bound)
    atom = lambda name, k: f"{name}({free[k % len(free)]}, {free[(k // len(free) + k + 1) % len(free)]})"
    body = lambda name: asked + "(" + " & ".join(atom(name, k) for k in range(atoms)) + ")"
    defined = in_chain(count, ("a", "b"), "n(a, b)", body)
    step = "%%\n%action Cut() { { n(v, w) = n(v, w) & !x(v) } }\n%%\nL Cut() M\n"
    return analyze("%p x(v)\n%p n(v, w)\n" + defined + step, initial, *mode.split())


def doubled(count, actions, body="{0}() <-> {0}() & b()"):
    """Definitions whose updates by differencing grow by a factor from one to the next, up to the limit and
    over it."""
    defined = in_chain(count, (), "b() & c()", body.format)
    acts = "".join(f"%action Turn{k}() {{ {{ b() = !b() c() = b() }} }}\n" for k in range(actions))
    edges = "".join(f"L Turn{k}() M\n" for k in range(actions))
    return analyze("%p b()\n%p c()\n" + defined + "%%\n" + acts + "%%\n" + edges, EMPTY, "--delta")


def spread(count):
    """Pairs of definitions of `doubled`, so that updates of many sizes up to the limit are formed."""
    chained = in_chain(count, (), "b() & c()", "{0}() <-> {0}() & b()".format)
    pairs = "".join(f"%i e{j}_{k}() = d{j}() {mark} d{k}()\n" for j in range(count) for k in range(j)
                    for mark in [("&", "|", "<->")[(j + k) % 3]])
    step = "%%\n%action Turn() { { b() = !b() c() = b() } }\n%%\nL Turn() M\n"
    return analyze("%p b()\n%p c()\n" + chained + pairs + step, EMPTY, "--delta")


def resting(count, nodes):
    """Definitions each of which rests on the next declared one, the last on a flag; a body has so many
    nodes."""
    body = lambda name: " & ".join([name + "()"] * ((nodes + 1) // 2))
    return "%p b()\n" + in_chain(count, (), "b()", body, upwards=False)


def with_actions(declared, count, *parts, end="L"):
    """A program with so many edges from L, each with an action of its own; the actions' parts go by turns."""
    acts = "".join(f"%action a{k}() {{{parts[k % len(parts)] if parts else ''}}}\n" for k in range(count))
    return declared + "%%\n" + acts + "%%\n" + "".join(f"L a{k}() {end}\n" for k in range(count))


TURNS = ["{ b() = !b() }", "{ c() = b() }", "%f { b(), c() } { }", "%f { x(v) } { c() = b() }", "{ b() = 1/2 }",
         "%new { x(v) = !x(v) n(v, w) = n(v, w) & !x(v) }", "{ x(v) = x(v) | b() }", "%p x(v) { b() = !b() }",
         "%retain !x(v) { b() = !b() }", "{ n(v, w) = n(w, v) b() = c() }"]


def evaluated(count, depth, actions, mode="--recompute"):
    """So many definitions, each of so many times ! the one before, and actions between three nodes after each
    of which they are evaluated anew."""
    defined = PREDS + in_chain(count, (), "b()", lambda name: "!" * depth + name + "()", upwards=False)
    acts = "".join(f"%action a{k}() {{ {TURNS[k % len(TURNS)]} }}\n" for k in range(actions))
    edges = "".join(f"L{k % 3} a{k}() L{k // 3 % 3}\n" for k in range(actions))
    return analyze(defined + "%%\n" + acts + "%%\n" + edges, EMPTY, "--max-structures", "200", *mode.split())


def steps(declared, actions, count):
    """A replay of so many steps along edges that each have an action of their own."""
    trace = "".join(f"step {k % actions}\n" for k in range(count))
    return replay(with_actions(declared, actions), EMPTY, trace)


def circle(count):
    """Definitions that rest on each other in a circle."""
    return analyze(in_chain(count, (), f"d{count - 1}()", lambda name: name + "()") + TAIL)


def fan(count, width):
    """Definitions each of which rests on those before it, so many of them."""
    body = lambda k: " | ".join(f"d{j}()" for j in range(max(0, k - width), k)) or "b()"
    return "%p b()\n" + "".join(f"%i d{k}() = {body(k)}\n" for k in range(count))


# ---- definitions whose updates by differencing are as high as they may be ----

# from the atom of the definition before, and what doesn't change: a construct of a level or two
HIGHER = {
    "&": "{0} & c()",
    "|": "{0} | !c()",
    "!": "!({0} & c())",
    "->": "c() -> {0}",
    "conditional": "c() ? {0} : 0",
    "E": "E(v) {0} & x(v)",
    "A": "A(v) {0} | x(v)",
    "E and A": "E(v) A(w) ({0} & n(v, w))",
    "E, unary": "E(w) {1}(w) & n(v, w)",
    "&, unary": "{1}(v) & c()",
    "&, binary": "{1}(v, w) & c()",
}


def higher(kind, count, within="1", mode="--delta"):
    """So many definitions, each of one more construct over the one before, so that updates of each height up
    to the limit are formed; the lowest has `within`, which doesn't change, beside the flag."""
    head, unknown = {"unary": ("(v)", "{u:1/2}"), "binary": ("(v, w)", "{u->u:1/2}")}.get(
        kind.rsplit(", ")[-1], ("()", "1/2"))
    lines = [f"%i d0{head} = b() & ({within})\n"]
    lines += [f"%i d{k}{head} = {HIGHER[kind].format(f'd{k - 1}{head}', f'd{k - 1}')}\n" for k in range(1, count)]
    values = "".join(f"d{k} = {unknown} " for k in range(count))
    initial = "%n = {u} %p = { b = 1 c = 1 x = {u} n = {u->u} " + values + "}"
    return analyze(PREDS + "".join(lines) + TURN, initial, *mode.split())


# ---- formulas as deep as they may be ----

def operators(mark, atom="b()", brackets=False):
    """A formula of as many of a mark between atoms as may be open; with brackets it nests to the right by
    these."""
    if not brackets:
        return lambda depth: f" {mark} ".join([atom] * (depth + 1))
    return lambda depth: f"({atom} {mark} " * (depth // 2) + atom + ")" * (depth // 2)


def before(prefix, atom):
    return lambda depth: prefix * depth + atom


def by_turns(first, second, atom):
    return lambda depth: (first + second) * (depth // 2) + atom


MANY = [f"a{k}" for k in range(31)]  # as many variables as a quantifier may have beside one that is free
ALL_USED = "(" + " | ".join(f"{v} == {w}" for v, w in zip(MANY, MANY[1:])) + ")"


def of_many(marks, behind=""):
    """Quantifiers of many variables by turns, each with the same behind it."""
    return [f"{mark}({', '.join(MANY)}) {behind}" for mark in marks]


TURNED = by_turns("TC(v, w)(a, b) ", "TC(a, b)(v, w) ", "n(v, w)")
DEEP = {
    "!": before("!", "b()"),
    "brackets": lambda depth: "(" * depth + "b()" + ")" * depth,
    "&": operators("&"),
    "& in brackets": operators("&", brackets=True),
    "|": operators("|"),
    "| in brackets": operators("|", brackets=True),
    "->": operators("->"),
    "-> in brackets": operators("->", brackets=True),
    "<->": operators("<->"),
    "<-> in brackets": operators("<->", brackets=True),
    "conditionals": lambda depth: "b() ? c() : " * depth + "b()",
    "conditionals within": lambda depth: "b() ? " * (depth - 1) + "c()" + " : b()" * (depth - 1),
    "conditions in brackets": lambda depth: "(" * (depth // 2) + "b()" + " ? c() : b())" * (depth // 2),
    "E": before("E(v) ", "x(v)"),
    "A": before("A(v) ", "x(v)"),
    "E and A": by_turns("E(v) ", "A(w) ", "(x(v) & x(w))"),
    "! and E": by_turns("!", "E(v) ", "x(v)"),
    "quantifiers over a connective": lambda depth: "E(v) x(v) & " * (depth // 2) + "b()",
    "closures": lambda depth: "E(v, w) " + TURNED(depth - 1),
    "E of 31 variables": before(*of_many("E"), "x(a0)"),
    "E and A of 31 variables": by_turns(*of_many("EA"), "x(a0)"),
    # each body has all 31 variables, so that none of the quantifiers can be passed over
    "E and A of 31 variables, all used":
        lambda depth: by_turns(*of_many("EA", ALL_USED + " & "), "b()")(max(0, (depth - len(MANY)) // 2 - 2)),
}


PREDS = "%p b()\n%p c()\n%p x(v)\n%p n(v, w)\n"
# where a formula may stand: declarations and the parts of an action; the actions change what it speaks of
PLACES = {
    "precondition": ("", "%p {0} {{ b() = !b() }}"),
    "focus": ("", "%f {{ {0} }} {{ b() = !b() }}"),
    "message": ("", '%message {0} -> "m" {{ b() = !b() }}'),
    "update": ("", "{{ b() = {0} c() = b() }}"),
    "retain": ("", "%retain {0}"),
    "rule": ("%r {0} ==> c()\n", "{{ b() = !b() }}"),
    "definition": ("%i d() = {0}\n", "{{ b() = !b() x(v) = !x(v) n(v, w) = n(w, v) }}"),
}


def at_places(formula, places):
    """A program with the formula at each of these places, each in an action, or before one, of its own."""
    declared = "".join(PLACES[place][0].format(formula) for place in places)
    parts = [PLACES[place][1].format(formula) for place in places]
    acts = "".join(f"%action F{k}() {{ {part} }}\n" for k, part in enumerate(parts))
    edges = "".join(f"L F{k}() M\n" for k in range(len(places)))
    return PREDS + declared + "%%\n" + acts + "%%\n" + edges


def deep(kind, places, depth=DEEPEST, mode="", initial=ONE):
    """A formula of this kind, so deep, at each of these places."""
    return analyze(at_places(DEEP[kind](depth), places), initial, *mode.split())


def on_update(kind, depth):
    """A flag that is updated to a formula of this kind, so deep, and a definition of it and another of these."""
    formula = DEEP[kind](depth)
    declared = PREDS + f"%i d() = b()\n%i e() = d() & ({formula})\n"
    step = f"%%\n%action F() {{ {{ b() = {formula} x(v) = !x(v) }} }}\n%%\nL F() M\n"
    return analyze(declared + step, ONE, "--delta")


# ---- source programs ----

SOURCE = "vars {x, y} fields {n} "
BLOCKS = {
    "while": ("while (*) { ", "x = y ", "} "),
    "if": ("if (x == y) { ", "x = y ", "} "),
    "if and else": ("if (x != null) { x = x->n } else { ", "x = y ", "} "),
    "if in while": ("while (x != y) { if (*) { ", "x = y ", "} } "),
    "empty while": ("while (x != null) { ", "", "} "),
}


def blocks(kind, depth=199):
    """Blocks one in the other, so many braces deep."""
    first, within, last = BLOCKS[kind]
    times = depth // first.count("{") if kind != "if and else" else depth
    return source(SOURCE + first * times + within + last * times, ONE)


def many_blocks(kind, count):
    """Blocks one behind the other."""
    first, within, last = BLOCKS[kind]
    return source(SOURCE + (first + within + last) * count, ONE)


# ---- includes ----

def included(depth, leaf):
    """Files of which each includes the next one twice, and the last one's text."""
    words, files = analyze('#include "f1"\n' * 2 + TAIL)
    for k in range(1, depth):
        files[f"f{k}"] = f'#include "f{k + 1}"\n' * 2
    files[f"f{depth}"] = leaf
    return words, files


# ---- texts at random, deep or wide in some way ----

def some(rng, most):
    """A size of which each order of magnitude is as likely as another."""
    return max(1, round(most ** rng.random()))


def some_formula(rng, depth=DEEPEST - 10):
    """A closed formula of one kind of depth, or of one kind in another."""
    first, second = (DEEP[rng.choice(list(DEEP))] for _ in range(2))
    if rng.random() < 0.5:
        return first(some(rng, depth) + 1)
    high = some(rng, depth - 10)
    return first(high + 1).replace("b()", "(" + second(some(rng, depth - high) + 1) + ")", 1)


def some_body(rng, variables, width):
    """A function from names of definitions to a body of these, with so many atoms at most."""
    def atom(names):
        own = [rng.choice(variables) for _ in variables]
        return f"{rng.choice(names)}({', '.join(own)})"

    def body(names):
        atoms = [atom(names) for _ in range(some(rng, width))]
        how = rng.randrange(6)
        if how == 0:
            return "!" * some(rng, 180) + atoms[0]
        if how == 1:
            return f"{atoms[0]} ? {atoms[-1]} : {'!' * some(rng, 100)}{atoms[-1]}"
        if how == 2 and variables:
            held = variables[0]
            return f"E(z) (n({held}, z) & {atoms[0].replace(held, 'z')} | {' | '.join(atoms)})"
        if how == 3 and variables:
            return f"A(z) n(z, {variables[-1]}) -> {' & '.join(atoms)}"
        mark = rng.choice([" & ", " | ", " <-> ", " -> "])
        return mark.join(atoms)
    return body


CHANGES = ["b() = !b()", "c() = b()", "b() = 1/2", "x(v) = !x(v)", "x(v) = x(v) | b()",
           "x(v) = E(w) x(w) & n(w, v)", "n(v, w) = n(w, v)", "n(v, w) = n(v, w) & !x(v)"]
PARTS = ["", "", "%new ", "%retain !x(v) ", "%f { x(v) } ", "%f { b(), c() } ", "%p b() | c() ", "%p x(v) ",
         '%message b() & c() -> "m" ']
INITIALS = [EMPTY, ONE, "%n = {u, w} %p = { x = {u} n = {u->w:1/2} sm = {w:1/2} }", chain(4, "x = {u0}")]
RULES = ["%r b() & c() ==> 0\n", "%r x(v) & n(v, w) ==> !x(w)\n"]
BEGINNINGS = ["while (*) { ", "while (x != null) { ", "if (x == y) { ", "if (*) { } else { "]


def some_action(rng, name):
    changes = [rng.choice(CHANGES) for _ in range(rng.randrange(3))]
    updates = {change.split("(")[0]: change for change in changes}
    return f"%action {name}() {{ {rng.choice(PARTS)}{{ {' '.join(updates.values())} }} }}\n"


def some_call(rng, program, initial=None, differenced=True):
    """A call of some command on a program of the predicates of PREDS; whether with finite differencing,
    too."""
    initial = initial or rng.choice(INITIALS)
    most = ["--max-structures", rng.choice(["1", "20", "200"])]
    delta = ["--delta"] if differenced else []
    how = rng.randrange(8)
    if how == 0:
        return join(program, initial, *most)
    if how == 1:
        return check(program, initial, NO_REPORT, *rng.choice([[], ["--maps"], delta, ["--recompute"]]))
    return analyze(program, initial, *most, *rng.choice([[], ["--recompute"], delta, delta]))


def some_definitions(rng, count, width):
    """So many definitions, each of one or more of those declared before or behind it."""
    variables = rng.choice([(), (), ("a",), ("a", "c")])
    head = f"({', '.join(variables)})"
    first = ["b()", "x(a)", "n(a, c)"][len(variables)]
    near, same = rng.choice([1, 1, 1, 3, 30]), rng.random() < 0.6
    body = some_body(rng, variables, width)
    seed = rng.random()
    lines = [f"%i d0{head} = {first}\n"]
    for k in range(1, count):
        if same:
            rng.seed(seed)
        lines.append(f"%i d{k}{head} = {body([f'd{j}' for j in range(max(0, k - near), k)])}\n")
    return "".join(lines if rng.random() < 0.5 else reversed(lines))


def some_chain(rng):
    count = some(rng, 300)
    declared = PREDS + some_definitions(rng, count, max(1, min(90, 6000 // count)))
    # each of their updates may grow to 65,536 nodes
    acts = [f"F{k}" for k in range(some(rng, max(1, min(30, 300 // count))))]
    edges = "".join(f"L{rng.randrange(2)} {act}() L{rng.randrange(2)}\n" for act in acts)
    return some_call(rng, declared + "%%\n" + "".join(some_action(rng, act) for act in acts) + "%%\n" + edges)


def some_deep(rng):
    places = rng.sample(list(PLACES), 1 + rng.randrange(3))
    return some_call(rng, at_places(some_formula(rng), places), rng.choice([EMPTY, ONE]))


def some_higher(rng):
    """A chain of definitions whose updates by differencing are high, over a formula that doesn't change."""
    within = DEEP[rng.choice(list(DEEP))](some(rng, DEEPEST - 10) + 1) if rng.random() < 0.7 else "1"
    return higher(rng.choice(list(HIGHER)), some(rng, 506), within, rng.choice(["--delta"] * 3 + ["--recompute", ""]))


def some_wide(rng):
    count, defined = some(rng, 4000), some(rng, 200)
    declared = PREDS + some_definitions(rng, defined, 10)
    declared += "".join(rng.choice(RULES) for _ in range(some(rng, 500) - 1))
    acts = [f"F{k}" for k in range(count)]
    edges = "".join(f"L{rng.randrange(3)} {act}() L{rng.randrange(3)}\n" for act in acts)
    return some_call(rng, declared + "%%\n" + "".join(some_action(rng, act) for act in acts) + "%%\n" + edges,
                     differenced=count * defined <= 300)


def some_steps(rng):
    declared = PREDS + some_definitions(rng, some(rng, 200), 20)
    count = some(rng, 1000)
    acts = [f"F{k}" for k in range(count)]
    edges = "".join(f"L {act}() L\n" for act in acts)
    program = declared + "%%\n" + "".join(some_action(rng, act) for act in acts) + "%%\n" + edges
    ends = ["\n", "\n", " (0)\n"]
    trace = "".join(f"step {rng.randrange(count)}{rng.choice(ends)}" for _ in range(some(rng, 400)))
    return replay(program, rng.choice([EMPTY, ONE, chain(5, "x = {u0}")]), trace)


def some_blocks(rng):
    text, closed = "", []
    while len(text) < 50 + some(rng, 6000):
        how = rng.random()
        if how < 0.5 and len(closed) < 190:
            text += rng.choice(BEGINNINGS)
            closed.append("} ")
        elif how < 0.65 and closed:
            text += closed.pop()
        else:
            text += rng.choice(["x = y ", "y = x->n ", "x->n = y ", "x = new ", "y = null "])
    words, files = source(SOURCE + text + "".join(closed) + "x = y ", rng.choice([EMPTY, ONE]))
    return words + ["--max-structures", rng.choice(["20", "200", "2000"])], files


def some_report(rng):
    """A report whose structures have unknown values at different places; it covers some of what it has to."""
    flags = rng.randrange(1, 12)
    cells = rng.choice([[], [], ["u"], ["u", "w"]])
    value = lambda: rng.choice(["", "", " = 1", " = 1/2", " = 1/2"])
    items = lambda: ", ".join(u + rng.choice(["", "", ":1/2"]) for u in cells if rng.random() < 0.5)

    def structure(more):
        nullary = [f"f{k}{told}" for k in range(flags) for told in [value()] if told]
        unary = [f"{name} = {{{items()}}}" for name in "xy" if cells]
        sums = [f"sm = {{{u}:1/2}}" for u in cells[1:] if rng.random() < 0.3]
        return "%n = {" + ", ".join(cells) + "} %p = { " + " ".join([*nullary, *unary, *sums, *more]) + " }\n"

    declared = "".join(f"%p f{k}()\n" for k in range(flags)) + "%p g()\n%p x(v)\n%p y(v) nonabs\n"
    update = rng.choice(["g() = !g()", "g() = 1/2", f"f0() = f{flags - 1}()", "x(v) = y(v)"])
    program = declared + "%%\n%action F() { { " + update + " } }\n%%\nL F() M\n"
    listed = [structure([]) for _ in range(some(rng, 60))]
    after = [structure(rng.choice([[], ["g = 1"], ["g = 1/2"]])) for _ in range(some(rng, 60))]
    known = [text.replace(" }\n", " g = 1 }\n") for text in listed] if rng.random() < 0.5 else []
    blocks = [(name, list(dict.fromkeys(texts))) for name, texts in (("L", listed), ("M", after + known))]
    report = "".join(f"node {name} structures {len(texts)}\n{''.join(texts)}" for name, texts in blocks)
    initial = "".join(rng.sample(listed, rng.randrange(min(3, len(listed)) + 1)))
    return check(program, initial, f"tvla report 2\n{report}end\n", *rng.choice([[], [], ["--maps"]]))


def some_loops(rng):
    """Rules, updates and captions that foreach and arguments multiply, some with names that aren't declared."""
    words = [f"m{k}" for k in range(some(rng, 12))]
    names = rng.choice([["q"], ["q", "r[{0}]"], ["r[{0}]", "r[{0},{0}]"]])
    sets = "%s M {" + ", ".join(words) + "}\n" + rng.choice(["", "%s N M\n", "%s N M - {m0}\n"])
    over = ["M", "N"] if "%s N" in sets else ["M"]
    declared = "%p b()\n%p q(v)\nforeach (m in M) { %p r[m](v) }\n"
    name = lambda: rng.choice(names).format("z0")
    rule = f"%r b() & {name()}(v) ==> {rng.choice(['', '!'])}{name()}(v)"
    deep = rng.randrange(1, 4)
    rules = "".join(f"foreach (z{k} in {rng.choice(over)}) {{ " for k in range(deep)) + rule + " }" * deep + "\n"
    caption = "%t " + " + ".join(rng.choice(['a', '"is"', "v"]) for _ in range(some(rng, 200))) + " "
    action = "%action F(a) { " + rng.choice(["", caption, '%message b() -> "to " + a '])
    action += rng.choice(["", "{ b() = !b() }", "{ foreach (z0 in M) { r[z0](v) = q(v) } }"]) + " }\n"
    edges = "".join(f"L F({rng.choice(words)}) {rng.choice('LM')}\n" for _ in range(some(rng, 40)))
    program = sets + declared + rules + "%%\n" + action + "%%\n" + edges
    if rng.random() < 0.4:
        trace = "".join(f"step {rng.randrange(3)}\n" for _ in range(some(rng, 50)))
        return replay(program, rng.choice([EMPTY, ONE]), trace)
    return some_call(rng, program, rng.choice([EMPTY, ONE]))


def some_text(rng):
    """A text that is deep or wide: chains of definitions, formulas, updates that differencing makes high, many
    actions, steps of a replay, blocks, reports of many structures, what foreach multiplies."""
    kinds = [some_chain] * 4 + [some_deep] * 3 + [some_wide, some_report, some_loops] * 2
    return rng.choice(kinds + [some_higher, some_steps, some_blocks])(rng)
