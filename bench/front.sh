#!/usr/bin/env bash
# How long the front end takes from a text to its program: with ten times the items about ten times as long, up to the
# limits on rules, predicates, nodes, edges and actions. Nested `foreach` round nothing take no time.
# The texts are generated. The program runs unproved, by rt try, in a folder of its own that goes when the script ends.
source "$(dirname "$0")/scratch.sh"
copy_crates tv_front
echo 'measure: tv_front' >>"$scratch/crates.txt"
cat >"$scratch/crates/measure/src/main.rt" <<'MAIN'
// How long a program's text takes.
#![tactic(auto)]

use std::alloc::{AllocError, Global};
use std::io;
use std::time::CpuClock;
use tv_front::read_program;

/// A text: `before`, then for each number `part`, the next number, `middle`, the number and `end`, then `behind`.
struct Shape {
    name: &'static str,
    before: &'static str,
    part: &'static str,
    middle: &'static str,
    end: &'static str,
    behind: &'static str,
}

fn text_of(alloc: Global, shape: &Shape, times: usize) -> Result<String, AllocError> {
    let mut text = String::new(alloc);
    text.push_str(shape.before)?;
    for number in 0..times {
        let next = number + 1;
        text.push_str(shape.part)?;
        text.push_str(format!(in alloc; "{next}")?.as_str())?;
        text.push_str(shape.middle)?;
        text.push_str(format!(in alloc; "{number}")?.as_str())?;
        text.push_str(shape.end)?;
    }
    text.push_str(shape.behind)?;
    Ok(text)
}

fn answer(alloc: Global, text: &[u8]) -> &'static str {
    if text.len() > 67_108_864 {
        return "too long";
    }
    match read_program(alloc, text) {
        Ok(_) => "a program",
        Err(_) => "refused",
    }
}

/// The processor time, in microseconds, from a text of so many parts to its program, and what came of it.
fn measure(rt: &(impl Print + CpuClock + AllocGlobal), shape: &Shape, times: usize) -> io::Result<()> {
    let text = text_of(rt.alloc(), shape, times)?;
    let start = rt.thread_cpu_time()?;
    let found = answer(rt.alloc(), text.as_bytes());
    let end = rt.thread_cpu_time()?;
    let took = end.saturating_sub(start).as_micros();
    let name = shape.name;
    println!(rt; "{name}: {times}, {found} in {took} us")
}

fn both(rt: &(impl Print + CpuClock + AllocGlobal), shape: &Shape, times: usize) -> io::Result<()> {
    measure(rt, shape, times / 10)?;
    measure(rt, shape, times)
}

const RULES: Shape = Shape {
    name: "rules of eleven nodes",
    before: "%p x(v) %p y(v) %p n(v, w) ",
    part: "%r E(v) x(v) & (y(v) | !y(v)) & n*(v, w) ==> y(w) // ",
    middle: " ",
    end: "\n",
    behind: " %% %action a() {} %% L a() L",
};

const PREDICATES: Shape = Shape {
    name: "predicates",
    before: "",
    part: "%p q",
    middle: "(v) // ",
    end: "\n",
    behind: " %% %action a() {} %% L a() L",
};

const DEFINITIONS: Shape = Shape {
    name: "definitions, each by the one before",
    before: "%p q0() ",
    part: "%i q",
    middle: "() = !q",
    end: "() ",
    behind: "%% %action a() {} %% L a() L",
};

const NODES: Shape = Shape {
    name: "nodes",
    before: "%% %action a() {} %% ",
    part: "n",
    middle: " a() n1 // ",
    end: "\n",
    behind: "",
};

const EDGES: Shape = Shape {
    name: "edges",
    before: "%% %action a() {} %% ",
    part: "L a() L // ",
    middle: " ",
    end: "\n",
    behind: "",
};

const ACTIONS: Shape = Shape {
    name: "actions of one name, with an update each",
    before: "%p p() %% %action a(z) { %t z { p() = !p() } } %% ",
    part: "L a(z",
    middle: ") L // ",
    end: "\n",
    behind: "",
};

const MEMBERS: Shape = Shape {
    name: "members of a set, in two foreach round a rule",
    before: "%s S {b",
    part: ", a",
    middle: ", c",
    end: "",
    behind: "} foreach (x in S) { foreach (y in S) { %r 0 ==> 0 } } %% %action a() {} %% L a() L",
};

const IDLE: Shape = Shape {
    name: "members of a set, in three foreach round nothing",
    before: "%s S {b",
    part: ", a",
    middle: ", c",
    end: "",
    behind: "} foreach (x in S) { foreach (y in S) { foreach (z in S) { } } } %% %action a() {} %% L a() L",
};

fn main(rt: HostRuntime) -> io::Result<()> {
    both(&rt, &RULES, 65_000)?;
    both(&rt, &PREDICATES, 512)?;
    both(&rt, &DEFINITIONS, 510)?;
    both(&rt, &NODES, 4_096)?;
    both(&rt, &EDGES, 16_384)?;
    both(&rt, &ACTIONS, 16_384)?;
    measure(&rt, &MEMBERS, 126)?;
    both(&rt, &IDLE, 100_000)
}
MAIN
cd "$scratch/crates/measure"
rt try --seconds 600 >"$scratch/log" 2>&1 || { tail -n 20 "$scratch/log"; exit 1; }
grep ' us$' "$scratch/log" | awk '{
  print
  split($0, parts, ":")
  if (parts[1] == name) printf "  %.1f to one\n", $(NF - 1) / took
  name = parts[1]
  took = $(NF - 1)
}'
