#!/usr/bin/env bash
# How long the tree of a program takes: ten times the text is to take about ten times as long, 200 nested implications
# are read at once, and 4 MiB of what opens constructs is refused at once.
# The texts are generated. The program stands in a folder of its own that goes when the script ends.
source "$(dirname "$0")/scratch.sh"
copy_crates tv_parse
echo 'measure: tv_lex tv_parse' >>"$scratch/crates.txt"
cat >"$scratch/crates/measure/src/main.rt" <<'MAIN'
// How long a program's tree takes.
#![tactic(auto)]

use std::alloc::{AllocError, Global};
use std::io;
use std::time::CpuClock;
use tv_lex::lex;
use tv_parse::{ParseError, parse_program};

// `before`, so many times `part`, and `behind`.
fn text_of(alloc: Global, before: &[u8], part: &[u8], times: usize, behind: &[u8]) -> Result<Vec<u8>, AllocError> {
    let mut text = before.to_vec(alloc)?;
    for _ in 0..times {
        text.extend_from_slice(part)?;
    }
    text.extend_from_slice(behind)?;
    Ok(text)
}

fn answer(alloc: Global, text: &[u8]) -> &'static str {
    if text.len() > 67_108_864 {
        return "too long";
    }
    let Ok(tokens) = lex(alloc, text) else {
        return "no tokens";
    };
    match parse_program(alloc, text, &tokens) {
        Ok(_) => "a tree",
        Err(ParseError::Syntax(_)) => "no program",
        Err(ParseError::TooDeep) => "too deep",
        Err(ParseError::Memory) => "no memory",
    }
}

/// The processor time, in microseconds, that tokens and tree of a text took, and what came of it.
fn measure(rt: &(impl Print + CpuClock + AllocGlobal), name: &str, text: &[u8]) -> io::Result<()> {
    let start = rt.thread_cpu_time()?;
    let found = answer(rt.alloc(), text);
    let end = rt.thread_cpu_time()?;
    let took = end.saturating_sub(start).as_micros();
    println!(rt; "{name}: {found} in {took} us")
}

fn main(rt: HostRuntime) -> io::Result<()> {
    let a = rt.alloc();
    let rule = b"%r E(v) x[f](v) & (y(v) | !z(v)) -> n(v, w) ==> 0\n";
    measure(&rt, "400 KB of rules", &text_of(a, b"", rule, 8_000, b"%%%%")?)?;
    measure(&rt, "4 MB of rules", &text_of(a, b"", rule, 80_000, b"%%%%")?)?;
    measure(&rt, "200 implications", &text_of(a, b"%r ", b"a() -> ", 199, b"a() ==> 0 %%%%")?)?;
    measure(&rt, "4 MiB of a set", &text_of(a, b"%s S a", b"+a", 2_097_000, b"%%%%")?)?;
    measure(&rt, "4 MiB of (", &text_of(a, b"%r ", b"(", 4_194_000, b"")?)?;
    measure(&rt, "4 MiB of !", &text_of(a, b"%r ", b"!", 4_194_000, b"")?)?;
    measure(&rt, "4 MiB of {", &text_of(a, b"%s S ", b"{", 4_194_000, b"")?)?;
    measure(&rt, "quantifiers", &text_of(a, b"%r ", b"E(v)", 1_000_000, b"")?)
}
MAIN
cd "$scratch/crates/measure"
rt run >"$scratch/log" 2>&1 || { tail -n 20 "$scratch/log"; exit 1; }
grep ' us$' "$scratch/log"
