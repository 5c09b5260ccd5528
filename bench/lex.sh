#!/usr/bin/env bash
# How long the tokens of a text take: ten times the text is to take about ten times as long.
# The text is generated. The program stands in a folder of its own that goes when the script ends.
source "$(dirname "$0")/scratch.sh"
copy_crates tv_lex
echo 'measure: tv_lex' >>"$scratch/crates.txt"
cat >"$scratch/crates/measure/src/main.rt" <<'MAIN'
// How long a text of a given length takes.
#![tactic(auto)]

use std::alloc::{AllocError, Global};
use std::io;
use std::time::CpuClock;
use tv_lex::{lex, place};

fn text_of(alloc: Global, len: usize) -> Result<Vec<u8>, AllocError> {
    let line = b"  points_to_next[first_list](first_cell, second_cell) = \"a string of some length\" // and a comment\n";
    let mut text = Vec::new(alloc);
    for _ in 0..len / 100 {
        text.extend_from_slice(line)?;
    }
    Ok(text)
}

/// The shortest processor times, in microseconds, that lexing a text and finding the place of its end took.
fn measure(rt: &(impl Print + CpuClock + AllocGlobal), len: usize) -> io::Result<()> {
    let text = text_of(rt.alloc(), len)?;
    let mut count = 0;
    let mut lexed = u128::MAX;
    let mut placed = u128::MAX;
    for _ in 0..10 {
        if text.len() > 67_108_864 {
            return Ok(());
        }
        let start = rt.thread_cpu_time()?;
        let tokens = lex(rt.alloc(), &text);
        let end = rt.thread_cpu_time()?;
        lexed = lexed.min(end.saturating_sub(start).as_micros());
        if let Ok(tokens) = tokens {
            count = tokens.list.len();
        }
        let start = rt.thread_cpu_time()?;
        let _end = place(&text, text.len());
        let end = rt.thread_cpu_time()?;
        placed = placed.min(end.saturating_sub(start).as_micros());
    }
    println!(rt; "{len} bytes: {count} tokens in {lexed} us, the place of the end in {placed} us")
}

fn main(rt: HostRuntime) -> io::Result<()> {
    measure(&rt, 419_430)?;
    measure(&rt, 4_194_304)
}
MAIN
cd "$scratch/crates/measure"
rt run >"$scratch/log" 2>&1 || { tail -n 20 "$scratch/log"; exit 1; }
grep ' tokens in ' "$scratch/log"
