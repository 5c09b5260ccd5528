#!/usr/bin/env bash
# How long a stage of focus takes where x is unknown of six summaries and of seven: 729 and 2,187 structures. Three times
# as many structures, each a little larger, take at most four times as long.
# The program runs unproved, by rt try, in a folder of its own that goes when the script ends.
source "$(dirname "$0")/scratch.sh"
copy_crates tv_focus
echo 'measure: tv_focus tv_kleene tv_model tv_struct' >>"$scratch/crates.txt"
cat >"$scratch/crates/measure/src/main.rt" <<'MAIN'
// How long a stage of focus takes.
#![tactic(auto)]

use std::alloc::{AllocError, Global};
use std::io;
use std::time::CpuClock;
use tv_focus::focus_stage;
use tv_kleene::K3;
use tv_model::{Formula, Items, Kind, Pred, PredId, Props, Terms, Var, Vocab};
use tv_struct::{Structure, Tuple};

const NO_PROPS: Props = Props {
    unique: false,
    function: false,
    invfunction: false,
    transitive: false,
    reflexive: false,
    symmetric: false,
};

fn vocabulary(alloc: Global) -> Result<Vocab, AllocError> {
    let mut preds = Items::new(alloc);
    for _ in 0..4 {
        preds.push(Pred { name: Items::new(alloc), arity: 1, kind: Kind::Core, abs: true, props: NO_PROPS })?;
    }
    preds.push(Pred { name: Items::new(alloc), arity: 2, kind: Kind::Core, abs: true, props: NO_PROPS })?;
    Ok(Vocab { preds })
}

/// Summaries that three predicates tell apart, and of which the last is unknown.
fn summaries(alloc: Global, vocab: &Vocab, size: u32) -> Result<Structure, AllocError> {
    let mut s = Structure::new(alloc, vocab, size)?;
    for u in 0..size {
        s.set_summary(u, true);
        for p in 0..3 {
            if (u >> p) % 2 == 1 {
                s.set(PredId(p), Tuple::One(u), K3::Yes);
            }
        }
        s.set(PredId(3), Tuple::One(u), K3::Half);
        for w in 0..size {
            s.set(PredId(4), Tuple::Two(u, w), K3::Half);
        }
    }
    Ok(s)
}

/// The processor time, in microseconds, that a stage took.
fn measure(rt: &(impl Print + CpuClock + AllocGlobal), size: u32) -> io::Result<u128> {
    let alloc = rt.alloc();
    let vocab = vocabulary(alloc)?;
    let f = Formula::Atom(PredId(3), Terms::One(Var(0)));
    let s = summaries(alloc, &vocab, size)?;
    let start = rt.thread_cpu_time()?;
    let found = focus_stage(alloc, &vocab, &f, 0, &s).map_or(0, |found| found.len());
    let end = rt.thread_cpu_time()?;
    let took = end.saturating_sub(start).as_micros();
    println!(rt; "{size} summaries: {found} structures in {took} us")?;
    Ok(took)
}

fn main(rt: HostRuntime) -> io::Result<()> {
    let six = measure(&rt, 6)?;
    let seven = measure(&rt, 7)?;
    let tenths = seven.saturating_mul(10) / six.max(1);
    let whole = tenths / 10;
    let part = tenths % 10;
    println!(rt; "ratio {whole}.{part}")
}
MAIN
cd "$scratch/crates/measure"
rt try >"$scratch/log" 2>&1 || { tail -n 20 "$scratch/log"; exit 1; }
grep -e ' us$' -e '^ratio' "$scratch/log"
