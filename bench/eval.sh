#!/usr/bin/env bash
# How long closures and rows of values take, in chains, as ratios in one run:
#   all pairs of "v reaches w" in a chain of 200 against one of 100: at most 8 to one, by rows and one by one;
#   all pairs by rows against one closing at 100 individuals: at most 3 to one;
#   a formula's row over 60 individuals against 60 values: without quantifiers at least 10 times faster.
# The program runs unproved, by rt try, in a folder of its own that goes when the script ends.
source "$(dirname "$0")/scratch.sh"
copy_crates tv_eval
echo 'measure: tv_eval tv_kleene tv_model tv_row tv_struct' >>"$scratch/crates.txt"
cat >"$scratch/crates/measure/src/main.rt" <<'MAIN'
// How long closures and rows take.
#![tactic(auto)]

use std::alloc::{AllocError, Global};
use std::io;
use std::time::CpuClock;
use tv_eval::{Assignment, Evaluator, Scratch, eval};
use tv_kleene::K3;
use tv_model::{Formula, Items, Kind, Pred, PredId, Program, Props, Terms, Var, Vocab};
use tv_struct::{Structure, Tuple};

const NO_PROPS: Props = Props {
    unique: false,
    function: false,
    invfunction: false,
    transitive: false,
    reflexive: false,
    symmetric: false,
};

fn program(alloc: Global) -> Result<Program, AllocError> {
    let mut preds = Items::new(alloc);
    preds.push(Pred { name: Items::new(alloc), arity: 2, kind: Kind::Core, abs: true, props: NO_PROPS })?;
    preds.push(Pred { name: Items::new(alloc), arity: 1, kind: Kind::Core, abs: true, props: NO_PROPS })?;
    Ok(Program {
        vocab: Vocab { preds },
        rules: Items::new(alloc),
        actions: Items::new(alloc),
        edges: Items::new(alloc),
        nodes: Items::new(alloc),
    })
}

fn walk(alloc: Global, from: Var, to: Var) -> Result<Formula, AllocError> {
    let edge = Formula::Atom(PredId(0), Terms::Two(Var(2), Var(3)));
    let some = Formula::Closure { from, to, left: Var(2), right: Var(3), body: Box::new(alloc, edge)? };
    Ok(Formula::Or(Box::new(alloc, Formula::Same(from, to))?, Box::new(alloc, some)?))
}

// E(w) n(v, w) & x(w), or v has no x
fn plain(alloc: Global) -> Result<Formula, AllocError> {
    let next = Formula::Atom(PredId(0), Terms::Two(Var(0), Var(1)));
    let held = Formula::Atom(PredId(1), Terms::One(Var(1)));
    let both = Formula::And(Box::new(alloc, next)?, Box::new(alloc, held)?);
    let some = Formula::Exists(Var(1), Box::new(alloc, both)?);
    let own = Formula::Not(Box::new(alloc, Formula::Atom(PredId(1), Terms::One(Var(0))))?);
    let same = Formula::Atom(PredId(0), Terms::Two(Var(0), Var(0)));
    let not_same = Formula::Not(Box::new(alloc, same)?);
    Ok(Formula::And(Box::new(alloc, Formula::Or(Box::new(alloc, some)?, Box::new(alloc, own)?))?, Box::new(alloc, not_same)?))
}

// x(v) & !n(v, v) | n(v, u)
fn flat(alloc: Global) -> Result<Formula, AllocError> {
    let own = Formula::Atom(PredId(1), Terms::One(Var(0)));
    let to = Formula::Atom(PredId(0), Terms::Two(Var(0), Var(1)));
    let back = Formula::Atom(PredId(0), Terms::Two(Var(1), Var(0)));
    let left = Formula::And(Box::new(alloc, own)?, Box::new(alloc, Formula::Not(Box::new(alloc, to)?))?);
    Ok(Formula::Or(Box::new(alloc, left)?, Box::new(alloc, back)?))
}

fn chain(alloc: Global, program: &Program, size: u32) -> Result<Structure, AllocError> {
    let mut s = Structure::new(alloc, &program.vocab, size)?;
    for u in 1..size {
        s.set(PredId(0), Tuple::Two(u - 1, u), K3::Yes);
        s.set(PredId(1), Tuple::One(u), K3::Half);
    }
    Ok(s)
}

fn all_pairs(rt: &(impl Print + CpuClock + AllocGlobal), size: u32, by_rows: bool) -> io::Result<u128> {
    let alloc = rt.alloc();
    let program = program(alloc)?;
    let f = walk(alloc, Var(0), Var(1))?;
    let s = chain(alloc, &program, size)?;
    let mut scratch = Scratch::new(alloc, &program, size)?;
    let start = rt.thread_cpu_time()?;
    let mut evaluator = Evaluator::new(&s, &mut scratch);
    let mut yes: u32 = 0;
    for u in 0..size {
        let a = Assignment::new().with(Var(0), u);
        if by_rows {
            let row = evaluator.row(&f, Var(1), &a);
            for w in 0..size {
                if row.get(w) == K3::Yes { yes = yes.saturating_add(1); }
            }
        } else {
            for w in 0..size {
                if evaluator.value(&f, &a.with(Var(1), w)) == K3::Yes { yes = yes.saturating_add(1); }
            }
        }
    }
    evaluator.finish(&mut scratch);
    let end = rt.thread_cpu_time()?;
    let took = end.saturating_sub(start).as_micros();
    println!(rt; "{size} individuals, all pairs, by rows {by_rows}: {yes} in {took} us")?;
    Ok(took)
}

fn one(rt: &(impl Print + CpuClock + AllocGlobal), size: u32) -> io::Result<u128> {
    let alloc = rt.alloc();
    let program = program(alloc)?;
    let f = walk(alloc, Var(0), Var(1))?;
    let s = chain(alloc, &program, size)?;
    let mut scratch = Scratch::new(alloc, &program, size)?;
    let start = rt.thread_cpu_time()?;
    let k = eval(&f, &s, &Assignment::new().with(Var(0), 0).with(Var(1), size - 1), &mut scratch);
    let end = rt.thread_cpu_time()?;
    let took = end.saturating_sub(start).as_micros();
    println!(rt; "{size} individuals, one closing: {k:?} in {took} us")?;
    Ok(took)
}

fn rows(rt: &(impl Print + CpuClock + AllocGlobal), f: &Formula, free: bool, name: &str) -> io::Result<()> {
    let alloc = rt.alloc();
    let program = program(alloc)?;
    let s = chain(alloc, &program, 60)?;
    let mut scratch = Scratch::new(alloc, &program, 60)?;
    let mut evaluator = Evaluator::new(&s, &mut scratch);
    let b = if free { Assignment::new().with(Var(1), 7) } else { Assignment::new() };
    let start = rt.thread_cpu_time()?;
    let mut n: u32 = 0;
    for _ in 0..20 {
        if evaluator.row(f, Var(0), &b).has_possible() { n = n.saturating_add(1); }
    }
    let middle = rt.thread_cpu_time()?;
    for _ in 0..20 {
        for u in 0..60 {
            if evaluator.value(f, &b.with(Var(0), u)) != K3::No { n = n.saturating_add(1); }
        }
    }
    let end = rt.thread_cpu_time()?;
    evaluator.finish(&mut scratch);
    let by_row = middle.saturating_sub(start).as_micros();
    let single = end.saturating_sub(middle).as_micros();
    let tenths = single.saturating_mul(10) / by_row.max(1);
    println!(rt; "ratio, in tenths, of 60 values to a row, {name}: {tenths} ({single} us to {by_row} us, {n})")
}

fn main(rt: HostRuntime) -> io::Result<()> {
    let c = one(&rt, 100)?;
    let once = all_pairs(&rt, 100, false)?;
    let once_r = all_pairs(&rt, 100, true)?;
    let twice = all_pairs(&rt, 200, false)?;
    let twice_r = all_pairs(&rt, 200, true)?;
    let r1 = twice.saturating_mul(10) / once.max(1);
    let r2 = twice_r.saturating_mul(10) / once_r.max(1);
    let r3 = once.saturating_mul(10) / c.max(1);
    let r4 = once_r.saturating_mul(10) / c.max(1);
    println!(rt; "ratio, in tenths, of 200 to 100 individuals: one by one {r1}, by rows {r2}")?;
    println!(rt; "ratio, in tenths, of all pairs to one closing: one by one {r3}, by rows {r4}")?;
    let alloc = rt.alloc();
    rows(&rt, &plain(alloc)?, false, "with a quantifier")?;
    rows(&rt, &flat(alloc)?, true, "without quantifiers")
}
MAIN
cd "$scratch/crates/measure"
rt try >"$scratch/log" 2>&1 || { tail -n 20 "$scratch/log"; exit 1; }
grep -e ' us$' -e '^ratio' "$scratch/log"
