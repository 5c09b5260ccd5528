#!/usr/bin/env bash
# How long coerce takes, as ratios in one run:
#   a change that touches four of 160 rules over 40 predicates: trying all rules against trying those that see it, at
#   least 10 to one;
#   a rule of five variables, each tied by an atom, over 16 individuals against the same over 8: at most 20 to one.
# The program runs unproved, by rt try, in a folder of its own that goes when the script ends.
source "$(dirname "$0")/scratch.sh"
copy_crates tv_coerce
echo 'measure: tv_coerce tv_eval tv_kleene tv_model tv_rules tv_struct' >>"$scratch/crates.txt"
cat >"$scratch/crates/measure/src/main.rt" <<'MAIN'
// How long coerce takes.
#![tactic(auto)]

use std::alloc::{AllocError, Global};
use std::io;
use std::time::CpuClock;
use tv_coerce::{RuleSet, coerce, coerce_waiting};
use tv_eval::Scratch;
use tv_kleene::K3;
use tv_model::{Formula, Head, Items, Kind, Pred, PredId, Program, Props, Rule, Rules, Terms, Var, Vocab};
use tv_rules::close_rules;
use tv_struct::{Structure, Tuple};

const NO_PROPS: Props = Props {
    unique: false,
    function: false,
    invfunction: false,
    transitive: false,
    reflexive: false,
    symmetric: false,
};

// four rules: one of reflexivity, and one of transitivity with what follows about its two conjuncts
const ORDERED: Props = Props { transitive: true, reflexive: true, ..NO_PROPS };

fn pred(alloc: Global, arity: u8, props: Props) -> Pred {
    Pred { name: Items::new(alloc), arity, kind: Kind::Core, abs: true, props }
}

fn program_of(alloc: Global, vocab: Vocab, rules: Rules) -> Program {
    Program {
        vocab,
        rules,
        actions: Items::new(alloc),
        edges: Items::new(alloc),
        nodes: Items::new(alloc),
    }
}

/// The identity, and a chain from 0 over 1 to 2 of the first predicate, of which one pair is unknown.
fn orders(alloc: Global, program: &Program, size: u32) -> Result<Structure, AllocError> {
    let mut s = Structure::new(alloc, &program.vocab, size)?;
    for p in 0..40 {
        for u in 0..size {
            s.set(PredId(p), Tuple::Two(u, u), K3::Yes);
        }
    }
    s.set(PredId(0), Tuple::Two(0, 1), K3::Yes);
    s.set(PredId(0), Tuple::Two(1, 2), K3::Yes);
    s.set(PredId(0), Tuple::Two(0, 2), K3::Half);
    Ok(s)
}

fn many_rules(rt: &(impl Print + CpuClock + AllocGlobal)) -> io::Result<()> {
    let alloc = rt.alloc();
    let mut preds = Items::new(alloc);
    for _ in 0..40 {
        preds.push(pred(alloc, 2, ORDERED))?;
    }
    let program = program_of(alloc, Vocab { preds }, Items::new(alloc));
    let closed = close_rules(alloc, &program)?;
    let s = orders(alloc, &program, 8)?;
    let mut scratch = Scratch::new(alloc, &program, 256)?;
    let mut few = RuleSet::of_none(alloc, &closed)?;
    few.add_pred(&closed, PredId(0));
    let start = rt.thread_cpu_time()?;
    let all = coerce(alloc, &closed, &s, &mut scratch)?;
    let middle = rt.thread_cpu_time()?;
    let watched = coerce_waiting(alloc, &closed, &s, &few, &mut scratch)?;
    let end = rt.thread_cpu_time()?;
    let count = closed.count();
    let same = all == watched;
    let by_all = middle.saturating_sub(start).as_micros();
    let by_few = end.saturating_sub(middle).as_micros();
    println!(rt; "{count} rules: all tried in {by_all} us, those that see a change in {by_few} us")?;
    let tenths = by_all.saturating_mul(10) / by_few.max(1);
    println!(rt; "ratio, in tenths, of all rules to those that see a change: {tenths} (the same answer: {same})")
}

fn and(alloc: Global, f: Formula, g: Formula) -> Result<Formula, AllocError> {
    Ok(Formula::And(Box::new(alloc, f)?, Box::new(alloc, g)?))
}

// x(v0) & n(v0, v1) & n(v1, v2) & n(v2, v3) & y(v4) & n(v3, v4) ==> p(v0, v4)
fn five(alloc: Global) -> Result<Rule, AllocError> {
    let mut body = Formula::Atom(PredId(0), Terms::One(Var(0)));
    for v in 0..4 {
        body = and(alloc, body, Formula::Atom(PredId(2), Terms::Two(Var(v), Var(v + 1))))?;
    }
    body = and(alloc, body, Formula::Atom(PredId(1), Terms::One(Var(4))))?;
    Ok(Rule { body, head: Head::Atom(true, PredId(3), Terms::Two(Var(0), Var(4))) })
}

fn five_variables(rt: &(impl Print + CpuClock + AllocGlobal), size: u32) -> io::Result<u128> {
    let alloc = rt.alloc();
    let mut preds = Items::new(alloc);
    preds.push(pred(alloc, 1, NO_PROPS))?;
    preds.push(pred(alloc, 1, NO_PROPS))?;
    preds.push(pred(alloc, 2, NO_PROPS))?;
    preds.push(pred(alloc, 2, NO_PROPS))?;
    let mut rules = Items::new(alloc);
    rules.push(five(alloc)?)?;
    let program = program_of(alloc, Vocab { preds }, rules);
    let closed = close_rules(alloc, &program)?;
    let mut s = Structure::new(alloc, &program.vocab, size)?;
    for u in 1..size {
        s.set(PredId(2), Tuple::Two(u - 1, u), K3::Yes);
    }
    s.set(PredId(0), Tuple::One(0), K3::Yes);
    s.set(PredId(1), Tuple::One(4), K3::Yes);
    s.set(PredId(3), Tuple::Two(0, 4), K3::Half);
    let mut scratch = Scratch::new(alloc, &program, 256)?;
    let start = rt.thread_cpu_time()?;
    let found = coerce(alloc, &closed, &s, &mut scratch)?;
    let end = rt.thread_cpu_time()?;
    let took = end.saturating_sub(start).as_micros();
    let told = found.map_or(K3::No, |t| t.get(PredId(3), Tuple::Two(0, 4)));
    println!(rt; "five variables, {size} individuals: {told:?} in {took} us")?;
    Ok(took)
}

fn main(rt: HostRuntime) -> io::Result<()> {
    many_rules(&rt)?;
    let small = five_variables(&rt, 8)?;
    let large = five_variables(&rt, 16)?;
    let tenths = large.saturating_mul(10) / small.max(1);
    println!(rt; "ratio, in tenths, of 16 to 8 individuals: {tenths}")
}
MAIN
cd "$scratch/crates/measure"
rt try >"$scratch/log" 2>&1 || { tail -n 20 "$scratch/log"; exit 1; }
grep -e ' us' -e '^ratio' "$scratch/log"
