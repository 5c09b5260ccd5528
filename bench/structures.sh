#!/usr/bin/env bash
# How long copies of structures of 40 predicates and their adding to a listing take, over the nested lists that held
# values before the planes of bits, and over these: the ratio says how much faster the planes are. The nested lists are
# those of the last commit that had crates/tv_struct/src/plane.rt; without the repository's history nothing is measured.
# The programs run unproved, by rt try, in folders of their own that go when the script ends.
source "$(dirname "$0")/scratch.sh"
last=$(git log -n 1 --diff-filter=D --format=%H -- crates/tv_struct/src/plane.rt)
[ -n "$last" ] || { echo "the history has no table of nested lists"; exit 1; }
mkdir "$scratch/old" && git archive "$last^" | tar -x -C "$scratch/old"
copy_crates tv_listing
echo 'measure: tv_kleene tv_listing tv_model tv_struct' >>"$scratch/crates.txt"
cat >"$scratch/crates/measure/src/main.rt" <<'MAIN'
// How long copies of structures and their adding to a listing take.
#![tactic(auto)]

use std::alloc::{AllocError, Global};
use std::io;
use std::time::CpuClock;
use tv_kleene::K3;
use tv_listing::Listing;
use tv_model::{Items, Kind, Pred, PredId, Props, Vocab};
use tv_struct::{Structure, Tuple};

const NO_PROPS: Props = Props {
    unique: false,
    function: false,
    invfunction: false,
    transitive: false,
    reflexive: false,
    symmetric: false,
};

fn vocabulary(alloc: Global) -> Result<Vocab, AllocError> {
    let mut preds = Items::new(alloc);
    for p in 0..40u32 {
        let arity = if p < 8 { 0 } else if p < 28 { 1 } else { 2 };
        preds.push(Pred { name: Items::new(alloc), arity, kind: Kind::Core, abs: true, props: NO_PROPS })?;
    }
    Ok(Vocab { preds })
}

fn base(alloc: Global, vocab: &Vocab, size: u32) -> Result<Structure, AllocError> {
    let mut s = Structure::new(alloc, vocab, size)?;
    for u in 0..size {
        for p in 8..28 {
            if (u + p) % 3 == 1 { s.set(PredId(p), Tuple::One(u), K3::Yes); }
        }
        for w in 0..size {
            for p in 28..40 {
                if (u * w + p) % 3 == 0 { s.set(PredId(p), Tuple::Two(u, w), K3::Half); }
            }
        }
    }
    Ok(s)
}

fn measure(rt: &(impl Print + CpuClock + AllocGlobal), size: u32, turns: u32) -> io::Result<u128> {
    let alloc = rt.alloc();
    let vocab = vocabulary(alloc)?;
    let mut s = base(alloc, &vocab, size)?;
    let mut listing = Listing::new(alloc, 1)?;
    let mut new: u32 = 0;
    let start = rt.thread_cpu_time()?;
    for i in 0..turns {
        let bits = i / 2;
        for p in 0..8 {
            s.set(PredId(p), Tuple::Zero, if (bits >> p) % 2 == 1 { K3::Yes } else { K3::No });
        }
        let t = s.copy(alloc)?;
        if listing.add(0, t)? { new = new.saturating_add(1); }
    }
    let end = rt.thread_cpu_time()?;
    let took = end.saturating_sub(start).as_micros();
    println!(rt; "{size} individuals: {turns} structures copied and added, {new} new, in {took} us")?;
    Ok(took)
}

fn main(rt: HostRuntime) -> io::Result<()> {
    measure(&rt, 8, 512)?;
    measure(&rt, 20, 512)?;
    Ok(())
}
MAIN
mkdir -p "$scratch/old/crates/measure/src"
# there the listing stood in tv_struct
sed -e 's/^use tv_listing::Listing;$/use tv_struct::Listing;/' "$scratch/crates/measure/src/main.rt" >"$scratch/old/crates/measure/src/main.rt"
echo 'measure: tv_kleene tv_model tv_struct' >>"$scratch/old/crates.txt"
run() { # run FOLDER: the times, a line each
  (cd "$1/crates/measure" && rt try --seconds 3000 >"$scratch/log" 2>&1) || { tail -n 20 "$scratch/log"; exit 1; }
  grep ' us$' "$scratch/log"
}
run "$scratch/old" | tee "$scratch/before"
run "$scratch" | tee "$scratch/after"
paste "$scratch/before" "$scratch/after" | awk '{ print "ratio", $1, $2, $11 / $23 }'
