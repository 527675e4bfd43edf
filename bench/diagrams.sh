#!/usr/bin/env bash
# Times the diagrams: the parity of 64 variables (bound: 50 ms), and 14 pairs in a bad order, 49,149 nodes (bounds:
# 1 second and 200 MB). Builds two small programs over a copy of the crate, as `rt run` does: each is proved first.
# Usage: bench/diagrams.sh [FOLDER], where FOLDER (default: a new one below /tmp) keeps the build for another run.
set -eu
. "$(dirname "$0")/../tools/workspace.sh"
work=${1:-$(mktemp -d)}
workspace "$work" bool_diagrams

# joining NAME BODY INVARIANT: a program that joins diagrams in a loop over v and prints what it holds
joining() {
    local crate="$work/crates/$1"
    program "$work" "$1" bool_diagrams
    mkdir -p "$crate/proofs/main"
    cat >"$crate/src/main.rt" <<RUST
//! Joins diagrams, to be timed.
#![tactic(auto)]

use bool_diagrams::Table;
use std::io;

fn main(rt: HostRuntime) -> io::Result<()> {
    let mut table = Table::new(rt.alloc())?;
$2
}
RUST
    cat >"$crate/proofs/main/Invariants.antt" <<ANTT
use Rattle.bool_diagrams.specs.Rows.{IsDiagram}
use Rattle.$1.proofs.main.Given as goal

abbrev pub invariant-loop-v : goal.invariant-loop-v
invariant-loop-v l = $3
ANTT
}

joining bench_parity '    let mut all = table.var(0)?;
    let mut even = table.var(0)?;
    let mut odd = table.var(1)?;
    for v in 1..64u32 {
        let next = table.var(v)?;
        all = table.iff(all, next)?;
        if v % 2 == 0 {
            even = table.iff(even, next)?;
        } else if v > 1 {
            odd = table.iff(odd, next)?;
        }
    }
    let both = table.iff(even, odd)?;
    let found = table.same(both, all) && table.eval(all, 0) && !table.eval(all, 1);
    println!(rt; "{found}")?;
    Ok(())' 'record { all_known : IsDiagram l.table l.all; even_known : IsDiagram l.table l.even; odd_known : IsDiagram l.table l.odd }'

joining bench_pairs '    let mut pairs = table.truth(true);
    for v in 0..14u32 {
        let left = table.var(v)?;
        let right = table.var(v + 14)?;
        let pair = table.iff(left, right)?;
        pairs = table.and(pairs, pair)?;
    }
    let found = table.eval(pairs, 0) && !table.eval(pairs, 1);
    println!(rt; "{found}")?;
    Ok(())' 'IsDiagram l.table l.pairs'

parity=$(build "$work" bench_parity)
pairs=$(build "$work" bench_pairs)

TIMEFORMAT='  %3R seconds'
echo "parity of 64 variables:"
time "$parity"
echo "14 pairs in a bad order, with at most 200 MB:"
time (ulimit -v 204800; "$pairs")
