#!/usr/bin/env bash
# Builds a program that eliminates and solves systems of rows, for the bench, outside the gate.
# It reads lines `kind width variable numbers ..`: kind 0 is an elimination, kind 1 a solving by elimination, kind 2 one by
# pivots, and kind 3 only reads the line; each row is its constant and then its coefficients. It answers a line for each.
# Usage: tools/elimination_driver.sh FOLDER      (prints the program's path)
set -eu
. "$(dirname "$0")/workspace.sh"
work=$1
workspace "$work" simplex
program "$work" driver linear_rows fourier simplex
mkdir -p "$work/crates/driver/proofs/row" "$work/crates/driver/proofs/rows"
cat >"$work/crates/driver/src/main.rt" <<'RUST'
// Answers lines `kind width variable numbers ..`, of which kind 0 is an elimination, 1 and 2 are solvings.
#![tactic(auto)]

ghost use Rattle.std.specs.Prelude.{◌≡◌, IfOk, length};
ghost use Rattle.linear_rows.specs.Plain.{HaveWidth};

use fourier::{eliminate, ElimFault, Solved};
use linear_rows::{Numbers, Row, Rows};
use std::alloc::{AllocError, Global};
use std::io;
use std::io::Print;

fn row(alloc: Global, width: u32, numbers: &[i128]) -> Result<Row, AllocError>
    ensures { IfOk result (λ row. length row.coeffs ≡ width) }
{
    let mut coeffs = Numbers::new(alloc);
    for k in 0..width as usize {
        let number = if k + 1 < numbers.len() { numbers[k + 1] } else { 0 };
        coeffs.push(number)?;
    }
    let constant = if numbers.len() > 0 { numbers[0] } else { 0 };
    Ok(Row { constant, coeffs })
}

fn rows(alloc: Global, width: u32, numbers: &[i128]) -> Result<Rows, AllocError>
    ensures rows { IfOk result (λ rows. HaveWidth rows.width rows.list) }
    ensures width { IfOk result (λ rows. rows.width ≡ width) }
{
    let mut rows = Rows::new(alloc, width);
    let mut at = 0usize;
    while at < numbers.len() {
        let rest = &numbers[at..];
        rows.push(row(alloc, width, rest)?)?;
        at = at.saturating_add(width as usize + 1);
    }
    Ok(rows)
}

fn print_numbers(rt: &impl Print, numbers: &[i128]) -> io::Result<()> {
    for number in numbers {
        print!(rt; " {number}")?;
    }
    Ok(())
}

fn print_fault(rt: &impl Print, fault: ElimFault) -> io::Result<()> {
    match fault {
        ElimFault::Blown { step, wide } => println!(rt; "blown {step} {wide}"),
        ElimFault::Memory => println!(rt; "memory"),
    }
}

fn answer_eliminate(rt: &impl Print, alloc: Global, width: u32, var: u32, numbers: &[i128]) -> io::Result<()> {
    if width == 0 || var >= width {
        return Ok(());
    }
    let given = match rows(alloc, width, numbers) {
        Ok(given) => given,
        Err(_) => return Ok(()),
    };
    match eliminate(alloc, &given, var) {
        Ok(left) => {
            print!(rt; "rows")?;
            for i in 0..left.list.len() {
                let row = left.list.get(i);
                print!(rt; " | {}", row.constant)?;
                print_numbers(rt, row.coeffs.as_slice())?;
            }
            println!(rt; "")
        }
        Err(fault) => print_fault(rt, fault),
    }
}

fn answer_solve(rt: &impl Print, alloc: Global, kind: i128, width: u32, numbers: &[i128]) -> io::Result<()> {
    let given = match rows(alloc, width, numbers) {
        Ok(given) => given,
        Err(_) => return Ok(()),
    };
    if kind > 2 {
        return println!(rt; "{} rows", given.list.len());
    }
    let solved = if kind == 1 {
        fourier::solve(alloc, &given)
    } else {
        simplex::solve(alloc, &given)
    };
    match solved {
        Ok(Solved::Point(point)) => {
            print!(rt; "point {} |", point.t)?;
            print_numbers(rt, point.w.as_slice())?;
            println!(rt; "")
        }
        Ok(Solved::Refuted(by)) => {
            print!(rt; "refuted {} |", by.scale)?;
            print_numbers(rt, by.list.as_slice())?;
            println!(rt; "")
        }
        Err(fault) => print_fault(rt, fault),
    }
}

fn numbers_of(alloc: Global, text: &str) -> Result<Vec<i128>, AllocError> {
    let mut numbers = Vec::new(alloc);
    for word in text.split(' ') {
        match word.parse::<i128>() {
            Ok(number) => numbers.push(number)?,
            Err(_) => {}
        }
    }
    Ok(numbers)
}

fn main(rt: HostRuntime) -> io::Result<()> {
    let alloc = rt.alloc();
    for line in rt.lines(alloc) {
        let text = line?;
        let numbers = match numbers_of(alloc, text.as_str()) {
            Ok(numbers) => numbers,
            Err(_) => return Ok(()),
        };
        if numbers.len() >= 3 {
            let width = (numbers[1].unsigned_abs() % 100) as u32;
            let var = (numbers[2].unsigned_abs() % 100) as u32;
            if numbers[0] == 0 {
                answer_eliminate(&rt, alloc, width, var, &numbers[3..])?;
            } else {
                answer_solve(&rt, alloc, numbers[0], width, &numbers[3..])?;
            }
        }
    }
    Ok(())
}
RUST
cat >"$work/crates/driver/proofs/row/Invariants.antt" <<'ANTT'
use Rattle.std.proofs.Common.{◌≡◌, length}
use Rattle.driver.proofs.row.Given as goal

abbrev pub invariant-loop-k : goal.invariant-loop-k
invariant-loop-k l = length l.coeffs ≡ l.k
ANTT
cat >"$work/crates/driver/proofs/rows/Invariants.antt" <<'ANTT'
use Rattle.std.proofs.Common.{length, ◌-◌, ◌≡◌}
use Rattle.linear_rows.specs.Plain.{HaveWidth}
use Rattle.driver.proofs.rows.Given as goal

abbrev pub invariant-loop-at : goal.invariant-loop-at
invariant-loop-at l = record {
  width : l.rows.width ≡ l.width;
  rows : HaveWidth l.rows.width l.rows.list;
}

abbrev pub decreases-loop-at : goal.decreases-loop-at
decreases-loop-at l = length l.numbers - l.at
ANTT
build "$work" driver
