#!/bin/sh
# Times copies of a walk through the target build order, over projects of 100 to 10,000 targets: after its first ask, and
# where half of the targets have run. Each target hooks on the one before it.
# Usage: bench/walk_copies.sh. It makes a program of its own in a folder that is removed at the end. The libraries are
# proved first where they aren't built yet, which takes some minutes.
set -e
root=$(cd "$(dirname "$0")/.." && pwd)
libraries='msb_laws|msb_values|target_order'
work=$(mktemp -d)
trap 'rm -rf "$work"' EXIT
(cd "$root" && tar cf - crates/msb_laws crates/msb_values crates/target_order) | (cd "$work" && tar xf -)
grep -E "^($libraries)[ :]" "$root/crates.txt" > "$work/crates.txt"
echo 'copies_bench: target_order msb_values' >> "$work/crates.txt"
mkdir -p "$work/crates/copies_bench/src" "$work/crates/copies_bench/specs" "$work/crates/copies_bench/proofs/walked"
: > "$work/crates/copies_bench/specs/Lib.antt"
cat > "$work/crates/copies_bench/proofs/walked/Invariants.antt" <<'PROOF'
use Rattle.target_order.specs.Answers.{Fits}
use Rattle.copies_bench.proofs.walked.Given as goal

abbrev pub invariant-loop : goal.invariant-loop
invariant-loop l = Fits l.walk l.answer
PROOF
cat > "$work/crates/copies_bench/src/main.rt" <<'PROGRAM'
#![tactic(auto)]
ghost use Rattle.std.specs.Prelude.{◌≡◌, true, IfSome};
ghost use Rattle.target_order.specs.Answers.{fits, asked_by};

use msb_values::{Copied, List, Name, NoMemory};
use std::alloc::Global;
use std::io;
use std::time::Instant;
use target_order::{OrderAnswer, OrderAsk, OrderWalk, TargetRow};

fn name(alloc: Global, number: u32) -> Result<Name, NoMemory> {
    let text = format!(in alloc; "Target{number}")?;
    match Name::read_target(alloc, text.as_str()) {
        Ok(name) => Ok(name),
        Err(_) => Err(NoMemory),
    }
}

fn rows(alloc: Global, size: u32) -> Result<List<TargetRow>, NoMemory> {
    let mut rows = List::new(alloc);
    for number in 0..size {
        let mut after = List::new(alloc);
        after.push(name(alloc, number.saturating_sub(1))?)?;
        rows.push(TargetRow {
            name: name(alloc, number)?,
            before: List::new(alloc),
            after,
        })?;
    }
    Ok(rows)
}

fn wanted(alloc: Global, size: u32) -> Result<List<Name>, NoMemory> {
    let mut names = List::new(alloc);
    for number in 0..size {
        names.push(name(alloc, size - 1 - number)?)?;
    }
    Ok(names)
}

fn answer_to(alloc: Global, ask: &OrderAsk) -> Option<OrderAnswer>
    ensures { IfSome result (λ answer. fits (asked_by ask.now) answer ≡ true) }
{
    match ask {
        OrderAsk::Condition(_) => Some(OrderAnswer::Truth(true)),
        OrderAsk::Depends(_) => Some(OrderAnswer::Names(List::new(alloc))),
        OrderAsk::Body(_) => Some(OrderAnswer::Ok),
        OrderAsk::Done | OrderAsk::Circle(_) | OrderAsk::Unknown(_) => None,
    }
}

// A walk over so many targets, after so many asks.
fn walked(alloc: Global, size: u32, asks: u32) -> Result<OrderWalk, NoMemory> {
    let mut walk = OrderWalk::start(alloc, &rows(alloc, size)?, &wanted(alloc, size)?)?;
    let mut answer = OrderAnswer::First;
    for _ in 0..asks {
        let ask = walk.advance(alloc, &answer)?;
        match answer_to(alloc, &ask) {
            Some(next) => answer = next,
            None => break,
        }
    }
    Ok(walk)
}

fn copies(walk: &OrderWalk) -> Result<u32, NoMemory> {
    let mut made = 0;
    for number in 0..10_000u32 {
        let copy = walk.copy()?;
        if !copy.failed() {
            made = number;
        }
    }
    Ok(made)
}

fn time(rt: &HostRuntime, size: u32, asks: u32) -> io::Result<()> {
    let Ok(walk) = walked(rt.alloc(), size, asks) else {
        return println!(rt; "no memory");
    };
    let start = Instant::now(rt)?;
    let made = copies(&walk);
    let nanos = start.elapsed(rt)?.as_nanos() / 10_000;
    match made {
        Ok(_) => println!(rt; "{size} targets, after {asks} asks: {nanos} ns a copy"),
        Err(_) => println!(rt; "no memory"),
    }
}

fn main(rt: HostRuntime) -> io::Result<()> {
    for size in [100u32, 1_000, 10_000] {
        time(&rt, size, 1)?;
        time(&rt, size, size / 2 * 3)?;
    }
    Ok(())
}
PROGRAM
cd "$work/crates/copies_bench"
rt run
