#!/bin/sh
# Times the table of records over 1,000 to 16,000 runs: runs that are begun and finished one after another, runs that are
# all begun before the first one is finished, in the order of their beginnings and in the reverse one, and looking up each.
# Usage: bench/table.sh. It makes a program of its own in a folder that is removed at the end. The libraries are proved
# first where they aren't built yet, which takes some minutes.
set -e
root=$(cd "$(dirname "$0")/.." && pwd)
libraries='msb_laws|msb_values|result_cache'
work=$(mktemp -d)
trap 'rm -rf "$work"' EXIT
(cd "$root" && tar cf - crates/msb_laws crates/msb_values crates/result_cache) | (cd "$work" && tar xf -)
grep -E "^($libraries)[ :]" "$root/crates.txt" > "$work/crates.txt"
echo 'table_bench: result_cache msb_values' >> "$work/crates.txt"
mkdir -p "$work/crates/table_bench/src" "$work/crates/table_bench/specs" "$work/crates/table_bench/proofs"
: > "$work/crates/table_bench/specs/Lib.antt"
cat > "$work/crates/table_bench/src/main.rt" <<'PROGRAM'
#![tactic(auto)]

use msb_values::{Copied, InstanceKey, List, Name, NoMemory, Pairs, Text};
use result_cache::{Found, Record, RecordRef, RunId, Table};
use std::alloc::Global;
use std::io;
use std::time::Instant;

fn name(alloc: Global, text: &str) -> Result<Name, NoMemory> {
    match Name::read(alloc, text) {
        Ok(name) => Ok(name),
        Err(_) => Err(NoMemory),
    }
}

// One of the targets of a project with a global property.
fn run(alloc: Global, number: u32) -> Result<RunId, NoMemory> {
    let path = format!(in alloc; "src/part{}/part{}.proj", number / 4, number / 4)?;
    let target = format!(in alloc; "Target{}", number % 4)?;
    let mut globals = Pairs::new(alloc);
    globals.insert(
        name(alloc, "Configuration")?,
        Text::of(alloc, "Release")?,
    )?;
    Ok(RunId {
        instance: InstanceKey {
            path: Text::from(path),
            globals,
        },
        target: name(alloc, target.as_str())?,
    })
}

fn runs(alloc: Global, size: u32) -> Result<Vec<RunId>, NoMemory> {
    let mut runs = Vec::new(alloc);
    for number in 0..size {
        runs.push(run(alloc, number)?)?;
    }
    Ok(runs)
}

fn record(alloc: Global) -> Result<RecordRef, NoMemory> {
    RecordRef::new(
        alloc,
        Record {
            ok: true,
            decisions: List::new(alloc),
            items: List::new(alloc),
            changes: List::new(alloc),
            notes: List::new(alloc),
            segments: List::new(alloc),
        },
    )
}

fn begin(table: &mut Table, run: &RunId, request: u64) -> Result<(), NoMemory> {
    if let Found::Absent = table.find(run) {
        table.begin(run, request)?;
    }
    Ok(())
}

fn finish(table: &mut Table, run: &RunId, made: &RecordRef) -> Result<(), NoMemory> {
    let made = made.copy()?;
    if let Found::Begun(_) = table.find(run) {
        table.finish(run, made);
    }
    Ok(())
}

fn begin_all(table: &mut Table, runs: &[RunId]) -> Result<(), NoMemory> {
    for run in runs {
        begin(table, run, 0)?;
    }
    Ok(())
}

fn finish_all(table: &mut Table, runs: &[RunId], made: &RecordRef) -> Result<(), NoMemory> {
    for run in runs {
        finish(table, run, made)?;
    }
    Ok(())
}

fn finish_last_first(table: &mut Table, runs: &[RunId], made: &RecordRef) -> Result<(), NoMemory> {
    for run in runs.iter().rev() {
        finish(table, run, made)?;
    }
    Ok(())
}

fn one_after_another(table: &mut Table, runs: &[RunId], made: &RecordRef) -> Result<(), NoMemory> {
    for run in runs {
        begin(table, run, 0)?;
        finish(table, run, made)?;
    }
    Ok(())
}

fn found(table: &Table, runs: &[RunId]) -> u32 {
    let mut found = 0u32;
    for run in runs {
        if let Found::Done(_) = table.find(run) {
            found = found.wrapping_add(1);
        }
    }
    found
}

fn time(rt: &HostRuntime, size: u32) -> io::Result<()> {
    let alloc = rt.alloc();
    let (Ok(runs), Ok(made)) = (runs(alloc, size), record(alloc)) else {
        return println!(rt; "no memory");
    };
    let mut plain = Table::new(alloc);
    let start = Instant::now(rt)?;
    let first = one_after_another(&mut plain, &runs, &made);
    let nested = start.elapsed(rt)?.as_micros();

    let mut queue = Table::new(alloc);
    let begun = begin_all(&mut queue, &runs);
    let start = Instant::now(rt)?;
    let second = finish_all(&mut queue, &runs, &made);
    let in_order = start.elapsed(rt)?.as_micros();

    let mut stack = Table::new(alloc);
    let stacked = begin_all(&mut stack, &runs);
    let start = Instant::now(rt)?;
    let third = finish_last_first(&mut stack, &runs, &made);
    let reverse = start.elapsed(rt)?.as_micros();

    let start = Instant::now(rt)?;
    let count = found(&plain, &runs);
    let looked_up = start.elapsed(rt)?.as_micros();
    match (first, begun, second, stacked, third) {
        (Ok(()), Ok(()), Ok(()), Ok(()), Ok(())) => println!(
            rt; "{size} runs: one after another {nested} us; all begun, finished in order {in_order} us, in reverse {reverse} us; {count} looked up in {looked_up} us"
        ),
        _ => println!(rt; "no memory"),
    }
}

fn main(rt: HostRuntime) -> io::Result<()> {
    for size in [1_000u32, 2_000, 4_000, 8_000, 16_000] {
        time(&rt, size)?;
    }
    Ok(())
}
PROGRAM
cd "$work/crates/table_bench"
rt run
