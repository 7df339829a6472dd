#!/bin/sh
# Times journals of 1,000 to 16,000 entries, each a file of 1,000 bytes: what it takes to append them one after another, to
# look up each path, to copy a journal 1,000 times, to copy it and append one entry 1,000 times, and to merge a journal of
# 100 entries, of which 90 are there, 100 times.
# Usage: bench/journal.sh. It makes a program of its own in a folder that is removed at the end. The libraries are proved
# first where they aren't built yet, which takes some minutes.
set -e
root=$(cd "$(dirname "$0")/.." && pwd)
libraries='msb_laws|msb_values|msb_paths|file_store|result_cache|msb_files'
work=$(mktemp -d)
trap 'rm -rf "$work"' EXIT
(cd "$root" && tar cf - crates/msb_laws crates/msb_values crates/msb_paths crates/file_store crates/result_cache crates/msb_files) | (cd "$work" && tar xf -)
grep -E "^($libraries)[ :]" "$root/crates.txt" > "$work/crates.txt"
echo 'journal_bench: msb_files file_store msb_values result_cache' >> "$work/crates.txt"
mkdir -p "$work/crates/journal_bench/src" "$work/crates/journal_bench/specs" "$work/crates/journal_bench/proofs"
: > "$work/crates/journal_bench/specs/Lib.antt"
cat > "$work/crates/journal_bench/src/main.rt" <<'PROGRAM'
#![tactic(auto)]

use file_store::Tree;
use msb_files::{FileView, Journal};
use msb_values::{Act, Copied, InstanceKey, List, Name, NoMemory, Pairs, Put, Shared, Text, Text8};
use result_cache::{RunId, RunRef};
use std::alloc::Global;
use std::io;
use std::time::Instant;

fn run(alloc: Global, number: u32) -> Result<RunRef, NoMemory> {
    let path = format!(in alloc; "src/part{number}/part{number}.proj")?;
    let Ok(target) = Name::read_target(alloc, "Compile") else {
        return Err(NoMemory);
    };
    let run = RunId {
        instance: InstanceKey {
            path: Text::from(path),
            globals: Pairs::new(alloc),
        },
        target,
    };
    RunRef::new(alloc, &run)
}

fn put(alloc: Global, number: u32) -> Result<Put, NoMemory> {
    let path = format!(in alloc; "out/part{}/file{number}.o", number % 100)?;
    Ok(Put {
        path: Text::from(path),
        bytes: Shared::new(alloc, Text8::of(alloc, &[7; 1_000])?)?,
    })
}

// Each run writes four files.
fn write(alloc: Global, journal: &mut Journal, number: u32) -> Result<(), NoMemory> {
    let act = Act::Write(put(alloc, number)?);
    journal.acted(alloc, &run(alloc, number / 4)?, (number % 4) as u64, act)
}

fn journal(alloc: Global, first: u32, end: u32) -> Result<Journal, NoMemory> {
    let mut journal = Journal::new(alloc)?;
    for number in first..end {
        write(alloc, &mut journal, number)?;
    }
    Ok(journal)
}

fn paths(alloc: Global, end: u32) -> Result<Vec<Put>, NoMemory> {
    let mut puts = Vec::new(alloc);
    for number in 0..end {
        puts.push(put(alloc, number)?)?;
    }
    Ok(puts)
}

fn found(view: &FileView<'_>, puts: &[Put]) -> u32 {
    let mut found = 0u32;
    for put in puts {
        if view.written(put.path.as_str()) {
            found = found.wrapping_add(1);
        }
    }
    found
}

fn copied(journal: &Journal) -> Result<usize, NoMemory> {
    let mut last = 0;
    for _ in 0..1_000u32 {
        last = journal.copy()?.count();
    }
    Ok(last)
}

// A copy after each step, as a walk makes them.
fn stepped(alloc: Global, journal: &Journal, end: u32) -> Result<usize, NoMemory> {
    let mut last = journal.copy()?;
    for step in 0..1_000u32 {
        let mut next = last.copy()?;
        write(alloc, &mut next, end.saturating_add(step))?;
        last = next;
    }
    Ok(last.count())
}

fn merged(alloc: Global, journal: &Journal, other: &Journal) -> Result<usize, NoMemory> {
    let mut last = 0;
    for _ in 0..100u32 {
        let mut joined = journal.copy()?;
        joined.merge(alloc, other)?;
        last = joined.count();
    }
    Ok(last)
}

fn time(rt: &HostRuntime, size: u32) -> io::Result<()> {
    let alloc = rt.alloc();
    let start = Instant::now(rt)?;
    let made = journal(alloc, 0, size);
    let appended = start.elapsed(rt)?.as_micros();
    let other = journal(alloc, size.saturating_sub(90), size.saturating_add(10));
    let (Ok(made), Ok(other), Ok(puts), Some(tree)) =
        (made, other, paths(alloc, size), Tree::of(List::new(alloc)))
    else {
        return println!(rt; "no memory");
    };
    let view = FileView::of(&tree, &made);
    let start = Instant::now(rt)?;
    let there = found(&view, &puts);
    let looked_up = start.elapsed(rt)?.as_micros();
    let start = Instant::now(rt)?;
    let copies = copied(&made).unwrap_or(0);
    let copied = start.elapsed(rt)?.as_micros();
    let start = Instant::now(rt)?;
    let steps = stepped(alloc, &made, size).unwrap_or(0);
    let stepped = start.elapsed(rt)?.as_micros();
    let start = Instant::now(rt)?;
    let joined = merged(alloc, &made, &other).unwrap_or(0);
    let merged = start.elapsed(rt)?.as_micros();
    println!(rt; "{size} entries: {appended} us appended, {looked_up} us looked up, {copied} us copied, {stepped} us copied and appended, {merged} us merged ({there} {copies} {steps} {joined})")
}

fn main(rt: HostRuntime) -> io::Result<()> {
    for size in [1_000u32, 2_000, 4_000, 8_000, 16_000] {
        time(&rt, size)?;
    }
    Ok(())
}
PROGRAM
cd "$work/crates/journal_bench"
rt run
