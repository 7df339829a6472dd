#!/bin/sh
# Times the buckets of elements of growing size: items by two references, with few buckets and with one for each item.
# Usage: bench/batching.sh. It makes a program of its own in a folder that is removed at the end. The libraries are proved
# first where they aren't built yet, which takes some minutes.
set -e
root=$(cd "$(dirname "$0")/.." && pwd)
libraries='msb_laws|msb_values|msb_paths|msb_expression|msb_expand|msb_batching'
work=$(mktemp -d)
trap 'rm -rf "$work"' EXIT
(cd "$root" && tar cf - crates/msb_laws crates/msb_values crates/msb_paths crates/msb_expression crates/msb_expand crates/msb_batching) | (cd "$work" && tar xf -)
grep -E "^($libraries)[ :]" "$root/crates.txt" > "$work/crates.txt"
echo 'batching_bench: msb_batching msb_expand msb_expression msb_values' >> "$work/crates.txt"
mkdir -p "$work/crates/batching_bench/src" "$work/crates/batching_bench/specs" "$work/crates/batching_bench/proofs"
: > "$work/crates/batching_bench/specs/Lib.antt"
cat > "$work/crates/batching_bench/src/main.rt" <<'PROGRAM'
#![tactic(auto)]

use msb_batching::buckets;
use msb_expand::{Lens, Use};
use msb_expression::{Expr, parse};
use msb_values::{
    Defaults, Item, List, Lists, Name, NoMemory, Pairs, Scope, SharedItems, Text,
};
use std::alloc::Global;
use std::io;
use std::time::Instant;

fn name(alloc: Global, text: &str) -> Result<Name, NoMemory> {
    match Name::read(alloc, text) {
        Ok(name) => Ok(name),
        Err(_) => Err(NoMemory),
    }
}

fn key(number: u32, keys: u32) -> u32 {
    if keys == 0 { 0 } else { number % keys }
}

fn item(alloc: Global, number: u32, keys: u32) -> Result<Item, NoMemory> {
    let first = format!(in alloc; "Key {}", key(number, keys))?;
    let second = format!(in alloc; "PLACE {}", key(number / 2, keys))?;
    let mut meta = Pairs::new(alloc);
    meta.insert(name(alloc, "K")?, Text::of(alloc, first.as_str())?)?;
    meta.insert(name(alloc, "M")?, Text::of(alloc, second.as_str())?)?;
    let ident = format!(in alloc; "src/{number}.c")?;
    Ok(Item {
        ident: Text::of(alloc, ident.as_str())?,
        recursive: Text::of(alloc, "")?,
        meta,
    })
}

fn items(alloc: Global, size: u32, keys: u32) -> Result<List<Item>, NoMemory> {
    let mut list = List::new(alloc);
    for number in 0..size {
        list.push(item(alloc, number, keys)?)?;
    }
    Ok(list)
}

fn scope(alloc: Global, size: u32, keys: u32) -> Result<Scope, NoMemory> {
    let mut lists = Lists::new(alloc);
    lists.insert(name(alloc, "X")?, SharedItems::of(alloc, items(alloc, size, keys)?)?)?;
    Ok(Scope {
        globals: Pairs::new(alloc),
        props: Pairs::new(alloc),
        items: lists,
        defaults: Defaults::new(alloc),
    })
}

// How many buckets there are; none where there is no memory.
fn count(alloc: Global, scope: &Scope, text: &Expr) -> Option<usize> {
    let lens = Lens::new(scope, "a.proj", "a.proj", Use::Batched);
    match buckets(alloc, &lens, &[text], None) {
        Ok(buckets) => Some(buckets.len()),
        Err(_) => None,
    }
}

fn time(rt: &HostRuntime, size: u32, keys: u32) -> io::Result<()> {
    let alloc = rt.alloc();
    let Ok(scope) = scope(alloc, size, keys) else {
        return println!(rt; "no memory");
    };
    let Ok(text) = parse(alloc, "%(K) %(X.M) @(X)") else {
        return println!(rt; "no memory");
    };
    let start = Instant::now(rt)?;
    let made = count(alloc, &scope, &text);
    let micros = start.elapsed(rt)?.as_micros();
    match made {
        Some(made) => println!(rt; "{size} items, {made} buckets: {micros} us"),
        None => println!(rt; "no buckets"),
    }
}

fn main(rt: HostRuntime) -> io::Result<()> {
    for size in [1_000, 2_000, 5_000, 10_000, 20_000, 50_000] {
        time(&rt, size, 10)?;
        time(&rt, size, size)?;
    }
    Ok(())
}
PROGRAM
cd "$work/crates/batching_bench"
rt run
