#!/bin/sh
# Times expansions of growing size: texts of properties, lists of entries, and the items of a reference after its steps.
# Usage: bench/expand.sh. It makes a program of its own in a folder that is removed at the end. The libraries are proved
# first where they aren't built yet, which takes some minutes.
set -e
root=$(cd "$(dirname "$0")/.." && pwd)
work=$(mktemp -d)
trap 'rm -rf "$work"' EXIT
names='msb_laws msb_values msb_expression msb_paths msb_expand'
(cd "$root" && tar cf - $(printf 'crates/%s ' $names)) | (cd "$work" && tar xf -)
for name in $names; do grep -E "^$name[ :]" "$root/crates.txt"; done > "$work/crates.txt"
echo 'expand_bench: msb_values msb_expression msb_expand' >> "$work/crates.txt"
mkdir -p "$work/crates/expand_bench/src" "$work/crates/expand_bench/specs" "$work/crates/expand_bench/proofs"
: > "$work/crates/expand_bench/specs/Lib.antt"
cat > "$work/crates/expand_bench/src/main.rt" <<'PROGRAM'
#![tactic(auto)]

use msb_expand::{Lens, Use, list, text};
use msb_expression::{Expr, parse};
use msb_values::{
    Defaults, Item, List, Lists, Name, NoMemory, Pairs, Scope, SharedItems, Text,
};
use std::alloc::Global;
use std::io;
use std::time::Instant;

fn repeated(alloc: Global, piece: &str, times: u32) -> Result<Text, NoMemory> {
    let mut text = Text::of(alloc, "")?;
    for _ in 0..times {
        text.push_str(piece)?;
    }
    Ok(text)
}

fn name(alloc: Global, text: &str) -> Result<Name, NoMemory> {
    match Name::read(alloc, text) {
        Ok(name) => Ok(name),
        Err(_) => Err(NoMemory),
    }
}

fn numbered(alloc: Global, number: u32) -> Result<Item, NoMemory> {
    let mut meta = Pairs::new(alloc);
    meta.insert(name(alloc, "K")?, Text::of(alloc, "value")?)?;
    Ok(Item {
        ident: Text::from(format!(in alloc; "src/file{number}.c")?),
        recursive: Text::of(alloc, "")?,
        meta,
    })
}

fn items(alloc: Global, count: u32) -> Result<List<Item>, NoMemory> {
    let mut items = List::new(alloc);
    for number in 0..count {
        items.push(numbered(alloc, number)?)?;
    }
    Ok(items)
}

/// Some items of type X, a property P, and a property R that refers to them so often.
fn scope(alloc: Global, count: u32) -> Result<Scope, NoMemory> {
    let mut props = Pairs::new(alloc);
    props.insert(name(alloc, "P")?, Text::of(alloc, "value")?)?;
    props.insert(name(alloc, "R")?, repeated(alloc, "@(Y);", count)?)?;
    let mut lists = Lists::new(alloc);
    lists.insert(name(alloc, "X")?, SharedItems::of(alloc, items(alloc, count)?)?)?;
    lists.insert(name(alloc, "Y")?, SharedItems::of(alloc, items(alloc, 1)?)?)?;
    Ok(Scope {
        globals: Pairs::new(alloc),
        props,
        items: lists,
        defaults: Defaults::new(alloc),
    })
}

fn time(rt: &HostRuntime, name: &str, count: u32, scope: &Scope, expr: &Expr) -> io::Result<()> {
    let lens = Lens {
        scope,
        dir: "app",
        project: "app/app.proj",
        file: "app/app.proj",
        usage: Use::All,
        own: None,
        bucket: None,
    };
    let start = Instant::now(rt)?;
    let bytes = match text(rt.alloc(), &lens, expr) {
        Ok(text) => text.as_str().len(),
        Err(_) => 0,
    };
    let text_micros = start.elapsed(rt)?.as_micros();
    let start = Instant::now(rt)?;
    let entries = match list(rt.alloc(), &lens, expr) {
        Ok(items) => items.len(),
        Err(_) => 0,
    };
    let list_micros = start.elapsed(rt)?.as_micros();
    rt.println(format_args!(
        "{name} {count}: text of {bytes} bytes {text_micros} us, list of {entries} items {list_micros} us"
    ))
}

fn time_source(
    rt: &HostRuntime,
    name: &str,
    count: u32,
    scope: &Scope,
    source: &str,
) -> io::Result<()> {
    match parse(rt.alloc(), source) {
        Ok(expr) => time(rt, name, count, scope, &expr),
        Err(_) => rt.println(format_args!("{name}: not read")),
    }
}

/// The texts whose length grows, and then the references whose items do.
fn time_all(rt: &HostRuntime, count: u32, scope: &Scope) -> io::Result<()> {
    let alloc = rt.alloc();
    for piece in ["plain;", "$(P);", "@(Y);", "@(Y->'%(Filename).o'->Count());"] {
        match repeated(alloc, piece, count) {
            Ok(source) => time_source(rt, piece, count, scope, source.as_str())?,
            Err(_) => rt.println(format_args!("no memory"))?,
        }
    }
    for source in [
        "$(R)",
        "@(X)",
        "@(X, '%3B')",
        "@(X->'%(Filename).o')",
        "@(X->'%(FullPath)'->'%(Identity)')",
        "@(X->Distinct()->Reverse())",
        "@(X->WithMetadataValue('K', 'VALUE'))",
    ] {
        time_source(rt, source, count, scope, source)?;
    }
    Ok(())
}

fn main(rt: HostRuntime) -> io::Result<()> {
    for count in [25_000, 50_000, 100_000] {
        match scope(rt.alloc(), count) {
            Ok(scope) => time_all(&rt, count, &scope)?,
            Err(_) => rt.println(format_args!("no memory"))?,
        }
    }
    Ok(())
}
PROGRAM
cd "$work/crates/expand_bench"
rt run
