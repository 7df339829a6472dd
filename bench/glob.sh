#!/bin/sh
# Times the matcher where plain backtracking would take exponential time, and expansions over growing numbers of paths,
# in any order and in byte order.
# Usage: bench/glob.sh. It makes a program of its own in a folder that is removed at the end. The libraries are proved
# first where they aren't built yet, which takes some minutes.
set -e
root=$(cd "$(dirname "$0")/.." && pwd)
work=$(mktemp -d)
trap 'rm -rf "$work"' EXIT
(cd "$root" && tar cf - crates/msb_laws crates/msb_values crates/msb_paths crates/file_store crates/msb_glob) | (cd "$work" && tar xf -)
grep -E '^(msb_laws|msb_values|msb_paths|file_store|msb_glob)[ :]' "$root/crates.txt" > "$work/crates.txt"
echo 'glob_bench: file_store msb_glob msb_values anyhow' >> "$work/crates.txt"
mkdir -p "$work/crates/glob_bench/src" "$work/crates/glob_bench/specs" "$work/crates/glob_bench/proofs"
: > "$work/crates/glob_bench/specs/Lib.antt"
cat > "$work/crates/glob_bench/src/main.rt" <<'PROGRAM'
#![tactic(auto)]

use anyhow::{Result, anyhow};
use file_store::{File, Tree};
use msb_glob::{Pattern, SortedPaths, expand, expand_in};
use msb_values::{Copied, List, Text, Text8};
use std::alloc::Global;
use std::time::Instant;

fn pattern(alloc: Global, text: &str) -> Result<Pattern> {
    match Pattern::parse(alloc, "", text) {
        Ok(pattern) => Ok(pattern),
        Err(_) => Err(anyhow!("no pattern")),
    }
}

fn repeated(alloc: Global, piece: &str, times: u32, end: &str) -> Result<String> {
    let mut text = String::new(alloc);
    for _ in 0..times {
        text.push_str(piece)?;
    }
    text.push_str(end)?;
    Ok(text)
}

fn tree(alloc: Global, files: u32) -> Result<List<Text>> {
    let mut paths = List::new(alloc);
    for file in 0..files {
        let folder = file / 100;
        let path = format!(in alloc; "src{folder}/a/b/file{file}.c")?;
        if paths.push(Text::from(path)).is_err() {
            return Err(anyhow!("no memory"));
        }
    }
    Ok(paths)
}

/// Ten files a folder, in byte order.
fn small_folders(alloc: Global, files: u32) -> Result<List<Text>> {
    let mut paths = List::new(alloc);
    for file in 10_000..files.saturating_add(10_000) {
        let folder = file / 10;
        let path = format!(in alloc; "src{folder}/a/b/file{file}.c")?;
        if paths.push(Text::from(path)).is_err() {
            return Err(anyhow!("no memory"));
        }
    }
    Ok(paths)
}

/// Empty files at these paths.
fn tree_of(alloc: Global, paths: &List<Text>) -> Result<Tree> {
    let mut files = List::new(alloc);
    for path in paths.as_slice() {
        let bytes = Text8::new(alloc);
        let Ok(path) = path.copy() else {
            return Err(anyhow!("no memory"));
        };
        let file = File { path, bytes, stamp: 0 };
        if files.push(file).is_err() {
            return Err(anyhow!("no memory"));
        }
    }
    match Tree::of(files) {
        Some(tree) => Ok(tree),
        None => Err(anyhow!("not in byte order")),
    }
}

fn time_stars(rt: &HostRuntime) -> Result<()> {
    let stars = pattern(rt.alloc(), repeated(rt.alloc(), "*a", 30, "b")?.as_str())?;
    let letters = repeated(rt.alloc(), "a", 10_000, "")?;
    let start = Instant::now(rt)?;
    let fits = stars.matches(letters.as_str());
    let time = start.elapsed(rt)?.as_micros();
    println!(rt; "30 stars, 10,000 characters: {fits} in {time} us")?;
    Ok(())
}

fn time_folders(rt: &HostRuntime) -> Result<()> {
    let folders = pattern(rt.alloc(), repeated(rt.alloc(), "**/a/", 10, "b")?.as_str())?;
    let path = repeated(rt.alloc(), "a/", 99, "a")?;
    let start = Instant::now(rt)?;
    let fits = folders.matches(path.as_str());
    let time = start.elapsed(rt)?.as_micros();
    println!(rt; "ten **, 100 segments: {fits} in {time} us")?;
    Ok(())
}

fn count(alloc: Global, paths: &List<Text>, pattern: &Pattern) -> usize {
    match expand(alloc, paths, pattern) {
        Ok(found) => found.len(),
        Err(_) => 0,
    }
}

fn count_in(alloc: Global, tree: &Tree, pattern: &Pattern) -> usize {
    match expand_in(alloc, &SortedPaths::of_tree(tree), pattern) {
        Ok(found) => found.len(),
        Err(_) => 0,
    }
}

fn time_any_order(
    rt: &HostRuntime,
    below: u32,
    paths: &List<Text>,
    pattern: &Pattern,
) -> Result<()> {
    let files = paths.len();
    let mut found = 0;
    let start = Instant::now(rt)?;
    for _ in 0..100 {
        found = count(rt.alloc(), paths, pattern);
    }
    let time = start.elapsed(rt)?.as_micros() / 100;
    println!(rt; "{files} paths, {below} below the fixed part, any order: {found} in {time} us")?;
    Ok(())
}

fn time_in_order(rt: &HostRuntime, paths: &List<Text>, pattern: &Pattern) -> Result<()> {
    let files = paths.len();
    let tree = tree_of(rt.alloc(), paths)?;
    let mut found = 0;
    let start = Instant::now(rt)?;
    for _ in 0..10_000 {
        found = count_in(rt.alloc(), &tree, pattern);
    }
    let time = start.elapsed(rt)?.as_nanos() / 10_000;
    println!(rt; "{files} paths, 10 below the fixed part, byte order: {found} in {time} ns")?;
    Ok(())
}

fn main(rt: HostRuntime) -> Result<()> {
    time_stars(&rt)?;
    time_folders(&rt)?;
    let many = pattern(rt.alloc(), "src7/**/*.c")?;
    for files in [5_000, 20_000, 80_000] {
        time_any_order(&rt, 100, &tree(rt.alloc(), files)?, &many)?;
    }
    let few = pattern(rt.alloc(), "src1050/**/*.c")?;
    for files in [1_000, 5_000, 20_000] {
        let paths = small_folders(rt.alloc(), files)?;
        time_any_order(&rt, 10, &paths, &few)?;
        time_in_order(&rt, &paths, &few)?;
    }
    Ok(())
}
PROGRAM
cd "$work/crates/glob_bench"
rt run
