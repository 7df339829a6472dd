#!/bin/sh
# Times the reading of conditions of growing size: many words, one long quoted text, many groups, many references, and spaces.
# Usage: bench/condition.sh. It makes a program of its own in a folder that is removed at the end. The libraries are proved
# first where they aren't built yet, which takes some minutes.
set -e
root=$(cd "$(dirname "$0")/.." && pwd)
work=$(mktemp -d)
trap 'rm -rf "$work"' EXIT
crates='msb_laws msb_values msb_paths msb_expression msb_expand msb_condition'
for crate in $crates; do
    (cd "$root" && tar cf - --exclude=out "crates/$crate") | (cd "$work" && tar xf -)
    grep -E "^$crate[ :]" "$root/crates.txt" >> "$work/crates.txt"
done
echo 'condition_bench: msb_condition' >> "$work/crates.txt"
mkdir -p "$work/crates/condition_bench/src" "$work/crates/condition_bench/specs" "$work/crates/condition_bench/proofs"
: > "$work/crates/condition_bench/specs/Lib.antt"
cat > "$work/crates/condition_bench/src/main.rt" <<'PROGRAM'
#![tactic(auto)]

use msb_condition::parse;
use std::alloc::{AllocError, Global};
use std::io;
use std::time::Instant;

fn repeated(
    alloc: Global,
    head: &str,
    piece: &str,
    times: u32,
    tail: &str,
) -> Result<String, AllocError> {
    let mut text = String::from_str(alloc, head)?;
    for _ in 0..times {
        text.push_str(piece)?;
    }
    text.push_str(tail)?;
    Ok(text)
}

fn time(rt: &HostRuntime, name: &str, text: &str) -> io::Result<()> {
    let start = Instant::now(rt)?;
    let read = parse(rt.alloc(), text).is_ok();
    let micros = start.elapsed(rt)?.as_micros();
    let bytes = text.len();
    rt.println(format_args!("{name}: {bytes} bytes, read: {read}, {micros} us"))
}

fn main(rt: HostRuntime) -> io::Result<()> {
    let alloc = rt.alloc();
    for times in [25_000, 50_000, 100_000] {
        time(&rt, "words", repeated(alloc, "a", " And b Or c", times, "")?.as_str())?;
        time(&rt, "groups", repeated(alloc, "a", " Or (!(a == b))", times, "")?.as_str())?;
        time(&rt, "references", repeated(alloc, "a", " Or $(P) == '$(Q)'", times, "")?.as_str())?;
        time(&rt, "quoted", repeated(alloc, "'", "@(X->'a', ')')", times, "'")?.as_str())?;
        time(&rt, "unended", repeated(alloc, "'", "@(X", times, "")?.as_str())?;
        time(&rt, "spaces", repeated(alloc, "!!!(a", "    ", times, ") And b")?.as_str())?;
    }
    Ok(())
}
PROGRAM
cd "$work/crates/condition_bench"
rt run
