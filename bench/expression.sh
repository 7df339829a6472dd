#!/bin/sh
# Times the reading of texts of growing size: plain bytes, references, and one reference with many steps.
# Usage: bench/expression.sh. It makes a program of its own in a folder that is removed at the end. The library is proved
# first where it isn't built yet, which takes some minutes.
set -e
root=$(cd "$(dirname "$0")/.." && pwd)
work=$(mktemp -d)
trap 'rm -rf "$work"' EXIT
(cd "$root" && tar cf - crates/msb_expression) | (cd "$work" && tar xf -)
grep -E '^msb_expression[ :]' "$root/crates.txt" > "$work/crates.txt"
echo 'expression_bench: msb_expression' >> "$work/crates.txt"
mkdir -p "$work/crates/expression_bench/src" "$work/crates/expression_bench/specs" "$work/crates/expression_bench/proofs"
: > "$work/crates/expression_bench/specs/Lib.antt"
cat > "$work/crates/expression_bench/src/main.rt" <<'PROGRAM'
#![tactic(auto)]

use msb_expression::parse;
use std::alloc::{AllocError, Global};
use std::io;
use std::time::Instant;

fn repeated(
    alloc: Global,
    head: &str,
    piece: &str,
    times: u32,
    tail: &str,
) -> Result<String, AllocError> {
    let mut text = String::from_str(alloc, head)?;
    for _ in 0..times {
        text.push_str(piece)?;
    }
    text.push_str(tail)?;
    Ok(text)
}

fn time(rt: &HostRuntime, name: &str, text: &str) -> io::Result<()> {
    let start = Instant::now(rt)?;
    let read = parse(rt.alloc(), text).is_ok();
    let micros = start.elapsed(rt)?.as_micros();
    let bytes = text.len();
    rt.println(format_args!("{name}: {bytes} bytes, read: {read}, {micros} us"))
}

fn main(rt: HostRuntime) -> io::Result<()> {
    let alloc = rt.alloc();
    for times in [65_536, 524_288, 4_194_304] {
        time(&rt, "plain", repeated(alloc, "", "a", times, "")?.as_str())?;
    }
    for times in [25_000, 50_000, 100_000] {
        let text = repeated(alloc, "", "$(Prop)", times, "")?;
        time(&rt, "references", text.as_str())?;
        let text = repeated(alloc, "@(X", "->'a%(M)'", times, ")")?;
        time(&rt, "steps", text.as_str())?;
    }
    Ok(())
}
PROGRAM
cd "$work/crates/expression_bench"
rt run
