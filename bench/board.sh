#!/bin/sh
# Times threads that hand over one state by a board, and the processor time of threads that sleep at it.
# Usage: bench/board.sh. It makes a program of its own in a folder that is removed at the end. The libraries are proved
# first where they aren't built yet, which takes some minutes. Run it on an idle machine.
set -e
root=$(cd "$(dirname "$0")/.." && pwd)
work=$(mktemp -d)
trap 'rm -rf "$work"' EXIT
(cd "$root" && tar cf - crates/turn_board crates/board_tests) | (cd "$work" && tar xf -)
grep -E '^(turn_board|board_tests)[ :]' "$root/crates.txt" > "$work/crates.txt"
echo 'board_bench: board_tests turn_board' >> "$work/crates.txt"
mkdir -p "$work/crates/board_bench/src" "$work/crates/board_bench/specs" "$work/crates/board_bench/proofs"
: > "$work/crates/board_bench/specs/Lib.antt"
cat > "$work/crates/board_bench/src/main.rt" <<'PROGRAM'
#![tactic(auto)]

ghost use Rattle.std.specs.Prelude.{◌<◌, ◌≤◌, ◌^◌};

use board_tests::{Order, TurnList, fill};
use std::alloc::Global;
use std::io;
use std::rt::Clock;
use std::sync::Wait;
use std::sync::atomic::{AtomicU64, Ordering};
use std::thread;
use std::thread::Threads;
use std::time::{CpuClock, Duration, Instant};
use turn_board::Board;

/// How many entries are of another thread than the one before.
fn changes(entries: &[u64]) -> u64 {
    let mut last = 0;
    let mut count = 0u64;
    for node in entries {
        if *node != last {
            count = count.saturating_add(1);
        }
        last = *node;
    }
    count
}

fn time<R: Threads + Wait + Clock + CpuClock + Print + Alloc + Sync>(
    rt: &R,
    alloc: Global,
    name: &str,
    nodes: usize,
    order: Order,
    limit: u64,
) -> io::Result<()>
    requires { (0 < nodes) × (nodes ≤ 64) × (limit < 2 ^ 62) }
{
    let list = TurnList::new(alloc, limit)?;
    let before = rt.process_cpu_time()?;
    let start = Instant::now(rt)?;
    let filled = fill(rt, alloc, list, nodes, order)?;
    let wall = start.elapsed(rt)?.as_micros().max(1);
    let used = rt.process_cpu_time()?.saturating_sub(before).as_millis();
    let rate = u128::from(limit).saturating_mul(1_000_000) / wall;
    let hands = changes(filled.entries.as_slice());
    let millis = wall / 1000;
    println!(rt;
        "{name}, threads: {nodes}; entries: {limit}, {rate} a second, {hands} of another thread than the one before; {millis} ms, processor {used} ms"
    )
}

/// The processor time of `sleepers` threads that sleep at a board, over five seconds.
fn parked<R: Threads + Wait + Clock + CpuClock + Print + Alloc + Sync>(
    rt: &R,
    board: &Board<TurnList>,
    sleepers: u64,
) -> io::Result<()> {
    let awake = AtomicU64::new(0);
    let woken = &awake;
    let used = thread::scope(thread::scope_env(), rt, |scope| -> io::Result<u128> {
        for _ in 0..sleepers {
            let child = scope.spawn(move || {
                board.park_idle(rt, 0);
                woken.fetch_add(1, Ordering::SeqCst);
            });
            if child.is_err() {
                woken.fetch_add(1, Ordering::SeqCst);
            }
        }
        thread::sleep(rt, Duration::from_secs(1));
        let before = rt.process_cpu_time();
        thread::sleep(rt, Duration::from_secs(5));
        let after = rt.process_cpu_time();
        for _ in rt.forever() {
            if woken.load(Ordering::SeqCst) >= sleepers {
                break;
            }
            board.wake_one();
            thread::yield_now();
        }
        Ok(after?.saturating_sub(before?).as_micros())
    })?;
    println!(rt; "parked, threads: {sleepers}; processor {used} us in 5 seconds")
}

fn main(rt: HostRuntime) -> io::Result<()> {
    let alloc = rt.alloc();
    time(&rt, alloc, "alone", 1, Order::Any, 1_000_000)?;
    time(&rt, alloc, "to and fro", 2, Order::InTurn(2), 200_000)?;
    time(&rt, alloc, "any", 2, Order::Any, 1_000_000)?;
    time(&rt, alloc, "any", 4, Order::Any, 1_000_000)?;
    time(&rt, alloc, "any", 64, Order::Any, 1_000_000)?;
    time(&rt, alloc, "supplied", 4, Order::Supplied, 200_000)?;
    time(&rt, alloc, "supplied", 64, Order::Supplied, 200_000)?;
    let Ok((board, _seat)) = Board::open(alloc, TurnList::new(alloc, 1)?) else {
        return Ok(())
    };
    parked(&rt, &board, 4)?;
    parked(&rt, &board, 64)
}
PROGRAM
cd "$work/crates/board_bench"
rt run
