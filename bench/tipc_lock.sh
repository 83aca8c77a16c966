#!/usr/bin/env bash
# What a locked call costs: ticks a second of one node by 1, 2 and 4 threads that call it at once, beside those of the plain node,
# and beside a mutex round a counter.
# It proves and builds a program in a temporary folder, over the libraries that the checkout has built, and is no part of the gate.
set -euo pipefail
root=$(cd "$(dirname "$0")/.." && pwd)
work=$(mktemp -d)
trap 'rm -rf "$work"' EXIT
mkdir -p "$work/crates"
cp "$root/crates.txt" "$root/HANDLES" "$work/"
for crate in "$root"/crates/*; do
    name=$(basename "$crate")
    mkdir "$work/crates/$name"
    cp -r "$crate/src" "$crate/specs" "$crate/proofs" "$work/crates/$name/" 2>/dev/null || true
    if [ -d "$crate/out/rlib" ]; then
        mkdir "$work/crates/$name/out"
        cp -r "$crate/out/rlib" "$work/crates/$name/out/"
    fi
done
(cd "$work" && rt new crates/lock_bench start_io >/dev/null)
echo 'lock_bench: atomic_table tipc_types tipc_outside tipc_pick tipc_stamp tipc_node tipc_node_lock' >>"$work/crates.txt"
bench=$work/crates/lock_bench
rm -rf "$bench/BUILD.bazel" "$bench"/src/* "$bench/proofs" "$bench/specs" "$bench/stdin" "$bench/stdout"
mkdir -p "$bench/specs" "$bench/proofs/call_on" "$bench/proofs/count_on" "$bench/proofs/call_plain"
: >"$bench/specs/Lib.antt"
: >"$bench/proofs/Lib.antt"
cat >"$bench/proofs/call_on/Invariants.antt" <<'ANTT'
use Rattle.tipc_node_lock.specs.Locks.{IsPassOf}
use Rattle.lock_bench.proofs.call_on.Given as goal

abbrev pub invariant-loop : goal.invariant-loop
invariant-loop g l = IsPassOf l.lock l.pass
ANTT
cat >"$bench/src/main.rt" <<'RT'
#![tactic(auto)]

ghost use Rattle.std.specs.Prelude.{◌≡◌, ◌≤◌, All};
ghost use Rattle.tipc_node_lock.specs.Locks.{IsPassOf};

use std::alloc::Global;
use std::io;
use std::sync::{Mutex, Wait};
use std::thread;
use std::thread::Threads;
use std::time::Instant;
use tipc_node::Node;
use tipc_node_lock::{NodeLock, Pass};
use tipc_outside::Outbox;
use tipc_pick::{Chooser, RoundRobin};
use tipc_stamp::Stamps;
use tipc_types::{Addr, By, EventNote, NoMemory};

/// How many calls are made in all.
const CALLS: u32 = 240_000;

/// Makes its part of the calls.
fn call_on<R: Wait>(
    rt: &R,
    alloc: Global,
    lock: &NodeLock<'_, RoundRobin>,
    mut pass: Pass,
    calls: u32,
) -> Pass
    requires { IsPassOf lock.now pass }
{
    for _ in 0..calls {
        let _ = lock.perform(rt, alloc, &mut pass, EventNote::Tick);
    }
    pass
}

/// Lets the passes of a lock call it, each in a thread of its own.
fn call_together<R: Threads + Wait + Sync>(
    rt: &R,
    alloc: Global,
    lock: &NodeLock<'_, RoundRobin>,
    passes: Vec<Pass>,
    calls: u32,
) -> Result<(), NoMemory>
    requires { All (IsPassOf lock.now) passes.items }
{
    let _ = thread::map_vec(
        rt,
        passes,
        &|pass: Pass| -> Pass
            requires { IsPassOf lock.now pass }
        { call_on(rt, alloc, lock, pass, calls) },
    )?;
    Ok(())
}

/// Lets so many threads call one node.
fn call_locked<R: Threads + Wait + Sync>(
    rt: &R,
    alloc: Global,
    threads: u32,
) -> Result<(), NoMemory>
    requires { (1 ≤ threads) × (threads ≤ 4) }
{
    let (stamps, seats) = Stamps::new(alloc, threads)?;
    let (lock, passes) = NodeLock::new(
        alloc,
        Addr::node(1),
        1,
        Chooser::new(RoundRobin),
        threads,
        &stamps,
        seats,
    )?;
    call_together(rt, alloc, &lock, passes, CALLS / threads)
}

/// Raises a counter behind a mutex.
fn count_on<R: Wait>(rt: &R, counter: &Mutex<u64>, calls: u32) {
    for _ in 0..calls {
        let mut count = counter.lock(rt);
        *count = count.wrapping_add(1);
    }
}

/// Lets so many threads raise one counter.
fn count_locked<R: Threads + Wait + Sync>(
    rt: &R,
    alloc: Global,
    threads: u32,
) -> Result<(), NoMemory>
    requires { (1 ≤ threads) × (threads ≤ 4) }
{
    let counter = Mutex::new(0_u64);
    let mut parts = Vec::new(alloc);
    parts.resize(threads as usize, CALLS / threads)?;
    let _ = thread::map_vec(rt, parts, &|calls: u32| -> () { count_on(rt, &counter, calls) })?;
    Ok(())
}

/// Makes all calls at a node without a lock.
fn call_plain(alloc: Global) -> Result<(), NoMemory> {
    let mut node = Node::new(alloc, Addr::node(1), 1)?;
    let mut chooser = Chooser::new(RoundRobin);
    let mut out = Outbox::new(alloc);
    for number in 0..CALLS {
        let by = By {
            stamp: u64::from(number),
            caller: 1,
            call: u64::from(number),
        };
        let _ = node.perform(alloc, by, EventNote::Tick, &mut chooser, &mut out);
    }
    Ok(())
}

/// Shows how many calls a second that makes.
fn show(rt: &HostRuntime, what: &str, threads: u32, micros: u128) -> io::Result<()> {
    let rate = u128::from(CALLS) * 1_000_000 / micros.max(1);
    println!(rt; "{what}, {threads} threads: {rate} calls a second")
}

fn main(rt: HostRuntime) -> io::Result<()> {
    let alloc = rt.alloc();
    let start = Instant::now(&rt)?;
    let _ = call_plain(alloc);
    show(&rt, "plain node", 1, start.elapsed(&rt)?.as_micros())?;
    for threads in [1_u32, 2, 4] {
        let start = Instant::now(&rt)?;
        let _ = count_locked(&rt, alloc, threads);
        show(&rt, "locked counter", threads, start.elapsed(&rt)?.as_micros())?;
        let start = Instant::now(&rt)?;
        let _ = call_locked(&rt, alloc, threads);
        show(&rt, "locked node", threads, start.elapsed(&rt)?.as_micros())?;
    }
    Ok(())
}
RT
cd "$bench"
rt run
