#!/usr/bin/env bash
# What the plain name table and the index cost: microseconds to learn 1,024 publications of one node, and nanoseconds to publish
# and withdraw one, and to look one up, where the table holds 1,024 publications and where it holds all but one of 32,768.
# It proves and builds a program in a temporary folder, and is no part of the gate.
set -euo pipefail
root=$(cd "$(dirname "$0")/.." && pwd)
work=$(mktemp -d)
trap 'rm -rf "$work"' EXIT
mkdir -p "$work/crates"
printf '%s\n' 'tipc_types:' 'tipc_name_table: tipc_types' 'tipc_name_index: tipc_types tipc_name_table' >"$work/crates.txt"
for crate in tipc_types tipc_name_table tipc_name_index; do
    mkdir "$work/crates/$crate"
    cp -r "$root/crates/$crate/src" "$root/crates/$crate/specs" "$root/crates/$crate/proofs" "$work/crates/$crate/"
done
(cd "$work" && rt new crates/names_bench start_io >/dev/null)
echo 'names_bench: tipc_types tipc_name_table tipc_name_index' >>"$work/crates.txt"
bench=$work/crates/names_bench
rm -rf "$bench/BUILD.bazel" "$bench"/src/* "$bench/proofs" "$bench/specs" "$bench/stdin" "$bench/stdout"
mkdir "$bench/specs"
: >"$bench/specs/Lib.antt"
cat >"$bench/src/main.rt" <<'RT'
#![tactic(auto)]

ghost use Rattle.std.specs.Prelude.{◌≤◌};

use std::alloc::Global;
use std::io;
use std::time::Instant;
use tipc_name_index::NameIndex;
use tipc_name_table::{NameTable, Names};
use tipc_types::{Addr, PortId, Publication, Scope, ServiceRange};

const CALLS: u32 = 1_000;

fn publish<N: Names>(names: &mut N, node: u32, kind: u32, lower: u32, upper: u32, key: u32)
    requires { node ≤ 31 }
{
    let Ok(range) = ServiceRange::new(kind, lower, upper) else {
        return;
    };
    let at = PortId {
        node: Addr {
            word: 16_781_313 + node,
        },
        port: 1,
    };
    let _ = names.publish(Publication {
        range,
        scope: Scope::Cluster,
        at,
        key,
    });
}

fn fill<N: Names>(names: &mut N, node: u32, count: u32)
    requires { node ≤ 31 }
{
    for key in 0..count {
        publish(names, node, 100 + key % 32, key, key, key);
    }
}

fn fill_all<N: Names>(names: &mut N, nodes: u32)
    requires { nodes ≤ 32 }
{
    for node in 0..nodes {
        fill(names, node, if node == 15 { 1_023 } else { 1_024 });
    }
}

fn change<N: Names>(names: &mut N, node: u32)
    requires { node ≤ 31 }
{
    for key in 0..CALLS {
        publish(names, node, 100 + key % 32, key, key, 5_000);
        let _ = names.withdraw(
            Addr {
                word: 16_781_313 + node,
            },
            5_000,
        );
    }
}

fn look<N: Names>(alloc: Global, names: &N) -> usize {
    let mut found = 0usize;
    for key in 0..CALLS {
        if let Ok(all) = names.matches(alloc, 100 + key % 32, key) {
            found = found.wrapping_add(all.as_slice().len());
        }
    }
    found
}

fn measure<N: Names>(rt: &HostRuntime, names: &mut N, what: &str, nodes: u32) -> io::Result<()>
    requires { nodes ≤ 32 }
{
    let start = Instant::now(rt)?;
    fill_all(names, nodes);
    let filling = start.elapsed(rt)?.as_micros();
    let start = Instant::now(rt)?;
    change(names, 15);
    let changing = start.elapsed(rt)?.as_micros();
    let start = Instant::now(rt)?;
    let found = look(rt.alloc(), names);
    let looking = start.elapsed(rt)?.as_micros();
    println!(rt; "{what}, {nodes} nodes: filled in {filling} us, {CALLS} changes {changing} us, {CALLS} look-ups {looking} us ({found})")
}

fn learn<N: Names>(rt: &HostRuntime, names: &mut N, what: &str) -> io::Result<()> {
    let start = Instant::now(rt)?;
    fill(names, 1, 1_024);
    let took = start.elapsed(rt)?.as_micros();
    println!(rt; "{what}: 1,024 publications of a node learned in {took} us")
}

fn main(rt: HostRuntime) -> io::Result<()> {
    learn(&rt, &mut NameTable::new(rt.alloc()), "list")?;
    learn(&rt, &mut NameIndex::new(rt.alloc()), "index")?;
    measure(&rt, &mut NameTable::new(rt.alloc()), "list", 1)?;
    measure(&rt, &mut NameIndex::new(rt.alloc()), "index", 1)?;
    measure(&rt, &mut NameTable::new(rt.alloc()), "list", 32)?;
    measure(&rt, &mut NameIndex::new(rt.alloc()), "index", 32)
}
RT
cd "$bench"
rt run
