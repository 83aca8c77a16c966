#!/usr/bin/env bash
# How long `decode` and `encode` take: milliseconds for 10 million packets of 37 and of 1,452 bytes.
# It proves and builds a program in a temporary folder, and is no part of the gate.
set -euo pipefail
root=$(cd "$(dirname "$0")/.." && pwd)
work=$(mktemp -d)
trap 'rm -rf "$work"' EXIT
mkdir -p "$work/crates"
echo 'tipc_header:' >"$work/crates.txt"
mkdir "$work/crates/tipc_header"
cp -r "$root/crates/tipc_header/src" "$root/crates/tipc_header/specs" "$root/crates/tipc_header/proofs" "$work/crates/tipc_header/"
(cd "$work" && rt new crates/header_bench start_io >/dev/null)
echo 'header_bench: tipc_header' >>"$work/crates.txt"
bench=$work/crates/header_bench
rm -rf "$bench/BUILD.bazel" "$bench"/src/* "$bench/proofs" "$bench/specs" "$bench/stdin" "$bench/stdout"
mkdir "$bench/specs"
: >"$bench/specs/Lib.antt"
cat >"$bench/src/main.rt" <<'RT'
#![tactic(auto)]

ghost use Rattle.std.specs.Prelude.{◌≤◌, length};

use std::alloc::AllocError;
use std::io;
use std::time::Instant;
use tipc_header::{Addressing, Header, Packet, Payload, decode, encode};

const PACKETS: u32 = 10_000_000;

const HELLO: Payload = Payload {
    importance: 0,
    destination_droppable: false,
    source_droppable: false,
    error_code: 0,
    reroute_count: 0,
    lookup_scope: 0,
    broadcast_acknowledgement: 0,
    origin_port: 1,
    destination_port: 1,
    addressing: Addressing::Direct {
        origin_node: 0x0100_1001,
        destination_node: 0x0100_1002,
    },
};

fn encode_many(rest: &[u8], bytes: &mut Vec<u8>) -> Result<(), AllocError>
    requires { length rest.now ≤ 66000 }
{
    for i in 0..PACKETS {
        let packet = Packet {
            acknowledgement: 0,
            sequence: (i % 65536) as u16,
            previous: 0x0100_1001,
            header: Header::Payload(HELLO),
            rest,
        };
        bytes.clear();
        encode(&packet, bytes)?;
    }
    Ok(())
}

fn decode_many(bytes: &mut Vec<u8>) -> u64 {
    let mut sum = 0u64;
    for i in 0..PACKETS {
        if let Some(byte) = bytes.get_mut(11) {
            *byte = (i % 256) as u8;
        }
        if let Ok(packet) = decode(bytes) {
            sum = sum.wrapping_add(u64::from(packet.sequence) + packet.rest.len() as u64);
        }
    }
    sum
}

fn measure(rt: &HostRuntime, rest: &[u8]) -> io::Result<()>
    requires { length rest.now ≤ 66000 }
{
    let mut bytes = Vec::new(rt.alloc());
    let start = Instant::now(rt)?;
    encode_many(rest, &mut bytes)?;
    let encoding = start.elapsed(rt)?.as_millis();
    let start = Instant::now(rt)?;
    let sum = decode_many(&mut bytes);
    let decoding = start.elapsed(rt)?.as_millis();
    let len = bytes.len();
    println!(rt; "{len} bytes, {PACKETS} packets: encode {encoding} ms, decode {decoding} ms ({sum})")
}

fn main(rt: HostRuntime) -> io::Result<()> {
    measure(&rt, b"hello")?;
    let long = vec![in rt.alloc(); 7u8; 1420]?;
    measure(&rt, &long)
}
RT
cd "$bench"
rt run
