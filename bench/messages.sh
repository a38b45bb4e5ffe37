#!/bin/sh
# Times `decode` and `encode` of colo_wire for a State of 1 MiB and for a Page, beside a copy of as many bytes, which is what each
# should take. The program stands in a folder of its own that is made and removed here, since it is no part of the repository; the first run
# proves it, and takes some minutes where the crates below it are not proved yet.
set -eu
. "$(dirname "$0")/scratch.sh"
scratch time_messages anyhow colo_wire
cat > src/main.rt <<'MAIN'
//! Times messages.
#![tactic(auto)]

use anyhow::Result;
use colo_wire::{decode, encode};
use std::rt::Clock;
use std::time::Instant;

/// A message of a kind: the length of its body, and bytes of 0.
fn message_of(rt: &impl AllocGlobal, kind: u8, len: u32) -> Result<Vec<u8>> {
    let mut bytes = Vec::new(rt.alloc());
    bytes.push(kind)?;
    bytes.extend_from_slice(&len.to_be_bytes())?;
    for _ in 0..len {
        bytes.push(0)?;
    }
    Ok(bytes)
}

/// A copy of the bytes, and its length.
fn copy(rt: &impl AllocGlobal, bytes: &[u8]) -> Result<usize> {
    Ok(bytes.to_vec(rt.alloc())?.len())
}

/// Reads the message, and gives its size.
fn read(rt: &impl AllocGlobal, bytes: &[u8]) -> usize {
    match decode(rt.alloc(), bytes) {
        Ok((_, size)) => size,
        Err(_) => 0,
    }
}

/// Reads the message and writes it again, and gives its length.
fn read_and_write(rt: &impl AllocGlobal, bytes: &[u8]) -> usize {
    let Ok((message, _)) = decode(rt.alloc(), bytes) else {
        return 0;
    };
    let mut out = Vec::new(rt.alloc());
    match encode(&message, &mut out) {
        Ok(()) => out.len(),
        Err(_) => 0,
    }
}

/// Times a message of this kind and length.
fn time(rt: &(impl AllocGlobal + Clock + Print), kind: u8, len: u32, times: u32) -> Result<()> {
    let bytes = message_of(rt, kind, len)?;
    let mut total = 0usize;
    let start = Instant::now(rt)?;
    for _ in 0..times {
        total = total.wrapping_add(copy(rt, &bytes)?);
    }
    let copied = start.elapsed(rt)?.as_micros();
    let start = Instant::now(rt)?;
    for _ in 0..times {
        total = total.wrapping_add(read(rt, &bytes));
    }
    let was_read = start.elapsed(rt)?.as_micros();
    let start = Instant::now(rt)?;
    for _ in 0..times {
        total = total.wrapping_add(read_and_write(rt, &bytes));
    }
    let both = start.elapsed(rt)?.as_micros();
    println!(rt; "kind {kind}, {len} bytes, {times} times: copy {copied}, decode {was_read}, decode and encode {both} microseconds, {total} bytes")?;
    Ok(())
}

fn main(rt: HostRuntime) -> Result<()> {
    time(&rt, 4, 1_048_576, 200)?;
    time(&rt, 5, 4100, 20_000)
}
MAIN
rt run
