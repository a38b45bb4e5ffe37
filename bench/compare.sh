#!/bin/sh
# Times the comparer's `settle` at the end of an event that brings one new symbol to one connection, beside 10 and beside 10,000
# connections that stand. The difference is what the pass over the table costs, since it goes in table order and asks each entry. The program
# stands in a folder of its own that is made and removed here, since it is no part of the repository; the first run proves it, and takes some
# minutes where the crates below it are not proved yet.
set -eu
. "$(dirname "$0")/scratch.sh"
scratch time_compare anyhow colo_base inet_build inet_frame out_compare
cat > src/main.rt <<'MAIN'
//! Times the comparer.
#![tactic(auto)]

use anyhow::Result;
use colo_base::Frames;
use inet_build::{Segment, segment};
use inet_frame::Tuple;
use out_compare::Compare;
use std::alloc::{AllocError, Global};
use std::rt::Clock;
use std::time::Instant;

/// How many symbols are timed, each of which makes two events.
const SYMBOLS: u32 = 200;

fn tuple_of(addr: u32) -> Tuple {
    Tuple { addr, port: 40000, guest: 7 }
}

/// What is timed. Each call tells whether it was answered, and what stands on it sees no more than
/// that.
trait Pair {
    fn send(&mut self, frame: &[u8]) -> bool;
    fn hear(&mut self, frame: &[u8]) -> bool;
    fn know(&mut self, addr: u32);
    fn settle(&mut self, turn: bool, out: &mut Frames) -> bool;
}

impl Pair for Compare {
    fn send(&mut self, frame: &[u8]) -> bool {
        self.primary(frame).is_ok()
    }

    fn hear(&mut self, frame: &[u8]) -> bool {
        self.secondary(frame).is_ok()
    }

    fn know(&mut self, addr: u32) {
        self.known(&tuple_of(addr), 1000, 5000);
    }

    fn settle(&mut self, turn: bool, out: &mut Frames) -> bool {
        Compare::settle(self, turn, out).is_ok()
    }
}

fn fields(addr: u32, seq: u32, opens: bool) -> Segment {
    Segment {
        dst_mac: [0x52, 0x54, 0, 0xAA, 0, 1],
        tuple: tuple_of(addr),
        seq,
        ack: 1001,
        flags: if opens { 0x12 } else { 0x18 },
        window: 4096,
        mss: None,
    }
}

/// A frame of a guest to the client with this address: a SYN where it has no bytes.
fn frame_of(alloc: Global, addr: u32, seq: u32, bytes: &[u8]) -> Result<Vec<u8>, AllocError> {
    let short = &bytes[..bytes.len().min(536)];
    segment(alloc, &fields(addr, seq, short.is_empty()), short)
}

/// Opens the connection of a client, of whose SYN both nodes know the number.
fn open<P: Pair>(alloc: Global, pair: &mut P, addr: u32) -> Result<bool, AllocError> {
    let frame = frame_of(alloc, addr, 5000, b"")?;
    let is_sent = pair.send(&frame);
    let is_heard = pair.hear(&frame);
    pair.know(addr);
    Ok(is_sent && is_heard)
}

/// Opens so many connections, whose SYNs go out.
fn open_all<P: Pair>(
    alloc: Global,
    pair: &mut P,
    connections: u32,
    out: &mut Frames,
) -> Result<bool, AllocError> {
    let mut all = true;
    for addr in 0..connections {
        all = open(alloc, pair, addr)? && all;
    }
    Ok(pair.settle(false, out) && all)
}

/// One symbol of the first connection: the node's own guest sends it, and then the other's.
fn exchange<P: Pair>(pair: &mut P, frame: &[u8], out: &mut Frames) -> bool {
    let is_sent = pair.send(frame);
    let waits = pair.settle(true, out);
    let is_heard = pair.hear(frame);
    let goes = pair.settle(false, out);
    is_sent && waits && is_heard && goes
}

/// The frames of the first connection, one byte each.
fn symbols(alloc: Global) -> Result<Vec<Vec<u8>>, AllocError> {
    let mut frames = Vec::new(alloc);
    for k in 0..SYMBOLS {
        frames.push(frame_of(alloc, 0, 5001 + k, b"a")?)?;
    }
    Ok(frames)
}

fn exchange_all<P: Pair>(pair: &mut P, frames: &[Vec<u8>], out: &mut Frames) -> u32 {
    let mut refused = 0u32;
    for frame in frames {
        if !exchange(pair, frame, out) {
            refused = refused.saturating_add(1);
        }
    }
    refused
}

fn time<P: Pair>(
    rt: &(impl AllocGlobal + Clock + Print),
    pair: &mut P,
    connections: u32,
) -> Result<()> {
    let mut out = Frames::new(rt.alloc());
    let opened = open_all(rt.alloc(), pair, connections, &mut out)?;
    let frames = symbols(rt.alloc())?;
    let syns = out.len();
    let start = Instant::now(rt)?;
    let refused = exchange_all(pair, &frames, &mut out);
    let took = start.elapsed(rt)?.as_micros();
    let all = out.len();
    println!(rt; "{connections} connections (all opened: {opened}), {syns} SYNs, {all} frames, {refused} refused: {took} microseconds for 400 events")?;
    Ok(())
}

fn main(rt: HostRuntime) -> Result<()> {
    time(&rt, &mut Compare::new(rt.alloc()), 10)?;
    time(&rt, &mut Compare::new(rt.alloc()), 10_000)
}
MAIN
rt run
