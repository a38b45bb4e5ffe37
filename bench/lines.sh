#!/bin/sh
# Times the crates of lines and of texts: `Tracker::take` for each of 10,000 frames of one connection and of 10,000 connections, and
# reading and writing a schedule of 1,000,000 lines. The program stands in a folder of its own that is made and removed here, since it is no
# part of the repository; the first run proves it, and takes some minutes where the crates below it are not proved yet.
set -eu
. "$(dirname "$0")/scratch.sh"
scratch time_lines anyhow colo_base inet_build inet_frame replay_log tcp_track
cat > src/main.rt <<'MAIN'
//! Times lines and texts.
#![tactic(auto)]

use anyhow::Result;
use inet_build::{Segment, segment};
use inet_frame::Tuple;
use replay_log::{parse_schedule, write_line};
use std::rt::Clock;
use std::time::Instant;
use tcp_track::Tracker;

/// A frame of the guest to the client with this address: a SYN, or 100 bytes.
fn frame_of(rt: &impl AllocGlobal, addr: u32, seq: u32, opens: bool) -> Result<Vec<u8>> {
    let fields = Segment {
        dst_mac: [0x52, 0x54, 0, 0xAA, 0, 1],
        tuple: Tuple { addr, port: 40000, guest: 7 },
        seq,
        ack: 1001,
        flags: if opens { 0x12 } else { 0x18 },
        window: 4096,
        mss: None,
    };
    let bytes = [0x61; 100];
    let payload: &[u8] = if opens { &[] } else { &bytes };
    Ok(segment(rt.alloc(), &fields, payload)?)
}

/// Takes a SYN and then 9,999 frames of one connection, or the SYNs of 10,000 connections.
fn time_frames(rt: &(impl AllocGlobal + Clock + Print), connections: bool) -> Result<()> {
    let mut frames = Vec::new(rt.alloc());
    for k in 0..10_000u32 {
        let opens = connections || k == 0;
        let addr = if connections { k } else { 1 };
        let seq = if opens { 5000 } else { 100 * k + 4901 };
        frames.push(frame_of(rt, addr, seq, opens)?)?;
    }
    let mut tracker = Tracker::new(rt.alloc());
    let mut refused = 0u32;
    let start = Instant::now(rt)?;
    for frame in &frames {
        if tracker.take(frame).is_err() {
            refused = refused.saturating_add(1);
        }
    }
    let took = start.elapsed(rt)?.as_micros();
    let len = tracker.len();
    println!(rt; "take: 10000 frames, {len} connections, {refused} refused: {took} microseconds")?;
    Ok(())
}

/// Reads a schedule of so many lines, and writes it again.
fn time_schedule(rt: &(impl AllocGlobal + Clock + Print), lines: u32) -> Result<()> {
    let mut text = Vec::new(rt.alloc());
    for k in 0..lines {
        let line: &[u8] = if k % 4 == 0 { b"c\n" } else { b"P 4000 1 8 100000\n" };
        text.extend_from_slice(line)?;
    }
    let start = Instant::now(rt)?;
    let Ok(read) = parse_schedule(rt.alloc(), &text) else {
        println!(rt; "no schedule")?;
        return Ok(());
    };
    let took = start.elapsed(rt)?.as_millis();
    let mut out = Vec::new(rt.alloc());
    let mut refused = 0u32;
    let start = Instant::now(rt)?;
    for line in &read {
        if write_line(line, &mut out).is_err() {
            refused = refused.saturating_add(1);
        }
    }
    let wrote = start.elapsed(rt)?.as_millis();
    let same = out.as_slice() == text.as_slice();
    println!(rt; "schedule: {lines} lines read in {took} ms, written in {wrote} ms, the same: {same}")?;
    Ok(())
}

fn main(rt: HostRuntime) -> Result<()> {
    time_frames(&rt, false)?;
    time_frames(&rt, true)?;
    time_schedule(&rt, 1_000_000)
}
MAIN
rt run
