#!/bin/sh
# What the comparer keeps of a connection whose guests agree and whose client acknowledges: both guests send so many megabytes, in steps of
# 64 KB each of which the client acknowledges. The most memory that the program took is told for 1 MB and for 100 MB, and the difference is
# what the comparer keeps of the 99 MB between. The program stands in a folder of its own that is made and removed here, since it is no part
# of the repository; the first run proves it, and takes some minutes where the crates below it are not proved yet.
set -eu
. "$(dirname "$0")/scratch.sh"
scratch keep_agreed anyhow colo_base inet_build inet_frame out_compare worked_frames
cat > src/main.rt <<'MAIN'
//! Plays a connection whose guests agree and whose client acknowledges.
#![tactic(auto)]

use anyhow::Result;
use colo_base::{Frames, NoMemory};
use inet_build::{Segment, segment, shift_ack};
use inet_frame::{Seen, Tuple, parse};
use out_compare::Compare;
use std::alloc::Global;
use std::env;
use worked_frames::ACK_5004;

/// How many segments of 512 bytes a step has: 64 KB.
const SEGMENTS: u32 = 128;

fn fields(seq: u32, opens: bool) -> Segment {
    Segment {
        dst_mac: [0x52, 0x54, 0, 0xAA, 0, 1],
        tuple: Tuple { addr: 0x0A00_0202, port: 40000, guest: 7 },
        seq,
        ack: 1001,
        flags: if opens { 0x12 } else { 0x18 },
        window: 4096,
        mss: None,
    }
}

/// Both guests send a frame.
fn send(alloc: Global, compare: &mut Compare, seq: u32, bytes: &[u8]) -> Result<(), NoMemory> {
    let short = &bytes[..bytes.len().min(512)];
    let frame = segment(alloc, &fields(seq, short.is_empty()), short)?;
    let _ = compare.primary(&frame)?;
    let _ = compare.secondary(&frame)?;
    Ok(())
}

/// The client acknowledges up to a number, and how far that trims.
fn acknowledge(compare: &mut Compare, number: u32) -> u32 {
    let mut frame = ACK_5004;
    if let Seen::Tcp(_) = parse(&frame) {
        shift_ack(&mut frame, number.wrapping_sub(5004));
    }
    match parse(&frame) {
        Seen::Tcp(view) => compare.client(&view).1,
        _ => 0,
    }
}

/// One step of 64 KB from a number on: how many frames went out, and how far the client trims.
fn step(alloc: Global, compare: &mut Compare, from: u32) -> Result<(usize, u32), NoMemory> {
    let bytes = [b'a'; 512];
    for k in 0..SEGMENTS {
        send(alloc, compare, from.wrapping_add(k * 512), &bytes)?;
    }
    let mut out = Frames::new(alloc);
    let _ = compare.settle(true, &mut out)?;
    let trim = acknowledge(compare, from.wrapping_add(SEGMENTS * 512));
    Ok((out.len(), trim))
}

fn play(alloc: Global, steps: u32) -> Result<(usize, u32), NoMemory> {
    let mut compare = Compare::new(alloc);
    send(alloc, &mut compare, 5000, b"")?;
    compare.known(&fields(0, true).tuple, 1000, 5000);
    let mut out = Frames::new(alloc);
    let _ = compare.settle(true, &mut out)?;
    let mut last = (out.len(), 0);
    for k in 0..steps {
        last = step(alloc, &mut compare, 5001u32.wrapping_add(k.wrapping_mul(SEGMENTS * 512)))?;
    }
    Ok(last)
}

fn main(rt: HostRuntime) -> Result<()> {
    let word = env::args(&rt)?.nth(1).unwrap_or(String::new(rt.alloc()));
    let megabytes = word.parse::<u32>().unwrap_or(1).min(1000);
    match play(rt.alloc(), megabytes * 16) {
        Ok((frames, trim)) => println!(rt; "{megabytes} MB: {frames} frames in the last step, trimmed to {trim}")?,
        Err(NoMemory) => println!(rt; "{megabytes} MB: out of memory")?,
    }
    Ok(())
}
MAIN
rt run -- 1
for megabytes in 1 100; do
    /usr/bin/time -f 'most memory: %M KiB' out/keep_agreed "$megabytes"
done
