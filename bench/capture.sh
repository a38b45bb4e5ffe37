#!/bin/sh
# Times a capture of a machine with 16 and with 64 MiB of memory, beside a bare copy of its memory, page after page into one list of bytes:
# the best of ten runs each, each in a process of its own, and the most memory that it took. `boot` makes the machine and nothing more, so
# the difference from its memory is what the capture or the copy takes. The messages of a capture themselves have the memory's bytes, and 9
# more a page. The program stands in a folder of its own that is made and removed here, since it is no part of the repository; the first run
# proves it, and takes some minutes where the crates below it are not proved yet.
set -eu
. "$(dirname "$0")/scratch.sh"
scratch time_capture anyhow checkpoint_capture colo_base colo_guests disk_buffers frame_mirror guest_machine node_parts seq_rewriter state_wire tcp_track
cat > src/main.rt <<'MAIN'
//! Times a capture, or a copy of the memory.
#![tactic(auto)]

use anyhow::Result;
use checkpoint_capture::put_capture;
use colo_base::NoMemory;
use colo_guests::image;
use disk_buffers::WholeDisk;
use frame_mirror::Inbox;
use guest_machine::Machine;
use node_parts::Outbox;
use seq_rewriter::Numbers;
use state_wire::Guest;
use std::alloc::Global;
use std::env;
use std::rt::Clock;
use std::time::Instant;
use tcp_track::Tracker;

/// What is timed. Each call tells how much it made, and what stands on it sees no more than that.
trait Copied {
    fn capture(&self, alloc: Global) -> Result<usize, NoMemory>;
    fn copy(&self, alloc: Global) -> Result<usize, NoMemory>;
}

impl Copied for Machine<WholeDisk> {
    fn capture(&self, alloc: Global) -> Result<usize, NoMemory> {
        let inbox = Inbox::new(alloc)?;
        let lines = Tracker::new(alloc);
        let numbers = Numbers::new(alloc);
        let mut waits = Outbox::new(alloc);
        put_capture(alloc, self, &inbox, &lines, &numbers, 1, &mut waits)?;
        Ok(waits.len())
    }

    fn copy(&self, alloc: Global) -> Result<usize, NoMemory> {
        let mut bytes = Vec::with_capacity(alloc, self.pages() as usize * 4096)?;
        for k in 0..self.pages() {
            if let Some(page) = self.page(k) {
                bytes.extend_from_slice(page)?;
            }
        }
        let last = bytes.last().copied().unwrap_or(0);
        Ok(bytes.len().wrapping_add(usize::from(last)))
    }
}

/// The machine of a demo image, with a disk of one sector and so many MiB of memory.
fn boot(alloc: Global, mib: u32) -> Option<Machine<WholeDisk>> {
    if mib < 1 || mib > 64 {
        return None;
    }
    let Ok(Some(elf)) = image(alloc, "echo") else {
        return None;
    };
    let Ok(disk) = WholeDisk::new(alloc, &[0u8; 512]) else {
        return None;
    };
    Machine::boot(alloc, &elf, disk, mib).ok()
}

/// What is made of a machine, by the word.
fn make<M: Copied>(alloc: Global, machine: &M, word: &str) -> Result<usize, NoMemory> {
    if word == "capture" {
        machine.capture(alloc)
    } else if word == "copy" {
        machine.copy(alloc)
    } else {
        Ok(0)
    }
}

fn time<M: Copied>(
    rt: &(impl AllocGlobal + Clock + Print),
    machine: &M,
    word: &str,
) -> Result<()> {
    let start = Instant::now(rt)?;
    let made = make(rt.alloc(), machine, word).unwrap_or(0);
    let took = start.elapsed(rt)?.as_micros();
    println!(rt; "{took} {made}")?;
    Ok(())
}

fn main(rt: HostRuntime) -> Result<()> {
    let words = env::args(&rt)?;
    let mut words = words.skip(1);
    let word = words.next().unwrap_or(String::new(rt.alloc()));
    let size = words.next().unwrap_or(String::new(rt.alloc()));
    let mib = size.parse::<u32>().unwrap_or(16);
    match boot(rt.alloc(), mib) {
        Some(machine) => time(&rt, &machine, &word),
        None => Ok(println!(rt; "no machine")?),
    }
}
MAIN
rt run -- boot 16
for mib in 16 64; do
    for word in boot copy capture; do
        for _ in 1 2 3 4 5 6 7 8 9 10; do
            /usr/bin/time -f '%M' out/time_capture "$word" "$mib" 2>&1 | paste -s -d ' '
        done | sort -n | head -1 | {
            read -r took made most
            echo "$mib MiB, $word: $took microseconds, $most KiB, $made made"
        }
    done
done
