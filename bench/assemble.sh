#!/bin/sh
# Times `assemble` of 100,000 labelled lines, each of which names a label, and of 200,000, which should take
# about twice as long. The program stands in a folder of its own that is made and removed here, since it is
# no part of the repository; the first run proves it, and takes some minutes where the crates below it are not proved yet.
set -eu
. "$(dirname "$0")/scratch.sh"
scratch time_assemble anyhow rv_asm
cat > src/main.rt <<'MAIN'
//! Times the assembler.
#![tactic(auto)]

use anyhow::Result;
use rv_asm::{AsmFault, assemble};
use std::rt::Clock;
use std::time::Instant;

/// A text of so many lines, each with a label and a branch to a label some lines before.
fn text_of(rt: &impl AllocGlobal, lines: u32) -> Result<String> {
    let mut text = String::new(rt.alloc());
    for line in 0..lines {
        let target = line - line % 500;
        let part = format!(in rt.alloc(); "l{line}: beq x1, x2, l{target}\n")?;
        text.push_str(part.as_str())?;
    }
    Ok(text)
}

/// Assembles it, and prints how long that took.
fn time(rt: &(impl AllocGlobal + Clock + Print), lines: u32) -> Result<()> {
    let text = text_of(rt, lines)?;
    let start = Instant::now(rt)?;
    let bytes = match assemble(rt.alloc(), text.as_str()) {
        Ok(bytes) => bytes.len(),
        Err(AsmFault::Line { line, .. }) => {
            println!(rt; "line {line} is bad")?;
            0
        }
        Err(AsmFault::NoMemory) => 0,
    };
    let took = start.elapsed(rt)?.as_millis();
    println!(rt; "{lines} lines, {bytes} bytes: {took} ms")?;
    Ok(())
}

fn main(rt: HostRuntime) -> Result<()> {
    time(&rt, 100_000)?;
    time(&rt, 200_000)
}
MAIN
rt run
