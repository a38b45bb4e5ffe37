#!/usr/bin/env bash
# Times `colo replay` on twelve loops, and prints of each how many million steps it makes in a second, and,
# where valgrind is there, how many x86 instructions a step takes. There is no bar.
# COLO names the program `colo`, if it is not the one built in crates/colo. BEFORE names another one to be
# run beside it, as that of the commit before: `git worktree add ../before HEAD~1`, then `rt run` in its
# crates/colo, and BEFORE=../before/crates/colo/out/colo (the program is not timed as `rt try` runs it).
set -eu
colo=${COLO:-$(dirname "$0")/../crates/colo/out/colo}
if [ ! -x "$colo" ]; then
    echo "there is no $colo: run 'rt run' in crates/colo first" >&2
    exit 1
fi
if [ -n "${BEFORE:-}" ] && [ ! -x "$BEFORE" ]; then
    echo "there is no $BEFORE" >&2
    exit 1
fi
colo=$(realpath "$colo")
before=${BEFORE:+$(realpath "$BEFORE")}
cd "$(dirname "$0")"
rm -rf out
mkdir out
python3 images.py out
head -c 512 /dev/zero > out/disk
: > out/client
python3 steps.py out "$colo" ${before:+"$before"}
