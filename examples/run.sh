#!/usr/bin/env bash
# Runs the tools that show a run, and the built `colo`: the stored failover, and what it doesn't show: a status other than 0, a demo
# image, sessions of one machine and of a pair with the demo servers, and three C programs, of which memory or the disk is checked
# afterwards, and whose runs are made again by `solo`. Where a tool is missing, one line says what was passed over.
# COLO names the program `colo`, if it is not the one built in crates/colo.
set -eu
cd "$(dirname "$0")"

if command -v python3 > /dev/null; then
    python3 look.py out-look
    rm -rf out-look
fi
colo=$(readlink -m "${COLO:-../crates/colo/out/colo}")
if [ ! -x "$colo" ]; then
    echo "skipped: there is no $colo; 'rt run' in crates/colo builds it"
    exit 0
fi
rm -rf out
mkdir out

# ends STATUS LINE WORD..: the words give this status and print this line
ends() {
    local wanted=$1 line=$2 status=0
    shift 2
    "$colo" "$@" > out/printed || status=$?
    if [ "$status" -ne "$wanted" ] || [ "$(cat out/printed)" != "$line" ]; then
        echo "'colo $*' ended with $status and printed '$(cat out/printed)', not $wanted and '$line'" >&2
        exit 1
    fi
}

ends 1 usage replay a
ends 6 "read failed" replay missing missing missing missing out/run
ends 0 "bytes 88" image mute out/mute.elf
for name in echo clocked disk_log; do
    "$colo" image "$name" "out/$name.elf" > out/printed
    [ "$(cat out/printed)" = "bytes $(wc -c < "out/$name.elf")" ] || { echo "image $name: $(cat out/printed)" >&2; exit 1; }
done
ends 1 usage image Echo out/echo.elf
head -c 513 /dev/zero > out/long
head -c 512 /dev/zero > out/disk
: > out/client
printf 'P 10 0 0 5\nP 20 0 0 7\n' > out/turns
ends 3 "disk: 513" replay out/mute.elf out/long out/client out/turns out/run
printf '\0\1\20\1' > out/cut
ends 5 "client: 0" replay out/mute.elf out/disk out/cut out/turns out/run
printf 'x p\nx s\n' > out/stops
ends 4 "line 2" replay out/mute.elf out/disk out/client out/stops out/run
ends 2 "image: 1" replay out/turns out/disk out/client out/turns out/run
ends 0 "lines 2 released 0 captured 0" replay out/mute.elf out/disk out/client out/turns out/run
"$colo" replay out/mute.elf out/disk out/client out/turns out/small --ram 1 > out/printed
[ "$(wc -c < out/small.ram)" -eq 1048576 ] || { echo "--ram 1 left another size" >&2; exit 1; }
ends 1 usage replay out/mute.elf out/disk out/client out/turns out/run --ram 65
ends 0 "turns 2" splice out/run.log out/run.single
printf 'T 10 - 0 5\nT 20 - 0 7\n' | cmp - out/run.single
ends 0 "turns 2 sent 0" solo out/mute.elf out/disk out/client out/run.single out/again
cmp out/run.ram out/again.ram && cmp out/run.disk out/again.disk && cmp /dev/null out/again.sent
printf 'T 10 - 0 5\nT 20 0 0 7\n' > out/frame.single
ends 4 "line 2" solo out/mute.elf out/disk out/client out/frame.single out/stopped
cat out/stopped.sent out/stopped.ram out/stopped.disk | cmp /dev/null -
ends 7 "write failed" image mute missing/mute.elf
echo "statuses and the demo image: as they must be"

cmp ../crates/colo/data/echo.elf out/echo.elf
if command -v python3 > /dev/null; then
    (cd ../crates/colo/data && "$colo" replay echo.elf disk.img client.bin failover.schedule ../../../examples/out/failover) > out/printed
    python3 echo_failover.py ../crates/colo/data out/failover
    python3 echo_rounds.py "$colo" out
    python3 sessions.py "$colo" out
    python3 pair_sessions.py "$colo" out
else
    echo "skipped: the sessions with the demo servers, since there is no python3"
fi

# again RUN IMAGE TURNS: `solo` makes the run that the log of `replay` names again, to the same memory and disk
again() {
    "$colo" splice "out/$1.log" "out/$1.single" > out/printed
    [ "$(cat out/printed)" = "turns $3" ] || { echo "splice of $1: $(cat out/printed)" >&2; exit 1; }
    "$colo" solo "$2" out/disk out/client "out/$1.single" "out/$1-again" > out/printed
    grep -q "^turns $3 sent [0-9]*$" out/printed || { echo "solo of $1: $(cat out/printed)" >&2; exit 1; }
    cmp "out/$1.ram" "out/$1-again.ram"
    cmp "out/$1.disk" "out/$1-again.disk"
}

# build OUT SOURCE: the program with its start code, by GCC or by clang and lld
build() {
    if command -v riscv64-unknown-elf-gcc > /dev/null; then
        riscv64-unknown-elf-gcc -O2 -march=rv32ima_zicsr_zifencei -mabi=ilp32 -mstrict-align -ffreestanding -nostdlib \
            -T link.ld -o "$1" start.S "$2"
    else
        clang --target=riscv32-unknown-elf -O2 -march=rv32ima -mabi=ilp32 -mno-relax -ffreestanding -nostdlib \
            -fuse-ld=lld -T link.ld -o "$1" start.S "$2"
    fi
}

if ! command -v riscv64-unknown-elf-gcc > /dev/null && ! { command -v clang && command -v ld.lld; } > /dev/null; then
    echo "skipped: the C programs, since there is neither riscv64-unknown-elf-gcc (Debian's gcc-riscv64-unknown-elf)" \
        "nor clang with lld"
    exit 0
fi
: > out/client

build out/work.elf work.c
head -c 512 /dev/zero > out/disk
for _ in $(seq 40); do echo "P 250 0 0 10000"; done > out/schedule
"$colo" replay out/work.elf out/disk out/client out/schedule out/run
python3 check.py out/run.ram
again run out/work.elf 40

build out/devices.elf devices.c
head -c 2048 /dev/zero > out/disk
for _ in $(seq 200); do echo "P 250 1 4 2000"; done > out/schedule
"$colo" replay out/devices.elf out/disk out/client out/schedule out/devices
python3 check_devices.py out/devices.disk
again devices out/devices.elf 200

build out/ring.elf ring.c
head -c 512 /dev/zero > out/disk
for _ in $(seq 20); do echo "P 250 0 4 2000"; done > out/schedule
"$colo" replay out/ring.elf out/disk out/client out/schedule out/ring
python3 check_ring.py out/ring.ram
again ring out/ring.elf 20
