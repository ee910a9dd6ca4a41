#!/usr/bin/env bash
# The simulator's speed: three endless loops (arithmetic; loads and stores; calls), each for 300 million instructions, in
# millions of instructions a processor second.
# bench/machine.sh [SIMULATOR [COMPILER..]]: if a plain simulator's command is given, it runs the same words, as `SIMULATOR CODE GLOBALS
# STEPS`, and the ratio is our speed / its speed: 1.0 is as fast, and more is faster. If the command of a C compiler is given too, its code for the
# programs of bench/programs, unoptimised, runs on both: bench/machine.sh './rv32sim -d' clang --target=riscv32, or with riscv64-unknown-elf-gcc
# The two run in turn, and the best of ROUNDS runs (5) counts. Ours is `run` in a session over a library with a unit of these words, which
# tools/records.py writes; the time of a session without a run is subtracted. Build the program first (./cclib --prove), or set CCLIB to a built one.
set -eu
# shellcheck source=bench/words.sh
. "$(dirname "$0")/words.sh"
cclib
room
steps=300000000 most=1000000000
simulator=${1:-}
[ $# -eq 0 ] || shift
compiler=("$@")
: > "$work/nothing"

# The words, given in hexadecimal, as little-endian bytes.
hexadecimal() {
    for w in "$@"; do
        printf "\\x${w:6:2}\\x${w:4:2}\\x${w:2:2}\\x${w:0:2}"
    done
}

: > "$work/none"
# add x10,x10,x5; xor x10,x10,x6; slli x7,x10,5; sub x6,x6,x7; mul x28,x7,x6; andi x28,x28,255; or x10,x10,x28;
# sltu x29,x10,x6; addi x5,x5,-1; bne x5,x0,-36; jal x0,-40
hexadecimal 00550533 00654533 00551393 40730333 02638e33 0ffe7e13 01c56533 00653eb3 fff28293 fc029ee3 fd9ff06f > "$work/arithmetic"
# lui x8,0x200; lw x6,16(x8); add x6,x6,x5; sw x6,16(x8); lw x7,-8(x2); sw x6,-8(x2); lbu x28,5(x8); sb x6,5(x8);
# lh x29,18(x8); addi x5,x5,1; jal x0,-36
hexadecimal 00200437 01042303 00530333 00642823 ff812383 fe612c23 00544e03 006402a3 01241e83 00128293 fddff06f > "$work/memory"
# jal x1,8; jal x0,-4; addi x2,x2,-16; sw x1,12(x2); sw x8,8(x2); addi x8,x10,1; jal x1,24; add x10,x10,x8;
# lw x8,8(x2); lw x1,12(x2); addi x2,x2,16; jalr x0,0(x1); addi x10,x10,3; jalr x0,0(x1)
hexadecimal 008000ef ffdff06f ff010113 00112623 00812423 00150413 018000ef 00850533 00812403 00c12083 01010113 00008067 00350513 00008067 > "$work/calls"

ours() { "$cclib" library "$work/disk" --quiet --workers 1 < "$work/$1"; }

# both CODE GLOBALS STEPS: our least processor seconds in $mine, the simulator's in $peer
both() {
    rm -f "$work"/time.*
    peer=
    python3 "$top/tools/records.py" image "$work/disk" "$1" "$2"
    echo "run image $3" > "$work/run"
    for _ in $(seq "${ROUNDS:-5}"); do
        timed start ours nothing
        timed run ours run
        # shellcheck disable=SC2086
        [ -z "$simulator" ] || peer=$(least "$(seconds "$work/theirs" $simulator "$@")" "$peer")
    done
    mine=$(less "$(best run)" "$(best start)")
    [ -z "$simulator" ] || cmp -s "$work/said.run" "$work/theirs" || fail "$1: other words"
}

# speed SECONDS: the speed in millions of instructions a second
speed() {
    awk -v steps=$steps -v s="$1" 'BEGIN { printf "%.1f", steps / s / 1e6 }'
}

for loop in arithmetic memory calls; do
    both "$work/$loop" "$work/none" $steps
    line="$loop: $(speed "$mine") million instructions a second"
    [ -z "$simulator" ] || line="$line; peer $(speed "$peer"); ratio $(ratio "$peer" "$mine")"
    echo "$line"
done

[ ${#compiler[@]} -gt 0 ] || exit 0
product=1
count=0
for file in "$top"/bench/programs/*.c; do
    name=$(basename "$file" .c)
    words "$file" "$name"
    both "$work/$name.code" "$work/$name.globals" $most
    product=$(awk -v p="$product" -v a="$peer" -v b="$mine" 'BEGIN { print p * a / b }')
    count=$((count + 1))
    echo "$name: $mine s; peer $peer s; ratio $(ratio "$peer" "$mine")"
done
awk -v p="$product" -v n="$count" 'BEGIN { printf "geometric mean of the ratios: %.2f\n", p ^ (1 / n) }'
