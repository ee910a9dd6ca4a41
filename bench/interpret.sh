#!/usr/bin/env bash
# The interpreter's speed on programs that do different kinds of work: the processor seconds of each. If the commands of a plain simulator of
# the machine and of a C compiler for it are given, that compiler's code runs there too, unoptimised, and the ratio is our time / the
# simulator's: bench/interpret.sh './rv32sim -d' clang --target=riscv32, or with riscv64-unknown-elf-gcc
# The two run in turn, and the best of ROUNDS runs (5) counts. Build the program first (./cclib --prove), or set CCLIB to a built one.
set -eu
# shellcheck source=bench/words.sh
. "$(dirname "$0")/words.sh"
cclib
room
simulator=${1:-}
[ $# -eq 0 ] || shift
compiler=("$@")

ours() { "$cclib" interpret 1000000000 < "$1"; }
# shellcheck disable=SC2086
theirs() { $simulator "$work/$1.code" "$work/$1.globals" 10000000000; }
product=1
count=0
for file in "$top"/bench/programs/*.c; do
    name=$(basename "$file" .c)
    mine=
    peer=
    [ -z "$simulator" ] || words "$file" "$name"
    for _ in $(seq "${ROUNDS:-5}"); do
        mine=$(least "$(seconds "$work/ours" ours "$file")" "$mine")
        [ -z "$simulator" ] || peer=$(least "$(seconds "$work/theirs" theirs "$name")" "$peer")
    done
    if [ -n "$simulator" ]; then
        cmp -s <(grep -v ended "$work/ours") <(grep -v exited "$work/theirs") || { echo "$name: other words" >&2; exit 1; }
        product=$(awk -v p="$product" -v a="$mine" -v b="$peer" 'BEGIN { print p * a / b }')
        count=$((count + 1))
        echo "$name: $mine s; simulator $peer s; ratio $(ratio "$mine" "$peer")"
    else
        echo "$name: $mine s"
    fi
done
[ "$count" -eq 0 ] || awk -v p="$product" -v n="$count" 'BEGIN { printf "geometric mean of the ratios: %.2f\n", p ^ (1 / n) }'
