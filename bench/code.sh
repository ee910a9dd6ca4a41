#!/usr/bin/env bash
# The quality of the code: how many instructions each program of bench/programs executes, and how many words its code has. There are three
# kinds, each with a mean of its own: the eleven in bench/programs, the fourteen of firmware/ (state in global scalars, tables, arrays of
# bytes), and the four of untuned/, which were written before the generated code was tuned, and which nobody looks at while tuning it. Some read words
# of input: bench/programs/inputs.
# bench/code.sh [--gp] [SIMULATOR COMPILER..]: if the command of a plain simulator of the machine and of a C compiler for it are given,
# that compiler's code runs there, unoptimised (LEVEL=-Og for another level), and the ratio is our count / the compiler's: less is better.
# For example: bench/code.sh './rv32sim -d' clang --target=riscv32, or bench/code.sh --gp './rv32sim -d' riscv64-unknown-elf-gcc
# --gp: the compiler's own linker makes accesses to the first 4 KiB of globals relative to gp, which start code sets: this makes the
# comparison harder. Otherwise lld links the program (LINKER).
# A count is exact, so other work on the machine does not change it: it is the least number of steps with which `run` comes to an end.
set -eu
# shellcheck source=bench/words.sh
. "$(dirname "$0")/words.sh"
cclib
room
LINKER=${LINKER:-lld}
if [ "${1:-}" = --gp ]; then
    shift
    gp=1
fi
simulator=${1:-}
[ $# -eq 0 ] || shift
compiler=("$@")

# `run` takes at most this many steps.
most=1000000000

# input PROGRAM: the words that the program reads
input() { sed -n "s/^$(basename "$1" .c) //p" "$top/bench/programs/inputs"; }

# goes_on PROGRAM STEPS: whether the program has not ended after that many steps
goes_on() {
    # shellcheck disable=SC2046
    "$cclib" --quiet run "$2" $(input "$1") < "$1" > "$work/out" || fail "$1: $(tail -n 1 "$work/out")"
    [ "$(tail -n 1 "$work/out")" = going ]
}

# executed PROGRAM: how many instructions the program executes
executed() {
    local low=0 high=1024 middle
    while goes_on "$1" $high; do
        [ $high -lt $most ] || fail "$1: it does not end"
        low=$high high=$((high < most / 2 ? 2 * high : most))
    done
    while [ $((low + 1)) -lt $high ]; do
        middle=$(((low + high) / 2))
        if goes_on "$1" $middle; then low=$middle; else high=$middle; fi
    done
    echo $high
}

# theirs PROGRAM: how many instructions the compiler's code executes, and how many words it has
theirs() {
    words "$1" program
    # shellcheck disable=SC2046,SC2086
    $simulator "$work/program.code" "$work/program.globals" 100000000000 $(input "$1") 2> "$work/count" > "$work/out"
    echo "$(awk '{ print $1; exit }' "$work/count") $(($(stat -c %s "$work/program.code") / 4))"
}

for kind in . firmware untuned; do
    for text in "$top"/bench/programs/$kind/*.c; do
        ours="$(executed "$text") $("$cclib" asm < "$text" | wc -l)"
        echo "$kind $(basename "$text" .c) $ours $([ -z "$simulator" ] || theirs "$text")"
    done
done | awk '
    function mean(kind) { printf "%s: geometric means over %d programs: instructions %.3f (%.3f to %.3f), words %.3f\n", kind, n[kind], exp(executed[kind] / n[kind]), least[kind], most[kind], exp(words[kind] / n[kind]) }
    function add(kind, a, b) {
        executed[kind] += log(a); words[kind] += log(b)
        if (!n[kind]++ || a < least[kind]) least[kind] = a
        if (a > most[kind]) most[kind] = a
    }
    { line = $2 ": " $3 " instructions, " $4 " words" }
    NF == 6 { add($1, $3 / $5, $4 / $6); add("all", $3 / $5, $4 / $6); line = line sprintf("; peer %s and %s; ratios %.3f and %.3f", $5, $6, $3 / $5, $4 / $6) }
    { print line }
    END { if (n["all"]) { mean("."); mean("firmware"); mean("untuned"); mean("all") } }'
