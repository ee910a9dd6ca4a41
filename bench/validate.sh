#!/usr/bin/env bash
# What it costs to spill everything and then validate the result, as a function grows: the growth exponent, from ratios within one run.
# Three kinds of text: straight code, nested loops, and 64 locals that all stay live. Each is made so long that its RTL has as many nodes as asked
# for, or a few fewer. A step's time is processor time, not counting that of the steps before it: reading, making the RTL, and dropping what nobody
# needs of it. The exponent is log(ratio of times) / log(ratio of nodes): 1 is linear; the goal is 1.3 at most if the number of live registers is
# bounded.
# Each is run ROUNDS times (3), in turn, and the best time counts. Shorter texts are repeated more often within one process, until it has handled WORK
# (400,000) nodes in all.
# Then the largest amount of memory that the whole program takes with 256 locals and 8 parameters live and everything spilled (the goal is 64 MB),
# without the validator and with it; and LTL that an attacker might submit (bench/hostile.py).
# Build the programs first (./prove-below bench, ./cclib --prove), or set BENCH and CCLIB to built ones. A C compiler is needed, for bench/peak.c.
set -eu
# shellcheck source=bench/words.sh
. "$(dirname "$0")/words.sh"
bench
room
${CC:-cc} -O1 -o "$work/peak" "$top/bench/peak.c"

# 256 locals and 8 parameters, all of them live while $1 words are written
wide() {
    local v
    printf 'int f(int p0,int p1,int p2,int p3,int p4,int p5,int p6,int p7){'
    for ((v = 0; v < 256; v++)); do printf 'int v%d;' $v; done
    for ((v = 0; v < 256; v++)); do printf 'v%d=read_word();' $v; done
    times "$1" 'write_word(v0);'
    for ((v = 0; v < 256; v++)); do printf 'write_word(v%d);' $v; done
    for ((v = 0; v < 8; v++)); do printf 'write_word(p%d);' $v; done
    printf 'return 0;}int main(void){}\n'
}

# 64 live locals take more than 256 nodes by themselves, so that kind begins at 512.
sizes() { if [ "$1" = live64 ]; then echo 512 1448 4096; else echo 64 512 4096; fi; }

for kind in straight loops live64; do
    for goal in $(sizes $kind); do
        steps "$kind" "$goal" "${WORK:-400000}" live spill validate
    done | told $kind spill_all validate
done

nodes=$(sized wide 4096)
echo "256 locals and 8 parameters live, $nodes nodes: $("$work/peak" "$bench" spill "$work/text.c" 1) MB without the validator," \
    "$("$work/peak" "$bench" validate "$work/text.c" 1) MB with it"
python3 "$top/bench/hostile.py" validate
