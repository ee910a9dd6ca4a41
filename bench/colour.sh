#!/usr/bin/env bash
# What registers cost as a function grows: finding the live sets and dropping what nobody needs, the allocator, and the validator on its answer. Also
# the growth exponents, from ratios within one run.
# Five kinds of text: straight code, nested loops, 64 and 250 locals that all stay live, and copies of eight locals round a loop. Each is made so long
# that its RTL has as many nodes as requested, or a few fewer. A step's time is processor time, not counting that of the steps before it. The exponent
# is log(ratio of times) / log(ratio of nodes): 1 is linear; the goal is 1.3 at most, and less than a second for the allocator and the validator at
# 4,096 nodes each.
# Each is run ROUNDS times (3), in turn, and the best time counts. Shorter texts are repeated more often within one process, until it has handled WORK
# (200,000) nodes in all. Build the program of crates/bench first (./prove-below bench), or set BENCH to a built one.
set -eu
# shellcheck source=bench/words.sh
. "$(dirname "$0")/words.sh"
bench
room

# 64 live locals take more than 256 nodes, 250 more than 1,000.
sizes() { case $1 in live64) echo 512 1448 4096 ;; live250) echo 1448 2436 4096 ;; *) echo 64 512 4096 ;; esac; }

for kind in straight loops live64 live250 moves; do
    for goal in $(sizes $kind); do
        steps "$kind" "$goal" "${WORK:-200000}" rtl live colour check
    done | told $kind 'live sets' registers validate
done
