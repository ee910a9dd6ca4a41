#!/usr/bin/env bash
# What the library costs in addition to the file in which it lies, by ratios within one run: store.sh [FOLDER] (this one).
# First durable commits: COUNT (500) in a session of `cclib library`, and a program in C (commits.c) that makes the same
# two writes and two syncs the same number of times on a file of the same length, in turn, ROUNDS times (20). The commits
# are `withdraw`, which appends a record of 16 bytes, and `compact` of a library of one unit, which writes the unit's
# record of 628 or 12,028 bytes again. Neither compiles. The ratio is its time / ours, the best of each minus the best of
# a start that does nothing: 1.0 is as fast. Times are by the wall clock, and by the processor, in steps of a millisecond:
# these are disturbed less by other work on the machine. If others use the device, more rounds of fewer commits find a
# quiet moment. Then opening: the time that `cclib source` takes over a library of UNITS units (1,000), minus that over a
# library of one unit, is compared with the time to read the library's file with one call, in turn, by the wall clock, and
# the least of ROUNDS times of each counts. The file has two areas, and opening reads one of them; opening also syncs
# twice. Build the program first (./cclib --prove), or set CCLIB to a built one.
set -eu
# shellcheck source=bench/words.sh
. "$(dirname "$0")/words.sh"
cclib
room "${1:-.}"
rounds=${ROUNDS:-20} count=${COUNT:-500} units=${UNITS:-1000}
gcc -O2 -o "$work/plain" "$top/bench/commits.c"
: > "$work/nothing"

# make FILE COUNT SOURCE WORDS: a library of such units, in $work; prints how many bytes a body has
make() { python3 "$top/tools/records.py" make "$work/$1" "$2" "$3" "$4"; }
session() { "$cclib" library "$work/ours" --quiet --workers 1 < "$work/$1"; }

# commits NAME LENGTH: runs the script over $work/fresh; the record of each commit has LENGTH bytes
commits() {
    local name=$1 length=$2 ours plain ours_busy plain_busy
    rm -f "$work"/time.*
    for round in $(seq "$rounds"); do
        cp "$work/fresh" "$work/ours"
        truncate -s $((length * count + 64)) "$work/file"
        timed ours.start session nothing
        timed plain.start "$work/plain" "$work/file" 0 "$length"
        # Each of the two comes first in every second round.
        [ $((round % 2)) = 1 ] || timed plain "$work/plain" "$work/file" "$count" "$length"
        timed ours session script
        [ $((round % 2)) = 0 ] || timed plain "$work/plain" "$work/file" "$count" "$length"
        [ "$(grep -c '^ok' "$work/said.ours")" = "$count" ] || fail "$name: $(tail -n 1 "$work/said.ours")"
    done
    ours=$(less "$(best ours clock)" "$(best ours.start clock)")
    plain=$(less "$(best plain clock)" "$(best plain.start clock)")
    ours_busy=$(less "$(best ours)" "$(best ours.start)")
    plain_busy=$(less "$(best plain)" "$(best plain.start)")
    echo "$name, records of $length bytes: $(ratio "$count" "$ours") commits a second, plain $(ratio "$count" "$plain"); ratio $(ratio "$plain" "$ours"), by processor $(ratio "$plain_busy" "$ours_busy")"
}

# opening SOURCE WORDS: opens a library of units with SOURCE bytes of source and WORDS words of code
opening() {
    local length ours reading
    rm -f "$work"/time.*
    make one 1 0 1 > /dev/null
    length=$(make many "$units" "$1" "$2")
    for _ in $(seq "$rounds"); do
        timed one "$cclib" source "$work/one" u1000000
        timed many "$cclib" source "$work/many" u1000000
        python3 -c 'import sys, time
file = open(sys.argv[1], "rb", 0); begin = time.perf_counter(); read = file.read(); print(time.perf_counter() - begin, 0, 0)' "$work/many" >> "$work/time.reading"
    done
    ours=$(less "$(best many clock)" "$(best one clock)")
    reading=$(best reading clock)
    echo "opening $units units of $length bytes: $ours s, $(ratio "$ours" "$reading") times reading the file of $(stat -c %s "$work/many") bytes"
}

make fresh "$count" 0 1 > /dev/null
for ((n = 0; n < count; n++)); do echo "withdraw u$((1000000 + n))"; done > "$work/script"
commits withdraw 16
for ((n = 0; n < count; n++)); do echo compact; done > "$work/script"
for unit in '200 100' '4000 2000'; do
    # shellcheck disable=SC2086
    commits compact $(($(make fresh 1 $unit) + 5))
done
opening 200 100
opening 900 400
opening 4000 2000
opening 30000 15000
