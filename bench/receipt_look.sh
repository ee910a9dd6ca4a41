#!/usr/bin/env bash
# What it takes a service, under its lock, to check a client's last receipt, divided by what a commit of the same unit takes, within one run:
# receipt_look.sh [FOLDER] (this one). The number, the client and the call distinguish most entries; if they agree, the whole entries are compared,
# and so the bytes of their units. A `run` of 0 steps answers with the unit, and the next call looks at that receipt. So the cost of looking at 16 KiB
# is the time of TIMES `run`s (20,000) of a unit with that many bytes of source, minus that of the same number of `run`s of the same unit with no
# source. The commit is `compact` of a library that has only the first unit, COUNT times (500), on a file in FOLDER. All of this is done in sessions
# of `cclib library`, ROUNDS times (10) in turn, and the best counts, minus a start that does nothing: processor time, and for the commits also
# wall-clock time. Build the program first (./cclib --prove), or set CCLIB to a built one.
set -eu
# shellcheck source=bench/words.sh
. "$(dirname "$0")/words.sh"
cclib
room "${1:-.}"
count=${COUNT:-500} times=${TIMES:-20000}
session() { "$cclib" library "$work/$1" --quiet --workers 1 < "$work/$2"; }

: > "$work/nothing"
yes 'run u1000000 0' | head -n "$times" > "$work/runs"
yes compact | head -n "$count" > "$work/commits"
python3 "$top/tools/records.py" make "$work/large" 1 16384 1 > /dev/null
python3 "$top/tools/records.py" make "$work/small" 1 0 1 > /dev/null
for _ in $(seq "${ROUNDS:-10}"); do
    timed large session large runs
    timed small session small runs
    timed commits session large commits
    timed start session large nothing
    [ "$(grep -c '^going$' "$work/said.large")" = "$times" ] && [ "$(grep -c '^ok$' "$work/said.commits")" = "$count" ] || fail "other answers"
done
awk -v large="$(best large)" -v small="$(best small)" -v times="$times" -v count="$count" -v commit="$(less "$(best commits)" "$(best start)")" \
    -v wall="$(less "$(best commits clock)" "$(best start clock)")" 'BEGIN {
        a = (large - small) / times * 1e6; b = commit / count * 1e6; c = wall / count * 1e6
        printf "units of 16 KiB: a look takes %.2f us, a commit %.0f us of the processor and %.0f us by the clock; ratio %.4f and %.4f\n", a, b, c, a / b, a / c
    }'
