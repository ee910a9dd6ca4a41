#!/usr/bin/env bash
# What a commit costs apart from the device, within one run: commit_in_memory.sh [FOLDER] (this one). COUNT commits (500) of a unit of 16 KiB (8,192
# bytes of source and 2,048 words of code) are made in a session of `cclib library`: each is a `compact` of a library that has only this unit. The
# ratio is the time on a file in memory (MEMORY, /dev/shm) / the time on a file in FOLDER: both ROUNDS times (10), the best of each, not counting a
# start that does nothing. Times are by the wall clock, since both wait for the device. The first includes what the file in memory takes. Build the
# program first (./cclib --prove), or set CCLIB to a built one.
set -eu
# shellcheck source=bench/words.sh
. "$(dirname "$0")/words.sh"
cclib
room "${1:-.}"
memory=$(mktemp -d "${MEMORY:-/dev/shm}/share.XXXXXX")
trap 'rm -rf "$work" "$memory"' EXIT
count=${COUNT:-500}
session() { "$cclib" library "$1/disk" --quiet --workers 1 < "$work/$2"; }

: > "$work/nothing"
for ((n = 0; n < count; n++)); do echo compact; done > "$work/script"
for folder in "$memory" "$work"; do python3 "$top/tools/records.py" make "$folder/disk" 1 8192 2048 > /dev/null; done
for _ in $(seq "${ROUNDS:-10}"); do
    for what in nothing script; do
        timed memory.$what session "$memory" $what
        timed file.$what session "$work" $what
    done
    for where in memory file; do
        [ "$(grep -c '^ok$' "$work/said.$where.script")" = "$count" ] || fail "$(tail -n 1 "$work/said.$where.script")"
    done
done
awk -v memory="$(less "$(best memory.script clock)" "$(best memory.nothing clock)")" -v file="$(less "$(best file.script clock)" "$(best file.nothing clock)")" -v n="$count" \
    'BEGIN { printf "a commit of 16 KiB: %.1f us in memory, %.1f us to the file; ratio %.3f\n", memory / n * 1e6, file / n * 1e6, memory / file }'
