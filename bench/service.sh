#!/usr/bin/env bash
# How many commits a second a service makes for several clients at once, divided by how many sqlite makes for the same number: service.sh [FOLDER]
# (this one). For 1, 4 and 16 clients, CALLS calls (4,800) in all. With `withdraw`, each call withdraws a unit whose text has 70 bytes, and sqlite
# deletes a row of as many bytes as that unit has on the disk: a commit and nothing else. With `put`, each call puts that text under the client's own
# name, after compiling it (4 workers), and sqlite puts as many bytes as the unit has. Our commit writes twice and syncs twice; sqlite's (sqlite.c:
# WAL, synchronous FULL, a connection a thread) writes its log and syncs once.
# The service is that of `cclib serve`: each client is one script with all its calls, which waits in the folder when the server starts. Its time is
# from the server's start to the last answer, minus the time for scripts of one `list`; so it includes what it takes to read a line and write an
# answer. Both work in FOLDER and are measured in turn, ROUNDS times (5); the best of each counts, by the wall clock, since both wait for the device.
# The ratio is ours / sqlite's: more is better.
# Build the program first (./cclib --prove), or set CCLIB to a built one; libsqlite3-dev has to be installed.
set -eu
# shellcheck source=bench/words.sh
. "$(dirname "$0")/words.sh"
cclib
room "${1:-.}"
shopt -s nullglob
rounds=${ROUNDS:-5} calls=${CALLS:-4800}
gcc -O2 -pthread -o "$work/sqlite" "$top/bench/sqlite.c" -lsqlite3
text='int f(int x){return x*3;}int main(void){write_word(f(5));return f(2);}'

# put NAME COUNT, withdraw NAME COUNT, nothing NAME: what a client does
put() {
    printf 'add %s %d\n%s\n' "$1" ${#text} "$text"
    for ((n = 1; n < $2; n++)); do printf 'replace %s %d\n%s\n' "$1" ${#text} "$text"; done
}
withdraw() { for ((n = 0; n < $2; n++)); do echo "withdraw $1$n"; done; }
nothing() { echo list; }
add() { for ((n = 0; n < $2; n++)); do printf 'add %s %d\n%s\n' "$1$n" ${#text} "$text"; done; }
names() { local all=(a b c d e f g h i j k l m n o p); echo "${all[@]:0:$1}"; }

# served KIND CLIENTS COUNT: the seconds that a server takes for CLIENTS clients that make COUNT calls each
served() {
    local name answers=() begin end server
    rm -rf "$work/spool"
    cp -a "$work/empty" "$work/spool"
    for name in $(names "$2"); do "$1" "$name" "$3" > "$work/spool/new/$name"; done
    begin=$EPOCHREALTIME
    "$cclib" serve "$work/disk" "$work/spool" --workers 4 --clients "$2" --quiet > "$work/told" &
    server=$!
    # shellcheck disable=SC2064
    trap "kill $server 2> /dev/null || true" EXIT
    while [ ${#answers[@]} -lt "$2" ]; do
        sleep 0.002
        kill -0 $server || fail "the server ended: $(cat "$work/told")"
        answers=("$work"/spool/done/*)
    done
    end=$EPOCHREALTIME
    touch "$work/spool/stop"
    wait $server || fail "the server ended with $?: $(cat "$work/told")"
    [ "$1" = nothing ] || [ "$(cat "${answers[@]}" | grep -c '^ok ')" = $(($2 * $3)) ] || fail "$1: $(cat "${answers[@]}" | grep -v '^ok ' | head -n 3)"
    less "$end" "$begin"
}

# took NAME SECONDS: keeps the least seconds for that name
took() { echo "$(least "$2" "$(cat "$work/least.$1" 2> /dev/null || true)")" > "$work/least.$1"; }

# An empty folder for a server.
"$cclib" library "$work/disk" --quiet --format 1000000 < /dev/null
"$cclib" serve "$work/disk" "$work/empty" --quiet > /dev/null &
until [ -d "$work/empty/done" ]; do sleep 0.1; done
sleep 1
touch "$work/empty/stop"
wait $!
# How many bytes the unit has on the disk.
put a 1 | "$cclib" library "$work/disk" --quiet > /dev/null
unit=$(python3 "$top/tools/records.py" sizes "$work/disk" | awk '{ print $3 }')

for task in withdraw put; do
    theirs=put
    [ "$task" = put ] || theirs=delete
    for clients in 1 4 16; do
        each=$((calls / clients)) all=$((calls / clients * clients))
        rm -f "$work"/least.*
        "$cclib" library "$work/disk" --quiet --format $((calls * 600 + 4096)) < /dev/null
        [ "$task" = put ] || { for name in $(names "$clients"); do add "$name" "$each"; done; } | "$cclib" library "$work/disk" --quiet > "$work/added"
        cp "$work/disk" "$work/filled"
        for _ in $(seq "$rounds"); do
            cp "$work/filled" "$work/disk"
            sync "$work/disk"
            start=$(served nothing "$clients" 0)
            ours=$(served "$task" "$clients" "$each")
            took start "$start"
            took ours "$ours"
            rm -f "$work"/base.db*
            said=$("$work/sqlite" "$theirs" "$work/base.db" "$clients" "$each" "$unit")
            [ "${said%% *}" = "$all" ] || fail "sqlite acknowledged $said of $all"
            took theirs "$(awk '{ printf "%.6f", $2 / 1e9 }' <<< "$said")"
        done
        awk -v ours="$(less "$(cat "$work/least.ours")" "$(cat "$work/least.start")")" -v theirs="$(cat "$work/least.theirs")" -v all=$all -v task="$task" -v clients="$clients" 'BEGIN {
            printf "%s, %d clients: %.0f commits a second, sqlite %.0f; ratio %.2f\n", task, clients, all / ours, all / theirs, theirs / ours }'
    done
done
