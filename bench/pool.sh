#!/usr/bin/env bash
# What a pool of workers gains, by the clock: the time to `add` a unit of 64 functions of about 250 tokens each, in a session of `cclib library` with
# 1, 2 and 4 workers, compared with what the machine itself gains when the same number of processes compile the same text at once, on one thread each.
# Each time is the mean of TIMES turns (10), not counting a start that does nothing. The best of ROUNDS rounds (5) counts; in each round all are
# measured in turn. Build the programs first (./prove-below bench, ./cclib --prove), or set BENCH and CCLIB to built ones. tests/outside/memory.sh
# session and server check that no thread waits for ever if memory is refused, with one client and with more.
set -eu
# shellcheck source=bench/words.sh
. "$(dirname "$0")/words.sh"
bench
cclib
room
rounds=${ROUNDS:-5} count=${TIMES:-10}

# 64 functions with a loop of 13 lines each; the last one is `main`
python3 - > "$work/text.c" <<'P'
loop = "".join("        s += (a * %d + b) ^ (s >> %d);\n" % (n + 3, n % 31) for n in range(13))
part = "int f%d(int a, int b)\n{\n    int i;\n    int s = 0;\n    for (i = 0; i < a; i++) {\n%s    }\n    return s;\n}\n"
last = "int main(void)\n{\n    int a = 1;\n    int b = 2;\n    int i;\n    int s = 0;\n    for (i = 0; i < a; i++) {\n%s    }\n    return s;\n}\n"
print("".join(part % (n, loop) for n in range(63)) + last % loop, end="")
P
length=$(wc -c < "$work/text.c")
for ((n = 0; n < count; n++)); do
    echo "add u$n $length"
    cat "$work/text.c"
    echo
done > "$work/script"
: > "$work/nothing"

session() {
    "$cclib" library "$work/disk" --quiet --format $((count * 200000)) --workers "$1" < "$work/$2"
}
# at_once COUNT TIMES: COUNT processes at once; each compiles the text TIMES times
at_once() {
    local n
    for n in $(seq "$1"); do "$bench" compile "$work/text.c" "$2" > "$work/words.$n" & done
    wait
}

echo "load: $(cut -d' ' -f1-3 /proc/loadavg), processors: $(nproc)"
for _ in $(seq "$rounds"); do
    for many in 1 2 4; do
        timed start.$many session $many nothing
        timed session.$many session $many script
        [ "$(grep -c '^ok ' "$work/said.session.$many")" = "$count" ] || fail "$(tail -n 1 "$work/said.session.$many")"
        timed starts.$many at_once $many 0
        timed processes.$many at_once $many "$count"
    done
done
net() { less "$(best "$2.$1" clock)" "$(best "$3.$1" clock)"; }
one=$(net 1 session start) alone=$(net 1 processes starts)
for many in 1 2 4; do
    awk -v many=$many -v now="$(net $many session start)" -v one="$one" -v processes="$(net $many processes starts)" -v alone="$alone" -v count="$count" 'BEGIN {
        printf "%d workers: %.2f ms a unit, %.2f times as fast as one; the machine, %d processes at once: %.2f ms, %.2f times\n", many, now / count * 1e3, one / now, many, processes / count * 1e3, many * alone / processes }'
done
