#!/usr/bin/env bash
# How fast texts are compiled: lines a second of processor time, for the programs of bench/programs and for texts of 8 to 60 KiB, and how the speed
# changes as texts grow. bench/compile.sh [COMPILER..]: if the command of a C compiler is given, it compiles the same texts to objects, unoptimised,
# and the ratio is our lines a second / its lines a second, not counting the time that each takes for an empty main: more is better. For example:
# bench/compile.sh gcc. Each text is compiled ROUNDS times (3), in turn, and the best time counts. Build the program of crates/bench first
# (./prove-below bench), or set BENCH to a built one.
set -eu
# shellcheck source=bench/words.sh
. "$(dirname "$0")/words.sh"
bench
room
echo 'int main(void){}' > "$work/empty.c"
echo 'void write_word(int); int read_word(void);' > "$work/services.h"

# text KIB: forty functions, each with one loop whose body is as long as the size requires; main calls the first one
text() {
    python3 - "$1" <<'P'
import sys
size = int(sys.argv[1]) * 1024
count = 40
part = lambda i, k: "int f%d(int a, int b)\n{\n    int i;\n    int s = 0;\n    for (i = 0; i < a; i++) {\n%s    }\n    return s;\n}\n" % (i, "".join("        s += (a * %d + b) ^ (s >> %d);\n" % (n + 3, n % 31) for n in range(k)))
lines = max(1, (size - count * 130) // (count * 36))
body = "".join(part(i, lines) for i in range(count))
sys.stdout.write(body + "int main(void)\n{\n    return f0(1, 2);\n}\n")
P
}

# net COMMAND..: the least seconds that the command takes over $text in some runs, minus those over an empty main
net() {
    rm -f "$work"/time.*
    for _ in $(seq "${ROUNDS:-3}"); do
        timed all "$@" "$text"
        timed empty "$@" "$work/empty.c"
    done
    less "$(best all)" "$(best empty)"
}
ours() { "$bench" compile "$1" $([ "$1" = "$text" ] && echo $count || echo 1); }
theirs() { for _ in $(seq 10); do "${compiler[@]}" -O0 -c -include "$work/services.h" -o "$work/object" "$1"; done; }
compiler=("$@")

for kib in 8 16 32 60; do text $kib > "$work/$kib.c"; done
for text in "$top"/bench/programs/*.c "$work"/8.c "$work"/16.c "$work"/32.c "$work"/60.c; do
    bytes=$(wc -c < "$text")
    count=$((1 + ${WORK:-400000} / bytes))
    echo "$(basename "$text" .c) $(wc -l < "$text") $bytes $(part_of "$(net ours)" $count) $([ $# -eq 0 ] || part_of "$(net theirs)" 10)"
done | awk '
    { line = sprintf("%s: %d lines, %d bytes, %.0f lines a second", $1, $2, $3, $2 / $4) }
    NF == 5 && $5 > 0 { sum += log($5 / $4); n++; line = line sprintf("; peer %.0f, ratio %.2f", $2 / $5, $5 / $4) }
    $1 ~ /^[0-9]+$/ { if (kib) line = line sprintf("; growth n^%.2f", log($4 / time) / log($3 / kib)); kib = $3; time = $4 }
    { print line }
    END { if (n) printf "geometric mean of the ratios over %d texts: %.2f\n", n, exp(sum / n) }'
