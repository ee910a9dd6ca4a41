#!/usr/bin/env bash
# What an audit costs. Times are processor times, and ratios are within one run: both are measured in turn, ROUNDS times (5), and the best of each
# counts. First the audit of a unit of 64 functions that is in a library TIMES (20) times, by a session of `cclib library`, not counting its start,
# divided by the same number of compilations of its text: the goal is at most 1.
# Then certificates that an attacker might submit (bench/hostile.py); and how many bytes a unit's record takes on disk, without and with its
# certificate, for the programs of bench/programs and for the unit of 64 functions. Build the programs first (./prove-below bench, ./cclib --prove), or set
# BENCH and CCLIB to built ones.
set -eu
# shellcheck source=bench/words.sh
. "$(dirname "$0")/words.sh"
bench
cclib
room
rounds=${ROUNDS:-5} count=${TIMES:-20}

# 63 functions with loops and calls, and main
sixty_four() {
    local i
    for ((i = 0; i < 63; i++)); do
        printf 'int f%d(int a, int b)\n{\n    int i;\n    int s = 0;\n    for (i = 0; i < a; i++) {\n' $i
        printf '        s += (a * %d + b) ^ (s >> %d);\n' $((i + 3)) $((i % 31)) $((i + 5)) $((i % 29))
        [ $i -eq 0 ] || printf '        if (s < b) s += f%d(b, i);\n' $((i - 1))
        printf '    }\n    return s;\n}\n'
    done
    printf 'int main(void)\n{\n    return f62(1, 2);\n}\n'
}

# library FILE SCRIPT [OPTION..]: runs the script over that file
library() {
    local disk=$1 script=$2
    shift 2
    "$cclib" library "$disk" --quiet --workers 1 "$@" < "$script"
}

# add NAME TEXT: the command that adds TEXT under NAME
add() { printf 'add %s %d\n' "$1" "$(wc -c < "$2")"; cat "$2"; echo; }

sixty_four > "$work/unit.c"
: > "$work/nothing"
echo audit > "$work/audit"
for ((n = 0; n < count; n++)); do add "u$n" "$work/unit.c"; done > "$work/script"
library "$work/disk" "$work/script" --format $((count * 100000)) > "$work/added"
for _ in $(seq "$rounds"); do
    timed start library "$work/disk" "$work/nothing"
    timed audits library "$work/disk" "$work/audit"
    timed compilations "$bench" compile "$work/unit.c" "$count"
    timed reading "$bench" compile "$work/unit.c" 0
    [ "$(grep -c ' confirmed$' "$work/said.audits")" = "$count" ] || fail "an audit said $(cat "$work/said.audits")"
done
awk -v a="$(less "$(best audits)" "$(best start)")" -v c="$(less "$(best compilations)" "$(best reading)")" -v n="$count" 'BEGIN {
    printf "a unit of 64 functions: an audit %.2f ms, a compilation %.2f ms, ratio %.2f\n", a / n * 1e3, c / n * 1e3, a / c }'

python3 "$top/bench/hostile.py" audit

for text in "$top"/bench/programs/*.c "$work/unit.c"; do add "$(basename "$text" .c)" "$text"; done > "$work/script"
library "$work/disk" "$work/script" --format 1000000 > "$work/added"
python3 "$top/tools/records.py" sizes "$work/disk" | awk '
    { printf "%s: %d bytes without a certificate, %d with, ratio %.2f\n", $1, $2, $3, $3 / $2; sum += log($3 / $2) }
    END { printf "geometric mean of the ratios: %.2f\n", exp(sum / NR) }'
