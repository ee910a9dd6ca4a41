# Sourced by the other scripts. Has the programs that they run, a folder of their own, times, kinds of texts, and the machine code of C programs.

top=$(cd "$(dirname "${BASH_SOURCE[0]}")/.." && pwd)
script=$(basename "$0")

# cclib, bench: set $cclib to the built program, and $bench to that of crates/bench; CCLIB and BENCH name others
cclib() {
    cclib=${CCLIB:-$top/crates/cclib/out/cclib}
    [ -x "$cclib" ] || fail "build the program first: ./cclib --prove"
}
bench() {
    bench=${BENCH:-$top/crates/bench/out/bench}
    [ -x "$bench" ] || fail "build the program first: ./prove-below bench"
}

# fail WORD..: says why there is no figure
fail() {
    echo "$script: $*" >&2
    exit 1
}

# room [FOLDER]: a folder to write to, in $work, removed at the end
room() {
    work=$(mktemp -d ${1:+"$1/$script.XXXXXX"})
    trap 'rm -rf "$work"' EXIT
}

# ---- times

# timed NAME COMMAND..: appends the wall-clock seconds and the user and system seconds to time.NAME, and keeps the output of the command in said.NAME
timed() {
    local name=$1 TIMEFORMAT='%U %S' status=0 begin end
    shift
    begin=$EPOCHREALTIME
    { time "$@" > "$work/said.$name" 2> "$work/error"; } 2> "$work/busy" || status=$?
    end=$EPOCHREALTIME
    [ "$status" = 0 ] || fail "$* ended with $status: $(head -c 200 "$work/said.$name" "$work/error")"
    echo "$(less "$end" "$begin") $(cat "$work/busy")" >> "$work/time.$name"
}

# best NAME [clock]: the least processor seconds, or the least wall-clock seconds
best() {
    awk -v clock="${2:-}" '{ t = clock ? $1 : $2 + $3 } NR == 1 || t < low { low = t } END { printf "%.6f", low }' "$work/time.$1"
}

# seconds OUTPUT COMMAND..: the processor seconds of one run
seconds() {
    local TIMEFORMAT='%U %S' output=$1
    shift
    { time "$@" > "$output" 2> /dev/null; } 2>&1 | awk '{ print $1 + $2 }'
}

# least A [B], less A B, ratio A B, part_of A COUNT: the minimum, the difference, the ratio, and A / COUNT with nine digits
least() { awk -v a="$1" -v b="${2:-$1}" 'BEGIN { print a < b ? a : b }'; }
less() { awk -v a="$1" -v b="$2" 'BEGIN { printf "%.6f", a - b }'; }
ratio() { awk -v a="$1" -v b="$2" 'BEGIN { printf "%.3f", a / b }'; }
part_of() { awk -v a="$1" -v n="$2" 'BEGIN { printf "%.9f", a / n }'; }

# ---- texts of C

# times COUNT TEXT: the text COUNT times
times() { for ((n = 0; n < $1; n++)); do printf '%s' "$2"; done; }

# Texts of $1 parts: straight code, nested loops, locals that all stay live, and copies of eight locals round a loop.
straight() {
    printf 'int main(void){int i;i=read_word();'
    times "$1" 'write_word(i*3+1);'
    printf 'return 0;}\n'
}
loops() {
    printf 'int main(void){int i;int j;int k;'
    times "$1" 'for(i=0;i<3;i++)for(j=i;j<5;j++)for(k=0;k<j;k++)write_word(i*j+k);'
    printf 'return 0;}\n'
}
live() {
    local v
    printf 'int main(void){'
    for ((v = 0; v < $2; v++)); do printf 'int v%d=read_word();' $v; done
    for ((n = 0; n < $1; n++)); do printf 'v%d=v%d*3+1;' $((n % $2)) $((n * 7 % $2)); done
    for ((v = 0; v < $2; v++)); do printf 'write_word(v%d);' $v; done
    printf 'return 0;}\n'
}
live64() { live "$1" 64; }
live250() { live "$1" 250; }
moves() {
    printf 'int main(void){int a=1;int b=2;int c=3;int d=4;int e=5;int f=6;int g=7;int h=8;while(a>0){'
    times "$1" 'h=a;a=b;b=c;c=d;d=e;e=f;f=g;g=h;'
    printf 'write_word(a+b+c+d+e+f+g+h);}return 0;}\n'
}

# sized KIND NODES: makes $work/text.c of that kind, with NODES nodes of RTL or a few fewer, and prints how many it has; a short and a longer text
# show how many nodes one part has
sized() {
    local one two parts
    one=$("$1" 1 > "$work/text.c"; nodes_of) two=$("$1" 2 > "$work/text.c"; nodes_of)
    parts=$((1 + ($2 - one) / (two - one)))
    [ $parts -ge 1 ] || parts=1
    "$1" $parts > "$work/text.c"
    nodes_of
}
nodes_of() { "$bench" rtl "$work/text.c" 1; }

# steps KIND NODES WORK STEP..: prints how many nodes the text of that kind has, and the microseconds that each step of $bench except the first takes,
# minus the one before it: the best of ROUNDS (3), each repeated in one process until WORK nodes are handled
steps() {
    local kind=$1 nodes turns step before=
    nodes=$(sized "$kind" "$2")
    turns=$((1 + $3 / nodes))
    shift 3
    rm -f "$work"/time.*
    for _ in $(seq "${ROUNDS:-3}"); do
        for step; do
            timed "$step" "$bench" "$step" "$work/text.c" $turns
            [ "$(cat "$work/said.$step")" = "$nodes" ] || fail "$step: $(cat "$work/said.$step")"
        done
    done
    printf '%d' "$nodes"
    for step; do
        [ -z "$before" ] || awk -v a="$(best "$before")" -v b="$(best "$step")" -v n=$turns 'BEGIN { printf " %.3f", (b - a) / n * 1e6 }'
        before=$step
    done
    echo
}

# told KIND NAME..: the lines for that kind, from the shortest text on, with the names of the steps and the growth of each
told() {
    local kind=$1 IFS=,
    shift
    awk -v kind="$kind" -v names="$*" '
        function grows(a, b) { return a > 0 && b > 0 ? sprintf("n^%.2f", log(b / a) / log($1 / nodes)) : "below what is seen" }
        BEGIN { many = split(names, name, ",") }
        {
            printf "%s, %d nodes:", kind, $1
            for (i = 1; i <= many; i++) printf "%s %s %s us", (i > 1 ? "," : ""), name[i], $(i + 1)
            if (NR > 1) printf "; from %d nodes on", nodes
            for (i = 1; i <= many; i++) {
                if (NR > 1) printf "%s %s %s", (i > 1 ? "," : ""), name[i], grows(before[i], $(i + 1))
                before[i] = $(i + 1)
            }
            print ""
            nodes = $1
        }'
}

# ---- machine code made by the C compiler in the array $compiler, such as (clang --target=riscv32) or (riscv64-unknown-elf-gcc)

# If $gp is set, the start code sets gp, the pointer to globals, and the compiler's own linker makes accesses near it relative to it.
gp=

# The start code, the services of the machine, and the places of code and globals.
machine() {
    {
        echo '.section .text.start'
        [ -z "$gp" ] || printf '  .option push\n  .option norelax\n  la gp, __global_pointer$\n  .option pop\n'
        cat << 'S'
  jal ra, main
  addi a7, zero, 93
  ecall
.globl write_word
write_word:
  addi a7, zero, 1
  ecall
  ret
.globl read_word
read_word:
  addi a7, zero, 2
  ecall
  ret
S
    } > "$work/start.s"
    cat > "$work/map.ld" << 'S'
SECTIONS {
  . = 0x10000; .text : { *(.text.start) *(.text*) }
  . = 0x200000; POINTER
  .data : { *(.sdata*) *(.sbss*) *(.data*) *(.rodata*) *(.srodata*) *(.bss*) *(COMMON) LONG(0) }
}
S
    sed -i "s/POINTER/${gp:+__global_pointer\$ = 0x200800;}/" "$work/map.ld"
    echo 'void write_word(int); int read_word(void);' > "$work/services.h"
}

# part SECTION: writes the bytes of that section of the program to $work/bytes
part() {
    local copy
    for copy in llvm-objcopy riscv64-unknown-elf-objcopy; do
        if command -v $copy > /dev/null; then
            $copy -O binary --only-section="$1" "$work/program.elf" "$work/bytes" && return
        fi
    done
    fail "needs llvm-objcopy or riscv64-unknown-elf-objcopy"
}

# words PROGRAM NAME: writes the program's code and globals to $work/NAME.code and $work/NAME.globals; LEVEL is the compiler's level, by default -O0
words() {
    local linker=()
    case ${compiler[0]} in *clang*) LINKER=${LINKER:-lld} ;; esac
    [ -n "$gp" ] || [ -z "${LINKER:-}" ] || linker=(-fuse-ld="$LINKER")
    [ -e "$work/map.ld" ] || machine
    "${compiler[@]}" -march=rv32im -mabi=ilp32 "${LEVEL:--O0}" -ffreestanding -fno-builtin -nostdlib -static "${linker[@]}" \
        -include "$work/services.h" -Wl,-T,"$work/map.ld" -o "$work/program.elf" "$work/start.s" "$1" 2> "$work/said" || { cat "$work/said" >&2; exit 1; }
    part .text
    mv "$work/bytes" "$work/$2.code"
    part .data
    mv "$work/bytes" "$work/$2.globals"
}
