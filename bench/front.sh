#!/usr/bin/env bash
# Shows, by ratios of processor times within one run, that `check` is linear in the text's length and that each turn of a loop costs the same: 64 KiB
# of text / 8 KiB (8 is linear), and 10 million turns / 1 million (10 is linear). Then the speed of `check` / that of `gcc -fsyntax-only -w` (more is
# better), over 64 KiB of each kind, not counting the start of either program; the two run in turn, and the best of ROUNDS runs (40) of each counts.
# Then the largest amount of memory that `check` takes, in bytes for each byte of text, minus that for an empty text; and the cost of initialisers of
# an array of bytes / that of an array of words. `check` runs as `--quiet check`, since gcc does not warn either; how much longer it takes with
# warnings is printed last. Build the program first (./cclib --prove), or set CCLIB to a built one.
set -eu
# shellcheck source=bench/words.sh
. "$(dirname "$0")/words.sh"
cclib
room
program=$cclib

# text KIND BYTES: a program of about BYTES bytes
text() {
  python3 - "$1" "$2" <<'P'
import sys
kind, size = sys.argv[1], int(sys.argv[2])
head, tail = "int main(void){int a;", "}"
units = {
    "statements": lambda i: "a=a*3+(a-1)/7;",
    "blocks": lambda i: "{{{{a=a+1;}}}}",
    "nested": lambda i: "{" * 62 + "}" * 62,
    "comments": lambda i: "/* a comment */a=1;",
    "names": lambda i: "a=a+a+a+a+a+a+a+a;",
    # at most 65,536 words of objects, and at most 64 functions with at most 256 locals each
    "objects": lambda i: f"int g{i:05}=-{i}+1;",
    "functions": lambda i: f"int f{i}(int x){{int " + ",".join(f"v{k}=x" for k in range(90)) + ";" + "".join(f"v{k}+=v{89-k};" for k in range(60)) + f"return {'f%d(v9)' % (i - 1) if i else 0};}}",
}
unit = units[kind]
if kind in ("objects", "functions"):
    head, tail = "", "int main(void){}"
parts, left, i = [], size - len(head) - len(tail), 0
while len(unit(i)) <= left:
    parts.append(unit(i))
    left -= len(unit(i))
    i += 1
sys.stdout.write(head + "".join(parts) + tail)
P
}

# millis RUNS COMMAND..: the milliseconds of processor time of RUNS runs; other work on the machine changes them little
millis() {
  local runs=$1 TIMEFORMAT='%U %S'; shift
  { time for _ in $(seq "$runs"); do "$@" >/dev/null; done; } 2>&1 | awk '{ printf "%d\n", ($1 + $2) * 1000 }'
}

echo | "$program" --quiet check >/dev/null || true
empty() { "$program" --quiet check < "$work/empty.c"; }
echo 'int main(void){}' > "$work/empty.c"
base=$(millis 40 empty)
echo "40 starts of the program: $base ms"
for kind in statements blocks comments names objects functions; do
  text "$kind" 8192 > "$work/small.c"
  text "$kind" 65536 > "$work/large.c"
  small() { "$program" --quiet check < "$work/small.c"; }
  large() { "$program" --quiet check < "$work/large.c"; }
  [ "$(large)" = ok ] || { echo "$kind: $(large)" >&2; exit 1; }
  s=$(millis 40 small); l=$(millis 40 large)
  echo "check, $kind: 8 KiB $s ms, 64 KiB $l ms; without the start of the program the ratio is $(python3 -c "print(round(($l-$base)/max(1,$s-$base),1))")"
done
for kind in statements blocks comments names objects functions nested; do text "$kind" 65536 > "$work/$kind.c"; done
# The memory of a process includes what its parent had, so a small process starts the program, and prints the most that it took.
gcc -O1 -o "$work/peak" "$top/bench/peak.c"
python3 - "$program" "$work" <<'P'
import math, os, subprocess, sys

program, work = sys.argv[1:]
ROUNDS = int(os.environ.get("ROUNDS", 40))


def peak(path):
    """The most memory of `check`, in MB."""
    with open(path) as source:
        return float(subprocess.run([f"{work}/peak", program, "--quiet", "check"], stdin=source, capture_output=True, check=True).stdout)


def seconds(words, path):
    """The processor time of one run, its standard input that file."""
    with open(path) as source, open(os.devnull, "w") as nothing:
        child = subprocess.Popen(words, stdin=source, stdout=nothing, stderr=nothing)
        _, child.returncode, used = os.wait4(child.pid, 0)
    return used.ru_utime + used.ru_stime


def least(path):
    """The least time of `check`, of gcc, and of `check` that warns, in turn."""
    all_words = [[program, "--quiet", "check"], ["gcc", "-fsyntax-only", "-w", path], [program, "check"]]
    runs = [[seconds(words, path) for words in all_words] for _ in range(ROUNDS)]
    return [min(times) for times in zip(*runs)]


def mean(ratios):
    """Their geometric mean."""
    return math.exp(sum(map(math.log, ratios)) / len(ratios))


start, ratios, warned = least(f"{work}/empty.c"), [], []
floor = peak(f"{work}/empty.c")
for kind in ["statements", "blocks", "comments", "names", "objects", "functions", "nested"]:
    path = f"{work}/{kind}.c"
    mine, other, warning = [time - before for time, before in zip(least(path), start)]
    memory = (peak(path) - floor) * (1 << 20) / os.path.getsize(path)
    print(f"check, {kind}: {mine * 1000:.1f} ms, gcc -fsyntax-only {other * 1000:.1f} ms: {other / mine:.2f} times as fast; {memory:.0f} bytes of memory for a byte of text")
    if kind != "nested":
        ratios.append(other / mine)
        warned.append(warning / mine)
# Initialisers: 16,000 of an array of words, and the same of an array of bytes.
took = {}
for kind, name in [("int", "words"), ("unsigned char", "bytes")]:
    path = f"{work}/{name}.c"
    with open(path, "w", encoding="utf-8") as text:
        text.write(f"{kind} a[]={{{','.join(str(100 + i % 156) for i in range(16000))}}};int main(void){{return a[9];}}")
    took[name] = (least(path)[0] - start[0]) / os.path.getsize(path)
print(f"check, 16,000 initialisers of bytes by as many of words, for a byte of text: {took['bytes'] / took['words']:.3f}")
print(f"check: {mean(ratios):.2f} times as fast as gcc -fsyntax-only (geometric mean of the six)")
print(f"check that warns: {mean(warned):.2f} times the time of check (geometric mean of the six)")
P
for turns in 1000000 10000000; do
  echo "int main(void){int i;while(i<$turns){i=i+1;}return i;}" > "$work/loop$turns.c"
done
loop_small() { "$program" interpret 1000000000 < "$work/loop1000000.c"; }
loop_large() { "$program" interpret 1000000000 < "$work/loop10000000.c"; }
s=$(millis 3 loop_small); l=$(millis 3 loop_large)
echo "interpret: 1 million turns $s ms, 10 million $l ms in three runs each: ratio $(python3 -c "print(round($l/max(1,$s),1))")"
