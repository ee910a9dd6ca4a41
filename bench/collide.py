#!/usr/bin/env python3
"""Shows by ratios within one run that names chosen to collide make no text slow. It compares the processor time of `check` over a text of 64 KiB
whose names would all have the same place in a table with the pack's `FoldHasher`, with the time over the same text with another last letter in each
name: there the same number of names begin alike, in the same order, and their hashes show no pattern.

    bench/collide.py [PROGRAM]

A name has six letters. Those that collide have the same low eleven bits of their hash, so they begin at the same group in any table of up to that
many groups, and the same high byte, so each of them has to be compared. `objects` declares each name once; `uses` declares half of them and then uses
all, so half are faults; `locals` declares them in functions of 256. Build the program first (./cclib --prove). gcc compiles the search for the names,
which takes some seconds."""
import os, random, resource, subprocess, sys, tempfile

TOP = os.path.dirname(os.path.dirname(os.path.abspath(__file__)))
PROGRAM = [sys.argv[1] if sys.argv[1:] else os.path.join(TOP, "crates/cclib/out/cclib"), "check"]
SIZE = 65536

# The hash of a slice of bytes: its length as eight bytes, and then each byte, with one write for each.
SEARCH = r"""
#include <stdint.h>
#include <stdio.h>
#include <stdlib.h>
#define M 0x9e3779b97f4a7c15ull
static uint64_t fold(uint64_t a, uint64_t b) { unsigned __int128 p = (unsigned __int128)a * b; return (uint64_t)p ^ (uint64_t)(p >> 64); }
static uint64_t byte(uint64_t s, uint64_t b) { return fold(s ^ (b | b << 8 | b << 16), M ^ 2); }
static const char *letters = "abcdefghijklmnopqrstuvwxyzABCDEFGHIJKLMNOPQRSTUVWXYZ_0123456789";
static long left;
static uint32_t low, wanted;
static void go(uint64_t s, char *name, int n) {
  for (int i = 0; i < 63 && left > 0; i++) {
    uint64_t t = byte(s, (unsigned char)letters[i]);
    name[n] = letters[i];
    if (n < 5) { go(t, name, n + 1); continue; }
    uint32_t h = (uint32_t)(t ^ t >> 32);
    if ((h & low) == wanted) { printf("%.6s\n", name); left--; }
  }
}
int main(int c, char **v) {
  char name[8] = {0};
  left = atol(v[1]);
  low = strtoul(v[2], 0, 16); wanted = strtoul(v[3], 0, 16);
  uint64_t s = fold(0x243f6a8885a308d3ull ^ 6, M ^ 16);
  for (int i = 0; i < 53 && left > 0; i++) { name[0] = letters[i]; go(byte(s, (unsigned char)letters[i]), name, 1); }
}
"""


def colliding(folder, count):
    source, program = os.path.join(folder, "search.c"), os.path.join(folder, "search")
    with open(source, "w") as f:
        f.write(SEARCH)
    subprocess.run(["gcc", "-O2", "-o", program, source], check=True)
    return subprocess.run([program, str(count), "ff0007ff", "5a000123"], check=True, capture_output=True, text=True).stdout.split()


def plain(names):
    """The same names with another last letter each: names that begin alike cost longer comparisons, which has nothing to do with the
    hash."""
    random.seed(1)
    letters = "abcdefghijklmnopqrstuvwxyzABCDEFGHIJKLMNOPQRSTUVWXYZ_"
    taken, others = set(names), []
    for name in names:
        other = name
        while other in taken:
            other = name[:5] + random.choice(letters)
        taken.add(other)
        others.append(other)
    return others


def objects(names):
    return "int " + ",".join(names[: (SIZE - 30) // 7]) + ";int main(void){}"


def uses(names):
    half = names[: (SIZE - 60) // 14]
    return "int " + ",".join(half) + ";int main(void){" + "".join(n + ";" for n in names[len(half) // 2 : len(half) // 2 + len(half)]) + "}"


def locals_(names):
    parts = []
    for f in range(40):
        parts.append(f"int f{f}(void){{int " + ",".join(names[f * 230 : f * 230 + 230]) + ";return 0;}")
    return "".join(parts) + "int main(void){}"


def seconds(path, runs):
    least = None
    for _ in range(3):
        before = resource.getrusage(resource.RUSAGE_CHILDREN)
        for _ in range(runs):
            with open(path) as f:
                subprocess.run(PROGRAM, stdin=f, stdout=subprocess.DEVNULL, stderr=subprocess.DEVNULL)
        after = resource.getrusage(resource.RUSAGE_CHILDREN)
        spent = after.ru_utime + after.ru_stime - before.ru_utime - before.ru_stime
        least = spent if least is None else min(least, spent)
    return least / runs


def main():
    with tempfile.TemporaryDirectory() as folder:
        path = os.path.join(folder, "text.c")

        def timed(text):
            assert len(text) <= SIZE, len(text)
            with open(path, "w") as f:
                f.write(text)
            return seconds(path, 10)

        start = timed("int main(void){}")
        one = colliding(folder, 10000)
        assert len(one) == 10000, len(one)
        other = plain(one)
        for kind, make in ("objects", objects), ("uses", uses), ("locals", locals_):
            attacked, usual = timed(make(one)) - start, timed(make(other)) - start
            print(f"check, {kind}: {attacked * 1000:.1f} ms where the names collide, {usual * 1000:.1f} ms else: ratio {attacked / usual:.2f}")


main()
