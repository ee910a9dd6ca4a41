#!/usr/bin/env python3
"""Compares how runs end under `trace` and `cover` with what `interpret` answers.

watched.py [COUNT] [SEED]: the programs of examples/ and bench/programs, and COUNT random ones (1,000) of tests/outside/compare.py from a seed (1), each
within 100,000 steps on four words. The last line, which says how the run ended, is compared. Then a loop of 100,000,000 steps is traced, and the
largest amount of memory of this and of a short run is printed, with the times of all three. The status is 1 if something differs. Build the program
first (./cclib --prove), or set CCLIB to a built one."""

import glob
import os
import re
import subprocess
import sys
import time

import compare

HERE = os.path.dirname(os.path.abspath(__file__))
PROGRAM = os.environ.get("CCLIB") or os.path.join(HERE, "../../crates/cclib/out/cclib")
END = re.compile(r"(ended -?[0-9]+|going|wrong [A-Z][a-z]+|fault .*)$")
WORDS = ["3", "4294967295", "0", "7"]
LOOP = b"int main(void){int i;int s;s=0;for(i=0;i<2000000000;i=i+1)s=s+i;return s;}"


def lines(words, text):
    done = subprocess.run([PROGRAM, *words, "--quiet"], input=text, capture_output=True, check=False)
    return done.stdout.decode(errors="replace").splitlines()


def end(found):
    """The last line that says how a run ended."""
    for line in reversed(found):
        if END.match(line):
            return line
    return None


def differs(name, text, steps="100000"):
    want = end(lines(["interpret", steps, *WORDS], text))
    traced = end(lines(["trace", steps, *WORDS], text))
    covered = end(lines(["cover", steps, *WORDS], text))
    if want is None or not want == traced == covered:
        print(f"{name}: interpret {want}, trace {traced}, cover {covered}")
        return True
    return False


def peak(words):
    """The largest amount of memory of a run, in KiB, and its seconds."""
    begun = time.monotonic()
    child = subprocess.Popen([PROGRAM, *words, "--quiet"], stdin=subprocess.PIPE, stdout=subprocess.DEVNULL)
    child.stdin.write(LOOP)
    child.stdin.close()
    _, _, usage = os.wait4(child.pid, 0)
    child.returncode = 0
    return usage.ru_maxrss, time.monotonic() - begun


def main():
    count = int(sys.argv[1]) if len(sys.argv) > 1 else 1000
    seed = int(sys.argv[2]) if len(sys.argv) > 2 else 1
    wrong = 0
    files = sorted(glob.glob(os.path.join(HERE, "../../examples/*.c")) + glob.glob(os.path.join(HERE, "../../bench/programs/*.c")))
    for path in files:
        with open(path, "rb") as file:
            wrong += differs(path, file.read())
    for number in range(count):
        wrong += differs(f"random {seed + number}", compare.Writer(seed + number).program(seed + number).encode())
    print(f"{len(files)} programs and {count} random ones, {wrong} differ")
    steps = os.environ.get("STEPS", "100000000")
    for words in (["interpret", steps], ["trace", steps], ["cover", steps], ["trace", "1000"]):
        kib, seconds = peak(words)
        print(f"{' '.join(words)}: {seconds:.1f} s, {kib} KiB")
    return 1 if wrong else 0


if __name__ == "__main__":
    sys.exit(main())
