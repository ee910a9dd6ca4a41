#!/usr/bin/env python3
"""What a checked image costs compared with a plain one: executed instructions, words of code, and the time to compile.

costs.py [FILE..]: for each C program (without FILE: those of bench/programs) prints how many instructions the run of each image executes (the least
number of steps with which `run` comes to an end), how many words the image has, and the processor seconds of `image`, ROUNDS (20) times; then the
ratios, checked / plain, with the geometric means and the worst. A program reads the words that bench/programs/inputs has for its name, or those of a
file NAME.words next to it. Build the program first (./cclib --prove), or set CCLIB to a built one. The status is 1 if the two images write different
words."""
import math
import os
import pathlib
import resource
import subprocess
import sys

sys.path.insert(0, os.path.join(os.path.dirname(os.path.abspath(__file__)), "../tests/outside"))
import compare

TOP = pathlib.Path(__file__).resolve().parent.parent
MOST = 1_000_000_000
ROUNDS = int(os.environ.get("ROUNDS", "20"))


def inputs():
    """The words that each program of bench/programs reads, by the program's name."""
    lines = (TOP / "bench/programs/inputs").read_text(encoding="utf-8").splitlines()
    return {line.split()[0]: line.split()[1:] for line in lines if line.strip()}


def ask(text, *words):
    return subprocess.run([compare.PROGRAM, "--quiet", *words], input=text, capture_output=True, check=False).stdout.decode()


def executed(text, words, *mode):
    """What the image writes, and how many instructions that takes."""

    def run(steps):
        return ask(text, "run", *mode, str(steps), *words)

    low, high = 0, 1024
    while (said := run(high)).endswith("going\n"):
        if high == MOST:
            return said, None
        low, high = high, min(2 * high, MOST)
    while low + 1 < high:
        middle = (low + high) // 2
        if run(middle).endswith("going\n"):
            low = middle
        else:
            high = middle
    return said, high


def seconds(text, *mode):
    """The processor seconds that it takes to compile a text many times."""
    before = resource.getrusage(resource.RUSAGE_CHILDREN)
    for _ in range(ROUNDS):
        ask(text, "image", *mode)
    after = resource.getrusage(resource.RUSAGE_CHILDREN)
    return after.ru_utime + after.ru_stime - before.ru_utime - before.ru_stime


def mean(ratios):
    return math.exp(sum(map(math.log, ratios)) / len(ratios))


def main():
    files = [pathlib.Path(it) for it in sys.argv[1:]] or sorted((TOP / "bench/programs").rglob("*.c"))
    known, rows, other, plain_time, checked_time = inputs(), [], 0, 0.0, 0.0
    for file in files:
        beside = file.with_suffix(".words")
        words = beside.read_text(encoding="utf-8").split() if beside.exists() else known.get(file.stem, [])
        text = file.read_bytes()
        (said, plain), (again, checked) = executed(text, words), executed(text, words, "--checked")
        if said != again or plain is None or checked is None:
            other += 1
            print(f"{file.stem}: plain ends {said.splitlines()[-1:]}, checked {again.splitlines()[-1:]}, words {'alike' if said == again else 'differ'}")
            continue
        lengths = [len(ask(text, "asm", *mode).splitlines()) for mode in ([], ["--checked"])]
        times = seconds(text), seconds(text, "--checked")
        plain_time, checked_time = plain_time + times[0], checked_time + times[1]
        rows.append((checked / plain, lengths[1] / lengths[0], times[1] / times[0], file.stem))
        print(f"{file.stem}: {plain} and {checked} instructions, {lengths[0]} and {lengths[1]} words; {rows[-1][0]:.3f} {rows[-1][1]:.3f}, compiling {rows[-1][2]:.2f}", flush=True)
    if rows:
        for at, what in enumerate(("instructions", "words", "compiling")):
            worst = max(rows, key=lambda row: row[at])
            print(f"{what}: checked / plain {mean([row[at] for row in rows]):.3f} over {len(rows)} programs, the worst {worst[at]:.3f} ({worst[3]})")
        print(f"compiling all: {checked_time / plain_time:.3f}")
    return 1 if other else 0


if __name__ == "__main__":
    sys.exit(main())
