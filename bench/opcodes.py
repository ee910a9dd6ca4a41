#!/usr/bin/env python3
"""Shows what a turn of a loop over opcodes costs, by the opcode: a switch of so many cases in a loop.

opcodes.py [CASES]: a program of wide C with CASES cases (200); each adds a number of its own and ends with `break`. Their labels are 0, 1,
2 and so on, then labels that are far apart, then these in a random order. It is translated, compiled and run 100 turns with one opcode, for some
forty opcodes and one that no case has, and the instructions of a turn are printed: those of the first case, of the last, the fewest, the most.

TRANSLATE is the command that translates from standard input to standard output (`cclib translate`), CCLIB the built program."""

import os
import random
import shlex
import subprocess
import sys

PROGRAM = os.environ.get("CCLIB") or os.path.join(os.path.dirname(os.path.abspath(__file__)), "../crates/cclib/out/cclib")
TRANSLATE = shlex.split(os.environ.get("TRANSLATE") or f"{PROGRAM} translate --bare")
TURNS = 100


def text_of(labels):
    cases = "\n".join(f"case {label}u: n = n + {number + 1}; break;" for number, label in enumerate(labels))
    return f"int main(void) {{ int n = 0; unsigned code = read_word(); int last = read_word(); for (int i = 0; i < last; i++) {{ switch (code) {{\n{cases}\n}} }} return n; }}\n"


def instructions(printed, code, turns):
    ran = subprocess.run([PROGRAM, "--quiet", "run", "--count", "1000000000", str(code), str(turns)], input=printed, capture_output=True, check=True).stdout.decode()
    return int(ran.split("\n")[-2].split()[-1])


def turn(printed, code):
    return (instructions(printed, code, TURNS) - instructions(printed, code, 0)) / TURNS


def main():
    count = int(sys.argv[1]) if len(sys.argv) > 1 else 200
    near, far = list(range(count)), [it * 16777259 % 2**32 for it in range(count)]
    for what, labels in (("0 and on", near), ("far apart", far), ("in a random order", random.Random(1).sample(near, count))):
        printed = subprocess.run(TRANSLATE, input=text_of(labels).encode(), capture_output=True, check=True).stdout
        costs = [turn(printed, it) for it in [*labels[:-1 : max(1, count // 40)], labels[-1]]]
        other = turn(printed, 4294967295)
        print(f"{count} cases, {what}: the first takes {costs[0]:.0f} instructions a turn, the last {costs[-1]:.0f}, the fewest {min(costs):.0f}, the most {max(costs):.0f}; no case {other:.0f}")


if __name__ == "__main__":
    main()
