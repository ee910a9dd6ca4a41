#!/usr/bin/env python3
"""Compares what the interpreter and checked images write, for random programs, many of which go wrong at an index, a division or a shift.

checked.py [COUNT] [SEED] [GCC]: COUNT programs (100), from a seed (1): those of compare.py, in which some operations lack what guards them. If the
source ends, `run --checked` has to write the same words and end in the same way. If it goes wrong, but not because of its depth, `run --checked` has
to write the same words and go on for 1,000,000,000 instructions. If a function is too large (22) or the source is too deep, the program is passed
over. For the first GCC (0) of them gcc's program, compiled with its own tests, has to write the same words and end in the same way or with a signal;
a program that gcc refuses is passed over there. Build the program first (./cclib --prove), or set CCLIB to a built one."""

import subprocess
import sys
import tempfile

import compare

MOST = "1000000000"
TESTS = ["-fsanitize=bounds,integer-divide-by-zero,shift-exponent", "-fsanitize-undefined-trap-on-error"]
# What was written before a signal is not lost.
SERVICES = compare.SERVICES.replace('w); }', 'w); fflush(stdout); }')


class Writer(compare.Writer):
    """Programs in which an operation goes wrong now and then."""

    def slips(self):
        return self.random.random() < 0.01

    def leaf(self):
        if self.slips():
            return f"{self.one_of(*'pqre')}[{self.one_of(*compare.VARIABLES)}]"
        return super().leaf()

    def target(self):
        if self.slips():
            return f"{self.one_of(*'pqre')}[{self.expression(1)}]"
        return super().target()

    def expression(self, depth):
        if depth and self.slips():
            a, b = self.expression(depth - 1), self.expression(depth - 1)
            return f"({a}){self.one_of('/', '%', '<<', '>>')}({b})"
        return super().expression(depth)

    def statement(self, depth):
        if self.slips():
            return f"{self.expression(2)};"
        return super().statement(depth)


def tested_by_gcc(text, words, end, room):
    """How gcc's program, compiled with its own tests, differs; None if it does not."""
    with open(f"{room}/program.c", "w", encoding="utf-8") as it:
        it.write(SERVICES + text)
    made = subprocess.run(["gcc", "-std=c99", "-w", "-fwrapv", "-O0", *TESTS, "-o", f"{room}/program", f"{room}/program.c"], check=False, capture_output=True)
    if made.returncode:
        return None
    lines, status = compare.lines_of([f"{room}/program"])
    is_alike = status < 0 if end.startswith("wrong") else status == int(end.split()[1]) % 256
    if lines != words or not is_alike:
        return f"the interpreter writes {len(words)} words and says {end}, gcc's program writes {len(lines)} and ends with {status}"
    return None


def judged(text, room):
    """How the source ends: `ended`, or why it goes wrong; None if it is passed over; or which one differs. If a folder is given, gcc is asked too."""
    lines, _ = compare.lines_of([compare.PROGRAM, "--quiet", "interpret", MOST, *compare.WORDS], text)
    *words, end = lines
    if end in ("wrong Depth", "going"):
        return None
    *made, came = compare.lines_of([compare.PROGRAM, "--quiet", "run", "--checked", MOST, *compare.WORDS], text)[0]
    if came.startswith("fault 22"):
        return None
    wanted = "going" if end.startswith("wrong") else end.replace("ended", "exited")
    if made != words or came != wanted:
        return f"the interpreter writes {len(words)} words and says {end}, the checked image writes {len(made)} and says {came}"
    differs = tested_by_gcc(text, words, end, room) if room else None
    return differs or (end.split()[-1] if end.startswith("wrong") else "ended")


def main():
    count, first, gcc = (int(sys.argv[at]) if len(sys.argv) > at else default for at, default in ((1, 100), (2, 1), (3, 0)))
    ends, passed_over, other = {}, 0, 0
    with tempfile.TemporaryDirectory() as room:
        for seed in range(first, first + count):
            text = Writer(seed).program(seed)
            found = judged(text, room if seed < first + gcc else None)
            if found is None:
                passed_over += 1
            elif " " in found:
                other += 1
                print(f"seed {seed}: {found}\n{text}", file=sys.stderr)
            else:
                ends[found] = ends.get(found, 0) + 1
    print(", ".join(f"{many} {end}" for end, many in sorted(ends.items())) + f"; {passed_over} passed over; {other} differ")
    return 1 if other else 0


if __name__ == "__main__":
    sys.exit(main())
