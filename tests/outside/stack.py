#!/usr/bin/env python3
"""Checks what `size` says about programs: those of examples/ and bench/programs, and random ones.

stack.py [COUNT] [SEED] [STEPS]: COUNT random programs (100) of tests/outside/compare.py, from a seed (1). For each program that has an image:
- the functions, their places and their words are those of the listing after its start of three words, `code` is its length and `globals` the
  bytes of `image` from 0x00200000 on;
- frames, chains of calls and the stack are what this script computes from nothing but the listing: a function's frame is the largest N of its
  `addi x2, x2, -N`, and its calls are its `jal x1`;
- a plain simulator (tests/outside/image.py) runs the image for STEPS instructions (200,000), and no load or store below x2's first value is deeper
  than the reported stack.
The same for plain and checked images. Build the program first (./cclib --prove), or set CCLIB to a built one. The status is 1 if one differs."""
import pathlib
import subprocess
import sys

import compare
import image

TOP = pathlib.Path(__file__).resolve().parent.parent.parent
MOST_OPEN = 1024


class Machine(image.Machine):
    """A simulator that records the deepest access of the stack."""

    deepest = 0

    def place(self, address, size):
        if image.STACK <= address < image.STACK_TO:
            self.deepest = max(self.deepest, image.STACK_TO - address)
        return super().place(address, size)


def ask(text, *words):
    ran = subprocess.run([compare.PROGRAM, "--quiet", *words], input=text.encode(), capture_output=True, check=False)
    return ran.stdout.decode(), ran.returncode


def said(lines):
    """The functions as (name, address, words, frame, calls), the figures with their names, and the calls that form cycles."""
    functions, figures, cycles = [], {}, []
    for line in lines:
        words = line.split()
        if len(words) == 8:
            assert (words[3], words[4], words[6]) == ("words", "frame", "calls")
            functions.append((words[0], int(words[1], 16), int(words[2]), int(words[5]), int(words[7])))
        elif words[0] == "recursion":
            cycles.append((words[1], words[2]))
        else:
            assert len(words) == 2 and words[0] in ("code", "globals", "open", "stack") and words[0] not in figures
            figures[words[0]] = int(words[1])
    return functions, figures, cycles


def needs(own, calls):
    """For each function, the largest sum of frames over a chain of calls, as deep as calls may go."""
    need = [0] * len(own)
    for _ in range(MOST_OPEN):
        need = [own[f] + max((need[g] for g in calls[f]), default=0) for f in range(len(own))]
    return need


def leads(calls, f):
    """The functions to which calls in a function lead."""
    found, left = set(), list(calls[f])
    while left:
        g = left.pop()
        if g not in found:
            found.add(g)
            left += calls[g]
    return found


def computed(functions, listing):
    """The frames and the calls of the functions, according to the listing."""
    at_place = {address: f for f, (_, address, *_) in enumerate(functions)}
    frames, calls = [], []
    for _, address, words, *_ in functions:
        begin = (address - image.CODE) // 4
        lines = listing[begin : begin + words]
        frames.append(max((-int(it.split()[-1]) for it in lines if "addi x2, x2, -" in it), default=0))
        jumps = [line.split() for line in lines if " jal x1, " in line]
        calls.append(sorted({at_place[int(it[0], 16) + int(it[-1])] for it in jumps}))
    return frames, calls


def difference(text, steps, *mode):
    """What is wrong with the answer, or None; and the reported stack, or None, and the deepest access."""
    answer, status = ask(text, "size", *mode)
    listed, refused = ask(text, "asm", *mode)
    if status or refused:
        return (None if (answer, status) == (listed, refused) else "the fault"), None, 0
    functions, figures, cycles = said(answer.splitlines())
    listing = listed.splitlines()
    made = image.read_hex(ask(text, "image", *mode)[0].encode())
    code, data = (image.region(made, begin, end) for begin, end in ((image.CODE, image.GLOBALS), (image.GLOBALS, image.GLOBALS_TO)))
    ends = [address + 4 * words for _, address, words, *_ in functions]
    if [it[1] for it in functions] + [image.CODE + 4 * len(listing)] != [image.CODE + 12, *ends]:
        return "the places", None, 0
    if figures["code"] != len(listing) or figures["globals"] != len(data):
        return "the words or the globals", None, 0
    frames, calls = computed(functions, listing)
    chains, stacks = needs([1] * len(frames), calls), needs(frames, calls)
    main = [it[0] for it in functions].index("main")
    if [it[3] for it in functions] != frames or [it[4] for it in functions] != chains:
        return "the frames or the chains", None, 0
    if (figures["open"], figures["stack"]) != (chains[main], stacks[main]):
        return "the stack", None, 0
    names = [it[0] for it in functions]
    if cycles != [(names[f], names[g]) for f in range(len(names)) for g in calls[f] if f in leads(calls, g) | {g}]:
        return "the cycles", None, 0
    machine = Machine(code, data, [int(it) for it in compare.WORDS])
    if machine.run(steps) != ask(text, "run", *mode, str(steps), *compare.WORDS)[0]:
        return "the run", None, 0
    return (None if machine.deepest <= figures["stack"] else "too little"), figures["stack"], machine.deepest


def main():
    count, first, steps = (int(sys.argv[at]) if len(sys.argv) > at else default for at, default in ((1, 100), (2, 1), (3, 200_000)))
    files = [it for folder in ("examples", "bench/programs") for it in sorted((TOP / folder).rglob("*.c"))]
    texts = [(str(it.relative_to(TOP)), it.read_text(encoding="utf-8")) for it in files]
    texts += [(f"seed {it}", compare.Writer(it).program(it)) for it in range(first, first + count)]
    differ, sizes, met = 0, [], 0
    for name, text in texts:
        for mode in [], ["--checked"]:
            wrong, stack, deepest = difference(text, steps, *mode)
            if wrong:
                differ += 1
                print(f"{name} {' '.join(mode)}: {wrong}", flush=True)
            elif stack is not None:
                sizes.append(stack)
                met += stack == deepest
    print(f"{len(sizes)} images, their stacks {min(sizes)} to {max(sizes)} bytes, {met} of them used to the last; {differ} differ")
    return 1 if differ else 0


if __name__ == "__main__":
    sys.exit(main())
