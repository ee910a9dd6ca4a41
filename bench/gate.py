#!/usr/bin/env python3
"""Runs the gate and reports where its time goes.

    bench/gate.py [FOLDER]          in that clone of the repository, or in a fresh clone of what is committed here
    bench/gate.py --chain           runs nothing: prints the sums and the longest chain by tools/costs.txt, which docs/GATE.md has to have
    bench/gate.py --table           runs nothing: prints tools/costs.txt as a table

The gate is `rt ci`, as `.ci/run` has it; it should be the only thing that the machine does. While it runs, this script looks
four times a second at the toolchain's processes and adds up the processor seconds of each. Then it prints a row for each
crate, in processor seconds, and if the run passed, the same is written to tools/costs.txt (of the repository that the script is in):

    lines   of src/, proofs left out
    P       a whole proof from scratch
    tests   the proof of its tests, if it has any, and their build
    first   its second proof, over which its must-fail edits are tried; a single edit is a whole check by itself
    e       each edit over that proof, on average
    n       a check that changes nothing, which the gate makes after the edits
    sum     all of these

and after them the sum of all, the wall clock's time, and the longest chain: the proofs of crates that wait for one another,
and the tests and edits of the last of them. The gate takes at least as long as its longest chain, and at least the sum divided by the number of
processors. The chain of crates.txt as it is now shows whether splitting a crate would shorten it."""
import os
import re
import shutil
import subprocess
import sys
import tempfile
import time
from datetime import date

TOP = os.path.dirname(os.path.dirname(os.path.abspath(__file__)))
TICK = os.sysconf("SC_CLK_TCK")

# What each crate costs; ./prove-below uses it too, for its schedule.
COSTS = f"{TOP}/tools/costs.txt"

# The crates that are linked as programs.
PROGRAMS = ("cclib", "bench")

class Cost:
    """A line of tools/costs.txt: what the gate spends on one crate; a number is 0 if there is no such part."""

    def __init__(self, name, *cells):
        self.name = name
        self.lines, self.proof, self.tests, self.count, self.first, self.each, self.again = (float(it.replace("-", "0")) for it in cells)

    def edits(self):
        """Returns the seconds of the edits that are tried over a second proof: none if there is one edit."""
        return self.each * self.count if self.count > 1 else 0

    def whole(self):
        return self.proof + self.tests + self.first + self.edits() + self.again

    def line(self):
        cells = [f"{it:.0f}" for it in (self.lines, self.proof, self.tests, self.count, self.first)] + [f"{it:.1f}" for it in (self.each, self.again)]
        return f"{self.name:<20} {cells[0]:>5} " + " ".join(f"{'-' if float(it) == 0 else it:>5}" for it in cells[1:])

    def row(self):
        numbers = f"{self.lines:6.0f} | {self.proof:4.0f} | {self.tests:5.0f} | {self.count:5.0f} | {self.first:5.0f} | {self.each:4.1f} | {self.again:5.1f} | {self.whole():5.0f}"
        return re.sub(r"(?<=\|) +0(?:\.0)? (?=\|)", lambda it: " " * len(it[0]), f"| {self.name:20} | {numbers} |")


def costs():
    """Returns the lines of tools/costs.txt."""
    with open(COSTS, encoding="utf-8") as file:
        return [Cost(*line.split()) for line in file if not line.startswith("#")]


def table(found):
    """Returns the lines of a table of these costs."""
    head = ["| crate                |  lines |    P | tests | edits | first |    e |    n |   sum |", "|---|---|---|---|---|---|---|---|---|"]
    return head + [it.row() for it in found]


def write(found):
    """Replaces the costs in tools/costs.txt, and the lines `# Measured` that say where they come from, with these."""
    with open(COSTS, encoding="utf-8") as file:
        comments = [line for line in file if line.startswith("#") and not line.startswith("# Measured")]
    with open(COSTS, "w", encoding="utf-8") as file:
        file.write("".join(comments) + f"# Measured in one whole run of the gate, {date.today().isoformat()}.\n" + "".join(f"{it.line()}\n" for it in found))


class Process:
    """What one process of the toolchain does, and what it has taken so far."""

    def __init__(self, words, place, now):
        self.crate = words[words.index("--crate-name") + 1] if "--crate-name" in words else os.path.basename(place)
        self.is_edit = "/rt-edit-" in place
        self.is_test = "--test" in words
        self.place, self.begin, self.end, self.seconds = place, now, now, 0.0


def read(pid):
    """Returns the words, the folder and the seconds of a process, or None if it is not the toolchain's or has ended."""
    try:
        with open(f"/proc/{pid}/stat", "rb") as file:
            name, fields = re.match(rb"\d+ \((.*)\) (.*)", file.read(), re.S).groups()
        if name not in (b"rattle", b"clang", b"rattle-link") and not name.startswith(b"antt"):
            return None
        with open(f"/proc/{pid}/cmdline", "rb") as file:
            words = file.read().decode(errors="replace").split("\0")
        fields = fields.split()
        return words, os.readlink(f"/proc/{pid}/cwd"), (int(fields[11]) + int(fields[12])) / TICK
    except (OSError, AttributeError, ValueError):
        return None


def watch(folder):
    """Runs the gate, and returns whether it passed, what it took, and its processes."""
    found, begin = {}, time.monotonic()
    gate = subprocess.Popen([f"{folder}/.ci/run"], cwd=folder, stdin=subprocess.DEVNULL)
    while gate.poll() is None:
        now = time.monotonic() - begin
        for pid in filter(str.isdigit, os.listdir("/proc")):
            seen = read(pid)
            if seen is not None:
                words, place, seconds = seen
                process = found.setdefault((pid, place), Process(words, place, now))
                process.end, process.seconds = now, max(process.seconds, seconds)
        time.sleep(0.25)
    return gate.returncode == 0, time.monotonic() - begin, list(found.values())


def below(folder):
    """Returns each crate of crates.txt with the crates of the repository that it names."""
    rows = {}
    with open(f"{folder}/crates.txt", encoding="utf-8") as file:
        for line in file:
            name, colon, names = line.partition("#")[0].partition(":")
            if colon:
                rows[name.split()[0]] = names.split()
    return {name: [it for it in names if it in rows] for name, names in rows.items()}


def count_lines(folder):
    count = 0
    for at, _, files in os.walk(f"{folder}/src"):
        for name in files:
            with open(f"{at}/{name}", encoding="utf-8") as file:
                count += sum(1 for _ in file)
    return count


def longest(names, proof, last):
    """Returns the seconds and the crates of the longest chain, given the seconds of each proof and of what comes after the last one."""
    chains = {}

    def chain(name):
        if name not in chains:
            seconds, crates = max(map(chain, names[name]), default=(0, []))
            chains[name] = seconds + proof(name), crates + [name]
        return chains[name]

    seconds, crates = max((chain(it)[0] + last(it), chain(it)[1]) for it in names)
    return seconds, crates


def sums(names, found):
    """Returns the sum of what the gate spends, and its parts, each with what it is."""
    own = [found[it] for it in names if it in found]
    kinds = {"test crates": [], "the two programs": [], "the libraries' own proofs": []}
    for it in own:
        kinds["test crates" if it.name.startswith("tests_") else "the two programs" if it.name in PROGRAMS else "the libraries' own proofs"].append(it)
    parts = {kind: sum(it.proof + it.tests for it in kinds[kind]) for kind in ("the libraries' own proofs", "test crates", "the two programs")}
    parts["second proofs for edits"] = sum(it.first for it in own)
    parts["edits over them"] = sum(it.edits() for it in own)
    parts["checks after them"] = sum(it.again for it in own)
    return sum(parts.values()), parts


def tell_chain():
    """Prints what tools/costs.txt says about today's crates."""
    names, found = below(TOP), {it.name: it for it in costs()}
    unknown = sorted(set(names) - set(found))
    proof = lambda it: found[it].proof if it in found else 0
    seconds, crates = longest(names, proof, lambda it: found[it].whole() - found[it].proof if it in found else 0)
    whole, parts = sums(names, found)
    print(f"the longest chain, {seconds:,.0f} s of processor: {', '.join(f'{it} {proof(it):.0f}' for it in crates)}")
    print(f"the sum, {whole:,.0f} s: {', '.join(f'{what} {each:,.0f}' for what, each in parts.items())}")
    print(f"not in tools/costs.txt: {', '.join(unknown) or 'none'}")


def span(processes):
    return max((it.end for it in processes), default=0) - min((it.begin for it in processes), default=0)


class Row:
    """What the gate spent on one crate."""

    def __init__(self, folder, name, processes):
        own = [it for it in processes if it.crate == name]
        self.name, self.lines = name, count_lines(f"{folder}/crates/{name}")
        proof = [it for it in own if not it.is_edit and not it.is_test]
        self.proof = sum(it.seconds for it in proof)
        self.tests = sum(it.seconds for it in own if it.is_test and not it.is_edit)
        rooms = {}
        for it in sorted((it for it in own if it.is_edit), key=lambda it: it.begin):
            rooms.setdefault(it.place, []).append(it)
        edits = [sum(it.seconds for it in room) for room in rooms.values()]
        self.count = len([it for it in os.listdir(f"{folder}/crates/{name}/must-fail")]) if edits else 0
        self.first = edits[0] if edits else 0
        over = edits[1 : self.count + 1] if self.count > 1 else []
        self.each = sum(over) / len(over) if over else 0
        self.again = sum(edits[self.count + 1 :])
        self.whole = self.proof + self.tests + sum(edits)
        self.wall, self.edits_wall = span(proof), span([it for it in own if it.is_edit])

    def cost(self):
        return Cost(self.name, *map(str, (self.lines, self.proof, self.tests, self.count, self.first, self.each, self.again)))


def main(folder):
    room = None
    if folder is None:
        room = tempfile.mkdtemp(prefix="cclib-gate-")
        subprocess.run(["git", "clone", "-q", TOP, f"{room}/tree"], check=True)
        folder = f"{room}/tree"
    passed, wall, processes = watch(folder)
    names = below(folder)
    rows = {name: Row(folder, name, processes) for name in names}
    found = [row.cost() for row in rows.values()]
    said = table(found)
    seconds, chain = longest(names, lambda it: rows[it].wall, lambda it: rows[it].edits_wall)
    said += [
        "",
        f"All crates: {sum(it.whole for it in rows.values()) / 60:.0f} processor minutes; all that the toolchain did: {sum(it.seconds for it in processes) / 60:.0f}.",
        f"Wall clock: {wall / 60:.0f} minutes on {os.cpu_count()} processors; longest chain: {', '.join(chain)}, {seconds / 60:.0f} minutes.",
    ]
    print("\n".join(said))
    if passed:
        write(found)
    print("passed" if passed else "NOT PASSED")
    if room:
        shutil.rmtree(room, ignore_errors=True)
    return 0 if passed else 1


if __name__ == "__main__":
    if sys.argv[1:] == ["--chain"]:
        sys.exit(tell_chain())
    if sys.argv[1:] == ["--table"]:
        print("\n".join(table(costs())))
        sys.exit(0)
    sys.exit(main(sys.argv[1] if len(sys.argv) > 1 else None))
