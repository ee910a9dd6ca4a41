#!/usr/bin/env python3
"""Tests sessions of the program over a file: what they do if memory is refused, and how much faster they compile with more workers.

session.py refuse [FOLDER]             each allocation of a session, from its first to its last, is refused once: the session has to end within a
                                       minute, each command has its usual answer or 40 or 41, and a session that opens the file again has to
                                       find the units that were acknowledged, and no others
session.py workers [FOLDER [COUNT]]    the time of COUNT (20) `add`s of a unit of 64 functions with 1 worker, divided by that with 2, 3 and 4, in
                                       turn, ten rounds; the best of each counts, minus the best of a session without a command
session.py commits [FOLDER [COUNT]]    commits a second of one client, with COUNT (960) calls that each compile a text and put its unit under one
                                       name, divided by those of sqlite (sqlite.c: WAL, synchronous FULL, one connection) that puts the same number of bytes, in turn, five
                                       rounds; the best of each counts, ours minus the best of a session without a command. Needs libsqlite3-dev

The file is put into FOLDER (this one). Build the program first (./cclib --prove), or set CCLIB to a built one; refuse needs gcc."""

import os
import subprocess
import sys
import tempfile
import time

TOP = os.path.dirname(os.path.dirname(os.path.dirname(os.path.abspath(__file__))))
PROGRAM = os.environ.get("CCLIB") or os.path.join(TOP, "crates/cclib/out/cclib")
UNIT = "int f(int x){return x*3;}int main(void){write_word(f(5));return f(2);}"
OTHER = "int main(void){return 7;}"
RAN = ["15", "exited 6"]
COMMANDS = [
    ("add", "a", UNIT),
    ("add", "b", OTHER),
    ("run", "a", RAN),
    ("replace", "b", UNIT),
    ("list",),
    ("withdraw", "a"),
    ("compact",),
    ("add", "c", OTHER),
    ("list",),
]


def script():
    text = ""
    for command in COMMANDS:
        if command[0] in ("add", "replace"):
            text += f"{command[0]} {command[1]} {len(command[2])}\n{command[2]}\n"
        elif command[0] == "run":
            text += f"run {command[1]} 1000000\n"
        else:
            text += " ".join(command) + "\n"
    return text


def library(path, text, *options, **more):
    return subprocess.run([PROGRAM, "library", path, "--quiet", *options], input=text, capture_output=True, text=True, timeout=60, **more)


def fresh(path, area):
    if os.path.exists(path):
        os.remove(path)
    made = library(path, "", "--format", str(area))
    if made.returncode:
        sys.exit(f"session.py: {made.stdout}")


class Wrong(Exception):
    pass


class Answers:
    """The lines of a session, taken command by command, and the units that they acknowledge."""

    def __init__(self, lines):
        self.lines = list(lines)
        self.units = {}
        self.number = 0
        self.refused = 0
        self.may_skip = False

    def next(self):
        if not self.lines:
            raise Wrong("too few lines")
        return self.lines.pop(0)

    def is_refused(self, line):
        if line in ("fault 40 OutOfMemory", "fault 41 WorkersGone"):
            self.refused += 1
            return True
        return False

    def want(self, line, wanted):
        if line != wanted:
            raise Wrong(f"{line!r} where {wanted!r} was expected")

    def counted(self, line):
        self.number += 1
        # If a `run` had no memory, its look may still be in the history.
        if self.may_skip and line == f"ok {self.number + 1}":
            self.number += 1
        self.may_skip = False
        self.want(line, f"ok {self.number}")

    def change(self, command):
        line = self.next()
        if self.is_refused(line):
            return
        has = command[1] in self.units
        if command[0] == "add" and has or command[0] != "add" and not has:
            self.number += 1
            self.want(line, "fault 31 Exists" if has else "fault 32 Absent")
            return
        self.counted(line)
        if command[0] == "withdraw":
            del self.units[command[1]]
        else:
            self.units[command[1]] = command[2]

    def list(self):
        line = self.next()
        if self.is_refused(line):
            return
        for name in sorted(self.units):
            self.want(line, f"unit {name}")
            line = self.next()
        self.counted(line)

    def run(self, name):
        line = self.next()
        if self.is_refused(line):
            self.may_skip = True
            return
        self.number += 1
        if name not in self.units:
            self.want(line, "fault 32 Absent")
            return
        if self.units[name] != UNIT:
            self.want(line, "exited 7")
            return
        self.want(line, RAN[0])
        self.want(self.next(), RAN[1])

    def compact(self):
        line = self.next()
        if not self.is_refused(line):
            self.want(line, "ok")

    def take(self, status):
        # If memory was refused before the service was there: one line, and no unit.
        if status == 1 and self.lines == ["fault 40 OutOfMemory"] or self.lines == ["fault 41 WorkersGone"]:
            self.refused = 1
            return
        for command in COMMANDS:
            if command[0] in ("add", "replace", "withdraw"):
                self.change(command)
            elif command[0] == "list":
                self.list()
            elif command[0] == "run":
                self.run(command[1])
            else:
                self.compact()
        if status == 1:
            # A fault of the service's end.
            if not self.is_refused(self.next()):
                raise Wrong("status 1")
        elif status:
            raise Wrong(f"status {status}")
        if self.lines:
            raise Wrong(f"{self.lines[0]!r} behind the last answer")


def refuse(work):
    path, library_path, told = (os.path.join(work, it) for it in ("disk", "refuse.so", "told"))
    subprocess.run(["gcc", "-shared", "-fPIC", "-O1", "-o", library_path, os.path.join(TOP, "tests/outside/shims/refuse.c"), "-ldl"], check=True)
    number = answered = unanswered = 0
    while True:
        number += 1
        fresh(path, 4096)
        open(told, "w").close()
        # Memory for the shell itself is not refused.
        put = f'exec env REFUSED={number} LD_PRELOAD={library_path} "$0" "$@" 3> {told}'
        words = ["bash", "-c", put, PROGRAM, "library", path, "--quiet"]
        try:
            ran = subprocess.run(words, input=script(), capture_output=True, text=True, timeout=60)
        except subprocess.TimeoutExpired:
            sys.exit(f"session.py: allocation {number}: the session did not end within a minute")
        answers = Answers(ran.stdout.split("\n")[:-1])
        try:
            answers.take(ran.returncode)
            again = library(path, "list\n")
            wanted = "".join(f"unit {name}\n" for name in sorted(answers.units)) + "ok 1\n"
            if again.returncode or again.stdout != wanted:
                raise Wrong(f"opened again the file has {again.stdout!r}, acknowledged were {sorted(answers.units)}")
        except Wrong as fault:
            sys.exit(f"session.py: allocation {number}: {fault}; the session printed {ran.stdout!r}")
        if open(told).read():
            break
        answered += answers.refused > 0
        unanswered += answers.refused == 0
    print(f"{number - 1} allocations of a session, each refused once: {answered} answered by 40 or 41, {unanswered} without a trace; no unit lost, no hang")


def large():
    """A unit of 64 functions, each with enough loops and expressions to take some time."""
    text = "int g[64];"
    for number in range(63):
        body = "".join(f"for(i=0;i<{9 + k};i++){{s=s*{k + 3}+(t^i);t=(t<<1)+s%{k + 7};g[i]=s-t;}}" for k in range(6))
        text += f"int f{number}(int a,int b){{int s=a,t=b,i;{body}return s+t;}}"
    return text + "int main(void){return f0(1,2)+f62(3,4);}"


def session_time(path, workers, count, text):
    fresh(path, 1 << 23)
    lines = "".join(f"add u{it} {len(text)}\n{text}\n" for it in range(count))
    begin = time.perf_counter()
    done = library(path, lines, "--workers", str(workers))
    took = time.perf_counter() - begin
    if done.returncode or done.stdout != "".join(f"ok {it + 1}\n" for it in range(count)):
        sys.exit(f"session.py: {done.stdout[:200]!r}")
    return took


def workers(work, count):
    path, text = os.path.join(work, "disk"), large()
    best = {}
    for _ in range(10):
        for many in (1, 2, 3, 4):
            for adds in (0, count):
                took = session_time(path, many, adds, text)
                best[many, adds] = min(took, best.get((many, adds), took))
    net = {many: best[many, count] - best[many, 0] for many in (1, 2, 3, 4)}
    print(f"{count} adds of a unit of 64 functions, {len(text)} bytes: {net[1] / count * 1000:.1f} ms each with one worker")
    print("faster than with one worker: " + ", ".join(f"{many} workers {net[1] / net[many]:.2f}" for many in (2, 3, 4)))
    print(f"load {os.getloadavg()[0]:.1f} on {os.cpu_count()} processors")


def commits(work, count):
    path, base, program = (os.path.join(work, it) for it in ("disk", "base", "sqlite"))
    subprocess.run(["gcc", "-O2", "-pthread", "-o", program, os.path.join(TOP, "bench/sqlite.c"), "-lsqlite3"], check=True)
    fresh(path, 4096)
    library(path, f"add a {len(UNIT)}\n{UNIT}\n")
    with open(path, "rb") as disk:
        length = int.from_bytes(disk.read()[17:21], "little")
    ours, theirs, idle = [], [], []
    for _ in range(5):
        for lines in ("", "".join(f"{'replace' if it else 'add'} a {len(UNIT)}\n{UNIT}\n" for it in range(count))):
            fresh(path, 400 * count)
            begin = time.perf_counter()
            done = library(path, lines, "--workers", "4")
            (ours if lines else idle).append(time.perf_counter() - begin)
            if done.returncode or done.stdout.count("ok ") != (count if lines else 0):
                sys.exit(f"session.py: {done.stdout[:200]!r}")
        for name in (base, base + "-wal", base + "-shm"):
            if os.path.exists(name):
                os.remove(name)
        said = subprocess.run([program, "put", base, "1", str(count), str(length)], capture_output=True, text=True, check=True).stdout.split()
        if int(said[0]) != count:
            sys.exit(f"session.py: sqlite acknowledged {said[0]} of {count}")
        theirs.append(int(said[1]) / 1e9)
    net = min(ours) - min(idle)
    print(f"one client, bodies of {length} bytes: {count / net:.0f} commits a second, sqlite {count / min(theirs):.0f}; ratio {min(theirs) / net:.2f}")


def main():
    if len(sys.argv) < 2 or sys.argv[1] not in ("refuse", "workers", "commits"):
        sys.exit(__doc__)
    if not os.access(PROGRAM, os.X_OK):
        sys.exit("session.py: build the program first: ./cclib --prove")
    with tempfile.TemporaryDirectory(dir=sys.argv[2] if len(sys.argv) > 2 else ".") as work:
        if sys.argv[1] == "refuse":
            refuse(work)
        elif sys.argv[1] == "commits":
            commits(work, int(sys.argv[3]) if len(sys.argv) > 3 else 960)
        else:
            workers(work, int(sys.argv[3]) if len(sys.argv) > 3 else 20)


if __name__ == "__main__":
    main()
