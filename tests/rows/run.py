#!/usr/bin/env python3
r"""Runs cases that are text over the linked program: what it is given, and what it has to print, to the byte.

    tests/rows/run.py CCLIB [FILE[::CASE]..]     these files of cases, or one case of a file; without any, all files of this folder

For each case that fails it prints file, line, name, command, what came and what was wanted; the last line is `N passed, M failed`, and the status
is 1 if one failed. Cases run beside each other, each in a new empty folder, within 120 seconds. What the form below does not know is a failure.

A line of a file begins with a mark and a space (a mark alone: an empty text). Empty lines are skipped.

    # a comment
    = an-added-unit-is-listed    a case begins: its name, lower-case words with hyphens, once in a file
    @ a.c                        a file of the case's folder, made at this place among the commands (0600); its lines follow
    | int main(void){}           a line of that file
    |hex 00 ff                   bytes of that file
    @hex a.bin 00 ff             a file of these bytes
    @zeros d 4096                a file of so many bytes: those of its lines, then zeros
    $ library d --format 4096    a command line of the program, split as a shell does
    < add a 16                   a line of its standard input
    > ok 1                       a line of its standard output, which has to be these lines, whole
    >~ stack 16                  or: a line (with `\` at its end a part of one) that standard output has to have, among others
    >+ open 1                    the line right after that one
    ! 1:5: no such name          a line of its standard error, which may be anything if there is no such line; `!~` as `>~`
    !-                           its standard error is empty
    ? 1                          its status; 0 without this line
    & serve d spool              a server over the folder `spool`, until the case ends; `>`, `!`, `?` as above, looked at when it has ended
    &stop                        it is stopped here (by `spool/stop`), and its end awaited
    % spool/log run a fault 54   the end of a line (with `\` at its end a part of one) that a file of the folder has by now

A case has a command, and each command one of `>`, `!`, `?`. In a text, and in a word in single quotes, `\n` is a newline, `\xHH` a byte, `\\` a
backslash; a single `\` at a text's end says that no newline follows. `|*`, `<*`, `>*`, `!*` COUNT TEXT: the text COUNT times, without newlines.
"""
import concurrent.futures
import dataclasses
import glob
import os
import re
import shlex
import subprocess
import sys
import tempfile
import time

SECONDS = 120
ESCAPE = re.compile(rb"\\(n|x[0-9a-f]{2}|\\|$|.)", re.DOTALL)
STREAMS = {"<": "given", ">": "out", "!": "err"}
PARTS = {">~": "out_has", "!~": "err_has"}


class Wrong(Exception):
    """A line that the form does not know."""


@dataclasses.dataclass
class Step:
    """A command, a server or a file, and what the lines after it say."""

    mark: str
    line: int
    rest: str = ""
    given: bytes = b""
    size: int = 0
    out: bytes | None = None
    err: bytes | None = None
    status: int | None = None
    out_has: list = dataclasses.field(default_factory=list)
    err_has: list = dataclasses.field(default_factory=list)

    def words(self):
        """Returns the words of the command line."""
        return [ESCAPE.sub(unescaped, it.encode()) for it in shlex.split(self.rest)]

    def is_whole(self):
        """Returns whether it says what standard output is, whole or by its parts but not both, or anything else; likewise standard error."""
        says = self.out is not None or self.err is not None or self.status is not None or self.out_has or self.err_has
        return says and (self.out is None or not self.out_has) and (self.err is None or not self.err_has)


@dataclasses.dataclass
class Case:
    """A case, and what is wrong in its lines."""

    path: str
    line: int
    name: str
    steps: list = dataclasses.field(default_factory=list)
    wrong: list = dataclasses.field(default_factory=list)


# ---- reading


def unescaped(found):
    """The byte that an escape is for."""
    what = found[1]
    if what == b"n":
        return b"\n"
    if what[:1] == b"x" and len(what) == 3:
        return bytes.fromhex(what[1:].decode())
    if what in (b"\\", b""):
        return what
    raise Wrong(f"unknown escape \\{what.decode(errors='replace')}")


def text(rest):
    """A line's text, with its newline."""
    raw = rest.encode()
    ends = len(raw) - len(raw.rstrip(b"\\"))
    return ESCAPE.sub(unescaped, raw) + (b"" if ends % 2 else b"\n")


def repeated(rest):
    """The text of COUNT TEXT."""
    count, _, what = rest.partition(" ")
    if not count.isdecimal():
        raise Wrong("no count")
    return ESCAPE.sub(unescaped, what.encode()) * int(count)


def read_line(case, mark, rest, line):
    """Takes a line into its case."""
    last = case.steps[-1] if case.steps else Step("", line)
    if mark in ("$", "&", "&stop"):
        case.steps.append(Step(mark, line, rest))
        case.steps[-1].words()
    elif mark in ("@", "@hex", "@zeros"):
        name, *more = rest.split()
        case.steps.append(Step("@", line, name, bytes.fromhex("".join(more)) if mark == "@hex" else b"", int(*more) if mark == "@zeros" else 0))
    elif mark == "%":
        case.steps.append(Step(mark, line, rest, text(rest.partition(" ")[2])))
    elif mark in ("|", "|*", "|hex") and last.mark == "@":
        last.given += text(rest) if mark == "|" else repeated(rest) if mark == "|*" else bytes.fromhex(rest)
    elif mark in ("<", "<*") and last.mark == "$" or mark in (">", ">*", "!", "!*") and last.mark in ("$", "&"):
        stream = STREAMS[mark[0]]
        setattr(last, stream, (getattr(last, stream) or b"") + (text(rest) if mark in STREAMS else repeated(rest)))
    elif mark == ">+" and last.out_has:
        last.out_has[-1] += text(rest)
    elif mark in PARTS and last.mark in ("$", "&"):
        getattr(last, PARTS[mark]).append(text(rest))
    elif mark == "!-" and last.mark in ("$", "&") and last.err is None and not rest:
        last.err = b""
    elif mark == "?" and last.mark in ("$", "&") and last.status is None:
        last.status = int(rest)
    else:
        raise Wrong(f"'{mark}' is not known here")


def read(path):
    """Returns the cases of a file."""
    cases, names = [Case(path, 1, "(before the first case)")], set()
    with open(path, encoding="utf-8", newline="\n") as file:
        for number, line in enumerate(file.read().split("\n"), 1):
            mark, _, rest = line.partition(" ")
            if mark in ("#", ""):
                continue
            if mark == "=":
                cases.append(Case(path, number, rest))
                if rest in names or not re.fullmatch("[a-z0-9]+(-[a-z0-9]+)*", rest):
                    cases[-1].wrong.append(f"{number}: no name of a case, or there twice")
                names.add(rest)
                continue
            try:
                read_line(cases[-1], mark, rest, number)
            except (Wrong, ValueError, TypeError) as error:
                cases[-1].wrong.append(f"{number}: {error}")
    for case in cases[1:]:
        commands = [it for it in case.steps if it.mark == "$"]
        if not commands or not all(it.is_whole() for it in commands):
            case.wrong.append(f"{case.line}: no command, or one without '>', '!' or '?', or with a stream both whole and by parts")
    return cases if cases[0].wrong or cases[0].steps else cases[1:]


# ---- running


def shown(came, wanted):
    """What came and what was wanted, from the first line that differs."""
    texts = [it.decode(errors="backslashreplace").splitlines(True) for it in (came, wanted)]
    same = next((at for at, (one, other) in enumerate(zip(*texts)) if one != other), min(map(len, texts)))
    came, wanted = ("".join(f"\n        {it[:300]!r}" for it in lines[same : same + 4]) or " nothing" for lines in texts)
    return f"from line {same + 1}\n      came:{came}\n      wanted:{wanted}"


def differs(step, status, out, err):
    """What differs from what the step wants, or nothing."""
    wrong = [f"standard output has no {it!r}: {out[:600]!r}" for it in step.out_has if it not in out]
    wrong += [f"standard error has no {it!r}: {err[:600]!r}" for it in step.err_has if it not in err]
    if not step.out_has and out != (step.out or b""):
        wrong.append(f"standard output {shown(out, step.out or b'')}")
    if step.err is not None and err != step.err:
        wrong.append(f"standard error {shown(err, step.err)}")
    if status != (step.status or 0):
        said = err[-300:].decode(errors="backslashreplace").strip()
        wrong.append(f"status {status}, wanted {step.status or 0}; standard error: {said or 'empty'}")
    return "; ".join(wrong)


class Run:
    """A case that runs in a folder of its own."""

    def __init__(self, program, folder):
        self.program, self.folder, self.server, self.until = program, folder, None, time.monotonic() + SECONDS

    def left(self):
        """Returns the seconds that are left."""
        return max(self.until - time.monotonic(), 0.01)

    def command(self, step):
        """Runs a command, and returns what differs."""
        given = {"input": step.given, "capture_output": True, "timeout": self.left(), "check": False}
        done = subprocess.run(["cclib", *step.words()], executable=self.program, cwd=self.folder, **given)
        return differs(step, done.returncode, done.stdout, done.stderr)

    def serve(self, step):
        """Starts a server, and waits until its folder takes scripts."""
        out, err = (open(f"{self.folder}/../{name}", "w+b") for name in ("out", "err"))
        streams = {"stdin": subprocess.DEVNULL, "stdout": out, "stderr": err}
        process = subprocess.Popen(["cclib", *step.words()], executable=self.program, cwd=self.folder, **streams)
        self.server = (step, process, out, err)
        while not os.path.isdir(f"{self.folder}/spool/new") and process.poll() is None:
            if time.monotonic() > self.until:
                return "no spool/new"
            time.sleep(0.01)
        return ""

    def stop(self):
        """Stops the server, and returns what differs."""
        if self.server is None:
            return ""
        step, process, out, err = self.server
        if process.poll() is None:
            open(f"{self.folder}/spool/stop", "w", encoding="utf-8").close()
        status, self.server = process.wait(self.left()), None
        read_again = []
        for file in (out, err):
            with file:
                file.seek(0)
                read_again.append(file.read())
        wrong = differs(dataclasses.replace(step, out=read_again[0] if step.out is None else step.out), status, *read_again)
        return f"the server of line {step.line}: {wrong}" if wrong else ""

    def step(self, step):
        """Does a step, and returns what differs."""
        if step.mark == "@":
            os.makedirs(os.path.dirname(f"{self.folder}/{step.rest}"), exist_ok=True)
            with open(f"{self.folder}/{step.rest}", "wb", opener=lambda path, flags: os.open(path, flags, 0o600)) as file:
                file.write(step.given.ljust(step.size, b"\0"))
            return ""
        if step.mark == "%":
            with open(f"{self.folder}/{step.rest.partition(' ')[0]}", "rb") as file:
                return "" if step.given in file.read() else "it is not there"
        if step.mark == "$":
            return self.command(step)
        return (self.stop() or self.serve(step)) if step.mark == "&" else self.stop()

    def case(self, case):
        """Does all steps of a case until one differs, and returns what is wrong."""
        try:
            for step in case.steps:
                wrong = self.step(step)
                if wrong:
                    return f"{step.line}: {case.name}: {step.mark} {step.rest}\n    {wrong}"
            wrong = self.stop()
            return f"{case.line}: {case.name}: {wrong}" if wrong else ""
        except subprocess.TimeoutExpired:
            return f"{step.line}: {case.name}: {step.mark} {step.rest}\n    not done within {SECONDS} seconds"
        except OSError as error:
            return f"{step.line}: {case.name}: {step.mark} {step.rest}\n    {error}"
        finally:
            if self.server is not None:
                self.server[1].kill()
                self.server[1].wait()


def run(program, case):
    """Runs a case, and returns what is wrong."""
    if case.wrong:
        return f"{case.path}:{case.wrong[0]} ({case.name})"
    with tempfile.TemporaryDirectory() as top:
        os.mkdir(f"{top}/case")
        wrong = Run(program, f"{top}/case").case(case)
    return f"{case.path}:{wrong}" if wrong else ""


def chosen(names):
    """Returns the cases of files, each named alone or with a case."""
    cases = []
    for name in names or sorted(glob.glob(f"{os.path.dirname(os.path.abspath(__file__))}/*.rows")):
        path, _, only = name.partition("::")
        found = [it for it in read(path) if only in ("", it.name)]
        cases += found or [Case(path, 1, only, wrong=["1: no such case"])]
    return cases


def main(words):
    """Runs what the words ask for, and returns the status."""
    if not words or words[0].startswith("-"):
        print(__doc__, file=sys.stderr)
        return 2
    program = os.path.abspath(words[0])
    with concurrent.futures.ThreadPoolExecutor(os.cpu_count()) as pool:
        wrong = list(pool.map(lambda case: run(program, case), chosen(words[1:])))
    for it in filter(None, wrong):
        print(it)
    failed = sum(map(bool, wrong))
    print(f"{len(wrong) - failed} passed, {failed} failed")
    return 1 if failed or not wrong else 0


if __name__ == "__main__":
    sys.exit(main(sys.argv[1:]))
