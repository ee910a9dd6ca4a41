"""Calls the units of a library of cclib from Python.

    from cclib import Library

    with Library("units.disk") as library:
        library.unit("sum").call([4, 5], 1000)           # Ended(words=[9], status=0)
        with library.unit("plant").live(10000) as run:   # a run that goes on
            run.send([20])                               # the words that it writes until it waits for more

It needs Python's standard library alone, and the program `cclib`. A unit that is called has a process of its own for each number of steps,
which keeps one machine. Words are numbers of 32 bits: they are given from -2147483648 to 4294967295, and answered with a sign.

This file is tested (tests/outside/hosts.py) and not proved; the answers are those of the program (docs/FORMATS.md)."""

from __future__ import annotations

import contextlib
import dataclasses
import os
import subprocess
import tempfile
from collections.abc import Iterable
from typing import IO


@dataclasses.dataclass(frozen=True)
class Ended:
    """The program has ended: the words that it wrote, and what its `main` returned."""

    words: list[int]
    status: int


@dataclasses.dataclass(frozen=True)
class Going:
    """The run has used its steps, or was ended before the word that would be one too many, or waits for words."""

    words: list[int]


@dataclasses.dataclass(frozen=True)
class Stopped:
    """Nothing more comes, however many steps the run may take: it has stopped in place, or trapped."""

    words: list[int]
    is_trapped: bool


@dataclasses.dataclass(frozen=True)
class Fault:
    """There is no answer: the number and the name of the fault (docs/LANGUAGE.md), for example 32 and `Absent`."""

    number: int
    name: str


Answer = Ended | Going | Stopped | Fault

# A line may have at most this many bytes.
LINE_BYTES = 16_777_216

# What the program says on standard error of a run that has stopped in place.
IN_PLACE = "has stopped in place"

# A line that is no list of words. Its answer comes after all explanations of the line before it.
NO_WORDS = "?\n"


class Lost(Exception):
    """The program has ended without an answer; the text is what it said on standard error."""


def line_of(words: Iterable[int]) -> str:
    """Returns a line of input words. ValueError if a number has more than 32 bits, or if the line is too long."""
    texts = []
    for word in words:
        if not -(1 << 31) <= word < 1 << 32:
            raise ValueError(f"{word} is no word of 32 bits")
        texts.append(str(word % (1 << 32)))
    line = " ".join(texts)
    if len(line) > LINE_BYTES:
        raise ValueError(f"the words take a line of more than {LINE_BYTES} bytes")
    return line + "\n"


def answer_of(lines: list[str], is_in_place: bool) -> Answer:
    """Returns the answer that these lines are: words, each on a line of its own, and how the run ended."""
    *texts, last = lines
    kind, *rest = last.split()
    if kind == "fault":
        return Fault(int(rest[0]), rest[1])
    words = [int(text) for text in texts]
    if kind == "exited":
        return Ended(words, int(rest[0]))
    if kind == "going" and not is_in_place:
        return Going(words)
    return Stopped(words, kind == "trapped")


class _Process:
    """A process of the program that takes lines and answers them. What it says on standard error goes to a file without a name, at its end."""

    def __init__(self, words: list[str]):
        self.told: IO[bytes] = tempfile.TemporaryFile("a+b")
        self.process = subprocess.Popen(words, stdin=subprocess.PIPE, stdout=subprocess.PIPE, stderr=self.told, text=True)

    def send(self, line: str) -> None:
        """Gives it a line. Nothing happens if it has ended."""
        with contextlib.suppress(BrokenPipeError):
            self.process.stdin.write(line)
            self.process.stdin.flush()

    def lines(self) -> tuple[list[str], bool]:
        """Returns the lines up to the next empty one, and whether that came; otherwise the process has ended."""
        lines = []
        for line in self.process.stdout:
            if line == "\n":
                return lines, True
            lines.append(line[:-1])
        self.process.wait()
        return lines, False

    def said(self) -> str:
        """Returns what it has said since the last call of this, and forgets it."""
        told = self.told.fileno()
        said = os.pread(told, os.fstat(told).st_size, 0)
        os.ftruncate(told, 0)
        return said.decode(errors="replace")

    def close(self) -> None:
        """Ends it, and waits for that."""
        with contextlib.suppress(OSError):
            self.process.stdin.close()
        self.process.stdout.close()
        self.process.wait()
        self.told.close()


class Session:
    """A run that goes on while its input comes. Words are sent, and the words come that the program writes until it waits for more."""

    def __init__(self, words: list[str]):
        self._process = _Process(words)
        # How the run ended, once it has.
        self.end: Answer | None = None

    def send(self, words: Iterable[int]) -> list[int]:
        """Sends words, and returns those that the program writes until it waits for more; or up to its end, and then `end` says how it ended.
        Lost if it has ended before."""
        if self.end is not None:
            raise Lost(f"the run has ended: {self.end}")
        self._process.send(line_of(words))
        lines, waits = self._process.lines()
        if waits and not (lines and lines[-1].startswith("fault ")):
            return [int(line) for line in lines]
        return self._ended(lines)

    def finish(self) -> Answer:
        """Says that no more words come, and returns how the run ended: Going if it waits for words still. The words of the answer are those
        that were not returned yet."""
        if self.end is None:
            self._process.process.stdin.close()
            lines, _ = self._process.lines()
            self._ended(lines)
        return self.end

    def _ended(self, lines: list[str]) -> list[int]:
        self._process.process.wait()
        said = self._process.said()
        if not lines:
            raise Lost(said)
        self.end = answer_of(lines, IN_PLACE in said)
        return [] if isinstance(self.end, Fault) else self.end.words

    def __enter__(self) -> Session:
        return self

    def __exit__(self, *_: object) -> None:
        self._process.close()


class Unit:
    """A unit of a library."""

    def __init__(self, library: Library, name: str):
        self.library, self.name = library, name
        # For each number of steps, a process that answers calls.
        self._callers: dict[int, _Process] = {}

    def call(self, words: Iterable[int], steps: int) -> Answer:
        """Runs the unit once on these words, for at most so many steps. Every call begins anew: nothing is kept from one to the next. The unit
        is that of the first call with so many steps, until `forget` or `close`. Lost if the program was ended by another."""
        caller = self._callers.get(steps)
        if caller is None:
            caller = self._callers[steps] = _Process(self.library.words("call", self.name, str(steps), "--lines"))
        caller.send(line_of(words))
        lines, is_whole = caller.lines()
        if not is_whole or lines[-1].startswith("fault "):
            return self._refused(steps, lines)
        if lines[-1] != "going":
            return answer_of(lines, False)
        caller.send(NO_WORDS)
        caller.lines()
        return answer_of(lines, IN_PLACE in caller.said())

    def live(self, steps: int, reads_zeros: bool = False) -> Session:
        """Starts a run that goes on; each turn of it may take so many steps. If it `reads_zeros`, it goes on with zeros when no more words
        come."""
        zeros = ["--zeros"] if reads_zeros else []
        return Session(self.library.words("call", self.name, str(steps), "--live", *zeros))

    def forget(self) -> None:
        """Ends the processes of this unit, so that the next call runs the unit that the library has then."""
        for caller in self._callers.values():
            caller.close()
        self._callers.clear()

    def _refused(self, steps: int, lines: list[str]) -> Answer:
        caller = self._callers.pop(steps)
        said = caller.said()
        caller.close()
        if lines and lines[-1].startswith("fault "):
            return answer_of(lines, False)
        raise Lost(said)


class Library:
    """A library in a file."""

    def __init__(self, path: str | os.PathLike[str], program: str = "cclib"):
        self.path, self.program = os.fspath(path), program
        self._units: dict[str, Unit] = {}

    def words(self, command: str, *words: str) -> list[str]:
        """Returns the words of a command over this library."""
        return [self.program, command, self.path, *words]

    def play(self, script: str, *words: str) -> str:
        """Plays a script over the library (docs/FORMATS.md), and returns its answers. Lost if it gives none."""
        done = subprocess.run(self.words("library", *words), input=script, capture_output=True, text=True)
        if not done.stdout and done.returncode != 0:
            raise Lost(done.stderr)
        return done.stdout

    def make(self, area: int) -> None:
        """Makes the file anew, with room for so many bytes of records: 64 to 1073741824. Lost if that fails."""
        answer = self.play("", "--format", str(area))
        if answer:
            raise Lost(answer)

    def add(self, name: str, source: str) -> str:
        """Compiles a source and keeps it under a name, and returns the answer: `ok` and a number, or a fault, with its line."""
        return self.play(f"add {name} {len(source.encode())}\n{source}\n").strip()

    def unit(self, name: str) -> Unit:
        """Returns the unit with this name; whether there is one, its first call says."""
        return self._units.setdefault(name, Unit(self, name))

    def close(self) -> None:
        """Ends all processes of its units."""
        for unit in self._units.values():
            unit.forget()
        self._units.clear()

    def __enter__(self) -> Library:
        return self

    def __exit__(self, *_: object) -> None:
        self.close()


def submit(folder: str | os.PathLike[str], *line: str, source: str = "", wait: int = 60, program: str = "cclib") -> str:
    """Leaves a line for the server of a folder (docs/SERVICE.md), with the source that follows it, and returns the answer, for example
    `ok 1` and a newline. Lost if none comes in so many seconds."""
    words = [program, "submit", os.fspath(folder), "--wait", str(wait), *line]
    done = subprocess.run(words, input=source, capture_output=True, text=True)
    if not done.stdout:
        raise Lost(done.stderr)
    return done.stdout
