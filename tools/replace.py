#!/usr/bin/env python3
"""Compiles the units of a library anew, so that an audit confirms them again: for a library that an earlier compiler has filled.

replace.py [--checked] LIBRARY [FOLDER], or cclib-replace of an install: audits the library in the file LIBRARY by `cclib library`, with
--checked for a library of checked units. Each unit that is not confirmed is replaced by a compilation (with --checked a checked one) of its own source: the one that the library's file has of it (docs/FORMATS.md), or that of FOLDER/NAME.c. If the library is
full (34) it is compacted once and the change is made again. Then all are audited again. A unit whose source is refused, has more than 65,536
bytes (7) or can't be read stays as it is. Says how many were confirmed before and are now; the status is 1 if one is not. The program is the
one beside it, or that of the repository, which has to be built (./cclib --prove)."""

import os
import subprocess
import sys

HERE = os.path.dirname(os.path.realpath(__file__))
sys.path.insert(1, os.path.join(HERE, "../share/cclib"))

import records  # noqa: E402

# How many bytes a source has at most. The line before a longer one might have a number that no line has; then the session would take the
# source itself for lines of its script.
MOST_SOURCE = 65536

PROGRAM = os.path.join(HERE, "cclib")
if not os.path.exists(PROGRAM):
    PROGRAM = os.path.join(HERE, "../crates/cclib/out/cclib")


def sources(path):
    """The source of each unit, by its name."""
    with open(path, "rb") as file:
        data = file.read()
    found = {}
    for it in records.records(data):
        if it.kind == 3:
            del found[it.name]
        else:
            found[it.name] = data[it.source.start : it.source.stop]
    return found


class Session:
    """A session on the library's file, line by line."""

    def __init__(self, path, options):
        self.process = subprocess.Popen([PROGRAM, "library", path, "--quiet", *options], stdin=subprocess.PIPE, stdout=subprocess.PIPE)

    def call(self, line, source=None):
        """The lines that answer one line of a script, with the source that follows it, up to the one that ends the answer. The session is
        ended if the line is refused (50): then it may have taken what follows for lines, and its next answers are not those to the next lines."""
        script = line if source is None else b"%s %d\n%s" % (line, len(source), source)
        self.process.stdin.write(script + b"\n")
        self.process.stdin.flush()
        lines = []
        while not lines or lines[-1].split(" ")[0] not in ("ok", "fault"):
            line = self.process.stdout.readline().decode()
            if not line:
                sys.exit(f"replace.py: the session ended: {lines}")
            lines.append(line.rstrip("\n"))
        if lines[-1].startswith("fault 50 "):
            self.process.kill()
            sys.exit(f"replace.py: {lines[-1]}: the session did not take a line, and was ended")
        return lines

    def end(self):
        self.process.stdin.close()
        if self.process.wait():
            sys.exit(f"replace.py: {self.process.stdout.read().decode()}")


def audited(session):
    """Whether each unit is confirmed, by its name."""
    lines = session.call(b"audit")
    if lines[-1] != "ok":
        sys.exit(f"replace.py: {lines[-1]}")
    return {words[1]: words[2] == "confirmed" for words in (line.split() for line in lines[:-1])}


def read(path):
    """The source in a file, or why the file can't be read."""
    try:
        with open(path, "rb") as file:
            return file.read(MOST_SOURCE + 1), None
    except OSError as error:
        return None, error


def replace(session, name, source):
    """The answer to the change, which is made again after a compaction if the library was full."""
    if len(source) > MOST_SOURCE:
        return "fault 7 SourceTooLarge"
    line = b"replace %s" % name.encode()
    answer = session.call(line, source)[-1]
    if answer.startswith("fault 34 "):
        session.call(b"compact")
        answer = session.call(line, source)[-1]
    return answer


def main():
    options = [it for it in sys.argv[1:] if it == "--checked"]
    places = [it for it in sys.argv[1:] if it != "--checked"]
    if len(places) not in (1, 2) or len(options) > 1:
        sys.exit(__doc__)
    path = places[0]
    kept = sources(path)
    session = Session(path, options)
    before = audited(session)
    for name, confirmed in sorted(before.items()):
        if confirmed:
            continue
        source, why = (kept[name], None) if len(places) == 1 else read(os.path.join(places[1], name + ".c"))
        answer = why or replace(session, name, source)
        if not str(answer).startswith("ok "):
            print(f"{name}: {answer}")
    after = audited(session)
    session.end()
    print(f"{len(after)} units: {sum(before.values())} were confirmed, {sum(after.values())} are")
    sys.exit(0 if all(after.values()) else 1)


main()
