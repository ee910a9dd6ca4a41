#!/usr/bin/env python3
"""Names lines of the files that a text was made of: for texts that a preprocessor made.

    places.py make BASE [OPTION..] FILE..   runs `gcc -E` on each FILE in order; writes the text to BASE.i, without line marks and empty lines, and to
                                            BASE.places where its lines come from. OPTIONs are gcc's, each one word (-Iinclude, -DDEBUG=1). CPP in the
                                            environment names another preprocessor
    places.py show BASE                     copies standard input: what `cclib` prints about BASE.i, with places in the files that it was made of

    places.py make build/charger main.c ring.c && cclib check build/charger.i 2>&1 | places.py show build/charger

A line of BASE.places is `FIRST LINE FILE`: the lines of the text from line FIRST on, up to the next such line's, are those of FILE from its line LINE
on. FIRST is 1 at first, and grows. Columns are those of the text: in a line with a macro they count what it was replaced by. `show` changes each
`BASE.i:LINE:COLUMN:` and `-:LINE:COLUMN:` at the beginning of a line, each ` at LINE:COLUMN`, and the line's number before the `|` of an explanation."""

import bisect
import os
import re
import subprocess
import sys

MARK = re.compile(rb'# ([0-9]+) "((?:[^"\\]|\\.)*)"[0-9 ]*$')
ESCAPE = re.compile(rb"\\([0-7]{1,3}|.)", re.S)


def unescaped(match):
    """The byte that an escape in a file's name means."""
    return bytes([int(match[1], 8)]) if match[1].isdigit() else match[1]


def parts(text):
    """The text of a preprocessor without its line marks, and the table: the first line, and the file and line that it comes from."""
    lines, table, place = [], [], (b"-", 1)
    for line in text.split(b"\n")[:-1]:
        mark = MARK.match(line)
        if mark:
            place = (ESCAPE.sub(unescaped, mark[2]), int(mark[1]))
            continue
        if line.startswith(b"#"):  # #pragma, #ident: nothing that cclib knows
            line = b""
        lines.append(line)
        if place != following(table, len(lines)):
            table.append((len(lines), *place))
        place = (place[0], place[1] + 1)
    return lines, table


def following(table, first):
    """The file and line that a line of the text has by the table so far."""
    if not table:
        return None
    begin, file, line = table[-1]
    return file, line + first - begin


def without_blank(lines, table):
    """The same without the empty lines, which a text of at most 65,536 bytes has no room for."""
    kept, short, old = [], [], [it[0] for it in table]
    for number, line in enumerate(lines, 1):
        if not line.strip():
            continue
        kept.append(line)
        begin, file, first = table[bisect.bisect(old, number) - 1]
        place = (file, first + number - begin)
        if place != following(short, len(kept)):
            short.append((len(kept), *place))
    return kept, short


def make(base, words):
    """Writes the text and its places. Returns the status."""
    command = os.environ.get("CPP", "gcc -E").split()
    files = [it for it in words if not it.startswith("-") or it == "-"]
    options = [it for it in words if it not in files]
    text = b""
    for file in files:
        done = subprocess.run([*command, "-nostdinc", "-x", "c", *options, file], stdout=subprocess.PIPE, check=False)
        if done.returncode:
            return done.returncode
        text += done.stdout
    lines, table = without_blank(*parts(text))
    with open(f"{base}.i", "wb") as out:
        out.write(b"".join(it + b"\n" for it in lines))
    with open(f"{base}.places", "wb") as out:
        out.write(b"".join(b"%d %d %s\n" % (first, line, file) for first, file, line in table))
    return 0


def read(base):
    """The table in BASE.places."""
    with open(f"{base}.places", "rb") as file:
        rows = [line.split(b" ", 2) for line in file.read().splitlines()]
    return [(int(first), name, int(line)) for first, line, name in rows]


class Shown:
    """Lines with the places of a table."""

    def __init__(self, base, table):
        self.table, self.firsts, self.newest = table, [it[0] for it in table], None
        text = re.escape(os.fsencode(os.path.basename(base)) + b".i")
        self.place = re.compile(rb"^(?:-|(?:[^:]*/)?" + text + rb"):([0-9]+):([0-9]+)(?=:)|(?<= at )([0-9]+):([0-9]+)\b")

    def of(self, line):
        """The file and the line that a line of the text comes from."""
        begin, file, first = self.table[max(bisect.bisect(self.firsts, line) - 1, 0)]
        return file, first + line - begin

    def new(self, match):
        """A place in a file."""
        line = int(match[1] or match[3])
        return b"%s:%d:%s" % (*self.of(line), match[2] or match[4])

    def change(self, line):
        """The line with other places. After a place at the beginning of a line comes the text's line with its number."""
        quoted = re.match(rb"( *)([0-9]+)( \| )", line)
        if quoted and int(quoted[2]) == self.newest:
            number = b"%d" % self.of(self.newest)[1]
            return number.rjust(quoted.end(2)) + line[quoted.end(2) :]
        begins = self.place.match(line)
        self.newest = int(begins[1]) if begins and begins[1] else None
        return self.place.sub(self.new, line)


def show(base):
    """Copies standard input, with other places. Returns the status."""
    shown = Shown(base, read(base))
    for line in sys.stdin.buffer:
        sys.stdout.buffer.write(shown.change(line))
        sys.stdout.buffer.flush()
    return 0


def main():
    words = sys.argv[1:]
    if len(words) > 2 and words[0] == "make":
        return make(words[1], words[2:])
    if len(words) == 2 and words[0] == "show":
        return show(words[1])
    print(__doc__.split("\n\n")[1], file=sys.stderr)
    return 2


if __name__ == "__main__":
    sys.exit(main())
