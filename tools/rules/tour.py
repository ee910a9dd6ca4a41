"""Whether the calls that the tour of docs/ARCHITECTURE.md names are in the files that it names beside them.

A file is `cc_link/src/text.rt`, or `text.rt` for one in the folder of the last file named before it."""
import pathlib
import re

TOP = pathlib.Path(__file__).resolve().parent.parent.parent
PAGE = "docs/ARCHITECTURE.md"
SECTIONS = ("The way of a text", "The way of a command")
NAME = re.compile(r"`([A-Za-z_][\w:]*)`")
NAMES = r"((?:\**`[A-Za-z_][\w:]*`\**(?:, | or | and )?)+)"
FILE = r"`((?:crates/)?(?:[\w]+/)*\w+\.rt)`"
# What the page says is in a file: `call` (`file`) and `call` of `file` are made there, the others are named there.
BEFORE = re.compile(NAMES + r" ?(?:\(|of )" + FILE)
CALLS = re.compile(FILE + r"\) calls " + NAMES)


def sections():
    """Returns the text of each section of the tour."""
    text = (TOP / PAGE).read_text()
    return [re.search(rf"^## {name}$(.*?)(?=^## )", text, re.M | re.S)[1] for name in SECTIONS]


class Files:
    """The files that a section names, each by its offset there."""

    def __init__(self, text):
        self.at, folder = {}, None
        for it in re.finditer(FILE, text):
            path = it[1].removeprefix("crates/")
            folder = path.rpartition("/")[0] if "/" in path else folder
            self.at[it.start(1)] = f"{folder}/{path.rpartition('/')[2]}"

    def within(self, begin, end):
        return [path for at, path in sorted(self.at.items()) if begin <= at < end]


def code_of(path):
    """Returns a file's code without comments, or none if there is no such file."""
    file = TOP / "crates" / path
    return re.sub(r"//.*", "", file.read_text()) if file.is_file() else None


def not_in(names, paths, is_made):
    """Yields which of these names are in none of the files: made there as a function, or only named, as a type is."""
    codes = {path: code_of(path) for path in paths}
    yield from (f"{path} is not there" for path, code in codes.items() if code is None)
    for name in NAME.findall(names):
        last = name.rpartition(":")[2]
        word = rf"\bfn {last}\b" if is_made and last[0].islower() else rf"\b{last}\b"
        if not any(re.search(word, code or "") for code in codes.values()):
            yield f"`{name}` is not in {', '.join(paths)}"


def in_rows(text, files):
    """Yields what a row of a table names that is not in its files: the calls of its first cell, or the first one of its last cell."""
    head, at = "", 0
    lines = text.splitlines(keepends=True)
    for line, below in zip(lines, [*lines[1:], ""]):
        cells = [(it.start(1) + at, it[1]) for it in re.finditer(r"(?<=\|)([^|]*)\|", line)]
        if line.startswith("| ") and len(cells) > 2:
            head = cells[1][1].strip() if below.startswith("|--") else head
            paths = files.within(cells[1][0], cells[1][0] + len(cells[1][1]))
            first = NAME.search(cells[2][1]) if head == "Goes to" else None
            names = first[0] if first else cells[0][1] if head == "File" else ""
            yield from not_in(names, paths, head == "File")
        at += len(line)


def tour():
    """What the tour of docs/ARCHITECTURE.md names beside a file is in that file."""
    wrong = []
    for text in sections():
        flat = text.replace("\n", " ")
        files = Files(flat)
        found = [*in_rows(text, files)]
        for it in BEFORE.finditer(flat):
            found += not_in(it[1], [files.at[it.start(2)]], True)
        for it in CALLS.finditer(flat):
            found += not_in(it[2], [files.at[it.start(1)]], False)
        wrong += dict.fromkeys(found)
    return [f"{PAGE}, the tour: {it}" for it in wrong]
