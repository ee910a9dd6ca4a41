#!/usr/bin/env python3
"""How often pages, comments and messages use the words that docs/STYLE.md advises against, and how long the pages are.

    tools/rules/wording.py FILE..    each place in these files
    tools/rules/wording.py --lower   puts today's figures into tools/words.txt if they are lower; also for files that are new or gone
    tools/rules/wording.py --merged  puts today's figures there, also higher ones: for a merge of two branches

As rules: no page, and no crate in its comments and messages, uses such words more often than tools/words.txt allows, and no group of pages has
more words than it allows. A page or a crate that the file does not name may use none. In pages code between backquotes does not count. In
sources only comments and the texts that the program writes do."""
import io
import pathlib
import re
import sys
import tokenize

TOP = pathlib.Path(__file__).resolve().parent.parent.parent
BUDGETS = TOP / "tools" / "words.txt"
PLACE = r"(?<!place )(?<!places )(?<!point )(?<!say )(?<!says )(?<!see )(?<!sees )(?<!know )(?<!knows )(?<!show )(?<!shows )(?<!from )"
LISTED = {
    "behind": r"\bbehind\b",
    "where": PLACE + r"\bwhere\b(?! to )",
    "stands": r"(?<!-)\b(?:stands?|stood)\b(?!\s+in\s+for)(?!-)",
    "tells": r"\b(?:tells?|told)\b",
    "is said": r"\b(?:is|are|was|were)\s+said\b",
    "is none": r"\b(?:is|are)\s+none\b(?!\s+of)",
    "of which": r"\bof\s+(?:which|whom)\b",
}
WORD = re.compile("|".join(LISTED.values()), re.I)
# A sentence that begins with its topic. "That is", "that means" begin with their subject.
SENTENCE = re.compile(r"(?:^|[.:;|] |- )((?:Of|That) (?!is\b|means\b|was\b|does\b|has\b|can\b|leaves\b))", re.M)
STRING = re.compile(r'"((?:[^"\\]|\\.)*)"', re.S)
NEW = ("CHANGELOG.md", "CONTRIBUTING.md", "SECURITY.md", "docs/FIT.md", "docs/JSON.md", "docs/STYLE.md", "docs/TRACE.md")


def found_in(text):
    """Returns the listed words of a text, each with its offset."""
    words = [(it.start(), it[0]) for it in WORD.finditer(text)]
    return sorted(words + [(it.start(1), f"{it[1]}..") for it in SENTENCE.finditer(text)])


def blank(match):
    return re.sub(r"[^\n]", " ", match[0])


def of_page(text):
    """Returns a page with its code blanked."""
    return re.sub(r"`[^`]*`", lambda it: "`" + "\n" * it[0].count("\n"), re.sub(r"^```.*?^```$", blank, text, flags=re.M | re.S))


def of_code(text):
    """Returns the comments of a source in Rattle, and its texts that have a space."""
    lines, left = [], []
    for line in text.split("\n"):
        before, mark, comment = line.partition("//")
        is_comment = bool(mark) and before.count('"') % 2 == 0
        lines.append(comment.lstrip("/!") if is_comment else "")
        left.append(before if is_comment else line)
    return "\n".join(lines), "\n".join(it for it in STRING.findall("\n".join(left)) if " " in it)


def of_definitions(text):
    return "\n".join(line.partition("--")[2] if line.lstrip().startswith("--") else "" for line in text.split("\n"))


def of_script(path, text):
    """Returns the comments of a script, and the docstrings of one in Python."""
    if path.suffix != ".py":
        return "\n".join(line if line.lstrip().startswith("#") else "" for line in text.split("\n"))
    there, after = [], tokenize.INDENT
    for it in tokenize.generate_tokens(io.StringIO(text).readline):
        if it.type == tokenize.COMMENT or it.type == tokenize.STRING and after in (tokenize.INDENT, tokenize.NEWLINE, tokenize.ENCODING):
            there.append(it.string)
        after = after if it.type in (tokenize.NL, tokenize.COMMENT) else it.type
    return "\n".join(there)


def prose_of(path):
    """Returns what a file says to a person."""
    text = path.read_text(encoding="utf-8")
    if path.suffix == ".rt":
        return "\n".join(of_code(text))
    if path.suffix == ".antt":
        return of_definitions(text)
    return of_script(path, text) if path.suffix in (".py", ".sh") else of_page(text)


def pages():
    """Returns the pages, by their names."""
    there = [*TOP.glob("*.md"), *(TOP / "docs").glob("*.md"), TOP / "docs" / "help.txt", *(TOP / "examples").rglob("*.md")]
    return {str(it.relative_to(TOP)): [it] for it in sorted(there + list((TOP / "crates").glob("*/README.md")))}


def sources():
    """Returns the files with comments, by the folder that has a budget: each crate, the scripts of bench, tests/outside and tools."""
    crates = {f"crates/{it.name}": it for it in sorted((TOP / "crates").iterdir()) if it.is_dir()}
    found = {name: [file for room in ("src", "specs", "proofs") for end in ("rt", "antt") for file in sorted((it / room).rglob(f"*.{end}"))] for name, it in crates.items()}
    for name in ("bench", "tests/outside", "tools"):
        found[name] = [file for end in ("py", "sh") for file in sorted((TOP / name).rglob(f"*.{end}"))]
    return found


def counted():
    """Returns how often each page, and each folder's comments and messages, have a listed word."""
    groups = pages() | sources()
    return {name: sum(len(found_in(prose_of(it))) for it in files) for name, files in groups.items()}


def group_of(name):
    return "READMEs of crates" if name.startswith("crates/") else "later pages" if name in NEW else "first pages"


def lengths():
    """Returns how many words each group of pages has."""
    found = dict.fromkeys(("first pages", "later pages", "READMEs of crates"), 0)
    for name, (path,) in pages().items():
        if path.suffix == ".md" and not name.startswith("examples/"):
            found[group_of(name)] += len(path.read_text(encoding="utf-8").split())
    return found


def budgets():
    """Returns what tools/words.txt allows: listed words by page or folder, words by group."""
    listed, long = {}, {}
    for line in BUDGETS.read_text(encoding="utf-8").split("\n"):
        name, _, number = line.partition("#")[0].strip().rpartition(" ")
        if name:
            (long if " " in name.strip() else listed)[name.strip()] = int(number)
    return listed, long


def listed_words():
    """No page, and no crate in its comments and messages, has more of the words that docs/STYLE.md advises against than tools/words.txt says."""
    allowed, found = budgets()[0], counted()
    wrong = [f"{name} has {many} of the words of docs/STYLE.md, {allowed.get(name, 0)} allowed" for name, many in found.items() if many > allowed.get(name, 0)]
    return wrong + [f"tools/words.txt has {name}, which is not there" for name in allowed if name not in found]


def long_pages():
    """No group of pages has more words than tools/words.txt says."""
    allowed = budgets()[1]
    return [f"the {name} have {many} words, {allowed[name]} allowed" for name, many in lengths().items() if many > allowed[name]]


def write(may_rise):
    """Puts today's figures into tools/words.txt: all, or those that are lower."""
    text, (listed, long) = BUDGETS.read_text(encoding="utf-8"), budgets()
    for name, many in lengths().items():
        text = re.sub(rf"^({name} +)\d+", rf"\g<1>{many if may_rise else min(many, long[name])}", text, flags=re.M)
    head = text[: text.index("\n\n", text.index("READMEs of crates")) + 2]
    rows = [(name, many if may_rise else min(many, listed.get(name, many))) for name, many in counted().items()]
    BUDGETS.write_text(head + "".join(f"{name:34}{many:5}\n" for name, many in rows if many), encoding="utf-8")


def show(paths):
    for path in map(pathlib.Path, paths):
        text = prose_of(path)
        for at, word in found_in(text):
            print(f"{path}:{text.count(chr(10), 0, at) + 1}: {word}")


if __name__ == "__main__":
    if sys.argv[1:] in (["--lower"], ["--merged"]):
        write(sys.argv[1] == "--merged")
    elif len(sys.argv) > 1:
        show(sys.argv[1:])
    else:
        sys.exit("tools/rules/wording.py FILE.., --lower or --merged")
