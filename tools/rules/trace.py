#!/usr/bin/env python3
"""Whether the clauses, tests and wrong bodies that documents name are in the sources.

    tools/rules/trace.py --left    which wrong bodies, test modules and files of cases no row of docs/TRACE.md names

As a rule: each row of docs/TRACE.md, and what all pages cite as `call` of `crate` (`clause`). Each promise of README.md has a number,
and docs/TRACE.md a row for each number. A row without a clause says `tested only` or `argued only`."""
import pathlib
import re
import sys

TOP = pathlib.Path(__file__).resolve().parent.parent.parent
CRATES = TOP / "crates"
CITED = re.compile(r"`([\w:]+)` of `(cc_\w+)`(?: \(((?:`\w+`(?:, )?)+)\))?")
NAMED = re.compile(r"`(\w+)`: ((?:`[\w/]+`(?:, )?)+)")
QUOTED = re.compile(r"`([\w/]+)`")
# A wrong body that tests/outside/edits.py tries, and not the gate, is marked.
EDIT = re.compile(r"`(\w+)`(†?)")
EDITS = re.compile(r"`(\w+)`: ((?:`\w+`†?(?:, )?)+)")
# Cases that tests/rows/run.py runs over the program: a file of them, or one.
CASES = re.compile(r"`rows/(\w+)(?:::([\w-]+))?`")
WITHOUT = ("tested only", "argued only")


def clauses_of(crate):
    """Returns the clauses of a crate's functions, by the function's name; one without a name counts as ''."""
    found, name = {}, None
    for path in sorted((CRATES / crate / "src").rglob("*.rt")):
        for line in path.read_text().splitlines():
            begins = re.match(r"\s*(?:pub(?:\([^)]*\))? )?(?:const )?(?:unsafe )?fn (\w+)", line)
            name = begins[1] if begins else name
            clause = re.match(r"\s*ensures\*?\s+(\w*)", line)
            if begins:
                found.setdefault(name, set())
            if clause and name:
                found[name].add(clause[1])
    return found


def not_cited(text, known):
    """Yields what a text cites from a crate and the crate does not have."""
    for call, crate, clauses in CITED.findall(text):
        if crate not in known:
            known[crate] = clauses_of(crate) if (CRATES / crate).is_dir() else {}
        name = call.rpartition(":")[2]
        if name in known[crate]:
            yield from (f"`{call}` of `{crate}` (`{it}`)" for it in QUOTED.findall(clauses) if it not in known[crate][name])
        elif clauses or not is_word_of(crate, name):
            yield f"`{call}` of `{crate}`"


def is_word_of(crate, name):
    """Returns whether a crate's code or pages have that name, as a type or a definition; no clause is asked for then."""
    files = [*(CRATES / crate / "src").rglob("*.rt"), *(CRATES / crate / "specs").rglob("*.antt")]
    return any(re.search(rf"\b{name}\b", it.read_text()) for it in files)


def is_module_of(crate, name):
    """Returns whether a crate of tests has that module, at its top or in its module `tests`."""
    return any((CRATES / crate / room / f"{name}.rt").is_file() for room in ("src", "src/tests"))


def has_case(name, case):
    """Returns whether tests/rows has that file of cases, and in it that case if one is named."""
    path = TOP / "tests/rows" / f"{name}.rows"
    return path.is_file() and (not case or f"= {case}" in path.read_text().split("\n"))


def edit_file(crate, name, by_hand):
    """Returns the path of a wrong body: of one that is tried by hand, or of one that the gate tries."""
    return (TOP / "tests/outside/edits" / crate if by_hand else CRATES / crate / "must-fail") / f"{name}.edit"


def rows():
    """Returns the rows of the first table of docs/TRACE.md, each as its cells."""
    text = (TOP / "docs" / "TRACE.md").read_text()
    table = re.search(r"^\| \| Promise .*\n\|[-|]*\n((?:\|.*\n)+)", text, re.M)
    return [[cell.strip() for cell in row[1:-1].split("|")] for row in table[1].strip().split("\n")]


def not_in_row(row):
    """Yields what a row of docs/TRACE.md names that is not there."""
    _, promise, clause, tests, edits = row
    if not CITED.search(clause) and not clause.startswith(WITHOUT):
        yield f"a clause of '{promise}'"
    for crate, modules in NAMED.findall(tests):
        yield from (f"{crate}: `{it}`" for it in QUOTED.findall(modules) if not is_module_of(crate, it))
    yield from (f"rows/{name}" + f"::{case}" * bool(case) for name, case in CASES.findall(tests) if not has_case(name, case))
    yield from (it for it in re.findall(r"`((?:bench|tests/outside|tools)/[\w.]+)`", tests) if not (TOP / it).is_file())
    for crate, names in EDITS.findall(edits):
        yield from (f"{crate}: `{it}`{by_hand}" for it, by_hand in EDIT.findall(names) if not edit_file(crate, it, by_hand).is_file())


def promised():
    """Returns the numbers of README.md's promises."""
    text = (TOP / "README.md").read_text().partition("**Proved.**")[2].partition("**Not proved.**")[0]
    return set(re.findall(r"^(\d+)\. ", text, re.M))


def traced():
    """Each promise has its row in docs/TRACE.md, and what rows and pages cite is there: clauses, tests, wrong bodies."""
    table, known = rows(), {}
    wrong = [f"docs/TRACE.md: {it} is not there" for row in table for it in not_in_row(row)]
    for path in sorted([*TOP.glob("*.md"), *(TOP / "docs").glob("*.md")]):
        text = re.sub(r"\s*\n\s*", " ", path.read_text())
        wrong += [f"{path.relative_to(TOP)}: {it} is not there" for it in not_cited(text, known)]
    numbers = {row[0] for row in table if row[0]}
    wrong += [f"docs/TRACE.md: promise {it} of README.md has no row" for it in sorted(promised() - numbers)]
    return wrong + [f"docs/TRACE.md: README.md has no promise {it}" for it in sorted(numbers - promised())]


def left():
    """Prints the wrong bodies, test modules and files of cases that no row names."""
    named = {(crate, it) for row in rows() for cell in row[3:] for crate, names in EDITS.findall(cell) + NAMED.findall(cell) for it in QUOTED.findall(names)}
    for crate in sorted(it for it in CRATES.iterdir() if it.is_dir()):
        tests = crate.rglob("src/**/*.rt") if crate.name.startswith("tests_") else []
        files = {str(it.relative_to(crate / "src").with_suffix("")): it for it in tests} | {it.stem: it for it in crate.glob("must-fail/*.edit")}
        files |= {it.stem: it for it in (TOP / "tests/outside/edits" / crate.name).glob("*.edit")}
        for name, path in sorted(files.items()):
            if (crate.name, name) not in named:
                print(path.relative_to(TOP))
    cases = {name for row in rows() for name, _ in CASES.findall(row[3])}
    for path in sorted(it for it in (TOP / "tests/rows").glob("*.rows") if it.stem not in cases):
        print(path.relative_to(TOP))


if __name__ == "__main__":
    if sys.argv[1:] != ["--left"]:
        sys.exit("tools/rules/trace.py --left")
    left()
