#!/usr/bin/env python3
"""The map of the crates by what their code uses: computed, and compared with the table "The map of the crates" of docs/ARCHITECTURE.md.

A crate uses another if its `src/` names it outside comments, contracts and lines that begin with `ghost`; tests and bench are left out.
An arrow is left out of the map if a longer way leads to the same crate. A crate's layer is one above the highest of those that it uses.

    tools/rules/map.py --print    write the map
    tools/rules/map.py --write    put layers and arrows into the rows that the page has
"""
import pathlib
import re
import sys

TOP = pathlib.Path(__file__).resolve().parent.parent.parent
PAGE = TOP / "docs" / "ARCHITECTURE.md"
ROW = re.compile(r"^\| (\d*) ?\| `(cc\w+)` \| ((?:`\w+` ?)*)\| ", re.M)
MOST_ARROWS = 8  # cc_link, in which the passes, the front end and the unit meet


def product():
    """Returns the crates of crates.txt that are neither tests nor bench, in its order."""
    lines = [line.partition("#")[0] for line in (TOP / "crates.txt").read_text().splitlines()]
    names = [line.partition(":")[0].strip() for line in lines if ":" in line]
    return [name for name in names if not name.startswith("tests_") and name != "bench"]


def used(crate, names):
    """Returns the product crates that the code of a crate names."""
    found = set()
    for file in sorted((TOP / "crates" / crate / "src").rglob("*.rt")):
        for line in file.read_text().splitlines():
            if not re.match(r"\s*(//|ghost |ensures|requires)", line):
                found |= set(re.findall(r"\b(cc\w+)::", line)) & names
    return found - {crate}


def all_below(crate, uses):
    """Returns what a crate uses at any depth."""
    found = set(uses[crate])
    for other in uses[crate]:
        found |= all_below(other, uses)
    return found


def reduced(uses):
    """Returns the arrows, without those to crates that a longer way leads to."""
    below = {crate: all_below(crate, uses) for crate in uses}
    return {crate: {one for one in there if not any(one in below[other] for other in there)} for crate, there in uses.items()}


def layer(crate, uses):
    """Returns how high a crate is above those that use none."""
    return 1 + max((layer(other, uses) for other in uses[crate]), default=0)


def computed():
    """Returns each crate's layer, its arrows, and what its row of the page has to say."""
    names = product()
    uses = {crate: used(crate, set(names)) for crate in names}
    arrows, level = reduced(uses), {crate: layer(crate, uses) for crate in names}
    rows = {crate: (str(level[crate]), " ".join(f"`{it}`" for it in sorted(arrows[crate], key=lambda it: (-level[it], it)))) for crate in names}
    return level, arrows, rows


def drawn_map():
    """The table "The map of the crates" of docs/ARCHITECTURE.md has each crate's layer and arrows, and no crate has more than 8 arrows."""
    _, arrows, rows = computed()
    drawn = {crate: (number, there.strip()) for number, crate, there in ROW.findall(PAGE.read_text())}
    wrong = [f"{crate}: layer and arrows are {rows[crate]}" for crate in rows if drawn.get(crate) != rows[crate]]
    wrong += [f"{crate} is no crate" for crate in drawn if crate not in rows]
    wrong += [f"{crate}: more than {MOST_ARROWS} arrows" for crate in rows if len(arrows[crate]) > MOST_ARROWS]
    return [f"docs/ARCHITECTURE.md, the map: {it}" for it in wrong]


def main(asked):
    level, _, rows = computed()
    if asked == ["--print"]:
        for crate in sorted(rows, key=lambda it: (level[it], it)):
            print(f"{level[crate]:3}  {crate:22}{rows[crate][1]}".rstrip())
    elif asked == ["--write"]:

        def row(match):
            number, there = rows.get(match[2], match.group(1, 3))
            return f"| {number} | `{match[2]}` | {there.strip() + ' ' if there else ''}| "

        PAGE.write_text(ROW.sub(row, PAGE.read_text()))
    else:
        return "tools/rules/map.py --print, or --write"
    return 0


if __name__ == "__main__":
    sys.exit(main(sys.argv[1:]))
