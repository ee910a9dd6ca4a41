#!/usr/bin/env python3
"""Draws the two pictures of README.md and docs/ARCHITECTURE.md out of what the pages and the sources say.

    docs/pictures/draw.py            writes passes.svg and commit.svg, and with rsvg-convert a PNG beside each
    docs/pictures/draw.py --check    compares: says what differs, and ends with 1 if anything does

The steps of a text are the rows of "The way of a text" in docs/ARCHITECTURE.md, those of a commit the tables of docs/FORMATS.md, the moments of
a cut those of docs/DISK.md. Each clause and edit that a picture names has to be in the sources. A PNG carries the checksum of its SVG."""
import hashlib
import pathlib
import re
import struct
import subprocess
import sys
import zlib

HERE = pathlib.Path(__file__).resolve().parent
TOP = HERE.parent.parent
CRATES = TOP / "crates"
KEY = b"svg-sha256"
STYLE = """
  text { font-family: "DejaVu Sans", Verdana, sans-serif; font-size: 13px; fill: #1b2733 }
  .code { font-family: "DejaVu Sans Mono", Menlo, Consolas, monospace; font-size: 12.5px }
  .title { font-size: 17px; font-weight: bold } .head { font-size: 12.5px; font-weight: bold } .soft { fill: #51606f; font-size: 12px }
  .strong { font-weight: bold } .page { fill: #ffffff } .box { fill: #e8eef5; stroke: #5b7083 }
  .doubt { fill: #fdf0dc; stroke: #b07414; stroke-dasharray: 5 3 } .image { fill: #e1f2e4; stroke: #37794a }
  .line { stroke: #5b7083; fill: none } .tip { fill: #5b7083 } .rule { stroke: #ccd5de }
  .old { fill: #cdd9e6; stroke: #5b7083 } .free { fill: #ffffff; stroke: #a9b6c3 } .new { fill: #bfe3c7; stroke: #37794a }
  .open { fill: #fbd9a3; stroke: #b07414; stroke-dasharray: 4 3 }
  @media (prefers-color-scheme: dark) {
    text { fill: #e4ebf2 } .soft { fill: #a8b6c4 } .page { fill: #161c23 } .box { fill: #263442; stroke: #8ba0b5 }
    .doubt { fill: #43331a; stroke: #e0a84f } .image { fill: #1f3d29; stroke: #74c389 } .line { stroke: #8ba0b5 } .tip { fill: #8ba0b5 }
    .rule { stroke: #35424f } .old { fill: #34495e; stroke: #8ba0b5 } .free { fill: #161c23; stroke: #55636f }
    .new { fill: #2c5c3a; stroke: #74c389 } .open { fill: #6b4a14; stroke: #e0a84f }
  }
"""

# What is known of each call's answer: the type, its second line, the page with the definition, its name, and what it says.
PASSES = {
    "parse": ("Unit", "the tree", "cc_ast: Parse", "SpellsText", "The text spells this tree."),
    "check": ("TypedUnit", "the typed unit", "cc_types: Typed", "IsTyped", "No rule of scope or type is broken."),
    "to_cminor": ("CminorPair", "numbered variables", "cc_cminor_language: Pair", "KeepsUp", "The code keeps up with the C function: its output, its end, its loops."),
    "guard": ("CminorPair", "with guards", "cc_cminor_language: Pair", "KeepsUp", "Only in a checked image: keeps up with the function that stops in place."),
    "to_rtl": ("RtlPair", "a graph of nodes", "cc_rtl_language: Pair", "KeepsUp", "The same, over as many pseudo-registers as are needed."),
    "drop_faint": ("RtlPair", "without dead nodes", "cc_live: Liveness", "IsWithoutFaint", "The same; only nodes whose results nobody needs are gone."),
    "colour": ("Ltl", "registers and slots", None, None, "Nothing: the allocator is not trusted."),
    "validate": ("LtlPair", "LTL, validated", "cc_validate: Pair", "KeepsUp", "The same, whatever unknown registers hold. Its LTL goes into the certificate."),
    "linearise": ("LinearPair", "one list with jumps", "cc_linear_language: Pair", "KeepsUp", "The same, after blocks have become labels and jumps."),
    "select": ("SelectedPair", "the machine's steps", "cc_select: Pair", "KeepsUp", "The same, with the machine's own operations."),
    "emit": ("Piece", "instructions, a frame", "cc_emit: Piece", "AreOf", "The instructions do what the function does, within its frame."),
    "link": ("CompiledUnit", "the image", "cc_link: Agree", "AgreeIn", "On every input the image follows the program, plain or checked (compile_in)."),
    "run_image": ("ImageRun", "words and the end", "cc_answers: Run", "IsRunOf", "The simulator does exactly what the machine of docs/MACHINE.md does."),
}
GROUPS = {"typed_unit", "compile_function"}  # rows of the table that only call the others
EDITS = {1: "own_gate_open_in_the_bodys_write", 2: "the_deciding_byte_written_before_the_sync", 4: "ok_without_the_sync_after_it"}


class Untrue(Exception):
    """What a page or a source says, and the picture does not."""


def fail(text):
    raise Untrue(text)


def table(page, heading, after=0):
    """Returns the cells of a table's rows, of the table that comes so many tables after a heading of a page."""
    text = (TOP / "docs" / page).read_text()
    if heading not in text:
        fail(f"docs/{page} has no '{heading}'")
    tables = re.findall(r"(?:^\|.*\n)+", text.partition(heading)[2], re.M)
    return [[cell.strip() for cell in row.strip("|").split("|")] for row in tables[after].strip().split("\n")[2:]]


def has(crate, folder, pattern, what):
    if not any(re.search(pattern, it.read_text(), re.M) for it in sorted((CRATES / crate / folder).rglob("*")) if it.is_file()):
        fail(f"{crate}/{folder} has no {what}")


def clause(crate, file, function, name):
    """Sees that a function in a file of a crate has a clause of that name."""
    for path in (CRATES / crate / "src").rglob(file):
        for part in re.split(r"^\s*(?:pub(?:\(\w+\))? )?fn ", path.read_text(), flags=re.M)[1:]:
            if re.match(rf"{function}\b", part) and re.search(rf"ensures\*? {name}\b", part):
                return
    fail(f"{crate}/src/{file}: {function} has no clause {name}")


def escape(text):
    return text.replace("&", "&amp;").replace("<", "&lt;").replace(">", "&gt;")


def words(x, y, text, style="", anchor="start"):
    return f'  <text x="{x}" y="{y}" class="{style}" text-anchor="{anchor}">{escape(text)}</text>'


def box(x, y, width, height, style, round_by=6):
    return f'  <rect x="{x}" y="{y}" width="{width}" height="{height}" rx="{round_by}" class="{style}"/>'


def wrapped(x, y, text, most, style="", step=16):
    """Returns a text in lines of so many characters at most."""
    lines, line = [], ""
    for word in text.split():
        if line and len(line) + len(word) + 1 > most:
            lines, line = [*lines, line], word
        else:
            line = f"{line} {word}".strip()
    return [words(x, y + step * at, it, style) for at, it in enumerate([*lines, line])]


def picture(name, width, height, about, inside):
    head = f'<svg xmlns="http://www.w3.org/2000/svg" viewBox="0 0 {width} {height}" width="{width}" height="{height}" role="img">'
    frame = [f"  <title>{escape(name)}</title>", f"  <desc>{escape(about)}</desc>", f"  <style>{STYLE}  </style>", box(0, 0, width, height, "page", 10)]
    return "\n".join([head, *frame, *inside, "</svg>", ""])


def fault_names():
    return dict(re.findall(r"^\| (\d+) (\w+) \|", (TOP / "docs" / "LANGUAGE.md").read_text(), re.M))


def refusals(cell, names):
    numbers = cell.replace(" to ", "-").split(", ")
    return "; ".join(f"errors {it.replace('-', ' to ')}" if "-" in it else f"{names[it]} ({it})" for it in numbers if it)


def steps_of_a_text():
    """Returns call, crate and refusals of each step, in the order of the table; sees that code and clauses are there."""
    steps, names = [], fault_names()
    for call, file, _, refused in table("ARCHITECTURE.md", "\n## The way of a text"):
        calls, files = [it.strip("`") for it in re.findall(r"`\w+`", call)], re.findall(r"`(\w+)/src/([\w/]+\.rt)`", file)
        if calls[0] in GROUPS:
            continue
        pairs = list(zip(calls, files)) if len(calls) > 1 and calls[0] in PASSES and calls[1] in PASSES else [(calls[0], files[0])]
        for one, (crate, path) in sorted(pairs, key=lambda it: list(PASSES).index(it[0]) if it[0] in PASSES else 0):
            if one not in PASSES:
                fail(f"docs/ARCHITECTURE.md has the step '{one}', and the picture has not")
            if not re.search(rf"^(?:    )?pub fn {one}\b", (CRATES / crate / "src" / path).read_text(), re.M):
                fail(f"{crate}/src/{path} has no pub fn {one}")
            steps.append((one, crate, refusals(refused, names)))
    steps.append(("run_image", "cc_answers", ""))
    if [it[0] for it in steps] != list(PASSES):
        fail(f"docs/ARCHITECTURE.md has the steps {[it[0] for it in steps]}")
    listed = {it.partition(":")[0] for it in (TOP / "crates.txt").read_text().splitlines()}
    for one, crate, _ in steps:
        kind, _, page, kept, _ = PASSES[one]
        if crate not in listed:
            fail(f"crates.txt has no {crate}")
        has(crate, "src", rf"\b{kind}\b", kind)
        if page:
            owner, _, name = page.partition(": ")
            if not re.search(rf"^.*pub (?:record )?{kept}\b", (CRATES / owner / "specs" / f"{name}.antt").read_text(), re.M):
                fail(f"{page} does not define {kept}")
    clause("cc_link", "compiling.rt", "compile_in", "follows")
    clause("cc_link", "compiling.rt", "compile_in", "agrees")
    clause("cc_validate", "validator.rt", "validate", "follows")
    clause("cc_cminor", "lower.rt", "to_cminor", "fails_alike")
    clause("cc_rv32", "machine.rt", "run", "behavior")
    has("cc_link", "src", r"pub fn linked_units_follow\b", "linked_units_follow")
    return steps


def passes():
    left, wide, tall, step, top = 30, 210, 40, 66, 118
    out = [words(30, 36, "The way of a text, and the fact that each step keeps", "title")]
    out += [words(30, 58, "Each call takes the value above it. The fact beside a value is part of its type, so no later step can lose it, or a clause of the call.", "soft")]
    out += [words(x, 92, it, "head") for x, it in ((left, "value"), (270, "the fact"), (800, "refuses with"))]
    steps = steps_of_a_text()
    out += [box(left, top - 8, wide, 28, "box"), words(left + wide / 2, top + 11, "C text, 65,536 bytes at most", "", "middle")]
    y = top + 20
    for one, crate, refused in steps:
        kind, second, page, kept, said = PASSES[one]
        out += [f'  <path d="M{left + 40} {y} v{step - tall - 6}" class="line"/>', f'  <path d="M{left + 36} {y + step - tall - 7} h8 l-4 7 z" class="tip"/>']
        out += [words(left + 54, y + 18, one, "code"), words(left + 54 + 7.7 * len(one) + 12, y + 18, crate, "soft")]
        y += step - tall
        style = "doubt" if not page else "image" if one in ("link", "run_image") else "doubt" if one == "guard" else "box"
        out += [box(left, y, wide, tall, style), words(left + 12, y + 17, kind, "code strong"), words(left + 12, y + 33, second, "soft")]
        if page:
            out += [words(270, y + 17, kept, "code strong"), words(270 + 7.7 * len(kept) + 14, y + 17, page, "soft")]
        out += [words(270, y + (34 if page else 25), said)]
        out += [words(800, y + 17 + 17 * at, it) for at, it in enumerate(filter(None, refused.split("; ")))]
        y += tall
    foot = (
        "A run keeps up with another if it gets as far, with a bounded number of moves for each of the other's steps. Passes may raise the "
        "bound; no promise depends on it. From the last such fact, linked_units_follow of cc_link proves that the image follows the program: "
        "compile_in (follows). If the source goes wrong, a plain image has to write only what the source had written when it last spent a "
        "step; a checked image stops in place, unless the cause is a 1,025th open call. Dashed boxes: guard is a step of checked images "
        "only; colour is not trusted, so validate compares its code with the graph."
    )
    out += wrapped(30, y + 36, foot, 138, "soft", 18)
    about = "; ".join(f"{one} gives {PASSES[one][0]}: {PASSES[one][4]}" for one, _, _ in steps)
    return picture("The way of a text", 1000, y + 36 + 18 * 5, about, out)


def strip(x, y, segments):
    out = []
    for width, style, text in segments:
        out += [box(x, y, width, 26, style, 2)]
        out += [words(x + width / 2, y + 18, text, "code", "middle")] if text else []
        x += width
    return out


def commit():
    written = {row[0]: row[1] for row in table("FORMATS.md", "### How it is written, and why each sync is there")}
    reasons = table("FORMATS.md", "### How it is written, and why each sync is there", 1)
    record = table("FORMATS.md", "\n## The journal", 1)
    moments = [row[0] for row in table("DISK.md", "\n## The model", 1)]
    kinds = {one: written[f"`{one}`"].split("; ") for one in ("append", "rewrite")}
    if any(len(it) != 4 or it[1] != "a sync" or it[3] != "a sync" for it in kinds.values()):
        fail("docs/FORMATS.md: a commit is no longer a write, a sync, a write of one byte and a sync")
    if [row[0] for row in reasons] != ["first write", "sync", "one byte", "sync"]:
        fail("docs/FORMATS.md: the reasons of a commit are in another order")
    if [row[0] for row in record] != ["1", "4", "that many"] or "`a5` is open" not in record[0][1] or "(`00` is written)" not in record[0][1]:
        fail("docs/FORMATS.md: a record is no longer gate, length, body")
    if moments != ["between two calls", "in the middle of a write", "in the middle of a sync"]:
        fail("docs/DISK.md: a cut comes at other moments")
    for name in EDITS.values():
        if not (CRATES / "cc_journal" / "must-fail" / f"{name}.edit").is_file():
            fail(f"cc_journal has no edit {name}")
    clause("cc_journal", "log.rt", "append", "moments")
    clause("cc_journal", "log.rt", "rewrite", "moments")
    clause("cc_journal", "commit.rt", "make", "moments")
    gate = lambda style, text: (34, style, text)
    tail = lambda style, next_gate: [(64, style, "length"), (98, style, "body"), (34, style, next_gate)]
    appends = [
        [(120, "old", "records"), gate("old", "00"), (196, "free", "")],
        [(120, "old", "records"), gate("old", "00"), *tail("open", "00")],
        [(120, "old", "records"), gate("old", "00"), *tail("new", "00")],
        [(120, "old", "records"), gate("open", "a5"), *tail("new", "00")],
        [(120, "old", "records"), gate("new", "a5"), *tail("new", "00")],
    ]
    areas = lambda byte, style, other, text, first="old": [(34, style, byte), (126, first, "area A"), (150, other, text)]
    rewrites = [
        areas("00", "old", "free", ""),
        areas("00", "old", "open", "all records"),
        areas("00", "old", "new", "all records"),
        areas("01", "open", "new", "all records"),
        areas("01", "new", "new", "all records", "free"),
    ]
    heads = ["before", "1  write", "2  sync", "3  write of one byte", "4  sync"]
    leaves = [
        "the old records",
        "the old records: torn bytes are ignored",
        "during it: as after 1; after it: the old records",
        "the old records or the new ones, each whole",
        "during it: as after 3; after it: the new records. Only then does the call answer",
    ]
    out = [words(30, 36, "A commit on the medium, and what a power cut leaves", "title")]
    out += [words(30, 58, "An append and a rewrite are the same four device calls. One byte decides, and no checksum is trusted.", "soft")]
    out += [words(x, 92, it, "head") for x, it in ((30, "device call"), (190, "append: after the last record"), (570, "rewrite: into the other area"), (920, "a power cut leaves"))]
    y, tall = 108, 108
    for at, name in enumerate(heads):
        out += [f'  <path d="M30 {y - 2} H1220" class="rule"/>', words(30, y + 24, name, "strong")]
        out += strip(190, y + 6, appends[at]) + strip(570, y + 6, rewrites[at])
        if at:
            for x, most, why in ((190, 50, reasons[at - 1][1]), (570, 46, reasons[at - 1][2])):
                out += wrapped(x, y + 50, why.replace("`", ""), most, "soft")
        left = wrapped(920, y + 24, leaves[at], 34 if at == 4 else 38, "strong" if at == 4 else "", 18)
        out += left
        if at in EDITS:
            under = y + 28 + 18 * len(left)
            out += [words(920, under, "The proof refuses this wrong body:", "soft"), words(920, under + 16, EDITS[at], "soft")]
        y += tall if at else 50
    out += [f'  <path d="M30 {y - 2} H1220" class="rule"/>']
    for x, style, text in ((30, "old", "settled before"), (190, "open", "unsettled: any bytes after a cut"), (450, "new", "settled by this commit"), (660, "free", "ignored")):
        out += [box(x, y + 14, 22, 16, style, 2), words(x + 30, y + 27, text, "soft")]
    names = fault_names()
    foot = (
        f"If a call fails, the change answers {names['35']} (35) and may be on the disk or not; each later change answers {names['36']} (36) "
        "until the file is opened again. Proved on a disk that keeps the rules of docs/DISK.md: append and rewrite of cc_journal (moments). "
        "The names in the last column are wrong bodies in cc_journal/must-fail, which the prover has to refuse."
    )
    out += wrapped(30, y + 56, foot, 165, "soft", 18)
    about = "; ".join(f"{name}: a power cut leaves {it}" for name, it in zip(heads, leaves))
    return picture("A commit on the medium", 1250, y + 106, about, out)


def png_of(svg):
    """Returns the picture as PNG, with the checksum of the SVG in it."""
    data = subprocess.run(["rsvg-convert", "--zoom", "1.25"], input=svg.encode(), stdout=subprocess.PIPE, check=True).stdout
    body = b"tEXt" + KEY + b"\0" + hashlib.sha256(svg.encode()).hexdigest().encode()
    return data[:33] + struct.pack(">I", len(body) - 4) + body + struct.pack(">I", zlib.crc32(body)) + data[33:]


def differences():
    """Returns which files are not what the pages and the sources say."""
    wrong = []
    for name, draw in DRAWN.items():
        try:
            svg = draw()
        except Untrue as it:
            wrong.append(f"the picture {name}: {it}")
            continue
        mark = KEY + b"\0" + hashlib.sha256(svg.encode()).hexdigest().encode()
        files = {HERE / f"{name}.svg": svg.encode(), HERE / f"{name}.png": mark}
        wrong += [f"{path.relative_to(TOP)} is not what docs/pictures/draw.py draws" for path, text in files.items() if text not in bytes_of(path)]
    return wrong


def bytes_of(path):
    return path.read_bytes() if path.is_file() else b""


def write():
    for name, draw in DRAWN.items():
        svg = draw()
        (HERE / f"{name}.svg").write_text(svg)
        (HERE / f"{name}.png").write_bytes(png_of(svg))


DRAWN = {"passes": passes, "commit": commit}


if __name__ == "__main__":
    if sys.argv[1:] == ["--check"]:
        sys.exit("\n".join(differences()) or 0)
    write()
