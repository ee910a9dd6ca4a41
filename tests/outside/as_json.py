#!/usr/bin/env python3
"""Compares what `--json` prints with what is printed without it.

as_json.py [COUNT] [SEED]: COUNT random texts (1,000), from a seed (1): the programs of tests/outside/compare.py. Three in four have a few bytes or
tokens left out, doubled or changed; some are in two files, some have bytes that are not UTF-8. `check`, `interpret`, `run`, `run --checked` and
`size` are done for each text with `--json` and without; for every tenth text a script with it is also run by `library`, and then `call`, `diff` and
`log` on the library that this leaves. Python's json reads each line of the JSON form, and what the line says is turned into the lines of the plain
form. Prints how many were compared, how many objects of each kind there were, and each text whose answers differ; the status is 1 if one does. Build
the program first (./cclib --prove), or set CCLIB to a built one."""

import collections
import json
import os
import random
import re
import subprocess
import sys
import tempfile

import compare

PROGRAM = os.environ.get("CCLIB") or os.path.join(os.path.dirname(os.path.abspath(__file__)), "../../crates/cclib/out/cclib")
TOKENS = re.compile(rb"[A-Za-z_][A-Za-z_0-9]*|[0-9]+|\s+|.", re.DOTALL)
ODD = [b"\xff", b"\xc3\xa9", b"\x80", b"\x00", b"\x1b", b'"', b"\\", b"'", b"@", b"\xe2\x82", b"\xf0\x9f\x98\x80"]


def changed(text, rng):
    """The text with a few tokens left out, doubled, swapped for others or with odd bytes between."""
    tokens = TOKENS.findall(text)
    for _ in range(rng.choice([1, 1, 2, 4])):
        at = rng.randrange(len(tokens))
        how = rng.randrange(5)
        if how == 0:
            del tokens[at]
        elif how == 1:
            tokens.insert(at, tokens[at])
        elif how == 2:
            tokens[at] = rng.choice(tokens)
        elif how == 3:
            tokens.insert(at, rng.choice(ODD))
        else:
            tokens[at] = tokens[at] + rng.choice([b"x", b"0", b" ", b"_"])
    return b"".join(tokens)


COUNTED = (["interpret", "--count", "2000"], ["run", "--count", "20000", "5"], ["safe"])
FINAL = "the run has stopped in place: nothing more comes, however many instructions it may take"
STOPPED = "the image stops in place, since the program goes wrong:"
AHEAD = "with a larger STEPS the image writes {} and then stops in place, since the program goes wrong:"


def message(it):
    """The message of an object, with its help."""
    return it["message"] + (": " + it["help"] if "help" in it else "")


def told(it, before=""):
    """The lines on standard error that an object means."""
    if "message" not in it:
        return []
    if it["kind"] == "further" and "line" not in it:
        return ["cclib: " + message(it)]
    if "line" not in it:
        whose = "cclib: " if it["number"] in range(23, 100) else "-: "
        if it["number"] == 53 and "file" in it:
            whose += it["file"] + " "
        elif "file" in it:
            whose += it["file"] + ": "
        return [whose + message(it)]
    lines = ["cclib: " + STOPPED] if it.get("stopped") else []
    if "more" in it:
        lines.append("cclib: " + AHEAD.format("one more word" if it["more"] == 1 else f"{it['more']} more words"))
    lines.append(f"{it['file']}:{it['line']}:{it['column']}: {before}{message(it)}")
    for note in it.get("notes", []):
        lines.append(f"{note['file']}:{note['line']}:{note['column']}: note: {note['message']}")
    return lines


def plain(objects):
    """The lines on standard output and on standard error that objects mean."""
    out, err = [], []
    for it in objects:
        kind = it["kind"]
        assert it["cclib"] == 1
        if kind == "ok":
            out.append("ok")
        elif kind == "receipt":
            out.append(f"ok {it['number']}")
        elif kind == "unit":
            out.append("unit " + it["name"])
        elif kind == "word":
            out.append(str(it["value"]))
        elif kind == "line":
            out.append(it["text"])
        elif kind == "count":
            out.append(f"{it['of']} {it['value']}")
        elif kind == "audit":
            out.append(f"audit {it['name']} {it['said']}")
        elif kind == "space":
            out.append(f"space {it['area']} {it['used']} {it['compacted']} {it['units']}")
        elif kind == "hash":
            out.append(f"cclib-unit 1 {it['confirmed']} {it['sha256']} {it['name']}")
        elif kind == "command":
            out.append(" ".join([str(it["number"]), it["did"], it["name"], *(str(it[key]) for key in ("source", "words", "sha256") if key in it)]))
        elif kind == "end":
            out.append(" ".join([it["how"], *(str(it[key]) for key in ("value", "why") if key in it)]))
            err += ["cclib: " + FINAL] if it.get("final") else []
            err += told(it)
        elif kind == "fault":
            line = f"fault {it['number']} {it['name']}"
            line += f" at {it['at']}" if "at" in it else ""
            line += f" in {it['function']}" if "function" in it else ""
            out.append(line + (f" at label {it['label']}" if "label" in it else ""))
            err += told(it)
        elif kind == "further":
            err += told(it)
        elif kind == "warning":
            err += told(it, "warning: ")
        else:
            raise AssertionError(kind)
    return out, err


def lines_of(text):
    lines = text.decode(errors="replace").split("\n")
    return lines if lines[-1] else lines[:-1]


def is_told(line):
    """Whether a line of standard error explains something, and does not show the text."""
    return re.match(r" *[0-9]* \| ", line) is None


def same(words, text, files, kinds):
    """Whether both forms say the same about a text."""
    want = subprocess.run([PROGRAM, *words, *files], input=text, capture_output=True, check=False)
    have = subprocess.run([PROGRAM, "--json", *words, *files], input=text, capture_output=True, check=False)
    objects = [json.loads(line) for line in have.stdout.decode().splitlines()]
    for it in objects:
        kinds[it["kind"]] += 1
    out, err = plain(objects)
    right = have.stderr == b"" and have.returncode == want.returncode
    right = right and out == lines_of(want.stdout)
    wanted = [line for line in lines_of(want.stderr) if is_told(line)]
    if files:
        wanted = [line.replace("A.c, B.c: ", "-: ") for line in wanted]
    if "--lines" in words:
        # This explains what is wrong with a file in words of its own; in JSON a fault also has the message of its number.
        said = [f"cclib: {message(it)}" for it in objects if it["kind"] == "fault" and "message" in it]
        err = [line for line in err if line not in said or line in wanted]
    if not right or err != wanted:
        print(" ".join(words), want.stdout, want.stderr.decode(errors="replace"), have.stdout.decode(), have.stderr, out, err, wanted, sep="\n")
        return False
    return True


def script(text, rng):
    """A script of a library about a text."""
    add = f"add a {len(text)}\n".encode() + text + b"\n"
    parts = [add, add, b"add b 21\nint main(void){x();}\n\n", b"add c 16\nint main(void){}\n", b"run a 1000\n", b"run c 1\n", b"run c 100\n", b"list\n", b"count\n", b"audit\n",
             b"source c\n", b"image c\n", b"withdraw c\n", b"withdraw d\n", b"run D 5\n", b"hm\n", b"compact\n"]
    return b"".join(rng.sample(parts, rng.randrange(3, len(parts))))


def library(text, rng, kinds):
    """How often the forms differ for a script, and for the commands that look into the library that it left."""
    for disk in ("one.disk", "two.disk"):
        if os.path.exists(disk):
            os.remove(disk)
    both, wrong = script(text, rng), 0
    want = subprocess.run([PROGRAM, "library", "one.disk", "--format", "65536"], input=both, capture_output=True, check=False)
    have = subprocess.run([PROGRAM, "--json", "library", "two.disk", "--format", "65536"], input=both, capture_output=True, check=False)
    objects = [json.loads(line) for line in have.stdout.decode().splitlines()]
    for it in objects:
        kinds[it["kind"]] += 1
    out, err = plain(objects)
    wanted = [line for line in lines_of(want.stderr) if is_told(line)]
    # If two faults follow one another, JSON has the words in each; so has the plain form.
    if out != lines_of(want.stdout) or err != wanted or have.stderr or have.returncode != want.returncode:
        print(both, want.stdout, want.stderr.decode(errors="replace"), have.stdout.decode(), out, err, sep="\n")
        wrong += 1
    for words in (["call", "one.disk", "a", "1000", "3"], ["call", "one.disk", "c", "5", "--lines"], ["diff", "one.disk", "two.disk"],
                  ["diff", "one.disk", "none.disk"],
                  ["diff", "one.disk", "one.disk"], ["call", "one.disk", "nosuch", "5"], ["size", "one.disk", "a"], ["size", "one.disk", "nosuch"], ["log", "one.disk"], ["log", "one.disk", "a"],
                  ["log", "one.disk", "--hash"], ["hash", "one.disk"], ["hash", "one.disk", "nosuch"], ["call", "one.disk", "c", "1000", "--count"], ["audit", "one.disk", "c"]):
        wrong += not same(words, b"1 2\n\nx\n", [], kinds)
    return wrong


def main():
    count = int(sys.argv[1]) if len(sys.argv) > 1 else 1000
    seed = int(sys.argv[2]) if len(sys.argv) > 2 else 1
    kinds, wrong = collections.Counter(), 0
    with tempfile.TemporaryDirectory() as folder:
        os.chdir(folder)
        for number in range(count):
            rng = random.Random(seed * 1_000_003 + number)
            text = compare.Writer(seed + number).program(seed + number).encode()
            if rng.randrange(4):
                text = changed(text, rng)
            files = []
            if rng.randrange(2):
                cut = rng.randrange(len(text))
                for name, part in (("A.c", text[:cut]), ("B.c", text[cut:])):
                    with open(name, "wb") as file:
                        file.write(part)
                files = ["-f", "A.c", "-f", "B.c"]
            for words in (["check"], ["interpret", "2000"], ["run", "20000", "5"], ["run", "--checked", "20000", "5"], ["size"], ["run", "--checked", "40", "5"], *COUNTED):
                wrong += not same(words, text, files, kinds)
            if number % 10 == 0:
                wrong += library(text, rng, kinds)
    print(f"{count} texts, {wrong} differ; " + ", ".join(f"{many} {kind}" for kind, many in sorted(kinds.items())))
    return 1 if wrong else 0


if __name__ == "__main__":
    sys.exit(main())
