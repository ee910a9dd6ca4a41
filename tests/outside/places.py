#!/usr/bin/env python3
"""Tries tools/places.py: a mistake is planted in a line of one of several files with includes and macros, and has to be reported there.

places.py [COUNT] [SEED]: COUNT random programs (50) from a seed (1), in two to four files that share a header. In each one line has a name that is not
declared; `cclib check` of the text that tools/places.py makes, shown by tools/places.py, has to name that file and line on standard output and
standard error. Then the same programs without the mistake have to be `ok`, and `trace` has to show each word that is written at the line that
writes it. The status is 1 if something differs. Needs gcc. Build the program first (./cclib --prove), or set CCLIB to a built one."""

import os
import random
import re
import subprocess
import sys
import tempfile

HERE = os.path.dirname(os.path.abspath(__file__))
PROGRAM = os.environ.get("CCLIB") or os.path.join(HERE, "../../crates/cclib/out/cclib")
TOOL = os.path.join(HERE, "../../tools/places.py")
HEADER = "#ifndef SHARED\n#define SHARED\n#define LIMIT 9\n#define TWICE(x) ((x) +\\\n  (x))\n{}\n#endif\n"


def body(rng, value):
    """The lines of a function that writes `value`, and which of them writes it."""
    lines = ["{", "  int a = LIMIT, b;"]
    for _ in range(rng.randrange(6)):
        lines.append(rng.choice(["", "", "\n\n\n\n\n\n\n\n\n\n", "  /* a comment", "#define EXTRA", "  b = TWICE(a); a = b - a;", "  // b"]))
        if lines[-1].startswith("  /*"):
            lines.append("     of two lines */ b = a;")
    lines = "\n".join(lines).split("\n")
    lines += ["  b = 0;", f"  write_word({value}", "  + a - LIMIT);", "  return b;", "}"]
    return lines, len(lines) - 4


def files_of(rng):
    """The text of each file, and for each written word its file and line (from 1)."""
    count = rng.randrange(2, 5)
    names = [f"f{number}.c" for number in range(count)]
    texts = {"shared.h": HEADER.format("\n".join(f"int f{number}(void);" for number in range(count)))}
    places = []
    for number, name in enumerate(names):
        lines = ['#include "shared.h"', *[""] * rng.randrange(12), f"int f{number}(void)"]
        inner, at = body(rng, number + 1)
        texts[name] = "\n".join([*lines, *inner]) + "\n"
        places.append((name, len(lines) + at + 1))
    texts["main.c"] = '#include "shared.h"\nint main(void)\n{\n' + "".join(f"  f{number}();\n" for number in range(count)) + "  return 0;\n}\n"
    return texts, places, [*names, "main.c"]


def shown(folder, texts, names, *words):
    """What a command prints about the text that the files make, with the files' places."""
    for name, text in texts.items():
        with open(f"{folder}/{name}", "w", encoding="ascii") as file:
            file.write(text)
    subprocess.run([sys.executable, TOOL, "make", "base", *names], cwd=folder, check=True)
    done = subprocess.run([PROGRAM, *words, "--file", "base.i"], cwd=folder, capture_output=True, check=False)
    show = [sys.executable, TOOL, "show", "base"]
    return [subprocess.run(show, cwd=folder, input=it, capture_output=True, check=True).stdout.decode() for it in (done.stdout, done.stderr)]


def differs(folder, rng):
    """What is wrong with a random program; None if nothing is."""
    texts, places, names = files_of(rng)
    out, _ = shown(folder, texts, names, "check")
    if out != "ok\n":
        return f"check: {out!r}"
    out, _ = shown(folder, texts, names, "trace", "1000")
    came = re.findall(r"^(.*):([0-9]+):[0-9]+: write ([0-9]+)$", out, re.M)
    if came != [(name, str(line), str(number + 1)) for number, (name, line) in enumerate(places)]:
        return f"trace: {out!r}, wanted {places}"
    name, line = rng.choice(places)
    lines = texts[name].split("\n")
    lines[line - 1] = lines[line - 1].replace("write_word(", "write_word(other + ")
    out, err = shown(folder, {**texts, name: "\n".join(lines)}, names, "check")
    if out != f"fault 11 Unknown at {name}:{line}:14\n" or not err.startswith(f"{name}:{line}:14: 'other' is not declared\n{line:5} |   write_word("):
        return f"a mistake in {name}:{line}: {out!r}, {err!r}"
    return None


def main():
    count = int(sys.argv[1]) if len(sys.argv) > 1 else 50
    rng = random.Random(int(sys.argv[2]) if len(sys.argv) > 2 else 1)
    wrong = []
    for _ in range(count):
        with tempfile.TemporaryDirectory() as folder:
            wrong.append(differs(folder, rng))
    wrong = [it for it in wrong if it]
    print("\n".join([*wrong, f"{count} programs, {len(wrong)} differ"]))
    return 1 if wrong else 0


if __name__ == "__main__":
    sys.exit(main())
