#!/usr/bin/env python3
"""Counts how many functions of packages that nobody here wrote are taken, as C and as wide C.

functions.py FOLDER: draws five packages and 300 functions of theirs (seed 94), makes a program of each, and says of how many of these programs
`check` and `translate --check` take, and the twenty most frequent refusals. In FOLDER each package is unpacked (`apt-get source NAME`); the script
prints the names of those that it does not find there.

Each file of a package is preprocessed (gcc -E -P, with each folder of the package that has headers), and cut into its external declarations. The
program of a function is: each type, constant and object that it names, and what these name; of each function that is named a definition with an
empty body; the function; and an empty `main`. Functions without prototypes are left out, and files that gcc cannot preprocess.

CHECK and TRANSLATE_CHECK are commands that read a text (`cclib check`, `cclib translate --check`)."""

import collections
import glob
import os
import random
import re
import subprocess
import sys

sys.path.insert(0, os.path.dirname(os.path.abspath(__file__)))
from torture import CHECK, TRANSLATE_CHECK, refusal, said, tokens_of

SEED, PACKAGES_DRAWN, FUNCTIONS_DRAWN = 94, 5, 300
PACKAGES = "zlib bzip2 lz4 lzo2 libogg libgsm speex libmad libtomcrypt libtommath nettle mbedtls hashcash simavr avr-libc liblzf libsodium xxhash".split()
KEYWORDS = set("auto break case char const continue default do double else enum extern float for goto if inline int long register restrict return short "
               "signed sizeof static struct switch typedef union unsigned void volatile while".split())


def is_word(token):
    return re.match(r"[A-Za-z_]", token) and token[0] not in "\"'" and token not in KEYWORDS


class External:
    """A declaration, or a function's definition, as tokens."""

    def __init__(self, tokens):
        self.tokens = tokens
        self.body = self.find_body()
        self.is_typedef = tokens[0] == "typedef" or tokens[:2] == ["__extension__", "typedef"]
        self.function = None if self.is_typedef else self.find_function()
        self.names = self.find_names()

    def find_body(self):
        """The index of the brace that begins a function's body."""
        depth = 0
        for at, it in enumerate(self.tokens):
            if it == "{" and depth == 0:
                return at if at and self.tokens[at - 1] == ")" and "=" not in self.tokens[:at] else None
            depth += (it in "([{") - (it in ")]}")
        return None

    def find_function(self):
        """The name of the function that is declared or defined."""
        depth = 0
        for at, it in enumerate(self.tokens[: self.body]):
            if it == "=" or it == "{":
                return None
            if it == "(" and depth == 0 and at and is_word(self.tokens[at - 1]) and not self.tokens[at - 1].startswith("__attribute"):
                return self.tokens[at - 1]
            depth += (it in "([{") - (it in ")]}")
        return None

    def find_names(self):
        """The names that are declared: tags, enumerators, types, objects."""
        if self.function:
            return [self.function]
        names, depth, in_enum = [], 0, []
        for at, it in enumerate(self.tokens):
            after = self.tokens[at + 1] if at + 1 < len(self.tokens) else ";"
            if it == "{":
                in_enum.append("enum" in self.tokens[max(0, at - 2) : at])
            if is_word(it):
                is_tag = at and self.tokens[at - 1] in ("struct", "union", "enum") and after == "{"
                is_enumerator = in_enum and in_enum[-1] and self.tokens[at - 1] in ("{", ",")
                is_declared = depth == 0 and after in (";", ",", "=", "[", "__attribute__") and not (at and self.tokens[at - 1] == "=")
                is_pointed = self.is_typedef and after == ")" and self.tokens[at - 1] == "*" and depth == 1
                if is_tag or is_enumerator or is_declared or is_pointed:
                    names.append(it)
            if it == "}" and in_enum:
                in_enum.pop()
            depth += (it in "([{") - (it in ")]}")
        return names

    def used(self, without_body=False):
        return {it for it in (self.tokens[: self.body] if without_body and self.body else self.tokens) if is_word(it)}


def externals_of(text):
    found, tokens, depth, start = [], tokens_of(text), 0, 0
    for at, it in enumerate(tokens):
        depth += (it in "([{") - (it in ")]}")
        ends = depth == 0 and (it == ";" or (it == "}" and (at + 1 == len(tokens) or External(tokens[start : at + 1]).body is not None)))
        if ends:
            if at > start:
                found.append(External(tokens[start : at + 1]))
            start = at + 1
    return found


def laid_out(tokens):
    return " ".join(tokens).replace(" ;", ";\n").replace("{ ", "{\n").replace("} ", "}\n") + "\n"


def program(externals, at):
    """The program of the function at an index."""
    declared = {}
    for index, it in enumerate(externals):
        for name in it.names:
            declared.setdefault(name, []).append(index)
    wanted, left = {at}, [(at, False)]
    while left:
        index, stub = left.pop()
        for name in externals[index].used(stub):
            for other in declared.get(name, []):
                is_function = externals[other].function is not None
                if name == externals[at].function and is_function:
                    continue
                if is_function and any(externals[it].function == name for it in wanted):
                    continue
                if other not in wanted:
                    wanted.add(other)
                    left.append((other, is_function))
    parts = []
    for index in sorted(wanted):
        it = externals[index]
        if index == at or it.function is None:
            parts.append(laid_out(it.tokens))
        else:
            head = it.tokens[: it.body] if it.body else it.tokens[:-1]
            parts.append(laid_out([*head, "{", "}"]))
    if externals[at].function != "main":
        parts.append("int main(void) { }\n")
    return "".join(parts)


def functions_in(package):
    """The file, the externals and the index of each function of a package, in the order of names."""
    folders = sorted({os.path.dirname(it) for it in glob.glob(f"{package}/**/*.h", recursive=True)})
    found = []
    for path in sorted(glob.glob(f"{package}/**/*.c", recursive=True)):
        words = ["gcc", "-E", "-P", "-w", "-std=gnu99", "-DNDEBUG", *[f"-I{it}" for it in folders], path]
        ran = subprocess.run(words, capture_output=True, check=False)
        if ran.returncode:
            continue
        externals = externals_of(ran.stdout.decode(errors="replace"))
        with open(path, encoding="utf-8", errors="replace") as file:
            own = file.read()
        for index, it in enumerate(externals):
            # a function of a header belongs to no file
            if it.body and it.function and re.search(rf"\b{it.function}\b", own):
                found.append((path, externals, index))
    return found


def main():
    folder, drawn = sys.argv[1], random.Random(SEED)
    packages = sorted(drawn.sample(PACKAGES, PACKAGES_DRAWN))
    rooms = [sorted(it for it in glob.glob(f"{folder}/{name}-*") if os.path.isdir(it)) for name in packages]
    missing = [name for name, room in zip(packages, rooms) if not room]
    if missing:
        print(f"not in {folder}: {' '.join(missing)}")
        return 2
    found = [it for room in rooms for it in functions_in(room[0])]
    chosen = drawn.sample(found, min(FUNCTIONS_DRAWN, len(found)))
    taken, wide, refusals = 0, 0, collections.Counter()
    for path, externals, index in chosen:
        text = program(externals, index)
        keep = os.environ.get("KEEP")
        if keep:
            with open(f"{keep}/{os.path.basename(path)[:-2]}_{externals[index].function}.c", "w", encoding="utf-8") as file:
                file.write(text)
        taken += said(CHECK, text) is None
        fault = said(TRANSLATE_CHECK, text)
        wide += fault is None
        if fault:
            refusals[refusal(text, fault)] += 1
    print(f"{' '.join(packages)}: {len(found)} functions, {len(chosen)} drawn: check takes {taken}, translate --check {wide}")
    print("\n".join(f"{count:5} {what}" for what, count in refusals.most_common(20)))
    return 0


if __name__ == "__main__":
    sys.exit(main())
