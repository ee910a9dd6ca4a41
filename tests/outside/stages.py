#!/usr/bin/env python3
"""Checks what `stages` answers for the programs of examples/ and bench/programs and for random ones.

stages.py [COUNT] [SEED]: COUNT random programs (100) of tests/outside/compare.py, from a seed (1). For each program that `asm` lists, `stages` has to
end with status 0; all its code has to be that listing after its start of three words; if a single function is asked for, the answer has to be its
part of the whole; and each stage's text has to belong to its language, and every label that it names has to exist. Then tests/outside/languages.py
runs each stage except the code on eight words, and the stage has to write what `interpret` says: if one of the two is cut off, the words that both
reach have to agree, and if an operation goes wrong, only those before it. Build the program first (./cclib --prove), or set CCLIB to a built one.
The first values of objects are taken from gcc."""

import glob
import os
import re
import struct
import subprocess
import sys
import tempfile
import threading

import compare
import languages

HERE = os.path.dirname(os.path.abspath(__file__))
STEPS = 5_000
WORDS = [int(it) for it in compare.WORDS]


def answer(words, text):
    ran = subprocess.run([compare.PROGRAM, *words], input=text.encode(), capture_output=True, check=False)
    return ran.stdout.decode(), ran.returncode


def declarations(text):
    """The declarations at file scope, each with its semicolon or with its body."""
    text = re.sub(r"/\*.*?\*/|//[^\n]*", " ", text, flags=re.S)
    depth, begun = 0, 0
    for at, character in enumerate(text):
        depth += (character in "{([") - (character in "})]")
        if depth == 0 and (character == ";" or character == "}" and "=" not in text[begun:at].split("{")[0]):
            yield text[begun : at + 1].strip()
            begun = at + 1


def names_of_objects(text):
    """The names of the objects in the order of their declarations, and whether each is of bytes."""
    names = {}
    for declaration in declarations(text):
        found = re.match(r"(unsigned\s+char|unsigned|int|signed)\b(?:\s+int\b)?(.*)", declaration, re.S)
        if found and declaration.endswith(";"):
            flat = re.sub(r"\{[^}]*\}|\[[^\]]*\]|\([^)]*\)", lambda it: "(" if it[0][0] == "(" else "", found[2])
            for one in flat.rstrip(";").split(","):
                named = re.match(r"\s*(\w+)\s*(\(?)", one)
                if named and not named[2]:
                    names.setdefault(named[1], "char" in found[1])
    return names


def objects_of(text, room):
    """Each object's width and its first elements, as gcc has them."""
    names = names_of_objects(text)
    with open(f"{room}/program.c", "w", encoding="utf-8") as it:
        it.write("int read_word(void);void write_word(int);" + text)
    subprocess.run(["gcc", "-std=c99", "-w", "-fno-common", "-fwrapv", "-c", "-o", f"{room}/object", f"{room}/program.c"], check=True)
    subprocess.run(["objcopy", "-O", "binary", "-j", ".data", f"{room}/object", f"{room}/data"], check=True)
    with open(f"{room}/data", "rb") as it:
        data = it.read()
    rows = [it.split() for it in subprocess.run(["nm", "-S", f"{room}/object"], capture_output=True, text=True, check=True).stdout.splitlines()]
    symbols = {it[3]: (int(it[0], 16), int(it[1], 16), it[2]) for it in rows if len(it) == 4}
    objects = []
    for name, is_byte in names.items():
        at, size, kind = symbols[name]
        first = data[at : at + size] if kind in "dD" else bytes(size)
        objects.append((is_byte, list(first) if is_byte else list(struct.unpack(f"<{size // 4}I", first))))
    return objects


def agrees(said, found):
    """Whether a stage's run agrees with what the interpreter says."""
    (*words, end), (output, came) = said.split("\n")[:-1], found
    words = [int(it) & languages.MASK for it in words]
    both = min(len(words), len(output))
    if end == "going" or came == "going":
        return words[:both] == output[:both]
    if end.startswith("wrong"):
        return output[: len(words)] == words
    return (words, end) == (output, came)


def judge(text, room):
    """How many functions there are, and how many of them are spilled; or what is wrong."""
    listing, status = answer(["asm"], text)
    if status:
        return 0, 0
    whole, status = answer(["stages"], text)
    functions = languages.stages_of(whole)
    code = "".join(f"{line}\n" for it in functions.values() for line in it["code"])
    if status or code != listing.split("\n", 3)[3]:
        return f"status {status}, or other code than the listing's"
    for name, stages in functions.items():
        part = "".join(f"== {name}: {it}\n" + "".join(f"{line}\n" for line in lines) for it, lines in stages.items())
        if answer(["stages", name], text) != (part, 0):
            return f"the function {name} alone is answered otherwise"
    programs, main = languages.read(functions), list(functions).index("main")
    said, _ = answer(["--quiet", "interpret", str(STEPS), *compare.WORDS], text)
    objects = objects_of(text, room)
    for stage in languages.STAGES[:-1]:
        if not agrees(said, languages.run(programs, stage, main, objects, WORDS, 10 * STEPS)):
            return f"{stage} writes other words than the interpreter"
    return len(functions), sum("spilled" in it["LTL"] for it in functions.values())


def main():
    count, first = (int(it) for it in (*sys.argv[1:3], *(100, 1)[len(sys.argv[1:3]) :]))
    files = [it for folder in ("../../examples", "../../bench/programs", "../../bench/programs/*") for it in glob.glob(f"{HERE}/{folder}/*.c")]
    texts = [(it, open(it, encoding="utf-8").read()) for it in sorted(files)]
    texts += [(f"seed {it}", compare.Writer(it).program(it)) for it in range(first, first + count)]
    programs, functions, spilled, other = 0, 0, 0, 0
    with tempfile.TemporaryDirectory() as room:
        for name, text in texts:
            found = judge(text, room)
            if isinstance(found, str):
                other += 1
                print(f"{name}: {found}", file=sys.stderr)
            else:
                programs, functions, spilled = programs + (found[0] > 0), functions + found[0], spilled + found[1]
    print(f"{programs} programs of {functions} functions are shown right, {spilled} functions spilled; {other} programs are not")
    return 1 if other else 0


if __name__ == "__main__":
    # Up to 1,024 calls may be nested, which takes a deep stack here.
    sys.setrecursionlimit(100_000)
    threading.stack_size(512 << 20)
    STATUS = []
    THREAD = threading.Thread(target=lambda: STATUS.append(main()))
    THREAD.start()
    THREAD.join()
    sys.exit(STATUS[0] if STATUS else 1)
