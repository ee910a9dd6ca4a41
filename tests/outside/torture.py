#!/usr/bin/env python3
"""Counts how many of gcc's own test programs without pointers are taken, as C and as wide C, and compares what the taken ones do.

torture.py FOLDER: FOLDER is gcc.c-torture/execute of gcc's sources (`apt-get source --download-only gcc-12`, then the folder
gcc/testsuite/gcc.c-torture/execute of the archive inside). Each program is preprocessed (gcc -E -P). It is passed over if it has a pointer: an
operand of a prefix `*` or `&`, `->`, a string, an array as a parameter, or a name of <stdarg.h>. `main ()` becomes `main (void)`, and the
declarations of `abort` and `exit` are left out: a head of this script defines both. In that, `exit` writes a word and goes wrong, and so does `abort`.

Of each text `check` and `translate --check` say whether it is taken. One that is taken by the latter is interpreted as it is translated, and has to
end as gcc's program ends: with the same status, or by abort. The most frequent refusals are printed, and the number of each kind.

CHECK, TRANSLATE_CHECK and TRANSLATE are commands that read a text (`cclib check`, `cclib translate --check`, `cclib translate`); CCLIB is the built
program, which interprets."""

import collections
import glob
import os
import re
import shlex
import subprocess
import sys
import tempfile

PROGRAM = os.environ.get("CCLIB") or os.path.join(os.path.dirname(os.path.abspath(__file__)), "../../crates/cclib/out/cclib")
CHECK = shlex.split(os.environ.get("CHECK") or f"{PROGRAM} check")
TRANSLATE_CHECK = shlex.split(os.environ.get("TRANSLATE_CHECK") or f"{PROGRAM} translate --check")
TRANSLATE = shlex.split(os.environ.get("TRANSLATE") or f"{PROGRAM} translate")
MOST = "20000000"
TOKEN = re.compile(r"""L?"(?:\\.|[^"\\])*"|L?'(?:\\.|[^'\\])*'|[A-Za-z_]\w*|\.?\d(?:[eEpP][+-]|[\w.])*|->|\+\+|--|<<=?|>>=?|&&|\|\||\.\.\.|[-+*/%&|^=!<>]=|\S""")
TYPES = set("void char short int long float double signed unsigned const volatile struct union enum static extern register auto inline typedef _Bool "
            "__complex__ _Complex __extension__ __signed__ __const __volatile__ __inline__ __inline __typeof__ typeof restrict __restrict".split())
WORDS_BEFORE = {"return", "case", "else", "do", "goto", "sizeof", "if", "while", "for", "switch"}
HEAD = """int torture_ends[1];
void abort(void) { write_word(134); torture_ends[1] = 0; }
void exit(int status) { write_word(1000 + (status & 255)); torture_ends[1] = 0; }
"""
ENDINGS = re.compile(r"(?:extern\s+)?void\s+(?:abort\s*\(\s*(?:void)?\s*\)|exit\s*\(\s*(?:int\s*\w*)?\s*\))(?:\s*__attribute__\s*\(\(.*?\)\))?\s*;")


def tokens_of(text):
    return TOKEN.findall(text)


def type_names(tokens):
    """The words that are types here: those of C, and each name before the `;` of a typedef."""
    names, at = set(TYPES), 0
    while at < len(tokens):
        if tokens[at] == "typedef":
            depth = 0
            while at < len(tokens) and (tokens[at] != ";" or depth):
                depth += (tokens[at] == "{") - (tokens[at] == "}")
                if not depth and re.match(r"[A-Za-z_]", tokens[at]) and at + 1 < len(tokens) and tokens[at + 1] in (";", ",", "[", "__attribute__"):
                    names.add(tokens[at])
                at += 1
        at += 1
    return names


def has_pointer(text):
    tokens = tokens_of(text)
    types, opened, closed_type = type_names(tokens), [], False
    for at, it in enumerate(tokens):
        before = tokens[at - 1] if at else ";"
        if it == "(":
            opened.append(at)
        if it[0] == '"' or it[:2] == 'L"' or it == "->" or it in ("va_list", "__builtin_va_list", "goto*"):
            return True
        if it in ("*", "&", "&&"):
            is_name = re.match(r"[\w'.]", before) and before not in WORDS_BEFORE
            is_type = before in types or (at > 1 and tokens[at - 2] in ("struct", "union", "enum"))
            if (not is_name and before not in (")", "]")) or is_type or (before == ")" and closed_type):
                return True
        if it == "[" and opened:
            start = max(opened[-1], max((k for k in range(opened[-1], at) if tokens[k] == ","), default=0))
            if tokens[start + 1] in types and tokens[opened[-1] - 1] not in ("sizeof", "__alignof__", "for"):
                return True
        if it == ")" and opened:
            start = opened.pop()
            closed_type = tokens[start + 1] in types and tokens[start - 1] not in ("sizeof", "__alignof__")
    return False


def said(command, text):
    """Whether a text is taken, or else the number of the fault and its place."""
    ran = subprocess.run(command, input=text.encode(), capture_output=True, check=False, timeout=60)
    first = ran.stdout.decode(errors="replace").split("\n", 1)[0]
    found = re.search(r"fault (\d+)(?: at (\d+):(\d+))?", first)
    return (int(found[1]), int(found[2] or 0), int(found[3] or 0)) if found else None if ran.returncode == 0 else (0, 0, 0)


def token_at(text, line, column):
    lines = text.split("\n")
    rest = lines[line - 1][column - 1:] if 0 < line <= len(lines) else ""
    found = TOKEN.match(rest)
    return found[0] if found else "the end"


def refusal(text, fault):
    number, line, column = fault
    return f"fault {number} at `{token_at(text, line, column)}`" if line else f"fault {number}"


def gcc_ends(text, room):
    """How gcc's program ends: a status, `abort`, or None if gcc does not take the text."""
    with open(f"{room}/program.c", "w", encoding="utf-8") as it:
        it.write(text)
    made = subprocess.run(["gcc", "-std=gnu99", "-fgnu89-inline", "-w", "-fwrapv", "-funsigned-char", "-O0", "-o", f"{room}/program", f"{room}/program.c", "-lm"], capture_output=True, check=False)
    if made.returncode:
        return None
    status = subprocess.run([f"{room}/program"], capture_output=True, check=False, timeout=60).returncode
    return "abort" if status == -6 else status


def ends(text):
    """How the interpreted program ends."""
    printed = subprocess.run(TRANSLATE, input=text.encode(), capture_output=True, check=False).stdout
    ran = subprocess.run([PROGRAM, "--quiet", "interpret", MOST], input=printed, capture_output=True, check=False, timeout=600).stdout.decode().split("\n")
    lines = [it for it in ran if it]
    end = lines[-1] if lines else ""
    if end.startswith("ended"):
        return int(end.split()[1]) % 256
    word = int(lines[-2]) if len(lines) > 1 and lines[-2].lstrip("-").isdigit() else 0
    return "abort" if word == 134 else word - 1000 if 1000 <= word < 1256 else end


def main():
    folder = sys.argv[1]
    paths = sorted(glob.glob(f"{folder}/**/*.c", recursive=True))
    programs, taken, wide, differ, refusals = 0, 0, 0, [], collections.Counter()
    with tempfile.TemporaryDirectory() as room:
        for path in paths:
            ran = subprocess.run(["gcc", "-E", "-P", "-w", "-std=gnu99", path], capture_output=True, check=False)
            body = ran.stdout.decode(errors="replace")
            if ran.returncode or has_pointer(body):
                continue
            body = re.sub(r"\bmain\s*\(\s*\)", "main (void)", ENDINGS.sub("", body))
            text = HEAD + body
            programs += 1
            taken += said(CHECK, text) is None
            fault = said(TRANSLATE_CHECK, text)
            if fault:
                refusals[refusal(text, fault)] += 1
                continue
            wide += 1
            want, have = gcc_ends(body, room), ends(text)
            if want != have:
                differ.append(f"{os.path.relpath(path, folder)}: gcc {want}, translated {have}")
    print(f"{len(paths)} programs, {programs} without pointers: check takes {taken}, translate --check {wide}; {len(differ)} of these differ from gcc's")
    print("\n".join(differ))
    print("\n".join(f"{count:5} {what}" for what, count in refusals.most_common(20)))
    return 1 if differ else 0


if __name__ == "__main__":
    sys.exit(main())
