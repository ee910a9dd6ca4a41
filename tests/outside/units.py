#!/usr/bin/env python3
"""Changes each byte of a unit's file: no changed file may be confirmed, unless it says less about the same unit.

units.py [PROGRAM] [SEED]: packs a unit, and audits its file with each byte changed in turn to another one (from SEED, 1), cut at each length, with
bytes added, and with each byte of the body changed and the hash made anew, as somebody would do who wants it to be believed. A file may be confirmed
only if its body is the one that was packed. A file that is confirmed otherwise, or that the program answers in another way than with `audit`, Damaged
(37) or a name's line, is printed; the status is 1 if there is one. The program is crates/cclib/out/cclib if none is named."""

import hashlib
import os
import random
import subprocess
import sys
import tempfile
from concurrent.futures import ThreadPoolExecutor

HERE = os.path.dirname(os.path.abspath(__file__))
SOURCE = b"int at[4];int sum(int n){int i;int s=0;for(i=0;i<n;i++)s+=at[i&3];return s;}int main(void){at[1]=read_word();return sum(9);}\n"


def run(program, words, given=b""):
    return subprocess.run([program, *words], input=given, capture_output=True, check=False)


def hashed(head, body):
    """A file with the hash of this body."""
    return b" ".join([*head.split(b" ")[:3], hashlib.sha256(body).hexdigest().encode()]) + b"\n" + body


def changed(unit, rng):
    """Files that differ from the unit's."""
    head, body = unit.split(b"\n", 1)
    for at, byte in enumerate(unit):
        yield f"byte {at}", unit[:at] + bytes([(byte + rng.randrange(1, 256)) % 256]) + unit[at + 1:]
    for at in range(0, len(unit), 7):
        yield f"cut at {at}", unit[:at]
    yield "more", unit + b"\0"
    for at, byte in enumerate(body):
        yield f"body's byte {at}", hashed(head, body[:at] + bytes([(byte + rng.randrange(1, 256)) % 256]) + body[at + 1:])
    yield "body with more", hashed(head, body + b"\0")
    for word in (b"plain", b"checked", b"both", b"none", b"neither", b""):
        yield f"mode {word}", unit.replace(head.split(b" ")[2], word, 1)


def name_of(body):
    """The name in the body of a record."""
    return body[3:3 + body[2]]


def is_right(program, room, body, case):
    """Whether the audit of a file is right."""
    what, file = case
    path = f"{room}/{what.replace(' ', '_').replace(chr(39), '')}"
    with open(path, "wb") as out:
        out.write(file)
    done = run(program, ["audit", "--unit", path])
    os.remove(path)
    has = file.split(b"\n", 1)[-1]
    lines = done.stdout.split(b"\n")
    if done.stdout == b"fault 37 Damaged\n" and done.returncode == 1:
        return True
    # The name of a unit is no part of what an audit looks at.
    same = len(has) > 2 and has[:2] == body[:2] and has[3 + has[2]:] == body[3 + body[2]:]
    if same and lines[0] == b"audit " + name_of(has) + b" confirmed" and done.returncode == 0:
        return True
    if lines[0] in (b"audit " + name_of(has) + b" unconfirmed", b"audit " + name_of(has) + b" none") and done.returncode == 1:
        return True
    print(what, done)
    return False


def main():
    program = os.path.abspath(sys.argv[1]) if len(sys.argv) > 1 else os.path.join(HERE, "../../crates/cclib/out/cclib")
    rng = random.Random(int(sys.argv[2]) if len(sys.argv) > 2 else 1)
    with tempfile.TemporaryDirectory() as room:
        run(program, ["library", f"{room}/d", "--format", "65536"])
        made = run(program, ["add", f"{room}/d", "sum"], SOURCE)
        unit = run(program, ["pack", f"{room}/d", "sum"]).stdout
        if made.stdout != b"ok 1\n" or not unit:
            print(made)
            return 1
        body = unit.split(b"\n", 1)[1]
        with ThreadPoolExecutor(os.cpu_count()) as many:
            answers = list(many.map(lambda case: is_right(program, room, body, case), changed(unit, rng)))
    print(f"{len(answers)} files, {answers.count(False)} wrong")
    return 1 if False in answers else 0


if __name__ == "__main__":
    sys.exit(main())
