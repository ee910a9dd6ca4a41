#!/usr/bin/env python3
"""Audits units of random programs from a file: as they were stored, with one byte changed, and as earlier versions wrote them.

audit.py [COUNT] [SEED] [FOLDER]: COUNT of compare.py's programs (500), from a seed (1), twenty in each library, whose file lies in FOLDER (this one).
Each is compiled and stored, the file is opened again, and every unit has to be confirmed. Then one random byte of each image is changed: no unit may
be confirmed. Then one random byte of each certificate is changed: the units that are still confirmed are counted, and each of them has to run as
before. Last, the records are written as they were before there were certificates: the file has to have the same units, none with a certificate, and
each has to run as before. Build the program first (./cclib --prove), or set CCLIB to a built one."""

import os
import random
import subprocess
import sys
import tempfile

import compare
sys.path.insert(0, os.path.join(os.path.dirname(os.path.abspath(__file__)), "../../tools"))
import records

PROGRAM = os.environ.get("CCLIB") or os.path.join(os.path.dirname(os.path.abspath(__file__)), "../../crates/cclib/out/cclib")
AREA = 1 << 22
TOGETHER = 20
STEPS = 1_000_000


def session(path, script, *options):
    ran = subprocess.run([PROGRAM, "library", path, "--quiet", *options], input=script.encode(), capture_output=True, check=False)
    if ran.returncode:
        sys.exit(f"audit.py: the session ended with {ran.returncode}: {ran.stdout[-200:]!r}")
    return ran.stdout.decode().splitlines()


def audits(path):
    """What the audit of a file's units says about each name."""
    *lines, last = session(path, "audit\n")
    if last != "ok":
        sys.exit(f"audit.py: the audit ended with {last}")
    words = [it.split() for it in lines]
    return {name: said for _, name, said in words}


def runs(path, names):
    """What the runs of a file's units print, for each name."""
    found = {}
    for name in names:
        found[name] = session(path, f"run {name} {STEPS}\n")
    return found


def changed(data, places, chance):
    """A copy with one random byte changed in each of these ranges."""
    new = bytearray(data)
    for places_of_one in places:
        at = chance.choice(places_of_one)
        new[at] ^= chance.randrange(1, 256)
    return new


def earlier(data, found):
    """The same records as they were written before there were certificates."""
    new = data[: records.HEAD] + b"".join(records.record(b"\x01" + data[it.body + 1 : it.behind_image]) for it in found)
    return new + bytes(len(data) - len(new))


def write(path, data):
    with open(path, "wb") as file:
        file.write(data)


class Counts:
    def __init__(self):
        self.confirmed = self.images = self.certificates = self.still = self.before = self.other = 0


def together(seeds, path, chance, counts):
    texts = {f"u{seed}": compare.Writer(seed).program(seed) for seed in seeds}
    script = "".join(f"add {name} {len(text)}\n{text}\n" for name, text in texts.items())
    said = session(path, script, "--format", str(AREA))
    if said != [f"ok {it + 1}" for it in range(len(texts))]:
        sys.exit(f"audit.py: the session printed {said[:3]}..")
    with open(path, "rb") as file:
        data = file.read()
    found = [*records.records(data)]
    if [it.name for it in found] != [*texts]:
        sys.exit("audit.py: the file has other units than were added")
    usual = runs(path, texts)

    for name, word in audits(path).items():
        counts.confirmed += word == "confirmed"
        if word != "confirmed":
            counts.other += 1
            print(f"{name}: {word}\n{texts[name]}", file=sys.stderr)

    write(path, changed(data, [it.image for it in found], chance))
    for name, word in audits(path).items():
        counts.images += 1
        if word != "unconfirmed":
            counts.other += 1
            print(f"{name}: {word} with a byte of its image changed", file=sys.stderr)

    write(path, changed(data, [it.certificate for it in found], chance))
    confirmed = [name for name, word in audits(path).items() if word == "confirmed"]
    counts.certificates += len(found)
    counts.still += len(confirmed)
    for name, lines in runs(path, confirmed).items():
        if lines != usual[name]:
            counts.other += 1
            print(f"{name}: confirmed with another certificate, and runs otherwise", file=sys.stderr)

    write(path, earlier(data, found))
    for name, word in audits(path).items():
        counts.before += 1
        if word != "none":
            counts.other += 1
            print(f"{name}: {word} without a certificate", file=sys.stderr)
    if runs(path, texts) != usual:
        counts.other += 1
        print("a unit without its certificate runs otherwise", file=sys.stderr)


def main():
    count = int(sys.argv[1]) if len(sys.argv) > 1 else 500
    first = int(sys.argv[2]) if len(sys.argv) > 2 else 1
    folder = sys.argv[3] if len(sys.argv) > 3 else os.path.dirname(os.path.abspath(__file__))
    counts, chance = Counts(), random.Random(first)
    with tempfile.TemporaryDirectory(dir=folder) as room:
        path = os.path.join(room, "units.disk")
        for begin in range(first, first + count, TOGETHER):
            together(range(begin, min(begin + TOGETHER, first + count)), path, chance, counts)
            os.remove(path)
    print(
        f"{counts.confirmed} of {count} confirmed; with a byte of the image changed 0 of {counts.images} confirmed; "
        f"with one of the certificate {counts.still} of {counts.certificates}; {counts.before} without certificate as before; {counts.other} other"
    )
    return 1 if counts.other or counts.confirmed != count else 0


if __name__ == "__main__":
    sys.exit(main())
