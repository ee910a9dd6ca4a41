#!/usr/bin/env python3
"""Simulates power cuts in the middle of a --format over a full library, with images, and opens what is left.

format_cuts.py [--device] [FOLDER] [SEED]: works in FOLDER (this one), with random images from SEED (1). A library with areas of AREA bytes is filled,
and formatted again while calls.c records each call that changes or syncs the file. For each cut between two calls, images are made that the cut may
leave: of what was not synced, each sector is as before, as a call made it, or all zeros, and the length is one that the file had since the sync. Most
of these are not tried: only images that are all of one kind from each sector on or up to it, those with one sector of another kind, and random
mixtures; and for a call that changes a few bytes every mixture of these. Then the program opens each. It prints how often an image is no library
(38), is damaged (37), is empty, is the old library in every byte, or, in any other state, has a unit, which must never happen: the status is 1 then.

The program is `cclib library`, which has to be built (./cclib --prove), or CCLIB names one that is. With --device the library is on a loop device over the
file, which requires root."""

import collections
import os
import random
import subprocess
import sys
import tempfile

import kills

HERE = os.path.dirname(os.path.abspath(__file__))
AREA = 16384
SECTOR = 512
MIXTURES = 40
SOURCES = [f"int main(void){{write_word({it});return {it};}}" for it in range(1000)]


class Session:
    """A session of the program; the library has been compacted once, so that both areas hold records."""

    PROGRAM = kills.Session.PROGRAM

    def run(self, path, script, *options, **how):
        return subprocess.run([self.PROGRAM, "library", path, *options, "--quiet"], input=script, capture_output=True, text=True, **how)

    def make(self, path, **how):
        return self.run(path, "", "--format", str(AREA), **how)

    def fill(self, path):
        add = lambda number: f"add u{number} {len(SOURCES[number])}\n{SOURCES[number]}\n"
        self.run(path, "".join(add(it) for it in range(20)) + "".join(f"withdraw u{it}\n" for it in range(0, 20, 2)) + "compact\n")
        self.run(path, "".join(add(it) for it in range(20, 1000)))

    def look(self, path):
        lines = self.run(path, "list\n").stdout.split("\n")
        fault = next((int(it.split()[1]) for it in lines if it.startswith("fault ")), 0)
        return fault, sum(it.startswith("unit ") for it in lines)


class Device:
    """A loop device over a file."""

    def __init__(self, path):
        made = subprocess.run(["losetup", "-f", "--show", path], check=True, capture_output=True, text=True)
        self.path = made.stdout.strip()

    def end(self):
        subprocess.run(["losetup", "-d", self.path], check=True)


def recorded(store, path, work):
    """The recorded calls of a --format over that file."""
    library, told = os.path.join(work, "calls.so"), os.path.join(work, "calls")
    subprocess.run(["gcc", "-O1", "-shared", "-fPIC", "-o", library, os.path.join(HERE, "shims/calls.c"), "-ldl"], check=True)
    done = store.make(path, env={**os.environ, "LD_PRELOAD": library, "CALLS_OF": path, "CALLS_TO": told})
    if done.returncode:
        sys.exit(f"format_cuts.py: the file is not formatted: {done.stdout}{done.stderr}")
    with open(told) as file:
        return [it.split() for it in file]


def after(state, call):
    """A file's bytes after a call."""
    kind, at = call[0], int(call[1]) if len(call) > 1 else 0
    if kind == "length":
        return state[:at].ljust(at, b"\0")
    if kind == "room":
        return state.ljust(at + int(call[2]), b"\0")
    if kind == "write":
        data = bytes.fromhex(call[2])
        return state.ljust(at, b"\0")[:at] + data + state[at + len(data) :]
    return state


def images(states, chance):
    """What a cut may leave, if the file's bytes since the last sync were those of each state in turn."""
    most = max(len(it) for it in states)
    part = lambda it, at: it[at : at + SECTOR].ljust(min(SECTOR, most - at), b"\0")
    sectors = range(0, most, SECTOR)
    # If no call since the sync changed anything, nothing is lost.
    changed = [any(part(it, at) != part(states[0], at) for it in states) for at in sectors]
    kinds = dict.fromkeys([states[0], states[-1], b"", *chance.sample(states, min(len(states), 4))])
    wholes = [[part(kind if is_changed else states[0], at) for at, is_changed in zip(sectors, changed)] for kind in kinds]
    found = [*wholes]
    for one in wholes:
        for other in wholes if any(changed) else ():
            for it in range(len(sectors)):
                found.append(one[:it] + other[it:])
                found.append(one[:it] + other[it : it + 1] + one[it + 1 :])
    for _ in range(MIXTURES):
        found.append([chance.choice(parts) for parts in zip(*wholes)])
    lengths = {len(it) for it in (states[0], states[-1], *chance.sample(states, min(len(states), 4)))}
    return {b"".join(it)[:length] for it in found for length in lengths}


def torn(old, new):
    """What a cut in the middle of a write of a few bytes may leave: every mixture of the bytes before it and after it."""
    places = [it for it in range(len(old)) if old[it] != new[it]] if len(old) == len(new) else []
    mixtures = {old}
    for it in places if len(places) <= 17 else ():
        mixtures |= {one[:it] + new[it : it + 1] + one[it + 1 :] for one in mixtures}
    return mixtures


def main():
    words = [it for it in sys.argv[1:] if not it.startswith("--")]
    store = Session()
    chance = random.Random(int(words[1]) if len(words) > 1 else 1)
    with tempfile.TemporaryDirectory(dir=words[0] if words else ".") as work:
        path = os.path.join(work, "disk")
        with open(path, "wb") as file:
            file.truncate(16 + 2 * AREA + 496)
        device = Device(path) if "--device" in sys.argv else None
        disk = device.path if device else path
        store.make(disk)
        store.fill(disk)
        with open(disk, "rb") as file:
            old = file.read()
        calls = recorded(store, disk, work)
        if device:
            device.end()
        units = store.look(path)
        states, tried, told = [old], set(), collections.Counter()
        for call in [None, *calls]:
            if call and call[0] == "sync":
                states = states[-1:]
            elif call:
                states.append(after(states[-1], call))
            tried |= images(states, chance) | torn(states[0], states[-1])
        image = os.path.join(work, "image")
        for it in tried:
            with open(image, "wb") as file:
                file.write(it)
            fault, count = store.look(image)
            told[f"fault {fault}" if fault else "the old library" if it == old else "a unit" if count else "empty"] += 1
    print("calls: " + ", ".join(f"{many} {what}" for what, many in collections.Counter(it[0] for it in calls).items()))
    print(f"{len(tried)} images: " + ", ".join(f"{many} {what}" for what, many in sorted(told.items())))
    sys.exit(told["a unit"] > 0 or units != (0, 0))


if __name__ == "__main__":
    main()
