#!/usr/bin/env python3
"""Checks on images that a power cut leaves everything in a server's library that was answered before the cut.

answered_cuts.py [--program PROGRAM] [SCRIPTS] [SEED] [FOLDER]: a server has 16 submitters, each of which sends SCRIPTS scripts (12), one after the
other, which change units of its own; answered_cuts.c records each call that changes or syncs the library's file, and each answer at the moment at
which it is handed over, before a client can read it. Then the power is cut after each call and within each write. What was not synced is lost, or
kept, or becomes zeros, all of it; or a piece of it is kept from either end; or each byte is one of these or any other (docs/DISK.md). Each image is
read here, by a reader that follows only docs/FORMATS.md. For each submitter the image has to have the units that the submitter's scripts make up to
some command, and this command must not come before the last one that was answered `ok` until the cut. Every fiftieth image is also opened by the
program, which has to list the same units. The status is 1 if that is not so."""

import collections
import os
import random
import re
import shutil
import subprocess
import sys
import threading
import time

import serve

AREA = 1 << 17
SUBMITTERS = 16
NAMES = 3
SAMPLE = 50


def source(number):
    return f"int main(void){{write_word({number});return {number % 200};}}"


# ---- scripts


class Script:
    """Commands on names of one submitter, and what the library answers to each."""

    def __init__(self, owner, chance, numbers):
        self.commands = [("compact",)] if owner == 0 and chance.random() < 0.5 else []
        for _ in range(chance.randint(1, 4)):
            name, kind = f"s{owner}_{chance.randrange(NAMES)}", chance.choice(["add", "add", "replace", "withdraw"])
            self.commands.append((kind, name) if kind == "withdraw" else (kind, name, source(next(numbers))))

    def text(self):
        return "".join(f"{it[0]} {it[1]} {len(it[2])}\n{it[2]}\n" if len(it) == 3 else " ".join(it) + "\n" for it in self.commands)

    def states(self, units, lines):
        """The units after each command that was done, as its answer says."""
        if len(lines) != len(self.commands):
            raise serve.Wrong(f"{len(lines)} lines for {self.commands}: {lines}")
        for command, line in zip(self.commands, lines):
            if command[0] != "compact" and re.fullmatch(r"ok \d+", line):
                if (command[0] == "add") == (command[1] in units):
                    raise serve.Wrong(f"{command} answered {line} over {sorted(units)}")
                units = {name: it for name, it in units.items() if name != command[1]}
                if len(command) == 3:
                    units[command[1]] = command[2]
                yield units
            elif line not in ("ok", "fault 31 Exists", "fault 32 Absent", "fault 34 Full"):
                raise serve.Wrong(f"{command} answered {line}")


def submit_all(place, owner, count, seed, told):
    """One submitter: its scripts, one after the other."""
    chance, numbers = random.Random(f"{seed} {owner}"), iter(range(owner * 10**6, 10**9))
    for _ in range(count):
        script = Script(owner, chance, numbers)
        lines = place.submit(script=script.text()).stdout.split("\n")[:-1]
        told[owner].append((script, lines))


def record(place, count, seed):
    """A server with submitters: the recorded calls, and each submitter's scripts with their answers."""
    library, calls = f"{place.work}/answered_cuts.so", f"{place.work}/calls"
    subprocess.run(["gcc", "-O1", "-shared", "-fPIC", "-o", library, os.path.join(serve.HERE, "shims/answered_cuts.c"), "-ldl"], check=True)
    place.library("", "--format", str(AREA))
    with open(place.disk, "rb") as file:
        first = file.read()
    os.environ.update(LD_PRELOAD=library, CALLS_OF=place.disk, CALLS_TO=calls)
    server = place.start("--clients", str(SUBMITTERS))
    for name in ("LD_PRELOAD", "CALLS_OF", "CALLS_TO"):
        del os.environ[name]
    place.wait_ready()
    told = collections.defaultdict(list)
    threads = [threading.Thread(target=submit_all, args=(place, it, count, seed, told)) for it in range(SUBMITTERS)]
    for it in threads:
        it.start()
    for it in threads:
        it.join()
    place.stop(server)
    with open(calls) as file:
        return first, [it.split(" ") for it in file.read().split("\n")[:-1]], told


# ---- the library, as docs/FORMATS.md describes it


class Damaged(serve.Wrong):
    """Bytes that are not a library."""


def number_at(data, at):
    if at + 4 > len(data):
        raise Damaged("a number past the end")
    return int.from_bytes(data[at : at + 4], "little")


def records(image):
    """The bodies of a journal."""
    area = number_at(image, 8)
    if image[1:8] != b"CCLIB01" or image[12:16] != bytes(4) or not 64 <= area <= 1 << 30 or 16 + 2 * area > len(image):
        raise Damaged("the header")
    at = 16 + area * (image[0] % 2)
    end = at + area
    while image[at] == 0xA5:
        length = number_at(image, at + 1)
        if at + 5 + length >= end:
            raise Damaged("a record past its area")
        yield image[at + 5 : at + 5 + length]
        at += 5 + length


def units_of(image):
    """The units of a library: the source of each name."""
    units = {}
    for body in records(image):
        version, kind, length = body[0], body[1], body[2]
        name, at = body[3 : 3 + length].decode(), 3 + length
        if version not in (1, 2) or kind not in (1, 2, 3) or (kind == 1) == (name in units):
            raise Damaged(f"a command {body[:20]}")
        if kind == 3:
            del units[name]
        else:
            # Source, code, globals; in version 2 also a certificate.
            for it, width in enumerate((1, 4, 4, 1)[: version + 2]):
                size = width * number_at(body, at)
                units[name] = units[name] if it else body[at + 4 : at + 4 + size].decode()
                at += 4 + size
        if at != len(body):
            raise Damaged("bytes behind a command")
    return units


# ---- cuts


def mixtures(old, new, chance):
    """What the range of writes that were not synced may hold, given the bytes before and after them."""
    count = len(old)
    zeros, noise = bytes(count), chance.randbytes(count)
    some = {chance.randrange(count + 1) for _ in range(2)}
    found = {old, new, zeros, noise}
    for at in some:
        found |= {new[:at] + old[at:], old[:at] + new[at:], new[:at] + zeros[at:], zeros[:at] + new[at:]}
    for _ in range(2):
        found.add(bytes(chance.choice(it) for it in zip(old, new, zeros, noise)))
    return found


def after(state, call):
    """The file's bytes after a call, and the range that the call unsettles."""
    at, data = int(call[1]), bytes.fromhex(call[2])
    return state[:at] + data + state[at + len(data) :], range(at, at + len(data))


def images(settled, state, unsettled, chance):
    """What a cut may leave, given the synced bytes and the last ones."""
    if not unsettled:
        return {settled}
    begin, end = min(it.start for it in unsettled), max(it.stop for it in unsettled)
    return {settled[:begin] + it + settled[end:] for it in mixtures(settled[begin:end], state[begin:end], chance)}


class Submitter:
    """What a library has to have for one submitter: the states that its commands make, and how far they were answered."""

    def __init__(self, scripts):
        self.states, self.ends, self.answered = [{}], [], 0
        for script, lines in scripts:
            self.states += script.states(self.states[-1], lines)
            self.ends.append((script.text(), lines, len(self.states) - 1))

    def answer(self, text, lines):
        wanted, own, end = self.ends.pop(0)
        if (wanted, own) != (text, lines):
            raise serve.Wrong(f"an answer {lines} to {text!r}; the submitter read {own} to {wanted!r}")
        self.answered = end

    def is_kept(self, units):
        return units in self.states[self.answered :]


def look(place, image, submitters, is_opened):
    """Whether an image has what was answered; the program checks this too if it is asked to."""
    units = units_of(image)
    own = collections.defaultdict(dict)
    for name, text in units.items():
        own[int(name[1:].split("_")[0])][name] = text
    for owner, submitter in submitters.items():
        if not submitter.is_kept(own[owner]):
            raise serve.Wrong(f"of submitter {owner} an image has {own[owner]}; answered was {submitter.states[submitter.answered]}")
    if is_opened:
        with open(place.disk, "wb") as file:
            file.write(image)
        lines = place.library("list\n")
        if lines != [f"unit {it}" for it in sorted(units)] + ["ok 1"]:
            raise serve.Wrong(f"the program lists {lines}, and the image has {sorted(units)}")


def cut(place, first, calls, submitters, chance):
    """Cuts the power after each call. Returns how many images there were, for each kind of call before the cut."""
    settled = state = first
    unsettled, tried, opened = [], collections.Counter(), 0
    for call in [["begin"], *calls]:
        if call[0] == "answer":
            script, lines = bytes.fromhex(call[2]).decode(), bytes.fromhex(call[3]).decode().split("\n")[:-1]
            if script != "list\n":
                submitters[int(re.search(r" s(\d+)_", script)[1])].answer(script, lines)
        elif call[0] == "write":
            state, changed = after(state, call)
            unsettled.append(changed)
        elif call[0] == "sync":
            settled, unsettled = state, []
        elif call[0] != "begin":
            raise serve.Wrong(f"a call that no server makes: {call}")
        for image in images(settled, state, unsettled, chance):
            is_opened = sum(tried.values()) % SAMPLE == 0
            look(place, image, submitters, is_opened)
            tried[call[0]] += 1
            opened += is_opened
    return tried, opened


def main():
    words = sys.argv[1:]
    if "--program" in words:
        at = words.index("--program")
        serve.PROGRAM = words[at + 1]
        del words[at : at + 2]
    count, seed = int(words[0]) if words else 12, int(words[1]) if len(words) > 1 else 1
    if len(words) > 2:
        os.environ["TMPDIR"] = words[2]
    place = serve.Place()
    try:
        first, calls, told = record(place, count, seed)
        submitters = {owner: Submitter(scripts) for owner, scripts in told.items()}
        tried, opened = cut(place, first, calls, submitters, random.Random(seed))
    except serve.Wrong as wrong:
        sys.exit(f"answered_cuts.py: {wrong}")
    finally:
        shutil.rmtree(place.work)
    kinds = collections.Counter(it[0] for it in calls)
    print(f"{SUBMITTERS} submitters, {SUBMITTERS * count} scripts: {kinds['answer']} answers, {kinds['write']} writes, {kinds['sync']} syncs")
    print(f"{sum(tried.values())} images, {opened} of them opened by the program: each has what was answered until then")


if __name__ == "__main__":
    main()
