#!/usr/bin/env python3
"""Compares what `diff`, `copy`, `log`, `source --at` and `restore` say about random libraries with what this script's own reader finds.

libraries.py [--program PROGRAM] random [COUNT [SEED]]: COUNT pairs of libraries (1,000) from a seed (1), written without the program: some in each of
the two areas, with units of both versions, without a certificate and with a wrong one, replaced and withdrawn, empty and full. For each pair the
script looks at the lines of `diff`; for the first library also at a copy, whole and of some names, into areas of a random size or of the least that
`copy` names; at its `log`, whole and of one name; at what each command stored; and at what `restore` leaves.
libraries.py cuts [SEED]: a copy is killed at each of its calls, is refused each of them (EIO, and EIO although it was done), and is killed at 200
moments. Under the new name there may be nothing or the whole library; anything else that is there is a file NEW.N.copy. What was written is synced
before the new file gets its name.
libraries.py calls [COUNT [SEED]]: COUNT random programs (1,000) in a library: what `call` answers for each on random words within a random bound is
compared with `run` and with the simulator of image.py, which also counts `executed M`; one call after the other, and with `--lines`. The status is 1
if something differs. The program has to be built (./cclib --prove)."""

import os
import random
import signal
import struct
import subprocess
import sys
import tempfile
import time

import compare
import image
sys.path.insert(0, os.path.join(os.path.dirname(os.path.abspath(__file__)), "../../tools"))
import records

HERE = os.path.dirname(os.path.abspath(__file__))
PROGRAM = os.path.join(HERE, "../../crates/cclib/out/cclib")
NAMES = ["a", "b", "c", "d1", "e_", "long_name_of_thirty_two_bytes_xx"]
wrong = 0


def run(*words, **how):
    return subprocess.run([PROGRAM, *words], capture_output=True, stdin=subprocess.DEVNULL, **how)


def differs(what, found, wanted):
    global wrong
    if found != wanted:
        wrong += 1
        if wrong <= 20:
            print(f"{what}: {found!r}\n    and not {wanted!r}")


class Unit:
    def __init__(self, chance):
        self.source = chance.randbytes(chance.choice([0, 1, 5, 70]))
        self.code = chance.randbytes(4 * chance.choice([1, 2, 9]))
        self.globals = chance.randbytes(4 * chance.choice([0, 0, 1, 3]))
        self.certificate = chance.choice([None, None, b"", chance.randbytes(7)])

    def like(self, chance):
        """The same unit, with one part changed in some cases."""
        other = Unit(chance)
        made = Unit(chance)
        made.source, made.code, made.globals, made.certificate = self.source, self.code, self.globals, self.certificate
        part = chance.choice([None, "source", "code", "globals", "certificate"])
        if part:
            setattr(made, part, getattr(other, part))
        return made

    def parts(self):
        return self.source, self.code, self.globals, self.certificate


def spelled(kind, name, unit):
    if kind == 3:
        return bytes([2, 3, len(name)]) + name.encode()
    body = bytearray(records.body(name, unit.source, unit.code, unit.globals, unit.certificate))
    body[1] = kind
    return bytes(body)


def history(chance, most, base=None):
    """Commands that follow one another, and the map that they make."""
    units, commands = {}, []
    for _ in range(chance.randrange(most + 1)):
        name = chance.choice(NAMES)
        if name in units and chance.random() < 0.3:
            commands.append((3, name, None))
            del units[name]
            continue
        unit = base[name].like(chance) if base and name in base and chance.random() < 0.8 else Unit(chance)
        commands.append((2 if name in units else 1, name, unit))
        units[name] = unit
    return commands, units


def written(path, chance, commands):
    made = b"".join(records.record(spelled(*it)) for it in commands)
    area = max(records.LEAST, len(made) + 1 + chance.choice([0, 0, 1, 100, 5000]))
    byte = chance.choice([0, 1, 2, 255])
    other = bytes(area) if chance.random() < 0.5 else chance.randbytes(area)
    used = made.ljust(area, b"\0")
    with open(path, "wb") as file:
        file.write(bytes([byte]) + b"CCLIB01" + struct.pack("<II", area, 0) + (other + used if byte % 2 else used + other))
    return area


def read(path):
    """The map in a library's file, and its commands."""
    with open(path, "rb") as file:
        data = file.read()
    units, commands = {}, []
    for it in records.records(data):
        if it.kind == 3:
            del units[it.name]
            commands.append((3, it.name, None))
            continue
        code = it.source.stop
        words = struct.unpack_from("<I", data, code)[0]
        values = code + 4 + 4 * words
        count = struct.unpack_from("<I", data, values)[0]
        certificate = None if it.certificate is None else data[it.certificate.start : it.certificate.stop]
        unit = data[it.source.start : it.source.stop], data[code + 4 : values], data[values + 4 : values + 4 + 4 * count], certificate
        commands.append((it.kind, it.name, unit))
        units[it.name] = unit
    return units, commands


def parts(units):
    return {name: unit.parts() for name, unit in units.items()}


def diff_of(left, right):
    lines = []
    for name in sorted(set(left) | set(right)):
        if name not in right:
            lines.append(f"left {name}")
        elif name not in left:
            lines.append(f"right {name}")
        else:
            one, other = left[name].parts(), right[name].parts()
            lines += [f"source {name}"] * (one[0] != other[0]) + [f"image {name}"] * (one[1:3] != other[1:3]) + [f"certificate {name}"] * (one[3] != other[3])
    return lines


def log_of(commands, only=None):
    lines = []
    for number, (kind, name, unit) in enumerate(commands, 1):
        if only in (None, name):
            lines.append(f"{number} withdraw {name}" if kind == 3 else f"{number} {('add', 'replace')[kind - 1]} {name} {len(unit.source)} {len(unit.code) // 4}")
    return lines


def lines(done):
    return done.stdout.decode(errors="replace").splitlines()


def least(units):
    made = sum(5 + len(spelled(1, name, unit)) for name, unit in units.items())
    return max(records.LEAST, made + 1)


def try_copy(chance, old, new, units):
    names = [] if chance.random() < 0.5 or not units else chance.sample(sorted(units), chance.randrange(1, len(units) + 1))
    wanted = {it: units[it] for it in names or units}
    room = least(wanted)
    area = chance.choice([room, room, room + 1, 4096, room - 1, 64])
    done = run("copy", old, new, "--format", str(area), *names)
    if not 64 <= area:
        differs("copy: an area below the least", done.returncode, 2)
        return
    if area < room:
        differs("copy: too small", (lines(done), done.returncode, os.path.exists(new)), (["fault 34 Full"], 1, False))
        differs("copy: the least area", f"at least {room}" in done.stderr.decode(), True)
        return
    differs("copy", (lines(done), done.returncode), ([f"copied {it}" for it in sorted(wanted)] + ["ok"], 0))
    found, commands = read(new)
    differs("copy: units", found, parts(wanted))
    differs("copy: records", [(kind, name) for kind, name, _ in commands], [(1, it) for it in sorted(wanted)])
    differs("copy: over a file", (lines(run("copy", old, new, "--format", "4096")), read(new)[0]), (["fault 35 DiskFault"], parts(wanted)))
    os.remove(new)
    try_confirmed(old, new, names, wanted)
    try_refusals(old, new, names, room)


def try_confirmed(old, new, names, wanted):
    """No certificate of these units is right, so an audit confirms none."""
    done = run("copy", old, new, "--format", "64", "--confirmed", *names)
    told = [f"audit {it} {'none' if unit.certificate is None else 'unconfirmed'}" for it, unit in sorted(wanted.items())]
    differs("copy --confirmed", (lines(done), done.returncode), ([*told, "ok"], 1 if told else 0))
    differs("copy --confirmed: units", read(new)[0], {})
    os.remove(new)


def try_refusals(old, new, names, room):
    """33 comes before 32, 32 before 34, and 34 before 35; nothing is made, and what is there stays."""
    with open(new, "wb") as file:
        file.write(b"here")
    there = [("35", room, names)] + [("34", room - 1, names)] * (room > 64) + [("32", 64, [*names, "absent"]), ("33", 64, ["absent", "Bad", *names])]
    for number, area, asked in there:
        done = run("copy", old, new, "--format", str(area), *asked)
        differs(f"copy: {number}", (lines(done)[0].split()[1], done.returncode, open(new, "rb").read()), (number, 1, b"here"))
    os.remove(new)
    with open(new + ".text", "wb") as file:
        file.write(bytes(200))
    for path, number in ((new + ".none", "35"), (new + ".text", "38")):
        done = run("copy", path, new, "--format", "64", "Bad")
        differs(f"copy: {number}", (lines(done)[0].split()[1], done.returncode, os.path.exists(new)), (number, 1, False))
    os.remove(new + ".text")


def try_log(chance, path, commands, units):
    done = run("log", path)
    differs("log", (lines(done), done.returncode), (log_of(commands), 0))
    name = chance.choice(NAMES)
    differs("log of a name", lines(run("log", path, name)), log_of(commands, name))
    number = chance.randrange(1, len(commands) + 2)
    kind, of, unit = commands[number - 1] if number <= len(commands) else (3, name, None)
    name = of if chance.random() < 0.8 else name
    stored = unit if kind != 3 and of == name else None
    done = run("source", path, name, "--at", str(number))
    differs("source --at", (done.stdout, done.returncode), (stored.source, 0) if stored else (b"fault 32 Absent\n", 1))
    done = run("restore", path, name, str(number))
    if not stored:
        differs("restore of nothing", lines(done), ["fault 32 Absent"])
    elif lines(done) == ["fault 34 Full"]:
        differs("restore: full", parts(units), read(path)[0])
    else:
        differs("restore", (lines(done), done.returncode), (["ok"], 0))
        differs("restore: units", read(path)[0], {**parts(units), name: stored.parts()})
        differs("restore: commands", [it[:2] for it in read(path)[1]], [it[:2] for it in commands] + [(2 if name in units else 1, name)])


def try_random(count, seed):
    with tempfile.TemporaryDirectory() as work:
        left, right, new = (os.path.join(work, it) for it in ("left", "right", "new"))
        for number in range(count):
            chance = random.Random(f"{seed} {number}")
            commands, units = history(chance, chance.choice([0, 3, 12]))
            others, other_units = history(chance, chance.choice([0, 3, 12]), units)
            written(left, chance, commands)
            written(right, chance, others)
            done = run("diff", left, right)
            wanted = diff_of(units, other_units)
            differs("diff", (lines(done), done.returncode), (wanted, 1 if wanted else 0))
            try_copy(chance, left, new, units)
            try_log(chance, left, commands, units)
    print(f"{count} pairs of libraries, {wrong} differences")


def state(work, new, units):
    """What is left of a copy: nothing under its name, or all of it."""
    if not os.path.exists(new):
        return "nothing"
    differs("cut: units", read(new)[0], parts(units))
    return "whole"


def tidy(work, keep):
    for it in os.listdir(work):
        if it not in keep:
            differs("cut: left over", it.startswith("new.") and it.endswith(".copy") or it in ("new", "told"), True)
            os.remove(os.path.join(work, it))


def try_cuts(seed):
    chance = random.Random(seed)
    found = {}
    with tempfile.TemporaryDirectory() as work, tempfile.TemporaryDirectory() as place:
        subprocess.run(["gcc", "-O1", "-shared", "-fPIC", "-o", f"{place}/fail.so", f"{HERE}/shims/fail.c", "-ldl"], check=True)
        subprocess.run(["gcc", "-O1", "-shared", "-fPIC", "-o", f"{place}/calls.so", f"{HERE}/shims/calls.c", "-ldl"], check=True)
        old, new = f"{work}/old", f"{work}/new"
        units = {f"u{it}": Unit(chance) for it in range(300)}
        with open(old, "wb") as file:
            made = b"".join(records.record(spelled(1, *it)) for it in sorted(units.items()))
            file.write(b"\0CCLIB01" + struct.pack("<II", len(made) + 1, 0) + made + bytes(len(made) + 2))
        words = [PROGRAM, "copy", old, new, "--format", "1048576", "--quiet"]
        for way in ({"FAIL_KILL": "1"}, {}, {"FAIL_DONE": "1"}):
            number = 0
            while True:
                number += 1
                told = f"{place}/told"
                variables = {**os.environ, "LD_PRELOAD": f"{place}/fail.so", "FAIL_IN": work, "FAIL_AT": str(number), "FAIL_WITH": "5", "FAIL_TOLD": told, **way}
                done = subprocess.run(words, capture_output=True, stdin=subprocess.DEVNULL, env=variables)
                is_met = os.path.exists(told)
                if is_met:
                    os.remove(told)
                there = state(work, new, units)
                if done.returncode == 0:
                    differs("cut: answered", there, "whole")
                found[there] = found.get(there, 0) + 1
                tidy(work, ("old",))
                if not is_met:
                    break
            print(f"{number - 1} calls, {'killed' if 'FAIL_KILL' in way else 'refused'}")
        begin = time.monotonic()
        subprocess.run(words, capture_output=True)
        long = time.monotonic() - begin
        os.remove(new)
        for _ in range(200):
            process = subprocess.Popen(words, stdout=subprocess.DEVNULL, stderr=subprocess.DEVNULL)
            time.sleep(chance.random() * long * 1.2)
            process.send_signal(signal.SIGKILL)
            process.wait()
            there = state(work, new, units)
            found[there] = found.get(there, 0) + 1
            tidy(work, ("old",))
        shell = f"CALLS_OF={new}.$$.copy CALLS_TO={place}/calls LD_PRELOAD={place}/calls.so exec " + " ".join(words)
        subprocess.run(["sh", "-c", shell], capture_output=True)
        with open(f"{place}/calls") as file:
            calls = [it.split()[0] for it in file]
        differs("the last calls of the new file", calls[-4:], ["write", "sync", "write", "sync"])
    print(f"copies that were cut: {found}; {wrong} differences")


def counted(code, data, words, steps):
    """What a simulator that counts says about a run."""
    machine, done, how = image.Machine(code, data, words), 0, None
    while done < steps and not how:
        how, done = machine.step(), done + 1
    return [str(it) for it in machine.written] + [how or "going", f"executed {done}"]


def try_calls(count, seed):
    chance = random.Random(seed)
    texts = {f"u{it}": compare.Writer(seed * 1_000_000 + it).program(it) for it in range(count)}
    with tempfile.TemporaryDirectory() as work:
        disk = f"{work}/disk"
        script = "".join(f"add {name} {len(text)}\n{text}\n" for name, text in texts.items())
        subprocess.run([PROGRAM, "library", disk, "--format", "67108864", "--quiet"], input=script.encode(), capture_output=True)
        units, tried = read(disk)[0], 0
        for name, (_, code, data, _) in units.items():
            words = [chance.choice([0, 1, 2**31, 2**32 - 1, chance.randrange(2**32)]) for _ in range(chance.randrange(4))]
            steps = chance.choice([0, 1, 50, 3000, 200000])
            told = counted(code, data, words, steps)
            asked = [str(it) for it in (steps, *words)]
            differs("call --count", lines(run("call", disk, name, *asked, "--count")), told)
            differs("call", lines(run("call", disk, name, *asked)), told[:-1])
            ran = subprocess.run([PROGRAM, "run", *asked, "--quiet"], input=texts[name].encode(), capture_output=True)
            differs("run", lines(ran), told[:-1])
            line = " ".join(asked[1:])
            by_line = subprocess.run([PROGRAM, "call", disk, name, asked[0], "--lines", "--count"], input=f"{line}\n-1\n{line}\n".encode(), capture_output=True)
            differs("call --lines", (lines(by_line), by_line.returncode), ([*told, "", "fault 50 BadLine", "", *told, ""], 1))
            tried += 1
    print(f"{tried} units, {wrong} differences")


def main():
    global PROGRAM
    words = sys.argv[1:]
    if words[:1] == ["--program"]:
        PROGRAM = os.path.abspath(words[1])
        words = words[2:]
    if words[:1] == ["random"] and len(words) <= 3:
        try_random(*map(int, words[1:2] or [1000]), *map(int, words[2:] or [1]))
    elif words[:1] == ["calls"] and len(words) <= 3:
        try_calls(*map(int, words[1:2] or [1000]), *map(int, words[2:] or [1]))
    elif words[:1] == ["cuts"] and len(words) <= 2:
        try_cuts(int(*(words[1:] or ["1"])))
    else:
        sys.exit(__doc__)
    sys.exit(1 if wrong else 0)


if __name__ == "__main__":
    main()
