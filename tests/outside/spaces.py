#!/usr/bin/env python3
"""Compares what `space` in a server's script says with what a reader of the library's file finds.

spaces.py [SCRIPTS] [SEED]     SCRIPTS (200) random scripts over libraries with areas of random size, ten to a server: adds, replaces, withdrawals
                               and compactions, until the area is full and after that. After each command `space` is compared with the records
                               that the file has then, and after each `compact` with what `space` had said that it would leave.

--program PROGRAM takes a program other than crates/cclib/out/cclib. The status is 1 if something differs."""

import os
import random
import shutil
import struct
import subprocess
import sys
import tempfile
import time

sys.path.insert(0, os.path.join(os.path.dirname(os.path.abspath(__file__)), "../../tools"))
import records

HERE = os.path.dirname(os.path.abspath(__file__))
NAMES = ["a", "b", "c1", "long_name_of_thirty_two_bytes_xx"]
EACH = 10


def measured(path):
    """The size of an area, the bytes of its records, the bytes of one record for each unit that is there, and how many units there are."""
    with open(path, "rb") as file:
        data = file.read()
    units, used = {}, 0
    for it in records.records(data):
        used += it.end - it.at
        if it.kind == 3:
            del units[it.name]
        else:
            units[it.name] = it.end - it.at
    return struct.unpack_from("<I", data, 8)[0], used, sum(units.values()), len(units)


def source(chance):
    return f"/*{'x' * chance.choice([0, 0, 20, 300])}*/int main(void){{write_word({chance.randrange(1 << 20)});return 0;}}"


class Server:
    def __init__(self, program, area):
        self.program, self.work = program, tempfile.mkdtemp(prefix="spaces-")
        self.disk, self.spool = f"{self.work}/units.disk", f"{self.work}/spool"
        words = [program, "serve", self.disk, self.spool, "--format", str(area), "--clients", "2", "--quiet"]
        self.server = subprocess.Popen(words, stdout=subprocess.PIPE, text=True)
        for _ in range(600):
            if os.path.isdir(f"{self.spool}/done") and self.submit("list\n") == "ok 1\n":
                return
            time.sleep(0.1)
        raise SystemExit("no server")

    def submit(self, script):
        return subprocess.run([self.program, "submit", self.spool], input=script, capture_output=True, text=True, timeout=600).stdout

    def end(self):
        with open(f"{self.spool}/stop", "w"):
            pass
        said, _ = self.server.communicate(timeout=600)
        shutil.rmtree(self.work)
        return said


def line(chance):
    name, text = chance.choice(NAMES), source(chance)
    return chance.choice([f"add {name} {len(text)}\n{text}\n"] * 4 + [f"replace {name} {len(text)}\n{text}\n"] * 4 + [f"withdraw {name}\n", "compact\n"])


def play(server, chance, found):
    """Runs a script's lines one by one; counts what each of them answers."""
    for _ in range(chance.randrange(1, 12)):
        asked = line(chance)
        before = server.submit("space\n")
        answer = server.submit(asked)
        said = server.submit("space\n")
        wanted = measured(server.disk)
        word = " ".join(answer.split()[: 2 if answer.startswith("fault") else 1])
        found[word] = found.get(word, 0) + 1
        if said != "space {} {} {} {}\nok\n".format(*wanted):
            yield f"{asked!r}, {answer!r}: {said!r} and not {wanted}"
        if asked == "compact\n" and answer == "ok\n" and before.split(" ")[3] != said.split(" ")[2]:
            yield f"compact: {before!r}, and then {said!r}"


def main():
    words = sys.argv[1:]
    program = os.environ.get("CCLIB") or os.path.join(HERE, "../../crates/cclib/out/cclib")
    if "--program" in words:
        at = words.index("--program")
        program = words[at + 1]
        del words[at : at + 2]
    scripts, seed = int(words[0]) if words else 200, int(words[1]) if len(words) > 1 else 1
    chance, wrong, found = random.Random(seed), [], {}
    server = None
    for at in range(scripts):
        if at % EACH == 0:
            if server:
                server.end()
            server = Server(os.path.abspath(program), chance.choice([64, 300, 1000, 3000, 100_000]))
        wrong += play(server, chance, found)
    if server:
        server.end()
    for it in wrong[:20]:
        print(it)
    print(f"{scripts} scripts, seed {seed}: answers {dict(sorted(found.items()))}; {len(wrong)} differ")
    return 1 if wrong else 0


if __name__ == "__main__":
    sys.exit(main())
