#!/usr/bin/env python3
"""Kills a process that adds units to a file, again and again, and checks whether the file has every unit that was acknowledged.

kills.py [COUNT] [FOLDER] [SEED]: makes COUNT kills (1000), on a file in FOLDER (this one), at random moments from SEED (1). The process is `cclib
library` with a script of adds, and reports each unit whose add was answered Ok. It is killed (SIGKILL) at a random moment of its first 50
milliseconds; then the library has to open, and a script of one `list` has to find all units that were reported and at most one unit more. Once the
file is full, a new one is made. Build the program first (./cclib --prove), or set CCLIB to a built one."""

import os
import random
import subprocess
import sys
import tempfile
import time

HERE = os.path.dirname(os.path.abspath(__file__))
AREA = 1 << 20


class Session:
    """A session of the program, with a script on standard input."""

    PROGRAM = os.environ.get("CCLIB") or os.path.join(HERE, "../../crates/cclib/out/cclib")
    UNIT = "int f(int x){return x*3;}int main(void){int i;int s=0;for(i=0;i<9;i++)s+=f(i);write_word(s);return s;}"

    def run(self, path, script, *options):
        done = subprocess.run([self.PROGRAM, "library", path, *options, "--quiet"], input=script, capture_output=True, text=True)
        if done.returncode:
            sys.exit(f"kills.py: {done.stdout}")
        return done.stdout.split("\n")[:-1]

    def make(self, path):
        self.run(path, "", "--format", str(AREA))

    def add(self, path, before, moment):
        script = path + ".script"
        with open(script, "w") as file:
            for number in range(before, before + 2000):
                file.write(f"add u{number} {len(self.UNIT)}\n{self.UNIT}\n")
        with open(script) as file:
            process = subprocess.Popen([self.PROGRAM, "library", path, "--quiet"], stdin=file, stdout=subprocess.PIPE)
            printed = until(process, moment)
        lines = printed.split("\n")[:-1]
        said = [it for it in lines if it.startswith("ok ")]
        if said != [f"ok {it + 1}" for it in range(len(said))] or lines[: len(said)] != said:
            sys.exit(f"kills.py: the session printed {lines[:3]}..")
        return len(said), "fault 34 Full" in lines

    def count(self, path):
        names = [it[5:] for it in self.run(path, "list\n")[:-1]]
        if sorted(names) != sorted(f"u{it}" for it in range(len(names))):
            sys.exit(f"kills.py: {len(names)} units, and not the first ones")
        return len(names)


def until(process, moment):
    """What a process prints until the moment at which it is killed."""
    time.sleep(moment)
    process.kill()
    return process.communicate()[0].decode()


def main():
    words, store = sys.argv[1:], Session()
    kills = int(words[0]) if words else 1000
    folder = words[1] if len(words) > 1 else "."
    chance = random.Random(int(words[2]) if len(words) > 2 else 1)
    killed = ended = acknowledged = more = lost = files = before = 0
    with tempfile.TemporaryDirectory(dir=folder) as work:
        path = os.path.join(work, "disk")
        while killed < kills:
            if not os.path.exists(path):
                store.make(path)
                files, before = files + 1, 0
            said, is_full = store.add(path, before, chance.uniform(0, 0.05))
            count, kept = store.count(path), before + said
            acknowledged += said
            lost += max(kept - count, 0)
            if count > kept + 1:
                sys.exit(f"kills.py: {count} units, {kept} acknowledged")
            more += count == kept + 1
            before = count
            if is_full:
                ended += 1
                os.remove(path)
            else:
                killed += 1
    print(f"{killed} kills, {acknowledged} units acknowledged, {lost} lost, {more} times one more; {files} files, {ended} filled")
    sys.exit(lost > 0)


if __name__ == "__main__":
    main()
