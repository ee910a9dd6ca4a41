#!/usr/bin/env python3
"""Tests a server and its clients, as processes: killed again and again, among hostile things, and without room.

serve.py kills [COUNT] [SEED]     COUNT kills (200) of a server with 16 submitters, each followed by a restart: each answer is compared with
                                  the library, which must have all that was acknowledged, and at most one more unit for each script
serve.py hostile                  things in FOLDER that are no scripts, users and groups (root: the server runs as another user)
serve.py small                    FOLDER on a file system of 64 KiB that is full (root)

--program PROGRAM takes a program other than crates/cclib/out/cclib. The status is 1 if something is not as it should be."""

import grp
import os
import random
import re
import shutil
import subprocess
import sys
import tempfile
import time

HERE = os.path.dirname(os.path.abspath(__file__))
PROGRAM = os.environ.get("CCLIB") or os.path.join(HERE, "../../crates/cclib/out/cclib")
SUBMITTERS = 16
UNITS = 3
UNIT = "int main(void){int i;int s=0;for(i=1;i<=10;i++)s+=i;write_word(s);return 0;}"
# A run of this program writes 18 MB.
LOUD = "int main(void){int i;for(i=0;i<1500000;i++)write_word(-2000000000);return 0;}"
# A run of this program takes some seconds.
SLOW = "int main(void){int i;for(i=0;i<50000000;i++);return 0;}"
# Users and a group that nobody else has.
SERVER, FRIEND, STRANGER, TEAM = 61001, 61002, 61003, 61004


class Wrong(Exception):
    """Something that is not as it should be."""


def must(is_right, what):
    if not is_right:
        raise Wrong(what)


class Place:
    """A folder of its own, with a library and a spool."""

    def __init__(self, user=None):
        self.work = tempfile.mkdtemp(prefix="serve-")
        self.disk, self.spool = f"{self.work}/units.disk", f"{self.work}/spool"
        self.program = f"{self.work}/cclib"
        shutil.copy(PROGRAM, self.program)
        os.chmod(self.work, 0o755)
        self.user = {} if user is None else {"user": user, "group": user, "extra_groups": [TEAM]}
        if user is not None:
            os.chown(self.work, user, user)

    def file(self, part, name=""):
        return f"{self.spool}/{part}/{name}"

    def library(self, script, *options):
        words = [self.program, "library", self.disk, *options, "--quiet"]
        return subprocess.run(words, input=script, capture_output=True, text=True, timeout=300).stdout.split("\n")[:-1]

    def start(self, *options):
        """A server that takes scripts."""
        words = [self.program, "serve", self.disk, self.spool, *options]
        # Standard error goes to a file, since nobody reads the pipe of a server that is killed.
        with open(f"{self.work}/told", "a") as told:
            server = subprocess.Popen(words, stdout=subprocess.PIPE, stderr=told, text=True, **self.user)
        return server

    def wait_ready(self):
        for _ in range(600):
            if os.path.isdir(self.file("done")) and self.submit("list").returncode == 0:
                return
            time.sleep(0.1)
        raise Wrong("the server does not begin")

    def stop(self, server, status=0):
        with open(f"{self.spool}/stop", "w"):
            pass
        said = server.communicate(timeout=300)[0]
        must(server.returncode == status, f"the server ended with {server.returncode}: {said}")
        return said.split("\n")[:-1]

    def submit(self, *words, script="", user=None):
        other = {} if user is None else {"user": user, "group": user, "extra_groups": [TEAM] if user == FRIEND else []}
        words = [self.program, "submit", self.spool, *words]
        return subprocess.run(words, input=script, capture_output=True, text=True, timeout=300, **other)

    def left(self):
        """What is left in the folder: nothing, if all was answered and removed, except the files with which a server that was killed during its start
        tried the folder."""
        names = [f"{part}/{name}" for part in ("tmp", "new", "cur", "done") for name in sorted(os.listdir(self.file(part)))]
        return [it for it in names if "/.try-" not in it]


# ---- kills


class Script:
    """A script that adds units of its own and runs each, the process that sends it, and what became of it."""

    def __init__(self, place, owner, number):
        self.names = [f"s{owner}_{number}_{it}" for it in range(UNITS)]
        text = "".join(f"add {it} {len(UNIT)}\n{UNIT}\nrun {it} 10000\n" for it in self.names)
        self.process = subprocess.Popen(
            [place.program, "submit", place.spool, "--wait", "600"],
            stdin=subprocess.PIPE, stdout=subprocess.PIPE, stderr=subprocess.DEVNULL, text=True)
        self.process.stdin.write(text)
        self.process.stdin.close()
        self.process.stdin = None

    def end(self):
        self.lines = self.process.communicate(timeout=600)[0].split("\n")[:-1]
        self.is_whole = self.lines[-1:] != ["fault 55 Interrupted"]

    def check(self, units):
        """Compares the answer with the library's units: how many adds it acknowledged, and how many more units there are."""
        lines = self.lines if self.is_whole else self.lines[:-1]
        asked = ["ok", "55", "exited 0"] * UNITS
        found = [re.sub(r"^ok \d+$", "ok", it) for it in lines]
        must(found == asked[: len(found)], f"the answer {self.lines}")
        must(not self.is_whole or len(found) == len(asked), f"an answer that ends early {self.lines}")
        must(self.process.returncode == (0 if self.is_whole else 1), f"the status {self.process.returncode} of {self.lines}")
        said = found.count("ok")
        there = [it in units for it in self.names]
        must(all(there[:said]), f"lost: {self.lines}, {there}")
        must(not any(there[said + 1 :]) and (not there[-1] or said >= UNITS - 1), f"more than one unit: {self.lines}, {there}")
        return said, sum(there) - said


def kill_for_a_while(place, chance, kills):
    """Kills a server this many times while submitters go on. Returns their scripts."""
    server = place.start("--clients", str(chance.choice([4, 16])))
    place.wait_ready()
    running, scripts, count = {}, [], 0
    killed, moment = 0, time.time() + chance.uniform(0.02, 3)
    while killed < kills or running:
        for owner in range(SUBMITTERS):
            if owner in running and running[owner].process.poll() is not None:
                running.pop(owner).end()
            if owner not in running and killed < kills:
                running[owner] = Script(place, owner, count)
                scripts.append(running[owner])
                count += 1
        if killed < kills and time.time() >= moment:
            must(server.poll() is None, "the server ended by itself")
            server.kill()
            server.communicate()
            killed += 1
            server = place.start("--clients", str(chance.choice([4, 16])))
            moment = time.time() + chance.uniform(0.02, 3)
        time.sleep(0.005)
    place.stop(server)
    return scripts


def kills(count=200, seed=1):
    chance = random.Random(seed)
    whole = interrupted = acknowledged = more = killed = 0
    while killed < count:
        place = Place()
        place.library("", "--format", str(1 << 26))
        scripts = kill_for_a_while(place, chance, min(20, count - killed))
        killed += min(20, count - killed)
        units = {it[5:] for it in place.library("list\n") if it.startswith("unit ")}
        for script in scripts:
            said, extra = script.check(units)
            acknowledged, more = acknowledged + said, more + extra
            whole, interrupted = whole + script.is_whole, interrupted + (not script.is_whole)
        must(not place.left(), f"left in the folder: {place.left()}")
        shutil.rmtree(place.work)
        print(f"{killed} kills: {whole} scripts whole, {interrupted} interrupted, {acknowledged} units acknowledged, none lost, {more} more", flush=True)


# ---- hostile things


def answer(place, name):
    """The last lines of an answer, once it is there."""
    path = place.file("done", name)
    for _ in range(9000):
        if os.path.lexists(path):
            with open(path, "rb") as file:
                return file.read().decode().split("\n")[:-1]
        time.sleep(0.1)
    raise Wrong(f"no answer to {name}")


def put(place, name, text="", size=None, mode=0o644):
    """Writes and moves a script as somebody without `cclib` does it."""
    with open(place.file("tmp", name), "w") as file:
        file.write(text)
        if size:
            file.truncate(size)
    os.chmod(place.file("tmp", name), mode)
    os.rename(place.file("tmp", name), place.file("new", name))


# Scripts, what each consists of, and how the last line of its answer begins.
SCRIPTS = [
    ("n" * 64, {"text": "list\n"}, "ok "),
    ("empty", {}, ""),
    ("long", {"size": 16_777_217}, "fault 52 ScriptTooLong"),
    ("sparse", {"size": 1 << 40}, "fault 52 ScriptTooLong"),
    ("lines", {"text": "\n" * 70_000}, "fault 52 ScriptTooLong"),
    ("cut", {"text": "list\nadd x 99\nint main"}, "fault 51 EndOfScript"),
    ("secret", {"text": "list\n", "mode": 0}, "fault 53 ReadFault"),
    ("loud", {"text": f"add loud {len(LOUD)}\n{LOUD}\nrun loud 1000000000\n"}, "fault 54 WriteFault"),
]


def look_at_things(place):
    """Checks which things in `new` are scripts, and how each is answered."""
    new = place.file("new").encode()
    os.symlink("/etc/passwd", new + b"link")
    os.mkdir(new + b"directory")
    os.mkfifo(new + b"pipe")
    others = [b"a.b", b"a b", b"x\xffy", b"n" * 65, b".hidden", b"x.answer"]
    for name in others:
        with open(new + name, "w") as file:
            file.write("list\n")
    for name, made, _ in SCRIPTS:
        put(place, name, **made)
    for name, _, last in SCRIPTS:
        lines = answer(place, name)
        must((lines or [""])[-1].startswith(last) and (last or not lines), f"the answer of {name}: {lines[-1:]}")
        must(name != "lines" or len(lines) == 65_537, f"{len(lines)} lines of {name}")
        must(name != "loud" or len(lines) == 1, f"54 behind {len(lines)} lines")
    must(sorted(os.listdir(new)) == sorted([b"link", b"directory", b"pipe", *others]), f"in new: {os.listdir(new)}")
    print("names, kinds and sizes: as docs/SERVICE.md says", flush=True)


def may(user, act):
    """Whether a user is allowed to do that."""
    child = os.fork()
    if child == 0:
        os.setgroups([])
        os.setgid(user)
        os.setuid(user)
        try:
            act()
        except PermissionError:
            os._exit(1)
        os._exit(0)
    return os.waitstatus_to_exitcode(os.waitpid(child, 0)[1]) == 0


def look_at_users(place):
    """Checks that other users may leave scripts and read answers, and nothing else."""
    done = place.submit("list", user=STRANGER)
    must(done.returncode == 0 and done.stdout.startswith("unit loud"), f"another user's script: {done}")
    must(len(os.listdir(place.file("done"))) > 0, "the answer of another user stays in done")
    for what, act in {
        "write into done": lambda: open(place.file("done", "x"), "w"),
        "look into cur": lambda: os.listdir(place.file("cur")),
        "remove an answer": lambda: os.remove(place.file("done", "empty")),
        "remove a script": lambda: os.remove(place.file("new", "a.b")),
        "move a part": lambda: os.rename(place.file("new"), f"{place.spool}/old"),
        "stop the server": lambda: open(f"{place.spool}/stop", "w"),
    }.items():
        must(not may(STRANGER, act), f"another user may {what}")
    print("another user: leaves scripts, and may do nothing else", flush=True)


def look_at_ends(place, server):
    """Tries a second server, an answer whose place is taken, a kill in a long script, and what the next start makes of these."""
    other = Place(SERVER)
    second = subprocess.run([place.program, "serve", other.disk, place.spool, "--format", "65536"], capture_output=True, text=True, **place.user)
    must(second.stdout == "fault 57 FolderInUse\n" and second.returncode == 1, f"a second server on the folder: {second}")
    second = subprocess.run([place.program, "serve", place.disk, other.spool], capture_output=True, text=True, **place.user)
    must(second.stdout == "fault 35 DiskFault\n" and second.returncode == 1, f"a second server on the file: {second}")
    os.mkdir(place.file("done", "barred"))
    put(place, "barred", "list\n")
    put(place, "runs", f"add slow {len(SLOW)}\n{SLOW}\n" + "run slow 1000000000\n" * 100)
    for _ in range(600):
        if "runs" in os.listdir(place.file("cur")):
            break
        time.sleep(0.01)
    server.kill()
    server.communicate()
    server = place.start()
    place.wait_ready()
    told = answer(place, "runs")
    must(told[-1] == "fault 55 Interrupted", f"a script that a server was killed in: {told[-1:]}")
    must(sorted(os.listdir(place.file("cur"))) == ["barred", "barred.answer"], "an answer whose way is barred")
    os.rmdir(place.file("done", "barred"))
    place.stop(server)
    server = place.start()
    place.wait_ready()
    must(answer(place, "barred")[-1] == "fault 55 Interrupted" and os.listdir(place.file("cur")) == [], "an answer whose way is free again")
    must(place.stop(server)[-1].startswith("served "), "the last line")
    late = place.submit("--wait", "1", "list")
    must(late.stdout == "fault 58 NotTaken\n" and late.returncode == 1, f"no server: {late}")
    shutil.rmtree(other.work)
    print("second servers, barred answers, a kill, no server: as docs/SERVICE.md says", flush=True)


def look_at_a_group():
    """A group's folder: its members are clients, and nobody else."""
    place = Place(SERVER)
    os.mkdir(place.spool)
    os.chown(place.spool, SERVER, TEAM)
    os.chmod(place.spool, 0o2750)
    server = place.start("--format", "1048576")
    place.wait_ready()
    friend, stranger = place.submit("list", user=FRIEND), place.submit("list", user=STRANGER)
    must(friend.returncode == 0 and friend.stdout.startswith("ok "), f"a member of the group: {friend}")
    must(stranger.returncode == 1 and stranger.stdout == "fault 56 FolderFault\n", f"who is no member: {stranger}")
    place.stop(server)
    must(not place.left(), f"left in a group's folder: {place.left()}")
    shutil.rmtree(place.work)
    print("a group's folder: members alone are clients", flush=True)


def hostile():
    must(os.geteuid() == 0, "this needs root")
    must(TEAM not in [it.gr_gid for it in grp.getgrall()], f"the group {TEAM} is somebody's")
    place = Place(SERVER)
    server = place.start("--format", str(1 << 20))
    place.wait_ready()
    look_at_things(place)
    look_at_users(place)
    look_at_ends(place, server)
    shutil.rmtree(place.work)
    look_at_a_group()


# ---- no room


def small():
    must(os.geteuid() == 0, "this needs root")
    place = Place()
    os.mkdir(place.spool)
    subprocess.run(["mount", "-t", "tmpfs", "-o", "size=64k", "tmpfs", place.spool], check=True)
    try:
        server = place.start("--format", str(1 << 20), "--clients", "2")
        place.wait_ready()
        must(place.submit("add", "a", script=UNIT).returncode == 0, "an add")
        filler = f"{place.spool}/filler"
        with open(filler, "wb") as file:
            file.write(bytes(36_864))
        cut = place.submit(script="list\n" * 2500)
        must(cut.stdout == "fault 54 WriteFault\n" and cut.returncode == 1, f"an answer without room: {cut.stdout[-60:]}")
        subprocess.run(["dd", "if=/dev/zero", f"of={filler}", "bs=4096"], stderr=subprocess.DEVNULL, check=False)
        full = place.submit("list")
        must(full.stdout == "fault 56 FolderFault\n" and full.returncode == 1, f"no room at all: {full}")
        must(not place.left(), f"left without room: {place.left()}")
        os.remove(filler)
        must(place.submit("list").returncode == 0, "the same server, when there is room again")
        place.stop(server)
    finally:
        subprocess.run(["umount", place.spool], check=False)
    shutil.rmtree(place.work)
    print("no room: 54 for the answer, 56 for the script, and then the same server goes on", flush=True)


def main():
    global PROGRAM
    words = sys.argv[1:]
    if "--program" in words:
        at = words.index("--program")
        PROGRAM = words[at + 1]
        del words[at : at + 2]
    work = {"kills": kills, "hostile": hostile, "small": small}.get(words[0] if words else "")
    if not work:
        sys.exit(__doc__)
    try:
        work(*[int(it) for it in words[1:]])
    except Wrong as wrong:
        sys.exit(f"serve.py: {wrong}")


if __name__ == "__main__":
    main()
