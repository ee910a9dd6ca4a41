#!/usr/bin/env python3
"""Attacks from outside: what other users of the machine, closed descriptors, limits, kills and old files can do to the program.

attacks.py [NAME..]     tries these attacks, or all, and reports for each `held`, `BROKEN: what was seen`, or `not tried: why`
attacks.py --list       each name, with what is tried

--program PROGRAM takes a program other than crates/cclib/out/cclib. The status is 1 if an attack is `BROKEN`. Root is needed, for users of the
script's own: a server's, a victim, a stranger who has no group in common with them, and a friend in the server's group. All that the script makes is
in one folder below /tmp, which is removed at the end."""

import collections
import ctypes
import errno
import fcntl
import os
import pwd
import random
import re
import resource
import select
import shutil
import signal
import statistics
import struct
import subprocess
import sys
import tempfile
import time

import serve
from serve import FRIEND, SERVER, STRANGER, TEAM, UNIT

VICTIM = 61005
AREA = str(1 << 20)
ATTACKS = {}


class Broken(Exception):
    """Something that an attack did and must not do."""


class NotTried(Exception):
    """Why an attack can't be tried here."""


class TooLong(Exception):
    """An attack took longer than allowed."""


def attack(line, limit=120):
    """Notes an attack: what is tried, and for how many seconds at most."""

    def note(function):
        ATTACKS[function.__name__.replace("_", "-")] = function, line, limit
        return function

    return note


def must(is_right, what):
    if not is_right:
        raise Broken(what)


def all_must(wrong):
    """Fails if this list has anything in it."""
    must(not wrong, "; ".join(wrong[:6]) + (f"; and {len(wrong) - 6} more" if len(wrong) > 6 else ""))


def counted(wrong):
    """The same; each thing is listed once, with how often it was seen."""
    all_must([f"{count} times {what}" for what, count in collections.Counter(wrong).most_common()])


def busy():
    """How many processes wait for each processor, at least 1: what is measured by the clock may take this many times as long."""
    return max(1.0, os.getloadavg()[0] / os.cpu_count())


# ---- users, and what they do


def become(user):
    os.setgroups([TEAM] if user == FRIEND else [])
    os.setgid(user)
    os.setuid(user)
    os.umask(0o022)


def refusal(user, act):
    """What a user gets who does this: None if it is done, otherwise the system's name for the refusal."""
    reader, writer = os.pipe()
    child = os.fork()
    if child == 0:
        said = b"?"
        try:
            become(user)
            act()
            said = b""
        except OSError as error:
            said = errno.errorcode.get(error.errno, "?").encode()
        finally:
            os.write(writer, said)
            os._exit(0)
    os.close(writer)
    with os.fdopen(reader, "rb") as said:
        word = said.read().decode()
    os.waitpid(child, 0)
    return word or None


def refused(user, acts):
    """Which of these acts are done, or are refused to a user for a reason other than their rights or a name that is taken."""
    said = {what: refusal(user, act) for what, act in acts.items()}
    return [f"{what} ({word or 'done'})" for what, word in said.items() if word not in ("EACCES", "EPERM", "EEXIST")]


class Other:
    """A process of another user that goes on until it is ended, and the lines that it prints. The first one says that it has begun."""

    def __init__(self, user, act):
        self.reader, writer = os.pipe()
        self.child = os.fork()
        if self.child == 0:
            try:
                become(user)
                act(lambda line: os.write(writer, line.encode() + b"\n"))
            finally:
                os._exit(0)
        os.close(writer)
        self.said = b""
        if not os.read(self.reader, 1):
            self.end()
            raise NotTried("the other user's process ended at once")

    def end(self):
        if self.child:
            allowed(os.kill, self.child, signal.SIGKILL)
            os.waitpid(self.child, 0)
            self.child = None
            with os.fdopen(self.reader, "rb") as reader:
                self.said = reader.read()
        return self.said.decode().split("\n")[1:-1]


CREATED, MOVED_TO = 0x100, 0x80


class Watch:
    """The names that appear in a folder, each as soon as it appears: found with inotify, or by looking again and again if there is no inotify."""

    def __init__(self, folder):
        self.folder = folder
        self.seen = set(os.listdir(folder))
        self.library = ctypes.CDLL(None, use_errno=True)
        self.file = self.library.inotify_init1(0)
        if self.file >= 0 and self.library.inotify_add_watch(self.file, folder.encode(), CREATED | MOVED_TO) < 0:
            self.file = -1

    def told(self):
        data, at = os.read(self.file, 1 << 16), 0
        while at < len(data):
            length = struct.unpack_from("iIII", data, at)[3]
            yield data[at + 16 : at + 16 + length].rstrip(b"\0").decode()
            at += 16 + length

    def found(self):
        names = set(os.listdir(self.folder))
        new, self.seen = names - self.seen, names
        return sorted(new)

    def names(self, seconds=None):
        """The names that appear, for this many seconds."""
        end = None if seconds is None else time.time() + seconds
        while end is None or time.time() < end:
            if self.file < 0:
                yield from self.found()
            elif select.select([self.file], [], [], 1 if end is None else max(end - time.time(), 0))[0]:
                yield from self.told()


def exchange(one, other):
    """Exchanges what two paths name (renameat2 of Linux)."""
    library = ctypes.CDLL(None, use_errno=True)
    if library.renameat2(-100, one.encode(), -100, other.encode(), 2):
        raise OSError(ctypes.get_errno(), "renameat2")


# ---- a library and a spool


def processes_of(folder):
    """The processes that have a path of this folder on their command line."""
    found = []
    for process in [int(it) for it in os.listdir("/proc") if it.isdigit() and int(it) != os.getpid()]:
        try:
            with open(f"/proc/{process}/cmdline", "rb") as file:
                found += [process] * (f"{folder}/".encode() in file.read())
        except OSError:
            continue
    return found


class Place(serve.Place):
    """A folder with a library and a spool of the server's user. What was started in it ends when the place does."""

    def __init__(self):
        super().__init__(SERVER)
        self.started, self.others = [], []

    def __enter__(self):
        return self

    def __exit__(self, *_):
        for other in self.others:
            other.end()
        for process in self.started:
            if process.poll() is None:
                process.kill()
            process.wait()
            for pipe in (process.stdin, process.stdout, process.stderr):
                allowed(pipe.close) if pipe else None
        for process in processes_of(self.work):
            allowed(os.kill, process, signal.SIGKILL)
        shutil.rmtree(self.work, ignore_errors=True)

    def launch(self, words, user=None, **more):
        """Starts a process of a user, which ends when this place does."""
        who = {} if user is None else {"user": user, "group": user, "extra_groups": [TEAM] if user == FRIEND else []}
        process = subprocess.Popen(words, **{"stdout": subprocess.PIPE, "stderr": subprocess.PIPE, "text": True, **who, **more})
        self.started.append(process)
        return process

    def start(self, *options):
        server = super().start(*options)
        self.started.append(server)
        return server

    def other(self, act, user=STRANGER):
        other = Other(user, act)
        self.others.append(other)
        return other

    def serve(self, *options):
        """Starts a server that takes scripts."""
        server = self.start("--format", AREA, *options)
        self.wait_for_server(server)
        return server

    def wait_for_server(self, server):
        """Waits until a server answers."""
        for _ in range(600):
            must(server.poll() is None, f"the server ended at once with {server.poll()}")
            if os.path.isdir(self.file("done")) and self.submit("--wait", "5", "list").returncode == 0:
                return
            time.sleep(0.05)
        raise Broken("the server does not begin")

    def make(self):
        """Makes the library and the spool, without a server."""
        self.stop(self.serve())

    def units(self):
        """The units of the library, all of which an audit has to confirm."""
        lines = self.library("list\naudit\n")
        names = {it[5:] for it in lines if it.startswith("unit ")}
        must(len(lines) == 2 * len(names) + 2 and lines[-1] == "ok", f"the library says {lines[-3:]}")
        confirmed = {it.split()[1] for it in lines if it.endswith(" confirmed")}
        must(names == confirmed, f"units that the audit does not confirm: {sorted(names - confirmed)}")
        return names

    def sending(self, *words, user=VICTIM, **more):
        """Starts a `submit` that goes on."""
        return self.launch([self.program, "submit", self.spool, *words], user, **{"stdin": subprocess.PIPE, **more})

    def wait_for(self, part, count=1, seconds=20):
        """The names in a part, once there are this many."""
        for _ in range(seconds * 100):
            names = [it for it in os.listdir(self.file(part)) if not it.startswith((".", "mine"))]
            if len(names) >= count:
                return names
            time.sleep(0.01)
        raise NotTried(f"{part} gets no names")


def put_own(place, name, text="list\n"):
    """Puts a script of the user's own into `tmp`."""
    path = place.file("tmp", name)
    with open(path, "w") as file:
        file.write(text)
    return path


def judged(status, text, name, units):
    """What is wrong with the answer to an `add` under that name."""
    is_ok = status == 0 and re.fullmatch(r"ok \d+\n", text)
    lines = text.split("\n")[:-1]
    if is_ok and name in units:
        return []
    if is_ok:
        return ["`ok`, status 0, and nothing is stored"]
    return [f"`{'|'.join(lines)}`, status {status}, and {'it is' if name in units else 'nothing is'} stored"]


# ---- 1: answers that somebody else might tamper with


@attack("a script is put at new/ID while the victim still writes tmp/ID")
def forged_slow(place):
    """A stranger lists `tmp` and has three seconds, since the victim's script is slow, to put a script of their own at each name that they see.
    The victim's answer has to be that of its own script, and its unit has to be stored."""
    server = place.serve()
    victim = place.sending()
    victim.stdin.write(f"add victim {len(UNIT)}\n")
    victim.stdin.flush()
    names = place.wait_for("tmp")

    def put_all():
        for count, name in enumerate(names):
            os.link(put_own(place, f"mine{count}"), place.file("new", name))

    said = refusal(STRANGER, put_all)
    time.sleep(3)
    text = victim.communicate(f"{UNIT}\n", timeout=60)[0]
    place.stop(server)
    must(said in (None, "EEXIST"), f"the stranger gets {said}")
    all_must(judged(victim.returncode, text, "victim", place.units()))


def answer_names(place, part, act):
    """Lets a stranger do something at each name that appears in a part."""

    def watch(say):
        seen = Watch(place.file(part))
        own = [put_own(place, f"mine{it}") for it in range(400)]
        say("")
        for name in seen.names():
            if not name.startswith("mine"):
                act(name, own)

    return place.other(watch)


def allowed(act, *words):
    """Whether the act is done."""
    try:
        act(*words)
    except OSError:
        return False
    return True


def add_many(place, count):
    """What is wrong with this many `submit add`s, one after the other."""
    server = place.serve()
    yield
    done = [(f"race{it}", place.submit("add", f"race{it}", script=UNIT, user=VICTIM)) for it in range(count)]
    place.stop(server)
    units = place.units()
    yield [wrong for name, one in done for wrong in judged(one.returncode, one.stdout, name, units)]


def race(place, part, act, count):
    """The victim adds this many units, while a stranger does something at each name that appears in a part: this must have no effect."""
    adding = add_many(place, count)
    next(adding)
    answer_names(place, part, act)
    counted(next(adding))


@attack("60 plain `submit add`: by inotify a script is put at new/ID as soon as tmp/ID appears")
def forged_quick(place):
    """The stranger links a script to `new/ID` for each ID that `tmp` shows. Each victim gets the answer to its own script, and its unit is stored."""
    race(place, "tmp", lambda name, own: allowed(os.link, own.pop(), place.file("new", name)), 60)


@attack("12 plain `submit add`: by inotify a FIFO is put at new/ID as soon as tmp/ID appears")
def withheld(place):
    """A FIFO at `new/ID` is never claimed, so whoever needs that name is refused. Each victim is answered all the same."""
    race(place, "tmp", lambda name, own: allowed(os.mkfifo, place.file("new", name)), 12)


@attack("12 plain `submit add`: a directory is put at new/ID, a file at done/ID, another at cur/ID as soon as tmp/ID appears")
def withheld_elsewhere(place):
    """The same with a directory in `new`, and with files in the parts to which only the server may write."""

    def put(name, own):
        allowed(os.mkdir, place.file("new", name))
        for part in ("done", "cur"):
            allowed(os.link, own.pop(), place.file(part, name))
            allowed(os.link, own[-1], place.file(part, f"{name}.answer"))

    race(place, "tmp", put, 12)


@attack("the name that a script has in `new` was never seen in `tmp`, and is not one that can be guessed")
def names(place):
    """Whoever sees `tmp` must not know a name in `new` before it is taken: 12 scripts are left without a server, and no name may be in both parts.
    The random part of a name differs each time, and differs from that of the name in `tmp`."""
    place.make()
    seen = Watch(place.file("tmp"))
    victims = [place.sending("--wait", "60", "list") for _ in range(12)]
    waiting = set(place.wait_for("new", 12))
    written = set(seen.names(0.5))
    must(len(written) >= 12, f"{len(written)} names were seen in `tmp`")
    both = waiting & written
    must(not both, f"{len(both)} of 12 names in `new` were shown by `tmp` before")
    parts = [it.split("-")[-1] for it in [*waiting, *written]]
    must(len(set(parts)) == len(parts), "two names have the same random part")
    must(all(re.fullmatch(r"\d{10}-\d{9}-\d{10}-[0-9a-f]{16}", it) for it in waiting), f"a name: {min(waiting)}")
    for victim in victims:
        victim.kill()


def acts_on(place, part, name, own):
    """What a stranger could do to another user's file in `tmp` or `new`."""
    path, other = place.file(part, name), place.file(part, "other")
    return {
        f"remove {part}/ID": lambda: os.remove(path),
        f"move a file over {part}/ID": lambda: os.rename(own, path),
        f"link a file over {part}/ID": lambda: os.link(own, path),
        f"link a symbol over {part}/ID": lambda: os.symlink("/dev/null", path),
        f"write {part}/ID": lambda: open(path, "r+").close(),
        f"empty {part}/ID": lambda: os.truncate(path, 0),
        f"move {part}/ID away": lambda: os.rename(path, other),
        f"exchange {part}/ID": lambda: exchange(own, path),
        f"change the rights of {part}/ID": lambda: os.chmod(path, 0o666),
        f"change the time of {part}/ID": lambda: os.utime(path, (0, 0)),
        f"make done/ID": lambda: os.close(os.open(place.file("done", name), os.O_CREAT | os.O_WRONLY)),
        f"move a file to done/ID": lambda: os.rename(own, place.file("done", name)),
        f"make cur/ID": lambda: os.link(own, place.file("cur", name)),
        f"see cur/ID": lambda: os.stat(place.file("cur", name)),
    }


def may_link():
    """Whether a user may link to another user's file."""
    with open("/proc/sys/fs/protected_hardlinks") as file:
        return file.read().strip() == "0"


@attack("a script that waits in `new`, and one that is being written in `tmp`: the stranger tries each call on it")
def waiting(place):
    """Without a server the stranger has any amount of time. Each call is refused, and when a server comes, both scripts are done as they were
    sent."""
    place.make()
    quick = place.sending("--wait", "90", "add", "quick")
    quick.stdin.write(UNIT)
    quick.stdin.close()
    quick.stdin = None
    new = place.wait_for("new")[0]
    slow = place.sending("--wait", "90")
    slow.stdin.write(f"add slow {len(UNIT)}\n")
    slow.stdin.flush()
    tmp = place.wait_for("tmp")[0]
    wrong = []
    for part, name in [("new", new), ("tmp", tmp)]:
        own = place.file("tmp", f"mine-{part}")
        must(refusal(STRANGER, lambda: put_own(place, f"mine-{part}")) is None, "the stranger can't write to `tmp`")
        acts = acts_on(place, part, name, own)
        if not may_link():
            acts[f"link {part}/ID to another name"] = lambda: os.link(place.file(part, name), place.file("new", f"again-{part}"))
        wrong += refused(STRANGER, acts)
    server = place.serve()
    said = quick.communicate(timeout=60)[0], slow.communicate(f"{UNIT}\n", timeout=60)[0]
    place.stop(server)
    units = place.units()
    wrong += judged(quick.returncode, said[0], "quick", units) + judged(slow.returncode, said[1], "slow", units)
    all_must(wrong)


@attack("40 `submit add`: at each name that appears in `new` the stranger tries to take its place, until it may")
def claimed(place):
    """A name is known when it is in `new`. As soon as the server has claimed the script, its place is free, and the stranger puts a script there. The
    victim gets the answer to its own script all the same."""

    def put(name, own):
        path = place.file("new", name)
        for count in range(400):
            allowed(os.remove, path)
            allowed(os.rename, own[-1], path)
            allowed(os.link, own[0], place.file("done", name))
            if allowed(os.link, own[-1], path):
                own.pop()
                break

    race(place, "new", put, 40)


@attack("while a script is being done the stranger has a script of its name in `new`; the server is killed, and starts again")
def claimed_and_killed(place):
    """The stranger's file under the name of a script that was begun is not taken for that script: the victim's answer has its own lines and 55, and
    the stranger's script is not done while the victim's answer is there."""
    server = place.serve()
    slow = serve.SLOW
    text = f"add mine {len(slow)}\n{slow}\n" + "run mine 1000000000\n" * 200
    victim = place.sending("--wait", "90")
    victim.stdin.write(text)
    victim.stdin.close()
    victim.stdin = None
    name = [it for it in place.wait_for("cur") if not it.endswith(".answer")][0]
    own = f"add forged {len(UNIT)}\n{UNIT}\n"
    said = refusal(STRANGER, lambda: os.rename(put_own(place, "mine", own), place.file("new", name)))
    must(said is None, f"the stranger gets {said}")
    time.sleep(0.5)
    server.kill()
    server.communicate()
    server = place.serve()
    told = victim.communicate(timeout=90)[0].split("\n")[:-1]
    time.sleep(0.5)
    place.stop(server)
    units = place.units()
    must(re.fullmatch(r"ok \d+", told[0]) and told[-1] == "fault 55 Interrupted", f"the victim is answered {told[:1]} .. {told[-1:]}")
    must("mine" in units, "the victim's unit is not stored")
    must("forged" not in units, "the stranger's script was done in the place of the victim's")


@attack("40 `submit --wait 1 add` while the server is paused for a second; a stranger takes each place in `new` that is free again")
def taken_back(place):
    """Whoever gets 58 has nothing stored, then or later, and whoever gets `ok` has its unit. This holds even if the server comes to the script at the
    moment at which it is taken back, and even if the stranger puts a script under its name as soon as the name is free."""
    server = place.serve()
    os.kill(server.pid, signal.SIGSTOP)

    def put(name, own):
        for _ in range(3000):
            if not own or allowed(os.link, own[-1], place.file("new", name)):
                break
            time.sleep(0.001)

    answer_names(place, "new", put)
    victims = [(f"back{it}", place.sending("--wait", "1", "add", f"back{it}")) for it in range(40)]
    for _, victim in victims:
        victim.stdin.write(UNIT)
        victim.stdin.close()
        victim.stdin = None
    time.sleep(0.9)
    os.kill(server.pid, signal.SIGCONT)
    said = [(name, victim, victim.communicate(timeout=60)[0]) for name, victim in victims]
    time.sleep(1)
    place.stop(server)
    units = place.units()
    wrong = []
    for name, victim, text in said:
        if text == "fault 58 NotTaken\n":
            wrong += ["58, and the unit is stored"] * (name in units)
        else:
            wrong += judged(victim.returncode, text, name, units)
    counted(wrong)


@attack("what a stranger may do in FOLDER and its parts: leave scripts in `tmp` and `new`, and nothing else")
def parts(place):
    """The stranger has no access to the parts, `lock`, `stop`, `.making-PART`, `.try-ID` of cur and done, or any answer."""
    server = place.serve()
    place.submit("list", user=VICTIM)
    answer = place.file("done", os.listdir(place.file("done"))[0])
    at = lambda name: f"{place.spool}/{name}"
    acts = {f"make {it}": lambda it=it: os.close(os.open(at(it), os.O_CREAT | os.O_EXCL | os.O_WRONLY)) for it in ("stop", "x", "cur/x", "done/x")}
    acts |= {f"make the folder {it}": lambda it=it: os.mkdir(at(it)) for it in (".making-cur", ".making-new", "x", "done/x")}
    away = {"lock": "new", "new": "tmp", "tmp": "new", "cur": "new", "done": "new"}
    acts |= {f"move {it} away": lambda it=it, to=to: os.rename(at(it), at(f"{to}/x")) for it, to in away.items()}
    acts |= {f"change the rights of {it}": lambda it=it: os.chmod(at(it), 0o777) for it in (".", "lock", "new", "tmp", "cur", "done")}
    acts |= {
        "remove lock": lambda: os.remove(at("lock")),
        "write lock": lambda: open(at("lock"), "r+").close(),
        "remove an answer": lambda: os.remove(answer),
        "write an answer": lambda: open(answer, "r+").close(),
        "move an answer": lambda: os.rename(answer, at("new/x")),
        "look into cur": lambda: os.listdir(at("cur")),
        "move FOLDER": lambda: os.rename(place.spool, f"{place.work}/x"),
        "make FOLDER's neighbour": lambda: os.mkdir(f"{place.work}/x"),
    }
    wrong = [f"a stranger may {it}" for it in refused(STRANGER, acts)]
    wrong += [f"who may leave scripts may {it}" for it in refused(VICTIM, {it: act for it, act in acts.items() if "answer" in it})]
    place.stop(server)
    all_must(wrong)


def wrong_server(place, user):
    """What is wrong when another user starts a server on the place's folder."""
    own = tempfile.mkdtemp(dir=place.work)
    os.chown(own, user, user)
    before = tree(place.spool)
    done = place.launch([place.program, "serve", f"{own}/disk", place.spool, "--format", AREA], user)
    try:
        said = done.communicate(timeout=15)[0]
    except subprocess.TimeoutExpired:
        said = "a server that works"
    wrong = [f"the server of {user} says {said!r}"] * (not re.match(r"fault 5[67] ", said))
    return wrong + [f"the server of {user} changed what is in FOLDER"] * (before != tree(place.spool))


@attack("a stranger starts a server of their own on FOLDER, and a friend on a group's: while the right one works and while none does")
def other_server(place):
    """Whoever does not own FOLDER can't be a server in it: the answer is 56 or 57, nothing in FOLDER has changed, and the right server goes on. This
    also holds for a member of the group of a group's folder, who may lock its `lock`."""
    wrong = []
    with Place() as group:
        os.mkdir(group.spool)
        os.chown(group.spool, SERVER, TEAM)
        os.chmod(group.spool, 0o2750)
        for here, others, client in [(place, (STRANGER, VICTIM), VICTIM), (group, (STRANGER, FRIEND), FRIEND)]:
            server = here.serve()
            for user in others:
                wrong += wrong_server(here, user)
            done = here.submit("add", "after", script=UNIT, user=client)
            wrong += [f"the right server answers {done.stdout!r}"] * (done.returncode != 0)
            here.stop(server)
            for user in others:
                wrong += wrong_server(here, user)
    all_must(wrong)


def tree(folder):
    """What is in a folder: each path with its kind, rights, owner and bytes."""
    found = {}
    for at, folders, files in os.walk(folder):
        for name in folders + files:
            path = os.path.join(at, name)
            told = os.lstat(path)
            text = b""
            if os.path.isfile(path) and not os.path.islink(path):
                with open(path, "rb") as file:
                    text = file.read()
            found[os.path.relpath(path, folder)] = told.st_mode, told.st_uid, told.st_gid, text
    return found


@attack("ten starts of a server, while a stranger takes each name that appears in `new` (.try-ID) and in FOLDER (.making-PART)")
def start_names(place):
    """A server tries its folder with a file that passes through `new`, and makes its parts under names that are known beforehand. The stranger
    tries to take, replace and fill each as soon as it appears: the start succeeds, and the parts are the server's with their rights."""
    os.mkdir(place.spool)
    os.chown(place.spool, SERVER, SERVER)
    os.chmod(place.spool, 0o755)

    def take(part):
        def act(say):
            seen = Watch(place.file(part))
            say("")
            for name in seen.names():
                path = place.file(part, name)
                for _ in range(200):
                    allowed(os.remove, path)
                    allowed(os.mkdir, f"{path}/x")
                    allowed(os.rename, path, place.file("new", "mine"))
                    allowed(os.symlink, "/etc/passwd", path)

        return place.other(act)

    take(".")
    place.stop(place.serve())
    take("new")
    for _ in range(9):
        place.stop(place.serve())
    wrong = [f"left in FOLDER: {it}" for it in os.listdir(place.spool) if it not in ("new", "tmp", "cur", "done", "lock")]
    for part, rights in [("cur", 0o700), ("done", 0o755), ("new", 0o3777), ("tmp", 0o3777)]:
        told = os.lstat(place.file(part))
        if told.st_uid != SERVER or told.st_mode != 0o040000 | rights:
            wrong.append(f"{part} is of user {told.st_uid} with {told.st_mode:o}")
    all_must(wrong)


def made_before(place, kind):
    """A stranger makes DISK.new before the server does, in a folder like /tmp. Returns what is wrong afterwards."""
    os.chmod(place.work, 0o1777)
    own, precious = f"{place.disk}.new", f"{place.work}/precious"
    with open(precious, "w") as file:
        file.write("precious\n" * 1000)
    os.chown(precious, SERVER, SERVER)

    def make():
        os.umask(0)
        if kind == "file":
            os.close(os.open(own, os.O_CREAT | os.O_WRONLY, 0o666))
        elif kind == "link":
            os.symlink(precious, own)
        else:
            os.mkfifo(own, 0o666)

    said = refusal(STRANGER, make)
    if said:
        raise NotTried(f"the stranger gets {said}")
    server = place.start("--format", AREA)
    for _ in range(50):
        if server.poll() is not None or os.path.lexists(place.disk):
            break
        time.sleep(0.1)
    wrong = []
    if os.path.getsize(precious) != 9000:
        wrong.append("by a link at DISK.new a file of the server's user was overwritten")
    if os.path.lexists(place.disk) and (os.lstat(place.disk).st_uid != SERVER or not refusal(STRANGER, lambda: open(place.disk, "r+").close())):
        wrong.append(f"DISK is the stranger's own {kind}")
    return wrong


@attack("the stranger has made DISK.new before `serve --format` does, as a file, a link, a FIFO, in a folder like /tmp")
def disk_new(place):
    """The name DISK.new is known before it is taken. The resulting library has to belong to the server's user, and nothing else may be overwritten; a
    refusal (35) is all right too."""
    wrong = made_before(place, "file")
    for kind in ("link", "pipe"):
        with Place() as other:
            wrong += made_before(other, kind)
    all_must(wrong)


@attack("FOLDER was made by a stranger before the server starts, in a folder like /tmp")
def folder_before(place):
    """A folder that is not the server's own is refused (56): nothing is written through a link that the stranger put at a part's name."""
    os.chmod(place.work, 0o1777)
    precious = f"{place.work}/precious"

    def make():
        os.mkdir(place.spool, 0o777)
        for part in ("tmp", "new", "done", "cur"):
            os.mkdir(place.file(part), 0o777)
        os.close(os.open(f"{place.spool}/lock", os.O_CREAT | os.O_WRONLY, 0o666))

    said = refusal(STRANGER, make)
    if said:
        raise NotTried(f"the stranger gets {said}")

    def swap(say):
        os.symlink(precious, f"{place.spool}/link")
        say("")
        while True:
            allowed(exchange, f"{place.spool}/link", f"{place.spool}/lock")

    place.other(swap)
    wrong = []
    for _ in range(20):
        server = place.start("--format", AREA)
        try:
            said = server.communicate(timeout=10)[0]
        except subprocess.TimeoutExpired:
            said = "a server that works"
        if not said.startswith("fault 5"):
            wrong.append(f"a server in the stranger's folder says {said!r}")
            break
        if os.path.lexists(precious):
            wrong.append("a file was made along a link at `lock` in the stranger's folder")
            break
    all_must(wrong)


# ---- 2: closed descriptors

CLOSED = ("0", "1", "2", "01", "02", "12", "012")
SUM = "int main(void){int i;int s=0;for(i=1;i<=10;i++)s+=i;write_word(s);return 0;}"
# If the library's file is read as a script, this source withdraws units.
TALKING = "/*\nwithdraw sum\nwithdraw talking\n*/int main(void){return 0;}"
MADE = "".join(f"add {name} {len(text)}\n{text}\n" for name, text in [("sum", SUM), ("talking", TALKING)])
# Each command line (DISK and FOLDER are the place's, NEW is a file that is not there), its standard input, and its status with the descriptors of
# CLOSED closed, in that order. If a command has to read from a closed 0 that is 53, and if it has to print to a closed 1 that is 54: status 1. READS
# and PRINTS: it does both; PRINTS: it only prints; READS: it reads, and prints nothing.
READS_AND_PRINTS, PRINTS, READS, FAULT, USAGE = "1101111", "0101011", "1001101", "1111111", "2222222"
TASKS = [
    ("check", SUM, READS_AND_PRINTS),
    ("check", "int main(void){return x;}", FAULT),
    ("check --quiet", "int main(void){return x;}", FAULT),
    ("interpret 1000", SUM, READS_AND_PRINTS),
    ("run 10000", SUM, READS_AND_PRINTS),
    ("run 10000 2 104 105", SUM, READS_AND_PRINTS),
    ("asm", SUM, READS_AND_PRINTS),
    ("image", SUM, READS_AND_PRINTS),
    ("stages", SUM, READS_AND_PRINTS),
    ("stages main", SUM, READS_AND_PRINTS),
    ("--help", "", PRINTS),
    ("--version", "", PRINTS),
    ("serve --help", "", PRINTS),
    ("", "", USAGE),
    ("frobnicate", "", USAGE),
    ("asm more", SUM, USAGE),
    ("library", "", USAGE),
    ("serve DISK", "", USAGE),
]
LIBRARY = [
    ("library DISK", "list\n", READS_AND_PRINTS),
    ("library DISK --quiet", "audit\n", READS_AND_PRINTS),
    ("library DISK", "frobnicate\nlist\n", READS_AND_PRINTS),
    ("library DISK", "", READS),
    ("library DISK", f"add more {len(SUM)}\n{SUM}\nlist\n", READS_AND_PRINTS),
    ("library DISK", "compact\nrun sum 10000\n", READS_AND_PRINTS),
    ("library NEW --format 65536", "", READS),
    ("library NEW --format 65536", "list\n", READS_AND_PRINTS),
    ("library NEW", "list\n", FAULT),
    ("image DISK sum", "", PRINTS),
    ("image DISK nobody", "", FAULT),
    ("source DISK sum", "", PRINTS),
    ("source DISK nobody", "", FAULT),
    ("source NEW sum", "", FAULT),
]
SUBMIT = [
    ("submit FOLDER", "list\n", READS_AND_PRINTS),
    ("submit FOLDER list", "", PRINTS),
    ("submit FOLDER --wait 60 run sum 10000", "", PRINTS),
    ("submit FOLDER replace sum", SUM, READS_AND_PRINTS),
    ("submit FOLDER image sum", "", PRINTS),
    ("submit FOLDER source sum", "", PRINTS),
    ("submit FOLDER source nobody", "", FAULT),
    ("submit FOLDER frobnicate", "", USAGE),
    ("submit NEW list", "", FAULT),
]


def shut(numbers, *more):
    """Closes these descriptors in a process before it becomes another program."""

    def act():
        for it in more:
            it()
        for number in numbers:
            os.close(int(number))

    return act


def run_closed(place, line, numbers, script, user=None, **more):
    """Runs a command with these descriptors closed."""
    known = {"DISK": place.disk, "FOLDER": place.spool, "NEW": f"{place.work}/none"}
    words = [place.program, *[known.get(it, it) for it in line.split()]]
    who = {} if user is None else {"user": user, "group": user, "extra_groups": []}
    return subprocess.run(words, input=script.encode(), capture_output=True, timeout=60, preexec_fn=shut(numbers), **who, **more)


def plain(text):
    """The text without the numbers of calls."""
    return re.sub(rb"(?m)^ok \d+$", b"ok N", text)


def wrong_end(what, expected, usual, done, numbers):
    """What is wrong with the status of a command, and with what it printed if it could."""
    wrong = []
    if done.returncode != expected:
        wrong.append(f"{what}: status {done.returncode}, and not {expected}")
    # A command that is refused anyway may be refused before it reads.
    reads = "0" in numbers and expected == 1
    texts = [b"fault 53 ReadFault\n"] * reads + [plain(usual.stdout)] * (not reads or usual.returncode != 0)
    if "1" not in numbers and expected != 2 and plain(done.stdout) not in texts:
        wrong.append(f"{what}: printed {done.stdout[:60]!r}, and not {texts[0][:60]!r}")
    return wrong


def try_closed(make, rows, look, user=None):
    """Runs each command with each set of descriptors closed, each time in a place of its own. Returns what is wrong with how it ends, or
    afterwards."""
    wrong = []
    for line, script, statuses in rows:
        with make() as place:
            usual = run_closed(place, line, "", script, user)
        for numbers, status in zip(CLOSED, statuses):
            with make() as place:
                before = tree(place.work)
                what = f"`{line}` without {','.join(numbers)}"
                done = run_closed(place, line, numbers, script, user)
                wrong += wrong_end(what, int(status), usual, done, numbers)
                wrong += [f"{what}: {it}" for it in look(place, before, tree(place.work), line)]
    return wrong


class Shelf(Place):
    """A place with a library of two units, made once and copied."""

    first = None

    def __init__(self):
        super().__init__()
        if Shelf.first is None:
            must(self.library(MADE, "--format", "65536") == ["ok 1", "ok 2"], "the library can't be made")
            with open(self.disk, "rb") as file:
                Shelf.first = file.read()
        with open(self.disk, "wb") as file:
            file.write(Shelf.first)


def look_at_disk(place, before, after, line):
    """What is wrong with the files of a place: only the file of a library that the command changes may have changed."""
    may_change = {"units.disk"} if line == "library DISK" else set()
    wrong = [f"{it} has changed" for it in before if before[it] != after.get(it) and it not in may_change]
    wrong += [f"{it} was made" for it in after if it not in before and "NEW --format" not in line]
    try:
        missing = {"sum", "talking"} - place.units()
        wrong += [f"the unit {it} is gone" for it in sorted(missing)]
        if "NEW --format" in line and "none" in after:
            place.disk = f"{place.work}/none"
            must(place.units() == set(), "the new library has units")
    except Broken as broken:
        wrong.append(str(broken))
    return wrong


@attack("check, interpret, run, asm, image, stages, --help, --version, wrong words with 0, 1, 2 closed", 300)
def closed_tasks(place):
    """To read from a closed standard input is fault 53, and to print to a closed output is 54: status 1."""
    all_must(try_closed(Place, TASKS, lambda place, before, after, line: [f"{it} was made" for it in after if it not in before]))


@attack("library, image, source over a library in a file with 0, 1, 2 closed", 300)
def closed_library(place):
    """The library's file gets none of the three descriptors: all its units are there afterwards, and a command that only reads it leaves each byte as
    it was. The file is not read as a script either."""
    all_must(try_closed(Shelf, LIBRARY, look_at_disk))


def look_at_spool(place, before, after, line):
    """What is wrong with a spool after a `submit`: `lock` has to be empty, nothing may wait, and an answer may have only lines of an answer."""
    wrong = ["lock has bytes"] * (after["spool/lock"][3] != b"")
    wrong += [f"left: {it}" for it in place.left() if not it.startswith("done/")]
    for name in set(after) - set(before):
        if name.startswith("spool/") and b"cclib:" in after[name][3]:
            wrong.append(f"{name} has an explanation in it")
    return wrong


@attack("submit, as a script and with commands, with 0, 1, 2 closed", 600)
def closed_submit(place):
    """A client's script, its answer, `lock` and the library keep their bytes. What can't be printed stays as an answer in `done`."""

    class Served(Shelf):
        """A place with a server in it."""

        def __init__(self):
            super().__init__()
            os.chown(self.disk, SERVER, SERVER)
            self.server = self.serve()

        def __exit__(self, *words):
            if self.server.poll() is None:
                self.stop(self.server)
                missing = {"sum", "talking"} - self.units()
                must(not missing, f"units are gone: {missing}")
            super().__exit__(*words)

    all_must(try_closed(Served, SUBMIT, look_at_spool, VICTIM))


# `serve` reads nothing, and prints one line when it ends: `served N`. If that can't be printed, all that the server was started for is done all the
# same, and the status is 1.
SERVE = {"0": (0,), "1": (1,), "2": (0,), "01": (1,), "02": (0,), "12": (1,), "012": (1,)}


def numbers_of(process):
    """What the descriptors 0 to 2 of a process are, and how they were opened."""
    found = {}
    for number in range(3):
        try:
            with open(f"/proc/{process.pid}/fdinfo/{number}") as file:
                flags = int(re.search(r"flags:\s*(\d+)", file.read())[1], 8)
            found[number] = os.readlink(f"/proc/{process.pid}/fd/{number}"), flags & os.O_ACCMODE
        except FileNotFoundError:
            continue
    return found


def serve_closed(place, numbers, options):
    """Runs a server with these descriptors closed, from its start to its stop. Returns what is wrong afterwards."""
    words = [place.program, "serve", place.disk, place.spool, *options]
    server = place.launch(words, SERVER, preexec_fn=shut(numbers), stdin=subprocess.PIPE)
    what = f"`serve {' '.join(options)}` without {','.join(numbers)}"
    try:
        place.wait_for_server(server)
        taken = numbers_of(server)
        added = place.submit("add", "more", script=SUM, user=VICTIM)
        said = place.submit("frobnicate", user=VICTIM)
        with open(f"{place.spool}/stop", "w"):
            pass
        text = server.communicate(timeout=60)[0]
    except (Broken, serve.Wrong, FileNotFoundError, subprocess.TimeoutExpired) as wrong:
        return [f"{what}: {wrong}"]
    wrong = [f"{what}: status {server.returncode}"] * (server.returncode not in SERVE[numbers])
    expected = {int(it): ("/dev/null", os.O_WRONLY if it == "0" else os.O_RDONLY) for it in numbers}
    wrong += [f"{what}: {it} is {taken.get(it)}" for it in expected if taken.get(it) != expected[it]]
    wrong += [f"{what}: printed {text!r}"] * ("1" not in numbers and not re.fullmatch(r"served \d+\n", text))
    wrong += [f"{what}: an add is answered {added.stdout!r}"] * (added.returncode != 0 or said.returncode != 2)
    after = tree(place.work)
    wrong += [f"{what}: {it}" for it in look_at_spool(place, {}, after, "")]
    wrong += [f"{what}: `stop` is left"] * ("spool/stop" in after)
    wrong += [f"{what}: left {it}" for it in after if it.endswith(".new")]
    try:
        place.library("")
        missing = {"more"} - place.units()
        wrong += [f"{what}: the unit `{it}` is gone" for it in missing]
    except Broken as broken:
        wrong.append(f"{what}: {broken}")
    return wrong


@attack("serve with and without --format, over an old library and a new one, with 0, 1, 2 closed", 600)
def closed_serve(place):
    """A server whose outputs are closed does not write into a file instead: `lock` is empty, the library is whole, and each answer is a proper
    one."""
    wrong = []
    for numbers in CLOSED:
        for options in ([], ["--format", AREA]):
            with Shelf() as old:
                os.chown(old.disk, SERVER, SERVER)
                wrong += serve_closed(old, numbers, options)
        with Place() as new:
            wrong += serve_closed(new, numbers, ["--format", AREA])
    all_must(wrong)


@attack("the same where /dev/null can't be opened, and where hardly any file can be: the library is as it was", 120)
def closed_for_good(place):
    """In a folder that is the program's root directory there is no /dev/null, and under `ulimit -n` no descriptor is left. Whatever the answer, no
    file may get one of the three descriptors and be written to."""
    wrong = []
    for numbers in CLOSED:
        for what, line, narrow in [
            ("without /dev/null", "library DISK", lambda: (os.chroot("."), os.chdir("/"))),
            ("with 3 files at most", "library DISK", lambda: limit_files(3)),
            ("with 4 files at most", "library DISK", lambda: limit_files(4)),
        ]:
            with Shelf() as shelf:
                path = "/units.disk" if "null" in what else shelf.disk
                words = ["/cclib" if "null" in what else shelf.program, "library", path]
                bring_libraries(shelf)
                subprocess.run(words, input=b"list\n", capture_output=True, timeout=60, cwd=shelf.work, preexec_fn=shut(numbers, narrow))
                with open(shelf.disk, "rb") as file:
                    if file.read() != Shelf.first:
                        wrong.append(f"`{line}` {what} and without {','.join(numbers)}: the library has changed")
    all_must(wrong)


def bring_libraries(place):
    """Puts the libraries with which the program is linked into the place, for when that is the program's root directory."""
    for path in re.findall(r"(/\S+) \(0x", subprocess.run(["ldd", place.program], capture_output=True, text=True, check=False).stdout):
        os.makedirs(os.path.dirname(f"{place.work}{path}"), exist_ok=True)
        shutil.copy(path, f"{place.work}{path}")


def limit_files(count):
    resource.setrlimit(resource.RLIMIT_NOFILE, (count, count))


# ---- 3: the rights of DISK


@attack("DISK is made by library and by serve, under umask 022 and umask 0: who else can read it, write it")
def disk_rights(place):
    """A new DISK has the rights 0600 whatever the umask is: a stranger may neither read the group's sources in it nor write to it."""
    wrong = []
    for umask in (0o022, 0):
        for command in ("library", "serve"):
            with Place() as other:
                words = [other.program, command, other.disk, *([other.spool] if command == "serve" else []), "--format", AREA]
                made = other.launch(words, SERVER, umask=umask, stdin=subprocess.DEVNULL)
                if command == "serve":
                    other.wait_for_server(made)
                    other.stop(made)
                made.wait(60)
                rights = os.stat(other.disk).st_mode & 0o7777
                what = f"{command} under umask {umask:03o} makes DISK {rights:04o}"
                wrong += [what] * (rights != 0o600)
                can = refused(STRANGER, {"read it": lambda: open(other.disk).close(), "write it": lambda: open(other.disk, "r+").close()})
                wrong += [f"{what}: a stranger may {it}" for it in can]
    all_must(wrong)


@attack("an old DISK of 0644, and one of 0666: serve and library say so")
def disk_reported(place):
    """A DISK that was there before keeps its rights: `serve` and `library` report them, for a person, and `--quiet` turns that off."""
    place.make()
    wrong = []
    for rights in (0o644, 0o666, 0o640, 0o600):
        os.chmod(place.disk, rights)
        said = subprocess.run([place.program, "library", place.disk], input="list\n", capture_output=True, text=True, timeout=60).stderr
        with open(f"{place.work}/told", "w"):
            pass
        place.stop(place.serve())
        with open(f"{place.work}/told") as file:
            told = file.read()
        for command, text in [("library", said), ("serve", told)]:
            is_told = any("units.disk" in it and re.search(r"rights|others|readable|may (read|write)", it) for it in text.split("\n"))
            if is_told != (rights != 0o600):
                wrong.append(f"{command} reports {'no' if rights != 0o600 else 'some'} rights of {rights:04o}")
    all_must(wrong)


@attack("a stranger holds a shared lock of DISK, which a server makes at its start")
def disk_locked(place):
    """Whoever can open DISK can lock it, and then no server starts (35). A stranger can't open a DISK that the program has made."""
    place.make()

    def hold(say):
        with open(place.disk) as file:
            fcntl.flock(file, fcntl.LOCK_SH)
            say("")
            signal.pause()

    try:
        place.other(hold)
    except NotTried:
        return
    server = place.start("--format", AREA)
    try:
        said = server.communicate(timeout=10)[0]
    except subprocess.TimeoutExpired:
        return
    raise Broken(f"a stranger holds `flock -s` of DISK, and the server's start says {said!r}")


# ---- 4: names that can't be claimed

FIFOS = 100_000


def seconds_of(process):
    """How many seconds of a processor a process has taken."""
    with open(f"/proc/{process.pid}/stat") as file:
        fields = file.read().rpartition(")")[2].split()
    return (int(fields[11]) + int(fields[12])) / os.sysconf("SC_CLK_TCK")


def asks(place, server, count):
    """The median time that a script of another user takes: wall-clock seconds, and processor seconds of the server."""
    clock, processor = [], []
    for _ in range(count):
        begin, before = time.time(), seconds_of(server)
        done = place.submit("list", user=VICTIM)
        must(done.returncode == 0, f"`submit list` says {done.stdout!r}")
        clock.append(time.time() - begin)
        processor.append(seconds_of(server) - before)
        if clock[-1] > 8:
            break
    return statistics.median(clock), statistics.median(processor)


def idles(server, seconds):
    """The share of a processor that an idle server takes."""
    before, begin = seconds_of(server), time.time()
    time.sleep(seconds)
    return (seconds_of(server) - before) / (time.time() - begin)


@attack("100,000 FIFOs in `new`: what a script of another user takes then, and an idle server", 400)
def crowded(place):
    """A stranger fills `new` with names that can't be claimed. A script of another user takes at most half a second more than before, and
    an idle server takes at most 5 in 100 of a processor."""
    server = place.serve()
    asks(place, server, 3)
    before = asks(place, server, 9)

    def fill(say):
        for it in range(FIFOS):
            os.mkfifo(place.file("new", f"0{it:07d}"))
        say("")
        signal.pause()

    place.other(fill)
    after = asks(place, server, 9)
    time.sleep(15)
    idle = idles(server, 20)
    wrong = []
    if after[0] - before[0] > 0.5 * busy() or after[1] - before[1] > 0.5:
        wrong.append(f"a script takes {after[0]:.2f} s ({after[1]:.2f} s of a processor), and {before[0]:.2f} s before ({before[1]:.2f})")
    if idle > 0.05:
        wrong.append(f"the idle server takes {100 * idle:.0f} in 100 of a processor")
    all_must(wrong)


@attack("1,000 scripts, and 1,000 more of the same IDs: files made in `cur`, and what an idle server takes", 300)
def repeated(place):
    """A second script with the same ID waits until the answer to the first one is removed. The server sees this before it makes a file for the
    answer."""
    server = place.serve()
    names = [f"again{it:04d}" for it in range(1000)]

    def fill(say):
        for number in range(2):
            for name in names:
                os.rename(put_own(place, f"mine{number}{name}", ""), place.file("new", name))
            say("")
            while os.listdir(place.file("new")):
                time.sleep(0.1)

    other = place.other(fill)
    for _ in range(1500):
        if len(os.listdir(place.file("new"))) == 1000 and len(os.listdir(place.file("done"))) >= 1000:
            break
        time.sleep(0.1)
    else:
        raise NotTried("the first scripts are not done")
    time.sleep(5)
    made = sum(1 for _ in Watch(place.file("cur")).names(5))
    idle = idles(server, 10)
    other.end()
    wrong = [f"{made} files were made in `cur` in 5 seconds"] * (made > 100)
    wrong += [f"the idle server takes {100 * idle:.0f} in 100 of a processor"] * (idle > 0.05)
    all_must(wrong)


# ---- 5: memory

BIG = "int a[65536];int main(void){return 0;}"


@attack("a script of 2,000 refused `replace`s of 256 KiB each: 108 KB that take half a GB of a server's memory", 300)
def history(place):
    """A script whose own history exceeds 256 MiB ends with 52 after the line that exceeded it; the server goes on."""
    server = place.serve()
    script = f"replace big {len(BIG)}\n{BIG}\n" * 2000
    lines = place.submit("--wait", "200", script=script, user=STRANGER).stdout.split("\n")[:-1]
    with open(f"/proc/{server.pid}/status") as file:
        most = int(re.search(r"VmHWM:\s+(\d+)", file.read())[1]) >> 10
    must(place.submit("list", user=VICTIM).returncode == 0, "the server does not go on")
    place.stop(server)
    must(lines[-1:] == ["fault 52 ScriptTooLong"], f"{len(lines)} lines were answered, the last by {lines[-1:]}, with {most} MiB of memory")
    must(set(lines[:-1]) == {"fault 32 Absent"} and 960 <= len(lines) <= 1060, f"52 after {len(lines) - 1} lines")


WORDS = "int main(void){int i;for(i=0;i<1000000000;i++)write_word(1);return 0;}"


@attack("a `run` and a `call` of 150,000,000 instructions that write 20,000,000 words and more", 400)
def run_words(place):
    """Both are answered by 54, and take at most 100 MiB at a time."""
    server = place.serve("--clients", "1")
    must(place.submit("add", "words", script=WORDS, user=STRANGER).returncode == 0, "the unit can't be added")
    for line in ("run words 150000000\n", "call words 150000000 0\n\n"):
        done = place.submit("--wait", "300", script=line, user=STRANGER)
        must(done.stdout == "fault 54 WriteFault\n", f"the answer is {done.stdout[-60:]!r}")
    with open(f"/proc/{server.pid}/status") as file:
        most = int(re.search(r"VmHWM:\s+(\d+)", file.read())[1]) >> 10
    must(place.submit("list", user=VICTIM).returncode == 0, "the server does not go on")
    place.stop(server)
    must(most < 160, f"the server took {most} MiB")


@attack("a line of 100,000,000 bytes to `call --lines`, and a short one after it")
def call_lines(place):
    """The long line is answered by 50 and not kept; the short one is answered as ever."""
    more, disk = "int main(void){write_word(read_word()+1);return 0;}", f"{place.work}/units"
    subprocess.run([place.program, "library", disk, "--format", AREA, "--quiet"], input=f"add more {len(more)}\n{more}\n", capture_output=True, text=True, check=True)
    caller = place.launch([place.program, "call", disk, "more", "1000", "--lines"], stdin=subprocess.PIPE, text=False)
    for _ in range(100):
        caller.stdin.write(b"1 " * 500_000)
    caller.stdin.write(b"\n7\n")
    caller.stdin.flush()
    lines = [caller.stdout.readline() for _ in range(5)]
    with open(f"/proc/{caller.pid}/status") as file:
        most = int(re.search(r"VmHWM:\s+(\d+)", file.read())[1]) >> 10
    said = caller.communicate(timeout=60)[1]
    must(lines == [b"fault 50 BadLine\n", b"\n", b"8\n", b"exited 0\n", b"\n"], f"the answers are {lines}")
    must((caller.returncode, said) == (1, b"-:1:1: the line has more than 16777216 bytes\n"), f"the status is {caller.returncode}, with {said[-120:]!r}")
    must(most < 64, f"the process took {most} MiB")


# ---- 6: what `done` keeps


@attack("eight answers of 16 MiB that nobody fetches, if `done` may have 64 MiB", 400)
def done_full(place):
    """With `--done`, no further script is claimed while the answers younger than 600 s exceed that size by themselves, and this is reported once.
    When they are older, the oldest are removed, and the scripts that wait are done."""
    server = place.start("--format", AREA, "--done", str(64 << 20), "--clients", "2")
    time.sleep(1)
    must(server.poll() is None, "`serve` knows no option `--done`")
    place.wait_for_server(server)
    source = SUM + "/*" + "x" * 64_900 + "*/"
    must(place.submit("add", "big", script=source).returncode == 0, "the unit can't be added")
    script = "source big\n" * 255
    for it in range(8):
        refusal(STRANGER, lambda it=it: os.rename(put_own(place, f"mine{it}", script), place.file("new", f"big{it}")))
    held = lambda: sum(os.path.getsize(place.file("done", it)) for it in os.listdir(place.file("done"))) >> 20
    left = lambda: sorted(os.listdir(place.file("new")))
    for _ in range(60):
        time.sleep(0.5)
        if not left():
            break
    must(left(), f"all were claimed: `done` has {held()} MiB")
    must(held() <= 64 + 2 * 17, f"`done` has {held()} MiB")
    with open(f"{place.work}/told") as file:
        told = [it for it in file.read().split("\n") if "done" in it and "scripts done" not in it and "script done" not in it]
    must(len(told) == 1, f"that nothing is claimed is reported {len(told)} times: {told[:3]}")
    for name in os.listdir(place.file("done")):
        os.utime(place.file("done", name), (time.time() - 700, time.time() - 700))
    for _ in range(240):
        if not left():
            break
        time.sleep(0.5)
    must(not left(), f"after 600 s the oldest do not go: {left()} wait, and `done` has {held()} MiB")
    must(held() <= 64 + 2 * 17, f"`done` has {held()} MiB at the end")
    must(place.submit("list").returncode == 0, "the server does not go on")


# ---- 7: scripts that run for days


def long_script(name):
    """A script of many runs that take some seconds each."""
    return f"add {name} {len(serve.SLOW)}\n{serve.SLOW}\n" + f"run {name} 1000000000\n" * 1000


@attack("two scripts that run for days on two clients: a third one's wait, and that of `stop`, with --patience 5", 300)
def patience(place):
    """While a client is free, no script is ended. While a script waits and all clients are busy, a script that has been at work for longer than
    `--patience` ends with 61; so does one when the server is to end."""
    server = place.start("--format", AREA, "--patience", "5", "--clients", "2")
    time.sleep(1)
    must(server.poll() is None, "`serve` knows no option `--patience`")
    place.wait_for_server(server)

    def leave(name):
        refusal(STRANGER, lambda: os.rename(put_own(place, f"mine{name}", long_script(name)), place.file("new", name)))

    at_work = lambda: {it for it in os.listdir(place.file("cur")) if not it.endswith(".answer")}
    leave("one")
    time.sleep(8)
    must("one" in at_work(), "a script was ended while a client was free and nobody waited")
    leave("two")
    place.wait_for("cur", 4)
    begin = time.time()
    done = place.submit("list", user=VICTIM)
    took = time.time() - begin
    must(done.returncode == 0 and took < 20 * busy(), f"a third script took {took:.0f} s: {done.stdout!r}")
    ended = [it for it in ("one", "two") if it in os.listdir(place.file("done"))]
    must(ended, "no script was ended")
    last = serve.answer(place, ended[0])[-1]
    must(last == "fault 61 Stopped", f"the answer of the script that was ended ends by {last!r}")
    begin = time.time()
    with open(f"{place.spool}/stop", "w"):
        pass
    server.communicate(timeout=100)
    took = time.time() - begin
    must(took < 20 * busy(), f"the server ended {took:.0f} s after `stop`")
    lasts = {serve.answer(place, it)[-1] for it in ("one", "two")}
    must(lasts == {"fault 61 Stopped"}, f"the answers end by {lasts}")
    place.units()


@attack("a stranger holds `lock` while no server works: `submit --wait 2`")
def lock_held(place):
    """Whoever can read `lock` can lock it, and a `submit` without `--wait` waits for as long as that lasts. One with `--wait` ends after its time."""
    place.make()

    def hold(say):
        with open(f"{place.spool}/lock") as file:
            fcntl.flock(file, fcntl.LOCK_EX)
            say("")
            signal.pause()

    place.other(hold)
    begin = time.time()
    done = place.submit("--wait", "2", "list", user=VICTIM)
    took = time.time() - begin
    must(done.stdout == "fault 58 NotTaken\n" and done.returncode == 1, f"`submit --wait 2` says {done.stdout!r}")
    must(took < 6 * busy(), f"`submit --wait 2` took {took:.0f} s")


# ---- 8: directories in cur; terminals


@attack("directories in `cur`, as an exchange of a file and a directory in `new` leaves them: a start removes them")
def directories(place):
    """A stranger exchanges a file and a directory at `new/ID` again and again, until some were moved into `cur`. One more directory is put there by
    hand, and one with a file in it, which can't be removed. All are reported, and after the next start the empty ones are gone."""
    server = place.serve()

    def swap(say):
        for it in range(400):
            os.mkdir(place.file("tmp", f"mine{it}"), 0o777)
            os.chmod(place.file("tmp", f"mine{it}"), 0o777)
        say("")
        for it in range(400):
            put_own(place, "minefile")
            os.rename(place.file("tmp", "minefile"), place.file("new", f"swap{it}"))
            for _ in range(40):
                if not allowed(exchange, place.file("new", f"swap{it}"), place.file("tmp", f"mine{it}")):
                    break
        say("over")
        signal.pause()

    other = place.other(swap)
    os.set_blocking(other.reader, False)
    for _ in range(300):
        time.sleep(0.1)
        if b"over" in (allowed_read(other.reader) or b""):
            break
    place.stop(server)
    here = lambda: {it for it in os.listdir(place.file("cur")) if os.path.isdir(place.file("cur", it))}
    raced = len(here())
    for name in ("empty", "full"):
        os.mkdir(place.file("cur", name), 0o777)
        os.chown(place.file("cur", name), STRANGER, STRANGER)
    with open(place.file("cur", "full/x"), "w"):
        pass
    with open(f"{place.work}/told", "w"):
        pass
    place.stop(place.serve())
    with open(f"{place.work}/told") as file:
        told = file.read()
    wrong = [f"{len(here() - {'full'})} directories are left in `cur` by a start, {raced} of which the race had left"] * bool(here() - {"full"})
    wrong += ["the directory that can't be removed is not reported"] * ("full" not in told and "cur" not in told)
    all_must(wrong)


def allowed_read(file):
    try:
        return os.read(file, 1 << 16)
    except BlockingIOError:
        return b""


ODD = "/*\x1b[2J\x1b]0;owned\x07 \x08\x7f\x0b\x0c*/\n\tint main(void){return 0;}\n"


def on_terminal(words, user):
    """What a command prints to a terminal."""
    mine, theirs = os.openpty()
    os.chmod(os.ttyname(theirs), 0o666)
    process = subprocess.Popen(words, stdin=subprocess.DEVNULL, stdout=theirs, stderr=subprocess.DEVNULL, user=user, group=user, extra_groups=[])
    os.close(theirs)
    said = b""
    while True:
        try:
            data = os.read(mine, 1 << 16)
        except OSError:
            break
        if not data:
            break
        said += data
    os.close(mine)
    process.wait(60)
    return said


@attack("a unit whose source has escape sequences: `submit source` to a terminal, and to a file")
def terminal(place):
    """On a terminal a control byte is shown as `?`; to a file the source is printed byte for byte."""
    server = place.serve()
    must(place.submit("add", "odd", script=ODD, user=STRANGER).returncode == 0, "the unit can't be added")
    plain_text = place.submit("source", "odd", user=VICTIM).stdout
    shown = on_terminal([place.program, "submit", place.spool, "source", "odd"], VICTIM)
    place.stop(server)
    wrong = ["to a pipe the source is another one"] * (plain_text != ODD)
    odd = sorted({it for it in shown if (it < 32 and it not in b"\n\r\t") or it == 127})
    wrong += [f"to a terminal the bytes {odd} are printed"] * bool(odd)
    wrong += [f"to a terminal {shown!r}"] * (not odd and b"?" not in shown)
    all_must(wrong)


# ---- 9: DISK.new, memory that is refused


def prepared(place, script):
    """A library that an operator has prepared as DISK.new; its bytes."""
    path = f"{place.disk}.new"
    words = [place.program, "library", path, "--format", "65536", "--quiet"]
    done = subprocess.run(words, input=script, capture_output=True, text=True, timeout=60)
    must(done.returncode == 0, f"the library can't be prepared: {done.stdout!r}")
    os.chown(path, SERVER, SERVER)
    with open(path, "rb") as file:
        return file.read()


@attack("an operator has prepared a larger library as DISK.new; `serve --format` starts before it is moved")
def disk_prepared(place):
    """A DISK.new that is a library with a record is not taken for a left-over: the answer is 35, and it keeps its bytes. One without a record, as a
    killed server leaves it, is a left-over, and the server starts."""
    whole = prepared(place, f"add kept {len(SUM)}\n{SUM}\n")
    server = place.launch([place.program, "serve", place.disk, place.spool, "--format", AREA], SERVER)
    try:
        said = server.communicate(timeout=5)[0]
    except subprocess.TimeoutExpired:
        said = "a server that works"
    wrong = [f"`serve --format` beside a prepared DISK.new says {said!r}"] * (said != "fault 35 DiskFault\n")
    try:
        with open(f"{place.disk}.new", "rb") as file:
            wrong += ["DISK.new has other bytes"] * (file.read() != whole)
    except FileNotFoundError:
        wrong.append("DISK.new is gone, with the unit in it")
    with Place() as other:
        prepared(other, "")
        server = other.serve()
        other.stop(server)
        wrong += ["DISK.new is left of an empty one"] * os.path.exists(f"{other.disk}.new")
    all_must(wrong)


def limit(process, most=None):
    """Limits the memory and the threads of a running process of the server's user; without a bound, sets them to the most that it may have. Only the
    same user may do this on every system."""

    def act():
        for kind in (resource.RLIMIT_AS, resource.RLIMIT_NPROC):
            hard = resource.prlimit(process.pid, kind)[1]
            resource.prlimit(process.pid, kind, (hard if most is None else most, hard))

    said = refusal(SERVER, act)
    if said:
        raise NotTried(f"a process can't be limited: {said}")


@attack("memory and threads are refused to a server between two generations, for two seconds", 200)
def passing_refusal(place):
    """A 40 or 41 between two generations that passes does not end the server: it tries again, and goes on when there is memory.

    Its standard error is a full pipe, so that it waits while it reports the end of a generation: then its memory is limited."""
    reader, writer = os.pipe()
    fcntl.fcntl(writer, fcntl.F_SETPIPE_SZ, 4096)
    words = [place.program, "serve", place.disk, place.spool, "--format", AREA]
    server = place.launch(words, SERVER, stderr=writer)
    place.wait_for_server(server)
    os.set_blocking(reader, False)
    os.set_blocking(writer, False)
    allowed_read(reader)
    while allowed(os.write, writer, b"x"):
        pass
    # `server` shares the pipe's description, and has to wait in its writes.
    os.set_blocking(writer, True)
    script = f"replace big {len(BIG)}\n{BIG}\n" * 270
    place.submit("--wait", "100", script=script, user=VICTIM)
    time.sleep(3)
    with open(f"/proc/{server.pid}/wchan") as file:
        where = file.read()
    limit(server, 1)
    said = b""
    for _ in range(20):
        said += allowed_read(reader)
        time.sleep(0.1)
    ended = server.poll()
    if ended is None:
        limit(server)
    os.close(writer)
    if b"history is full" not in said:
        raise NotTried(f"the generation did not end then (the server waits in {where})")
    if ended is not None:
        raise Broken(f"the server ended with {ended} and {server.communicate()[0]!r}")
    done = place.submit("--wait", "60", "list", user=VICTIM)
    must(done.returncode == 0, f"`list` afterwards: {done.stdout!r}")
    os.set_blocking(reader, True)
    drain = place.launch(["cat"], stdin=reader, stdout=subprocess.DEVNULL)
    place.stop(server)
    os.close(reader)
    drain.kill()


def under(place, limits, words, script, user=None):
    """What a command answers under each of these limits on its memory, in KiB: the status and the output, each pair once."""
    who = {} if user is None else {"user": user, "group": user, "extra_groups": []}
    seen = collections.Counter()
    for most in limits:
        narrow = ["sh", "-c", f'ulimit -v {most} && exec "$@"', "sh"]
        done = subprocess.run([*narrow, *words], input=script, capture_output=True, timeout=60, **who)
        seen[done.returncode, done.stdout] += 1
    return seen


def least(place, words, script, is_well):
    """The least memory, in KiB and in steps of 64, with which a command succeeds."""
    low, high = 0, 1 << 20
    while high - low > 64:
        most = (low + high) // 2
        ((status, text),) = under(place, [most], words, script)
        low, high = (low, most) if is_well(status, text) else (most, high)
    return high


@attack("`submit` under each limit of its memory from none to enough: 40, and not 53 or 56", 400)
def submit_memory(place):
    """If memory is refused to `submit`, the answer is 40, whatever the memory was requested for: neither the folder nor the script is to blame."""
    server = place.serve()
    wrong = collections.Counter()
    long = b"/*" + b"x" * 65_000 + b"*/int main(void){return 0;}"
    for words, script in [(["--wait", "30", "add", "x"], long), (["list"], b""), (["source", "x"], b"")]:
        line = [place.program, "submit", place.spool, *words]
        enough = least(place, line, script, lambda status, text: status in (0, 1) and text.startswith((b"ok", b"unit", b"/*", b"fault 3")))
        for (status, text), count in under(place, range(max(enough - 4096, 64), enough + 64, 32), line, script).items():
            if text.startswith((b"fault 53", b"fault 56", b"fault 58")):
                wrong[f"`submit {' '.join(words)}` says {text.decode().strip()}, status {status}, under a limit of memory"] += count
    place.stop(server)
    all_must([f"{what} ({count} limits)" for what, count in wrong.items()])


@attack("`stages` under each limit of its memory from none to enough: the whole text, or 40", 400)
def stages_memory(place):
    """If memory is refused, `stages` must not print a statement about the program: 40, and not "the program has no image"."""
    text = "".join(f"int f{it}(int x){{int y=x*{it};while(y>3)y=y-x;return y;}}" for it in range(60)) + "int main(void){return f3(7);}"
    line = [place.program, "stages", "--quiet", "main"]
    whole = subprocess.run(line, input=text.encode(), capture_output=True, timeout=60)
    must(whole.returncode == 0, f"`stages main` says {whole.stdout[-60:]!r}")
    enough = least(place, line, text.encode(), lambda status, said: (status, said) == (0, whole.stdout))
    wrong = []
    for (status, said), count in under(place, range(max(enough - 3072, 64), enough + 64, 32), line, text.encode()).items():
        if status == 0 and said != whole.stdout or b"has no image" in said:
            lines = said.decode(errors="replace").strip().split("\n")
            lines = [it for it in lines if "no image" in it] + lines[-1:]
            wrong.append(f"`stages main` says {lines}, status {status}, under {count} limits")
    all_must(wrong)


# ---- 12: what a cut or a kill leaves


def by_server(path, text):
    """A file of the server's user, made as the server makes them."""
    with open(path, "w") as file:
        file.write(text)
    os.chown(path, SERVER, SERVER)
    os.chmod(path, 0o644)


@attack("a whole answer in `done`, beside it an empty one in `cur`: what a start makes of the two")
def answer_replaced(place):
    """A kill can leave a second client's empty `cur/ID.answer` in addition to `done/ID`, which was handed over. The answer in `done` stays as it is;
    both files in `cur` are removed. Without `done/ID` the script was begun: the answer is only 55. Another user's file at `done/ID` is no answer."""
    place.make()
    whole = "ok 1\n55\nexited 0\n"
    for name in ("both", "alone"):
        by_server(place.file("done", name), whole)
        by_server(place.file("cur", f"{name}.answer"), "")
    for name in ("both", "begun", "others"):
        by_server(place.file("cur", name), "list\n")
        by_server(place.file("cur", f"{name}.answer"), "")
    by_server(place.file("done", "others"), "ok 7\n")
    os.chown(place.file("done", "others"), STRANGER, STRANGER)
    place.stop(place.serve())
    now = {it: serve.answer(place, it) for it in ("both", "alone")}
    wrong = [f"the answer of `{it}` is now {lines}" for it, lines in now.items() if lines != whole.split("\n")[:-1]]
    for name in ("begun", "others"):
        told = serve.answer(place, name)
        wrong += [f"the script `{name}` that was begun is answered {told}"] * (told != ["fault 55 Interrupted"])
    left = os.listdir(place.file("cur"))
    all_must(wrong + [f"left in `cur`: {left}"] * bool(left))


def traced(calls, *more):
    """The words to put before a command so that strace sees these calls of it."""
    if not shutil.which("strace"):
        raise NotTried("there is no strace")
    return ["strace", "-f", "-y", "-qq", "-e", f"trace={calls}", *more]


@attack("a server is killed while its clients' calls in the folder are delayed: answers that were there before stay", 300)
def killed_late(place):
    """Eight clients do scripts whose removal from `cur` takes half a second, and each ninth look at a file takes a third of one, so that
    a second client comes to a name that is done. After each kill the next start leaves an answer that had been in `done` as it was, and
    no script is done twice."""
    looks, removals = "lstat,newfstatat,statx", "unlink,unlinkat"
    words = traced(f"{looks},{removals}", "-o", "/dev/null", "-e", f"inject={removals}:delay_enter=500000")
    words += ["-e", f"inject={looks}:delay_exit=300000:when=5+9"]
    place.make()
    wrong, count = [], 0
    for _ in range(12):
        server = place.launch([*words, place.program, "serve", place.disk, place.spool, "--clients", "8", "--quiet"], SERVER)
        for it in range(24):
            name = f"late{count:04d}"
            count += 1
            refusal(VICTIM, lambda: os.rename(put_own(place, f"mine{name}", f"add {name} {len(SUM)}\n{SUM}\n"), place.file("new", name)))
        for _ in range(200):
            if len(os.listdir(place.file("done"))) > 4:
                break
            time.sleep(0.05)
        time.sleep(0.2)
        child = children(server)
        for process in child:
            allowed(os.kill, process, signal.SIGSTOP)
        before = {it: serve.answer(place, it) for it in os.listdir(place.file("done"))}
        for process in child:
            allowed(os.kill, process, signal.SIGKILL)
        server.wait(20)
        place.stop(place.serve())
        for name, told in before.items():
            now = serve.answer(place, name)
            wrong += [f"an answer {told} became {now}"] * (now != told)
        for name in os.listdir(place.file("done")):
            os.remove(place.file("done", name))
    place.units()
    counted(wrong)


def children(process):
    """The processes that a process has started."""
    with open(f"/proc/{process.pid}/task/{process.pid}/children") as file:
        return [int(it) for it in file.read().split()]


@attack("15 kills of a server under 16 submitters, while a stranger puts scripts and FIFOs at each name that appears", 400)
def killed(place):
    """Nothing that was acknowledged is lost, no script is done twice, and nothing is left in the folder except what the stranger put there."""
    place.library("", "--format", str(1 << 26))
    os.chown(place.disk, SERVER, SERVER)
    place.make()

    def put(name, own):
        if len(own) % 2:
            allowed(os.link, own.pop(), place.file("new", name))
        else:
            allowed(os.mkfifo, place.file("new", name))
            own.pop()

    for part in ("tmp", "new"):
        answer_names(place, part, lambda name, own: put(name, own) if own else None)
    scripts = serve.kill_for_a_while(place, random.Random(1), 15)
    units = {it[5:] for it in place.library("list\n") if it.startswith("unit ")}
    wrong = []
    for script in scripts:
        try:
            script.check(units)
        except serve.Wrong as it:
            wrong.append(re.sub(r"('unit S', )+", "'unit S', .. ", re.sub(r"s\d+_\d+_\d+", "S", str(it))))
    counted(wrong)


@attack("`submit` takes its script back, and leaves one: the calls that sync `new`; those of a server's first start", 120)
def synced(place):
    """A script that is given up (58) must not be done after a power cut, and a script that waits must not be lost: `new` is synced after the link and
    after the removal. The server syncs FOLDER and its parts when they are made."""
    calls = "link,linkat,unlink,unlinkat,rename,renameat,renameat2,mkdir,mkdirat,fsync,fdatasync"
    log = f"{place.work}/calls"

    def seen():
        with open(log, errors="replace") as file:
            return [re.sub(r"^(\[pid +)?\d+\]? +", "", it) for it in file.read().split("\n")]

    wrong = []
    first = place.launch([*traced(calls, "-o", log), place.program, "serve", place.disk, place.spool, "--format", AREA])
    place.wait_for_server(first)
    place.stop(first)
    lines = seen()
    for part in ("", "/new", "/tmp", "/cur", "/done"):
        made = [at for at, it in enumerate(lines) if it.startswith(("mkdir", "rename")) and f'{part}"' in it and "= 0" in it]
        held = [at for at, it in enumerate(lines) if it.startswith(("fsync", "fdatasync")) and f"{place.spool}{part}>" in it]
        wrong += [f"the server's first start does not sync FOLDER{part}"] * (not held or bool(made) and max(held) < min(made))
    said = place.launch([*traced(calls, "-o", log), place.program, "submit", place.spool, "--wait", "1", "list"]).communicate(timeout=60)[0]
    must(said == "fault 58 NotTaken\n", f"`submit --wait 1` without a server says {said!r}")
    lines = seen()
    is_sync = [it.startswith(("fsync", "fdatasync")) and f"{place.spool}/new>" in it for it in lines]
    calls_of = lambda word: [at for at, it in enumerate(lines) if it.startswith(word) and "/new/" in it and "= 0" in it]
    linked, removed = calls_of("link"), calls_of("unlink")
    must(linked and removed, f"`submit` has not linked and removed a file of `new`: {lines[:8]}")
    wrong += ["`submit` does not sync `new` after its link"] * (not any(is_sync[linked[-1] : removed[-1]]))
    wrong += ["`submit` does not sync `new` after its removal"] * (not any(is_sync[removed[-1] :]))
    all_must(wrong)


@attack("`stop`: one that is older than a start, and one that is made while the server starts")
def stop_at_start(place):
    """An old `stop` does not hold up a start. One that is made after the start has made a file counts: the server then ends by itself."""
    place.make()
    with open(f"{place.spool}/stop", "w"):
        pass
    os.utime(f"{place.spool}/stop", (time.time() - 60, time.time() - 60))
    place.stop(place.serve())

    def touch(say):
        seen = Watch(place.file("new"))
        say("")
        for _ in seen.names():
            with open(f"{place.spool}/stop", "w"):
                pass
            signal.pause()

    place.other(touch, SERVER)
    server = place.start()
    try:
        server.communicate(timeout=20)
    except subprocess.TimeoutExpired:
        raise Broken("a `stop` that was made while the server started was taken away") from None


# ---- what a reader of the threat model tried


def many_names(place, part, count, form, make):
    """Starts a process of a stranger that gives a few files many names in a part, 60,000 each, and stays."""

    def fill(say):
        for it in range(count):
            if it % 60_000 == 0:
                first = place.file(part, form % it)
                make(first)
            else:
                os.link(first, place.file(part, form % it))
        say("")
        signal.pause()

    return place.other(fill)


def waits(place, seconds):
    """How long a `submit list` of the victim takes, and its answer; the victim takes its script back after this many seconds."""
    begin = time.time()
    done = place.submit("--wait", str(seconds), "list", user=VICTIM)
    return time.time() - begin, done.stdout


@attack("300,000 FIFOs in `new` and a flow of small scripts whose names come first: a script of another user", 400)
def starved(place):
    """Names that can't be claimed hide no script, even if the server claims others meanwhile: the look at the names after those that were kept has to
    come, and must not begin with the first ones again."""
    server = place.serve()
    many_names(place, "new", 300_000, "0%07d", os.mkfifo)

    def flow(say):
        say("")
        count, left = 0, []
        while True:
            left = [it for it in left if os.path.lexists(it)]
            if len(left) < 4:
                left.append(place.file("new", f"-{count:07d}"))
                os.rename(put_own(place, f"mine{count}", ""), left[-1])
                count += 1
            else:
                time.sleep(0.005)

    alone = waits(place, 60)
    must(alone[1].startswith("ok "), f"beside the names alone a script is answered {alone[1]!r} after {alone[0]:.0f} s")
    place.other(flow)
    time.sleep(2)
    took, text = waits(place, 90)
    place.stop(server)
    must(text.startswith("ok "), f"a script is not taken for {took:.0f} s ({alone[0]:.1f} s beside the names alone): {text!r}")


def fetched(place):
    """How many KiB the answers in `done` take."""
    return sum(os.path.getsize(place.file("done", it)) for it in os.listdir(place.file("done"))) >> 10


def large_answers(place, count, name, lines=20):
    """Sends this many scripts of a stranger, whose answers have 60 KB a line."""

    def put_all():
        for it in range(count):
            os.rename(put_own(place, f"mine{name}{it}", "source big\n" * lines), place.file("new", f"{name}{it:04d}"))

    refusal(STRANGER, put_all)


def serve_little(place, *options):
    """Starts a server whose `done` may have 1 MiB, and adds a unit with a large source."""
    is_first = not os.path.exists(place.disk)
    server = place.start("--format", AREA, "--done", str(1 << 20), *options)
    if is_first:
        place.wait_for_server(server)
        done = place.submit("add", "big", script=SUM + "/*" + "x" * 60_000 + "*/")
        must(done.returncode == 0, f"the unit can't be added: {done.stdout!r}")
    return server


@attack("`done` is full, and that was reported; then 300 scripts come, and 64 clients look: how many are taken all the same", 200)
def done_passed(place):
    """While the answers that may not be removed yet take more than `--done` allows, no script is taken, however many clients look at once."""
    server = serve_little(place, "--clients", "64")
    large_answers(place, 2, "a")
    for _ in range(100):
        place.submit("--wait", "1", "list")
        with open(f"{place.work}/told") as file:
            if "no script is taken" in file.read():
                break
    large_answers(place, 300, "b", 1)
    time.sleep(10)
    left = sum(it.startswith("b") for it in os.listdir(place.file("new")))
    place.stop(server)
    must(left == 300, f"{300 - left} of 300 scripts are taken within 10 s")


@attack("`done` is full, and the server starts again, three times: how much there is in `done` then", 200)
def done_after_start(place):
    """What was in `done` before a start counts too."""
    seen = []
    for it in range(4):
        server = serve_little(place, "--clients", "1")
        large_answers(place, 4, f"s{it}")
        time.sleep(5)
        seen.append(fetched(place))
        place.stop(server)
    must(seen[-1] <= 3 * 1024, f"`done` may have 1,024 KiB; after each start it has {seen} KiB")


@attack("FOLDER is a link that a stranger has made, in a folder like /tmp, to a folder of the server's user", 60)
def folder_link(place):
    """The server makes no spool through somebody else's link: the owner of the link could make it lead to another place, such as a folder of their
    own."""
    os.chmod(place.work, 0o1777)
    home = f"{place.work}/home"
    os.mkdir(home, 0o700)
    os.chown(home, SERVER, SERVER)
    said = refusal(STRANGER, lambda: os.symlink(home, place.spool))
    must(said is None, f"the stranger gets {said}")
    server = place.start("--format", AREA)
    try:
        said = server.communicate(timeout=5)[0]
    except subprocess.TimeoutExpired:
        said = "a server that works"
    wrong = [f"the server says {said!r}"] * (not said.startswith("fault 56"))
    all_must(wrong + [f"made along the link: {sorted(os.listdir(home))}"] * bool(os.listdir(home)))


@attack("FOLDER has 0777: a stranger puts a link at `done`, and a script of the name of a file that the server's user has elsewhere", 60)
def folder_wide(place):
    """A folder in which others can replace a part is not served: otherwise the server would write a file with a stranger's name and text in another
    place."""
    home = f"{place.work}/home"
    for path in (place.spool, home):
        os.mkdir(path)
        os.chown(path, SERVER, SERVER)
    os.chmod(place.spool, 0o777)
    server = place.start("--format", AREA)
    try:
        place.wait_for_server(server)
    except Broken:
        return
    source = "int main(void){return 0;}/*\nssh-ed25519 AAAA stranger\n*/"
    place.submit("add", "evil", script=source, user=STRANGER)

    def replace():
        os.rename(place.file("done").rstrip("/"), f"{place.spool}/gone")
        os.symlink(home, f"{place.spool}/done")
        os.rename(put_own(place, "mine", "source evil\n"), place.file("new", "authorized_keys"))

    said = refusal(STRANGER, replace)
    time.sleep(3)
    all_must([f"the server has written {it} elsewhere (the stranger gets {said})" for it in os.listdir(home)])


@attack("`done` has 3777 from before: `serve` reports it", 60)
def done_reported(place):
    """If others may write to `done`, a stranger can put a directory at an answer's name, and the answer never comes: so `done` with such rights is
    reported."""
    place.make()
    os.chmod(place.file("done"), 0o3777)
    with open(f"{place.work}/told", "w"):
        pass
    place.stop(place.serve())
    with open(f"{place.work}/told") as file:
        must(re.search(r"done has the rights", file.read()), "`done` with 3777 is not reported")


# ---- what the documents have to say

SENTENCES = [
    ("docs/SERVICE.md", "protected_hardlinks", "what fs.protected_hardlinks=0 lets a stranger do"),
    ("docs/SERVICE.md", r"LimitAS=", "a line LimitAS= in the unit file"),
    ("SECURITY.md", r"lease-break-time", "fs.lease-break-time"),
    ("SECURITY.md", r"leases-enable", "fs.leases-enable"),
    ("docs/SERVICE.md", r"--done", "the option --done"),
    ("docs/SERVICE.md", r"--patience", "the option --patience"),
    ("docs/SERVICE.md", r"\b61\b", "fault 61"),
    ("docs/SERVICE.md", r"rm [^\n]*new/ID[^|]{0,200}sync", "`sync` beside the advice to `rm new/ID`"),
    ("docs/LANGUAGE.md", r"\b61\b", "fault 61"),
    ("docs/FORMATS.md", r"(?s)by hand: `sync\s+FOLDER/tmp/", "that a client without `cclib` syncs tmp/NAME before the link"),
    ("docs/LANGUAGE.md", r"ulimit -f", "`ulimit -f` beside `ulimit -s`"),
]
GONE = [
    ("crates/cc_spool/src/submission.rt", "nobody else answers in the server's place"),
    ("docs/SERVICE.md", "a script that can't be answered is not claimed"),
    ("docs/SERVICE.md", "Proved is what `serve` of `cc_session` does with the"),
]


@attack("the documents beside this script: what an operator has to know, and three sentences that said more than holds")
def documents(place):
    """Checks that what no program can prevent has a sentence in the documents."""
    wrong = []
    for name, pattern, what in SENTENCES:
        with open(f"{serve.HERE}/../../{name}") as file:
            if not re.search(pattern, file.read()):
                wrong.append(f"{name} lacks {what}")
    for name, text in GONE:
        with open(f"{serve.HERE}/../../{name}") as file:
            if text in re.sub(r"\s+(// )?", " ", file.read()):
                wrong.append(f"{name} still says: {text}")
    must(not wrong, "; ".join(wrong))


# ---- 10: install, ./cclib, ./prove-below, examples/team/team.sh, with a program that stands in for the proved one

STAND_IN = "#!/bin/sh\n[ \"$1\" = check ] && cat >/dev/null\necho ok {0}\n"
# A `mv` that sends a signal to its caller after the move, at its COUNT-th call.
MOVER = """#!/bin/sh
/bin/mv "$@"; status=$?
echo x >>"$0.count"
[ "$(wc -l <"$0.count")" -ne COUNT ] || kill -SIGNAL $PPID
exit $status
"""
# What ./cclib records about the texts and the program, in the form in which it keeps that.
SEEN = """here=$1 program=$1/crates/cclib/out/cclib unproved=$1/crates/cclib/out/rlib/cclib-unproved
eval "$(grep '^seen()' "$1/cclib")"
now=$(seen)
echo "${now%% *} proved" >"$1/crates/cclib/out/rlib/cclib.seen"
"""
PUT = ("bin/cclib", "share/man/man1/cclib.1", "share/bash-completion/completions/cclib", "share/cclib/FROM", "share/cclib/FILES")


def write(path, text, mode=0o644):
    os.makedirs(os.path.dirname(path), exist_ok=True)
    with open(path, "w") as file:
        file.write(text)
    os.chmod(path, mode)


class Tree:
    """A copy of what `install` and `./cclib` need of this tree, with a stand-in for the program, and a PREFIX."""

    def __init__(self, place):
        self.work = place.work
        self.top, self.prefix, self.tools = f"{place.work}/tree", f"{place.work}/prefix", f"{place.work}/tools"
        source = os.path.join(serve.HERE, "../..")
        for name in ("install", "cclib", "prove-below", "crates.txt"):
            os.makedirs(self.top, exist_ok=True)
            shutil.copy(f"{source}/{name}", self.top)
        for name in ("docs", "examples", "tools"):
            shutil.copytree(f"{source}/{name}", f"{self.top}/{name}")
        write(f"{self.top}/crates/cclib/src/main.rt", "// The program.\n")
        self.build("one")
        os.makedirs(self.tools)

    def build(self, text):
        """Makes another program, which counts as the one built from these texts."""
        write(f"{self.top}/crates/cclib/out/cclib", STAND_IN.format(text), 0o755)
        os.makedirs(f"{self.top}/crates/cclib/out/rlib", exist_ok=True)
        subprocess.run(["bash", "-c", SEEN, "bash", os.path.realpath(self.top)], check=True)

    def run(self, *words, user=0, cwd=None, **environment):
        """What a command of the tree prints."""
        known = {**os.environ, "PATH": f"{self.tools}:/usr/local/sbin:/usr/local/bin:/usr/sbin:/usr/bin:/sbin:/bin", **environment}
        who = {} if user == 0 else {"user": user, "group": user, "extra_groups": []}
        return subprocess.run(words, cwd=cwd or self.top, env=known, stdin=subprocess.DEVNULL, capture_output=True, text=True, timeout=60, **who)

    def install(self, *words, **more):
        return self.run(f"{self.top}/install", *words, self.prefix, **more)

    def files(self):
        return tree(self.prefix) if os.path.exists(self.prefix) else {}


@attack("install is interrupted by INT, TERM and HUP at the first, third and last `mv` of it")
def install_cut(place):
    """PREFIX is as it was, byte for byte, or has the whole new version. No file is left over, and the status says which of the two it is."""
    wrong, seen = [], {}
    here = Tree(place)
    for version in ("one", "two", "one"):
        here.build(version)
        must(here.install().returncode == 0, "install does not install")
        seen[version] = here.files()
    here.build("two")
    for name, count in [(name, count) for name in ("INT", "TERM", "HUP") for count in (1, 3, 7)]:
        if here.files() != seen["one"]:
            shutil.rmtree(here.prefix)
            here.build("one")
            here.install()
            here.build("two")
        before = here.files()
        write(f"{here.tools}/mv", MOVER.replace("COUNT", str(count)).replace("SIGNAL", name), 0o755)
        done = here.install()
        shutil.rmtree(here.tools)
        os.makedirs(here.tools)
        after = here.files()
        if not (after == before and done.returncode != 0 or after == seen["two"] and done.returncode == 0):
            other = sorted(it for it in {**before, **after} if before.get(it) != after.get(it))
            wrong.append(f"{name} at `mv` {count}: status {done.returncode}, and {len(other)} files are other ones, as {' '.join(other[:2])}")
    all_must(wrong)


@attack("install --remove where share/cclib/FILES can't be read, by who is not root")
def remove_unreadable(place):
    """Without the list nothing is removed, not even the list, and a message says so, with status 1."""
    here = Tree(place)
    os.mkdir(here.prefix)
    os.chown(here.prefix, VICTIM, VICTIM)
    must(here.install(user=VICTIM).returncode == 0, "install does not install")
    os.chmod(f"{here.prefix}/share/cclib/FILES", 0)
    before = here.files()
    done = here.install("--remove", user=VICTIM)
    wrong = [f"status {done.returncode}, {(done.stdout + done.stderr)!r}"] * (done.returncode != 1)
    wrong += [f"{it} is gone" for it in before if it not in here.files()]
    all_must(wrong)


@attack("install --remove after bin/cclib was replaced by another program; install over a bin/cclib that is not ours")
def install_foreign(place):
    """What install did not put there is left as it is and reported; it is not overwritten silently."""
    here = Tree(place)
    here.install()
    write(f"{here.prefix}/bin/cclib", "#!/bin/sh\necho another program\n", 0o755)
    done = here.install("--remove")
    wrong = ["--remove removed another program at bin/cclib"] * (not os.path.exists(f"{here.prefix}/bin/cclib"))
    said = done.stdout + done.stderr
    wrong += [f"--remove says nothing of the program that is not ours: {said!r}"] * ("bin/cclib" not in said)
    wrong += [f"--remove left {it}" for it in PUT[1:] if os.path.exists(f"{here.prefix}/{it}")]
    shutil.rmtree(here.prefix, ignore_errors=True)
    write(f"{here.prefix}/bin/cclib", "#!/bin/sh\necho another program\n", 0o755)
    done = here.install()
    with open(f"{here.prefix}/bin/cclib") as file:
        is_ours = "another" not in file.read()
    is_told = "bin/cclib" in done.stdout + done.stderr
    wrong += [f"install overwrote a bin/cclib that was not ours, and said {(done.stdout + done.stderr)!r}"] * (is_ours and not is_told)
    shutil.rmtree(here.prefix)
    here.install()
    here.build("three")
    done = here.install()
    wrong += [f"a newer version over our own: status {done.returncode}, {done.stderr!r}"] * (done.returncode != 0)
    done = here.install("--remove")
    wrong += [f"--remove of that one: status {done.returncode}, left {sorted(here.files())}"] * (done.returncode != 0 or bool(here.files()))
    all_must(wrong)


@attack("install into a PREFIX/bin that others may write to: a link at each cclib.new.PID that may come")
def install_link(place):
    """What install writes next to its target is a new file: nothing is overwritten through somebody else's link."""
    here = Tree(place)
    precious = f"{place.work}/precious"
    write(precious, "precious\n")
    os.makedirs(f"{here.prefix}/bin")
    os.chmod(f"{here.prefix}/bin", 0o777)

    def plant(say):
        say("")
        while True:
            for it in os.listdir("/proc"):
                if it.isdigit():
                    allowed(os.symlink, precious, f"{here.prefix}/bin/cclib.new.{it}")

    place.other(plant)
    time.sleep(0.5)
    here.install()
    with open(precious) as file:
        must(file.read() == "precious\n", "along a link at cclib.new.PID install has overwritten a file of root's")


@attack("./cclib and ./install by a symlink, by a link to a link, and by a relative path under CDPATH")
def links(place):
    """Through links, both find the tree to which they belong, and start no proof."""
    here = Tree(place)
    write(f"{here.tools}/rt", "#!/bin/sh\n", 0o755)
    aside = f"{place.work}/aside"
    os.mkdir(aside)
    for name in ("cclib", "install"):
        os.symlink(f"{here.top}/{name}", f"{aside}/{name}")
        os.symlink(name, f"{aside}/{name}-again")
    os.symlink("../tree/cclib", f"{aside}/cclib-relative")
    wrong = []
    for words, more in [
        ((f"{aside}/cclib", "check"), {}),
        ((f"{aside}/cclib-again", "check"), {}),
        (("./cclib-relative", "check"), {"cwd": aside}),
        (("bash", "tree/cclib", "check"), {"cwd": place.work, "CDPATH": place.work}),
        (("bash", "tree/cclib", "check"), {"cwd": place.work, "CDPATH": "."}),
        (("bash", "cclib", "check"), {"CDPATH": place.work}),
    ]:
        done = here.run(*words, **more)
        if (done.returncode, done.stdout) != (0, "ok one\n"):
            wrong.append(f"`{' '.join(words)}`: status {done.returncode}, {(done.stdout + done.stderr)[:120]!r}")
    for words, more in [
        ((f"{aside}/install",), {}),
        ((f"{aside}/install-again",), {}),
        (("bash", "tree/install"), {"cwd": place.work, "CDPATH": place.work}),
        (("bash", "install"), {"CDPATH": "."}),
    ]:
        done = here.run(*words, here.prefix, **more)
        if done.returncode or sorted(it for it in PUT if not os.path.isfile(f"{here.prefix}/{it}")):
            wrong.append(f"`{' '.join(words)}`: status {done.returncode}, {(done.stdout + done.stderr)[:120]!r}")
        shutil.rmtree(here.prefix, ignore_errors=True)
    done = here.run("bash", "tree/install", "prefix", cwd=place.work, CDPATH=place.work)
    wrong += [f"a relative PREFIX under CDPATH: {(done.stdout + done.stderr)[:120]!r}"] * (not os.path.isfile(f"{here.prefix}/bin/cclib"))
    all_must(wrong)


# A compiler that proves nothing, and makes products that are not empty; and a linker.
PROVER = """#!/usr/bin/env python3
import os, sys
crate, made, kit = sys.argv[sys.argv.index("--crate-name") + 1], sys.argv[-1], os.path.dirname(os.path.dirname(os.path.realpath(__file__)))
open(kit + "/log", "a").write(crate + "\\n")
if made.endswith(".rlib"):
    os.makedirs(made, exist_ok=True)
    made += "/format"
open(made, "w").write("a product of " + crate + "\\n")
"""
LINKER = """#!/bin/sh
while [ "$1" != -o ]; do shift; done
printf '#!/bin/sh\\necho answer\\n' > "$2"; chmod +x "$2"
"""


class Kit:
    """A tree of three crates, and a kit that proves nothing and notes what it was asked to prove."""

    def __init__(self, place):
        self.top, self.kit = f"{place.work}/clone", f"{place.work}/kit"
        source = os.path.join(serve.HERE, "../..")
        os.makedirs(self.top)
        for name in ("cclib", "prove-below"):
            shutil.copy(f"{source}/{name}", self.top)
        write(f"{self.top}/crates.txt", "cc_words: core std\ncc_tokens: core std cc_words\ncclib: core std cc_words cc_tokens\n")
        for name, main in [("cc_words", "lib"), ("cc_tokens", "lib"), ("cclib", "main")]:
            write(f"{self.top}/crates/{name}/src/{main}.rt", f"// {name}\n")
        for name, text in [("rattle", PROVER), ("rattle-link", LINKER), ("rt", "#!/bin/sh\n")]:
            write(f"{self.kit}/bin/{name}", text, 0o755)
        write(f"{self.kit}/WHAT", "a kit that proves nothing\n")

    def start(self, user=0):
        """Runs ./prove-below. Returns how it ended, and which crates it proved."""
        write(f"{self.kit}/log", "", 0o666)
        environment = {**os.environ, "PATH": f"{self.kit}/bin:{os.environ['PATH']}"}
        who = {} if user == 0 else {"user": user, "group": user, "extra_groups": []}
        words = [f"{self.top}/prove-below", "cclib"]
        done = subprocess.run(words, env=environment, stdin=subprocess.DEVNULL, capture_output=True, text=True, timeout=60, cwd=self.top, **who)
        with open(f"{self.kit}/log") as file:
            return done, file.read().split()


@attack("./prove-below: each product cut to 0 bytes beside its checksum, as a power cut leaves it")
def product_cut(place):
    """An empty product does not count: its crate is proved again."""
    kit = Kit(place)
    done, proved = kit.start()
    must(done.returncode == 0 and sorted(proved) == ["cc_tokens", "cc_words", "cclib"], f"the first start: {proved}, {done.stderr[-200:]!r}")
    done, proved = kit.start()
    must(done.returncode == 0 and proved == [], f"the second start proves {proved}")
    wrong = []
    for crate, name in [("cclib", "cclib.o"), ("cc_words", "cc_words.rlib/format")]:
        with open(f"{kit.top}/crates/cclib/out/rlib/{name}", "w"):
            pass
        done, proved = kit.start()
        wrong += [f"{name} has no byte, and the next start proves {proved or 'nothing'}"] * (crate not in proved)
        wrong += [f"the start then ends with {done.returncode}: {done.stderr[-120:]!r}"] * (done.returncode != 0)
    all_must(wrong)


@attack("./prove-below in a folder that its user can't write to")
def proof_unwritable(place):
    """./prove-below says in a line that it can't write, with a status that is not 0 and without a traceback."""
    kit = Kit(place)
    done, _ = kit.start(user=STRANGER)
    must("Traceback" not in done.stderr, f"a traceback of {len(done.stderr)} bytes: {done.stderr.strip().splitlines()[-1:]}")
    must(done.returncode not in (0,) and done.stderr, f"status {done.returncode}, {done.stderr!r}")
    must(done.returncode > 0, f"ended by the signal {-done.returncode}")


@attack("team.sh FOLDER twice: a unit that somebody has added since; and a FOLDER with a library of somebody's", 200)
def team(place):
    """team.sh formats no library that it did not make, and none that has other units: these are still there afterwards."""
    script = os.path.join(serve.HERE, "../../examples/team/team.sh")
    with_program = {**os.environ, "CCLIB": place.program}
    run = lambda folder: subprocess.run([script, folder], env=with_program, stdin=subprocess.DEVNULL, capture_output=True, text=True, timeout=100)
    folder = f"{place.work}/team"
    first = run(folder)
    must(first.returncode == 0, f"the first time: {first.stderr[-200:]!r}")
    wrong = []
    place.disk = f"{folder}/team.disk"
    must(place.library(f"add mine {len(SUM)}\n{SUM}\n") == ["ok 1"], "the unit can't be added")
    second = run(folder)
    wrong += [f"the second time (status {second.returncode}) the unit that was added is gone"] * ("mine" not in place.units())
    folder = f"{place.work}/other"
    os.mkdir(folder)
    place.disk = f"{folder}/team.disk"
    must(place.library(f"add mine {len(SUM)}\n{SUM}\n", "--format", "65536") == ["ok 1"], "the library can't be made")
    third = run(folder)
    wrong += [f"a library of somebody's is made anew (status {third.returncode}): its unit is gone"] * ("mine" not in place.units())
    all_must(wrong)


# What qemu, objcopy, as and ld of a firmware team do, as far as team.sh sees it. Like qemu, this takes a comma for the end of an option's
# value, and knows no option of another name; it writes the words that `run` had, and a number of interrupts if it counts instructions.
TOOLS = """#!/usr/bin/env python3
import os, struct, sys
tool, words = os.path.basename(sys.argv[0]), sys.argv[1:]
if tool.endswith("objcopy"):
    memory, base = {}, 0
    for line in open(words[-2]):
        data = bytes.fromhex(line.strip()[1:])
        if data[3] == 4:
            base = int.from_bytes(data[4:6], "big") << 16
        elif data[3] == 0:
            memory.update({base + int.from_bytes(data[1:3], "big") + at: data[4 + at] for at in range(data[0])})
    with open(words[-1], "wb") as out:
        out.write(bytes(memory.get(at, 0) for at in range(min(memory), max(memory) + 1)))
elif not tool.startswith("qemu"):
    open(words[words.index("-o") + 1], "w").close()
else:
    values = [words[at + 1] for at in range(len(words)) if words[at] in ("-chardev", "-device")]
    parts = [dict(it.partition("=")[::2] for it in value.split(",")) for value in values]
    if any(set(it) - {"file", "id", "path", "loader", "cpu-num"} for it in parts):
        sys.exit("Invalid parameter")
    (path,) = [it["path"] for it in parts if "path" in it]
    *said, end = open(os.path.splitext(path)[0] + ".said").read().split("\\n")[:-1]
    said += ["1500"] * ("-icount" in words)
    with open(path, "wb") as out:
        out.write(b"".join(struct.pack("<i", int(it)) for it in said))
    sys.exit(int(end.split()[1]))
"""


@attack("team.sh with a FOLDER that has a comma and spaces, that begins with `-`, that is `-`; qemu and binutils stand in", 400)
def team_names(place):
    """Any name of a folder is right: all is made in it, and nothing elsewhere."""
    for name in ("as", "ld", "objcopy"):
        write(f"{place.work}/tools/riscv64-unknown-elf-{name}", TOOLS, 0o755)
    write(f"{place.work}/tools/qemu-system-riscv32", TOOLS, 0o755)
    known = {**os.environ, "CCLIB": place.program, "PATH": f"{place.work}/tools:{os.environ['PATH']}"}
    script, wrong = os.path.join(serve.HERE, "../../examples/team/team.sh"), []
    for name in ("plain", "a, b,path=c", "-lead", "-", "--"):
        aside = tempfile.mkdtemp(dir=place.work)
        done = subprocess.run([script, name], cwd=aside, env=known, stdin=subprocess.DEVNULL, capture_output=True, text=True, timeout=100)
        is_right = done.returncode == 0 and os.listdir(aside) == [name] and done.stdout.count("(the same on qemu's core, ") == 4
        is_right = is_right and done.stdout.count(" 1500 interrupts)") == 6
        wrong += [f"FOLDER {name!r}: status {done.returncode}, {os.listdir(aside)}, {done.stderr[-120:]!r}"] * (not is_right)
    all_must(wrong)


@attack("cclib-replace with a FOLDER whose text of 1,000,001 bytes has lines of a script")
def replace_script(place):
    """The text is refused (7) before any byte of it is sent; all units are there, with their sources, and other texts are compiled."""
    top, folder = os.path.join(serve.HERE, "../.."), f"{place.work}/src"
    os.makedirs(f"{place.work}/tools")
    for name in ("tools/replace.py", "tools/records.py"):
        shutil.copy(f"{top}/{name}", f"{place.work}/{name}")
    os.symlink(place.program, f"{place.work}/tools/cclib")
    # A checked image that needs a test is unconfirmed in a library of plain ones.
    text = "int main(void){return 8 / read_word();}"
    script = "".join(f"add {name} {len(text)}\n{text}\n" for name in ("one", "three"))
    must(place.library(script, "--format", "262144", "--checked") == ["ok 1", "ok 2"], "the library can't be made")
    must(place.library(f"add two {len(SUM)}\n{SUM}\n") == ["ok 1"], "the unit can't be added")
    other = "int main(void){return 9 / read_word();}"
    write(f"{folder}/one.c", f"{text}\nwithdraw two\nadd evil {len(SUM)}\n{SUM}\n".ljust(1000001))
    write(f"{folder}/three.c", other)
    run = lambda: subprocess.run([sys.executable, f"{place.work}/tools/replace.py", place.disk, folder], capture_output=True, text=True, timeout=60)
    said = run()
    units = [it for it in place.library("list\n") if it.startswith("unit")]
    wrong = [f"the units are {units}"] * (units != ["unit one", "unit three", "unit two"])
    wanted = "one: fault 7 SourceTooLarge\n3 units: 1 were confirmed, 2 are\n"
    wrong += [f"it says {(said.stdout + said.stderr)[-200:]!r}, status {said.returncode}"] * ((said.stdout, said.returncode) != (wanted, 1))
    write(f"{folder}/one.c", other.ljust(65536))
    said = run()
    wanted = "3 units: 2 were confirmed, 3 are\n"
    wrong += [f"with 65,536 bytes it says {(said.stdout + said.stderr)[-200:]!r}"] * ((said.stdout, said.returncode) != (wanted, 0))
    all_must(wrong)


@attack("library --format over a library with units, over other files, and with --if-new", 200)
def format_again(place):
    """A note says how many units are lost, and nothing else is noted; with --if-new the units are there afterwards, and a new file is made whole."""
    note = "cclib: dropped {} of the library that disk had; `--if-new` keeps such a library\n"
    add = f"add one {len(SUM)}\n{SUM}\n"
    wrong = []

    def check(what, script, options, wanted, notes):
        words = [place.program, "library", "disk", "--format", "65536", *options]
        done = subprocess.run(words, cwd=place.work, input=script, capture_output=True, text=True, timeout=60)
        said = (done.stdout.split("\n")[:-1], done.stderr)
        wrong.extend([f"{what}: {said}"] * (said != (wanted, notes)))

    check("a new file", add, (), ["ok 1"], "")
    check("a library with a unit", f"{add}{add.replace('one', 'two')}", (), ["ok 1", "ok 2"], note.format("1 unit"))
    check("a library with two", "", ("--quiet",), [], "")
    check("a library without any", add, (), ["ok 1"], "")
    kept = "cclib: disk is there, and is opened as it is; `--format` is for a new file\n"
    check("--if-new over a library", "list\n", ("--if-new",), ["unit one", "ok 1"], kept)
    all_must(wrong)
    os.remove(f"{place.work}/disk")
    check("--if-new", add, ("--if-new",), ["ok 1"], "")
    must(os.stat(f"{place.work}/disk").st_size == 16 + 2 * 65536, "the new file has another size")
    wrong += ["disk.new is left"] * os.path.exists(f"{place.work}/disk.new")
    write(f"{place.work}/disk", "no library\n", 0o600)
    said = subprocess.run([place.program, "library", "disk", "--format", "65536", "--if-new"], cwd=place.work, input="", capture_output=True, text=True)
    wrong += [f"--if-new over another file: {said.stdout!r}"] * (said.stdout != "fault 38 NotALibrary\n")
    with open(f"{place.work}/disk") as file:
        wrong += ["--if-new has written to another file"] * (file.read() != "no library\n")
    check("another file", add, (), ["ok 1"], "")
    with open(f"{place.work}/disk", "r+b") as file:
        file.seek(16 + 8)
        file.write(b"\xff" * 8)
    check("a damaged library", add, (), ["ok 1"], "")
    all_must(wrong)


def named(folder, words):
    """Makes the files that a command line names: each word after the first that is neither an option nor a number."""
    for word in words[1:]:
        if re.fullmatch(r"[a-z]+\.[a-z]+|sum|main|quotient|spool", word):
            write(f"{folder}/{word}", "")


@attack("./cclib with each example of its help, while files of all the names in it are there")
def launcher(place):
    """What the help shows reaches the program as it is: no word is taken for the file of a program. Only the program can say which word is one."""
    here, wrong = Tree(place), []
    write(f"{here.top}/crates/cclib/out/cclib", '#!/bin/sh\nprintf "%s\\n" "$@"\n', 0o755)
    subprocess.run(["bash", "-c", SEEN, "bash", os.path.realpath(here.top)], check=True)
    with open(f"{here.top}/docs/help.txt") as file:
        lines = [it.split("<")[0].split(">")[0].split()[1:] for it in file if it.startswith("  cclib ")]
    must(len(lines) > 20, f"the help has {len(lines)} examples")
    lines += [["call", "units.disk", "sum", "100", "--lines"], ["stages", "main"], ["cover", "10", "--lines", "main.c", "-f", "table.c"]]
    for words in lines:
        named(place.work, words)
        done = here.run(f"{here.top}/cclib", *words, cwd=place.work)
        is_right = (done.returncode, done.stdout) == (0, "".join(f"{it}\n" for it in words))
        wrong += [f"./cclib {' '.join(words)}: status {done.returncode}, {done.stderr[:90]!r}"] * (not is_right)
    all_must(wrong)


# ---- 13: the log

CHANGES = "".join(f"add z{it:031} 16\nint main(void){{}}\nwithdraw z{it:031}\n" for it in range(60))


def logged(place):
    """The lines of a server's log, the oldest first, each without its time. Each has to be whole."""
    text = ""
    for name in [*(f"log.{it}" for it in range(16, 0, -1)), "log"]:
        if os.path.exists(f"{place.spool}/{name}"):
            with open(f"{place.spool}/{name}") as file:
                text += file.read()
    lines = text.split("\n")
    must(lines.pop() == "", "the log's last line is cut off")
    wrong = [it for it in lines if not re.fullmatch(r"\d{10} (\d+|-) [ -~]+", it)]
    must(not wrong, f"no line of a log: {wrong[:1]}")
    return [it.split(" ", 1)[1] for it in lines]


def is_logged(place, line, number=0):
    """Whether the log has this line, not among its first `number`. It is written after the answer is handed over, so this waits."""
    for _ in range(60):
        if line in logged(place)[number:]:
            return True
        time.sleep(0.05)
    return False


def fill_but_one(path):
    """Fills a file system with a file, except for one page."""
    with open(path, "wb", buffering=0) as file:
        size = 0
        try:
            while True:
                size += file.write(bytes(4096))
        except OSError:
            file.truncate(size - 4096)


def leave_changes(place):
    """Leaves a script of 120 changes while the file system has room for its answer only."""
    script = put_own(place, "mine", CHANGES)
    os.link(script, place.file("tmp", "minekept"))
    fill_but_one(place.file("tmp", "minefill"))
    os.rename(script, place.file("new", "changes"))


@attack("a script of 120 changes while FOLDER's file system has one free page, which its answer takes; then there is room again, and another change")
def log_ended(place):
    """Each change is in the log once there is room, and the server reports once that the log could not be written."""
    os.mkdir(place.spool)
    size = f"size=1m,mode=0755,uid={SERVER},gid={SERVER}"
    if subprocess.run(["mount", "-t", "tmpfs", "-o", size, "tmpfs", place.spool], capture_output=True, check=False).returncode != 0:
        raise NotTried("no tmpfs can be mounted here")
    try:
        server = place.serve("--clients", "1")
        must(place.submit("add", "motor", script=UNIT, user=VICTIM).returncode == 0, "the unit can't be added")
        must(refusal(STRANGER, lambda: leave_changes(place)) is None, "the stranger can't leave a script")
        place.wait_for("done")
        time.sleep(1)
        lines = serve.answer(place, "changes")
        must(len(lines) == 120 and lines[-1].startswith("ok"), f"the answer has {len(lines)} lines, the last {lines[-1:]}")
        for name in ("minekept", "minefill"):
            os.remove(place.file("tmp", name))
        must(place.submit("withdraw", "motor", user=STRANGER).returncode == 0, "the unit can't be withdrawn")
        wrong = [] if is_logged(place, f"{STRANGER} withdraw motor ok") else ["`withdraw motor` is not in the log"]
        lines = logged(place)
        there = sum(it.startswith(f"{STRANGER} ") and re.search(r" (add|withdraw) z\S+ (16 )?ok$", it) is not None for it in lines)
        wrong += [f"{there} of 120 changes are in the log"] * (there != 120)
        with open(f"{place.work}/told") as file:
            told = [it for it in file.read().split("\n") if "can't be written" in it]
        wrong += [f"that it can't be written is reported {len(told)} times"] * (len(told) != 1)
        place.stop(server)
        all_must(wrong)
    finally:
        subprocess.run(["umount", "-l", place.spool], check=False)


@attack("scripts of 1,000 lines that change nothing: no commands, `list`, refused `withdraw`s, a `run`", 300)
def log_flushed(place):
    """Such a script has at most five lines in the log, so that it pushes nothing out; a change between such lines is there."""
    server = place.serve()
    must(place.submit("add", "motor", script=UNIT, user=VICTIM).returncode == 0, "the unit can't be added")
    wrong = []
    for line in ("z" * 120, "list", "withdraw none", "run motor 1000", "17 lines left out", "add  " + "9" * 100):
        before = len(logged(place))
        done = place.submit("--wait", "200", script=f"{line}\n" * 1000, user=STRANGER)
        must(done.stdout.count("\n") >= 1000, f"`{line}`: the answer is {done.stdout[-60:]!r}")
        place.submit("list", user=VICTIM)
        time.sleep(0.5)
        more = len(logged(place)) - before - 1
        wrong += [f"1,000 lines `{line[:20]}` take {more} lines of the log"] * (more > 5)
    nonsense = "zzz\nlist\n" * 200
    place.submit(script=f"{nonsense}withdraw motor\n{nonsense}", user=STRANGER)
    wrong += ["`withdraw motor` is not in the log"] * (not is_logged(place, f"{STRANGER} withdraw motor ok"))
    lines = logged(place)
    place.stop(server)
    wrong += [f"the log says {lines[-1:]} of the others"] * (lines[-1:] != [f"{STRANGER} 796 lines left out"])
    all_must(wrong)


# Scripts that withdraw `one`, and what else they have.
HIDING = {
    "the last line, which has no newline": "withdraw one",
    "a line after a `call` that asks for more steps than there may be": "call a 9999999999 13\nwithdraw one\nlist\n",
    "a line after an `add` without a name": "add  13\nwithdraw one\nlist\n",
    "a line after one of 129 bytes that begins like a command": f"replace {'z' * 117} 130\nwithdraw one\nlist\n",
    "a line after an `update` whose first source does not end": "update a 1 13\nxx\nwithdraw one\nlist\n",
}


@attack("a `withdraw` that the log's reader of scripts might take for a source or input words")
def log_hidden(place):
    """Each `withdraw` that was done is in the log."""
    server = place.serve()
    wrong = []
    for what, script in HIDING.items():
        must(place.submit("add", "one", script=UNIT, user=VICTIM).returncode == 0, "the unit can't be added")
        before = len(logged(place))
        place.submit(script=script, user=STRANGER)
        wrong += [f"{what}: not in the log"] * (not is_logged(place, f"{STRANGER} withdraw one ok", before))
        must("unit one" not in place.submit("list").stdout, "the unit is not withdrawn")
    place.stop(server)
    all_must(wrong)


@attack("a `run` whose answer has more than 16 MiB, so that its script is answered by 54 alone")
def log_unanswered(place):
    """The line is in the log, with 54."""
    server = place.serve()
    must(place.submit("add", "loud", script=serve.LOUD, user=STRANGER).returncode == 0, "the unit can't be added")
    done = place.submit("--wait", "100", script="list\nrun loud 1000000000\nlist\n", user=STRANGER)
    must(done.stdout == "fault 54 WriteFault\n", f"the answer is {done.stdout[-60:]!r}")
    is_there = is_logged(place, f"{STRANGER} run loud 1000000000 fault 54")
    lines = logged(place)[-2:]
    place.stop(server)
    must(is_there and lines[0] == f"{STRANGER} list ok", f"the log ends by {lines}")


# ---- all of them


def ring(*_):
    raise TooLong


def try_one(name):
    """The result of an attack."""
    function, _, limit = ATTACKS[name]
    limit = int(limit * busy())
    signal.signal(signal.SIGALRM, ring)
    signal.alarm(limit)
    try:
        with Place() as place:
            function(place)
        return "held"
    except (Broken, serve.Wrong) as broken:
        return f"BROKEN: {broken}"
    except TooLong:
        return f"BROKEN: not at its end after {limit} seconds"
    except NotTried as why:
        return f"not tried: {why}"
    except (OSError, ValueError, LookupError, subprocess.SubprocessError) as error:
        return f"BROKEN: the attack itself ended by {type(error).__name__}: {error}"
    finally:
        signal.alarm(0)


def run(chosen):
    """Tries these attacks. Returns whether all of them held."""
    if os.geteuid() != 0:
        sys.exit("attacks.py: this needs root")
    for user in (SERVER, FRIEND, STRANGER, VICTIM):
        if user in [it.pw_uid for it in pwd.getpwall()]:
            sys.exit(f"attacks.py: the user {user} is somebody's")
    is_well = True
    for number in (signal.SIGTERM, signal.SIGHUP):
        signal.signal(number, lambda number, _: sys.exit(128 + number))
    with tempfile.TemporaryDirectory(prefix="attacks-", ignore_cleanup_errors=True) as work:
        os.chmod(work, 0o755)
        tempfile.tempdir = work
        for name in chosen:
            begin = time.time()
            said = re.sub(rf"{work}/serve-\w+/", "", try_one(name))
            is_well &= not said.startswith("BROKEN")
            print(f"{name:24} {time.time() - begin:5.0f} s  {said}", flush=True)
    return is_well


def main():
    words = sys.argv[1:]
    if "--program" in words:
        at = words.index("--program")
        serve.PROGRAM = os.path.abspath(words[at + 1])
        del words[at : at + 2]
    if words == ["--list"]:
        for name, (_, line, _) in ATTACKS.items():
            print(f"{name:24} {line}")
        return
    unknown = [it for it in words if it not in ATTACKS]
    if unknown:
        sys.exit(f"attacks.py: no attack is called {unknown[0]}\n{__doc__}")
    sys.exit(0 if run(words or list(ATTACKS)) else 1)


if __name__ == "__main__":
    main()
