#!/usr/bin/env python3
"""Refuses once each system call that a server and `submit` make in the folder, and each allocation of a server.

fails.py [--program PROGRAM] server|submit|memory [FIRST [LAST [STEP]]]: fail.c refuses one call in each run (the numbers go from FIRST, 1, to LAST,
or until a run makes fewer calls), with EIO, ENOSPC and EINTR, and with EIO although it was done, as over a network whose answer is lost. In a run of
`server`, a server takes a folder that a killed one left, with a script that was begun, one that was answered and one that waits; it does scripts of
two `submit`s, and is stopped. In a run of `submit`, no call of the server is refused. Then another server does what is left. Nothing may hang: a
server ends within twenty seconds of `stop`, a `submit` within a minute. No unit that was answered `ok` may be lost, and no unit may be there whose
script was not done (56 without a name, 58). Each status and each fault has to be one that docs/SERVICE.md has; in the end nothing may be left in
`new` and `cur`. The status is 1 if that is not so. With `memory` the run is that of a server, and refuse.c refuses the allocation with that number,
in whichever thread it comes; 40 and 41 are possible answers then, and nothing of their calls is done."""

import collections
import concurrent.futures
import errno
import os
import re
import shutil
import subprocess
import sys
import time

import serve

WAYS = [(errno.EIO, False), (errno.ENOSPC, False), (errno.EINTR, False), (errno.EIO, True)]
BEGUN = ("cur/begun", "list\n"), ("cur/begun.answer", "ok 1\nok"), ("cur/handed", "list\n")
MADE = f"add waiting {len(serve.UNIT)}\n{serve.UNIT}\n"


class Way:
    """Which call is refused, and how."""

    def __init__(self, place, library, number, number_of_error, is_done):
        self.told = f"{place.work}/met"
        self.variables = {"LD_PRELOAD": library, "FAIL_IN": place.spool, "FAIL_AT": str(number),
                          "FAIL_WITH": str(number_of_error), "FAIL_TOLD": self.told}
        if is_done:
            self.variables["FAIL_DONE"] = "1"

    def __enter__(self):
        os.environ.update(self.variables)

    def __exit__(self, *_):
        for name in self.variables:
            del os.environ[name]

    def met(self):
        """The call that was refused, if the run came to it."""
        if not os.path.exists(self.told):
            return None
        with open(self.told) as file:
            return file.read().split()[1]


class Want:
    """Which allocation is refused: the program is started by a shell, whose own memory is not refused."""

    def __init__(self, place, library, number):
        self.place, self.program, self.told = place, place.program, f"{place.work}/told-of-memory"
        self.shell = f"{place.work}/refusing"
        with open(self.shell, "w") as file:
            file.write(f'#!/bin/sh\nexec env REFUSED={number} LD_PRELOAD={library} {place.program} "$@" 3> {self.told}\n')
        os.chmod(self.shell, 0o755)

    def __enter__(self):
        self.place.program = self.shell

    def __exit__(self, *_):
        self.place.program = self.program

    def met(self):
        """What was refused; the shim reports a run that ended before that allocation."""
        return "allocation" if os.path.exists(self.told) and not os.path.getsize(self.told) else None


def prepare(place, template):
    shutil.copy(f"{template}/units.disk", place.disk)
    shutil.copytree(f"{template}/spool", place.spool)
    for name, text in BEGUN:
        with open(f"{place.spool}/{name}", "w") as file:
            file.write(text)
    serve.put(place, "waiting", MADE)


def look_at_submit(done, name, units):
    """Whether a submit's answer and status are allowed, and the library has what they say."""
    lines, is_there = done.stdout.split("\n")[:-1], name in units
    last = lines[-1] if lines else ""
    is_named = "was left as" in done.stderr
    if re.fullmatch(r"ok \d+", last):
        # A fault may follow, if the answer could not be removed or could not be read further: then its line comes last.
        serve.must(done.returncode == 0 and is_there, f"{name}: {done}, {sorted(units)}")
        return "ok"
    serve.must(done.returncode == 1 and re.fullmatch(r"fault (4[01]|5[3-8]) \w+|fault 35 DiskFault", last), f"{name}: {done}")
    if re.match("fault (4|58)", last) or last.startswith("fault 56") and not is_named:
        serve.must(not is_there, f"{name}: {done}, {sorted(units)}")
    return last.split()[1] + (" left" if is_named else "")


def finish(place, server, is_met):
    """The end of the server that was tried: what it printed."""
    with open(f"{place.spool}/stop", "w"):
        pass
    try:
        said = server.communicate(timeout=20)[0].split("\n")[:-1]
    except subprocess.TimeoutExpired:
        server.kill()
        raise serve.Wrong("the server does not end") from None
    last = said[-1] if said else ""
    serve.must(server.returncode in (0, 1), f"the server ended with {server.returncode}")
    serve.must(server.returncode == 1 or re.fullmatch(r"served \d+", last), f"the server said {said} with 0")
    serve.must(server.returncode == 0 or is_met(), f"the server said {said} with 1, and no call was refused")
    serve.must(server.returncode == 0 or re.fullmatch(r"served \d+|fault (4[01]|5[67]) \w+", last), f"the server said {said} with 1")
    return f"{last.split()[0]} {server.returncode}" if last.startswith("served") else last


def clean_up(place):
    """Another server does what is left. Returns the library's units."""
    if os.path.exists(f"{place.spool}/stop"):
        os.remove(f"{place.spool}/stop")
    server = place.start("--quiet")
    place.wait_ready()
    for _ in range(400):
        left = [f"{part}/{it}" for part in ("new", "cur") for it in os.listdir(place.file(part)) if not it.startswith(".try-")]
        if not left:
            break
        time.sleep(0.05)
    serve.must(not left, f"left: {left}")
    place.stop(server)
    units = {it[5:] for it in place.library("list\n") if it.startswith("unit ")}
    begun = serve.answer(place, "begun")
    serve.must(begun == ["ok 1", "fault 55 Interrupted"], f"the script that was begun: {begun}")
    waiting = serve.answer(place, "waiting")
    serve.must("waiting" in units or not re.match(r"ok", waiting[0] if waiting else ""), f"the script that waited: {waiting}")
    return units


def try_server(place, way):
    """Runs a server with one call that is refused, and returns the result."""
    with way:
        server = place.start("--quiet")
    with concurrent.futures.ThreadPoolExecutor() as pool:
        done = list(pool.map(lambda name: place.submit("--wait", "2", "add", name, script=serve.UNIT), ("one", "two")))
    end = finish(place, server, way.met)
    units = clean_up(place)
    return [f"server: {end}"] + [f"submit: {look_at_submit(it, name, units)}" for name, it in zip(("one", "two"), done)]


def try_submit(place, way):
    """Runs a submit with one call that is refused, and returns the result."""
    server = place.start("--quiet")
    place.wait_ready()
    with way:
        done = place.submit("add", "one", script=serve.UNIT)
    finish(place, server, lambda: False)
    units = clean_up(place)
    return [f"submit: {look_at_submit(done, 'one', units)}"]


def template_of(work):
    """A library and a folder as a server leaves them."""
    place = serve.Place()
    server = place.start("--format", str(1 << 16))
    place.wait_ready()
    place.stop(server)
    shutil.copytree(place.spool, f"{work}/spool")
    shutil.copy(place.disk, f"{work}/units.disk")
    shutil.rmtree(place.work)


def main():
    words = sys.argv[1:]
    if "--program" in words:
        at = words.index("--program")
        serve.PROGRAM = words[at + 1]
        del words[at : at + 2]
    tries = {"server": try_server, "submit": try_submit, "memory": try_server}
    if not words or words[0] not in tries:
        sys.exit(__doc__)
    first, last, step = ([int(it) for it in words[1:]] + [1, 10**6, 1][len(words) - 1 :])[:3]
    work = serve.tempfile.mkdtemp(prefix="fails-")
    is_memory = words[0] == "memory"
    library = f"{work}/fail.so"
    source = os.path.join(serve.HERE, "shims", "refuse.c" if is_memory else "fail.c")
    subprocess.run(["gcc", "-O1", "-shared", "-fPIC", "-o", library, source, "-ldl"], check=True)
    template_of(work)
    calls, ends = collections.Counter(), collections.Counter()
    for number in range(first, last + 1, step):
        is_met = False
        for number_of_error, is_done in [(errno.ENOMEM, False)] if is_memory else WAYS:
            place = serve.Place()
            try:
                prepare(place, work)
                way = Want(place, library, number) if is_memory else Way(place, library, number, number_of_error, is_done)
                ends.update(tries[words[0]](place, way))
            except (serve.Wrong, subprocess.TimeoutExpired) as wrong:
                sys.exit(f"fails.py: call {number} ({way.met()}), {errno.errorcode[number_of_error]}{' behind it' if is_done else ''}: {wrong} (in {place.work})")
            if way.met():
                is_met = True
                calls[way.met()] += 1
            shutil.rmtree(place.work)
        if not is_met:
            break
        if number % 20 == 0:
            print(f"{number} calls: {dict(ends)}", flush=True)
    shutil.rmtree(work)
    print(f"{words[0]}: {sum(calls.values())} calls refused, each once ({', '.join(f'{it} {many}' for it, many in sorted(calls.items()))}): nothing lost, no hang")
    print(", ".join(f"{it} {many}" for it, many in sorted(ends.items())))


if __name__ == "__main__":
    main()
