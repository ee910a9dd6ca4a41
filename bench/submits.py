#!/usr/bin/env python3
"""How long a server's clients wait, and what a server takes: times and memory of `serve` and `submit`, run as processes.

submits.py memory [SECONDS [SUBMITTERS [UNITS]]]  for SECONDS (600), SUBMITTERS submitters (24) replace, run and list units, small and large, in a
                                           library of UNITS others (1,000): the server's resident memory each second; the maximum of the second half
                                           has to be at most 1.1 times that of the first, and below 512 MiB
submits.py waiting [COUNT]                 COUNT scripts (10,000) wait when the server begins: how long it takes until all are answered
submits.py rates [COUNT]                   scripts of one `add` a second, COUNT (480) from 1, 4 and 16 submitters, divided by those of a `library`
                                           that is fed the same commands, and by the commits of sqlite (sqlite.c: WAL, synchronous FULL) with the same
                                           number of clients and bytes; three rounds in turn, the best of each. libsqlite3-dev has to be installed
submits.py latency [COUNT]                 what one `submit add` takes, COUNT times (100), when the server is idle, and when four other submitters
                                           keep it busy; divided by the time of one `add` of `library`, and by that of a process that does nothing
submits.py ends [COUNT [UNITS]]            a library of UNITS units (1,000) and 16 submitters of small scripts, until COUNT generations (3) ended, each
                                           after 4,096 scripts: the longest time that one of them waits. Then the same while a script runs a unit
                                           three times for 10^9 steps: when a generation is over, the others wait for the end of that script

--program PROGRAM takes a program other than crates/cclib/out/cclib, --folder FOLDER a place other than the system's for temporary files. All commands
print the load of the machine."""

import os
import random
import re
import shutil
import statistics
import subprocess
import sys
import threading
import time

sys.path.insert(0, os.path.join(os.path.dirname(os.path.abspath(__file__)), "../tests/outside"))
import serve
import session

UNIT = session.UNIT
LARGE = session.large()
LOOP = "int main(void){int i;for(i=0;i>=0;i++)if(i==2000000000)i=0;return 0;}"


def told_load():
    print(f"load {', '.join(f'{it:.1f}' for it in os.getloadavg())} on {os.cpu_count()} processors", flush=True)


def begun(area=1 << 24, *options):
    place = serve.Place()
    server = place.start("--format", str(area), *options)
    place.wait_ready()
    return place, server


def ended(place, server):
    place.stop(server)
    shutil.rmtree(place.work)


def at_once(count, work):
    """Runs this many threads, each of which does the work with its own number."""
    faults = []

    def done(number):
        try:
            work(number)
        except (serve.Wrong, subprocess.TimeoutExpired, OSError) as fault:
            faults.append(fault)

    threads = [threading.Thread(target=done, args=(it,)) for it in range(count)]
    for it in threads:
        it.start()
    for it in threads:
        it.join()
    if faults:
        raise serve.Wrong(faults[0])


def put_unit(place, name, text):
    """Puts a unit under a name; if there is no room, the library is compacted first."""
    for _ in range(10):
        done = place.submit("replace", name, script=text)
        if done.stdout == "fault 32 Absent\n":
            done = place.submit("add", name, script=text)
        if done.stdout != "fault 34 Full\n":
            break
        place.submit("compact")
    serve.must(re.fullmatch(r"ok \d+\n", done.stdout), f"a unit was not put: {done}")


# ---- memory


def resident(process):
    with open(f"/proc/{process.pid}/status") as file:
        return next(int(it.split()[1]) for it in file if it.startswith("VmRSS:")) / 1024


def memory(seconds=600, submitters=24, units=1000):
    place = serve.Place()
    place.library("".join(f"add u{it} {len(UNIT)}\n{UNIT}\n" for it in range(units)), "--format", str(1 << 26))
    server = place.start("--clients", "16")
    place.wait_ready()
    end, count = time.time() + seconds, [0] * submitters

    def work(number):
        name, chance = f"s{number}", random.Random(number)
        put_unit(place, name, UNIT)
        while time.time() < end:
            texts = [LARGE if chance.random() < 0.5 else UNIT for _ in range(2)]
            # The history keeps the names of each list, so lists fill a generation fastest.
            script = "list\n" * 10 + "".join(f"replace {name} {len(it)}\n{it}\nrun {name} 100000\n" for it in texts)
            said = place.submit(script=script).stdout.split("\n")[:-1]
            others = [it for it in said if not re.fullmatch(r"ok \d+|unit \w+|-?\d+|exited -?\d+|going|trapped|fault 34 Full", it)]
            serve.must(said and not others, f"an answer has {others}")
            if "fault 34 Full" in said:
                place.submit("compact")
            count[number] += 1

    samples = []
    worker = threading.Thread(target=at_once, args=(submitters, work))
    worker.start()
    while worker.is_alive():
        samples.append(resident(server))
        time.sleep(1)
    worker.join()
    place.stop(server)
    half, tenth = len(samples) // 2, max(1, len(samples) // 10)
    print("most MiB in each tenth: " + ", ".join(f"{max(samples[it : it + tenth]):.0f}" for it in range(0, len(samples), tenth)))
    first, last = max(samples[:half]), max(samples[half:])
    print(f"{submitters} submitters, {len(samples)} s, {sum(count)} scripts, {generations(place)} generations: resident at most {first:.1f} MiB in the "
          f"first half, {last:.1f} in the second, ratio {last / first:.3f}")
    told_load()
    serve.must(last <= 1.1 * first and last < 512, "too much memory")
    shutil.rmtree(place.work)


# ---- many that wait


def waiting(count=10_000):
    place, server = begun(1 << 24, "--clients", "16")
    place.stop(server)
    for number in range(count):
        serve.put(place, f"w{number:06}", f"add u{number} {len(UNIT)}\n{UNIT}\n" if number % 10 == 0 else "list\n" if number % 100 == 5 else f"run u0 {number}\n")
    begin = time.perf_counter()
    server = place.start("--clients", "16")
    while os.listdir(place.file("new")) or len(os.listdir(place.file("done"))) < count:
        serve.must(server.poll() is None, "the server ended")
        time.sleep(0.02)
    took = time.perf_counter() - begin
    for number in range(0, count, 10):
        with open(place.file("done", f"w{number:06}")) as file:
            said = file.read()
        serve.must(re.fullmatch(r"ok \d+\n", said), f"the answer of {number}: {said!r}")
    place.stop(server)
    print(f"{count} scripts that waited, every tenth an `add`: answered in {took:.1f} s, {count / took:.0f} a second")
    told_load()
    shutil.rmtree(place.work)


# ---- rates


def submit_rate(count, submitters):
    """Scripts of one `add` a second. A shell sends them, since a Python process takes longer to start than a script takes to run."""
    place, server = begun(1000 * count, "--clients", "16")
    each = count // submitters
    source = f"{place.work}/unit.c"
    with open(source, "w") as file:
        file.write(UNIT)
    loop = 'i=0; while [ $i -lt "$3" ]; do "$0" submit "$1" add "s$2_$i" < "$4" || exit 1; i=$((i+1)); done'
    begin = time.perf_counter()
    shells = [subprocess.Popen(["sh", "-c", loop, place.program, place.spool, str(it), str(each), source], stdout=subprocess.DEVNULL) for it in range(submitters)]
    statuses = [it.wait() for it in shells]
    took = time.perf_counter() - begin
    serve.must(not any(statuses), f"a submit ended with {statuses}")
    ended(place, server)
    return each * submitters / took


def library_rate(count):
    place = serve.Place()
    place.library("", "--format", str(1000 * count))
    script = "".join(f"add u{it} {len(UNIT)}\n{UNIT}\n" for it in range(count))
    begin = time.perf_counter()
    lines = place.library(script)
    took = time.perf_counter() - begin
    serve.must(lines == [f"ok {it + 1}" for it in range(count)], f"{lines[-1:]}")
    with open(place.disk, "rb") as file:
        length = int.from_bytes(file.read()[17:21], "little")
    shutil.rmtree(place.work)
    return count / took, length


def sqlite_rate(program, count, clients, length):
    place = serve.Place()
    said = subprocess.run([program, "put", f"{place.work}/base", str(clients), str(count // clients), str(length)], capture_output=True, text=True, check=True).stdout.split()
    shutil.rmtree(place.work)
    serve.must(int(said[0]) == count // clients * clients, f"sqlite acknowledged {said[0]}")
    return int(said[0]) / int(said[1]) * 1e9


def rates(count=480):
    work = serve.Place()
    program = f"{work.work}/sqlite"
    subprocess.run(["gcc", "-O2", "-pthread", "-o", program, os.path.join(os.path.dirname(os.path.abspath(__file__)), "sqlite.c"), "-lsqlite3"], check=True)
    best = {}
    for _ in range(3):
        fed, length = library_rate(count)
        best["library"] = max(fed, best.get("library", 0))
        for clients in (1, 4, 16):
            best["submit", clients] = max(submit_rate(count, clients), best.get(("submit", clients), 0))
            best["sqlite", clients] = max(sqlite_rate(program, count, clients, length), best.get(("sqlite", clients), 0))
    print(f"`library` fed {count} `add`s of {len(UNIT)} bytes: {best['library']:.0f} a second")
    for clients in (1, 4, 16):
        ours, theirs = best["submit", clients], best["sqlite", clients]
        print(f"{clients} submitters, scripts of one `add`: {ours:.0f} a second, by `library` {ours / best['library']:.3f}, by sqlite's {theirs:.0f} {ours / theirs:.3f}")
    told_load()
    shutil.rmtree(work.work)


# ---- latency


def timed(work, count, pause=0.0):
    times = []
    for number in range(count):
        time.sleep(pause)
        begin = time.perf_counter()
        work(number)
        times.append((time.perf_counter() - begin) * 1000)
    return times


def told_times(what, times):
    ordered = sorted(times)
    print(f"{what}: median {statistics.median(ordered):.1f} ms, least {ordered[0]:.1f}, nine of ten below {ordered[len(ordered) * 9 // 10]:.1f}, most {ordered[-1]:.1f}")


def latency(count=100):
    place, server = begun(1 << 24, "--clients", "8")
    add = lambda kind: lambda it: serve.must(place.submit("add", f"{kind}{it}", script=UNIT).returncode == 0, "an add")
    told_times("a process that does nothing (`--version`)", timed(lambda _: subprocess.run([place.program, "--version"], capture_output=True, check=True), count))
    told_times("`submit add`, idle for 300 ms before", timed(add("a"), count, 0.3))
    stop = threading.Event()

    def keep_busy(number):
        for it in range(10**6):
            if stop.is_set():
                break
            place.submit("run", f"a{(number + it) % count}", "1000")

    worker = threading.Thread(target=at_once, args=(4, keep_busy))
    worker.start()
    time.sleep(0.5)
    told_times("`submit add`, four others busy", timed(add("b"), count))
    stop.set()
    worker.join()
    place.stop(server)
    lines = f"add c {len(UNIT)}\n{UNIT}\n"
    told_times("`library` opened for one `add`, and ended", timed(lambda it: place.library(lines.replace("add c", f"add c{it}")), min(count, 20)))
    script = "".join(f"add d{it} {len(UNIT)}\n{UNIT}\n" for it in range(count))
    begin = time.perf_counter()
    place.library(script)
    whole = (time.perf_counter() - begin) * 1000
    begin = time.perf_counter()
    place.library("")
    print(f"one `add` of {count} in one `library`: {(whole - (time.perf_counter() - begin) * 1000) / count:.2f} ms")
    told_load()
    shutil.rmtree(place.work)


# ---- the ends of generations


def ask(place, name, text):
    """What somebody without `cclib` does: leaves a script, waits for its answer, and removes the answer."""
    serve.put(place, name, text)
    path = place.file("done", name)
    while not os.path.exists(path):
        time.sleep(0.002)
    with open(path) as file:
        said = file.read()
    os.remove(path)
    return said


def watched(place, until, submitters):
    """Measures how long a small script takes while others send such scripts too, until `until` holds. Returns how many there were, and the longest
    waits."""
    times, ended = [[] for _ in range(submitters)], threading.Event()

    def work(number):
        for it in range(10**9):
            if ended.is_set():
                break
            begin = time.perf_counter()
            said = ask(place, f"w{number}-{it}", "run u0 10\n")
            times[number].append(time.perf_counter() - begin)
            serve.must(said.endswith("\n") and not said.startswith("fault"), f"an answer {said!r}")

    worker = threading.Thread(target=at_once, args=(submitters, work))
    worker.start()
    while worker.is_alive() and not until():
        time.sleep(0.2)
    ended.set()
    worker.join()
    return sorted((it for own in times for it in own), reverse=True)


def generations(place):
    with open(f"{place.work}/told") as file:
        return sum("bytes of history" in it for it in file)


def ends(count=3, units=1000):
    place = serve.Place()
    place.library("".join(f"add u{it} {len(UNIT)}\n{UNIT}\n" for it in range(units)) + f"add loop {len(LOOP)}\n{LOOP}\n", "--format", str(1 << 24))
    begin = time.perf_counter()
    place.library("")
    print(f"a library of {units} units: opened and ended in {time.perf_counter() - begin:.2f} s")
    server = place.start("--clients", "16")
    place.wait_ready()
    waits = watched(place, lambda: generations(place) >= count, 16)
    print(f"{count} generations ended under 16 submitters, {len(waits)} scripts: the longest waits {', '.join(f'{it:.2f}' for it in waits[:5])} s, median {statistics.median(waits):.3f}")
    begin = time.perf_counter()
    ask(place, "once", "run loop 1000000000\n")
    once = time.perf_counter() - begin
    serve.put(place, "long", "run loop 1000000000\n" * 3)
    before, began = generations(place), time.perf_counter()
    waits = watched(place, lambda: generations(place) > before and os.path.exists(place.file("done", "long")), 16)
    print(f"a `run` of 10^9 steps: {once:.1f} s; while a script of three of them was done, in {time.perf_counter() - began:.1f} s, a generation had to end: the longest "
          f"waits of others {', '.join(f'{it:.1f}' for it in waits[:5])} s, median {statistics.median(waits):.3f}")
    told_load()
    ended(place, server)


def main():
    words = sys.argv[1:]
    for option in ("--program", "--folder"):
        if option in words:
            at = words.index(option)
            if option == "--program":
                serve.PROGRAM = words[at + 1]
            else:
                serve.tempfile.tempdir = words[at + 1]
            del words[at : at + 2]
    work = {"memory": memory, "waiting": waiting, "rates": rates, "latency": latency, "ends": ends}.get(words[0] if words else "")
    if not work:
        sys.exit(__doc__)
    try:
        work(*[int(it) for it in words[1:]])
    except serve.Wrong as wrong:
        sys.exit(f"submits.py: {wrong}")


if __name__ == "__main__":
    main()
