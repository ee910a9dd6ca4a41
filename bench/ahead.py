#!/usr/bin/env python3
"""Compares how this program and an earlier build run scripts of many `add`s: BEFORE names the earlier build, CCLIB a program other than this
repository's.

ahead.py adds [FOLDER]            adds a second with `library`: 2,000 units of one function, and 500 of the programs of bench/programs and examples,
with 1, 2
                                  and 4 workers, in turn, ROUNDS times (5); the best of each counts, by the wall clock, minus a session without a
                                  command
ahead.py fuzz [FOLDER [COUNT]]    COUNT (10,000) scripts with good and faulty commands, odd lengths and cut ends: the answers, the status and the
bytes of
                                  the file have to be the same with `library`, fed at once (every second script) or in pieces, and the answers with
                                  `serve` and the list afterwards too

The file is put into FOLDER (this one)."""

import glob
import os
import random
import subprocess
import sys
import tempfile
import time

TOP = os.path.dirname(os.path.dirname(os.path.abspath(__file__)))
NOW = os.environ.get("CCLIB") or os.path.join(TOP, "crates/cclib/out/cclib")
BEFORE = os.environ.get("BEFORE", "")
SMALL = "int f(int x){return x*3;}int main(void){write_word(f(5));return f(2);}"


def fail(text):
    sys.exit(f"ahead.py: {text}")


def fresh(program, path, area):
    if os.path.exists(path):
        os.remove(path)
    made = subprocess.run([program, "library", path, "--quiet", "--format", str(area)], input=b"", capture_output=True, timeout=60)
    if made.returncode:
        fail(made.stdout)


def real_texts():
    """The texts of those programs of the repository that are units."""
    found = []
    for path in sorted(glob.glob(f"{TOP}/bench/programs/**/*.c", recursive=True) + glob.glob(f"{TOP}/examples/*.c")):
        with open(path, encoding="utf-8") as file:
            text = file.read()
        if subprocess.run([NOW, "--quiet", "asm"], input=text, capture_output=True, text=True, timeout=60).returncode == 0:
            found.append(text)
    return found


def session_time(program, path, workers, texts):
    fresh(program, path, 1 << 23)
    lines = "".join(f"add u{it} {len(text.encode())}\n{text}\n" for it, text in enumerate(texts))
    begin = time.perf_counter()
    words = [program, "library", path, "--quiet", "--workers", str(workers)]
    done = subprocess.run(words, input=lines, capture_output=True, text=True, timeout=600)
    took = time.perf_counter() - begin
    if done.returncode or done.stdout != "".join(f"ok {it + 1}\n" for it in range(len(texts))):
        fail(f"{program}: {done.stdout[:200]!r}")
    return took


def adds(work):
    texts = real_texts()
    kinds = {"small": [SMALL] * 2000, "real": [texts[it % len(texts)] for it in range(500)], "none": []}
    print(f"{len(texts)} real texts; adds a second: now, before, now / before (more is better)")
    for workers in (1, 2, 4):
        best = {}
        for _ in range(int(os.environ.get("ROUNDS", "5"))):
            for kind, units in kinds.items():
                for program in (NOW, BEFORE):
                    took = session_time(program, os.path.join(work, "disk"), workers, units)
                    best[kind, program] = min(took, best.get((kind, program), took))
        for kind in ("small", "real"):
            now, before = (len(kinds[kind]) / (best[kind, it] - best["none", it]) for it in (NOW, BEFORE))
            print(f"{kind}, {workers} workers: {now:.0f}, {before:.0f}, {now / before:.2f}", flush=True)
    print(f"load {os.getloadavg()[0]:.1f} on {os.cpu_count()} processors")


GOOD = [SMALL, "int main(void){}", "int g[9];int main(void){int i;for(i=0;i<9;i++)g[i]=i*i;write_word(g[8]);return 0;}"]
BAD = ["int main(void){return 1 2}", "int main(void)\n{x;}", "", "int", "int f(void){}", "int main(void){/*"]


def command(draw):
    """A command of a script; some commands are faulty."""
    name = draw.choice(["a", "b", "c", "d", "long_name_" * 2, "A", "9", "q"])
    kind = draw.randrange(20)
    if kind < 13:
        text = draw.choice(GOOD if draw.random() < 0.75 else BAD)
        length = len(text) + (draw.choice([-3, -1, 1, 5]) if draw.random() < 0.07 else 0)
        return f"{draw.choice(['add', 'replace'])} {name} {max(0, length)}\n{text}\n"
    if kind < 19:
        return draw.choice([f"withdraw {name}", "list", f"run {name} 1000", "compact", f"audit", f"source {name}", f"image {name}", "hello", "x" * 200]) + "\n"
    return draw.choice([f"add {name} 99999999\nint\n", f"add {name} 66000\n{'/' * 66000}\n", f"add {name}\n", "\n"])


def script(draw):
    text = "".join(command(draw) for _ in range(draw.randrange(1, 24)))
    return text[: draw.randrange(len(text) + 1)] if draw.random() < 0.15 else text


def by_library(program, path, text, in_pieces, draw):
    """What a session answers, its status, and the bytes of its file."""
    fresh(program, path, 1 << 14)
    run = subprocess.Popen([program, "library", path, "--quiet", "--workers", "2"], stdin=subprocess.PIPE, stdout=subprocess.PIPE, stderr=subprocess.DEVNULL)
    if in_pieces:
        at = 0
        try:
            while at < len(text):
                size = draw.choice([1, 7, 60, 4096])
                run.stdin.write(text[at : at + size])
                run.stdin.flush()
                at += size
        except BrokenPipeError:
            pass
        out = run.communicate(timeout=60)[0]
    else:
        out = run.communicate(text, timeout=60)[0]
    with open(path, "rb") as file:
        return out, run.returncode, file.read()


def by_server(program, work, texts):
    """What one client of a server answers to scripts that it takes in turn, and what the library lists afterwards."""
    disk, spool = os.path.join(work, "served"), os.path.join(work, "spool")
    subprocess.run(["rm", "-rf", spool, disk], check=True)
    words = [program, "serve", disk, spool, "--format", str(1 << 16), "--clients", "1", "--workers", "2", "--quiet"]
    done, stop = os.path.join(spool, "done"), os.path.join(spool, "stop")

    def until(is_so):
        """Runs the server until this is true; returns its status."""
        server = subprocess.Popen(words, stdin=subprocess.DEVNULL, stdout=subprocess.DEVNULL, stderr=subprocess.DEVNULL)
        while server.poll() is None and not is_so():
            time.sleep(0.01)
        while server.poll() is None:
            with open(stop, "wb"):
                pass
            time.sleep(0.05)
        return server.returncode

    # The folder is made first.
    until(lambda: os.path.isdir(done))
    for number, text in enumerate(texts):
        with open(os.path.join(spool, "new", f"{number:06}"), "wb") as file:
            file.write(text)
    status, answers = until(lambda: len(os.listdir(done)) == len(texts)), []
    for number in range(len(texts)):
        with open(os.path.join(done, f"{number:06}"), "rb") as file:
            answers.append(file.read())
    listed = subprocess.run([program, "library", disk, "--quiet"], input=b"list\naudit\n", capture_output=True, timeout=60).stdout
    return status, answers, listed


def fuzz(work, count):
    draw = random.Random(int(os.environ.get("SEED", "1")))
    begin, batch = time.monotonic(), []
    for number in range(count):
        text = script(draw).encode()
        seed, path = draw.random(), os.path.join(work, "disk")
        now, before = (by_library(it, path, text, number % 2 == 1, random.Random(seed)) for it in (NOW, BEFORE))
        if now != before:
            with open("ahead.script", "wb") as file:
                file.write(text)
            fail(f"script {number} differs by `library`, kept as ahead.script: {now[:2]} and {before[:2]}")
        batch.append(text)
        if len(batch) == 200 or number + 1 == count:
            now, before = (by_server(it, work, batch) for it in (NOW, BEFORE))
            if now != before:
                wrong = [it for it, (one, other) in enumerate(zip(now[1], before[1], strict=True)) if one != other]
                fail(f"scripts {number + 1 - len(batch)} to {number} differ by `serve`: {wrong[:5]}, status {now[0]}, {before[0]}")
            batch = []
        if (number + 1) % 1000 == 0 and number + 1 < count:
            print(f"{number + 1} scripts so far", flush=True)
    print(f"{count} scripts: the same answers, status and bytes ({time.monotonic() - begin:.0f} s)")


def main():
    if len(sys.argv) < 2 or sys.argv[1] not in ("adds", "fuzz"):
        sys.exit(__doc__)
    for program in (NOW, BEFORE):
        if not os.access(program, os.X_OK):
            fail(f"{program or 'BEFORE'} is no program")
    with tempfile.TemporaryDirectory(dir=sys.argv[2] if len(sys.argv) > 2 else ".") as work:
        if sys.argv[1] == "adds":
            adds(work)
        else:
            fuzz(work, int(sys.argv[3]) if len(sys.argv) > 3 else 10_000)


if __name__ == "__main__":
    main()
