#!/usr/bin/env python3
"""Lets many clients update one counter: no update may be lost.

updates.py [CLIENTS] [TIMES]     CLIENTS (200) fetch the source of `counter` and replace it with a source with the next number, TIMES (100) each.
                                 Each `ok` has to be for another number, and the last number is how many were answered `ok`

--program PROGRAM takes a program other than crates/cclib/out/cclib. The status is 1 if something is not as it should be."""

import os
import subprocess
import sys
import tempfile
import threading
import time

HERE = os.path.dirname(os.path.abspath(__file__))


def text(number):
    return f"int main(void){{write_word({number});return 0;}}\n"


def number_in(source):
    return int(source.split("write_word(")[1].split(")")[0])


class Counter:
    """A server whose library has one unit, which writes a number."""

    def __init__(self, program):
        self.program = program
        self.work = tempfile.mkdtemp(prefix="updates-")
        self.spool = f"{self.work}/spool"
        words = [program, "serve", f"{self.work}/units.disk", self.spool, "--format", "4194304", "--clients", "16", "--quiet"]
        self.told = open(f"{self.work}/told", "w")
        self.server = subprocess.Popen(words, stdout=subprocess.PIPE, stderr=self.told, text=True)
        self.lock = threading.Lock()
        self.done, self.changed, self.other = [], 0, []

    def submit(self, script, *words):
        return subprocess.run([self.program, "submit", self.spool, *words], input=script, capture_output=True, text=True, timeout=600)

    def begin(self):
        for _ in range(600):
            if os.path.isdir(f"{self.spool}/done") and self.submit("list\n").returncode == 0:
                break
            time.sleep(0.1)
        first = text(0)
        answer = self.submit(f"add counter {len(first)}\n{first}\n")
        if answer.stdout != "ok 1\n" and not answer.stdout.startswith("ok "):
            raise SystemExit(f"not added: {answer.stdout!r}")

    def update(self):
        found = self.submit("", "source", "counter")
        if found.returncode != 0:
            return self.note(None, found.stdout + found.stderr)
        old = found.stdout
        new = text(number_in(old) + 1)
        answer = self.submit(f"update counter {len(old)} {len(new)}\n{old}\n{new}\n").stdout
        return self.note(number_in(new), answer)

    def note(self, number, answer):
        with self.lock:
            if answer.startswith("ok ") and answer.count("\n") == 1:
                self.done.append(number)
            elif answer == "fault 60 Changed\n":
                self.changed += 1
            else:
                self.other.append(answer)

    def client(self, times):
        for _ in range(times):
            self.update()

    def end(self):
        last = number_in(self.submit("", "source", "counter").stdout)
        with open(f"{self.spool}/stop", "w"):
            pass
        said, _ = self.server.communicate(timeout=600)
        self.told.close()
        return last, said.strip()


def main():
    words = sys.argv[1:]
    program = os.environ.get("CCLIB") or os.path.join(HERE, "../../crates/cclib/out/cclib")
    if "--program" in words:
        at = words.index("--program")
        program = words[at + 1]
        del words[at : at + 2]
    clients, times = int(words[0]) if words else 200, int(words[1]) if len(words) > 1 else 100
    counter = Counter(os.path.abspath(program))
    counter.begin()
    begun = time.monotonic()
    threads = [threading.Thread(target=counter.client, args=(times,)) for _ in range(clients)]
    for it in threads:
        it.start()
    for it in threads:
        it.join()
    last, said = counter.end()
    done = sorted(counter.done)
    print(f"{clients} clients, {times} updates each, {time.monotonic() - begun:.0f} s: {len(done)} done, {counter.changed} changed meanwhile, "
          f"{len(counter.other)} others; the counter is {last}; {said}")
    for it in counter.other[:5]:
        print(repr(it))
    is_right = done == list(range(1, last + 1)) and not counter.other and len(done) + counter.changed == clients * times
    print(f"lost: {len(done) - last}")
    return 0 if is_right else 1


if __name__ == "__main__":
    sys.exit(main())
