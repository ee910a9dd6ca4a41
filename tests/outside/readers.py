"""Many readers beside a writer, one library: two hundred processes read a unit again and again, each with --wait 60, while another replaces it a
hundred times. No reader gets 35, each sees a whole text that the unit had at some moment of the read, none sees an older one than it saw before, and
all changes are made within ten minutes.

    python3 tests/outside/readers.py [READERS [CHANGES [PROGRAM]]]

Prints how many reads and changes there were, and how long the longest of each took; the status is 1 if anything is wrong. The program is the proved
one if none is given.
"""
import os
import subprocess
import sys
import tempfile
import threading
import time

TOP = os.path.dirname(os.path.dirname(os.path.dirname(os.path.realpath(__file__))))
MOST_SECONDS = 600


def text(version):
    """The text of the unit in this version."""
    return b"int main(void){return %d;}\n" % version


def run(program, words, given=b""):
    """What a start of the program answers, and how many seconds it took."""
    begun = time.monotonic()
    done = subprocess.run([program, *words], input=given, capture_output=True, check=False)
    return done, time.monotonic() - begun


class Readers:
    """Readers, and what they saw."""

    def __init__(self, program, disk):
        self.program, self.disk = program, disk
        self.over, self.lock = threading.Event(), threading.Lock()
        self.begun = self.made = 0
        self.reads, self.longest, self.wrong = 0, 0.0, []

    def read(self, last):
        """Reads once. The result is the version that was seen."""
        least = max(last, self.made)
        done, took = run(self.program, ["source", self.disk, "sum", "--wait", "60"])
        most = self.begun
        seen = [version for version in range(least, most + 1) if done.stdout == text(version)]
        with self.lock:
            self.reads += 1
            self.longest = max(self.longest, took)
            if done.returncode or len(seen) != 1:
                self.wrong.append((least, most, done.returncode, done.stdout, done.stderr))
        return seen[0] if seen else last

    def go_on(self):
        """Reads until the writer has ended."""
        last = 0
        while not self.over.is_set():
            last = self.read(last)


def write(readers, changes):
    """Makes the changes. The result is the longest that one took, or `None` if one failed."""
    longest = 0.0
    for version in range(1, changes + 1):
        readers.begun = version
        done, took = run(readers.program, ["replace", readers.disk, "sum", "--wait", str(MOST_SECONDS)], text(version))
        if done.returncode:
            print(version, done.stdout, done.stderr)
            return None
        readers.made, longest = version, max(longest, took)
    return longest


def main():
    many = int(sys.argv[1]) if len(sys.argv) > 1 else 200
    changes = int(sys.argv[2]) if len(sys.argv) > 2 else 100
    program = os.path.realpath(sys.argv[3]) if len(sys.argv) > 3 else f"{TOP}/crates/cclib/out/cclib"
    with tempfile.TemporaryDirectory() as room:
        disk = f"{room}/d"
        script = b"add sum %d\n" % len(text(0)) + text(0) + b"\n"
        made, _ = run(program, ["library", disk, "--format", "1048576"], script)
        if made.returncode or not made.stdout.startswith(b"ok 1\n"):
            print(made)
            return 1
        readers = Readers(program, disk)
        threads = [threading.Thread(target=readers.go_on) for _ in range(many)]
        for thread in threads:
            thread.start()
        begun = time.monotonic()
        longest = write(readers, changes)
        spent = time.monotonic() - begun
        readers.over.set()
        for thread in threads:
            thread.join()
    for it in readers.wrong[:5]:
        print("wrong:", *it)
    is_right = longest is not None and not readers.wrong and spent <= MOST_SECONDS
    print(f"{many} readers: {readers.reads} reads, {len(readers.wrong)} wrong, the longest {readers.longest:.2f} s; {changes} changes in {spent:.1f} s, "
          f"the longest {longest or 0:.2f} s")
    return 0 if is_right else 1


if __name__ == "__main__":
    sys.exit(main())
