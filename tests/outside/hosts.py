#!/usr/bin/env python3
"""Tests tools/cclib.py, by which hosts in Python call units, over the program; and the examples of examples/host.

    hosts.py [PROGRAM]     PROGRAM is a built cclib, or crates/cclib/out/cclib

For each test its name and what is not as it should be; the status is 1 if something is not."""

import pathlib
import subprocess
import sys
import tempfile
import threading
import time

HERE = pathlib.Path(__file__).resolve().parent
TOP = HERE.parents[1]
sys.path.insert(0, str(TOP / "tools"))
from cclib import Ended, Fault, Going, Library, Lost, Stopped, line_of, submit  # noqa: E402

# Writes what it has read, and then its double; after a 0 it ends, after a 1 it stays in place, after a 2 it writes for ever.
UNIT = """int seen;
int main(void) {
    for (;;) {
        int x = read_word();
        if (x == 0) return seen;
        if (x == 1) for (;;);
        while (x == 2) write_word(2);
        seen = seen + 1;
        write_word(x);
        write_word(2 * x);
    }
}
"""


def made(folder, program):
    """Returns a library with the unit."""
    library = Library(f"{folder}/units.disk", program)
    library.make(65536)
    assert library.add("unit", UNIT) == "ok 1", "not added"
    return library


def calls(library):
    """A call begins anew, and its answer says how it ended."""
    unit = library.unit("unit")
    assert unit.call([5, -3, 0], 10000) == Ended([5, 10, -3, -6], 2)
    assert unit.call([0], 10000) == Ended([], 0)
    assert unit.call([7, 1], 10000) == Stopped([7, 14], False)
    assert unit.call([7, 0], 10000) == Ended([7, 14], 1)
    going = unit.call([7, 2], 1000)
    assert isinstance(going, Going) and going.words[:3] == [7, 14, 2] and set(going.words[2:]) == {2}
    assert unit.call([1], 10000) == Stopped([], False)
    assert unit.call([3000000000, 0], 10000) == Ended([3000000000 - (1 << 32), 6000000000 - (1 << 32)], 1)
    assert unit.call([4], 1) == Going([])


def many_calls(library):
    """Thousands of calls have the answers of their own words, those that go on and stop in place among them."""
    unit = library.unit("unit")
    for n in range(3000):
        want = [Ended([n + 9, 2 * n + 18], 1), Stopped([n + 9, 2 * n + 18], False)][n % 2]
        assert unit.call([n + 9, n % 2], 10000) == want, n


def faults(library):
    """What can't be called is a fault, and a number of more bits is refused here."""
    assert library.unit("other").call([1], 10) == Fault(32, "Absent")
    assert library.unit("Other").call([1], 10) == Fault(33, "BadName")
    assert Library(f"{library.path}.no", library.program).unit("unit").call([1], 10) == Fault(35, "DiskFault")
    for word in [1 << 32, -(1 << 31) - 1]:
        try:
            line_of([word])
        except ValueError:
            continue
        raise AssertionError(word)


def new_units(library):
    """A changed unit is seen after `forget`."""
    unit = library.unit("changed")
    assert library.add("changed", "int main(void){return 1;}").startswith("ok")
    assert unit.call([], 100) == Ended([], 1)
    assert library.play("withdraw changed\n").startswith("ok")
    assert library.add("changed", "int main(void){return 2;}").startswith("ok")
    unit.forget()
    assert unit.call([], 100) == Ended([], 2)


def sessions(library):
    """A run that goes on keeps what it has, and its end is reported."""
    unit = library.unit("unit")
    with unit.live(10000) as run:
        for n in range(3, 500):
            assert run.send([n]) == [n, 2 * n]
        assert run.send([]) == []
        assert run.send([7, 8]) == [7, 14, 8, 16]
        assert run.send([9, 0, 4]) == [9, 18]
        assert run.end == Ended([9, 18], 500)
        try:
            run.send([1])
        except Lost:
            return
        raise AssertionError("a run that has ended takes words")


def ends(library):
    """How a run ends that waits, that reads zeros, that stays in place, that goes on, and that has none of its unit."""
    unit = library.unit("unit")
    with unit.live(10000) as run:
        assert run.send([5]) == [5, 10] and run.finish() == Going([])
    with unit.live(10000, reads_zeros=True) as run:
        assert run.send([5]) == [5, 10] and run.finish() == Ended([], 1)
    with unit.live(10000) as run:
        assert run.send([5, 1]) == [5, 10] and run.end == Stopped([5, 10], False)
    with unit.live(1000) as run:
        assert set(run.send([2])) == {2} and isinstance(run.end, Going)
    with library.unit("other").live(10) as run:
        assert run.send([2]) == [] and run.end == Fault(32, "Absent")
    with unit.live(10000) as run:
        assert run.send([5]) == [5, 10]


def beside_each_other(library):
    """Units are called from several threads, each by a library of its own."""
    wrong = []

    def some(number):
        with Library(library.path, library.program) as own:
            for n in range(100):
                if own.unit("unit").call([number, n + 3, 0], 10000) != Ended([number, 2 * number, n + 3, 2 * n + 6], 2):
                    wrong.append((number, n))

    threads = [threading.Thread(target=some, args=(number,)) for number in range(3, 9)]
    for it in threads:
        it.start()
    for it in threads:
        it.join()
    assert not wrong, wrong[:3]


def submitted(library):
    """A line is left for a server, and its answer comes."""
    folder = f"{library.path}.spool"
    server = subprocess.Popen([library.program, "--quiet", "serve", f"{library.path}.served", folder, "--format", "65536"])
    try:
        for _ in range(100):
            if (pathlib.Path(folder) / "done").is_dir():
                break
            time.sleep(0.1)
        assert submit(folder, "add", "unit", source=UNIT, program=library.program) == "ok 1\n"
        assert submit(folder, "list", program=library.program).startswith("unit unit\nok ")
    finally:
        (pathlib.Path(folder) / "stop").touch()
        server.wait(60)


def examples(library):
    """Each example of examples/host ends with status 0."""
    for path in sorted((TOP / "examples/host").glob("*.py")):
        done = subprocess.run([sys.executable, path, library.program], capture_output=True, text=True, timeout=300)
        assert done.returncode == 0, (path.name, done.stdout, done.stderr)


def main():
    program = sys.argv[1] if len(sys.argv) > 1 else str(TOP / "crates/cclib/out/cclib")
    failed = 0
    for test in [calls, many_calls, faults, new_units, sessions, ends, beside_each_other, submitted, examples]:
        with tempfile.TemporaryDirectory() as folder, made(folder, program) as library:
            try:
                test(library)
                print(f"{test.__name__}: ok")
            except (AssertionError, Lost, OSError, ValueError) as why:
                failed += 1
                print(f"{test.__name__}: {why!r} at line {why.__traceback__.tb_next.tb_lineno}")
    print(f"{failed} failed")
    return 1 if failed else 0


if __name__ == "__main__":
    sys.exit(main())
