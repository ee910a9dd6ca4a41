#!/usr/bin/env python3
"""Many small units in one library: adding them, opening, listing, replacing one and compacting, with the time and the largest amount of memory of
each.

million.py [UNITS] [AREA] [FOLDER]: UNITS units (1,000,000), in areas of AREA bytes (512 MiB), on a file in FOLDER (this one). A script has at most
16,777,216 bytes, so the units are added by as many runs of `cclib library` as that takes. PROGRAM names a program other than the one that
./cclib --prove builds."""

import os
import subprocess
import sys
import tempfile
import time

HERE = os.path.dirname(os.path.abspath(__file__))
PROGRAM = os.environ.get("PROGRAM", os.path.join(HERE, "../crates/cclib/out/cclib"))
LONGEST = 16_777_216
SOURCE = "int main(void){}"
OTHER = "int main(void){return 1;}"


def run(path, script, *options):
    """Runs a script. Returns the lines of its answer, the seconds, and the largest amount of memory in MiB."""
    with tempfile.TemporaryFile("w+") as given, tempfile.TemporaryFile("w+") as answer:
        given.write(script)
        given.seek(0)
        start = time.monotonic()
        process = subprocess.Popen([PROGRAM, "library", path, *options, "--quiet"], stdin=given, stdout=answer)
        _, status, used = os.wait4(process.pid, 0)
        seconds = time.monotonic() - start
        answer.seek(0)
        lines = answer.read().split("\n")[:-1]
    faults = [it for it in lines if it.startswith("fault ")]
    if status or faults:
        sys.exit(f"million.py: status {status}, {faults[:3]}")
    return lines, seconds, used.ru_maxrss / 1024


def scripts(units):
    """Scripts of adds, each as long as a script may be."""
    script = []
    size = 0
    for number in range(units):
        line = f"add u{number:07} {len(SOURCE)}\n{SOURCE}\n"
        if size + len(line) > LONGEST:
            yield "".join(script)
            script, size = [], 0
        script.append(line)
        size += len(line)
    yield "".join(script)


def main():
    units = int(sys.argv[1]) if len(sys.argv) > 1 else 1_000_000
    area = int(sys.argv[2]) if len(sys.argv) > 2 else 1 << 29
    with tempfile.TemporaryDirectory(dir=sys.argv[3] if len(sys.argv) > 3 else ".") as work:
        path = os.path.join(work, "disk")
        tell = lambda what, it: print(f"{what}: {it[1]:.2f} s, {it[2]:.0f} MiB", flush=True)
        tell("format", run(path, "", "--format", str(area)))
        runs = list(scripts(units))
        for script in runs:
            tell(f"{script.count('add ')} units added", run(path, script))
        tell("opened", run(path, ""))
        listed = run(path, "list\n")
        if sum(it.startswith("unit ") for it in listed[0]) != units:
            sys.exit("million.py: not all units are there")
        tell("listed", listed)
        tell("one replaced", run(path, f"replace u{units // 2:07} {len(OTHER)}\n{OTHER}\n"))
        tell("compacted", run(path, "compact\n"))
        tell("opened", run(path, ""))


if __name__ == "__main__":
    main()
