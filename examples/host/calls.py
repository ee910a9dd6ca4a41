#!/usr/bin/env python3
"""A host that calls a stranger's filter a thousand times a second, for some seconds, and bounds each call.

    examples/host/calls.py [PROGRAM [SECONDS]]

Each call begins anew, whatever the filter did before. A filter that does not end uses its steps, and is answered Going."""

import pathlib
import random
import sys
import tempfile
import time

HERE = pathlib.Path(__file__).resolve().parent
sys.path.insert(0, str(HERE.parents[1] / "tools"))
import cclib  # noqa: E402

RATE = 1000


def filtered(samples):
    """Returns what the filter has to answer."""
    kept = [min(sample, 1000) for sample in samples]
    return cclib.Ended([*kept, sum(kept)], 0)


def main():
    program = sys.argv[1] if len(sys.argv) > 1 else "cclib"
    seconds = int(sys.argv[2]) if len(sys.argv) > 2 else 3
    numbers = random.Random(1)
    with tempfile.TemporaryDirectory() as folder, cclib.Library(f"{folder}/units.disk", program) as library:
        library.make(65536)
        library.add("filter", (HERE / "filter.c").read_text())
        unit = library.unit("filter")
        late, start = 0, time.perf_counter()
        for call in range(RATE * seconds):
            samples = [numbers.randrange(2000) for _ in range(8)]
            if unit.call([len(samples), *samples], 10000) != filtered(samples):
                raise SystemExit(f"call {call} has another answer")
            due = start + (call + 1) / RATE
            if (left := due - time.perf_counter()) > 0:
                time.sleep(left)
            else:
                late += 1
        took = time.perf_counter() - start
        print(f"{RATE * seconds} calls in {took:.2f} s, {late} of them late")
        print(f"a call with too few steps: {unit.call([8, *[1] * 8], 20)}")
    return 0


if __name__ == "__main__":
    sys.exit(main())
