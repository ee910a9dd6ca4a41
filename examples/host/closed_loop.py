#!/usr/bin/env python3
"""A controller of the library in a closed loop with a plant in Python: a furnace that loses heat, and has to come to 200 degrees.

    examples/host/closed_loop.py [PROGRAM]

The controller, furnace.c, runs once for the whole loop, and keeps its integral; each turn it gets a temperature and answers with a power."""

import pathlib
import sys
import tempfile

HERE = pathlib.Path(__file__).resolve().parent
sys.path.insert(0, str(HERE.parents[1] / "tools"))
import cclib  # noqa: E402


class Furnace:
    """The plant: its temperature in tenths of a degree, a second at a time."""

    def __init__(self):
        self.temperature = 200.0

    def goes_on(self, power):
        """Lets a second pass at this power of the heater."""
        self.temperature += 0.4 * power - 0.01 * (self.temperature - 200.0)


def main():
    program = sys.argv[1] if len(sys.argv) > 1 else "cclib"
    with tempfile.TemporaryDirectory() as folder:
        with cclib.Library(f"{folder}/units.disk", program) as library:
            library.make(65536)
            library.add("furnace", (HERE / "furnace.c").read_text())
            furnace = Furnace()
            with library.unit("furnace").live(1000) as run:
                run.send([2000])
                for second in range(1200):
                    (power,) = run.send([round(furnace.temperature)])
                    furnace.goes_on(power)
                    if second % 200 == 0:
                        print(f"{second:4} s {furnace.temperature / 10:6.1f} degrees, power {power:3}")
    print(f"at the end {furnace.temperature / 10:.1f} degrees")
    return 0 if abs(furnace.temperature - 2000) < 20 else 1


if __name__ == "__main__":
    sys.exit(main())
