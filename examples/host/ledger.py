#!/usr/bin/env python3
"""A ledger that lives in the memory of a run, and whose history is a file: the lines that it was given.

    examples/host/ledger.py [PROGRAM]

Each order is a line. It is appended to the history before it is sent. When the host starts again, it sends the history, and has the same ledger,
since what a run has answered after some lines depends on these lines alone."""

import pathlib
import sys
import tempfile

HERE = pathlib.Path(__file__).resolve().parent
sys.path.insert(0, str(HERE.parents[1] / "tools"))
import cclib  # noqa: E402

PAY_IN, TRANSFER, BALANCE, END = 1, 2, 3, 0


class Ledger:
    """A run of ledger.c with the file that has its history."""

    def __init__(self, unit, history):
        self.run = unit.live(100000)
        self.history = history
        for line in history.read_text().splitlines() if history.exists() else []:
            self.run.send(map(int, line.split()))

    def order(self, *words):
        """Sends an order, and returns its answer."""
        with self.history.open("a") as file:
            file.write(" ".join(map(str, words)) + "\n")
        (answer,) = self.run.send(words)
        return answer

    def sum(self):
        """Ends the run, and returns the sum of all balances."""
        self.run.send([END])
        return self.run.end.status

    def lose(self):
        """Ends the host's process of the run, as a crash would."""
        self.run.__exit__()


def main():
    program = sys.argv[1] if len(sys.argv) > 1 else "cclib"
    with tempfile.TemporaryDirectory() as name, cclib.Library(f"{name}/units.disk", program) as library:
        folder = pathlib.Path(name)
        library.make(65536)
        library.add("ledger", (HERE / "ledger.c").read_text())
        ledger = Ledger(library.unit("ledger"), folder / "history")
        answers = [ledger.order(PAY_IN, 7, 500), ledger.order(TRANSFER, 7, 9, 200), ledger.order(TRANSFER, 7, 9, 301), ledger.order(PAY_IN, 300, 1)]
        print("answers", *answers)
        ledger.lose()
        again = Ledger(library.unit("ledger"), folder / "history")
        balances = [again.order(BALANCE, 7), again.order(BALANCE, 9)]
        print("after a crash", *balances)
        total = again.sum()
        print("sum", total)
    return 0 if (answers, balances, total) == ([500, 1, -1, -1], [300, 200], 500) else 1


if __name__ == "__main__":
    sys.exit(main())
