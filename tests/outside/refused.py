#!/usr/bin/env python3
"""Counts the random functions whose registers the validator refuses, so that they would get a slot for each value.

refused.py [COUNT] [SEED]: COUNT programs (400), from a seed (1), each with ten functions in addition to those of a program of
tests/outside/compare.py. A function has up to eight parameters, up to 40 locals that may all be live at once, loops, and calls of the functions
before it. If a function is refused, the text of its program is printed. `cclib stages` says for each function whether its colouring is refused. Build
the program first (./cclib --prove), or set CCLIB to a built one."""

import os
import subprocess
import sys

import compare

PROGRAM = os.environ.get("CCLIB") or os.path.join(os.path.dirname(os.path.abspath(__file__)), "../../crates/cclib/out/cclib")
FUNCTIONS = 10
BEFORE, MAIN = compare.BEGIN.split("int main(void)")


class Writer(compare.Writer):
    def __init__(self, seed):
        super().__init__(seed)
        self.functions = []

    def call(self):
        name, count = self.one_of(*self.functions)
        return f"{self.target()}={name}({','.join(self.expression(1) for _ in range(count))});"

    def locals_of(self, names):
        known = [*compare.CONSTANTS, "l", "m", "n"]
        text = "int l = 9, m = -3, n = 0; unsigned s = 4000000000u, t = 0, o = 1;\n"
        for name in names:
            text += f"int {name} = {self.one_of(*known)};\n"
            known.append(name)
        return text

    def function(self, number):
        count, locals_ = self.random.randrange(9), self.one_of(0, 0, 2, 6, 20, 40)
        parameters = [f"p{i}" for i in range(count)]
        names = [f"e{i}" for i in range(locals_)]
        body = self.locals_of(names)
        compare.VARIABLES, plain = compare.VARIABLES + 2 * (names + parameters), compare.VARIABLES
        for _ in range(self.one_of(1, 2, 4, 8, 16, 30)):
            body += self.statement(self.one_of(1, 2, 3)) + "\n"
            if self.functions and self.random.random() < 0.4:
                body += self.call() + "\n"
        compare.VARIABLES = plain
        if names and self.random.random() < 0.7:
            body += f"write_word({'+'.join(names + parameters)});\n"
        self.functions.append((f"r{number}", count))
        types = ", ".join(f"{self.one_of('int', 'unsigned')} {it}" for it in parameters)
        return f"int r{number}({types}) {{ {body} return {self.one_of('l', 's', 'a', *names, *parameters)}; }}\n"

    def program(self):
        functions = "".join(self.function(number) for number in range(FUNCTIONS))
        return BEFORE + functions + "int main(void)" + MAIN + "return a;\n}\n"


def refusals(text):
    """The number of functions of a text whose registers are refused; all of them if the text isn't compiled."""
    lines = subprocess.run([PROGRAM, "stages"], input=text, capture_output=True, text=True, check=False).stdout.split("\n")
    how = [line for head, line in zip(lines, lines[1:]) if head.endswith(": LTL")]
    return sum(it != "coloured" for it in how) if how else FUNCTIONS


def main():
    count = int(sys.argv[1]) if len(sys.argv) > 1 else 400
    seed = int(sys.argv[2]) if len(sys.argv) > 2 else 1
    functions = refused = 0
    for number in range(count):
        text = Writer(seed + number).program()
        if len(text) > 65536:
            continue
        functions += FUNCTIONS + 5
        found = refusals(text)
        refused += found
        if found:
            print(text)
    print(f"{functions} functions, {refused} refused")
    return 1 if refused else 0


if __name__ == "__main__":
    sys.exit(main())
