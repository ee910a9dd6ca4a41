#!/usr/bin/env python3
"""Compares random texts of wide C with the texts of the profile that they are printed as.

wide.py [COUNT] [SEED]: COUNT texts (100), from a seed (1), with `switch`, names of constants, characters, qualifiers and `typedef`. Each is
translated, and what follows `//|` in the printed text has to be the wide text, byte for byte. gcc compiles both (-std=c99 -fwrapv
-funsigned-char), 25 texts at once, and the interpreter runs the printed one: all three have to write the same words and to end with the
same status. A text in which an operation goes wrong is passed over, and one that would be longer than 65,536 bytes. Some switches are so long that
their choice is halved and their sections are in groups. The text of one that differs is printed.

TRANSLATE is the command that translates from standard input to standard output (`cclib translate`), CCLIB the built program."""

import os
import re
import shlex
import subprocess
import sys
import tempfile

sys.path.insert(0, os.path.dirname(os.path.abspath(__file__)))
import compare
from compare import BATCH, CONSTANTS, MOST, NAMES, PROGRAM, SERVICES, VARIABLES, WORDS, Writer, lines_of

TRANSLATE = shlex.split(os.environ.get("TRANSLATE") or f"{PROGRAM} translate")
CHARACTERS = {"'a'": 97, "'0'": 48, "'\\n'": 10, "'\\0'": 0, "'\\''": 39, "'\\\\'": 92, "'\\x41'": 65, "'\\101'": 65, "'~'": 126, "' '": 32}
HEAD = """static int f(int, unsigned);
static const int p[4] = {1, -2, 3};
unsigned volatile q[] = {0xffffffff, 7, 2147483648u, 1};
static unsigned char r[4] = {300, -1, 7}, e[] = {0x180, 1, 255, 3000000000u};
int a = 5, b = -7, c;
static unsigned u = 3, v = ~0u, w;
static inline int f(int x, unsigned y) { int k = x; k *= 3; return k ^ y; }
unsigned g(register unsigned x, const int y) { for (int j = 0; j < 3; j++) y_ x += y; return y_ x - y; }
int h(int x, int y, int z, unsigned s, unsigned t, int i, int j, unsigned k) {
    int const m = x - y, n = z ^ i;
    if (k & 3) return h(m, n, x, t, s, j, i, k >> 2) + (s < k);
    return (m | n) + (s & t) - j + k;
}
unsigned d(unsigned n, int x) { if (n) return d(n - 1, x * 3 + n) + x; return x; }
""".replace("y_ ", "")
MAIN = """int main(void) {
int l = 9, m = -3, n = 0; unsigned s = 4000000000u, t = 0, o = 1;
"""


class WideWriter(Writer):
    """Texts as those of compare.py, and names, characters and switches."""

    def __init__(self, seed):
        super().__init__(seed)
        self.seed = seed
        self.values = {}

    def leaf(self):
        if self.random.random() < 0.2:
            return self.random.choice([*CHARACTERS, *self.values])
        return super().leaf()

    def target(self):
        return self.one_of(*VARIABLES, *[f"{it}[({self.expression(1)})&3]" for it in "qre"])

    def constants(self):
        """Names of constants, and types."""
        lines = []
        for number in range(3):
            name, value = f"K{self.seed}_{number}", self.random.choice([0, 1, 2, 3, 7, 31, 100])
            lines.append(f"#define {name} {self.one_of(f'{value}', f'({value} + 0)', f'({value + 5} - 5)')} // {name}: it's {value}")
            self.values[name] = value
        names, next_value = [], 0
        for number in range(self.random.randrange(1, 5)):
            name, written = f"E{self.seed}_{number}", f"E{self.seed}_{number}"
            if self.random.random() < 0.5:
                text, next_value = self.one_of(("'b'", 98), ("1 << 4", 16), ("-1", -1), ("K%d_0 + 1" % self.seed, self.values[f"K{self.seed}_0"] + 1), ("(3, 4)"[0:2] + ")", 3))
                written += f" = {text}"
            names.append(written)
            self.values[name] = next_value
            next_value += 1
        tag = self.one_of("", f"T{self.seed} ")
        lines.append(f"enum {tag}{{ {', '.join(names)}{self.one_of('', ',')} }};")
        lines.append(f"typedef unsigned {self.one_of('int ', '')}word{self.seed};")
        lines.append(f"typedef enum {{ L{self.seed} = 5 }} level{self.seed};")
        lines.append(f"static word{self.seed} x{self.seed} = L{self.seed}; volatile level{self.seed} y{self.seed};")
        if tag:
            lines.append(f"enum {tag} z{self.seed};")
        self.values[f"L{self.seed}"] = 5
        return "\n".join(lines) + "\n"

    def label(self):
        kind = self.random.randrange(4)
        if kind == 0:
            return self.random.choice(list(CHARACTERS.items()))
        if kind == 1:
            return self.random.choice(list(self.values.items()))
        value = self.random.randrange(-2, 8)
        return self.one_of((f"{value}", value), (f"({value})", value), (f"{value} + 1", value + 1), (f"1 ? {value} : 9", value), (f"{value % 2**32}u", value))

    def switch(self, depth, loop):
        used, lines, default = set(), [], False
        # so many that the choice is halved and the sections are in groups
        is_long = self.random.random() < 0.1
        for _ in range(self.random.randrange(9, 40) if is_long else self.random.randrange(0, 6)):
            labels = []
            for _ in range(self.random.choice([1, 1, 1, 2, 3])):
                if not default and self.random.random() < 0.15:
                    default = True
                    labels.append("default:")
                    continue
                text, value = self.label()
                if is_long and self.random.random() < 0.8:
                    value = self.random.randrange(-30, 30) * self.random.choice([1, 1, 1, 1000, 50000000])
                    text = f"{value}"
                if value % 2**32 not in used:
                    used.add(value % 2**32)
                    labels.append(f"case {text}:")
            if not labels:
                continue
            lines.append(self.one_of(" ", "\n").join(labels))
            lines += [self.statement(0 if is_long else depth - 1, loop) for _ in range(self.random.randrange(1, 3))]
            leave = ["break;", "break;", "", f"if ({self.expression(1)}) break;"] + ["continue;", f"if ({self.expression(1)}) {{ continue; }}"] * loop
            lines.append(self.random.choice(leave))
        over = f"(int)({self.expression(2)})%{self.one_of(30, 50)}" if is_long and self.random.random() < 0.7 else self.one_of(f"(int)({self.expression(2)})%5", f"({self.expression(2)})&7", self.expression(1), f"c%3", f"(a^b)&3", *[f"{it}" for it in CHARACTERS])
        return f"switch ({over}) {{{self.one_of('', ' // it is', ' /* a: */')}\n" + "\n".join(lines) + "\n}"

    def loop(self, depth):
        n, turns, kind = self.fresh(), self.random.randrange(1, 5), self.random.randrange(4)
        if kind == 0:
            return f"for(int {n}=0;{n}<{turns};{n}++)\n{self.switch(depth - 1, True)}"
        body = f"{self.statement(depth - 1, True)}\n{self.statement(depth - 1, True)}"
        if kind == 1:
            return f"for(int {n}=0;{n}<{turns};{n}++){{{body}}}"
        if kind == 2:
            return f"{{register int {n}={turns};while({n}>0){{{n}--;{body}}}}}"
        return f"{{auto const int {n}a={turns};int {n}={n}a;do{{{n}--;{body}}}while({n}>0);}}"

    def statement(self, depth, loop=False):
        kind = self.random.random() if depth > 0 else 1
        if kind < 0.35:
            return self.switch(depth, loop)
        if kind < 0.55:
            return self.loop(depth)
        if kind < 0.65:
            other = f"\nelse {self.statement(depth - 1, loop)}" if self.random.random() < 0.5 else ""
            return f"if ({self.expression(2)}) {{ {self.statement(depth - 1, loop)} }}{other}"
        return super().statement(0)

    def program(self, seed):
        words = self.constants()
        statements = [self.statement(3) for _ in range(12)]
        function = self.switch(2, False).replace("\n", "\n    ")
        return words + HEAD + f"int k(int a, unsigned s) {{ unsigned t = 1, o = 2; int l = a, m = 3, n = 4;\n    {function}\n    return a - l + n; }}\n" \
            + MAIN + "\n".join(statements) + "\nwrite_word(k(a, s)); write_word(k(b, t));\nreturn a;\n}\n"


def translated(text):
    ran = subprocess.run(TRANSLATE, input=text.encode(), capture_output=True, check=False)
    return ran.stdout.decode()


def carried(text):
    return "\n".join(it.split("//|", 1)[1] if "//|" in it else "" for it in text.split("\n"))


def joined(texts):
    parts = [SERVICES]
    for number, text in enumerate(texts):
        parts += [f"#define {it} {it}_{number}\n" for it in [*NAMES, "k"]] + [f"{text}\n"] + [f"#undef {it}\n" for it in [*NAMES, "k"]]
    mains = ",".join(f"main_{it}" for it in range(len(texts)))
    return "".join(parts) + f"int atoi(const char *);\nint main(int n, char **v) {{ int (*all[])(void) = {{{mains}}}; return all[atoi(v[1])](); }}\n"


def gcc_lines(texts, room):
    with open(f"{room}/program.c", "w", encoding="utf-8") as it:
        it.write(joined(texts))
    subprocess.run(["gcc", "-std=c99", "-w", "-fwrapv", "-funsigned-char", "-O0", "-o", f"{room}/program", f"{room}/program.c"], check=True)
    return [lines_of([f"{room}/program", str(it)]) for it in range(len(texts))]


def interpreted(text):
    """The words that the interpreter writes and the status, or None if an operation goes wrong, or a text that says what it says instead."""
    (*words, end), _ = lines_of([PROGRAM, "--quiet", "interpret", MOST, *WORDS], text)
    if end.startswith("wrong"):
        return None
    if not end.startswith("ended"):
        return f"the interpreter says {end}"
    return words, int(end.split()[1]) % 256


def judged_all(texts, room):
    """For each text how many words are written, or None if an operation goes wrong, or a text that says what differs."""
    printed = [translated(it) for it in texts]
    # a text that would be longer than 65,536 bytes is refused
    found = [interpreted(it) if carried(it) == wide else None if re.match(r"(print )?fault 7\b", it) else f"it is not translated: {it[:200]}" for it, wide in zip(printed, texts)]
    ended = [at for at, it in enumerate(found) if isinstance(it, tuple)]
    wide = gcc_lines([texts[it] for it in ended], room) if ended else []
    narrow = gcc_lines([printed[it].replace("__s", "hidden_s") for it in ended], room) if ended else []
    for at, one, other in zip(ended, wide, narrow):
        same = one == other and list(one) == list(found[at])
        found[at] = len(one[0]) if same else f"gcc of the wide text, gcc of the printed one and the interpreter differ: {one[1]} {other[1]} {found[at][1]}\n{printed[at]}"
    return found


def main():
    count = int(sys.argv[1]) if len(sys.argv) > 1 else 100
    first = int(sys.argv[2]) if len(sys.argv) > 2 else 1
    same, words, passed_over, other = 0, 0, 0, 0
    with tempfile.TemporaryDirectory() as room:
        for begun in range(first, first + count, BATCH):
            seeds = range(begun, min(begun + BATCH, first + count))
            texts = [WideWriter(it).program(it) for it in seeds]
            for seed, text, found in zip(seeds, texts, judged_all(texts, room)):
                if found is None:
                    passed_over += 1
                elif isinstance(found, str):
                    other += 1
                    print(f"seed {seed}: {found}\n{text}", file=sys.stderr)
                else:
                    same, words = same + 1, words + found
    print(f"{same} texts write the same {words} words as wide C, printed, and interpreted; {passed_over} passed over, since an operation goes wrong or the text is too long; {other} differ")
    return 1 if other else 0


if __name__ == "__main__":
    sys.exit(main())
