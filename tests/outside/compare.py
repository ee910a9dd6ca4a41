#!/usr/bin/env python3
"""Compares what the interpreter and the compiled program read and write, in its order, and what gcc's program writes, for random programs whose
meaning the standard fixes.

compare.py [COUNT] [SEED]: COUNT programs (100), from a seed (1). The programs have both types, casts, all operators, arrays of words and of bytes, locals,
functions of up to eight parameters (some may return at once), elements next to one another, words of the input and all statements except goto; shifts
and divisions are guarded, and sums wrap (-fwrapv). Every second program has further objects between its own, so that some of these lie beyond the
first 4 KiB of the globals, or across their end. The words that are written have to be the same, and also the word that main returns; of that, gcc
gives only the last eight bits. The reads of gcc's program are not compared. A program in which an operation goes wrong is passed over, after a check that it is compiled. Build the program first
(./cclib --prove), or set CCLIB to a built one. The text of a program whose words differ is printed. gcc compiles 25 of them as one text, in which each
name at file scope has the program's number."""

import os
import random
import shutil
import signal
import subprocess
import sys
import tempfile

PROGRAM = os.environ.get("CCLIB") or os.path.join(os.path.dirname(os.path.abspath(__file__)), "../../crates/cclib/out/cclib")
# gcc 12 folds -(-2147483648 / (x + 1)) into -2147483648 / ~x, in spite of -fwrapv, and so ends with a signal if x is 0: then clang is asked.
PEERS = ["gcc", *filter(shutil.which, ["clang"])]
MOST = "1000000000"
# gcc compiles this many programs at once.
BATCH = 25
WORDS = "0 1 7 4294967295 2147483648 2147483647 12345678 3000000000".split()
SERVICES = """#include <stdio.h>
unsigned words[] = {%s}, at;
int read_word(void) { return at < sizeof words / 4 ? words[at++] : 0; }
void write_word(int w) { printf("%%d\\n", w); }
""" % ",".join(it + "u" for it in WORDS)
BEGIN = """int f(int, unsigned);
int p[4] = {1, -2, 3};
unsigned q[] = {0xffffffff, 7, 2147483648u, 1};
unsigned char r[4] = {300, -1, 7}, e[] = {0x180, 1, 255, 3000000000u};
int a = 5, b = -7, c;
unsigned u = 3, v = ~0u, w;
int f(int x, unsigned y) { int k = x; k *= 3; return k ^ y; }
unsigned g(unsigned x, int y) { for (int j = 0; j < 3; j++) y += x; return y - x; }
int h(int x, int y, int z, unsigned s, unsigned t, int i, int j, unsigned k) {
    int m = x - y, n = z ^ i;
    if (k & 3) return h(m, n, x, t, s, j, i, k >> 2) + (s < k);
    return (m | n) + (s & t) - j + k;
}
unsigned d(unsigned n, int x) { if (n) return d(n - 1, x * 3 + n) + x; return x; }
int main(void) {
int l = 9, m = -3, n = 0; unsigned s = 4000000000u, t = 0, o = 1;
"""
CONSTANTS = "0 1 2 3 7 31 32 255 2147483647 1u 5u 4294967295u 0x80000000 0x7fffffff 017 65536".split()
VARIABLES = "a b c u v w l m n s t o".split()


# A further part of a program. It takes random numbers of its own, so that each seed still gives the same
# other parts.


def near(more):
    """A loop over elements next to one another."""
    element = lambda by: f"{more.choice('pqre')}[i{more.choice(['', '', by])}]"
    up = more.random() < 0.5
    by = "+1" if up else "-1"
    first = f"{element(by)}{more.choice(['=', '+=', '^='])}{element(by)}{more.choice('+-*^|')}{element(by)};"
    head = "int i=0;i<3;i++" if up else "unsigned i=3;i>0;i--"
    return f"for({head}){{{first}write_word({element(by)}-{element(by)});}}"


def called(more):
    return f"write_word(early{more.randrange(3)}({more.choice(VARIABLES)},{more.choice(CONSTANTS)}));"


def returning(number, more):
    """A function that begins with a test; in most cases one branch of the test returns at once."""
    test = more.choice(["x", "!x", "x<y", "x>=7", "y==x", "(x&3)==0", "x*2<y", "(int)y<0", "x+5>(int)y"])
    soon = more.choice(["x", "y", "x+1", "3", "y-x", "x^y", "-x", "p[1]", "x*y+1"])
    later = more.choice(["f(x,y)-y", "g(y,x)+x*y", "f(x,y)+g(x,y)+x", "d(x&7,y)+y", "x-y+(x>>3)"])
    body = f"if({test})return {soon};return {later};" if more.random() < 0.7 else f"if({test}){{x={later};c^=x;}}return {soon};"
    return f"int early{number}(int x, unsigned y) {{ {body} }}\n"


class Writer:
    def __init__(self, seed):
        self.random = random.Random(seed)
        self.names = 0

    def one_of(self, *choices):
        return self.random.choice(choices)

    def leaf(self):
        x = self.random.random()
        if x < 0.3:
            return self.one_of(*CONSTANTS)
        return self.one_of(*VARIABLES) if x < 0.7 else f"{self.one_of('p', 'q', 'r', 'e')}[{self.random.randrange(4)}]"

    def expression(self, depth):
        if depth == 0:
            return self.leaf()
        e = lambda: self.expression(depth - 1)
        kind = self.random.randrange(14)
        if kind < 5:
            return f"({e()}){self.one_of(*'+-*&|^')}({e()})"
        if kind == 5:
            return f"({e()}){self.one_of('<', '>', '<=', '>=', '==', '!=')}({e()})"
        if kind == 6:
            return f"({e()}){self.one_of('&&', '||')}({e()})"
        if kind == 7:
            return f"({e()}){self.one_of('<<', '>>')}(({e()})&31)"
        if kind == 8:
            return f"({e()}){self.one_of('/', '%')}((({e()})&1023)+1)"
        if kind == 9:
            return f"{self.one_of(*'-~!+')}({e()})"
        if kind == 10:
            return f"({self.one_of('int', 'unsigned')})({e()})"
        if kind == 11:
            return f"({e()})?({e()}):({e()})"
        if kind == 12:
            which = self.random.random()
            if which < 0.15:
                return f"h({','.join([e(), *[self.leaf() for _ in range(6)], e()])})"
            return f"d(({e()})&15,{e()})" if which < 0.3 else f"{self.one_of('f', 'g')}({e()},{e()})"
        return f"{e()}{self.one_of('+', '-', '*', '&', '^', '|', '<', '==')}1"

    def target(self):
        return self.one_of(*VARIABLES, *[f"{it}[({self.expression(1)})&3]" for it in "pqre"])

    def fresh(self):
        self.names += 1
        return f"n{self.names}"

    def statement(self, depth):
        kind = self.random.randrange(11)
        s = lambda: self.statement(depth - 1)
        if kind < 4:
            name, right = self.one_of("=", "=", "+=", "-=", "*=", "&=", "|=", "^=", "/=", "%=", "<<=", ">>="), self.expression(2)
            guard = {"/": "(({})&1023)+1", "%": "(({})&1023)+1", "<": "({})&31", ">": "({})&31"}.get(name[0], "{}")
            return f"{self.target()}{name}{guard.format(right)};"
        if kind == 4:
            return f"{self.target()}{self.one_of('++', '--')};"
        if kind == 5:
            if self.random.random() < 0.3:
                return f"{self.one_of(*VARIABLES)}=read_word();"
            return f"{self.one_of('++', '--')}{self.target()};"
        if kind < 7 or depth == 0:
            return f"write_word({self.expression(3)});"
        if kind == 7:
            return f"if({self.expression(2)}){s()}" + (f"else {s()}" if self.random.random() < 0.5 else "")
        if kind == 8:
            return f"{{int a={self.one_of(*CONSTANTS)};unsigned z=0;{s()}{s()}write_word(a+z);}}"
        n, turns = self.fresh(), self.random.randrange(1, 5)
        if kind == 9:
            leave = f"if(({self.one_of('a', 'b', 'c')})>1){self.one_of('break', 'continue')};"
            return f"for(int {n}=0;{n}<{turns};{n}++){{{s()}{leave}{s()}}}"
        return f"{{int {n}={turns};do{{{s()}{n}--;}}while({n}>0);}}"

    def begin(self, seed, more):
        """The objects and the helpers. For an odd seed there are up to 5,000 words between two objects, mostly so few that the 4 KiB end among the
        objects."""
        pads = random.Random(-seed)
        lines = BEGIN.splitlines(keepends=True)
        lines[-2:-2] = [returning(it, more) for it in range(3)]
        for at in range(5, 0, -1) if seed % 2 else ():
            if pads.random() < 0.6:
                size = pads.choice([1, 3, 250, 900, 1016, 1020, 1024, pads.randrange(1, 5000)])
                lines.insert(at, f"{pads.choice(['int', 'unsigned char'])} pad{at}[{size}];\n")
        return "".join(lines)

    def program(self, seed):
        """Forty statements; between them are some with elements next to one another, and calls of functions that may return at once."""
        more = random.Random(f"more of {seed}")
        statements = [self.statement(3) for _ in range(40)]
        for at in range(35, 0, -5):
            statements.insert(at, more.choice([near, near, called])(more))
        return self.begin(seed, more) + "".join(it + "\n" for it in statements) + "return a;\n}\n"


def lines_of(command, text=""):
    ran = subprocess.run(command, input=text.encode(), capture_output=True, check=False)
    return ran.stdout.decode().splitlines(), ran.returncode


# The names at file scope, which differ when several programs are one text.
NAMES = "main f g h d p q r e a b c u v w early0 early1 early2 pad1 pad2 pad3 pad4 pad5".split()


def joined(texts):
    """One C text of several programs: it runs the one whose number is its first word."""
    parts = [SERVICES]
    for number, text in enumerate(texts):
        parts += [f"#define {it} {it}_{number}\n" for it in NAMES] + [text] + [f"#undef {it}\n" for it in NAMES]
    mains = ",".join(f"main_{it}" for it in range(len(texts)))
    return "".join(parts) + f"int atoi(const char *);\nint main(int n, char **v) {{ int (*all[])(void) = {{{mains}}}; return all[atoi(v[1])](); }}\n"


def compiled(compiler, texts, room):
    with open(f"{room}/program.c", "w", encoding="utf-8") as it:
        it.write(joined(texts))
    subprocess.run([compiler, "-std=c99", "-w", "-fwrapv", "-O0", "-o", f"{room}/program", f"{room}/program.c"], check=True)


def gcc_lines(texts, room):
    """What gcc's code of each of these programs writes, and the last eight bits of what its main returns."""
    compiled(PEERS[0], texts, room)
    found = [lines_of([f"{room}/program", str(it)]) for it in range(len(texts))]
    for at, (_, status) in enumerate(found):
        if status == -signal.SIGFPE and PEERS[1:]:
            compiled(PEERS[1], texts[at : at + 1], room)
            found[at] = lines_of([f"{room}/program", "0"])
    return found


def judged(text):
    """The words written, the number of reads and the end on which the interpreter and the compiled program agree, or None if an operation
    goes wrong, or a text that says how they differ."""
    (*words, end), _ = lines_of([PROGRAM, "--quiet", "interpret", "--reads", MOST, *WORDS], text)
    (*made, came), _ = lines_of([PROGRAM, "--quiet", "run", "--reads", MOST, *WORDS], text)
    if came.startswith("fault"):
        return f"it is not compiled: {came}"
    if end.startswith("wrong"):
        return None
    if not end.startswith("ended"):
        return f"the interpreter says {end}"
    if made != words or came != end.replace("ended", "exited"):
        return f"the compiled program reads or writes other words, or {came} where the interpreter says {end}"
    written = [it.removeprefix("write ") for it in words if it.startswith("write ")]
    return written, len(words) - len(written), end


def judged_all(texts, room):
    """For each program how many words all three write, and how many two of them read, or None if an operation goes wrong, or a text that says
    which of them differs."""
    found = [judged(it) for it in texts]
    ended = [at for at, it in enumerate(found) if isinstance(it, tuple)]
    theirs = gcc_lines([texts[it] for it in ended], room) if ended else []
    for at, (lines, status) in zip(ended, theirs):
        words, reads, end = found[at]
        is_same = lines == words and status == int(end.split()[1]) % 256
        found[at] = (len(words), reads) if is_same else f"gcc's program writes other words, or ends with {status} where the interpreter says {end}"
    return found


def main():
    count = int(sys.argv[1]) if len(sys.argv) > 1 else 100
    first = int(sys.argv[2]) if len(sys.argv) > 2 else 1
    same, words, reads, passed_over, other = 0, 0, 0, 0, 0
    with tempfile.TemporaryDirectory() as room:
        for begun in range(first, first + count, BATCH):
            seeds = range(begun, min(begun + BATCH, first + count))
            texts = [Writer(it).program(it) for it in seeds]
            for seed, text, found in zip(seeds, texts, judged_all(texts, room)):
                if found is None:
                    passed_over += 1
                elif isinstance(found, str):
                    other += 1
                    print(f"seed {seed}: {found}\n{text}", file=sys.stderr)
                else:
                    same, words, reads = same + 1, words + found[0], reads + found[1]
    print(f"{same} programs write the same words in all three, {words} in all, and make the same {reads} reads; "
        f"{passed_over} passed over, since an operation goes wrong; {other} differ")
    return 1 if other else 0


if __name__ == "__main__":
    sys.exit(main())
