#!/usr/bin/env python3
"""Checks whether two builds of the program print the same bytes, and end with the same status.

printed.py OLD NEW [TEXTS [SCRIPTS [SEED]]]: OLD and NEW are two programs. Each of TEXTS texts (5,000) is checked, interpreted, compiled and run,
listed, made an image and shown stage by stage; SCRIPTS scripts (2,000) are run over a library in a file, every second one over the file that the one
before left, and a tenth as many are sent to a server (`submit`), whole or line by line. Half of the texts are random programs whose meaning the
standard fixes (compare.py), a quarter are these with some bytes changed, left out or put in, the rest are rows of tokens. Scripts have all commands,
wrong lines, and sources that are cut. Differences on standard output or in the status are printed, and the script's status is 1 then; differences
between explanations on standard error are only counted. With 0 for TEXTS or SCRIPTS, these are left out."""

import os
import random
import shutil
import subprocess
import sys
import tempfile
import time

import compare

TOKENS = """int unsigned char void if else while do for break continue return main write_word read_word a b f x 0 1 7 2147483648 4294967295u 017 0x1f
( ) { } [ ] ; , = + - * / % & | ^ ~ ! < > <= >= == != && || ? : << >> += -= ++ -- /* */ // # @ $ " '""".split()
STEPS = "100000"
WORDS = "0 1 7 4294967295 12345".split()


class Maker:
    """Texts and scripts from a seed."""

    def __init__(self, seed):
        self.seed = seed
        self.random = random.Random(seed)

    def program(self, statements):
        writer = compare.Writer(self.seed)
        writer.random = self.random
        return (writer.begin(self.seed, self.random) + "".join(writer.statement(2) + "\n" for _ in range(statements)) + "return a;\n}\n").encode()

    def changed(self, text):
        text = bytearray(text)
        for _ in range(self.random.randrange(1, 5)):
            at, way = self.random.randrange(len(text) + 1), self.random.randrange(4)
            if way == 0:
                del text[at:at + self.random.randrange(1, 30)]
            elif way == 1:
                text[at:at] = (" " + self.random.choice(TOKENS) + " ").encode()
            elif way == 2:
                text[at:at + 1] = bytes([self.random.randrange(256)])
            else:
                text[at:] = text[at:at + self.random.randrange(1, 200)] * 2 + text[at:]
        return bytes(text)

    def row(self):
        body = " ".join(self.random.choice(TOKENS) for _ in range(self.random.randrange(60)))
        frame = self.random.choice(["{}", "int main(void){{{}}}", "int a,b;int f(int x){{return x;}}int main(void){{a={};}}", "int a[3]={{{}}};int main(void){{return 0;}}"])
        return frame.format(body).encode()

    def text(self):
        way = self.random.randrange(40)
        if way == 0:
            return self.random.choice([b"", b"\0", b"\xff\xfe", b"int main(void){}" + b" " * 65_520, b"int main(void){}" + b" " * 65_521, b"/" * 70_000])
        if way < 20:
            return self.program(self.random.randrange(1, 20))
        return self.changed(self.program(self.random.randrange(1, 8))) if way < 30 else self.row()

    def name(self):
        return self.random.choice("a a a b b c unit_1 z9".split() * 6 + ["", "A", "1", "x" * 32, "x" * 33, "a b", "\xe9"])

    def small(self):
        return self.random.choice([
            f"int main(void){{write_word({self.random.randrange(-9, 99999)});return {self.random.randrange(300)};}}".encode(),
            b"int a[4]={1,2,3};int f(int x){return x*3;}int main(void){int i=0;while(i<4){write_word(f(a[i]));i++;}return f(2);}",
            b"int main(void){return read_word();}", b"int main(void){while(1){}}", b"int main(void){write_word(7/0);return 1;}", b"int main(void){a=1;}", b"fault 1 x\n", b"",
            b"unsigned char c[5]={300};int main(void){c[2]=c[0];return c[2];}",
        ] * 2 + [self.text()[:4000]])

    def line(self):
        """A command: its line, and the source that comes after it, if one does."""
        way = self.random.randrange(18)
        if way < 8:
            return f"{self.random.choice(['add', 'add', 'replace'])} {self.name()}", self.small()
        if way == 8:
            return f"withdraw {self.name()}", None
        if way < 12:
            return f"run {self.name()} {self.random.choice([0, 1, 100, 10000])}", None
        return self.random.choice([*["list", "compact", "audit", f"image {self.name()}", f"source {self.name()}"] * 4,
                                   "", "nothing", "add a", "run a", "run a -1", "list a", "add a x", "x" * 130]), None

    def script(self):
        made = b""
        for _ in range(self.random.randrange(12)):
            line, source = self.line()
            made += line.encode("latin-1")
            if source is not None:
                made += f" {len(source)}\n".encode() + source
            made += b"\n"
        way = self.random.randrange(12)
        if way == 0:
            return made[:self.random.randrange(len(made) + 1)]
        return made + b"add a 10\nint main(" if way == 1 else made


class Count:
    """How many runs there were, and how many of them differ."""

    def __init__(self):
        self.runs = self.other = self.told = 0

    def judge(self, what, text, old, new):
        self.runs += 1
        if old[:2] != new[:2]:
            self.other += 1
            print(f"{what}: status {old[1]} and {new[1]}\n{old[0][-600:]!r}\n{new[0][-600:]!r}\nof {text[:3000]!r}", flush=True)
        elif old[2] != new[2]:
            self.told += 1


def ran(program, words, text):
    it = subprocess.run([program, *words], input=text, capture_output=True, check=False, timeout=120)
    return it.stdout, it.returncode, it.stderr


def texts(programs, count, seed, found):
    for at in range(count):
        maker = Maker(seed * 1_000_003 + at)
        text = maker.text()
        for words in (["check"], ["interpret", STEPS, *WORDS], ["run", STEPS, *WORDS], ["asm"], ["image"], ["stages"]):
            found.judge(" ".join(words), text, *(ran(it, words, text) for it in programs))


def scripts(programs, count, seed, found, work):
    for at in range(count):
        maker = Maker(-seed * 1_000_003 - at)
        text, options = maker.script(), []
        if at % 2 == 0:
            options = ["--format", str(maker.random.choice([64, 300, 5000, 65536, 65536]))]
            for it in (0, 1):
                if os.path.exists(f"{work}/{it}"):
                    os.remove(f"{work}/{it}")
        said = [ran(it, ["library", f"{work}/{number}", *options], text) for number, it in enumerate(programs)]
        found.judge(f"library {' '.join(options)}", text, *((out, status, told.replace(f"{work}/{number}".encode(), b"FILE")) for number, (out, status, told) in enumerate(said)))


class Server:
    """A server of one of the programs."""

    def __init__(self, program, work):
        self.program, self.folder = program, f"{work}/spool"
        self.work = subprocess.Popen([program, "serve", f"{work}/disk", self.folder, "--format", "1000000", "--clients", "1"],
                                     stdin=subprocess.DEVNULL, stdout=subprocess.DEVNULL, stderr=subprocess.DEVNULL)
        for _ in range(600):
            if os.path.isdir(f"{self.folder}/new"):
                return
            time.sleep(0.05)
        sys.exit("printed.py: a server does not begin")

    def submit(self, words, text):
        out, status, told = ran(self.program, ["submit", self.folder, *words], text)
        return out, status, told.replace(self.folder.encode(), b"FOLDER")

    def stop(self):
        with open(f"{self.folder}/stop", "w", encoding="utf-8"):
            pass
        self.work.wait(60)


def submits(programs, count, seed, found, work):
    servers = []
    for number, program in enumerate(programs):
        os.mkdir(f"{work}/server{number}")
        servers.append(Server(program, f"{work}/server{number}"))
    try:
        for at in range(count):
            maker = Maker(seed * 7_000_003 + at)
            if at % 2:
                line, text = maker.line()
                words = line.split(" ")
            else:
                words, text = [], maker.script()
            if all(words) and not any("\udc80" <= byte for word in words for byte in word):
                found.judge(f"submit {' '.join(words)}", text or b"", *(it.submit(words, text or b"") for it in servers))
    finally:
        for it in servers:
            it.stop()


def main():
    programs = [os.path.abspath(it) for it in sys.argv[1:3]]
    count, many, seed = ([int(it) for it in sys.argv[3:]] + [5000, 2000, 1][len(sys.argv) - 3:])[:3]
    work, found = tempfile.mkdtemp(), []
    try:
        for what, one in (("texts", lambda it: texts(programs, count, seed, it)), ("scripts", lambda it: scripts(programs, many, seed, it, work)),
                          ("submits", lambda it: submits(programs, many // 10, seed, it, work) if many else None)):
            found.append(Count())
            one(found[-1])
            print(f"{what}: {found[-1].runs} runs of both, {found[-1].other} print other bytes or have another status; explanations of {found[-1].told} differ", flush=True)
    finally:
        shutil.rmtree(work)
    return 1 if any(it.other for it in found) else 0


if __name__ == "__main__":
    sys.exit(main())
