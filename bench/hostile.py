#!/usr/bin/env python3
"""LTL in a certificate that somebody hostile might hand in: what the validator and an audit spend on it. And hostile texts: what their
explanations cost.

hostile.py validate    a value that equals 495 slots, written in 1,000 blocks and in 2,000 (the goal is at most 2.5 times the time);
                       a loop of 1,000 blocks, one of which turns 495 slots (the goal is 10 seconds), for one value and for 64, and with
                       60,000 more moves in ten of its blocks; and, with the highest slots in use, 256 locals and 8 parameters live. Prints
                       the largest amount of memory of each, too
hostile.py audit       certificates of half a million, one million and two million bytes, with another program's image: many moves before many
                       writes, in straight code, in a loop over one value and in a loop over 64, which the validator refuses in the end.
                       Twice the bytes may take at most 2.5 times the time. The last, which takes minutes, has two rounds
hostile.py explain     texts with twenty errors: 3,000 names and twenty that are not declared; 64 KiB of names that differ in three letters from
                       those; 64 KiB of statements, between which are calls with a wrong count, or names that are not declared. Prints the time
                       of `check`, which explains the errors, and how many times that of `--quiet check` it is

The LTL is what the compiler makes of a text, with a slot in place of each register, and then changed; FORMATS.md has its bytes. The cost of judging a
function once is the time of `bench judge` (from making its RTL on), and that of an audit is the time of `cclib library`, not counting their starts:
processor seconds, the least of ROUNDS rounds (3). Build the programs first (./prove-below bench, ./cclib --prove), or set BENCH and CCLIB to built ones. A C
compiler is needed, for peak.c."""

import os
import random
import struct
import subprocess
import sys
import tempfile

sys.path.insert(0, os.path.join(os.path.dirname(os.path.abspath(__file__)), "../tools"))
import records

HERE = os.path.dirname(os.path.abspath(__file__))
BENCH = os.environ.get("BENCH") or os.path.join(HERE, "../crates/bench/out/bench")
CCLIB = os.environ.get("CCLIB") or os.path.join(HERE, "../crates/cclib/out/cclib")
ROUNDS = int(os.environ.get("ROUNDS", 3))
SLOTS = 495
# Registers that hold nothing between two operations, and the one through which a word is read, written and returned.
OVER, AGAIN, WORD = 28, 29, 10

# ---- LTL

BETWEEN, RELOAD, SPILL = range(3)
MOVES = {BETWEEN: "<BB", RELOAD: "<BH", SPILL: "<HB"}
# The fields of each operation, and which of them are registers that it writes or reads.
NOP, CONST, UNARY, BINARY, LOAD, STORE, CALL, READ, WRITE, BRANCH, RETURN = range(11)
OPERATIONS = {
    NOP: ("<I", [], []), CONST: ("<BII", [0], []), UNARY: ("<BBBI", [1], [2]), BINARY: ("<BBBBI", [1], [2, 3]), LOAD: ("<BIBBI", [2], [3]),
    STORE: ("<BIBBI", [], [2, 3]), CALL: ("<II", [], []), READ: ("<I", [], []), WRITE: ("<I", [], []), BRANCH: ("<BII", [], [0]), RETURN: ("<", [], []),
}


class Block:
    """A block: its label, the moves before its operation, the operation with its fields, and the moves after it."""

    def __init__(self, label, before, operation, fields, after):
        self.label, self.before, self.operation, self.fields, self.after = label, before, operation, fields, after

    def registers(self):
        """The registers that the operation writes, and those that it reads."""
        _, written, read = OPERATIONS[self.operation]
        written, read = [self.fields[it] for it in written], [self.fields[it] for it in read]
        return written + [WORD] * (self.operation == READ), read + [WORD] * (self.operation in (WRITE, RETURN))


class Function:
    """A function of LTL."""

    def __init__(self, data):
        self.data, self.at = data, 0
        self.slots, self.entry, count = self.take("<III")
        self.blocks = [self.block() for _ in range(count)]
        if self.at != len(data):
            raise ValueError("bytes are left")

    def take(self, form):
        found = struct.unpack_from(form, self.data, self.at)
        self.at += struct.calcsize(form)
        return found

    def moves(self):
        found = []
        for _ in range(self.take("<H")[0]):
            (kind,) = self.take("<B")
            found.append((kind, *self.take(MOVES[kind])))
        return found

    def block(self):
        (label,) = self.take("<I")
        before = self.moves()
        (operation,) = self.take("<B")
        return Block(label, before, operation, self.take(OPERATIONS[operation][0]), self.moves())

    def bytes(self):
        def moves(them):
            return struct.pack("<H", len(them)) + b"".join(bytes([kind]) + struct.pack(MOVES[kind], *it) for kind, *it in them)

        made = [struct.pack("<III", self.slots, self.entry, len(self.blocks))]
        for it in self.blocks:
            made += [struct.pack("<I", it.label), moves(it.before), bytes([it.operation]), struct.pack(OPERATIONS[it.operation][0], *it.fields), moves(it.after)]
        return b"".join(made)

    def spill(self):
        """Gives each register a slot of its own. Parameters go there first; a register is loaded from its slot before an operation and
        stored to it afterwards."""
        first = self.slots

        def slot(register):
            return first + register - 7

        def spilled(kind, to, from_):
            up = (RELOAD, OVER, from_) if kind == RELOAD else (RELOAD, OVER, slot(from_))
            return [up, (SPILL, to if kind == SPILL else slot(to), OVER)]

        for it in self.blocks:
            written, read = it.registers()
            it.before = [part for move in it.before for part in spilled(*move)] + [(RELOAD, register, slot(register)) for register in read]
            it.after = [(SPILL, slot(register), register) for register in written] + [part for move in it.after for part in spilled(*move)]
            if it.label == self.entry:
                it.before[:0] = [(SPILL, slot(register), register) for register in range(WORD, WORD + 8)]
        self.slots = SLOTS

    def turn_down(self):
        """Uses the slots from the highest one down."""
        def turned(kind, to, from_):
            return (kind, SLOTS - 1 - to if kind == SPILL else to, SLOTS - 1 - from_ if kind == RELOAD else from_)

        for it in self.blocks:
            it.before, it.after = [turned(*move) for move in it.before], [turned(*move) for move in it.after]
        self.slots = SLOTS

    def of(self, operation):
        return [it for it in self.blocks if it.operation == operation]

    def spread(self):
        """Puts the first word that is read into each slot."""
        self.of(READ)[0].after[:0] = [(SPILL, slot, WORD) for slot in range(SLOTS)]


def back_and_forth(pairs):
    """The words of slots go to a register and back, one after the other."""
    return [move for slot in range(pairs) for move in ((RELOAD, OVER, slot % SLOTS), (SPILL, slot % SLOTS, OVER))]


def equal(ltl, pairs=0):
    """Each word that is written comes from the next one of some equal slots, after this many pairs of moves."""
    ltl.spill()
    ltl.spread()
    for number, it in enumerate(ltl.of(WRITE)):
        it.before = back_and_forth(pairs) + [(RELOAD, WORD, number % SLOTS)]


def turning(ltl, writes=0, pairs=0):
    """After the first write the words of all slots rotate; before this many of the later writes there are more pairs of moves."""
    ltl.spill()
    ltl.spread()
    first, *others = ltl.of(WRITE)
    down = [move for slot in range(1, SLOTS) for move in ((RELOAD, AGAIN, slot), (SPILL, slot - 1, AGAIN))]
    first.after += [(RELOAD, OVER, 0), *down, (SPILL, SLOTS - 1, OVER)]
    for it in others[:writes]:
        it.before[:0] = back_and_forth(pairs)


def high(ltl):
    ltl.spill()
    ltl.turn_down()


# ---- texts


def straight(writes):
    return "int main(void){int v0;v0=read_word();" + "write_word(v0);" * writes + "return 0;}"


def looped(values, writes):
    names = [f"v{it}" for it in range(values)]
    begin = "".join(f"int {it};" for it in names) + "".join(f"{it}=read_word();" for it in names)
    return f"int main(void){{{begin}while(v0){{" + "".join(f"write_word(v{it % values});" for it in range(writes)) + "}return 0;}"


def wide(writes):
    names, parameters = [f"v{it}" for it in range(256)], [f"p{it}" for it in range(8)]
    begin = "".join(f"int {it};" for it in names) + "".join(f"{it}=read_word();" for it in names) + "write_word(v0);" * writes
    return f"int f({','.join('int ' + it for it in parameters)}){{{begin}{''.join(f'write_word({it});' for it in names + parameters)}return 0;}}int main(void){{}}"


# ---- the programs


class Room:
    """A folder with a text, its LTL changed in this way, and a library of both."""

    def __init__(self, work):
        self.work, self.text, self.ltl, self.disk, self.script = work, f"{work}/text.c", f"{work}/ltl", f"{work}/disk", f"{work}/script"
        subprocess.run([os.environ.get("CC", "cc"), "-O1", "-o", f"{work}/peak", f"{HERE}/peak.c"], check=True)

    def make(self, text, change, *more):
        """The bytes of the certificate for the text's first function, changed in this way."""
        with open(self.text, "w") as file:
            file.write(text)
        ran = subprocess.run([CCLIB, "library", self.disk, "--format", str(1 << 22), "--quiet"], input=f"add a {len(text)}\n{text}\n", capture_output=True, text=True)
        if ran.stdout != "ok 1\n":
            sys.exit(f"hostile.py: {ran.stdout}{ran.stderr}")
        with open(self.disk, "rb") as file:
            data = file.read()
        (record,) = records.records(data)
        certificate = data[record.certificate.start : record.certificate.stop]
        (length,) = struct.unpack_from("<I", certificate, 4)
        ltl = Function(certificate[8 : 8 + length])
        change(ltl, *more)
        made = ltl.bytes()
        with open(self.ltl, "wb") as file:
            file.write(made)
        return struct.pack("<II", 1, len(made)) + made

    def seconds(self, words, script=""):
        """The processor seconds of one run, and what it prints."""
        with open(self.script, "w") as file:
            file.write(script)
        with open(self.script) as source, open(f"{self.work}/said", "w+") as said:
            child = subprocess.Popen(words, stdin=source, stdout=said, stderr=subprocess.STDOUT)
            _, child.returncode, used = os.wait4(child.pid, 0)
            said.seek(0)
            return used.ru_utime + used.ru_stime, said.read()

    def judged(self, wanted, turns=1):
        """The least seconds that it takes to judge the LTL once, which the validator has to accept, or to refuse; and the largest number of MB."""
        words, least, start = [BENCH, "judge", self.text], float("inf"), float("inf")
        for _ in range(ROUNDS):
            start = min(start, self.seconds([*words, "0", self.ltl])[0])
            took, said = self.seconds([*words, str(turns), self.ltl])
            if (said != "refused\n") != wanted:
                sys.exit(f"hostile.py: the validator said {said}")
            least = min(least, took)
        memory = subprocess.run([f"{self.work}/peak", *words, "1", self.ltl], capture_output=True, text=True, check=True).stdout.strip()
        return (least - start) / turns, memory

    def audited(self, certificate, turns, rounds):
        """The least seconds of an audit of a unit with this certificate and another program's image."""
        with open(self.text, "rb") as file:
            records.write(self.disk, [records.body("a", file.read(), b"\x13\0\0\0", b"", certificate)])
        least = {}
        for _ in range(rounds):
            for many in (0, turns):
                took, said = self.seconds([CCLIB, "library", self.disk, "--quiet", "--workers", "1"], "audit\n" * many)
                if said != "audit a unconfirmed\nok\n" * many:
                    sys.exit(f"hostile.py: the audit said {said}")
                least[many] = min(took, least.get(many, took))
        return (least[turns] - least[0]) / turns


def validate(room):
    took = []
    for blocks in (1000, 2000):
        room.make(straight(blocks // 2), equal)
        took.append(room.judged(True, 20)[0])
    print(f"one value in {SLOTS} slots: {took[0] * 1e3:.2f} ms for 1,000 blocks, {took[1] * 1e3:.2f} ms for 2,000, {took[1] / took[0]:.2f} times")
    for values in (1, 64):
        for name, more in (("turning", ()), ("moving", (10, 30_000))):
            room.make(looped(values, 500), turning, *more)
            seconds, memory = room.judged(values == 1)
            print(f"a loop of 1,000 blocks, {SLOTS} slots turn, {values} values, {name}: {seconds:.4f} s, {memory} MB", flush=True)
    room.make(wide(1378), high)
    print(f"256 locals and 8 parameters live, where the highest slots are used: {room.judged(True)[1]} MB")


# About how many bytes of a certificate come before each write, and how many pairs of moves that is.
PART, PAIRS = 2048, 250


def audit(room):
    for name, turns, rounds in (("straight", 20, ROUNDS), ("loop", 1, ROUNDS), ("loops", 1, 2)):
        before = None
        for size in (500_000, 1_000_000, 2_000_000):
            writes = size // PART
            if name == "straight":
                certificate = room.make(straight(writes), equal, PAIRS)
            else:
                certificate = room.make(looped(1 if name == "loop" else 64, writes), turning, writes, PAIRS)
            room.judged(name != "loops") if size == 500_000 else None
            took = room.audited(certificate, turns, rounds)
            more = f"; {len(certificate) / before[0]:.2f} times the bytes take {took / before[1]:.2f} times the time" if before else ""
            print(f"{name}, {len(certificate)} bytes: {took:.3f} s{more}", flush=True)
            before = len(certificate), took


# ---- explanations


def declared(names, body):
    return "".join(f"int {it};" for it in names) + f"int main(void){{{body}}}"


def spread(wrong):
    """64 KiB of statements, with twenty wrong ones between them."""
    part = "a=a*3+(a-1)/7;" * 230
    return "int f(int x){return x;}int main(void){int a;" + "".join(part + wrong(it) for it in range(20)) + "}"


def hostile_texts():
    letters = "abcdefghijklmnopqrstuvwxyz"
    chance = random.Random(7)
    words = ["".join(chance.choice(letters) for _ in range(12)) for _ in range(3020)]
    head, tails = "q" * 9, [a + b + c for a in letters[:6] for b in letters for c in letters]
    yield "3,000 names", declared(words[:3000], "".join(f"{it}=1;" for it in words[3000:]))
    yield "near names", declared([head + it for it in tails[:3760]], "".join(f"{head}z{letters[it]}0=1;" for it in range(20)))
    yield "wrong calls", spread(lambda it: "f();")
    yield "unknown names", spread(lambda it: f"x{letters[it]}=1;")


def explain(room):
    for name, text in hostile_texts():
        with open(room.text, "w") as file:
            file.write(text)
        took = []
        for words in ([CCLIB, "--quiet", "check"], [CCLIB, "check"]):
            took.append(min(room.seconds(words, text)[0] for _ in range(ROUNDS)))
        print(f"{name}, {len(text)} bytes: {took[1]:.3f} s, {took[1] / took[0]:.1f} times that of --quiet", flush=True)


def main():
    kinds = {"validate": validate, "audit": audit, "explain": explain}
    if len(sys.argv) != 2 or sys.argv[1] not in kinds:
        sys.exit(__doc__)
    with tempfile.TemporaryDirectory() as work:
        kinds[sys.argv[1]](Room(work))


if __name__ == "__main__":
    main()
