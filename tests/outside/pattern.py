#!/usr/bin/env python3
"""Runs images on qemu's core, which knows nothing about cclib, and checks that nothing is written below the stack that `size` reports.

pattern.py [COUNT] [SEED]: the programs of examples/ and bench/programs, and COUNT random ones of tests/outside/compare.py (200), from a seed (1).
Before each run all words from 0x00600000 up to 0x00800000 minus the reported stack get a pattern; afterwards they have to be unchanged, and the words
written and the status have to be those of `cclib run`. The stack just above has another pattern; the script prints how many images change its lowest
word. The start code and the services are those of examples/team. A program that does not end within a million instructions is passed over.
qemu-system-riscv32 and riscv64-unknown-elf-as and -ld are needed. The program has to be built (./cclib --prove), or CCLIB names one that is. The
status is 1 if one differs."""
import pathlib
import struct
import subprocess
import sys
import tempfile

import compare
import image

TOP = pathlib.Path(__file__).resolve().parent.parent.parent
TEAM = TOP / "examples" / "team"
TOOL = "riscv64-unknown-elf-"
CHANGED, LOWEST = 0x0BADF00D, 0x0DEE9E57

# The stack gets its pattern, then start.s goes on; when the run ends, it is checked, and one or two words more are written.
WATCH = f"""
        .globl  watch, __wrap_end_with
watch:  li      t0, 0x00600000
        li      t1, 0x00800000
        li      t2, 0x5a17c0de
1:      bgeu    t0, t1, 2f
        xor     t3, t0, t2
        sw      t3, 0(t0)
        addi    t0, t0, 4
        j       1b
2:      j       _start

__wrap_end_with:
        mv      s0, a0
        li      t0, 0x00600000
        lui     s1, %hi(stack_from)
        addi    s1, s1, %lo(stack_from)
        li      t2, 0x5a17c0de
1:      bgeu    t0, s1, 2f
        xor     t3, t0, t2
        lw      t4, 0(t0)
        bne     t3, t4, 3f
        addi    t0, t0, 4
        j       1b
3:      li      a0, {CHANGED}
        call    write_word
2:      li      t1, 0x00800000
        bgeu    s1, t1, 4f
        li      t2, 0x5a17c0de
        xor     t3, s1, t2
        lw      t4, 0(s1)
        beq     t3, t4, 4f
        li      a0, {LOWEST}
        call    write_word
4:      mv      a0, s0
        call    __real_end_with
"""


def ask(text, *words):
    ran = subprocess.run([compare.PROGRAM, "--quiet", *words], input=text.encode(), capture_output=True, check=False)
    return ran.stdout, ran.returncode


def tool(name, *words):
    subprocess.run([TOOL + name, *map(str, words)], check=True)


def assemble(folder, text, name):
    source = folder / f"{name}.s"
    source.write_text(text, encoding="utf-8")
    tool("as", "-march=rv32im_zicsr", "-mabi=ilp32", source, "-o", folder / f"{name}.o")


def run_on_qemu(folder, hexadecimal, stack):
    """The words written, and the status."""
    made = image.read_hex(hexadecimal)
    end = max([image.GLOBALS, *(it + 1 for it in made if it >= image.GLOBALS)])
    (folder / "image.hex").write_bytes(hexadecimal)
    begin = [f"globals_end={(end + 3) // 4 * 4}", f"stack_from={image.STACK_TO - stack}"]
    objects = [folder / f"{it}.o" for it in ("start", "qemu", "watch", "input")]
    tool("ld", "--no-relax", "-m", "elf32lriscv", "-e", "watch", "--wrap=end_with", "-Ttext=0x1000", "-Tdata=0x2000", *(f"--defsym={it}" for it in begin), *objects, "-o", folder / "start.elf")
    words = folder / "words"
    command = "qemu-system-riscv32 -M none -cpu rv32 -m 16M -display none -monitor none -serial none".split()
    command += ["-semihosting-config", "enable=on,target=native,chardev=words", "-chardev", f"file,id=words,path={words}"]
    command += ["-device", f"loader,file={folder}/image.hex", "-device", f"loader,file={folder}/start.elf,cpu-num=0"]
    status = subprocess.run(command, timeout=60, check=False).returncode
    return [it[0] for it in struct.iter_unpack("<I", words.read_bytes())], status


def difference(folder, text):
    """What is wrong, or None; and whether the lowest word of the stack was changed, or None if the program is passed over."""
    said, status = ask(text, "run", "1000000", *compare.WORDS)
    lines = said.decode().split("\n")[:-1]
    if status or not lines or not lines[-1].startswith("exited "):
        return None, None
    sized = ask(text, "size")[0].decode().split("\n")
    stack = int(next(it for it in sized if it.startswith("stack "))[6:])
    words, ended = run_on_qemu(folder, ask(text, "image")[0], stack)
    lowest = words[-1:] == [LOWEST]
    if lowest:
        words.pop()
    if words[-1:] == [CHANGED]:
        return f"the stack below {stack} bytes is changed", lowest
    wanted = [int(it) % 2**32 for it in lines[:-1]]
    return (None if (words, ended) == (wanted, int(lines[-1][7:]) % 256) else "other words, or another status"), lowest


def main():
    count, first = (int(sys.argv[at]) if len(sys.argv) > at else default for at, default in ((1, 200), (2, 1)))
    files = [it for folder in ("examples", "bench/programs") for it in sorted((TOP / folder).rglob("*.c"))]
    texts = [(str(it.relative_to(TOP)), it.read_text(encoding="utf-8")) for it in files]
    texts += [(f"seed {it}", compare.Writer(it).program(it)) for it in range(first, first + count)]
    ran, lowest, differ = 0, 0, 0
    with tempfile.TemporaryDirectory() as name:
        folder = pathlib.Path(name)
        for it in ("start", "qemu"):
            tool("as", "-march=rv32im_zicsr", "-mabi=ilp32", TEAM / f"{it}.s", "-o", folder / f"{it}.o")
        assemble(folder, WATCH, "watch")
        assemble(folder, f".data\n.globl input\n.balign 4\ninput: .word {len(compare.WORDS)}, {', '.join(compare.WORDS)}\n", "input")
        for name, text in texts:
            wrong, used = difference(folder, text)
            if wrong:
                differ += 1
                print(f"{name}: {wrong}", flush=True)
            ran += used is not None
            lowest += used is True
    print(f"{ran} images on qemu's core, {lowest} of them used their stack to the last; {differ} differ")
    return 1 if differ else 0


if __name__ == "__main__":
    sys.exit(main())
