#!/usr/bin/env python3
"""Compares the case `words of GNU as` of crates/rows with the words that GNU as gives today.

Run it at the top of the repository. It needs riscv64-unknown-elf-as and riscv64-unknown-elf-objcopy (Debian's package
binutils-riscv64-unknown-elf), and does nothing where they are missing. With --write it replaces the case by the lines
below and their words. Offsets are written for GNU as as `. + N`, since it takes a bare number for an address. Left out are
the lines that GNU as spells in another way: `la`, `call`, `fence` with arguments, names of this machine's control
registers, and `li` of a number whose low twelve bits are zero.
"""

import re
import shutil
import subprocess
import sys
import tempfile
from pathlib import Path

AS = "riscv64-unknown-elf-as"
OBJCOPY = "riscv64-unknown-elf-objcopy"
ROWS = Path("crates/rows")
NAME = "words of GNU as"
CALLING = (
    "zero ra sp gp tp t0 t1 t2 s0 fp s1 a0 a1 a2 a3 a4 a5 a6 a7 s2 s3 s4 s5 s6 s7 s8 s9 s10 s11 t3 t4 t5 t6"
).split()
REGISTERS = (
    "add sub sll slt sltu xor srl sra or and mul mulh mulhsu mulhu div divu rem remu"
).split()
# Mnemonics that have the same arguments, and for each of them two lines.
PAIRS = [
    ("addi slti sltiu xori ori andi", "a0, s1, -2048", "t6, zero, 2047"),
    ("slli srli srai", "a0, a1, 0", "s11, t3, 31"),
    ("lb lh lw lbu lhu jalr", "a0, -2048(sp)", "gp, 0x7ff ( tp )"),
    ("sb sh sw", "a0, -1(sp)", "x31, 1365(x21)"),
]
TARGETS = {"beq", "bne", "blt", "bge", "bltu", "bgeu", "jal", "j", "beqz", "bnez"}


def lines():
    """The lines of the table."""
    for k, name in enumerate(REGISTERS):
        yield f"{name} x{k + 1}, x{31 - k}, x{(7 * k + 5) % 32}"
    for names, *rest in PAIRS:
        for name in names.split():
            yield from (f"{name} {arguments}" for arguments in rest)
    yield "back:"
    for name in "beq bne blt bge bltu bgeu".split():
        yield f"{name} a0, a1, -4096"
        yield f"{name} s2, t4, 4094"
        yield f"{name} x1, x30, ahead"
        yield f"{name} x17, x14, back"
    for offset in (-1048576, 1048574, 2, -2, 2730):
        yield f"jal ra, {offset}"
    yield "ahead: jal x0, back"
    for upper in (0, 1, 0x80000, 1048575):
        yield f"lui a0, {upper}"
        yield f"auipc s0, {upper}"
    for name in "csrrw csrrs".split():
        yield f"{name} x0, 0, x0"
        yield f"{name} a0, 0xfff, t6"
        yield f"{name} s3, 2057, a4"
    yield from ("fence", "ecall", "ebreak", "nop", "ret", "mv a0, a1", "mv t6, x0")
    yield from ("j 16", "j back", "beqz a0, ahead", "bnez s1, back", "beqz t0, 64", "bnez t0, -64")
    for number in (
        "0", "1", "-1", "2047", "-2048", "2048", "-2049", "4095", "5000", "0x12345678", "0x7fffffff", "0x80000001",
        "-2147483647", "0xfffff7ff", "0xffffffff", "0xdeadbeef",
    ):
        yield f"li a{len(number) % 8}, {number}"
    yield from (".word 0", ".word -1", ".word 0xF1402573", ".word -2147483648")
    for name in CALLING:
        yield f"xor {name}, {name}, {name}"
    for number in range(32):
        yield f"or x{number}, x{number}, x{number}"


def gnu(line):
    """The line as GNU as takes it."""
    words = re.match(r"(\w+:\s*)?(\w*)(.*)$", line)
    if words[2] in TARGETS:
        return re.sub(r"(^|, | )(-?\d+)$", r"\1. + \2", line)
    return line


def assemble(text):
    """The words that GNU as gives."""
    with tempfile.TemporaryDirectory() as folder:
        source, thing, image = (Path(folder) / name for name in ("a.s", "a.o", "a.bin"))
        source.write_text(text)
        flags = ["-march=rv32im_zicsr", "-mabi=ilp32", "-mno-relax"]
        subprocess.run([AS, *flags, "-o", thing, source], check=True)
        subprocess.run([OBJCOPY, "-O", "binary", "-j", ".text", thing, image], check=True)
        data = image.read_bytes()
    return [int.from_bytes(data[k : k + 4], "little") for k in range(0, len(data), 4)]


def case(text):
    """What comes before the case in a file of crates/rows, the case's head, its lines, and what comes behind."""
    found = re.search(rf"(?m)^=== {NAME} \|.*\n((?:(?!=== |-- ).*\n)*)", text)
    return text[: found.start()], found[0].splitlines()[0], found[1].splitlines(), text[found.end() :]


def main():
    if not (shutil.which(AS) and shutil.which(OBJCOPY)):
        print(f"asm_table: no {AS} here, so the case was not compared")
        return 0
    stdin, stdout = ((ROWS / name).read_text() for name in ("stdin", "stdout"))
    table = list(lines()) if "--write" in sys.argv else case(stdin)[2]
    words = [f"{word:08x}" for word in assemble("".join(gnu(line) + "\n" for line in table))]
    if "--write" in sys.argv:
        for name, text, new in ("stdin", stdin, table), ("stdout", stdout, words):
            before, head, _, behind = case(text)
            (ROWS / name).write_text(before + "".join(line + "\n" for line in [head, *new]) + behind)
    elif case(stdout)[2] != words:
        print("asm_table: GNU as gives other words")
        return 1
    print(f"asm_table: {len(table)} lines, {len(words)} words of GNU as")
    return 0


if __name__ == "__main__":
    sys.exit(main())
