"""Reads the programs of 32-bit RISC-V: segments and symbols of an ELF file that is linked."""

import struct
from dataclasses import dataclass

MACHINE_RISCV = 243
TYPE_EXECUTABLE = 2
SEGMENT_LOAD = 1
SECTION_SYMBOLS = 2
FLAG_EXECUTE = 1
FLAG_WRITE = 2
FLAG_COMPRESSED = 1
FLAG_FLOAT_ABI = 6
SYMBOL_FUNCTION = 2
UNDEFINED = 0

HEADER = struct.Struct("<16sHHIIIIIHHHHHH")
PROGRAM_HEADER = struct.Struct("<IIIIIIII")
SECTION_HEADER = struct.Struct("<IIIIIIIIII")
SYMBOL = struct.Struct("<IIIBBH")


class ElfError(Exception):
    """Why the bytes are no program of 32-bit RISC-V."""


@dataclass(frozen=True)
class Segment:
    """A part of the program's memory: its address, its first bytes, its size, and what may be done with it."""

    address: int
    data: bytes
    size: int
    is_code: bool
    is_writable: bool

    @property
    def end(self):
        return self.address + self.size


@dataclass(frozen=True)
class Symbol:
    """A name that the program defines, with its value, its size in bytes and whether it is a function."""

    name: str
    value: int
    size: int
    is_function: bool


@dataclass(frozen=True)
class Elf:
    """A linked program: the header's flags, where it begins, its segments and its symbols by name."""

    flags: int
    entry: int
    segments: list[Segment]
    symbols: dict[str, Symbol]


def read_elf(data):
    """Returns the program that the bytes are; raises ElfError if they are none."""
    reader = _Reader(data)
    ident, kind, machine, _, entry, programs, sections, flags, *counts = reader.unpack(HEADER, 0, "header")
    _, program_size, program_count, section_size, section_count, _ = counts
    _check(ident, kind, machine)
    program_rows = reader.rows(PROGRAM_HEADER, programs, program_size, program_count, "table of segments")
    section_rows = reader.rows(SECTION_HEADER, sections, section_size, section_count, "table of sections")
    return Elf(flags, entry, _segments(reader, program_rows), _symbols(reader, section_rows))


class _Reader:
    """Bytes that are read in pieces, each of which must be there."""

    def __init__(self, data):
        self.data = data

    def bytes(self, offset, size, what):
        if offset + size > len(self.data):
            end = offset + size
            raise ElfError(f"the file is truncated: it has {len(self.data)} bytes, and its {what} ends at byte {end}")
        return self.data[offset : offset + size]

    def unpack(self, form, offset, what):
        return form.unpack(self.bytes(offset, form.size, what))

    def rows(self, form, offset, size, count, what):
        if count and size < form.size:
            raise ElfError(f"the rows of the {what} have {size} bytes, and need {form.size}")
        return [self.unpack(form, offset + k * size, what) for k in range(count)]


def _check(ident, kind, machine):
    if ident[:4] != b"\x7fELF":
        raise ElfError("the file is no ELF file")
    if ident[4] != 1:
        raise ElfError("the program is of 64 bits: compile it with -march=rv32im -mabi=ilp32")
    if ident[5] != 1 or machine != MACHINE_RISCV:
        raise ElfError("the program is not for RISC-V")
    if kind != TYPE_EXECUTABLE:
        raise ElfError("the file is not a linked program at fixed addresses: link it with sdk/tinsel.ld")


def _segments(reader, rows):
    segments = []
    for kind, offset, address, _, file_size, size, flags, _ in rows:
        if kind == SEGMENT_LOAD and size:
            data = reader.bytes(offset, file_size, f"segment at address {address:#x}")
            segments.append(Segment(address, data, size, bool(flags & FLAG_EXECUTE), bool(flags & FLAG_WRITE)))
    return segments


def _symbols(reader, rows):
    symbols = {}
    for _, kind, _, _, offset, size, link, _, _, _ in rows:
        if kind != SECTION_SYMBOLS:
            continue
        if link >= len(rows):
            raise ElfError("the table of symbols has no names")
        names = reader.bytes(rows[link][4], rows[link][5], "names of symbols")
        for row in SYMBOL.iter_unpack(reader.bytes(offset, size - size % SYMBOL.size, "table of symbols")):
            name, value, length, info, _, section = row
            text = names[name:].split(b"\0", 1)[0].decode("latin-1")
            if text and section != UNDEFINED:
                symbols[text] = Symbol(text, value, length, info & 15 == SYMBOL_FUNCTION)
    return symbols
