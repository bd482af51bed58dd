"""Cases of mkjob and draw_run, without a compiler and without a machine: python3 tools/test_tools.py."""

import contextlib
import io
import struct
import sys
import tempfile
import unittest
import xml.dom.minidom
from dataclasses import dataclass, field, replace
from importlib.machinery import SourceFileLoader
from importlib.util import module_from_spec, spec_from_loader
from pathlib import Path
from unittest import mock

import elf32
import rv32im

TOOLS = Path(__file__).resolve().parent
EXAMPLES = TOOLS.parent / "examples"
ONE = "--shape 1 1 1 1 1 1"
TWO = "--shape 1 1 1 1 1 2"
NOP = 0x00000013
KILL = 0x80B51073
GRAPH = "graph 1 4\nkind k 1 2\nvertex v k\nend\n"
HANDLERS = {f"k_{handler}": 4 * at for at, handler in enumerate(("init", "send", "recv", "step", "finish"))}
FIVE = [NOP] * 5


@dataclass(frozen=True)
class Image:
    """An ELF file: words of code, data, symbols with values, sizes of arrays, and fields of the header."""

    words: list[int] = field(default_factory=lambda: [NOP, KILL])
    code_at: int = 0
    code_flags: int = 5
    data: bytes = b""
    data_at: int = 16
    data_size: int = 0
    symbols: dict[str, int] = field(default_factory=dict)
    sizes: dict[str, int] = field(default_factory=dict)
    word_size: int = 1
    kind: int = elf32.TYPE_EXECUTABLE
    machine: int = elf32.MACHINE_RISCV
    flags: int = 0

    def bytes(self):
        code = b"".join(word.to_bytes(4, "little") for word in self.words)
        names, rows = b"\0", b"\0" * elf32.SYMBOL.size
        named = [(name, value, 0, 2) for name, value in self.symbols.items()]
        named += [(name, 0, size, 1) for name, size in self.sizes.items()]
        for name, value, size, info in named:
            rows += elf32.SYMBOL.pack(len(names), value, size, info, 0, 1)
            names += name.encode() + b"\0"
        at = elf32.HEADER.size + 2 * elf32.PROGRAM_HEADER.size
        body = code + self.data + names + rows
        programs = self.program(at, self.code_at, len(code), len(code), self.code_flags)
        programs += self.program(at + len(code), self.data_at, len(self.data), max(self.data_size, len(self.data)), 6)
        names_at = at + len(code) + len(self.data)
        sections = b"\0" * elf32.SECTION_HEADER.size
        sections += elf32.SECTION_HEADER.pack(0, 2, 0, 0, names_at + len(names), len(rows), 2, 0, 4, 16)
        sections += elf32.SECTION_HEADER.pack(0, 3, 0, 0, names_at, len(names), 0, 0, 1, 0)
        ident = struct.pack("<4sBBB9x", b"\x7fELF", self.word_size, 1, 1)
        header = elf32.HEADER.pack(
            ident, self.kind, self.machine, 1, self.code_at, elf32.HEADER.size, at + len(body), self.flags,
            elf32.HEADER.size, elf32.PROGRAM_HEADER.size, 2, elf32.SECTION_HEADER.size, 3, 0,
        )  # fmt: skip
        return header + programs + body + sections

    @staticmethod
    def program(offset, address, size, memory, flags):
        return elf32.PROGRAM_HEADER.pack(elf32.SEGMENT_LOAD, offset, address, address, size, memory, flags, 4)


GOOD = Image(symbols={"_start": 0, "main": 4}, data=b"\1\2\0\0", data_size=8)
HANDLED = Image(words=FIVE, symbols=HANDLERS)

# Each: a name, the image or the file's bytes, mkjob's options, and the job.
JOBS = [
    (
        "code and data", GOOD, TWO,
        "tinsel 1\nshape 1 1 1 1 1 2\nmem 4096\ncode all\n# _start\n00000013\n# main\n80b51073\nend\nfill 0 16 0102\nfill 1 16 0102\n",
    ),
    ("settings", Image(), f"{ONE} --version 2 --slots 4 --mem 64 --fuel 7",
     "tinsel 2\nshape 1 1 1 1 1 1\nslots 4\nmem 64\nfuel 7\ncode all\n00000013\n80b51073\nend\n"),
    ("memory of the link", Image(symbols={"tinsel_memory": 128}), ONE,
     "tinsel 1\nshape 1 1 1 1 1 1\nmem 128\ncode all\n00000013\n80b51073\nend\n"),
    ("handlers", replace(HANDLED, sizes={"k_state_words": 2, "k_message_bytes": 16}), f"{ONE} --graph GRAPH",
     "tinsel 1\nshape 1 1 1 1 1 1\nmem 4096\nasm all\n"
     + "".join(f"k_{name}:\n.word 0x00000013\n" for name in ("init", "send", "recv", "step", "finish")) + f"end\n{GRAPH}"),
]  # fmt: skip

# Each: a name, the image or the file's bytes, mkjob's options, and words of the refusal.
REFUSALS = [
    ("no ELF", b"#!/bin/sh\n" * 9, ONE, "the file is no ELF file"),
    ("an empty file", b"", ONE, "truncated: it has 0 bytes, and its header ends at byte 52"),
    ("truncated in the header", GOOD.bytes()[:40], ONE, "truncated: it has 40 bytes"),
    ("truncated in the segments", GOOD.bytes()[:118], ONE, "truncated: it has 118 bytes"),
    ("truncated in the symbols", GOOD.bytes()[:-1], ONE, "its table of sections ends at byte"),
    ("64 bits", Image(word_size=2), ONE, "64 bits"),
    ("another machine", Image(machine=62), ONE, "not for RISC-V"),
    ("not linked", Image(kind=1), ONE, "not a linked program"),
    ("compressed", Image(flags=1), ONE, "compressed instructions"),
    ("float registers", Image(flags=2), ONE, "registers of floating point"),
    ("code elsewhere", Image(code_at=0x10000), ONE, "does not begin at address 0"),
    ("no code", Image(words=[]), ONE, "does not begin at address 0"),
    ("code that is data", Image(code_flags=7), ONE, "both code and data"),
    ("too much code", Image(words=[NOP] * 16385), ONE, "the code has 16385 words, and a tile has room for 16384"),
    ("too much data", Image(data_size=50), f"{ONE} --mem 64", "the data ends at byte 66 and the private memory has 64 bytes"),
    ("memory of the link", Image(symbols={"tinsel_memory": 4096}), f"{ONE} --mem 8192", "linked with --defsym=tinsel_memory=4096"),
    ("no instruction", Image(words=[NOP, 0]), ONE, "the word 00000000 at the start + 4 (address 0x4) is a compressed instruction"),
    ("float", Image(words=[NOP, 0x00B57553], symbols={"f": 0}), ONE, "at f + 4 (address 0x4) is an instruction of floating point"),
    ("atomic", Image(words=[0x00B6252F]), ONE, "is an atomic instruction"),
    ("cycle counter", Image(words=[0xC0002573]), ONE, "uses the control register 0xc00, which the machine does not have"),
    ("csrrc", Image(words=[0x80103073]), ONE, "is none of csrrw and csrrs"),
    ("read of a write register", Image(words=[0x80202573]), ONE, "no allowed use of the control register 0x802"),
    ("boards", Image(), "--shape 5 1 1 1 1 1", "the shape has 5 boards in X, and a machine has 1 to 4"),
    ("slots", Image(), f"{ONE} --slots 3", "--slots is 3, and the machine allows 4 to 512"),
    ("uneven memory", Image(), f"{ONE} --mem 100", "has 100 bytes, and must have a multiple of 64, from 64 to 65536"),
    ("uneven memory of the link", Image(symbols={"tinsel_memory": 100}), ONE, "has 100 bytes, and must have a multiple of 64"),
    ("total memory", Image(), "--shape 4 4 4 4 4 16 --mem 65536", "have 1073741824 bytes together"),
    ("long job", Image(data=b"\1" * 4000), "--shape 4 4 4 4 2 16", "more than 16777216 bytes"),
    ("two files", GOOD, f"{ONE} other.elf", "give one ELF file alone, or sources"),
    ("a missing handler", Image(words=FIVE, symbols=dict(list(HANDLERS.items())[:4])), f"{ONE} --graph GRAPH",
     "no function k_finish, a handler of the kind k"),
    ("a handler that is data", Image(words=FIVE, symbols=dict(list(HANDLERS.items())[:4]), sizes={"k_finish": 4}), f"{ONE} --graph GRAPH",
     "no function k_finish"),
    ("data of handlers", replace(HANDLED, data=b"\1\2\3"), f"{ONE} --graph GRAPH", "the handlers have 3 bytes of static data"),
    ("variables of handlers", replace(HANDLED, data_size=12), f"{ONE} --graph GRAPH", "the handlers have 12 bytes of static data"),
    ("a send in a handler", replace(HANDLED, words=[0x80601073, *FIVE[1:]]), f"{ONE} --graph GRAPH", "may read HartId and SendSlot alone"),
    ("a state's size", replace(HANDLED, sizes={"k_state_words": 3}), f"{ONE} --graph GRAPH", "has 3 words in the program, and 2 in the graph"),
    ("a message's size", replace(HANDLED, sizes={"k_message_bytes": 20}), f"{ONE} --graph GRAPH", "has 20 bytes in the program, and 16"),
    ("a graph without end", HANDLED, f"{ONE} --graph OPEN", "the last line is not `end`"),
    ("no graph", HANDLED, f"{ONE} --graph NONE", "the first line is not `graph FLITS PER`"),
    ("no such graph", HANDLED, f"{ONE} --graph ABSENT", "ABSENT: No such file or directory"),
]  # fmt: skip

# Each: a name, the trace's lines, and words of the refusal.
TRACES = [
    ("no event", "turn 0 2\nwalk 3", "line 2 of the trace is no event: walk 3"),
    ("too few numbers", "turn 0", "line 1 of the trace is no event"),
    ("no number", "turn 0 x", "no event of this machine"),
    ("no thread", "turn 5 1", "no event of this machine: turn 5 1"),
    ("no part", "depart 1 99", "no event of this machine"),
    ("another link", "depart 0 3", "no event of this machine"),
    ("no router", "route 1", "no event of this machine"),
    ("a refused job", "refused 3 NoCode", "the job was refused: refused 3 NoCode"),
    ("an event after the report", "done\nturn 0 1", "line 2 of the trace is no event"),
]


def load(name):
    """A tool as a module."""
    loader = SourceFileLoader(name, str(TOOLS / name))
    module = sys.modules[name] = module_from_spec(spec_from_loader(name, loader))
    loader.exec_module(module)
    return module


mkjob, draw_run = load("mkjob"), load("draw_run")


@dataclass(frozen=True)
class Done:
    """What a call printed on both outputs, and its status."""

    stdout: str
    stderr: str
    status: int


def call(tool, words):
    with contextlib.redirect_stdout(io.StringIO()) as out, contextlib.redirect_stderr(io.StringIO()) as err:
        status = tool.main(words)
    return Done(out.getvalue(), err.getvalue(), status)


class ToolCase(unittest.TestCase):
    def setUp(self):
        room = tempfile.TemporaryDirectory()
        self.addCleanup(room.cleanup)
        self.folder = Path(room.name)

    def write(self, name, text):
        (self.folder / name).write_text(text)

    def call(self, tool, words):
        """A call whose words in capitals or with a dot are files of the folder."""
        named = (str(self.folder / word) if word.isupper() or "." in word else word for word in words.split())
        return call(tool, list(named))


class MakesJobs(ToolCase):
    def make(self, image, options):
        data = image if isinstance(image, bytes) else image.bytes()
        (self.folder / "program.elf").write_bytes(data)
        self.write("GRAPH", GRAPH)
        self.write("OPEN", "graph 1 4\nkind k 1 2\n")
        self.write("NONE", "kind k 1 2\nend\n")
        return self.call(mkjob, f"program.elf {options}")

    def test_jobs(self):
        for name, image, options, job in JOBS:
            with self.subTest(name):
                done = self.make(image, options)
                self.assertEqual((done.stdout, done.stderr, done.status), (job, "", 0))

    def test_refusals(self):
        for name, image, options, words in REFUSALS:
            with self.subTest(name):
                done = self.make(image, options)
                self.assertIn(words, done.stderr)
                self.assertTrue(done.stderr.startswith("mkjob: "))
                self.assertEqual((done.stdout, done.status, done.stderr.count("\n")), ("", 1, 1))

    def test_no_compiler(self):
        self.write("program.c", "int main(void) { return 0; }")
        with mock.patch("shutil.which", return_value=None):
            done = self.call(mkjob, f"program.c {ONE}")
        self.assertIn("riscv64-unknown-elf-gcc is not here: install Debian's package", done.stderr)
        self.assertEqual((done.stdout, done.status), ("", 1))

    def test_most_code(self):
        done = self.make(Image(words=[NOP] * 16384), ONE)
        self.assertEqual((done.stdout.count("00000013\n"), done.stderr), (16384, ""))


class DrawsRuns(ToolCase):
    def draw(self, trace):
        self.write("run.job", "# a job\n\ntinsel 1\nshape 1 1 1 1 1 2\n")
        self.write("run.trace", trace)
        return self.call(draw_run, "run.job run.trace")

    def test_picture(self):
        done = self.draw((EXAMPLES / "trace.out").read_text())
        xml.dom.minidom.parseString(done.stdout)
        self.assertIn("10 events, 4 steps, 0 sends; it ended: done", done.stdout)
        self.assertIn("Events in order, 1 a column; 1 announcements", done.stdout)
        self.assertEqual(done.status, 0)

    def test_packets(self):
        """A packet of the host: over the host's link and Down to the tile; the parts have the numbers of docs/MACHINE.md."""
        done = self.draw("hostput\narrive 6 2\nroute 2\ndepart 2 4\narrive 4 1\ndone\n")
        for words in ("host to the machine: 1 packets", "Down: 1 packets", "Up: 0 packets", "1 packets came", "1 routes"):
            self.assertIn(words, done.stdout)

    def test_columns(self):
        done = self.draw("turn 0 1\n" * 1000)
        self.assertIn("Events in order, 8 a column", done.stdout)
        self.assertIn("1,000 events, 1,000 steps", done.stdout)

    def test_refusals(self):
        for name, trace, words in TRACES:
            with self.subTest(name):
                done = self.draw(trace + "\n")
                self.assertIn(words, done.stderr)
                self.assertEqual((done.stdout, done.status), ("", 1))

    def test_no_shape(self):
        self.write("empty.job", "tinsel 1\n")
        done = self.call(draw_run, "empty.job empty.job")
        self.assertIn("the job does not begin with the lines `tinsel` and `shape`", done.stderr)


class KnowsInstructions(unittest.TestCase):
    def test_control_registers(self):
        for word, fault in [
            (0xF1402573, None), (0x80B51073, None), (0x80A515F3, None), (0x80051573, "no allowed use"), (0x80251573, "no allowed use"),
            (0x80052573, "no allowed use"), (0x00000073, None), (0x10500073, "is none of"),
        ]:  # fmt: skip
            with self.subTest(hex(word)):
                told = rv32im.fault_of(word)
                self.assertEqual(told is None, fault is None)
                self.assertIn(fault or "", told or "")


if __name__ == "__main__":
    unittest.main()
