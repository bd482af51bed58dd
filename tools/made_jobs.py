#!/usr/bin/env python3
"""Makes large jobs and what `tinsel run` prints for them, each in a file of the folder that is given. Writes a line of the form of
examples/cases.txt for each. The outputs are worked out here, from the programs. The graphs are drawn at random from a fixed start.
"""

import heapq
import random
import struct
import sys
from itertools import product
from pathlib import Path

PIECES = 1000
TILE_THREADS = 64
TILES = 256
PAGES = 4096
FIRST_RANK = 1_000_000
ROUNDS = 5
TOWNS = 2000
# The length of a way that was not found.
NO_WAY = 2**31 - 1


def job(shape, settings, program, script=()):
    return "\n".join(["tinsel 1", shape, *settings, "asm all", *program, "end", *script]) + "\n"


def message(word):
    return struct.pack("<I", word).hex() + "00" * 12


def conversation():
    """The host sends a number to one of four threads, and waits for the machine's rest before the next. The thread sends the number
    plus 1 to the host. Each thread ends after its quarter of the numbers."""
    program = [
        f"li s0, {PIECES // 4}",
        "li s1, 0x50000000",
        "li s2, 0x40000000",
        "csrrw x0, SendDest, s2",
        "li s3, 1",
        "next: csrrw a0, Idle, x0",
        "bnez a0, next",
        "csrrs a1, Recv, x0",
        "lw a2, 0(a1)",
        "addi a2, a2, 1",
        "sw a2, 0(s1)",
        "csrrw x0, Free, a1",
        "csrrw x0, WaitUntil, s3",
        "csrrw x0, Send, x0",
        "addi s0, s0, -1",
        "bnez s0, next",
        "csrrw x0, Kill, s0",
    ]
    script = []
    for k in range(PIECES):
        script += [f"host send {k % 4} {message(k)}", "host idle"]
    lines = [f"host {message(k + 1)}" for k in range(PIECES)]
    lines += [f"exit {thread} 0" for thread in range(4)] + ["done"]
    return job("shape 1 1 1 1 1 4", [], program, script), lines


def barriers():
    """All threads of the largest machine are idle ten times, at the last time with their vote for the end. Each sums what it reads:
    nine times 1, and 2."""
    program = [
        "li a1, 9",
        "next: csrrw a0, Idle, x0",
        "add s0, s0, a0",
        "addi a1, a1, -1",
        "bnez a1, next",
        "li a1, 1",
        "csrrw a0, Idle, a1",
        "add s0, s0, a0",
        "csrrw x0, Kill, s0",
    ]
    lines = [f"exit {thread} 11" for thread in range(TILES * TILE_THREADS)] + ["done"]
    return job("shape 4 4 4 4 4 16", ["mem 64"], program), lines


def graph(per, kind, words, edges):
    """The lines of a graph of one kind with one pin, from the words of each vertex and the edges (from, to, value)."""
    return [
        f"graph 1 {per}",
        f"kind {kind} 1 {len(words[0])}",
        *(f"vertex v{at} {kind} {' '.join(map(str, each))}" for at, each in enumerate(words)),
        *(f"edge v{tail} 0 v{head} {value}" for tail, head, value in edges),
        "end",
    ]


def told(values, boards, tiles, threads):
    """The report of a graph: each vertex sends its number and its value to the host, and each thread ends with 0. Boards and tiles are
    as many in X as in Y."""
    lines = sorted("host " + struct.pack("<4I", 0, vertex, value, 0).hex() for vertex, value in enumerate(values))
    places = product(range(boards), range(boards), range(tiles), range(tiles), range(threads))
    lines += [f"exit {y << 12 | x << 10 | v << 8 | u << 6 | thread} 0" for y, x, v, u, thread in places]
    return lines + ["done"]


def rank():
    """Page rank in whole numbers, over pages with 1 to 7 links. In a round each page gives its rank in equal shares to the pages that it
    links to. Its new rank is 150,000 and 17/20 of the shares that it got."""
    program = [
        "page_init: li a0, 1",
        "ret",
        "page_send: lw a2, 0(a0)",
        "lw a3, 4(a0)",
        "divu a2, a2, a3",
        "sw a2, 4(a1)",
        "li a0, 0",
        "ret",
        "page_recv: lw a2, 4(a1)",
        "lw a3, 12(a0)",
        "add a3, a3, a2",
        "sw a3, 12(a0)",
        "mv a0, a4",
        "ret",
        "page_step: lw a2, 12(a0)",
        "sw x0, 12(a0)",
        "li a3, 17",
        "mul a2, a2, a3",
        "li a3, 20",
        "divu a2, a2, a3",
        "li a3, 150000",
        "add a2, a2, a3",
        "sw a2, 0(a0)",
        "lw a2, 8(a0)",
        "addi a2, a2, -1",
        "sw a2, 8(a0)",
        "sltu a0, x0, a2",
        "mv a1, a0",
        "ret",
        "page_finish: sw a3, 4(a1)",
        "lw a2, 0(a0)",
        "sw a2, 8(a1)",
        "li a0, 1",
        "ret",
    ]
    draw = random.Random(1)
    links = [[draw.randrange(PAGES) for _ in range(draw.randrange(1, 8))] for _ in range(PAGES)]
    edges = [(page, head, 0) for page, heads in enumerate(links) for head in heads]
    lines = graph(16, "page", [[FIRST_RANK, len(heads), ROUNDS, 0] for heads in links], edges)
    ranks = [FIRST_RANK] * PAGES
    for _ in range(ROUNDS):
        got = [0] * PAGES
        for page, heads in enumerate(links):
            for head in heads:
                got[head] += ranks[page] // len(heads)
        ranks = [150000 + shares * 17 // 20 for shares in got]
    return job("shape 2 2 2 2 1 16", [], program, lines), told(ranks, 2, 2, 16)


def paths():
    """The lengths of the shortest ways from vertex 0. A vertex that learns of a shorter way to itself tells the vertices at its edges."""
    program = [
        "town_init: lw a0, 0(a0)",
        "sltiu a0, a0, 1",
        "ret",
        "town_send: lw a2, 0(a0)",
        "sw a2, 4(a1)",
        "li a0, 0",
        "ret",
        "town_recv: lw a3, 4(a1)",
        "add a3, a3, a2",
        "lw a2, 0(a0)",
        "bltu a3, a2, shorter",
        "mv a0, a4",
        "ret",
        "shorter: sw a3, 0(a0)",
        "li a0, 1",
        "ret",
        "town_step: li a0, 0",
        "li a1, 0",
        "ret",
        "town_finish: sw a3, 4(a1)",
        "lw a2, 0(a0)",
        "sw a2, 8(a1)",
        "li a0, 1",
        "ret",
    ]
    draw = random.Random(2)
    edges = [(draw.randrange(TOWNS), draw.randrange(TOWNS), draw.randrange(1, 1000)) for _ in range(3 * TOWNS)]
    ways = [[] for _ in range(TOWNS)]
    for tail, head, value in edges:
        ways[tail].append((head, value))
    lengths = [0] + [NO_WAY] * (TOWNS - 1)
    lines = graph(32, "town", [[length] for length in lengths], edges)
    queue = [(0, 0)]
    while queue:
        length, town = heapq.heappop(queue)
        if length > lengths[town]:
            continue
        for head, value in ways[town]:
            if length + value < lengths[head]:
                lengths[head] = length + value
                heapq.heappush(queue, (length + value, head))
    return job("shape 2 2 2 2 1 8", [], program, lines), told(lengths, 2, 2, 8)


def main():
    folder = Path(sys.argv[1])
    for name, make, form in (
        ("conversation", conversation, ""),
        ("barriers", barriers, ""),
        ("rank", rank, " | sorted"),
        ("paths", paths, " | sorted"),
    ):
        text, lines = make()
        (folder / f"{name}.job").write_text(text)
        (folder / f"{name}.out").write_text("\n".join(lines) + "\n")
        print(f"run | {folder}/{name}.job | 0 Done | {folder}/{name}.out{form}")


if __name__ == "__main__":
    main()
