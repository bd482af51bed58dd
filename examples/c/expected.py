#!/usr/bin/env python3
"""Prints the report of an example, computed by the same algorithm in plain Python: expected.py NAME. A graph's `host` lines are sorted."""

import heapq
import sys
from itertools import product
from pathlib import Path


def address(column, row):
    """The thread of a column of tiles over two boards, and of a row of four threads in each of two tiles."""
    return column // 2 << 10 | row // 4 << 8 | column % 2 << 6 | row % 4


BLOCKS = list(product(range(4), range(8)))
THREADS = [address(column, row) for column, row in BLOCKS]


def ping():
    """The first thread gets the even numbers, the second the odd numbers."""
    return {0: 200, 64: 199}


def sums():
    total = sum(thread * thread % 1000 for thread in THREADS)
    return {thread: total for thread in THREADS}


def stencil():
    """The whole mesh as one dictionary, then its blocks."""
    size, columns, rows = 8, 32, 64
    cells = {(x, y): x * 37 % 101 * (y * 53 % 97) for x, y in product(range(columns), range(rows))}
    for _ in range(10):
        cells = {
            (x, y): sum(cells.get(at, 0) for at in ((x, y), (x - 1, y), (x + 1, y), (x, y - 1), (x, y + 1))) // 5
            for x, y in cells
        }
    weights = {(x, y): x + 1 + size * (y + 1) for x, y in product(range(size), range(size))}
    return {
        address(column, row): sum(
            cells[column * size + x, row * size + y] * weight for (x, y), weight in weights.items()
        )
        for column, row in BLOCKS
    }


def read_graph(name):
    """The words of each vertex, and each vertex's edges: the vertices that they lead to, and the edges' values."""
    lines = [line.split() for line in Path(__file__).with_name(f"{name}.graph").read_text().splitlines()]
    words = {line[1]: [int(word, 0) for word in line[3:]] for line in lines if line[0] == "vertex"}
    edges = {vertex: [] for vertex in words}
    for line in lines:
        if line[0] == "edge":
            edges[line[1]].append((line[3], int(line[4]) if len(line) > 4 else 0))
    return words, edges


def rank():
    words, edges = read_graph("rank")
    ranks = {page: first for page, (first, _, _) in words.items()}
    for _ in range(20):
        got = dict.fromkeys(ranks, 0)
        for page, links in edges.items():
            for other, _ in links:
                got[other] += ranks[page] // len(links)
        ranks = {page: 150000 + shares * 17 // 20 for page, shares in got.items()}
    return list(ranks.values())


def path():
    """Dijkstra's algorithm from the vertex whose length is 0."""
    words, edges = read_graph("path")
    lengths = {vertex: first for vertex, (first,) in words.items()}
    queue = [(length, vertex) for vertex, length in lengths.items() if length == 0]
    while queue:
        length, vertex = heapq.heappop(queue)
        for other, more in edges[vertex]:
            if length + more < lengths[other]:
                lengths[other] = length + more
                heapq.heappush(queue, (length + more, other))
    return list(lengths.values())


EXAMPLES = {"ping": ping, "sum": sums, "stencil": stencil}

# Each vertex sends its number and its value to the host. The threads of a graph end with 0.
GRAPHS = {
    "rank": (rank, [0, 1, 64, 65]),
    "path": (path, [board | column << 6 | thread for board in (0, 256, 1024, 1280) for column in (0, 1) for thread in (0, 1)]),
}


def main():
    name = sys.argv[1]
    if name in GRAPHS:
        values, threads = GRAPHS[name]
        letters = (b"".join(word.to_bytes(4, "little") for word in (0, vertex, value, 0)) for vertex, value in enumerate(values()))
        print("\n".join(sorted(f"host {letter.hex()}" for letter in letters)))
        exits = dict.fromkeys(threads, 0)
    else:
        exits = EXAMPLES[name]()
    for thread, value in sorted(exits.items()):
        print(f"exit {thread} {value % 2**32}")
    print("done")


if __name__ == "__main__":
    main()
