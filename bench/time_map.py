"""Times `map` on graphs of random edges, and prints the time and memory for each number of edges.

    time_map.py PRODUCT [--rounds N]

PRODUCT is the built product (crates/tinsel/out/tinsel). A graph has a quarter as many vertices as edges, four pins a vertex and
four devices a thread, on the greatest machine. A time is the process's user and system time, the least of the rounds.
"""
import argparse
import os
import random
import subprocess
import tempfile

EDGES = (1000, 16000, 262144)
HANDLERS = "".join("k_%s: ret\n" % name for name in ("init", "send", "recv", "step", "finish"))


def job_of(edges):
    vertices = edges // 4
    choice = random.Random(edges)
    lines = ["vertex v%d k" % v for v in range(vertices)]
    for _ in range(edges):
        lines.append("edge v%d %d v%d" % (choice.randrange(vertices), choice.randrange(4), choice.randrange(vertices)))
    return "tinsel 1\nshape 4 4 4 4 4 16\nasm all\n%send\ngraph 1 4\nkind k 4 1\n%s\nend\n" % (HANDLERS, "\n".join(lines))


def cost(product, path):
    with open(path, "rb") as job:
        child = subprocess.Popen([product, "map"], stdin=job, stdout=subprocess.DEVNULL)
        _, status, usage = os.wait4(child.pid, 0)
    if status != 0:
        raise SystemExit("map ended with status %d" % os.waitstatus_to_exitcode(status))
    return usage.ru_utime + usage.ru_stime, usage.ru_maxrss


def main():
    parser = argparse.ArgumentParser()
    parser.add_argument("product")
    parser.add_argument("--rounds", type=int, default=3)
    args = parser.parse_args()
    print("| edges | seconds | microseconds an edge | MiB |\n|---|---|---|---|")
    with tempfile.TemporaryDirectory() as room:
        for edges in EDGES:
            path = os.path.join(room, "job")
            with open(path, "w", encoding="ascii") as file:
                file.write(job_of(edges))
            times, sizes = zip(*(cost(args.product, path) for _ in range(args.rounds)))
            print("| %d | %.2f | %.1f | %d |" % (edges, min(times), min(times) / edges * 1e6, max(sizes) // 1024))


main()
