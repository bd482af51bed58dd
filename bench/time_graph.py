"""Times graph jobs of the product, beside a thread that jumps to itself in the same run.

    time_graph.py PROGRAM [ROUNDS]

Runs `PROGRAM run` on each job ROUNDS times (5 if ROUNDS is left out), and takes the least user time, less that of a job that ends at once.
Each report is compared with what it must be. There are three jobs:

- dispatch: a vertex sends again and again by a pin without edges. A send makes two dispatches and no message.
- self: a vertex sends to itself, and receives before it sends again.
- mesh: 256 vertices on 16 threads of four tiles; in each of 100 rounds a vertex sends one message to eight vertices.

Prints what a dispatch costs in steps of spin, and for the other jobs the received messages a second, what one costs in steps of spin, and
the share of the softswitch in the steps of all threads. A step of the softswitch is a dispatch or the end of a wait or idle. Handlers here
have no branches: so the steps of a run, which its trace tells, less the instructions of all calls of handlers are those of the softswitch.
"""
import random
import struct
import subprocess
import sys
from dataclasses import dataclass, field

from timing import user_time

STEPS = 20_000_000
SPIN = f"tinsel 1\nshape 1 1 1 1 1 1\nfuel {STEPS}\ncode all\n0000006f\nend\n"
END = "tinsel 1\nshape 1 1 1 1 1 1\ncode all\n80b01073\nend\n"
SENDS = 500_000
VERTICES, EDGES, ROUNDS = 256, 8, 100

TELL = ["lw a2, 4(a0)", "sw a2, 4(a1)", "sltiu a0, a3, 1", "ret"]  # vertex 0 sends its second word to the host
REST = ["li a0, 0", "li a1, 0", "ret"]
COUNT_DOWN = ["lw a2, 0(a0)", "addi a2, a2, -1", "sw a2, 0(a0)"]


@dataclass(frozen=True)
class Graph:
    """A graph of one kind with one pin: the instructions of its handlers, how often each is called, and vertex 0's answer."""

    name: str
    shape: str
    threads: list[int]
    handlers: dict[str, list[str]]
    calls: dict[str, int]
    words: list[str]
    answer: int
    edges: list[tuple[int, int]] = field(default_factory=list)

    def job(self):
        code = [line for name, lines in self.handlers.items() for line in (f"v_{name}:", *lines)]
        vertices = [f"vertex v{at} v {words}" for at, words in enumerate(self.words)]
        edges = [f"edge v{tail} 0 v{head}" for tail, head in self.edges]
        lines = ["tinsel 1", f"shape {self.shape}", "fuel 0xFFFFFFFF", "asm all", *code, "end"]
        return "\n".join([*lines, "graph 1 64", "kind v 1 3", *vertices, *edges, "end"]) + "\n"

    def report(self):
        letter = struct.pack("<4I", 0, self.answer, 0, 0).hex()
        return f"host {letter}\n" + "".join(f"exit {thread} 0\n" for thread in self.threads) + "done\n"

    def share(self, program):
        """The share of the softswitch in the steps of a run."""
        trace = subprocess.run([program, "run", "--workers", "1", "--trace"], input=self.job(), capture_output=True, text=True, check=True).stdout
        steps = sum(int(line.split()[2]) for line in trace.splitlines() if line.startswith("turn "))
        return 1 - sum(len(lines) * self.calls[name] for name, lines in self.handlers.items()) / steps


def dispatch():
    """The second word counts the sends."""
    send = [*COUNT_DOWN, "lw a3, 4(a0)", "addi a3, a3, 1", "sw a3, 4(a0)", "sltu a0, x0, a2", "ret"]
    handlers = {"init": ["li a0, 1", "ret"], "send": send, "recv": ["ret"], "step": REST, "finish": TELL}
    calls = {"init": 1, "send": SENDS, "recv": 0, "step": 1, "finish": 1}
    return Graph("dispatch", "1 1 1 1 1 1", [0], handlers, calls, [f"{SENDS} 0"], SENDS)


def to_itself():
    """The second word counts the messages that the vertex received."""
    send = ["li a0, 0", "ret"]
    recv = [*COUNT_DOWN, "lw a3, 4(a0)", "addi a3, a3, 1", "sw a3, 4(a0)", "sltu a0, x0, a2", "ret"]
    handlers = {"init": ["li a0, 1", "ret"], "send": send, "recv": recv, "step": REST, "finish": TELL}
    calls = {"init": 1, "send": SENDS, "recv": SENDS, "step": 1, "finish": 1}
    return Graph("self", "1 1 1 1 1 1", [0], handlers, calls, [f"{SENDS} 0"], SENDS, [(0, 0)])


def mesh():
    """A vertex sends its number; the second word sums what the vertex received, and the first counts the rounds to come."""
    send = ["sw a3, 4(a1)", "li a0, 0", "ret"]
    recv = ["lw a2, 4(a1)", "lw a3, 4(a0)", "add a3, a3, a2", "sw a3, 4(a0)", "mv a0, a4", "ret"]
    step = [*COUNT_DOWN, "sltu a0, x0, a2", "mv a1, a0", "ret"]
    handlers = {"init": ["li a0, 1", "ret"], "send": send, "recv": recv, "step": step, "finish": TELL}
    calls = {"init": 1, "send": ROUNDS, "recv": ROUNDS * EDGES, "step": ROUNDS, "finish": 1}
    draw = random.Random(1)
    edges = [(tail, head) for tail in range(VERTICES) for head in draw.sample(range(VERTICES), EDGES)]
    answer = ROUNDS * sum(tail for tail, head in edges if head == 0)
    threads = [tile + thread for tile in (0, 64, 256, 320) for thread in range(4)]
    calls = {name: count * VERTICES for name, count in calls.items()}
    return Graph("mesh", "1 1 2 2 1 4", threads, handlers, calls, [f"{ROUNDS} 0"] * VERTICES, answer, edges)


def main():
    program = sys.argv[1]
    rounds = int(sys.argv[2]) if len(sys.argv) > 2 else 5

    def least(job, report):
        return min(user_time(program, job, report) for _ in range(rounds))

    start = least(END, "exit 0 0\ndone\n")
    step = (least(SPIN, "spent 0\n") - start) / STEPS
    empty = dispatch()
    send = (least(empty.job(), empty.report()) - start) / SENDS / step
    print(f"dispatch: {(send - len(empty.handlers['send'])) / 2:.1f} steps of spin; share of the softswitch {empty.share(program):.2f}")
    for graph in (to_itself(), mesh()):
        received = graph.calls["recv"]
        time = (least(graph.job(), graph.report()) - start) / received
        print(
            f"{graph.name}: {1e-6 / time:.2f} million received messages a second, one is {time / step:.1f} steps of spin;",
            f"share of the softswitch {graph.share(program):.2f}",
        )


main()
