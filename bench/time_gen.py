"""Times the run of a drawn graph with 1, 2 and 4 workers.

    time_gen.py PROGRAM [ROUNDS]

Runs `PROGRAM gen 7 4096` ROUNDS times (5 if ROUNDS is left out), and takes the least user time, less that of `gen 7 1`. What is written is
compared with what it must be. Prints the received messages a second, and what one costs in steps of a thread that jumps to itself in the
same run. Then it prints the received messages a second by the clock with 1, 2 and 4 workers. The time is that of the whole command: the job is
drawn, read, placed and routed, its machine is run, and the run is made again to count the letters, and again to count the received messages.
"""
import sys
import time

from timing import user_time

STEPS = 20_000_000
SPIN = f"tinsel 1\nshape 1 1 1 1 1 1\nfuel {STEPS}\ncode all\n0000006f\nend\n"
END = "tinsel 1\nshape 1 1 1 1 1 1\ncode all\n80b01073\nend\n"
START, VERTICES, RECEIVED = 7, 4096, 81920
FIGURES = "vertices 4096\nedges 16384\nannouncements 7\nreceived 81920\nletters 70390\nsum 450996224\ndone\n"
LEAST = "vertices 1\nedges 4\nannouncements 7\nreceived 20\nletters 5\nsum 3125\ndone\n"


def main():
    program = sys.argv[1]
    rounds = int(sys.argv[2]) if len(sys.argv) > 2 else 5

    def least(words, job, want):
        return min(user_time(program, job, want, words) for _ in range(rounds))

    step = (least(["run", "--workers", "1"], SPIN, "spent 0\n") - least(["run", "--workers", "1"], END, "exit 0 0\ndone\n")) / STEPS
    one = ["--workers", "1"]
    graph = least(["gen", str(START), str(VERTICES), *one], "", FIGURES) - least(["gen", str(START), "1", *one], "", LEAST)
    message = graph / RECEIVED
    print(f"gen {START} {VERTICES}: {1e-6 / message:.3f} million received messages a second, one is {message / step:.0f} steps of spin")

    def clock(workers):
        begin = time.monotonic()
        user_time(program, "", FIGURES, ["gen", str(START), str(VERTICES), "--workers", str(workers)])
        return time.monotonic() - begin

    for workers in (1, 2, 4):
        took = min(clock(workers) for _ in range(rounds))
        print(f"by the clock, {workers} workers: {1e-6 * RECEIVED / took:.3f} million received messages a second")


main()
