"""Times messages of the product: letters a second, and how many spinning steps one letter costs in the same run.

    time_messages.py PROGRAM [ROUNDS]

Runs `PROGRAM run` on the jobs of bench/jobs and on a thread that jumps to itself for 1,000,000 steps, ROUNDS times each
(5 where it is left out), and takes the least user time of each. The reports are compared with what they must be.
"""
import os
import sys

from timing import user_time

HERE = os.path.dirname(os.path.abspath(__file__))
SPIN = "tinsel 1\nshape 1 1 1 1 1 1\ncode all\n0000006f\nend\n"
JOBS = [
    ("ping-pong", 200_000, "exit 0 200000\nexit 1 200000\ndone\n"),
    ("multicast", 315_000, "".join(f"exit {t} {12502500 if t else 0}\n" for t in range(64)) + "done\n"),
]


def main():
    program = sys.argv[1]
    rounds = int(sys.argv[2]) if len(sys.argv) > 2 else 5
    step = min(user_time(program, SPIN, "spent 0\n") for _ in range(rounds)) / 1_000_000
    for name, letters, want in JOBS:
        with open(os.path.join(HERE, "jobs", name + ".job"), encoding="ascii") as text:
            job = text.read()
        least = min(user_time(program, job, want) for _ in range(rounds))
        print(f"{name}: {letters / least / 1e6:.2f} million letters a second, a letter is {least / letters / step:.1f} steps of spin")


main()
