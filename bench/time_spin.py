"""Times a thread that jumps to itself, in the product and in the plain C interpreter, in one run.

    time_spin.py PROGRAM [--rounds N] [--runs N]

PROGRAM is the built product (crates/tinsel/out/tinsel). Each of --runs runs makes 1,000,000 steps, the fuel of a job
without settings. A round times all runs of one form and then all of the next; the time of as many runs of a job that ends
at once is taken off. What counts is the ratio of the least user times. Needs gcc.
"""
import argparse
import os
import resource
import subprocess
import sys

HERE = os.path.dirname(os.path.abspath(__file__))
HEAD = "tinsel 1\nshape 1 1 1 1 1 1\ncode all\n"
JUMP, KILL, STEPS = "0000006f", "80b01073", 1_000_000


def user_time(command, runs, text=None):
    before = resource.getrusage(resource.RUSAGE_CHILDREN).ru_utime
    for _ in range(runs):
        done = subprocess.run(command, input=text, capture_output=True, text=True)
    return resource.getrusage(resource.RUSAGE_CHILDREN).ru_utime - before, done.stdout


def main():
    parser = argparse.ArgumentParser()
    parser.add_argument("program")
    parser.add_argument("--rounds", type=int, default=5)
    parser.add_argument("--runs", type=int, default=50)
    args = parser.parse_args()
    out = os.path.join(HERE, "out")
    os.makedirs(out, exist_ok=True)
    interp, jump, none = (os.path.join(out, name) for name in ("interp", "jump.bin", "none.bin"))
    subprocess.run(["gcc", "-O2", "-o", interp, os.path.join(HERE, "interp.c")], check=True)
    open(jump, "wb").write(bytes.fromhex(JUMP)[::-1])
    open(none, "wb").write(b"")
    times = {"table": [], "product": []}
    for _ in range(args.rounds):
        empty, _ = user_time([interp, "table", none, "4096", "1"], args.runs)
        spun, _ = user_time([interp, "table", jump, "4096", str(STEPS)], args.runs)
        times["table"].append(spun - empty)
        empty, text = user_time([args.program, "run", "--workers", "1"], args.runs, HEAD + KILL + "\nend\n")
        if text != "exit 0 0\ndone\n":
            sys.exit(f"time_spin: the empty job wrote {text!r}")
        spun, text = user_time([args.program, "run", "--workers", "1"], args.runs, HEAD + JUMP + "\nend\n")
        if text != "spent 0\n":
            sys.exit(f"time_spin: the spinning job wrote {text!r}")
        times["product"].append(spun - empty)
    per = {form: min(seen) / args.runs / STEPS * 1e9 for form, seen in times.items()}
    print(f"nanoseconds a step, least of {args.rounds}: C table {per['table']:.2f}, product {per['product']:.2f};",
          f"ratio {per['product'] / per['table']:.2f}; load", " ".join(f"{x:.1f}" for x in os.getloadavg()))


if __name__ == "__main__":
    main()
