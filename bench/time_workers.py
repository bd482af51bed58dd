"""Times the product with 1, 2 and 4 workers, beside four plain C processes at one time.

    time_workers.py PROGRAM [ROUNDS]

The first job has 16 tiles with a thread each, which count down and end; no tile knows of another. Its gain with 4 workers is the time with
1 worker by that with 4. Beside it is the gain of four processes of machine.c: four times the time of one on its own, by the time of all four
together. Then come jobs with messages from machine_jobs/: a job's time with 2 and with 4 workers, as ratios to its time with 1. All times are
by the clock, so nothing else should run; each is the least of ROUNDS (5 if it is left out), less that of a job that ends at once.
"""
import pathlib
import subprocess
import sys
import tempfile
import time

HERE = pathlib.Path(__file__).resolve().parent
JOBS = ["spin", "tight", "ping-pong", "multicast", "ring-16", "ring-256", "keyed-16", "all-tiles", "all-boards", "idle-256"]
HEAD = "tinsel 1\nshape 1 1 4 4 1 1\nturn 64\nfuel 1000000000\ncode all\n"
# lui a0, COUNT; addi a0, a0, -1; bne a0, x0, -4; csrrw x0, Kill, a0
COUNT_DOWN = HEAD + "{:08x}\nfff50513\nfe051ee3\n80b51073\nend\n".format(0x400 << 12 | 0x537)
AT_ONCE = HEAD + "00000513\n80b51073\nend\n"


def run_all(commands, job):
    """The time by the clock of some processes that each run a job, all at one time."""
    begin = time.monotonic()
    running = [subprocess.Popen(command, stdin=subprocess.PIPE, stdout=subprocess.DEVNULL) for command in commands]
    for process in running:
        process.stdin.write(job.encode())
        process.stdin.close()
    for process in running:
        if process.wait() not in (0, 3, 4, 5):
            sys.exit("a job did not end as it should")
    return time.monotonic() - begin


def main():
    program = str(pathlib.Path(sys.argv[1]).resolve())
    rounds = int(sys.argv[2]) if len(sys.argv) > 2 else 5
    machine = str(pathlib.Path(tempfile.mkdtemp()) / "machine")
    subprocess.run(["cc", "-O2", "-o", machine, str(HERE / "machine.c")], check=True)

    def least(commands, job):
        return min(run_all(commands, job) for _ in range(rounds)) - min(run_all(commands, AT_ONCE) for _ in range(rounds))

    def workers(count):
        return [[program, "run", "--workers", str(count)]]

    one, two, four = (least(workers(count), COUNT_DOWN) for count in (1, 2, 4))
    alone, together = (least([[machine, "run"]] * count, COUNT_DOWN) for count in (1, 4))
    print(f"16 tiles apart: the gain of 2 workers is {one / two:.2f}, of 4 workers {one / four:.2f}, of four C processes {4 * alone / together:.2f}")
    for name in JOBS:
        job = (HERE / "machine_jobs" / f"{name}.job").read_text()
        one, two, four = (least(workers(count), job) for count in (1, 2, 4))
        print(f"{name}: with 2 workers {two / one:.2f} times as long as with 1, with 4 workers {four / one:.2f}")


main()
