#!/usr/bin/env python3
"""Runs jobs with several numbers of workers and checks each history: check_workers.py PROGRAM [TIMES].

The jobs are those of the cases of crates/rows and of examples/ that PROGRAM accepts. With 1, 2 and 8 workers `check` has to accept the
events that `run --trace` writes. The jobs whose runs end by a trap or by spent fuel are run TIMES times (200) with 8 workers. The tool
also says of how many jobs the report hangs on the schedule: with 2 or 8 workers their sorted lines differ from those with 1 worker.
"""
import pathlib
import re
import subprocess
import sys

ENDS = {0, 3, 4, 5, 6}
TRAPPED, SPENT = 3, 5
MOST_BYTES = 16_777_216
EVENTS = {"turn", "deliver", "depart", "arrive", "route", "hostput", "hosttake", "report", "begin", "confirm", "announce", "release", "go"}


def call(program, words, text):
    """The status and the output of a call."""
    done = subprocess.run([program, *words], input=text, capture_output=True, check=False)
    return done.returncode, done.stdout


def run(program, job, workers):
    """The status, the events and the sorted report of a run."""
    status, text = call(program, ["run", "--trace", "--workers", str(workers)], job)
    lines = text.decode().splitlines()
    events = [line for line in lines if line.split(" ")[0] in EVENTS]
    return status, events, sorted(lines[len(events) :])


def is_run(program, job, events):
    """Whether `check` accepts the events. An input that is too long for `check` is not tried."""
    lines = "".join(event + "\n" for event in events)
    text = job + (b"" if job.endswith(b"\n") else b"\n") + b"%%\n" + lines.encode()
    return len(text) > MOST_BYTES or call(program, ["check"], text) == (0, b"run %d\n" % len(events))


def escaped(lines):
    """The bytes of an input in the escaped form of crates/rows."""
    text = ""
    for line in lines:
        times = re.match(r"\\(\d+)\*", line)
        line, count = (line[times.end() :], int(times[1])) if times else (line, 1)
        text += line[:-1] if line.endswith("\\") and not line.endswith("\\\\") else (line + "\n") * count
    return re.sub(rb"\\x([0-9a-f]{2})", lambda it: bytes([int(it[1], 16)]), text.encode())


def jobs_of_rows(text):
    """The inputs of the cases that run a job."""
    name, form, lines = None, "", []
    for line in [*text.splitlines(), "=== end | none"]:
        if line.startswith("=== "):
            if name:
                yield name, escaped(lines) if form == "escaped" else "".join(it + "\n" for it in lines).encode()
            head = [part.strip() for part in line[4:].split("|")]
            name, form, lines = None, head[2] if len(head) > 2 else "", []
            if head[1].split(" ")[0] == "run" and form != "fronts":
                name = head[0]
        elif not line.startswith("--"):
            lines.append(line)


def jobs(top):
    """Each job with its name."""
    yield from jobs_of_rows((top / "crates/rows/stdin").read_text())
    for path in sorted((top / "examples").glob("*.job")):
        yield path.name, path.read_bytes()


def main():
    program = str(pathlib.Path(sys.argv[1]).resolve())
    times = int(sys.argv[2]) if len(sys.argv) > 2 else 200
    faults, checked, runs, free = [], 0, 0, 0
    for name, job in jobs(pathlib.Path(__file__).resolve().parent.parent):
        first = None
        if call(program, ["run", "--workers", "1"], job)[0] not in ENDS:
            continue
        checked += 1
        hangs = False
        for workers, count in ((1, 1), (2, 1), (8, 1)):
            status, events, report = run(program, job, workers)
            first = first or (status, report)
            hangs = hangs or (status, report) != first
            runs += 1
            if status not in ENDS or not is_run(program, job, events):
                faults.append(f"{name}: with {workers} workers the events are no run, or the status is {status}")
        free += hangs
        if first[0] in (TRAPPED, SPENT):
            for _ in range(times):
                status, events, _ = run(program, job, 8)
                runs += 1
                if status not in ENDS or not is_run(program, job, events):
                    faults.append(f"{name}: a run with 8 workers is no run, or its status is {status}")
    for fault in faults:
        print(fault)
    print(f"workers: {runs} runs of {checked} jobs checked, {len(faults)} faults; the report of {free} jobs hangs on the schedule")
    return 1 if faults or not checked else 0


if __name__ == "__main__":
    sys.exit(main())
