#!/usr/bin/env python3
"""Checks the traces of the examples: check_traces.py PROGRAM.

For each job of examples/cases.txt that PROGRAM runs to an end, `check` accepts the events that `run --trace` writes. It also accepts the
run without its last event. It refuses the last event twice, and the events behind one that is left out at the first place at fault: the
tool finds that place by checking each front. Two neighbouring events in the other order are accepted or refused as their fronts are.
"""
import pathlib
import subprocess
import sys

ENDS = {"0", "3", "4", "5", "6"}
EVENTS = {"turn", "deliver", "depart", "arrive", "route", "hostput", "hosttake", "report", "begin", "confirm", "announce", "release", "go"}
# The first place at fault is looked for in this many events at most.
MOST_FRONTS = 12


def call(program, words, text):
    """The status and the output of a call."""
    done = subprocess.run([program, *words], input=text, capture_output=True, check=False)
    return done.returncode, done.stdout.decode()


def check(program, job, events):
    """What `check` answers to a job and events."""
    lines = "".join(event + "\n" for event in events)
    return call(program, ["check"], job + b"%%\n" + lines.encode())


def accepted(count):
    return 0, f"run {count}\n"


def refused(job, place):
    """The refusal of the event at a place; the job's lines and the line `%%` come before the first event."""
    return 2, f"refused {job.count(10) + 2 + place} NotEnabled\n"


def first_fault(program, job, events, start):
    """The answer that the fronts of the events tell: the first front that is refused, from a place on."""
    for place in range(start, len(events)):
        if check(program, job, events[: place + 1])[0] != 0:
            return refused(job, place)
    return accepted(len(events))


def faults_of(program, job, name):
    """What is wrong with the answers to a job's trace."""
    status, text = call(program, ["run", "--trace"], job)
    events = [line for line in text.splitlines() if line.split(" ")[0] in EVENTS]
    count = len(events)
    last = count - 1
    cases = [("the trace", events, accepted(count))]
    if count:
        cases.append(("the trace without its last event", events[:-1], accepted(last)))
        cases.append(("the last event twice", events + events[-1:], refused(job, count)))
    if count > 1:
        start = max(0, count - MOST_FRONTS)
        changed = events[:start] + events[start + 1 :]
        cases.append(("an event left out", changed, first_fault(program, job, changed, start)))
        changed = events[: last - 1] + [events[last], events[last - 1]]
        cases.append(("two events exchanged", changed, first_fault(program, job, changed, last - 1)))
    return [f"{name}: {what}: {found} in place of {wanted}" for what, given, wanted in cases if (found := check(program, job, given)) != wanted]


def main():
    program = str(pathlib.Path(sys.argv[1]).resolve())
    examples = pathlib.Path(__file__).resolve().parent.parent / "examples"
    faults = []
    checked = 0
    for line in (examples / "cases.txt").read_text().splitlines():
        parts = [part.strip() for part in line.split("|")]
        if len(parts) not in (4, 5) or parts[0] != "run" or parts[2].split(" ")[0] not in ENDS or not parts[1].endswith(".job"):
            continue
        faults += faults_of(program, (examples / parts[1]).read_bytes(), parts[1])
        checked += 1
    for fault in faults:
        print(fault)
    print(f"traces: {checked} checked, {len(faults)} faults")
    return 1 if faults or not checked else 0


if __name__ == "__main__":
    sys.exit(main())
