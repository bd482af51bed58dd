#!/usr/bin/env python3
"""Proves the crates of the program and builds it, with as many crates at once as there are processors.

`rt` proves the crates of a checkout one after the other. Here each processor has a copy of the crates in a temporary folder and
proves one crate after the other there; `rt` takes over what another copy on the machine has proved. At the end `rt` builds
the program in the checkout, over all that is proved. Standard error tells which crate is begun, of how many.
"""

import os
import shutil
import subprocess
import sys
import tempfile
import threading
import time
from pathlib import Path

TOP = Path(__file__).resolve().parent.parent
PROGRAM = "tinsel"
# What a proof of a crate may take, in bytes of memory.
ROOM = 3_000_000_000


def crates_below(name, uses, found):
    """Adds the crates of the repository that a crate stands on, and the crate itself, each behind those that it uses."""
    for used in uses[name]:
        if used not in found:
            crates_below(used, uses, found)
    found.append(name)
    return found


def read_crates():
    """The crates of the program in an order in which they can be proved, with those that each uses."""
    lines = [line.partition("#")[0] for line in (TOP / "crates.txt").read_text().splitlines()]
    named = {line.partition(":")[0].split()[0]: line.partition(":")[2].split() for line in lines if line.strip()}
    uses = {name: [it for it in deps if it in named] for name, deps in named.items()}
    return crates_below(PROGRAM, uses, []), uses


def lines_of(name):
    """How much there is to prove in a crate, in lines."""
    folders = [TOP / "crates" / name / part for part in ("src", "specs", "proofs")]
    files = [path for folder in folders for path in folder.rglob("*") if path.is_file()]
    return sum(len(path.read_bytes().splitlines()) for path in files)


def weights(order, uses):
    """For each crate the lines of the longest chain of crates from it up to the program."""
    weight = {}
    for name in reversed(order):
        above = [weight[it] for it in order if name in uses[it]]
        weight[name] = lines_of(name) + max(above, default=0)
    return weight


def lanes():
    """How many crates are proved at once."""
    memory = os.sysconf("SC_PAGE_SIZE") * os.sysconf("SC_PHYS_PAGES")
    return max(1, min(len(os.sched_getaffinity(0)), memory // ROOM))


class Proofs:
    """The crates that are still to be proved, and those that are proved."""

    def __init__(self, room):
        self.order, self.uses = read_crates()
        self.order.remove(PROGRAM)
        self.weight = weights([*self.order, PROGRAM], self.uses)
        self.room, self.changed = room, threading.Condition()
        self.todo, self.proved, self.failed, self.begun = set(self.order), set(), [], 0

    def next(self):
        """Waits for a crate whose libraries are proved, and takes it; None where none is left or one failed."""
        with self.changed:
            while self.todo and not self.failed:
                ready = [it for it in self.todo if self.proved.issuperset(self.uses[it])]
                if ready:
                    name = max(ready, key=self.weight.get)
                    self.todo.remove(name)
                    self.begun += 1
                    print(f"tinsel: proving crate {self.begun} of {len(self.order)}: {name}", file=sys.stderr)
                    return name
                self.changed.wait()
        return None

    def work(self, lane):
        """Proves crates in one copy until none is left."""
        copy = Path(self.room) / f"lane-{lane}"
        ignored = shutil.ignore_patterns("out", "must-fail")
        shutil.copytree(TOP / "crates", copy / "crates", ignore=ignored)
        for file in ("crates.txt", "HANDLES"):
            shutil.copy(TOP / file, copy / file)
        while name := self.next():
            done = subprocess.run(["rt", "lib", "--jobs", "1"], cwd=copy / "crates" / name, capture_output=True, text=True)
            with self.changed:
                if done.returncode:
                    self.failed.append(f"{done.stdout}{done.stderr}tinsel: {name} is not proved")
                self.proved.add(name)
                self.changed.notify_all()


def main():
    begun = time.time()
    with tempfile.TemporaryDirectory(prefix="tinsel-prove-") as room:
        proofs = Proofs(room)
        threads = [threading.Thread(target=proofs.work, args=(lane,)) for lane in range(lanes())]
        for thread in threads:
            thread.start()
        for thread in threads:
            thread.join()
        if proofs.failed:
            sys.exit(proofs.failed[0])
        # `rt run` builds and then runs the program, here on an empty input, whose refusal is not looked at.
        built = subprocess.run(["rt", "run", "--", "run"], cwd=TOP / "crates" / PROGRAM, capture_output=True, text=True, input="")
        if "rt: running" not in built.stdout + built.stderr:
            sys.exit(f"{built.stdout}{built.stderr}tinsel: the program is not proved, and so not built")
    print(f"tinsel: proved and built in {(time.time() - begun) / 60:.0f} minutes", file=sys.stderr)


if __name__ == "__main__":
    main()
