#!/usr/bin/env python3
"""Tries the must-fail edits of edits/CRATE, which the gate leaves out: the prover must refuse each.

Name the crates to try, or none for all. The gate tries the one or two edits of a crate that tell most, in crates/CRATE/must-fail;
the others are tried here, when a contract of their crate changes. This takes some 15 seconds an edit.
"""

import shutil
import subprocess
import sys
import tempfile
from pathlib import Path

TOP = Path(__file__).resolve().parent.parent


def main():
    names = sys.argv[1:] or sorted(path.name for path in (TOP / "edits").iterdir())
    with tempfile.TemporaryDirectory(prefix="tinsel-edits-") as room:
        copy = Path(room)
        shutil.copytree(TOP / "crates", copy / "crates", ignore=shutil.ignore_patterns("out", "must-fail"))
        for file in ("crates.txt", "HANDLES"):
            shutil.copy(TOP / file, copy / file)
        for name in names:
            shutil.copytree(TOP / "edits" / name, copy / "crates" / name / "must-fail")
        return subprocess.run(["rt", "must-fail", *names], cwd=copy).returncode


if __name__ == "__main__":
    sys.exit(main())
