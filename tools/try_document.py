#!/usr/bin/env python3
"""Does what a document tells its reader, in an empty folder, and compares what the commands print.

A block of code that names a file after its language is written to that file. In a block `console`, a line that begins with
`$ ` is a command, which goes on after a line that ends with a backslash. The lines after a command are what it prints,
errors included. Usage: try_document.py DOCUMENT, with the document's commands on the path.
"""

import difflib
import re
import subprocess
import sys
import tempfile
from pathlib import Path

BLOCK = re.compile(r"^```(\w+)(?: (\S+))?\n(.*?)^```$", re.MULTILINE | re.DOTALL)


def calls(text):
    """The commands of a console block, each with the text that it prints."""
    for part in re.split(r"^\$ ", text, flags=re.MULTILINE)[1:]:
        command = re.match(r"(?:.*\\\n)*.*\n", part)[0]
        yield command.rstrip("\n"), part[len(command) :]


def differences(command, wanted, folder):
    call = ["bash", "-c", command]
    done = subprocess.run(call, cwd=folder, text=True, stdout=subprocess.PIPE, stderr=subprocess.STDOUT)
    lines = wanted.splitlines(), done.stdout.splitlines()
    return list(difflib.unified_diff(*lines, "document", command, lineterm=""))


def main():
    document = Path(sys.argv[1])
    passed = failed = 0
    with tempfile.TemporaryDirectory(prefix="document-") as folder:
        for language, name, body in BLOCK.findall(document.read_text(encoding="utf-8")):
            if name:
                (Path(folder) / name).write_text(body, encoding="utf-8")
            for command, wanted in calls(body) if language == "console" else ():
                if lines := differences(command, wanted, folder):
                    print("\n".join(lines))
                    failed += 1
                else:
                    passed += 1
    print(f"{document.name}: {passed} commands passed, {failed} failed")
    return 1 if failed or not passed else 0


if __name__ == "__main__":
    sys.exit(main())
