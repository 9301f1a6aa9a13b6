#!/usr/bin/env python3
"""The toolchain's own gate, `rt ci`. It tries each must-fail edit by itself, so where it passes and has refused as many as there are,
this notes in tools/gate/edits-tried.txt that all edits of all crates were refused. The last line is that of `rt ci`."""
import os
import re
import subprocess
import sys

sys.dont_write_bytecode = True
from lanes import crates_of
from must_fail import edits_of
from records import record, stamps_of

ROOT = os.path.abspath(f"{__file__}/../../..")
# What it says where all is well, without the words that it adds where an edit couldn't be applied.
REFUSED = re.compile(r"(?:rt: )?ok; .*; must-fail edits: (\d+) refused(?:, \d+ of them only by a limit)?; ")


def toolchain_gate():
    """Runs `rt ci`, and gives its status and how many edits it says were refused."""
    refused, both = 0, {"stdout": subprocess.PIPE, "stderr": subprocess.STDOUT}
    with subprocess.Popen(["rt", "ci"], cwd=ROOT, stdin=subprocess.DEVNULL, text=True, errors="replace", **both) as started:
        for line in started.stdout:
            print(line, end="", flush=True)
            found = REFUSED.match(line)
            refused = int(found[1]) if found else refused
    return started.returncode, refused


def main():
    crates = crates_of(ROOT)
    stamps = {it: stamps_of(ROOT, crates, it) for it in crates}
    status, refused = toolchain_gate()
    number = sum(len(edits_of(ROOT, it)[0]) for it in crates)
    is_same = stamps == {it: stamps_of(ROOT, crates, it) for it in crates}
    if status == 0 and refused == number and is_same:
        record(ROOT, stamps, set())
    return status


if __name__ == "__main__":
    sys.exit(main())
