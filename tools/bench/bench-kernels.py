#!/usr/bin/env python3
"""Processor time of `and` of two bitmaps of 65,536 bits, and of counting its ones, which begin at bits 3 and 5 of a byte: by the kernel, and
bit by bit (crates/kernel_bench)."""
import os
import subprocess
import sys

PROGRAM = os.path.abspath(f"{__file__}/../../../crates/kernel_bench/out/kernel_bench")
# The words that the program is given, and how often it joins the bitmaps then.
TURNS = {(): 20_000, ("plain",): 200}


def microseconds(words):
    """The least time of one turn in three runs."""
    found = []
    for _ in range(3):
        with subprocess.Popen([PROGRAM, *words]) as started:
            _, status, used = os.wait4(started.pid, 0)
            started.returncode = os.waitstatus_to_exitcode(status)
        if started.returncode:
            sys.exit(f"bench: {PROGRAM} ended with status {started.returncode}")
        found.append(1e6 * (used.ru_utime + used.ru_stime) / TURNS[words])
    return min(found)


def main():
    if not os.path.exists(PROGRAM):
        sys.exit(f"bench: {PROGRAM} is not there; rt run in its crate builds it")
    kernel, plain = microseconds(()), microseconds(("plain",))
    print(f"and of 65,536 bits, and its ones: {kernel:.1f} microseconds by the kernel, {plain:.0f} bit by bit, {plain / kernel:.0f} times as long")


if __name__ == "__main__":
    main()
