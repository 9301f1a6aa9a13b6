"""Runs the built lv and tells the processor time that it took."""
import os
import subprocess
import sys

LV = os.path.abspath(f"{__file__}/../../../crates/lv/out/lv")


def ran(words, room):
    """The lines that a run of the program prints, and the seconds of processor time that it took."""
    with subprocess.Popen([LV, *words], cwd=room, stdout=subprocess.PIPE, text=True) as started:
        lines = started.stdout.read().splitlines()
        _, status, used = os.wait4(started.pid, 0)
        started.returncode = os.waitstatus_to_exitcode(status)
    if started.returncode:
        sys.exit(f"bench: {' '.join(words)} ended with status {started.returncode}: {lines[-1:]}")
    return lines, used.ru_utime + used.ru_stime
