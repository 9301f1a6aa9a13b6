#!/usr/bin/env python3
"""Time of edits of a side table by the number of rows that refer to the key: `lv live` with one view that groups the rows of the main table by a
column of the side table, and counts and adds them up. A row of the side table is put, with another value each time, put and undone, and dropped
and put again. Then the same of a view that also adds up a column of the side table, which goes row by row.

With a number, up to that many referring rows, in place of a million. With a number and the name of a program, that program.
"""
import os
import struct
import sys
import tempfile
import time

sys.dont_write_bytecode = True
sys.path.insert(1, f"{sys.path[0]}/../models")
from sessions import Live, push
from streams import batch, field, schema

ROOT = os.path.abspath(f"{__file__}/../../..")
ZONES, MOST, AT_ONCE = 1000, 1000000, 1024
CONFIG = """
[main]
key = "i"
columns = [["i", "int64"], ["z", "int64"], ["a", "int64"]]
[side.zones]
key = "z"
columns = [["z", "int64"], ["p", "int64"]]
[feed.rows]
role = "append"
[feed.zones]
role = "put"
side = "zones"
[feed.gone]
role = "drop"
side = "zones"
[view.parts]
lookup = {{ side = "zones", on = "z", missing = "null" }}
group = [["side", "p"]]
columns = [["p", "col", ["side", "p"]], ["rows", "count"], ["sum", "sum", {summed}]]
"""
NUMBER = field(2, 64, 1, name=b"z")
ROWS = schema([field(2, 64, 1, name=b"i"), NUMBER, field(2, 64, 1, name=b"a")])
PARTS = schema([NUMBER, field(2, 64, 1, name=b"p")])


def integers(numbers):
    return [struct.pack(f"<{len(numbers)}q", *numbers)]


def rows(first, last):
    """Rows of which all refer to key 7."""
    numbers = [*range(first, last)]
    return batch(len(numbers), [integers(numbers), integers([7] * len(numbers)), integers(numbers)])


def parts(keys, part):
    return batch(len(keys), [integers(keys), integers([part] * len(keys))])


def started(program, folder, summed):
    """A session with the rows of the side table."""
    live = Live(program, folder, CONFIG.format(summed=summed), {"rows": ROWS, "zones": PARTS, "gone": schema([NUMBER])})
    live.send([push("zones", parts([*range(ZONES)], 0))])
    return live


KINDS = {
    "put": lambda it: [push("zones", parts([7], it % 50))],
    "put and undone": lambda it: [push("zones", parts([7], it % 50)), b"undo\n"],
    "dropped and put": lambda it: [push("gone", batch(1, [integers([7])])), push("zones", parts([7], it % 50))],
}


def timed(live, round_of, many):
    """The microseconds of a round, many of which are sent at once."""
    lines = [line for it in range(many) for line in round_of(it)]
    start = time.monotonic()
    live.send(lines)
    return 1e6 * (time.monotonic() - start) / many


def measure(program, summed, most):
    referring = 1
    while referring <= most:
        with tempfile.TemporaryDirectory() as folder:
            live = started(program, folder, summed)
            before, start = live.resident(), time.monotonic()
            for first in range(0, referring, AT_ONCE):
                live.send([push("rows", rows(first, min(first + AT_ONCE, referring)))])
            loaded = time.monotonic() - start
            each = (live.resident() - before) / referring
            many = max(2, min(1000, 2000000 // referring)) if "side" in summed else 1000
            said = ", ".join(f"{name} {timed(live, round_of, many):.1f}" for name, round_of in KINDS.items())
            print(f"{referring:,} referring: loaded in {1e6 * loaded / referring:.2f} us and {each:.0f} bytes a row; us: {said}", flush=True)
            live.end()
        referring *= 10


def main():
    os.chdir(ROOT)
    most = int(sys.argv[1]) if len(sys.argv) > 1 else MOST
    program = sys.argv[2] if len(sys.argv) > 2 else "crates/lv/out/lv"
    print("by groups")
    measure(program, '"a"', most)
    print("row by row")
    measure(program, '["side", "p"]', min(most, 100000))


main()
