#!/usr/bin/env python3
"""Resident memory and time of a session that lives long: `lv live` over 10,000 live rows of the main table and 10,000 of a side table, with five
views, after some thousands of rounds and after many more, of which each leaves the tables as they were: a row appended and retracted, each time
under another key or under the same, a row appended and undone, a row of the side table put again, and one put and undone. Then what as many rows
take that are appended one by one, and 1,024 at once.

With a number, that many rounds of each, in place of a million. With a number and the name of a program, that program.
"""
import os
import struct
import sys
import tempfile
import time

sys.dont_write_bytecode = True
sys.path.insert(1, f"{sys.path[0]}/../models")
from sessions import MAIN, Live, push
from streams import batch, field, schema

ROOT = os.path.abspath(f"{__file__}/../../..")
LIVE, SIDES, FIRST, ROUNDS, TOGETHER = 10000, 10000, 10000, 1000000, 500
CONFIG = MAIN + """
[side.zones]
key = "z"
columns = [["z", "int64"], ["t", "utf8"]]
[feed.gone]
role = "retract"
[feed.zones]
role = "put"
side = "zones"
[view.all]
columns = [["i", "col", "i"], ["n", "col", "n"], ["a", "col", "a"]]
[view.first]
columns = [["i", "col", "i"], ["n", "col", "n"], ["a", "col", "a"]]
order = [["n", "asc"], ["a", "desc"]]
first = 10
[view.groups]
group = ["n"]
columns = [["n", "col", "n"], ["rows", "count"], ["sum", "sum", "a"]]
order = [["sum", "desc"]]
first = 10
[view.zones]
group = ["z"]
columns = [["z", "col", "z"], ["rows", "count"], ["sum", "sum", "a"]]
[view.named]
lookup = { side = "zones", on = "z", missing = "null" }
columns = [["i", "col", "i"], ["name", "col", ["side", "t"]]]
"""
NUMBER = field(2, 64, 1, name=b"i")
ROW_SCHEMA = schema([NUMBER, field(5, name=b"n"), field(2, 64, 1, name=b"a"), field(2, 64, 1, name=b"z")])
ZONE_SCHEMA = schema([field(2, 64, 1, name=b"z"), field(5, name=b"t")])


def integers(numbers):
    return struct.pack(f"<{len(numbers)}q", *numbers)


def texts(numbers):
    return [struct.pack(f"<{len(numbers) + 1}i", *range(0, 10 * (len(numbers) + 1), 10)), b"".join(b"%010d" % it for it in numbers)]


def rows(numbers):
    zones = [it % SIDES for it in numbers]
    return batch(len(numbers), [[integers(numbers)], texts([it % 1024 for it in numbers]), [integers(numbers)], [integers(zones)]])


def keys(numbers):
    return batch(len(numbers), [[integers(numbers)]])


def zones(numbers):
    return batch(len(numbers), [[integers(numbers)], texts(numbers)])


def started(program, folder):
    """A session with the live rows of both tables."""
    live = Live(program, folder, CONFIG, {"rows": ROW_SCHEMA, "gone": schema([NUMBER]), "zones": ZONE_SCHEMA})
    for first in range(0, LIVE, 1000):
        live.send([push("rows", rows(range(first, first + 1000)))])
    for first in range(0, SIDES, 1000):
        live.send([push("zones", zones(range(first, first + 1000)))])
    return live


SAME_ROW, SAME_KEY, SAME_ZONE, UNDO = push("rows", rows([LIVE])), push("gone", keys([LIVE])), push("zones", zones([7])), b"undo\n"
KINDS = {
    "a row appended and retracted": lambda it: [push("rows", rows([LIVE + it])), push("gone", keys([LIVE + it]))],
    "the same key each time": lambda it: [SAME_ROW, SAME_KEY],
    "a row appended and undone": lambda it: [SAME_ROW, UNDO],
    "a row put again": lambda it: [SAME_ZONE],
    "a row put and undone": lambda it: [SAME_ZONE, UNDO],
}


def churn(program, name, round_of, many):
    with tempfile.TemporaryDirectory() as folder:
        live = started(program, folder)
        said, began, taken = [], time.monotonic(), 0
        for first in range(0, many, TOGETHER):
            lines = [line for it in range(first, first + TOGETHER) for line in round_of(it)]
            start = time.monotonic()
            live.send(lines)
            taken += time.monotonic() - start
            if first + TOGETHER in (min(FIRST, many), many):
                said.append(live.resident())
        live.end()
        print(f"{name}: {said[0]:,} bytes after {min(FIRST, many):,} rounds, {said[-1]:,} after {many:,}, ", end="")
        print(f"{1e6 * taken / many:.1f} microseconds a round")


def append(program, at_once, many):
    """Appends so many rows, in batches of so many each."""
    with tempfile.TemporaryDirectory() as folder:
        live = started(program, folder)
        before, taken = live.resident(), 0
        for first in range(LIVE, LIVE + many, TOGETHER * at_once):
            last = min(first + TOGETHER * at_once, LIVE + many)
            lines = [push("rows", rows(range(it, min(it + at_once, last)))) for it in range(first, last, at_once)]
            start = time.monotonic()
            live.send(lines)
            taken += time.monotonic() - start
        each = (live.resident() - before) / many
        live.end()
        print(f"{many:,} rows appended {at_once:,} at once: {each:.0f} bytes and {1e6 * taken / many:.1f} microseconds a row")


def main():
    os.chdir(ROOT)
    many = int(sys.argv[1]) if len(sys.argv) > 1 else ROUNDS
    program = sys.argv[2] if len(sys.argv) > 2 else "crates/lv/out/lv"
    for name, round_of in KINDS.items():
        churn(program, name, round_of, many)
    for at_once in (1, 1024):
        append(program, at_once, many)


main()
