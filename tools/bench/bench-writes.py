#!/usr/bin/env python3
"""Processor time of writing a plain view of 1,000,000 rows by `lv run`, by the difference of runs with few and with many writes: as the rows
came, in the opposite order, in an order in which no two neighbours were stored together, and with a text of a side table beside each row; and
of `lv recast` of such a stream."""

import os
import struct
import subprocess
import sys
import tempfile

sys.dont_write_bytecode = True
sys.path.insert(1, f"{sys.path[0]}/../models")
from sessions import MAIN
from streams import END_MARK, batch, field, schema

LV = "crates/lv/out/lv"
LIVE, ZONES = 1_000_000, 1000
TURNS, FEW, MANY, RECASTS = 3, 3, 23, 10
CONFIG = MAIN + """
[side.zones]
key = "z"
columns = [["z", "int64"], ["m", "utf8"], ["p", "int64"], ["q", "int64"]]
[feed.put]
role = "put"
side = "zones"
[view.all]
columns = [["i", "col", "i"], ["n", "col", "n"], ["a", "col", "a"]]
[view.opposite]
columns = [["i", "col", "i"], ["n", "col", "n"], ["a", "col", "a"]]
order = [["a", "desc"]]
[view.scattered]
columns = [["i", "col", "i"], ["n", "col", "n"], ["z", "col", "z"]]
order = [["z", "asc"]]
[view.joined]
lookup = { side = "zones", on = "z", missing = "null" }
columns = [["i", "col", "i"], ["n", "col", "n"], ["m", "col", ["side", "m"]]]
"""
VIEWS = ("all", "opposite", "scattered", "joined")


def integers(numbers):
    return struct.pack(f"<{len(numbers)}q", *numbers)


def texts(numbers):
    """Texts of ten digits."""
    return [struct.pack(f"<{len(numbers) + 1}i", *range(0, 10 * len(numbers) + 1, 10)), b"".join(b"%010d" % it for it in numbers)]


def stream(letters, batches):
    """A stream of batches with these columns, the second of texts and the others of numbers."""
    fields = [field(5, name=it) if at == 1 else field(2, 64, 1, name=it) for at, it in enumerate(letters)]
    return schema(fields) + b"".join(batches) + END_MARK


def rows_from(first, count):
    numbers = range(first, first + count)
    return batch(count, [[integers(numbers)], texts(numbers), [integers(numbers)], [integers([it * 7919 % ZONES for it in numbers])]])


class Bench:
    def __init__(self, folder):
        self.folder = folder
        self.write("config", CONFIG.encode())
        self.write("rows", stream([b"i", b"n", b"a", b"z"], [rows_from(it, min(1024, LIVE - it)) for it in range(0, LIVE, 1024)]))
        zones = range(ZONES)
        self.write("put", stream([b"z", b"m", b"p", b"q"], [batch(ZONES, [[integers(zones)], texts(zones), *[[integers(zones)]] * 2])]))

    def path(self, name):
        return os.path.join(self.folder, name)

    def write(self, name, data):
        with open(self.path(name), "wb") as file:
            file.write(data)

    def seconds(self, view, writes):
        """The processor time of a run that loads the rows and writes a view so often."""
        lines = [f"feed {it} {self.path(it)}" for it in ("put", "rows")] + [f"write {view} {self.path('out')}"] * writes
        self.write("script", ("\n".join(lines) + "\n").encode())
        return timed([LV, "run", self.path("config"), self.path("script")])


def timed(words):
    before = os.times()
    subprocess.run(words, stdout=subprocess.DEVNULL, check=True)
    after = os.times()
    return after.children_user + after.children_system - before.children_user - before.children_system


def main():
    os.chdir(os.path.abspath(f"{__file__}/../../.."))
    if not os.path.exists(LV):
        sys.exit(f"bench: {LV} is not there; make lv builds it")
    with tempfile.TemporaryDirectory(prefix="lv-bench-") as folder:
        bench = Bench(folder)
        for view in VIEWS:
            each = [1e3 * (bench.seconds(view, MANY) - bench.seconds(view, FEW)) / (MANY - FEW) for _ in range(TURNS)]
            recast = 1e3 * sum(timed([LV, "recast", bench.path("out"), bench.path("again")]) for _ in range(RECASTS)) / RECASTS
            told = ", ".join(f"{it:.0f}" for it in each)
            print(f"view {view} of {LIVE:,} rows written: {told} ms; a recast of what is written: {recast:.0f} ms", flush=True)


if __name__ == "__main__":
    main()
