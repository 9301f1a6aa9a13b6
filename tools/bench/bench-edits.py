#!/usr/bin/env python3
"""Processor time and memory of edits by `lv run`: rows that come in batches, beside `lv recast` of the same stream, and then edits of one row
each over 10,000 and over 1,000,000 live rows; and of writing views of these. Rows are of int64, utf8 of 10 bytes, int64 and int64. Where valgrind is
there, the instructions of an edit and of an undo too, which other work on the machine doesn't change, and how often each asks for memory. Then
such rows with 1,000 texts in turn as they are loaded, the times of a view of the first ten of 1,000, of 100,000 and of 1,000,000 groups in an
order of theirs, and what each view takes by itself."""

import os
import re
import shutil
import struct
import subprocess
import sys
import tempfile

sys.dont_write_bytecode = True
sys.path.insert(1, f"{sys.path[0]}/../models")
from limits import UNDOS
from sessions import MAIN
from streams import END_MARK, batch, field, schema

LV = "crates/lv/out/lv"
GNU_TIME = "/usr/bin/time"
TURNS = 3
# How often rows are appended one by one and then retracted, by feeds of their own.
ROUNDS = 4
# The main table and its feeds.
TABLE = MAIN + "".join(f'[feed.more{it}]\nrole = "append"\n[feed.gone{it}]\nrole = "retract"\n' for it in range(ROUNDS))
VIEWS = {
    "all": """
[view.all]
columns = [["i", "col", "i"], ["n", "col", "n"], ["a", "col", "a"]]
""",
    "sorted": """
[view.sorted]
columns = [["i", "col", "i"], ["n", "col", "n"], ["a", "col", "a"]]
order = [["n", "asc"], ["a", "desc"]]
""",
    "first": """
[view.first]
columns = [["i", "col", "i"], ["n", "col", "n"], ["a", "col", "a"]]
order = [["n", "asc"], ["a", "desc"]]
first = 10
""",
    "groups": """
[view.groups]
group = ["n"]
columns = [["n", "col", "n"], ["rows", "count"], ["sum", "sum", "a"], ["most", "greatest", "a"]]
order = [["sum", "desc"]]
first = 10
""",
    "zones": """
[view.zones]
group = ["z"]
columns = [["z", "col", "z"], ["rows", "count"], ["sum", "sum", "a"]]
""",
}
CONFIG = TABLE + "".join(VIEWS.values())
ORDERED = TABLE + """
[view.first]
group = ["z"]
columns = [["z", "col", "z"], ["rows", "count"], ["sum", "sum", "a"]]
order = [["sum", "desc"]]
first = 10
"""
EDITS = [f"{kind}{it}" for it in range(ROUNDS) for kind in ("more", "gone")]
NUMBER = field(2, 64, 1, name=b"i")
SCHEMA = schema([NUMBER, field(5, name=b"n"), field(2, 64, 1, name=b"a"), field(2, 64, 1, name=b"z")])
ZONES = 1000


def integers(first, rows):
    return struct.pack(f"<{rows}q", *range(first, first + rows))


def rows_from(first, rows, zones, texts):
    """Rows with texts in turn of so many."""
    named = b"".join(b"%010d" % (it % texts) for it in range(first, first + rows))
    texts = [struct.pack(f"<{rows + 1}i", *range(0, 10 * (rows + 1), 10)), named]
    places = struct.pack(f"<{rows}q", *(it % zones for it in range(first, first + rows)))
    return batch(rows, [[integers(first, rows)], texts, [integers(first, rows)], [places]])


def keys_from(first, rows):
    return batch(rows, [[integers(first, rows)]])


class Bench:
    def __init__(self, folder, config, zones, texts=10**10):
        self.folder = folder
        self.zones, self.texts = zones, texts
        self.write("config", config.encode())

    def path(self, name):
        return os.path.join(self.folder, name)

    def write(self, name, data):
        with open(self.path(name), "wb") as file:
            file.write(data)

    def streams(self, live, edits):
        """A stream of so many live rows in batches of 1,024, and for each round one of rows to come one by one, and one that retracts
        them."""
        each = [rows_from(first, min(1024, live - first), self.zones, self.texts) for first in range(0, live, 1024)]
        self.write("rows", SCHEMA + b"".join(each) + END_MARK)
        for turn in range(ROUNDS):
            self.write(f"more{turn}", SCHEMA + b"".join(rows_from(live + it, 1, self.zones, self.texts) for it in range(edits)) + END_MARK)
            self.write(f"gone{turn}", schema([NUMBER]) + b"".join(keys_from(live + it, 1) for it in range(edits)) + END_MARK)

    def command(self, feeds, views=(), undos=0):
        lines = [f"feed {it} {self.path(it)}" for it in feeds] + ["undo"] * undos + [f"write {it} {self.path('out')}" for it in views]
        self.write("script", ("\n".join(lines) + "\n").encode())
        return [LV, "run", self.path("config"), self.path("script")]

    def run(self, feeds, views=()):
        return measured(self.command(feeds, views))

    def counted(self, count, feeds, undos=0):
        return count(self.command(feeds, undos=undos))


def measured(words):
    """The processor seconds and the peak memory in bytes of the fastest of some runs."""
    runs = []
    for _ in range(TURNS):
        ran = subprocess.run([GNU_TIME, "-f", "%U %S %M", *words], stdout=subprocess.DEVNULL, stderr=subprocess.PIPE, text=True)
        if ran.returncode != 0:
            sys.exit(f"bench: {words} ended with {ran.returncode}")
        user, system, kibibytes = ran.stderr.split()
        runs.append((float(user) + float(system), 1024 * int(kibibytes)))
    return min(runs)


def instructions(words):
    """The instructions of a run."""
    counting = ["valgrind", "--tool=callgrind", "--callgrind-out-file=/dev/null"]
    ran = subprocess.run([*counting, *words], stdout=subprocess.DEVNULL, stderr=subprocess.PIPE, text=True)
    return int(re.search(r"Collected : (\d+)", ran.stderr).group(1))


def requests(words):
    """How often a run asks for memory."""
    counting = ["valgrind", "--tool=memcheck", "--leak-check=no", "--undef-value-errors=no"]
    ran = subprocess.run([*counting, *words], stdout=subprocess.DEVNULL, stderr=subprocess.PIPE, text=True)
    return int(re.search(r"total heap usage: ([\d,]+) allocs", ran.stderr).group(1).replace(",", ""))


def count_edits(bench, count, edits):
    """What an append, a retract and the undo of either take, and what a row that is loaded takes."""
    none, rows, more = (bench.counted(count, feeds) for feeds in ([], ["rows"], ["rows", "more0"]))
    gone = bench.counted(count, ["rows", "more0", "gone0"])
    undone = (bench.counted(count, ["rows", "more0"], UNDOS) - more, bench.counted(count, ["rows", "more0", "gone0"], UNDOS) - gone)
    return [(more - rows) / edits, (gone - more) / edits, undone[0] / UNDOS, undone[1] / UNDOS], rows - none


def time_ordered_groups(folder, groups, edits, writes):
    bench = Bench(folder, ORDERED, groups)
    bench.streams(groups, edits)
    rows, all_edits = bench.run(["rows"]), bench.run(["rows", *EDITS])
    written = bench.run(["rows"], ["first"] * writes)
    each = 1e6 * (all_edits[0] - rows[0]) / (edits * ROUNDS)
    print(f"{groups:,} groups in order: {each:.1f} microseconds for an append and its retract, ", end="")
    print(f"{1e6 * (written[0] - rows[0]) / writes:.0f} microseconds for a write of the first ten")


def tell_views(folder, live, edits):
    """What each view takes by itself, beside a table without views."""
    for name in ("none", *VIEWS):
        bench = Bench(folder, TABLE + VIEWS.get(name, ""), ZONES)
        bench.streams(live, edits)
        rows = bench.run(["rows"])
        print(f"view {name}: {1e6 * rows[0] / live:.1f} microseconds and {rows[1] / live:.0f} bytes a row of {live:,}", end="")
        if shutil.which("valgrind"):
            bench.streams(10_000, edits)
            each, _ = count_edits(bench, instructions, edits)
            print(f"; over 10,000 rows {each[0]:,.0f} instructions an append and {each[1]:,.0f} a retract", end="")
        print()


def main():
    os.chdir(os.path.abspath(f"{__file__}/../../.."))
    if not os.path.exists(LV):
        sys.exit(f"bench: {LV} is not there; make lv builds it")
    if not os.path.exists(GNU_TIME):
        print("bench of edits: skipped, since there is no GNU time")
        return
    edits = 100_000
    with tempfile.TemporaryDirectory(prefix="lv-bench-") as folder:
        bench = Bench(folder, CONFIG, ZONES)
        for live in (10_000, 1_000_000):
            bench.streams(live, edits)
            recast = measured([LV, "recast", bench.path("rows"), bench.path("out")])
            rows, all_edits = bench.run(["rows"]), bench.run(["rows", *EDITS])
            print(f"{live:,} rows in batches of 1,024: {rows[0]:.2f} s, {rows[1] / live:.0f} bytes a row; recast {recast[0]:.2f} s")
            each = 1e6 * (all_edits[0] - rows[0]) / (edits * ROUNDS)
            print(f"  then {edits * ROUNDS:,} appends of one row, and the retract of each: {each:.1f} microseconds for both")
            # So often that what they take is more than two runs differ by.
            many = 4_000_000 // live
            for view, writes in (("all", many), ("sorted", many), ("groups", many), ("first", 10_000), ("zones", 2_000)):
                written = bench.run(["rows"], [view] * writes)
                print(f"  view {view} written: {1e3 * (written[0] - rows[0]) / writes:.2f} ms")
            if live < 100_000 and shutil.which("valgrind"):
                bench.streams(live, edits // 20)
                for name, count in (("instructions", instructions), ("requests for memory", requests)):
                    each, loaded = count_edits(bench, count, edits // 20)
                    print(f"  {name} of an append, a retract, and the undo of either: " + ", ".join(f"{it:,.1f}" for it in each), end="")
                    print(f"; of a row that is loaded: {loaded / live:,.1f}")
        bench = Bench(folder, CONFIG, ZONES, ZONES)
        bench.streams(1_000_000, 0)
        rows = bench.run(["rows"])
        print(f"1,000,000 rows with {ZONES:,} texts in turn: {rows[0]:.2f} s, {rows[1] / 1_000_000:.0f} bytes a row")
        for groups in (1_000, 100_000, 1_000_000):
            time_ordered_groups(folder, groups, edits, 20_000)
        tell_views(folder, 1_000_000, edits // 20)


if __name__ == "__main__":
    main()
