#!/usr/bin/env python3
"""Processor time and bytes of writing a view of a million texts of 20 bytes by `lv run`, plain and with a dictionary: of 1,000 texts, each
in rows that follow one another; of the same 1,000 in turn, of which a batch of 1,024 rows has all; and of a million.

What is timed is looked at before: recast of the coded stream gives the plain one, byte for byte, and inspect counts as many values as the
rows of each batch have.
"""
import os
import re
import struct
import sys
import tempfile

sys.dont_write_bytecode = True
sys.path.insert(1, f"{sys.path[0]}/../models")
from configurations import text_of
from streams import END_MARK, batch, field, schema
from timed import LV, ran

ROWS, BATCH, SIZE = 1_000_000, 1024, 20
TURNS, WRITES = 3, 4
COLUMNS = [["k", "int64"], ["t", "utf8"]]
SHOWN = [["t", "col", "t"]]
CONFIG = {
    "main": {"key": "k", "columns": COLUMNS},
    "feed": {"add": {"role": "append"}},
    "view": {"plain": {"columns": SHOWN}, "coded": {"columns": SHOWN, "dict": ["t"]}},
}
# What the text of a row is, by the row's number; and what is wanted of the coded view beside the plain one: of time, and of bytes.
SHAPES = {
    "1,000 texts in rows that follow one another": (lambda row: row * 1000 // ROWS, 1.5, 1 / 3),
    "1,000 texts in turn": (lambda row: row % 1000, None, None),
    "a million texts": (lambda row: row, 3, None),
}


def stream(number_of):
    """The rows in batches: a key, and a text of 20 bytes that has the number of the row's text in it."""
    parts = [schema([field(2, 64, 1, name=b"k"), field(5, name=b"t")])]
    for first in range(0, ROWS, BATCH):
        rows = range(first, min(first + BATCH, ROWS))
        ends = struct.pack(f"<{len(rows) + 1}i", *range(0, SIZE * (len(rows) + 1), SIZE))
        held = b"".join(b"%0*d" % (SIZE, number_of(row)) for row in rows)
        parts.append(batch(len(rows), [[struct.pack(f"<{len(rows)}q", *rows)], [ends, held]]))
    return b"".join([*parts, END_MARK])


def seconds(view, room):
    """The least time of one write of a view: of some runs with writes, and as many without."""
    least = []
    for writes in (0, WRITES):
        script = "feed add rows\n" + f"write {view} {view}\n" * writes
        with open(f"{room}/script", "w", encoding="utf-8") as file:
            file.write(script)
        least.append(min(ran(["run", "config", "script"], room)[1] for _ in range(TURNS)))
    return (least[1] - least[0]) / WRITES


def look(number_of, room):
    """Ends where what was written isn't what was to be timed."""
    ran(["recast", "coded", "decoded"], room)
    streams = [open(f"{room}/{it}", "rb").read() for it in ("plain", "decoded")]
    lines, _ = ran(["inspect", "coded"], room)
    counted = [int(it) for it in re.findall(r"^dictionary id=0 delta=false values=(\d+)$", "\n".join(lines), re.M)]
    wanted = [len({*map(number_of, range(at, min(at + BATCH, ROWS)))}) for at in range(0, ROWS, BATCH)]
    if streams[0] != streams[1] or lines[1] != "field t utf8 dict=0" or counted != wanted:
        sys.exit("bench: the coded view isn't the plain one with a dictionary before each batch")


def main():
    if not os.path.exists(LV):
        sys.exit(f"bench: {LV} is not there; make lv builds it")
    each = "plain | coded | coded over plain | wanted at most"
    print(f"| a million texts of 20 bytes | {each} | {each} |\n|{'---|' * 9}")
    for name, (number_of, most_time, most_bytes) in SHAPES.items():
        with tempfile.TemporaryDirectory(prefix="lv-bench-") as room:
            for file, held in (("config", text_of(CONFIG).encode()), ("rows", stream(number_of))):
                with open(f"{room}/{file}", "wb") as made:
                    made.write(held)
            took = [seconds(it, room) for it in ("plain", "coded")]
            look(number_of, room)
            sizes = [os.path.getsize(f"{room}/{it}") for it in ("plain", "coded")]
        cells = [f"{it:.3f} s" for it in took] + [f"{took[1] / took[0]:.2f}", f"{most_time or '-'}"]
        cells += [f"{it / 1e6:.1f} MB" for it in sizes] + [f"{sizes[1] / sizes[0]:.2f}", f"{most_bytes:.2f}" if most_bytes else "-"]
        print(f"| {name} | {' | '.join(cells)} |", flush=True)


if __name__ == "__main__":
    main()
