#!/usr/bin/env python3
"""Processor time of keeping views current by `lv run` while a million rows are appended in batches of 1,024, for each row and view: of
views whose filter keeps one row in a hundred, by an int64, a text, or a text with a dictionary, and of views without a filter.

What is timed is looked at before: a view shows as many rows as its filter keeps.
"""
import os
import re
import struct
import sys
import tempfile

sys.dont_write_bytecode = True
sys.path.insert(1, f"{sys.path[0]}/../models")
from configurations import text_of
from streams import END_MARK, batch, dictionary_batch, field, schema
from timed import LV, ran

ROWS, BATCH, TEXTS, SIZE = 1_000_000, 1024, 100, 20
TURNS, VIEWS = 3, 8
COLUMNS = [["k", "int64"], ["a", "int64"], ["t", "utf8"], ["c", "utf8"]]
FILTERS = {
    "an int64": ["eq", "a", 7],
    "a text": ["eq", "t", "%0*d" % (SIZE, 7)],
    "a text with a dictionary": ["eq", "c", "%0*d" % (SIZE, 7)],
    "no filter": None,
}


def stream():
    """The rows in batches: a key, a number below 100, and the text of that number, plain and with a dictionary."""
    texts = [b"%0*d" % (SIZE, it) for it in range(TEXTS)]
    fields = [field(2, 64, 1, name=b"k"), field(2, 64, 1, name=b"a"), field(5, name=b"t"), field(5, name=b"c", dictionary=0)]
    parts = [schema(fields), dictionary_batch(0, texts)]
    for first in range(0, ROWS, BATCH):
        rows = range(first, min(first + BATCH, ROWS))
        numbers = [it % TEXTS for it in rows]
        ends = struct.pack(f"<{len(rows) + 1}i", *range(0, SIZE * (len(rows) + 1), SIZE))
        held = b"".join(texts[it] for it in numbers)
        wide = [struct.pack(f"<{len(rows)}q", *it) for it in (rows, numbers)]
        parts.append(batch(len(rows), [[wide[0]], [wide[1]], [ends, held], [struct.pack(f"<{len(rows)}i", *numbers)]]))
    return b"".join([*parts, END_MARK])


def config(wanted, views):
    shown = {"columns": [["k", "col", "k"]], **({"filter": wanted} if wanted else {})}
    tables = {"main": {"key": "k", "columns": COLUMNS}, "feed": {"add": {"role": "append"}}}
    return text_of({**tables, "view": {f"v{it}": shown for it in range(views)}} if views else tables)


def write(room, name, data):
    with open(f"{room}/{name}", "wb") as file:
        file.write(data)


def seconds(wanted, views, room):
    """The least time of some runs over so many views."""
    write(room, "config", config(wanted, views).encode())
    write(room, "script", b"feed add rows\n")
    return min(ran(["run", "config", "script"], room)[1] for _ in range(TURNS))


def look(wanted, room):
    """Ends where a view doesn't show the rows that its filter keeps."""
    write(room, "config", config(wanted, 1).encode())
    write(room, "script", b"feed add rows\nwrite v0 shown\n")
    ran(["run", "config", "script"], room)
    shown = sum(map(int, re.findall(r"^batch rows=(\d+)", "\n".join(ran(["inspect", "shown"], room)[0]), re.M)))
    if shown != (ROWS // TEXTS if wanted else ROWS):
        sys.exit(f"bench: a view shows {shown} rows")


def main():
    if not os.path.exists(LV):
        sys.exit(f"bench: {LV} is not there; make lv builds it")
    with tempfile.TemporaryDirectory(prefix="lv-bench-") as room:
        write(room, "rows", stream())
        without = seconds(None, 0, room)
        print(f"a million rows without views: {without:.2f} s; for each row and view, by what its filter compares:")
        for name, wanted in FILTERS.items():
            look(wanted, room)
            each = (seconds(wanted, VIEWS, room) - without) / (VIEWS * ROWS)
            print(f"  {name}: {1e9 * each:.0f} ns", flush=True)


if __name__ == "__main__":
    main()
