#!/usr/bin/env python3
"""Round trips a second of `lv live` over pipes, from Python: of lines that are answered by themselves, one at a time and many at once, and of
edits of one row, each pushed as bytes and followed by a view that is read back.

With the name of a program, that is run in place of the built lv.
"""
import os
import struct
import sys
import tempfile
import time

sys.dont_write_bytecode = True
ROOT = os.path.abspath(f"{__file__}/../../..")
sys.path[1:1] = [f"{ROOT}/examples", f"{ROOT}/tools/models"]
from live import Live
from streams import batch, field, schema

CONFIG = """
[main]
key = "i"
columns = [["i", "int64"], ["a", "int64"]]
[feed.rows]
role = "append"
[view.first]
columns = [["i", "col", "i"], ["a", "col", "a"]]
order = [["a", "desc"]]
first = 1
"""
LINES, TOGETHER, EDITS = 100000, 1000, 20000


def row(number):
    return batch(1, [[struct.pack("<q", number)], [struct.pack("<q", number)]])


def lines(live):
    """Lines that are sent one by one, each once the last was answered."""
    for number in range(1, LINES + 1):
        live.process.stdin.write(b"undo\n")
        live.process.stdin.flush()
        while live.process.stdout.readline() != b"%d.\n" % number:
            pass
    live.line = LINES


def together(live):
    """Lines that are sent many at once."""
    for _ in range(LINES // TOGETHER):
        live.process.stdin.write(b"undo\n" * TOGETHER)
        live.process.stdin.flush()
        live.line += TOGETHER
        while live.process.stdout.readline() != b"%d.\n" % live.line:
            pass


def edits(live):
    """Rows that come one by one, and after each the view."""
    live.push("rows", schema([field(2, 64, 1, name=b"i"), field(2, 64, 1, name=b"a")]))
    pieces = [row(it) for it in range(EDITS)]
    begun = time.perf_counter()
    for piece in pieces:
        answers = live.push("rows", piece)
        assert answers == ["batch"], answers
        live.view("first")
    return time.perf_counter() - begun


def main():
    lv = os.path.abspath(sys.argv[1] if len(sys.argv) > 1 else os.path.join(ROOT, "crates/lv/out/lv"))
    with tempfile.TemporaryDirectory(prefix="lv-live-") as room:
        config = os.path.join(room, "config")
        with open(config, "w") as file:
            file.write(CONFIG)
        live = Live(config, lv)
        begun = time.perf_counter()
        lines(live)
        print(f"{LINES / (time.perf_counter() - begun):,.0f} lines a second, one by one")
        begun = time.perf_counter()
        together(live)
        print(f"{LINES / (time.perf_counter() - begun):,.0f} lines a second, {TOGETHER} at once")
        print(f"{EDITS / edits(live):,.0f} edits of one row a second, each with a view of one row read back")
        live.close()
    return 0


if __name__ == "__main__":
    sys.exit(main())
