#!/usr/bin/env python3
"""Runs the built lv over streams at the limits of the profile and just past them: 2^24 rows, a body of 2^28 bytes, metadata of 2^24. Then
64 undos of large batches.

The greatest takes some 3 GB of memory and a minute, so this stands outside the gate: make limits.
"""
import os
import re
import subprocess
import sys
import tempfile

sys.dont_write_bytecode = True
sys.path.insert(1, f"{sys.path[0]}/../models")
from canonical import decimal, integer, stream_of_rows
from limits import BATCH_ROWS, MOST_BODY, MOST_METADATA, MOST_ROWS, UNDOS
from streams import END_MARK, INT64_SCHEMA, batch, field, int64_batch, schema, word

BOOL, INT = 6, 2
LV = "crates/lv/out/lv"
EDIT = 100_000
LONG = integer(64)
CONFIG = """
[main]
key = "k"
columns = [["k", "int64"]]
[feed.add]
role = "append"
[view.all]
columns = [["k", "col", "k"]]
[view.sum]
group = []
columns = [["n", "count"], ["s", "sum", "k"]]
[view.last]
columns = [["k", "col", "k"]]
order = [["k", "desc"]]
first = 1
"""


def pattern(size):
    """Bytes that differ from place to place."""
    return (bytes(range(251)) * (size // 251 + 1))[:size]


def of_integers(rows):
    return [[pattern(8 * rows)], [pattern(8 * rows)[::-1]]]


def with_body_length(stream, length):
    """A message that says another length of its body."""
    at = 8 + 40
    return stream[:at] + length.to_bytes(8, "little") + stream[at + 8 :]


def padded_schema(size):
    metadata = INT64_SCHEMA[8:]
    return b"\xff\xff\xff\xff" + word(size) + metadata + bytes(size - len(metadata))


def canonical(rows, columns):
    """The record batches of the canonical stream, each as the bytes of its columns."""
    for first in range(0, rows, BATCH_ROWS):
        yield [column[0][8 * first : 8 * min(first + BATCH_ROWS, rows)] for column in columns]


class Runs:
    def __init__(self, lv, folder):
        self.lv, self.folder, self.failed = lv, folder, 0

    def run(self, name, command, parts, wanted):
        """Runs a command over a stream, and answers what recast wrote."""
        stream, output = f"{self.folder}/in", f"{self.folder}/out"
        with open(stream, "wb") as file:
            file.writelines(parts)
        words = [self.lv, command, stream] + [output] * (command == "recast")
        ran = subprocess.run(words, stdout=subprocess.PIPE, text=True)
        lines = ran.stdout.splitlines()
        is_well = lines[-1:] == [wanted] and ran.returncode == wanted.startswith("refused")
        self.note(name, is_well, ran.stdout[-200:])
        if is_well and command == "recast" and wanted.startswith("wrote"):
            with open(output, "rb") as file:
                return file.read()
        return b""

    def note(self, name, is_well, said=""):
        self.failed += not is_well
        print(f"limits: {name}: {'well' if is_well else 'FAILED: ' + said}", flush=True)

    def greatest_body(self):
        """2^24 rows of two columns are a body of 2^28 bytes, the most of both that is read."""
        columns = of_integers(MOST_ROWS)
        integers = schema([field(INT, 64, 1)] * 2)
        size = 232 + MOST_ROWS // BATCH_ROWS * (208 + 16 * BATCH_ROWS) + len(END_MARK)
        parts = [integers, batch(MOST_ROWS, columns), END_MARK]
        out = self.run("2^24 rows, a body of 2^28 bytes", "recast", parts, f"wrote {size}")
        at, same = 232, len(out) == size
        for each in canonical(MOST_ROWS, columns):
            body = b"".join(each)
            same = same and out[at + 208 : at + 208 + len(body)] == body
            at += 208 + len(body)
        self.note("their canonical stream", same)
        longer = with_body_length(batch(1, of_integers(1)), MOST_BODY + 8)
        self.run("a body of 2^28 + 8 bytes", "recast", [integers, longer], "refused 7 BodySize")

    def most_rows(self):
        bits = schema([field(BOOL)])
        whole, one = batch(MOST_ROWS, [[pattern(MOST_ROWS // 8)]]), batch(1, [[b"\1"]])
        self.run("2^24 rows, and no more", "inspect", [bits, whole, END_MARK], "end")
        self.run("2^24 rows and one more", "recast", [bits, whole, one, END_MARK], "refused 44 TooManyRows")
        longer = batch(MOST_ROWS + 1, [[pattern(MOST_ROWS // 8 + 1)]])
        self.run("2^24 + 1 rows in a batch", "recast", [bits, longer], "refused 20 BadLength")

    def greatest_metadata(self):
        self.run("metadata of 2^24 bytes", "inspect", [padded_schema(MOST_METADATA), END_MARK], "end")
        self.run("metadata of 2^24 + 8 bytes", "inspect", [padded_schema(MOST_METADATA + 8), END_MARK], "refused 2 BadSize")

    def most_undos(self):
        """Of batches of 100,000 rows, one more than can be undone, the last ones are undone: what is left is what the first brought."""
        lines = ["feed add in", *writes("before"), *["undo"] * (UNDOS + 1), *writes("after"), "write all all"]
        batches = [int64_batch(EDIT, it * EDIT) for it in range(UNDOS + 1)]
        held = {"config": CONFIG.encode(), "script": "\n".join(lines).encode(), "in": INT64_SCHEMA + b"".join(batches) + END_MARK}
        for name, it in held.items():
            with open(f"{self.folder}/{name}", "wb") as file:
                file.write(it)
        ran = subprocess.run([self.lv, "run", "config", "script"], cwd=self.folder, stdout=subprocess.PIPE, text=True)
        answers = re.findall("undone|refused.*", ran.stdout)
        self.note(f"{UNDOS} undos of 100,000 rows each", answers == ["undone"] * UNDOS + ["refused 51 NothingToUndo"], ran.stdout[-200:])
        rows = stream_of_rows([("k", LONG)], [[it] for it in range(EDIT)])
        for name, it in (shown("before", EDIT * (UNDOS + 1)) | shown("after", EDIT) | {"all": rows}).items():
            with open(f"{self.folder}/{name}", "rb") as file:
                self.note(f"view {name}", file.read() == it)


def writes(moment):
    return [f"write {view} {view}-{moment}" for view in ("sum", "last")]


def shown(moment, rows):
    """What these writes make, of the numbers from 0 on, so many."""
    sums = stream_of_rows([("n", LONG), ("s", decimal(38, 0))], [[rows, rows * (rows - 1) // 2]])
    return {f"sum-{moment}": sums, f"last-{moment}": stream_of_rows([("k", LONG)], [[rows - 1]])}


def main():
    os.chdir(os.path.abspath(f"{__file__}/../../.."))
    lv = os.path.abspath(sys.argv[1] if len(sys.argv) > 1 else LV)
    if not os.access(lv, os.X_OK):
        sys.exit(f"{lv} is not there; make lv builds it")
    with tempfile.TemporaryDirectory(prefix="lv-limits-") as folder:
        runs = Runs(lv, folder)
        for each in (runs.greatest_metadata, runs.most_rows, runs.greatest_body, runs.most_undos):
            each()
    return 1 if runs.failed else 0


if __name__ == "__main__":
    sys.exit(main())
