#!/usr/bin/env python3
"""Processor time and peak memory of `lv recast` to a file, to standard output and of `lv inspect`, beside programs that copy the same
file: `cat`, which lets the kernel copy from file to file, `cat` behind what a file has, which reads and writes the bytes, and one that
holds all of them in memory before it writes, as `recast` must where it can't write a new file, and does nothing else.

  tools/bench/bench.py [--sizes 25,100,400] [--turns 3] [SHAPE..]

Makes a stream of each shape and size, runs all in turn, prints the least time of each, and removes what it made. Times are of the
processor, in user code and in the system, so other work on the machine bears on them less than on the clock.
"""

import argparse
import os
import struct
import subprocess
import sys
import tempfile

sys.dont_write_bytecode = True
sys.path.insert(1, f"{sys.path[0]}/../models")
from streams import END_MARK, batch, dictionary_batch, field, schema

LV = "crates/lv/out/lv"
GNU_TIME = "/usr/bin/time"
# Reads a file in pieces of 4 MiB, keeps them, and then writes all in pieces of 32 KiB, about as long as a message of `recast`.
HOLD = """
import sys
source, target = open(sys.argv[1], "rb", buffering=0), open(sys.argv[2], "wb", buffering=0)
for piece in list(iter(lambda: source.read(1 << 22), b"")):
    for start in range(0, len(piece), 1 << 15):
        target.write(piece[start : start + (1 << 15)])
"""
ROWS = 1 << 16
MEGABYTE = 1_000_000


def stream_of(fields, rows, arrays, dictionaries=b""):
    """One and the same batch again and again."""

    def write(file, size):
        file.write(schema(fields) + dictionaries)
        whole = batch(rows, arrays)
        for _ in range(max(1, size // len(whole))):
            file.write(whole)
        file.write(END_MARK)

    return write


def integers(width, rows):
    return b"".join((number % (1 << (8 * width - 1))).to_bytes(width, "little") for number in range(rows))


def offsets(size, rows):
    return struct.pack(f"<{rows + 1}i", *range(0, size * (rows + 1), size))


def texts(size, rows):
    return [offsets(size, rows), b"t" * (size * rows)]


def with_nulls(buffers, rows):
    """Every twentieth slot is null."""
    bits = bytearray(b"\xff" * (rows // 8))
    for slot in range(0, rows, 20):
        bits[slot // 8] &= ~(1 << slot % 8)
    return (rows, buffers, len(range(0, rows, 20)), bytes(bits))


NUMBERS = [integers(8, ROWS)]
DECIMALS = [integers(16, ROWS)]
INDICES = [struct.pack(f"<{ROWS}i", *(row % 1000 for row in range(ROWS)))]
LONG = ROWS // 32

# A row is wide enough that the largest stream has fewer than 2^24 rows.
SHAPES = {
    "4 of int64": stream_of([field(2, 64, 1)] * 4, ROWS, [NUMBERS] * 4),
    "4 of int64, a twentieth null": stream_of([field(2, 64, 1)] * 4, ROWS, [with_nulls(NUMBERS, ROWS)] * 4),
    "2 of int8, uint16, date, timestamp": stream_of(
        [field(2, 8, 1), field(2, 16, 0), field(8, 0), field(10, 2)] * 2, ROWS, [[integers(width, ROWS)] for width in (1, 2, 4, 8)] * 2
    ),
    "2 of decimal, bool": stream_of([field(7, 38, 2), field(6)] * 2, ROWS, [DECIMALS, [b"\x55" * (ROWS // 8)]] * 2),
    "texts of 32 bytes": stream_of([field(5)], ROWS, [texts(32, ROWS)]),
    "texts of 32 bytes, a twentieth null": stream_of([field(5)], ROWS, [with_nulls(texts(32, ROWS), ROWS)]),
    "texts of 1,000 bytes": stream_of([field(5)], LONG, [texts(1000, LONG)]),
    "8 texts of a dictionary of 1,000": stream_of(
        [field(5, dictionary=1)] * 8, ROWS, [INDICES] * 8, dictionary_batch(1, [b"%08d" % number for number in range(1000)])
    ),
    "list of texts of a dictionary": stream_of(
        [field(12, children=[field(5, dictionary=1)])],
        ROWS // 8,
        [[offsets(8, ROWS // 8)], (ROWS, INDICES)],
        dictionary_batch(1, [b"%08d" % number for number in range(1000)]),
    ),
    "list of int64": stream_of(
        [field(12, children=[field(2, 64, 1)])], ROWS // 8, [[offsets(8, ROWS // 8)], (ROWS, NUMBERS)]
    ),
    "struct of int64, text": stream_of(
        [field(13, children=[field(2, 64, 1), field(5)])], ROWS, [[], NUMBERS, texts(32, ROWS)]
    ),
    "200 of int64": stream_of([field(2, 64, 1)] * 200, 4096, [[integers(8, 4096)]] * 200),
}


def measured(words, output):
    """The seconds of processor time and the peak memory in MB of one run, whose standard output goes to a file."""
    # GNU time tells seconds by hundredths alone; what it takes itself is less than one of them.
    with subprocess.Popen([GNU_TIME, "-f", "%M", *words], stdout=output, stderr=subprocess.PIPE, text=True) as started:
        kibibytes = started.stderr.read().split()[-1]
        _, status, used = os.wait4(started.pid, 0)
        started.returncode = os.waitstatus_to_exitcode(status)
    if started.returncode:
        sys.exit(f"bench: {' '.join(words)} ended with status {started.returncode}")
    return used.ru_utime + used.ru_stime, int(kibibytes) * 1024 / MEGABYTE


def row(name, write, size, turns, folder):
    source, target, printed = (os.path.join(folder, it) for it in ("in", "out", "printed"))
    with open(source, "wb") as file:
        write(file, size * MEGABYTE)
    programs = {"recast": [LV, "recast", source, target], "output": [LV, "recast", source, "-"], "inspect": [LV, "inspect", source]}
    programs["cat"] = ["cat", source]
    programs["hold"] = [sys.executable, "-I", "-S", "-c", HOLD, source, target]
    programs["append"] = programs["cat"]
    runs = {it: [] for it in programs}
    for _ in range(turns):
        for it, words in programs.items():
            # A file is made anew for each run: taking the bytes of the last one out of it isn't the program's work.
            for made in (target, printed):
                if os.path.exists(made):
                    os.remove(made)
            with open(printed, "ab" if it == "append" else "wb") as output:
                runs[it].append(measured(words, output))
    seconds = {it: min(second for second, _ in of) for it, of in runs.items()}
    peak = {it: min(most for _, most in of) for it, of in runs.items()}
    whole = os.path.getsize(source) / MEGABYTE
    print(
        f"| {name} | {whole:.0f} MB | {seconds['recast']:.2f} | {peak['recast']:.0f} | {seconds['output']:.2f} | {peak['output']:.0f}"
        f" | {seconds['inspect']:.2f} | {peak['inspect']:.0f} | {seconds['hold']:.2f} | {seconds['append']:.2f} | {seconds['cat']:.2f} |",
        flush=True,
    )


def main():
    parser = argparse.ArgumentParser(description="Time and memory of lv recast and lv inspect, beside cat.")
    parser.add_argument("--sizes", default="25,100,400", help="of the streams, in MB")
    parser.add_argument("--turns", type=int, default=3, help="how often each program runs")
    parser.add_argument("shapes", nargs="*", help=f"of {', '.join(SHAPES)}; all where none is named")
    words = parser.parse_args()
    os.chdir(os.path.abspath(f"{__file__}/../../.."))
    for needed, how in ((LV, "make lv builds it"), (GNU_TIME, "GNU time measures peaks")):
        if not os.path.exists(needed):
            sys.exit(f"bench: {needed} is not there; {how}")
    print("| columns of | size | recast, s | its peak, MB | to -, s | its peak, MB | inspect, s | its peak, MB | hold, s | cat >>, s | cat >, s |")
    print("|---|---|---|---|---|---|---|---|---|---|---|")
    for name in words.shapes or SHAPES:
        for size in map(int, words.sizes.split(",")):
            with tempfile.TemporaryDirectory(prefix="lv-bench-") as folder:
                row(name, SHAPES[name], size, words.turns, folder)


if __name__ == "__main__":
    main()
