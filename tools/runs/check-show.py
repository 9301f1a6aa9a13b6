#!/usr/bin/env python3
"""Shows the streams of examples/ and tests/, and random streams of all types, by the built lv or the program that is named.

The CSV is read back by models/shown.py and by Python's own reader: of a stored stream its rows must give the canonical stream that recast
writes, of a random one they must be those that it means. A random stream with a fault must be refused as inspect refuses it, behind the
rows before the fault. Tables must have a line a row, and nothing that a terminal could take for more than signs to be shown.
"""
import glob
import os
import re
import subprocess
import sys
import tempfile
from importlib import import_module

sys.dont_write_bytecode = True
sys.path.insert(1, f"{sys.path[0]}/../models")
import canonical
import shown

ROOT = os.path.abspath(f"{__file__}/../../..")
RANDOM = 100
HIDDEN = re.compile("[\x00-\x09\x0b-\x1f\x7f-\x9f\u061c\u200e\u200f\u2028-\u202e\u2066-\u2069]")


def run(lv, *words):
    """The status of a run, what it printed, and what it printed aside."""
    ran = subprocess.run([lv, *words], capture_output=True, timeout=60)
    return ran.returncode, ran.stdout.decode(), ran.stderr.decode()


def columns_of(lv, path):
    """The columns of a stored stream, as inspect tells them."""
    lines = re.findall(r"^field (.*?) ?([a-z_]+\d*(?:\[.*\])?)(?: dict=-?\d+)?$", run(lv, "inspect", path)[1], re.M)
    return [(name, shown.type_of(text)) for name, text in lines]


def fault_of_table(table, rows, count):
    """What is wrong with a table of so many rows, of which so many are shown."""
    of = f"{count} of {rows}" if count < rows else str(rows)
    lines = table.split("\n")
    if HIDDEN.search(table):
        return "a table has what a terminal must not see"
    if len(lines) != count + 4 or lines[-2:] != [f"({of} row{'s' * (rows != 1)})", ""]:
        return f"a table of {rows} rows has {len(lines)} lines, and ends with {lines[-2:]}"
    return None


def fault_of_shown(lv, path, columns, rows):
    """What is wrong with the ways in which a stream of these columns and rows is shown."""
    status, text, aside = run(lv, "show", "--csv", path)
    if status or aside:
        return f"show --csv ended with {status} and printed aside {aside!r}"
    if shown.rows_of(columns, text) != ([name for name, _ in columns], rows):
        return "the CSV has other rows"
    for most in (None, 0, 2, len(rows)):
        words = [] if most is None else ["--rows", str(most)]
        count = len(rows) if most is None else min(most, len(rows))
        status, table, aside = run(lv, "show", path, *words)
        fault = f"show ended with {status}" if status or aside else fault_of_table(table, len(rows), count)
        status, part, aside = run(lv, "show", path, "--csv", *words)
        if fault or status or aside or shown.rows_of(columns, part)[1] != rows[:count]:
            return fault or f"show --csv --rows {most} has other rows"
    return None


def fault_of_stored(lv, path, room):
    """What is wrong with how a stored stream is shown: its rows must give what recast writes."""
    made = f"{room}/made"
    if run(lv, "recast", path, made)[0]:
        return "recast refuses it"
    columns = columns_of(lv, path)
    rows = shown.rows_of(columns, run(lv, "show", "--csv", path)[1])[1]
    with open(made, "rb") as file:
        if file.read() != canonical.stream_of_rows(columns, rows):
            return "the CSV gives another canonical stream"
    return fault_of_shown(lv, path, columns, rows)


def fault_of_refused(lv, path, stream):
    """What is wrong with how a stream is shown in which a fault stands."""
    status, lines, _ = run(lv, "inspect", path)
    before = sum(map(int, re.findall(r"^batch rows=(\d+)", lines, re.M)))
    last = lines.splitlines(keepends=True)[-1]
    csv_status, text, aside = run(lv, "show", "--csv", path)
    if (csv_status, aside) != (status, last):
        return f"show --csv ended with {csv_status} and printed aside {aside!r}, inspect {last!r}"
    has_names = lines.startswith("schema")
    rows = shown.rows_of(stream.columns, text)[1] if has_names else []
    if rows != stream.rows[:before] or bool(text) != has_names:
        return "the CSV has other rows than those before the fault"
    table_status, table, aside = run(lv, "show", path)
    named = 2 if before else 0
    if (table_status, aside) != (status, "") or not table.endswith(last) or table.count("\n") != before + named + 1:
        return f"show ended with {table_status} and printed another number of lines, or another last line"
    return None


def fault_of_random(lv, stream, room):
    path = f"{room}/in"
    with open(path, "wb") as file:
        file.write(stream.bytes)
    return fault_of_refused(lv, path, stream) if stream.causes else fault_of_shown(lv, path, stream.columns, stream.rows)


def main():
    lv = os.path.abspath(sys.argv[1] if len(sys.argv) > 1 else f"{ROOT}/crates/lv/out/lv")
    stored = sys.argv[2:] or sorted(it for part in ("examples", "examples/report", "tests") for it in glob.glob(f"{ROOT}/{part}/*.arrows"))
    make, failed, tried = import_module("check-streams").Stream, 0, 0
    for source in [*stored, *range(RANDOM)]:
        with tempfile.TemporaryDirectory(prefix="lv-show-") as room:
            try:
                fault = fault_of_stored(lv, source, room) if isinstance(source, str) else fault_of_random(lv, make(source), room)
            except (ValueError, KeyError, AttributeError) as error:
                fault = f"it can't be read back: {error!r}"
        tried += 1
        if fault:
            failed += 1
            print(f"show: FAILED, {source}: {fault}")
    print(f"show: {tried - failed} of {tried} hold")
    return 1 if failed or not tried else 0


if __name__ == "__main__":
    sys.exit(main())
