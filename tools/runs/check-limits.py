#!/usr/bin/env python3
"""Runs the built lv, or the program that is named, over configurations at each limit of docs/VIEWS.md and one step past it.

A limit gives two texts: `check` accepts the first and refuses the second for the cause that stands beside it.
"""
import os
import subprocess
import sys
import tempfile

sys.dont_write_bytecode = True
sys.path.insert(1, f"{sys.path[0]}/../models")
from configurations import entry
from limits import (
    MOST_BYTES, MOST_COLUMNS, MOST_DIGITS, MOST_ENTRIES, MOST_FIELDS, MOST_FIXED, MOST_LETTERS, MOST_LEVELS, MOST_PARTS, MOST_ROWS,
    MOST_SLOT, MOST_SUMMED,
)

ROOT = os.path.abspath(f"{__file__}/../../..")
COLUMNS = [["k", "int64"], ["t", "utf8"]]
OVER_LIMIT, TYPE_TEXT, CONSTANT_TYPE = "refused 68 OverLimit", "refused 64 TypeText", "refused 65 ConstantType"
SUM_TYPE, SHAPE, DICT_TYPE = "refused 66 SumType", "refused 69 Shape", "refused 70 DictType"


def main(*columns, key="k"):
    return entry("main", key=key, columns=[*COLUMNS, *columns])


def entries(kind, count, **members):
    return "".join(entry(f"{kind}.n{it}", **members) for it in range(count))


def view(name="v", columns=(["k", "col", "k"],), **members):
    return entry(f"view.{name}", columns=[*columns], **members)


def grouped(by="k", **members):
    return view(columns=[[by, "col", by]], group=[by], **members)


def fields(count):
    """A column of a struct with so many fields, itself among them."""
    return ["s", ["struct", *([f"f{it}", "bool"] for it in range(count - 1))]]


def lists(depth):
    """A type of so many levels."""
    return "bool" if depth == 1 else ["list", lists(depth - 1)]


def negations(depth):
    return ["is_null", "k"] if depth == 1 else ["not", negations(depth - 1)]


def parts(count):
    """A filter of so many, itself among them."""
    return ["or", *(["is_null", "k"] for _ in range(count - 1))]


def compared(column, constant):
    return main(["c", column]) + view(filter=["eq", "c", constant])


def summed(column):
    return main(["c", column]) + view(columns=[["n", "sum", "c"]], group=[])


def around(most, text_of):
    """The text at a limit, and the text one past it."""
    return text_of(most), text_of(most + 1)


def limits():
    """The name of a limit, the text at it, the text past it, and the cause."""
    side = {"key": "k", "columns": COLUMNS}
    yield "side tables", *around(MOST_ENTRIES["side"], lambda it: main() + entries("side", it, **side)), OVER_LIMIT
    yield "feeds", *around(MOST_ENTRIES["feed"], lambda it: main() + entries("feed", it, role="append")), OVER_LIMIT
    shown = {"columns": [["k", "col", "k"]]}
    yield "views", *around(MOST_ENTRIES["view"], lambda it: main() + entries("view", it, **shown)), OVER_LIMIT
    yield "columns", *around(MOST_COLUMNS - len(COLUMNS), lambda it: main(*([f"c{at}", "bool"] for at in range(it)))), OVER_LIMIT
    yield "fields of a table", *around(MOST_FIELDS - len(COLUMNS), lambda it: main(fields(it))), OVER_LIMIT
    twice = [["a", "col", "s"], ["b", "col", "s"]]
    yield "fields of a view", *around(MOST_FIELDS // 2, lambda it: main(fields(it)) + view(columns=twice)), OVER_LIMIT
    yield "levels of a column", *around(MOST_LEVELS, lambda it: main(["l", lists(it)])), OVER_LIMIT
    yield "a slot", *around(MOST_SLOT // MOST_FIXED - 1, lambda it: main(heavy(it))), OVER_LIMIT
    yield "a column's name", *around(MOST_BYTES, lambda it: main(["c" * it, "bool"])), OVER_LIMIT
    yield "a child's name", *around(MOST_BYTES, lambda it: main(["s", ["struct", ["c" * it, "bool"]]])), OVER_LIMIT
    yield "an output's name", *around(MOST_BYTES, lambda it: main() + view(columns=[["c" * it, "col", "k"]])), OVER_LIMIT
    yield "an output without a name", main() + view(columns=[["n", "col", "k"]]), main() + view(columns=[["", "col", "k"]]), OVER_LIMIT
    yield "a view's name", *around(MOST_LETTERS, lambda it: main() + view("v" * it)), SHAPE
    yield "a side table's name", *around(MOST_LETTERS, lambda it: main() + entry("side." + "s" * it, **side)), SHAPE
    yield "a feed's name", *around(MOST_LETTERS, lambda it: main() + entry("feed." + "f" * it, role="append")), SHAPE
    yield "parts of a filter", *around(MOST_PARTS, lambda it: main() + view(filter=parts(it))), OVER_LIMIT
    yield "levels of a filter", *around(MOST_LEVELS, lambda it: main() + view(filter=negations(it))), OVER_LIMIT
    yield "parts of a filter of groups", *around(MOST_PARTS, lambda it: main() + grouped(having=parts(it))), OVER_LIMIT
    yield "levels of a filter of groups", *around(MOST_LEVELS, lambda it: main() + grouped(having=negations(it))), OVER_LIMIT
    yield "a coded column", main() + grouped("t", dict=["t"]), main() + grouped("k", dict=["k"]), DICT_TYPE
    yield "first, least", main() + view(first=0), main() + view(first=-1), OVER_LIMIT
    yield "first, greatest", *around(MOST_ROWS, lambda it: main() + view(first=it)), OVER_LIMIT
    yield "a zone", *around(MOST_BYTES, lambda it: main(["c", ["timestamp", "us", "z" * it]])), TYPE_TEXT
    yield "a zone, least", main(["c", ["timestamp", "us", "z"]]), main(["c", ["timestamp", "us", ""]]), TYPE_TEXT
    yield "precision", *around(MOST_DIGITS, lambda it: main(["c", ["decimal", it, MOST_DIGITS]])), TYPE_TEXT
    yield "precision, least", main(["c", ["decimal", 1, 0]]), main(["c", ["decimal", 0, 0]]), TYPE_TEXT
    yield "scale", main(["c", ["decimal", 5, 5]]), main(["c", ["decimal", 5, 6]]), TYPE_TEXT
    yield "scale, least", main(["c", ["decimal", 5, 0]]), main(["c", ["decimal", 5, -1]]), TYPE_TEXT
    yield "bytes of a fixed", *around(MOST_FIXED, lambda it: main(["c", ["fixed", it]])), TYPE_TEXT
    yield "bytes of a fixed, least", main(["c", ["fixed", 0]]), main(["c", ["fixed", -1]]), TYPE_TEXT
    yield "digits of a sum", *around(MOST_SUMMED, lambda it: summed(["decimal", it, 2])), SUM_TYPE
    for bits in (8, 16, 32):
        yield f"int{bits}, greatest", compared(f"int{bits}", 2 ** (bits - 1) - 1), compared(f"int{bits}", 2 ** (bits - 1)), CONSTANT_TYPE
        yield f"int{bits}, least", compared(f"int{bits}", -(2 ** (bits - 1))), compared(f"int{bits}", -(2 ** (bits - 1)) - 1), CONSTANT_TYPE
        yield f"uint{bits}, greatest", compared(f"uint{bits}", 2**bits - 1), compared(f"uint{bits}", 2**bits), CONSTANT_TYPE
    yield "uint64, least", compared("uint64", 0), compared("uint64", -1), CONSTANT_TYPE
    yield "date32, greatest", compared("date32", 2**31 - 1), compared("date32", 2**31), CONSTANT_TYPE
    yield "a decimal's digits", compared(["decimal", 3, 1], "99.9"), compared(["decimal", 3, 1], "100.0"), CONSTANT_TYPE
    yield "a decimal's zeros", compared(["decimal", 3, 1], "-00099.9"), compared(["decimal", 3, 1], "-.9"), CONSTANT_TYPE
    yield "a decimal's point", compared(["decimal", 3, 0], "-999"), compared(["decimal", 3, 0], "999."), CONSTANT_TYPE
    widest = ["decimal", MOST_DIGITS, 0]
    yield "the most digits", compared(widest, "9" * MOST_DIGITS), compared(widest, "1" + "0" * MOST_DIGITS), CONSTANT_TYPE
    yield "bytes of a constant", compared(["fixed", 2], "00ff"), compared(["fixed", 2], "00ff00"), CONSTANT_TYPE
    yield "digits of bytes", compared("binary", "00ff"), compared("binary", "00f"), CONSTANT_TYPE


def heavy(count):
    """A column of a struct with so many children of the most bytes."""
    return ["s", ["struct", *([f"f{it}", ["fixed", MOST_FIXED]] for it in range(count))]]


def told(program, text, room):
    """What check answers to a text: its status, and what it prints."""
    path = os.path.join(room, "limits.toml")
    with open(path, "w", encoding="utf-8") as file:
        file.write(text)
    ran = subprocess.run([program, "check", path], capture_output=True, text=True, timeout=60)
    return ran.returncode, ran.stdout.strip()


def wrong(program):
    with tempfile.TemporaryDirectory(prefix="lv-limits-") as room:
        for name, within, past, cause in limits():
            status, said = told(program, within, room)
            if status != 0 or not said.startswith("ok: "):
                yield f"{name}: at the limit: {status}: {said}"
            status, said = told(program, past, room)
            if (status, said) != (1, cause):
                yield f"{name}: past the limit: {status}: {said}, where {cause} is wanted"


if __name__ == "__main__":
    bad = [*wrong(sys.argv[1] if sys.argv[1:] else f"{ROOT}/crates/lv/out/lv")]
    print(*bad, sep="\n", end="\n" if bad else "")
    print(f"configurations at {len([*limits()])} limits, {len(bad)} wrong")
    sys.exit(bool(bad))
