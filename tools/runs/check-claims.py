#!/usr/bin/env python3
"""Runs the built lv, or the program that is named, over streams that claim much and hold little.

Each is a few hundred bytes to 1 MB long. The program must answer what docs/FORMAT.md says, in the memory and the time that stand here.
"""
import os
import re
import resource
import struct
import subprocess
import sys
import tempfile

sys.dont_write_bytecode = True
sys.path.insert(1, f"{sys.path[0]}/../models")
from claims import (
    END_MARK, FIXED, INT, LIST, STRUCT, UTF8, batch, dictionary_batch, empty_bytes, empty_struct, field, fixed_bytes, integer, list_of, nested,
    offsets, schema,
)
from limits import MOST_FIELDS, MOST_LEVELS, MOST_NODE, MOST_ROWS, MOST_VALUES, MOST_WEIGHT

LV = "crates/lv/out/lv"
# A list weighs 5 and each item without a byte 1.
MOST_ITEMS = MOST_WEIGHT - 5
MEGABYTE = 1 << 20
END, HEAVY, WRITTEN = "end", "refused 45 CellTooHeavy", "wrote"
LARGE = "refused 17 DictionaryTooLarge"
MANY = "refused 44 TooManyRows"
FIELDS = "refused 13 TooManyFields"


def lists(item, counts):
    """One column of lists that claim so many items each."""
    ends = [0]
    for count in counts:
        ends.append(ends[-1] + count)
    nodes = [len(counts), ends[-1]]
    return [schema([list_of("l", item)]), batch(len(counts), nodes, [b"", offsets(*ends), *own_buffers(item)]), END_MARK]


def columns_of_lists(count, columns):
    """One row of so many columns, each a list that claims so many empty structs."""
    fields = [list_of(f"l{it}", empty_struct("i")) for it in range(columns)]
    return [schema(fields), batch(1, [1, count] * columns, [b"", offsets(0, count), b""] * columns), END_MARK]


def own_buffers(item):
    return [b"", b""] if item.slots[2] == ("B", FIXED) else [b""]


def wide_lists(items, rows):
    """Lists of structs with 1,000 children of no width."""
    children = [empty_bytes(f"c{it}") for it in range(1000)]
    total = items * rows
    ends = range(0, total + 1, items)
    item = field("item", STRUCT, children=children)
    return [
        schema([field("l", LIST, children=[item])]),
        batch(rows, [rows, total] + [total] * 1000, [b"", offsets(*ends), b""] + [b"", b""] * 1000),
        END_MARK,
    ]


def rows_of(fields, rows, buffers, again=()):
    nodes = [rows] * len(fields)
    more = [batch(it, [it] * len(fields), buffers) for it in again]
    return [schema(fields), batch(rows, nodes, buffers), *more, END_MARK]


def coded(fields, dictionaries, count):
    """Two rows that refer to the last and the first of the values, so many an id, that some dictionary batches bring."""
    rows = [b"", offsets(count - 1, 0)] * len(fields)
    return [schema(fields), *dictionaries, batch(2, [2] * len(fields), rows), END_MARK]


def empty_values(number, count, is_delta=0):
    return dictionary_batch(number, count, [b"", b""], is_delta)


def one_null(number):
    """A delta of one null."""
    return dictionary_batch(number, 1, [b"\x00", b""], 1, nulls=1)


def dictionary_claims():
    """Dictionaries of values that have no byte, however many they are, and of values that have few."""
    empty, most = [empty_bytes("d", 0)], MOST_VALUES
    yield "a dictionary of 2^20 empty values", coded(empty, [empty_values(0, most)], most), END, WRITTEN
    yield "a dictionary of one value more", coded(empty, [empty_values(0, most + 1)], most), LARGE, LARGE
    for ids in (64, MOST_FIELDS):
        fields = [empty_bytes(f"d{it}", it) for it in range(ids)]
        brought = [empty_values(it, most) for it in range(ids)]
        yield f"{ids} dictionaries of 2^20 empty values", coded(fields, brought, most), END, WRITTEN
    yield "a dictionary replaced 1,000 times", coded(empty, [empty_values(0, most)] * 1000, most), END, WRITTEN
    deltas = [empty_values(0, 1048, 1)] * 1000
    yield "1,000 deltas of 1,048 empty values", coded(empty, deltas, 1048 * 1000), END, WRITTEN
    turns = [empty_values(0, 1047, 1), one_null(0)] * 1000
    yield "1,000 deltas of 1,047 empty values, and a null behind each", coded(empty, turns, 1048 * 1000), END, WRITTEN
    grown = [empty_values(0, most), empty_values(0, 3), empty_values(0, most - 3, 1)]
    yield "a dictionary replaced and grown to 2^20 values", coded(empty, grown, most), END, WRITTEN
    grown[-1] = empty_values(0, most - 2, 1)
    yield "the same, grown by one value more", coded(empty, grown, most + 1), LARGE, LARGE
    singles = [dictionary_batch(0, 1, [b"", b"x"], 1)] * 1000
    yield "1,000 deltas of one byte", coded([fixed_bytes("d", 1, 0)], singles, 1000), END, WRITTEN


def nested_claims():
    """Fields at the limits of their depth and their number, to which few bytes may come: two children that are one table are two fields."""
    yield "a column of 16 levels", nested(MOST_LEVELS, 1), END, WRITTEN
    yield "a column of 17 levels", nested(MOST_LEVELS + 1, 1), FIELDS, FIELDS
    yield "1,023 fields in 10 tables", nested(10, 2), END, WRITTEN
    yield "2,047 fields in 11 tables", nested(11, 2), FIELDS, FIELDS
    yield "65,535 fields in 16 tables", nested(MOST_LEVELS, 2), FIELDS, FIELDS
    yield "1,025 columns", [schema([empty_bytes(f"c{it}") for it in range(MOST_FIELDS + 1)]), END_MARK], FIELDS, FIELDS


def keyed(column, nodes, buffers, rows, dictionaries=()):
    """The stream of a table with a key, 0 and up, and one more column."""
    keys = struct.pack(f"<{rows}q", *range(rows))
    fields = [field("k", INT, integer(64)), column]
    return [schema(fields), *dictionaries, batch(rows, [rows, *nodes], [b"", keys, *buffers]), END_MARK]


CONFIG = """
[main]
key = "k"
columns = [["k", "int64"], ["c", {}]]
[feed.rows]
role = "append"
[view.all]
group = []
columns = [["rows", "count"], ["filled", "count", "c"]]
[view.keys]
columns = [["k", "col", "k"]]
[view.filled]
filter = ["not", ["is_null", "c"]]
columns = [["k", "col", "k"]]
order = [["k", "desc"]]
first = 10
"""
OF_TEXTS = """
[view.compared]
group = []
columns = [["distinct", "distinct", "c"], ["least", "least", "c"], ["greatest", "greatest", "c"]]
[view.groups]
group = ["c"]
columns = [["rows", "count"]]
[view.others]
filter = ["ne", "c", "x"]
columns = [["k", "col", "k"]]
"""


def view_claims():
    """The name, the stream and the configuration of a table of few bytes, of which views read what takes few bytes too."""
    ends = range(0, 61 * MOST_ITEMS, MOST_ITEMS)
    lists_of_nothing = keyed(list_of("c", empty_struct("i")), [60, ends[-1]], [b"", offsets(*ends), b""], 60)
    yield "60 lists that claim 2^20 items", lists_of_nothing, CONFIG.format('["list", ["struct"]]')
    text = b"a" * (MEGABYTE - 8)
    brought = [dictionary_batch(0, 1, [b"", offsets(0, len(text)), text])]
    rows = keyed(field("c", UTF8, dictionary=0), [1000], [b"", bytes(4000)], 1000, brought)
    yield "a text of 1 MB in 1,000 rows", rows, CONFIG.format('"utf8"') + OF_TEXTS


def claims():
    """The name, the stream, and the wanted last lines of inspect and of recast, which isn't run where its output is long."""
    bare, empty = empty_struct("i"), empty_bytes("i")
    yield "1 list of as many items as weigh least", lists(bare, [MOST_ITEMS]), END, WRITTEN
    yield "10 lists of as many", lists(bare, [MOST_ITEMS] * 10), END, WRITTEN
    yield "63 columns of such lists", columns_of_lists(MOST_ITEMS, 63), END, WRITTEN
    yield "1 list of one item more", lists(bare, [MOST_ITEMS + 1]), END, HEAVY
    yield "1 list of all items that there can be", lists(bare, [MOST_NODE]), END, HEAVY
    yield "the same of empty bytes", lists(empty, [MOST_NODE]), END, HEAVY
    yield "2,047 lists of 2^20 items", lists(empty, [MOST_ITEMS] * 2047), END, WRITTEN
    yield "1,000 lists of 1,024 structs of 1,000 children", wide_lists(1024, 1000), END, WRITTEN
    yield "2^24 rows of empty bytes", rows_of([empty], MOST_ROWS, [b"", b""]), END, WRITTEN
    yield "2^24 rows of empty bytes and one more", rows_of([empty], MOST_ROWS, [b"", b""], [1]), END, MANY
    yield "2^24 rows of empty structs", rows_of([bare], MOST_ROWS, [b""]), END, WRITTEN
    yield "2^24 rows of no columns", rows_of([], MOST_ROWS, []), END, WRITTEN
    many = [empty_bytes(f"c{it}") for it in range(MOST_FIELDS)]
    yield "2^24 rows of 1,024 columns of empty bytes", rows_of(many, MOST_ROWS, [b"", b""] * MOST_FIELDS), END, None
    yield from nested_claims()
    yield from dictionary_claims()


def processor_time():
    """What the programs that ended have taken."""
    used = resource.getrusage(resource.RUSAGE_CHILDREN)
    return used.ru_utime + used.ru_stime


def limited(words, seconds, megabytes, folder=None):
    """The last line that a program prints within its time and memory, with the processor time that it took."""

    def limit():
        resource.setrlimit(resource.RLIMIT_AS, (megabytes * MEGABYTE,) * 2)

    began = processor_time()
    try:
        ran = subprocess.run(words, cwd=folder, stdout=subprocess.PIPE, text=True, preexec_fn=limit, timeout=seconds)
        said = (ran.stdout.splitlines() or [f"status {ran.returncode}"])[-1]
    except subprocess.TimeoutExpired:
        said = f"took more than {seconds} s"
    return said, processor_time() - began


def is_viewed(lv, folder, name, parts, config):
    """Runs a script that feeds a stream and writes all views of a configuration."""
    with open(f"{folder}/in", "wb") as file:
        file.writelines(parts)
    views = re.findall(r"^\[view\.(\w+)\]", config, re.M)
    for path, text in (("config", config), ("script", "".join(["feed rows in\n", *(f"write {it} out\n" for it in views)]))):
        with open(f"{folder}/{path}", "w", encoding="utf-8") as file:
            file.write(text)
    said, seconds = limited([lv, "run", f"{folder}/config", f"{folder}/script"], 10, 60, folder)
    is_well = said.startswith(f"{len(views) + 1}: wrote ") and seconds <= 5
    if not is_well or "-v" in sys.argv:
        print(f"claims: {name}, {len(views)} views: {'' if is_well else 'FAILED: '}{said} in {seconds:.2f} s")
    return is_well


def main():
    os.chdir(os.path.abspath(f"{__file__}/../../.."))
    lv = os.path.abspath(sys.argv[1] if len(sys.argv) > 1 else LV)
    if not os.access(lv, os.X_OK):
        sys.exit(f"{lv} is not there; make lv builds it")
    failed, tried = 0, 0
    with tempfile.TemporaryDirectory(prefix="lv-claims-") as folder:
        stream, output = f"{folder}/in", f"{folder}/out"
        for name, parts, config in view_claims():
            tried += 1
            failed += not is_viewed(lv, folder, name, parts, config)
        for name, parts, inspected, recast in claims():
            with open(stream, "wb") as file:
                file.writelines(parts)
            for wanted, words in ((inspected, ["inspect", stream]), (recast, ["recast", stream, output])):
                if wanted is None:
                    continue
                said, seconds = limited([lv, *words], 10, 64)
                tried += 1
                if said != wanted and not said.startswith(f"{wanted} "):
                    failed += 1
                    print(f"claims: {name}: {words[0]}: FAILED: {said} in {seconds:.1f} s, wanted {wanted}")
                elif "-v" in sys.argv:
                    print(f"claims: {name}: {words[0]}: {said} in {seconds:.2f} s")
    print(f"claims: {tried - failed} passed, {failed} failed")
    return 1 if failed else 0


if __name__ == "__main__":
    sys.exit(main())
