#!/usr/bin/env python3
"""Writes crates/damage_tests/src/streams.rt: the streams of which the tests of `damage_tests` cut off, drop and change bytes. With --check it writes
nothing, and says whether the file is as it would be written."""
import os
import struct
import sys
import textwrap
from dataclasses import dataclass
from itertools import accumulate

sys.dont_write_bytecode = True
from claims import (
    BINARY, BOOL, DATE, DECIMAL, DURATION, END_MARK, FIXED, INT, LARGE_BINARY, LARGE_LIST, LARGE_UTF8, LIST, STRUCT, TIME, TIMESTAMP, UTF8,
    Table, Text, batch, dictionary_batch, field, integer, nested, schema,
)

ROOT = os.path.abspath(f"{__file__}/../../..")
SOURCE = "crates/damage_tests/src/streams.rt"
HEAD = """\
//! The streams. Written by `tools/models/damage_streams.py`, which makes them.

use crate::stream::HexStream;
"""
WIDTH, BYTES_A_LINE = 120, 32
# The messages of tests/sample.arrows end at these places.
SAMPLE_ENDS = (232, 496, 504)
INT32, INT64 = "i", "q"


@dataclass(frozen=True)
class Stream:
    """A stream by its messages: what it is called, and what it holds."""

    name: str
    text: str
    messages: list

    def bytes(self):
        return b"".join(self.messages)


def sample():
    with open(f"{ROOT}/tests/sample.arrows", "rb") as file:
        stream = file.read()
    return [stream[start:end] for start, end in zip((0, *SAMPLE_ENDS), SAMPLE_ENDS)]


def numbers(form, *values):
    return struct.pack(f"<{len(values)}{form}", *values)


def decimals(*values):
    return b"".join(it.to_bytes(16, "little", signed=True) for it in values)


def texts(*values):
    """The buffers of texts without nulls."""
    return [b"", numbers(INT32, *accumulate(map(len, values), initial=0)), b"".join(values)]


def brought(number, *values, is_delta=0):
    """A dictionary batch of these texts."""
    return dictionary_batch(number, len(values), texts(*values), is_delta)


def coded(name, index=None):
    """A field of texts with dictionary 7."""
    return field(name, UTF8, dictionary=7, index=index)


def indices(*values):
    return [b"", numbers(INT32, *values)]


def of_sample():
    schema_, batch_, end = sample()
    yield Stream("SAMPLE", "Two int64 columns `k` and `v`: (1, 10), (2, null), (3, 30).", [schema_, batch_, end])
    yield Stream("NO_BATCH", "The same columns, and no batch.", [schema_, end])


def of_few_columns():
    columns = [field("id", INT, integer(64)), field("grp", UTF8), field("amt", INT, integer(64))]
    none = batch(0, [0, 0, 0], [b""] * 7)
    yield Stream("NO_ROWS", "A batch of no rows, whose buffers are all empty.", [schema(columns), none, END_MARK])
    nine = batch(9, [(9, 1)], [b"\xff\xfe", b"\x55\xff"])
    yield Stream("BOOLS", "Nine truth values: true, false four times over, then null.", [schema([field("b", BOOL)]), nine, END_MARK])
    offsets_from_three = batch(3, [(3, 1)], [b"\x05", numbers(INT32, 3, 5, 5, 9), b"xxxabcdef"])
    yield Stream("TEXTS", "Texts whose first offset is 3: `ab`, null, `cdef`.", [schema([field("t", UTF8)]), offsets_from_three, END_MARK])


def of_dictionaries():
    column = schema([coded("c")])
    one, two = batch(1, [1], indices(0)), batch(2, [2], indices(0, 1))
    replaced = [column, brought(7, b"a", b"b"), two, brought(7, b"c"), one, END_MARK]
    yield Stream("REPLACED", "A dictionary of `a` and `b`, then of `c` alone: `a`, `b`, `c`.", replaced)
    with_null = dictionary_batch(7, 2, [b"\x01", *texts(b"a", b"")[1:]], 1, nulls=1)
    null_value = [column, with_null, batch(2, [2], indices(1, 0)), END_MARK]
    yield Stream("NULL_VALUE", "A dictionary that a delta begins, of `a` and a null: null, `a`.", null_value)
    nulls = batch(2, [(2, 2)], [b"\x00", numbers(INT32, 0, 0)])
    yield Stream("NULLS_FIRST", "Two nulls before the dictionary of their column.", [column, nulls, brought(7, b"a"), END_MARK])


def of_values():
    greatest = 10**28 - 1
    column = schema([field("d", DECIMAL, Table(("i", 28), ("i", 2), ("i", 128)))])
    yield Stream("DECIMALS", "The greatest decimal of 28 digits, twice.", [column, batch(2, [2], [b"", decimals(greatest, greatest)]), END_MARK])
    children = [field("a", INT, integer(8)), field("b", UTF8)]
    structs = batch(2, [(2, 1), 2, 2], [b"\x01", b"", b"\x05\x06", b"", numbers(INT32, 0, 1, 3), b"\x78\xff\xff"])
    text = "Structs of an int8 `a` and a text `b`: 5 and `x`, and a null over bytes that are no text."
    yield Stream("STRUCTS", text, [schema([field("s", STRUCT, children=children)]), structs, END_MARK])
    lists = batch(2, [2, 3], [b"", numbers(INT32, 1, 3, 3), b"", numbers("h", 1, 2, 3)])
    column = schema([field("l", LIST, children=[field("item", INT, integer(16))])])
    yield Stream("LISTS", "Lists of int16 whose first offset is 1: 2 and 3, none.", [column, lists, END_MARK])


def of_messages():
    shared = [schema([coded("a"), coded("b")]), brought(7, b"x", b"y"), batch(2, [2, 2], [*indices(0, 1), *indices(1, 0)]), END_MARK]
    yield Stream("SHARED", "Two columns of texts with one dictionary: (`x`, `y`), (`y`, `x`).", shared)
    one = [field("k", INT, integer(64))]
    batches = [batch(1, [1], [b"", numbers(INT64, it)]) for it in (1, 2)]
    yield Stream("NO_END_MARK", "Two batches, and no end mark.", [schema(one), *batches])
    with_body = schema(one, bytes(range(16)))
    yield Stream("SCHEMA_BODY", "A Schema message with a body of 16 bytes.", [with_body, batches[0], END_MARK])


FIXED_WIDTH = (
    (INT, integer(8), numbers("b", -1)),
    (INT, integer(16), numbers("h", -2)),
    (INT, integer(32), numbers("i", -3)),
    (INT, integer(64), numbers("q", -4)),
    (INT, integer(8, 0), numbers("B", 2**8 - 1)),
    (INT, integer(16, 0), numbers("H", 2**16 - 2)),
    (INT, integer(32, 0), numbers("I", 2**32 - 3)),
    (INT, integer(64, 0), numbers("Q", 2**64 - 4)),
    (DECIMAL, Table(("i", 38), ("i", 2), ("i", 128)), decimals(-1)),
    (DATE, Table(("h", 0)), numbers("i", 1)),
    (DATE, Table(("h", 1)), numbers("q", 86_400_000)),
    (TIME, Table(("h", 0), ("i", 32)), numbers("i", 1)),
    (TIME, Table(("h", 1), ("i", 32)), numbers("i", 2)),
    (TIME, Table(("h", 2), ("i", 64)), numbers("q", 3)),
    (TIME, Table(("h", 3), ("i", 64)), numbers("q", 4)),
    (TIMESTAMP, Table(("h", 0)), numbers("q", -1)),
    (TIMESTAMP, Table(("h", 1), Text("UTC")), numbers("q", -2)),
    (TIMESTAMP, Table(("h", 2)), numbers("q", -3)),
    (TIMESTAMP, Table(("h", 3)), numbers("q", -4)),
    (DURATION, Table(("h", 0)), numbers("q", 1)),
    (DURATION, Table(("h", 1)), numbers("q", 2)),
    (DURATION, Table(("h", 2)), numbers("q", 3)),
    (DURATION, Table(("h", 3)), numbers("q", 4)),
    (FIXED, Table(("i", 3)), b"\x01\x02\x03"),
)


def of_one_row():
    fields = [field(chr(ord("a") + at), kind, of) for at, (kind, of, _) in enumerate(FIXED_WIDTH)]
    row = batch(1, [1] * len(fields), [it for _, _, value in FIXED_WIDTH for it in (b"", value)])
    yield Stream("FIXED_WIDTH", "One row of each fixed-width type, in each of its units.", [schema(fields), row, END_MARK])
    large = [
        field("t", LARGE_UTF8),
        field("b", LARGE_BINARY),
        field("l", LARGE_LIST, children=[field("item", INT, integer(8, 0))]),
    ]
    buffers = [b"", numbers(INT64, 0, 2), "é".encode(), b"", numbers(INT64, 0, 2), b"\xff\x00", b"", numbers(INT64, 0, 1), b"", b"\xff"]
    row = batch(1, [1, 1, 1, 1], buffers)
    yield Stream("LARGE", "One row with offsets of 64 bits: the text `é`, the bytes FF 00, a list of 255.", [schema(large), row, END_MARK])


def of_other_forms():
    """Forms that the streams above don't have."""
    held = batch(3, [(3, 1)], [b"\x05", numbers(INT32, 0, 1, 1, 1), b"\xff"])
    yield Stream("BYTES", "Bytes: FF, null, none.", [schema([field("b", BINARY)]), held, END_MARK])
    item = field("item", STRUCT, children=[field("s", LIST, children=[field("item", BOOL)])])
    column = schema([field("l", LIST, children=[item])])
    held = batch(2, [(2, 1), (2, 1), 2, 2], [b"\x01", numbers(INT32, 0, 2, 2), b"\x01", b"", numbers(INT32, 0, 1, 2), b"", b"\x01"])
    text = "Lists of structs of lists: two structs, of which the second is null, and a null."
    yield Stream("NESTED", text, [column, held, END_MARK])
    grown = [
        schema([coded("c", integer(8))]),
        brought(7, b"a"),
        brought(7, b"b", is_delta=1),
        batch(3, [(3, 1)], [b"\x03", b"\x00\x01\x00"]),
        brought(7, b"c"),
        batch(1, [1], [b"", b"\x00"]),
        END_MARK,
    ]
    yield Stream("GROWN", "Texts by int8 in a dictionary of `a`, then of `a` and `b`, then of `c` alone: `a`, `b`, null, `c`.", grown)


def of_levels():
    for depth, children, text in (
        (10, 2, "1,023 fields in 10 levels: each struct has two children, which are one table."),
        (11, 2, "The same in 11 levels: 2,047 fields."),
        (16, 1, "A column of 16 levels."),
        (17, 1, "A column of 17 levels."),
    ):
        yield Stream(f"LEVELS_{depth}", text, nested(depth, children))


def streams():
    for made in (of_sample, of_few_columns, of_dictionaries, of_values, of_messages, of_one_row, of_other_forms, of_levels):
        yield from made()


def named(name):
    return {it.name: it for it in streams()}[name]


def digits(message):
    """A message as a text of hexadecimal digits."""
    lines = (message[at : at + BYTES_A_LINE].hex().upper() for at in range(0, len(message), BYTES_A_LINE))
    return '        "' + "\\\n         ".join(lines) + '",'


def rattle(stream):
    """A stream as a constant."""
    return "\n".join((
        "",
        *textwrap.wrap(stream.text, WIDTH, initial_indent="/// ", subsequent_indent="/// "),
        f"pub const {stream.name}: HexStream = HexStream {{",
        f'    name: "{stream.name}",',
        "    messages: &[",
        *map(digits, stream.messages),
        "    ],",
        "};",
        "",
    ))


def main():
    text, path = HEAD + "".join(map(rattle, streams())), f"{ROOT}/{SOURCE}"
    if "--check" not in sys.argv:
        with open(path, "w", encoding="utf-8") as file:
            file.write(text)
        return 0
    with open(path, encoding="utf-8") as file:
        is_so = file.read() == text
    print(f"streams: {SOURCE} is {'' if is_so else 'not '}as tools/models/damage_streams.py writes it")
    return 0 if is_so else 1


if __name__ == "__main__":
    sys.exit(main())
