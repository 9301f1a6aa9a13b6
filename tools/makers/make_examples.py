#!/usr/bin/env python3
"""Makes the example streams as a producer of Arrow streams would: shipments, with dictionaries, sensors, with nested columns, and
the feeds of examples/report.

Needs Python 3.10 or later and its package `flatbuffers`, 2.0 or later (Debian: python3-flatbuffers), whose builder lays the
metadata out. The tables and their slots are those of Arrow's Schema.fbs and Message.fbs. Each run writes the same bytes, to the
folder that is named, or to examples/.
"""

import random
import struct
import sys
from dataclasses import dataclass, field
from datetime import datetime, timezone
from pathlib import Path

import flatbuffers

ALIGNMENT = 64
CONTINUATION = b"\xff\xff\xff\xff"
END_MARK = CONTINUATION + bytes(4)

VERSION_5 = 4
SCHEMA, DICTIONARY_BATCH, RECORD_BATCH = 1, 2, 3


# Tables of FlatBuffers.


@dataclass(frozen=True)
class Slot:
    """A slot of a table. The builder leaves it out where it has its default."""

    kind: str
    value: int
    default: int = 0


WIDTHS = {"Bool": 1, "Uint8": 1, "Int16": 2, "Int32": 4, "UOffsetTRelative": 4, "Int64": 8}


def reference(place):
    """A slot that leads to what was laid out at `place`, or to nothing where that is 0."""
    return Slot("UOffsetTRelative", place)


def add_table(builder, *slots):
    """Adds the widest slots first, and of one width the last, as code that flatc made from a schema does."""
    builder.StartObject(len(slots))
    for number, slot in sorted(enumerate(slots), key=lambda each: (-WIDTHS[each[1].kind], -each[0])):
        getattr(builder, f"Prepend{slot.kind}Slot")(number, slot.value, slot.default)
    return builder.EndObject()


def add_vector(builder, places):
    builder.StartVector(4, len(places), 4)
    for place in reversed(places):
        builder.PrependUOffsetTRelative(place)
    return builder.EndVector()


def add_pairs(builder, pairs):
    """A vector of structs of two numbers of 64 bits: of nodes or of buffers."""
    builder.StartVector(16, len(pairs), 8)
    for first, second in reversed(pairs):
        builder.Prep(8, 16)
        builder.PrependInt64(second)
        builder.PrependInt64(first)
    return builder.EndVector()


# Types. Each has its number in the union `Type`, the slots of its table, its children, a value without content, and the
# buffers of an array of its values behind the validity. A null value is None.


class Type:
    kind: int
    empty: object
    children = ()

    def slots(self, builder):
        return []

    def parts(self, values):
        """The values of each child."""
        return []


class Number(Type):
    """Values of so many bytes. The bytes of a null have no meaning; here all bits are one."""

    width: int
    signed = True
    empty = 0

    def buffers(self, values):
        null = b"\xff" * self.width
        return [b"".join(null if value is None else value.to_bytes(self.width, "little", signed=self.signed) for value in values)]


@dataclass(frozen=True)
class Int(Number):
    kind = 2
    bits: int
    signed: bool = True

    @property
    def width(self):
        return self.bits // 8

    def slots(self, builder):
        return [Slot("Int32", self.bits), Slot("Bool", self.signed)]


@dataclass(frozen=True)
class Decimal(Number):
    kind = 7
    width = 16
    precision: int
    scale: int

    def slots(self, builder):
        return [Slot("Int32", self.precision), Slot("Int32", self.scale), Slot("Int32", 128, default=128)]


class Date32(Number):
    kind = 8
    width = 4

    def slots(self, builder):
        return [Slot("Int16", 0, default=1)]


@dataclass(frozen=True)
class Timestamp(Number):
    kind = 10
    width = 8
    unit: int
    zone: str = ""

    def slots(self, builder):
        return [Slot("Int16", self.unit), reference(builder.CreateString(self.zone) if self.zone else 0)]


class Bool(Type):
    kind = 6
    empty = False

    def buffers(self, values):
        return [bits(values)]


class Utf8(Type):
    kind = 5
    empty = ""

    def buffers(self, values):
        texts = [(value or "").encode() for value in values]
        return [offsets(texts), b"".join(texts)]


@dataclass(frozen=True)
class FixedSizeBinary(Type):
    kind = 15
    size: int

    @property
    def empty(self):
        return bytes(self.size)

    def slots(self, builder):
        return [Slot("Int32", self.size)]

    def buffers(self, values):
        return [b"".join(self.empty if value is None else value for value in values)]


class List(Type):
    kind = 12
    empty = ()

    def __init__(self, items):
        self.children = (Field("element", items),)

    def buffers(self, values):
        return [offsets([value or () for value in values])]

    def parts(self, values):
        return [[item for value in values for item in value or ()]]


class Struct(Type):
    kind = 13

    def __init__(self, **types):
        self.children = tuple(Field(name, each) for name, each in types.items())
        self.empty = tuple(each.empty for each in types.values())

    def buffers(self, values):
        return []

    def parts(self, values):
        held = [self.empty if value is None else value for value in values]
        return [[value[index] for value in held] for index in range(len(self.children))]


def bits(flags):
    """One bit a flag, the least significant first; none counts as false."""
    packed = bytearray((len(flags) + 7) // 8)
    for index, flag in enumerate(flags):
        packed[index // 8] |= bool(flag) << index % 8
    return bytes(packed)


def offsets(values):
    ends = [0]
    for value in values:
        ends.append(ends[-1] + len(value))
    return struct.pack(f"<{len(ends)}i", *ends)


# Fields and dictionaries.


@dataclass
class Dictionary:
    """The words of a field, as the dictionary batches so far make them."""

    number: int
    index: Int
    values: Type
    words: list = field(default_factory=list)

    def batch(self, words, delta=False):
        """The message that brings these words, in place of those that are there or behind them."""
        self.words = self.words + words if delta else words
        return dictionary_batch(self.number, self.values, words, delta)

    def indices(self, values):
        """A null is a slot without index, unless one of the words is null."""
        return [self.words.index(value) if value in self.words else None for value in values]


@dataclass
class Field:
    name: str
    type: Type
    nullable: bool = True
    dictionary: Dictionary | None = None
    metadata: dict = field(default_factory=dict)


def add_type(builder, kind):
    return add_table(builder, *kind.slots(builder))


def add_dictionary(builder, dictionary):
    index = add_type(builder, dictionary.index)
    return add_table(builder, Slot("Int64", dictionary.number), reference(index), Slot("Bool", False), Slot("Int16", 0))


def add_metadata(builder, metadata):
    pairs = []
    for key, value in metadata.items():
        texts = [builder.CreateString(key), builder.CreateString(value)]
        pairs.append(add_table(builder, *map(reference, texts)))
    return add_vector(builder, pairs)


def add_field(builder, each):
    name = builder.CreateString(each.name)
    places = [add_field(builder, child) for child in each.type.children]
    kind = add_type(builder, each.type)
    children = add_vector(builder, places)
    dictionary = add_dictionary(builder, each.dictionary) if each.dictionary else 0
    metadata = add_metadata(builder, each.metadata) if each.metadata else 0
    return add_table(
        builder,
        reference(name),
        Slot("Bool", each.nullable),
        Slot("Uint8", each.type.kind),
        reference(kind),
        reference(dictionary),
        reference(children),
        reference(metadata),
    )


# Messages.


def padded(data, ahead=0):
    """The data, filled up so that it ends at a multiple of the alignment where so many bytes stand ahead of it."""
    return data + bytes(-(ahead + len(data)) % ALIGNMENT)


def message(builder, kind, header, body=b""):
    whole = add_table(
        builder,
        Slot("Int16", VERSION_5),
        Slot("Uint8", kind),
        reference(header),
        Slot("Int64", len(body)),
        reference(0),
    )
    builder.Finish(whole)
    metadata = padded(bytes(builder.Output()), ahead=8)
    return CONTINUATION + struct.pack("<i", len(metadata)) + metadata + body


def schema(fields):
    builder = flatbuffers.Builder()
    places = add_vector(builder, [add_field(builder, each) for each in fields])
    return message(builder, SCHEMA, add_table(builder, Slot("Int16", 0), reference(places), reference(0), reference(0)))


def nodes_and_buffers(kind, values):
    """The nodes and the buffers of an array of these values and of all below it, from the top down."""
    nulls = values.count(None)
    nodes = [(len(values), nulls)]
    buffers = [bits([value is not None for value in values]) if nulls else b"", *kind.buffers(values)]
    for child, part in zip(kind.children, kind.parts(values)):
        below = nodes_and_buffers(child.type, part)
        nodes += below[0]
        buffers += below[1]
    return nodes, buffers


def placed(buffers):
    """The body that the buffers make, and the place and length of each in it."""
    body, spans = b"", []
    for buffer in buffers:
        spans.append((len(body), len(buffer)))
        body += padded(buffer)
    return body, spans


def add_batch(builder, columns):
    """A RecordBatch table over columns, each a type and its values; and the body that it tells of."""
    nodes, buffers = [], []
    for kind, values in columns:
        own = nodes_and_buffers(kind, values)
        nodes += own[0]
        buffers += own[1]
    body, spans = placed(buffers)
    places = [reference(add_pairs(builder, pairs)) for pairs in (nodes, spans)]
    return add_table(builder, Slot("Int64", nodes[0][0]), *places, reference(0), reference(0)), body


def stored(each, values):
    """What stands in a batch for a field's values: indices where it has a dictionary."""
    if each.dictionary is None:
        return each.type, values
    return each.dictionary.index, each.dictionary.indices(values)


def record_batch(fields, rows):
    builder = flatbuffers.Builder()
    header, body = add_batch(builder, [stored(each, values) for each, values in zip(fields, zip(*rows))])
    return message(builder, RECORD_BATCH, header, body)


def dictionary_batch(number, kind, words, delta):
    builder = flatbuffers.Builder()
    data, body = add_batch(builder, [(kind, words)])
    header = add_table(builder, Slot("Int64", number), reference(data), Slot("Bool", delta))
    return message(builder, DICTIONARY_BATCH, header, body)


# What the streams tell.


class Dice:
    """Choices that are the same in each run. They stand on `random()` alone, the one sequence that Python promises to keep."""

    def __init__(self, seed):
        self.random = random.Random(seed).random

    def below(self, bound):
        return int(self.random() * bound)

    def pick(self, choices):
        return choices[self.below(len(choices))]

    def rarely(self, value):
        """None once in twelve times, or else the value."""
        return None if self.below(12) == 0 else value


CARRIERS = ["Nordkap Linie", "Tideway", "Kestrel Freight", "São Vicente Cargas", "Halloran & Daughters"]
CARRIERS_LATER = ["Tideway", "Kestrel Nordkap", None, "Halloran & Daughters", "Øresund Feeder", "Meridian"]
PORTS = ["Rotterdam", "Singapore", "Valparaíso", "Gdańsk", "Durban", "Yokohama", "Halifax"]
PORTS_OPENED = ["Piraeus", "Montevideo", "Busan"]
PORTS_OPENED_LATER = ["Tórshavn", "Mombasa"]

MILLISECONDS, MICROSECONDS = 1, 2


class Shipments:
    """Two columns with dictionaries. That of the ports grows, that of the carriers is replaced."""

    def __init__(self, dice):
        self.dice = dice
        self.sent = 0
        self.time = int(datetime(2025, 3, 3, 6, 30, tzinfo=timezone.utc).timestamp() * 1000)
        self.carriers = Dictionary(0, Int(32), Utf8())
        self.ports = Dictionary(1, Int(8, signed=False), Utf8())
        self.fields = [
            Field("id", Int(64), nullable=False),
            Field("carrier", Utf8(), dictionary=self.carriers),
            Field("port", Utf8(), dictionary=self.ports),
            Field("weight", Decimal(9, 3), metadata={"unit": "kg"}),
            Field("when", Timestamp(MILLISECONDS, "UTC"), nullable=False),
        ]

    def row(self):
        self.sent += 1
        self.time += 60_000 + self.dice.below(5_400_000)
        return (
            700_000 + self.sent,
            self.dice.rarely(self.dice.pick(self.carriers.words)),
            self.dice.rarely(self.dice.pick(self.ports.words)),
            self.dice.rarely(250 + self.dice.below(28_000_000)),
            self.time,
        )

    def batch(self, rows):
        return record_batch(self.fields, [self.row() for _ in range(rows)])

    def stream(self, rows):
        """A batch of each of these four numbers of rows, among dictionaries, and an end mark."""
        first, second, third, fourth = rows
        return [
            schema(self.fields),
            self.carriers.batch(CARRIERS),
            self.ports.batch(PORTS),
            self.batch(first),
            self.ports.batch(PORTS_OPENED, delta=True),
            self.batch(second),
            self.carriers.batch(CARRIERS_LATER),
            self.batch(third),
            self.ports.batch(PORTS_OPENED_LATER, delta=True),
            self.batch(fourth),
            END_MARK,
        ]


STATIONS = ["Zugspitze", "Cabo da Roca", "Tórshavn", "Sodankylä", "Mauna Kea"]
READINGS = {"temperature": (-18_000, 52_000), "humidity": (20_000, 80_000), "pressure": (965_000, 70_000), "wind": (0, 31_000)}
TAGS = ["calibrated", "roof", "battery low", "ice", "night", "manual"]


class Sensors:
    """Columns of lists, of texts and of structs, and no end mark."""

    def __init__(self, dice):
        self.dice = dice
        self.time = int(datetime(2025, 1, 20, tzinfo=timezone.utc).timestamp() * 1_000_000)
        self.fields = [
            Field("station", Utf8(), nullable=False),
            Field("at", Timestamp(MICROSECONDS), nullable=False),
            Field("readings", List(Struct(name=Utf8(), value=Decimal(9, 3), ok=Bool()))),
            Field("tags", List(Utf8())),
            Field("raw", FixedSizeBinary(4), metadata={"meaning": "bytes of the device's status register"}),
            Field("day", Date32()),
        ]

    def reading(self, name):
        """A value is in thousandths of the reading's unit."""
        lowest, spread = READINGS[name]
        ok = self.dice.below(9) > 0
        value = lowest + self.dice.below(spread)
        return self.dice.rarely((name, value if ok else self.dice.rarely(value), ok))

    def row(self):
        self.time += 1 + self.dice.below(1_800_000_000)
        readings = [self.reading(name) for name in READINGS if self.dice.below(3) > 0]
        tags = [self.dice.rarely(self.dice.pick(TAGS)) for _ in range(self.dice.below(4))]
        raw = bytes(self.dice.below(256) for _ in range(4))
        return (
            self.dice.pick(STATIONS),
            self.time,
            self.dice.rarely(readings),
            self.dice.rarely(tags),
            self.dice.rarely(raw),
            self.dice.rarely(self.time // 86_400_000_000),
        )

    def stream(self, rows):
        """A batch of each of these numbers of rows."""
        batches = [record_batch(self.fields, [self.row() for _ in range(each)]) for each in rows]
        return [schema(self.fields), *batches]


HARBOURS = ["Halifax", "Gdańsk", "Durban"]


def report_feeds():
    """The countries of harbours; calls at harbours, in two batches; a call that is withdrawn, and once more with its right weight."""
    port = Dictionary(3, Int(8), Utf8())
    fields = [Field("id", Int(64), nullable=False), Field("port", Utf8(), dictionary=port), Field("tonnes", Decimal(9, 3))]
    first = [(1, "Halifax", 21_500_000), (2, "Durban", 7_250_000), (3, "Halifax", None)]
    second = [(4, "Gdańsk", 1_300_000), (5, "Durban", 18_000_250)]
    keys = fields[:1]
    plain = [fields[0], Field("port", Utf8()), fields[2]]
    countries = [Field("port", Utf8()), Field("country", Utf8())]
    places = list(zip(HARBOURS, ["Canada", "Poland", "South Africa"]))
    return {
        "ports": [schema(countries), record_batch(countries, places), END_MARK],
        "calls": [schema(fields), port.batch(HARBOURS), record_batch(fields, first), record_batch(fields, second), END_MARK],
        "withdrawn": [schema(keys), record_batch(keys, [(4,)]), END_MARK],
        "corrected": [schema(plain), record_batch(plain, [(4, "Gdańsk", 13_000_000)]), END_MARK],
    }


def main():
    folder = Path(sys.argv[1]) if len(sys.argv) > 1 else Path(__file__).resolve().parents[2] / "examples"
    streams = {
        "shipments": Shipments(Dice(11)).stream([96, 131, 84, 57]),
        "sensors": Sensors(Dice(12)).stream([80, 47, 113]),
    }
    streams |= {f"report/{name}": pieces for name, pieces in report_feeds().items()}
    for name, pieces in streams.items():
        path = folder / f"{name}.arrows"
        path.parent.mkdir(exist_ok=True)
        path.write_bytes(b"".join(pieces))


if __name__ == "__main__":
    main()
