"""Types, values and canonical streams, from what docs/FORMAT.md says. Nothing here is taken from lv: it is what lv is compared with.

Values are Python's: None is a null, an int a number, a date, a time or a decimal by its digits; texts and bytes are bytes, lists are lists,
and structs tuples.
"""
import struct
from dataclasses import dataclass

from limits import BATCH_ROWS

END_MARK = bytes.fromhex("ffffffff00000000")
SCHEMA, DICTIONARY_BATCH, RECORD_BATCH = 1, 2, 3
UNITS = ("s", "ms", "us", "ns")


class Table:
    """A FlatBuffers table: a slot is bytes that stand inline, another object that it refers to, or None where it is absent."""

    def __init__(self, *slots):
        self.slots = slots

    def place(self, out):
        vtable = aligned(out, 8)
        out += bytes(4 + 2 * len(self.slots))
        table = aligned(out, 8)
        places, end = [], 4
        for slot in self.slots:
            width = 0 if slot is None else len(slot) if isinstance(slot, bytes) else 4
            end = -(-end // width) * width if width else end
            places.append(end if width else 0)
            end += width
        size = -(-end // 4) * 4
        out += bytes(size)
        struct.pack_into(f"<HH{len(places)}H", out, vtable, 4 + 2 * len(places), size, *places)
        struct.pack_into("<i", out, table, table - vtable)
        for place, slot in zip(places, self.slots):
            if isinstance(slot, bytes):
                out[table + place : table + place + len(slot)] = slot
            elif slot is not None:
                struct.pack_into("<I", out, table + place, slot.place(out) - table - place)
        return table


class Vector:
    """A vector of objects."""

    def __init__(self, items):
        self.items = items

    def place(self, out):
        at = aligned(out, 8, 4)
        out += struct.pack("<I", len(self.items)) + bytes(4 * len(self.items))
        for index, item in enumerate(self.items):
            place = at + 4 + 4 * index
            struct.pack_into("<I", out, place, item.place(out) - place)
        return at


class Bytes:
    """A vector whose elements stand inline, or a string."""

    def __init__(self, count, data):
        self.count, self.data = count, data

    def place(self, out):
        at = aligned(out, 8, 4)
        out += struct.pack("<I", self.count) + self.data
        return at


class Metadata(bytearray):
    """Metadata in the making, with zeros between its objects."""

    def fill(self, count):
        self.extend(bytes(count))


def aligned(out, width, rest=0):
    out.fill((rest - len(out)) % width)
    return len(out)


def half(number):
    return struct.pack("<h", number)


def word(number):
    return struct.pack("<i", number)


def long(number):
    return struct.pack("<q", number)


def text(held):
    return Bytes(len(held), held + b"\0")


def pairs(items):
    return Bytes(len(items), b"".join(long(a) + long(b) for a, b in items))


def message(kind, header, body):
    out = Metadata(4)
    root = Table(half(4), bytes([kind]), header, long(len(body))).place(out)
    struct.pack_into("<I", out, 0, root)
    aligned(out, 8)
    return b"\xff\xff\xff\xff" + word(len(out)) + bytes(out) + body


@dataclass(frozen=True)
class Type:
    """A logical type: its kind and the slots of its table, its name without its children, how a slot is laid out, and its children."""

    kind: int
    slots: tuple
    name: str
    layout: str
    width: int = 0
    signed: bool = True
    children: tuple = ()


BOOL = Type(6, (), "bool", "bits")
UTF8 = Type(5, (), "utf8", "bytes")
BINARY = Type(4, (), "binary", "bytes")


def integer(bits, signed=True):
    return Type(2, (word(bits), bytes([signed])), f"{'' if signed else 'u'}int{bits}", "number", bits // 8, signed)


INDEX = integer(32)


def decimal(precision, scale):
    return Type(7, (word(precision), word(scale), word(128)), f"decimal[{precision}, {scale}]", "number", 16)


def date(unit):
    return Type(8, (half(unit),), ("date32", "date64")[unit], "number", (4, 8)[unit])


def time(unit):
    bits = (32, 32, 64, 64)[unit]
    return Type(9, (half(unit), word(bits)), f"time{bits}[{UNITS[unit]}]", "number", bits // 8)


def timestamp(unit, zone=""):
    slots = (half(unit), text(zone.encode()) if zone else None)
    return Type(10, slots, f"timestamp[{UNITS[unit]}{f', {zone}' * bool(zone)}]", "number", 8)


def duration(unit):
    return Type(18, (half(unit),), f"duration[{UNITS[unit]}]", "number", 8)


def fixed(width):
    return Type(15, (word(width),), f"fixed[{width}]", "fixed", width)


def list_of(item):
    return Type(12, (), "list", "list", children=(("item", item),))


def struct_of(*children):
    return Type(13, (), "struct", "struct", children=children)


def field(name, type_, encoding=None):
    children = Vector([field(*it) for it in type_.children])
    return Table(text(name.encode()), b"\1", bytes([type_.kind]), Table(*type_.slots), encoding, children)


def encoding(number):
    """What the field of a coded column says of its dictionary: its id, which is the column's position, the indices' type, that its values
    aren't ordered, and the kind of dictionary."""
    return Table(long(number), Table(*INDEX.slots), b"\0", half(0))


def bits(truths):
    number = sum(1 << place for place, it in enumerate(truths) if it)
    return number.to_bytes(-(-len(truths) // 8), "little")


def offsets(lengths):
    ends = [0]
    for it in lengths:
        ends.append(ends[-1] + it)
    return struct.pack(f"<{len(ends)}i", *ends)


def arrays(type_, values):
    """The array of some values and those of its children: the length of each, its nulls and its own buffers."""
    nulls = sum(it is None for it in values)
    below, own = [], []
    if type_.layout == "bits":
        own = [bits(values)]
    elif type_.layout == "number":
        own = [b"".join((it or 0).to_bytes(type_.width, "little", signed=type_.signed) for it in values)]
    elif type_.layout == "fixed":
        own = [b"".join(it or bytes(type_.width) for it in values)]
    elif type_.layout == "bytes":
        own = [offsets([len(it or b"") for it in values]), b"".join(it or b"" for it in values)]
    elif type_.layout == "list":
        own = [offsets([len(it or []) for it in values])]
        below = [(type_.children[0][1], [item for it in values for item in it or []])]
    else:
        below = [(child, [it and it[at] for it in values]) for at, (_, child) in enumerate(type_.children)]
    yield len(values), nulls, [bits([it is not None for it in values]) if nulls else b"", *own]
    for child, held in below:
        yield from arrays(child, held)


def record(columns, rows):
    """The table of a batch, and its body."""
    nodes, spans, body = [], [], Metadata()
    for at, (_, type_) in enumerate(columns):
        for length, nulls, buffers in arrays(type_, [row[at] for row in rows]):
            nodes.append((length, nulls))
            for held in buffers:
                spans.append((aligned(body, 8), len(held)))
                body += held
    aligned(body, 8)
    return Table(long(len(rows)), pairs(nodes), pairs(spans)), bytes(body)


def dictionary_batch(number, values):
    """The values of a dictionary, in place of those that it had."""
    table, body = record([("", UTF8)], [[it] for it in values])
    return message(DICTIONARY_BATCH, Table(long(number), table, b"\0"), body)


def batch(columns, rows, coded=()):
    """A batch, before which the dictionary of each coded column stands: its texts in this batch, each once, where it is first."""
    columns, rows, dictionaries = [*columns], [[*row] for row in rows], b""
    for at in sorted(coded):
        values = [*dict.fromkeys(row[at] for row in rows if row[at] is not None)]
        indices = {it: index for index, it in enumerate(values)}
        dictionaries += dictionary_batch(at, values)
        columns[at] = (columns[at][0], INDEX)
        for row in rows:
            row[at] = indices.get(row[at])
    return dictionaries + message(RECORD_BATCH, *record(columns, rows))


def schema(columns, coded=()):
    fields = [field(*it, encoding(at) if at in coded else None) for at, it in enumerate(columns)]
    return message(SCHEMA, Table(half(0), Vector(fields)), b"")


def stream(columns, batches, coded=()):
    """The canonical stream of some columns, each a name and a type, with these batches; `coded` are the positions of coded columns."""
    return schema(columns, coded) + b"".join(batch(columns, rows, coded) for rows in batches) + END_MARK


def stream_of_rows(columns, rows, coded=()):
    """The canonical stream of a table whose rows are light."""
    return stream(columns, [rows[at : at + BATCH_ROWS] for at in range(0, len(rows), BATCH_ROWS)], coded)
