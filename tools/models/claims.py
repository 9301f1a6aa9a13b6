"""Lays out streams, at will also such as claim much and hold little: few bytes that mean many values, items, rows or fields."""
import struct

END_MARK = bytes.fromhex("ffffffff00000000")
VERSION_5 = 4
SCHEMA, DICTIONARY_BATCH, RECORD_BATCH = 1, 2, 3
INT, BINARY, UTF8, BOOL, DECIMAL, DATE, TIME, TIMESTAMP, LIST, STRUCT, FIXED = 2, 4, 5, 6, 7, 8, 9, 10, 12, 13, 15
DURATION, LARGE_BINARY, LARGE_UTF8, LARGE_LIST = 18, 19, 20, 21


class Flatbuffer:
    """Metadata in the making. An object that is placed twice stands once, and so does the vtable of tables that are laid out alike."""

    def __init__(self):
        self.bytes, self.places, self.vtables = bytearray(4), {}, {}

    def finished(self, root):
        self.refer(0, root)
        self.fill(8)
        return bytes(self.bytes)

    def fill(self, width, past=0):
        self.bytes += bytes(-(len(self.bytes) + past) % width)

    def refer(self, at, target):
        struct.pack_into("<I", self.bytes, at, self.place(target) - at)

    def place(self, target):
        if id(target) not in self.places:
            self.places[id(target)] = target.put(self)
        return self.places[id(target)]

    def place_vtable(self, vtable):
        if vtable not in self.vtables:
            self.fill(2)
            self.vtables[vtable] = len(self.bytes)
            self.bytes += vtable
        return self.vtables[vtable]


class Table:
    """A table by its slots: a number with its format, another object, or nothing."""

    def __init__(self, *slots):
        self.slots = slots

    def put(self, out):
        formats = [None if it is None else it[0] if isinstance(it, tuple) else "I" for it in self.slots]
        places, size = [], 4
        for it in formats:
            width = struct.calcsize(it) if it else 1
            size += -size % width if it else 0
            places.append(size if it else 0)
            size += width if it else 0
        vtable = out.place_vtable(struct.pack(f"<{len(places) + 2}H", 4 + 2 * len(places), size, *places))
        out.fill(8)
        at = len(out.bytes)
        out.bytes += struct.pack("<i", at - vtable) + bytes(size - 4)
        for it, place in zip(self.slots, places):
            if isinstance(it, tuple):
                struct.pack_into(f"<{it[0]}", out.bytes, at + place, it[1])
        for it, place in zip(self.slots, places):
            if it is not None and not isinstance(it, tuple):
                out.refer(at + place, it)
        return at


class Vector:
    """A vector of objects."""

    def __init__(self, *items):
        self.items = items

    def put(self, out):
        out.fill(4)
        at = len(out.bytes)
        out.bytes += struct.pack("<I", len(self.items)) + bytes(4 * len(self.items))
        for index, it in enumerate(self.items):
            out.refer(at + 4 + 4 * index, it)
        return at


class Numbers:
    """A vector of structs of 64-bit numbers, of which so many are claimed."""

    def __init__(self, numbers, each, claimed=None):
        self.numbers, self.count = numbers, len(numbers) // each if claimed is None else claimed

    def put(self, out):
        out.fill(8, 4)
        at = len(out.bytes)
        out.bytes += struct.pack(f"<I{len(self.numbers)}q", self.count, *self.numbers)
        return at


class Text:
    def __init__(self, text):
        self.text = text.encode()

    def put(self, out):
        out.fill(4)
        at = len(out.bytes)
        out.bytes += struct.pack("<I", len(self.text)) + self.text + b"\0"
        return at


def message(kind, header, body=b""):
    metadata = Flatbuffer().finished(Table(("h", VERSION_5), ("B", kind), header, ("q", len(body))))
    return b"\xff\xff\xff\xff" + struct.pack("<I", len(metadata)) + metadata + body


def integer(bits, is_signed=1):
    return Table(("i", bits), ("B", is_signed))


def field(name, kind, of=None, children=(), dictionary=None, index=None):
    encoding = None if dictionary is None else Table(("q", dictionary), index or integer(32))
    return Table(Text(name), ("B", 1), ("B", kind), of or Table(), encoding, Vector(*children))


def fixed_bytes(name, width, dictionary=None):
    return field(name, FIXED, Table(("i", width)), dictionary=dictionary)


def empty_bytes(name, dictionary=None):
    """A field whose values have no byte."""
    return fixed_bytes(name, 0, dictionary)


def empty_struct(name):
    return field(name, STRUCT)


def list_of(name, item):
    return field(name, LIST, children=[item])


def nested(depth, children):
    """The stream of one column of so many levels, of structs of so many children, which are one table, and an integer at the bottom."""
    made = field("i", INT, integer(64))
    for _ in range(depth - 1):
        made = field("s", STRUCT, children=[made] * children)
    return [schema([made]), END_MARK]


def schema(fields, body=b""):
    return message(SCHEMA, Table(("h", 0), Vector(*fields)), body)


def filled(data):
    return data + bytes(-len(data) % 8)


def batch_table(rows, nodes, buffers):
    """A batch of so many rows: each array's length, or its length and the number of its nulls, and all buffers."""
    body, ranges = b"", []
    for it in buffers:
        ranges += [len(body), len(it)]
        body += filled(it)
    lengths = [number for it in nodes for number in (it if isinstance(it, tuple) else (it, 0))]
    return Table(("q", rows), Numbers(lengths, 2), Numbers(ranges, 2)), body


def batch(rows, nodes, buffers):
    return message(RECORD_BATCH, *batch_table(rows, nodes, buffers))


def dictionary_batch(number, count, buffers, is_delta=0, nulls=0):
    header, body = batch_table(count, [(count, nulls)], buffers)
    return message(DICTIONARY_BATCH, Table(("q", number), header, ("B", is_delta)), body)


def offsets(*numbers):
    return struct.pack(f"<{len(numbers)}i", *numbers)
