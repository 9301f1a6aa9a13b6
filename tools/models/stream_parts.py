"""The parts of a stream in the making: fields as they are stored, tables, arrays, batches and messages. What they hold can be changed until
their bytes are made, so that they can be at fault.
"""
import struct
from dataclasses import dataclass, field

import canonical
from canonical import Metadata, Table, Vector, half, long, pairs, word


@dataclass
class Dictionary:
    """What a field's indices refer to: an id, the index type, None where it is left out, and the values of now."""

    id: int
    index: object
    values: list = field(default_factory=list)

    def index_type(self):
        return self.index or canonical.integer(32)


@dataclass
class Stored:
    """A field as a stream has it: a logical type in one of its forms, under any name where it is a list's child."""

    name: str
    type: canonical.Type
    is_large: bool
    dictionary: Dictionary
    children: list

    def text(self):
        """The type as inspect prints it."""
        large = "large_" * self.is_large
        if self.type.layout == "list":
            return f"{large}list[{self.children[0].text()}]"
        if self.type.layout == "struct":
            return f"struct[{', '.join(f'{it.name}: {it.text()}' for it in self.children)}]"
        return f"{large}{self.type.name}"

    def has_offsets(self):
        return self.dictionary is None and self.type.layout in ("bytes", "list")

    def is_text(self):
        return self.dictionary is None and self.type is canonical.UTF8

    def is_decimal(self):
        return self.dictionary is None and self.type.kind == 7


class Loose(Metadata):
    """Metadata with any bytes between its objects."""

    def __init__(self, count, chance):
        super().__init__(count)
        self.random = chance

    def fill(self, _count):
        self.extend(self.random.randbytes(self.random.choice((0, 0, 0, 1, 3, 8))))


class Part(Table):
    """A table that says what it is, whose slots can be changed, and that is placed once, wherever it is referred to."""

    def __init__(self, what, *slots):
        super().__init__(*slots)
        self.what, self.at, self.out = what, 0, None

    def set(self, slot, held):
        slots = [*self.slots, *[None] * (slot + 1 - len(self.slots))]
        slots[slot] = held
        self.slots = tuple(slots)

    def place(self, out):
        if self.out is not out:
            self.at, self.out = super().place(out), out
        return self.at

    def vtable(self, out):
        return self.at - struct.unpack_from("<i", out, self.at)[0]

    def slot(self, out, number):
        """Where what a slot holds stands in the metadata."""
        return self.at + struct.unpack_from("<H", out, self.vtable(out) + 4 + 2 * number)[0]

    def parts(self, owner=None):
        """This table and those below it, each with the field of which it says something."""
        owner = self if self.what == "Field" else owner
        yield self, owner
        for held in self.slots:
            for it in held.items if isinstance(held, Vector) else [held]:
                if isinstance(it, Part):
                    yield from it.parts(owner)


class Pairs:
    """A vector of pairs of numbers."""

    def __init__(self, items):
        self.items = items

    def place(self, out):
        return pairs(self.items).place(out)


@dataclass
class Array:
    """An array of a batch: which of its slots are valid, which are reached, and its buffers, the validity first. `ends` are its offsets,
    `known` is how many values its dictionary has, and `above` the array of the struct whose child it is."""

    stored: Stored
    valid: list
    reached: list
    above: object = None
    buffers: list = field(default_factory=list)
    ends: list = field(default_factory=list)
    known: int = 0
    column: int = 0
    is_column: bool = False
    # Its places among the nodes and the buffers of the batch.
    node: int = 0
    span: int = 0

    def width(self):
        """How many bytes a slot or an offset takes."""
        if self.stored.dictionary:
            return self.stored.dictionary.index_type().width
        if self.stored.has_offsets():
            return 8 if self.stored.is_large else 4
        return self.stored.type.width

    def needed(self, which):
        """How long a buffer must be, be it the validity, which is number 0, or what comes behind it."""
        count = len(self.valid)
        if not count or which > 1:
            return 0
        if which == 0 or (self.stored.type.layout == "bits" and not self.stored.dictionary):
            return -(-count // 8)
        return (count + self.stored.has_offsets()) * self.width()


class Record:
    """A batch's nodes, and its buffers in a body, in which they lie in any order, with any bytes between them and at their ends."""

    def __init__(self, chance, rows, arrays):
        self.rows, self.arrays, self.body = rows, arrays, bytearray()
        buffers = []
        for node, it in enumerate(arrays):
            it.node, it.span = node, len(buffers)
            buffers += it.buffers
        self.nodes = [[len(it.valid), it.valid.count(False)] for it in arrays]
        self.spans = [None] * len(buffers)
        for at in chance.sample(range(len(buffers)), len(buffers)):
            self.body += chance.randbytes(chance.choice((0, 0, 1, 8)))
            more = chance.choice((0, 0, 2)) * (len(buffers[at]) > 0)
            self.spans[at] = [len(self.body), len(buffers[at]) + more]
            self.body += buffers[at] + chance.randbytes(more)
        self.places = [place for place, _ in self.spans]
        length = long(rows) if rows or chance.random() < 0.5 else None
        self.part = Part("RecordBatch", length, Pairs(self.nodes), Pairs(self.spans))

    def put(self, array, which, at, data):
        """Puts other bytes into a buffer of an array, at a place in it."""
        first = self.places[array.span + which] + at
        self.body[first : first + len(data)] = data

    def byte(self, array, which, at):
        return self.body[self.places[array.span + which] + at]

    def put_offset(self, array, number, offset):
        width = array.width()
        self.put(array, 1, width * number, offset.to_bytes(width, "little", signed=True))


class Message:
    """A message in the making, with what inspect prints of it. One without a header is an end mark; one with bytes is no message, but what
    comes after the end mark, or nothing at all. `changes` are done to the metadata once all of it is placed."""

    def __init__(self, chance, kind, lines, header=None, record=None, body=b"", held=None):
        self.random, self.kind, self.lines, self.header, self.record = chance, kind, lines, header, record
        self.mark, self.size, self.changes, self.held = b"\xff\xff\xff\xff", None, [], held
        self.body, self.fields, self.cut = record.body if record else body, [], None
        length = long(len(self.body)) if self.body or chance.random() < 0.5 else None
        more = [Vector([])] * (chance.random() < 0.2)
        self.root = Part("Message", half(chance.choice((3, 4))), bytes([kind]), header, length, *more) if header else None

    def metadata(self):
        if self.root is None:
            return b""
        out = Loose(4, self.random)
        struct.pack_into("<I", out, 0, self.root.place(out))
        out.fill(8)
        for part, change in self.changes:
            if part.out is out:
                change(out)
        return bytes(out)

    def made(self):
        """The bytes of the message; where it is cut, some of its beginning, which end in the part that `cut` numbers."""
        if self.held is not None:
            return self.held
        metadata = self.metadata()
        parts = [self.mark + word(len(metadata) if self.size is None else self.size), metadata, bytes(self.body)]
        if self.cut is None:
            return b"".join(parts)
        before, last = b"".join(parts[: self.cut]), parts[self.cut]
        return before + last[: self.random.randrange(self.cut == 0, len(last))]
