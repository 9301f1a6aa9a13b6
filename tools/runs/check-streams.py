#!/usr/bin/env python3
"""Recasts and inspects random streams of all types, written in many of the ways that docs/FORMAT.md allows, and compares what comes of
them with the canonical stream of the rows that they mean (models/canonical.py) and the lines of their messages. Every other stream has a
fault or two (models/stream_faults.py), for which it must be refused, and for no other cause.
"""
import os
import random
import struct
import subprocess
import sys
from dataclasses import replace

sys.dont_write_bytecode = True
sys.path.insert(1, f"{sys.path[0]}/../models")
import canonical
import stream_faults
from canonical import Bytes, Vector, half, long, word
from limits import MOST_NAME
from random_runs import compare
from stream_parts import Array, Dictionary, Message, Part, Record, Stored

TEXTS = ("", "a", "ab", "é", "漢字", "𝄞", "x" * 40)
# The kinds whose offsets have 64 bits, by those whose offsets have 32.
LARGE = {4: 19, 5: 20, 12: 21}
# The defaults of the slots of a type's table, by the kind of the type; an empty text for a slot that has none.
DEFAULTS = {7: (b"", b"", word(128)), 8: (half(1),), 9: (half(1), word(32)), 10: (half(0),), 18: (half(1),)}


class Stream:
    """A stream in the making, with the columns and the rows that it means, and what inspect prints of it."""

    def __init__(self, number):
        self.random, self.dictionaries = random.Random(number), []
        # Some streams have columns that are coded as lv writes them.
        self.is_written = self.chance(0.2)
        self.columns = [(self.name(), self.type(3)) for _ in range(self.random.randint(0, 5))]
        if self.is_written:
            self.columns = [(name, canonical.UTF8 if self.chance(0.5) else it) for name, it in self.columns]
        self.stored = [self.written(*it, at) if self.is_written else self.stored_as(*it) for at, it in enumerate(self.columns)]
        self.rows, self.messages = [], [self.schema_message()]
        for _ in range(self.random.randint(0, 4)):
            self.messages += self.written_batch() if self.is_written else self.loose_batch()
        if self.chance(0.7):
            self.messages.append(Message(self.random, 0, ["end"]))
        for it in self.messages:
            if it.record and self.chance(0.7):
                stream_faults.spoil_unread(it.record, self.random)
        refused, self.causes = stream_faults.spoil(self) if number % 2 else (None, set())
        self.bytes, self.lines = b"", []
        for it in self.messages:
            self.bytes += it.made()
            if it.cut is not None:
                break
        for it in self.messages:
            if it is refused:
                break
            self.lines += it.lines
        if not self.causes and self.messages[-1].root:
            self.lines.append("end of input")

    def chance(self, part):
        return self.random.random() < part

    def name(self):
        if self.chance(0.005):
            return "x" * MOST_NAME
        return "".join(self.random.choices("aBé漢", k=self.random.randrange(10)))

    def type(self, depth):
        """A type of at most so many levels."""
        unit, one = self.random.randrange(4), self.random.random()
        simple = [
            canonical.BOOL, canonical.UTF8, canonical.BINARY, canonical.integer(self.random.choice((8, 16, 32, 64)), self.chance(0.5)),
            canonical.decimal(self.random.choice((1, 9, 38)), self.random.randint(0, 1)), canonical.date(unit % 2), canonical.time(unit),
            canonical.timestamp(unit, self.random.choice(("", "UTC", "Europe/Berlin"))), canonical.duration(unit),
            canonical.fixed(self.random.choice((0, 1, 5))),
        ]
        if depth > 1 and one < 0.5:
            if one < 0.25:
                return canonical.list_of(self.type(depth - 1))
            return canonical.struct_of(*((self.name(), self.type(depth - 1)) for _ in range(self.random.randint(0, 3))))
        return self.random.choice(simple)

    def stored_as(self, name, type_):
        is_large = type_.kind in LARGE and self.chance(0.3)
        dictionary = None
        if type_.layout not in ("list", "struct") and self.chance(0.3):
            index = None if self.chance(0.2) else canonical.integer(self.random.choice((8, 16, 32, 64)), self.chance(0.5))
            dictionary = Dictionary(self.random.choice((0, 7, -1)) + 100 * len(self.dictionaries), index)
            for it in self.dictionaries:
                if it.type is type_ and it.is_large == is_large:
                    # Fields may share a dictionary.
                    dictionary.id, dictionary.values = it.dictionary.id, it.dictionary.values
        children = [self.stored_as(self.name() if type_.layout == "list" else of, it) for of, it in type_.children]
        stored = Stored(name, type_, is_large, dictionary, children)
        self.dictionaries += [stored] * (dictionary is not None)
        return stored

    def written(self, name, type_, at=None):
        """A field as lv writes it: a column at this place, which may have a dictionary of its own, or one below a column."""
        is_coded = at is not None and type_ is canonical.UTF8 and self.chance(0.8)
        dictionary = Dictionary(at, canonical.INDEX) if is_coded else None
        stored = Stored(name, type_, False, dictionary, [self.written(*it) for it in type_.children])
        self.dictionaries += [stored] * (dictionary is not None)
        return stored

    # The metadata

    def schema_message(self):
        lines, fields = [f"schema fields={len(self.columns)}"], []
        for it in self.stored:
            lines.append(f"field {it.name} {it.text()}{f' dict={it.dictionary.id}' if it.dictionary else ''}")
        columns = Vector([self.field(it, fields) for it in self.stored])
        header = Part("Schema", self.random.choice((half(0), None)), columns)
        message = Message(self.random, canonical.SCHEMA, lines, header, body=self.random.randbytes(self.random.choice((0, 0, 0, 5))))
        message.fields = fields
        return message

    def field(self, stored, fields):
        """The table of a field; it goes to the others, with those below it."""
        kind = LARGE[stored.type.kind] if stored.is_large else stored.type.kind
        defaults = DEFAULTS.get(kind, ())
        slots = [None if it in defaults[at : at + 1] and self.chance(0.5) else it for at, it in enumerate(stored.type.slots)]
        name = Bytes(len(stored.name.encode()), stored.name.encode()) if stored.name or self.chance(0.5) else None
        children = Vector([self.field(it, fields) for it in stored.children]) if stored.children or self.chance(0.5) else None
        nullable = self.random.choice((None, b"\0", b"\1"))
        part = Part("Field", name, nullable, bytes([kind]), Part("Type", *slots), self.encoding(stored.dictionary), children)
        fields.append((stored, part))
        return part

    def encoding(self, dictionary):
        if dictionary is None:
            return None
        if self.is_written:
            return Part("DictionaryEncoding", long(dictionary.id), Part("Type", *canonical.INDEX.slots), b"\0", half(0))
        number = long(dictionary.id) if dictionary.id or self.chance(0.5) else None
        index = None if dictionary.index is None else Part("Type", *dictionary.index.slots)
        return Part("DictionaryEncoding", number, index, self.random.choice((None, b"\0", b"\1")), self.random.choice((None, half(0))))

    def loose_batch(self):
        """A batch, before it perhaps some of values."""
        return [self.values(it) for it in self.dictionaries if self.chance(0.6)] + [self.batch()]

    def values(self, stored):
        """A batch of values, in place of those that are there or behind them."""
        held, is_delta = stored.dictionary.values, self.chance(0.5)
        values, arrays = self.column(replace(stored, dictionary=None), self.random.randint(0, 4))
        arrays[0].known = len(held) * is_delta
        held[:] = held * is_delta + values
        return self.dictionary_message(stored.dictionary, len(values), arrays, is_delta)

    def written_batch(self):
        """A batch as lv writes it: before it one of values for each coded column, which has the texts of this batch, each once, where it is
        first, and no null."""
        for it in self.dictionaries:
            it.dictionary.values[:] = [text.encode() for text in self.random.sample(TEXTS, len(TEXTS))]
        batch = self.batch()
        return [self.written_values(it) for it in self.dictionaries] + [batch]

    def written_values(self, stored):
        held = stored.dictionary.values
        array = Array(replace(stored, dictionary=None), [True] * len(held), [True] * len(held), is_column=True)
        own = self.offsets(array, [len(it) for it in held])
        array.buffers = [b"", own, b"\x80" * array.ends[0] + b"".join(held)]
        return self.dictionary_message(stored.dictionary, len(held), [array], False)

    def dictionary_message(self, dictionary, count, arrays, is_delta):
        record = Record(self.random, count, arrays)
        number = long(dictionary.id) if dictionary.id or self.chance(0.5) else None
        delta = bytes([is_delta]) if is_delta or self.chance(0.5) else None
        header = Part("DictionaryBatch", number, record.part, delta)
        lines = [f"dictionary id={dictionary.id} delta={str(is_delta).lower()} values={count}"]
        return Message(self.random, canonical.DICTIONARY_BATCH, lines, header, record)

    def batch(self):
        count = self.random.choice((0, 1, 3, 9, 1500))
        made = [self.column(it, count, at) for at, it in enumerate(self.stored)]
        self.rows += [[values[at] for values, _ in made] for at in range(count)]
        record = Record(self.random, count, [it for _, arrays in made for it in arrays])
        lines = [f"batch rows={count} body={len(record.body)}"]
        return Message(self.random, canonical.RECORD_BATCH, lines, record.part, record)

    # Arrays

    def column(self, stored, count, number=0):
        values, arrays = self.slots(stored, [True] * count)
        arrays[0].is_column = True
        for it in arrays:
            it.column = number
        return values, arrays

    def slots(self, stored, reached, above=None):
        """The values of some slots, and the arrays in which they lie, of which `above` is the struct that has them."""
        has_none = stored.dictionary is not None and not stored.dictionary.values
        part = 1 if has_none else self.random.choice((0, 0.2, 0.9))
        valid = [not self.chance(part) for _ in reached]
        array = Array(stored, valid, reached, above)
        make = self.indices if stored.dictionary else getattr(self, f"{stored.type.layout}_slots")
        values, own, below = make(array)
        shown = [it if is_valid else None for it, is_valid in zip(values, valid)]
        bits = canonical.bits(valid + [self.chance(0.5) for _ in range(-len(valid) % 8)])
        array.buffers = [bits if not all(valid) or self.chance(0.3) else b"", *own]
        return shown, [array, *below]

    def indices(self, array):
        """Indices of the values of now; those of null slots are any numbers. Of values as lv writes them none stays without an index, and
        they are in the order of their first."""
        type_, held = array.stored.dictionary.index_type(), array.stored.dictionary.values
        known, used, indices = min(len(held), 2 ** (8 * type_.width - type_.signed)), 0, []
        for it in array.valid:
            indices.append(self.random.randrange(min(known, used + 1) if self.is_written else known) if it else -1)
            used = max(used, indices[-1] + 1)
        if self.is_written:
            del held[used:]
        array.known = len(held)
        own = b"".join(self.random.randbytes(type_.width) if it < 0 else it.to_bytes(type_.width, "little") for it in indices)
        return [held[it] if it >= 0 else None for it in indices], [own], []

    def bits_slots(self, array):
        values = [self.chance(0.5) for _ in array.valid]
        return values, [canonical.bits(values + [self.chance(0.5) for _ in range(-len(values) % 8)])], []

    def number_slots(self, array):
        """Numbers of their whole range; decimals of fewer digits than their precision has, but in null slots."""
        type_, valid = array.stored.type, array.valid
        bytes_ = [self.random.randbytes(type_.width) for _ in valid]
        if type_.kind == 7:
            most = 10 ** struct.unpack("<i", type_.slots[0])[0] - 1
            chosen = [self.random.choice((0, most, -most, self.random.randint(-most, most))) for _ in valid]
            bytes_ = [it.to_bytes(16, "little", signed=True) if is_valid else raw for it, is_valid, raw in zip(chosen, valid, bytes_)]
        return [int.from_bytes(it, "little", signed=type_.signed) for it in bytes_], [b"".join(bytes_)], []

    def fixed_slots(self, array):
        values = [self.random.randbytes(array.stored.type.width) for _ in array.valid]
        return values, [b"".join(values)], []

    def offsets(self, array, lengths):
        """Offsets that begin at any place; those of no slots may be any bytes, or none at all."""
        array.ends = [self.random.choice((0, 0, 2))]
        for it in lengths:
            array.ends.append(array.ends[-1] + it)
        if not lengths and self.chance(0.7):
            return self.random.randbytes(self.random.choice((0, 0, 3, array.width())))
        return b"".join(it.to_bytes(array.width(), "little") for it in array.ends)

    def bytes_slots(self, array):
        """Texts or bytes behind one another; what null slots take is no text."""
        if array.stored.is_text():
            values = [self.random.choice(TEXTS).encode() if it else self.random.choice((b"", b"\xff\xc3")) for it in array.valid]
        else:
            values = [self.random.randbytes(self.random.choice((0, 1, 7))) for _ in array.valid]
        own = self.offsets(array, [len(it) for it in values])
        return values, [own, b"\x80" * array.ends[0] + b"".join(values)], []

    def list_slots(self, array):
        """Lists behind one another, of a child that may have more items, and items of null slots."""
        own = self.offsets(array, [self.random.choice((0, 0, 1, 3)) for _ in array.valid])
        ends = array.ends
        reached = [False] * (ends[-1] + self.random.choice((0, 2)))
        for first, end, is_valid, is_reached in zip(ends, ends[1:], array.valid, array.reached):
            reached[first:end] = [is_valid and is_reached] * (end - first)
        items, below = self.slots(array.stored.children[0], reached)
        return [items[first:end] for first, end in zip(ends, ends[1:])], [own], below

    def struct_slots(self, array):
        """Structs, whose children may be longer than they are."""
        reached = [is_valid and is_reached for is_valid, is_reached in zip(array.valid, array.reached)]
        made = [self.slots(it, reached + [False] * self.random.choice((0, 0, 3)), array) for it in array.stored.children]
        values = [tuple(held[at] for held, _ in made) for at in range(len(reached))]
        return values, [], [it for _, arrays in made for it in arrays]


def printed(program, words, room):
    """The status of a run, its lines without the last, and the last."""
    ran = subprocess.run([program, *words], cwd=room, capture_output=True, text=True, timeout=60)
    lines = ran.stdout.splitlines()
    return ran.returncode, lines[:-1], "".join(lines[-1:])


def fault_of(program, stream, room):
    """What the program does otherwise than the stream means; None where it does the same."""
    with open(f"{room}/in", "wb") as file:
        file.write(stream.bytes)
    made, status = canonical.stream_of_rows(stream.columns, stream.rows), int(bool(stream.causes))
    refusals = {f"refused {it}" for it in stream.causes}
    wanted = refusals or {f"wrote {len(made)}"}
    code, lines, last = printed(program, ("recast", "in", "out"), room)
    if (code, lines) != (status, []) or last not in wanted or os.path.exists(f"{room}/out") == bool(refusals):
        return f"recast ended with {code} and printed {[*lines, last]}, wanted one of {wanted}"
    if not refusals:
        with open(f"{room}/out", "rb") as file:
            if file.read() != made:
                return "recast wrote another stream"
    code, lines, last = printed(program, ("inspect", "in"), room)
    before = stream.lines if refusals else stream.lines[:-1]
    if (code, lines) != (status, before) or last not in (refusals or stream.lines[-1:]):
        return f"inspect ended with {code} and printed {[*lines, last]}, wanted {before} and one of {refusals or stream.lines[-1:]}"
    return None


if __name__ == "__main__":
    sys.exit(compare("streams", Stream, fault_of))
