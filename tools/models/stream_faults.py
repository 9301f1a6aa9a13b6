"""What can be wrong with a stream in the making (section 5 of docs/FORMAT.md), and for which causes it may then be refused."""
import struct
from dataclasses import dataclass, replace
from functools import partial
from typing import Callable

import canonical
from canonical import Bytes, Vector, half, long, text, word
from cause_names import STREAM_CAUSES
from limits import (
    MOST_BODY, MOST_DIGITS, MOST_FIELDS, MOST_FIXED, MOST_LEVELS, MOST_METADATA, MOST_NAME, MOST_NODE, MOST_ROWS, MOST_SLOT, MOST_VALUES,
)
from stream_parts import Message, Pairs, Part

# The stages of a message, and the ends of the input within it that come before each: a message that is cut in its body is refused for
# what is wrong with its metadata.
FRAMING_CUT, FRAMING, METADATA_CUT, METADATA, BODY_CUT, BODY = range(6)

# How much more often than others causes are chosen that only some streams can have, or that few of the ways to them tell apart.
WEIGHTS = {5: 6, 16: 4, 17: 4, 20: 2, 21: 2, 22: 4, 23: 4, 24: 6, 25: 12, 26: 8, 27: 16}

# The slots of a table that are read, where these aren't all.
READ_SLOTS = {"Message": (0, 1, 2, 3), "Schema": (0, 1), "DictionaryEncoding": (0, 1, 3), "RecordBatch": (0, 1, 2)}

NO_TEXTS = (b"\xff", b"a\xc3", b"\x80", b"\xed\xa0\x80", b"\xc0\xaf", b"\xf4\x90\x80\x80")
NO_ZONES = tuple(text(it) for it in (*NO_TEXTS, b"x" * (MOST_NAME + 1)))
NO_UNITS = ((0, half(4)), (0, half(-1)))
# Slots that a type can't have, by its kind.
NO_PARAMETERS = {
    2: ((0, word(0)), (0, word(7)), (0, word(128)), (0, word(-8)), (0, None)),
    7: ((0, word(0)), (0, word(MOST_DIGITS + 1)), (0, word(-1)), (0, None), (1, word(-1)), (1, word(MOST_DIGITS + 1))),
    8: ((0, half(2)), (0, half(-1))),
    9: (*NO_UNITS, (1, word(16))),
    10: (*NO_UNITS, *((1, it) for it in NO_ZONES)),
    15: ((0, word(-1)), (0, word(MOST_FIXED + 1))),
    18: NO_UNITS,
}
NO_VERSIONS = (half(0), half(1), half(2), half(5), half(-1), half(259), half(260), None)
NO_KINDS = (0, 1, 3, 11, 14, 16, 17, 22, 23, 24, 25, 26, 27, 128, 255)


@dataclass(frozen=True)
class Fault:
    """What is wrong with a message, the stage in which that is found, and what is done to make it so. Two faults that touch one thing don't
    go together. A fault isn't looked for where another one hides what it is in; faults that stand beside it may be answered as well. Some
    lie within columns: in arrays below them, or in the values of dictionaries."""

    cause: int
    message: Message
    stage: int
    do: Callable
    touches: tuple
    hides: tuple = ()
    hidden: tuple = ()
    beside: tuple = ()
    is_within: bool = False

    def with_beside(self, *causes):
        return replace(self, beside=(*self.beside, *(replace(self, cause=it) for it in causes)))


def spoil(stream):
    """Puts a fault or two into a stream, and answers the message that is refused and the causes for which it may be."""
    chance, faults = stream.random, []
    for _ in range(chance.choice((1, 1, 1, 2, 2))):
        touched = {it for fault in faults for it in fault.touches}
        possible = [it for it in faults_of(stream, not faults) if not touched & {*it.touches}]
        if faults and chance.random() < 0.7:
            # Most second faults are in the same stage of the same message.
            possible = [it for it in possible if (it.message, it.stage) == (faults[0].message, faults[0].stage)] or possible
        if possible:
            faults.append(chosen(chance, possible))
            faults[-1].do()
    return standing(stream, faults)


def chosen(chance, faults):
    """One of some faults: first a cause, then a message that could have a fault with this cause, more often than not within a column."""
    causes = sorted({it.cause for it in faults})
    (cause,) = chance.choices(causes, [WEIGHTS.get(it, 1) for it in causes])
    possible = [it for it in faults if it.cause == cause]
    if chance.random() < 0.6:
        possible = [it for it in possible if it.is_within] or possible
    message = chance.choice([*{it.message: None for it in possible}])
    return chance.choice([it for it in possible if it.message is message])


def standing(stream, faults):
    """The first message that is at fault, and the causes that stand in its earliest stage that has one."""
    every = [it for fault in faults for it in (fault, *fault.beside)]
    order = {id(it): at for at, it in enumerate(stream.messages)}
    first = min((order[id(it.message)], it.stage) for it in every)
    there = [it for it in every if (order[id(it.message)], it.stage) == first]
    hidden = {it for fault in there for it in fault.hides}
    return there[0].message, {f"{it.cause} {STREAM_CAUSES[it.cause]}" for it in there if not hidden & {*it.hidden}}


def faults_of(stream, is_first):
    """All the faults that a stream could have now."""
    for it in stream.messages:
        if it.held is not None:
            continue
        yield from framing_faults(it)
        if it.root:
            yield from message_faults(it)
            yield from table_faults(it)
        if it.kind == canonical.SCHEMA:
            yield from schema_faults(it)
        if it.record:
            yield from record_faults(it)
            yield from array_faults(it)
        if it.kind == canonical.DICTIONARY_BATCH:
            yield from dictionary_faults(stream, it)
    if is_first:
        yield from order_faults(stream)


# Framing, the order of messages, and their ends


def framing_faults(message):
    chance, mark, size = message.random, (message, "mark"), (message, "size")
    other = bytearray(b"\xff\xff\xff\xff")
    other[chance.randrange(4)] = chance.randrange(255)
    for it in (bytes(other), bytes(4)):
        yield Fault(1, message, FRAMING, partial(setattr, message, "mark", it), (mark,), hides=("kind",))
    for it in (-1, -(2**31), MOST_METADATA + 1, 2**31 - 1):
        yield Fault(2, message, FRAMING, partial(setattr, message, "size", it), (size,), hides=("kind",))
    for part, stage in enumerate((FRAMING_CUT, METADATA_CUT, BODY_CUT)):
        if part == 0 or (message.root and (part == 1 or message.body)):
            yield Fault(30, message, stage, partial(setattr, message, "cut", part), ("cut",))
    if message.root:
        yield Fault(1, message, FRAMING, partial(setattr, message, "mark", b""), (mark, size, "cut"))
        yield Fault(30, message, METADATA_CUT, partial(setattr, message, "size", MOST_METADATA), ("cut", size))
        yield Fault(30, message, BODY_CUT, partial(message.root.set, 3, long(MOST_BODY)), ("cut", (message.root, 3)))
        short = partial(setattr, message, "size", chance.randint(1, 3))
        yield Fault(3, message, METADATA, short, ("cut", size), hides=("message", "kind", "header"))


def order_faults(stream):
    """Faults of which messages there are and in which order they come."""
    chance, messages = stream.random, stream.messages
    end = next((at for at, it in enumerate(messages) if it.root is None), len(messages))
    first = messages[1] if len(messages) > 1 else Message(chance, 0, [], held=b"")
    stage = METADATA if first.root else FRAMING

    def leave_out():
        messages[:] = [first, *messages[2:]]

    yield Fault(8, first, stage, leave_out, (), hides=("header",), hidden=("kind",))
    second, at = stream.schema_message(), chance.randint(1, end)
    yield Fault(9, second, METADATA, partial(messages.insert, at, second), (), hidden=("header",))
    if end < len(messages):
        held = chance.choice((b"\0", canonical.END_MARK, messages[0].made(), chance.randbytes(9)))
        after = Message(chance, 0, [], held=held)
        yield Fault(29, after, FRAMING, partial(messages.append, after), ())


# Messages and tables


def message_faults(message):
    """Faults of the table Message."""
    root = message.root
    made = partial(Fault, message=message, stage=METADATA, hidden=("message",))
    for it in (*NO_VERSIONS, half(2), half(5)):
        yield made(5, do=partial(root.set, 0, it), touches=((root, 0),))
    for it in (b"\0", b"\4", b"\5", b"\xff", None):
        yield made(6, do=partial(root.set, 1, it), touches=((root, 1),), hides=("header", "kind"))
    for it in (-1, -(2**63), MOST_BODY + 1, 2**63 - 1):
        fault = made(7, do=partial(root.set, 3, long(it)), touches=((root, 3),))
        is_past = it < 0 and message.record is not None and message.record.spans
        yield replace(fault, beside=(replace(fault, cause=21, hidden=("header", "rest")),)) if is_past else fault
    yield made(3, do=partial(root.set, 2, None), touches=((root, 2),), hides=("size",), hidden=("header",))


def table_faults(message):
    """Places that must be read and aren't there."""
    chance = message.random
    made = partial(Fault, 3, message, METADATA, hides=("size", "fields"))

    def changed(part, change, *words):
        return partial(message.changes.append, (part, partial(change, chance, *words)))

    yield made(changed(message.root, refer_outside, 0), ((message, "root"),), hidden=("message",))
    for part, owner in message.root.parts():
        every = range(len(part.slots))
        for change in (outside_vtable, small_vtable):
            yield made(changed(part, change, part), tuple((part, it) for it in every), hidden=hidden_of(message, part, owner))
        for slot in READ_SLOTS.get(part.what, every):
            held = part.slots[slot] if slot in every else None
            if held is None:
                continue
            at_slot = partial(made, touches=((part, slot),), hidden=hidden_of(message, part, owner, slot))
            yield at_slot(changed(part, outside_slot, part, slot))
            if not isinstance(held, bytes):
                yield at_slot(changed(part, outside_reference, part, slot))
            if isinstance(held, (Bytes, Pairs)):
                yield at_slot(changed(part, large_count, part, slot))
            elif isinstance(held, Vector):
                # Some of what is then read as fields may be any bytes.
                yield at_slot(changed(part, large_count, part, slot)).with_beside(4, 11, 12, 13)
                if held.items:
                    yield at_slot(changed(part, outside_element, part, slot))


def hidden_of(message, part, owner, slot=None):
    """What hides that a table, or one of its slots, can't be read."""
    if part is message.root:
        return ("message",)
    if owner is not None:
        return ("header", (owner, "type")) if part is not owner or slot in (3, 4) else ("header",)
    is_whole = part is message.header and (message.kind != canonical.DICTIONARY_BATCH or slot in (None, 0))
    return ("header",) if is_whole else ("header", "rest")


def outside_vtable(chance, part, out):
    place = chance.choice((-1, -4, len(out) - 1, len(out), len(out) + 8, part.at + 2**31, part.at - 2**31 + 1))
    struct.pack_into("<i", out, part.at, part.at - place)


def small_vtable(chance, part, out):
    struct.pack_into("<H", out, part.vtable(out), chance.randrange(4))


def outside_slot(chance, part, slot, out):
    """A slot of which some bytes, or all, lie behind the metadata."""
    width = len(part.slots[slot]) if isinstance(part.slots[slot], bytes) else 4
    place = len(out) - part.at - chance.randrange(width)
    struct.pack_into("<H", out, part.vtable(out) + 4 + 2 * slot, min(place, 2**16 - 1))


def outside_reference(chance, part, slot, out):
    refer_outside(chance, part.slot(out, slot), out)


def outside_element(chance, part, slot, out):
    place = part.slot(out, slot)
    vector = place + struct.unpack_from("<I", out, place)[0]
    refer_outside(chance, vector + 4 + 4 * chance.randrange(len(part.slots[slot].items)), out)


def refer_outside(chance, place, out):
    """A distance to where less than four bytes are, or one that would lead back were it to wrap around."""
    near = len(out) - place - chance.randrange(-2, 4)
    struct.pack_into("<I", out, place, chance.choice((near, 2**31, 2**32 - 4, min(2**32 - place + 4, 2**32 - 1))))


def large_count(chance, part, slot, out):
    """A count by which a vector ends behind the metadata, if only by one element, or would end in it were its length to wrap around."""
    place = part.slot(out, slot)
    vector = place + struct.unpack_from("<I", out, place)[0]
    width = {Pairs: 16, Vector: 4, Bytes: 1}[type(part.slots[slot])]
    struct.pack_into("<I", out, vector, chance.choice(((len(out) - vector - 4) // width + 1, 2**32 // width - (width == 1), 2**32 - 1)))


# Schemas


def schema_faults(message):
    made = partial(Fault, message=message, stage=METADATA, hidden=("header",))
    for it in (half(1), half(-1), half(256)):
        yield made(10, do=partial(message.header.set, 0, it), touches=((message.header, 0),))
    for stored, part in message.fields:
        yield from field_faults(message, stored, part)
    columns = message.header.slots[1].items
    made = partial(made, touches=((message.header, 1),))
    add = partial(add_columns, message.random, columns)
    many = [simple_field(canonical.BOOL)] * (MOST_FIELDS + 1 - len(message.fields))
    yield made(13, do=partial(add, many), hides=("fields",))
    deep = simple_field(canonical.BOOL)
    for _ in range(MOST_LEVELS):
        deep = simple_field(canonical.list_of(canonical.BOOL), children=[deep])
    yield made(13, do=partial(add, [deep]), hides=("fields",))
    heavy = simple_field(canonical.struct_of(), children=[simple_field(canonical.fixed(MOST_FIXED))] * (MOST_SLOT // MOST_FIXED))
    yield made(12, do=partial(add, [heavy]), hidden=("header", "fields"))
    yield made(15, do=partial(add, clashing(message)), hidden=("header", "fields"))


def add_columns(chance, columns, more):
    at = chance.randint(0, len(columns))
    columns[at:at] = more


def simple_field(type_, children=(), number=None, kind=None):
    """A field of a type, with a dictionary of this id, if there is one."""
    encoding = None if number is None else Part("DictionaryEncoding", long(number))
    children = Vector([*children]) if children else None
    return Part("Field", text(b"more"), None, bytes([kind or type_.kind]), Part("Type", *type_.slots), encoding, children)


def clashing(message):
    """Columns that use one id with different types, or one that does so with a field of the schema."""
    held = [it for it, _ in message.fields if it.dictionary]
    if not held:
        return [simple_field(canonical.UTF8, number=5), simple_field(canonical.UTF8, number=5, kind=20)]
    stored = message.random.choice(held)
    number = stored.dictionary.id
    if stored.type.kind in (4, 5):
        return [simple_field(stored.type, number=number, kind=stored.type.kind if stored.is_large else stored.type.kind + 15)]
    if stored.type.kind == 2:
        return [simple_field(canonical.integer(16 if stored.type.width == 1 else 8), number=number)]
    if stored.type.kind == 7:
        return [simple_field(canonical.decimal(2, 0), number=number)]
    return [simple_field(canonical.UTF8, number=number)]


def field_faults(message, stored, part):
    """Faults of one field, at any level."""
    kind, table, in_type = stored.type.kind, part.slots[3], (part, "type")
    made = partial(Fault, message=message, stage=METADATA, hidden=("header", in_type), hides=("fields",))
    for it in (*NO_TEXTS, b"x" * (MOST_NAME + 1), "é".encode() * (MOST_NAME // 2) + b"a"):
        yield made(4, do=partial(part.set, 0, text(it)), touches=((part, 0),), hidden=("header",))
    for it in NO_KINDS:
        yield made(11, do=partial(part.set, 2, bytes([it])), touches=((part, 2),), hidden=("header",), hides=("fields", in_type))
    if table:
        yield from parameter_faults(stored, table, made)
        yield made(12, do=partial(part.set, 3, None), touches=((part, 3),))
    yield from encoding_faults(stored, part, made)
    children = part.slots[5].items if part.slots[5] else []
    others = {12: [None, Vector([]), Vector(children * 2)], 13: []}.get(kind, [Vector([simple_field(canonical.BOOL)])])
    for it in others:
        yield made(12, do=partial(part.set, 5, it), touches=((part, 5),))


def parameter_faults(stored, table, made):
    """Faults of the table of a type."""
    kind = stored.type.kind
    for it in (32, 64, 256, 0) if kind == 7 else ():
        yield made(11, do=partial(table.set, 2, word(it)), touches=((table, 2),))
    for slot, it in NO_PARAMETERS.get(kind, ()):
        yield made(12, do=partial(table.set, slot, it), touches=((table, slot),))
    if kind == 9:
        of_other_width = half((struct.unpack("<h", stored.type.slots[0])[0] + 2) % 4)
        yield made(12, do=partial(table.set, 0, of_other_width), touches=((table, 0), (table, 1)))


def encoding_faults(stored, part, made):
    """Faults of what a field says of its dictionary."""
    encoding = part.slots[4]
    if stored.type.layout in ("list", "struct"):
        yield made(11, do=partial(part.set, 4, Part("DictionaryEncoding", long(2**40))), touches=((part, 4),))
    if encoding is not None:
        for it in (1, -1, 2):
            yield made(11, do=partial(encoding.set, 3, half(it)), touches=((encoding, 3),))
        for it in (0, 7, 128, None):
            index = Part("Type", it if it is None else word(it), b"\1")
            yield made(12, do=partial(encoding.set, 1, index), touches=((encoding, 1),))


# The headers of batches


def record_faults(message):
    record, chance = message.record, message.random
    part, spans = record.part, record.spans
    made = partial(Fault, message=message, stage=METADATA, hidden=("header", "rest"), hides=("size",))
    yield made(14, do=partial(part.set, 3, canonical.Table()), touches=((part, 3),))
    for it in (-1, -(2**63), MOST_ROWS + 1, 2**63 - 1):
        yield made(20, do=partial(part.set, 0, long(it)), touches=((part, 0),))
    for it in other_counts(chance, record.nodes, record.rows):
        # Lengths are compared where each has its place.
        yield made(18, do=partial(part.set, 1, it), touches=((part, 1),), hides=("size", "positions"))
    for it in other_counts(chance, spans, 0):
        yield made(19, do=partial(part.set, 2, it), touches=((part, 2),))
    for array in record.arrays:
        yield from node_faults(message, array, made)
    at, end = chance.randrange(len(spans) or 1), len(message.body)
    past = ((end, 1), (end + 1, 0), (0, end + 1), (2**63 - 1, 2), (2, 2**63 - 1))
    for it in ((-1, 1), (0, -1), (-1, 0), (-(2**63), 0), *past) if spans else ():
        yield made(21, do=partial(spans.__setitem__, at, [*it]), touches=((message, "span", at),))
    if end and max(place + length for place, length in spans) == end:
        yield made(21, do=partial(message.root.set, 3, long(end - 1)), touches=((message.root, 3), (message, "body")))


def other_counts(chance, items, number):
    """Vectors of one item more than these, one less, and none at all."""
    at = chance.randint(0, len(items))
    yield Pairs([*items[:at], (number, 0), *items[at:]])
    if at < len(items):
        yield Pairs(items[:at] + items[at + 1 :])
        yield None


def node_faults(message, array, made):
    """Lengths that an array can't have: at all, or in its batch or its struct."""
    node, rows = message.record.nodes[array.node], message.record.rows
    made = partial(made, 20, touches=((message, "node", array.node),), is_within=is_within(message, array))
    for it in (-1, -(2**63), MOST_NODE + 1, 2**63 - 1):
        yield made(do=partial(node.__setitem__, 0, it))
    made = partial(made, hidden=("header", "rest", "positions"))
    if array.is_column:
        for it in (rows + 1, rows - 1 if rows else 2):
            yield made(do=partial(node.__setitem__, 0, it))
    if array.above and array.above.valid:
        for it in (0, len(array.above.valid) - 1):
            yield made(do=partial(node.__setitem__, 0, it))


def dictionary_faults(stream, message):
    """Faults of a batch of values: an id that no field has, and too many values, or just as many as may be, but without their bytes."""
    record, header, array = message.record, message.header, message.record.arrays[0]
    made, known = partial(Fault, message=message, stage=METADATA, hidden=("header",)), {it.dictionary.id for it in stream.dictionaries}
    for it in {0, 7, -1, 3, 2**40, 2**63 - 1} - known:
        yield made(16, do=partial(header.set, 0, long(it)), touches=((header, 0),), hides=("rest",))
    yield made(3, do=partial(header.set, 1, None), touches=((header, 1),), hides=("size",), hidden=("header", "rest"))
    touches = ((record.part, 0), *((message, *it) for it in (("node", 0), ("span", 0), ("span", 1), ("body",))))

    def claim(count):
        record.part.set(0, long(count))
        record.nodes[0][0] = count

    most = MOST_VALUES - array.known
    yield made(17, do=partial(claim, most + 1), touches=touches, hidden=("header", "rest", "size"))
    if array.valid and array.needed(1):
        yield made(22, stage=BODY, do=partial(claim, most), touches=touches, hides=(("column", 0),), is_within=True)


# Bodies


def is_within(message, array):
    return not array.is_column or message.kind == canonical.DICTIONARY_BATCH


def array_faults(message):
    """Faults of arrays at all levels, whatever reaches them, and of slots that are reached."""
    record, chance = message.record, message.random
    for array in record.arrays:
        made = partial(Fault, message=message, stage=BODY, hides=(("column", array.column),), is_within=is_within(message, array))
        for which, least in enumerate((1, 0)[: len(array.buffers)]):
            # A validity buffer of length 0 isn't too short, but left out.
            if array.needed(which) > least and array.buffers[which]:
                span, length = array.span + which, chance.randrange(least, array.needed(which))
                yield made(22, do=partial(record.spans[span].__setitem__, 1, length), touches=((message, "span", span),))
        yield from null_faults(message, array, made)
        if array.stored.has_offsets() and array.valid:
            yield from offset_faults(message, array, made)
        yield from slot_faults(message, array)


def slot_faults(message, array):
    """Faults of slots that are reached and valid, or that become so."""
    record, chance, which = message.record, message.random, (message, "slots", array.node)
    made = partial(Fault, message=message, stage=BODY, hidden=(("column", array.column),), is_within=is_within(message, array))
    slots = [at for at, it in enumerate(array.valid) if it and array.reached[at]]
    for slot in chance.sample(slots, min(len(slots), 3)):
        for cause, do in spoiled_slot(record, array, slot, chance):
            yield made(cause, do=do, touches=(which,))
        if ends_in_many_bytes(record, array, slot):
            # Its last character is cut, and ends in the text behind it: together they are still UTF-8.
            cut = partial(record.put_offset, array, slot + 1, array.ends[slot + 1] - 1)
            yield made(25, do=cut, touches=(which, (message, "offsets", array.node)))
    if any(array.reached) and array.stored.dictionary and not array.known:
        touches = (which, (message, "node", array.node), (message, "span", array.span))
        yield made(26, do=partial(make_valid, record, array, array.reached.index(True)), touches=touches)


def ends_in_many_bytes(record, array, slot):
    """Whether a slot is a text whose last character takes more than one byte."""
    if not array.stored.is_text() or array.ends[slot] == array.ends[slot + 1]:
        return False
    return record.byte(array, 2, array.ends[slot + 1] - 1) >= 0x80


def null_faults(message, array, made):
    """Another number of nulls than the validity says, and another validity."""
    record, chance = message.record, message.random
    node, span, which = record.nodes[array.node], record.spans[array.span], (message, "node", array.node)
    for it in (node[1] - 1, node[1] + 1, -1, 2**63 - 1):
        yield made(23, do=partial(node.__setitem__, 1, it), touches=(which,))
    if node[1] and array.buffers[0]:
        yield made(23, do=partial(span.__setitem__, 1, 0), touches=(which, (message, "span", array.span)))
    if array.valid and array.buffers[0]:
        slot = chance.randrange(len(array.valid))
        yield made(23, do=partial(turn, record, array, slot), touches=(which, (message, "span", array.span)))


def turn(record, array, slot):
    """Makes a valid slot null, or a null one valid."""
    record.put(array, 0, slot // 8, bytes([record.byte(array, 0, slot // 8) ^ 1 << slot % 8]))


def make_valid(record, array, slot):
    turn(record, array, slot)
    record.nodes[array.node][1] -= 1


def offset_faults(message, array, made):
    record, chance = message.record, message.random
    touches, ends, count = ((message, "offsets", array.node),), array.ends, len(array.valid)
    made = partial(made, 24)
    at = chance.randrange(count)
    yield made(do=partial(record.put_offset, array, at, ends[at + 1] + 1), touches=touches)
    yield made(do=partial(record.put_offset, array, 0, -1), touches=touches)
    yield made(do=partial(record.put_offset, array, chance.randint(0, count), -(2 ** (8 * array.width() - 1))), touches=touches)
    is_list = array.stored.type.layout == "list"
    limit = record.nodes[array.node + 1][0] if is_list else record.spans[array.span + 2][1]
    inner = ("node", array.node + 1) if is_list else ("span", array.span + 2)
    for it in (limit + 1, 2 ** (8 * array.width() - 1) - 1) if 0 <= limit < 2**30 else ():
        yield made(do=partial(record.put_offset, array, count, it), touches=(*touches, (message, *inner)))
    if not is_list and ends[-1]:
        shorter = chance.randrange(ends[-1])
        yield made(do=partial(record.spans[array.span + 2].__setitem__, 1, shorter), touches=(*touches, (message, *inner)))


def spoiled_slot(record, array, slot, chance):
    """What can be done to a slot so that it holds nothing that it could, each with its cause."""
    stored = array.stored
    if stored.dictionary:
        type_ = stored.dictionary.index_type()
        width, signed = type_.width, type_.signed
        most = 2 ** (8 * width - signed) - 1
        for it in (array.known, most, *([-1, -most - 1] if signed else [])):
            yield 26, partial(record.put, array, 1, width * slot, it.to_bytes(width, "little", signed=signed))
    elif stored.is_decimal():
        most = 10 ** struct.unpack("<i", stored.type.slots[0])[0]
        for it in (most, -most, 2**127 - 1, -(2**127)):
            yield 27, partial(record.put, array, 1, 16 * slot, it.to_bytes(16, "little", signed=True))
    elif stored.is_text() and array.ends[slot] < array.ends[slot + 1]:
        yield 25, partial(record.put, array, 2, chance.randrange(array.ends[slot], array.ends[slot + 1]), b"\xff")


def spoil_unread(record, chance):
    """Spoils slots that are null or aren't reached, which doesn't matter."""
    for array in record.arrays:
        for slot, it in enumerate(array.valid):
            if not (it and array.reached[slot]) and chance.random() < 0.5:
                if done := [*spoiled_slot(record, array, slot, chance)]:
                    chance.choice(done)[1]()
