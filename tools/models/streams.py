"""Makes streams without nulls for the runs of the built program, laid out as the official builder of FlatBuffers does."""
import struct

END_MARK = bytes.fromhex("ffffffff00000000")


def groups(*numbers):
    """Groups of eight bytes, written as they stand."""
    return b"".join(number.to_bytes(8, "big") for number in numbers)


def numbers(*values):
    return struct.pack(f"<{len(values)}Q", *values)


INT64_SCHEMA = groups(
    0xFFFFFFFF_98000000, 0x18000000_00000000, 0x0C001800_04000600, 0x08001000_00000000, 0x10000000_04000100,
    0x18000000_00000000, 0x00000000_00000000, 0x08000C00_04000800, 0x08000000_00000000, 0x04000000_01000000,
    0x18000000_00000000, 0x10001400_04000800, 0x09000C00_00001000, 0x10000000_10000000, 0x01020000_1C000000,
    0x24000000_01000000, 0x6B000000_00000000, 0x08000C00_04000800, 0x08000000_40000000, 0x01000000_00000000,
)

def head(first, body, rows, buffers, spans):
    """The metadata of a batch of one column without nulls: a body of so many bytes, and the place and length of each buffer in it."""
    return (
        groups(first, 0x18000000_00000000, 0x0C001800_04000600, 0x08001000_00000000, 0x10000000_04000300, 0x20000000_00000000)
        + numbers(body)
        + groups(0x0A001800_08001000, 0x14000000_00000000, 0x10000000_00000000)
        + numbers(rows)
        + groups(0x0C000000_20000000, 0x00000000_01000000)
        + numbers(rows, 0)
        + groups(buffers)
        + numbers(*spans)
    )


def filled(data):
    return data + bytes(-len(data) % 8)


def int64_batch(rows, first):
    body = struct.pack(f"<{rows}q", *range(first, first + rows))
    return head(0xFFFFFFFF_98000000, len(body), rows, 0x00000000_02000000, [0, 0, 0, len(body)]) + body


def word(number):
    return struct.pack("<I", number)


def field(kind, *parameters, dictionary=None, name=b"c", children=()):
    """A field of this name of one letter, of a type with parameters of four bytes each, of the dictionary with this id, if there is one, and
    with these children."""
    count = len(parameters)
    slots = struct.pack(f"<{count + 2}H", 4 + 2 * count, 4 + 4 * count, *range(4, 4 + 4 * count, 4))
    table = word(len(slots)) + b"".join(map(word, parameters))
    own = struct.pack("<8H", 16, 24, 4, 8, 9, 12, 0 if dictionary is None else 20, 16) + word(16) + word(20) + bytes([1, kind, 0, 0])
    end = len(slots) + len(table)
    places = word(len(slots) + 20) + word(end + 16) + word(end + 22 + 4 * len(children))
    encoding = b"" if dictionary is None else struct.pack("<3HI", 6, 12, 4, 6) + numbers(dictionary)
    return own + places + word(1) + name + bytes(3) + slots + table + vector_of(children, len(encoding)) + encoding + b"".join(children)


def vector_of(tables, between=0):
    """The vector of these tables, each with its vtable in 16 bytes before it, which stand so many bytes behind the vector."""
    places, before = b"", between
    for index, each in enumerate(tables):
        places += word(4 * (len(tables) - index) + before + 16)
        before += len(each)
    return word(len(tables)) + places


def schema(fields):
    """The Schema message of these fields, one after the other."""
    metadata = INT64_SCHEMA[8:76] + vector_of(fields) + b"".join(fields)
    return b"\xff\xff\xff\xff" + word(len(metadata)) + metadata


def message(kind, header, body):
    """A message whose header has its vtable in 16 bytes before its table."""
    metadata = (
        groups(0x18000000_00000000, 0x0C001800_04000600, 0x08001000_00000000, 0x10000000_04000000 | kind << 8, 0x20000000_00000000)
        + numbers(len(body))
        + header
    )
    return b"\xff\xff\xff\xff" + word(len(metadata)) + metadata + body


def record_batch(rows, arrays):
    """The header and the body of arrays, each its buffers behind the validity: without nulls, and as long as the batch. An array of another
    length is a pair of its length and these; with nulls, of its length, its buffers, its null count and its validity."""
    body, spans, nodes = b"", [], []
    for array in arrays:
        length, buffers, *validity = array if isinstance(array, tuple) else (rows, array)
        nulls, bits = validity or (0, b"")
        nodes += [length, nulls]
        for buffer in [bits, *buffers]:
            spans += [len(body), len(buffer)]
            body += filled(buffer)
    header = (
        groups(0x0A001800_08001000, 0x14000000_00000000, 0x10000000_00000000)
        + numbers(rows)
        + word(12) + word(8 * len(nodes) + 12) + word(0)
        + word(len(nodes) // 2) + numbers(*nodes) + word(len(spans) // 2) + numbers(*spans)
    )
    return header, body


def batch(rows, arrays):
    return message(3, *record_batch(rows, arrays))


def dictionary_batch(number, texts):
    """The values of a dictionary."""
    offsets = [0]
    for text in texts:
        offsets.append(offsets[-1] + len(text))
    header, body = record_batch(len(texts), [[struct.pack(f"<{len(offsets)}i", *offsets), b"".join(texts)]])
    own = groups(0x08001800_08001000, 0, 0x10000000_00000000) + numbers(number) + word(24) + word(0)
    return message(2, own + header, body)
