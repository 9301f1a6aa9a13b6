"""The causes of a refusal by number: their names, and what they say. Written by tools/makers/cause_tables.py."""

CAUSES: dict[int, tuple[str, str]] = {
    1: (
        "NoContinuation",
        "the first four bytes of a message aren't FF FF FF FF",
    ),
    2: (
        "BadSize",
        "the metadata size is negative or above 2^24",
    ),
    3: (
        "BadTable",
        "a place that must be read lies outside the metadata, a vtable's own size is under 4, or a table that must be there is absent",
    ),
    4: (
        "BadName",
        "a field's name isn't UTF-8 or is longer than 4,096 bytes",
    ),
    5: (
        "Version",
        "the metadata version is neither V4 nor V5",
    ),
    6: (
        "HeaderKind",
        "the header is neither a Schema nor a DictionaryBatch nor a RecordBatch",
    ),
    7: (
        "BodySize",
        "the body's length is negative or above 2^28",
    ),
    8: (
        "NoSchema",
        "an end mark or a batch comes before a Schema, or the input ends without one",
    ),
    9: (
        "SecondSchema",
        "a Schema comes after a Schema",
    ),
    10: (
        "BigEndian",
        "the schema's endianness isn't little",
    ),
    11: (
        "UnsupportedType",
        "a column has a type that isn't read",
    ),
    12: (
        "BadType",
        "a type's table is absent, or its parameter, its children or the weight of its null are out of range",
    ),
    13: (
        "TooManyFields",
        "there are more than 1,024 fields at all levels, or a field is deeper than 16",
    ),
    14: (
        "Compressed",
        "a RecordBatch is compressed",
    ),
    15: (
        "DictionaryClash",
        "two fields use one dictionary with different types of values",
    ),
    16: (
        "UnknownDictionary",
        "a DictionaryBatch's dictionary is in no field of the schema",
    ),
    17: (
        "DictionaryTooLarge",
        "a dictionary would have more than 2^20 values",
    ),
    18: (
        "NodeCount",
        "the number of nodes isn't that of the schema's fields",
    ),
    19: (
        "BufferCount",
        "the number of buffers isn't that of the schema's fields",
    ),
    20: (
        "BadLength",
        "a batch's or a node's length is out of range, or a node's length doesn't fit the one above it",
    ),
    21: (
        "BufferRange",
        "a buffer's offset or length is negative, or it ends past the body",
    ),
    22: (
        "BufferShort",
        "a buffer is shorter than its array needs",
    ),
    23: (
        "NullCount",
        "a null count isn't the number of nulls in the validity bits",
    ),
    24: (
        "Offsets",
        "offsets fall, are negative, or end past what they point into",
    ),
    25: (
        "NotUtf8",
        "a text isn't UTF-8",
    ),
    26: (
        "DictionaryIndex",
        "a dictionary index is outside its dictionary",
    ),
    27: (
        "DecimalRange",
        "a decimal has more digits than its precision",
    ),
    28: (
        "SchemaMismatch",
        "a feed's schema isn't the declared one",
    ),
    29: (
        "AfterEnd",
        "bytes come after the end mark, or after the feed was finished",
    ),
    30: (
        "Truncated",
        "the input ends within a message",
    ),
    41: (
        "NullKey",
        "a key is null",
    ),
    42: (
        "DuplicateKey",
        "a key stands twice in a batch, or an appended key is live",
    ),
    43: (
        "UnknownKey",
        "a retract or a drop names a key that no live row has",
    ),
    44: (
        "TooManyRows",
        "a table would have more rows than its limit",
    ),
    45: (
        "CellTooHeavy",
        "a cell or a row is above its weight limit",
    ),
    51: (
        "NothingToUndo",
        "there is no edit to undo",
    ),
    52: (
        "FeedBroken",
        "the feed was broken by an earlier fault",
    ),
    53: (
        "UnknownFeed",
        "there is no feed of that name",
    ),
    54: (
        "UnknownView",
        "there is no view of that name",
    ),
    55: (
        "Memory",
        "memory ran out",
    ),
    56: (
        "Device",
        "the sink failed",
    ),
    61: (
        "NotToml",
        "the configuration isn't TOML",
    ),
    62: (
        "UnknownName",
        "a column, a side table or an output of this name isn't declared, or a column isn't among those that rows are grouped by",
    ),
    63: (
        "DuplicateColumn",
        "a column, a child of a struct, an output, a coded output, or a column of an order or of the grouping stands twice",
    ),
    64: (
        "TypeText",
        "what is written for a type is none, or has a parameter out of its range",
    ),
    65: (
        "ConstantType",
        "a constant isn't of its column's type or is out of its range, or two columns that are compared, or `on` of a lookup and the side table's key, have different types",
    ),
    66: (
        "SumType",
        "a sum is of other values than integers or decimals of at most 28 digits",
    ),
    67: (
        "OrderType",
        "a list or a struct stands where values must have an order: as a key, as `on` of a lookup, in a comparison, a group or an order, or under `distinct`, `least` or `greatest`",
    ),
    68: (
        "OverLimit",
        "a count, a depth, the weight of a type's null, the length of a name or how many rows a view has is out of its limits",
    ),
    69: (
        "Shape",
        "an entry is missing or unknown, or a value isn't of the form that its place wants",
    ),
    70: (
        "DictType",
        "an output that is to be written with a dictionary doesn't hold texts",
    ),
}
