"""The limits of docs/FORMAT.md and docs/VIEWS.md that several tools name. Each is the greatest number that is taken."""

# Of a stream that is read: the bytes of a message's metadata and of its body, the fields at all levels, the levels of a field, the bytes of
# a name, the values of a dictionary, the live rows of a table and the slots of an array below a column.
MOST_METADATA, MOST_BODY = 2**24, 2**28
MOST_FIELDS, MOST_LEVELS, MOST_NAME = 1024, 16, 4096
MOST_VALUES, MOST_ROWS, MOST_NODE = 2**20, 2**24, 2**31 - 1
# Of a type: the digits of a decimal, the bytes of a fixed, and the weight of a null. Of a cell: its weight.
MOST_DIGITS, MOST_FIXED, MOST_SLOT, MOST_WEIGHT = 38, 2**16, 2**20, 2**20
# Of a batch that is written: its rows.
BATCH_ROWS = 1024
# Of a configuration: its tables, feeds and views; the columns of a table or a view, the letters of an entry's name, the bytes of a column's
# and of a zone; the parts of a filter, which has as many levels as a column; and the digits of a decimal that is summed.
MOST_ENTRIES = {"side": 4, "feed": 16, "view": 32}
MOST_COLUMNS, MOST_LETTERS, MOST_BYTES = 64, 64, 255
MOST_PARTS, MOST_SUMMED = 256, 28
# Of a session: the accepted edits that can be undone.
UNDOS = 64
