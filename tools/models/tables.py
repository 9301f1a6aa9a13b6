"""Reads tables from the words of a row of tests."""
import re

from canonical import BOOL, UTF8, decimal, integer, stream


def type_of(name):
    if parameters := re.fullmatch(r"decimal\((\d+),(\d+)\)", name):
        return decimal(int(parameters[1]), int(parameters[2]))
    if whole := re.fullmatch(r"(u?)int(\d+)", name):
        return integer(int(whole[2]), not whole[1])
    return {"utf8": UTF8, "bool": BOOL}[name]


def value_of(type_, word):
    if word == "null":
        return None
    return word.encode() if type_ is UTF8 else word == "true" if type_ is BOOL else int(word)


def rows_of(columns, part):
    """The rows of a batch, each after a `/`."""
    rows = [it.split() for it in re.split(r"(?<!\S)/(?!\S)", part) if it.strip()]
    for row in rows:
        if len(row) != len(columns):
            raise ValueError(f"a row of {len(row)} cells for {len(columns)} columns: {row}")
    return [[value_of(type_, it) for (_, type_), it in zip(columns, row)] for row in rows]


def read(words):
    """The stream that the words of a table mean: its columns, then each row after a `/`, and `//` before the first row of a batch."""
    head, *batches = re.split(r"(?<!\S)//(?!\S)", " ".join(words))
    head, *first = re.split(r"(?<!\S)/(?!\S)", head, maxsplit=1)
    columns = [(name, type_of(type_)) for name, type_ in (it.split(":") for it in head.split())]
    return stream(columns, [rows_of(columns, it) for it in first + batches])
