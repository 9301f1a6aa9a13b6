"""Reads CSV as `lv show --csv` writes it, by docs/CLI.md alone, to the values of canonical.py."""
import csv
import io
import json
import re

import canonical

QUOTED = re.compile(r'"((?:[^"]|"")*)"')
PLAIN = re.compile(r'[^",\r\n]*')
DATE = re.compile(r"([+-]?)(\d{4,})-(\d\d)-(\d\d)")
CLOCK = re.compile(r"(\d{2,}):(\d\d):(\d\d)(?:\.(\d+))?")
DIGITS = {"s": 0, "ms": 3, "us": 6, "ns": 9}
DAY = 86_400


def records(text):
    """The records of CSV, each field a text, or None where it is empty and not quoted. Python's own reader must give the same texts."""
    made, record, at = [], [], 0
    while at < len(text):
        if found := QUOTED.match(text, at):
            record.append(found[1].replace('""', '"'))
        else:
            found = PLAIN.match(text, at)
            record.append(found[0] or None)
        at = found.end()
        if text[at : at + 1] == "\n":
            made.append(record)
            record = []
        elif text[at : at + 1] != ",":
            raise ValueError(f"no end of a field at {at}: {text[at : at + 20]!r}")
        at += 1
    if record:
        raise ValueError("the last line has no end")
    same = [[it or "" for it in each] for each in made]
    read = [each or [""] for each in csv.reader(io.StringIO(text, newline=""), strict=True)]
    if read != same:
        raise ValueError("Python's reader of CSV gives other fields")
    return made


def days_of(text):
    """The days from the first of January of 1970 to a date."""
    sign, year, month, day = DATE.fullmatch(text).groups()
    year, month, day = int(year) * (-1 if sign == "-" else 1), int(month), int(day)
    before = 365 * year + (year + 3) // 4 - (year + 99) // 100 + (year + 399) // 400
    is_leap = year % 4 == 0 and (year % 100 != 0 or year % 400 == 0)
    lengths = [31, 28 + is_leap, 31, 30, 31, 30, 31, 31, 30, 31, 30, 31]
    if not 1 <= month <= 12 or not 1 <= day <= lengths[month - 1]:
        raise ValueError(f"no date: {text}")
    return before + sum(lengths[: month - 1]) + day - 1 - 719_528


def clock_of(text, digits):
    """The units since midnight of a time of day."""
    hours, minutes, seconds, part = CLOCK.fullmatch(text).groups()
    if int(minutes) > 59 or int(seconds) > 59 or len(part or "") != digits:
        raise ValueError(f"no time: {text}")
    return (int(hours) * 3600 + int(minutes) * 60 + int(seconds)) * 10**digits + int(part or 0)


def scaled(text, digits):
    """A number with so many digits behind its point, without the point."""
    whole, point, part = text.partition(".")
    if len(part) != digits or bool(point) != bool(digits) or not (whole + part).isdigit():
        raise ValueError(f"no number of {digits} digits: {text}")
    return int(whole + part)


def signed(text, read):
    return -read(text[1:]) if text.startswith("-") else read(text)


def instant_of(text, digits):
    date, _, clock = text.partition("T")
    return days_of(date) * DAY * 10**digits + clock_of(clock, digits)


def number_of(type_, text):
    """The number of a column that is neither a bool nor a text."""
    name, _, parameters = type_.name.partition("[")
    unit = re.match(r"\w*", parameters)[0]
    if name == "decimal":
        digits = int(re.search(r", (\d+)", parameters)[1])
        return signed(text, lambda it: scaled(it, digits))
    if name == "date32":
        return days_of(text)
    if name == "date64":
        return instant_of(text, 3) if "T" in text else days_of(text) * DAY * 1000
    if name in ("time32", "time64"):
        return signed(text, lambda it: clock_of(it, DIGITS[unit]))
    if name == "timestamp":
        has_zone = "," in parameters
        if text.endswith("Z") != has_zone:
            raise ValueError(f"no timestamp: {text}")
        return instant_of(text.removesuffix("Z"), DIGITS[unit])
    if name == "duration":
        body = text.removeprefix("-")
        if not body.startswith("PT") or not body.endswith("S"):
            raise ValueError(f"no duration: {text}")
        return (-1 if text.startswith("-") else 1) * scaled(body[2:-1], DIGITS[unit])
    return int(text)


def scalar_of(type_, text):
    """The value that is shown as this text."""
    if type_.layout == "bits":
        return {"true": True, "false": False}[text]
    if type_.layout == "number":
        return number_of(type_, text)
    return text.encode() if type_.name == "utf8" else bytes.fromhex(text)


def nested_of(type_, item):
    """The value of a part of JSON."""
    if item is None:
        return None
    if type_.layout == "list":
        return [nested_of(type_.children[0][1], it) for it in item]
    if type_.layout == "struct":
        if [name for name, _ in item] != [name for name, _ in type_.children]:
            raise ValueError(f"other children than {type_}: {item}")
        return tuple(nested_of(child, held) for (_, child), (_, held) in zip(type_.children, item))
    if type_.layout == "bits":
        return item if isinstance(item, bool) else 1 / 0
    is_whole = type_.name.startswith(("int", "uint"))
    if isinstance(item, str) == is_whole:
        raise ValueError(f"{item!r} for {type_.name}")
    return item if is_whole else scalar_of(type_, item)


def value_of(type_, text):
    if text is None:
        return None
    if type_.layout in ("list", "struct"):
        return nested_of(type_, json.loads(text, object_pairs_hook=list))
    return scalar_of(type_, text)


def rows_of(columns, text):
    """The names and the rows of CSV with these columns."""
    if not columns:
        return [], [[] for _ in text.splitlines()][1:]
    head, *rows = records(text)
    for each in rows:
        if len(each) != len(columns):
            raise ValueError(f"{len(each)} fields for {len(columns)} columns")
    return [it or "" for it in head], [[value_of(type_, it) for (_, type_), it in zip(columns, each)] for each in rows]


def parts_of(text):
    """The parts of a text between commas that stand in no bracket."""
    depth, parts = 0, [""]
    for c in text:
        depth += (c == "[") - (c == "]")
        if c == "," and depth == 0:
            parts.append("")
        else:
            parts[-1] += c
    return [it.strip() for it in parts if it.strip()]


def type_of(text):
    """A type by its text, as `lv inspect` prints it."""
    text = text.removeprefix("large_")
    name, _, rest = text.partition("[")
    inside = parts_of(rest[:-1])
    if name == "list":
        return canonical.list_of(type_of(inside[0]))
    if name == "struct":
        return canonical.struct_of(*((it.partition(": ")[0], type_of(it.partition(": ")[2])) for it in inside))
    units = {it: at for at, it in enumerate(canonical.UNITS)}
    if name == "decimal":
        return canonical.decimal(*map(int, inside))
    if name in ("date32", "date64"):
        return canonical.date(int(name == "date64"))
    if name in ("time32", "time64"):
        return canonical.time(units[inside[0]])
    if name == "timestamp":
        return canonical.timestamp(units[inside[0]], inside[1] if inside[1:] else "")
    if name == "duration":
        return canonical.duration(units[inside[0]])
    if name == "fixed":
        return canonical.fixed(int(inside[0]))
    if whole := re.fullmatch(r"(u?)int(\d+)", name):
        return canonical.integer(int(whole[2]), not whole[1])
    return {"bool": canonical.BOOL, "utf8": canonical.UTF8, "binary": canonical.BINARY}[name]
