#!/usr/bin/env python3
"""Checks random configurations, most of which have a fault or some, and compares each answer with what models/causes.py says of
docs/VIEWS.md: where no cause stands it is accepted, and else refused for one of those that stand.

A configuration is made that has no fault, and then changed at random places, each change being aimed at a cause, or at a limit. What
comes of the changes isn't known where they are made: the causes are found in the text.
"""
import datetime
import random
import re
import subprocess
import sys

sys.dont_write_bytecode = True
sys.path.insert(1, f"{sys.path[0]}/../models")
import causes
from aggregates import AGGREGATES
from cause_names import OTHER_CAUSES
from configurations import text_of
from limits import (
    MOST_BYTES, MOST_COLUMNS, MOST_DIGITS, MOST_ENTRIES, MOST_FIELDS, MOST_FIXED, MOST_LETTERS, MOST_LEVELS, MOST_PARTS, MOST_ROWS,
    MOST_SLOT,
)
from parts import copy, parts
from random_configurations import Configuration
from random_runs import compare

OVER = (0, 1)
NONE = "none"
DATE, TIME, MOMENT = datetime.date(2020, 1, 1), datetime.time(1), datetime.datetime(2020, 1, 1)
JUNK = (5, -1, True, 1.5, float("inf"), DATE, "", NONE, "k", [], ["k"], [[]], {}, {"k": 1}, {"k": []}, MOST_ROWS + 1, -(2**63))
GREAT = (2**63, -(2**63) - 1, 2**64, 10**30)
SMALL = {"side": {"key": "k", "columns": [["k", "bool"]]}, "feed": {"role": "append"}, "view": {"columns": [["n", "count"]], "group": []}}
OPERATIONS = ("col", *AGGREGATES)
OTHER_WORDS = (*OPERATIONS, *causes.COMPARISONS, "is_null", "not", "and", "or", "asc", "desc", "out", "main", "ASC", "", NONE)
OTHER_ENTRIES = ("side", "first", "group", "order", "having", "dict", "keys", "role", "dicts", "")
# As many signs of two bytes each as a column's name and a zone may have.
SIGNS = "é" * (MOST_BYTES // 2)
LONG = ("", "n" * MOST_BYTES, "n" * (MOST_BYTES + 1), SIGNS + "n", SIGNS + "é", "é" * MOST_BYTES, "\0", " ", '"', "\\")
NO_NAMES = ("", "n" * (MOST_LETTERS + 1), "a b", "é", "a.b", "a\n", " ", "٣")
ZONES = ("Z", "UTC", "Europe/Berlin", "z" * MOST_BYTES, SIGNS)
NO_TYPES = (
    "", "int", "int65", "uint128", "Int64", "float64", "date", "decimal", "list", "struct", "fixed", "time", "timestamp", "null", "utf8 ",
    5, True, 1.5, DATE, {}, [], [[]], [1, 2], [NONE, "bool"], ["int64"], ["bool", 1], ["utf8", "s"],
    ["decimal"], ["decimal", 5], ["decimal", 0, 0], ["decimal", MOST_DIGITS + 1, 0], ["decimal", 5, 6], ["decimal", 5, -1],
    ["decimal", 5, 1, 128], ["decimal", True, 0], ["decimal", "5", 0], ["decimal", 5.0, 0], ["time"], ["time", "m"], ["time", 0],
    ["time", "s", "UTC"], ["timestamp"], ["timestamp", "h"], ["timestamp", "s", ""], ["timestamp", "s", "z" * (MOST_BYTES + 1)],
    ["timestamp", "s", SIGNS + "é"], ["timestamp", "s", 0], ["timestamp", "s", "UTC", "UTC"], ["duration"], ["duration", "S"],
    ["duration", "s", "s"],
    ["fixed"], ["fixed", -1], ["fixed", MOST_FIXED + 1], ["fixed", 2**32], ["fixed", True], ["fixed", 1, 1],
    ["list"], ["list", "bool", "bool"], ["list", ["bool"]], ["struct", "a"], ["struct", ["a"]], ["struct", ["a", "bool", 1]],
    ["struct", [1, "bool"]], ["struct", {}], ["struct", ["a", "bool"], 5], ["struct", ["a", []]],
)
LIMITED_TYPES = (
    ["decimal", MOST_DIGITS, MOST_DIGITS], ["decimal", MOST_DIGITS + 1, 0], ["decimal", 1, 0], ["decimal", 0, 0], ["decimal", 5, 6],
    ["fixed", MOST_FIXED], ["fixed", MOST_FIXED + 1], ["timestamp", "s", "z" * MOST_BYTES], ["timestamp", "s", "z" * (MOST_BYTES + 1)],
    ["timestamp", "s", SIGNS + "é"], ["timestamp", "s", ""], ["struct"], ["list"],
)
CONSTANTS = (
    *(it for half in (2**7, 2**15, 2**31) for it in (half - 1, half, -half, -half - 1, 2 * half - 1, 2 * half)), 2**63 - 1, -(2**63), 0, -1,
    True, False, 0.0, 1.5, float("nan"), DATE, TIME, MOMENT, {}, {"k": 1}, "", "x", "0", "00", "0a", "0A", "0g", "000", "0000",
    "-1", "+1", "1.", ".5", "-.5", "1.5", "1.50", "-0.00", "-", "--1", " 1", "1 ", "1\n", "1e5", "1_0", "٣", "9" * MOST_DIGITS,
    "9" * (MOST_DIGITS + 1), "-" + "9" * MOST_DIGITS, "0" * 50, "00" * MOST_FIXED,
)
# What is put into texts of TOML.
CHARACTERS = (*"[]{}\"'=,.#\n\r\t -_0179azé\x7f\0", "\\q", "\\u00e9", "\\ud800")
BYTES = (b"\xff", b"\xc3", b"\x80", b"\xed\xa0\x80", b"\xf4\x90\x80\x80", b"\xc0\x80", b"\0", b"\r")
NO_LINES = ("[", "x", "=", "[main]", "[view]", "[side]", "x = ", "main.key = 1", "# k", "\ufeff", "x = 1", "x.y = 1", "[x.y]", "[[feed]]")


class Wide(Configuration):
    """A configuration without faults over random types, among them those at a limit."""

    def __init__(self, chance):
        self.random = chance
        super().__init__(chance, [self.flat() for _ in range(6)], [self.nested_type(3) for _ in range(3)])

    def flat(self):
        pick = self.random.choice
        precision, unit = pick((1, 9, 28, 29, 38)), pick(causes.UNITS)
        parameters = {
            "decimal": [precision, pick((0, precision, self.random.randint(0, precision)))], "time": [unit], "duration": [unit],
            "timestamp": [unit, *[pick(ZONES)] * pick((0, 1))], "fixed": [pick((0, 1, 2, 16, MOST_FIXED))],
        }
        word = pick((*sorted(causes.WORDS), *[*parameters, "decimal", "fixed", "utf8", "utf8"] * 3))
        return [word, *parameters[word]] if word in parameters else word

    def nested_type(self, levels):
        if self.random.random() < 0.5:
            return ["list", self.type(levels - 1)]
        return ["struct", *([f"c{it}", self.type(levels - 1)] for it in range(self.random.randint(0, 3)))]

    def type(self, levels):
        return self.nested_type(levels) if levels > 1 and self.random.random() < 0.3 else self.flat()

    def is_summed(self, type_):
        return causes.is_summed(type_)

    def constant(self, type_):
        word, of = causes.parts_of(type_)
        numbers = causes.range_of(type_)
        if numbers:
            return self.random.choice((numbers[0], numbers[-1], 0, self.random.randint(numbers[0], numbers[-1])))
        if word == "bool":
            return self.random.random() < 0.5
        if word == "utf8":
            return self.random.choice(("", "a", "é", '"\\\n', "\0", "0a", "1.5"))
        if word in ("binary", "fixed"):
            return self.random.randbytes(of[0] if word == "fixed" else self.random.randrange(4)).hex()
        digits = self.random.choice(("0", "9" * of[0], str(self.random.randrange(10 ** of[0])))).rjust(of[1] + 1, "0")
        digits = self.random.choice(("", "-")) + self.random.choice(("", "00")) + digits
        return f"{digits[:-of[1]]}.{digits[-of[1]:]}" if of[1] else digits


class Changed:
    """A configuration with some changes, and its text. A change gets a part of the tree, and answers what stands in its place."""

    def __init__(self, number):
        self.random, self.is_spoiled = random.Random(number), False
        self.pick = self.random.choice
        first = CHANGES[number % len(CHANGES)]
        self.root = {}
        while not self.root or first[0] not in self.places():
            self.root["tree"] = copy(Wide(self.random).made())
        # Some have no change, and some have two more, where there is a place for them.
        for role, change in self.pick((*[[first]] * 5, [first, *self.random.choices(CHANGES, k=2)], [])):
            if role in self.places():
                holder, at = self.pick(self.places()[role])
                holder[at] = copy(change(self, holder[at]))
        text = text_of(self.root["tree"])
        self.text = self.spoiled(text) if self.is_spoiled else text.encode()

    def places(self):
        """The places of the parts of each role."""
        found = {}
        for role, *place in parts(self.root):
            found.setdefault(role, []).append(place)
        return found

    def some(self, role):
        """What stands at some place of a role, or None where there is none."""
        held = [holder[at] for holder, at in self.places().get(role, ())]
        return copy(self.pick(held)) if held else None

    def chance(self, part):
        return self.random.random() < part

    def inserted(self, held, item):
        at = self.random.randint(0, len(held))
        return [*held[:at], item, *held[at:]]

    def dropped(self, held):
        """A list or a table without one of what it holds."""
        if isinstance(held, dict):
            left = self.pick([*held]) if held else None
            return {name: it for name, it in held.items() if name != left}
        left = self.random.randrange(len(held)) if held else None
        return [it for at, it in enumerate(held) if at != left]

    def name_of(self, *roles):
        """The name of a column or an output, or one that is none."""
        named = [it for it in map(self.some, roles) if isinstance(it, list) and it and isinstance(it[0], str)]
        return self.pick([NONE, *[it[0] for it in named] * 3])

    def side_name(self):
        sides = self.root["tree"].get("side")
        return self.pick([NONE, "main", *[*(sides if isinstance(sides, dict) else ())] * 2])

    def columns_found(self):
        """References to the columns of all tables, each with its type."""
        main = self.root["tree"].get("main")
        columns = main.get("columns") if isinstance(main, dict) else None
        places = self.places().get("column", ())
        return [(["main" if holder is columns else "side", holder[at][0]], holder[at][1]) for holder, at in places]

    def nested_reference(self):
        """A reference to a list or a struct, or, where there is none, to some column."""
        found = self.columns_found()
        return self.pick([it for it, type_ in found if causes.is_nested(type_ or None)] or [it for it, _ in found] or [NONE])

    def other_reference(self, _held):
        name = self.name_of("column")
        others = [it for it, _ in self.columns_found()] or [name]
        return self.pick((name, ["side", name], self.some("reference") or name, self.nested_reference(), self.pick(others)))

    def same_reference(self, held):
        """The other form of a reference."""
        return ["main", held] if isinstance(held, str) else held[1] if isinstance(held, list) and held[:1] == ["main"] else held

    def other_lookup(self, held):
        return held | {"lookup": {"side": self.side_name(), "on": self.name_of("column"), "missing": "null"}}

    def twice(self, held):
        """A list with an item twice, or with another that has the same name."""
        if not held:
            return held
        item, other = copy(self.pick(held)), self.pick(held)
        if isinstance(item, list) and isinstance(other, list) and self.chance(0.5):
            item[1:] = other[1:]
        return self.inserted(held, item)

    def child_twice(self, held):
        child = held[1:] if isinstance(held, list) and held[:1] == ["struct"] else []
        return ["struct", *self.twice(child or [["a", "bool"], ["b", held]])]

    def reference_twice(self, held):
        return self.inserted(held, self.pick((self.same_reference, self.other_reference))(self.pick(held or [NONE])))

    def sound_type(self):
        return Wide(self.random).type(2)

    def changed_constant(self, held):
        """A constant that is nearly another."""
        if isinstance(held, str):
            at, more = self.random.randint(0, len(held)), self.pick("09-+.aF ")
            others = (*[held.upper()] * 3, held[1:], held[:-1], held + "0", "9" + held, held.lstrip("-0123456789"), held.replace(".", ""))
            return self.pick((*others, held[:at] + more + held[at + self.random.randrange(2) :]))
        is_small = causes.is_whole(held) and abs(held) < 2**62
        return self.pick((held - 1, held + 1, held == 1)) if is_small else str(held)

    def compared(self, _held):
        reference, other = self.other_reference(None), self.other_reference(None)
        return [self.pick(causes.COMPARISONS), reference, self.pick((reference, other, other, self.some("constant") or 0))]

    def summed(self, held):
        return [held[0], "sum", self.other_reference(None)]

    def extreme(self, held):
        return [held[0], self.pick(("least", "greatest")), self.other_reference(None)]

    def distinct(self, held):
        return [held[0], "distinct", self.pick((self.nested_reference(), self.other_reference(None)))]

    def shown_name(self, held):
        """The name of an output of a view, or one that is none of it."""
        columns = held.get("columns")
        named = [it[0] for it in columns if isinstance(it, list) and it] if isinstance(columns, list) else []
        return self.pick((self.name_of("output", "column"), *named, *named))

    def with_more(self, held, reference, entry, *items):
        """A view with one more output, and an entry that names it."""
        columns = held.get("columns")
        more = {"columns": [*columns, ["more", "col", reference]], entry: [*items]} if isinstance(columns, list) else {}
        return held | more

    def ordered(self, held):
        return self.with_more(held, self.other_reference(None), "order", ["more", "asc"])

    def coded(self, held):
        """A view with a coded column, which may have no texts."""
        near = [it for it, type_ in self.columns_found() if type_ == "binary" or causes.is_nested(type_ or None)]
        reference = self.pick((self.other_reference(None), *near))
        return self.pick((self.with_more(held, reference, "dict", "more"), held | {"dict": [self.shown_name(held)]}))

    def coded_twice(self, held):
        """A view that names a column twice among those that are coded."""
        name, coded = self.shown_name(held), held.get("dict")
        return held | {"dict": self.inserted(coded, self.pick([*coded, name])) if isinstance(coded, list) and coded else [name, name]}

    def shown_reference(self, held):
        """A reference as it may stand in a filter of group rows, or nearly so."""
        name = self.shown_name(held)
        return self.pick((name, ["out", name], ["out", name], ["main", name], ["main", name], ["side", name], ["out", NONE], ["out"]))

    def having(self, held):
        """A view with a filter of group rows, which may be a view without groups."""
        first, second = self.shown_reference(held), self.shown_reference(held)
        constant = self.pick((0, 1, True, "a", "0.00", "00", self.some("constant") or 0))
        compared = [[self.pick(causes.COMPARISONS), first, it] for it in (second, constant)]
        return held | {"having": self.pick((["is_null", first], *compared))}

    def other_shown(self, held):
        """Another reference in a filter of group rows."""
        others = (self.name_of("output", "output", "column"), held[1] if isinstance(held, list) and len(held) > 1 else held)
        return self.pick((*others, *(["out", it] for it in others), ["main", others[0]], ["out"]))

    def nested_column(self, held):
        return [held[0], self.pick((["list", held[1]], ["struct", ["c", held[1]]], ["struct"]))]

    # Limits, kept or passed.

    def more_entries(self, held, kind):
        named = held.get(kind, {})
        if not isinstance(named, dict):
            return held
        item = self.pick([SMALL[kind], *named.values()])
        more = range(MOST_ENTRIES[kind] + self.pick(OVER) - len(named))
        return held | {kind: named | {f"more{it}": copy(item) for it in more}}

    def more_items(self, held):
        """More columns or outputs."""
        how = next((it[1:] for it in held if isinstance(it, list) and len(it) > 1), ["bool"])
        return held + [[f"more{it}", *how] for it in range(MOST_COLUMNS + self.pick(OVER) - len(held))]

    def long_name(self, held):
        how = next((it[1:] for it in held if isinstance(it, list) and len(it) > 1), ["bool"])
        return self.inserted(held, [self.pick(LONG), *how])

    def long_child(self, held):
        return ["struct", [self.pick(LONG), held], ["b", "bool"]]

    def many_fields(self, held):
        """Columns with so many fields at all levels as there may be, or one more."""
        now = sum(causes.fields_of(it[1]) for it in held if isinstance(it, list) and len(it) > 1)
        children = [[f"c{it}", "bool"] for it in range(MOST_FIELDS - now - 1 + self.pick(OVER))]
        if self.chance(0.5) and len(children) > 3:
            children[-3:] = [["c", ["list", ["struct", ["c", "bool"]]]]]
        return self.inserted(held, ["wide", ["struct", *children]])

    def many_shown(self, held):
        """A view with so many fields, in 63 columns of 16 and one more."""
        wide = ["struct", *([f"c{it}", "bool"] for it in range(15))]
        main = {"key": "k", "columns": [["k", "bool"], ["wide", wide], ["last", [*wide, *[["c", "bool"]] * self.pick(OVER)]]]}
        shown = [*([f"o{it}", "col", "wide"] for it in range(63)), ["last", "col", "last"]]
        return held | {"main": main, "view": {"wide": {"columns": shown}}}

    def deep_type(self, held):
        """Columns with one of so many levels as there may be, or some more, where it may be no type."""
        made = self.pick(("bool", ["fixed", 5], NONE, []))
        for _ in range(MOST_LEVELS - 1 + self.pick((0, 0, 1, 2))):
            made = self.pick((["list", made], ["struct", ["a", made]], ["struct", ["a", "bool"], ["b", made]]))
        return self.inserted(held, ["deep", made])

    def heavy_type(self, held):
        """Columns with one that has a slot of 2^20, or a little more."""
        types = [["fixed", MOST_FIXED]] * 15 + [it for it in map(Wide(self.random).type, (1, 2, 3, 3)) if causes.slot_of(it) < 9999]
        left = MOST_SLOT - causes.slot_of(["struct", *(["c", it] for it in types)]) - 1
        types.append(["fixed", left + self.pick((-1, *OVER))])
        self.random.shuffle(types)
        made = ["struct", *([f"c{at}", it] for at, it in enumerate(types))]
        return self.inserted(held, ["heavy", self.pick((made, ["list", made], ["struct", ["a", made]]))])

    def filter_of(self, count, levels):
        """A filter of so many parts, and no more than some levels."""
        if count == 1:
            return ["is_null", "k"]
        if levels == 2 or self.chance(0.2):
            return [self.pick(("and", "or")), *(["is_null", "k"] for _ in range(count - 1))]
        first = self.random.randint(1, count - 1)
        rest = [self.filter_of(count - 1 - first, levels - 1)] if first < count - 1 else []
        return [self.pick(("and", "or")) if rest else self.pick(("and", "or", "not")), self.filter_of(first, levels - 1), *rest]

    def grouped_by_key(self, held):
        """A view with groups of which `k` is an output, as it is a column of the main table, so that a filter of either can name it."""
        return held | {"group": ["k"], "columns": [["k", "col", "k"]], "order": [], "dict": []}

    def many_parts(self, held):
        made = self.filter_of(MOST_PARTS + self.pick(OVER), MOST_LEVELS)
        return self.pick((held | {"filter": made}, self.grouped_by_key(held) | {"having": made}))

    def deep_filter(self, held):
        entry = self.pick(("filter", "having"))
        held = self.grouped_by_key(held) if entry == "having" else held
        made = self.pick((["is_null", "k"], ["is_null", "k"], ["is_null", NONE], [], held.get(entry, [])))
        for _ in range(MOST_LEVELS - 1 + self.pick((0, 0, 1, 2))):
            made = self.pick((["not", made], ["and", ["is_null", "k"], made], ["or", made]))
        return held | {entry: made}

    # Other forms.

    def other_name(self, held):
        kind = self.pick([*SMALL])
        named = held.get(kind)
        if not isinstance(named, dict):
            return held
        name = self.pick((*NO_NAMES, *NO_NAMES, "n" * MOST_LETTERS, "-_9"))
        return held | {kind: named | {name: copy(self.pick([SMALL[kind], *named.values()]))}}

    def added(self, held):
        """A list or a table with something more."""
        if isinstance(held, list):
            return self.inserted(held, self.pick(JUNK))
        return held | {self.pick(OTHER_ENTRIES): self.pick(JUNK)}

    def other_word(self, held):
        """A list with another word in the place of one of its items."""
        if not isinstance(held, list):
            return held
        at = self.random.randrange(len(held)) if held else 0
        return [*held[:at], self.pick(OTHER_WORDS), *held[at + 1 :]]

    def other_output(self, held):
        return [held[0], self.pick(OPERATIONS), *self.pick(([], held[2:3], ["k"], ["k", "k"]))]

    def spoil(self, held):
        self.is_spoiled = True
        return held

    def spoiled(self, text):
        """The bytes of a text that is nearly another, or the same in another form; it may be no TOML, or no UTF-8.

        Lines with an inline table stay: in TOML 1.1 such a table may have a last comma and more lines, which Python's tomllib refuses.
        """
        lines = text.splitlines(keepends=True) or ["\n"]
        line = self.pick([it for it in range(len(lines)) if "{" not in lines[it]] or [0])
        first, held, last = "".join(lines[:line]), lines[line], "".join(lines[line + 1 :])
        if self.chance(0.2):
            at = self.pick((held.find('"') + 1, self.random.randrange(len(held))))
            return (first + held[:at]).encode() + self.pick(BYTES) + (held[at:] + last).encode()
        at = self.random.randrange(len(held))
        before, here, after = first + held[:at], held[at], held[at + 1 :] + last
        more = self.pick(CHARACTERS)
        return self.pick((
            before, before + after, before + more + here + after, before + more + after, before + after[:1] + here + after[1:],
            first + last, first + held + held + last, first + held.rstrip("\n") + last, first + self.pick(NO_LINES) + "\n" + held + last,
            text + self.pick(NO_LINES), text.replace('"', "'"), text.replace("\n", "\r\n"),
            first + held.replace(", ", self.pick((",", " ,\n ", ", # k\n", ",,"))).replace("]\n", self.pick(("]\n", ",]\n"))) + last,
            re.sub(r"\b[0-9]+\b", lambda it: self.pick((it[0], f"0x{int(it[0]):X}", f"+{it[0]}", f"0{it[0]}", f"{it[0]}_0")), text),
        )).encode()


def one_of(values):
    return lambda made, _held: made.pick(values)


def with_entry(name, *values):
    return lambda made, held: held | {name: made.pick(values)}


def without_entry(left):
    return lambda _made, held: {name: it for name, it in held.items() if name != left}


# The changes: how many there are of each in a round, of what parts, and what comes in their places.
ROUND = (
    # Names that aren't there, and those that are there twice.
    (4, "reference", Changed.other_reference),
    (1, "table", lambda made, held: held | {"key": made.name_of("column")}),
    (2, "feed", lambda made, held: held | {"role": made.pick(("put", "drop")), "side": made.side_name()}),
    (1, "lookup", lambda made, held: held | {"side": made.side_name()}),
    (2, "lookup", lambda made, held: held | {"on": made.name_of("column")}),
    (2, "grouped", lambda made, held: [held[0], "col", made.other_reference(None)]),
    (1, "view", without_entry("lookup")),
    *((1, role, Changed.dropped) for role in ("columns", "outputs", "references")),
    *((2, role, Changed.twice) for role in ("columns", "outputs", "ordereds", "codeds")),
    *((2, role, Changed.other_shown) for role in ("shown", "coded")),
    (2, "type", Changed.child_twice),
    (3, "references", Changed.reference_twice),
    # Other types, constants, and columns for which a type is declared.
    (5, "type", one_of(NO_TYPES)),
    (5, "type", one_of(LIMITED_TYPES)),
    (2, "column", lambda made, held: [held[0], made.sound_type()]),
    (3, "column", Changed.nested_column),
    (4, "constant", one_of(CONSTANTS)),
    (8, "constant", Changed.changed_constant),
    (3, "view", Changed.other_lookup),
    (4, "grouped", Changed.summed),
    (4, "grouped", Changed.extreme),
    (8, "grouped", Changed.distinct),
    (4, "view", Changed.ordered),
    (9, "view", Changed.coded),
    (3, "view", Changed.coded_twice),
    (14, "view", Changed.having),
    (2, "output", Changed.other_output),
    (3, "ordered", lambda made, held: [made.name_of("output", "column"), "asc"]),
    (3, "references", lambda made, held: made.inserted(held, made.other_reference(None))),
    (5, "filter", Changed.compared),
    # Limits.
    (2, "tree", lambda made, held: made.more_entries(held, "side")),
    (2, "tree", lambda made, held: made.more_entries(held, "feed")),
    (2, "tree", lambda made, held: made.more_entries(held, "view")),
    *((2, role, change) for role in ("columns", "outputs") for change in (Changed.more_items, Changed.long_name)),
    *((1, role, lambda _made, _held: []) for role in ("columns", "outputs")),
    (2, "type", Changed.long_child),
    *((4, "columns", change) for change in (Changed.many_fields, Changed.deep_type, Changed.heavy_type)),
    (2, "tree", Changed.many_shown),
    (4, "view", Changed.many_parts),
    (4, "view", Changed.deep_filter),
    (2, "view", with_entry("first", -1, MOST_ROWS, MOST_ROWS + 1)),
    (1, "view", with_entry("first", -(2**63), 0, 2**63 - 1)),
    # Other forms.
    (6, "entry", one_of(JUNK)),
    *((2, role, one_of(JUNK)) for role in ("value", "reference")),
    *((1, role, one_of(JUNK)) for role in ("column", "output", "ordered", "coded", "shown", "having")),
    *((2, role, change) for role in ("held", "tree") for change in (Changed.dropped, Changed.added)),
    (3, "tree", Changed.other_name),
    *((2, role, Changed.other_word) for role in ("ordered", "filter", "having")),
    (2, "feed", with_entry("role", "append", "retract", "put", "drop", "add", "", 5)),
    (1, "feed", lambda made, held: held | {"side": made.side_name()}),
    (1, "view", without_entry("group")),
    (1, "lookup", with_entry("missing", "null", "drop", "", "keep", True)),
    # Other texts, and other forms of what means the same.
    (1, "value", one_of(GREAT)),
    (8, "tree", Changed.spoil),
    (1, "reference", Changed.same_reference),
    (1, "tree", lambda made, held: {name: held[name] for name in made.random.sample([*held], len(held))}),
)
CHANGES = [(role, change) for times, role, change in ROUND for _ in range(times)]


def fault_of(program, made, room):
    """What the program answers otherwise than the model; None where it does the same."""
    with open(f"{room}/config", "wb") as file:
        file.write(made.text)
    ran = subprocess.run([program, "check", "config"], cwd=room, capture_output=True, text=True, timeout=60)
    found, tree = causes.causes_of(made.text)
    wanted = [f"refused {it} {OTHER_CAUSES[it]}\n" for it in sorted(found.answers())]
    if not found.stand:
        wanted = [f"ok: {len(tree.get('feed', ()))} feeds, {len(tree.get('view', ()))} views\n"]
    if ran.stdout not in wanted or ran.returncode != bool(found.stand):
        return f"it ended with {ran.returncode} and printed {ran.stdout!r}, and the model says {wanted}"
    return None


if __name__ == "__main__":
    sys.exit(compare("configurations", Changed, fault_of))
