"""What docs/VIEWS.md says of the causes for which a configuration is refused, and docs/DECISIONS.md where that leaves a choice.

Nothing here is taken from lv: it is what lv is compared with. TOML is what Python's tomllib reads, TOML 1.0.
"""
import re
import tomllib

from aggregates import AGGREGATES
from limits import (
    MOST_BYTES, MOST_COLUMNS, MOST_DIGITS, MOST_ENTRIES, MOST_FIELDS, MOST_FIXED, MOST_LETTERS, MOST_LEVELS, MOST_PARTS, MOST_ROWS,
    MOST_SLOT, MOST_SUMMED,
)

NUMBER = range(-(2**63), 2**63)
WIDTHS = {"bool": 1, "date32": 4, "date64": 8, "utf8": 4, "binary": 4, "list": 4, "decimal": 16, "timestamp": 8, "duration": 8}
WIDTHS |= {f"{sign}int{bits}": bits // 8 for sign in ("", "u") for bits in (8, 16, 32, 64)}
WORDS = {it for it in WIDTHS if it not in ("list", "decimal", "timestamp", "duration")}
UNITS = ("s", "ms", "us", "ns")
COMPARISONS = ("eq", "ne", "lt", "le", "gt", "ge")


class Causes:
    """The causes that stand, and those that may be answered where one of these does."""

    def __init__(self):
        self.stand, self.beside = set(), set()

    def answers(self):
        return self.stand | self.beside


def is_whole(held):
    return isinstance(held, int) and not isinstance(held, bool)


def is_pair(held):
    """Whether a value is a name and something with it."""
    return isinstance(held, list) and len(held) == 2 and isinstance(held[0], str)


def is_nested(type_):
    return isinstance(type_, list) and type_[0] in ("list", "struct")


def has_bytes(name):
    return 1 <= len(name.encode()) <= MOST_BYTES


def are_distinct(names):
    return len({*names}) == len([*names])


# What the parameters of a type must be.
PARAMETERS = {
    "decimal": lambda *of: len(of) == 2 and all(map(is_whole, of)) and 1 <= of[0] <= MOST_DIGITS and 0 <= of[1] <= of[0],
    "time": lambda *of: len(of) == 1 and of[0] in UNITS,
    "timestamp": lambda *of: len(of) in (1, 2) and of[0] in UNITS and all(isinstance(it, str) and has_bytes(it) for it in of[1:]),
    "duration": lambda *of: len(of) == 1 and of[0] in UNITS,
    "fixed": lambda *of: len(of) == 1 and is_whole(of[0]) and 0 <= of[0] <= MOST_FIXED,
    "list": lambda *of: len(of) == 1,
    "struct": lambda *of: all(map(is_pair, of)),
}


def parts_of(type_):
    """The word of a type, and its parameters; no word where something else stands there."""
    word, *of = type_ if isinstance(type_, list) and type_ else [type_]
    return word if isinstance(word, str) else None, of


def children_of(type_):
    word, of = parts_of(type_)
    return of[:1] if word == "list" else [it[1] for it in of if is_pair(it)] if word == "struct" else []


def fields_of(type_):
    """How many fields a type has at all levels, itself among them."""
    return 1 + sum(map(fields_of, children_of(type_)))


def slot_of(type_):
    word, of = parts_of(type_)
    if word == "struct":
        return 1 + sum(map(slot_of, children_of(type_)))
    if word == "time":
        return 1 + (4 if of[0] in ("s", "ms") else 8)
    return 1 + (of[0] if word == "fixed" else WIDTHS[word])


def range_of(type_):
    """The whole numbers that are constants of a type, or None where none are."""
    word, of = parts_of(type_)
    if word in ("bool", "utf8", "binary", "decimal", "fixed", "list", "struct"):
        return None
    bits = 8 * (slot_of(type_) - 1)
    return range(min(2**bits, 2**63)) if word[0] == "u" else range(-(2 ** (bits - 1)), 2 ** (bits - 1))


def is_constant(held, type_):
    word, of = parts_of(type_)
    numbers = range_of(type_)
    if numbers is not None:
        return is_whole(held) and held in numbers
    if word == "bool":
        return isinstance(held, bool)
    if not isinstance(held, str) or is_nested(type_):
        return False
    if word == "decimal":
        point = rf"\.[0-9]{{{of[1]}}}" if of[1] else ""
        return re.fullmatch(f"-?[0-9]+{point}", held) is not None and len(held.lstrip("-").replace(".", "").lstrip("0")) <= of[0]
    pairs = f"{{{of[0]}}}" if word == "fixed" else "*"
    return word == "utf8" or re.fullmatch(f"([0-9a-f]{{2}}){pairs}", held) is not None


def is_summed(type_):
    """Whether a sum over a type is declared."""
    word, of = parts_of(type_)
    return re.fullmatch("u?int[0-9]+", word) is not None or (word == "decimal" and of[0] <= MOST_SUMMED)


class Reader:
    """What reads a part of a configuration, and notes the causes."""

    def __init__(self, causes):
        self.causes = causes

    def need(self, holds, cause):
        """Notes a cause where something doesn't hold that must, and answers whether it does."""
        self.causes.stand |= set() if holds else {cause}
        return holds

    def entries(self, held, needed, optional=()):
        """The entries of a part, which must be the needed ones and may be the optional ones."""
        if not self.need(isinstance(held, dict), 69):
            return {}
        self.need({*needed} <= {*held} <= {*needed, *optional}, 69)
        return held

    def items(self, held, name):
        """The items of an entry, if it is there."""
        return held[name] if name in held and self.need(isinstance(held[name], list), 69) else []

    def named(self, held, kind):
        """The entries of a kind that have names: not too many, and of the form of a NAME."""
        named = held.get(kind, {})
        if not self.need(isinstance(named, dict), 69):
            return {}
        self.need(len(named) <= MOST_ENTRIES[kind], 68)
        for name in named:
            self.need(re.fullmatch(f"[A-Za-z0-9_-]{{1,{MOST_LETTERS}}}", name), 69)
        return named

    def column_list(self, held):
        """The list of columns or outputs."""
        columns = self.items(held, "columns")
        if isinstance(held.get("columns"), list):
            self.need(1 <= len(columns) <= MOST_COLUMNS, 68)
        return columns

    def type(self, held, level=1):
        """The type that stands in a type's place, or None where none does."""
        if not self.need(level <= MOST_LEVELS, 68):
            return None
        word, of = parts_of(held)
        is_type = word in WORDS if isinstance(held, str) else word in PARAMETERS and PARAMETERS[word](*of)
        if not self.need(is_type, 64) and word != "struct":
            return None
        if word == "struct":
            names = [it[0] for it in of if is_pair(it)]
            self.need(all(map(has_bytes, names)), 68)
            self.need(are_distinct(names), 63)
        types = [self.type(it, level + 1) for it in children_of(held)]
        if not is_type or None in types:
            return None
        self.need(slot_of(held) <= MOST_SLOT, 68)
        return held


class Table(Reader):
    """A table's columns by their names, each with its type, or None where that isn't known."""

    def __init__(self, causes, held):
        super().__init__(causes)
        held, self.types, fields = self.entries(held, ("columns", "key")), {}, 0
        for column in self.column_list(held):
            if self.need(is_pair(column), 69):
                name, type_ = column
                self.need(has_bytes(name), 68)
                is_new = self.need(name not in self.types, 63)
                type_, fields = self.type(type_), fields + fields_of(type_)
                self.types[name] = type_ if is_new else None
        self.need(fields <= MOST_FIELDS, 68)
        self.key = held.get("key")
        if "key" in held and self.need(isinstance(self.key, str), 69) and self.need(self.key in self.types, 62):
            self.need(not is_nested(self.types[self.key]), 67)


class Columns(Reader):
    """What reads references to the columns of some tables, and filters of them. A table is its columns by their names, each with its type,
    or None where that isn't known; or it is None where there is none to which one could refer. A column is known by its table and its name;
    a name alone is one of the first table."""

    def __init__(self, causes, tables):
        super().__init__(causes)
        self.tables = tables

    def type_of(self, column):
        return self.tables[column[0]][column[1]] if column else None

    def column(self, held):
        """The column that a reference means, or None."""
        names = [*self.tables]
        table, name = held if isinstance(held, list) and len(held) == 2 else [names[0], held]
        if self.need(table in names and isinstance(name, str), 69) and self.need(name in (self.tables[table] or ()), 62):
            return table, name
        return None

    def filter(self, held):
        self.need(self.part(held, 1) <= MOST_PARTS, 68)

    def part(self, held, level):
        """Reads a part of a filter, and answers of how many it is made."""
        if not self.need(level <= MOST_LEVELS, 68):
            return 1
        word, *of = held if isinstance(held, list) and held else [None]
        if (word in ("and", "or") and of) or (word == "not" and len(of) == 1):
            return 1 + sum(self.part(it, level + 1) for it in of)
        if word in COMPARISONS and len(of) == 2:
            self.comparison(*of)
        elif self.need(word == "is_null" and len(of) == 1, 69):
            self.column(of[0])
        return 1

    def comparison(self, reference, other):
        types = [self.type_of(self.column(it)) for it in ([reference, other] if isinstance(other, list) else [reference])]
        if not self.need(not any(map(is_nested, types)), 67):
            self.causes.beside.add(65)
        elif None not in types:
            self.need(types[0] == types[1] if isinstance(other, list) else is_constant(other, types[0]), 65)


class View(Columns):
    """A view over a main table and perhaps a side table."""

    def __init__(self, causes, held, main, sides):
        super().__init__(causes, {"main": main.types, "side": None})
        held = self.entries(held, ["columns"], ("lookup", "filter", "group", "having", "order", "first", "dict"))
        if "lookup" in held and not self.lookup(held["lookup"], sides):
            return
        if "filter" in held:
            self.filter(held["filter"])
        self.grouping = self.group(held) if "group" in held else None
        self.outputs, fields = {}, 0
        for output in self.column_list(held):
            if self.need(isinstance(output, list) and len(output) > 1 and isinstance(output[0], str), 69):
                name, *how = output
                self.need(has_bytes(name), 68)
                is_new = self.need(name not in self.outputs, 63)
                type_ = self.output(*how)
                fields += fields_of(type_)
                self.outputs[name] = type_ if is_new else None
        self.need(fields <= MOST_FIELDS, 68)
        if "having" in held and self.need(self.grouping is not None, 69):
            Columns(causes, {"out": self.outputs}).filter(held["having"])
        self.order(held)
        if "first" in held and self.need(is_whole(held["first"]), 69):
            self.need(0 <= held["first"] <= MOST_ROWS, 68)
        self.coded(held)

    def lookup(self, held, sides):
        """Takes the side table of a lookup, and answers whether it isn't refused."""
        inner = Reader(Causes())
        held = inner.entries(held, ("side", "on", "missing"))
        inner.need(held.get("missing", "null") in ("null", "drop"), 69)
        main, key = self.tables["main"], None
        if "side" in held and inner.need(isinstance(held["side"], str), 69) and inner.need(held["side"] in sides, 62):
            side = sides[held["side"]]
            self.tables["side"] = side.types
            key = side.types.get(side.key) if isinstance(side.key, str) else None
        if "on" in held and inner.need(isinstance(held["on"], str), 69) and inner.need(held["on"] in main, 62):
            type_ = main[held["on"]]
            if inner.need(not is_nested(type_), 67):
                inner.need(None in (type_, key) or type_ == key, 65)
        self.causes.stand |= inner.causes.stand
        return not inner.causes.stand

    def group(self, held):
        """The grouping columns."""
        columns = [it for it in map(self.column, self.items(held, "group")) if it]
        self.need(are_distinct(columns), 63)
        self.need(not any(is_nested(self.type_of(it)) for it in columns), 67)
        return columns

    def output(self, what, *of):
        """The type of an output, or None where it isn't known."""
        is_of_one = len(of) == 1 and what in ("col", *AGGREGATES)
        if not self.need(is_of_one or (what == "count" and not of), 69):
            return None
        self.need(what == "col" or self.grouping is not None, 69)
        column = self.column(of[0]) if of else None
        type_ = self.type_of(column)
        if what == "col" and self.grouping is not None and column:
            self.need(column in self.grouping, 62)
        if what == "col":
            return type_
        aggregate = AGGREGATES[what]
        if aggregate.over == "summed" and (type_ is None or not self.need(is_summed(type_), 66)):
            return None
        self.need(aggregate.over != "ordered" or not is_nested(type_), 67)
        return aggregate.type_of(type_)

    def order(self, held):
        """Reads the order, by outputs of the view."""
        names = []
        for it in self.items(held, "order"):
            if self.need(is_pair(it) and it[1] in ("asc", "desc"), 69):
                names.append(it[0])
                if self.need(it[0] in self.outputs, 62):
                    self.need(not is_nested(self.outputs[it[0]]), 67)
        self.need(are_distinct(names), 63)

    def coded(self, held):
        """Reads which outputs are written with dictionaries."""
        names = [it for it in self.items(held, "dict") if self.need(isinstance(it, str), 69)]
        for it in names:
            if self.need(it in self.outputs, 62):
                self.need(self.outputs[it] in ("utf8", None), 70)
        self.need(are_distinct(names), 63)


class Tree(Reader):
    """The whole of a configuration."""

    def __init__(self, causes, held):
        super().__init__(causes)
        self.entries(held, ["main"], MOST_ENTRIES)
        main = Table(causes, held["main"]) if "main" in held else Table(Causes(), {})
        sides = {name: Table(causes, it) for name, it in self.named(held, "side").items()}
        for it in self.named(held, "feed").values():
            self.feed(it, sides)
        for it in self.named(held, "view").values():
            View(causes, it, main, sides)

    def feed(self, held, sides):
        role = held.get("role") if isinstance(held, dict) else None
        has_side = role in ("put", "drop")
        held = self.entries(held, ("role", "side") if has_side else ["role"])
        self.need("role" not in held or has_side or role in ("append", "retract"), 69)
        if has_side and "side" in held and self.need(isinstance(held["side"], str), 69):
            self.need(held["side"] in sides, 62)


def can_hold(tree):
    """Whether TOML can hold the whole numbers of a tree."""
    if isinstance(tree, (dict, list)):
        return all(map(can_hold, tree.values() if isinstance(tree, dict) else tree))
    return not is_whole(tree) or tree in NUMBER


def causes_of(text):
    """The causes of a configuration, of which it gives the bytes, and what it holds."""
    causes, tree = Causes(), {}
    reader = Reader(causes)
    try:
        tree = tomllib.loads(text.decode())
    except ValueError:
        reader.need(False, 61)
    if reader.need(can_hold(tree), 61) and not causes.stand:
        Tree(causes, tree)
    return causes, tree
