"""What docs/VIEWS.md says of tables, edits and views, over the values of canonical.py.

A configuration is what its TOML holds, read into dictionaries and lists. Nothing here is taken from lv: it is what lv is compared with.
"""
import operator

from aggregates import AGGREGATES
from limits import UNDOS

COMPARISONS = {"eq": operator.eq, "ne": operator.ne, "lt": operator.lt, "le": operator.le, "gt": operator.gt, "ge": operator.ge}


def column_of(reference, bare="main"):
    """The table of a reference and the column in it; `bare` is the table of one that is a name alone."""
    return (bare, reference) if isinstance(reference, str) else tuple(reference)


def constant_of(type_, held):
    """The value that a constant of the configuration means."""
    name = type_[0] if isinstance(type_, list) else type_
    if name == "decimal":
        return int(held.replace(".", ""))
    if name in ("binary", "fixed"):
        return bytes.fromhex(held)
    return held.encode() if name == "utf8" else held


def place(value):
    """What values are sorted by, nulls last."""
    return (value is None, 0 if value is None else value)


class Tables:
    """The live rows of the main table, named None, and of the side tables, in the order in which they came."""

    def __init__(self, config):
        self.config, self.before = config, []
        self.rows = {name: [] for name in (None, *config.get("side", {}))}

    def declared(self, table):
        return self.config["main"] if table is None else self.config["side"][table]

    def key_of(self, table):
        """Which of a table's columns is its key."""
        declared = self.declared(table)
        return [name for name, _ in declared["columns"]].index(declared["key"])

    def edit(self, role, table, rows):
        """Does an edit; or changes nothing, and answers the lowest of its causes."""
        key, held = self.key_of(table), self.rows[table]
        brings = role in ("append", "put")
        keys, live = [row[key if brings else 0] for row in rows], {row[key] for row in held}
        if None in keys:
            return "41 NullKey"
        if len({*keys}) < len(keys) or (role == "append" and live & {*keys}):
            return "42 DuplicateKey"
        if not brings and {*keys} - live:
            return "43 UnknownKey"
        self.before = [*self.before, dict(self.rows)][-UNDOS:]
        self.rows[table] = [row for row in held if row[key] not in keys] + rows * brings
        return None

    def undo(self):
        if not self.before:
            return "51 NothingToUndo"
        self.rows = self.before.pop()
        return None

    def types(self, view):
        """The type of each column that a view may name."""
        tables = {"main": self.declared(None)}
        if "lookup" in view:
            tables["side"] = self.declared(view["lookup"]["side"])
        return {(table, name): type_ for table, declared in tables.items() for name, type_ in declared["columns"]}

    def joined(self, view):
        """The main table's rows, by column, each with the row that the view looks up."""
        lookup, columns = view.get("lookup"), [*self.types(view)]
        sides = {row[self.key_of(lookup["side"])]: row for row in self.rows[lookup["side"]]} if lookup else {}
        for row in self.rows[None]:
            cells = dict(zip(columns, row))
            if lookup:
                on = cells[column_of(lookup["on"])]
                found = None if on is None else sides.get(on)
                if found is None and lookup["missing"] == "drop":
                    continue
                cells |= zip(columns[len(row) :], found or [None] * (len(columns) - len(row)))
            yield cells

    def show(self, view):
        """The view's columns with their types, and its rows."""
        types = self.types(view)
        kept = [it for it in self.joined(view) if "filter" not in view or truth(view["filter"], it, types)]
        columns = outputs(view, types)
        groups = [[it] for it in kept]
        if "group" in view:
            groups = grouped([column_of(it) for it in view["group"]], kept)
        rows = [[cell_made(how, group) for _, *how in view["columns"]] for group in groups]
        if "having" in view:
            shown = {("out", name): type_ for name, type_ in columns}
            rows = [row for row in rows if truth(view["having"], dict(zip(shown, row)), shown, "out")]
        names = [name for name, _ in columns]
        for name, direction in reversed(view.get("order", [])):
            at = names.index(name)
            nulls = [row for row in rows if row[at] is None]
            rows = sorted((row for row in rows if row[at] is not None), key=lambda row: row[at], reverse=direction == "desc") + nulls
        return columns, rows[: view.get("first", len(rows))]


def truth(test, cells, types, bare="main"):
    """Whether a filter is true of a row; None where that is unknown. `bare` is the table of columns that it names by their names alone."""
    name, *parts = test
    if name == "is_null":
        return cells[column_of(parts[0], bare)] is None
    if name in ("not", "and", "or"):
        truths = [truth(it, cells, types, bare) for it in parts]
        if name == "not":
            return None if truths[0] is None else not truths[0]
        decides = name == "or"
        return decides if decides in truths else None if None in truths else not decides
    column, other = column_of(parts[0], bare), parts[1]
    other = cells[column_of(other, bare)] if isinstance(other, list) else constant_of(types[column], other)
    return None if None in (cells[column], other) else COMPARISONS[name](cells[column], other)


def outputs(view, types):
    """The view's columns with their types."""
    return [(name, type_made(how, types)) for name, *how in view["columns"]]


def coded(view):
    """The positions of the columns that are written with dictionaries."""
    return [at for at, (name, *_) in enumerate(view["columns"]) if name in view.get("dict", ())]


def grouped(by, rows):
    """The rows in groups that are alike in some columns, in ascending order of these; of no columns, one group."""
    groups = {} if by else {(): []}
    for cells in rows:
        groups.setdefault(tuple(place(cells[it]) for it in by), []).append(cells)
    return [groups[it] for it in sorted(groups)]


def type_made(how, types):
    """The type of an output."""
    what, *reference = how
    type_ = types[column_of(reference[0])] if reference else None
    return type_ if what == "col" else AGGREGATES[what].type_of(type_)


def cell_made(how, group):
    """The cell of an output for a group of rows, which outside of groups is one row."""
    what, *reference = how
    if what == "count" and not reference:
        return len(group)
    values = [cells[column_of(reference[0])] for cells in group]
    if what == "col":
        return values[0]
    return AGGREGATES[what].cell([it for it in values if it is not None])
