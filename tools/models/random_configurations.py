"""Makes random configurations of docs/VIEWS.md, which are accepted, and random values of their types."""
from aggregates import AGGREGATES
from model import COMPARISONS, Tables, column_of, outputs

DECIMAL, BYTES = ["decimal", 9, 2], ["fixed", 2]
NUMBERS = ("int64", "int8", "uint64")
OTHERS = ("bool", DECIMAL, "binary", BYTES, "date32", ["time", "us"], ["timestamp", "s", "UTC"], ["duration", "ms"])
TYPES = (*NUMBERS, *["utf8"] * 4, *OTHERS)
# Types that can't be ordered.
NESTED = (["list", "utf8"], ["struct", ["p", "int64"], ["q", ["list", "bool"]]], ["struct"])
TEXTS = ("", "a", "ab", "b", "B", "é", "zz")
# Texts that are told apart by what follows their first eight bytes, as long as those that the program stores inline; and longer ones.
LONG_TEXTS = ("abcdefgh", "abcdefgh\0", "abcdefghi", "abcdefghijklm", "abcdefghijklmn", "abcdefghijklmz")
LONGER_TEXTS = ("abcdefghijklmno", "abcdefghijklmnopqrstuv", "abcdefghijklmnopqrstuvw", "abcdefghijklmnopqrstuvz")
EXTREMES = {"int64": (-(2**63), 2**63 - 1), "int8": (-128, 127), "uint64": (0, 2**64 - 1)}


class Configuration:
    """A random configuration whose columns are of some types, of which the nested ones can't be ordered."""

    def __init__(self, chance, types=TYPES, nested=NESTED):
        self.random, self.types, self.nested = chance, types, nested

    def made(self):
        main = self.table([f"m{it}" for it in range(self.random.randint(1, 4))], self.types)
        kinds = [type_ for _, type_ in main["columns"] if type_ not in self.nested]
        sides = {f"s{it}": self.table(["x", "y"][: self.random.randint(0, 2)], kinds) for it in range(self.random.randint(0, 2))}
        feeds = {"add": {"role": "append"}, "more": {"role": "append"}, "cut": {"role": "retract"}}
        for it in sides:
            feeds |= {f"put-{it}": {"role": "put", "side": it}, f"drop-{it}": {"role": "drop", "side": it}}
        config = {"main": main, "feed": feeds} | ({"side": sides} if sides else {})
        return config | {"view": {f"v{it}": self.view(config) for it in range(self.random.randint(1, 4))}}

    def table(self, names, key_types):
        """A table with a key `k`, which is one of the columns, at any place."""
        columns = [[it, self.random.choice((*self.types, *self.nested))] for it in names]
        columns.insert(self.random.randint(0, len(columns)), ["k", self.random.choice(key_types)])
        return {"key": "k", "columns": columns}

    def view(self, config):
        made, main = {}, config["main"]["columns"]
        pairs = [(on, it) for it, side in config.get("side", {}).items() for on, type_ in main if type_ == dict(side["columns"])["k"]]
        if pairs and self.random.random() < 0.6:
            on, side = self.random.choice(pairs)
            made["lookup"] = {"side": side, "on": on, "missing": self.random.choice(("null", "drop"))}
        types = Tables(config).types(made)
        references = [name if table == "main" and self.random.random() < 0.5 else [table, name] for table, name in types]
        if "lookup" in made and self.random.random() < 0.4:
            columns = self.moved(made, types)
        else:
            columns = self.chosen(made, references, types)
        made["columns"] = [[f"o{at}", *it] for at, it in enumerate(columns)]
        shown = outputs(made, types)
        if "group" in made and self.random.random() < 0.5:
            references = [self.random.choice((name, ["out", name])) for name, _ in shown]
            made["having"] = self.filter(references, {("out", name): type_ for name, type_ in shown}, 3, "out")
        if self.random.random() < 0.6:
            ordered = [name for name, type_ in shown if type_ not in self.nested]
            chosen = self.random.sample(ordered, self.random.randint(0, min(3, len(ordered))))
            made["order"] = [[name, self.random.choice(("asc", "desc"))] for name in chosen]
        if self.random.random() < 0.4:
            made["first"] = self.random.randint(0, 4)
        texts = [name for name, type_ in shown if type_ == "utf8"]
        if self.random.random() < (0.6 if texts else 0.1):
            made["dict"] = self.random.sample(texts, self.random.choice((0, *[min(1, len(texts))] * 2, *[len(texts)] * 3)))
        return made

    def chosen(self, made, references, types):
        """The columns of a view; it may get a filter, and may be grouped."""
        if self.random.random() < 0.5:
            made["filter"] = self.filter(references, types, 3, "main")
        if self.random.random() < 0.5:
            ordered = [it for it in references if types[column_of(it)] not in self.nested]
            made["group"] = self.random.sample(ordered, self.random.randint(0, min(2, len(ordered))))
        return self.grouped(made["group"], references, types) if "group" in made else self.plain(references)

    def moved(self, made, types):
        """The columns of a view by a side table, whose rows move from group to group together: its aggregates are of main columns, and
        each part of its filter is of main columns alone, or of columns in which such rows are alike."""
        main, side = ([it for it in types if it[0] == table] for table in ("main", "side"))
        ordered = [it for it in types if types[it] not in self.nested]
        by = self.random.sample(ordered, self.random.randint(0, min(3, len(ordered))))
        alike = {*side, *by, ("main", made["lookup"]["on"])}
        alike = [it for it in types if it in alike]
        parts = []
        for _ in range(self.random.randint(0, 3)):
            known = self.random.choice((main, alike))
            parts.append(self.filter([[*it] for it in known], {it: types[it] for it in known}, 2, "main"))
        if parts:
            made["filter"] = parts[0] if len(parts) == 1 else ["and", *parts]
        made["group"] = [[*it] for it in by]
        return self.grouped(made["group"], [[*it] for it in main], types)

    def plain(self, references):
        return [["col", self.random.choice(references)] for _ in range(self.random.randint(1, 4))]

    def grouped(self, by, references, types):
        made = [["col", it] for it in by if self.random.random() < 0.8] + [["count"]]
        for _ in range(self.random.randint(0, 3)):
            reference = self.random.choice(references)
            type_ = types[column_of(reference)]
            can = {"any": True, "ordered": type_ not in self.nested, "summed": self.is_summed(type_)}
            made.append([self.random.choice([it for it, of in AGGREGATES.items() for _ in range(of.often * can[of.over])]), reference])
        self.random.shuffle(made)
        return made

    def filter(self, references, types, depth, bare):
        """A filter of some columns, where `bare` is the table of those that are named by their names alone."""
        kind = self.random.choice(("compare", "compare", "is_null", *["not", "and", "or"] * (depth > 1)))
        if kind == "not":
            return [kind, self.filter(references, types, depth - 1, bare)]
        if kind in ("and", "or"):
            return [kind, *(self.filter(references, types, depth - 1, bare) for _ in range(self.random.randint(1, 3)))]
        reference = self.random.choice(references)
        if kind == "is_null":
            return [kind, reference]
        type_ = types[column_of(reference, bare)]
        if type_ in self.nested:
            return ["is_null", reference]
        alike = [[*it] for it in types if types[it] == type_]
        other = self.random.choice(alike) if self.random.random() < 0.3 else self.constant(type_)
        return [self.random.choice([*COMPARISONS]), reference, other]

    def is_summed(self, type_):
        return type_ in (*NUMBERS, DECIMAL)

    def constant(self, type_):
        """A constant of a type as it stands in a configuration."""
        value = value_of(self.random, type_, False, 4)
        if value is None or (type_ == "uint64" and value >= 2**63):
            return self.constant(type_)
        if type_[0] == "decimal":
            digits = str(abs(value)).rjust(type_[2] + 1, "0")
            return "-" * (value < 0) + (f"{digits[:-type_[2]]}.{digits[-type_[2]:]}" if type_[2] else digits)
        return value.decode() if type_ == "utf8" else value.hex() if isinstance(value, bytes) else value


def value_of(chance, type_, is_key, most_rows):
    """A value of a type, one of few, so that many are alike; of keys fewer are null, and among many rows they are many."""
    if chance.random() < (0.03 if is_key else 0.2) / (most_rows if is_key else 1):
        return None
    name, *of = type_ if isinstance(type_, list) else [type_]
    if name == "list":
        return [value_of(chance, of[0], False, most_rows) for _ in range(chance.randrange(3))]
    if name == "struct":
        return tuple(value_of(chance, child, False, most_rows) for _, child in of)
    is_one_of_many = is_key and most_rows > 4
    if name == "utf8":
        texts = chance.choices((TEXTS, LONG_TEXTS, LONGER_TEXTS), (44, 5, 1))[0]
        return f"t{chance.randrange(10**9)}".encode() if is_one_of_many else chance.choice(texts).encode()
    if name == "bool":
        return chance.random() < 0.5
    if name in ("binary", "fixed"):
        return bytes(chance.choice((0, 1, 255)) for _ in range(2 if name == "fixed" else chance.randrange(3)))
    if is_one_of_many and name != "int8":
        return chance.randrange(10**9)
    if name in EXTREMES and chance.random() < 0.1:
        return chance.choice(EXTREMES[name])
    return chance.randint(0 if name == "uint64" else -4, 12 if is_key else 4)
