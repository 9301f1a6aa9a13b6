#!/usr/bin/env python3
"""Runs random scripts over random configurations, and compares each line that is printed and each file that is made with what
models/model.py says of docs/VIEWS.md and models/canonical.py of docs/FORMAT.md. A stream with coded columns is also recast, to the plain one.
"""
import os
import random
import subprocess
import sys

sys.dont_write_bytecode = True
sys.path.insert(1, f"{sys.path[0]}/../models")
import canonical
from configurations import text_of
from model import UNDOS, Tables, coded
from random_configurations import BYTES, Configuration, value_of
from random_runs import compare

# Types of keys of which there are few.
FEW = ("bool", "int8", "binary", BYTES)


class Session:
    """A configuration and a script over it, with what the script prints and the files that it makes. `decoded` are the plain streams of
    those with coded columns."""

    def __init__(self, number):
        self.random = random.Random(number)
        self.config = self.large() if number % 25 < 2 else Configuration(self.random).made()
        self.tables, self.feeds = Tables(self.config), {name: Feed(**it) for name, it in self.config["feed"].items()}
        self.lines, self.printed, self.made, self.decoded = [], [], {}, {}
        # Some sessions have more edits than can be undone, which they undo at last, and few of these thousands of edits, with undos to the
        # floor between them; others have more rows than a written batch, and some enough of them for groups of many.
        self.is_long = number % 100 == 50
        self.steps, self.undos = (3000 if self.is_long else 400, UNDOS + 1) if number % 25 == 0 else (40, 0)
        self.most_rows = 1500 if number % 25 == 1 else 30 if number % 5 == 2 else 5 if self.undos else 4
        self.worn = Worn()
        self.make()
        if self.undos and not self.worn.is_seen():
            sys.exit(f"sessions: {number}: its edits are too few for batches that are merged and rows that are given up")

    def large(self):
        """A configuration of which the main table can have many rows, and a view all of whose texts are coded."""
        texts = []
        while not texts or types["k"] in FEW:
            made = Configuration(self.random).made()
            types = dict(made["main"]["columns"])
            texts = [name for name, type_ in types.items() if type_ == "utf8"]
        made["view"]["texts"] = {"columns": [[it, "col", it] for it in texts], "dict": texts}
        return made

    def say(self, line, *answers):
        self.lines.append(line)
        self.printed += [f"{len(self.lines)}: {it}" for it in answers]

    def make(self):
        for step in range(1, self.steps + 1):
            self.random.choices((self.push, self.undo, self.write), (60, 10, 1) if self.is_long else (6, 1, 1))[0]()
            if step % 600 == 0 or step == self.steps:
                for _ in range(self.undos):
                    self.undo()
        for name in self.config["view"]:
            self.write(name)
        for name in self.feeds:
            self.end(name)

    def rows_of(self, columns, feed):
        """The rows of a feed's next batch: of whole rows, or of keys, most of which are there."""
        count = self.random.randrange(self.most_rows + 1)
        if feed.role in ("append", "put"):
            return [[value_of(self.random, type_, name == "k", self.most_rows) for name, type_ in columns] for _ in range(count)]
        at = self.tables.key_of(feed.side)
        live = [row[at] for row in self.tables.rows[feed.side]]
        keys = self.random.sample(live, min(count, len(live)))
        return [[it] for it in keys] if self.random.random() < 0.9 else [[it] for it in keys + keys[:1] + [None]]

    def push(self):
        """Pushes a piece of a feed, which may begin and end within a message."""
        name = self.random.choice([*self.feeds])
        feed = self.feeds[name]
        columns = self.tables.declared(feed.side)["columns"]
        if feed.role in ("retract", "drop"):
            columns = [columns[self.tables.key_of(feed.side)]]
        for _ in range(self.random.choice((0, 1, 1, 1, 2))):
            feed.add(columns, self.rows_of(columns, feed) if feed.bytes else None)
        first, end = feed.pushed, len(feed.bytes)
        feed.pushed = end if self.random.random() < 0.7 else self.random.randint(first, end)
        done = [rows for at, rows in feed.messages if first < at <= feed.pushed]
        answers = ["schema" if rows is None else self.answer(feed, rows) for rows in done]
        self.say(f"piece {name} {name} {first} {feed.pushed - first}", *answers)

    def answer(self, feed, rows):
        before = len(self.tables.rows[feed.side])
        cause = self.tables.edit(feed.role, feed.side, rows)
        if not cause:
            brought = len(rows) * (feed.role in ("append", "put"))
            self.worn.edit(feed.side, brought, before + brought - len(self.tables.rows[feed.side]))
        return f"refused {cause}" if cause else "batch"

    def undo(self):
        cause = self.tables.undo()
        self.worn.undo()
        self.say("undo", f"refused {cause}" if cause else "undone")

    def write(self, name=None):
        name = name or self.random.choice([*self.config["view"]])
        view = self.config["view"][name]
        columns, rows = self.tables.show(view)
        stream = canonical.stream_of_rows(typed(columns), rows, coded(view))
        path = f"made-{len(self.made)}"
        self.made[path] = stream
        if coded(view):
            self.decoded[path] = canonical.stream_of_rows(typed(columns), rows)
        self.say(f"write {name} {path}", f"wrote {len(stream)}")

    def end(self, name):
        """Ends a feed's input, within a message too; before a schema nothing is said of which cause comes."""
        feed = self.feeds[name]
        if feed.messages and feed.pushed >= feed.messages[0][0]:
            whole = feed.pushed in [at for at, _ in feed.messages]
            self.say(f"finish {name}", "finished" if whole else "refused 30 Truncated")
            self.say(f"piece {name} {name} 0 8", f"refused {'29 AfterEnd' if whole else '52 FeedBroken'}")


class Worn:
    """Whether the edits of a session make it merge batches and give rows up, which its lines don't tell."""

    # Small batches of one table that follow one another, of which some are merged whatever becomes of the others.
    MANY = 34

    def __init__(self):
        self.edits, self.batches, self.is_merged, self.is_given_up = [], {}, False, False

    def edit(self, table, brought, taken):
        self.edits.append((table, brought, taken))
        self.batches[table] = self.batches.get(table, 0) + (brought > 0)
        self.is_merged |= self.batches[table] >= self.MANY
        if len(self.edits) > UNDOS:
            self.is_given_up |= self.edits.pop(0)[2] > 0

    def undo(self):
        if self.edits:
            table, brought, _ = self.edits.pop()
            self.batches[table] -= brought > 0

    def is_seen(self):
        return self.is_merged and self.is_given_up


class Feed:
    """A feed's stream in the making: its bytes, how many of them were pushed, and where each message ends, with its rows."""

    def __init__(self, role, side=None):
        self.role, self.side = role, side
        self.bytes, self.pushed, self.messages = b"", 0, []

    def add(self, columns, rows):
        """Adds a batch of these rows; or the schema, of which there are none."""
        self.bytes += canonical.schema(typed(columns)) if rows is None else canonical.batch(typed(columns), rows)
        self.messages.append((len(self.bytes), rows))


def type_of(declared):
    """A type of a configuration as one of a stream."""
    name, *of = declared if isinstance(declared, list) else [declared]
    if name in ("time", "timestamp", "duration"):
        return getattr(canonical, name)(canonical.UNITS.index(of[0]), *of[1:])
    if name in ("decimal", "fixed"):
        return getattr(canonical, name)(*of)
    if name == "list":
        return canonical.list_of(type_of(of[0]))
    if name == "struct":
        return canonical.struct_of(*((child, type_of(it)) for child, it in of))
    plain = {"utf8": canonical.UTF8, "bool": canonical.BOOL, "binary": canonical.BINARY, "date32": canonical.date(0)}
    return plain[name] if name in plain else canonical.integer(int(name.lstrip("uint")), name[0] == "i")


def typed(columns):
    return [(name, type_of(it)) for name, it in columns]


def fault_of(program, session, room):
    """What the program does otherwise than the model; None where it does the same."""
    files = {"config": text_of(session.config).encode(), "script": "".join(f"{it}\n" for it in session.lines).encode()}
    files |= {name: feed.bytes for name, feed in session.feeds.items()}
    for name, held in files.items():
        with open(f"{room}/{name}", "wb") as file:
            file.write(held)
    ran = subprocess.run([program, "run", "config", "script"], cwd=room, capture_output=True, text=True, timeout=60)
    printed, wanted = ran.stdout.splitlines(), session.printed
    if printed != wanted:
        at = len(os.path.commonprefix([printed, wanted]))
        return f"it printed {printed[at : at + 1]}, and the model says {wanted[at : at + 1]}"
    if ran.returncode != any(": refused" in it for it in session.printed):
        return f"it ended with {ran.returncode}"
    for path, plain in session.decoded.items():
        subprocess.run([program, "recast", path, f"{path}-decoded"], cwd=room, capture_output=True, timeout=60)
    wanted = session.made | {f"{path}-decoded": plain for path, plain in session.decoded.items()}
    other = next((it for it in wanted if bytes_of(f"{room}/{it}") != wanted[it]), None)
    return f"{other} is another stream than the model's" if other else None


def bytes_of(path):
    """The bytes of a file, or None where there is none."""
    if not os.path.exists(path):
        return None
    with open(path, "rb") as file:
        return file.read()


if __name__ == "__main__":
    sys.exit(compare("sessions", Session, fault_of))
