#!/usr/bin/env python3
"""Writes all tables of causes. Their numbers, names, rules and texts are those of `Cause` in crates/values/src/causes.rt, the one table
that is made by hand: of it are made the tables of include/lv.h, of python/lv/causes.py and of docs/CAUSES.md, the rules in docs/FORMAT.md
and docs/VIEWS.md, the names there and in specs/Causes, the faults of streams, of edits and of configurations with the causes of the same
names, what proofs say of each of them, and where a comment says which numbers are whose.
With --check it writes nothing, and says which file isn't as it would be written."""
import os
import re
import sys
import textwrap

WIDTH = 118
ROOT = os.path.abspath(f"{__file__}/../../..")
HEADER, PYTHON, PAGE = "include/lv.h", "python/lv/causes.py", "docs/CAUSES.md"
# The pages that say where a cause stands, and the lines in which they say it of one.
FORMAT, VIEWS = "docs/FORMAT.md", "docs/VIEWS.md"
ROW, ITEM = r"^\| \d+ \| [A-Z]\w+ \| (?:framing|metadata|body|any|at the end)\b.*\n", r"^- \*\*\d+ \w+\*\*: .*\n(?:  .*\n)*"
SOURCE = "crates/values/src/causes.rt"
PYTHON_HEAD = '''"""The causes of a refusal by number: their names, and what they say. Written by tools/makers/cause_tables.py."""

CAUSES: dict[int, tuple[str, str]] = {
'''
# The least number of each kind of causes.
STREAM, EDIT, CALL, CONFIGURATION = KINDS = 1, 41, 51, 61
# The tables in the crates: a file, whose causes stand in it, whether Memory stands with them, and the lines of one of them.
TABLES = (
    (SOURCE, KINDS, False, '            Cause::{0} => "{0}",'),
    ("crates/values/specs/Causes.antt", KINDS, False, 'printed cause.{0} = ({1}, codes "{0}")'),
    ("crates/values/src/faults.rt", [STREAM], True, "    {0},"),
    ("crates/values/src/faults.rt", [STREAM], True, "            StreamFault::{0} => Cause::{0},"),
    ("crates/values/specs/StreamCauses.antt", [STREAM], True, "cause_of fault.{0} = cause.{0}"),
    ("crates/view_lang/src/unfit.rt", [EDIT], False, "            Unfit::{0} => Cause::{0},"),
    ("crates/view_lang/specs/UnfitCauses.antt", [EDIT], False, "named unfit.{0} = cause.{0}"),
    ("crates/view_config/src/faults.rt", [CONFIGURATION], True, "    {0},"),
    ("crates/view_config/src/faults.rt", [CONFIGURATION], True, "            ConfigFault::{0} => Cause::{0},"),
    ("crates/view_config/specs/ConfigCauses.antt", [CONFIGURATION], True, "cause_of fault.{0} = cause.{0}"),
    ("crates/session/specs/Cuts.antt", [EDIT], False, "is_unfit cause.{0} = true"),
    ("crates/session/proofs/ReplayedFeeds.antt", [EDIT], False, "unfit-told unfit.{0} = refl"),
    ("crates/session/proofs/ReplayedFeeds.antt", [EDIT], False, "unfit-heard unfit.{0} = refl"),
    ("crates/session/proofs/ReplayedFeeds.antt", [STREAM], False, "fault_named cause.{0} = fault.{0}"),
    ("crates/session/proofs/ReplayedFeeds.antt", [STREAM], True, "facts fault.{0} = (refl, refl, refl)"),
)
# Where it is said which numbers are whose.
TOLD = SOURCE, "crates/values/specs/Causes.antt", "crates/view_lang/src/unfit.rt", "python/lv/session.py", HEADER
PAGE_HEAD = """# The causes of a refusal

Why a call or a command is refused. `lv` prints the number and the name, as `refused 41 NullKey`; `Display` of a `Cause`
and the errors of the Python package give the text. 1 to 30 are faults of a stream, which break its feed
([FORMAT.md](FORMAT.md) has their rules), 41 to 45 an edit that doesn't fit its table (44 and 45 also rows that `recast`
doesn't write), 51 to 56 a call that can't be done, 61 to 70 a fault of a configuration ([VIEWS.md](VIEWS.md)). 255
NotOpen, of the libraries alone, is a call with a session that isn't open. Written by `tools/makers/cause_tables.py`.

| Number | Name | Text |
|---|---|---|
"""


def read(path):
    with open(f"{ROOT}/{path}", encoding="utf-8") as file:
        return file.read()


def declared():
    """The number, the name, the text and the rule of each cause. The rule is its comment, without the full stop."""
    body = re.search(r"pub enum Cause \{\n(.*?)\n\}", read(SOURCE), re.S)[1]
    for comment, text, name, number in re.findall(r'((?:^ *///.*\n)+) *#\[error\("(.*)"\)\]\n *(\w+) = (\d+),$', body, re.M):
        yield int(number), name, text, " ".join(re.findall(r"/// (.*)", comment)).removesuffix(".")


def constant(name):
    return "LV_CAUSE_" + re.sub(r"(?<=[a-z0-9])(?=[A-Z])", "_", name).upper()


def kind_of(number):
    """The least number of the causes of the same kind."""
    return max(it for it in KINDS if it <= number)


def ranged(text, table):
    """A text in which the ranges of numbers are those of the table."""
    for first in KINDS:
        last = max(number for number, *_ in table if kind_of(number) == first)
        text = re.sub(rf"\b{first} to \d+(?= |,|:|\))", f"{first} to {last}", text)
    return text


def tabled(text, line, names):
    """A text in which the lines of this form, which stand together, are those of these names and numbers."""
    form = re.escape(line).replace(re.escape("{0}"), r"\w+").replace(re.escape("{1}"), r"\d+")
    (begin, end), *others = [it.span() for it in re.finditer(rf"(?:^{form}\n)+", text, re.M)]
    if others:
        sys.exit(f"causes: lines as {line!r} stand at several places")
    return text[:begin] + "".join(line.format(*it) + "\n" for it in names) + text[end:]


def crates(table):
    """The tables in the crates, by their files."""
    made = {path: ranged(read(path), table) for path in TOLD if path != HEADER}
    for path, kinds, has_memory, line in TABLES:
        names = [(name, number) for number, name, _ in table if kind_of(number) in kinds]
        names += [(name, number) for number, name, _ in table if has_memory and name == "Memory"]
        made[path] = tabled(made.get(path) or read(path), line, names)
    return made


def header(table):
    lines = []
    for number, name, text in table:
        lines += textwrap.wrap(f"/* {text} */", WIDTH, initial_indent="    ", subsequent_indent="     * ")
        lines.append(f"    {constant(name)} = {number}" + "," * (number != table[-1][0]))
    begin, end = "/* causes: written by tools/makers/cause_tables.py */\n", "/* end of causes */\n"
    before, rest = ranged(read(HEADER), table).split(begin)
    return before + begin + "\n".join(lines) + "\n" + end + rest.split(end)[1]


def python(table):
    lines = (f'    {number}: (\n        "{name}",\n        "{text}",\n    ),\n' for number, name, text in table)
    return PYTHON_HEAD + "".join(lines) + "}\n"


def row(number, name, rule):
    """A rule of a stream: the stage in which it is checked, and what is wrong."""
    stage, stands = re.fullmatch(r"\*([\w, ]+)\*: (.*)", rule).groups()
    return f"| {number} | {name} | {stage} | {stands} |\n"


def item(number, name, rule):
    text = f"- **{number} {name}**: {rule}."
    return textwrap.fill(text, 120, subsequent_indent="  ", break_long_words=False, break_on_hyphens=False) + "\n"


def ruled(text, form, kind, line, rules):
    """A page in which the lines of this form that are about causes of this kind are those of their rules."""
    for it in re.finditer(f"(?:{form})+", text, re.M):
        if kind_of(int(re.search(r"\d+", it[0])[0])) == kind:
            lines = "".join(line(number, name, rule) for number, name, rule in rules if kind_of(number) == kind)
            return text[: it.start()] + lines + text[it.end() :]
    sys.exit(f"causes: no rules of the causes from {kind} on")


def pages(rules):
    """The pages that say where each cause stands."""
    views = ruled(read(VIEWS), ITEM, CONFIGURATION, item, rules)
    return {FORMAT: ruled(read(FORMAT), ROW, STREAM, row, rules), VIEWS: ruled(views, ITEM, EDIT, item, rules)}


def page(table):
    return ranged(PAGE_HEAD, table) + "".join(f"| {number} | {name} | {text} |\n" for number, name, text in table)


def main():
    causes, stale = list(declared()), []
    table, rules = [it[:3] for it in causes], [(number, name, rule) for number, name, _, rule in causes]
    made = crates(table) | {HEADER: header(table), PYTHON: python(table), PAGE: page(table)} | pages(rules)
    for path, text in made.items():
        if "--check" not in sys.argv:
            with open(f"{ROOT}/{path}", "w", encoding="utf-8") as file:
                file.write(text)
        elif not os.path.isfile(f"{ROOT}/{path}") or read(path) != text:
            stale.append(path)
    if stale:
        print(f"causes: run tools/makers/cause_tables.py, these are not as it writes them: {' '.join(stale)}")
    return 1 if stale else 0


if __name__ == "__main__":
    sys.exit(main())
