"""What is known of the must-fail edits: the crates of which all were refused, as edits-tried.txt has it, which are due, and in
which order they are tried.
"""
import hashlib
import os
import subprocess
from dataclasses import dataclass, field

from lanes import PARTS, below, crates_of, files_below, read
from must_fail import batches_of, control_of, edits_of

RECORD = "tools/gate/edits-tried.txt"
HEAD = (
    "# Written by tools/gate/edits.py --record: a crate, the toolchain by which all of its edits were refused, and the stamps that its\n"
    "# sources had then: with those of the crates below it, and alone.\n"
)
JUDGES = ("tools/gate/must_fail.py", "tools/gate/functions.py", "tools/gate/lanes.py")
TURNS = 5


def code_in(file):
    """A file's text without the lines that hold a comment alone: no proof depends on them."""
    return "\n".join(line for line in read(file).split("\n") if not line.lstrip().startswith(("//", "--")))


def sum_of(root, beginning, files):
    """A sum of these bytes and of the files' code. A check leaves a crate's tests.rt out."""
    total = hashlib.sha256(beginning)
    for file in files:
        if os.path.basename(file) != "tests.rt":
            total.update(repr([os.path.relpath(file, root), code_in(file)]).encode())
    return total.hexdigest()


def sources_of(root, crate):
    return [file for part in PARTS for file in files_below(f"{root}/crates/{crate}/{part}")]


def stamp(root, crates, name):
    """A sum of all that the answer to a crate's edits depends on: its code, that of the crates below, the judging tools, the toolchain."""
    under = sorted(below(crates, name))
    version = subprocess.run(["rt", "version"], stdout=subprocess.PIPE, check=True).stdout
    lines = repr([[it, sorted(crates[it])] for it in under]).encode()
    files = [f"{root}/{it}" for it in JUDGES] + files_below(f"{root}/crates/{name}/must-fail")
    return sum_of(root, version + lines, files + [file for it in under for file in sources_of(root, it)])


def own_stamp(root, crates, name):
    """A sum of what a crate is by itself: its code, its edits, and which crates it names."""
    files = files_below(f"{root}/crates/{name}/must-fail") + sources_of(root, name)
    return sum_of(root, repr(sorted(crates[name])).encode(), files)


def toolchain():
    """The name of the toolchain: what one refuses, another need not."""
    return subprocess.run(["rt", "version"], stdout=subprocess.PIPE, check=True, text=True).stdout.split()[0]


def record_lines(root):
    """The record: crates, each with a toolchain and its stamps; in the oldest lines the one alone is missing."""
    path = f"{root}/{RECORD}"
    lines = read(path).splitlines() if os.path.isfile(path) else []
    return [tuple(line.split()) for line in lines if not line.startswith("#")]


def recorded(root):
    """The stamps of the crates of which all edits were refused by this toolchain."""
    own = toolchain()
    return {crate: stamps for crate, name, *stamps in record_lines(root) if name == own}


def record(root, refused, failed):
    """Notes the crates of which all edits were refused, with the stamps that they had, and no longer those of which one wasn't. The
    other lines stay."""
    crates, own, known = crates_of(root), toolchain(), recorded(root) | refused
    lines = [it for it in record_lines(root) if it[1] != own] + [(it, own, *known[it]) for it in known if it not in failed]
    lines.sort(key=lambda it: ([*crates].index(it[0]) if it[0] in crates else len(crates), it[1]))
    with open(f"{root}/{RECORD}", "w", encoding="utf-8") as file:
        file.write(HEAD)
        file.writelines(f"{' '.join(it)}\n" for it in lines)


def turn_of(root):
    """The number of commits, by which what is tried turns."""
    ran = subprocess.run(["git", "rev-list", "--count", "HEAD"], cwd=root, stdout=subprocess.PIPE, stderr=subprocess.DEVNULL)
    return int(ran.stdout) if ran.returncode == 0 else 0


def stamps_of(root, crates, name):
    return stamp(root, crates, name), own_stamp(root, crates, name)


@dataclass
class Plan:
    """What is tried: batches of a crate's edits in their order, how many of each crate's edits are due, the stamps that the crates have,
    and a line for each edit that can't be applied."""

    root: str
    batches: list = field(default_factory=list)
    due: dict = field(default_factory=dict)
    stamps: dict = field(default_factory=dict)
    bad: list = field(default_factory=list)

    def add(self, crate, edits, stamps):
        batches = batches_of(edits)
        if batches:
            batches[0].append(control_of(f"{self.root}/crates/{crate}", {it.group for it in edits}))
        self.batches += [(crate, it) for it in batches]
        self.due[crate], self.stamps[crate] = len(edits), stamps

    def untried(self, trial):
        """How many edits of a crate that are due weren't tried, where some weren't."""
        left = {it: due - sum(name.startswith(f"{it}/") for name in trial.tried) for it, due in self.due.items()}
        return {it: number for it, number in left.items() if number}

    def said(self, trial):
        """How many edits were due, how many were tried, in which crates some weren't, and which were refused for lost names alone."""
        left = ", ".join(f"{it} {number} of {self.due[it]}" for it, number in self.untried(trial).items())
        line = f"must-fail edits: {sum(self.due.values())} were due, {len(trial.tried)} were tried"
        line += f"; refused for lost names alone: {', '.join(sorted(trial.by_names))}" if trial.by_names else ""
        return f"{line}; NOT TRIED: {left}" if left else line

    def record(self, root, trial, crates):
        """Notes of which of these crates all edits that were due were refused."""
        failed, untried = {it.split("/")[0] for it in trial.failed + self.bad}, self.untried(trial)
        refused = {it: self.stamps[it] for it in crates if it not in failed and it not in untried}
        record(root, refused, failed.intersection(crates))


def all_of(edits):
    return edits


def none_of(_):
    return []


def part_of(root):
    """Takes one of each TURNS edits, another at each commit."""
    turn = turn_of(root) % TURNS
    return lambda edits: edits[turn::TURNS]


def plan(root, names, of_known, turn):
    """What is tried of these crates' edits: all of crates that changed since they were recorded, and what a function takes of the
    others. Crates that changed themselves come first, and then the others, at each turn from another one on."""
    crates, known, made = crates_of(root), recorded(root), Plan(root)
    alone = {(it[0], it[3]) for it in record_lines(root) if len(it) == 4}
    stamps = {it: stamps_of(root, crates, it) for it in sorted(names, key=lambda it: -len(below(crates, it)))}
    others = [it for it in stamps if (it, stamps[it][1]) in alone]
    start = turn % len(others) if others else 0
    for crate in [it for it in stamps if it not in others] + others[start:] + others[:start]:
        edits, bad = edits_of(root, crate)
        made.bad += bad
        is_known = crate in known and known[crate][0] == stamps[crate][0]
        made.add(crate, of_known(edits) if is_known else edits, stamps[crate])
    return made
