"""Judges must-fail edits, crates/NAME/must-fail/*.edit: the prover must refuse the crate under each of them.

Edits of different functions are tried together, each judged by what the check says of its own function: the proof of a function rests
on its own body and on the contracts of what it calls, and the prover tells a function that fails by itself from one that calls such a
function. An edit that isn't inside one function's body, or whose function's line doesn't settle it, is tried alone: then the crate as
a whole must be refused. Beside the edits of each crate stands a control, a comment put into a function: it must not be refused.
"""
import os
import random
import re
import threading
from dataclasses import dataclass

from functions import functions_of
from lanes import PARTS, files_below, read

# A further batch costs another reading of the libraries, a longer one makes the lanes end at different times.
MOST_IN_A_BATCH = 14
CONTROL = "control"
BY_NAMES = "alone, for lost names and nothing else"
# What an error says that is about a name alone: the edit took it away, and nothing is said of what the function must ensure.
LOST_NAME = re.compile(r"has no field|is not in scope|has no `|was not admitted")


@dataclass(frozen=True)
class Edit:
    """The files that an edit changes with their new texts, and the function in whose body the change lies, if it lies in one, with what
    that is proved with."""

    name: str
    texts: dict
    function: str
    group: str


def changed_span(old, new):
    """The part of the first text that the second has otherwise, from the first difference to the last."""
    start = len(os.path.commonprefix([old, new]))
    most = min(len(old), len(new)) - start
    same = len(os.path.commonprefix([old[::-1], new[::-1]]))
    return start, len(old) - min(same, most)


def texts_of(folder, file):
    """The files that an edit changes, with their new texts."""
    texts, path, old = {}, "", None
    for line in read(file).split("\n"):
        if line.startswith("file: "):
            path = line[len("file: ") :].strip()
            if not path.startswith(tuple(f"{it}/" for it in PARTS)) or not os.path.isfile(f"{folder}/{path}"):
                raise ValueError(f"there is no file {path}")
        elif line.startswith("old: "):
            old = line[len("old: ") :]
        elif line.startswith("new:"):
            text = texts.get(path) or read(f"{folder}/{path}")
            if old is None or text.count(old) != 1:
                raise ValueError(f"an old text stands {text.count(old or '')} times in {path}, and not once")
            texts[path], old = text.replace(old, re.sub(r"^new: ?", "", line)), None
    if not texts:
        raise ValueError("it has no pair of old: and new:")
    return texts


def function_of(folder, texts):
    """The function in which a change lies, and its group; none where it doesn't lie in one."""
    [(path, new), *others] = texts.items()
    if others or not path.startswith("src/"):
        return "", ""
    old = read(f"{folder}/{path}")
    start, end = changed_span(old, new)
    found = [(it.path, it.group) for it in functions_of(path, old) if it.start < start and end < it.end]
    return found[0] if found else ("", "")


def edits_of(root, crate):
    """The crate's edits, and a line for each that can't be applied."""
    folder, found, bad = f"{root}/crates/{crate}", [], []
    for file in files_below(f"{folder}/must-fail"):
        if file.endswith(".edit"):
            try:
                texts = texts_of(folder, file)
                found.append(Edit(os.path.basename(file), texts, *function_of(folder, texts)))
            except (ValueError, OSError) as error:
                bad.append(f"{crate}/{os.path.basename(file)}: BAD EDIT: {error}")
    return found, bad


def control_of(folder, taken):
    """An edit that changes nothing: a comment in a function that is proved with none in which another edit is."""
    found = []
    for file in files_below(f"{folder}/src"):
        path, text = os.path.relpath(file, folder), read(file)
        if "#[test]" not in text:
            found += [(path, text, it) for it in functions_of(path, text) if it.group not in taken]
    path, text, function = random.SystemRandom().choice(found)
    at = function.start + 1
    return Edit(CONTROL, {path: f"{text[:at]} // nothing else changes\n{text[at:]}"}, function.path, function.group)


def batches_of(edits):
    """Edits in lists: of functions that are proved together one edit at most in each, and by itself what isn't inside one function."""
    batches = []
    for edit in (it for it in edits if it.function):
        free = (it for it in batches if len(it) < MOST_IN_A_BATCH and edit.group not in [other.group for other in it])
        batch = next(free, None)
        if batch is None:
            batches.append([edit])
        else:
            batch.append(edit)
    return batches + [[it] for it in edits if not it.function]


def joined(batch, folder):
    """The files of the crate with the changes of all edits of a batch, which lie in different functions."""
    changes = {}
    for edit in batch:
        for path, new in edit.texts.items():
            old = read(f"{folder}/{path}")
            start, end = changed_span(old, new)
            changes.setdefault(path, []).append((start, end, new[start : len(new) - (len(old) - end)]))
    texts = {}
    for path, of_file in changes.items():
        texts[path] = read(f"{folder}/{path}")
        for start, end, new in sorted(of_file, reverse=True):
            texts[path] = texts[path][:start] + new + texts[path][end:]
    return texts


class Checked:
    """What a check says of the crate and of its functions."""

    def __init__(self, crate, ran):
        self.crate, self.ran, self.lines = crate, ran, ran.text.split("\n")
        self.functions = dict(it.groups() for it in map(re.compile(r"fn (\S+): (.+)").match, self.lines) if it)
        # Over stale kept work the crates below are checked before, each with a line of its own.
        self.verdict = next((it.split()[0] for it in reversed(self.lines) if it.startswith("logic=")), "")
        read_wrongly = r"error\b|(\./)?(src|specs)/\S+:\d+:\d+: error"
        self.is_readable = not any(re.match(read_wrongly, it) for it in self.lines)

    def refuses_function(self, end):
        """Whether the function whose name ends so fails by itself; None where its line doesn't tell."""
        named = [it for it in self.functions if it.endswith(f"::{end}")]
        if len(named) != 1 or not self.verdict or not self.is_readable:
            return None
        said = self.functions[named[0]]
        if said == "proved":
            return False
        if said.startswith("no proof: ") and "did not prove `" in said:
            return True
        folder = "/".join(named[0].split("::")[1:])
        return True if said.startswith("not proved") and self.refuses_answer(f"{folder}/") else None

    def errors(self, folder=""):
        """The errors in this folder of the proofs, each with the lines that go on with it."""
        begins = re.compile(rf"(\./)?proofs/{re.escape(folder)}\S+\.antt:\d+:\d+: error: ")
        return [it for it in self.ran.text.replace("\n  ", "  ").split("\n") if begins.match(it)]

    def refuses_answer(self, folder=""):
        """Whether an answer in this folder of the proofs is refused, and not for a name alone that the edit took away."""
        return any(not LOST_NAME.search(it) for it in self.errors(folder))

    def refuses_crate(self):
        """Whether the crate as a whole is refused; None where the check didn't get so far."""
        if self.ran.status == 0 and self.verdict == "logic=proved":
            return False
        return True if self.ran.status == 1 and self.verdict == "logic=not-proved" and self.is_readable else None

    def tells_why(self):
        """Whether more is refused than names that the edit took away."""
        return any("no proof: " in it and "did not prove `" in it for it in self.lines) or self.refuses_answer()

    def beginning(self):
        told = self.errors() or [it for it in self.lines if "error" in it] or self.lines
        return "\n".join(told[:6])


class Trial:
    """Tries batches of edits in lanes, prints what comes of each, and counts. Only of an edit in `tried` was a verdict reached; of one in
    `by_names` it says no more than that names are lost, and such an edit is to be written anew."""

    def __init__(self, root, lanes):
        self.root, self.lanes, self.noting = root, lanes, threading.Lock()
        self.passed, self.tried, self.by_names, self.failed, self.seconds = 0, [], [], [], 0.0

    def check(self, crate, texts):
        with self.lanes.one() as lane:
            ran = lane.rt(crate, "check", "--jobs", "1", texts=texts)
        with self.noting:
            self.seconds += ran.seconds
        return Checked(crate, ran)

    def run(self, crate, batch):
        """Tries a batch of a crate's edits together, and alone those that this doesn't settle."""
        together = self.check(crate, joined(batch, f"{self.root}/crates/{crate}")) if len(batch) > 1 else None
        for edit in batch:
            refused, how = together.refuses_function(edit.function) if together else None, edit.function
            if refused is None:
                alone = self.check(crate, edit.texts)
                refused = alone.refuses_crate()
                how = BY_NAMES if refused and not alone.tells_why() else "alone"
                how = how if refused is not None else f"BAD EDIT, no verdict was reached:\n{alone.beginning()}"
            self.note(crate, edit, refused, how)

    def note(self, crate, edit, refused, how):
        is_well = refused is (edit.name != CONTROL)
        said = {True: "refused", False: "NOT REFUSED: the crate is still proved", None: "NOT TRIED"}[refused]
        if edit.name == CONTROL:
            said = "not refused, as it must be" if is_well else "REFUSED, though it changes nothing"
        with self.noting:
            print(f"must-fail {crate}/{edit.name}: {said} ({how})", flush=True)
            self.passed += is_well
            self.tried += [f"{crate}/{edit.name}"] if refused is not None and edit.name != CONTROL else []
            self.by_names += [f"{crate}/{edit.name}"] if refused and how == BY_NAMES else []
            self.failed += [] if is_well else [f"{crate}/{edit.name}"]
