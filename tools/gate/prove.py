#!/usr/bin/env python3
"""Proves the crates whose text, or that of a crate below, changed since they were proved here: in lanes side by side, each over what was
kept of its last proof, with the tests of a crate where --tests asks for them. The tree may change meanwhile: what is proved is its text
as it was at the beginning.

This is for the way between two gates. It isn't one: it begins with kept work, and tries no edit.
"""
import argparse
import hashlib
import os
import re
import subprocess
import sys
import tempfile
import time
from functools import partial

sys.dont_write_bytecode = True
from gate import ROOT, Schedule, Task, has_tests, keep, told
from lanes import Lanes, PARTS, below, crates_of, files_below, most_lanes, read

# The digest of the text that was proved, or of that of which the tests were run too, in a crate's out/.
KEPT = {"check": "proved.digest", "test": "tested.digest"}


def digests(tree, crates):
    """What a crate's proof depends on, as one number: its text, its libraries, those of the repository as proved, and the toolchain."""
    version = subprocess.run(["rt", "version"], stdout=subprocess.PIPE, text=True, check=True).stdout
    found = {}
    for crate in sorted(crates, key=lambda it: len(below(crates, it))):
        line = re.search(rf"^{crate}\b.*", read(f"{tree}/crates.txt"), re.M)[0]
        whole = hashlib.sha256((version + line + "".join(found[it] for it in crates[crate])).encode())
        for part in PARTS:
            for path in files_below(f"{tree}/crates/{crate}/{part}"):
                whole.update(os.path.relpath(path, tree).encode() + b"\0" + read(path).encode() + b"\0")
        found[crate] = whole.hexdigest()
    return found


class Proving:
    def __init__(self, tree, room, jobs, tests):
        self.tree, self.crates, self.failed = tree, crates_of(tree), []
        self.lanes = Lanes(tree, room, jobs)
        self.all, self.texts, self.tests = [*self.lanes.free], digests(self.lanes.free[0].folder, self.crates), tests

    def is_kept(self, crate, what):
        path = f"{self.tree}/crates/{crate}/out/{KEPT[what]}"
        return os.path.isfile(path) and read(path) == self.texts[crate]

    def keep(self, lane, crate, what):
        """Takes over what rt kept of its work in a lane, and notes of which text it is."""
        keep(lane, crate, self.tree, self.all)
        with open(f"{self.tree}/crates/{crate}/out/{KEPT[what]}", "w", encoding="utf-8") as file:
            file.write(self.texts[crate])

    def call(self, what, crate):
        is_library = any(crate in it for it in self.crates.values())
        word = "test" if what == "test" else "lib" if is_library else "check"
        with self.lanes.one() as lane:
            began = time.monotonic()
            # where few crates can be checked at once, each takes the processors of the lanes that stand empty
            ran = lane.rt(crate, word, "--jobs", str(1 + len(self.lanes.free)), keeps=True)
            proved = re.search("^logic=proved .*", ran.text, re.M)
            # only a proved library is built, and of one that was built of this very text no more is said
            is_well = ran.status == 0 and (proved is not None or word != "check")
            if is_well:
                self.keep(lane, crate, what)
            else:
                # the next one begins with the functions that were proved
                keep(lane, crate, self.tree, [])
        count = re.search(r"functions=(\d+)", proved[0] if proved else "")
        said = f"well, {count[1] if count else '?'} functions" if is_well else f"FAILED: {told(ran.text)}"
        print(f"{word} {crate}: {said}, {ran.seconds:.0f} s, {time.monotonic() - began:.0f} s by the clock", flush=True)
        if not is_well:
            self.failed.append(crate)
            os.makedirs(f"{self.tree}/crates/{crate}/out", exist_ok=True)
            with open(f"{self.tree}/crates/{crate}/out/{word}.log", "w", encoding="utf-8") as file:
                file.write(ran.text)
        return is_well

    def tasks(self, names):
        under = {it: below(self.crates, it) for it in self.crates}
        wanted = set().union(*(under[it] for it in names))
        due = [it for it in self.crates if it in wanted and not self.is_kept(it, "check")]
        # those that most others wait for come first
        for it in sorted(due, key=lambda it: -sum(it in others for others in under.values())):
            yield Task(frozenset(under[it] & {*due} - {it}), partial(self.call, "check", it), makes=it)
        for it in sorted(wanted, key=lambda it: -len(under[it])):
            if self.tests and has_tests(self.tree, it) and not self.is_kept(it, "test"):
                yield Task(frozenset([it]) & {*due}, partial(self.call, "test", it))


def main():
    parser = argparse.ArgumentParser(description="Proves what changed, in lanes side by side, over kept work.")
    parser.add_argument("names", nargs="*", metavar="NAME", help="crates, with those below them; all where none is named")
    parser.add_argument("--jobs", type=int, default=most_lanes(), help="how many checks run side by side")
    parser.add_argument("--tests", action="store_true", help="prove and run the tests too")
    words = parser.parse_args()
    with tempfile.TemporaryDirectory(prefix="lv-prove-") as room:
        proving = Proving(ROOT, room, words.jobs, words.tests)
        schedule = Schedule(proving.tasks(words.names or [*proving.crates]), [], lambda: False)
        schedule.run(words.jobs)
    left = len(schedule.left)
    print(f"{len(schedule.made)} proved, {len(proving.failed)} failed" + f", {left} not begun" * bool(left))
    return 1 if proving.failed or left else 0


if __name__ == "__main__":
    sys.exit(main())
