#!/usr/bin/env python3
"""The merge gate. The last line is 'N passed, M failed'.

In a copy of the tree, which holds nothing of an earlier run, and in lanes beside it, this is always done:
1. Each crate is proved from nothing, once those below it are, and in two processes where others stand on it, since towards the end each
   waits for the one before it. rt would begin with what it kept of the same text in another copy on the machine, so the copies of a run
   have a line that no other has.
2. The crate is checked for contracts that no call can meet and for what HANDLES doesn't allow: a library over its proof, and any other
   crate with it. Its layout is compared with rt fmt's, and the program is built by both compilers. Its tests are compiled with run-time
   checks, and run.
3. The program as each compiler made it is run: as crates/lv says, over the examples, with refused memory, with outputs that take nothing.
   The library for C, as each made it, is called from C, Python and Rust, and with refused memory.
4. `rt all check` looks for files that no crate reads, and finds every crate proved as the tree has it; what the pages name is looked up, and
   the streams that the tests of `damage_tests` change are compared with those that their tool makes.

Then the must-fail edits that are due are tried (must_fail.py, records.py), until a time: none is begun later, and the gate
says of which crates some weren't. With --rest those of each crate are due that isn't recorded as it stands, however long they take, and
with --all all edits. With either the tests' own functions are proved too, which takes longer than all that a test could show: that they
index no array out of its bounds, and the like.

What a task waits for is all that orders them, so tests are run while crates wait for those below them, and edits where nothing else is
ready.

`make ci` is the toolchain's own gate: it proves each crate three times, and knows no kept work. It is run before a release.
"""
import argparse
import math
import os
import re
import secrets
import shutil
import subprocess
import sys
import tempfile
import threading
import time
from concurrent.futures import ThreadPoolExecutor
from dataclasses import dataclass, replace
from functools import partial
from typing import Callable

sys.dont_write_bytecode = True
from lanes import Lanes, PARTS, below, crates_of, files_below, link, most_lanes, read, run
from must_fail import Trial
from records import RECORD, all_of, none_of, part_of, plan, turn_of

ROOT = os.path.abspath(f"{__file__}/../../..")
PROGRAM, LIBRARY = "lv", "lv_c"
# The minute after which no edit is begun: the gate is to end within 180, on two shared cores too.
UNTIL = 40
# In how many processes a crate is proved on which others stand. Those on which none does can be proved side by side.
JOBS_OF_A_LIBRARY = 2
# How many seconds a crate's tests may take with run-time checks; and the tests that take longer so than with their proof.
SECONDS_OF_TESTS = 300
PROVED_TESTS = ("damage_tests",)
# How the program and the library are built, and how what comes of the program is called.
BACKENDS = {"llvm": "lv", "rattle": "lv.by-rattle"}
RUNS = (
    "check-rows.py",
    "check-streams.py",
    "check-show.py",
    "check-sessions.py",
    "check-configurations.py",
    "check-limits.py",
    "check-examples.sh",
    "check-outputs.sh",
    "check-recast.py",
    "check-live.py",
    "check-claims.py",
    "refuse-memory.sh",
    "refuse-run.py",
    "check-cuts.py",
)
CALLS = ("check-library.py", "refuse-calls.py")
# What the last line of a check may say of a proved crate: nothing of bounds, foreign functions or contracts that say nothing.
PROVED = {"logic", "functions", "sum", "axioms", "target", "cpu", "native", "logic-built", "libraries-built", "statements", "incremental"}
# What rt says of a check that begins with the work of another checkout.
BORROWED = re.compile(r": begins with what a check kept in ")
# How many failures are told once more at the end, where CI shows no more than that.
MOST_TOLD = 12
EMPTY = re.compile(r"^(warning: no call of `(?![^`]*::fn::)|note: the search for empty contracts did not end)", re.M)


def free(folder):
    """What is free of the disk that holds a folder, and of memory, in words."""
    memory = re.search(r"^MemAvailable: +(\d+)", read("/proc/meminfo"), re.M)
    return f"free: {shutil.disk_usage(folder).free >> 30} GB of disk, {int(memory[1]) >> 20} GB of memory"


def told(text):
    """The line of an output that says most of why something failed: the first error, or the last line."""
    lines = [it.strip() for it in text.split("\n") if it.strip()]
    errors = [it for it in lines if re.search(r"\b(error|refused|killed|FAILED|No space)\b", it)]
    return (errors or lines[-1:] or ["nothing was said"])[0][:160]


def linked_libraries(source, to):
    """Copies a file of a tree, but links what was built as a library: rt replaces that as a whole."""
    return (link if f"{os.sep}rlib{os.sep}" in source else shutil.copy2)(source, to)


@dataclass(frozen=True)
class Task:
    """What is done once these are made: crates by their proofs, the program by its compilers. The call answers whether it went well."""

    needs: frozenset
    call: Callable
    makes: str = ""


class Schedule:
    """Tasks by urgency: the first that can be begun is, in as many threads as there are lanes. Where none can, one of the further tasks
    is, as long as it is time. What waits for something that wasn't made, since its task didn't go well, is left. A task that a full disk
    or the like stops is broken off."""

    def __init__(self, tasks, further, is_time):
        self.left, self.further, self.is_time = list(tasks), list(further), is_time
        self.made, self.broken_off, self.running, self.changing = set(), [], 0, threading.Condition()

    def take(self):
        """The task that is begun now, if one can be."""
        for tasks in (self.left, self.further if self.is_time() else []):
            ready = next((it for it in tasks if it.needs <= self.made), None)
            if ready:
                tasks.remove(ready)
                return ready
        return None

    def next(self):
        """The next task, or none where no more can be begun."""
        with self.changing:
            while not (ready := self.take()):
                if not self.running:
                    return None
                self.changing.wait()
            self.running += 1
            return ready

    def work(self):
        while task := self.next():
            is_well = False
            try:
                is_well = task.call()
            except OSError as error:
                self.broken_off.append(f"a task was broken off: {error}")
            finally:
                with self.changing:
                    self.running -= 1
                    self.made |= {task.makes} if is_well else set()
                    self.changing.notify_all()

    def run(self, threads):
        with ThreadPoolExecutor(threads) as pool:
            for worker in [pool.submit(self.work) for _ in range(threads)]:
                worker.result()


class Gate:
    def __init__(self, tree, room, jobs, proves_tests):
        self.tree, self.room, self.jobs, self.noting = tree, room, jobs, threading.Lock()
        self.proves_tests = proves_tests
        self.crates, self.every_lane = crates_of(tree), Lanes(tree, room, jobs)
        self.lanes = [*self.every_lane.free]
        self.passed, self.failed, self.reasons, self.minutes = 0, [], [], {}

    def note(self, part, name, ran, is_well, text=""):
        """Counts one answer, prints its line, and all that was said where it failed."""
        with self.noting:
            self.minutes[part] = self.minutes.get(part, 0) + ran.seconds / 60
            self.passed += is_well
            self.failed += [] if is_well else [f"{name} ({part})"]
            self.reasons += [] if is_well else [f"{part} {name}: {text or told(ran.text)}; {free(self.room)}"]
            said = f"well, {ran.seconds:.0f} s" if is_well else f"FAILED{': ' * bool(text)}{text}\n{ran.text}"
            print(f"{part} {name}: {said}", flush=True)
        return is_well

    def is_library(self, crate):
        return any(crate in it for it in self.crates.values())

    def prove(self, lane, crate):
        """Proves a crate from nothing, and gives its library to all lanes and what was kept of its proof to the tree."""
        words = ["lib", "--jobs", str(JOBS_OF_A_LIBRARY)] if self.is_library(crate) else ["check", "--jobs", "1", "--empty-contracts"]
        ran = lane.rt(crate, *words, keeps=True)
        is_proved = ran.status == 0 and re.search("^logic=proved ", ran.text, re.M) is not None
        is_well = self.note("proof", crate, ran, is_proved and not BORROWED.search(ran.text))
        if is_well:
            keep(lane, crate, self.tree, self.lanes)
        # the time of both is that of the proof
        return is_well and (self.is_library(crate) or self.note_contracts(crate, replace(ran, seconds=0)))

    def whole(self):
        """Finds every crate proved as the tree has it, and every file read by one. That is done in a copy, since the lanes take the kept
        work of the tree."""
        with tempfile.TemporaryDirectory(prefix="whole-", dir=self.room) as room:
            shutil.copytree(self.tree, f"{room}/tree", copy_function=linked_libraries)
            ran = run(["rt", "all", "check", "--jobs", "1"], f"{room}/tree")
        proved = [it for it in self.crates if re.search(rf"^{it}: ok$", ran.text, re.M)]
        is_well = ran.status == 0 and proved == [*self.crates] and "rt verdict refuses this" not in ran.text
        return self.note("whole", "tree", ran, is_well)

    def contracts(self, lane, crate):
        """Looks for contracts that no call can meet, and for words in the verdict that this repository doesn't allow."""
        return self.note_contracts(crate, lane.rt(crate, "check", "--jobs", "1", "--empty-contracts"))

    def note_contracts(self, crate, ran):
        line = next((it for it in ran.text.split("\n") if it.startswith("logic=proved ")), "")
        beyond = {it.partition("=")[0] for it in line.split()} - PROVED
        why = "a contract that no call can meet" if EMPTY.search(ran.text) else f"not proved as it must be: {line}"
        return self.note("contracts", crate, ran, ran.status == 0 and line != "" and not beyond and not EMPTY.search(ran.text), why)

    def layout(self, lane, crate):
        ran = lane.rt(crate, "fmt")
        texts = [
            {os.path.relpath(it, root): read(it) for part in PARTS for it in files_below(f"{root}/crates/{crate}/{part}")}
            for root in (self.tree, lane.folder)
        ]
        others = sorted(it for it in texts[0] if texts[0][it] != texts[1].get(it))
        return self.note("layout", crate, ran, ran.status == 0 and not others, f"run rt fmt, it lays out anew: {' '.join(others)}")

    def are_proved(self, crate):
        """Whether the tests of a crate are proved before they are run."""
        return self.proves_tests or crate in PROVED_TESTS

    def tests(self, lane, crate):
        """Runs a crate's tests: as they were proved, or compiled with run-time checks, for which nothing needs to be proved."""
        words = ["test", "--jobs", "1"] if self.are_proved(crate) else ["try", "--test", "--seconds", str(SECONDS_OF_TESTS)]
        ran = lane.rt(crate, *words)
        passed = re.search(r"^test result: ok\. [1-9]", ran.text, re.M) is not None
        return self.note("tests", crate, ran, ran.status == 0 and passed, "" if ran.status else "no test was run" * (not passed))

    def build(self, lane, backend):
        """Builds the program by a compiler. With no words it ends with status 2, so what counts is that it is there."""
        ran = lane.rt(PROGRAM, "run", "--jobs", "1", "--backend", backend)
        made = f"{lane.folder}/crates/{PROGRAM}/out/{PROGRAM}"
        is_well = self.note("build", f"{PROGRAM} by {backend}", ran, os.path.isfile(made), "it was not built")
        if is_well:
            shutil.move(made, self.program(backend))
        return is_well

    def program(self, backend):
        return f"{self.tree}/crates/{PROGRAM}/out/{BACKENDS[backend]}"

    def build_library(self, lane, backend):
        ran = lane.rt(LIBRARY, "lib", "--jobs", "1", "--backend", backend)
        made = f"{lane.folder}/crates/{LIBRARY}/out/lib{LIBRARY}.a"
        is_well = self.note("build", f"{LIBRARY} by {backend}", ran, ran.status == 0 and os.path.isfile(made), "it was not built")
        if is_well:
            shutil.move(made, self.library(backend))
        return is_well

    def library(self, backend):
        return f"{self.tree}/crates/{LIBRARY}/out/lib{LIBRARY}.{backend}.a"

    def call_library(self, script, backend):
        ran = run([f"{self.tree}/tools/runs/{script}", self.library(backend)], self.tree)
        return self.note("runs", f"{script} of {LIBRARY} by {backend}", ran, ran.status == 0)

    def pages(self):
        """Looks up what the pages name. git knows the files of this tree, and not of the copy."""
        ran = run([f"{ROOT}/tools/gate/check-pages.py"], ROOT)
        return self.note("pages", "tree", ran, ran.status == 0)

    def streams(self):
        """Compares the bytes of the streams that the tests damage with those that their tool makes."""
        ran = run([f"{self.tree}/tools/models/damage_streams.py", "--check"], self.tree)
        return self.note("streams", "damage", ran, ran.status == 0)

    def run_stored(self, backend):
        """Runs the program with the words of crates/lv/args where the files of crates/lv/data lie."""
        folder = f"{self.tree}/crates/{PROGRAM}"
        with tempfile.TemporaryDirectory(prefix="lv-run-") as room:
            shutil.copytree(f"{folder}/data", room, dirs_exist_ok=True)
            ran = run([self.program(backend), *read(f"{folder}/args").split()], room)
        return self.note("runs", f"{BACKENDS[backend]}, as stored", ran, ran.status == 0 and ran.text == read(f"{folder}/stdout"))

    def run_script(self, script, backend):
        ran = run([f"{self.tree}/tools/runs/{script}", self.program(backend)], self.tree)
        return self.note("runs", f"{script} of {BACKENDS[backend]}", ran, ran.status == 0)

    def tasks(self):
        """All that must be done: proofs first, of the crates that most others wait for, and then what takes longest."""
        crates, under = self.crates, {it: below(self.crates, it) for it in self.crates}
        high = sorted(crates, key=lambda it: -len(under[it]))

        def in_lane(call, name):
            def work():
                with self.every_lane.one() as lane:
                    return call(lane, name)

            return work

        for it in sorted(crates, key=lambda it: -sum(it in others for others in under.values())):
            yield Task(frozenset(under[it] - {it}), in_lane(self.prove, it), makes=it)
        yield Task(frozenset(crates), self.whole)
        yield Task(frozenset(), self.pages)
        yield Task(frozenset(), self.streams)
        for it in BACKENDS if PROGRAM in crates else ():
            yield Task(frozenset([PROGRAM]), in_lane(self.build, it), makes=it)
        for it in BACKENDS if PROGRAM in crates else ():
            yield Task(frozenset([it]), partial(self.run_stored, it))
            for script in RUNS:
                yield Task(frozenset([it]), partial(self.run_script, script, it))
        for it in BACKENDS if LIBRARY in crates else ():
            built = f"{LIBRARY} by {it}"
            yield Task(frozenset([LIBRARY]), in_lane(self.build_library, it), makes=built)
            for script in CALLS:
                yield Task(frozenset([built]), partial(self.call_library, script, it))
        for it in (it for it in high if has_tests(self.tree, it)):
            yield Task(frozenset([it] if self.are_proved(it) else []), in_lane(self.tests, it))
        for it in high:
            if self.is_library(it):
                yield Task(frozenset([it]), in_lane(self.contracts, it))
            yield Task(frozenset([it]), in_lane(self.layout, it))

    def work(self, planned, is_time):
        """Does all of it, and gives what came of the edits."""
        trial = Trial(self.tree, self.every_lane)
        further = [Task(frozenset([crate]), partial(trial.run, crate, batch)) for crate, batch in planned.batches]
        schedule = Schedule(self.tasks(), further, is_time)
        schedule.run(self.jobs)
        self.minutes["edits"] = trial.seconds / 60
        self.passed += trial.passed
        self.failed += trial.failed + [it.split(":")[0] for it in planned.bad]
        self.failed += schedule.broken_off + [f"{len(schedule.left)} tasks were not begun"] * bool(schedule.left)
        return trial


def keep(lane, crate, tree, lanes):
    """Moves what rt kept of its work in a lane to the tree, and gives the crate's library to all lanes."""
    for part in ("rlib", "incremental"):
        source, to = (f"{it}/crates/{crate}/out/{part}" for it in (lane.folder, tree))
        if os.path.isdir(source):
            shutil.rmtree(to, ignore_errors=True)
            shutil.move(source, to)
    for it in lanes:
        it.take(crate, "rlib", link)


def has_tests(root, crate):
    return any("#[test]" in read(it) for it in files_below(f"{root}/crates/{crate}/src"))


def copied(tree):
    """Copies what git knows of this tree, or doesn't ignore, to a folder of its own."""
    words = ["git", "ls-files", "-z", "--cached", "--others", "--exclude-standard"]
    listed = subprocess.run(words, cwd=ROOT, stdout=subprocess.PIPE, text=True, check=True).stdout
    for path in filter(None, listed.split("\0")):
        if os.path.isfile(f"{ROOT}/{path}"):
            os.makedirs(os.path.dirname(f"{tree}/{path}"), exist_ok=True)
            shutil.copy(f"{ROOT}/{path}", f"{tree}/{path}")
    return tree


def apart(tree):
    """Makes the crates' texts those of this run alone, by a line at the end of each root file, with nothing kept of their proofs. rt takes
    a library that another checkout built of the same text, and begins with another's kept work where a crate has no folder of its own."""
    line = f"// In the copy {secrets.token_hex(8)} of the gate.\n"
    for crate in crates_of(tree):
        folder = f"{tree}/crates/{crate}"
        for root in filter(os.path.isfile, (f"{folder}/src/lib.rt", f"{folder}/src/main.rt")):
            with open(root, "a", encoding="utf-8") as file:
                file.write(line)
        os.makedirs(f"{folder}/out/incremental", exist_ok=True)
    return tree


def arguments():
    parser = argparse.ArgumentParser(description="The merge gate: proofs from nothing, contracts, layout, tests, runs, must-fail edits.")
    parser.add_argument("--jobs", type=int, default=most_lanes(), help="how many checks run side by side")
    parts = parser.add_mutually_exclusive_group()
    parts.add_argument("--rest", action="store_true", help="try no edit of crates as they were recorded, all of the others, and prove the tests")
    parts.add_argument("--all", action="store_true", help="try all edits, and prove the tests")
    parser.add_argument("--until", type=float, metavar="MINUTES", help=f"begin no edit later: {UNTIL}, or with --rest or --all whenever")
    parser.add_argument("--record", action="store_true", help=f"note in {RECORD} of which crates all that were due were refused")
    words = parser.parse_args()
    words.is_whole = words.rest or words.all
    if words.until is None:
        words.until = math.inf if words.is_whole else UNTIL
    return words


def main():
    words, began = arguments(), time.monotonic()
    with tempfile.TemporaryDirectory(prefix="lv-gate-") as room:
        gate = Gate(apart(copied(f"{room}/tree")), room, words.jobs, words.is_whole)
        print(free(room), flush=True)
        if read(f"{ROOT}/HANDLES") != "Handles allowed: none.\n":
            gate.failed.append("HANDLES")
        of_known = all_of if words.all else none_of if words.rest else part_of(ROOT)
        planned = plan(gate.tree, [*gate.crates], of_known, turn_of(ROOT))
        trial = gate.work(planned, lambda: time.monotonic() - began < words.until * 60)
        if words.record:
            planned.record(ROOT, trial, [*gate.crates])
    whole = sum(gate.minutes.values())
    print("minutes of processor time:", ", ".join(f"{part} {it:.1f}" for part, it in gate.minutes.items()) + f", in all {whole:.1f}")
    print(f"minutes by the clock: {(time.monotonic() - began) / 60:.1f}, with {words.jobs} lanes")
    print(*planned.bad, planned.said(trial), sep="\n")
    if gate.failed:
        print(f"FAILED: {', '.join(gate.failed)}")
        print(*gate.reasons[:MOST_TOLD], sep="\n")
    print(f"{gate.passed} passed, {len(gate.failed)} failed")
    return 1 if gate.failed else 0


if __name__ == "__main__":
    sys.exit(main())
