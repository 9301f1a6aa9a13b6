#!/usr/bin/env python3
"""Runs a script by `lv run` with each request for memory refused in turn: that one alone, then that one and all after it. The same by
`lv live`, with views that are sent, for each fifth request. Then both over more rows, and `lv recast`, in address spaces from the least in
which the program begins to one in which all is done.

A line whose reply is `refused 55 Memory` must have changed nothing: all other lines print, and write, what they do where that line is
left out of the script. A write that was refused leaves a beginning of its stream, or no file. Where the configuration, the script or
the room for reading and printing could not be held, `refused 55 Memory` is all that is printed, and nothing is done.

With the name of a program, that is run in place of the built lv.
"""
import os
import re
import resource
import shutil
import subprocess
import sys
import tempfile

sys.dont_write_bytecode = True
sys.path.insert(1, f"{sys.path[0]}/../models")
from streams import END_MARK, INT64_SCHEMA, int64_batch

ROOT = os.path.abspath(f"{__file__}/../../..")
REPORT = os.path.join(ROOT, "examples", "report")
# The words of the program take no more requests than this.
WORDS = 8
REFUSED = re.compile(r"(\d+): refused 55 Memory")
PAGE, STEP = 4096, 1 << 16
ROWS = 2_000
NUMBERS = """
[main]
key = "k"
columns = [["k", "int64"]]
[feed.add]
role = "append"
[feed.gone]
role = "retract"
[view.all]
columns = [["k", "col", "k"]]
order = [["k", "desc"]]
[view.each]
group = ["k"]
columns = [["k", "col", "k"], ["n", "count"]]
first = 10
"""


class Runs:
    """Runs of scripts over a configuration, each in a folder of its own."""

    def __init__(self, lv, work, config):
        self.lv, self.work, self.config, self.known = lv, work, config, {}
        self.library, self.mark = os.path.join(work, "refuse.so"), os.path.join(work, "mark")
        source = os.path.join(ROOT, "tools", "runs", "refuse_memory.c")
        subprocess.run(["cc", "-O2", "-shared", "-fPIC", "-o", self.library, source], check=True)

    def run(self, lines, **how):
        """Status, printed lines and written files."""
        place = os.path.join(self.work, "place")
        shutil.rmtree(place, ignore_errors=True)
        os.makedirs(os.path.join(place, "out"))
        status, printed = self.call("\n".join(lines) + "\n", cwd=place, stdout=subprocess.PIPE, stderr=subprocess.STDOUT, **how)
        made = os.path.join(place, "out")
        written = {it: open(os.path.join(made, it), "rb").read() for it in os.listdir(made)}
        # Standard error tells that memory ran out for the configuration, beside the line that says so.
        told = f"{self.config}: memory ran out"
        return status, [it for it in printed.decode().splitlines() if it != told], written

    def call(self, script, **how):
        """What the program does with a script: its status, and what it prints."""
        path = os.path.join(self.work, "script")
        with open(path, "w") as file:
            file.write(script)
        ran = subprocess.run([self.lv, "run", self.config, path], **how)
        return ran.returncode, ran.stdout

    def refused(self, lines, at, on):
        """The same, with a request for memory refused, and whether there was one."""
        if os.path.exists(self.mark):
            os.remove(self.mark)
        more = {"LD_PRELOAD": self.library, "REFUSE_AT": str(at), "REFUSE_ON": str(on), "REFUSE_MARK": self.mark}
        return self.run(lines, env=os.environ | more), os.path.exists(self.mark)

    def left_out(self, lines, printed):
        """The lines that were refused for want of memory."""
        return frozenset(int(it[1]) for it in map(REFUSED.fullmatch, printed) if it)

    def without(self, lines, left_out):
        """What the script prints and writes where these lines are comments."""
        if left_out not in self.known:
            self.known[left_out] = self.run(["#" if number in left_out else it for number, it in enumerate(lines, 1)])
        return self.known[left_out]


class LiveRuns(Runs):
    """The same by `lv live`, to which views are written by sending them."""

    def call(self, script, **how):
        lines = re.sub(r"(?m)^write (\S+) .*", r"send \1", script)
        ran = subprocess.run([self.lv, "live", self.config], input=lines.encode(), **how)
        return ran.returncode, self.keep_views(script.splitlines(), ran.stdout, how["cwd"])

    def left_out(self, lines, printed):
        """A line that can't be held ends the run, so those behind it are left out too."""
        refused, last = super().left_out(lines, printed), REFUSED.fullmatch(printed[-1]) if printed else None
        return refused | frozenset(range(int(last[1]) + 1, len(lines) + 1)) if last else refused

    def keep_views(self, lines, printed, place):
        """Puts the views that were sent into their files, and answers what was printed beside them and the lines that end answers."""
        answers, left = b"", printed
        while left:
            line, _, left = left.partition(b"\n")
            if wrote := re.fullmatch(rb"(\d+): wrote (\d+)", line):
                with open(os.path.join(place, lines[int(wrote[1]) - 1].split()[-1]), "wb") as file:
                    file.write(left[: int(wrote[2])])
                left = left[int(wrote[2]) :]
            answers += b"" if re.fullmatch(rb"\d+\.", line) else line + b"\n"
        return answers


def is_right(runs, lines, answer, may_lose_words):
    """Whether this answer may come where memory is refused, to the program's words too or not."""
    status, printed, written = answer
    if printed == ["wrong use"]:
        return status == 2 and may_lose_words and not written
    if printed == ["refused 55 Memory"]:
        return status == 1 and not written
    left_out = runs.left_out(lines, printed)
    wanted_status, wanted, files = runs.without(lines, left_out)
    if [it for it in printed if not REFUSED.fullmatch(it)] != wanted or status != (1 if left_out else wanted_status):
        return False
    whole = runs.without(lines, frozenset())[2]
    torn = {os.path.basename(lines[it - 1].split()[-1]) for it in left_out if lines[it - 1].startswith("write")}
    return all(files.get(it) == held or it in torn and whole[it].startswith(held) for it, held in written.items()) \
        and files.keys() <= written.keys()


def report_lines():
    """The report's streams a message a line, each batch a second time, with writes and undos between."""
    lines = []
    for feed in ("ports", "calls", "withdrawn", "corrected"):
        path = os.path.join(REPORT, f"{feed}.arrows")
        for first, last in messages(path):
            lines += [f"piece {feed} {path} {first} {last - first}"] * (2 if first else 1)
        lines += [f"write {view} out/{feed}-{view}" for view in ("report", "countries", "heaviest")]
    return lines + ["undo", "undo", "write countries out/undone"]


def number_lines(path):
    """Batches of many rows, a message a line, with writes and undos between."""
    with open(path, "wb") as file:
        file.write(INT64_SCHEMA + b"".join(int64_batch(ROWS, it * ROWS) for it in range(3)) + END_MARK)
    lines = []
    for first, last in messages(path):
        lines += [f"piece add {path} {first} {last - first}", f"write all out/all-{first}", f"write each out/each-{first}"]
    return lines + ["undo", "write all out/all-undone", "undo", "write each out/each-undone"]


def single_lines(work):
    """Batches of one row, a message a line, so many that they are merged. Most of the first go, and so many edits come after it that what is
    left of them is written anew."""
    lines = []
    for feed, name, first, count in (("add", "first", 0, 40), ("gone", "gone", 0, 30), ("add", "rest", 40, 72)):
        path = os.path.join(work, name)
        schema = b"" if name == "rest" else INT64_SCHEMA
        with open(path, "wb") as file:
            file.write(schema + b"".join(int64_batch(1, it) for it in range(first, first + count)) + END_MARK)
        lines += [f"piece {feed} {path} {first} {last - first}" for first, last in messages(path)]
        lines += [f"write each out/each-{name}"]
    return lines + ["write all out/all"] + ["undo"] * 20 + ["write all out/all-undone"]


def messages(path):
    """Where each message of a stream begins and ends, without the end mark."""
    held, at = open(path, "rb").read(), 0
    while held[at + 4 : at + 8] != bytes(4):
        size = int.from_bytes(held[at + 4 : at + 8], "little")
        root = at + 8 + int.from_bytes(held[at + 8 : at + 12], "little")
        vtable = root - int.from_bytes(held[root : root + 4], "little", signed=True)
        slot = int.from_bytes(held[vtable + 10 : vtable + 12], "little") if held[vtable] > 10 else 0
        body = int.from_bytes(held[root + slot : root + slot + 8], "little") if slot else 0
        yield at, at + 8 + size + body
        at += 8 + size + body


def wrong(runs, how, answer):
    raise AssertionError("\n".join([f"{type(runs).__name__} {how}: status {answer[0]}", *answer[1]]))


def each_request(runs, lines, stride):
    """Refuses the first request, and each one so many further on, and answers how many."""
    refusals = 0
    for on in (0, 1):
        at, was_refused = 1, True
        while was_refused:
            answer, was_refused = runs.refused(lines, at, on)
            if not is_right(runs, lines, answer, was_refused and at <= WORDS):
                wrong(runs, f"at request {at} (all after it: {on})", answer)
            at, refusals = at + stride, refusals + was_refused
    return refusals


def within(space):
    """What lets a program have so much address space."""
    return {"preexec_fn": lambda: resource.setrlimit(resource.RLIMIT_AS, (space, space))}


def least_space(lv):
    """The least address space in which the program begins."""
    begins = lambda space: subprocess.run([lv], capture_output=True, **within(space)).stdout == b"wrong use\n"
    few, many = 0, (1 << 30) // PAGE
    while few + 1 < many:
        middle = (few + many) // 2
        few, many = (few, middle) if begins(middle * PAGE) else (middle, many)
    return many * PAGE


def each_space(runs, lines):
    """Runs a script in each size of address space, and answers how many there are, and in how many a line was refused."""
    space, answers, whole = least_space(runs.lv), [], runs.without(lines, frozenset())
    while whole not in answers:
        answers.append(runs.run(lines, **within(space)))
        if not is_right(runs, lines, answers[-1], True):
            wrong(runs, f"in {space} bytes of address space", answers[-1])
        space += STEP
    return len(answers), sum(len(printed) > 1 for _, printed, _ in answers) - 1


def recast_in_each_space(lv, work):
    """Recasts a stream in each size of address space, and answers how many there are. Where it is refused, a beginning may be there."""
    source, made = os.path.join(work, "numbers"), os.path.join(work, "recast")
    subprocess.run([lv, "recast", source, made], stdout=subprocess.DEVNULL, check=True)
    whole, space, spaces, answer = open(made, "rb").read(), least_space(lv), 0, None
    done = (0, b"wrote %d\n" % len(whole), whole)
    while answer != done:
        os.remove(made)
        ran = subprocess.run([lv, "recast", source, made], stdout=subprocess.PIPE, stderr=subprocess.STDOUT, **within(space))
        held = open(made, "rb").read() if os.path.exists(made) else b""
        answer = ran.returncode, ran.stdout, held
        is_refused = answer[:2] == (1, b"refused 55 Memory\n") and whole.startswith(held)
        if not (answer == done or is_refused or answer == (2, b"wrong use\n", b"")):
            raise AssertionError(f"recast in {space} bytes of address space: status {ran.returncode}, {ran.stdout}")
        open(made, "ab").close()
        space, spaces = space + STEP, spaces + 1
    return spaces


def main():
    lv = os.path.abspath(sys.argv[1] if len(sys.argv) > 1 else os.path.join(ROOT, "crates/lv/out/lv"))
    if not shutil.which("cc"):
        print("refused memory: skipped, since no C compiler (cc) is on the PATH")
        return 0
    with tempfile.TemporaryDirectory(prefix="lv-refuse-") as work:
        config = os.path.join(work, "config")
        with open(config, "w") as file:
            file.write(NUMBERS)
        report, numbers, singles = report_lines(), number_lines(os.path.join(work, "numbers")), single_lines(work)
        for name, of, stride in (("run", Runs, 1), ("live", LiveRuns, 5)):
            refusals = each_request(of(lv, work, os.path.join(REPORT, "report.toml")), report, stride)
            merges = each_request(of(lv, work, config), singles, 11 * stride)
            spaces, some = each_space(of(lv, work, config), numbers)
            print(f"refused memory: {name} over {len(report)} lines, {refusals} refusals; over {len(singles)} of single rows, {merges}")
            print(f"refused memory: {name} in {spaces} sizes of address space, {some} of which were too small for some lines")
        print(f"refused memory: recast in {recast_in_each_space(lv, work)} sizes of address space; all answers were right")
    return 0


if __name__ == "__main__":
    sys.exit(main())
