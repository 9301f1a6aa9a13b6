"""Copies of a proved tree in which rt works side by side: in one working copy it works in one crate at a time.

A lane holds the sources of all crates, links to the built libraries, and of the crate that it works in a copy of what the proof of
the tree kept in crates/NAME/out/incremental. So each check is one over the proof of that very tree, whatever the lane did before.
"""
import os
import shutil
import subprocess
import threading
from contextlib import contextmanager
from dataclasses import dataclass

PARTS = ("src", "specs", "proofs")
# What a check of the largest crates takes, with their tests, in bytes.
MEMORY_OF_A_LANE = 8 << 30


def read(path):
    with open(path, encoding="utf-8") as file:
        return file.read()


def files_below(folder):
    return sorted(os.path.join(at, name) for at, _, names in os.walk(folder) for name in names)


def crates_of(root):
    """The crates in crates.txt, in its order, each with the crates of the repository that it names."""
    found = {}
    for line in read(f"{root}/crates.txt").splitlines():
        line = line.partition("#")[0].strip()
        if line:
            head, _, libraries = line.partition(":")
            found[head.split()[0]] = libraries.split()
    return {name: [it for it in libraries if it in found] for name, libraries in found.items()}


def below(crates, name):
    """The crate and all crates below it."""
    found = {name}
    for it in crates[name]:
        found |= below(crates, it)
    return found


@dataclass
class Ran:
    """What a command answered, and the processor time that it and what it started took."""

    status: int
    text: str
    seconds: float


def run(words, cwd):
    how = {"stdin": subprocess.DEVNULL, "stdout": subprocess.PIPE, "stderr": subprocess.STDOUT, "text": True, "errors": "replace"}
    with subprocess.Popen(words, cwd=cwd, **how) as started:
        text = started.stdout.read()
        _, status, used = os.wait4(started.pid, 0)
        started.returncode = os.waitstatus_to_exitcode(status)
    return Ran(started.returncode, text, used.ru_utime + used.ru_stime)


def link(source, to):
    """Links a file, or copies it where the two places have no file system in common."""
    try:
        os.link(source, to)
    except OSError:
        shutil.copy2(source, to)


def most_lanes():
    """How many checks run side by side: one on each processor, as far as memory goes."""
    memory = os.sysconf("SC_PAGE_SIZE") * os.sysconf("SC_PHYS_PAGES")
    return max(1, min(len(os.sched_getaffinity(0)), memory // MEMORY_OF_A_LANE))


class Lane:
    def __init__(self, root, folder):
        self.root, self.folder = root, folder
        os.makedirs(folder)
        for file in ("crates.txt", "HANDLES"):
            shutil.copy(f"{root}/{file}", folder)
        for crate in crates_of(root):
            for part in PARTS:
                at = f"{root}/crates/{crate}/{part}"
                if os.path.isdir(at):
                    shutil.copytree(at, f"{folder}/crates/{crate}/{part}")
            # rt replaces a built library as a whole, so links to its files are enough
            self.take(crate, "rlib", link)

    def take(self, crate, part, copy):
        """Puts what the tree has of a crate's out/ in the place of what the lane has."""
        source, to = (f"{it}/crates/{crate}/out/{part}" for it in (self.root, self.folder))
        shutil.rmtree(to, ignore_errors=True)
        if os.path.isdir(source):
            shutil.copytree(source, to, copy_function=copy)

    def rt(self, crate, *words, texts=None, keeps=False):
        """Runs rt in the crate's folder, with these texts in place of the files of these names. What rt kept of its work there is removed,
        unless the caller takes it: in all crates together that is some gigabytes."""
        here, texts = f"{self.folder}/crates/{crate}", texts or {}
        self.take(crate, "incremental", shutil.copy2)
        for path, text in texts.items():
            with open(f"{here}/{path}", "w", encoding="utf-8") as file:
                file.write(text)
        try:
            return run(["rt", *words], here)
        finally:
            for path in texts:
                shutil.copy(f"{self.root}/crates/{crate}/{path}", f"{here}/{path}")
            if not keeps:
                shutil.rmtree(f"{here}/out/incremental", ignore_errors=True)


class Lanes:
    """So many lanes, each lent to one thread at a time."""

    def __init__(self, root, room, number):
        self.free = [Lane(root, f"{room}/lane{at}") for at in range(number)]
        self.changing = threading.Lock()

    @contextmanager
    def one(self):
        with self.changing:
            lane = self.free.pop()
        try:
            yield lane
        finally:
            with self.changing:
                self.free.append(lane)
