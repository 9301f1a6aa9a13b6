#!/usr/bin/env python3
"""Runs the script of examples/report with its streams cut: each stream at each of its places, all in pieces of one byte, and all feeds
in turn. Messages complete in one order, so each run must print the same lines, but for their numbers, and write the same views.

With the name of a program, that is run in place of the built lv.
"""
import os
import random
import re
import subprocess
import sys
import tempfile

ROOT = os.path.abspath(f"{__file__}/../../..")
SCRIPT = os.path.join(ROOT, "examples", "report", "script")


def run(lv, lines):
    """The status, the lines without their numbers, and the files that are written."""
    with tempfile.TemporaryDirectory(prefix="lv-cuts-") as room:
        os.symlink(os.path.join(ROOT, "examples"), os.path.join(room, "examples"))
        os.mkdir(os.path.join(room, "out"))
        with open(os.path.join(room, "script"), "w") as file:
            file.write("\n".join(lines) + "\n")
        words = [lv, "run", "examples/report/report.toml", "script"]
        ran = subprocess.run(words, cwd=room, capture_output=True, text=True, timeout=60)
        made = {it: open(os.path.join(room, "out", it), "rb").read() for it in os.listdir(os.path.join(room, "out"))}
        return ran.returncode, [re.sub(r"^\d+: ", "", it) for it in ran.stdout.splitlines()], made


def feed_of(line):
    """The words of a line that pushes a whole file; None of any other line."""
    return re.fullmatch(r"feed (\S+) (\S+)", line)


def pieces(line, places):
    """A line that pushes a file, as one that pushes each piece between these places."""
    _, name, path = line.split()
    return [f"piece {name} {path} {first} {last - first}" for first, last in zip(places, places[1:])]


def size_of(line):
    return os.path.getsize(os.path.join(ROOT, line.split()[2]))


def cut(lines, which, places):
    """The script with one of its lines cut at these places."""
    return [each for number, line in enumerate(lines) for each in (pieces(line, places) if number == which else [line])]


def in_turn(lines, dice):
    """The script with feeds that follow one another pushed in turn by small pieces, each message after those before it: of every stream
    but the one whose turn it is, only the beginning of its first message comes."""
    made, ahead = [], {}
    for number, line in enumerate(lines):
        if not feed_of(line):
            made.append(line)
            continue
        for later in range(number + 1, len(lines)):
            if feed_of(lines[later]) and later not in ahead and lines[later].split()[1] not in {lines[it].split()[1] for it in ahead}:
                ahead[later] = dice.randrange(1, 100)
                made += pieces(lines[later], [0, ahead[later]])
        places = sorted({ahead.get(number, 0), *(dice.randrange(ahead.get(number, 0), size_of(line)) for _ in range(5)), size_of(line)})
        made += pieces(line, places)
    return made


def scripts():
    """Each cut of the script, with what it is."""
    lines = open(SCRIPT).read().splitlines()
    for number, line in enumerate(lines):
        if feed_of(line):
            for place in range(size_of(line) + 1):
                yield f"{line} cut at {place}", cut(lines, number, [0, place, size_of(line)])
    yield "one byte a piece", [
        each for line in lines for each in (pieces(line, range(size_of(line) + 1)) if feed_of(line) else [line])
    ]
    for seed in range(50):
        yield f"feeds in turn, {seed}", in_turn(lines, random.Random(seed))


def main():
    lv = os.path.abspath(sys.argv[1] if len(sys.argv) > 1 else os.path.join(ROOT, "crates/lv/out/lv"))
    whole, count = run(lv, open(SCRIPT).read().splitlines()), 0
    if whole[0] != 0 or not whole[2]:
        print(f"cuts: FAILED, the script as it is ended with {whole[0]}")
        return 1
    for name, lines in scripts():
        count += 1
        if run(lv, lines) != whole:
            print(f"cuts: FAILED, {name}")
            return 1
    print(f"cuts: {count} cuts of a script of {len(whole[1])} lines, each as the whole")
    return 0


if __name__ == "__main__":
    sys.exit(main())
