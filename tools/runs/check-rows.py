#!/usr/bin/env python3
"""Runs the built lv, or the program that is named, over the rows of tests/*.txt.

A row is a paragraph:
    row NAME                what it is called when it fails
    in STREAM               the input
    out STREAM | out same   recast writes exactly this, and prints its length
    refused N CAUSE         or it refuses the input for this cause, and makes no file; with `or` between, for one of several
    inspect STATUS          or inspect ends with this status, and prints the lines that follow, each after `| `
or, without an input:
    check CONFIG STATUS     check ends with this status, and prints the lines after `| `
    run CONFIG STATUS       run does the same with the script whose lines follow, each after `> `
    call STATUS WORD..      it ends with this status when called with these words, and prints the lines after `| `
    made NAME STREAM        the script or the call makes this file, and no others but those that are named
A paragraph `file NAME`, with an `in` or with lines after `> `, is a file that the rows behind it find.

In the lines after `| ` of a script, {NAME} stands for the length of the file that it makes.

A STREAM is hexadecimal digits, where A..B stands for the numbers from A to B, of 64 bits with the lowest byte first, and XX*N for N times
the same byte; or it is `sample` (tests/sample.arrows) or `coded` (tests/coded.arrows, a column of bools with a dictionary that a delta
grows) and how it differs: ..N its first N bytes, ..A-B each such beginning, P=XX another byte at place P, -A..B without these bytes, +XX
with these after it, +A..B with those from A to B after it; or it is `damage` and the name of one of the streams that are damaged
(models/damage_streams.py); or it is `table` and the words of a table (models/tables.py), as `id:int64 n:utf8 / 1 p / 2 null`.
"""
import os
import re
import subprocess
import sys
import tempfile

sys.dont_write_bytecode = True
sys.path.insert(1, f"{sys.path[0]}/../models")
import damage_streams
import tables

ROOT = os.path.abspath(f"{__file__}/../../..")
WORDS = ("in", "out", "refused", "inspect", "check", "run", "call", "made")
STORED = ("sample", "coded")


def changed(stream, word):
    """A stored stream as one word changes it: most words mean one stream, ..A-B means several."""
    if ends := re.fullmatch(r"\.\.(\d+)-(\d+)", word):
        return [stream[:it] for it in range(int(ends[1]), int(ends[2]) + 1)]
    if end := re.fullmatch(r"\.\.(\d+)", word):
        return [stream[: int(end[1])]]
    if byte := re.fullmatch(r"(\d+)=([0-9A-F]{2})", word):
        return [stream[: int(byte[1])] + bytes.fromhex(byte[2]) + stream[int(byte[1]) + 1 :]]
    if part := re.fullmatch(r"-(\d+)\.\.(\d+)", word):
        return [stream[: int(part[1])] + stream[int(part[2]) :]]
    if more := re.fullmatch(r"\+([0-9A-F]+)", word):
        return [stream + bytes.fromhex(more[1])]
    if more := re.fullmatch(r"\+(\d+)\.\.(\d+)", word):
        return [stream + stream[int(more[1]) : int(more[2])]]
    sys.exit(f"rows: no such change of a stored stream: {word}")


def streams(words):
    """The streams that some words mean."""
    first, rest = words[:1], words[1:]
    if first == ["table"]:
        return [tables.read(rest)]
    if first == ["damage"]:
        return [damage_streams.named(rest[0]).bytes()]
    if not {*first} & {*STORED}:
        return [b"".join(map(bytes_of, words))]
    with open(f"{ROOT}/tests/{first[0]}.arrows", "rb") as file:
        stream = file.read()
    if any(re.fullmatch(r"\.\.\d+(-\d+)?", it) for it in rest):
        return [made for it in rest for made in changed(stream, it)]
    for word in rest:
        (stream,) = changed(stream, word)
    return [stream]


def bytes_of(word):
    """The bytes that a word of a stream stands for."""
    if numbers := re.fullmatch(r"(\d+)\.\.(\d+)", word):
        return b"".join(it.to_bytes(8, "little") for it in range(int(numbers[1]), int(numbers[2]) + 1))
    digits, _, times = word.partition("*")
    return bytes.fromhex(digits) * int(times or 1)


def rows_of(path):
    """The paragraphs of a file that say something: by each word what stands after it; all that is made, and the lines after > and |."""
    for paragraph in open(path, encoding="utf-8").read().split("\n\n"):
        row, last = {"made": [], ">": [], "|": []}, None
        for line in paragraph.split("\n"):
            word, _, rest = line.partition(" ")
            if word in ("row", "file"):
                row[word] = rest
            elif word == "made":
                row["made"].append(rest.split())
                last = row["made"][-1]
            elif word in WORDS:
                row[word] = last = rest.split()
            elif word in (">", "|"):
                row[word].append(rest + "\n")
            elif line.startswith(" "):
                last += line.split()
            elif line and word != "#":
                sys.exit(f"rows: {path}: what is {line!r}?")
        if "row" in row or "file" in row:
            yield row


def run(lv, words, room):
    ran = subprocess.run([lv, *words], cwd=room, stdout=subprocess.PIPE, timeout=60)
    return ran.returncode, ran.stdout.decode()


def differs(got, status, lines):
    return None if got == (int(status), "".join(lines)) else f"it ended with {got[0]} and printed:\n{got[1]}"


def fault_of_stream(lv, row, stream, room):
    """What the program does otherwise than a row says of a stream; None where it does as it says."""
    source, made = f"{room}/in", f"{room}/out"
    open(source, "wb").write(stream)
    if "inspect" in row:
        return differs(run(lv, ["inspect", "in"], room), row["inspect"][0], row["|"])
    got = run(lv, ["recast", "in", "out"], room)
    if "refused" in row:
        lines = [f"refused {it}\n" for it in " ".join(row["refused"]).split(" or ")]
        is_so = got[0] == 1 and got[1] in lines and not os.path.exists(made)
        return None if is_so else f"recast ended with {got[0]} and printed {got[1]!r}"
    (want,) = [stream] if row["out"] == ["same"] else streams(row["out"])
    if got != (0, f"wrote {len(want)}\n"):
        return f"recast ended with {got[0]} and printed {got[1]!r}"
    return None if open(made, "rb").read() == want else "recast wrote another stream"


def fault_of_call(lv, row, room):
    """What the program does otherwise than a row says of a configuration, of a script over one, or of other words."""
    if "check" in row:
        config, status = row["check"]
        words = ["check", config]
    elif "call" in row:
        status, *words = row["call"]
    else:
        config, status = row["run"]
        words = ["run", config, "script"]
        open(f"{room}/script", "w", encoding="utf-8").write("".join(row[">"]))
    before = set(os.listdir(room))
    got = run(lv, words, room)
    made = {name: streams(words)[0] for name, *words in row["made"]}
    others = set(os.listdir(room)) - before ^ set(made)
    if others:
        return f"it made, or didn't make, {' '.join(sorted(others))}; it printed:\n{got[1]}"
    wrong = [it for it in made if open(f"{room}/{it}", "rb").read() != made[it]]
    lines = [re.sub(r"{(\w+)}", lambda it: str(len(made[it[1]])) if it[1] in made else it[0], line) for line in row["|"]]
    return f"it wrote another stream to {' '.join(wrong)}" if wrong else differs(got, status, lines)


def faults_of(lv, path):
    """How many rows a file has, and a line for each that doesn't hold."""
    count, faults, files = 0, [], {}
    for row in rows_of(path):
        if "file" in row:
            files[row["file"]] = streams(row["in"])[0] if "in" in row else "".join(row[">"]).encode()
            continue
        for stream in streams(row["in"]) if "in" in row else [None]:
            with tempfile.TemporaryDirectory(prefix="lv-row-") as room:
                for name, held in files.items():
                    open(f"{room}/{name}", "wb").write(held)
                fault = fault_of_call(lv, row, room) if stream is None else fault_of_stream(lv, row, stream, room)
            count += 1
            if fault:
                faults.append(f"rows: FAILED, {os.path.basename(path)}, {row['row']}: {fault}")
    return count, faults


def main():
    lv = os.path.abspath(sys.argv[1] if len(sys.argv) > 1 else f"{ROOT}/crates/lv/out/lv")
    count, faults = 0, []
    for name in sorted(it for it in os.listdir(f"{ROOT}/tests") if it.endswith(".txt")):
        more, wrong = faults_of(lv, f"{ROOT}/tests/{name}")
        count, faults = count + more, faults + wrong
    print(*faults, sep="\n", end="\n" * bool(faults))
    print(f"rows: {count - len(faults)} of {count} hold")
    return 1 if faults or not count else 0


if __name__ == "__main__":
    sys.exit(main())
