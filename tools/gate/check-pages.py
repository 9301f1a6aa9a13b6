#!/usr/bin/env python3
"""Looks up in the tree what its pages name: each path and link, each must-fail edit, and each identifier that is written as code. A page
in which a merge left its marks is a fault too.

A word in backquotes is an identifier where it has the form of one of Rattle. It exists where it stands in a source, definition or proof of a
crate, in a tool, a test or the Makefile, or in a crate of the toolchain that is listed in crates.txt. What belongs to others is in OTHERS.
"""
import os
import re
import subprocess
import sys

ROOT = os.path.abspath(f"{__file__}/../../..")
# Names of the standards that no file here spells.
OTHERS = {"custom_metadata"}


def read(path):
    with open(f"{ROOT}/{path}", encoding="utf-8", errors="replace") as file:
        return file.read()


def listed():
    words = ["git", "ls-files", "--cached", "--others", "--exclude-standard"]
    return subprocess.run(words, cwd=ROOT, stdout=subprocess.PIPE, text=True, check=True).stdout.split()


def words_of(files):
    """All words of the sources, of the tools and of the data of tests."""
    found = set()
    for path in files:
        if path.endswith((".rt", ".antt", ".py", ".sh", ".c", ".h", ".rs", ".toml", ".txt", ".edit")) or os.path.basename(path) == "Makefile":
            found.update(re.findall(r"\w+", read(path)))
    return found


def links_of(text):
    """The targets of a page's links, without those to other places."""
    return [it for it in re.findall(r"\]\(([^)\s]+)\)", text) if not it.startswith(("http:", "https:", "mailto:"))]


def anchors_of(text):
    """The anchors of a page's headings, as they are made of them on the web."""
    heads = re.findall(r"^#+ (.+)$", text, re.M)
    return {re.sub(r"[^\w\- ]", "", it.lower()).replace(" ", "-") for it in heads}


def code_of(text):
    """What stands in backquotes, on one line, outside blocks of code."""
    return re.findall(r"`([^`\n]+)`", re.sub(r"^```.*?^```", "", text, flags=re.M | re.S))


def paths_in(code):
    """The paths that a piece of code names, each of the names in braces by itself."""
    for whole in re.findall(r"(?:crates|docs|tools|tests|examples)/(?:[\w/.-]*\w|\{[^}]*\})+", code):
        before, brace, rest = whole.partition("{")
        names, _, after = rest.partition("}")
        yield from [before + it.strip() + after for it in names.split(",")] if brace else [whole]


def is_there(path, files):
    """Whether a path is a file, a folder, or a file without its ending, as definitions are named."""
    return any(it == path or it.startswith((f"{path}/", f"{path}.")) for it in files)


def faults_of(page, files, words, edits):
    text = read(page)
    if re.search("^(<{7}|>{7}) ", text, re.M):
        yield "a merge left its marks"
    for link in links_of(text):
        path, _, anchor = link.partition("#")
        target = os.path.normpath(os.path.join(os.path.dirname(page), path)) if path else page
        if not is_there(target, files):
            yield f"there is no {link}"
        elif anchor and anchor not in anchors_of(read(target)):
            yield f"{target} has no heading {anchor}"
    for code in code_of(text):
        for path in paths_in(code):
            if "*" not in path and "NAME" not in path and not is_there(path, files):
                yield f"there is no {path}"
        if re.fullmatch(r"[a-z]\w*(_\w+)+|([A-Za-z]\w*::)+\w+|[A-Z]\w*[a-z]\w*", code) and code not in OTHERS:
            missing = [it for it in re.findall(r"\w+", code) if it not in words and it not in edits]
            if missing:
                yield f"nothing is called {' or '.join(missing)}, of `{code}`"


def main():
    files = listed()
    words = words_of(files)
    edits = {os.path.splitext(os.path.basename(it))[0] for it in files if it.endswith(".edit")}
    found = [f"{page}: {it}" for page in files if page.endswith(".md") for it in faults_of(page, files, words, edits)]
    print(*found, sep="\n" if found else "")
    print(f"pages: {len(found)} faults" if found else "pages: all that they name is there")
    return 1 if found else 0


if __name__ == "__main__":
    sys.exit(main())
