#!/usr/bin/env python3
"""Writes what the pages, the usage and the completions tell of the commands of lv: the usage in crates/lv/src/help.rt, the tables of
docs/CLI.md and docs/lv.1, and tools/makers/completion. All of it is made of the heads of the modules in
crates/liveviews/src/program/commands, in the order of `syntax` in commands.rt. With --check it writes nothing, and says which file isn't as
it would be written. With --examples it prints the example of each command, a line each.

The head of a module:
    //! `lv NAME WORD.. [--OPTION] [--OPTION N]..`: what it does.
    //!
    //! - `--OPTION N`: what an option does
    //!
    //! As `lv NAME ..`.
A WORD in capitals is the path of a file. The options, and the lines before and behind them, may be left out together.
"""
import os
import re
import sys
from dataclasses import dataclass

ROOT = os.path.abspath(f"{__file__}/../../..")
SOURCE = "crates/liveviews/src/program/commands"
HELP, PAGE, MANUAL, COMPLETION = "crates/lv/src/help.rt", "docs/CLI.md", "docs/lv.1", "tools/makers/completion/lv."
# How far the words of a command reach in the usage.
INDENT = 32


@dataclass
class Command:
    name: str
    files: list
    options: dict
    does: str
    example: str

    def words(self):
        return " ".join([self.name, *self.files, *(f"[{it}]" for it in self.options)])


def read(path):
    with open(f"{ROOT}/{path}", encoding="utf-8") as file:
        return file.read()


def command(name):
    """A command by the head of its module."""
    head = "\n".join(re.findall(r"^//! ?(.*)$", read(f"{SOURCE}/{name}.rt"), re.M))
    form = rf"`lv {name}((?: [A-Z]+)*)((?: \[--[\w -]+\])*)`: ([^\n]*)\.\n\n((?:- `--[^\n]+\n)*)\n?As `(lv {name} [^`]*)`\."
    if not (found := re.fullmatch(form, head)):
        sys.exit(f"commands: the head of {SOURCE}/{name}.rt isn't of the form that {os.path.basename(__file__)} says")
    files, options, does, told, example = found.groups()
    told = dict(re.findall(r"- `(--[^`]+)`: (.*)\n", told))
    if re.findall(r"\[(.*?)\]", options) != list(told):
        sys.exit(f"commands: the head of {SOURCE}/{name}.rt tells of other options than it has")
    return Command(name, files.split(), told, does, example)


def commands():
    """All commands, in their order."""
    names = re.findall(r"\.subcommand\((\w+)::syntax\(alloc\)\?\)", read(f"{SOURCE}.rt"))
    modules = {it[:-3] for it in os.listdir(f"{ROOT}/{SOURCE}") if it.endswith(".rt")}
    if set(names) != modules:
        sys.exit(f"commands: {SOURCE}.rt and its folder don't have the same commands")
    return [command(it) for it in names]


def between(text, begin, end, made):
    before, rest = text.split(begin)
    return before + begin + made + end + rest.split(end, 1)[1]


def usage(table):
    lines = []
    for it in table:
        words = f"{'Usage:' if not lines else '':6} lv {it.words()}"
        lines += [words, " " * INDENT + it.does] if len(words) >= INDENT else [f"{words:{INDENT}}{it.does}"]
    return between(read(HELP), 'const USAGE: &str = "\\\n', "- is standard input", "\n".join(lines) + "\n")


def page(table):
    lines = ["| Command | What it does |", "|---|---|", *(f"| `lv {it.words()}` | {it.does} |" for it in table)]
    return between(read(PAGE), "<!-- commands: written by tools/makers/command_tables.py -->\n", "<!-- end -->", "\n".join(lines) + "\n")


def roff(text):
    return text.replace("-", r"\-")


def synopsis(it):
    lines = [f".B lv {it.name}", f".I {' '.join(it.files)}"]
    for option in it.options:
        dashed, _, value = option.partition(" ")
        lines += [f".RB [ {roff(dashed)}", f".IR {value} ]"] if value else [f".RB [ {roff(dashed)} ]"]
    return lines


def manual(table):
    """The manual page, with its synopsis, what each command does, and its options."""
    made = [line for it in table for line in [*synopsis(it), ".br"]][:-1]
    made += [".SH DESCRIPTION", ".B lv", *MANUAL_HEAD]
    for it in table:
        made += [".TP", f".B {it.name}", f"{it.does}."]
    for it in table:
        for option, does in it.options.items():
            dashed, _, value = option.partition(" ")
            made += [".TP", f'.BI "{it.name} {roff(dashed)}" " {value}"' if value else f".B {it.name} {roff(dashed)}", f"{does}."]
    marks = r'.\" commands: written by tools/makers/command_tables.py' + "\n", r'.\" end of commands' + "\n"
    return between(read(MANUAL), *marks, "\n".join(made) + "\n")


MANUAL_HEAD = [
    "reads streams of Apache Arrow's IPC streaming format, keeps tables of rows current with them, and writes declared",
    "views of the tables as such streams.",
]
HEAD = "# Completes the words of lv for {}. Written by tools/makers/command_tables.py.\n"


def bash(table):
    names = " ".join(it.name for it in table)
    lines = [
        "_lv() {",
        "    local word=${COMP_WORDS[COMP_CWORD]}",
        "    case $COMP_CWORD:${COMP_WORDS[1]} in",
        "        1:*)",
        f'            mapfile -t COMPREPLY < <(compgen -W "{names}" -- "$word")',
        "            return",
        "            ;;",
    ]
    for it in table:
        if it.options:
            dashed = " ".join(option.split()[0] for option in it.options)
            valued = " | ".join(option.split()[0] for option in it.options if " " in option)
            lines += [
                f"        *:{it.name})",
                "            if [[ $word == -* ]]; then",
                f'                mapfile -t COMPREPLY < <(compgen -W "{dashed}" -- "$word")',
                "                return",
                "            fi",
                "            case ${COMP_WORDS[COMP_CWORD - 1]} in",
                f"                {valued}) return ;;",
                "            esac",
                "            ;;",
            ]
    at = " | ".join(f"{place}:{it.name}" for it in table if not it.options for place in range(2, 2 + len(it.files)))
    lines += [
        f"        {at}) ;;",
        "        *) return ;;",
        "    esac",
        "    compopt -o filenames",
        '    mapfile -t COMPREPLY < <(compgen -f -- "$word")',
        "}",
        "complete -F _lv lv",
    ]
    return HEAD.format("bash") + "\n".join(lines) + "\n"


def fish(table):
    lines = [
        "function __lv_is_at",
        "    # Whether the word being written is of this number, behind one of these commands.",
        "    set -l words (commandline -opc)",
        "    test (count $words) -eq $argv[1]; and contains -- $words[2] $argv[2..]",
        "end",
        "complete -c lv -f",
    ]
    lines += [f"complete -c lv -n __fish_use_subcommand -a {it.name} -d '{it.does}'" for it in table]
    for place in range(2, 2 + max(len(it.files) for it in table)):
        names = " ".join(it.name for it in table if len(it.files) > place - 2)
        lines.append(f"complete -c lv -n '__lv_is_at {place} {names}' -F")
    for it in table:
        for option, does in it.options.items():
            dashed, _, value = option.partition(" ")
            takes = f"-l {dashed[2:]}" + " -x" * bool(value)
            lines.append(f"complete -c lv -n '__fish_seen_subcommand_from {it.name}' {takes} -d '{does}'")
    return HEAD.format("fish") + "\n".join(lines) + "\n"


def zsh(table):
    lines = ["_lv() {", "    local -a commands", "    commands=(", *(f"        '{it.name}:{it.does}'" for it in table), "    )"]
    lines += ["    if (( CURRENT == 2 )); then", "        _describe command commands", "        return", "    fi", "    case $words[2]:$CURRENT in"]
    for it in table:
        if it.options:
            told = [f"'{option.split()[0]}[{does}]{':number' * (' ' in option)}'" for option, does in it.options.items()]
            told += [f"'{place}:file:_files'" for place, _ in enumerate(it.files, 2)]
            lines.append(f"        {it.name}:*) _arguments {' '.join(told)} ;;")
    at = " | ".join(f"{it.name}:{place}" for it in table if not it.options for place in range(3, 3 + len(it.files)))
    lines += [f"        {at}) _files ;;", "    esac", "}", '_lv "$@"']
    return "#compdef lv\n" + HEAD.format("zsh") + "\n".join(lines) + "\n"


def main():
    table, stale = commands(), []
    if "--examples" in sys.argv:
        print(*(it.example for it in table), sep="\n")
        return 0
    made = {HELP: usage(table), PAGE: page(table), MANUAL: manual(table)}
    made |= {COMPLETION + shell.__name__: shell(table) for shell in (bash, fish, zsh)}
    for path, text in made.items():
        if "--check" not in sys.argv:
            with open(f"{ROOT}/{path}", "w", encoding="utf-8") as file:
                file.write(text)
        elif read(path) != text:
            stale.append(path)
    if stale:
        print(f"commands: run tools/makers/command_tables.py, these are not as it writes them: {' '.join(stale)}")
    return 1 if stale else 0


if __name__ == "__main__":
    sys.exit(main())
