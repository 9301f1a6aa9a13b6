#!/usr/bin/env python3
"""Checks the library that C links, made of the archive of crates/lv_c that is named, or of the built one.

The programs of examples/c, examples/python and examples/rust must write the very views of examples/report and the canonical stream of
examples/orders.arrows, the one in C also under valgrind. The tests of python/tests call it with handles that aren't open, were closed or
are open already. Its names, versions and causes must be the same wherever they are written.
"""
import hashlib
import os
import re
import shutil
import subprocess
import sys
import tempfile

sys.dont_write_bytecode = True
ROOT = os.path.abspath(f"{__file__}/../../..")
REPORT = f"{ROOT}/examples/report"
VALGRIND = ["valgrind", "-q", "--error-exitcode=9", "--leak-check=full", "--show-leak-kinds=all", "--errors-for-leak-kinds=all"]
CC = ["cc", "-std=c11", "-O2", "-Wall", "-Wextra", "-Werror", f"-I{ROOT}/include"]
LAST = "live rows 5, stale 0\n"


def read(path):
    with open(f"{ROOT}/{path}", encoding="utf-8") as file:
        return file.read()


def read_bytes(path):
    with open(path, "rb") as file:
        return file.read()


def run(*words, **variables):
    """Runs a program at the top of the repository, and gives what it printed."""
    return subprocess.run(words, cwd=ROOT, env={**os.environ, **variables}, stdout=subprocess.PIPE, text=True, check=True).stdout


def sums(path):
    return {name: it for it, name in (line.split() for line in read(path).splitlines())}


def check_pages():
    """Compares the tables of causes, the versions and the names of calls, wherever they are written."""
    run("tools/makers/cause_tables.py", "--check")
    version, header = read("VERSION").strip(), read("include/lv.h")
    assert f'#define LV_VERSION "{version}"\n' in header, "the version of include/lv.h isn't that of VERSION"
    assert f'__version__ = "{version}"\n' in read("python/lv/__init__.py"), "the version of python/lv isn't that of VERSION"
    return {*re.findall(r"^\w+ (lv_\w+)\(", header, re.M)}


def check_names(library, declared):
    shown = {it.split()[-1] for it in run("nm", "-D", "--defined-only", library).splitlines()}
    assert shown == declared, f"liblv.so shows {sorted(shown ^ declared)} otherwise than include/lv.h"
    asked = re.search(r"SONAME +(\S+)", run("objdump", "-p", library))[1]
    assert asked == os.path.basename(os.path.realpath(library)) == f"liblv.so.{read('VERSION').split('.')[0]}", f"programs ask for {asked}"


def check_report(work, name, *words, **variables):
    """Runs a program with a folder to write to, and looks at what it wrote and printed."""
    folder = f"{work}/{name.replace(' ', '-')}"
    os.mkdir(folder)
    printed = run(*words, folder, **variables)
    wanted = {**sums("examples/report/views.sha256"), "orders.canon": sums("examples/canonical.sha256")["orders.canon"]}
    written = {it: hashlib.sha256(read_bytes(f"{folder}/{it}")).hexdigest() for it in os.listdir(folder)}
    assert written == wanted, f"{name} wrote {sorted(it for it in written.keys() | wanted if written.get(it) != wanted.get(it))} otherwise"
    lines = [f"{it.removesuffix('.arrows')}: wrote {os.path.getsize(f'{folder}/{it}')}" for it in written if it != "orders.canon"]
    assert sorted(printed.splitlines(keepends=True)) == sorted([f"{it}\n" for it in lines] + [LAST]), f"{name} printed {printed}"


def python_variables(library):
    return {"LV_LIBRARY": f"{library}/liblv.so", "PYTHONPATH": f"{ROOT}/python", "PYTHONDONTWRITEBYTECODE": "1"}


def check_programs(work, library):
    done = ["C", "C with the shared library", "Python"]
    run(*CC, "-o", f"{work}/report", "examples/c/report.c", f"{library}/liblv.a")
    run(*CC, "-o", f"{work}/report-shared", "examples/c/report.c", f"-L{library}", "-llv")
    check_report(work, done[0], f"{work}/report")
    check_report(work, done[1], f"{work}/report-shared", LD_LIBRARY_PATH=library)
    check_report(work, done[2], sys.executable, "examples/python/report.py", **python_variables(library))
    if shutil.which("cargo"):
        words = ["cargo", "build", "--quiet", "--offline", "--locked", "--manifest-path", "examples/rust/Cargo.toml"]
        run(*words, "--target-dir", f"{work}/cargo", LV_FOLDER=library)
        check_report(work, "Rust", f"{work}/cargo/debug/report")
        done.append("Rust")
    if shutil.which("valgrind"):
        check_report(work, "C under valgrind", *VALGRIND, f"{work}/report")
        done.append("C under valgrind")
    return done


def main():
    archive = os.path.abspath(sys.argv[1]) if len(sys.argv) > 1 else f"{ROOT}/crates/lv_c/out/liblv_c.a"
    if not shutil.which("cc"):
        print("library: skipped, since no C compiler (cc) is on the PATH")
        return 0
    declared = check_pages()
    with tempfile.TemporaryDirectory(prefix="lv-library-") as work:
        library = f"{work}/lib"
        run("tools/makers/make-library.sh", archive, library)
        check_names(f"{library}/liblv.so", declared)
        done = check_programs(work, library)
        run(sys.executable, "-m", "unittest", "discover", "-q", "-s", "python/tests", **python_variables(library))
    print(f"library: the views of the report, written by {', '.join(done)}; the tests of python/tests")
    return 0


if __name__ == "__main__":
    sys.exit(main())
