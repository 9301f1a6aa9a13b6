#!/usr/bin/env python3
"""Packs what was built: a tarball that needs no toolchain to be installed, a Debian package, and their checksums, in out/dist.

In the tarball bin/, lib/, include/ and share/ lie as they do below a prefix, and its Makefile copies them there. Beside them are the
Python package, the pages of docs/, the examples, and the licenses of lv and of each library that is linked in. Files are in order, and
have the time of the last commit, so the same tree and the same builds give the same bytes.
"""
import argparse
import gzip
import hashlib
import os
import re
import shutil
import subprocess
import sys
import tarfile

sys.dont_write_bytecode = True
ROOT = os.path.abspath(f"{__file__}/../../..")
OUT = f"{ROOT}/out/dist"
# The program, and the crate of the library, whose lines in crates.txt name all that is linked in.
LINKED = ("lv", "lv_c")
BUILT = ("crates/lv/out/lv", "out/lib/liblv.a", "out/lib/liblv.so")
# Where the packages of Python lie that Debian's packages bring.
DEBIAN_PYTHON = "usr/lib/python3/dist-packages"


def read(path):
    with open(path, encoding="utf-8") as file:
        return file.read()


def write(path, text):
    os.makedirs(os.path.dirname(path), exist_ok=True)
    with open(path, "w", encoding="utf-8") as file:
        file.write(text)


def said(*words):
    return subprocess.run(words, cwd=ROOT, stdout=subprocess.PIPE, text=True, check=True).stdout.strip()


def libraries():
    """The libraries of the toolchain that the program and the library stand on, through the crates of this repository."""
    uses = {}
    for line in read(f"{ROOT}/crates.txt").splitlines():
        head, colon, libraries = line.partition("#")[0].partition(":")
        if colon:
            uses[head.split()[0]] = libraries.split()
    wanted, seen = [*LINKED], set()
    while wanted:
        it = wanted.pop()
        if it not in seen:
            seen.add(it)
            wanted += uses.get(it, [])
    return sorted((seen | {"std"}) - set(uses))


def licenses(folder):
    """Copies the license of lv, and those of each library, and names the libraries that have none of their own."""
    kit = f"{os.path.dirname(said('rt', 'doc'))}/rattle"
    os.makedirs(folder)
    shutil.copy(f"{ROOT}/LICENSE", f"{folder}/lv")
    without = []
    for it in libraries():
        found = [name for name in sorted(os.listdir(f"{kit}/{it}")) if name.startswith("LICENSE")]
        without += [] if found else [it]
        for name in found:
            shutil.copy(f"{kit}/{it}/{name}", f"{folder}/{it}{name.removeprefix('LICENSE')}")
    write(
        f"{folder}/README",
        "The licenses of lv and of the libraries that are linked into it, ports of the Rust crates of these names.\n"
        f"These belong to the toolchain ({said('rt', 'version').split()[0]}) and have no license file of their own: {', '.join(without)}.\n",
    )


MAKEFILE = """# Copies lv, its libraries, its manual page and its completions below PREFIX, and below DESTDIR where one is given.
PREFIX ?= /usr/local
TO = $(DESTDIR)$(PREFIX)
FILES = {files}
LINKS = {links}

.PHONY: install uninstall
install:
\t@for it in $(FILES); do install -D -m $$(stat -c %a $$it) $$it $(TO)/$$it || exit 1; done
\t@for it in $(LINKS); do ln -sf $$(readlink $$it) $(TO)/$$it || exit 1; done
\t@sed 's|^prefix=.*|prefix=$(PREFIX)|' lib/pkgconfig/lv.pc > $(TO)/lib/pkgconfig/lv.pc

uninstall:
\t@for it in $(FILES) $(LINKS); do rm -f $(TO)/$$it; done
"""

README = """# lv {version}

Reports that stay exact while their tables change: `lv` takes streams of Apache Arrow record batches, and writes each
declared view.

    make install                installs below /usr/local; PREFIX=.. sets another folder, DESTDIR=.. a root for packages
    ldconfig                    lets programs find liblv there
    make uninstall              takes the files away again
    pip install ./python        the package `lv` of Python, which loads liblv

Then `man lv`. `docs/CLI.md` has the commands, `docs/VIEWS.md` configurations, and `docs/LIBRARY.md` calls from C,
Python and Rust; `docs/PROMISES.md` says what is proved, and `CHANGELOG.md` what changed. `licenses` has the licenses of
all that is linked in.
"""

CONTROL = """Package: liveviews
Version: {version}
Architecture: {architecture}
Maintainer: Riskaoul maintainers <maintainers@users.noreply.riskaoul.example>
Installed-Size: {size}
Depends: {libc}
Recommends: python3
Conflicts: lv
Section: database
Priority: optional
Description: live views over Apache Arrow streams
 lv takes streams of Apache Arrow record batches that are appended, corrected and
 undone, keeps the tables that they leave, and writes each declared view as an
 Arrow stream. With it come a library for C and a package for Python.
"""


def files_below(folder):
    return sorted(os.path.relpath(os.path.join(at, name), folder) for at, _, names in os.walk(folder) for name in names)


def python_package(folder):
    os.makedirs(folder)
    for path in files_below(f"{ROOT}/python/lv"):
        if path.endswith(".py"):
            shutil.copy(f"{ROOT}/python/lv/{path}", f"{folder}/{path}")


def pages(folder):
    """Copies the pages, the examples that they name, and what a user of a release asks for first."""
    for path in said("git", "ls-files", "docs/*.md", "examples", "CHANGELOG.md", "SECURITY.md").split("\n"):
        os.makedirs(os.path.dirname(f"{folder}/{path}"), exist_ok=True)
        shutil.copy(f"{ROOT}/{path}", f"{folder}/{path}")


def tree(folder, version):
    """The folder that the tarball holds."""
    subprocess.run(["make", "-s", "install-files", f"DESTDIR={folder}", "PREFIX="], cwd=ROOT, check=True)
    installed, links = files_below(folder), [it for it in files_below(folder) if os.path.islink(f"{folder}/{it}")]
    files = " \\\n    ".join(it for it in installed if it not in links)
    write(f"{folder}/Makefile", MAKEFILE.format(files=files, links=" ".join(links)))
    write(f"{folder}/README.md", README.format(version=version))
    shutil.copy(f"{ROOT}/LICENSE", folder)
    pages(folder)
    licenses(f"{folder}/licenses")
    python_package(f"{folder}/python/lv")
    shutil.copy(f"{ROOT}/python/pyproject.toml", f"{folder}/python")


def set_times(folder, time):
    for at, names, files in os.walk(folder, topdown=False):
        for name in names + files:
            os.utime(os.path.join(at, name), (time, time), follow_symlinks=False)
    os.utime(folder, (time, time))


def tarball(folder, time):
    def plain(entry):
        entry.uid = entry.gid = 0
        entry.uname = entry.gname = "root"
        entry.mtime = time
        return entry

    path = f"{folder}.tar.gz"
    with open(path, "wb") as file, gzip.GzipFile("", "wb", 9, file, time) as packed, tarfile.open(fileobj=packed, mode="w") as tar:
        for name in ["", *files_below(folder)]:
            tar.add(os.path.join(folder, name), os.path.join(os.path.basename(folder), name), recursive=False, filter=plain)
    return path


def libc(*paths):
    """The package of the C library that these programs need, of the least version that has all the calls they make."""
    symbols = "".join(said("readelf", "-W", "--dyn-syms", it) for it in paths)
    found = {tuple(map(int, it.split("."))) for it in re.findall(r"@GLIBC_(\d+(?:\.\d+)+)", symbols)}
    return f"libc6 (>= {'.'.join(map(str, max(found)))})" if found else "libc6"


def debian(source, version, time):
    """A Debian package of the same files, below /usr. Debian has another program named lv, so its package has another name."""
    architecture = said("dpkg", "--print-architecture")
    root = f"{OUT}/liveviews_{version}_{architecture}"
    for part in ("bin", "lib", "include", "share"):
        shutil.copytree(f"{source}/{part}", f"{root}/usr/{part}", symlinks=True)
    os.rename(f"{root}/usr/share/zsh/site-functions", f"{root}/usr/share/zsh/vendor-completions")
    pc = f"{root}/usr/lib/pkgconfig/lv.pc"
    write(pc, re.sub("^prefix=.*", "prefix=/usr", read(pc), flags=re.M))
    python_package(f"{root}/{DEBIAN_PYTHON}/lv")
    documents = f"{root}/usr/share/doc/liveviews"
    shutil.copytree(f"{source}/licenses", f"{documents}/licenses")
    shutil.copy(f"{source}/LICENSE", f"{documents}/copyright")
    pages(documents)
    subprocess.run(["gzip", "-9n", f"{root}/usr/share/man/man1/lv.1"], check=True)
    size = sum(os.lstat(f"{root}/{it}").st_size for it in files_below(root)) // 1024
    needed = libc(*(f"{ROOT}/{it}" for it in BUILT if not it.endswith(".a")))
    write(f"{root}/DEBIAN/control", CONTROL.format(version=version, architecture=architecture, size=size, libc=needed))
    # dpkg runs ldconfig itself where a package asks for it, so that liblv.so is found.
    write(f"{root}/DEBIAN/triggers", "activate-noawait ldconfig\n")
    set_times(root, time)
    words = ["dpkg-deb", "--root-owner-group", "-Zxz", "--build", root, f"{root}.deb"]
    subprocess.run(words, check=True, stdout=subprocess.DEVNULL, env={**os.environ, "SOURCE_DATE_EPOCH": str(time)})
    shutil.rmtree(root)
    return f"{root}.deb"


def main():
    argparse.ArgumentParser(description="Packs what was built as a tarball and a Debian package, with checksums.").parse_args()
    missing = [it for it in BUILT if not os.path.isfile(f"{ROOT}/{it}")]
    if missing:
        print(f"not built: {', '.join(missing)} (make run and make lib build them)", file=sys.stderr)
        return 1
    version, machine = read(f"{ROOT}/VERSION").strip(), os.uname().machine
    time = int(said("git", "log", "-1", "--format=%ct"))
    shutil.rmtree(OUT, ignore_errors=True)
    folder = f"{OUT}/lv-{version}-linux-{machine}"
    os.makedirs(folder)
    tree(folder, version)
    made = [tarball(folder, time)]
    if shutil.which("dpkg-deb"):
        made.append(debian(folder, version, time))
    shutil.rmtree(folder)
    sums = [f"{hashlib.sha256(open(it, 'rb').read()).hexdigest()}  {os.path.basename(it)}\n" for it in made]
    write(f"{OUT}/SHA256SUMS", "".join(sums))
    print(*(os.path.relpath(it, ROOT) for it in [*made, f"{OUT}/SHA256SUMS"]), sep="\n")
    return 0


if __name__ == "__main__":
    sys.exit(main())
