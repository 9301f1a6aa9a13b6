#!/usr/bin/env python3
"""Tries the packages that `make dist` left in out/dist as a new user would: each is installed in a folder of its own and used there, with
no toolchain on the PATH and with the examples that the package brings. By root the Debian package is installed by dpkg, as a system of
its own that has nothing else; by others it is unpacked.

The report must be written by `lv run`, by `lv live` over pipes, by C as pkg-config links it, and by Python, also by the package that pip
makes where pip is there; a stream must go through `lv recast - -`. The completions must be those of lv, and the licenses there. What
`make uninstall` and dpkg leave is nothing.
"""
import hashlib
import os
import shutil
import subprocess
import sys
import tempfile
from dataclasses import dataclass, field, replace

sys.dont_write_bytecode = True
ROOT = os.path.abspath(f"{__file__}/../../..")
DIST = f"{ROOT}/out/dist"
LAST = "live rows 5, stale 0"
# Libraries that are linked in and have a license of their own.
LICENSED = ("byteorder", "circular_buffer", "clap", "indexmap", "simdutf8", "smallvec", "thiserror", "toml")


def read_bytes(path):
    with open(path, "rb") as file:
        return file.read()


def sums(path):
    return {name: it for it, name in (line.split() for line in read_bytes(path).decode().splitlines())}


def files_below(folder):
    return [os.path.relpath(os.path.join(at, name), folder) for at, _, names in os.walk(folder) for name in names]


def summed(folder):
    return {it: hashlib.sha256(read_bytes(f"{folder}/{it}")).hexdigest() for it in os.listdir(folder)}


@dataclass
class Installed:
    """An installed package: where its files lie as below a prefix, its examples, its Python package, and what else the system would know
    of a package that is installed where it belongs."""

    name: str
    prefix: str
    examples: str
    licenses: str
    python: str
    variables: dict = field(default_factory=dict)

    def run(self, *words, cwd=None, data=None, **variables):
        """Runs a program in the folder above the examples, as it would be run on a machine that has this package and no more."""
        known = {"HOME": self.prefix, "LC_ALL": "C", "PATH": f"{self.prefix}/bin:/usr/bin:/bin", **self.variables, **variables}
        ran = subprocess.run(words, cwd=cwd or os.path.dirname(self.examples), env=known, input=data, stdout=subprocess.PIPE)
        assert ran.returncode == 0, f"{self.name}: {' '.join(words)} ended with {ran.returncode}"
        return ran.stdout

    def check_views(self, folder, how):
        wanted = sums(f"{self.examples}/report/views.sha256")
        written = {it: name for it, name in summed(folder).items() if it.endswith(".arrows")}
        assert written == wanted, f"{self.name}: {how} wrote other views than examples/report tells"

    def check_program(self, work):
        assert not shutil.which("rt", path=f"{self.prefix}/bin:/usr/bin:/bin"), "the toolchain is on the PATH"
        os.makedirs(f"{work}/out")
        os.symlink(self.examples, f"{work}/examples")
        printed = self.run("lv", "check", "examples/report/report.toml", cwd=work)
        printed += self.run("lv", "run", "examples/report/report.toml", "examples/report/script", cwd=work)
        assert printed == read_bytes(f"{self.examples}/report/printed"), f"{self.name}: the report's script printed otherwise"
        self.check_views(f"{work}/out", "lv run")
        canonical = self.run("lv", "recast", "-", "-", data=read_bytes(f"{self.examples}/orders.arrows"))
        wanted = sums(f"{self.examples}/canonical.sha256")["orders.canon"]
        assert hashlib.sha256(canonical).hexdigest() == wanted, f"{self.name}: a stream that is recast through pipes is another"
        answers = self.run("bash", "examples/live.sh", "lv").decode().split("\n")
        assert "schema fields=4" in answers and "undone" in answers, f"{self.name}: lv live answered {answers}"

    def check_calls(self, work):
        os.makedirs(f"{work}/c")
        os.makedirs(f"{work}/python")
        linked = self.run("pkg-config", "--cflags", "--libs", "lv").decode().split()
        self.run("cc", "-std=c11", "-o", f"{work}/report", "examples/c/report.c", *linked)
        library = f"{self.prefix}/lib"
        printed = self.run(f"{work}/report", f"{work}/c", LD_LIBRARY_PATH=library)
        assert printed.decode().split("\n")[-2] == LAST, f"{self.name}: C printed {printed}"
        self.check_views(f"{work}/c", "C")
        known = {"LV_LIBRARY": f"{library}/liblv.so", "PYTHONPATH": self.python, "PYTHONDONTWRITEBYTECODE": "1"}
        printed = self.run(sys.executable, "examples/python/report.py", f"{work}/python", **known)
        assert printed.decode().split("\n")[-2] == LAST, f"{self.name}: Python printed {printed}"
        self.check_views(f"{work}/python", "Python")

    def check_files(self):
        """What nothing of the rest reads: the manual page, the completions and the licenses."""
        share = f"{self.prefix}/share"
        assert os.path.isfile(f"{share}/man/man1/lv.1") or os.path.isfile(f"{share}/man/man1/lv.1.gz"), f"{self.name} has no manual page"
        completed = self.run("bash", "-c", f". {share}/bash-completion/completions/lv && complete -p lv").decode()
        assert completed.endswith(" lv\n"), f"{self.name}: bash completes {completed}"
        assert os.path.isfile(f"{share}/fish/vendor_completions.d/lv.fish"), f"{self.name} has no completions for fish"
        assert any(it.startswith("zsh/") and it.endswith("/_lv") for it in files_below(share)), f"{self.name} has none for zsh"
        missing = {"lv", "README", *LICENSED} - {it.partition("-")[0] for it in os.listdir(self.licenses)}
        assert not missing, f"{self.name} has no license of {missing}"

    def check(self, work):
        os.makedirs(work)
        self.check_files()
        self.check_program(work)
        self.check_calls(work)


def make(folder, target, prefix):
    subprocess.run(["make", "-s", target, f"PREFIX={prefix}"], cwd=folder, check=True, env={"PATH": "/usr/bin:/bin"})


def check_tarball(path, work):
    subprocess.run(["tar", "-xf", path, "-C", work], check=True)
    [folder] = [it for it in os.listdir(work) if os.path.isdir(f"{work}/{it}")]
    folder, prefix = f"{work}/{folder}", f"{work}/usr"
    make(folder, "install", prefix)
    known = {"PKG_CONFIG_PATH": f"{prefix}/lib/pkgconfig"}
    tarball = Installed("the tarball", prefix, f"{folder}/examples", f"{folder}/licenses", f"{folder}/python", known)
    tarball.check(f"{work}/tried")
    if packed := packed_python(f"{folder}/python", f"{work}/packed"):
        os.makedirs(f"{work}/pip")
        replace(tarball, python=packed).check_calls(f"{work}/pip")
    make(folder, "uninstall", prefix)
    assert not files_below(prefix), f"make uninstall leaves {files_below(prefix)}"


def packed_python(folder, to):
    """Where pip installed the Python package from this folder, or nothing where pip or what it builds with isn't there."""
    words = [sys.executable, "-m", "pip", "install", "--quiet", "--no-index", "--no-build-isolation", "--no-deps", "--target", to, folder]
    if subprocess.run([sys.executable, "-c", "import pip, setuptools"], stderr=subprocess.DEVNULL).returncode:
        return None
    subprocess.run(words, check=True)
    return to


def dpkg(root, *words):
    """Runs dpkg over a system of its own in this folder. It has no other package, so none that this one depends on."""
    subprocess.run(["dpkg", f"--root={root}", "--force-depends", *words], stdout=subprocess.DEVNULL, stderr=subprocess.DEVNULL, check=True)


def install_debian(path, root):
    if os.geteuid() == 0:
        for it in ("info", "updates", "triggers"):
            os.makedirs(f"{root}/var/lib/dpkg/{it}")
        open(f"{root}/var/lib/dpkg/status", "w").close()
        dpkg(root, "--install", path)
    else:
        subprocess.run(["dpkg-deb", "-x", path, root], check=True)


def check_debian(path, work):
    root = f"{work}/root"
    install_debian(path, root)
    known = {"PKG_CONFIG_PATH": f"{root}/usr/lib/pkgconfig", "PKG_CONFIG_SYSROOT_DIR": root}
    documents, python = f"{root}/usr/share/doc/liveviews", f"{root}/usr/lib/python3/dist-packages"
    package = Installed("the Debian package", f"{root}/usr", f"{documents}/examples", f"{documents}/licenses", python, known)
    package.check(f"{work}/tried")
    if os.geteuid() == 0:
        dpkg(root, "--purge", "liveviews")
        left = files_below(f"{root}/usr") if os.path.isdir(f"{root}/usr") else []
        assert not left, f"dpkg leaves {left}"


def main():
    subprocess.run(["sha256sum", "--check", "--quiet", "SHA256SUMS"], cwd=DIST, check=True)
    tried = []
    for name in sorted(os.listdir(DIST)):
        call = check_tarball if name.endswith(".tar.gz") else check_debian if name.endswith(".deb") else None
        if call:
            with tempfile.TemporaryDirectory(prefix="lv-dist-") as work:
                call(f"{DIST}/{name}", work)
            tried.append(name)
    assert tried, "there is no package in out/dist (make dist)"
    print(f"dist: the report by lv, lv live, C and Python, from {' and '.join(tried)}")
    return 0


if __name__ == "__main__":
    sys.exit(main())
