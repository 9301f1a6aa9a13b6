#!/usr/bin/env python3
"""Runs `recast` of the built lv, or of the program that is named, to files: which way is taken to write OUT, what a refusal, a failing
device or a killed run leaves, and that OUT is never a part of a stream where a new file takes its place.

Where it runs as root, some of it is done as another user, and on a small file system of its own where one can be mounted.
"""
import glob
import os
import pty
import resource
import shutil
import signal
import stat
import struct
import subprocess
import sys
import tempfile
import time

sys.dont_write_bytecode = True
sys.path.insert(1, f"{sys.path[0]}/../models")
from limits import BATCH_ROWS
from streams import END_MARK, batch, field, schema

ROOT = os.path.abspath(f"{__file__}/../../..")
OLD = b"what OUT held before"
DEVICE = "refused 56 Device"
NOBODY = 65534
KILLS = 20
IS_ROOT = os.geteuid() == 0


class Room:
    """A folder of its own, with the stream `in`, and a program that recasts in it."""

    def __init__(self, program, folder, data):
        self.program, self.folder = program, folder
        self.put("in", data)

    def at(self, name):
        return os.path.join(self.folder, name)

    def put(self, name, data, mode=0o644):
        with open(self.at(name), "wb") as file:
            file.write(data)
        os.chmod(self.at(name), mode)

    def bytes(self, name):
        with open(self.at(name), "rb") as file:
            return file.read()

    def recast(self, source="in", target="out", **how):
        """The status and the printed line of one run, in this folder."""
        words = [self.program, "recast", source, target]
        ran = subprocess.run(words, cwd=self.folder, capture_output=True, text=True, timeout=60, **how)
        return ran.returncode, (ran.stdout + ran.stderr).strip()

    def whole(self, source="in"):
        """The canonical stream of a file, by way of standard output."""
        return subprocess.run([self.program, "recast", source, "-"], cwd=self.folder, capture_output=True, timeout=60).stdout

    def beside(self):
        """The new files that were left."""
        return sorted(os.path.relpath(it, self.folder) for it in glob.glob(self.at("**/*.lv-new-*"), recursive=True))

    def number(self, name="out"):
        return os.stat(self.at(name)).st_ino


def parted(rows, size, name=b"c"):
    """A stream of one column of int64, in batches of so many rows."""
    parts = [(first, min(size, rows - first)) for first in range(0, rows, size)]
    values = (batch(count, [[struct.pack(f"<{count}q", *range(first, first + count))]]) for first, count in parts)
    return schema([field(2, 64, 1, name=name)]) + b"".join(values) + END_MARK


def long_texts(rows, length):
    """A stream of one column of texts, each of so many bytes, and each third batch without rows."""
    text = [struct.pack("<2i", 0, length), b"t" * length]
    none = batch(0, [[struct.pack("<i", 0), b""]])
    return schema([field(5)]) + b"".join(batch(1, [text]) + none * (row % 3 == 2) for row in range(rows)) + END_MARK


def streams():
    """Streams by name: those of the repository, and some whose batches are cut elsewhere than canonical ones."""
    for path in sorted(glob.glob(f"{ROOT}/examples/**/*.arrows", recursive=True) + glob.glob(f"{ROOT}/tests/*.arrows")):
        with open(path, "rb") as file:
            yield os.path.relpath(path, ROOT), file.read()
    with open(f"{ROOT}/crates/lv/data/IN", "rb") as file:
        yield "crates/lv/data/IN", file.read()
    most = BATCH_ROWS
    for rows, size in ((0, 1), (1, 1), (most - 1, 1), (most, most), (most + 1, 7), (2 * most, most + 1), (3000, 1000), (5000, 5000)):
        yield f"{rows} rows by {size}", parted(rows, size)
    yield "no batch", schema([field(2, 64, 1)]) + END_MARK
    # Batches that are longer than what is read at once, and one that is longer than the room.
    for rows, size in ((40_000, 20_000), (200_000, 16_384), (500_000, 150_000), (300_000, 300_000)):
        yield f"{rows} rows by {size}", parted(rows, size)
    yield "long and short batches", parted(300_000, 150_000)[:-8] + parted(2000, 3)[len(schema([field(2, 64, 1)])):]
    yield "long texts", long_texts(40, 200_000)
    yield "light and long texts", long_texts(4, 10)[:-8] + long_texts(4, 300_000)[len(schema([field(5)])):]


def each_stream(room):
    for name, data in streams():
        room.put("in", data)
        whole = room.whole()
        wrote = (0, f"wrote {len(whole)}")
        os.path.exists(room.at("out")) and os.remove(room.at("out"))
        for what in ("new", "old"):
            yield f"{name} to a {what} file", room.recast() == wrote and room.bytes("out") == whole
            room.put("out", OLD)
        room.put("out", whole)
        yield f"the canonical stream of {name}", room.recast("out", "again") == wrote and room.bytes("again") == whole
    yield "no new file is left by a stream", room.beside() == []


def refused(room):
    """Streams that are refused, early and late: the line is the one that is printed where OUT is a pipe."""
    data = parted(5000, 1000)
    wrong = {"empty": b"", "no end mark and a part": data[:-50], "bytes behind": data + b"\0" * 8, "no schema": data[200:]}
    wrong |= {f"cut at {part} of 16": data[: len(data) * part // 16] for part in range(1, 16)}
    wrong |= {f"zeros at {part} of 16": data[: (at := len(data) * part // 16 & ~7)] + bytes(64) + data[at + 64 :] for part in range(16)}
    long = parted(300_000, 300_000)
    wrong |= {f"a long message cut at {part} of 4": long[: len(long) * part // 4] for part in range(1, 4)}
    for name, part in wrong.items():
        room.put("in", part)
        piped = subprocess.run([room.program, "recast", "in", "-"], cwd=room.folder, capture_output=True, timeout=60)
        said = piped.returncode, piped.stderr.decode().strip()
        os.path.exists(room.at("out")) and os.remove(room.at("out"))
        if piped.returncode == 0:
            yield f"{name}, which is a stream", room.recast()[0] == 0
            continue
        yield f"{name}, to no file", room.recast() == said and not os.path.exists(room.at("out"))
        room.put("out", OLD)
        before = room.number()
        yield f"{name}, to a file", room.recast() == said and room.bytes("out") == OLD and room.number() == before
    room.put("out", OLD)
    yield "an input that is a folder", room.recast(".") == (1, "cannot read .") and room.bytes("out") == OLD
    yield "no input", room.recast("none") == (1, "cannot read none") and room.bytes("out") == OLD
    yield "no new file is left by a refusal", room.beside() == []


def is_replaced(room, whole, target="out", real="out", **how):
    """Whether a new file takes the place of OUT."""
    before = room.number(real)
    return room.recast(target=target, **how) == (0, f"wrote {len(whole)}") and room.bytes(real) == whole and room.number(real) != before


def is_rewritten(room, whole, target="out", real="out", **how):
    """Whether OUT itself is written."""
    before = room.number(real)
    return room.recast(target=target, **how) == (0, f"wrote {len(whole)}") and room.bytes(real) == whole and room.number(real) == before


def permissions(room):
    whole = room.whole()
    for mode in (0o600, 0o640, 0o666, 0o755, 0o4711):
        room.put("out", OLD, mode)
        yield f"mode {mode:o}, replaced", is_replaced(room, whole)
        yield f"mode {mode:o}, kept", stat.S_IMODE(os.stat(room.at("out")).st_mode) == mode
    for mask in (0o022, 0o077, 0o000):
        os.remove(room.at("out"))
        yield f"umask {mask:o}", room.recast(umask=mask)[0] == 0 and stat.S_IMODE(os.stat(room.at("out")).st_mode) == 0o666 & ~mask


def links(room):
    whole = room.whole()
    os.mkdir(room.at("far"))
    room.put("far/real", OLD)
    os.symlink("far/real", room.at("link"))
    yield "a symbolic link's file is replaced", is_replaced(room, whole, "link", "far/real")
    yield "a symbolic link stays", os.readlink(room.at("link")) == "far/real"
    os.symlink("far/none", room.at("dangling"))
    yield "a link to nothing", room.recast(target="dangling")[0] == 0 and room.bytes("far/none") == whole and os.path.islink(room.at("dangling"))
    room.put("out", OLD)
    os.link(room.at("out"), room.at("second"))
    yield "a file of two names is written", is_rewritten(room, whole) and room.bytes("second") == whole
    os.remove(room.at("second"))
    data = room.bytes("in")
    yield "IN and OUT are one file", is_replaced(room, whole, "in", "in")
    room.put("in", data)
    os.symlink("in", room.at("alias"))
    yield "OUT is a link to IN", is_replaced(room, whole, "alias", "in")
    room.put("in", data)
    os.link(room.at("in"), room.at("second"))
    yield "OUT is another name of IN", is_rewritten(room, whole, "second", "second") and room.bytes("in") == whole
    os.remove(room.at("second"))
    room.put("in", data[:-20])
    yield "IN and OUT are one file that is refused", room.recast(target="in")[0] == 1 and room.bytes("in") == data[:-20]
    room.put("in", data)
    yield "no new file is left by links", room.beside() == []


def kinds(room):
    """Files that no new one can replace."""
    whole = room.whole()
    wrote = (0, f"wrote {len(whole)}")
    os.mkfifo(room.at("pipe"))
    with open(room.at("taken"), "wb") as taken, subprocess.Popen(["cat", room.at("pipe")], stdout=taken):
        yield "a pipe, its line", room.recast(target="pipe") == wrote
    yield "a pipe, its bytes", room.bytes("taken") == whole
    yield "a pipe stays", stat.S_ISFIFO(os.stat(room.at("pipe")).st_mode)
    yield "a device", room.recast(target="/dev/null") == wrote and stat.S_ISCHR(os.stat("/dev/null").st_mode)
    yield "a full device", room.recast(target="/dev/full") == (1, DEVICE)
    os.mkdir(room.at("folder"))
    for path in ("folder", "folder/", "none/out", "none/", "", "in/out"):
        yield f"OUT {path!r}", room.recast(target=path) == (1, f"cannot write {path}".strip())
    long = "o" * 250
    yield "a name with no room for more", room.recast(target=long) == wrote and is_rewritten(room, whole, long, long)
    room.put("out.lv-new-0", b"a run that was killed")
    room.put("out", OLD)
    yield "beside a file that was left", is_replaced(room, whole) and room.bytes("out.lv-new-0") == b"a run that was killed"
    os.remove(room.at("out.lv-new-0"))
    yield "no new file is left by kinds", room.beside() == []


def other_users(room):
    """What another user than the owner may write."""
    if not IS_ROOT:
        return
    whole = room.whole()
    shutil.copyfile(room.program, program := room.at("lv"))
    os.chmod(program, 0o755)
    os.chmod(room.folder, 0o777)
    other = Room.__new__(Room)
    other.program, other.folder = program, room.folder
    how = {"user": NOBODY, "group": NOBODY, "extra_groups": []}
    room.put("out", OLD, 0o666)
    yield "an owner that can't be kept", is_rewritten(other, whole, **how) and os.stat(room.at("out")).st_uid == 0
    room.put("out", OLD, 0o444)
    yield "a file that can't be written", other.recast(**how) == (1, "cannot write out") and room.bytes("out") == OLD
    os.chown(room.at("out"), NOBODY, NOBODY)
    os.chmod(room.at("out"), 0o640)
    yield "its own file is replaced", is_replaced(other, whole, **how)
    yield "an owner is kept by root", is_replaced(room, whole) and os.stat(room.at("out")).st_uid == NOBODY
    os.chmod(room.folder, 0o555)
    room.put("out", OLD)
    os.chmod(room.at("out"), 0o666)
    yield "a folder that can't be written", is_rewritten(other, whole, **how)
    os.remove(room.at("out"))
    yield "no file in such a folder", other.recast(**how) == (1, "cannot write out") and not os.path.exists(room.at("out"))
    os.chmod(room.folder, 0o1777)
    room.put("out", OLD, 0o666)
    yield "a folder where files are their owners'", is_rewritten(other, whole, **how)
    yield "no new file is left by other users", room.beside() == []


def within(size):
    """No file may be longer than so many bytes, and a write past that fails."""

    def limit():
        signal.signal(signal.SIGXFSZ, signal.SIG_IGN)
        resource.setrlimit(resource.RLIMIT_FSIZE, (size, size))

    return limit


def devices(room):
    whole = room.whole()
    for size in (0, 1, 100, 4096, len(whole) // 2, len(whole) - 1):
        os.path.exists(room.at("out")) and os.remove(room.at("out"))
        yield f"{size} bytes, to no file", room.recast(preexec_fn=within(size)) == (1, DEVICE) and not os.path.exists(room.at("out"))
        room.put("out", OLD)
        yield f"{size} bytes, to a file", room.recast(preexec_fn=within(size)) == (1, DEVICE) and room.bytes("out") == OLD
    yield "as many bytes as it has", is_replaced(room, whole, preexec_fn=within(len(whole)))
    yield "no new file is left by a limit", room.beside() == []
    os.mkdir(small := room.at("small"))
    if subprocess.run(["mount", "-t", "tmpfs", "-o", "size=64k", "lv-small", small], capture_output=True).returncode:
        return
    try:
        yield "a full disk, to no file", room.recast(target="small/out") == (1, DEVICE) and os.listdir(small) == []
        room.put("small/out", OLD)
        yield "a full disk, to a file", room.recast(target="small/out") == (1, DEVICE) and room.bytes("small/out") == OLD
        yield "no new file is left by a full disk", os.listdir(small) == ["out"]
    finally:
        subprocess.run(["umount", small], check=True)


def two_at_once(room):
    """Each has a new file of its own, and the last to be placed stays."""
    room.put("second", parted(300_000, 5000, b"d"))
    wholes = [room.whole(), room.whole("second")]
    room.put("out", OLD)
    for turn in range(5):
        runs = [subprocess.Popen([room.program, "recast", it, "out"], cwd=room.folder, stdout=subprocess.DEVNULL) for it in ("in", "second")]
        yield f"two at once, {turn}", [it.wait(60) for it in runs] == [0, 0] and room.bytes("out") in wholes and room.beside() == []


def killed(room):
    """Kills a run at moments from its beginning to past its end."""
    whole = room.whole()
    began = time.monotonic()
    room.recast()
    passed = time.monotonic() - began
    left = set()
    for moment in range(KILLS):
        room.put("out", OLD)
        with subprocess.Popen([room.program, "recast", "in", "out"], cwd=room.folder, stdout=subprocess.DEVNULL) as run:
            time.sleep(passed * moment / (KILLS - 2))
            run.kill()
        yield f"killed at {moment} of {KILLS}", room.bytes("out") in (OLD, whole)
        left.update(room.beside())
    yield "files that killed runs leave", left <= {f"out.lv-new-{it}" for it in range(KILLS)}
    yield "a run beside them", is_replaced(room, whole) and set(room.beside()) == left


def has_open(run, path):
    """Whether a process that runs has a file open."""
    folder = f"/proc/{run.pid}/fd"
    try:
        return any(os.path.realpath(os.path.join(folder, it)) == path for it in os.listdir(folder))
    except OSError:
        return False


def seen_on_terminal(room, command, seconds):
    """What a run prints, and what it writes to a terminal as standard error, where it is stopped for so many seconds once its input is
    open."""
    controlling, terminal = pty.openpty()
    words = [room.program, *command]
    with subprocess.Popen(words, cwd=room.folder, stdout=subprocess.PIPE, stderr=terminal) as run:
        while seconds and run.poll() is None and not has_open(run, os.path.realpath(room.at(command[1]))):
            pass
        run.send_signal(signal.SIGSTOP)
        time.sleep(seconds if run.poll() is None else 0)
        run.send_signal(signal.SIGCONT)
        printed = run.stdout.read().decode()
    os.close(terminal)
    told = b""
    try:
        while more := os.read(controlling, 1 << 16):
            told += more
    except OSError:
        pass
    os.close(controlling)
    return printed, told


def terminals(room):
    """A terminal is told of long runs alone, and the line is taken away."""
    size, wrote = os.stat(room.at("in")).st_size, f"wrote {len(room.whole())}\n"
    inspected = subprocess.run([room.program, "inspect", "in"], cwd=room.folder, capture_output=True, text=True).stdout
    room.put("short", parted(10, 10))
    yield "a short run", seen_on_terminal(room, ["recast", "short", "out"], 0) == (f"wrote {len(room.whole('short'))}\n", b"")
    for command, said in (["recast", "in", "out"], wrote), (["inspect", "in"], inspected):
        # A run that ended before it could be stopped told nothing, as may be on a busy machine.
        seen = (seen_on_terminal(room, command, 2.5) for _ in range(50))
        printed, told = next((it for it in seen if it[1]), (said, b""))
        lines = told.split(b"\r")
        is_told = len(lines) > 2 and all(it.endswith(b" of %d bytes\x1b[K" % size) for it in lines[1:-1]) and lines[-1] == b"\x1b[K"
        yield f"{command[0]}, long", is_told and printed == said
    ran = subprocess.run(["sh", "-c", "(cat in; sleep 2.5) | $0 recast - out", room.program], cwd=room.folder, capture_output=True, text=True)
    yield "no terminal", (ran.stdout, ran.stderr) == (wrote, "")


def checks():
    yield each_stream, b""
    yield refused, b""
    small, large = parted(20_000, 5000), parted(1_500_000, 50_000)
    yield from ((it, small) for it in (permissions, links, kinds, other_users, devices))
    yield from ((it, large) for it in (terminals, two_at_once, killed))


def main(program):
    count, bad = 0, []
    for check, data in checks():
        with tempfile.TemporaryDirectory(prefix="lv-recast-") as folder:
            for name, is_right in check(Room(program, folder, data)):
                count += 1
                if not is_right:
                    bad.append(f"{check.__name__}: {name}")
    print(*bad, sep="\n", end="\n" if bad else "")
    print(f"recast to files: {count} cases, {len(bad)} wrong")
    return bool(bad)


if __name__ == "__main__":
    sys.exit(main(os.path.abspath(sys.argv[1] if sys.argv[1:] else f"{ROOT}/crates/lv/out/lv")))
