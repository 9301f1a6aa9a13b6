#!/usr/bin/env python3
"""Drives `lv live` over pipes: the script of examples/report, its streams as bytes behind lines, wrong lines, refusals, how it ends, and
clients that go away. Then standard input and output as files, and what standard error tells of a refused configuration and to those who
ask for help.

With the name of a program, that is run in place of the built lv.
"""
import os
import re
import resource
import struct
import subprocess
import sys
import tempfile

ROOT = os.path.abspath(f"{__file__}/../../..")
sys.path[1:1] = [f"{ROOT}/examples", f"{ROOT}/tools/models", f"{ROOT}/tools/makers"]
sys.dont_write_bytecode = True
import command_tables
from live import Live
from streams import END_MARK, INT64_SCHEMA, batch, field, int64_batch, schema

REPORT = os.path.join(ROOT, "examples", "report")
CONFIG = os.path.join(REPORT, "report.toml")
ORDERS = os.path.join(ROOT, "examples", "orders.arrows")
VIEWS = ("report", "countries", "heaviest")
# A table of the rows of ORDERS, with a view of which two streams are more than a pipe holds.
TABLE = b"""
[main]
key = "id"
columns = [["id", "int64"], ["customer", "utf8"], ["quantity", "int64"], ["note", "utf8"]]
[feed.orders]
role = "append"
[view.all]
columns = [["id", "col", "id"], ["customer", "col", "customer"], ["quantity", "col", "quantity"], ["note", "col", "note"]]
"""

# A table of texts, of which rows come and go.
NOTES = b"""
[main]
key = "i"
columns = [["i", "int64"], ["n", "utf8"]]
[feed.new]
role = "append"
[feed.gone]
role = "retract"
[view.rows]
group = []
columns = [["n", "count"]]
"""
LINES, MOST_MEMORY = 1_000_000, 64 << 20
# Batches of so many rows with notes of so many bytes come, in all three times as many bytes as there is memory for.
BATCHES, ROWS, NOTE = 1000, 200, 1000


def read(path):
    with open(path, "rb") as file:
        return file.read()


def stream(feed):
    return read(os.path.join(REPORT, f"{feed}.arrows"))


def ran(words, given=b"", **how):
    """Status, standard output and standard error of a run with this standard input."""
    it = subprocess.run(words, input=given, stdout=subprocess.PIPE, stderr=subprocess.PIPE, timeout=60, **how)
    return it.returncode, it.stdout, it.stderr


def made(words, given=b""):
    """What a run prints, and the files that it makes in a folder of its own."""
    with tempfile.TemporaryDirectory(prefix="lv-live-") as room:
        os.symlink(os.path.join(ROOT, "examples"), os.path.join(room, "examples"))
        os.mkdir(os.path.join(room, "out"))
        answer = ran(words, given, cwd=room)
        return answer, {it: read(os.path.join(room, "out", it)) for it in os.listdir(os.path.join(room, "out"))}


def same_as_run(lv):
    """The script on standard input: what `run` prints but for the lines that end the answers to each, and the same files."""
    path = os.path.join(REPORT, "script")
    script = read(path)
    wanted, files = made([lv, "run", CONFIG, path])
    (status, printed, error), others = made([lv, "live", CONFIG], script)
    assert re.findall(rb"(?m)^(\d+)\.$", printed) == [b"%d" % it for it in range(1, script.count(b"\n") + 1)]
    assert (status, re.sub(rb"(?m)^\d+\.\n", b"", printed), error) == wanted and wanted[0] == 0
    assert files == others and len(files) == 9
    return {it: files[f"{it}-1.arrows"] for it in VIEWS}


def asked(lv):
    """Streams as bytes, views as bytes, and each line that is refused, one after the other."""
    live = Live(CONFIG, lv)
    assert live.push("ports", stream("ports")) == ["schema", "batch", "end"]
    calls = stream("calls")
    events = [it for at in range(len(calls)) for it in live.push("calls", calls[at : at + 1])]
    assert events == ["schema", "dictionary", "batch", "batch", "end"]
    first = {it: live.view(it) for it in VIEWS}
    live.push("withdrawn", stream("withdrawn"))
    live.push("corrected", stream("corrected"))
    assert live.view("heaviest") != first["heaviest"]
    assert live.ask("undo")[0] == live.ask("undo")[0] == ["undone"]
    assert {it: live.view(it) for it in VIEWS} == first
    for words, held, wanted in (
        ("no such line", b"", ["wrong line"]),
        ("\x00", b"", ["wrong line"]),
        ("# nothing", b"", []),
        ("", b"", []),
        ("send", b"", ["wrong line"]),
        ("send report more", b"", ["wrong line"]),
        ("send none", b"", ["refused 54 UnknownView"]),
        ("finish none", b"", ["refused 53 UnknownFeed"]),
        ("bytes calls -1", b"", ["wrong line"]),
        ("bytes calls 0", b"", []),
        ("bytes calls 5", b"XXXXX", ["refused 29 AfterEnd"]),
        ("bytes calls 3", b"YYY", ["refused 52 FeedBroken"]),
        ("bytes none 4", b"\n\n\n\n", ["refused 53 UnknownFeed"]),
        ("bytes none 3000000", bytes(3000000), ["refused 53 UnknownFeed"]),
        ("feed ports none", b"", ["cannot read none"]),
        ("write report none/none", b"", ["cannot write none/none"]),
    ):
        assert live.ask(words, held)[0] == wanted, words
    assert live.close() == 1
    return first


def ended(lv):
    """The end of the input, also within a line and within bytes, and standard streams that are closed."""
    live, none = [lv, "live", CONFIG], os.path.join(REPORT, "none")
    assert ran(live) == (0, b"", b"")
    assert ran(live, b"finish none") == (1, b"1: refused 53 UnknownFeed\n1.\n", b"")
    assert ran(live, b"\xff\n") == (1, b"1: wrong line\n1.\n", b"")
    assert ran(live, b"bytes calls 100\nabc") == (1, b"1: cannot read -\n1.\n", b"")
    assert ran(live, b"bytes none 100\nabc") == (1, b"1: refused 53 UnknownFeed\n1: cannot read -\n1.\n", b"")
    assert ran([lv, "live", none]) == (1, f"cannot read {none}\n".encode(), b"")
    shell = ["bash", "-c", 'exec "$0" "$@" <&-']
    assert ran(shell + live)[:2] == (0, b"")
    assert ran(["bash", "-c", 'exec "$0" "$@" > /dev/full'] + live, b"undo\n") == (1, b"", b"")


class Client:
    """A program that runs lv over pipes, and can go away."""

    def __init__(self, words, given):
        self.process = subprocess.Popen(words, stdin=subprocess.PIPE, stdout=subprocess.PIPE, stderr=subprocess.PIPE)
        self.send(given)

    def send(self, held):
        self.process.stdin.write(held)
        self.process.stdin.flush()

    def ended(self):
        """The status with which lv ends, and what it printed to standard error. Nobody reads its answers from here on."""
        self.process.stdout.close()
        answer = self.process.wait(60), self.process.stderr.read()
        self.process.stderr.close()
        return answer


def cut_short(lv):
    """The end of the input within the bytes of a line: the messages before it are answered."""
    live, calls = [lv, "live", CONFIG], stream("calls")
    line = b"bytes calls %d\n" % len(calls)
    whole, counts = ran(live, line + calls)[1].splitlines(keepends=True)[:-1], set()
    for end in [*range(0, len(calls), 67), len(calls) - 1]:
        status, printed, error = ran(live, line + calls[:end])
        events = printed.splitlines(keepends=True)[:-2]
        assert (status, printed, error) == (1, b"".join(events) + b"1: cannot read -\n1.\n", b""), end
        assert events == whole[: len(events)], end
        counts.add(len(events))
    assert counts == {*range(len(whole))}


def gone_within_bytes(lv):
    """Clients that close their end of the output within the bytes of a line, and send the rest or end the input: lv ends with status 1."""
    calls = stream("calls")
    line = b"bytes calls %d\n" % len(calls)
    for given, more in ((b"", b"undo\n"), (line, calls), (line + calls[:100], calls[100:]), (line + calls[:100], b"")):
        client = Client([lv, "live", CONFIG], given)
        client.process.stdout.close()
        client.send(more)
        if not more:
            client.process.stdin.close()
        assert client.ended() == (1, b""), (given, more)


def gone_within_views(lv):
    """Clients that go away while streams are on their way: lv ends with status 1, whether there is more to read or not. One that ends its
    input alone gets them all."""
    with tempfile.TemporaryDirectory(prefix="lv-live-") as room:
        config = os.path.join(room, "config")
        with open(config, "wb") as file:
            file.write(TABLE)
        orders = read(ORDERS)
        lines = b"bytes orders %d\n" % len(orders) + orders + 4 * b"send all\n"
        status, printed, _ = ran([lv, "live", config], lines)
        assert status == 0 and len(re.findall(rb"(?m)^\d: wrote 55800$", printed)) == 4
        for is_ended in (False, True):
            client = Client([lv, "live", config], lines)
            assert client.process.stdout.read(1000) == printed[:1000]
            if is_ended:
                client.process.stdin.close()
            assert client.ended() == (1, b""), is_ended
        client = Client([lv, "run", config, "-"], b"feed orders %s\n" % ORDERS.encode() + 4 * b"write all -\n")
        client.process.stdin.close()
        assert client.process.stdout.read(1000)
        status, error = client.ended()
        assert status == 1 and error.endswith(b"5: refused 56 Device\n")
    client = Client([lv, "recast", "-", "-"], INT64_SCHEMA + int64_batch(20000, 0) + END_MARK)
    client.process.stdin.close()
    assert client.process.stdout.read(1000)
    assert client.ended() == (1, b"refused 56 Device\n")


def many_lines(lv):
    """A million lines, each answered, and a line that can't be held, within 64 MB of memory."""
    how = {"preexec_fn": lambda: resource.setrlimit(resource.RLIMIT_AS, (MOST_MEMORY, MOST_MEMORY))}
    answers = b"".join(b"%d: refused 51 NothingToUndo\n" % it for it in range(1, LINES + 1))
    assert ran([lv, "run", CONFIG, "-"], b"undo\n" * LINES, **how) == (1, answers, b"")
    assert ran([lv, "run", CONFIG, "-"], b"undo\n" * (LINES - 1) + b"undo now", **how) == (2, b"%d: wrong line\n" % LINES, b"")
    answers = b"".join(b"%d: wrong line\n%d.\n" % (it, it) for it in range(1, LINES + 1))
    assert ran([lv, "live", CONFIG], b"undo now\n" * LINES, **how) == (1, answers, b"")
    assert ran([lv, "live", CONFIG], b"undo" * (MOST_MEMORY // 4) + b"\nundo\n", **how) == (1, b"1: refused 55 Memory\n1.\n", b"")


def pushed(feed, data):
    return b"bytes %s %d\n" % (feed, len(data)) + data


def batches_that_go(lv, staying):
    """Batches of which all rows but so many go, one batch after the other, within 64 MB of memory: a batch goes with the last row that is live or
    that an undo brings back, and what is left of one is written anew."""
    how = {"preexec_fn": lambda: resource.setrlimit(resource.RLIMIT_AS, (MOST_MEMORY, MOST_MEMORY))}
    number = field(2, 64, 1, name=b"i")
    offsets, notes = struct.pack(f"<{ROWS + 1}i", *range(0, NOTE * (ROWS + 1), NOTE)), bytes(b"n") * NOTE * ROWS
    lines = [pushed(b"new", schema([number, field(5, name=b"n")])), pushed(b"gone", schema([number]))]
    for first in range(0, BATCHES * ROWS, ROWS):
        keys = [struct.pack(f"<{many}q", *range(first, first + many)) for many in (ROWS, ROWS - staying)]
        lines += [pushed(b"new", batch(ROWS, [[keys[0]], [offsets, notes]])), pushed(b"gone", batch(ROWS - staying, [[keys[1]]]))]
    with tempfile.TemporaryDirectory(prefix="lv-live-") as room:
        config = os.path.join(room, "config")
        with open(config, "wb") as file:
            file.write(NOTES)
        status, printed, error = ran([lv, "live", config], b"".join(lines), **how)
    assert (status, printed.count(b": batch\n"), error) == (0, 2 * BATCHES, b""), re.search(rb"\d+: refused.*", printed)


def examples(lv, views):
    """The programs of examples/ that drive it."""
    status, printed, _ = ran([sys.executable, os.path.join(ROOT, "examples", "live.py"), lv])
    assert status == 0 and printed.decode().splitlines() == [
        "ports schema batch end",
        "calls schema dictionary batch batch end",
        f"countries {len(views['countries'])}",
        "undone",
    ]
    status, printed, _ = ran(["bash", os.path.join(ROOT, "examples", "live.sh"), lv])
    inspected = ran([lv, "inspect", "-"], views["countries"])[1]
    events = b"schema\nbatch\nend\nschema\ndictionary\nbatch\nbatch\nend\n"
    assert (status, printed) == (0, events + b"wrote %d\n" % len(views["countries"]) + inspected + b"undone\n")


def standard_streams(lv, views):
    """Standard input and output as files: nothing but a stream goes to standard output, and what is printed to standard error."""
    orders = read(ORDERS)
    with tempfile.TemporaryDirectory(prefix="lv-live-") as room:
        whole = os.path.join(room, "whole")
        wrote = ran([lv, "recast", ORDERS, whole])[1]
        whole = read(whole)
        assert ran([lv, "recast", "-", "-"], orders) == (0, whole, wrote)
        appended = os.path.join(room, "appended")
        subprocess.run(["bash", "-c", 'echo first > "$1"; "$0" recast - - < "$2" >> "$1" 2> /dev/null', lv, appended, ORDERS], check=True)
        assert read(appended) == b"first\n" + whole
        script = os.path.join(room, "script")
        lines = [f"feed {it} {os.path.join(REPORT, it)}.arrows" for it in ("ports", "calls")] + ["write countries -"]
        with open(script, "w") as file:
            file.write("\n".join(lines))
        status, printed, error = ran([lv, "run", CONFIG, script])
        assert (status, printed) == (0, views["countries"]) and error.endswith(b"3: wrote %d\n" % len(printed))
        status, printed, error = ran([lv, "live", CONFIG], read(script))
        assert status == 0 and printed.endswith(b"2.\n" + views["countries"] + b"3.\n")
        assert error == b"3: wrote %d\n" % len(views["countries"])
    assert ran([lv, "recast", "-", "-"], orders[:-9]) == (1, b"", b"refused 30 Truncated\n")
    assert ran([lv, "recast", "none", "-"]) == (1, b"", b"cannot read none\n")
    assert ran([lv, "inspect", "-"], orders) == ran([lv, "inspect", ORDERS])
    assert ran([lv, "check", "-"], read(CONFIG)) == ran([lv, "check", CONFIG])
    pieces = b"".join(b"piece ports %s/ports.arrows %d 7\n" % (REPORT.encode(), at) for at in range(0, len(stream("ports")), 7))
    assert re.sub(rb"\d+: ", b"", ran([lv, "run", CONFIG, "-"], pieces)[1]) == b"schema\nbatch\nend\n"
    input_once(lv)


def input_once(lv):
    """Standard input is read once: where it has the configuration or the lines, or was read by another line, it isn't read again."""
    lines = b"feed ports -\npiece ports - 0 9\nundo\n"
    answers = b"1: cannot read -\n1.\n2: cannot read -\n2.\n3: refused 51 NothingToUndo\n3.\n"
    assert ran([lv, "live", CONFIG], lines) == (1, answers, b"")
    assert ran([lv, "live", "-"], read(CONFIG)) == (1, b"cannot read -\n", b"")
    assert ran([lv, "run", CONFIG, "-"], b"feed ports -\n") == (1, b"1: cannot read -\n", b"")
    with tempfile.TemporaryDirectory(prefix="lv-live-") as room:
        script = os.path.join(room, "script")
        with open(script, "w") as file:
            file.write("piece ports - 0 99999\npiece ports - 0 9\n")
        events = b"1: schema\n1: batch\n1: end\n2: cannot read -\n"
        assert ran([lv, "run", CONFIG, script], stream("ports")) == (1, events, b"")


def explained(lv):
    """Where a configuration is refused, and why, is told on standard error, beside the line of the refusal."""
    with tempfile.TemporaryDirectory(prefix="lv-live-") as room:
        config = os.path.join(room, "wrong.toml")
        with open(config, "wb") as file:
            file.write(read(CONFIG).replace(b'["tonnes", "desc"]', b'["tons", "desc"]', 1))
        for words in (["check", config], ["run", config, config], ["live", config]):
            status, printed, error = ran([lv, *words])
            assert (status, printed) == (1, b"refused 62 UnknownName\n"), words
            assert error.startswith(f"{config}: view.countries.order: a column".encode()) and error.count(b"\n") == 1, words
    assert ran([lv, "check", "-"], b"\xff") == (1, b"refused 61 NotToml\n", b"-: the configuration isn't TOML\n")


def helped(lv):
    """Help and the version are told on standard error, beside the line that wrong use prints. The usage is that of the commands' modules."""
    commands = command_tables.commands()
    assert subprocess.run([os.path.join(ROOT, "tools/makers/command_tables.py"), "--check"]).returncode == 0
    version = read(os.path.join(ROOT, "VERSION")).decode().strip()
    assert f'"lv {version}"'.encode() in read(os.path.join(ROOT, "docs", "lv.1")).splitlines()[0]
    for words in (["--version"], ["-V"]):
        assert ran([lv] + words) == (2, b"wrong use\n", f"lv {version}\n".encode()), words
    for words in (["--help"], ["-h"], ["help"], ["recast", "--help"]):
        status, printed, error = ran([lv] + words)
        assert (status, printed) == (2, b"wrong use\n"), words
        assert all(f"lv {it.words()} ".encode() in error.replace(b"\n", b" ") for it in commands), words
    for words in ([], ["recast", "none"], ["check", "none", "--", "--help"], ["inspect", "--", "--version", "-h"]):
        assert ran([lv] + words) == (2, b"wrong use\n", b""), words


def main():
    lv = os.path.abspath(sys.argv[1] if len(sys.argv) > 1 else os.path.join(ROOT, "crates/lv/out/lv"))
    views = same_as_run(lv)
    assert asked(lv) == views
    ended(lv)
    cut_short(lv)
    gone_within_bytes(lv)
    gone_within_views(lv)
    many_lines(lv)
    batches_that_go(lv, 0)
    batches_that_go(lv, 1)
    examples(lv, views)
    standard_streams(lv, views)
    explained(lv)
    helped(lv)
    print("live: the script as run answers it, bytes, views, refusals, ends, clients that go away, a million lines, batches that go; standard streams; what is told of refused configurations; help")
    return 0


if __name__ == "__main__":
    sys.exit(main())
