#!/usr/bin/env python3
"""Refuses each request for memory of lists of calls in turn, through the library of crates/lv_c over a heap that can refuse: that one
alone, and then that one and all after it in the same call.

A call in which memory was refused answers 55 Memory, or what it answers without that. After 55 as many rows are live as before. Where one
request alone was refused, the same call again answers what it does without that, each view then is what it is without, and so are the
answers to all calls after it; where all were, each view is what it was before, and as many edits can be undone. No view is stale once all
are written. While some are, an edit leaves them so, and keeps the others by differences. `lv_open` and `lv_recast` are tried too.
"""
import ctypes
import os
import shutil
import struct
import subprocess
import sys
import tempfile
from dataclasses import dataclass, field

sys.dont_write_bytecode = True
ROOT = os.path.abspath(f"{__file__}/../../..")
sys.path[:0] = [f"{ROOT}/python", f"{ROOT}/tools/models"]
import streams
import tables
from canonical import UTF8, batch, integer, schema, stream, stream_of_rows
from limits import UNDOS

MEMORY, NOTHING_TO_UNDO = 55, 51
# Of a call that makes more requests than this, one in so many is refused.
MOST_REQUESTS, STRIDE = 2000, 97


@dataclass(frozen=True)
class Tables:
    """A configuration, the columns of its feeds and views, and those of a view that are written with dictionaries."""

    config: bytes
    feeds: dict
    views: dict
    coded: dict = field(default_factory=dict)


MAIN = Tables(
    b"""
[main]
key = "id"
columns = [["id", "int64"], ["grp", "utf8"], ["amt", "int64"]]
[side.zones]
key = "grp"
columns = [["grp", "utf8"], ["zone", "utf8"]]
[feed.add]
role = "append"
[feed.del]
role = "retract"
[feed.put]
role = "put"
side = "zones"
[feed.cut]
role = "drop"
side = "zones"
[view.top]
columns = [["id", "col", "id"], ["amt", "col", "amt"]]
order = [["amt", "asc"]]
first = 2
[view.sums]
group = ["grp"]
columns = [["grp", "col", "grp"], ["n", "count"], ["s", "sum", "amt"], ["hi", "greatest", "amt"]]
[view.zone]
lookup = { side = "zones", on = "grp", missing = "drop" }
group = [["side", "zone"]]
columns = [["zone", "col", ["side", "zone"]], ["n", "count"]]
[view.all]
group = []
columns = [["n", "count"], ["s", "sum", "amt"]]
[view.coded]
columns = [["id", "col", "id"], ["grp", "col", "grp"]]
dict = ["grp"]
""",
    {"add": "id:int64 grp:utf8 amt:int64", "del": "id:int64", "put": "grp:utf8 zone:utf8", "cut": "grp:utf8"},
    {
        "top": "id:int64 amt:int64",
        "sums": "grp:utf8 n:int64 s:decimal(38,0) hi:int64",
        "zone": "zone:utf8 n:int64",
        "all": "n:int64 s:decimal(38,0)",
        "coded": "id:int64 grp:utf8",
    },
    {"coded": [1]},
)
TEXTS = Tables(
    b"""
[main]
key = "c"
columns = [["c", "utf8"]]
[feed.add]
role = "append"
[view.all]
columns = [["c", "col", "c"]]
""",
    {"add": "c:utf8"},
    {"all": "c:utf8"},
)


def columns_of(words):
    return [(name, tables.type_of(it)) for name, it in (word.split(":") for word in words.split())]


def rows_of(columns, rows):
    return tables.rows_of(columns, " / ".join(rows))


def push(feed, *rows):
    """The call that pushes a batch of these rows, each as its words."""
    columns = columns_of(MAIN.feeds[feed])
    return ("push", feed, batch(columns, rows_of(columns, rows)))


def shows(view, *rows, of=MAIN):
    """The call that writes a view, and the stream that it must write: that of these rows, each as its words."""
    columns = columns_of(of.views[view])
    return ("write", view, stream_of_rows(columns, rows_of(columns, rows), of.coded.get(view, ())))


UNDO = ("undo",)
SCHEMAS = [("push", feed, schema(columns_of(words))) for feed, words in MAIN.feeds.items()]


def replaced_dictionary():
    """Two batches, with another dictionary before the second: each row keeps the text that it came with."""
    messages = [
        streams.schema([streams.field(5, dictionary=7)]),
        streams.dictionary_batch(7, [b"a", b"b"]),
        streams.batch(2, [[struct.pack("<2i", 0, 1)]]),
        streams.dictionary_batch(7, [b"c"]),
        streams.batch(1, [[struct.pack("<i", 0)]]),
    ]
    texts = [shows("all", *it, of=TEXTS) for it in ("abc", "ab", "")]
    return [("push", "add", it) for it in messages] + [texts[0], UNDO, texts[1], UNDO, texts[2]]


# Lists of calls, by what they show.
LISTS = {
    "a refused edit": [push("add", "1 a 0", "2 a 0"), push("add", "3 a 0", "2 a 0"), shows("all", "2 0"), push("add", "3 a 0")],
    "first rows": [
        push("add", "1 p 5", "2 p 5", "3 p 5"), shows("top", "1 5", "2 5"), push("del", "2"), shows("top", "1 5", "3 5"),
        UNDO, shows("top", "1 5", "2 5"),
    ],
    "groups": [
        push("add", "1 p 9", "2 p 9", "3 p 4"), shows("sums", "p 3 22 9"), push("del", "1"), shows("sums", "p 2 13 9"),
        push("del", "2"), shows("sums", "p 1 4 4"), push("del", "3"), shows("sums"),
    ],
    "no rows": [shows("all", "0 null"), shows("sums")],
    "lookups": [
        push("put", "p x", "q x"), push("add", "1 p 1", "2 q 1"), shows("zone", "x 2"), push("put", "q y"), shows("zone", "x 1", "y 1"),
        push("put", "p y"), shows("zone", "y 2"), push("cut", "q"), shows("zone", "y 1"), UNDO, UNDO, shows("zone", "x 1", "y 1"),
    ],
    "a row more": [
        push("add", "1 p 5"), shows("sums", "p 1 5 5"), shows("top", "1 5"),
        push("add", "2 p 7"), shows("sums", "p 2 12 7"), shows("top", "1 5", "2 7"),
    ],
    "an undone retract": [
        push("add", "1 p 5", "2 p 6", "3 q 5"), push("del", "2"), shows("coded", "1 p", "3 q"),
        UNDO, shows("coded", "1 p", "2 p", "3 q"), UNDO,
    ],
    "coded": [push("add", "1 p 1", "2 q 1", "3 p 1"), shows("coded", "1 p", "2 q", "3 p"), push("add", "4 r 1")],
    "more edits than can be undone": [push("add", f"{it} p 1") for it in range(UNDOS + 1)] + [UNDO] * (UNDOS + 1) + [shows("all", "1 1")],
    "rows that refer to a side row": [
        push("put", "p x"), push("add", *(f"{it} {'q' if it % 100 else 'p'} 1" for it in range(1000))), shows("zone", "x 10"),
        push("put", "p y"), shows("zone", "y 10"), UNDO, shows("zone", "x 10"),
    ],
}


class Session:
    """A session that answers calls as they are, and says what it shows."""

    def __init__(self, lib, of):
        from lv.calls import Handle

        self.lib, self.of, self.handle = lib, of, Handle()
        assert lib.lv_open(self.handle, of.config, len(of.config)) == 0

    def do(self, call):
        """What a call answers, its cause first."""
        match call:
            case ("push", feed, piece):
                pushed = self.lib.lv_push(self.handle, feed.encode(), len(feed), piece, len(piece))
                return pushed.cause, pushed.used, pushed.event
            case ("undo",):
                return (self.lib.lv_undo(self.handle),)
            case ("write", view, *_):
                written = self.lib.lv_write(self.handle, view.encode(), len(view))
                held = ctypes.create_string_buffer(max(1, written.len))
                copied = self.lib.lv_copy(self.handle, 0, held, written.len)
                return written.cause, held.raw[:copied]

    def do_all(self, calls):
        return [self.do(it) for it in calls]

    def live_rows(self):
        return self.lib.lv_live_rows(self.handle)

    def stale(self):
        return self.lib.lv_stale(self.handle)

    def visits(self):
        return self.lib.lv_visits(self.handle)

    def views(self):
        return [self.do(("write", it)) for it in self.of.views]

    def undo_all(self):
        """How many edits can be undone; it undoes them."""
        return next(it for it in range(UNDOS + 1) if self.do(UNDO)[0] == NOTHING_TO_UNDO)

    def close(self):
        self.lib.lv_close(self.handle)


@dataclass
class Whole:
    """Calls, what each answers without a refusal and how many requests it makes, and what is there before each, and after the last."""

    of: Tables
    calls: list
    answers: list
    requests: list = field(default_factory=list)
    rows: list = field(default_factory=list)
    views: list = field(default_factory=list)
    depths: list = field(default_factory=list)

    def numbers(self):
        """The requests that are refused, by their numbers among those of all calls: all, but not of a call that makes very many."""
        first = 1
        for count in self.requests:
            yield from range(first, first + count, STRIDE if count > MOST_REQUESTS else 1)
            first += count
        yield first


def without_refusal(lib, of, calls):
    session = Session(lib, of)
    whole = Whole(of, calls, [])
    for call in calls:
        lib.heap_refuse(0, 0)
        answer = session.do(call)
        whole.answers.append(answer)
        whole.requests.append(lib.heap_requests())
        assert answer[0] != MEMORY and (call[0] != "write" or answer == (0, call[2])), f"{call[:2]} answers otherwise"
    session.close()
    for number in range(len(calls) + 1):
        session = Session(lib, of)
        session.do_all(calls[:number])
        whole.rows.append(session.live_rows())
        whole.views.append(session.views())
        whole.depths.append(session.undo_all())
        session.close()
    states = [*zip(whole.rows, whole.views, whole.depths)]
    for number, answer in enumerate(whole.answers):
        assert answer[0] == 0 or states[number] == states[number + 1], f"{calls[number][:2]} is refused and changes something"
    return whole


def until_refused(lib, whole, at, goes_on):
    """Makes calls until request number `at` is refused. Gives the session, the place of that call and its answer, or no answer."""
    session = Session(lib, whole.of)
    lib.heap_refuse(at, goes_on)
    for number, call in enumerate(whole.calls):
        answer = session.do(call)
        if lib.heap_refusals():
            lib.heap_refuse(0, 0)
            return session, number, answer
        assert answer == whole.answers[number], "an answer before the refusal is another"
    lib.heap_refuse(0, 0)
    return session, len(whole.calls), None


def check_views(session, wanted):
    assert session.views() == wanted, "views are others"
    assert session.stale() == 0, "a view is stale that was written"


def check_rest(session, whole, number, answer):
    """Checks a session in whose call of this place memory was refused: that call again, and those after it."""
    if answer[0] == MEMORY:
        answer = session.do(whole.calls[number])
    assert answer == whole.answers[number], f"the call answers {answer[0]}"
    check_views(session, whole.views[number + 1])
    assert session.do_all(whole.calls[number + 1 :]) == whole.answers[number + 1 :], "a later call answers otherwise"
    check_views(session, whole.views[-1])
    assert session.undo_all() == whole.depths[-1], "more or fewer edits can be undone at last"


def check_as_before(session, whole, number):
    """Checks that a session is as it was before the call of this place."""
    check_views(session, whole.views[number])
    assert session.undo_all() == whole.depths[number], "more or fewer edits can be undone"


def check_refused(lib, whole, at, goes_on):
    """Checks one refusal, and answers whether there was one."""
    session, number, answer = until_refused(lib, whole, at, goes_on)
    if answer is not None:
        is_refused = answer[0] == MEMORY
        assert session.live_rows() == whole.rows[number + (not is_refused)], "other rows are live"
        if is_refused and goes_on:
            check_as_before(session, whole, number)
        else:
            check_rest(session, whole, number, answer)
    session.close()
    return answer is not None


def check_list(lib, name, of, calls):
    """Refuses the requests of a list of calls, and answers how many."""
    whole = without_refusal(lib, of, calls)
    numbers = [*whole.numbers()]
    for goes_on in (0, 1):
        for at in numbers:
            try:
                is_refused = check_refused(lib, whole, at, goes_on)
                assert is_refused == (at != numbers[-1]), "the calls make more or fewer requests than before"
            except AssertionError as error:
                raise AssertionError(f"{name}, request {at}{' and all after it' * goes_on}: {error}") from error
    return 2 * (len(numbers) - 1)


def each_growth(lib):
    """Refuses the requests of all lists, and answers how many."""
    refusals = check_list(lib, "a replaced dictionary", TEXTS, replaced_dictionary())
    return refusals + sum(check_list(lib, name, MAIN, SCHEMAS + calls) for name, calls in LISTS.items())


# Rows under the views that become stale, and which view opens how many of them where it is written and isn't.
ROWS = 100
OPENED = {"top": 2, "coded": ROWS + 2}


def refused_sessions(lib, calls, last):
    """For each request of the last of some calls a session in which it was refused, and the cause that this call then answered."""
    at, is_refused = 1, True
    while is_refused:
        session = Session(lib, MAIN)
        session.do_all(calls)
        lib.heap_refuse(at, 0)
        cause = session.do(last)[0]
        at, is_refused = at + 1, lib.heap_refusals() > 0
        lib.heap_refuse(0, 0)
        yield session, cause
        session.close()


def check_edit(session, edit, wanted):
    """An edit while views are stale leaves them so, and keeps the others by differences: each is written without being made anew."""
    stale, visits = session.stale(), session.visits()
    assert session.do(edit)[0] == 0 and session.stale() == stale, "an edit changes how many views are stale"
    assert session.visits() - visits <= 2 * len(MAIN.views), "an edit makes views anew"
    for view, answer in zip(MAIN.views, wanted):
        stale, visits = session.stale(), session.visits()
        assert session.do(("write", view)) == answer, f"{view} is another view"
        anew, opened = stale - session.stale(), session.visits() - visits
        assert opened <= OPENED.get(view, 0) + anew * session.live_rows(), f"a write of {view} opens {opened} rows"
    assert session.stale() == 0, "a view is stale that was written"


def check_writes(lib, session, wanted):
    """A write that is refused while its view is stale leaves it so, or makes it anew, and changes no other one."""
    for view, answer in zip(MAIN.views, wanted):
        at, is_refused = 1, True
        while is_refused:
            stale = session.stale()
            lib.heap_refuse(at, 0)
            said = session.do(("write", view))
            at, is_refused = at + 1, lib.heap_refusals() > 0
            lib.heap_refuse(0, 0)
            assert said == answer or (is_refused and said[0] == MEMORY and answer[1].startswith(said[1])), f"{view} is another view"
            assert stale - session.stale() in (0, 1), "a write changes whether other views are stale"
    assert session.stale() == 0, "a view is stale that was written"


def views_after(lib, calls):
    session = Session(lib, MAIN)
    session.do_all(calls)
    views = session.views()
    session.close()
    return views


def check_stale(lib):
    """Refuses each request of some calls over many rows, and checks what comes where that leaves views stale: an edit; and, once for each
    number of stale views, writes that are refused. Answers how often there were stale views."""
    calls = [*SCHEMAS, push("put", "p x"), push("add", *(f"{it} {'pr'[it > 2]} {it}" for it in range(ROWS))), push("add", f"{ROWS} p 1")]
    edit, found, counts = push("add", f"{ROWS + 2} q 1"), 0, {0}
    before, after = views_after(lib, calls), views_after(lib, [*calls, edit])
    for last in (push("add", f"{ROWS + 1} p 1"), push("del", "7"), push("put", "p y"), UNDO):
        for session, cause in refused_sessions(lib, calls, last):
            stale = session.stale()
            assert stale == 0 or cause == MEMORY, f"views are stale after {cause}"
            if stale not in counts:
                counts.add(stale)
                check_writes(lib, session, before)
            elif stale:
                check_edit(session, edit, after)
                found += 1
    assert found, "no refusal leaves a view stale"
    return found


def refusals_of(lib, call):
    """Refuses each request of a call in turn; what it is given is called with whether memory was refused."""
    refusals = 0
    for goes_on in (0, 1):
        at = 1
        while True:
            lib.heap_refuse(at, goes_on)
            is_refused = call(lambda: lib.heap_refusals() > 0)
            if not is_refused:
                break
            at, refusals = at + 1, refusals + 1
    lib.heap_refuse(0, 0)
    return refusals


def check_open(lib):
    from lv.calls import Handle

    def call(was_refused):
        handle = Handle()
        cause, refused = lib.lv_open(handle, MAIN.config, len(MAIN.config)), was_refused()
        assert cause == MEMORY and not handle.is_open if refused else cause == 0, f"lv_open answers {cause}"
        lib.lv_close(handle)
        return refused

    return refusals_of(lib, call)


def check_recast(lib):
    columns = [("id", integer(64)), ("grp", UTF8)]
    held = stream(columns, [[[it, b"a"] for it in range(100)], [[1, b"b"]]])

    def call(was_refused):
        buffer = ctypes.create_string_buffer(b"kept", 4)
        written = lib.lv_recast(held, len(held), buffer, 4)
        refused = was_refused()
        if written.cause:
            assert refused and (written.cause, written.len, buffer.raw) == (MEMORY, 0, b"kept"), f"lv_recast answers {written.cause}"
        else:
            assert written.len > 4 and buffer.raw == held[:4]
        return refused

    return refusals_of(lib, call)


def built(work, archive):
    """The library of an archive over the heap that refuses."""
    path = f"{work}/liblv.so"
    heap = ["cc", "-O2", "-shared", "-fPIC", "-o", path, f"{ROOT}/tools/runs/refuse_heap.c"]
    subprocess.run([*heap, "-Wl,--whole-archive", archive, "-Wl,--no-whole-archive"], check=True)
    os.environ["LV_LIBRARY"] = path
    from lv.calls import library

    lib = library()
    lib.heap_refuse.restype, lib.heap_refuse.argtypes = None, (ctypes.c_ulong, ctypes.c_int)
    lib.heap_requests.restype = lib.heap_refusals.restype = ctypes.c_ulong
    return lib


def main():
    archive = os.path.abspath(sys.argv[1]) if len(sys.argv) > 1 else f"{ROOT}/crates/lv_c/out/liblv_c.a"
    if not shutil.which("cc"):
        print("refused calls: skipped, since no C compiler (cc) is on the PATH")
        return 0
    with tempfile.TemporaryDirectory(prefix="lv-calls-") as work:
        lib = built(work, archive)
        refusals, stale = each_growth(lib), check_stale(lib)
        others = check_open(lib) + check_recast(lib)
    print(f"each_growth: {len(LISTS) + 1} lists of calls, {refusals} refusals; {stale} times views were stale over an edit")
    print(f"refused calls: lv_open and lv_recast, {others} refusals")
    return 0


if __name__ == "__main__":
    sys.exit(main())
