"""The calls of liblv from Python. LV_LIBRARY names the library; the streams are those of examples/report."""
import ctypes
import hashlib
import io
import threading
import unittest
from pathlib import Path
from unittest import mock

import lv
from lv.calls import CALLS, Handle, library

EXAMPLES = Path(__file__).parents[2] / "examples"
REPORT = EXAMPLES / "report"
CONFIG = (REPORT / "report.toml").read_text()
FEEDS = {it: (REPORT / f"{it}.arrows").read_bytes() for it in ("ports", "calls", "withdrawn", "corrected")}
VIEWS = ("report", "countries", "heaviest")
SUMS = {name: it for it, name in (line.split() for line in (REPORT / "views.sha256").read_text().splitlines())}


def refusal(call, *words):
    """The number and the name of the refusal of a call, and how many bytes were consumed."""
    try:
        call(*words)
    except lv.Refused as refused:
        return refused.cause, refused.name, refused.used
    raise AssertionError("the call was not refused")


def push_file(session, feed, file):
    """Pushes all of a file, and behind each batch with a key that is there already what the refusal has of the rest. Gives
    the messages, the refused ones too."""
    events, source = [], file
    while True:
        try:
            events += session.push(feed, source)
            if source is file:
                return events
            source = file
        except lv.Refused as refused:
            assert refused.name == "DuplicateKey", refused
            events += [*refused.events, lv.Event.BATCH]
            source = refused.rest


def shown(session):
    return [session.view(it) for it in VIEWS]


def filled():
    session = lv.Session(CONFIG)
    session.push("ports", FEEDS["ports"])
    session.push("calls", FEEDS["calls"])
    return session


class Sessions(unittest.TestCase):
    def assert_views(self, session, number):
        for view in VIEWS:
            self.assertEqual(hashlib.sha256(session.view(view)).hexdigest(), SUMS[f"{view}-{number}.arrows"])

    def test_report(self):
        with lv.Session(CONFIG) as session:
            self.assertEqual(session.push("ports", FEEDS["ports"])[0], lv.Event.SCHEMA)
            self.assertEqual(session.push("calls", io.BytesIO(FEEDS["calls"]))[-1], lv.Event.END)
            self.assert_views(session, 1)
            session.push("withdrawn", memoryview(FEEDS["withdrawn"]))
            session.push("corrected", bytearray(FEEDS["corrected"]))
            self.assert_views(session, 2)
            session.undo()
            session.undo()
            self.assert_views(session, 3)
            self.assertEqual((session.live_rows, session.stale), (5, 0))
            self.assertGreater(session.visits, 0)

    def test_pieces(self):
        whole, cut = lv.Session(CONFIG), lv.Session(CONFIG)
        for feed, stream in FEEDS.items():
            events = whole.push(feed, stream)
            self.assertEqual(sum((cut.push(feed, stream[at : at + 1]) for at in range(len(stream))), []), events)
            self.assertEqual(cut.push(feed, b""), [])
            whole.finish(feed)
            cut.finish(feed)
        self.assertEqual(shown(whole), shown(cut))
        whole.close()
        cut.close()

    def test_refusals(self):
        with filled() as session:
            before = shown(session)
            self.assertEqual(refusal(session.push, "none", b"")[:2], (53, "UnknownFeed"))
            self.assertEqual(refusal(session.view, "none")[:2], (54, "UnknownView"))
            self.assertEqual(refusal(session.push, "withdrawn", b"no message")[:2], (1, "NoContinuation"))
            self.assertEqual(refusal(session.push, "withdrawn", FEEDS["withdrawn"])[:2], (52, "FeedBroken"))
            self.assertEqual(refusal(session.finish, "corrected")[:2], (8, "NoSchema"))
            self.assertEqual(shown(session), before)
        self.assertEqual(refusal(lv.Session, "no TOML")[:2], (61, "NotToml"))
        self.assertEqual(refusal(lv.Session, b"\xff")[:2], (61, "NotToml"))
        self.assertEqual(refusal(lv.Session, "")[:2], (69, "Shape"))

    def test_unfit_edit(self):
        config = CONFIG + '\n[feed.again]\nrole = "append"\n'
        with lv.Session(config) as session:
            session.push("calls", FEEDS["calls"])
            before = session.view("report")
            cause, name, used = refusal(session.push, "again", FEEDS["calls"])
            self.assertEqual((cause, name), (42, "DuplicateKey"))
            self.assertTrue(0 < used < len(FEEDS["calls"]))
            self.assertEqual(refusal(session.push, "again", FEEDS["calls"][used:])[:2], (42, "DuplicateKey"))
            self.assertEqual(session.view("report"), before)

    def test_rest_of_file(self):
        with lv.Session(CONFIG + '\n[feed.again]\nrole = "append"\n[feed.cut]\nrole = "append"\n') as session:
            events = session.push("calls", FEEDS["calls"])
            before = shown(session)
            self.assertEqual(push_file(session, "again", io.BytesIO(FEEDS["calls"])), events)
            with mock.patch("lv.session.PIECE", 16):
                self.assertEqual(push_file(session, "cut", io.BytesIO(FEEDS["calls"])), events)
            session.finish("again")
            session.finish("cut")
            self.assertEqual(shown(session), before)

    def test_undo_ends(self):
        with filled() as session:
            for _ in range(64):
                try:
                    session.undo()
                except lv.Refused as refused:
                    self.assertEqual((refused.cause, refused.name), (51, "NothingToUndo"))
                    break
            self.assertEqual(session.live_rows, 0)

    def test_place(self):
        self.assertIsNone(lv.place_of_fault(CONFIG.encode()))
        changes = (
            ("[main]", "[main", "line 1"),
            ("[main]", "[mian]", "mian"),
            ('key = "id"', 'key = "code"', "main.key"),
            ('["port", "utf8"]', '["port", "utf9"]', "main.columns"),
            ('role = "append"', 'role = "add"', "feed.calls"),
            ('"null" }', '"none" }', "view.countries.lookup"),
            ('group = [["side", "country"]]', 'group = [["side", "land"]]', "view.countries.group"),
            ('["calls", "count"]', '["calls", "counts"]', "view.countries.columns"),
            ('["tonnes", "desc"]', '["tons", "desc"]', "view.countries.order"),
            ('"10000.000"', '"10000.0000"', "view.heaviest.filter"),
            ("first = 3", "first = -1", "view.heaviest.first"),
            ("first = 3", 'dict = ["call"]', "view.heaviest.dict"),
            ("first = 3", 'having = ["ge", "call", 1]', "view.heaviest.having"),
            ("first = 3", '"a b" = 3', 'view.heaviest."a b"'),
        )
        for old, new, place in changes:
            text = CONFIG.replace(old, new, 1)
            self.assertNotEqual(text, CONFIG)
            with self.assertRaises(lv.Refused) as raised:
                lv.Session(text)
            self.assertEqual(raised.exception.place, place)

    def test_closed(self):
        session = filled()
        session.close()
        session.close()
        for call in (session.undo, lambda: session.push("calls", b""), lambda: session.view("report"), lambda: session.live_rows):
            self.assertEqual(refusal(call)[:2], (255, "NotOpen"))

    def test_other_thread(self):
        with lv.Session(CONFIG) as session:
            raised = []

            def work():
                try:
                    session.undo()
                except RuntimeError as error:
                    raised.append(error)

            thread = threading.Thread(target=work)
            thread.start()
            thread.join()
            self.assertEqual(len(raised), 1)


class Handles(unittest.TestCase):
    """The calls themselves, with handles that aren't open, are open already, or stand side by side."""

    def setUp(self):
        self.lib, self.config = library(), CONFIG.encode()

    def opened(self):
        handle = Handle()
        self.assertEqual(self.lib.lv_open(handle, self.config, len(self.config)), 0)
        return handle

    def assert_closed(self, handle):
        """Each call answers that the handle isn't open, and touches neither the buffer nor the handle."""
        before, buffer = (handle.at, handle.is_open), ctypes.create_string_buffer(b"kept", 4)
        pushed, written = self.lib.lv_push(handle, b"calls", 5, b"\xff\xff", 2), self.lib.lv_write(handle, b"report", 6)
        self.assertEqual((pushed.used, pushed.cause, pushed.event, written.len, written.cause), (0, 255, 0, 0, 255))
        self.assertEqual((self.lib.lv_finish(handle, b"calls", 5), self.lib.lv_undo(handle)), (255, 255))
        self.assertEqual((self.lib.lv_live_rows(handle), self.lib.lv_stale(handle), self.lib.lv_visits(handle)), (0, 0, 0))
        self.assertEqual((self.lib.lv_copy(handle, 0, buffer, 4), buffer.raw), (0, b"kept"))
        self.lib.lv_close(handle)
        self.assertEqual((handle.at, handle.is_open), before)

    def test_names(self):
        self.assertEqual({*CALLS}, {it for it in CALLS if hasattr(self.lib, it)})

    def test_closed(self):
        self.assert_closed(Handle())
        self.assert_closed(Handle(at=0xDEAD, is_open=False))
        handle = self.opened()
        self.lib.lv_close(handle)
        self.assert_closed(handle)

    def test_reopened(self):
        handle = self.opened()
        self.lib.lv_close(handle)
        self.assertEqual(self.lib.lv_open(handle, self.config, len(self.config)), 0)
        self.assertEqual(self.lib.lv_write(handle, b"report", 6).cause, 0)
        self.lib.lv_close(handle)

    def test_opened_twice(self):
        handle = self.opened()
        self.lib.lv_push(handle, b"ports", 5, FEEDS["ports"], len(FEEDS["ports"]))
        before = handle.at
        self.assertEqual(self.lib.lv_open(handle, self.config, len(self.config)), 255)
        self.assertEqual((handle.at, handle.is_open), (before, True))
        self.assertEqual(self.lib.lv_write(handle, b"report", 6).cause, 0)
        self.lib.lv_close(handle)

    def test_refused_open(self):
        handle = Handle()
        self.assertEqual(self.lib.lv_open(handle, b"[main]", 6), 69)
        self.assert_closed(handle)

    def test_side_by_side(self):
        one, other = self.opened(), self.opened()
        empty = self.lib.lv_write(other, b"report", 6).len
        for feed in ("ports", "calls"):
            stream = FEEDS[feed]
            used = 0
            while used < len(stream):
                used += self.lib.lv_push(one, feed.encode(), len(feed), stream[used:], len(stream) - used).used
        self.assertEqual((self.lib.lv_live_rows(one), self.lib.lv_live_rows(other)), (5, 0))
        self.assertEqual(self.lib.lv_write(other, b"report", 6).len, empty)
        self.lib.lv_close(one)
        self.assert_closed(one)
        self.assertEqual(self.lib.lv_write(other, b"report", 6).len, empty)
        self.lib.lv_close(other)

    def test_names_that_are_not_utf8(self):
        handle = self.opened()
        self.assertEqual(self.lib.lv_push(handle, b"\xff", 1, b"", 0).cause, 53)
        self.assertEqual(self.lib.lv_finish(handle, b"\xff", 1), 53)
        self.assertEqual(self.lib.lv_write(handle, b"\xff", 1).cause, 54)
        self.lib.lv_close(handle)

    def test_copies(self):
        handle = self.opened()
        whole = self.lib.lv_write(handle, b"report", 6).len
        held = ctypes.create_string_buffer(whole)
        self.assertEqual(self.lib.lv_copy(handle, 0, held, whole), whole)
        buffer = ctypes.create_string_buffer(bytes(100), 100)
        self.assertEqual(self.lib.lv_copy(handle, 7, buffer, 90), 90)
        self.assertEqual(buffer.raw, held.raw[7:97] + bytes(10))
        self.assertEqual(self.lib.lv_copy(handle, whole - 3, buffer, 100), 3)
        self.assertEqual(buffer.raw, held.raw[-3:] + held.raw[10:97] + bytes(10))
        for place in (whole, whole + 1, 2**64 - 1):
            self.assertEqual(self.lib.lv_copy(handle, place, buffer, 100), 0)
        # What is kept is what the last write put out.
        self.assertEqual(self.lib.lv_write(handle, b"none", 4).cause, 54)
        self.assertEqual(self.lib.lv_copy(handle, 0, held, whole), 0)
        self.lib.lv_close(handle)


class Recasts(unittest.TestCase):
    def test_whole(self):
        for line in (EXAMPLES / "canonical.sha256").read_text().splitlines():
            wanted, name = line.split()
            stream = (EXAMPLES / name.replace(".canon", ".arrows")).read_bytes()
            self.assertEqual(hashlib.sha256(lv.recast(stream)).hexdigest(), wanted)
            self.assertEqual(lv.recast(io.BytesIO(stream)), lv.recast(bytearray(stream)))

    def test_short_buffer(self):
        stream, buffer = FEEDS["calls"], ctypes.create_string_buffer(bytes(20), 20)
        whole = lv.recast(stream)
        written = library().lv_recast(stream, len(stream), buffer, 12)
        self.assertEqual((written.len, written.cause, buffer.raw), (len(whole), 0, whole[:12] + bytes(8)))

    def test_refused(self):
        self.assertEqual(refusal(lv.recast, b"no stream")[:2], (1, "NoContinuation"))
        self.assertEqual(refusal(lv.recast, b"")[:2], (8, "NoSchema"))
        buffer = ctypes.create_string_buffer(b"kept", 4)
        written = library().lv_recast(FEEDS["calls"][:-1], len(FEEDS["calls"]) - 1, buffer, 4)
        self.assertEqual((written.len, written.cause, buffer.raw), (0, 30, b"kept"))


if __name__ == "__main__":
    unittest.main()
