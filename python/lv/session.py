"""Sessions: feeds that change tables, and views of the tables."""
from __future__ import annotations

import ctypes
import enum
import threading
from types import TracebackType
from typing import TYPE_CHECKING, BinaryIO

from lv.calls import NOT_OPEN, Handle, Refused, library, need

if TYPE_CHECKING:
    import pyarrow

# How much is read of a file at once.
PIECE = 1 << 20


class Event(enum.Enum):
    """The message that a push completed."""

    SCHEMA = 1
    DICTIONARY = 2
    BATCH = 3
    END = 4


class Session:
    """The tables of a configuration, which the streams of its feeds change, and the views of them.

    `config` is the text of a configuration in TOML, or its bytes. A session is closed by `close`, or at the end of a
    `with`; until then its memory is kept. It is used on the thread that opened it, and on no other.
    """

    def __init__(self, config: str | bytes) -> None:
        self._library, self._handle, self._thread = library(), Handle(), threading.get_ident()
        text = config.encode() if isinstance(config, str) else bytes(config)
        if cause := self._library.lv_open(self._handle, text, len(text)):
            raise Refused(cause, place=place_of_fault(text))

    def __enter__(self) -> Session:
        return self

    def __exit__(self, kind: type[BaseException] | None, error: BaseException | None, trace: TracebackType | None) -> None:
        self.close()

    def push(self, feed: str, data: bytes | bytearray | memoryview | BinaryIO) -> list[Event]:
        """Pushes all of some bytes, or all that a file has, to a feed, and returns the messages that this completed. The
        stream of a feed may be cut into pushes anywhere.

        Raises `Refused`, whose `used` says how many of the bytes were consumed by this call. A batch whose edit doesn't
        fit (41 to 45) is consumed and changes nothing: the feed goes on with the bytes behind it. These are the `rest` of
        the refusal, which is to be pushed first, and then what the file still has. After a fault of the stream (1 to 30)
        the feed is broken.
        """
        events: list[Event] = []
        if not hasattr(data, "read"):
            self._push_bytes(feed, bytes(data), 0, events)
            return events
        used = 0
        while piece := data.read(PIECE):
            self._push_bytes(feed, piece, used, events)
            used += len(piece)
        return events

    def finish(self, feed: str) -> None:
        """Ends the input of a feed. Raises `Refused`, with 30 where it ends inside a message."""
        name = feed.encode()
        need(self._own().lv_finish(self._handle, name, len(name)))

    def undo(self) -> None:
        """Undoes the latest accepted edit, of any feed, that isn't undone; the last 64 can be."""
        need(self._own().lv_undo(self._handle))

    def view(self, name: str) -> bytes:
        """The Arrow IPC stream of a view, as it is now."""
        text = name.encode()
        written = self._own().lv_write(self._handle, text, len(text))
        need(written.cause)
        buffer = bytearray(written.len)
        self._library.lv_copy(self._handle, 0, address_of(buffer), len(buffer))
        return bytes(buffer)

    def table(self, name: str) -> pyarrow.Table:
        """A view as a table of pyarrow, which must be installed."""
        import pyarrow.ipc

        return pyarrow.ipc.open_stream(self.view(name)).read_all()

    @property
    def live_rows(self) -> int:
        """The number of live rows of the main table."""
        return self._open().lv_live_rows(self._handle)

    @property
    def stale(self) -> int:
        """How many views are stale: memory for keeping them current was refused since they were written last."""
        return self._open().lv_stale(self._handle)

    @property
    def visits(self) -> int:
        """How often a stored row of the main table was opened."""
        return self._open().lv_visits(self._handle)

    def close(self) -> None:
        """Closes the session and frees its memory. A closed session may be closed again."""
        self._own().lv_close(self._handle)

    def _own(self) -> ctypes.CDLL:
        """The library, for a call on the session's own thread."""
        if threading.get_ident() != self._thread:
            raise RuntimeError("a session is used on the thread that opened it")
        return self._library

    def _open(self) -> ctypes.CDLL:
        """The library, for a call that answers a number alone."""
        if not self._handle.is_open:
            raise Refused(NOT_OPEN)
        return self._own()

    def _push_bytes(self, feed: str, data: bytes, before: int, events: list[Event]) -> None:
        """Pushes bytes, behind so many others of the same call, and adds the messages that they complete to `events`."""
        name, at, used = feed.encode(), ctypes.cast(data, ctypes.c_void_p).value, 0
        while True:
            pushed = self._own().lv_push(self._handle, name, len(name), at + used, len(data) - used)
            used += pushed.used
            if pushed.cause:
                raise Refused(pushed.cause, used=before + used, rest=data[used:], events=events)
            if pushed.event:
                events.append(Event(pushed.event))
            if used == len(data):
                return


def place_of_fault(config: bytes) -> str | None:
    """Where a configuration is refused, as far as that can be told."""
    buffer = bytearray(PIECE)
    told = library().lv_find_fault(config, len(config), address_of(buffer), len(buffer))
    return buffer[:told].decode(errors="replace") or None


def address_of(buffer: bytearray) -> int:
    """Where the bytes of a buffer lie, as long as it is there and isn't resized. It must have some."""
    return ctypes.addressof((ctypes.c_char * len(buffer)).from_buffer(buffer))


def recast(data: bytes | bytearray | memoryview | BinaryIO) -> bytes:
    """The canonical stream of the table that a whole Arrow IPC stream has."""
    stream = data.read() if hasattr(data, "read") else bytes(data)
    room = PIECE + 2 * len(stream)
    while True:
        buffer = bytearray(room)
        written = library().lv_recast(stream, len(stream), address_of(buffer), room)
        need(written.cause)
        if written.len <= room:
            return bytes(memoryview(buffer)[: written.len])
        room = written.len
