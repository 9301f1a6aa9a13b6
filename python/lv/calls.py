"""The calls of liblv, as include/lv.h declares them."""
from __future__ import annotations

import ctypes
import ctypes.util
import os
from functools import cache
from typing import TYPE_CHECKING

from lv.causes import CAUSES

if TYPE_CHECKING:
    from collections.abc import Sequence

    from lv.session import Event

NOT_OPEN = 255


class Handle(ctypes.Structure):
    """A session as C keeps it: made of zeros, it isn't open."""

    _fields_ = [("at", ctypes.c_void_p), ("is_open", ctypes.c_bool)]


class Pushed(ctypes.Structure):
    _fields_ = [("used", ctypes.c_size_t), ("cause", ctypes.c_uint8), ("event", ctypes.c_uint8)]


class Written(ctypes.Structure):
    _fields_ = [("len", ctypes.c_uint64), ("cause", ctypes.c_uint8)]


HANDLE, BYTES, BUFFER, SIZE = ctypes.POINTER(Handle), ctypes.c_char_p, ctypes.c_void_p, ctypes.c_size_t
# The result and the parameters of each call. Bytes are only read, and given with their length.
CALLS = {
    "lv_open": (ctypes.c_uint8, HANDLE, BYTES, SIZE),
    "lv_push": (Pushed, HANDLE, BYTES, SIZE, BUFFER, SIZE),
    "lv_finish": (ctypes.c_uint8, HANDLE, BYTES, SIZE),
    "lv_undo": (ctypes.c_uint8, HANDLE),
    "lv_write": (Written, HANDLE, BYTES, SIZE),
    "lv_copy": (SIZE, HANDLE, SIZE, BUFFER, SIZE),
    "lv_live_rows": (SIZE, HANDLE),
    "lv_stale": (SIZE, HANDLE),
    "lv_visits": (ctypes.c_uint64, HANDLE),
    "lv_close": (None, HANDLE),
    "lv_recast": (Written, BYTES, SIZE, BUFFER, SIZE),
    "lv_find_fault": (SIZE, BYTES, SIZE, BUFFER, SIZE),
}


class Refused(Exception):
    """A call was refused. `cause` is the number of the cause, and `name` its name. Of a configuration `place` has the keys
    of the part that is refused, as `view.totals.order`, or the line at which it stops being TOML.

    Of a push `used` says how many bytes were consumed all the same, `rest` has the bytes that weren't, as far as they
    were read of a file, and `events` the messages that were completed before."""

    def __init__(
        self, cause: int, *, place: str | None = None, used: int = 0, rest: bytes = b"", events: Sequence[Event] = ()
    ) -> None:
        name, text = CAUSES.get(cause, ("NotOpen", "the session isn't open"))
        super().__init__(f"refused {cause} {name}: {text}" + (f" ({place})" if place else ""))
        self.cause, self.name, self.place = cause, name, place
        self.used, self.rest, self.events = used, rest, [*events]


@cache
def library() -> ctypes.CDLL:
    """The shared library with the types of its calls."""
    path = os.environ.get("LV_LIBRARY") or ctypes.util.find_library("lv")
    if path is None:
        raise OSError("liblv isn't installed: build it by `make lib`, and let LV_LIBRARY name the file liblv.so")
    loaded = ctypes.CDLL(path)
    for name, (result, *words) in CALLS.items():
        call = getattr(loaded, name)
        call.restype, call.argtypes = result, words
    return loaded


def need(cause: int) -> None:
    """Raises the refusal of a cause, where it is one."""
    if cause:
        raise Refused(cause)
