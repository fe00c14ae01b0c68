"""The calls of liblinnetshelf by ctypes, as linnetshelf.h declares them.

Each call keeps the interpreter's lock, since most take less time than it takes to release it. So no two threads are in a
call on one handle at once. A thread can close a handle while another is about to call it: so a handle that is closed holds
something of the other kind from then on, and each call on it returns WRONG_KIND.
"""
from __future__ import annotations

import ctypes
import ctypes.util
import os
import pathlib
import sys
from collections.abc import Callable

from .errors import ERRORS, LinnetshelfError, Status


class Handle(ctypes.Structure):
    _fields_ = [("at", ctypes.c_void_p)]


class RawSettings(ctypes.Structure):
    _fields_ = [
        ("epoch", ctypes.c_uint64),
        ("cells", ctypes.c_uint32),
        ("index_count", ctypes.c_uint32),
        ("index_spacing", ctypes.c_uint32),
        ("cycles", ctypes.c_uint32),
        ("roll", ctypes.c_uint32),
    ]


class Answer(ctypes.Structure):
    _fields_ = [("index", ctypes.c_uint64), ("length", ctypes.c_uint32), ("status", ctypes.c_uint32)]


class Many(ctypes.Structure):
    _fields_ = [("index", ctypes.c_uint64), ("count", ctypes.c_uint64), ("length", ctypes.c_uint32), ("status", ctypes.c_uint32)]


class Call(ctypes.Structure):
    _fields_ = [("place", ctypes.c_uint64), ("length", ctypes.c_uint64), ("kind", ctypes.c_uint32), ("status", ctypes.c_uint32)]


_HANDLE, _SETTINGS = ctypes.POINTER(Handle), ctypes.POINTER(RawSettings)
_BYTES, _SIZE, _WORD, _LONG, _BOOL = ctypes.c_void_p, ctypes.c_size_t, ctypes.c_uint32, ctypes.c_uint64, ctypes.c_bool

# The type of the result, and those of the arguments.
CALLS = {
    "create": (_WORD, _SETTINGS, _BYTES, _SIZE, _LONG, _HANDLE),
    "split": (_WORD, _HANDLE, _HANDLE),
    "meet": (_WORD, _HANDLE, _HANDLE),
    "destroy": (None, Handle),
    "append": (Answer, _HANDLE, _LONG, _BYTES, _SIZE),
    "append_many": (Many, _HANDLE, _LONG, _BYTES, _SIZE, _BYTES, _SIZE),
    "begin": (_WORD, _HANDLE, _LONG, _WORD),
    "put": (_WORD, _HANDLE, _BYTES, _SIZE),
    "complete": (Answer, _HANDLE),
    "roll_back": (_WORD, _HANDLE),
    "advance": (Answer, _HANDLE, _LONG),
    "close": (_WORD, _HANDLE),
    "next": (Answer, _HANDLE, _BYTES, _SIZE),
    "next_many": (Many, _HANDLE, _BYTES, _SIZE, _BYTES, _SIZE),
    "peek": (Answer, _HANDLE),
    "read_at": (Answer, _HANDLE, _LONG, _BYTES, _SIZE),
    "direction": (_WORD, _HANDLE, _WORD),
    "move_to": (_WORD, _HANDLE, _LONG),
    "to_start": (_WORD, _HANDLE),
    "to_end": (Answer, _HANDLE),
    "end": (Answer, _HANDLE),
    "cursor": (Answer, _HANDLE),
    "drop_before": (Answer, _HANDLE, _WORD),
    "take": (Answer, _HANDLE, _BYTES, _SIZE, _BYTES, _SIZE),
    "position": (Answer, _HANDLE, _BYTES, _SIZE),
    "seek": (Answer, _HANDLE, _BYTES, _SIZE, _LONG, _LONG),
    "cycle_of": (Answer, _WORD, _LONG, _LONG),
    "cycle_name": (Answer, _WORD, _LONG, _WORD, _BYTES, _SIZE),
    "cycle_named": (Answer, _WORD, _LONG, _BYTES, _SIZE),
    "stop": (_WORD, _HANDLE),
    "snapshot": (_WORD, _HANDLE, _HANDLE),
    "saved_count": (Answer, _HANDLE),
    "saved_cycle": (Answer, _HANDLE, _WORD),
    "saved_length": (Answer, _HANDLE, _WORD),
    "saved_ended": (Answer, _HANDLE, _WORD),
    "saved_image": (Answer, _HANDLE, _WORD, _BYTES, _SIZE),
    "saved_position": (Answer, _HANDLE, _WORD),
    "saved_floor": (Answer, _HANDLE),
    "saved_new": (_WORD, _SETTINGS, _BYTES, _SIZE, _HANDLE),
    "saved_add": (Answer, _HANDLE, _WORD, _BYTES, _SIZE),
    "saved_set_position": (_WORD, _HANDLE, _WORD, _LONG),
    "saved_set_floor": (_WORD, _HANDLE, _WORD),
    "open": (_WORD, _HANDLE, _HANDLE),
    "play": (Answer, _HANDLE, _BYTES, _SIZE),
    "keep": (_WORD, _HANDLE, _HANDLE, _HANDLE),
    "turn": (_WORD, _HANDLE),
    "log_call": (Call, _HANDLE, _BYTES, _SIZE),
    "log_done": (_WORD, _HANDLE, _BOOL),
    "stored": (Answer, _HANDLE),
    "text": (_SIZE, _WORD, _BYTES, _SIZE),
    "version": (_WORD,),
    "size": (_SIZE, _WORD),
}


def _path() -> str:
    """Returns where the library is: as LINNETSHELF_LIBRARY says, next to this file, or where the system looks."""
    given = os.environ.get("LINNETSHELF_LIBRARY")
    packed = pathlib.Path(__file__).with_name("liblinnetshelf.so")
    found = given or (str(packed) if packed.exists() else ctypes.util.find_library("linnetshelf"))
    if not found:
        raise ImportError("liblinnetshelf.so is not found: install it, or set LINNETSHELF_LIBRARY to its path")
    return found


class Library:
    """The calls, as attributes."""

    def __init__(self, path: str) -> None:
        library = ctypes.PyDLL(path)
        for name, (result, *arguments) in CALLS.items():
            function = getattr(library, f"linnetshelf_{name}", None)
            if function is None:
                raise ImportError(f"{path} is an earlier version of the library: it has no linnetshelf_{name}")
            function.restype, function.argtypes = result, arguments
            setattr(self, name, function)
        structs = {0: Handle, 1: RawSettings, 2: Answer, 5: Call, 6: Many}
        if any(self.size(which) != ctypes.sizeof(struct) for which, struct in structs.items()):
            raise ImportError(f"{path} is another version of the library")


if not getattr(sys, "_is_gil_enabled", lambda: True)():
    raise ImportError("linnetshelf needs the interpreter's lock, which keeps threads out of each other's calls")
library = Library(_path())


def text_of(status: int) -> str:
    """Returns the library's text of a status."""
    room = ctypes.create_string_buffer(128)
    length = library.text(status, room, len(room))
    return room.raw[:length].decode()


def error_of(status: int, detail: str = "") -> LinnetshelfError:
    """Returns the exception for a status."""
    known = Status(status)
    text = text_of(status)
    return ERRORS.get(known, LinnetshelfError)(f"{text} ({detail})" if detail else text, known)


def check(status: int, detail: str = "") -> None:
    """Raises the exception for a status, unless the call is done."""
    if status == Status.WRONG_KIND:
        raise ValueError("it is closed")
    if status != Status.DONE:
        raise error_of(status, detail)


def number(value: int, bits: int, status: Status) -> int:
    """Returns a number that has at most this number of bits. Others would be cut off, and raise the exception for a status."""
    if not 0 <= value < 1 << bits:
        raise error_of(status, str(value))
    return value


def _made(call: Callable[[Handle], int]) -> Handle:
    out = Handle()
    check(call(out))
    return out


# What closed handles hold: an endpoint that is closed holds what is saved of this queue, and the other way round.
_SMALL = RawSettings(0, 31, 8, 1, 1, 0)
NO_ENDPOINT = _made(lambda out: library.saved_new(_SMALL, b"", 0, out))
NO_SAVED = _made(lambda out: library.create(_SMALL, b"", 0, 0, out))
