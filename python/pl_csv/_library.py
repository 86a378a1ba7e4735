"""The calls of libpl_csv, as ctypes sees them: the structures and arguments of c/pl_csv.h, and no meaning of their own."""

from __future__ import annotations

import ctypes
import ctypes.util
import os
import pathlib
from ctypes import POINTER, Structure, byref, c_bool, c_int64, c_size_t, c_uint8, c_uint32, c_uint64, c_void_p

import numpy

from .errors import error_of


class Text(Structure):
    """A text: where it lies, and how many bytes it has."""

    _fields_ = [("at", c_void_p), ("len", c_size_t)]


class Column(Structure):
    """A column: a name, a type, and the arrays that the type has."""

    _fields_ = [
        ("name", Text),
        ("type", c_uint32),
        ("unit", c_uint32),
        ("precision", c_uint32),
        ("scale", c_uint32),
        ("present", POINTER(c_bool)),
        ("present_len", c_size_t),
        ("numbers", POINTER(c_int64)),
        ("numbers_len", c_size_t),
        ("words", POINTER(c_uint64)),
        ("words_len", c_size_t),
        ("ends", POINTER(c_size_t)),
        ("ends_len", c_size_t),
        ("bytes", POINTER(c_uint8)),
        ("bytes_len", c_size_t),
        ("categories", POINTER(Text)),
        ("categories_len", c_size_t),
        ("null_count", c_size_t),
    ]


class FrameView(Structure):
    """A frame that the library made, and where its columns lie."""

    _fields_ = [("handle", c_void_p), ("columns", POINTER(Column)), ("width", c_size_t), ("height", c_size_t)]


class BytesView(Structure):
    """Bytes that the library made."""

    _fields_ = [("handle", c_void_p), ("at", c_void_p), ("len", c_size_t)]


class SummaryView(Structure):
    """In which state a scan ends, by the state in front of the piece: 0 start, 1 open."""

    _fields_ = [("from_start", c_uint8), ("from_open", c_uint8)]


# How many bytes of a fault line are kept.
_ROOM = 4096

_INPUT = [c_void_p, c_size_t, POINTER(Text), c_size_t]
_FAULT = [c_void_p, c_size_t, POINTER(c_size_t)]
_CALLS = {
    "pl_csv_count_rows": (c_uint32, [*_INPUT, POINTER(c_size_t), *_FAULT]),
    "pl_csv_schema": (c_uint32, [*_INPUT, POINTER(BytesView), *_FAULT]),
    "pl_csv_data_start": (c_uint32, [*_INPUT, POINTER(c_size_t), *_FAULT]),
    "pl_csv_read": (c_uint32, [*_INPUT, POINTER(FrameView), *_FAULT]),
    "pl_csv_read_part": (c_uint32, [*_INPUT, c_size_t, c_size_t, POINTER(FrameView), *_FAULT]),
    "pl_csv_summarize": (c_uint32, [*_INPUT, POINTER(SummaryView), *_FAULT]),
    "pl_csv_compose": (None, [POINTER(SummaryView), POINTER(SummaryView), POINTER(SummaryView)]),
    "pl_csv_write": (c_uint32, [POINTER(Column), c_size_t, POINTER(Text), c_size_t, POINTER(BytesView), *_FAULT]),
    "pl_csv_free_frame": (None, [c_void_p]),
    "pl_csv_free_bytes": (None, [c_void_p]),
    "pl_csv_shared_new": (c_void_p, [c_void_p]),
    "pl_csv_shared_drop": (None, [c_void_p]),
    "pl_csv_arrow_array_new": (c_void_p, [POINTER(FrameView), c_void_p]),
    "pl_csv_arrow_array_free": (None, [c_void_p]),
    "pl_csv_arrow_schema_new": (c_void_p, [POINTER(FrameView)]),
    "pl_csv_arrow_schema_free": (None, [c_void_p]),
}


def _path() -> str:
    """Returns where the library lies: at PL_CSV_LIBRARY, beside this module, or where the system has it."""
    given = os.environ.get("PL_CSV_LIBRARY")
    if given:
        return given
    beside = pathlib.Path(__file__).with_name("libpl_csv.so")
    if beside.is_file():
        return str(beside)
    found = ctypes.util.find_library("pl_csv")
    if found:
        return found
    raise ImportError("pl_csv: there is no libpl_csv.so: install the wheel or the package libpl-csv, or set PL_CSV_LIBRARY to its path")


def _load() -> ctypes.CDLL:
    library = ctypes.CDLL(_path())
    for name, (result, arguments) in _CALLS.items():
        call = getattr(library, name)
        call.restype, call.argtypes = result, arguments
    return library


library = _load()

# An address that may stand where there are no bytes, as the library asks for one.
_nothing = ctypes.create_string_buffer(8)


def address_of(array: numpy.ndarray) -> int:
    """Returns where an array's memory lies; of an empty one, an address that is not null."""
    return array.ctypes.data if array.size else ctypes.addressof(_nothing)


class Words:
    """Words of the command line, as the library takes them. They are kept as long as this object."""

    def __init__(self, words: list[str]):
        self._kept = [ctypes.create_string_buffer(it.encode(), max(1, len(it.encode()))) for it in words]
        texts = [Text(ctypes.addressof(kept), len(word.encode())) for kept, word in zip(self._kept, words)]
        self.count = len(words)
        self.texts = (Text * max(1, len(texts)))(*texts)


class _Fault:
    """Room for a fault line."""

    def __init__(self):
        self.line = ctypes.create_string_buffer(_ROOM)
        self.length = c_size_t(0)

    def arguments(self):
        return ctypes.addressof(self.line), _ROOM, byref(self.length)

    def text(self) -> str:
        return self.line.raw[: min(self.length.value, _ROOM)].decode("utf-8", "replace")


def call(name: str, *arguments) -> None:
    """Calls one of the library's functions that have a status and a fault line, and raises what it refuses."""
    fault = _Fault()
    status = getattr(library, name)(*arguments, *fault.arguments())
    if status:
        raise error_of(status, fault.text())


def input_of(source: numpy.ndarray, words: Words) -> tuple:
    """Returns the four arguments that tell an input and the words for it."""
    return address_of(source), source.size, words.texts, words.count


def taken_bytes(view: BytesView) -> bytes:
    """Returns the bytes that the library made, and frees them there."""
    try:
        return ctypes.string_at(view.at, view.len)
    finally:
        library.pl_csv_free_bytes(view.handle)
