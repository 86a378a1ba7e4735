"""Frames by Arrow's C data interface. The structures are filled in C (c/pl_csv_arrow.c); this module puts them into capsules."""

from __future__ import annotations

import ctypes
from typing import Any

from . import _library

# Functions of our own over Python's, as others may have told ctypes other arguments for theirs.
_new = ctypes.PYFUNCTYPE(ctypes.py_object, ctypes.c_void_p, ctypes.c_char_p, ctypes.c_void_p)(("PyCapsule_New", ctypes.pythonapi))
_pointer = ctypes.PYFUNCTYPE(ctypes.c_void_p, ctypes.c_void_p, ctypes.c_char_p)(("PyCapsule_GetPointer", ctypes.pythonapi))

_SCHEMA, _ARRAY = b"arrow_schema", b"arrow_array"


@ctypes.PYFUNCTYPE(None, ctypes.c_void_p)
def _free_schema(capsule: int) -> None:
    _library.library.pl_csv_arrow_schema_free(_pointer(capsule, _SCHEMA))


@ctypes.PYFUNCTYPE(None, ctypes.c_void_p)
def _free_array(capsule: int) -> None:
    _library.library.pl_csv_arrow_array_free(_pointer(capsule, _ARRAY))


def capsules(owner: Any) -> tuple:
    """Returns a frame's schema and array as capsules.

    Raises OverflowError where a value is outside what Arrow's type can tell: a datetime in nanoseconds outside 64 bits, a number of 128
    bits of more than 38 digits.
    """
    view = ctypes.byref(owner.view)
    schema = _library.library.pl_csv_arrow_schema_new(view)
    if not schema:
        raise MemoryError
    kept = _new(schema, _SCHEMA, ctypes.cast(_free_schema, ctypes.c_void_p))
    array = _library.library.pl_csv_arrow_array_new(view, owner.shared)
    if not array:
        raise OverflowError("pl_csv: a value is outside what Arrow's type can tell, or memory ran out")
    return kept, _new(array, _ARRAY, ctypes.cast(_free_array, ctypes.c_void_p))
