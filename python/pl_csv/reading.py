"""Whole inputs: read into a frame, looked at for their schema, counted."""

from __future__ import annotations

import ctypes
import os
from typing import IO, Any, Union

import numpy

from . import _library
from .frame import Frame
from .words import ReadOptions, schema_of

Source = Union[str, "os.PathLike[str]", bytes, bytearray, memoryview, IO[bytes]]
"""A path, bytes, or a file that was opened for bytes."""


def bytes_of(source: Source) -> numpy.ndarray:
    """Returns the bytes of a source, as an array that is not copied where the source is bytes already."""
    if isinstance(source, (str, os.PathLike)):
        return numpy.fromfile(os.fspath(source), "u1") if os.path.isfile(source) else _read(open(source, "rb"))
    if hasattr(source, "read"):
        return numpy.frombuffer(source.read(), "u1")
    return numpy.frombuffer(source, "u1")


def _read(file: IO[bytes]) -> numpy.ndarray:
    with file:
        return numpy.frombuffer(file.read(), "u1")


def read_csv(source: Source, **options: Any) -> Frame:
    """Reads CSV into a frame, by one thread; the lock of Python is let go meanwhile.

    source: a path, bytes, or a file opened for bytes.
    options: the fields of `ReadOptions`, which are arguments of `polars.read_csv` where they mean the same:

    has_header: whether the first record is a header (True).
    columns: the names of the columns that are read, or their places from 0 (all).
    separator, quote_char, eol_char, comment_prefix: how records are cut; quote_char=None: fields are not quoted.
    skip_lines, skip_rows, skip_rows_after_header: what is skipped at the head, before the header and after it (0).
    schema: names and types, as a mapping or as a text "name:type,..", in place of inferred ones.
    schema_overrides: types by name in place of inferred ones, or a list of types of the first columns.
    infer_schema, infer_schema_length, try_parse_dates: whether types are inferred (True), from how many items (100; None: all), and
        whether dates are (False).
    null_values: a text, several, or a text by column that mean null.
    missing_utf8_is_empty_string, ignore_errors, truncate_ragged_lines, raise_if_empty, encoding: as Polars has them.
    n_rows: at most how many rows.
    row_index_name, row_index_offset: a column of row numbers in front.

    Raises the errors of `pl_csv.errors` where the input is refused, OSError where the source can't be read, and ValueError or TypeError
    where an argument can't be.
    """
    return read_with(bytes_of(source), ReadOptions(**options))


def read_with(data: numpy.ndarray, options: ReadOptions) -> Frame:
    """Reads bytes into a frame."""
    words, view = _library.Words(options.words()), _library.FrameView()
    _library.call("pl_csv_read", *_library.input_of(data, words), ctypes.byref(view))
    return Frame(view)


def read_csv_schema(source: Source, **options: Any) -> dict[str, str]:
    """Returns the columns that `read_csv` would read by: a type's word by each name, in order. The arguments are those of `read_csv`.

    Raises what `read_csv` does, but no fault of a record; and `InvalidOperationError` where a name holds a comma or a colon, which the text of a
    schema can't tell.
    """
    return schema_of(schema_in(bytes_of(source), ReadOptions(**options)))


def schema_in(data: numpy.ndarray, options: ReadOptions) -> str:
    """Returns the text of an input's schema."""
    words, text = _library.Words(options.words()), _library.BytesView()
    _library.call("pl_csv_schema", *_library.input_of(data, words), ctypes.byref(text))
    return _library.taken_bytes(text).decode()


def start_in(data: numpy.ndarray, options: ReadOptions) -> int:
    """Returns the offset at which the data of an input begins."""
    words, start = _library.Words(options.words()), ctypes.c_size_t()
    _library.call("pl_csv_data_start", *_library.input_of(data, words), ctypes.byref(start))
    return start.value


def count_rows(source: Source, **options: Any) -> int:
    """Returns how many rows an input has, without reading their cells. Of the arguments of `read_csv` those have a meaning that tell how
    records are cut, and whether there is a header; nothing is skipped."""
    given = ReadOptions(**options)
    words, rows = _library.Words([*given.dialect_words(), *([] if given.has_header else ["--no-header"])]), ctypes.c_size_t()
    _library.call("pl_csv_count_rows", *_library.input_of(bytes_of(source), words), ctypes.byref(rows))
    return rows.value
