"""Frames, and what can be taken for one, written as CSV."""

from __future__ import annotations

import ctypes
import datetime
import decimal
import os
from collections.abc import Mapping, Sequence
from typing import IO, Any, Union

import numpy

from . import _library
from .frame import _TYPES, _UNITS, Frame
from .words import WriteOptions, type_word

_PLACES = {name: place for place, name in enumerate(_TYPES)}
_EMPTY = {"present": "|b1", "numbers": "<i8", "words": "<u8", "ends": "<u8", "bytes": "|u1"}
_INTEGERS = {f"{'u' if kind == 'u' else ''}int{8 * size}" for kind in "iu" for size in (1, 2, 4, 8)}


class _Given:
    """A column to be written: its type, and its arrays, which are kept until the library has read them."""

    def __init__(self, name: str, dtype: str, **arrays: numpy.ndarray):
        self.name, self.dtype = name, dtype
        self.arrays = {it: numpy.ascontiguousarray(arrays.get(it, ()), kind) for it, kind in _EMPTY.items()}
        self.categories: list[str] = []

    def view(self, column: _library.Column) -> list:
        """Fills the library's structure, and returns what has to be kept as long as that is used."""
        name, *details = self.dtype.split("/")
        column.type = _PLACES[name]
        if name == "datetime":
            column.unit = _UNITS.index(details[0])
        if name == "decimal":
            column.precision, column.scale = (0 if details[0] == "-" else int(details[0])), int(details[1])
        kept = [_library.Words([self.name]), _library.Words(self.categories)]
        column.name = kept[0].texts[0]
        for field, array in self.arrays.items():
            kind = dict(_library.Column._fields_)[field]
            setattr(column, field, ctypes.cast(_library.address_of(array), kind))
            setattr(column, f"{field}_len", array.size)
        column.categories, column.categories_len = ctypes.cast(kept[1].texts, ctypes.POINTER(_library.Text)), kept[1].count
        return kept


def _strings(name: str, cells: Sequence[Union[str, None]]) -> _Given:
    parts = [b"" if it is None else it.encode() for it in cells]
    ends = numpy.zeros(len(parts) + 1, "u8")
    numpy.cumsum([len(it) for it in parts], out=ends[1:])
    present = numpy.array([it is not None for it in cells], bool)
    return _Given(name, "string", present=present, ends=ends, bytes=numpy.frombuffer(b"".join(parts), "u1"))


def _wide_words(numbers: Sequence[Union[int, None]]) -> numpy.ndarray:
    whole = b"".join((it or 0).to_bytes(16, "little", signed=True) for it in numbers)
    return numpy.frombuffer(whole, "<u8")


def _decimals(name: str, cells: Sequence[Union[decimal.Decimal, None]], dtype: Union[str, None]) -> _Given:
    if dtype is None:
        dtype = f"decimal/-/{max((-it.as_tuple().exponent for it in cells if it is not None), default=0)}"
    scale = int(dtype.split("/")[2])
    numbers = [None if it is None else int(it.scaleb(scale, decimal.Context(prec=80))) for it in cells]
    return _Given(name, dtype, present=numpy.array([it is not None for it in cells], bool), words=_wide_words(numbers))


def _instants(name: str, array: numpy.ndarray, dtype: Union[str, None]) -> _Given:
    """Returns dates, datetimes and times of numpy's own types."""
    present = ~numpy.isnat(array)
    unit = numpy.datetime_data(array.dtype)[0]
    if array.dtype.kind == "m":
        array, dtype = array.astype("timedelta64[ns]"), "time"
    elif dtype is None:
        dtype = "date" if unit == "D" else f"datetime/{unit if unit in _UNITS else 'us'}"
    if dtype.startswith("datetime/"):
        array = array.astype(f"datetime64[{dtype[-2:]}]")
    elif dtype == "date":
        array = array.astype("datetime64[D]")
    numbers = numpy.where(present, array.view("<i8"), 0)
    if dtype != "datetime/ns":
        return _Given(name, dtype, present=present, numbers=numbers)
    words = numpy.stack([numbers, numbers >> 63], 1).astype("<i8").view("<u8").ravel()
    return _Given(name, dtype, present=present, words=words)


def _categories(name: str, codes: numpy.ndarray, texts: Sequence[str]) -> _Given:
    present = numpy.asarray(codes) >= 0
    used, places = numpy.unique(numpy.asarray(codes)[present], return_index=True)
    order = used[numpy.argsort(places)]
    place_of = numpy.zeros(len(texts) + 1, "i8")
    place_of[order] = numpy.arange(len(order))
    given = _Given(name, "category", present=present, numbers=numpy.where(present, place_of[codes], 0))
    given.categories = [texts[it] for it in order]
    return given


def _coded(name: str, cells: list, dtype: str, texts: list[str]) -> _Given:
    """Returns texts as places among categories."""
    place_of = {text: place for place, text in enumerate(texts)}
    if any(it is not None and it not in place_of for it in cells):
        raise ValueError(f"pl_csv: column {name!r} has a text that is none of {dtype}")
    numbers = numpy.array([place_of.get(it, 0) for it in cells], "i8")
    given = _Given(name, dtype, present=numpy.array([it is not None for it in cells], bool), numbers=numbers)
    given.categories = texts
    return given


def _numbers(name: str, array: numpy.ndarray, dtype: Union[str, None], present: numpy.ndarray) -> _Given:
    kind = "boolean" if array.dtype.kind == "b" else array.dtype.name
    dtype = dtype or kind
    if dtype not in ("uint64", "int128"):
        return _Given(name, dtype, present=present, numbers=numpy.where(present, array, 0))
    array = numpy.where(present, array, 0)
    high = array >> 63 if array.dtype.kind == "i" else numpy.zeros(len(array), "u8")
    return _Given(name, dtype, present=present, words=numpy.stack([array.astype("<u8"), high.astype("<u8")], 1).ravel())


def _of_objects(name: str, cells: list, dtype: Union[str, None]) -> _Given:
    """Returns a column of Python's own values, None at a null. Its type is that of the first value, or the one that is given."""
    first = next((it for it in cells if it is not None), None)
    present = numpy.array([it is not None for it in cells], bool)
    if dtype == "null" or (dtype is None and first is None):
        return _Given(name, "null", present=present)
    if isinstance(first, decimal.Decimal):
        return _decimals(name, cells, dtype)
    if isinstance(first, (str, type(None))) and dtype in (None, "string"):
        return _strings(name, cells)
    if isinstance(first, datetime.time):
        day = datetime.date(1970, 1, 1)
        cells = [None if it is None else datetime.datetime.combine(day, it) for it in cells]
        numbers = numpy.array(cells, "datetime64[us]").view("<i8") * 1000
        return _Given(name, "time", present=present, numbers=numpy.where(present, numbers, 0))
    if isinstance(first, datetime.date):
        unit = "us" if isinstance(first, datetime.datetime) else "D"
        return _instants(name, numpy.array(cells, f"datetime64[{unit}]"), dtype)
    if isinstance(first, str) and dtype == "category":
        return _coded(name, cells, dtype, list(dict.fromkeys(it for it in cells if it is not None)))
    if isinstance(first, str) and dtype.startswith("enum/"):
        return _coded(name, cells, dtype, dtype.split("/")[1:])
    if isinstance(first, str):
        raise TypeError(f"pl_csv: column {name!r} has texts, and can't be of {dtype}")
    if isinstance(first, numpy.datetime64):
        return _instants(name, numpy.array([numpy.datetime64("NaT") if it is None else it for it in cells]), dtype)
    if isinstance(first, int) and max((abs(it) for it in cells if it is not None), default=0) >= 2**63:
        return _Given(name, dtype or "int128", present=present, words=_wide_words(cells))
    array = numpy.array([0 if it is None else it for it in cells], "?" if isinstance(first, bool) else "i8")
    return _numbers(name, array, dtype, present)


def _column(name: str, cells: Any, dtype: Union[str, None]) -> _Given:
    """Returns what a sequence, a numpy array or a pandas series holds as a column."""
    kind = getattr(cells, "dtype", None)
    if str(kind) == "category":
        return _categories(name, cells.cat.codes.to_numpy(), [str(it) for it in cells.cat.categories])
    if hasattr(cells, "isna") and str(kind) in ("boolean", "Int8", "Int16", "Int32", "Int64", "UInt8", "UInt16", "UInt32", "UInt64"):
        present = ~cells.isna().to_numpy()
        return _numbers(name, cells.to_numpy(str(kind).lower().replace("boolean", "bool"), na_value=0), dtype, present)
    if hasattr(cells, "isna"):
        return _column(name, cells.to_numpy(), dtype) if kind != object else _of_objects(name, [*cells.where(cells.notna(), None)], dtype)
    array = cells if isinstance(cells, numpy.ndarray) else None
    if array is not None and array.dtype.kind in "mM":
        return _instants(name, array, dtype)
    if array is not None and array.dtype.kind in "biu":
        return _numbers(name, array, dtype, numpy.ones(len(array), bool))
    if array is not None and array.dtype.kind not in "OUS":
        raise TypeError(f"pl_csv: column {name!r} is of {array.dtype}, and there are no columns of that: make it whole, decimal or text")
    return _of_objects(name, array.tolist() if array is not None else list(cells), dtype)


def write_csv(
    data: Any,
    file: Union[str, "os.PathLike[str]", IO[bytes], None] = None,
    *,
    schema: Union[Mapping[str, Any], None] = None,
    **options: Any,
) -> Union[bytes, None]:
    """Writes a frame as CSV.

    data: a `Frame`, a pandas data frame, or a mapping from names to numpy arrays or sequences of Python's own values.
    file: a path or a file opened for bytes; without one the bytes are returned.
    schema: types by name, where they are to be others than those that the data tells.
    options: the fields of `WriteOptions`, named as in `polars.DataFrame.write_csv`: include_bom, include_header, separator,
        line_terminator, quote_char, null_value, quote_style ("necessary", "always", "non_numeric", "never").

    Raises TypeError where a column has no type here (floats have none), and the errors of `pl_csv.errors` where columns don't fit
    together.
    """
    text = data._written(WriteOptions(**options)) if isinstance(data, Frame) else _written(data, schema or {}, WriteOptions(**options))
    if file is None:
        return text
    if hasattr(file, "write"):
        file.write(text)
    else:
        with open(file, "wb") as opened:
            opened.write(text)
    return None


def _written(data: Any, schema: Mapping[str, Any], options: WriteOptions) -> bytes:
    names = [str(it) for it in data.keys()]
    given = [_column(name, data[key], type_word(schema[name]) if name in schema else None) for name, key in zip(names, data.keys())]
    columns = (_library.Column * max(1, len(given)))()
    kept = [it.view(columns[place]) for place, it in enumerate(given)]
    words, text = _library.Words(options.words()), _library.BytesView()
    _library.call("pl_csv_write", columns, len(given), words.texts, words.count, ctypes.byref(text))
    del kept
    return _library.taken_bytes(text)
