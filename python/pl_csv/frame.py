"""Frames and their columns, shown as numpy arrays without a copy."""

from __future__ import annotations

import ctypes
import datetime
import decimal
import functools
import weakref
from collections.abc import Iterator
from typing import TYPE_CHECKING, Any, NamedTuple, Union

import numpy

from . import _library
from .words import WriteOptions

if TYPE_CHECKING:
    import pandas

_TYPES = (
    "boolean int8 int16 int32 int64 int128 uint8 uint16 uint32 uint64 string category enum date time datetime decimal null"
).split()
_UNITS = ("ms", "us", "ns")
_EPOCH = datetime.datetime(1970, 1, 1)
_FLOATS = ("exact", "float")

# The numbers of a type as numpy has them, where they are no plain whole numbers.
_NUMBERS = {"date": numpy.dtype("<M8[D]"), "time": numpy.dtype("<m8[ns]")}
_INSTANTS = [numpy.dtype(f"<M8[{unit}]") for unit in _UNITS]

_FLAG, _BYTE, _INT64, _UINT64 = (numpy.dtype(it) for it in ("|b1", "|u1", "<i8", "<u8"))


class _Owner:
    """Owns what the library made for a frame, and frees it once: when nothing shows it any more."""

    def __init__(self, view: _library.FrameView):
        self.view = view
        self.shared = _library.library.pl_csv_shared_new(view.handle)
        if not self.shared:
            _library.library.pl_csv_free_frame(view.handle)
            raise MemoryError
        self._freed = weakref.finalize(self, _library.library.pl_csv_shared_drop, self.shared)


class _Held:
    """Memory of the library, as numpy asks for it. The numpy array keeps this, and this the owner."""

    __slots__ = ("owner", "__array_interface__")

    def __init__(self, owner: _Owner, at: int, count: int):
        self.owner = owner
        self.__array_interface__ = {"version": 3, "typestr": "|u1", "shape": (count,), "data": (at, True)}


class _Memory:
    """The memory from the first array of a frame to the last. Arrays are cut out of it: to ask numpy for each takes several times as long.

    What lies between them is not the frame's, and is not looked at.

    owner: of the memory, kept as long as this or an array.
    """

    __slots__ = ("owner", "_start", "_bytes")

    def __init__(self, owner: _Owner, start: int, end: int):
        self.owner, self._start = owner, start
        self._bytes = memoryview(numpy.asarray(_Held(owner, start, end - start)))

    def array(self, at: int, shape: tuple[int, ...], kind: numpy.dtype) -> numpy.ndarray:
        """Returns the array of this shape at an address, which can't be written."""
        if shape[0]:
            return numpy.ndarray(shape, kind, self._bytes, at - self._start)
        array = numpy.empty(shape, kind)
        array.flags.writeable = False
        return array


class _View(NamedTuple):
    """A column's structure as plain numbers, word by word, as c/pl_csv.h lays it out: ctypes would take a microsecond for each field."""

    name: int
    name_len: int
    type_and_unit: int
    precision_and_scale: int
    present: int
    present_len: int
    numbers: int
    numbers_len: int
    words: int
    words_len: int
    ends: int
    ends_len: int
    bytes: int
    bytes_len: int
    categories: int
    categories_len: int
    null_count: int

    @property
    def unit(self) -> int:
        return self.type_and_unit >> 32

    @property
    def precision(self) -> int:
        return self.precision_and_scale & 0xFFFFFFFF

    @property
    def scale(self) -> int:
        return self.precision_and_scale >> 32


# How many bytes an item has of the arrays `present` to `bytes`.
_SIZES = numpy.array([1, 8, 8, 8, 1], _UINT64)


def _laid_out(view: _library.FrameView) -> numpy.ndarray:
    """Returns the structures of a frame's columns, a row of words each."""
    count = len(_View._fields)
    assert ctypes.sizeof(_library.Column) == 8 * count
    if not view.width:
        return numpy.empty((0, count), _UINT64)
    words = ctypes.cast(view.columns, ctypes.POINTER(ctypes.c_uint64))
    return numpy.ctypeslib.as_array(words, (view.width, count))


def _memory_of(owner: _Owner, words: numpy.ndarray) -> _Memory:
    """Returns the memory that the arrays of these columns lie in."""
    first = _View._fields.index("present")
    starts, counts = words[:, first : first + 2 * len(_SIZES) : 2], words[:, first + 1 : first + 2 * len(_SIZES) : 2]
    used = counts > 0
    if not used.any():
        return _Memory(owner, 0, 0)
    return _Memory(owner, int(starts[used].min()), int((starts + counts * _SIZES)[used].max()))


def _texts_at(at: int, count: int) -> list[str]:
    texts = ctypes.cast(at, ctypes.POINTER(_library.Text))
    return [ctypes.string_at(texts[it].at, texts[it].len).decode() for it in range(count)]


def _type_word(view: _View, name: str) -> str:
    """Returns a column's type as a word of docs/command-line.md."""
    if name == "datetime":
        return f"datetime/{_UNITS[view.unit]}"
    if name == "decimal":
        return f"decimal/{view.precision or '-'}/{view.scale}"
    if name == "enum":
        return "/".join(["enum", *_texts_at(view.categories, view.categories_len)])
    return name


class Column:
    """A column of a frame: a name, a type, values, and which of them are there.

    name: its name.
    dtype: its type, as docs/command-line.md has it ("int64", "decimal/10/2").
    present: an array of `bool`, False at each null.
    null_count: the number of nulls.
    categories: the texts of a column of categories, else an empty list.
    """

    __slots__ = ("_memory", "_view", "_kind", "_all_there", "null_count", "_name", "_dtype", "_categories", "_present")

    def __init__(self, memory: _Memory, view: _View, all_there: list[numpy.ndarray]):
        self._memory, self._view, self._kind = memory, view, _TYPES[view.type_and_unit & 0xFFFFFFFF]
        self.null_count = view.null_count
        # the flags of a column without nulls, once there are some; the frame's columns share the list
        self._all_there = all_there
        # what is made when it is first asked for
        self._name: Union[str, None] = None
        self._dtype: Union[str, None] = None
        self._categories: Union[list[str], None] = None
        self._present: Union[numpy.ndarray, None] = None

    @property
    def name(self) -> str:
        if self._name is None:
            self._name = ctypes.string_at(self._view.name, self._view.name_len).decode()
        return self._name

    @property
    def dtype(self) -> str:
        if self._dtype is None:
            self._dtype = _type_word(self._view, self._kind)
        return self._dtype

    @property
    def categories(self) -> list[str]:
        if self._categories is None:
            self._categories = _texts_at(self._view.categories, self._view.categories_len)
        return self._categories

    @property
    def present(self) -> numpy.ndarray:
        if self._present is None:
            self._present = self._flags()
        return self._present

    def _flags(self) -> numpy.ndarray:
        """Returns which cells are there. Of columns without nulls all flags are set, so those of a frame share one array."""
        if not self.null_count and self._all_there:
            return self._all_there[0]
        flags = self._memory.array(self._view.present, (self._view.present_len,), _FLAG)
        if not self.null_count:
            self._all_there.append(flags)
        return flags

    def __len__(self) -> int:
        return self._view.present_len

    @property
    def values(self) -> numpy.ndarray:
        """The values, without a copy wherever numpy has the type; a null is 0 there.

        Whole numbers: `int64`, and `uint64` of a column of `uint64`. Booleans: `bool`, a copy. Dates: `datetime64[D]`. Datetimes:
        `datetime64[ms]`, `[us]`, and `[ns]` as a copy. Times: nanoseconds of the day, `timedelta64[ns]`. Categories: places in
        `categories`, `int64`. Decimals and `int128`: an array of two `uint64` a row, the low one first, in two's complement. Texts have
        no such array: see `ends`, `data` and `to_list`.

        Raises OverflowError where a datetime in nanoseconds is outside what numpy can tell (1677 to 2262).
        """
        kind, view = self._kind, self._view
        if kind in ("decimal", "int128"):
            return self.words
        if kind == "uint64":
            return self.words[:, 0]
        if kind == "datetime" and view.unit == 2:
            return _nanoseconds(self.words)
        if kind in ("string", "null"):
            raise TypeError(f"pl_csv: column {self.name!r} of {self.dtype} has no array of values: see to_list, ends and data")
        numpy_kind = _INSTANTS[view.unit] if kind == "datetime" else _NUMBERS.get(kind, _INT64)
        numbers = self._memory.array(view.numbers, (view.numbers_len,), numpy_kind)
        return numbers.astype(bool) if kind == "boolean" else numbers

    @property
    def words(self) -> numpy.ndarray:
        """The values of a wide column as two `uint64` a row, the low one first."""
        return self._memory.array(self._view.words, (self._view.words_len // 2, 2), _UINT64)

    @property
    def ends(self) -> numpy.ndarray:
        """Where texts end: row k of a column of strings is `data[ends[k] : ends[k + 1]]`."""
        return self._memory.array(self._view.ends, (self._view.ends_len,), _INT64)

    @property
    def data(self) -> numpy.ndarray:
        """The bytes of all texts of a column of strings, in UTF-8."""
        return self._memory.array(self._view.bytes, (self._view.bytes_len,), _BYTE)

    def __array__(self, dtype: Any = None) -> numpy.ndarray:
        if self._kind in ("string", "category", "enum", "decimal", "int128", "null"):
            array = numpy.empty(len(self), object)
            array[:] = self.to_list()
            return array if dtype is None else array.astype(dtype)
        return self.values if dtype is None else self.values.astype(dtype)

    def to_list(self) -> list:
        """Returns the cells as Python's own values, None at a null: bool, int, str, date, time, datetime, Decimal."""
        cells = self._cells()
        if self.null_count:
            cells = [cell if there else None for cell, there in zip(cells, self.present.tolist())]
        return cells

    def _cells(self) -> list:
        """Returns the cells, and anything at a null."""
        if self._kind == "null":
            return [None] * len(self)
        if self._kind == "string":
            return _texts(self.data.tobytes(), self.ends.tolist())
        if self._kind in ("category", "enum"):
            texts = self.categories or [""]
            return [texts[it] for it in self.values.tolist()]
        if self._kind in ("decimal", "int128"):
            wide = _wide(self.words)
            return [_scaled(it, self._view.scale) for it in wide] if self._kind == "decimal" else wide
        if self._kind == "time":
            return [_time(it) for it in self.values.view("<i8").tolist()]
        if self._kind in ("date", "datetime"):
            return self._days_or_instants()
        return self.values.tolist()

    def _days_or_instants(self) -> list:
        """Returns dates or datetimes; what Python's own can't tell (the year 0, nanoseconds) as `numpy.datetime64`."""
        if self._kind == "datetime" and self._view.unit == 2:
            return list(_nanoseconds(self.words))
        cells = self.values.tolist()
        if any(isinstance(it, int) for it in cells):
            return [numpy.datetime64(it, numpy.datetime_data(self.values.dtype)[0]) if isinstance(it, int) else it for it in cells]
        return cells

    def to_numpy(self, decimals: str = "exact") -> numpy.ndarray:
        """Returns one array of the cells, without a copy where there are no nulls and numpy has the type.

        Nulls: whole numbers, times and booleans with nulls become `float64` with NaN, dates and datetimes `NaT`, others `None` in an array
        of objects.
        decimals: "exact" gives objects of `decimal.Decimal`, "float" an array of `float64`.
        """
        if self._kind == "decimal" and _checked(decimals) == "float":
            return self._floats()
        if self._kind in ("string", "category", "enum", "decimal", "int128", "null"):
            return self.__array__()
        if not self.null_count:
            return self.values
        missing = ~self.present
        if self._kind in ("date", "datetime", "time"):
            values = self.values.copy()
            values[missing] = numpy.array("NaT", values.dtype)
            return values
        values = self.values.astype("float64")
        values[missing] = numpy.nan
        return values

    def _floats(self) -> numpy.ndarray:
        """Returns decimals as the nearest floats, NaN at a null."""
        words = self.words
        low, high = words[:, 0], words[:, 1].view("<i8")
        narrow = (high == 0) & (low < 2**53) | (high == -1) & (low > 2**64 - 2**53)
        if narrow.all():
            values = low.view("<i8").astype("float64") / 10.0**self._view.scale
        else:
            values = numpy.array([float(_scaled(it, self._view.scale)) for it in _wide(words)], "float64")
        if self.null_count:
            values[~self.present] = numpy.nan
        return values

    def to_pandas(self, decimals: str = "exact", nullable: bool = False) -> "pandas.Series":
        """Returns a pandas series: whole numbers and booleans of pandas' nullable types where there are nulls, else of numpy's; dates and
        datetimes as `datetime64[ns]` where they all fit, else objects; categories as `category`; texts as objects.

        decimals: "exact" gives objects of `decimal.Decimal`, "float" `float64`.
        nullable: whole numbers and booleans are of the nullable types also where there are no nulls, so that the types of parts agree.
        """
        import pandas

        values = self._pandas_values(pandas, _checked(decimals), nullable or self.null_count > 0)
        return pandas.Series(values, name=self.name, copy=False)

    def _pandas_values(self, pandas: Any, decimals: str, nullable: bool) -> Any:
        if self._kind in ("category", "enum"):
            codes = self.values if not self.null_count else numpy.where(self.present, self.values, -1)
            return pandas.Categorical.from_codes(codes, self.categories, ordered=self._kind == "enum")
        if self._kind == "boolean" and nullable:
            return pandas.arrays.BooleanArray(self.values, ~self.present)
        if self._kind.startswith(("int", "uint")) and self._kind != "int128" and nullable:
            values = self.values
            return pandas.arrays.IntegerArray(values if values.flags.c_contiguous else values.copy(), ~self.present)
        if self._kind in ("date", "datetime"):
            return self._pandas_instants()
        return self.to_numpy(decimals)

    def _pandas_instants(self) -> Any:
        values = self.to_numpy()
        years = values[~numpy.isnat(values)].astype("datetime64[Y]").astype("int64") + 1970
        if years.size and (years.min() < 1678 or years.max() > 2261):
            cells = numpy.empty(len(self), object)
            cells[:] = self.to_list()
            return cells
        return values.astype("datetime64[ns]")

    def __repr__(self) -> str:
        return f"Column({self.name!r}, {self.dtype}, {len(self)} rows, {self.null_count} nulls)"


def _checked(decimals: str) -> str:
    if decimals not in _FLOATS:
        raise ValueError(f"pl_csv: decimals is {decimals!r}, and has to be 'exact' or 'float'")
    return decimals


def _texts(data: bytes, ends: list[int]) -> list[str]:
    if data.isascii():
        text = data.decode("ascii")
        return [text[start:end] for start, end in zip(ends, ends[1:])]
    return [data[start:end].decode() for start, end in zip(ends, ends[1:])]


def _wide(words: numpy.ndarray) -> list[int]:
    """Returns numbers of 128 bits."""
    lows, highs = words[:, 0].tolist(), words[:, 1].view("<i8").tolist()
    return [(high << 64) + low for low, high in zip(lows, highs)]


def _scaled(number: int, scale: int) -> decimal.Decimal:
    return decimal.Decimal((number < 0, tuple(int(it) for it in str(abs(number))), -scale))


def _nanoseconds(words: numpy.ndarray) -> numpy.ndarray:
    low, high = words[:, 0].view("<i8"), words[:, 1].view("<i8")
    if not (high == (low >> 63)).all() or (low == numpy.iinfo("int64").min).any():
        raise OverflowError("pl_csv: a datetime in nanoseconds is outside what numpy can tell (1677 to 2262): read it as datetime/us")
    return low.copy().view("datetime64[ns]")


def _time(nanoseconds: int) -> datetime.time:
    """Returns a time of the day, cut to microseconds, which is what Python's own can tell."""
    return (_EPOCH + datetime.timedelta(microseconds=nanoseconds // 1000)).time()


class Frame:
    """A frame: columns of one height, each with a name of its own.

    height, width: the number of rows, and of columns.

    It owns memory of the library, which is given back when neither the frame nor any array of it is used any more.
    """

    def __init__(self, view: _library.FrameView):
        self._owner = _Owner(view)
        self.height, self.width = view.height, view.width

    @functools.cached_property
    def _listed(self) -> list[Column]:
        words, all_there = _laid_out(self._owner.view), []
        memory = _memory_of(self._owner, words)
        return [Column(memory, view, all_there) for view in map(_View._make, words.tolist())]

    @functools.cached_property
    def _columns(self) -> dict[str, Column]:
        return {it.name: it for it in self._listed}

    @property
    def columns(self) -> list[str]:
        """The names, in order."""
        return list(self._columns)

    @property
    def dtypes(self) -> dict[str, str]:
        """The type of each column by its name."""
        return {name: it.dtype for name, it in self._columns.items()}

    @property
    def shape(self) -> tuple[int, int]:
        """The number of rows and of columns."""
        return self.height, self.width

    def __len__(self) -> int:
        return self.height

    def __iter__(self) -> Iterator[Column]:
        return iter(self._listed)

    def __getitem__(self, name: Union[str, int]) -> Column:
        """Returns the column of a name, or at a place.

        Raises KeyError where no column has the name, and IndexError where there is none at the place.
        """
        if isinstance(name, str):
            return self._columns[name]
        return self._listed[name]

    def __contains__(self, name: object) -> bool:
        return name in self._columns

    def to_dict(self) -> dict[str, list]:
        """Returns the cells of each column as Python's own values."""
        return {name: it.to_list() for name, it in self._columns.items()}

    def to_numpy(self, decimals: str = "exact") -> dict[str, numpy.ndarray]:
        """Returns an array for each column (`Column.to_numpy`)."""
        return {name: it.to_numpy(decimals) for name, it in self._columns.items()}

    def to_pandas(self, decimals: str = "exact", nullable: bool = False) -> "pandas.DataFrame":
        """Returns a pandas data frame (`Column.to_pandas`)."""
        import pandas

        if not self._columns:
            return pandas.DataFrame(index=range(self.height))
        return pandas.DataFrame({name: it.to_pandas(decimals, nullable) for name, it in self._columns.items()}, copy=False)

    def __arrow_c_array__(self, requested_schema: Any = None) -> tuple:
        """Returns the frame as two capsules of Arrow's C data interface, an array of structs, for whoever reads that (pyarrow, polars,
        duckdb). Whole numbers of 64 bits, times, decimals and texts are shown without a copy."""
        from . import arrow

        return arrow.capsules(self._owner)

    def to_arrow(self) -> Any:
        """Returns a record batch of pyarrow, by Arrow's C data interface. Raises ImportError without pyarrow."""
        import pyarrow

        return pyarrow.record_batch(self)

    def write_csv(self, file: Any = None, **options: Any) -> Union[bytes, None]:
        """Writes the frame as CSV: see `pl_csv.write_csv`."""
        from .writing import write_csv

        return write_csv(self, file, **options)

    def _written(self, options: WriteOptions) -> bytes:
        """Returns the text of the frame."""
        words, text, view = _library.Words(options.words()), _library.BytesView(), self._owner.view
        _library.call("pl_csv_write", view.columns, view.width, words.texts, words.count, ctypes.byref(text))
        return _library.taken_bytes(text)

    def __repr__(self) -> str:
        listed = ", ".join(f"{name}: {it.dtype}" for name, it in self._columns.items())
        return f"Frame({self.height} rows; {listed})"
