"""The index of a file, as `pl_csv seek build` writes it (docs/index.md): at which offset every k-th record begins."""

from __future__ import annotations

import dataclasses
import os
import struct
from typing import Union

from .parts import ChangedFileError, Layout
from .words import ReadOptions

_MAGIC = b"PLSEEK1\n"


@dataclasses.dataclass(frozen=True)
class Index:
    """Where groups of records begin in a file.

    digest: of the whole file, by SHA-256.
    separator, quote, line_end, has_header, keeps_ends, skips, comment: the settings that it was built with.
    every: how many records are a group.
    records: how many records the file has.
    places: where each group begins.
    """

    digest: bytes
    separator: int
    quote: Union[int, None]
    line_end: int
    has_header: bool
    keeps_ends: bool
    skips: tuple[int, int, int]
    comment: bytes
    every: int
    records: int
    places: tuple[int, ...]

    def is_of(self, options: ReadOptions) -> bool:
        """Returns whether it was built with the settings of these options."""
        quote = None if options.quote_char is None else ord(options.quote_char)
        marks = (ord(options.separator), quote, ord(options.eol_char), options.has_header)
        skips = (options.skip_rows, options.skip_lines, options.skip_rows_after_header)
        comment = (options.comment_prefix or "").encode()
        return (self.separator, self.quote, self.line_end, self.has_header) == marks and (self.skips, self.comment) == (skips, comment)


def read_index(path: Union[str, "os.PathLike[str]"]) -> Index:
    """Reads an index. Raises ValueError where the bytes are none."""
    with open(path, "rb") as file:
        data = file.read()
    if data[:8] != _MAGIC:
        raise ValueError(f"pl_csv: {os.fspath(path)} is no index")
    try:
        return _parsed(data)
    except (struct.error, IndexError):
        raise ValueError(f"pl_csv: {os.fspath(path)} is a part of an index") from None


def _parsed(data: bytes) -> Index:
    digest, separator, has_quote, quote, line_end, has_header, keeps_ends = struct.unpack_from(">32s6B", data, 8)
    *skips, length = struct.unpack_from(">4Q", data, 46)
    comment = data[78 : 78 + length]
    every, records = struct.unpack_from(">2Q", data, 78 + length)
    count = -(-records // every) if every else -1
    places = struct.unpack_from(f">{count}Q", data, 94 + length)
    if len(data) != 94 + length + 8 * count:
        raise IndexError
    flags = (bool(has_header), bool(keeps_ends))
    return Index(digest, separator, quote if has_quote else None, line_end, *flags, tuple(skips), comment, every, records, places)


def checked_places(index: Index, layout: Layout) -> list[int]:
    """Returns the offsets at which an index says that groups of records begin, and the file's size behind them.

    Raises ChangedFileError where the index can't be of this file as it is read: its settings are others, or a place is outside the data.
    """
    places = [*index.places, layout.size]
    if not index.is_of(layout.options):
        raise ChangedFileError("pl_csv: the index was built with other settings than these options")
    if index.places and index.places[0] < layout.start or any(it >= after for it, after in zip(places, places[1:])):
        raise ChangedFileError(f"pl_csv: the index is not of {layout.path} as it is now")
    return places
