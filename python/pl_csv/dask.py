"""Files read by a cluster: a Dask data frame whose partitions are ranges of whole records (docs/cluster.md).

Without an index there are two steps, both on the cluster. A task for each block summarises it from both states. The summaries, a few
bytes each, are composed. Then a task for each range reads it. With an index the places are known, and there is one step.
"""

from __future__ import annotations

import dataclasses
import glob
import os
import re
from collections.abc import Sequence
from typing import Any, Union

import numpy

import dask
import dask.dataframe

from . import indices, parts
from .errors import RecordError
from .words import ReadOptions

_UNITS = {"": 1, "B": 1, "KB": 10**3, "MB": 10**6, "GB": 10**9, "KIB": 1 << 10, "MIB": 1 << 20, "GIB": 1 << 30}

Path = Union[str, "os.PathLike[str]"]


def _size_of(given: Union[int, str]) -> int:
    """Returns a number of bytes, which may be told as "64MB" or "64MiB"."""
    if isinstance(given, int) and given > 0:
        return given
    found = re.fullmatch(r"(\d+) ?([A-Za-z]*)", str(given))
    if not found or found[2].upper() not in _UNITS or int(found[1]) == 0:
        raise ValueError(f"pl_csv: blocksize is {given!r}, and has to be a number of bytes such as 64000000 or '64MB'")
    return int(found[1]) * _UNITS[found[2].upper()]


@dataclasses.dataclass(frozen=True)
class _File:
    """A file of a read: how it lies, and how its ranges become pandas' frames."""

    layout: parts.Layout
    decimals: str
    row_index: Union[str, None]

    def summary(self, start: int, end: int) -> parts.BlockSummary:
        return parts.summarize(self.layout, start, end)

    def count(self, ranges: Sequence[parts.Range], place: int) -> int:
        """Returns how many records the range at a place has."""
        part = ranges[place]
        return parts.count_in(parts.data_of(self.layout, part), self.layout) if part.end > part.start else 0

    def read(self, ranges: Sequence[parts.Range], place: int, before: Union[int, None] = None) -> Any:
        """Returns the range at a place as a pandas frame, with row numbers where it is told how many rows stand before it."""
        data = parts.data_of(self.layout, ranges[place])
        try:
            frame = parts.read_rows(data, self.layout).to_pandas(self.decimals, nullable=True)
        except RecordError as fault:
            raise parts.first_fault(self.layout, ranges, place, fault) from None
        if self.row_index is not None:
            frame.insert(0, self.row_index, numpy.arange(before, before + len(frame), dtype="uint64"))
        return frame

    def empty(self) -> Any:
        """Returns the pandas frame of no rows."""
        return self.read([parts.Range(0, 0, ())], 0, 0)


def _before(counts: Sequence[int], offset: int) -> list[int]:
    """Returns for each range how many rows stand before it, from an offset on."""
    sums = [offset]
    for it in counts:
        sums.append(sums[-1] + it)
    return sums


def _indexed_ranges(layout: parts.Layout, index: indices.Index, block_size: int) -> list[parts.Range]:
    """Returns ranges of about one size that begin at places of an index."""
    places = indices.checked_places(index, layout)
    cuts = [places[0]]
    for it in places[1:]:
        if it - cuts[-1] >= block_size or it == layout.size:
            cuts.append(it)
    return [parts.Range(start, end, ()) for start, end in zip(cuts, cuts[1:])] or [parts.Range(layout.size, layout.size, ())]


def _plan(file: _File, block_size: int, index: Union[indices.Index, None]) -> tuple[Any, int]:
    """Returns the ranges of a file, to be computed, and how many there are."""
    if index is not None:
        ranges = _indexed_ranges(file.layout, index, block_size)
        return dask.delayed(ranges), len(ranges)
    blocks = file.layout.cuts(block_size)
    summary = dask.delayed(file.summary, pure=False)
    return dask.delayed(parts.ranges_of)([summary(*it) for it in blocks]), len(blocks)


def read_csv(
    paths: Union[Path, Sequence[Path]],
    schema: Any = None,
    blocksize: Union[int, str] = "64MB",
    index: Union[Path, Sequence[Path], None] = None,
    decimals: str = "exact",
    **options: Any,
) -> "dask.dataframe.DataFrame":
    """Returns a Dask data frame of files whose partitions are ranges of whole records, wherever line ends are quoted.

    paths: a file, a pattern such as "sales-*.csv", or several; their rows follow one another. Each worker must be able to open them.
    schema: names and types; without it they are inferred from the head of the first file, and hold for all.
    blocksize: about how many bytes a partition has. Where a record is longer, a partition is longer, and those after it are empty.
    index: what `pl_csv seek build` wrote for each file. Without it the blocks are summarised on the cluster first.
    decimals: "exact" or "float", as in `pl_csv.Frame.to_pandas`.
    options: those of `pl_csv.read_csv`, but n_rows. With row_index_name the rows are numbered over all files.

    The frame is for every blocksize, and every number and order of tasks, the pandas frame of `pl_csv.read_csv` with nullable types
    (`to_pandas(nullable=True)`). Raises what that does, at once where the head of a file is refused. A task raises the least fault of its file, by its record's number there, and
    `ChangedFileError` where the bytes are not those that were summarised.
    """
    given = ReadOptions(schema=schema, **options)
    if given.n_rows is not None:
        raise ValueError("pl_csv: n_rows has no meaning here: take the head of the frame")
    names = _names(paths)
    wanted = [None] * len(names) if index is None else [index] if isinstance(index, (str, os.PathLike)) else list(index)
    if len(wanted) != len(names):
        raise ValueError(f"pl_csv: {len(wanted)} indices are given for {len(names)} files")
    return _frame_of(_files(names, given, decimals), wanted, _size_of(blocksize), given.row_index_offset)


def _names(paths: Union[Path, Sequence[Path]]) -> list[Path]:
    """Returns the paths, those of a pattern in the order of their names."""
    names: list[Path] = []
    for it in [paths] if isinstance(paths, (str, os.PathLike)) else paths:
        is_pattern = glob.has_magic(os.fspath(it)) and not os.path.exists(it)
        names += sorted(glob.glob(os.fspath(it))) if is_pattern else [it]
    if not names:
        raise FileNotFoundError(f"pl_csv: there is no file at {paths!r}")
    return names


def _files(names: Sequence[Path], given: ReadOptions, decimals: str) -> list[_File]:
    """Returns the files, all under the schema of the first."""
    row_index, given = given.row_index_name, dataclasses.replace(given, row_index_name=None)
    first = parts.layout_of(os.path.abspath(names[0]), given)
    settled = parts.with_schema(given, first.schema)
    layouts = [first, *(parts.layout_of(os.path.abspath(it), settled) for it in names[1:])]
    return [_File(it, decimals, row_index) for it in layouts]


def _frame_of(files: Sequence[_File], wanted: Sequence[Any], block_size: int, offset: int) -> "dask.dataframe.DataFrame":
    plans = [_plan(file, block_size, it and indices.read_index(it)) for file, it in zip(files, wanted)]
    tasks = [(file, ranges, place) for file, (ranges, count) in zip(files, plans) for place in range(count)]
    if files[0].row_index is None:
        frames = [dask.delayed(file.read, pure=False)(ranges, place) for file, ranges, place in tasks]
    else:
        counts = [dask.delayed(file.count, pure=False)(ranges, place) for file, ranges, place in tasks]
        before = dask.delayed(_before)(counts, offset)
        frames = [dask.delayed(file.read, pure=False)(ranges, place, before[it]) for it, (file, ranges, place) in enumerate(tasks)]
    return dask.dataframe.from_delayed(frames, meta=files[0].empty(), verify_meta=False)
