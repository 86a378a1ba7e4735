"""A file in parts that can be read apart: where they begin is never guessed.

A file is cut into blocks of about one size. The cut of a block is moved to behind the next line end. Each block is then summarised on its
own: in which state a scan ends that enters it at the start of an item, and in which state one that enters it inside an open quoted field.
Composed from the front, the summaries tell the state at each cut (docs/pieces.md, "States"). A *range* runs from a cut at the start of an
item to the next such cut, so each range is whole records, and can be read by itself.
"""

from __future__ import annotations

import ctypes
import dataclasses
import hashlib
import os
from collections.abc import Sequence
from typing import NamedTuple, Union

import numpy

from . import _library
from .errors import CsvError, RecordError
from .frame import Frame
from .reading import schema_in, start_in
from .words import ReadOptions, schema_of, schema_word

START, OPEN = 0, 1

# How much of a file is looked at first for its schema, and how much at a time for the next line end.
_HEAD = 1 << 16
_STEP = 1 << 16


class ChangedFileError(OSError):
    """A file is not what it was when it was summarised."""


class BlockSummary(NamedTuple):
    """What a block tells of itself.

    start, end: its offsets in the file, the end behind its last byte.
    from_start, from_open: the state behind it, by the state in front of it.
    digest: of its bytes.
    """

    start: int
    end: int
    from_start: int
    from_open: int
    digest: bytes


class Range(NamedTuple):
    """Whole records of a file: its offsets, and the blocks in it, as (start, end, digest)."""

    start: int
    end: int
    blocks: tuple[tuple[int, int, bytes], ...]


@dataclasses.dataclass(frozen=True)
class Layout:
    """What is known of a file before its rows are read.

    path, size: where it lies, and how many bytes it has.
    schema: the text of its schema.
    start: the offset at which its data begins.
    options: how it is read.
    """

    path: str
    size: int
    schema: str
    start: int
    options: ReadOptions

    def cuts(self, block_size: int) -> list[tuple[int, int]]:
        """Returns the blocks of the data, of this size, before their cuts are moved to line ends; one at least."""
        starts = range(self.start, max(self.size, self.start + 1), block_size)
        return [(it, min(it + block_size, self.size)) for it in starts]


def read_bytes(path: str, start: int, end: int) -> numpy.ndarray:
    """Returns the bytes of a file between two offsets, fewer where it ends before."""
    return numpy.fromfile(path, "u1", max(0, end - start), offset=start)


def layout_of(path: Union[str, "os.PathLike[str]"], options: ReadOptions) -> Layout:
    """Looks at the head of a file: for its schema, where none is given, and for where its data begins.

    More of the file is looked at until all items that types are inferred from are in what was seen.
    """
    path, size = os.fspath(path), os.path.getsize(path)
    length = _HEAD
    while True:
        head = read_bytes(path, 0, min(length, size))
        if length >= size:
            return Layout(path, size, schema_in(head, options), start_in(head, options), options)
        try:
            layout = Layout(path, size, schema_in(head, options), start_in(head, options), options)
            if _sample_is_whole(head, layout):
                return layout
        except CsvError:
            # what is cut off may be what is missing
            pass
        length *= 4


def _sample_is_whole(head: numpy.ndarray, layout: Layout) -> bool:
    """Returns whether more records than types are inferred from stand in the head of a file, so that the cut one is not among them."""
    options = layout.options
    sample: Union[int, None] = options.infer_schema_length if options.schema is None and options.infer_schema else 0
    return sample is not None and count_in(head[layout.start :], layout) > sample + 1


def moved(path: str, at: int, eol_char: str) -> int:
    """Returns the offset behind the first line end that stands at or after the byte before this one; the file's size without one."""
    at, eol = at - 1, ord(eol_char)
    with open(path, "rb") as file:
        file.seek(at)
        while True:
            step = file.read(_STEP)
            if not step:
                return at
            found = step.find(eol)
            if found >= 0:
                return at + found + 1
            at += len(step)


def summarize(layout: Layout, start: int, end: int) -> BlockSummary:
    """Summarises a block of a file: its cuts are moved to line ends first."""
    summary, data = load(layout, start, end)
    return summary._replace(digest=digest_of(data))


def load(layout: Layout, start: int, end: int) -> tuple[BlockSummary, numpy.ndarray]:
    """Reads a block of a file, its cuts moved to line ends, and gives what it tells of itself, without a digest, and its bytes."""
    eol = layout.options.eol_char
    from_at = start if start == layout.start else moved(layout.path, start, eol)
    to_at = max(from_at, end if end >= layout.size else moved(layout.path, end, eol))
    data = read_bytes(layout.path, from_at, to_at)
    if len(data) != to_at - from_at:
        raise ChangedFileError(f"pl_csv: {layout.path} is shorter than it was")
    view = _library.SummaryView(START, OPEN)
    if len(data) and data[-1] == ord(eol):
        words = _library.Words(layout.options.dialect_words())
        _library.call("pl_csv_summarize", *_library.input_of(data, words), ctypes.byref(view))
    return BlockSummary(from_at, to_at, view.from_start, view.from_open, b""), data


def check_follows(layout: Layout, at: int, summary: BlockSummary) -> None:
    """Raises ChangedFileError where a block does not begin where the one before it ended."""
    if summary.start != at:
        raise ChangedFileError(f"pl_csv: {layout.path} was changed at the offset {min(at, summary.start)}")


def digest_of(data: numpy.ndarray) -> bytes:
    """Returns a digest by which a change of bytes is seen."""
    return hashlib.blake2b(data, digest_size=16).digest()


def ranges_of(summaries: Sequence[BlockSummary]) -> list[Range]:
    """Returns the range that begins with each block, in their order; one without bytes for a block that another's range has.

    The summaries stand in the order of their blocks. They are composed from the front: behind the first block stands what it tells of a
    scan that enters at the start of an item.
    """
    state, ranges, first, held = START, [], 0, []
    for place, it in enumerate(summaries):
        if state == START and place:
            ranges += _range(held, place - first)
            first, held = place, []
        held.append((it.start, it.end, it.digest))
        state = it.from_open if state == OPEN else it.from_start
    return ranges + _range(held, len(summaries) - first)


def _range(blocks: list[tuple[int, int, bytes]], count: int) -> list[Range]:
    """Returns a range of blocks, and an empty one for each of them but the first."""
    if not blocks:
        return []
    end = blocks[-1][1]
    return [Range(blocks[0][0], end, tuple(blocks)), *(Range(end, end, ()) for _ in range(count - 1))]


def data_of(layout: Layout, part: Range) -> numpy.ndarray:
    """Returns the bytes of a range. Raises ChangedFileError where they are not what was summarised."""
    data = read_bytes(layout.path, part.start, part.end)
    if os.path.getsize(layout.path) != layout.size or len(data) != part.end - part.start:
        raise ChangedFileError(f"pl_csv: {layout.path} has not the size that it had")
    for start, end, digest in part.blocks:
        if digest_of(data[start - part.start : end - part.start]) != digest:
            raise ChangedFileError(f"pl_csv: {layout.path} was changed between the offsets {start} and {end}")
    return data


def read_rows(data: numpy.ndarray, layout: Layout, skip: int = 0, length: int = (1 << 63) - 1) -> Frame:
    """Reads records of a part: those from number `skip` on, at most `length`. A fault tells a record's number in the part."""
    words, view = _library.Words(layout.options.part_words(layout.schema)), _library.FrameView()
    _library.call("pl_csv_read_part", *_library.input_of(data, words), skip, length, ctypes.byref(view))
    return Frame(view)


def count_in(data: numpy.ndarray, layout: Layout) -> int:
    """Returns how many records a part has. No cell is judged: one column alone is looked at, as texts that may be anything."""
    texts = ",".join(f"{name}:string" for name in schema_of(layout.schema))
    options = dataclasses.replace(
        layout.options, columns=[0], null_values=None, encoding="utf8-lossy", ignore_errors=True, truncate_ragged_lines=True
    )
    return read_rows(data, dataclasses.replace(layout, schema=texts, options=options)).height


def first_fault(layout: Layout, ranges: Sequence[Range], place: int, fault: RecordError) -> RecordError:
    """Returns the least fault of a file, where the range at this place has one: those before it are read again.

    Its record is numbered from the first of the file.
    """
    before = 0
    for part in ranges[:place]:
        data = data_of(layout, part)
        try:
            before += read_rows(data, layout).height
        except RecordError as earlier:
            return earlier.moved(before)
    return fault.moved(before)


def with_schema(options: ReadOptions, schema: str) -> ReadOptions:
    """Returns the options under a schema that is settled."""
    return dataclasses.replace(options, schema=schema_word(schema), schema_overrides=None)
