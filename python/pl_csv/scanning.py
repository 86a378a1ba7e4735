"""Files read in parts, by threads of the host. ctypes lets go of Python's lock, so parts are read side by side."""

from __future__ import annotations

import collections
import concurrent.futures
import os
from collections.abc import Iterator
from typing import Any, Union

import numpy

from . import parts
from .errors import RecordError
from .frame import Frame
from .words import ReadOptions, schema_of


class Scan:
    """A file that is read in parts of whole records, each as large as is asked. Nothing of its rows is read before it is asked for.

    schema: a type's word by each name, in order.
    """

    def __init__(self, path: Union[str, "os.PathLike[str]"], part_size: int, options: ReadOptions):
        if part_size < 1:
            raise ValueError(f"pl_csv: part_size is {part_size}, and has to be at least 1")
        if options.row_index_name is not None or options.n_rows is not None:
            raise ValueError("pl_csv: a scan has neither row_index_name nor n_rows: its parts come in the order of the file, and can be counted")
        self._layout, self._part_size = parts.layout_of(path, options), part_size

    @property
    def schema(self) -> dict[str, str]:
        return schema_of(self._layout.schema)

    def _ranges(self, pool: concurrent.futures.Executor, ahead: int) -> Iterator[numpy.ndarray]:
        """Gives the bytes of each range, in order. Blocks are read and summarised by the pool, so many ahead; each byte is read once."""
        blocks = iter(self._layout.cuts(self._part_size))
        loading: collections.deque = collections.deque()
        state, held, at = parts.START, [], self._layout.start
        while True:
            while len(loading) < ahead and (block := next(blocks, None)):
                loading.append(pool.submit(parts.load, self._layout, *block))
            if not loading:
                break
            summary, data = loading.popleft().result()
            parts.check_follows(self._layout, at, summary)
            if state == parts.START and held:
                yield held[0] if len(held) == 1 else numpy.concatenate(held)
                held = []
            if len(data):
                held.append(data)
            at, state = summary.end, summary.from_open if state == parts.OPEN else summary.from_start
        if held:
            yield held[0] if len(held) == 1 else numpy.concatenate(held)

    def frames(self, threads: Union[int, None] = None) -> Iterator[Frame]:
        """Gives the frame of each part, in the order of the file; joined they are the frame of `read_csv`.

        threads: how many parts are read side by side (the processor's number). Twice as many are kept ahead of what is taken.

        Raises what `read_csv` does: the least fault of the file, with its record's number in the whole, when its part's turn comes; and
        ChangedFileError where the file is seen to change meanwhile.
        """
        threads = threads or os.cpu_count() or 1
        before = 0
        with concurrent.futures.ThreadPoolExecutor(threads) as pool:
            ranges, reading = self._ranges(pool, 2 * threads), collections.deque()
            try:
                while True:
                    while len(reading) < 2 * threads and (data := next(ranges, None)) is not None:
                        reading.append(pool.submit(parts.read_rows, data, self._layout))
                    if not reading:
                        break
                    try:
                        frame = reading.popleft().result()
                    except RecordError as fault:
                        raise fault.moved(before) from None
                    before += frame.height
                    yield frame
            finally:
                for it in reading:
                    it.cancel()

    def __iter__(self) -> Iterator[Frame]:
        return self.frames()


def scan_csv(path: Union[str, "os.PathLike[str]"], *, part_size: int = 8 << 20, **options: Any) -> Scan:
    """Looks at a file that is to be read in parts, by threads.

    path: the file.
    part_size: about how many bytes a part has. A record longer than that is one part.
    options: those of `read_csv`, but row_index_name and n_rows.

    Raises what `read_csv` does of the head of the file, and `InvalidOperationError` where a name holds a comma or a colon.
    """
    return Scan(path, part_size, ReadOptions(**options))
