"""What is raised where the library refuses: one class for each kind of cause, by the names that Polars has for them.

Each error tells its `status` and its fault `line` as the program `pl_csv` would (docs/command-line.md, "Statuses"), and, in plain
words, what is wrong and what can be done about it.
"""

from __future__ import annotations


class CsvError(Exception):
    """An input, or what was asked of it, is refused.

    status: the number that the program would end with.
    line: the program's fault line.
    """

    def __init__(self, status: int, line: str, sentence: str):
        super().__init__(sentence)
        self.status, self.line, self.sentence = status, line, sentence

    def __reduce__(self):
        return error_of, (self.status, self.line)


class ArgumentError(CsvError, ValueError):
    """An argument has no meaning to the library."""


class OutOfMemoryError(CsvError, MemoryError):
    """Memory ran out."""


class InvalidOperationError(CsvError, ValueError):
    """The arguments don't go together: separator, quote and line end, the number of lines to skip, the types that are given, or arrays that are
    to be written. Or the text of a schema is needed, and a name has a comma or a colon."""


class NoDataError(CsvError):
    """The input has no record where one is needed, or fewer items than are to be skipped."""


class DuplicateError(CsvError):
    """Two columns would have one name. `name` is it."""

    name = ""


class ColumnNotFoundError(CsvError, KeyError):
    """There is no column of this name. `name` is it."""

    name = ""

    def __str__(self):
        return self.sentence


class OutOfBoundsError(CsvError, IndexError):
    """There is no column at this place. `index` is the place, from 0, and `length` the number of columns."""

    index = length = 0


class ComputeError(CsvError):
    """The input as a whole can't be read."""


class RecordError(ComputeError):
    """A record has a fault: the least such record is told.

    record: its number, from 0, the header not counted.
    column: the place of the column, from 0.
    kind: "value" (the text is no value of the column's type), "utf8" (it is no UTF-8), "escape" (text stands behind a closing quote, or
        the quote is not closed) or "fields" (the record has more fields than there are columns).
    """

    record = column = 0
    kind = ""

    def __reduce__(self):
        return error_of, (self.status, self.line)

    def moved(self, records: int) -> "RecordError":
        """Returns the same fault where this number of records stands before the part that was read."""
        return error_of(self.status, f"refusal 14 record {self.record + records} column {self.column} {self.kind}")


# What is wrong, as the program says it at a terminal (crates/pl_tell/src/sentences.rt), and what can be done, by arguments of Python.
_KINDS = {
    "value": ("the text is no value of the column's type", "ignore_errors=True makes it null; schema can give the column another type"),
    "utf8": ("the text is not UTF-8", "encoding='utf8-lossy' replaces what is not UTF-8, and ignore_errors=True makes the cell null"),
    "escape": ("the quotes do not close the text", "Write a quote within quotes twice; quote_char=None takes quotes as text"),
    "fields": ("there are fewer columns", "truncate_ragged_lines=True passes over the fields behind the last column"),
}

_SENTENCES = {
    2: ("The words have no meaning", "An argument has a value that the library has no meaning for: docs/command-line.md has them all"),
    5: ("There is not memory enough", "Read the file in parts, by scan_csv"),
    6: ("The input has more than 64 GiB", "Read it in parts, by scan_csv"),
    11: ("Separator, quote, line end and comment prefix do not go together", "Each is an ASCII byte of its own"),
    12: (
        "Lines and rows are both skipped, arrays do not fit together, or a name has a comma or a colon where a schema is told as a text",
        "Give skip_lines or skip_rows alone, and arrays of one length; read_csv takes any name",
    ),
    13: ("The quote of the output is not ASCII", "Give another quote_char"),
    14: ("The input is compressed", "Decompress it first"),
    15: ("The input has no first record, so it has no names of columns", "Give a schema; raise_if_empty=False takes it as one without columns"),
    16: ("Two columns have one name", "schema names the columns"),
    17: ("More types are given than there are columns", "Give one type for each column, or fewer"),
    18: ("A column has a type that can't be read", "docs/command-line.md has the types"),
    19: ("No column has a name that is asked for", "Look at the names in columns and null_values"),
    20: ("The input has fewer lines or rows than are to be skipped", "Give a smaller skip_lines, skip_rows or skip_rows_after_header"),
    21: ("columns asks for a place behind the last column", "Places count from 0"),
    22: ("A column is asked for twice, or the row index has its name", "Name each column once, and give row_index_name another name"),
    23: ("No column is read", "Name one at least"),
    25: ("The last number of a row, or of a category, is too large", "Give a smaller row_index_offset, or read the column as 'string'"),
}


def _sentence(status: int, detail: str = "") -> str:
    wrong, advice = _SENTENCES[status]
    return f"{wrong}{detail}. {advice}."


def _record(status: int, line: str, rest: list[str]) -> CsvError:
    record, column, kind = int(rest[1]), int(rest[3]), rest[4]
    wrong, advice = _KINDS[kind]
    error = RecordError(status, line, f"Record {record + 1}, column {column + 1}: {wrong}. {advice}.")
    error.record, error.column, error.kind = record, column, kind
    return error


def _named(kind: type, status: int, line: str, blanks: int) -> CsvError:
    """Returns an error that tells a name, which stands behind this number of blanks."""
    name = line.split(" ", blanks)[blanks]
    error = kind(status, line, _sentence(status, f": {name!r}"))
    error.name = name
    return error


def _bounds(status: int, line: str, rest: list[str]) -> CsvError:
    error = OutOfBoundsError(status, line, _sentence(status, f": {rest[0]} of {rest[1]}"))
    error.index, error.length = int(rest[0]), int(rest[1])
    return error


# The causes that have nothing of their own to tell, by status.
_PLAIN = {
    2: ArgumentError,
    5: OutOfMemoryError,
    6: ComputeError,
    11: InvalidOperationError,
    12: InvalidOperationError,
    13: ComputeError,
    14: ComputeError,
    15: NoDataError,
    17: InvalidOperationError,
    18: InvalidOperationError,
    20: NoDataError,
    23: NoDataError,
    25: ComputeError,
}


def error_of(status: int, line: str) -> CsvError:
    """Returns the error that a status and a fault line tell."""
    if status in (16, 22):
        return _named(DuplicateError, status, line, 3)
    if status == 19:
        return _named(ColumnNotFoundError, status, line, 4)
    if status == 21:
        return _bounds(status, line, line.split(" ")[3:])
    if status == 24:
        return _record(status, line, line.split(" ")[2:])
    kind = _PLAIN.get(status, CsvError)
    return kind(status, line, _sentence(status) if status in _SENTENCES else line)
