"""What Python arguments are as words of the command line (docs/command-line.md), so that program and library have one meaning."""

from __future__ import annotations

import dataclasses
import datetime
from collections.abc import Mapping, Sequence
from typing import Union

DataType = Union[str, type]
"""A type of a column: one of the words of docs/command-line.md, "Schema text" ("int64", "decimal/10/2", "datetime/us"), or one of
Python's own types bool, int, str, datetime.date, datetime.time and datetime.datetime."""

_OF_PYTHON = {
    bool: "boolean",
    int: "int64",
    str: "string",
    datetime.date: "date",
    datetime.time: "time",
    datetime.datetime: "datetime/us",
}


def type_word(given: DataType) -> str:
    """Returns the word of a type."""
    if isinstance(given, str):
        return given
    try:
        return _OF_PYTHON[given]
    except (KeyError, TypeError):
        raise TypeError(f"pl_csv: {given!r} is no type of a column") from None


def _name_in(name: str, marks: str, where: str) -> str:
    if any(it in name for it in marks):
        raise ValueError(f"pl_csv: the name {name!r} can't be told in {where}: it holds one of {marks!r}")
    return name


def schema_word(schema: Union[str, Mapping[str, DataType]]) -> str:
    """Returns a schema as the text that `--schema` takes. A name there holds no colon and no comma."""
    if isinstance(schema, str):
        return schema
    return ",".join(f"{_name_in(name, ':,', 'a schema')}:{type_word(it)}" for name, it in schema.items())


def schema_of(text: str) -> dict[str, str]:
    """Returns the columns that a schema's text has: a type's word by each name, in order."""
    return dict(it.rsplit(":", 1) for it in text.split(",")) if text else {}


def _byte(given: str, what: str) -> str:
    if len(given) != 1 or not given.isascii():
        raise ValueError(f"pl_csv: {what} is {given!r}, and has to be one ASCII character")
    return f"x{ord(given):02x}"


def _null_words(given: Union[str, Sequence[str], Mapping[str, str], None]) -> list[str]:
    """Returns the word that tells null values. A text of a list holds no comma there."""
    if given is None:
        return []
    if isinstance(given, str):
        return [f"--null={given}"] if given else ["--nulls=,"]
    if isinstance(given, Mapping):
        parts = [f"{_name_in(name, '=,', 'null_values')}={_name_in(text, ',', 'null_values')}" for name, text in given.items()]
        return [f"--null-of={','.join(parts)}"] if parts else []
    texts = [_name_in(it, ",", "null_values") for it in given]
    if not texts:
        return []
    return [f"--nulls={','.join(texts)}"] if len(texts) > 1 else _null_words(texts[0])


def _column_words(given: Union[Sequence[str], Sequence[int], None]) -> list[str]:
    if given is None:
        return []
    if isinstance(given, str):
        given = [given]
    if not given:
        raise ValueError("pl_csv: columns is an empty list: at least one column is read")
    if all(isinstance(it, str) for it in given):
        names = [_name_in(it, ",", "columns; its place can be given instead") for it in given]
        return ["--columns=" + ",".join(names)] if names != [""] else ["--projection=0"]
    return ["--projection=" + ",".join(str(int(it)) for it in given)]


@dataclasses.dataclass(frozen=True)
class ReadOptions:
    """How an input is read. The fields are those arguments of `read_csv` that have a meaning for every way of reading."""

    has_header: bool = True
    columns: Union[Sequence[str], Sequence[int], None] = None
    separator: str = ","
    comment_prefix: Union[str, None] = None
    quote_char: Union[str, None] = '"'
    skip_rows: int = 0
    skip_lines: int = 0
    schema: Union[str, Mapping[str, DataType], None] = None
    schema_overrides: Union[Mapping[str, DataType], Sequence[DataType], None] = None
    null_values: Union[str, Sequence[str], Mapping[str, str], None] = None
    missing_utf8_is_empty_string: bool = False
    ignore_errors: bool = False
    try_parse_dates: bool = False
    infer_schema: bool = True
    infer_schema_length: Union[int, None] = 100
    n_rows: Union[int, None] = None
    encoding: str = "utf8"
    skip_rows_after_header: int = 0
    row_index_name: Union[str, None] = None
    row_index_offset: int = 0
    eol_char: str = "\n"
    raise_if_empty: bool = True
    truncate_ragged_lines: bool = False

    def dialect_words(self) -> list[str]:
        """Returns how records are cut from bytes."""
        words = ["--sep=" + _byte(self.separator, "separator"), "--eol=" + _byte(self.eol_char, "eol_char")]
        words.append("--quote=none" if self.quote_char is None else "--quote=" + _byte(self.quote_char, "quote_char"))
        if self.comment_prefix:
            words.append(f"--comment={self.comment_prefix}")
        return words

    def cell_words(self) -> list[str]:
        """Returns how the fields of records become cells, and of which columns."""
        if self.encoding not in ("utf8", "utf8-lossy"):
            raise ValueError(f"pl_csv: encoding is {self.encoding!r}, and has to be 'utf8' or 'utf8-lossy'")
        flags = {
            "--lossy": self.encoding == "utf8-lossy",
            "--keep-missing": self.missing_utf8_is_empty_string,
            "--truncate": self.truncate_ragged_lines,
            "--ignore-errors": self.ignore_errors,
        }
        return [*_null_words(self.null_values), *_column_words(self.columns), *(word for word, is_set in flags.items() if is_set)]

    def start_words(self) -> list[str]:
        """Returns where the data begins."""
        numbers = {"--skip-lines": self.skip_lines, "--skip-rows": self.skip_rows, "--skip-after": self.skip_rows_after_header}
        words = [f"{word}={number}" for word, number in numbers.items() if number]
        return words if self.has_header else [*words, "--no-header"]

    def schema_words(self) -> list[str]:
        """Returns which columns there are: given, or inferred."""
        words = []
        if self.schema is not None:
            words.append("--schema=" + schema_word(self.schema))
        if isinstance(self.schema_overrides, Mapping):
            if self.schema_overrides:
                words.append("--overwrite=" + schema_word(self.schema_overrides))
        elif self.schema_overrides:
            words.append("--dtypes=" + ",".join(type_word(it) for it in self.schema_overrides))
        sample = "all" if self.infer_schema_length is None else self.infer_schema_length
        words.append(f"--infer={sample if self.infer_schema else 0}")
        if self.try_parse_dates:
            words.append("--dates")
        return words if self.raise_if_empty else [*words, "--allow-empty"]

    def row_words(self) -> list[str]:
        """Returns how many rows are read, and how they are numbered."""
        words = [] if self.n_rows is None else [f"--limit={self.n_rows}"]
        if self.row_index_name is not None:
            words += [f"--row-index={self.row_index_name}", f"--row-offset={self.row_index_offset}"]
        return words

    def words(self) -> list[str]:
        """Returns the words by which a whole input is read."""
        return [*self.dialect_words(), *self.start_words(), *self.schema_words(), *self.cell_words(), *self.row_words()]

    def part_words(self, schema: str) -> list[str]:
        """Returns the words by which a part of the data is read, under the schema of the whole."""
        return [f"--schema={schema}", *self.dialect_words(), *self.cell_words()]


@dataclasses.dataclass(frozen=True)
class WriteOptions:
    """How a frame is written. The fields are arguments of `write_csv`."""

    include_bom: bool = False
    include_header: bool = True
    separator: str = ","
    line_terminator: str = "\n"
    quote_char: str = '"'
    null_value: str = ""
    quote_style: str = "necessary"

    def words(self) -> list[str]:
        ends = {"\n": "lf", "\r\n": "crlf"}
        if self.line_terminator not in ends:
            raise ValueError(f"pl_csv: line_terminator is {self.line_terminator!r}, and has to be '\\n' or '\\r\\n'")
        if self.quote_style == "non_numeric":
            style = "nonnumeric"
        else:
            style = self.quote_style
        words = [
            "--out-sep=" + _byte(self.separator, "separator"),
            "--out-quote=" + _byte(self.quote_char, "quote_char"),
            "--out-eol=" + ends[self.line_terminator],
            "--style=" + style,
        ]
        if self.null_value:
            words.append(f"--out-null={self.null_value}")
        if not self.include_header:
            words.append("--out-no-header")
        return [*words, "--out-bom"] if self.include_bom else words
