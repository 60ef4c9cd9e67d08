"""How comma-separated values are written: what separates fields, which word is a null too, what the fields are, and whether the last line needs
an end."""

from __future__ import annotations

import re
from typing import TYPE_CHECKING, Iterable, NamedTuple, Optional, Tuple

from . import arguments, calls, explaining

if TYPE_CHECKING:
    from .table import Table

#: What is no separator, besides characters that are not of ASCII.
_TAKEN = re.compile("[A-Za-z0-9\"\\-_\\\\\r\n\0]")

#: The word for a field that is passed over.
_PASSED = "-"


class Dialect(NamedTuple):
    """How a text is written, as `lanes_import_in` has it."""

    has_heading: bool
    separator: int
    null_word: bytes
    columns: bytes
    needs_ends: bool

    @classmethod
    def of(cls, table: Table, heading: bool, separator: str, null: str, columns: Optional[Iterable[Optional[str]]], whole_lines: bool) -> Dialect:
        """The dialect of the arguments of an import into a table.

        Raises:
            TypeError: an argument is of another type.
            ValueError: `separator` is no separator, or `columns` names no column, or one twice.
            Refused: `NoSuchColumn` of `columns`.
        """
        has_heading, needs_ends = arguments.flag_of("heading", heading), arguments.flag_of("whole_lines", whole_lines)
        byte, word = _separator_of(separator), arguments.text_of("null", null)
        return cls(has_heading, byte, word, b"" if columns is None else _words_of(columns, table), needs_ends)

    def given(self, text: bytes) -> calls.Given:
        """A text that is written so, as `lanes_explain` has it."""
        return calls.Given(calls.ROWS, text, self.separator, self.has_heading, self.needs_ends, self.null_word, self.columns)

    def words(self) -> Tuple[bool, int, bytes, bytes, bool]:
        """What the call is given behind the text."""
        return self.has_heading, self.separator, self.null_word, self.columns, self.needs_ends

    def has_one_field(self, table: Table) -> bool:
        """Whether a line has one field: then an empty line is a row."""
        return b"," not in self.columns if self.columns else len(table.columns) == 1


def _separator_of(separator: str) -> int:
    """The byte between two fields.

    Raises:
        TypeError: it is no text.
        ValueError: it is no separator.
    """
    text = arguments.text_of("separator", separator)
    if len(text) != 1 or text[0] > 127 or _TAKEN.fullmatch(separator):
        raise ValueError(f'separator: one ASCII character is wanted, no letter, no digit, and none of " - _ \\ and a line\'s end, and this is {separator!r}')
    return text[0]


def _words_of(columns: Iterable[Optional[str]], table: Table) -> bytes:
    """What the fields are, with a comma between each two.

    Raises:
        TypeError: they are one text, or no names.
        ValueError: no column is named, or one twice.
        Refused: `NoSuchColumn`.
    """
    kinds = table.columns
    found: list[str] = []
    for word in arguments.several("columns", "several names, as ['SITE', '-'],", columns):
        if word is not None and not isinstance(word, str):
            raise arguments.wrong("columns", "the name of a column, '-' or None", word)
        name = _PASSED if word is None else arguments.column_of(word)
        if name != _PASSED and name not in kinds:
            raise explaining.no_column("columns", ",".join([*found, name]), len(",".join([*found, ""])), table)
        if name != _PASSED and name in found:
            raise ValueError(f"columns: {name} is there twice")
        found.append(name)
    if set(found) <= {_PASSED}:
        raise ValueError("columns: there is no name of a column")
    return ",".join(found).encode()
