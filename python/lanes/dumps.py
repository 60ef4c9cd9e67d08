"""Rows of a table as comma-separated values."""

from __future__ import annotations

from typing import TYPE_CHECKING, Iterable, Optional

from . import arguments, calls, explaining
from .columns import names_of

if TYPE_CHECKING:
    from .table import Table
    from .values import Filled

#: How many bytes a field of a dump has at most, with its comma, by its type; and both fields of a row's name.
_DIGITS, _NAMED = {"TINYINT": 5, "SMALLINT": 7, "INTEGER": 12, "BIGINT": 21}, 30

#: How much room there is for a heading.
_ROOM = 65_536


def dumped(table: Table, names: bool, where: Filled, columns: Optional[Iterable[str]]) -> calls.Input:
    """The live rows at which a condition is true, in some columns, below a heading; with names the columns BATCH and ORDINAL come first.

    Raises:
        Refused: `NoSuchColumn` of the columns, or a fault of the condition.
        ValueError: `columns` has no name.
    """
    kinds, has_names = table.columns, arguments.flag_of("names", names, "path= names the file that is written")
    chosen = list(kinds) if columns is None else names_of(columns, table)
    if not chosen:
        raise ValueError("columns: there is no name of a column")
    room = _ROOM + (sum(_DIGITS[kinds[name]] for name in chosen) + has_names * _NAMED) * table._asked().rows()
    words = b"" if columns is None else " ".join(chosen).encode()
    with explaining.judged("where", where, table):
        return calls.made(calls.DUMP_WHERE, room, table._file, words, where.text, has_names)
