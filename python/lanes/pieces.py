"""Imports in pieces: of each piece a table is made, and its batches go into one load, which the table gets whole at the end. Between two
pieces it is told how far the import is, and it can be interrupted: nothing is changed then."""

from __future__ import annotations

import io
import itertools
from typing import TYPE_CHECKING, Callable, Iterator, List, NamedTuple, Optional, TypeVar

from . import calls
from .batch_name import GREATEST, BatchName
from .errors import Refused

if TYPE_CHECKING:
    from .csv_text import Text
    from .dialects import Dialect
    from .table import Table

#: The class of a table.
_Table = TypeVar("_Table", bound="Table")

#: What is called with how much is done, and how much there is: bytes of a text, or rows.
Progress = Callable[[int, int], object]

#: How many rows a batch has, and how many are imported at once.
BATCH = 65_536
AT_ONCE = 4 * BATCH

#: The mark that a text may begin with, and the lines that have nothing.
_MARK, _BLANK = b"\xef\xbb\xbf", (b"\n", b"\r\n")

#: The refusals whose place is a line.
_OF_A_LINE = ("BadCsv", "LineTooLong")

_NUMBERS_SPENT = 9


class Load:
    """Batches that come to a table: canonical, in order of name, and without deletions."""

    def __init__(self, table: Table) -> None:
        #: The empty table of the same columns.
        self.empty = type(table).create(table.name, table.columns)
        self._front, self._batches, self._offer = table._front(), 0, calls.Growing()
        self._offer.add(self._front + bytes(4))

    def add(self, some: Table) -> None:
        """Adds the batches of a table, whose names come after those before."""
        file, at = some._view(), len(self._front)
        self._batches += int.from_bytes(file[at : at + 4], "little")
        self._offer.add(file[at + 4 : -8])

    def into(self, table: _Table) -> _Table:
        """The table with all of them.

        Raises:
            Refused: `Conflict` or `Full`.
        """
        self._offer.add(bytes(8))
        self._offer.put(len(self._front), self._batches.to_bytes(4, "little"))
        # Canonical batches in order of name, without deletions, are a canonical file.
        return table._made(self._offer.whole()) if table == self.empty else table._applied(self._offer.whole())


class _Piece(NamedTuple):
    """Lines of a text as a text of its own; how many lines of the whole come before them, less those that are put before them; and how many
    bytes of the whole are read with it."""

    text: bytes
    lines_before: int
    bytes_read: int


def with_text(table: _Table, text: bytes, dialect: Dialect, batch: Optional[BatchName], progress: Optional[Progress]) -> _Table:
    """The table with the rows of a text.

    Raises:
        Refused: the text's first fault with its line, and what an import is refused as.
    """
    from .given_columns import drawn_name

    pieces = _pieces(text, dialect.has_heading, dialect.has_one_field(table))
    first, second = next(pieces, None), next(pieces, None)
    if first is None or second is None:
        made = table._with_rows_of(text, dialect, batch)
        tell(progress, len(text), len(text))
        return made
    name = drawn_name(table, -(-text.count(b"\n") // BATCH) + 1) if batch is None else batch
    load = Load(table)
    for index, piece in enumerate(itertools.chain((first, second), pieces)):
        own = later(name, index * (AT_ONCE // BATCH))
        load.add(_made_of(piece, text, load.empty, dialect, own))
        tell(progress, piece.bytes_read, len(text))
    return load.into(table)


def with_texts(table: _Table, texts: List[Text], dialect: Dialect, batch: Optional[BatchName], progress: Optional[Progress]) -> _Table:
    """The table with the rows of several texts, one after another, in one load: their batches have consecutive names.

    Raises:
        Refused: the first text's first fault, said of its path; and what an import is refused as.
    """
    from .given_columns import drawn_name

    name = batch or drawn_name(table, sum(-(-text.data.count(b"\n") // BATCH) + 1 for text in texts))
    load, done, whole = Load(table), 0, sum(len(text.data) for text in texts)
    for at, text in enumerate(texts):
        try:
            made = with_text(load.empty, text.data, dialect, name, None)
        except Refused as refused:
            raise refused.said_of(text.subject or f"csv[{at}]") from None
        load.add(made)
        batches, done = made._asked().batches(), done + len(text.data)
        tell(progress, done, whole)
        if batches and at + 1 < len(texts):
            name = later(name, batches)
    return load.into(table)


def later(name: BatchName, batches: int) -> BatchName:
    """The name that comes so many batches after another one.

    Raises:
        Refused: `NumbersSpent`.
    """
    if name.number + batches > GREATEST:
        raise calls.refused(_NUMBERS_SPENT)
    return BatchName(name.origin, name.number + batches)


def tell(progress: Optional[Progress], done: int, whole: int) -> None:
    """Tells how far an import is. What is raised there ends it."""
    if progress is not None:
        progress(done, whole)


def _made_of(piece: _Piece, text: bytes, empty: Table, dialect: Dialect, name: BatchName) -> Table:
    """The table of a piece. The place of a refusal is a line of the whole text, and its sentence is that of the whole text.

    Raises:
        Refused: a fault of the piece.
    """
    try:
        return empty._with_rows_of(piece.text, dialect, name)
    except Refused as refused:
        line, field = refused.args[2]
        if refused.name not in _OF_A_LINE:
            raise
        moved = calls.refused(refused.number, line + piece.lines_before, field)
        raise calls.explained(moved, dialect.given(text), empty._words()) from None


def _pieces(text: bytes, has_heading: bool, has_one_field: bool) -> Iterator[_Piece]:
    """A text in pieces of as many rows as are imported at once, of which the last one may have fewer. Each has the heading. An empty line is a
    row only if lines have one field."""
    lines = io.BytesIO(text)
    heading = next(lines, b"") if has_heading else b""
    front, count = heading, 0
    while True:
        some = _lines(lines, has_one_field)
        if not some and count:
            return
        yield _Piece(b"".join([front, *some]), count, lines.tell())
        count += len(some)
        front = heading or _MARK  # a mark is passed over at the beginning of a text alone
        if not some:
            return


def _lines(lines: io.BytesIO, has_one_field: bool) -> List[bytes]:
    """The next lines that have as many rows as are imported at once, or all that are left."""
    found: List[bytes] = []
    wanted = AT_ONCE
    while wanted:
        some = list(itertools.islice(lines, wanted))
        found += some
        wanted = 0 if has_one_field or not some else sum(map(some.count, _BLANK))
    return found
