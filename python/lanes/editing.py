"""A table that is changed in its place."""

from __future__ import annotations

import threading
from typing import Any, Iterable, Mapping, Optional

from . import arguments, calls, explaining
from .answer import Answer
from .batch_name import GivenName
from .csv_text import Csv
from .table import Table, words_of
from .values import NONE, Values, filled

#: How much room a delete's deletions are given at first.
_ROOM = 65_536


class Edit:
    """A table that is changed in its place, as `Table.edit` gives it. A change costs what it brings, however large the table is; only the first
    change, and the first one after each `table`, copies the table. A change that is refused changes nothing. Any number of threads may use it,
    one after another.

        edit = table.edit()
        for row in readings:
            edit.import_rows([row])
        table = edit.table()
    """

    __slots__ = ("_alone", "_empty", "_of", "_opened", "_room")

    def __init__(self, table: Table) -> None:
        self._of = table
        self._empty = Table.create(table.name, table.columns)
        self._opened = table._asked()._shared()
        self._room = table._file_room()
        self._alone = threading.Lock()

    def import_csv(self, csv: Csv, **how: Any) -> None:
        """Adds the rows of comma-separated values, as `Table.import_csv` does, with its arguments and refusals."""
        self._bring(self._empty.import_csv(csv, **how))

    def import_rows(self, rows: Iterable[Any], **how: Any) -> None:
        """Adds rows, as `Table.import_rows` does, with its arguments and refusals."""
        self._bring(self._empty.import_rows(rows, **how))

    def import_columns(self, columns: Mapping[str, Any], **how: Any) -> None:
        """Adds the rows of columns, as `Table.import_columns` does, with its arguments and refusals."""
        self._bring(self._empty.import_columns(columns, **how))

    def delete(self, condition: str, values: Values = NONE) -> None:
        """Deletes the rows at which a condition is true, as `Table.delete` does, with its refusals."""
        text = filled("condition", condition, values)
        with self._alone:
            with explaining.judged("condition", text, self._of):
                rows, deletions = self._opened.delete_part(_ROOM, text.text)
            if rows:
                self._take(deletions)

    def delete_rows(self, batch: GivenName, first: int, last: Optional[int] = None) -> None:
        """Deletes the rows of a batch from one ordinal to another, as `Table.delete_rows` does, with its refusals."""
        self._bring(self._empty.delete_rows(batch, first, last))

    def apply(self, offer: bytes) -> None:
        """Takes what an offer brings, as `Table.apply` does, with its refusals."""
        offered = arguments.bytes_of("offer", offer, "table.offer(summary) and table.to_bytes() give them")
        with self._alone:
            self._take(offered, "offer")

    def query(self, sql: str, values: Values = NONE) -> Answer:
        """The answer to a query of the table as it is now, as of `Table.query`."""
        return self.table().query(sql, values)

    def table(self) -> Table:
        """The table as it is now. It never changes."""
        with self._alone:
            return type(self._of)._of_opened(self._opened._shared(), self._room)

    def _bring(self, some: Table) -> None:
        """Takes what another table has."""
        with self._alone:
            self._take(some._file)

    def _take(self, offer: calls.Input, subject: str = "") -> None:
        """Takes what an offer brings, while no other thread has the table."""
        with explaining.of_tables(lambda: words_of(offer), self._of._words), explaining.of_input(offer, subject):
            self._opened.apply(offer)
        self._room += calls.length_of(offer)
