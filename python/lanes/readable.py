"""What tables and folders have in common: they are asked and read by the same calls."""

from __future__ import annotations

import os
import re
from typing import TYPE_CHECKING, Any, Iterable, Iterator, Optional, Union, overload

from . import arguments, calls, explaining, replacing
from .answer import Answer, Row, Value
from .columns import Columns
from .partial_answers import Partial
from .schema import Schema
from .streams import ArrowStream
from .values import NONE, Values, condition_of, filled

if TYPE_CHECKING:
    from .table import Table

#: How much room a message is given beside what it is made of.
_ROOM = 65_536
#: How many bytes the line of a batch with its digest has at most: two numbers of 10 digits, two of 5, and 32 digits, with what is between.
_LINE = 80


class Readable:
    """What can be asked and read: a table, or a folder, each call on which reads what is there then."""

    __slots__ = ()

    def _table(self) -> Table:
        """The table that is read."""
        raise NotImplementedError

    @property
    def name(self) -> str:
        """The table's name, in upper case."""
        raise NotImplementedError

    @property
    def columns(self) -> dict[str, str]:
        """The columns in order: of each its name and its type, in upper case."""
        raise NotImplementedError

    def check(self) -> tuple[int, int]:
        """How many batches there are, and how many maximal ranges of deleted rows. The file is judged anew.

        Raises:
            Refused: the first fault of the file.
        """
        line = calls.given(calls.CHECK, _ROOM, self._table()._file).decode()
        found = re.fullmatch(r"ok batches=(\d+) ranges=(\d+)\n", line)
        assert found
        return int(found[1]), int(found[2])

    def digest(self) -> str:
        """The digest of what is held: the first 32 hexadecimal digits of the SHA-512 of the table's file. Replicas of one table that hold the
        same have the same digest, and, but for a collision, only these: so they are compared without moving them. `lanes check --digest`
        prints it.

        Raises:
            Refused: the first fault of the file.
        """
        return self._table()._asked().digest().decode()

    def batch_digests(self) -> dict[str, str]:
        """The digest of each batch, by its name: that of the table that has this batch alone, with all its rows and no deletions. So two
        replicas that hold one name with other rows have two digests of it, whatever is deleted. `lanes inspect --batches --digest` prints
        them.

            theirs = other.batch_digests()
            print([name for name, digest in table.batch_digests().items() if theirs.get(name, digest) != digest])

        Raises:
            Refused: the first fault of the file.
        """
        opened = self._table()._asked()
        lines = opened.batch_digests(_ROOM + _LINE * opened.batches()).decode().splitlines()
        return {line.split(",")[0]: line.split(",")[3] for line in lines[1:]}

    def inspect(self) -> dict[str, Any]:
        """What is in the table, under the keys of `lanes inspect --format json`, without those of stored rows and codings: `table`,
        `batches`, `live`, `ranges`, `bytes`, and `columns`, a list of dicts with `column`, `type`, `nulls`, `values`, `least` and
        `greatest` of the live rows."""
        table = self._table()
        batches, ranges = table.check()
        kinds = table.columns
        asked = "".join(f",COUNT({column}),MIN({column}),MAX({column})" for column in kinds)
        live, *cells = table.query(f"SELECT COUNT(*){asked} FROM {table.name}")[0]
        columns = []
        for (column, kind), values, least, greatest in zip(kinds.items(), cells[0::3], cells[1::3], cells[2::3]):
            nulls = _whole(live) - _whole(values)
            columns.append({"column": column, "type": kind, "nulls": nulls, "values": values, "least": least, "greatest": greatest})
        return {"table": table.name, "batches": batches, "live": live, "ranges": ranges, "bytes": table._length(), "columns": columns}

    def query(self, sql: str, values: Values = NONE) -> Answer:
        """The rows that a query asks for, under their headings. docs/SQL.md has the language.

            table.query("SELECT SITE,SUM(HITS) FROM VISITS WHERE SITE IN (?) AND HITS > ? GROUP BY SITE", [[1, 2], 10])

        Args:
            sql: the query.
            values: a value for each `?` of the query: a whole number; None after IS or IS NOT; or a list of whole numbers in the list of IN.

        Raises:
            Refused: a fault of the query with its byte, as `Syntax`, or of the file.
            TypeError, ValueError: a value is no whole number, or can't be at its place; or there are more or fewer values than `?`.
        """
        text, table = filled("sql", sql, values), self._table()
        opened = table._asked()
        with explaining.asked(text, table):
            return Answer.of_kept(opened.answer(text.text), text.text.decode())

    def partial(self, sql: str, values: Values = NONE) -> Partial:
        """What this table gives to the answer of a query over several tables, for `lanes.combine` and `lanes.finish`.

        Args:
            sql, values: as of `query`.

        Raises:
            Refused: what `query` refuses.
        """
        text, table = filled("sql", sql, values), self._table()
        opened = table._asked()
        with explaining.asked(text, table):
            return Partial(opened.partial(table._file_room(), text.text))

    def queries(self, sqls: Iterable[str]) -> list[Answer]:
        """The answers of several queries over one state, in order.

        Raises:
            Refused: the fault of the first query that has one.
            TypeError: `sqls` is one text, and not several.
        """
        given = arguments.several("sqls", "several texts", sqls)
        table = self._table()
        return [table.query(sql) for sql in given]

    @overload
    def dump(
        self, names: bool = ..., *, where: Optional[str] = ..., columns: Optional[Iterable[str]] = ..., path: None = ..., values: Values = ...
    ) -> str: ...

    @overload
    def dump(
        self,
        names: bool = ...,
        *,
        where: Optional[str] = ...,
        columns: Optional[Iterable[str]] = ...,
        path: Union[str, os.PathLike[str]],
        values: Values = ...,
    ) -> None: ...

    def dump(
        self,
        names: bool = False,
        *,
        where: Optional[str] = None,
        columns: Optional[Iterable[str]] = None,
        path: Optional[Union[str, os.PathLike[str]]] = None,
        values: Values = NONE,
    ) -> Optional[str]:
        """The live rows, in order of row name, as comma-separated values below a heading, as `lanes dump` writes them.

        Args:
            names: whether the columns BATCH and ORDINAL, which name a row, come first.
            `where`: a condition, as after WHERE in a query. Without it all live rows.
            columns: the columns that are wanted, in order. Without them all.
            path: the file that the text is written into, in one step, as `save` does. Then None is given, and no text is made of it.
            values: a value for each `?` of the condition, as of `query`.

        Raises:
            Refused: `NoSuchColumn`, or a fault of the condition.
            ValueError: `columns` has no name.
            Busy: another process has had the file of the path for ten seconds.
            OSError: the file can't be written. It is as it was.
        """
        from .dumps import dumped

        target, condition = None if path is None else arguments.file_of("path", path), condition_of(where, values)
        text = dumped(self._table(), names, condition, columns)
        if target is None:
            return str(calls.view_of(text), "ascii")
        replacing.replace(target, calls.view_of(text))
        return None

    def head(self, count: int = 5) -> Answer:
        """The first live rows, in order of row name, as an answer whose headings are the columns. No more batches are read than have them.

        Args:
            count: how many there are at most.

        Raises:
            ValueError: `count` is less than 0.
        """
        from .row_reading import first_rows

        most = arguments.number_of("count", count)
        if most < 0:
            raise ValueError(f"count: 0 rows or more are wanted, and this is {most}")
        table = self._table()
        return Answer(list(table.columns), first_rows(table, most))

    def rows(self, where: Optional[str] = None, columns: Optional[Iterable[str]] = None, values: Values = NONE) -> Iterator[Row]:
        """The live rows, in order of row name, one after another: named tuples, as `row.SITE`. A few batches are in memory at a time.

            for row in table.rows("SITE = ?", values=[2]):
                print(row.HITS)

        Args:
            `where`: a condition, as after WHERE in a query. Without it all live rows.
            columns: the columns that are wanted, in order. Without them all.
            values: a value for each `?` of the condition, as of `query`.

        Raises:
            Refused: `NoSuchColumn`, or a fault of the condition.
            ValueError: a column is named twice.
        """
        from .row_reading import rows_of

        return rows_of(self._table(), columns, condition_of(where, values))

    def __iter__(self) -> Iterator[Row]:
        return self.rows()

    def to_numpy(self, columns: Optional[Iterable[str]] = None, where: Optional[str] = None, values: Values = NONE) -> Columns:
        """The live rows, in order of row name, as arrays of numpy: a dict of `ColumnData`, of each column its values, of the column's own type,
        and which rows are null. Its `rows` is how many there are.

        Args:
            columns: the columns that are wanted, in order. Without them all.
            `where`: a condition, as after WHERE in a query. Without it all live rows.
            values: a value for each `?` of the condition, as of `query`.

        Raises:
            Refused: `NoSuchColumn`, or a fault of the condition.
            ValueError: a column is named twice.
        """
        from .columns import arrays

        return arrays(self._table(), columns, condition_of(where, values))

    def to_pandas(self, columns: Optional[Iterable[str]] = None, where: Optional[str] = None, values: Values = NONE) -> Any:
        """The same as a frame of pandas, with its nullable types Int8, Int16, Int32 and Int64. No value passes through a float."""
        from .columns import frame

        return frame(self._table(), columns, condition_of(where, values))

    def batches(self, rows: int, columns: Optional[Iterable[str]] = None, where: Optional[str] = None, values: Values = NONE) -> Iterator[Columns]:
        """The same in pieces, so that a table is read that has no room in memory as arrays: each piece is what `to_numpy` gives of the next
        rows, and its `to_pandas()` is a frame.

            for piece in table.batches(1_000_000):
                print(piece["HITS"].values.max())

        Args:
            rows: how many rows a piece has; the last one may have fewer.
            columns, `where`, values: as of `to_numpy`. They are judged at once.

        Raises:
            Refused: `NoSuchColumn`, or a fault of the condition.
            ValueError: `rows` is less than 1.
        """
        from .columns import pieces

        return pieces(self._table(), rows, columns, condition_of(where, values))

    if TYPE_CHECKING:

        def __arrow_c_stream__(self, requested_schema: object = None) -> object:
            """The live rows for whatever takes Arrow, as pyarrow.table, polars.DataFrame and duckdb: int8, int16, int32 and int64, each of
            which may be null. A schema that is asked for may have some of the columns, in any order, as wider integers. The call is there
            if the module was installed with a C compiler.

            Raises:
                ValueError: another schema is asked for.
            """

    else:
        __arrow_c_stream__ = ArrowStream()

    def summary(self) -> bytes:
        """What is held, in few bytes, for another replica's `offer`."""
        table = self._table()
        return calls.given(calls.SUMMARY, table._length() + _ROOM, table._file)

    def offer(self, summary: Union[bytes, bytearray, memoryview]) -> bytes:
        """What another replica does not have, by its summary: the batches that it does not have, and all deletions.

        Raises:
            Refused: a fault of the summary or of the file, or `SchemaDiffers`.
        """
        given, table = arguments.bytes_of("summary", summary, "summary() gives them"), self._table()
        held = table._file
        with explaining.of_tables(lambda: Schema.of(given).words, table._words), explaining.of_input(given, "summary"):
            return calls.given(calls.OFFER, table._length() + _ROOM, held, given)

    def save(self, path: Union[str, os.PathLike[str]]) -> None:
        """Writes the file of the table, in one step: whoever opens it meets the old one or the new one, whole, also after a crash. The program
        `lanes` takes the same lock. A symbolic link is followed, and what is no regular file, as a pipe, is written in place.

        What another process did to the file since it was opened is replaced, too: `lanes.update` reads, changes and writes under one lock.

        Raises:
            Busy: another process has had the file for ten seconds. It is as it was.
            OSError: the file can't be written. It is as it was.
        """
        replacing.replace(arguments.file_of("path", path), self._table()._view())

    def __len__(self) -> int:
        table = self._table()
        return _whole(table.query(f"SELECT COUNT(*) FROM {table.name}")[0][0])

    def __bool__(self) -> bool:
        return True


def _whole(value: Value) -> int:
    assert isinstance(value, int)
    return value
