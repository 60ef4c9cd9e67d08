"""Tables: what a replica holds."""

from __future__ import annotations

import ctypes
import errno
import io
import os
import re
import secrets
import stat
import zlib
from typing import TYPE_CHECKING, Any, Iterable, Mapping, Optional, Type, TypeVar, Union

from . import arguments, calls, explaining
from .batch_name import BatchName, GivenName, name_of
from .column_types import ColumnTypes, cure_of, holding, type_of
from .csv_fields import Dates, FieldChanges, null_words
from .csv_text import HERE, Csv, texts_of
from .errors import Refused
from .owned import OpenFile
from .pieces import Progress, with_text, with_texts
from .readable import Readable
from .schema import Schema
from .values import NONE, Filled, Values, filled

if TYPE_CHECKING:
    from .dialects import Dialect
    from .plain_columns import Cells
    from .taken_parts import Parts

#: How much room an answer's text is given at first, and a file beside its inputs.
_ROOM = 65_536

#: How many bytes a cell takes in a file at most, with its part of what is written of all.
_CELL = 9

#: How many random words a name is drawn of.
_WORDS = 8

#: How many bytes of two files are compared at once.
_PIECE = 1 << 20

#: The numbers of refusals that are looked at or made here.
_BAD_NAME, _BAD_SCHEMA, _BAD_RANGE = 11, 12, 23

#: How many bytes have the front of a file, whatever its schema.
_FRONT = 4096

#: Over how many shares a table is spread at most.
_SHARES = 65_536

#: What the name of a table or a column is.
_WORD = re.compile("[A-Za-z][A-Za-z0-9_]{0,63}")

#: What is taken for bytes.
_Bytes = Union[bytes, bytearray, memoryview]

#: A table's own class.
_Self = TypeVar("_Self", bound="Table")


class Table(Readable):
    """What a replica of a table holds. It never changes, and any number of threads may use it at once. Of a subclass all calls give that
    subclass; it is made of a file alone.

    At the end of a `with` block a table is closed: its file is let go, and each call is a ValueError then.

    Queries are asked of one opening: the file is judged once, when the table is opened, or at the first query of a table that a call
    made. Tables are equal if they hold the same, and then their bytes are the same. `len` is the number of live rows.
    """

    __slots__ = ("_held", "_opened", "_read_schema", "_room", "__weakref__")

    def __init__(self, file: Optional[calls.Input] = None) -> None:
        if not isinstance(file, (bytes, calls.Mapped)):
            given = "" if file is None else f", and not of what is of type {type(file).__name__}"
            raise TypeError(f"file: a table is made by Table.create, Table.open or Table.from_bytes{given}")
        self._held: Optional[calls.Input] = file
        self._opened: Optional[calls.Opened] = None
        self._read_schema: Optional[Schema] = None
        self._room = _ROOM

    @classmethod
    def create(cls: Type[_Self], name: str, columns: ColumnTypes) -> _Self:
        """An empty table.

        Args:
            name: a letter, and up to 63 letters, digits or `_`.
            columns: 1 to 32 columns in order: of each its name and its type, TINYINT, SMALLINT, INTEGER or BIGINT, in upper or lower case.
                INT is INTEGER, and INT8, INT16, INT32 and INT64 are the types of as many bits, as are numpy's, as `numpy.int16`.

        Raises:
            Refused: `BadSchema`.
            TypeError: `columns` is neither a dict nor pairs of a name and a type.
        """
        words = [_judged("name", arguments.text_of("name", name).decode())]
        for pair in columns.items() if isinstance(columns, Mapping) else arguments.several("columns", "a dict or pairs", columns):
            if not isinstance(pair, (tuple, list)) or len(pair) != 2 or not isinstance(pair[0], str):
                raise TypeError(f"columns: {pair!r} is not a column's name and its type: columns are a dict, or pairs, as [('SITE', 'SMALLINT')]")
            words += [_judged("columns", arguments.text_of("columns", pair[0]).decode()), _type_of(*pair)]
        if len(words) == 1:
            raise calls.refused(_BAD_SCHEMA, sentence="a table has 1 to 32 columns, as {'SITE': 'SMALLINT'}, and these are none").said_of("columns")
        text = arguments.text_of("columns", " ".join(words))
        try:
            return cls(calls.given(calls.CREATE, _ROOM, text))
        except Refused as refused:
            raise calls.explained(refused, calls.Given(calls.WORDS, text)) from None

    @classmethod
    def from_frame(cls: Type[_Self], name: str, frame: Any, *, batch: Optional[GivenName] = None) -> _Self:
        """The table of a frame of pandas: its columns and its rows. A column's type is the least one into which all numbers of the frame's type go:
        int8 becomes TINYINT, int16 and uint8 SMALLINT, int32 and uint16 INTEGER, and int64, uint32 and uint64 BIGINT, as do numbers of Python.
        A column of floats is refused, also one that pandas made of whole numbers with nulls: `frame.convert_dtypes()` makes Int64 of it.

        Args:
            name: the table's name.
            batch: the first batch's name, as for `import_csv`.

        Raises:
            Refused: `BadSchema` if a column's name can't be that of a table's column; `OutOfType` of a number past 64 bits; and others.
            TypeError: it is no frame, or values are no whole numbers.
        """
        from .given_columns import columns_of

        return cls._of_columns(name, columns_of(frame), batch)

    @classmethod
    def from_arrow(cls: Type[_Self], name: str, data: Any, *, batch: Optional[GivenName] = None) -> _Self:
        """The table of whatever gives Arrow's stream: its columns, of int8, int16, int32 or int64, and its rows.

        Args:
            name: the table's name.
            batch: the first batch's name, as for `import_csv`.

        Raises:
            Refused: `BadSchema` if a column's name can't be that of a table's column; and others.
            TypeError: it gives no stream, or a column has another type.
            OSError: the stream fails.
        """
        from .arrow_reading import columns_of

        return cls._of_columns(name, columns_of(data), batch)

    @classmethod
    def _of_columns(cls: Type[_Self], name: str, columns: Mapping[str, Any], batch: Optional[GivenName]) -> _Self:
        """The table of columns that were given."""
        from .given_columns import Column

        given = {word: Column(word, data) for word, data in columns.items()}
        empty = cls.create(name, [(word, holding(*column.kind())) for word, column in given.items()])
        return empty.import_columns(columns, batch=batch)

    @classmethod
    def open(cls: Type[_Self], path: Union[str, os.PathLike[str]]) -> _Self:
        """The table of a file, which is read whole. A pipe is read to its end; a folder of parts is opened by `lanes.Folder`.

        Whatever becomes of the file afterwards, this table is as it was. Of a file that is written in its place while it is read, and not
        replaced as `save` and the program `lanes` do, some may be new and some old: what is no table then is refused.

        Raises:
            IsADirectoryError: it is a folder.
            OSError: the file can't be opened.
            Refused: the file's first fault. Its subject is the path.
        """
        name = arguments.path_of("path", path)
        with OpenFile() as file:  # it is read and not mapped: who shortens a file that is mapped kills those who have it
            opened = file.open(name, os.O_RDONLY)
            if stat.S_ISDIR(os.fstat(opened).st_mode):
                raise IsADirectoryError(errno.EISDIR, "this is a folder, and not a file: lanes.Folder opens a folder of parts", name)
            table = cls(io.FileIO(opened, closefd=False).readall())
        try:
            table._asked()
        except Refused as refusal:
            raise refusal.said_of(name) from None
        return table

    @classmethod
    def from_bytes(cls: Type[_Self], file: _Bytes) -> _Self:
        """The table of a file's bytes.

        Raises:
            Refused: the file's first fault.
        """
        table = cls(arguments.bytes_of("file", file, "Table.open opens a path"))
        try:
            table._asked()
        except Refused as refusal:
            raise refusal.said_of("file") from None
        return table

    @classmethod
    def _of_opened(cls: Type[_Self], opened: calls.Opened, length: int) -> _Self:
        """The table of what is open. Its file, which has some such number of bytes, is made when it is asked for; that of a subclass, which may
        look at its file, at once."""
        room = length + _ROOM
        table = cls(b"" if cls is Table else opened.file(room))
        table._opened = opened
        if cls is Table:
            table._held, table._room = None, room
        return table

    @classmethod
    def _of_parts(cls: Type[_Self], parts: Parts) -> _Self:
        """The table of what parts of a folder hold together."""
        return cls._of_opened(parts.opened(), parts.length)

    def to_bytes(self) -> bytes:
        """The canonical file."""
        return bytes(self._file)

    def _table(self) -> Table:
        return self

    @property
    def name(self) -> str:
        """The table's name, in upper case."""
        return self._schema().name

    @property
    def columns(self) -> dict[str, str]:
        """The columns in order: of each its name and its type, in upper case."""
        return dict(self._schema().columns)

    @arguments.known_elsewhere(**HERE)
    def import_csv(
        self: _Self,
        csv: Csv,
        *,
        heading: bool = True,
        batch: Optional[GivenName] = None,
        progress: Optional[Progress] = None,
        separator: str = ",",
        null: Union[str, Iterable[str]] = "",
        columns: Optional[Iterable[Optional[str]]] = None,
        whole_lines: bool = False,
        encoding: str = "utf-8",
        dates: Optional[Dates] = None,
        booleans: Iterable[str] = (),
    ) -> _Self:
        """The table with more rows: those of comma-separated values. A field is a whole number, or empty for a null.

        Args:
            csv: the text itself, a file that is open for reading, or a path, as "monday.csv"; one that ends in .gz is unpacked. A text without a
                line's end is a path if it ends in .csv, .tsv, .txt or .gz, has a slash, or is the path of a file; so give texts that come from others
                as bytes. Or several: a list, or a path with `*`, whose files go in one after another, in one load.
            heading: whether the first line names all columns, in any order. Else fields are in the table's order.
            progress: what is called with how many bytes of the text are in and how many there are, after each 262,144 rows. Between two such
                calls Ctrl-C is heard, too. What is raised ends the import.
            batch: the first batch's name, as `"1.17"` or `(1, 17)`. The same rows under the same name change nothing, so a load may be
                sent twice. Without it a name is drawn at random that this table does not have.
            separator: what is between two fields: one ASCII character, but no letter, no digit, and none of `" - _ \\` and a line's end.
            null: a word that is a null too, as "NA", or several.
            columns: what the fields of a line are: of each the name of its column, or "-" or None if it is passed over. A column that no field
                is of is null. The heading is then any line that is no row.
            whole_lines: whether a last line without an end is refused: the text may be cut off.
            encoding: in what bytes and files are written, as "latin-1".
            dates: the columns whose fields are dates, and as which number each is taken: {"DAY": "%Y%m%d"} makes 20261201 of 2026-12-01. If they are
                not written so, give both formats: {"DAY": ("%d.%m.%Y", "%Y%m%d")}.
            booleans: the columns whose fields are true or false, yes or no, t or f, y or n, which are taken as 1 and 0.

        Raises:
            Refused: the first fault of the text with its line, `NoSuchColumn`, `Conflict` if the name has other rows, and others. Of several files
                its subject is the path.
            ValueError: `batch` is no name; or `separator`, `null`, `columns`, `encoding`, `dates` or `booleans` can't be one; or `csv` are bytes that
                seem to be a path.
            TypeError: `csv` is neither a text nor bytes nor a file.
            OSError: a file can't be read.
        """
        from .dialects import Dialect

        arguments.callable_of("progress", progress)
        name, nulls = name_of(batch) if batch is not None else None, null_words(null)
        dialect = Dialect.of(self, heading, separator, nulls[0] if nulls else "", columns, whole_lines)
        changes = FieldChanges(self, dialect, [word.encode() for word in nulls] if len(nulls) > 1 else [], dates, booleans)
        texts = [text._replace(data=changes.of(text.data)) for text in texts_of(csv, separator, encoding)]
        if len(texts) > 1:
            return with_texts(self, texts, dialect, name, progress)
        return with_text(self, texts[0].data, dialect, name, progress)

    def _with_rows_of(self: _Self, text: bytes, dialect: Dialect, batch: Optional[BatchName]) -> _Self:
        """The table with the rows of a text, by one call."""
        room = self._length() + len(text) + _ROOM
        with explaining.explained(self, dialect.given(text)):
            return self._made(calls.made(calls.IMPORT_IN, room, self._file, text, *dialect.words(), *_named(batch)))

    def _with_columns(self: _Self, cells: Cells, batch: Optional[BatchName]) -> _Self:
        """The table with the rows of columns.

        Raises:
            Refused: what the call refuses.
        """
        with explaining.explained(self, calls.Given(calls.ROWS, b"")):
            opened = self._asked().with_columns(cells.rows, cells.values, cells.valid, _named(batch))
        return self._of_opened(opened, self._file_room() + _CELL * cells.values[1])

    def import_arrow(self: _Self, data: Any, *, batch: Optional[GivenName] = None, progress: Optional[Progress] = None) -> _Self:
        """The table with the rows of whatever gives Arrow's stream, as a table of pyarrow, a frame of polars or another table. Its columns
        are the table's, in any order: int8, int16, int32 or int64, which may have nulls.

        Raises:
            Refused: as of `import_columns`.
            ValueError: the columns aren't those of the table.
            TypeError: it gives no stream, or a column has another type.
            OSError: the stream fails.
        """
        from .arrow_reading import columns_of

        return self.import_columns(columns_of(data), batch=batch, progress=progress)

    def import_columns(self: _Self, columns: Mapping[str, Any], *, batch: Optional[GivenName] = None, progress: Optional[Progress] = None) -> _Self:
        """The table with more rows: of each column its values. The file is that of an import of the same rows as comma-separated values.

        Args:
            columns: of each column of the table a `ColumnData` as `to_numpy` gives it, an array or masked array of whole numbers, or a list
                of them with None for a null. Lists alone need no numpy.
            batch: the first batch's name, as for `import_csv`.
            progress: what is called with how many rows are in and how many there are, as for `import_csv`.

        Raises:
            Refused: `OutOfType` with the row and the column, from 0; `Conflict`, `Full` and others.
            ValueError: the columns aren't those of the table, or have several lengths, or `batch` is no name.
            TypeError: values are no whole numbers. Floats aren't rounded.
        """
        from .given_columns import with_rows

        arguments.callable_of("progress", progress)
        return with_rows(self, columns, name_of(batch) if batch is not None else None, progress)

    def import_rows(self: _Self, rows: Iterable[Any], *, batch: Optional[GivenName] = None, progress: Optional[Progress] = None) -> _Self:
        """The table with more rows, each of which is a dict of all columns, or a tuple of as many values; None is a null. Neither numpy nor pandas is
        needed.

            table = table.import_rows([{"SITE": 1, "HITS": 10}, {"SITE": 2, "HITS": None}])

        Args:
            rows: the rows, which may come one after another.
            batch, progress: as of `import_columns`.

        Raises:
            Refused: as of `import_columns`.
            ValueError: a row has other columns than the table, or another number of values.
            TypeError: a row is neither a dict nor a tuple, or a value is no whole number.
        """
        from .plain_columns import columns_of

        return self.import_columns(columns_of(rows, self), batch=batch, progress=progress)

    def import_frame(self: _Self, frame: Any, *, batch: Optional[GivenName] = None, progress: Optional[Progress] = None) -> _Self:
        """The table with the rows of a frame of pandas, whose columns are the table's, in any order. A column of floats is refused, also one
        that pandas made of whole numbers with nulls: `frame.convert_dtypes()` makes Int64 of it."""
        from .given_columns import columns_of

        return self.import_columns(columns_of(frame), batch=batch, progress=progress)

    def delete(self: _Self, condition: str, values: Values = NONE) -> _Self:
        """The table without the rows at which a condition is true: what comes after WHERE in a query.

            table = table.delete("SITE = ? OR HITS IN (?)", [2, [10, 20]])

        Args:
            condition: the condition.
            values: a value for each `?` of the condition, as of `query`.

        Raises:
            Refused: a fault of the condition with its byte, or of the file.
            TypeError, ValueError: a value is no whole number, or can't be at its place; or there are more or fewer values than `?`.
        """
        text = filled("condition", condition, values)
        with explaining.judged("condition", text, self):
            return self._made(calls.made(calls.DELETE, 2 * self._length() + _ROOM, self._file, text.text))

    def _delete_part(self, condition: Filled) -> tuple[int, bytes]:
        """How many rows a delete finds, and the file of their deletions alone."""
        with explaining.judged("condition", condition, self):
            rows, part = self._asked().delete_part(_ROOM, condition.text)
        return rows, bytes(part)

    def _bring(self, offer: calls.Input) -> tuple[int, bytes]:
        """How many batches an offer brings, and the file of what it brings; no bytes if that is nothing."""
        with explaining.of_input(offer):
            batches, part = self._asked().bring(calls.length_of(offer) + _ROOM, offer)
        return batches, bytes(part)

    def delete_rows(self: _Self, batch: GivenName, first: int, last: Optional[int] = None, *, held: bool = False) -> _Self:
        """The table without the rows of a batch from one ordinal to another, both included; without `last` one row. Ordinals are from 0
        to 65,535, as `dump(names=True)` has them. Rows that the table doesn't have yet are deleted when they come.

        Args:
            held: whether to delete only if the table has the batch. If it does not, this same table is given. So one deletion may be sent
                to all shares of a table.

        Raises:
            Refused: `BadName`; `BadRange` if `last` is before `first`.
            ValueError: `batch` is no name, or a number is no ordinal.
        """
        name, begin, is_held = name_of(batch), _ordinal("first", first), arguments.flag_of("held", held)
        end = begin if last is None else _ordinal("last", last)
        rows, room = (name.origin, name.number, begin, end), self._length() + _ROOM
        try:
            file = self._asked().without_held(room, *rows) if is_held else self._asked().without_rows(room, *rows)
        except Refused as refusal:
            if refusal.number == _BAD_RANGE:
                raise refusal.said_of("last", f"{end} comes before first, which is {begin}") from None
            raise refusal.said_of("batch") if refusal.number == _BAD_NAME else refusal from None
        return self if file is None else self._made(file)

    def forget(self: _Self) -> _Self:
        """The table without the batches of which every row is deleted. Their deletions stay, so that these rows never come back, and no
        answer changes. A name that was dropped stays used up; docs/COMMANDS.md, "Forgetting", says when to forget.

        Raises:
            Refused: a fault of the file.
        """
        return self._made(calls.made(calls.FORGET, self._length() + _ROOM, self._file))

    def spread(self: _Self, count: int) -> list[_Self]:
        """The table spread over as many shares, for as many machines: each batch goes to one of them, in runs of names, with the deletions
        of its rows. Merged they are this table, and their partial answers are combined. No share has more bytes than an equal share and
        the largest batch, and none is without a batch if there are as many batches. Deletions of batches that this table does not have
        go to the first one.

        Raises:
            ValueError: `count` is less than 1, or more than 65,536.
        """
        shares = arguments.number_of("count", count)
        if not 1 <= shares <= _SHARES:
            raise ValueError(f"count: a table is spread over 1 to {_SHARES:,} shares, and this is {shares}")
        return [self._made(file) for file in self._asked().spread(self._length() + shares * _FRONT + _ROOM, shares)]

    def merge(self: _Self, *others: Readable) -> _Self:
        """The table that has what all of them hold, in whichever order they come. Of a folder it is what all parts hold.

        Raises:
            Refused: `SchemaDiffers`; `Conflict` with a batch that has two lists of rows; or a fault of a file.
        """
        if not others:
            return self
        level = [self._file, *(_table_of(other)._file for other in others)]
        while len(level) > 1:  # in pairs, so that a row is copied as often as the tree is high, and not once for each table
            pairs = [_joined(one, other) for one, other in zip(level[0::2], level[1::2])]
            level = [*pairs, *level[2 * len(pairs) :]]
        return self._made(level[0])

    def apply(self: _Self, offer: _Bytes) -> _Self:
        """The table with what an offer brings. A file's bytes are an offer too.

        Raises:
            Refused: a fault of the offer or of the file, `SchemaDiffers`, `Conflict` or `Full`.
        """
        return self._applied(arguments.bytes_of("offer", offer, "table.offer(summary) and table.to_bytes() give them"))

    def edit(self) -> Edit:
        """This table to be changed in its place: then a change costs what it brings, and not a copy of the table. This table stays as it is.

            edit = table.edit()
            edit.import_rows([{"SITE": 1, "HITS": 10}])
            edit.delete("HITS < 5")
            table = edit.table()

        Raises:
            Refused: a fault of the file.
        """
        return Edit(self)

    def close(self) -> None:
        """Lets the file go. A question that another thread asks meanwhile is answered."""
        self._held = self._opened = None

    def __enter__(self: _Self) -> _Self:
        return self

    def __exit__(self, *_: object) -> None:
        self.close()

    @property
    def _file(self) -> calls.Input:
        """The file.

        Raises:
            ValueError: the table is closed.
        """
        held, opened = self._held, self._opened
        if held is None:
            if opened is None:
                raise ValueError("this table is closed")
            held = self._held = opened.file(self._room)
        return held

    def _made(self: _Self, file: calls.Input) -> _Self:
        """A table of the same class."""
        return type(self)(file)

    def _applied(self: _Self, offer: calls.Input) -> _Self:
        """The table with what an offer brings."""
        with explaining.of_tables(lambda: words_of(offer), self._words), explaining.of_input(offer, "offer"):
            return self._made(calls.made(calls.APPLY, self._length() + calls.length_of(offer) + _ROOM, self._file, offer))

    def _asked(self) -> calls.Opened:
        """What queries are asked of. Two threads that ask first at the same time may both open it; one opening stays."""
        opened = self._opened
        if opened is None:
            file = self._file
            with explaining.of_input(file):
                opened = self._opened = calls.Opened.of_file(file)
        return opened

    def _schema(self) -> Schema:
        """The schema, which the front of the file has. The file is judged already, or a call made it."""
        schema = self._read_schema
        if schema is None:
            opened = self._opened if self._held is None else None
            front = bytes(self._view()[:_FRONT]) if opened is None else calls.given(calls.CREATE, _ROOM, opened.words())
            schema = self._read_schema = Schema.of(front)
        return schema

    def _words(self) -> bytes:
        """The words of the table."""
        return self._schema().words

    def _front(self) -> bytes:
        """The front of the table's files, up to the count of batches."""
        return self._schema().front

    def _length(self) -> int:
        return calls.length_of(self._file)

    def _file_room(self) -> int:
        """How much room the file takes at most, also if it isn't made yet."""
        held = self._held
        return self._room if held is None else calls.length_of(held) + _ROOM

    def _view(self) -> memoryview:
        """The file's bytes, without a copy."""
        return calls.view_of(self._file)

    def __reduce__(self) -> tuple[object, ...]:
        return type(self).from_bytes, (self.to_bytes(),)

    def __eq__(self, other: object) -> bool:
        if not isinstance(other, Table):
            return NotImplemented
        if self._length() != other._length():
            return False
        one, two = self._view(), other._view()
        return all(bytes(one[at : at + _PIECE]) == bytes(two[at : at + _PIECE]) for at in range(0, self._length(), _PIECE))

    def __hash__(self) -> int:
        return hash((self._length(), zlib.crc32(self._view())))

    def _repr_html_(self) -> str:
        """The table for a notebook: its name, how much it has, and its columns."""
        rows = "".join(f"<tr><td>{name}</td><td>{kind}</td></tr>" for name, kind in self.columns.items())
        return f"<p><b>{self.name}</b>: {len(self):,} rows, {self._length():,} bytes</p><table><tr><th>COLUMN</th><th>TYPE</th></tr>{rows}</table>"

    def __repr__(self) -> str:
        kind = f"{'lanes.' * (type(self) is Table)}{type(self).__name__}"
        return f"<{kind} {self.name} of {self._length()} bytes>" if self._held is not None or self._opened else f"<{kind}, closed>"


def _named(batch: Optional[BatchName]) -> tuple[int, int, Any, int]:
    """The name of an import as its call takes it: if none is given, random words of which one is drawn."""
    origin, number = batch if batch is not None else (0, 0)
    words = [] if batch is not None else [secrets.randbits(64) for _ in range(_WORDS)]
    return origin, number, (ctypes.c_uint64 * len(words))(*words), len(words)


def _table_of(other: object) -> Table:
    """A table that is merged, or what a folder holds.

    Raises:
        TypeError: it is neither.
    """
    from .folder import Folder

    if isinstance(other, Folder):
        return other.read()
    if isinstance(other, Table):
        return other
    is_path = isinstance(other, (str, os.PathLike))
    raise arguments.wrong("others", "a Table or a Folder", other, cure="lanes.open opens a path" if is_path else "merge(*tables) takes several" if isinstance(other, (list, tuple)) else "")


def _type_of(column: str, given: object) -> str:
    """The type of a column.

    Raises:
        Refused: `BadSchema`: there is no such type.
        TypeError: it is no name of a type.
    """
    kind = type_of(given)
    if kind is None and not isinstance(given, (str, type)) and not hasattr(given, "name"):
        raise TypeError(f"columns: {given!r} is no name of a type, as 'SMALLINT'")
    if kind is None:
        word = given if isinstance(given, str) else given.__name__ if isinstance(given, type) else str(getattr(given, "name", given))
        sentence = f"the type {word!r} of column {column} is unknown: a type is TINYINT, SMALLINT, INTEGER or BIGINT"
        raise calls.refused(_BAD_SCHEMA, sentence="; ".join(filter(None, [sentence, cure_of(word)])))
    return kind


def _judged(argument: str, word: str) -> str:
    """The name of a table or a column.

    Raises:
        Refused: `BadSchema`.
    """
    if word.split() != [word]:  # the words of a table have blanks between them, so this can't be one of them
        raise calls.refused(_BAD_SCHEMA, sentence=f"{word!r} is no name: a name is a letter, and up to 63 letters, digits or _").said_of(argument)
    if not _WORD.fullmatch(word):
        words = f"{word} A INTEGER" if argument == "name" else f"T {word} INTEGER"
        raise calls.explained(calls.refused(_BAD_SCHEMA), calls.Given(calls.WORDS, words.encode())).said_of(argument)
    return word


def _joined(one: calls.Input, other: calls.Input) -> calls.Input:
    """The file of what two hold."""
    with explaining.of_tables(lambda: words_of(other), lambda: words_of(one)):
        return calls.made(calls.MERGE, calls.length_of(one) + calls.length_of(other) + _ROOM, one, other)


def words_of(file: calls.Input) -> bytes:
    """The words of the table of a file or an offer."""
    return Schema.of(bytes(calls.view_of(file)[:_FRONT])).words


def _ordinal(name: str, given: object) -> int:
    """The ordinal of a row in its batch.

    Raises:
        ValueError: no row has it.
        TypeError: it is no whole number.
    """
    ordinal = arguments.number_of(name, given)
    if not 0 <= ordinal <= 0xFFFF:
        raise ValueError(f"{name}: an ordinal is from 0 to 65,535, and this is {ordinal}")
    return ordinal


# An edit is of a table, and the hint of `Table.edit` is to be read: so it comes once the table is here.
from .editing import Edit  # noqa: E402
