"""Answers of queries: rows under their headings."""

from __future__ import annotations

import functools
import operator
from decimal import Decimal
from typing import TYPE_CHECKING, Any, ClassVar, Dict, Iterable, Iterator, List, Optional, Sequence, Tuple, Type, Union, overload

from . import answer_columns, arguments, calls
from .answer_columns import AnswerColumn, Value
from .columns import ColumnData
from .streams import ArrowStream

__all__ = ["Answer", "Row", "Value"]

#: How many rows a notebook shows.
_SHOWN = 60

#: How many characters one line of what Python shows has at most.
_LINE = 120


class Row(Tuple[Value, ...]):
    """A row: a tuple of a field for each heading. A field whose heading is a name is an attribute, too: `row.SITE`.

    `_fields` are the headings, as of a `collections.namedtuple`. So a frame of pandas that is made of rows has them: `pandas.DataFrame(answer)`.
    """

    __slots__ = ()

    _fields: ClassVar[Tuple[str, ...]] = ()

    def _asdict(self) -> dict[str, Value]:
        """The fields by their headings. Of headings that are the same the last one stays."""
        return dict(zip(self._fields, self))

    def __reduce__(self) -> tuple[object, ...]:
        return _row, (self._fields, tuple(self))


@functools.lru_cache(maxsize=256)
def row_kind(headings: Tuple[str, ...]) -> Type[Row]:
    """The class of rows under these headings."""
    named: Dict[str, Any] = {heading: property(operator.itemgetter(at)) for at, heading in enumerate(headings) if heading.isidentifier()}
    return type("Row", (Row,), {"__slots__": (), "__module__": __name__, "_fields": headings, **named})


def _row(headings: Tuple[str, ...], fields: Tuple[Value, ...]) -> Row:
    """A row under these headings."""
    return row_kind(headings)(fields)


class Answer(Sequence[Row]):
    """The rows of an answer, in order: a sequence of tuples, each of which has the headings as its `_fields`.

    A whole number is an int, a mean a `decimal.Decimal` of six decimals, and a null None. The rows are made when they are asked for the first
    time. `to_pandas`, `to_numpy` and Arrow's stream are made of columns, and not of rows.

    An answer never changes; `list(answer)` is a list of its rows. A part of it, as `answer[:3]`, is an answer, and `answer["HITS"]` is a column.
    Two answers are equal if they have the same headings and rows; a list is equal that has the same rows.
    """

    def __init__(self, headings: list[str], rows: Iterable[Tuple[Value, ...]], sql: str = "") -> None:
        #: The headings, one for each field of a row, as the query has them.
        self.headings: list[str] = headings
        self._rows: Optional[List[Row]] = list(map(row_kind(tuple(headings)), rows))
        self._columns: Optional[List[AnswerColumn]] = None
        self._sql = sql
        self._fetched = 0

    @classmethod
    def of_columns(cls, columns: List[AnswerColumn], sql: str = "") -> Answer:
        """The answer of a query that has these columns."""
        answer = cls([column.heading for column in columns], (), sql)
        answer._rows, answer._columns = None, columns
        return answer

    @classmethod
    def of_kept(cls, kept: calls.Kept, sql: str) -> Answer:
        """The answer of a query that the library keeps."""
        return cls.of_columns(answer_columns.of_kept(kept, sql), sql)

    @classmethod
    def from_text(cls, text: str, sql: str = "") -> Answer:
        """The answer of a query of which this is the text: a line of headings, and a line for each row."""
        headings, *lines = text.split("\n")[:-1]
        return cls(headings.split(","), map(_fields_of, lines), sql)

    # ---- as a sequence of rows

    def _made(self) -> List[Row]:
        """The rows."""
        if self._rows is None:
            self._rows = list(map(row_kind(tuple(self.headings)), zip(*(column.values() for column in self._held()))))
        return self._rows

    def _held(self) -> List[AnswerColumn]:
        """The columns."""
        if self._columns is None:
            means = answer_columns.means_of(self._sql, len(self.headings))
            rows = self._made()
            self._columns = [
                answer_columns.of_values(heading, [row[at] for row in rows], is_mean)
                for at, (heading, is_mean) in enumerate(zip(self.headings, means))
            ]
        return self._columns

    def __len__(self) -> int:
        return len(self._held()[0].marks) if self._rows is None else len(self._rows)

    def __iter__(self) -> Iterator[Row]:
        return iter(self._made())

    @overload
    def __getitem__(self, at: int) -> Row: ...

    @overload
    def __getitem__(self, at: slice) -> Answer: ...

    @overload
    def __getitem__(self, at: str) -> List[Value]: ...

    def __getitem__(self, at: Union[int, slice, str]) -> Union[Row, Answer, List[Value]]:
        if isinstance(at, str):
            return self._column(at)
        if not isinstance(at, slice):
            return self._made()[at]
        first, last, step = at.indices(len(self))
        if self._rows is None and step == 1:
            return type(self).of_columns([column.cut(first, max(first, last)) for column in self._held()], self._sql)
        return type(self)(self.headings, self._made()[at], self._sql)

    def _column(self, heading: str) -> List[Value]:
        """The fields under a heading. Of headings that are the same the last one is meant.

        Raises:
            KeyError: there is no such heading.
        """
        columns, name = self.columns(), arguments.column_of(heading)
        if name not in columns:
            raise KeyError(f"there is no column {heading!r}: the answer has {', '.join(self.headings)}")
        return columns[name]

    def fetchone(self) -> Optional[Row]:
        """The next row that was not fetched yet, or None at the end."""
        some = self._made()[self._fetched : self._fetched + 1]
        self._fetched += len(some)
        return some[0] if some else None

    def fetchall(self) -> List[Row]:
        """All rows that were not fetched yet."""
        some = self._made()[self._fetched :]
        self._fetched += len(some)
        return some

    def __eq__(self, other: object) -> bool:
        if isinstance(other, Answer):
            return self.headings == other.headings and self._made() == other._made()
        return isinstance(other, list) and self._made() == other

    __hash__ = None  # type: ignore[assignment]  # as a list

    # ---- as columns

    def columns(self) -> dict[str, list[Value]]:
        """The fields of each column, by its heading. Of headings that are the same the last one stays: give them other names by AS."""
        if self._rows is None:
            return {column.heading: column.values() for column in self._held()}
        return {heading: [row[at] for row in self._rows] for at, heading in enumerate(self.headings)}

    def to_numpy(self) -> Dict[str, ColumnData]:
        """The columns as arrays of numpy, by their headings: of each its values, and which rows are null, as of `Table.to_numpy`. Whole numbers
        are int64, or Python's own if one has more than 64 bits; means are float64, each the nearest one. Of headings that are the same the
        last one stays."""
        return {column.heading: column.array() for column in self._held()}

    def to_pandas(self) -> Any:
        """A frame of pandas under the same headings: whole numbers as Int64, or as Python's own if one has more than 64 bits; means as
        Float64, also if all are null, which is no longer exact."""
        return answer_columns.frame(self._held())

    def df(self) -> Any:
        """The frame of `to_pandas`."""
        return self.to_pandas()

    if TYPE_CHECKING:

        def __arrow_c_stream__(self, requested_schema: object = None) -> object:
            """The rows for whatever takes Arrow, as pyarrow.table, polars.DataFrame and duckdb. Whole numbers are int64, or decimal128(38, 0)
            if one has more than 64 bits; means are decimal128(38, 6). Nothing is rounded. Each column may be null. A schema that is asked
            for is passed over. The call is there if the module was installed with a C compiler.

            Raises:
                ValueError: a number has more than 38 digits.
            """

    else:
        __arrow_c_stream__ = ArrowStream()

    # ---- as it is shown and sent

    def _repr_html_(self) -> str:
        """The answer for a notebook: its first rows."""
        head = "".join(f"<th>{heading}</th>" for heading in self.headings)
        rows = "".join(f"<tr>{''.join(map(_cell, row))}</tr>" for row in self[:_SHOWN])
        more = f"<p>and {len(self) - _SHOWN:,} more rows</p>" if len(self) > _SHOWN else ""
        return f"<table><tr>{head}</tr>{rows}</table>{more}"

    def __reduce__(self) -> tuple[object, ...]:
        if self._rows is None:
            return type(self).of_columns, (self._columns, self._sql)
        return type(self), (self.headings, [tuple(row) for row in self._rows], self._sql)

    def __repr__(self) -> str:
        """All rows if they have room in a line, and otherwise how many there are."""
        if len(self) < _LINE // 4:  # a row has three characters or more, and a comma
            whole = f"Answer({self.headings!r}, {list(self)!r})"
            if len(whole) <= _LINE:
                return whole
        count = f"{len(self):,} row{'s' * (len(self) != 1)}"
        headings = ", ".join(self.headings)
        return f"<lanes.Answer of {count}: {headings if len(headings) <= _LINE // 2 else headings[: _LINE // 2] + '..'}>"


def _fields_of(line: str) -> Tuple[Value, ...]:
    """The fields of a line, which are mostly whole numbers."""
    fields = line.split(",")
    try:
        return tuple(map(int, fields))
    except ValueError:
        return tuple(map(_value, fields))


def _value(field: str) -> Value:
    if field == "NULL":
        return None
    return Decimal(field) if "." in field else int(field)


def _cell(field: Value) -> str:
    return "<td><i>NULL</i></td>" if field is None else f"<td>{field}</td>"
