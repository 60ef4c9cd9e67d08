"""A query over many files that share no batch: what each file is asked, and how the partial answers become one answer.

    plan = lanes.split(sql, table)                       # any table of these columns
    partials = [plan.ask(table) for table in tables]     # anywhere, in any order
    answer = plan.finish(lanes.combine(partials))

The answer is that of `query` over the merged file: rows, headings and means. The order of the partial answers does not matter.
"""

from __future__ import annotations

import ctypes
from typing import Dict, Iterable, Optional, Union

from . import arguments, calls, explaining
from .answer import Answer
from .batch_name import BatchName
from .errors import NotApart, Refused
from .partial_answers import Partial, judge, names_batch
from .schema import Schema
from .table import Table
from .values import NONE, Values, filled

#: How much room an answer's text is given at first, and a partial answer beside those that it is made of.
_ROOM = 65_536

#: The numbers of refusals that are looked at here.
_SCHEMA_DIFFERS, _NOT_APART, _MISSING = 8, 40, 43

#: What is taken for bytes.
_Bytes = Union[bytes, bytearray, memoryview]


class Plan:
    """A query, and the name and the columns of the tables that it is asked of. `split` makes one; it can be pickled."""

    def __init__(self, sql: str, name: str, columns: Dict[str, str]) -> None:
        #: The query, the table's name and its columns, and the headings of the answer.
        self.sql, self.name, self.columns = sql, name, columns
        self.headings = Table.create(name, columns).query(sql).headings

    def ask(self, table: Table) -> Partial:
        """The partial answer of one table: `table.partial`.

        Raises:
            Refused: `SchemaDiffers` if the table has another name or other columns.
        """
        arguments.is_of("table", Table, table)
        if (table.name, table.columns) != (self.name, self.columns):
            raise calls.refused(_SCHEMA_DIFFERS)
        return table.partial(self.sql)

    def none(self) -> Partial:
        """The partial answer of no table, with which any other one is combined into itself."""
        return Table.create(self.name, self.columns).partial(self.sql)

    def combine(self, one: _Bytes, other: _Bytes) -> Partial:
        """The partial answer that is of the tables of both: `combine` of two.

        Raises:
            NotApart: they have a batch in common, as when a partial answer came twice, or one deletes rows of a batch of the other.
        """
        return combine([one, other])

    def finish(self, partial: _Bytes, expect: Iterable[_Bytes] = ()) -> Answer:
        """The answer of the query over all tables of a partial answer: `finish` of it."""
        return finish(partial, expect)


def split(sql: str, table: Table, values: Values = NONE) -> Plan:
    """How a query is asked of many tables of one name and the same columns. Of the table nothing else is used.

    Args:
        sql, values: the query, and a value for each `?` of it, as of `Table.query`.
        table: any table of these columns.

    Raises:
        Refused: what `query` refuses the text as.
    """
    arguments.is_of("table", Table, table)
    arguments.text_of("sql", sql)
    table.query(sql, values)
    return Plan(filled("sql", sql, values).text.decode(), table.name, table.columns)


def combine(partials: Iterable[_Bytes]) -> Partial:
    """The partial answer that is of the tables of all of these partial answers, in whichever order they come.

    Raises:
        NotApart: two have a batch in common, as when a partial answer came twice, or one deletes rows of a batch of the other.
        Refused: a fault of a partial answer, `SchemaDiffers`, `QueryDiffers` or `TooMany`.
        ValueError: there are no partial answers.
    """
    level = [arguments.bytes_of(f"partials[{at}]", partial, "table.partial(sql) gives them") for at, partial in enumerate(arguments.several("partials", "several partial answers", partials))]
    if not level:
        raise ValueError("partials: there are none to combine")
    if len(level) == 1:
        _judge(level)
    given = level
    while len(level) > 1:  # in pairs, so that a partial answer is read as often as the tree is high, and not once for each other one
        try:
            pairs = [_joined(one, other) for one, other in zip(level[0::2], level[1::2])]
        except Refused:
            _judge(given)
            raise
        level = pairs + level[2 * len(pairs) :]
    return Partial(level[0])


def finish(partial: _Bytes, expect: Iterable[_Bytes] = ()) -> Answer:
    """The answer of the query that a partial answer is of, over all its tables.

    Args:
        expect: summaries of tables, as `Table.summary` gives them. There is an answer only if each batch that one of them names was
            counted. So a table whose partial answer was lost is noticed; docs/MANY-MACHINES.md says when to take the summaries.

    Raises:
        Refused: a fault of the partial answer; of a summary, with its place in `expect`; `SchemaDiffers` if a summary is of another table;
            `Missing` with the least batch that was not counted; `QueryDiffers` if the groups of the partial answer are not those of its
            query; `TooMany`.
    """
    given = Partial(arguments.bytes_of("partial", partial, "table.partial(sql) gives them"))
    expected = [arguments.bytes_of(f"expect[{at}]", summary, "table.summary() gives them") for at, summary in enumerate(arguments.several("expect", "several summaries", expect))]
    if not expected:
        with explaining.of_input(given, "partial"):
            return Answer.of_kept(calls.Kept.of_partial(given), given.query)
    lengths, room = (ctypes.c_size_t * len(expected))(*map(len, expected)), _ROOM + calls.FIELD * len(given)
    try:
        text = calls.given(calls.FINISH_EXPECTED, room, given, b"".join(expected), ctypes.addressof(lengths), len(expected), 0).decode()
    except Refused as refusal:
        raise _of_summary(refusal, given, expected) from None
    return Answer.from_text(text, given.query)


def _of_summary(refusal: Refused, given: Partial, expected: list[bytes]) -> Refused:
    """A refusal that is said of the summary that it is of, if it is of one."""
    first, second = refusal.args[2]  # of a fault of a summary the second number is the summary's, from 1
    at: Optional[int] = None
    if refusal.number == _MISSING:
        at = next(at for at, summary in enumerate(expected) if names_batch(summary, BatchName(first, second)))
    elif refusal.number == _SCHEMA_DIFFERS:
        at = next((at for at, summary in enumerate(expected) if Schema.of(summary)[:2] != Schema.of(given)[:2]), None)
    elif second:
        at, second = second - 1, 0
    if at is None:
        return refusal
    said = calls.refused(refusal.number, first, second)
    if refusal.number == _SCHEMA_DIFFERS:
        said = calls.explained(said, calls.Given(calls.WORDS, Schema.of(expected[at]).words), Schema.of(given).words)
    return said.said_of(f"expect[{at}]")


def check_apart(tables: Iterable[Table]) -> None:
    """Refuses tables of which two have the same batch, whose rows would count twice, or of which one deletes rows of a batch of another.

    Raises:
        NotApart: with the batch's name.
    """
    if isinstance(tables, Table):
        raise arguments.wrong("tables", "several tables", tables, "are")
    given = [arguments.is_of("tables", Table, table) for table in arguments.several("tables", "several tables", tables)]
    partials = [table.partial(f"SELECT COUNT(*) FROM {table.name}") for table in given]
    if partials:
        try:
            combine(partials)
        except NotApart as fault:
            raise NotApart(f"tables: batch {fault.batch} is in two of them, or one deletes rows of it that another has: merge these, as one.merge(other)", fault.batch) from None


def _judge(partials: Iterable[bytes]) -> None:
    """Refuses the first of some partial answers that is at fault.

    Raises:
        Refused: its first fault, which is said of its place.
    """
    for at, partial in enumerate(partials):
        with explaining.of_input(partial, f"partials[{at}]"):
            judge(partial)


def _joined(one: bytes, other: bytes) -> bytes:
    """The partial answer of two."""
    try:
        with explaining.of_tables(lambda: Schema.of(other).words, lambda: Schema.of(one).words):
            return calls.given(calls.COMBINE, len(one) + len(other) + _ROOM, one, other)
    except Refused as refused:
        if refused.number == _NOT_APART:
            raise NotApart(refused.sentence, BatchName(*refused.place)) from None
        raise


__all__ = ["NotApart", "Partial", "Plan", "check_apart", "combine", "finish", "split"]
