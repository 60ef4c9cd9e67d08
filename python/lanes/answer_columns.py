"""The columns of an answer, as the library keeps them: numbers, and which rows have one."""

from __future__ import annotations

import re
from decimal import Context, Decimal
from typing import TYPE_CHECKING, Any, Iterable, List, NamedTuple, Optional, Union

from . import calls

if TYPE_CHECKING:
    import numpy as np

    from .columns import ColumnData

#: A field: a whole number, a mean, or None for a null.
Value = Optional[Union[int, Decimal]]

#: How many bytes a number has, and how many one in two words.
SHORT, WIDE = 8, 16

#: The kind of a column of means, as `lanes_answer_kind` tells it.
_MEANS = 2

#: How many millionths are one.
_ONE = 1_000_000

#: Up to this number each whole number is a float.
_EXACT = 1 << 53

#: With how many digits a mean is made millionths.
_DIGITS = Context(prec=100)


class AnswerColumn(NamedTuple):
    """A column of an answer."""

    #: Its heading.
    heading: str
    #: Whether it has means, in millionths, or whole numbers.
    is_mean: bool
    #: How many bytes a number has: 8, or 16 if one has more than 64 bits.
    size: int
    #: The numbers, one after another, 0 at a null; of a number of 16 bytes the low word comes first.
    numbers: bytearray
    #: A byte for each row: 1 at a value, and 0 at a null.
    marks: bytearray

    def cut(self, first: int, last: int) -> AnswerColumn:
        """The same of some rows."""
        made = self._replace(numbers=self.numbers[first * self.size : last * self.size], marks=self.marks[first:last])
        return made if self.size == SHORT else of_values(self.heading, made.values(), self.is_mean)

    def values(self) -> List[Value]:
        """The fields: ints, means as `Decimal`s of six decimals, and None at a null."""
        numbers = self._whole_numbers()
        found: List[Value] = [Decimal(f"{number}E-6") for number in numbers] if self.is_mean else [*numbers]
        return found if 0 not in self.marks else [field if mark else None for field, mark in zip(found, self.marks)]

    def array(self) -> ColumnData:
        """The same as arrays of numpy: int64, or Python's own numbers if one has more than 64 bits; of means float64."""
        import numpy as np

        from .columns import ColumnData

        marks = np.frombuffer(self.marks, bool)
        nulls = None if 0 not in self.marks else np.logical_not(marks)
        if self.is_mean:
            return ColumnData(self._floats(), nulls)
        if self.size == SHORT:
            return ColumnData(np.frombuffer(self.numbers, np.int64).copy(), nulls)
        return ColumnData(np.array(self.values(), object), nulls)

    def _whole_numbers(self) -> List[int]:
        """The numbers, 0 at a null."""
        if self.size == SHORT:
            return memoryview(self.numbers).cast("q").tolist()
        low, high = memoryview(self.numbers).cast("Q")[0::2], memoryview(self.numbers).cast("q")[1::2]
        return [(upper << 64) + lower for lower, upper in zip(low.tolist(), high.tolist())]

    def _floats(self) -> np.ndarray[Any, Any]:
        """The means as floats: each is the nearest one."""
        import numpy as np

        if self.size == SHORT:
            numbers = np.frombuffer(self.numbers, np.int64)
            if not len(numbers) or (numbers.min() >= -_EXACT and numbers.max() <= _EXACT):
                return numbers / _ONE
        return np.array([number / _ONE for number in self._whole_numbers()], np.float64)


def frame(columns: Iterable[AnswerColumn]) -> Any:
    """The columns as a frame of pandas, with its nullable types."""
    import numpy as np
    import pandas as pd

    headings, arrays = [], {}
    for at, column in enumerate(columns):
        values, nulls = column.array()
        headings.append(column.heading)
        if values.dtype == object:
            arrays[at] = pd.array(values, object)
        else:
            kind = pd.arrays.FloatingArray if column.is_mean else pd.arrays.IntegerArray
            arrays[at] = kind(values, np.zeros(len(values), bool) if nulls is None else nulls)
    made = pd.DataFrame(arrays, copy=False)
    made.columns = pd.Index(headings)
    return made


# ---- of fields


def of_values(heading: str, fields: Iterable[Value], is_mean: bool) -> AnswerColumn:
    """The column of these fields."""
    given = list(fields)
    is_mean = is_mean or any(isinstance(field, Decimal) for field in given)
    numbers = [0 if field is None else _number(field, is_mean) for field in given]
    size = SHORT if all(-(1 << 63) <= number < 1 << 63 for number in numbers) else WIDE
    words = b"".join(number.to_bytes(size, "little", signed=True) for number in numbers)
    return AnswerColumn(heading, is_mean, size, bytearray(words), bytearray(field is not None for field in given))


def _number(field: Union[int, Decimal], is_mean: bool) -> int:
    """A field as a whole number, of a mean its millionths."""
    if isinstance(field, Decimal):
        return int(field.scaleb(6, _DIGITS))
    return field * _ONE if is_mean else field


# ---- of the library


def of_kept(kept: calls.Kept, sql: str) -> List[AnswerColumn]:
    """The columns of an answer that the library keeps, of the query that this text is.

    Raises:
        OutOfMemory: there is no memory for them.
    """
    try:
        rows = kept.rows()
        means = means_of(sql, kept.columns())
        return [_column_of(kept, at, rows, is_mean) for at, is_mean in enumerate(means)]
    except MemoryError:
        raise calls.refused(calls.MEMORY, sentence="there is no memory for the answer") from None


def _column_of(kept: calls.Kept, at: int, rows: int, is_mean: bool) -> AnswerColumn:
    """A column. If it has no value, the query says whether it has means."""
    heading, kind = kept.heading(at), kept.kind(at)
    is_mean = kind == _MEANS if kind else is_mean
    numbers, marks, size = bytearray(SHORT * rows), bytearray(rows), SHORT
    if rows and not kept.numbers(at, numbers, marks):
        numbers, size = bytearray(WIDE * rows), WIDE
        kept.wide(at, numbers, marks)
    return AnswerColumn(heading, is_mean, size, numbers, marks)


def means_of(sql: str, count: int) -> List[bool]:
    """Which columns of a query's answer have means, by its text, which was taken already: its keywords are nowhere else."""
    items = re.match(r"\s*SELECT\b(.*?)\bFROM\b", sql, re.ASCII | re.IGNORECASE | re.DOTALL)
    found = [re.match(r"\s*AVG\s*\(", item, re.ASCII | re.IGNORECASE) is not None for item in items[1].split(",")] if items else []
    return found if len(found) == count else [False] * count
