"""Columns and rows of Python's own numbers, as lists: numpy is not needed."""

from __future__ import annotations

import array
import datetime
import operator
from typing import TYPE_CHECKING, Any, Dict, Iterable, List, Mapping, NamedTuple, Optional, Sequence, Tuple

from . import arguments

if TYPE_CHECKING:
    from .table import Table

#: How many rows have their bits in as many bytes.
_ROWS, _BYTES = 512, 64

#: What is said of a value that is no whole number, by its type.
_TOLD: Tuple[Tuple[Any, str], ...] = (
    (bool, "a truth value: write 1 or 0"),
    (float, "a float: floats are not rounded"),
    ((str, bytes), "a text: int() makes a number of it"),
    (datetime.datetime, "a time: value.timestamp() makes a number of it, and int() a whole one"),
    (datetime.date, "a date: int(value.strftime('%Y%m%d')) makes a number of it"),
)


class Cells(NamedTuple):
    """Rows as the library takes them: how many there are; their numbers of 64 bits, one column after another, and their bits, which are 1 at a
    value, each as an address and a count; and what has them."""

    rows: int
    values: Tuple[int, int]
    valid: Tuple[int, int]
    kept: Any


class PlainColumn(NamedTuple):
    """Numbers of 64 bits, 0 at a null, and a byte for each, 1 at a value and 0 at a null; no bytes if none is null."""

    numbers: array.array[int]
    marks: bytes

    @classmethod
    def of(cls, name: str, values: Sequence[Any]) -> PlainColumn:
        """The column of numbers, and None for a null.

        Raises:
            TypeError: a value is no whole number.
            ValueError: a value has more than 64 bits, or is a list.
        """
        kinds = set(map(type, values))
        whole = values if kinds <= {int, type(None)} else [_whole(name, row, value) for row, value in enumerate(values)]
        is_full = None not in whole
        try:
            numbers = array.array("q", whole if is_full else [0 if value is None else value for value in whole])
        except OverflowError:
            row = next(row for row, value in enumerate(whole) if value is not None and not -(1 << 63) <= value < 1 << 63)
            raise ValueError(f"column {name}: {whole[row]} in row {row} is outside every type") from None
        return cls(numbers, b"" if is_full else bytes(value is not None for value in whole))


def _whole(name: str, row: int, value: Any) -> Optional[int]:
    """A value of a list.

    Raises:
        TypeError: it is neither a whole number nor a null.
        ValueError: it is a list.
    """
    if value is None or type(value).__name__ == "NAType":
        return None
    is_truth, has_several = type(value).__name__ in ("bool", "bool_"), bool(getattr(value, "ndim", False))
    if not is_truth and not has_several:
        try:
            return operator.index(value)
        except TypeError:
            pass
    if has_several or isinstance(value, (list, tuple, dict, set)):
        raise ValueError(f"column {name}: a list of numbers is wanted, and in row {row} is {value!r}")
    known = bool(value) if is_truth else value
    said = next((f": it is {words}" for kind, words in _TOLD if isinstance(known, kind)), "")
    raise TypeError(f"column {name}: whole numbers and None are wanted, and {value!r} is none, in row {row}{said}")


class PlainRows:
    """Columns of one length."""

    def __init__(self, columns: List[PlainColumn]) -> None:
        self._columns = columns
        self.rows = len(columns[0].numbers)

    def cells(self, first: int, last: int) -> Cells:
        """Some of the rows."""
        rows = last - first
        numbers = array.array("q")
        for column in self._columns:
            numbers.extend(column.numbers[first:last])
        bits = bytearray()
        if any(column.marks for column in self._columns):
            bits = bytearray(b"".join(_bits(column.marks[first:last], rows) for column in self._columns))
        held = (numbers, array.array("B", bits))
        (values, _), (valid, _) = (data.buffer_info() for data in held)
        return Cells(rows, (values, len(numbers)), (valid, len(bits)), held)

    def number(self, column: int, row: int) -> int:
        """The number of a cell."""
        return self._columns[column].numbers[row]


def _bits(marks: bytes, rows: int) -> bytes:
    """The bits of some rows of a column, 1 at a value, in 64 bytes for each 512 rows; all are 1 if there are no marks."""
    size = _BYTES * -(-rows // _ROWS)
    if not marks:
        return b"\xff" * size
    digits = marks.translate(bytes([48, 49]) + bytes(254))[::-1]
    return int(digits or b"0", 2).to_bytes(size, "little")


def columns_of(rows: Iterable[Any], table: Table) -> Dict[str, List[Any]]:
    """The columns of rows: each is a dict of the columns' names, or a list or tuple of as many values.

    Raises:
        TypeError: one is neither.
        ValueError: one has other columns than the table, or another number of values.
    """
    names = list(table.columns)
    found: Dict[str, List[Any]] = {name: [] for name in names}
    appends = [values.append for values in found.values()]
    for at, row in enumerate(_several(rows)):
        for append, value in zip(appends, _values_of(at, row, names)):
            append(value)
    return found


def _several(rows: Any) -> Iterable[Any]:
    """Rows, which may come one after another.

    Raises:
        TypeError: they are one text, one row, or none.
    """
    if isinstance(rows, (str, bytes, bytearray, memoryview, Mapping)) or not isinstance(rows, Iterable):
        raise arguments.wrong("rows", "several rows, as dicts or tuples,", rows, "are")
    return rows


def _values_of(at: int, row: Any, names: List[str]) -> Sequence[Any]:
    """The values of a row, in the table's order.

    Raises:
        TypeError: it is no row.
        ValueError: it has other columns, or another number of values.
    """
    if isinstance(row, Mapping):
        given = {arguments.column_of(name) if isinstance(name, str) else name: value for name, value in row.items()}
        if len(given) != len(row) or given.keys() != set(names):
            raise ValueError(f"rows[{at}]: the columns {', '.join(names)} are wanted, each once, and these are {', '.join(map(str, row)) or 'none'}")
        return [given[name] for name in names]
    if not isinstance(row, Sequence) or isinstance(row, (str, bytes, bytearray, memoryview)):
        raise arguments.wrong(f"rows[{at}]", "a dict or a tuple", row, cure="import_columns takes arrays" if hasattr(row, "dtype") else "")
    if len(row) != len(names):
        raise ValueError(f"rows[{at}]: {len(names)} values are wanted, of {', '.join(names)}, and these are {len(row)}")
    return row
