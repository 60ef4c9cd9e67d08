"""Rows of a table, as tuples: numpy is not needed. A few batches are in memory at a time."""

from __future__ import annotations

import ctypes
import itertools
from typing import TYPE_CHECKING, Iterable, Iterator, List, Optional, Tuple

from . import calls
from .answer import Row, Value, row_kind

if TYPE_CHECKING:
    from .columns import Selection
    from .table import Table
    from .values import Filled

#: How many rows are read at once, if batches have fewer.
_AT_ONCE = 65_536


def first_rows(table: Table, count: int) -> List[Tuple[Value, ...]]:
    """As many of the live rows as there are up to a number of them, in order of row name. No more batches are read than have them."""
    from .values import Filled

    opened, found = table._asked(), 0
    rows: List[Tuple[Value, ...]] = []
    while len(rows) < count and found < opened.batches():
        rows += _tuples(table, None, Filled(b""), (found, 1), count - len(rows))
        found += 1
    return rows


def rows_of(table: Table, columns: Optional[Iterable[str]], where: Filled) -> Iterator[Row]:
    """The live rows at which a condition is true. The arguments are judged at once.

    Raises:
        Refused: `NoSuchColumn`, or a fault of the condition.
        ValueError: a column is named twice.
    """
    from .columns import Selection

    names = tuple(Selection(table, columns, where, (0, 0)).kinds)
    return map(row_kind(names), itertools.chain.from_iterable(_runs(table, names, where)))


def _runs(table: Table, names: Tuple[str, ...], where: Filled) -> Iterator[List[Tuple[Value, ...]]]:
    """The rows of as many batches at once as are likely to have few."""
    opened, first, step = table._asked(), 0, 1
    while first < opened.batches():
        some = _tuples(table, names, where, (first, step))
        first, step = first + step, step * 2 if len(some) < _AT_ONCE // 2 else max(step // 2, 1)
        yield some


def _tuples(table: Table, names: Optional[Iterable[str]], where: Filled, between: Tuple[int, int], most: Optional[int] = None) -> List[Tuple[Value, ...]]:
    """The live rows of some batches at which a condition is true, or the first of them."""
    from .columns import Selection

    selection = Selection(table, names, where, between)
    wanted = selection.rows if most is None else min(most, selection.rows)
    if not selection.kinds or not wanted:
        return [()] * wanted
    return list(zip(*_cells(selection, wanted)))


def _cells(selection: Selection, wanted: int) -> List[List[Value]]:
    """The first cells of each column."""
    rows, stride, names = selection.rows, selection.stride, list(selection.kinds)
    values, valid, nulls = (ctypes.c_int64 * (rows * len(names)))(), (ctypes.c_uint8 * (stride * len(names)))(), (ctypes.c_uint64 * len(names))()
    selection.read(names, ctypes.addressof(values), ctypes.addressof(valid), ctypes.addressof(nulls))
    return [_column(values[at * rows : at * rows + wanted], bytes(valid[at * stride : (at + 1) * stride]) if nulls[at] else b"") for at in range(len(names))]


def _column(values: List[int], valid: bytes) -> List[Value]:
    """The cells of a column, by its bits that are 1 at a value; without bits none is null."""
    if not valid:
        return [*values]
    return [value if valid[at // 8] >> at % 8 & 1 else None for at, value in enumerate(values)]
