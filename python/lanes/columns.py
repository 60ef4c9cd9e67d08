"""Columns of a table as arrays of numpy, and frames of pandas. Both are imported when they are used."""

from __future__ import annotations

from typing import TYPE_CHECKING, Any, Dict, Iterable, Iterator, List, Mapping, NamedTuple, Optional, Sequence, Tuple

from . import arguments, calls, explaining

if TYPE_CHECKING:
    from .table import Table
    from .values import Filled

#: How many rows a batch has at most.
_BATCH = 65_536

#: How many bits a value of a type has.
BITS = {"TINYINT": 8, "SMALLINT": 16, "INTEGER": 32, "BIGINT": 64}


class ColumnData(NamedTuple):
    """A column as arrays: its values, of the column's own type and 0 at a null, and an array that says which rows are null, or None if
    no row is."""

    values: Any
    nulls: Optional[Any]


class Columns(Dict[str, ColumnData]):
    """Columns of some rows: of each its data, by its name."""

    #: How many rows there are, also of no columns.
    rows: int = 0

    def to_pandas(self) -> Any:
        """The same as a frame of pandas, with its nullable types. Of a column that has no null it copies nothing."""
        import numpy as np
        import pandas as pd

        made = {}
        for name, data in self.items():
            nulls = np.zeros(len(data.values), bool) if data.nulls is None else data.nulls
            made[name] = pd.arrays.IntegerArray(data.values, nulls)
        return pd.DataFrame(made, copy=False) if made else pd.DataFrame(index=pd.RangeIndex(self.rows))


class Selection:
    """Columns of the live rows at which a condition is true, in order of row name. Between are the first batch and how many there are, if not
    all are looked at."""

    def __init__(self, table: Table, columns: Optional[Iterable[str]], where: Filled, between: Optional[Tuple[int, int]] = None) -> None:
        kinds = table.columns
        names = list(kinds) if columns is None else names_of(columns, table)
        if len(set(names)) < len(names):
            raise ValueError(f"columns: {next(name for name in names if names.count(name) > 1)} is there twice")
        self._opened, self._condition, self._between = table._asked(), where.text, between
        with explaining.judged("where", where, table):
            #: How many rows there are.
            self.rows = self._opened.columns(" ".join(names).encode(), self._condition, *calls.NO_ROOM, between)
        #: The columns: of each its name and its type.
        self.kinds = {name: kinds[name] for name in names}
        #: How many bytes of bits a column has.
        self.stride = 64 * (-(-self.rows // 512))

    def read(self, names: Sequence[str], values: int, valid: int, nulls: int) -> None:
        """Reads some of the columns into memory, by its addresses: rows values, stride bytes and a number of nulls for each."""
        count = len(names)
        rooms = (values, self.rows * count), (valid, self.stride * count), (nulls, count)
        self._opened.columns(" ".join(names).encode(), self._condition, *rooms, self._between)

    def groups(self) -> list[list[str]]:
        """The columns that are read at once, the narrow ones first: one at a time; or, if a condition has to be judged each time, as many as
        there is memory for: half of what all of them take at the end may come on top of that."""
        names = sorted(self.kinds, key=lambda name: BITS[self.kinds[name]])
        if not self._condition:
            return [[name] for name in names]
        most, done = 1.5 * sum(self._width(name) for name in names), 0
        groups: list[list[str]] = []
        for name in names:
            if not groups or done + 8.125 * (len(groups[-1]) + 1) + self._width(name) > most:
                done += sum(self._width(other) for other in groups[-1]) if groups else 0
                groups.append([])
            groups[-1].append(name)
        return groups

    def _width(self, name: str) -> int:
        """How many bytes a cell of a column has as an array, with its null."""
        return BITS[self.kinds[name]] // 8 + 1


def names_of(columns: Iterable[str], table: Table) -> list[str]:
    """The columns that were named, as the table has them.

    Raises:
        TypeError: they are one text, or no texts.
        Refused: `NoSuchColumn`.
    """
    kinds = table.columns
    found: list[str] = []
    for word in arguments.several("columns", "several names, as ['SITE'],", columns):
        if not isinstance(word, str):
            raise arguments.wrong("columns", "the name of a column", word)
        name = arguments.column_of(word)
        if name not in kinds:
            raise explaining.no_column("columns", ",".join([*found, word]), len(",".join([*found, ""])), table)
        found.append(name)
    return found


def arrays(table: Table, columns: Optional[Iterable[str]], where: Filled, between: Optional[Tuple[int, int]] = None) -> Columns:
    """The columns as arrays."""
    selection = Selection(table, columns, where, between)
    reader = _Reader(selection)
    found: dict[str, ColumnData] = {}
    for names in selection.groups():
        found.update(reader.read(names))
    return _counted(Columns((name, found[name]) for name in selection.kinds), selection.rows)


def _counted(columns: Columns, rows: int) -> Columns:
    """Columns of so many rows."""
    columns.rows = rows
    return columns


def pieces(table: Table, rows: int, columns: Optional[Iterable[str]], where: Filled) -> Iterator[Columns]:
    """The columns in pieces of so many rows, and the last one of those that are left. The arguments are judged at once.

    Raises:
        ValueError: the number is less than 1.
    """
    count = arguments.number_of("rows", rows)
    if count < 1:
        raise ValueError(f"rows: a piece has 1 row or more, and this is {count}")
    names = list(Selection(table, columns, where, (0, 0)).kinds)
    return _cut(_runs(table, names, where, count), count)


def _runs(table: Table, names: List[str], where: Filled, wanted: int) -> Iterator[Columns]:
    """The columns of runs of batches: of as many batches as are likely to have the rows that are wanted, and of few rows more."""
    opened, first, step = table._asked(), 0, 1
    most = max(wanted, _BATCH)
    while first < opened.batches():
        while step > 1 and opened.columns(b"", b"", *calls.NO_ROOM, (first, step)) > 2 * most:
            step //= 2
        found = arrays(table, names, where, (first, step))
        first += step
        if found.rows < most:
            step *= 2
        yield found


def _cut(runs: Iterator[Columns], rows: int) -> Iterator[Columns]:
    """Runs as pieces of so many rows."""
    waiting: List[Columns] = []
    for run in runs:
        waiting.append(run)
        if sum(part.rows for part in waiting) < rows:
            continue
        whole, first = _joined(waiting), 0
        while whole.rows - first >= rows:
            yield _between(whole, first, first + rows)
            first += rows
        waiting = [_between(whole, first, whole.rows)]
    if sum(part.rows for part in waiting):
        yield _joined(waiting)


def _between(columns: Columns, first: int, last: int) -> Columns:
    """Some of the rows."""
    found = _counted(Columns(), last - first)
    for name, data in columns.items():
        nulls = None if data.nulls is None else data.nulls[first:last]
        found[name] = ColumnData(data.values[first:last], None if nulls is None or not nulls.any() else nulls)
    return found


def _joined(parts: List[Columns]) -> Columns:
    """The rows of several."""
    import numpy as np

    if len(parts) == 1:
        return parts[0]
    found = _counted(Columns(), sum(part.rows for part in parts))
    for name in parts[0]:
        data = [part[name] for part in parts]
        nulls = None
        if any(one.nulls is not None for one in data):
            nulls = np.concatenate([np.zeros(len(one.values), bool) if one.nulls is None else one.nulls for one in data])
        found[name] = ColumnData(np.concatenate([one.values for one in data]), nulls)
    return found


class _Reader:
    """Reads columns, group by group. The memory for what is read of one is used for the next: the system makes new pages slowly."""

    def __init__(self, selection: Selection) -> None:
        import numpy as np

        self._selection = selection
        self._values, self._valid = np.empty(0, np.int64), np.empty(0, np.uint8)

    def read(self, names: Sequence[str]) -> Iterator[tuple[str, ColumnData]]:
        """The data of some columns."""
        import numpy as np

        rows, stride, count = self._selection.rows, self._selection.stride, len(names)
        if len(self._values) != rows * count:
            self._values = np.empty(0, np.int64)
            self._values, self._valid = np.empty(rows * count, np.int64), np.empty(stride * count, np.uint8)
        nulls = np.empty(count, np.uint64)
        self._selection.read(names, self._values.ctypes.data, self._valid.ctypes.data, nulls.ctypes.data)
        for at in reversed(range(count)):
            width = BITS[self._selection.kinds[names[at]]] // 8
            if width == 8 and at == 0:
                own, self._values = self._values, np.empty(0, np.int64)  # it is the column itself
            else:
                own = self._values[at * rows :].astype(f"i{width}")
            if count > 1 and at:
                self._values.resize(at * rows, refcheck=False)  # the memory of this column goes back
            yield names[at], ColumnData(own, _nulls(self._valid[at * stride : (at + 1) * stride], rows) if nulls[at] else None)


def frame(table: Table, columns: Optional[Iterable[str]], where: Filled) -> Any:
    """The columns as a frame of pandas, with its nullable types."""
    return arrays(table, columns, where).to_pandas()


def _nulls(bits: Any, rows: int) -> Any:
    """Which rows are null, by bits that are 1 at a value."""
    import numpy as np

    found = np.unpackbits(bits, count=rows, bitorder="little").view(bool)
    return np.logical_not(found, out=found)
