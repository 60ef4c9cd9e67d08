"""Columns that are given, as arrays, frames or lists: their numbers and nulls go to the library as they are, some batches at once."""

from __future__ import annotations

import secrets
from typing import TYPE_CHECKING, Any, Iterable, List, Mapping, Optional, Sequence, Tuple, TypeVar, Union

from . import arguments, calls
from .batch_name import GREATEST, BatchName
from .columns import BITS, ColumnData
from .errors import Refused
from .holdings import Holdings
from .pieces import AT_ONCE, BATCH, Load, Progress, later, tell
from .plain_columns import Cells, PlainColumn, PlainRows

if TYPE_CHECKING:
    from .table import Table

#: The class of a table.
_Table = TypeVar("_Table", bound="Table")

#: How often a name is drawn that nobody has.
_DRAWS = 16

#: What is said of arrays that have no whole numbers, by the letter of their type.
_TOLD = {
    "f": "; floats are not rounded, and pandas has Int64 for numbers with nulls",
    "b": ", of truth values: .astype('int8') makes 1 and 0 of them",
    "M": ", of times: .dt.strftime('%Y%m%d').astype('int64') makes numbers of them",
    "m": ", of spans of time: .dt.total_seconds().round().astype('int64') makes numbers of them",
    "U": ", of texts: .astype('int64') makes numbers of them",
    "S": ", of texts: .astype('int64') makes numbers of them",
}

#: The numbers of refusals that are made here.
_OUT_OF_TYPE, _NUMBERS_SPENT = 7, 9


def with_rows(table: _Table, columns: Mapping[str, Any], batch: Optional[BatchName], progress: Optional[Progress]) -> _Table:
    """The table with the rows of columns. They go in some batches at once; so there is never much in memory in addition to the columns.

    Raises:
        Refused: `OutOfType` with the first such row and its column, `NumbersSpent`, and what the library refuses.
        ValueError: the columns aren't those of the table, or are of several lengths.
        TypeError: values are no whole numbers.
    """
    data = _given(table, columns)
    rows = data.rows
    if not rows:
        return table
    batches = -(-rows // BATCH)
    if batch is not None:
        later(batch, batches - 1)
    if rows <= AT_ONCE:
        made = _with_piece(table, data, 0, rows, batch)
        tell(progress, rows, rows)
        return made
    name = drawn_name(table, batches) if batch is None else batch
    load = Load(table)
    for first in range(0, rows, AT_ONCE):
        last = min(first + AT_ONCE, rows)
        load.add(_with_piece(load.empty, data, first, last, later(name, first // BATCH)))
        tell(progress, last, rows)
    return load.into(table)


def _with_piece(table: _Table, data: Union[ArrayRows, PlainRows], first: int, last: int, name: Optional[BatchName]) -> _Table:
    """The table with some of the rows. Without a name one is drawn.

    Raises:
        Refused: `OutOfType` with the first such row of all and its column; and what the library refuses.
    """
    places = data.too_large(first, last, [BITS[kind] for kind in table.columns.values()]) if isinstance(data, ArrayRows) else []
    try:
        made = table._with_columns(data.cells(first, last), name)
    except Refused as refusal:
        if refusal.number == _OUT_OF_TYPE:
            places.append(refusal.place)
        elif not places or refusal.number == calls.MEMORY:
            raise
    if places:
        row, column = min(places)
        raise _outside(table, first + row, column, data.number(column, first + row)) from None
    return made


def _outside(table: Table, row: int, column: int, number: int) -> Refused:
    """The refusal of a number that is outside its column's type."""
    name, kind = list(table.columns.items())[column]
    greatest = (1 << BITS[kind] - 1) - 1
    words = f"row {row}, column {name}: {number} is outside {kind}, which has {-greatest - 1} to {greatest}"
    return calls.refused(_OUT_OF_TYPE, row, column, words)


def _given(table: Table, columns: Mapping[str, Any]) -> Union[ArrayRows, PlainRows]:
    """The columns that were given, in the table's order. Lists of Python's own numbers alone need no numpy.

    Raises:
        ValueError: they aren't those of the table, or are of several lengths.
        TypeError: values are no whole numbers.
    """
    if not isinstance(columns, Mapping):
        raise arguments.wrong("columns", "a dict of columns", columns, cure="import_rows takes rows")
    for word in columns:
        if not isinstance(word, str):
            raise TypeError(f"columns: {word!r} is no name of a column: the columns {', '.join(table.columns)} are wanted")
    names = {arguments.column_of(word): word for word in columns}
    if len(names) != len(columns) or set(names) != set(table.columns):
        raise ValueError(f"columns: the columns {', '.join(table.columns)} are wanted, each once, and these are {', '.join(columns) or 'none'}")
    given = [(names[name], columns[names[name]]) for name in table.columns]
    if all(isinstance(data, (list, tuple, range)) and not isinstance(data, ColumnData) for _, data in given):
        plain = [PlainColumn.of(name, data) for name, data in given]
        _judge_lengths(len(column.numbers) for column in plain)
        return PlainRows(plain)
    arrays = [Column(name, data) for name, data in given]
    _judge_lengths(map(len, arrays))
    return ArrayRows(arrays)


def _judge_lengths(lengths: Iterable[int]) -> None:
    """Refuses columns of several lengths."""
    found = set(lengths)
    if len(found) != 1:
        raise ValueError(f"columns: they have {' and '.join(map(str, sorted(found)))} rows")


def columns_of(frame: Any) -> dict[str, Any]:
    """The columns of a frame of pandas.

    Raises:
        TypeError: it is no frame, or a column's name is no text.
        ValueError: a name is there twice, or the index has a name: it would be lost.
    """
    if not hasattr(frame, "columns") or not hasattr(frame, "iloc"):
        raise arguments.wrong("frame", "a frame of pandas", frame, cure="import_rows takes rows, and import_columns a dict of columns")
    named = [name for name in frame.index.names if name is not None]
    if named:
        raise ValueError(f"frame: the index {', '.join(map(str, named))} is no column: frame.reset_index() makes one of it, frame.reset_index(drop=True) drops it")
    found: dict[str, Any] = {}
    for at, name in enumerate(frame.columns):
        if not isinstance(name, str):
            raise TypeError(f"frame: {name!r} is no name of a column")
        if name in found:
            raise ValueError(f"frame: the column {name!r} is there twice")
        found[name] = frame.iloc[:, at]
    return found


class Column:
    """Values that were given: a ColumnData, an array or a masked array of whole numbers, a series of pandas, or a list with None for a null.
    What is an array already isn't copied.

    Raises:
        TypeError: they are no whole numbers.
        ValueError: they are no list of numbers, or not as many nulls.
    """

    def __init__(self, name: str, data: Any) -> None:
        import numpy as np

        masked: Any = np.ma
        self._series: Any = None
        self._values: Any = data
        self._nulls: Any = None
        if isinstance(data, ColumnData):
            self._values, self._nulls = np.asarray(data.values), None if data.nulls is None else np.asarray(data.nulls, bool)
        elif isinstance(data, masked.MaskedArray):
            self._values, self._nulls = np.asarray(data.data), masked.getmaskarray(data)
        elif hasattr(data, "isna") and hasattr(data.dtype, "na_value") and data.dtype.kind in "iu":  # pandas, with nulls of its own
            self._series = data
            return
        else:
            self._values, self._nulls = _listed(name, data)
        if self._values.ndim == 0:
            cure = f": [{data}] is a list" if isinstance(data, int) else ": list() makes one of it" if isinstance(data, Iterable) and not isinstance(data, str) else ""
            raise ValueError(f"column {name}: a list of numbers is wanted, and this is of type {type(data).__name__}{cure}")
        if self._values.ndim != 1 or self._nulls is not None and self._nulls.shape != self._values.shape:
            raise ValueError(f"column {name}: a list of numbers is wanted, and as many nulls")
        kind = self._values.dtype
        if kind.kind not in "iu":
            raise TypeError(f"column {name}: whole numbers are wanted, and this is {kind}{_TOLD.get(kind.kind, '')}")

    def __len__(self) -> int:
        return len(self._values)

    def kind(self) -> Tuple[str, int]:
        """Whether the numbers are signed, i, or not, u, and how many bytes each has."""
        kind = self._values.dtype
        return kind.kind, getattr(kind, "itemsize", 8)

    def piece(self, first: int, last: int) -> ColumnData:
        """The data of some rows. At a null is any number."""
        import numpy as np

        if self._series is not None:
            some = self._series[first:last] if not hasattr(self._series, "iloc") else self._series.iloc[first:last]
            values: Any = some.to_numpy(dtype=f"{some.dtype.kind}{getattr(some.dtype, 'itemsize', 8)}", na_value=0)
            nulls: Any = np.asarray(some.isna(), bool)
        else:
            values, nulls = self._values[first:last], None if self._nulls is None else self._nulls[first:last]
        return ColumnData(values, None if nulls is None or not nulls.any() else nulls)


def _listed(name: str, data: Any) -> Any:
    """The numbers of an array or a list, and which of them are null."""
    import numpy as np

    if isinstance(data, (list, tuple)):
        return _plain(name, data)
    values = np.asarray(data)
    if values.ndim != 1 or values.dtype.kind != "O":
        return values, None
    return _plain(name, values.tolist())


def _plain(name: str, values: Sequence[Any]) -> Any:
    """Python's own numbers, and None for a null, as arrays."""
    import numpy as np

    column = PlainColumn.of(name, values)
    return np.frombuffer(column.numbers, np.int64), np.frombuffer(column.marks, np.uint8) == 0 if column.marks else None


class ArrayRows:
    """Columns of one length, of which one or more are arrays."""

    def __init__(self, columns: List[Column]) -> None:
        self._columns = columns
        self.rows = len(columns[0])

    def cells(self, first: int, last: int) -> Cells:
        """Some of the rows."""
        data = self._pieces(first, last)
        numbers, bits = _numbers(data), _bits(data)
        return Cells(last - first, (numbers.ctypes.data, numbers.size), (bits.ctypes.data, bits.size), (numbers, bits))

    def number(self, column: int, row: int) -> int:
        """The number of a cell."""
        return int(self._columns[column].piece(row, row + 1).values[0])

    def too_large(self, first: int, last: int, bits: List[int]) -> List[Tuple[int, ...]]:
        """Of each column of unsigned numbers of 64 bits the first of some rows that has one outside the column's type, and which column it is. As a
        signed number it would be another one, so the library can't tell."""
        import numpy as np

        found: List[Tuple[int, ...]] = []
        for at, (column, width) in enumerate(zip(self._pieces(first, last), bits)):
            if column.values.dtype.kind == "u" and column.values.dtype.itemsize == 8:
                outside = column.values > np.uint64((1 << width - 1) - 1)
                if column.nulls is not None:
                    outside &= ~column.nulls
                if outside.any():
                    found.append((int(outside.argmax()), at))
        return found

    def _pieces(self, first: int, last: int) -> List[ColumnData]:
        """The data of some rows."""
        return [column.piece(first, last) for column in self._columns]


def _numbers(data: List[ColumnData]) -> Any:
    """The numbers of columns as the library takes them: of 64 bits, one column after another."""
    import numpy as np

    numbers = np.empty((len(data), len(data[0].values)), np.int64)
    for own, column in zip(numbers, data):
        own[:] = column.values
    return numbers


def _bits(data: List[ColumnData]) -> Any:
    """The bits of columns as the library takes them: 1 at a value, in 64 bytes for each 512 rows of a column; no bytes if no column has a null."""
    import numpy as np

    if all(column.nulls is None for column in data):
        return np.empty(0, np.uint8)
    rows = len(data[0].values)
    bits = np.full((len(data), 64 * -(-rows // 512)), 0xFF, np.uint8)
    for own, column in zip(bits, data):
        if column.nulls is not None:
            own[: -(-rows // 8)] = ~np.packbits(column.nulls, bitorder="little")
    return bits


def drawn_name(table: Table, batches: int) -> BatchName:
    """A name, drawn at random, under which and under the next ones of which the table has no batch and no deletion.

    Raises:
        Refused: `NumbersSpent`, if none is found.
    """
    held = Holdings.of(table)
    for _ in range(_DRAWS):
        name = BatchName(secrets.randbelow(GREATEST) + 1, secrets.randbelow(GREATEST + 1 - batches) + 1)
        names = (_name_bytes(name, at) for at in range(batches))
        if not any(one in held.batches or one in held.foreign for one in names):
            return name
    raise calls.refused(_NUMBERS_SPENT)


def _name_bytes(name: BatchName, at: int) -> bytes:
    """The name of a batch that comes so far after another one, as in a file."""
    return name.origin.to_bytes(4, "little") + (name.number + at).to_bytes(4, "little")
