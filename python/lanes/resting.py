"""What a delete in a folder rests on: the parts that have deleted a row which the delete finds, and does not delete anew."""

from __future__ import annotations

import contextlib
import struct
from typing import Dict, Iterable, Iterator, List, Tuple

from . import part_folder
from .errors import Refused
from .holdings import Holdings
from .table import Table
from .values import Filled

#: Rows of a batch that were deleted: the first ordinal and the last one.
_Range = Tuple[int, int]

#: The end of a file that has no deletion: their count. A range of deleted rows does not end so, as no batch has the number 0.
_NO_DELETIONS = bytes(8)


def has_deletions(part: bytes) -> bool:
    """Whether a part has deletions."""
    return not part.endswith(_NO_DELETIONS)


def with_deletions(folder: str, names: Iterable[str], held: Table, condition: Filled) -> List[str]:
    """Those of the parts that have deleted a row at which a condition is true. All that have deletions are among them. The table is what all parts
    hold together. A part that is gone is left out: what took it away is on the disk. One that has other bytes now is not: it is found so when
    it is kept.

    Raises:
        OSError: a part can't be read.
    """
    named = [*names]
    rows = _rows_with_deletions(held, condition) if named else {}
    chosen = []
    for name in named if rows else ():
        with contextlib.suppress(FileNotFoundError):
            if _has_deleted(part_folder.read_part(folder, name), rows):
                chosen.append(name)
    return chosen


def _has_deleted(part: bytes, rows: Dict[bytes, List[_Range]]) -> bool:
    try:
        held = Holdings.of(Table(part))
    except Refused:
        return True
    ranges = [*held.batches.items(), *held.foreign.items()]
    return any(_meet(_ranges_of(data), rows[name]) for name, data in ranges if name in rows)


def _rows_with_deletions(held: Table, condition: Filled) -> Dict[bytes, List[_Range]]:
    """The rows at which a condition is true, deleted ones too, of the batches of which some row is deleted."""
    others = [name for name, ranges in Holdings.of(held).batches.items() if not ranges]
    front = held.summary()[: len(held._front())]
    bare = Table(held.offer(front + len(others).to_bytes(4, "little") + b"".join(others)))
    deleted = 12 * bare.check()[1]
    _, found = Table(bare.to_bytes()[: -deleted - len(_NO_DELETIONS)] + _NO_DELETIONS)._delete_part(condition)
    return {name: [*_ranges_of(data)] for name, data in Holdings.of(Table(found)).foreign.items()} if found else {}


def _ranges_of(data: bytes) -> Iterator[_Range]:
    """Ranges of deleted rows by their bytes."""
    return struct.iter_unpack("<HH", data)  # type: ignore[return-value]


def _meet(some: Iterable[_Range], others: List[_Range]) -> bool:
    """Whether a range of the one list has a row of a range of the other."""
    return any(first <= end and begin <= last for first, last in some for begin, end in others)
