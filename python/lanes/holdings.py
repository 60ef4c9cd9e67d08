"""What a table holds, by its batches and its deletions."""

from __future__ import annotations

import struct
from typing import Dict, Iterable, NamedTuple

from .table import Table

#: The bytes of a batch's name, of a range of deleted rows, and of the count in front of ranges.
_NAME, _RANGE, _COUNT = 8, 12, 8


class Holdings(NamedTuple):
    """What a table holds: of each batch its ranges of deleted rows, and the deletions of rows of batches that it doesn't hold. Names and ranges
    are bytes, as in a file."""

    batches: Dict[bytes, bytes]
    foreign: Dict[bytes, bytes]

    @classmethod
    def of(cls, table: Table) -> Holdings:
        """What a table holds."""
        summary = table.summary()
        front = len(table._front()) + 4
        batches = {summary[at : at + _NAME]: b"" for at in range(front, len(summary), _NAME)}
        foreign: Dict[bytes, bytes] = {}
        offer = table.offer(summary)  # to one who has all batches the offer is the deletions alone
        before = b""
        pieces: list[bytes] = []
        for at in range(front + _COUNT, len(offer), _RANGE):
            name = offer[at : at + _NAME]
            if name != before:
                _keep(batches, foreign, before, pieces)
                before, pieces = name, []
            pieces.append(offer[at + _NAME : at + _RANGE])
        _keep(batches, foreign, before, pieces)
        return cls(batches, foreign)


def _keep(batches: Dict[bytes, bytes], foreign: Dict[bytes, bytes], name: bytes, pieces: list[bytes]) -> None:
    """Puts the ranges of a batch in their place."""
    if pieces:
        (batches if name in batches else foreign)[name] = b"".join(pieces)
