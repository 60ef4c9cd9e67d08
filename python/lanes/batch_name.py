"""Names of batches."""

from __future__ import annotations

import re
from typing import Iterable, NamedTuple, Tuple, Union

from . import arguments

#: The greatest origin, and the greatest number.
GREATEST = (1 << 32) - 1


class BatchName(NamedTuple):
    """The name of a batch: its origin and its number, each from 1 to 4,294,967,295. As a text it is `1.17`."""

    origin: int
    number: int

    def __str__(self) -> str:
        return f"{self.origin}.{self.number}"


#: A name as a call takes it: a `BatchName`, an origin and a number, or a text as `1.17`.
GivenName = Union[BatchName, Tuple[int, int], str]


def name_of(given: GivenName) -> BatchName:
    """The name that was given.

    Raises:
        ValueError: it is no name.
        TypeError: it is neither a text nor two whole numbers.
    """
    if isinstance(given, str):
        found = re.fullmatch(r"([0-9]{1,10})\.([0-9]{1,10})", given)
        pair = [int(part) for part in found.groups()] if found else []
    else:
        if isinstance(given, (bytes, bytearray, memoryview)) or not isinstance(given, Iterable):
            raise arguments.wrong("batch", "a text or two numbers", given, "are", "(1, 17) and '1.17' are names")
        pair = [arguments.number_of("batch", part) for part in given]
    if len(pair) != 2 or not all(0 <= part <= GREATEST for part in pair) or pair == [0, 0]:
        raise ValueError(f"batch: {given!r} is not a batch's name: it is an origin and a number from 1 to 4,294,967,295, as (1, 17) or '1.17'")
    return BatchName(*pair)
