"""Partial answers, and what they and summaries cover."""

from __future__ import annotations

import functools
import json
from typing import Any

from . import calls
from .batch_name import BatchName, name_of

#: How much room the text of what is covered is given, and how many times the bytes that it is of.
_ROOM, _TIMES = 4096, 8

#: The numbers of the formats text and JSON.
_TEXT, _JSON = 0, 2


class Partial(bytes):
    """A partial answer: what a table gives to the answer of a query over several tables. It is bytes, to be stored, sent and pickled like
    others; docs/FORMATS.md has them, and the program `lanes` reads and writes the same. `lanes.Partial(data)` makes one of bytes.

    What it covers is read of the bytes when it is asked for the first time, and is `Refused` then if they are at fault."""

    @property
    def table(self) -> str:
        """The table's name, in upper case."""
        return str(self._told["table"])

    @property
    def query(self) -> str:
        """The query."""
        return str(self._told["query"])

    @property
    def groups(self) -> int:
        """How many groups there are so far."""
        return int(self._told["groups"])

    @property
    def batches(self) -> int:
        """How many batches were counted."""
        return int(self._told["batches"])

    @property
    def runs(self) -> list[tuple[BatchName, BatchName]]:
        """Which batches were counted: the first and the last name of each run of consecutive names."""
        return _runs_of(self._told["runs"])

    @property
    def strays(self) -> list[tuple[BatchName, BatchName]]:
        """The same of the batches that were not counted, and of which rows are deleted."""
        return _runs_of(self._told["strays"])

    @functools.cached_property
    def _told(self) -> Any:
        """What is told of it.

        Raises:
            Refused: the first fault of the bytes.
        """
        return json.loads(calls.given(calls.INSPECT_PARTIAL, _ROOM + _TIMES * len(self), bytes(self), _JSON))

    def __reduce__(self) -> tuple[object, ...]:
        return type(self), (bytes(self),)

    def __repr__(self) -> str:
        return f"<lanes.Partial of {len(self):,} bytes>"

    __str__ = __repr__


def judge(partial: bytes) -> None:
    """Refuses bytes that are no partial answer.

    Raises:
        Refused: their first fault.
    """
    calls.given(calls.INSPECT_PARTIAL, _ROOM + _TIMES * len(partial), partial, _TEXT)


def names_batch(summary: bytes, name: BatchName) -> bool:
    """Whether a summary names a batch.

    Raises:
        Refused: the summary's first fault.
    """
    told = json.loads(calls.given(calls.INSPECT_SUMMARY, _ROOM + _TIMES * len(summary), summary, _JSON))
    return any(first <= name <= last for first, last in _runs_of(told["runs"]))


def _runs_of(told: list[list[str]]) -> list[tuple[BatchName, BatchName]]:
    """Runs of names as they are told."""
    return [(name_of(first), name_of(last)) for first, last in told]
