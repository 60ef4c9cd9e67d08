"""What the module raises of its own: each is a `lanes.Error`."""

from __future__ import annotations

import errno
import os

from .batch_name import BatchName

#: How many numbers the place of a refusal has, by the refusal's name; the others have none.
_NUMBERS = {
    **dict.fromkeys(["Conflict", "OutOfType", "BadCsv", "NotApart", "Missing"], 2),
    **dict.fromkeys(
        ["WrongArity", "Truncated", "BadOrder", "BadCount", "BadWidth", "BadTag", "BadMask", "BadDictionary", "BadCode", "BadRange"], 1
    ),
    **dict.fromkeys(["TrailingBytes", "NotCanonical", "Syntax", "NoSuchColumn", "NotGrouped", "NumberTooLarge", "LineTooLong", "System"], 1),
}


class Error(Exception):
    """The base class of the module's exceptions; each is also the built-in one that fits: a ValueError, an OSError, a TimeoutError or a
    MemoryError."""


class Refused(Error, ValueError):
    """A call was refused, and changed nothing. If memory ran out it is an `OutOfMemory`. docs/REFUSALS.md says of each refusal what to do.

    Attributes:
        number: the refusal's number, from 1 to 46.
        name: its name, as `Syntax`.
        place: its place, as the name explains it: `(7,)` is a byte from 0, for `Conflict`, `NotApart` and `Missing` it is the batch's origin and number, and for `BadCsv`
            the line and its field, from 1. It is empty if the refusal has no place.
        sentence: what is wrong and what to write instead, in the words of the program, with the place.
        subject: what it is said of, as the name of an argument or a path; empty if it is said of nothing.
    """

    def __init__(self, number: int, name: str, place: tuple[int, int], sentence: str, subject: str = "") -> None:
        super().__init__(number, name, place, sentence, subject)
        self.number = number
        self.name = name
        self.place: tuple[int, ...] = place[: _NUMBERS.get(name, 0)]
        self.sentence = sentence
        self.subject = subject

    def said_of(self, subject: str, sentence: str = "") -> Refused:
        """The same refusal, said of something, perhaps in another sentence."""
        return type(self)(self.number, self.name, self.args[2], sentence or self.sentence, subject)

    def __str__(self) -> str:
        between = "." if self.name in ("Conflict", "NotApart", "Missing") else " "
        called = " ".join([self.name, *filter(None, [between.join(map(str, self.place))])])
        return ": ".join([called, *filter(None, [self.subject]), self.sentence])


class OutOfMemory(Refused, MemoryError):
    """There is no memory for what a call was to give. Its name is `Memory`."""


class NotApart(Error, ValueError):
    """Two parts would count a batch twice, or one is of a table that deletes rows of a batch of the other: merge the tables first.

    Attributes:
        batch: the name of the batch.
    """

    def __init__(self, sentence: str, batch: BatchName) -> None:
        super().__init__(sentence, batch)
        self.batch = batch

    def __str__(self) -> str:
        return str(self.args[0])


class Damaged(Error, OSError):
    """A part has other bytes than its name says: copy it again, or remove it.

    Attributes:
        part: the part's name. `filename` is its path.
    """

    def __init__(self, path: str) -> None:
        super().__init__(errno.EIO, "its bytes are not those of its name: copy it again, or remove it", path)
        self.part = os.path.basename(path)

    def __reduce__(self) -> tuple[object, ...]:
        return type(self), (self.filename,)


class Busy(Error, TimeoutError):
    """Others have had a file or a folder for ten seconds. Nothing is changed."""

    def __init__(self, words: str, path: str) -> None:
        super().__init__(errno.ETIMEDOUT, words, path)

    def __reduce__(self) -> tuple[object, ...]:
        return type(self), (self.strerror, self.filename)
