"""Values that go into a query or a condition: each `?` of the text is one of them."""

from __future__ import annotations

import operator
import re
from typing import Any, Iterator, List, Mapping, NamedTuple, Optional, Sequence, Tuple

from . import arguments
from .errors import Refused

#: What is taken for values, and none.
Values = Sequence[Any]
NONE: Values = ()

#: The tokens of the query language, with the space between them. What else there is begins no token, but for `?`.
_TOKEN = re.compile(rb"[ \t\n\r]+|[A-Za-z][A-Za-z0-9_]*|[0-9]+|<>|<=|>=|[(),*+\-=<>?]")

#: A place that a sentence names.
_BYTE = re.compile(r"\bbyte ([0-9]+)")

#: One more than the greatest number of 30 digits, which is the longest that a literal may have.
_TOO_LARGE = 10**30


class Filled(NamedTuple):
    """A text with its values. The spans are, of each value, the places at which it begins and ends in this text, with the spaces that were put around
    it, and the place of its `?` in the text that was given."""

    text: bytes
    spans: Tuple[Tuple[int, int, int], ...] = ()

    def told(self, refusal: Refused) -> Refused:
        """A refusal of this text as one of the text that was given."""
        number, name, (first, second), sentence, subject = refusal.args
        if not self.text:  # it has no byte
            return type(refusal)(number, name, (first, second), sentence.replace("byte 0: ", "", 1), subject)
        if not self.spans:
            return refusal
        place = (self._given(first), second) if refusal.place else (first, second)
        said = _BYTE.sub(lambda found: f"byte {self._given(int(found[1]))}", sentence)
        return type(refusal)(number, name, place, said, subject)

    def _given(self, at: int) -> int:
        """The place in the text that was given."""
        moved = at
        for begin, end, mark in self.spans:
            if at >= begin:
                moved = mark if at < end else mark + 1 + at - end
        return moved


def filled(name: str, text: object, values: Values) -> Filled:
    """A text whose values are put in the place of its `?`.

    Raises:
        TypeError: the text is no text, the values are no list, or one of them is no whole number.
        ValueError: there is another number of values than of `?`, or one of them can't be at its place.
    """
    whole = arguments.text_of(name, text)
    if values is NONE and b"?" not in whole:
        return Filled(whole)
    if isinstance(values, (Mapping, set, frozenset)):
        raise arguments.wrong("values", "a list of values", values)
    given = arguments.several("values", "a list of values", values)
    if not given and b"?" not in whole:
        return Filled(whole)
    marks = list(_marks(whole))
    if len(marks) != len(given):
        raise ValueError(f"values: {name} has {_count(len(marks))}, and {len(given)} {'value is' if len(given) == 1 else 'values are'} given")
    return _joined(whole, marks, [_word(f"values[{at}]", value, before) for at, ((_, before), value) in enumerate(zip(marks, given))])


def condition_of(where: Optional[str], values: Values) -> Filled:
    """A condition with its values; an empty text is no condition."""
    return filled("where", "" if where is None else where, values)


def _count(marks: int) -> str:
    return "no ?" if not marks else f"{marks} ?"


def _joined(whole: bytes, marks: List[Tuple[int, List[bytes]]], words: List[bytes]) -> Filled:
    """The text with words in the place of its marks, and with a space between a word and what it would go together with."""
    text, done = b"", 0
    spans: List[Tuple[int, int, int]] = []
    for (mark, _), word in zip(marks, words):
        text, done, follows = text + whole[done:mark], mark + 1, whole[mark + 1 : mark + 2]
        begin = len(text)
        text += (b" " if _goes_on(text[-1:]) else b"") + word + (b" " if _goes_on(follows) else b"")
        spans.append((begin, len(text), mark))
    return Filled(text + whole[done:], tuple(spans))


def _goes_on(byte: bytes) -> bool:
    """Whether a word or a number goes on with this byte."""
    return byte.isalnum() or byte == b"_"


def _marks(text: bytes) -> Iterator[Tuple[int, List[bytes]]]:
    """The place of each `?`, and the last words and signs before it. What comes behind a byte that begins no token is left as it is: the text is
    refused there."""
    at, before = 0, [b"", b"", b""]
    in_list = False
    found = _TOKEN.match(text)
    while found:
        token = found[0].upper()
        if token == b"?":
            yield at, [b"IN("] if in_list else before
        if not token.isspace():
            in_list = token != b")" and (in_list or token == b"(" and before[-1] == b"IN")
            before = [*before[1:], token]
        at = found.end()
        found = _TOKEN.match(text, at)


def _word(name: str, value: Any, before: List[bytes]) -> bytes:
    """A value as the query language has it.

    Raises:
        TypeError: it is no whole number.
        ValueError: it can't be at its place.
    """
    if before[-1] in (b"+", b"-"):
        raise ValueError(f"{name}: a value has its own sign: write ? without the {before[-1].decode()} before it")
    is_null = before[-1] == b"IS" or before[-2:] == [b"IS", b"NOT"]
    if value is None or type(value).__name__ == "NAType":
        if not is_null:
            raise ValueError(f"{name}: None is a value after IS or IS NOT only, as in A IS ?")
        return b"NULL"
    if is_null:
        raise ValueError(f"{name}: after IS and IS NOT the value is None, and this is {value!r}")
    if before == [b"IN("] and not isinstance(value, (str, bytes, bytearray, memoryview, Mapping)) and _is_list(value):
        return _list(name, list(value))
    return _number(name, value)


def _is_list(value: Any) -> bool:
    return isinstance(value, (list, tuple, set, frozenset, range)) or getattr(value, "ndim", 0) == 1


def _list(name: str, values: List[Any]) -> bytes:
    """The values of a list of IN.

    Raises:
        TypeError, ValueError: one is no whole number, or there are none.
    """
    if not values:
        raise ValueError(f"{name}: a list of IN has one value or more, and this one is empty")
    return b", ".join(_number(f"{name}[{at}]", value) for at, value in enumerate(values))


def _number(name: str, value: Any) -> bytes:
    """A whole number.

    Raises:
        TypeError: it is something else.
        ValueError: it has more than 30 digits.
    """
    if isinstance(value, bool) or type(value).__name__ in ("bool_", "bool") or value is None:
        raise arguments.wrong(name, "a whole number", value)
    try:
        number = operator.index(value)
    except TypeError:
        wanted = "a whole number"
        if _is_list(value):
            wanted = "a whole number (a list goes into IN (?))"
        raise arguments.wrong(name, wanted, value) from None
    if not -_TOO_LARGE < number < _TOO_LARGE:
        raise ValueError(f"{name}: a number has at most 30 digits, and this one has {len(str(abs(number)))}")
    return b"%d" % number
