"""Fields of comma-separated values that are no whole numbers, and become some before the library reads them: further words for a null, dates
and truth values."""

from __future__ import annotations

import datetime
import re
from typing import TYPE_CHECKING, Any, Callable, Dict, Iterable, List, Mapping, Optional, Tuple, Union

from . import arguments

if TYPE_CHECKING:
    from .dialects import Dialect
    from .table import Table

#: How dates become numbers: of a column the format of the number, or the format of the text and that of the number.
Dates = Mapping[str, Union[str, Tuple[str, str]]]

#: What becomes of a field.
_Change = Callable[[str], Optional[str]]

_TRUTHS = {"true": "1", "t": "1", "yes": "1", "y": "1", "false": "0", "f": "0", "no": "0", "n": "0"}

#: A whole number.
_NUMBER = re.compile("-?[0-9]{1,30}")


class FieldChanges:
    """What becomes of the fields of texts."""

    def __init__(self, table: Table, dialect: Dialect, nulls: List[bytes], dates: Optional[Dates], booleans: Iterable[str]) -> None:
        self._dialect, self._nulls = dialect, nulls
        self._names = list(table.columns)
        self._changes: Dict[str, _Change] = {}
        for name, given in _dates_of(dates).items():
            self._changes[self._column("dates", name)] = _date(name, given)
        for name in arguments.several("booleans", "several names, as ['ACTIVE'],", booleans):
            self._changes[self._column("booleans", name)] = _truth

    def of(self, text: bytes) -> bytes:
        """The text in which the fields are changed. It has the same lines."""
        if self._nulls:
            text = self._without_words(text)
        return self._changed(text) if self._changes else text

    def _column(self, argument: str, name: Any) -> str:
        """The name of a column.

        Raises:
            TypeError: it is no text.
            ValueError: there is no such column.
        """
        if not isinstance(name, str):
            raise arguments.wrong(argument, "the name of a column", name)
        word = arguments.column_of(name)
        if word not in self._names:
            raise ValueError(f"{argument}: there is no column {name!r}: the table has {', '.join(self._names)}")
        return word

    def _without_words(self, text: bytes) -> bytes:
        """The text with one word for a null. The heading stays as it is."""
        separator, (first, *others) = re.escape(bytes([self._dialect.separator])), self._nulls
        begin = text.find(b"\n") + 1 if self._dialect.has_heading else 0
        words = b"|".join(map(re.escape, sorted(others, key=len, reverse=True)))
        field = re.compile(b"(?:(?<=" + separator + b")|(?<=\n)|\\A)(\"?)(?:" + words + b")\\1(?=" + separator + b"|\r?\n|\r?\\Z)")
        return text[:begin] + field.sub(lambda _: first, text[begin:])

    def _changed(self, text: bytes) -> bytes:
        """The text with the changes of columns."""
        lines = text.decode(errors="surrogateescape").split("\n")
        first = 1 if self._dialect.has_heading else 0
        places = self._places(lines[0] if first else None)
        separator = chr(self._dialect.separator)
        lines[first:] = [_line(line, places, separator) for line in lines[first:]]
        return "\n".join(lines).encode(errors="surrogateescape")

    def _places(self, heading: Optional[str]) -> Dict[int, _Change]:
        """Which fields of a line are changed."""
        if self._dialect.columns:
            names = self._dialect.columns.decode().split(",")
        elif heading is not None:
            names = [arguments.column_of(word.strip('"')) for word in heading.lstrip("\ufeff").rstrip("\r").split(chr(self._dialect.separator))]
        else:
            names = self._names
        return {at: self._changes[name] for at, name in enumerate(names) if name in self._changes}


def null_words(null: Union[str, Iterable[str]]) -> List[str]:
    """The words for a null that were given; none, if it is an empty text.

    Raises:
        TypeError: one is no text.
        ValueError: one is a number.
    """
    given = [null] if isinstance(null, str) else arguments.several("null", "a text or several", null)
    for word in given:
        if not isinstance(word, str):
            raise arguments.wrong("null", "a text or several", word, "are")
        if _NUMBER.fullmatch(word):
            raise ValueError(f"null: {word!r} is a number, so it can't be a null too")
        if len(given) > 1 and set(word) & set('"\r\n'):
            raise ValueError(f"null: {word!r} has a quote or a line's end, which one of several words can't have")
    return [word for word in given if word]


def _line(line: str, places: Dict[int, _Change], separator: str) -> str:
    """A line with its fields changed. Quotes protect no separator."""
    end = "\r" if line.endswith("\r") else ""
    fields = line[: len(line) - len(end)].split(separator)
    for at, change in places.items():
        if at < len(fields):
            fields[at] = change(fields[at].strip('"')) or fields[at]
    return separator.join(fields) + end


def _dates_of(dates: Optional[Dates]) -> Dates:
    """The dates that were given.

    Raises:
        TypeError: they are no dict.
    """
    if dates is not None and not isinstance(dates, Mapping):
        raise arguments.wrong("dates", "a dict, as {'DAY': '%Y%m%d'},", dates)
    return dates or {}


def _date(name: str, given: Any) -> _Change:
    """What becomes of a date: a number of this format.

    Raises:
        TypeError: the format is no text.
        ValueError: the format gives no number.
    """
    formats = (given,) if isinstance(given, str) else given
    if not isinstance(formats, tuple) or len(formats) not in (1, 2) or not all(isinstance(word, str) for word in formats):
        raise arguments.wrong("dates", f"of {name} a format, as '%Y%m%d', or the format of the text and that of the number,", given)
    number = formats[-1]
    if not _NUMBER.fullmatch(datetime.datetime(2026, 12, 1).strftime(number)):
        raise ValueError(f"dates: the format {number!r} of {name} gives no number, as '%Y%m%d' does")

    def change(field: str) -> Optional[str]:
        try:
            found = datetime.datetime.strptime(field, formats[0]) if len(formats) == 2 else datetime.datetime.fromisoformat(field)
        except ValueError:
            return None  # the library says which line and column it is
        return found.strftime(number)

    return change


def _truth(field: str) -> Optional[str]:
    """What becomes of a truth value."""
    return _TRUTHS.get(field.lower())
