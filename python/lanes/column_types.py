"""The types of columns, and what else names one: other words of SQL, and types of numpy, pandas and Arrow."""

from __future__ import annotations

from typing import Iterable, Mapping, Optional, Tuple, Union

#: The types of columns, of 1, 2, 4 and 8 bytes.
TYPES = ("TINYINT", "SMALLINT", "INTEGER", "BIGINT")

#: What describes columns: of each its name and its type.
ColumnTypes = Union[Mapping[str, object], Iterable[Tuple[str, object]]]

#: The other names of types.
_NAMES = {"INT8": "TINYINT", "INT16": "SMALLINT", "INT32": "INTEGER", "INT": "INTEGER", "INT64": "BIGINT"}

#: What to do for values of other types, by the words for these.
_CURES = (
    (("TEXT", "STRING", "STR", "VARCHAR", "CHAR", "OBJECT", "CATEGORY"), "store a number for each text"),
    (("FLOAT", "FLOAT16", "FLOAT32", "FLOAT64", "DOUBLE", "REAL", "DECIMAL", "NUMERIC"), "store a whole number of a smaller unit, as cents for an amount"),
    (("TIMESTAMP", "DATETIME", "DATETIME64", "DATETIME64[NS]"), "store seconds since 1970 in a BIGINT"),
    (("DATE",), "store a day as a number, as 20261130, in an INTEGER"),
    (("TIME", "TIMEDELTA"), "store seconds in an INTEGER"),
    (("BOOL", "BOOL_", "BOOLEAN"), "store 1 and 0 in a TINYINT"),
    (("UINT8",), "a SMALLINT has all its numbers"),
    (("UINT16",), "an INTEGER has all its numbers"),
    (("UINT32",), "a BIGINT has all its numbers"),
)

#: Into which type all numbers of a type of numpy go, by its letter and how many bytes it has. Of those of uint64 the greatest don't.
_HOLDING = {"i1": "TINYINT", "u1": "SMALLINT", "i2": "SMALLINT", "u2": "INTEGER", "i4": "INTEGER", "u4": "BIGINT", "i8": "BIGINT", "u8": "BIGINT"}


def type_of(given: object) -> Optional[str]:
    """The type that a text names in upper or lower case, or a type of numpy, pandas or Arrow, as `numpy.int16`; None if it names no type."""
    if isinstance(given, str):
        word = given
    elif isinstance(given, type):
        word = given.__name__ if given.__module__ == "numpy" else ""
    else:
        word = str(getattr(given, "name", given))
    name = word.upper() if word.isascii() else ""
    return name if name in TYPES else _NAMES.get(name)


def cure_of(word: str) -> str:
    """What to do for values of a type that there is not, by the word for it; nothing if it isn't known."""
    return next((cure for words, cure in _CURES if word.upper() in words), "")


def holding(letter: str, size: int) -> str:
    """The least type into which numbers go that are signed, of the letter i, or unsigned, of the letter u, and have so many bytes."""
    return _HOLDING[f"{letter}{size}"]
