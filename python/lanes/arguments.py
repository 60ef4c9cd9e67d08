"""The arguments of calls, which are judged by their names before anything else is done."""

from __future__ import annotations

import errno
import functools
import operator
import os
from typing import Any, Callable, Iterable, Type, TypeVar, cast

_One = TypeVar("_One")

#: A call of a class.
_Call = TypeVar("_Call", bound=Callable[..., Any])


def known_elsewhere(**names: str) -> Callable[[_Call], _Call]:
    """Makes a call tell what its arguments are called here: of each name that other modules or the program have, the name here."""

    def told(call: _Call) -> _Call:
        code, title = call.__code__, call.__qualname__
        named_only = code.co_varnames[code.co_argcount : code.co_argcount + code.co_kwonlyargcount]

        @functools.wraps(call)
        def judged(*given: Any, **named: Any) -> Any:
            if len(given) > code.co_argcount:
                names_here = ", ".join(f"{name}=" for name in named_only)
                raise TypeError(f"{title}: {given[code.co_argcount]!r:.40} needs its name, {'one of ' * (len(named_only) > 1)}{names_here}")
            for word in named:
                if word in names:
                    raise TypeError(f"{word}: {title} has no such argument; it is {names[word]} here")
            return call(*given, **named)

        return cast(_Call, judged)

    return told


def is_of(name: str, kind: Type[_One], given: object) -> _One:
    """An argument of a class of this module.

    Raises:
        TypeError: it is of another one.
    """
    if not isinstance(given, kind):
        raise wrong(name, f"a {kind.__name__}", given)
    return given


def text_of(name: str, given: object) -> bytes:
    """The bytes of a text.

    Raises:
        TypeError: it isn't one.
        ValueError: it has half a surrogate pair.
    """
    if not isinstance(given, str):
        raise wrong(name, "a text", given)
    try:
        return given.encode()
    except UnicodeEncodeError as fault:
        raise ValueError(f"{name}: {given[fault.start : fault.end]!r} is no character") from None


def bytes_of(name: str, given: object, cure: str = "") -> bytes:
    """Bytes that were given, and not a number. If there are none, it is said how one comes to them.

    Raises:
        TypeError: they are none.
    """
    if isinstance(given, bytes):
        return given
    if isinstance(given, (bytearray, memoryview)):
        return bytes(given)
    raise wrong(name, "bytes", given, "are", cure)


def path_of(name: str, given: Any) -> str:
    """A path as a text.

    Raises:
        TypeError: it isn't one, as a number.
        ValueError: it has a byte 0.
    """
    if not isinstance(given, (str, bytes, os.PathLike)):
        raise wrong(name, "a path", given)
    path = os.fsdecode(given)
    if "\0" in path:
        raise ValueError(f"{name}: {path!r} has a byte 0, so it is no path")
    return path


def file_of(name: str, given: Any) -> str:
    """The path of a file that is to be written, as a text.

    Raises:
        TypeError: it isn't one, as a number.
        ValueError: it has a byte 0, or it is empty.
        IsADirectoryError: it is a folder.
    """
    path = path_of(name, given)
    if not path:
        raise ValueError(f"{name}: the path of a file is wanted, and this is empty")
    if os.path.isdir(path):
        raise IsADirectoryError(errno.EISDIR, "this is a folder, and a file is wanted", path)
    return path


def number_of(name: str, given: Any) -> int:
    """A whole number.

    Raises:
        TypeError: it isn't one, as True.
    """
    if isinstance(given, bool):
        raise wrong(name, "a whole number", given)
    try:
        return operator.index(given)
    except TypeError:
        raise wrong(name, "a whole number", given) from None


def callable_of(name: str, given: Any) -> None:
    """Refuses what is neither to be called nor None.

    Raises:
        TypeError: it is something else, as True.
    """
    if given is not None and not callable(given):
        raise wrong(name, "what is called, or None,", given, cure=f"{name}=print shows how far it is")


def flag_of(name: str, given: Any, cure: str = "") -> bool:
    """Whether something is so. If it is neither, it may be said what to do.

    Raises:
        TypeError: it is neither True nor False, as a word or a number.
    """
    if isinstance(given, bool) or type(given).__module__ == "numpy" and type(given).__name__ in ("bool", "bool_"):
        return bool(given)
    raise wrong(name, "True or False", given, cure=cure)


def column_of(word: str) -> str:
    """The name of a column as a table has it: of ASCII letters either case is taken, and of no others."""
    return word.upper() if word.isascii() else word


def several(name: str, what: str, given: Any) -> list[Any]:
    """The members of a list, a tuple or anything else that has several.

    Raises:
        TypeError: it is one text, or bytes, or nothing that has several.
    """
    if isinstance(given, (str, bytes, bytearray, memoryview)) or not isinstance(given, Iterable):
        raise wrong(name, what, given, "is" if what.startswith("a ") else "are")
    return list(given)


def wrong(name: str, what: str, given: object, verb: str = "is", cure: str = "") -> TypeError:
    """What is raised of an argument of another type than the one that is wanted. It may be said what to do."""
    return TypeError(f"{name}: {what} {verb} wanted here, and this is of type {type(given).__name__}{cure and f': {cure}'}")
