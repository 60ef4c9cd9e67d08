"""Comma-separated values that are given: the text itself, a file that is open for reading, a path, or several of these."""

from __future__ import annotations

import codecs
import glob
import gzip
import os
from typing import IO, Any, List, NamedTuple, Sequence, Union

from . import arguments

#: What is taken for comma-separated values: the text itself, a file that is open for reading, or a path; or several of these.
Csv = Union[str, bytes, bytearray, memoryview, IO[str], IO[bytes], os.PathLike[str], Sequence[Union[str, os.PathLike[str]]]]

#: What other modules and the program call arguments of an import, and what they are here.
HERE = {
    **dict.fromkeys(["sep", "delimiter", "delim"], "separator="),
    **dict.fromkeys(["header", "no_header"], "heading="),
    **dict.fromkeys(["na_values", "nullstr", "nulls"], "null="),
    **dict.fromkeys(["names", "usecols"], "columns="),
    **dict.fromkeys(["parse_dates", "date_format", "dateformat"], "dates="),
    **dict.fromkeys(["true_values", "false_values"], "booleans="),
}

#: How the path of a file of comma-separated values ends, and what a path has that is of several files.
_ENDINGS, _PATTERNS = (".csv", ".tsv", ".txt", ".gz"), frozenset("*?[")


class Text(NamedTuple):
    """The bytes of a text, and what it is said of: a path, or nothing."""

    data: bytes
    subject: str


def texts_of(csv: object, separator: str, encoding: str) -> List[Text]:
    """The texts that were given, or that files have.

    Raises:
        TypeError: it is something else.
        ValueError: bytes seem to be a path, or a text isn't of its encoding.
        OSError: a file can't be read.
    """
    _judge_encoding(encoding)
    if isinstance(csv, (list, tuple)):
        given = [text for one in csv for text in _of_member(one, separator, encoding)]
        if not given:
            raise ValueError("csv: one text or file is wanted, or more, and these are none")
        return given
    if isinstance(csv, os.PathLike):
        return [_of_path(os.fsdecode(csv), encoding)]
    if isinstance(csv, str) and _is_path(csv, separator):
        return [_of_path(path, encoding) for path in _paths(csv)]
    return [Text(_of_text(csv, encoding), "")]


def _of_member(csv: object, separator: str, encoding: str) -> List[Text]:
    """The texts of a member of a list, of which a text without a line's end is a path.

    Raises:
        TypeError: it is a row.
    """
    if isinstance(csv, (list, tuple, dict)):
        raise arguments.wrong("csv", "a list of texts or paths", csv, cure="import_rows takes rows")
    if isinstance(csv, str) and "\n" not in csv:
        return [_of_path(path, encoding) for path in _paths(csv)]
    return texts_of(csv, separator, encoding)


def _is_path(csv: str, separator: str) -> bool:
    """Whether a text is a path: it has no line's end, and ends as the path of such a file does, or is that of a file, or has a slash or a mark
    of a pattern."""
    if "\n" in csv or "\0" in csv or not csv:
        return False
    marks = ({os.sep} | _PATTERNS) - {separator}
    return csv.lower().endswith(_ENDINGS) or bool(marks & set(csv)) or os.path.isfile(csv)


def _paths(path: str) -> List[str]:
    """The paths of a pattern, in ascending order; or the path itself.

    Raises:
        FileNotFoundError: no file's path is of the pattern.
    """
    if os.path.exists(path) or not _PATTERNS & set(path):
        return [path]
    found = sorted(glob.glob(path, recursive=True))
    if not found:
        raise FileNotFoundError(2, "there is no file of this pattern", path)
    return found


def _of_path(path: str, encoding: str) -> Text:
    """The text of a file; if its path ends in .gz it is unpacked.

    Raises:
        OSError: it can't be read or unpacked.
    """
    with open(path, "rb") as file:
        data = file.read()
    if path.lower().endswith(".gz"):
        try:
            data = gzip.decompress(data)
        except (EOFError, OSError) as fault:
            raise OSError(5, f"this can't be unpacked: {fault}", path) from None
    return Text(_in_utf8(data, encoding, path), path)


def _of_text(csv: Any, encoding: str) -> bytes:
    """The bytes of a text, or of a file that is open."""
    read = getattr(csv, "read", None)
    found = read() if callable(read) else csv
    if isinstance(found, str):
        return arguments.text_of("csv", found)
    if not isinstance(found, (bytes, bytearray, memoryview)):
        raise arguments.wrong("csv", "a text of comma-separated values, or a file of one,", csv, cure="list() makes a list of paths" if hasattr(csv, "__next__") else "")
    data = bytes(found)
    if found is csv and b"\n" not in data and (data.lower().endswith(tuple(map(str.encode, _ENDINGS))) or data and b"\0" not in data and os.path.isfile(data)):
        path = os.fsdecode(data)
        raise ValueError(f"csv: {path!r} is taken as the text of comma-separated values itself, as it is bytes; to import a file, give its path as a text")
    return _in_utf8(data, encoding, "csv")


def _judge_encoding(encoding: object) -> None:
    """Refuses what is no name of an encoding.

    Raises:
        TypeError: it is no text.
        ValueError: there is no such encoding.
    """
    name = arguments.text_of("encoding", encoding).decode()
    try:
        codecs.lookup(name)
    except LookupError:
        raise ValueError(f"encoding: there is no encoding {name!r}; usual ones are 'utf-8', 'latin-1', 'cp1252' and 'utf-16'") from None


def _in_utf8(data: bytes, encoding: str, subject: str) -> bytes:
    """A text of an encoding in UTF-8. What is in UTF-8 already is judged by the library.

    Raises:
        ValueError: the text isn't of its encoding.
    """
    if encoding.lower().replace("_", "-") in ("utf-8", "utf8"):
        return data
    try:
        return data.decode(encoding).encode()
    except UnicodeError as fault:
        raise ValueError(f"{subject}: the text is not in {encoding}: {fault}") from None
