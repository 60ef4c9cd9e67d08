"""A table's name and columns, as the front of its files has them."""

from __future__ import annotations

from typing import NamedTuple

from .column_types import TYPES


class Schema(NamedTuple):
    """A table's name and columns, and the front of its files, which has them."""

    name: str
    columns: dict[str, str]
    front: bytes

    @classmethod
    def of(cls, file: bytes) -> Schema:
        """The schema of a file, an offer or a summary that begins with these bytes; docs/FORMATS.md has them."""
        count, name, at = int.from_bytes(file[6:8], "little"), *_word(file, 8)
        columns = {}
        for _ in range(count):
            kind = TYPES[file[at].bit_length() - 1]
            column, at = _word(file, at + 1)
            columns[column] = kind
        return cls(name, columns, file[:at])

    @property
    def words(self) -> bytes:
        """The words of the table: its name, and column by column the column's name and its type."""
        return " ".join([self.name, *(word for pair in self.columns.items() for word in pair)]).encode()


def _word(file: bytes, at: int) -> tuple[str, int]:
    """The name at a place of a file, and the place after it."""
    end = at + 1 + file[at]
    return file[at + 1 : end].decode(), end
