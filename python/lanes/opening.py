"""Opening what is there: a file as a table, a folder of parts as a folder."""

from __future__ import annotations

import os
from typing import Union

from . import arguments
from .folder import Folder
from .table import Table


def open(path: Union[str, os.PathLike[str]]) -> Union[Table, Folder]:
    """What is at a path: `Table.open` of a file, or the `Folder` of a folder of parts. Both are asked and read by the same calls.

    Raises:
        FileNotFoundError: nothing is there: `Table.create` and `Folder.create` make a table.
        OSError: it can't be opened.
        Refused: the file's first fault. Its subject is the path.
    """
    name = arguments.path_of("path", path)
    return Folder(name) if os.path.isdir(name) else Table.open(name)


def connect(path: Union[str, os.PathLike[str]]) -> Union[Table, Folder]:
    """The same, for a `with` block, at whose end a table's memory is released. Nothing is written: `lanes.update` changes a file, and the calls of a
    `Folder` change a folder.

        with lanes.connect("visits.lanes") as visits:
            print(visits.query("SELECT COUNT(*) FROM VISITS").fetchone())
    """
    return open(path)
