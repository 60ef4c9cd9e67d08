"""Reading, changing and writing a file under one lock, so that nothing that another process does meanwhile is lost."""

from __future__ import annotations

import os
from typing import Optional, Type, Union

from . import arguments, replacing
from .table import Table


class Change:
    """What `update` gives: the file's table as it is, and in its place the one that is to be written."""

    __slots__ = ("_table",)

    def __init__(self, table: Table) -> None:
        self._table = table

    @property
    def table(self) -> Table:
        """The table that is to be in the file; at first the one that is there."""
        return self._table

    @table.setter
    def table(self, table: Table) -> None:
        self._table = arguments.is_of("table", Table, table)


class Updating:
    """A file that is being changed, under its lock: `with lanes.update(path) as change`."""

    __slots__ = ("_path", "_held", "_before", "_change")

    def __init__(self, path: str) -> None:
        self._path = path
        self._held: replacing.Held
        self._before: Table
        self._change: Change

    def __enter__(self) -> Change:
        os.stat(self._path)
        self._held = replacing.Held(self._path)
        try:
            self._before = Table.open(self._held.target)
            self._change = Change(self._before)
        except BaseException:
            self._held.release()
            raise
        return self._change

    def __exit__(self, kind: Optional[Type[BaseException]], *_: object) -> None:
        with self._held:
            if kind is None and self._change.table != self._before:
                self._held.put(self._change.table._view())
            elif kind is None:
                self._held.settle()


def update(path: Union[str, os.PathLike[str]]) -> Updating:
    """Changes a file: reads it, and at the end of the block writes the table that `table` is then, under the lock that the program `lanes`
    takes too. No import of another process is lost. While the block runs, others read the old file and wait with their changes.

        with lanes.update("visits.lanes") as change:
            change.table = change.table.import_csv(csv).delete("SITE = 2")

    If the block raises, or the table is the same, the file is left as it was. A file that has the table already is synced, with its folder:
    it may be that another process wrote it and was killed before it was on the disk. Inside the block don't `save` to the same file and don't
    run a command that changes it: they would wait for the lock. A child that is forked inside the block has the lock, too, until the block ends
    here: it must not go on in the block, but end by `os._exit`.

    Raises:
        Busy: another process has had the file for ten seconds.
        FileNotFoundError: there is no such file.
        OSError: the file can't be written. It is as it was.
        Refused: the file's first fault.
    """
    return Updating(arguments.file_of("path", path))
