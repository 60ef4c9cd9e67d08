"""Folders as tests make them, with calls of the system that fail."""

from __future__ import annotations

import contextlib
import hashlib
import os
import pathlib
import tempfile
import unittest
import unittest.mock
from typing import Callable

from lanes import Folder, Table, folder_driver


class InFolder(unittest.TestCase):
    def setUp(self) -> None:
        room = tempfile.TemporaryDirectory(prefix="lanes-folder-")
        self.addCleanup(room.cleanup)
        self.room = room.name
        self.path = os.path.join(self.room, "site")
        self.folder = Folder.create(self.path, "T", {"A": "INTEGER", "B": "BIGINT"})
        self.empty = Table.create("T", {"A": "INTEGER", "B": "BIGINT"})

    def only_parts(self, count: int) -> None:
        names = os.listdir(self.path)
        self.assertEqual(len(names), count, names)
        for name in names:
            data = pathlib.Path(self.path, name).read_bytes()
            self.assertEqual(name, hashlib.sha512(data).hexdigest()[:32] + ".lanes")
            Table.from_bytes(data)


def fresh() -> contextlib.AbstractContextManager[object]:
    """No folder could not be synced in this process so far."""
    return unittest.mock.patch.dict(folder_driver._UNSYNCED_FOLDERS, clear=True)


class Syncs:
    """`os.fsync`, which fails at one of its calls, and what was synced. No sync has failed before in this process, nor has it afterwards."""

    def __init__(self, fails_at: int = 0) -> None:
        self.fails_at = fails_at
        self.paths: list[str] = []

    def __call__(self, opened: int) -> None:
        self.paths.append(os.path.basename(os.readlink(f"/proc/self/fd/{opened}")))
        if len(self.paths) == self.fails_at:
            raise OSError(5, "Input/output error")

    def of(self, act: Callable[[], object]) -> list[str]:
        """What a call syncs, in order."""
        with unittest.mock.patch.object(os, "fsync", self), fresh():
            act()
        return self.paths
