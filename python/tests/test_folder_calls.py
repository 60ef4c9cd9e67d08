"""Each call of the system that a change of a folder makes fails in turn, with errors that the manual names for it, and the process is killed at each: the
folder has the rows that it had or those that the change makes of them, each part is whole and named by its bytes, what was answered is there, and the
same change then goes on."""

from __future__ import annotations

import contextlib
import errno
import fcntl
import itertools
import os
import re
import shutil
import unittest
import unittest.mock
import warnings
from typing import Any, Callable, Dict, Iterator, List, Optional, Tuple

from folders import InFolder, fresh
from lanes import Folder, part_folder

#: The calls, each with errors that it can have; and the errors of a file system that has no locks, and of one that has no hard links.
ERRORS = {
    "open": [errno.EACCES, errno.EMFILE, errno.ENFILE, errno.EIO],
    "scandir": [errno.EIO, errno.ENOMEM],
    "listdir": [errno.EIO, errno.ENOMEM],
    "fstat": [errno.EIO],
    "flock": [errno.EIO, errno.EBADF, errno.ENOLCK, errno.EOPNOTSUPP, errno.ENOSYS],
    "write": [errno.ENOSPC, errno.EDQUOT, errno.EFBIG, errno.EIO],
    "fsync": [errno.EIO, errno.ENOSPC, errno.EDQUOT],
    "link": [errno.EIO, errno.ENOSPC, errno.EACCES, errno.EROFS, errno.EPERM, errno.EOPNOTSUPP, errno.EMLINK],
    "rename": [errno.ENOSPC, errno.EIO],
    "mkdir": [errno.ENOSPC, errno.EACCES],
    "unlink": [errno.EIO, errno.EACCES, errno.EROFS, errno.ENOENT],
}
NO_LOCKS, NO_LINKS = (errno.ENOLCK, errno.EOPNOTSUPP, errno.ENOSYS), (errno.EPERM, errno.EOPNOTSUPP, errno.EMLINK)

#: The calls of which each error is tried at each.
EACH = "flock", "link", "rename", "mkdir", "listdir", "unlink"

#: The calls that change something, at which the process is killed.
KILLED_AT = "write", "fsync", "link", "rename", "mkdir", "unlink", "open"

#: How a process ends that was killed, and what a change may leave then.
KILLED, LEFT = 77, re.compile(r"\.part-[0-9a-f]{16}")


class Counted:
    """Calls of the system that are counted, of which one fails, or is the last one of its process."""

    def __init__(self, kind: str = "", when: int = 0, error: Optional[int] = None) -> None:
        self.kind, self.when, self.error = kind, when, error
        self.counts: Dict[str, int] = {}

    def call(self, kind: str, true: Callable[..., Any]) -> Callable[..., Any]:
        def counted(*words: Any, **more: Any) -> Any:
            count = self.counts[kind] = self.counts.get(kind, 0) + 1
            if (kind, count) == (self.kind, self.when):
                if self.error is None:
                    os._exit(KILLED)
                raise OSError(self.error, os.strerror(self.error))
            return true(*words, **more)

        return counted

    @contextlib.contextmanager
    def counting(self) -> Iterator[Counted]:
        with contextlib.ExitStack() as stack:
            stack.enter_context(fresh())
            for kind in ERRORS:
                module = fcntl if kind == "flock" else os
                stack.enter_context(unittest.mock.patch.object(module, kind, self.call(kind, getattr(module, kind))))
            yield self


class Each(InFolder):
    def setUp(self) -> None:
        super().setUp()
        self.start = os.path.join(self.room, "start")
        start = Folder.of(self.start, self.empty)
        for number in 1, 2, 3:
            start.import_csv(f"{number},{number}\n", heading=False, batch=(1, number))
        start.delete_rows("1.2", 0)
        offer = self.empty.import_csv("5,5\n", heading=False, batch="5.1").merge(self.empty.import_csv("1,1\n", heading=False, batch="1.1")).to_bytes()
        #: The changes: each makes other rows of the folder, or keeps them.
        self.changes: List[Tuple[str, Callable[[Folder], object]]] = [
            ("a load", lambda folder: folder.import_csv("8,8\n", heading=False)),
            ("a named load", lambda folder: folder.import_csv("8,8\n", heading=False, batch="8.8")),
            ("a load that comes again", lambda folder: folder.import_csv("1,1\n", heading=False, batch="1.1")),
            ("an apply", lambda folder: folder.apply(offer)),
            ("a delete", lambda folder: folder.delete("A < 3")),
            ("a delete of rows", lambda folder: folder.delete_rows("1.3", 0)),
            ("a pack", lambda folder: folder.pack(everything=True)),
            ("a forget", lambda folder: folder.forget()),
            ("a new folder", lambda folder: Folder.of(os.path.join(self.room, "new"), self.empty)),
        ]

    def begin(self) -> Folder:
        for name in os.listdir(self.room):
            if name != "start":
                shutil.rmtree(os.path.join(self.room, name))
        shutil.copytree(self.start, self.path)
        return Folder(self.path)

    def rows(self) -> str:
        """The rows, without their names; and whether there is a new folder, which is whole."""
        with unittest.mock.patch.object(part_folder, "_warn"):
            new = os.path.join(self.room, "new")
            is_made = os.path.lexists(new) and len(Folder(new).read()) == 0
        self.assertEqual(is_made, os.path.lexists(new))
        return "".join(sorted(Folder(self.path).read().dump().splitlines(True))) + f"{is_made}"

    def others(self) -> List[str]:
        """What is there beside the parts and the folders."""
        left = [name for name in os.listdir(self.path) if name not in Folder(self.path).parts()]
        return left + [name for name in os.listdir(self.room) if name not in ("site", "start", "new")]

    def in_a_child(self, act: Callable[[], object]) -> int:
        """How a process ends that makes a change: with 0, or `KILLED`."""
        child = os.fork()
        if not child:
            try:
                act()
                os._exit(0)
            finally:
                os._exit(1)
        return os.waitstatus_to_exitcode(os.waitpid(child, 0)[1])

    def done(self, act: Callable[[Folder], object]) -> Tuple[str, str, Dict[str, int]]:
        """The rows before a change and after it, and how many calls of each kind it makes."""
        folder = self.begin()
        before, counted = self.rows(), Counted()
        with counted.counting():
            act(folder)
        return before, self.rows(), counted.counts

    def test_each_call_fails_in_turn_and_nothing_is_lost(self) -> None:
        errors = {kind: itertools.cycle(codes) for kind, codes in ERRORS.items()}
        tried: Dict[Tuple[str, int], int] = {}
        for name, act in self.changes:
            before, after, counts = self.done(act)
            for kind, count in counts.items():
                each = ERRORS[kind] if kind in EACH else ()
                for when, code in [(when, code) for when in range(1, count + 1) for code in each or (next(errors[kind]),)]:
                    with self.subTest(name, kind=kind, when=when, error=errno.errorcode[code]):
                        self.fails(act, Counted(kind, when, code), before, after)
                        tried[kind, code] = tried.get((kind, code), 0) + 1
        self.assertEqual({*tried}, {(kind, code) for kind, codes in ERRORS.items() for code in codes})

    def fails(self, act: Callable[[Folder], object], counted: Counted, before: str, after: str) -> None:
        """A change of which a call fails is answered or is refused by the error of the call."""
        folder, kind, code = self.begin(), counted.kind, counted.error
        opened, fault = len(os.listdir("/proc/self/fd")), None
        with warnings.catch_warnings(record=True) as warned, counted.counting():
            warnings.simplefilter("always")
            try:
                act(folder)
            except OSError as raised:
                fault = raised.errno
        self.assertGreaterEqual(counted.counts.get(kind, 0), counted.when)
        if kind != "fsync":
            self.assertEqual(len(os.listdir("/proc/self/fd")), opened)
        now = self.rows()
        if fault is None:
            self.assertEqual(now, after)
            self.assertTrue(kind != "fsync" or warned)
        else:
            self.assertEqual(fault, errno.ENOLCK if kind == "flock" and code in NO_LOCKS else code)
            self.assertIn(now, (before, after))
            self.assertFalse(kind == "link" and code in NO_LINKS)
            self.assertFalse((kind, code) == ("unlink", errno.ENOENT))
            self.assertTrue(now == before or kind in ("unlink", "open", "flock", "fsync", "scandir", "listdir", "fstat"))
        self.assertTrue(not self.others() or kind in ("unlink",), self.others())
        self.goes_on(act, now, before, after)

    def goes_on(self, act: Callable[[Folder], object], now: str, before: str, after: str) -> None:
        """The same change again, if its work is not done yet, and a pack leave one part, and nothing else."""
        if now == before:
            act(Folder(self.path))
        self.assertEqual(self.rows(), after)
        Folder(self.path).pack(everything=True)
        self.assertEqual((self.rows(), len(os.listdir(self.path))), (after, 1))
        self.only_parts(1)

    def test_a_change_that_is_killed_at_a_call_is_whole_or_is_not_there(self) -> None:
        killed = 0
        for name, act in self.changes:
            before, after, counts = self.done(act)
            for kind in KILLED_AT:
                for when in range(1, counts.get(kind, 0) + 1):
                    with self.subTest(name, kind=kind, when=when):
                        folder = self.begin()

                        def change() -> None:
                            with Counted(kind, when).counting():
                                act(folder)

                        self.assertEqual(self.in_a_child(change), KILLED)
                        now = self.rows()
                        self.assertIn(now, (before, after))
                        self.assertTrue(all(LEFT.fullmatch(left) or left.startswith(".new.lanes-new-") for left in self.others()))
                        self.goes_on(act, now, before, after)
                        killed += 1
        self.assertGreater(killed, 60)


if __name__ == "__main__":
    unittest.main()
