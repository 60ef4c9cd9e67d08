"""Folders in file systems that have no locks or no hard links, calls of the system that fail, and files of a part's name that are none."""

from __future__ import annotations

import contextlib
import errno
import fcntl
import os
import pathlib
import shutil
import signal
import socket
import unittest
import unittest.mock
import warnings
from typing import Callable, Dict, Iterator

from folders import InFolder, Syncs, fresh
from lanes import Damaged, Folder, folder_driver, part_folder

#: What says that there are no locks, and no hard links; and some of what says that a call failed.
NO_LOCKS = errno.ENOSYS, errno.EOPNOTSUPP, errno.ENOLCK
NO_LINKS = errno.EPERM, errno.EOPNOTSUPP, errno.EMLINK
FAULTS = errno.EIO, errno.EACCES, errno.ENOSPC, errno.EROFS, errno.EBADF


class Failing(InFolder):
    def setUp(self) -> None:
        super().setUp()
        self.folder.import_csv("1,1\n", heading=False, batch="1.1")
        self.offer = self.empty.import_csv("3,3\n", heading=False, batch="3.1").to_bytes()

    def readings(self) -> Dict[str, Callable[[], object]]:
        return {"read": self.folder.read, "parts": self.folder.parts, "name": lambda: self.folder.name}

    def additions(self) -> Dict[str, Callable[[], object]]:
        """Calls that each add a part."""
        return {
            "a load": lambda: self.folder.import_csv("2,2\n", heading=False),
            "a named load": lambda: self.folder.import_csv("2,2\n", heading=False, batch="2.1"),
            "an apply": lambda: self.folder.apply(self.offer),
            "a delete": lambda: self.folder.delete("A = 1"),
            "a delete of rows": lambda: self.folder.delete_rows("9.9", 0),
        }

    def removals(self) -> Dict[str, Callable[[], object]]:
        """Calls that remove parts."""
        return {"a pack": lambda: self.folder.pack(everything=True), "a forget": self.forget}

    def forget(self) -> int:
        """A forget of a batch that is dead."""
        part_folder.put(self.path, self.empty.delete_rows("1.1", 0).to_bytes())
        return self.folder.forget()

    def create(self) -> Folder:
        return Folder.of(os.path.join(self.room, "new"), self.empty)

    def raises(self, code: int, acts: Dict[str, Callable[[], object]]) -> None:
        """Each of these calls raises an error, and leaves no temporary and all parts."""
        for name, act in acts.items():
            before = {*os.listdir(self.path)}
            with self.subTest(name, code=errno.errorcode[code]), self.assertRaises(OSError) as caught:
                act()
            self.assertEqual(caught.exception.errno, code)
            after = {*os.listdir(self.path)}
            self.assertLessEqual(before, after)
            self.assertFalse([path for path in after if not path.endswith(".lanes")])


class Locks(Failing):
    def test_a_folder_is_used_without_locks_where_there_are_none(self) -> None:
        for code in NO_LOCKS:
            shutil.rmtree(self.path)
            self.folder = Folder.of(self.path, self.empty.import_csv("1,1\n", heading=False, batch="1.1"))
            with unittest.mock.patch.object(fcntl, "flock", side_effect=OSError(code, "none")):
                for name, act in self.additions().items():
                    with self.subTest(name, code=errno.errorcode[code]):
                        before = len(os.listdir(self.path))
                        self.assertTrue(act())
                        self.only_parts(before + 1)
                self.assertEqual(self.folder.query("SELECT COUNT(*),SUM(A) FROM T"), [(3, 7)])
                self.raises(errno.ENOLCK, self.removals())
                self.assertEqual(len(self.create()), 0)
            shutil.rmtree(os.path.join(self.room, "new"))

    def test_a_lock_that_fails_otherwise_is_an_error_of_each_call(self) -> None:
        for code in FAULTS:
            with unittest.mock.patch.object(fcntl, "flock", side_effect=OSError(code, "a fault")):
                self.raises(code, {**self.readings(), **self.additions(), "a pack": lambda: self.folder.pack(everything=True), "a forget": self.folder.forget})
                self.raises(code, {"a new folder": self.create})
            self.assertEqual(os.listdir(self.room), ["site"])
        self.assertEqual(len(self.folder.read()), 1)

    def test_a_lock_of_a_temporary_that_fails_leaves_nothing(self) -> None:
        flock = fcntl.flock

        def of_files(opened: int, kind: int) -> None:
            if not os.path.isdir(f"/proc/self/fd/{opened}"):
                raise OSError(errno.EIO, "a fault")
            flock(opened, kind)

        with unittest.mock.patch.object(fcntl, "flock", of_files):
            self.raises(errno.EIO, {**self.additions(), "a pack": lambda: self.folder.pack(everything=True)})
            self.raises(errno.EIO, {"a new folder": self.create})
        self.assertEqual(os.listdir(self.room), ["site"])

    def test_a_temporary_that_a_sweep_has_is_made_anew(self) -> None:
        flock, swept = fcntl.flock, []

        def late(opened: int, kind: int) -> None:
            path = os.readlink(f"/proc/self/fd/{opened}")
            if ".part-" in path and len(swept) < 2:
                swept.append(path)
                if len(swept) == 1:
                    raise BlockingIOError(errno.EAGAIN, "a sweep has it")
                os.unlink(path)
            flock(opened, kind)

        for act in self.additions().values():
            with unittest.mock.patch.object(fcntl, "flock", late):
                self.assertTrue(act())
            self.assertEqual(len(swept), 2)
            swept.clear()
        self.only_parts(7)

    def test_a_folder_is_unlocked_before_its_driver_is_closed(self) -> None:
        unlock = folder_driver.Driver._unlock
        others = []

        def then(driver: folder_driver.Driver, number: int, name: str) -> object:
            told = unlock(driver, number, name)
            with part_folder.locked(self.path, fcntl.LOCK_EX) as is_locked:
                others.append(is_locked)
            return told

        with unittest.mock.patch.object(folder_driver.Driver, "_unlock", then):
            self.folder.import_csv("2,2\n", heading=False, batch="2.1")
            self.folder.pack(everything=True)
        self.assertGreater(len(others), 3)
        self.assertTrue(all(others))


class Links(Failing):
    def test_a_part_is_renamed_where_there_are_no_hard_links(self) -> None:
        for code in NO_LINKS:
            shutil.rmtree(self.path)
            self.folder = Folder.of(self.path, self.empty.import_csv("1,1\n", heading=False, batch="1.1"))
            with unittest.mock.patch.object(os, "link", side_effect=OSError(code, "none")):
                for name, act in self.additions().items():
                    with self.subTest(name, code=errno.errorcode[code]):
                        before = len(os.listdir(self.path))
                        self.assertTrue(act())
                        self.only_parts(before + 1)
                self.assertEqual(self.folder.pack(everything=True)[0], 1)
                self.assertEqual(len(self.create()), 0)
            shutil.rmtree(os.path.join(self.room, "new"))

    def test_a_part_that_is_there_is_not_replaced_where_there_are_no_hard_links(self) -> None:
        for code in NO_LINKS:
            for data in self.offer, self.offer[:-1] + b"\1", b"":
                path = pathlib.Path(self.path, part_folder.part_name(self.offer))
                path.write_bytes(data)
                there = os.stat(path).st_ino
                with self.subTest(code=errno.errorcode[code], length=len(data)), unittest.mock.patch.object(os, "link", side_effect=OSError(code, "none")):
                    with contextlib.nullcontext() if data == self.offer else self.assertRaises(Damaged):
                        part_folder.put(self.path, self.offer)
                self.assertEqual((os.stat(path).st_ino, path.read_bytes()), (there, data))
                self.assertEqual(len(os.listdir(self.path)), 3)

    def test_a_link_that_fails_otherwise_is_an_error(self) -> None:
        for code in (*FAULTS, errno.ENOENT, errno.ENOSYS, errno.EXDEV):
            before = os.listdir(self.path)
            with unittest.mock.patch.object(os, "link", side_effect=OSError(code, "a fault")):
                self.raises(code, {**self.additions(), "a pack": lambda: self.folder.pack(everything=True)})
                self.raises(code, {"a new folder": self.create})
            self.assertEqual((os.listdir(self.path), os.listdir(self.room)), (before, ["site"]))


class Syncing(InFolder):
    def test_a_folder_that_could_not_be_synced_once_stays_so_in_this_process(self) -> None:
        fsync, failing = os.fsync, [1]

        def once(opened: int) -> None:
            if os.path.samestat(os.fstat(opened), os.stat(self.path)) and failing:
                failing.clear()
                raise OSError(5, "Input/output error")
            fsync(opened)

        other = Folder.of(os.path.join(self.room, "other"), self.empty)
        with fresh(), unittest.mock.patch.object(os, "fsync", once):
            for number in 1, 2:
                with self.assertWarnsRegex(RuntimeWarning, "could not be synced"):
                    self.assertEqual(self.folder.import_csv(f"{number},1\n", heading=False), 1)
            with self.assertWarns(RuntimeWarning):
                self.assertEqual(Folder(os.path.join(self.room, "other", "..", "site")).delete("A = 9"), 0)
            for act in lambda: self.folder.pack(everything=True), lambda: self.folder.delete("A = 1") and self.folder.forget():
                before = self.folder.parts()
                with contextlib.suppress(RuntimeWarning), self.assertRaisesRegex(OSError, "could not be synced: Input/output error, at an earlier sync by this process"):
                    act()
                self.assertLessEqual({*before}, {*self.folder.parts()})
            with warnings.catch_warnings():
                warnings.simplefilter("error")  # another folder of the same disk is synced
                self.assertEqual(other.import_csv("7,7\n", heading=False), 1)
            self.assertEqual(Syncs().of(lambda: other.import_csv("1,1\n", heading=False))[1:], ["other"])
        with fresh():
            self.assertEqual(self.folder.pack(everything=True)[0], 1)

    def test_a_folder_that_has_the_number_of_one_that_could_not_be_synced_is_another_one(self) -> None:
        for _ in range(3):
            with self.assertWarns(RuntimeWarning):
                with unittest.mock.patch.object(os, "fsync", side_effect=[None, OSError(5, "a fault")]), unittest.mock.patch.dict(folder_driver._UNSYNCED_FOLDERS):
                    self.folder.import_csv("1,1\n", heading=False)
                    held = [opened for opened, _ in folder_driver._UNSYNCED_FOLDERS.values()]
                    self.assertTrue(any(os.path.samestat(os.fstat(opened), os.stat(self.path)) for opened in held))
            shutil.rmtree(self.path)
            self.folder = Folder.of(self.path, self.empty)
            self.assertEqual(self.folder.import_csv("1,1\n", heading=False), 1)


class NoFiles(Failing):
    @contextlib.contextmanager
    def soon(self) -> Iterator[None]:
        """Fails if a call waits."""

        def late(*_: object) -> None:
            raise AssertionError("it waits")

        before = signal.signal(signal.SIGALRM, late)
        signal.setitimer(signal.ITIMER_REAL, 20)
        try:
            yield
        finally:
            signal.setitimer(signal.ITIMER_REAL, 0)
            signal.signal(signal.SIGALRM, before)

    def test_a_pipe_that_has_a_parts_name_is_refused_at_once(self) -> None:
        for digit in "0", "f":
            path = os.path.join(self.path, digit * 32 + ".lanes")
            for make in os.mkfifo, self.socket, lambda path: os.symlink("/dev/null", path):
                make(path)
                acts = {**self.readings(), **self.additions(), "a forget": self.folder.forget, "a length": lambda: len(self.folder), "a summary": self.folder.summary}
                acts["a pack"], acts["a pack of all"] = self.folder.pack, lambda: self.folder.pack(everything=True)
                del acts["parts"]
                for name, act in acts.items():
                    with self.subTest(name), self.soon(), self.assertRaises(OSError) as caught:
                        act()
                    self.assertIn(caught.exception.errno, (errno.EINVAL, errno.ENXIO))
                    self.assertEqual(caught.exception.filename, path)
                os.unlink(path)
        self.assertEqual(len(self.folder), 1)

    def test_a_pipe_that_has_the_name_of_the_part_that_is_put_is_refused_at_once(self) -> None:
        path = os.path.join(self.path, part_folder.part_name(self.offer))
        os.mkfifo(path)
        with self.soon(), self.assertRaises(OSError) as caught:
            part_folder.put(self.path, self.offer)
        self.assertEqual((caught.exception.errno, caught.exception.filename), (errno.EINVAL, path))
        os.unlink(path)
        self.only_parts(2)

    def socket(self, path: str) -> None:
        with socket.socket(socket.AF_UNIX) as made:
            made.bind(path)


if __name__ == "__main__":
    unittest.main()
