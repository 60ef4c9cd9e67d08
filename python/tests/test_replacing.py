"""How a file is replaced: as the program replaces it, which tests/files shows."""

from __future__ import annotations

import fcntl
import os
import pathlib
import re
import shutil
import stat
import subprocess
import sys
import tempfile
import threading
import time
import unittest
from typing import Callable
from unittest import mock

from lanes import Busy, Table, replacing, update, waiting

#: The folder of the module.
TOP = pathlib.Path(replacing.__file__).resolve().parent.parent

CALLS = "openat,flock,ftruncate,fchmod,write,fsync,rename,renameat,renameat2,unlink,unlinkat"


def as_nobody(act: Callable[[], object]) -> str:
    """What a call raises in a child that is no root, and of which file."""
    reading, writing = os.pipe()
    child = os.fork()
    if not child:
        try:
            if os.getuid() == 0:
                os.setgroups([])
                os.setgid(65534)
                os.setuid(65534)
            os.write(writing, repr(act()).encode())
        except BaseException as fault:
            os.write(writing, f"{type(fault).__name__} {getattr(fault, 'filename', fault)}".encode())
        finally:
            os._exit(0)
    os.close(writing)
    with open(reading) as told:
        said = told.read()
    os.waitpid(child, 0)
    return said


class Replaced(unittest.TestCase):
    def setUp(self) -> None:
        folder = tempfile.TemporaryDirectory(prefix="lanes-replacing-")
        self.addCleanup(folder.cleanup)
        self.folder = folder.name
        self.path = os.path.join(self.folder, "t")
        self.lock = os.path.join(self.folder, ".t.lanes-lock")

    def put(self, data: bytes = b"old") -> None:
        with open(self.path, "wb") as file:
            file.write(data)

    def get(self) -> bytes:
        with open(self.path, "rb") as file:
            return file.read()

    def test_a_file_has_the_bytes_and_no_lock_is_left(self) -> None:
        for data in (b"", b"new", b"x" * 3_000_000):
            replacing.replace(self.path, data)
            self.assertEqual(self.get(), data)
            self.assertEqual(os.listdir(self.folder), ["t"])

    def test_a_short_write_goes_on(self) -> None:
        write = os.write
        with mock.patch.object(replacing.os, "write", lambda file, data: write(file, bytes(data[:7]))):
            replacing.replace(self.path, b"x" * 100)
        self.assertEqual(self.get(), b"x" * 100)

    def test_the_mode_is_kept(self) -> None:
        for mode in (0o600, 0o640, 0o444, 0o1644, 0o2640, 0o4755):
            self.put()
            os.chmod(self.path, mode)
            replacing.replace(self.path, b"new")
            self.assertEqual(stat.S_IMODE(os.stat(self.path).st_mode), mode)
            os.remove(self.path)

    def test_a_file_that_may_not_be_written_is_not_replaced(self) -> None:
        """By a user who may write into its folder."""
        self.put()
        os.chmod(self.path, 0o444)
        os.chmod(self.folder, 0o777)
        table = Table.create("T", {"A": "INTEGER"})
        acts = {
            "save": lambda: table.save(self.path),
            "dump": lambda: table.dump(path=self.path),
            "update": lambda: update(self.path).__enter__(),
        }
        for name, act in acts.items():
            self.assertEqual(as_nobody(act), f"PermissionError {self.path}", name)
        self.assertEqual((self.get(), os.listdir(self.folder)), (b"old", ["t"]))

    def test_a_symbolic_link_stays_one(self) -> None:
        self.put()
        link = os.path.join(self.folder, "link")
        os.symlink("t", link)
        replacing.replace(link, b"new")
        self.assertTrue(os.path.islink(link))
        self.assertEqual(self.get(), b"new")

    def test_what_is_no_regular_file_is_written_in_place(self) -> None:
        os.mkfifo(self.path)
        link = os.path.join(self.folder, "link")
        os.symlink("t", link)
        data, found = b"x" * 300_000, []
        for path in (self.path, link):
            reading = threading.Thread(target=lambda: found.append(self.get()))
            reading.start()
            replacing.replace(path, data)
            reading.join(30)
        self.assertEqual(found, [data, data])
        self.assertTrue(stat.S_ISFIFO(os.stat(self.path).st_mode))
        self.assertEqual(sorted(os.listdir(self.folder)), ["link", "t"])
        replacing.replace("/dev/null", b"new")
        self.assertTrue(stat.S_ISCHR(os.stat("/dev/null").st_mode))
        with self.assertRaises(IsADirectoryError):
            replacing.replace(self.folder, b"new")

    def test_what_is_no_regular_file_is_not_held(self) -> None:
        os.mkfifo(self.path)
        with self.assertRaises(OSError):
            replacing.Held(self.path)
        self.assertEqual(os.listdir(self.folder), ["t"])

    def test_a_file_that_is_held_and_not_put_is_as_it_was(self) -> None:
        self.put()
        with replacing.Held(self.path) as held:
            self.assertEqual(sorted(os.listdir(self.folder)), [".t.lanes-lock", "t"])
        held.release()
        self.assertEqual((self.get(), os.listdir(self.folder)), (b"old", ["t"]))

    def test_a_lock_that_was_left_is_replaced(self) -> None:
        self.put()
        with open(self.lock, "wb") as left:
            left.write(b"x" * 1000)
        os.chmod(self.lock, 0o444)
        replacing.replace(self.path, b"new")
        self.assertEqual((self.get(), os.listdir(self.folder)), (b"new", ["t"]))

    def test_a_hard_link_to_the_file_is_no_lock(self) -> None:
        self.put()
        other = os.path.join(self.folder, "other")
        os.link(self.path, self.lock)
        os.link(self.path, other)
        replacing.replace(self.path, b"new")
        with open(other, "rb") as file:
            self.assertEqual((self.get(), file.read()), (b"new", b"old"))

    def test_a_lock_that_is_a_link_is_refused_and_makes_nothing(self) -> None:
        self.put()
        os.symlink("elsewhere", self.lock)
        with self.assertRaises(FileExistsError):
            replacing.replace(self.path, b"new")
        self.assertEqual((self.get(), sorted(os.listdir(self.folder))), (b"old", [".t.lanes-lock", "t"]))

    def test_a_lock_that_another_has_is_waited_for(self) -> None:
        self.put()
        with open(self.lock, "wb") as lock:
            fcntl.flock(lock, fcntl.LOCK_EX)
            with mock.patch.object(waiting, "LONGEST", 0.2), self.assertRaises(Busy):
                replacing.replace(self.path, b"new")
            thread = threading.Thread(target=replacing.replace, args=(self.path, b"new"))
            thread.start()
            self.assertEqual(self.get(), b"old")
        thread.join(30)
        self.assertEqual((self.get(), os.listdir(self.folder)), (b"new", ["t"]))

    def test_a_lock_that_another_has_taken_over_stays(self) -> None:
        """As when the file system lost the lock, or the file was removed by hand."""
        self.put()
        held = replacing.Held(self.path)
        os.unlink(self.lock)
        with open(self.lock, "wb") as other:
            fcntl.flock(other, fcntl.LOCK_EX)
            held.release()
            self.assertTrue(os.path.samestat(os.stat(self.lock), os.fstat(other.fileno())))
            with mock.patch.object(waiting, "LONGEST", 0.1), self.assertRaises(Busy):
                replacing.replace(self.path, b"new")
        self.assertEqual((self.get(), sorted(os.listdir(self.folder))), (b"old", [".t.lanes-lock", "t"]))

    def test_a_clock_that_is_set_changes_no_wait(self) -> None:
        times = iter([1e9, *[1e9 + 3600] * 1000])
        with mock.patch.object(waiting.time, "time", lambda: next(times)), mock.patch.object(waiting, "LONGEST", 0.2):
            wait = waiting.Wait("others have it", self.path)
            begun = time.monotonic()
            with self.assertRaises(Busy):
                while True:
                    wait.again()
            self.assertTrue(0.2 <= time.monotonic() - begun < 20)

    def test_a_folder_that_is_not_there_is_an_error_at_once(self) -> None:
        with self.assertRaises(FileNotFoundError):
            replacing.replace(os.path.join(self.folder, "none", "t"), b"new")

    def test_each_call_that_fails_leaves_the_old_file_and_no_lock(self) -> None:
        for call in ("fchmod", "ftruncate", "write", "fsync", "rename"):
            self.put()
            with mock.patch.object(replacing.os, call, side_effect=OSError(5, "a fault")), self.assertRaises(OSError):
                replacing.replace(self.path, b"new")
            self.assertEqual((self.get(), os.listdir(self.folder)), (b"old", ["t"]), call)

    def test_a_folder_that_can_not_be_synced_is_a_warning(self) -> None:
        self.put()
        with mock.patch.object(replacing.os, "fsync", side_effect=[None, OSError(5, "a fault")]), self.assertWarns(RuntimeWarning):
            replacing.replace(self.path, b"new")
        self.assertEqual((self.get(), os.listdir(self.folder)), (b"new", ["t"]))

    @unittest.skipUnless(shutil.which("strace"), "strace is not installed")
    def test_the_calls_are_those_of_the_program_in_its_order(self) -> None:
        self.put()
        trace = os.path.join(self.folder, "trace")
        code = f"import sys; sys.path.insert(0, {str(TOP)!r}); from lanes import replacing; replacing.replace({self.path!r}, b'new')"
        done = subprocess.run(["strace", "-y", "-o", trace, "-e", f"trace={CALLS}", sys.executable, "-B", "-c", code], capture_output=True, timeout=60)
        if done.returncode != 0:
            self.skipTest(f"strace can't trace: {done.stderr[-200:]!r}")
        with open(trace, encoding="utf-8", errors="replace") as file:
            text = file.read()
        steps = (
            r"openat\(.*\.t\.lanes-lock\", .*O_CREAT\|O_EXCL",
            r"flock\(.*lanes-lock>, LOCK_EX\|LOCK_NB\) += 0",
            r"fchmod\(.*lanes-lock",
            rf"openat\([^,]*, \"{re.escape(self.folder)}\", O_RDONLY",
            r"ftruncate\(.*lanes-lock>, 0\)",
            r"write\(.*lanes-lock>",
            r"fsync\(.*lanes-lock>\)",
            r"rename.*\.t\.lanes-lock\".*t\"",
            rf"fsync\([0-9]+<{re.escape(self.folder)}>\) += 0",
        )
        place = 0
        for step in steps:
            found = re.compile(step).search(text, place)
            assert found, f"{step} is not in its place in\n{text[-2000:]}"
            place = found.end()
        self.assertNotIn("unlink", text)


if __name__ == "__main__":
    unittest.main()
