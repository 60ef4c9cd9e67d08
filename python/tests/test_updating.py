"""Changing a file under the program's lock, with the real program beside it."""

from __future__ import annotations

import os
import pathlib
import subprocess
import tempfile
import threading
import time
import unittest
import unittest.mock
from typing import Any

import lanes
import lanes.replacing
from lanes import Busy, Table, waiting

#: The program: the script runs the one that was built here or the released one.
PROGRAM = pathlib.Path(__file__).resolve().parent.parent.parent / "lanes"


def program(*words: str, given: str = "") -> str:
    """What the program prints."""
    done = subprocess.run([PROGRAM, *words], input=given, capture_output=True, text=True, timeout=120)
    if done.returncode:
        raise AssertionError(f"{words} was refused: {done.stderr}")
    return done.stdout


class Updating(unittest.TestCase):
    def setUp(self) -> None:
        folder = tempfile.TemporaryDirectory(prefix="lanes-updating-")
        self.addCleanup(folder.cleanup)
        self.folder = folder.name
        self.path = os.path.join(self.folder, "t.lanes")
        self.empty = Table.create("T", {"A": "INTEGER"})
        self.empty.save(self.path)

    def only(self, *names: str) -> None:
        self.assertEqual(sorted(os.listdir(self.folder)), sorted(names or ["t.lanes"]))

    def count(self) -> Any:
        return Table.open(self.path).query("SELECT COUNT(*) FROM T")[0][0]

    def test_a_change_is_written_at_the_end(self) -> None:
        with lanes.update(self.path) as change:
            self.assertEqual(change.table, self.empty)
            change.table = change.table.import_csv("1\n2\n", heading=False, batch="1.1")
            self.assertEqual(self.count(), 0)
        self.assertEqual(self.count(), 2)
        self.only()

    def test_a_link_that_is_switched_meanwhile_writes_no_file_over_another(self) -> None:
        link, other = os.path.join(self.folder, "link"), os.path.join(self.folder, "other.lanes")
        self.empty.import_csv("7\n", heading=False, batch="7.7").save(other)
        os.symlink("t.lanes", link)
        enter = lanes.replacing.Held.__enter__

        def switched(held: Any) -> Any:
            os.unlink(link)
            os.symlink("other.lanes", link)
            return enter(held)

        with unittest.mock.patch.object(lanes.replacing.Held, "__enter__", switched), lanes.update(link) as change:
            change.table = change.table.import_csv("1\n", heading=False, batch="1.1")
        self.assertEqual([Table.open(path).dump() for path in (self.path, other)], ["A\n1\n", "A\n7\n"])

    def test_a_block_that_raises_leaves_the_file(self) -> None:
        with self.assertRaises(ZeroDivisionError), lanes.update(self.path) as change:
            change.table = change.table.import_csv("1\n", heading=False)
            raise ZeroDivisionError
        with self.assertRaises(TypeError), lanes.update(self.path) as change:
            change.table = b""  # type: ignore[assignment]
        self.assertEqual(Table.open(self.path), self.empty)
        self.only()

    def test_a_table_that_is_the_same_leaves_the_file(self) -> None:
        before = os.stat(self.path).st_ino
        with lanes.update(self.path) as change:
            change.table = change.table.delete("A = 1").merge(self.empty)
        self.assertEqual(os.stat(self.path).st_ino, before)
        self.only()

    def test_a_table_that_is_the_same_is_on_the_disk_afterwards(self) -> None:
        synced: list[str] = []
        with unittest.mock.patch.object(os, "fsync", lambda opened: synced.append(os.readlink(f"/proc/self/fd/{opened}"))):
            with lanes.update(self.path) as change:
                change.table = change.table.delete("A = 1")
        self.assertEqual(synced, [self.path, self.folder])
        for count in 1, 2:
            faults = [None] * (count - 1) + [OSError(5, "a fault")] + [None] * (2 - count)
            with unittest.mock.patch.object(os, "fsync", side_effect=faults), self.assertWarns(RuntimeWarning), lanes.update(self.path):
                pass
        self.only()

    def test_a_change_that_keeps_the_length_is_written(self) -> None:
        self.empty.import_csv("1\n" * 10, heading=False, batch="1.1").delete_rows("1.1", 3).save(self.path)
        before = os.path.getsize(self.path)
        with lanes.update(self.path) as change:
            change.table = change.table.delete_rows("1.1", 4)
        self.assertEqual((os.path.getsize(self.path), self.count()), (before, 8))

    def test_a_link_is_followed_and_stays_one(self) -> None:
        link = os.path.join(self.folder, "link")
        os.symlink("t.lanes", link)
        with lanes.update(link) as change:
            change.table = change.table.import_csv("1\n", heading=False)
        self.assertTrue(os.path.islink(link))
        self.assertEqual(self.count(), 1)
        self.only("link", "t.lanes")

    def test_what_is_no_file_is_refused_and_nothing_is_left(self) -> None:
        with self.assertRaises(FileNotFoundError), lanes.update(os.path.join(self.folder, "none")):
            self.fail("there is no file")
        pathlib.Path(self.path).write_bytes(b"no file")
        with self.assertRaises(lanes.Refused), lanes.update(self.path):
            self.fail("there is no table")
        with self.assertRaises(OSError), lanes.update("/dev/null"):
            self.fail("that is a device")
        self.only()

    def test_a_file_that_another_has_is_waited_for(self) -> None:
        with lanes.update(self.path), unittest.mock.patch.object(waiting, "LONGEST", 0.1):
            with self.assertRaises(Busy):
                self.empty.save(self.path)
        self.empty.save(self.path)

    def test_an_import_of_the_program_meanwhile_is_not_lost(self) -> None:
        with lanes.update(self.path) as change:
            importing = subprocess.Popen([PROGRAM, "import", "--no-header", "--batch", "2.1", self.path, "-"], stdin=subprocess.PIPE, stdout=subprocess.PIPE, text=True)
            assert importing.stdin
            importing.stdin.write("2\n")
            importing.stdin.close()
            time.sleep(0.5)
            self.assertIsNone(importing.poll())
            change.table = change.table.import_csv("1\n", heading=False, batch="1.1")
        self.assertEqual(importing.wait(30), 0)
        assert importing.stdout
        importing.stdout.close()
        self.assertEqual(program("query", self.path, "SELECT COUNT(*),SUM(A) FROM T"), "COUNT(*),SUM(A)\n2,3\n")
        self.only()

    def test_imports_of_the_program_and_of_python_at_once_are_all_there(self) -> None:
        def python(origin: int) -> None:
            for number in range(1, 9):
                with lanes.update(self.path) as change:
                    change.table = change.table.import_csv(f"{number}\n", heading=False, batch=(origin, number))

        def other(origin: int) -> None:
            for number in range(1, 9):
                program("import", "--quiet", "--no-header", "--batch", f"{origin}.{number}", self.path, "-", given=f"{number}\n")

        threads = [threading.Thread(target=call, args=(at + 1,)) for at, call in enumerate([python, other, python, other])]
        for thread in threads:
            thread.start()
        for thread in threads:
            thread.join(120)
        self.assertEqual(Table.open(self.path).query("SELECT COUNT(*),SUM(A) FROM T"), [(32, 144)])
        self.assertEqual(program("check", self.path), "ok batches=32 ranges=0\n")
        self.only()

    def test_a_save_says_which_folder_is_missing(self) -> None:
        with self.assertRaises(FileNotFoundError) as caught:
            self.empty.save(os.path.join(self.folder, "none", "t.lanes"))
        self.assertEqual(caught.exception.filename, os.path.join(self.folder, "none"))


if __name__ == "__main__":
    unittest.main()
