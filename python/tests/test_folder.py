"""Folders of parts: what each call adds, and what it refuses."""

from __future__ import annotations

import contextlib
import os
import pathlib
import pickle
import random
import shutil
import tempfile
import unittest
import unittest.mock
from typing import Iterator

import lanes
from folders import InFolder
from lanes import Damaged, Folder, Refused, Table, part_folder


class Calls(InFolder):
    def test_each_change_adds_a_part(self) -> None:
        folder, table = self.folder, self.empty
        self.assertEqual(folder.read(), table)
        for number, csv in enumerate(["1,10\n1,7\n2,\n", "3,20\n", "1,5\n,6\n"], 1):
            self.assertEqual(folder.import_csv(csv, heading=False, batch=(1, number)), 1)
            table = table.import_csv(csv, heading=False, batch=(1, number))
            self.assertEqual(folder.read(), table)
            self.only_parts(1 + number)
        self.assertEqual(folder.import_csv("3,20\n", heading=False, batch="1.2"), 0)
        self.only_parts(4)
        self.assertEqual(folder.delete("A = 1"), 3)
        self.assertEqual(folder.delete("A = 1"), 0)
        table = table.delete("A = 1")
        self.assertEqual(folder.read(), table)
        self.only_parts(5)
        folder.delete_rows("1.2", 0)
        folder.delete_rows("9.9", 3, 5)
        table = table.delete_rows("1.2", 0).delete_rows("9.9", 3, 5)
        self.assertEqual(folder.read(), table)
        self.assertEqual(folder.query("SELECT COUNT(*),SUM(B) FROM T"), [(2, 6)])
        self.assertEqual([list(answer) for answer in folder.queries(["SELECT COUNT(*) FROM T", "SELECT MAX(B) FROM T"])], [[(2,)], [(6,)]])
        self.assertEqual(folder.parts(), sorted(os.listdir(self.path)))
        self.assertEqual(folder.pack(everything=True), (1, 7))
        self.assertEqual(folder.read(), table)
        self.only_parts(1)
        self.assertEqual(Folder.of(os.path.join(self.room, "copy"), table).parts(), folder.parts())

    def test_loads_without_a_name_read_no_other_rows(self) -> None:
        self.folder.import_csv("1,1\n" * 1000, heading=False, batch="1.1")
        with unittest.mock.patch.object(Folder, "_gathered", side_effect=AssertionError):
            self.assertEqual(self.folder.import_csv("2,2\n" * 70_000, heading=False), 2)
            self.assertEqual(self.folder.import_csv("", heading=False), 0)
        self.assertEqual(self.folder.query("SELECT COUNT(*),SUM(A) FROM T"), [(71_000, 141_000)])
        self.only_parts(3)

    def test_pulls_bring_what_is_lacked(self) -> None:
        self.folder.import_csv("1,1\n", heading=False, batch="1.1")
        other = self.empty.import_csv("2,2\n3,3\n", heading=False, batch="2.1").delete("A = 3").delete_rows("1.1", 0)
        self.assertEqual(self.folder.apply(other.offer(self.folder.summary())), 1)
        self.assertEqual(self.folder.apply(other.to_bytes(), other.offer(self.folder.summary())), 0)
        self.only_parts(3)
        whole = self.empty.import_csv("1,1\n", heading=False, batch="1.1").merge(other)
        self.assertEqual(self.folder.read(), whole)
        self.assertEqual(other.apply(self.folder.offer(other.summary())), whole)

    def test_deletions_alone_are_pulled(self) -> None:
        self.folder.import_csv("1,1\n" * 10, heading=False, batch="1.1")
        for first, last, rows in (3, 3, 9), (3, 4, 8), (5, 5, 7), (9, 9, 6), (0, 9, 0):
            self.assertEqual(self.folder.apply(self.empty.delete_rows("1.1", first, last).to_bytes()), 0)
            self.assertEqual(len(self.folder.read()), rows)

    def test_rows_of_a_batch_are_not_deleted_where_the_next_batch_is(self) -> None:
        self.folder.import_csv("1,10\n", heading=False, batch="5.2")
        before = self.folder.parts()
        self.assertIs(self.folder.delete_rows("5.1", 0, held=True), False)
        self.assertEqual(self.folder.parts(), before)

    def test_rows_of_a_batch_are_deleted_only_where_it_is(self) -> None:
        self.folder.import_csv("1,10\n2,20\n", heading=False, batch="1.1")
        before = self.folder.parts()
        self.assertIs(self.folder.delete_rows("9.9", 0, held=True), False)
        self.assertEqual(self.folder.parts(), before)
        self.assertIs(self.folder.delete_rows("1.1", 0, held=True), True)
        self.assertIs(self.folder.delete_rows("9.9", 0), True)
        self.assertEqual(len(self.folder.parts()), len(before) + 2)
        self.assertEqual(self.folder.query("SELECT COUNT(*),SUM(A) FROM T"), [(1, 2)])
        for batch, first, last in ("9.9", 2, 1), ("1.1", 2, 1), ((1, 0), 0, 0):
            with self.assertRaises(lanes.Refused):
                self.folder.delete_rows(batch, first, last, held=True)
        self.assertEqual(len(self.folder.parts()), len(before) + 2)

    def test_deletes_that_overlap_have_the_rows_of_a_table(self) -> None:
        pick = random.Random(5)
        for _ in range(12):
            with tempfile.TemporaryDirectory(dir=self.room) as room:
                folder, table = Folder.of(os.path.join(room, "f"), self.empty), self.empty
                for number in 1, 255, 256, 257, 65_536:
                    csv = "".join(f"{row},{pick.randint(0, 5)}\n" for row in range(pick.choice([1, 10, 40])))
                    folder.import_csv(csv, heading=False, batch=(1, number))
                    table = table.import_csv(csv, heading=False, batch=(1, number))
                for _ in range(6):
                    low = pick.randint(0, 40)
                    condition = pick.choice([f"B = {pick.randint(0, 5)}", f"A BETWEEN {low} AND {low + pick.randint(0, 15)}", f"A = {low} OR A = {low + 3}", "A >= 0"])
                    before = len(table)
                    table = table.delete(condition)
                    self.assertEqual(folder.delete(condition), before - len(table), condition)
                    self.assertEqual(folder.read(), table, condition)

    def test_what_is_wrong_is_refused_and_adds_nothing(self) -> None:
        self.folder.import_csv("1,1\n", heading=False, batch="1.1")
        before = self.folder.parts()
        for call, name in [
            (lambda: self.folder.import_csv("2,2\n", heading=False, batch="1.1"), "Conflict"),
            (lambda: self.folder.import_csv("2\n", heading=False), "BadCsv"),
            (lambda: self.folder.import_csv("2,2\n", heading=False, batch="0.1"), "BadName"),
            (lambda: self.folder.delete("C = 1"), "NoSuchColumn"),
            (lambda: self.folder.delete_rows("1.1", 2, 1), "BadRange"),
            (lambda: self.folder.apply(Table.create("T", {"A": "INTEGER"}).to_bytes()), "SchemaDiffers"),
            (lambda: self.folder.apply(self.empty.import_csv("5,5\n", heading=False, batch="1.1").to_bytes()), "Conflict"),
            (lambda: self.folder.apply(b"none"), "BadMagic"),
        ]:
            with self.subTest(name=name), self.assertRaises(Refused) as caught:
                call()
            self.assertEqual(caught.exception.name, name)
        self.assertEqual(self.folder.parts(), before)
        self.only_parts(2)
        for path in self.path, os.path.join(self.path, before[0]):
            with self.assertRaises(FileExistsError):
                Folder.create(path, "T", {"A": "INTEGER"})
        with self.assertRaises(NotADirectoryError):
            Folder(os.path.join(self.path, before[0]))
        with self.assertRaises(FileNotFoundError):
            Folder(os.path.join(self.room, "none"))
        self.assertEqual(os.listdir(self.room), ["site"])

    def test_parts_at_fault_are_named(self) -> None:
        name = self.folder.parts()[0]
        other = os.path.join(self.room, "other")
        shutil.copytree(self.path, other)
        with open(os.path.join(other, name), "ab") as file:
            file.write(b"x")
        with self.assertRaises(Damaged) as damaged:
            Folder(other).read()
        self.assertEqual(damaged.exception.filename, os.path.join(other, name))
        with self.assertRaises(Damaged):
            part_folder.put(other, self.empty.to_bytes())
        for data in (b"no file", Table.create("T", {"A": "INTEGER"}).to_bytes(), self.empty.to_bytes()[:-1]):
            part = part_folder.put(self.path, data)
            with self.assertRaises(Refused) as caught:
                self.folder.read()
            self.assertIn(os.path.join(self.path, max(part, name) if data[:4] == b"FLCF" and len(data) > 30 else part), caught.exception.subject)
            os.unlink(os.path.join(self.path, part))
        os.unlink(os.path.join(self.path, name))
        for call in self.folder.read, lambda: self.folder.import_csv("1,1\n", heading=False):
            with self.assertRaises(FileNotFoundError):
                call()

    def test_what_is_no_part_is_passed_over(self) -> None:
        part = self.empty.import_csv("1,1\n", heading=False, batch="1.1").to_bytes()
        name = part_folder.part_name(part)
        for other in [name.upper(), "." + name, name + ".tmp", f"x{name}", name[1:], name[:-6], "caf\u00e9.lanes", name.replace(".lanes", "\n.lanes"), name + "\n"]:
            pathlib.Path(self.path, other).write_bytes(part)
        os.mkdir(os.path.join(self.path, "more"))
        os.mkdir(os.path.join(self.path, "0" * 32 + ".lanes"))
        with open(os.fsencode(self.path) + b"/\xff.lanes", "wb"):
            pass
        self.assertEqual(len(self.folder.read()), 0)
        self.assertEqual(self.folder.import_csv("A,B\n"), 0)
        self.folder.delete_rows("9.9", 9)
        self.assertEqual(self.folder.pack(everything=True), (1, 1))
        os.symlink(os.path.join(self.path, "." + name), os.path.join(self.path, name))
        self.assertEqual(len(self.folder.read()), 1)


class Habits(InFolder):
    def test_a_folder_has_a_name_columns_and_rows(self) -> None:
        self.assertEqual((self.folder.name, self.folder.columns, len(self.folder), bool(self.folder)), ("T", {"A": "INTEGER", "B": "BIGINT"}, 0, True))
        self.folder.import_csv("1,1\n2,\n", heading=False)
        self.assertEqual((len(self.folder), list(self.folder.columns)), (2, ["A", "B"]))
        self.assertEqual(self.folder._repr_html_(), f"<p><b>{self.path}</b>: 2 parts</p>{self.folder.read()._repr_html_()}")
        shown = Folder.create(os.path.join(self.room, "a<b>&c"), "T", {"A": "INTEGER"})._repr_html_()
        self.assertIn("a&lt;b&gt;&amp;c</b>: 1 parts", shown)

    def test_folders_are_equal_that_are_the_same_folder(self) -> None:
        link = os.path.join(self.room, "link")
        os.symlink("site", link)
        for path in self.path, self.path + "/", link, os.fsencode(self.path), pathlib.Path(self.path):
            self.assertEqual(Folder(path), self.folder)
            self.assertEqual(hash(Folder(path)), hash(self.folder))
            self.assertEqual(len(Folder(path)), 0)
        other = Folder.of(os.path.join(self.room, "other"), self.empty)
        self.assertNotEqual(other, self.folder)
        self.assertNotEqual(self.folder, self.path)
        self.assertEqual(pickle.loads(pickle.dumps(self.folder)), self.folder)
        self.assertEqual(len({self.folder, Folder(link), other}), 2)


class Looks(InFolder):
    def test_a_part_that_one_listing_misses_is_in_the_other(self) -> None:
        self.folder.import_csv("1,1\n", heading=False, batch="1.1")
        scandir, part = os.scandir, self.folder.parts()[0]
        for missed in 1, 2:
            calls: list[object] = []

            @contextlib.contextmanager
            def listing(path: str) -> Iterator[object]:
                calls.append(path)
                with scandir(path) as entries:
                    yield [entry for entry in entries if len(calls) != missed or entry.name != part]

            with unittest.mock.patch.object(part_folder.os, "scandir", listing):
                self.assertEqual(len(self.folder.parts()), 2)

    def test_a_pack_in_the_middle_of_a_reading_is_passed_over(self) -> None:
        for number, (call, act, answer) in enumerate(
            [
                ("read_part", lambda: len(self.folder.read()), 2),
                ("read_part", lambda: self.folder.import_csv("1,1\n", heading=False, batch="1.1"), 0),
                ("front_of", lambda: self.folder.import_csv("1,1\n", heading=False), 1),
                ("front_of", lambda: self.folder.delete_rows("9.9", 9), True),
            ]
        ):
            self.folder.import_csv("1,1\n", heading=False, batch="1.1")
            self.folder.import_csv("2,2\n", heading=False, batch="1.2")
            read, packed = getattr(part_folder, call), []

            def late(folder: str, name: str) -> object:
                if not packed:
                    packed.append(name)
                    self.assertEqual(Folder(folder).pack(everything=True)[0], 1)
                return read(folder, name)

            with self.subTest(number=number), unittest.mock.patch.object(part_folder, call, late):
                self.assertEqual(act(), answer)
            self.assertTrue(packed)

    def test_a_short_write_goes_on(self) -> None:
        write = os.write
        with unittest.mock.patch.object(part_folder.os, "write", lambda file, data: write(file, bytes(data[:7]))):
            self.folder.import_csv("1,1\n2,2\n", heading=False, batch="1.1")
        self.only_parts(2)
        self.assertEqual(len(self.folder.read()), 2)


class Heads(InFolder):
    """What a load without a name, and a delete of rows by their names, find in the heads of the parts."""

    def test_a_part_of_another_table_is_refused_whichever_is_the_smallest(self) -> None:
        for columns in {"A": "INTEGER"}, {"A": "INTEGER", "B": "BIGINT", "C": "BIGINT"}, {"A": "INTEGER", "B": "INTEGER"}:
            other = part_folder.put(self.path, Table.create("T", columns).to_bytes())
            before = self.folder.parts()
            for act in lambda: self.folder.delete_rows("1.1", 0), lambda: self.folder.import_csv("1\n", heading=False), lambda: self.folder.import_csv("", heading=False):
                with self.subTest(columns=columns), self.assertRaises(Refused) as caught:
                    act()
                self.assertEqual(caught.exception.name, "SchemaDiffers")
                self.assertEqual(os.path.join(self.path, before[1]), caught.exception.subject)
                self.assertEqual(self.folder.parts(), before)
            os.unlink(os.path.join(self.path, other))
        self.folder.delete_rows("1.1", 0)
        self.only_parts(2)

    def test_a_head_at_fault_is_damaged(self) -> None:
        self.folder.import_csv("1,1\n" * 100, heading=False)
        count = len(self.empty.to_bytes()) - 12
        for name in self.folder.parts():
            path = pathlib.Path(self.path, name)
            data = path.read_bytes()
            for at in range(count):
                path.write_bytes(data[:at] + bytes([data[at] ^ 1]) + data[at + 1 :])
                with self.subTest(name=name, at=at), self.assertRaises(Damaged) as caught:
                    self.folder.delete_rows("1.1", 0)
                self.assertEqual(caught.exception.filename, os.fspath(path))
            for length in 0, 7, count, count + 3:
                path.write_bytes(data[:length])
                with self.subTest(name=name, length=length), self.assertRaises(Damaged):
                    self.folder.import_csv("1,1\n", heading=False)
            path.write_bytes(data)
        self.folder.delete_rows("1.1", 0)
        self.only_parts(3)

    def test_a_fault_behind_the_head_of_the_smallest_part_is_damaged(self) -> None:
        self.folder.import_csv("1,1\n" * 100, heading=False)
        (_, name), _ = self.folder._sized()
        path = pathlib.Path(self.path, name)
        data = path.read_bytes()
        path.write_bytes(data[:-1] + b"\1")
        for act in lambda: self.folder.delete_rows("1.1", 0), lambda: self.folder.import_csv("1,1\n", heading=False):
            with self.assertRaises(Damaged) as caught:
                act()
            self.assertEqual(caught.exception.part, name)
        path.write_bytes(data)
        self.only_parts(2)

    def test_a_full_folder_takes_no_load(self) -> None:
        front, one = len(self.empty.to_bytes()) - 12, self.empty.import_csv("7,7\n", heading=False, batch="1.1").to_bytes()
        batch = one[front + 12 : -8]
        for origin, count in (3, 600_000), (4, 448_574):
            batches = b"".join(origin.to_bytes(4, "little") + number.to_bytes(4, "little") + batch for number in range(1, count + 1))
            part_folder.put(self.path, one[:front] + count.to_bytes(4, "little") + batches + bytes(8))
        with self.assertRaises(Refused) as caught:
            self.folder.import_csv("1,1\n" * (2 * 65_536 + 1), heading=False)
        self.assertEqual(caught.exception.name, "Full")
        self.assertEqual(self.folder.import_csv("1,1\n" * (65_536 + 1), heading=False), 2)
        self.assertEqual(self.folder.import_csv("", heading=False), 0)
        before = self.folder.parts()
        with self.assertRaises(Refused) as caught:
            self.folder.import_csv("1,1\n", heading=False)
        self.assertEqual((caught.exception.name, self.folder.parts()), ("Full", before))

    def test_a_folder_of_many_long_names_is_read_by_its_heads(self) -> None:
        columns = {f"C{number:02}_{'N' * 60}": "BIGINT" for number in range(32)}
        folder = Folder.create(os.path.join(self.room, "wide"), "T" * 64, columns)
        self.assertEqual(folder.import_csv(",".join(map(str, range(32))) + "\n", heading=False), 1)
        folder.delete_rows("9.9", 3)
        self.assertEqual((folder.name, folder.columns, len(folder), len(folder.parts())), ("T" * 64, columns, 1, 3))

    def test_a_load_without_rows_puts_no_part(self) -> None:
        folder = Folder.of(os.path.join(self.room, "full"), self.empty.import_csv("1,1\n", heading=False))
        for batch in None, "1.1":
            self.assertEqual(folder.import_csv("A,B\n", batch=batch), 0)
            self.assertEqual(len(folder.parts()), 1)


if __name__ == "__main__":
    unittest.main()
