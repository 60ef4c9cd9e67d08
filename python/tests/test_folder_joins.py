"""Parts of a folder that are joined into one and removed: by a pack, and by a forget."""

from __future__ import annotations

import contextlib
import fcntl
import os
import pathlib
import random
import unittest
import unittest.mock

from folders import InFolder, Syncs, fresh
from lanes import Busy, Damaged, Folder, Table, folder_driver, part_folder, waiting


class Packs(InFolder):
    def test_a_pack_that_is_not_on_the_disk_removes_nothing(self) -> None:
        for number in range(1, 4):
            self.folder.import_csv(f"{number},1\n", heading=False, batch=(1, number))
        before, joined = self.folder.parts(), part_folder.part_name(self.folder.read().to_bytes())
        for fails_at in range(1, 4):
            syncs = Syncs(fails_at)
            with self.subTest(fails_at=fails_at), self.assertRaises(OSError):
                syncs.of(lambda: self.folder.pack(everything=True))
            self.assertEqual([name for name in self.folder.parts() if name != joined], before)
            with contextlib.suppress(FileNotFoundError):
                os.unlink(os.path.join(self.path, joined))
        syncs = Syncs()
        self.assertEqual(syncs.of(lambda: self.folder.pack(everything=True))[1:], [joined, "site", "site"])
        self.assertEqual((self.folder.parts(), len(self.folder.read())), ([joined], 3))

    def test_a_pack_is_looked_at_before_parts_are_removed(self) -> None:
        for number in range(1, 4):
            self.folder.import_csv(f"{number},1\n", heading=False, batch=(1, number))
        before, joined = self.folder.parts(), part_folder.part_name(self.folder.read().to_bytes())
        read = folder_driver.Driver._read

        def spoiled(driver: folder_driver.Driver, number: int, name: str) -> tuple[int, int, bytes]:
            path = pathlib.Path(driver.folder, name)
            path.write_bytes(path.read_bytes()[:-1])
            return read(driver, number, name)

        def lost(driver: folder_driver.Driver, number: int, name: str) -> tuple[int, int, bytes]:
            os.unlink(os.path.join(driver.folder, name))
            return read(driver, number, name)

        with unittest.mock.patch.object(folder_driver.Driver, "_read", spoiled), self.assertRaises(Damaged):
            self.folder.pack(everything=True)
        os.unlink(os.path.join(self.path, joined))
        self.assertEqual(self.folder.parts(), before)
        with unittest.mock.patch.object(folder_driver.Driver, "_read", lost), unittest.mock.patch.object(waiting, "LONGEST", 0.1), self.assertRaises(Busy):
            self.folder.pack(everything=True)
        self.assertEqual(self.folder.parts(), before)

    def test_small_parts_are_joined_and_large_ones_stay(self) -> None:
        pick, table = random.Random(1), self.empty
        for number in range(1, 41):
            csv = "".join(f"{pick.randrange(1 << 30)},{pick.randrange(1 << 60)}\n" for _ in range(20))
            self.folder.import_csv(csv, heading=False, batch=(1, number))
            table = table.import_csv(csv, heading=False, batch=(1, number))
            if number % 8 == 0:
                self.folder.pack()
        self.assertEqual(self.folder.read(), table)
        sizes = sorted(os.path.getsize(os.path.join(self.path, name)) for name in os.listdir(self.path))
        self.assertTrue(all(7 * size > sum(sizes[:at]) for at, size in enumerate(sizes) if at), sizes)
        self.assertEqual(self.folder.pack(), (len(sizes), 0))
        self.only_parts(len(sizes))

    def test_a_join_that_is_one_of_its_parts_stays(self) -> None:
        whole = self.empty.import_csv("1,1\n", heading=False, batch="1.1")
        part = part_folder.put(self.path, whole.to_bytes())
        self.assertEqual(self.folder.pack(everything=True), (1, 1))
        self.assertEqual(self.folder.parts(), [part])

    def test_temporaries_that_nobody_holds_are_swept(self) -> None:
        left, held = (os.path.join(self.path, f".part-{digit * 16}") for digit in "ab")
        for path in left, held:
            pathlib.Path(path).write_bytes(b"x")
        with open(held, "rb") as file:
            fcntl.flock(file, fcntl.LOCK_EX)
            self.folder.pack()
            self.assertEqual((os.path.exists(left), os.path.exists(held)), (False, True))
        self.folder.pack()
        self.only_parts(1)

    def test_a_folder_that_another_has_is_waited_for(self) -> None:
        self.folder.import_csv("1,1\n", heading=False)
        with part_folder.locked(self.path, fcntl.LOCK_SH), unittest.mock.patch.object(waiting, "LONGEST", 0.1):
            before = self.folder.parts()
            for act in (
                lambda: self.folder.pack(everything=True),
                lambda: self.folder.import_csv("2,2\n", heading=False, batch="1.1"),
                lambda: self.folder.apply(self.empty.import_csv("2,2\n", heading=False, batch="1.1").to_bytes()),
            ):
                with self.assertRaises(Busy):
                    act()
            self.assertEqual((len(self.folder.read()), self.folder.parts()), (1, before))
        with part_folder.locked(self.path, fcntl.LOCK_EX), unittest.mock.patch.object(waiting, "LONGEST", 0.1):
            with self.assertRaises(Busy):
                self.folder.read()
            with self.assertRaises(Busy):
                self.folder.import_csv("2,2\n", heading=False, batch="1.1")
        self.assertEqual(self.folder.pack(everything=True)[0], 1)
        self.only_parts(1)

    def test_file_systems_without_locks_or_links_serve(self) -> None:
        with unittest.mock.patch.object(part_folder.fcntl, "flock", side_effect=OSError(95, "no locks")):
            self.folder.import_csv("1,1\n", heading=False, batch="1.1")
            self.assertEqual(len(self.folder.read()), 1)
            with self.assertRaises(OSError):
                self.folder.pack(everything=True)
        with unittest.mock.patch.object(part_folder.os, "link", side_effect=OSError(1, "no links")):
            self.folder.import_csv("2,2\n", heading=False, batch="1.2")
            part_folder.put(self.path, self.empty.to_bytes())
        with unittest.mock.patch.object(part_folder.os, "link", side_effect=OSError(1, "no links")), unittest.mock.patch.object(part_folder.os, "rename", side_effect=OSError(5, "a fault")):
            for batch in None, "1.3":
                with self.assertRaises(OSError):
                    self.folder.import_csv("3,3\n", heading=False, batch=batch)
        self.assertEqual(len(self.folder.read()), 2)
        self.assertFalse([name for name in os.listdir(self.path) if name.startswith(".")])

    def test_a_failed_write_leaves_nothing(self) -> None:
        before = os.listdir(self.path)
        for call in "write", "fsync":
            with fresh(), unittest.mock.patch.object(part_folder.os, call, side_effect=OSError(28, "no room")), self.assertRaises(OSError):
                self.folder.import_csv("1,1\n", heading=False)
            self.assertEqual(os.listdir(self.path), before)
            with fresh(), unittest.mock.patch.object(part_folder.os, call, side_effect=OSError(28, "no room")), self.assertRaises(OSError):
                Folder.create(os.path.join(self.room, "new"), "T", {"A": "INTEGER"})
            self.assertEqual(os.listdir(self.room), ["site"])


class Forgets(InFolder):
    def half_dead(self) -> Table:
        """A folder of three loads, of which the second is deleted: what a table leaves of it that forgets."""
        for number in range(1, 4):
            self.folder.import_csv(f"{number},1\n{number},2\n", heading=False, batch=(1, number))
        self.folder.delete_rows("1.2", 0, 65_535)
        self.folder.delete("A = 1 AND B = 1")
        return self.folder.read().forget()

    def test_a_forget_drops_the_batches_of_which_every_row_is_deleted(self) -> None:
        self.assertEqual(self.folder.forget(), 0)
        left = self.half_dead()
        rows = self.folder.read().dump(names=True)
        self.assertEqual(self.folder.forget(), 1)
        self.assertEqual(self.folder.parts(), [part_folder.part_name(left.to_bytes())])
        self.assertEqual((self.folder.read(), self.folder.read().dump(names=True)), (left, rows))
        self.only_parts(1)
        self.assertEqual((self.folder.forget(), self.folder.parts()), (0, [part_folder.part_name(left.to_bytes())]))
        self.folder.delete("A > 0")
        self.assertEqual((self.folder.forget(), len(self.folder), self.folder.read().check()[0]), (2, 0, 0))

    def test_a_forget_of_nothing_has_what_is_there_on_the_disk(self) -> None:
        self.folder.import_csv("1,1\n", heading=False, batch="1.1")
        parts = self.folder.parts()
        synced = Syncs().of(self.folder.forget)
        self.assertEqual((sorted({*synced}), synced[-1], self.folder.parts()), ([*parts, "site"], "site", parts))
        with self.assertWarns(RuntimeWarning):
            Syncs(fails_at=1).of(self.folder.forget)

    def test_a_forget_that_is_not_on_the_disk_removes_nothing(self) -> None:
        part = part_folder.part_name(self.half_dead().to_bytes())
        before, rows = self.folder.parts(), self.folder.read().dump(names=True)
        for fails_at in range(1, 4):
            with self.subTest(fails_at=fails_at), self.assertRaises(OSError):
                Syncs(fails_at).of(self.folder.forget)
            self.assertEqual([name for name in self.folder.parts() if name != part], before)
            self.assertEqual(self.folder.read().dump(names=True), rows)
            with contextlib.suppress(FileNotFoundError):
                os.unlink(os.path.join(self.path, part))
        self.assertEqual(Syncs().of(self.folder.forget)[1:], [part, "site", "site"])
        self.assertEqual((self.folder.parts(), self.folder.read().dump(names=True)), ([part], rows))

    def test_a_forget_that_is_not_locked_changes_nothing(self) -> None:
        self.half_dead()
        before = os.listdir(self.path)
        with part_folder.locked(self.path, fcntl.LOCK_SH), unittest.mock.patch.object(waiting, "LONGEST", 0.1), self.assertRaises(Busy):
            self.folder.forget()
        with unittest.mock.patch.object(part_folder.fcntl, "flock", side_effect=OSError(95, "no locks")), self.assertRaises(OSError):
            self.folder.forget()
        self.assertEqual(sorted(os.listdir(self.path)), sorted(before))

    def test_a_pack_or_a_forget_that_others_came_before_looks_again(self) -> None:
        """What the one has read the other has replaced: what was dropped is not brought back, and what came meanwhile stays."""
        replace = part_folder.replace
        for act, other in (
            (lambda: self.folder.pack(everything=True), lambda: self.folder.forget()),
            (self.folder.forget, lambda: self.folder.pack(everything=True)),
            (self.folder.forget, lambda: self.folder.forget()),
        ):
            self.half_dead()
            late = []

            def meanwhile(folder: str, data: bytes, joined: list[str]) -> object:
                if not late:
                    late.append(joined)
                    with unittest.mock.patch.object(part_folder, "replace", replace):
                        other()
                        self.folder.import_csv("9,9\n", heading=False, batch="9.9")
                return replace(folder, data, joined)

            with unittest.mock.patch.object(part_folder, "replace", meanwhile):
                act()
            held = self.folder.read()
            self.assertTrue(late)
            self.assertEqual((len(held), held.forget()), (4, held))
            for name in self.folder.parts():
                os.unlink(os.path.join(self.path, name))
            part_folder.put(self.path, self.empty.to_bytes())


if __name__ == "__main__":
    unittest.main()
