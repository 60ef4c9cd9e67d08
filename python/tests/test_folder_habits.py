"""Folders as a user meets them: what is no part, what is left, what is told, and where a new folder is made."""

from __future__ import annotations

import fcntl
import os
import pathlib
import pickle
import stat
import unittest
import unittest.mock
import warnings

from folders import InFolder, Syncs, fresh
from lanes import Busy, Folder, Refused, calls, folder_driver, owned, part_folder, waiting


class Names(InFolder):
    def test_a_link_to_a_folder_is_no_part(self) -> None:
        """Nor is one when parts are chosen for a pack."""
        self.folder.import_csv("1,1\n", heading=False, batch="1.1")
        before = self.folder.parts()
        for digit in "0", "f":
            os.symlink(self.room, os.path.join(self.path, digit * 32 + ".lanes"))
        self.assertEqual((self.folder.parts(), len(self.folder.read()), len(self.folder._sized())), (before, 1, 2))
        self.assertEqual(self.folder.import_csv("2,2\n", heading=False), 1)
        self.assertEqual(self.folder.pack(everything=True)[0], 1)
        self.assertEqual((len(self.folder), len(os.listdir(self.path))), (2, 3))

    def test_a_pack_chooses_no_folder_of_a_part_s_name(self) -> None:
        self.folder.import_csv("1,1\n", heading=False, batch="1.1")
        path = os.path.join(self.path, "0" * 32 + ".lanes")
        listed = part_folder.listed(self.path)
        os.mkdir(path)
        with unittest.mock.patch.object(part_folder, "listed", lambda _: [os.path.basename(path), *listed]):
            self.assertEqual([name for _, name in self.folder._sized()], sorted(listed, key=lambda name: os.path.getsize(os.path.join(self.path, name))))

    def test_a_pipe_of_a_part_s_name_is_named_by_each_call(self) -> None:
        self.folder.import_csv("1,1\n", heading=False, batch="1.1")
        path = os.path.join(self.path, "0" * 32 + ".lanes")
        os.mkfifo(path)
        for act in self.folder.pack, lambda: self.folder.pack(everything=True), self.folder.read, self.folder.forget:
            with self.assertRaisesRegex(OSError, "neither a file nor a folder") as caught:
                act()
            self.assertEqual((caught.exception.filename, len(os.listdir(self.path))), (path, 3))

    def test_a_part_has_the_mode_of_the_part_of_least_name(self) -> None:
        """Without a part it has the mode of a new file."""
        before = os.umask(0o077)
        self.addCleanup(os.umask, before)
        self.folder.import_csv("1,1\n", heading=False, batch="1.1")
        least = os.path.join(self.path, self.folder.parts()[0])
        for mode in 0o644, 0o660, 0o600:
            os.chmod(least, mode)
            for act in lambda: self.folder.import_csv("2,2\n", heading=False), lambda: self.folder.delete("A = 2"):
                known = self.folder.parts()
                act()
                least, new = os.path.join(self.path, min(self.folder.parts())), [name for name in self.folder.parts() if name not in known]
                self.assertEqual([stat.S_IMODE(os.stat(os.path.join(self.path, name)).st_mode) for name in new], [mode])
        self.assertEqual(self.folder.pack(everything=True)[0], 1)
        self.assertEqual(stat.S_IMODE(os.stat(os.path.join(self.path, self.folder.parts()[0])).st_mode), 0o600)
        os.umask(0o027)
        first = Folder.of(os.path.join(self.room, "new"), self.empty)
        self.assertEqual(stat.S_IMODE(os.stat(os.path.join(first.path, first.parts()[0])).st_mode), 0o640)

    def test_a_new_folder_clears_what_a_crash_left_of_its_name(self) -> None:
        """But not what another process has, what has other files, and what is of another name."""
        made = {digit: os.path.join(self.room, f".new.lanes-new-{digit * 16}") for digit in "0123"}
        made["other"] = os.path.join(self.room, ".newer.lanes-new-" + "0" * 16)
        for path in made.values():
            os.mkdir(path)
        for path, name in (made["0"], "0" * 32 + ".lanes"), (made["0"], ".part-" + "0" * 16), (made["2"], "mine.txt"):
            pathlib.Path(path, name).touch()
        with owned.OpenFile() as held:
            fcntl.flock(held.open_folder(made["3"]), fcntl.LOCK_EX)
            Folder.of(os.path.join(self.room, "new"), self.empty)
        self.assertEqual(sorted(os.listdir(self.room)), sorted([*(os.path.basename(made[key]) for key in ("2", "3", "other")), "new", "site"]))

    def test_a_folder_is_the_one_that_it_was_when_the_process_changes_its_own(self) -> None:
        other, before = os.path.join(self.room, "other"), os.getcwd()
        os.mkdir(other)
        Folder.of(os.path.join(other, "site"), self.empty)
        self.addCleanup(os.chdir, before)
        os.chdir(self.room)
        relative = Folder("site")
        os.chdir(other)
        relative.import_csv("1,1\n", heading=False)
        self.assertEqual((len(self.folder), len(Folder("site")), relative, relative != Folder("site")), (1, 0, self.folder, True))
        self.assertEqual(hash(pickle.loads(pickle.dumps(relative))), hash(self.folder))
        gone = os.path.join(self.room, "gone")
        os.mkdir(gone)
        os.chdir(gone)
        os.rmdir(gone)
        self.assertEqual(Folder(self.path), relative)

    def test_a_folder_is_not_made_over_a_link_that_leads_nowhere(self) -> None:
        path = os.path.join(self.room, "link")
        os.symlink("/nowhere", path)
        with self.assertRaises(FileExistsError) as caught:
            Folder.create(path, "T", {"A": "INTEGER"})
        self.assertEqual(caught.exception.filename, path)
        self.assertEqual(sorted(os.listdir(self.room)), ["link", "site"])

    def test_a_new_folder_is_made_next_to_its_place(self) -> None:
        """As it is renamed, it must be in the same file system."""
        rename, renamed = os.rename, []

        def noted(first: str, second: str) -> None:
            renamed.append((os.path.dirname(os.path.abspath(first)), second))
            rename(first, second)

        above, before = os.path.join(self.room, "above"), os.getcwd()
        os.mkdir(above)
        os.chdir("/")
        try:
            with unittest.mock.patch.object(os, "rename", noted):
                Folder.of(os.path.join(above, "new"), self.empty)
        finally:
            os.chdir(before)
        self.assertEqual(renamed, [(above, os.path.join(above, "new"))])
        self.assertEqual((os.listdir(above), [name for name in os.listdir("/") if "lanes-new" in name]), (["new"], []))

    def test_folders_of_two_disks_are_not_equal(self) -> None:
        other = Folder(self.path)
        self.assertEqual(other, self.folder)
        device, number = self.folder._identity
        for identity in (device + 1, number), (device, number + 1):
            with unittest.mock.patch.object(other, "_identity", identity):
                self.assertNotEqual(other, self.folder)


class Leavings(InFolder):
    def test_a_load_that_is_broken_off_leaves_nothing(self) -> None:
        before = os.listdir(self.path)
        for call in "write", "fsync", "link":
            with self.subTest(call), unittest.mock.patch.object(os, call, side_effect=KeyboardInterrupt), self.assertRaises(KeyboardInterrupt):
                self.folder.import_csv("1,1\n", heading=False, batch="1.1")
            self.assertEqual(os.listdir(self.path), before)

    def test_a_sweep_takes_only_temporaries(self) -> None:
        kept = [".part-0123456789abcdef.notes", ".part-0123456789abcde", ".part-0123456789abcdeF", "x.part-0123456789abcdef", ".part-0123456789abcdef\n", "part-0123456789abcdef"]
        for name in (*kept, ".part-0123456789abcdef"):
            pathlib.Path(self.path, name).write_bytes(b"mine")
        self.folder.pack()
        self.assertEqual(sorted(name for name in os.listdir(self.path) if not name.endswith(".lanes")), sorted(kept))

    def test_calls_leave_no_file_open(self) -> None:
        acts = [
            lambda: self.folder.import_csv("1,1\n", heading=False, batch="1.1"),
            lambda: self.folder.apply(self.empty.import_csv("1,1\n", heading=False, batch="1.1").to_bytes()),
            lambda: self.folder.delete("A = 9"),
            lambda: self.folder.delete_rows("1.1", 0),
            self.folder.forget,
            lambda: self.folder.pack(everything=True),
            lambda: len(self.folder),
        ]
        for act in acts:
            act()
        before = len(os.listdir("/proc/self/fd"))
        for act in acts * 5:
            act()
        self.assertEqual(len(os.listdir("/proc/self/fd")), before)


class Told(InFolder):
    def test_a_pack_of_two_rounds_counts_the_parts_of_both(self) -> None:
        for number in range(1, 7):
            self.folder.import_csv(f"{number},1\n" * 40 ** (number // 3), heading=False, batch=(1, number))
        before = len(self.folder.parts())
        rounds = iter([3, 2, 0])
        with unittest.mock.patch.object(calls, "packed_prefix", lambda sizes: next(rounds)):
            parts, removed = self.folder.pack()
        self.assertEqual((before, parts), (7, 7 + 2 - removed))
        self.assertEqual(removed, 5)

    def test_a_conflict_of_two_parts_has_the_place_of_its_batch(self) -> None:
        for row in 1, 2:
            part_folder.put(self.path, self.empty.import_csv(f"{row},{row}\n", heading=False, batch="1.9").to_bytes())
        offer = self.empty.import_csv("3,3\n", heading=False, batch="2.2").to_bytes()
        for act in self.folder.read, lambda: self.folder.import_csv("1,1\n", heading=False, batch="1.9"), lambda: self.folder.apply(offer):
            with self.assertRaises(Refused) as caught:
                act()
            self.assertEqual((caught.exception.name, caught.exception.place), ("Conflict", (1, 9)))
            self.assertIn("1.9", str(caught.exception))

    def test_a_load_of_other_names_goes_on_while_two_parts_conflict(self) -> None:
        for row in 1, 2:
            part_folder.put(self.path, self.empty.import_csv(f"{row},{row}\n", heading=False, batch="1.9").to_bytes())
        self.assertEqual(self.folder.import_csv("3,3\n", heading=False, batch="2.2"), 1)
        self.assertEqual(len(self.folder.parts()), 4)

    def test_of_three_parts_the_one_that_can_not_be_synced_is_told(self) -> None:
        self.folder.import_csv("1,1\n", heading=False, batch="1.1")
        self.folder.delete_rows("9.9", 1)
        fsync, parts = os.fsync, self.folder.parts()
        for part in parts:

            def failing(opened: int) -> None:
                if os.readlink(f"/proc/self/fd/{opened}").endswith(part):
                    raise OSError(5, "a fault")
                fsync(opened)

            with fresh(), unittest.mock.patch.object(os, "fsync", failing), warnings.catch_warnings(record=True) as warned:
                warnings.simplefilter("always")
                self.assertEqual(self.folder.delete("A = 9"), 0)
            self.assertEqual([os.path.basename(str(warning.message).split(": ")[0]) for warning in warned], [part])

    def test_the_first_part_that_can_not_be_synced_ends_the_keep(self) -> None:
        for number in 1, 2:
            self.folder.import_csv("1,1\n", heading=False, batch=(number, 1))
        syncs = Syncs(fails_at=1)
        with warnings.catch_warnings(record=True) as warned:
            warnings.simplefilter("always")
            synced = syncs.of(lambda: self.folder.delete("A = 9"))
        self.assertEqual((synced, len(warned)), (self.folder.parts()[:1], 1))
        self.assertIn(self.folder.parts()[0], str(warned[0].message))

    def test_a_put_whose_part_comes_and_goes_is_tried_for_ten_seconds(self) -> None:
        with unittest.mock.patch.object(folder_driver.Driver, "follow", lambda *_: folder_driver.GONE), unittest.mock.patch.object(waiting, "LONGEST", 0.05):
            with self.assertRaises(Busy):
                part_folder.put(self.path, self.empty.to_bytes())

    def test_offers_of_nothing_keep_no_part(self) -> None:
        self.folder.import_csv("1,1\n", heading=False, batch="1.1")
        self.assertEqual(Syncs().of(lambda: self.folder.apply(self.empty.to_bytes(), self.empty.to_bytes())), [])


if __name__ == "__main__":
    unittest.main()
