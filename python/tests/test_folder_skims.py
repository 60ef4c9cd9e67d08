"""What of a folder a load under given names reads: of the parts that have one of its batches all, and of the others their deletions alone."""

from __future__ import annotations

import os
import unittest
import unittest.mock
from typing import List, Tuple

from folders import InFolder
from lanes import Damaged, Refused, Table, folder, part_folder
from lanes.batch_name import BatchName
from lanes.taken_parts import Parts, Skim


class Skims(InFolder):
    def load(self, rows: str, number: int) -> Table:
        return self.empty.import_csv(rows, heading=False, batch=(1, number))

    def skimmed(self, first: Tuple[int, int], count: int, *parts: Table) -> Tuple[Table, int]:
        """What answers such a load of these parts, and how many batches they have."""
        skim = Skim(BatchName(*first), count)
        for part in parts:
            skim.take(part_folder.part_name(part.to_bytes()), part.to_bytes())
        opened, batches = skim.opened()
        return Table._of_opened(opened, 0), batches

    def test_all_is_read_of_a_part_that_has_a_name_and_its_deletions_of_another(self) -> None:
        one, two, three = self.load("1,1\n", 1), self.load("2,2\n", 2).delete("A = 2"), self.load("3,3\n", 3)
        gone = self.empty.delete_rows("1.2", 0)
        for first, count, wanted in [
            ((1, 1), 1, one.merge(gone)),
            ((1, 2), 1, two),
            ((1, 2), 2, two.merge(three)),
            ((1, 1), 3, one.merge(two, three)),
            ((1, 4), 9, gone),
            ((2, 1), 9, gone),
            ((1, 1), 0, gone),
        ]:
            with self.subTest(first=first, count=count):
                self.assertEqual(self.skimmed(first, count, one, two, three), (wanted, 3))
        self.assertEqual(self.skimmed((1, 4), 1, one, one.merge(two)), (gone, 3))

    def test_a_table_meets_a_part_that_has_one_of_its_batches(self) -> None:
        load = self.load("1,1\n", 1).merge(self.load("2,2\n", 2))._asked()
        for part, meets in [
            (self.load("1,1\n", 1), True),
            (self.load("7,7\n", 2), True),
            (self.load("3,3\n", 3), False),
            (self.empty.delete_rows("1.1", 0), False),
            (self.empty, False),
        ]:
            self.assertIs(load.meets(part.to_bytes()), meets)
        self.assertIs(load.meets(b"no part"), True)
        self.assertIs(self.empty._asked().meets(self.load("1,1\n", 1).to_bytes()), False)

    def test_an_offer_brings_what_is_not_there(self) -> None:
        one, two = self.load("1,1\n", 1), self.load("2,2\n", 2)
        gone = self.empty.delete_rows("1.1", 0)
        for offer, batches, part in [
            (one, 0, b""),
            (self.empty, 0, b""),
            (one.merge(two), 1, two.to_bytes()),
            (gone, 0, gone.to_bytes()),
            (two.merge(gone), 1, two.merge(gone).to_bytes()),
        ]:
            self.assertEqual(one._bring(offer.to_bytes()), (batches, part))
        self.assertEqual(one.merge(gone)._bring(gone.to_bytes()), (0, b""))
        for wrong, name in (self.load("7,7\n", 1).to_bytes(), "Conflict"), (b"none", "BadMagic"), (Table.create("U", {"A": "INTEGER"}).to_bytes(), "SchemaDiffers"):
            with self.assertRaises(Refused) as caught:
                one._bring(wrong)
            self.assertEqual(caught.exception.name, name)

    def test_what_a_load_needs_not_is_not_judged(self) -> None:
        for number in 1, 2:
            self.folder.import_csv(f"{number},{number}\n" * 2000, heading=False, batch=(1, number))
        (name,) = (name for name in self.folder.parts() if part_folder.read_part(self.path, name) == self.load("1,1\n" * 2000, 1).to_bytes())
        path = os.path.join(self.path, name)
        data = bytearray(part_folder.read_part(self.path, name))
        data[-12] ^= 1  # the value of the last vector
        with open(path, "wb") as part:
            part.write(data)
        self.assertEqual(self.folder.import_csv("3,3\n", heading=False, batch="1.3"), 1)
        self.assertEqual(self.folder.import_csv("2,2\n" * 2000, heading=False, batch="1.2"), 0)
        for act in self.folder.read, lambda: self.folder.import_csv("1,1\n" * 2000, heading=False, batch="1.1"):
            with self.assertRaises(Damaged) as caught:
                act()
            self.assertEqual(caught.exception.filename, path)

    def test_a_folder_that_is_all_but_full_is_read_whole(self) -> None:
        self.folder.import_csv("1,1\n", heading=False, batch="1.1")
        self.folder.apply(self.load("1,1\n", 1).merge(self.load("2,2\n", 2)).to_bytes())
        kinds: List[object] = []
        gathered = folder.Folder._gathered

        def looked(which: folder.Folder, names: object, taken: object, rests_on: object) -> object:
            kinds.append(type(taken))
            return gathered(which, names, taken, rests_on)  # type: ignore[arg-type, type-var]

        with unittest.mock.patch.object(folder.Folder, "_gathered", looked), unittest.mock.patch.object(folder, "_MOST", 3):
            self.assertEqual(self.folder.import_csv("3,3\n", heading=False, batch="1.3"), 1)
            self.assertEqual(kinds, [Skim])
            kinds.clear()
            self.assertEqual(self.folder.import_csv("4,4\n", heading=False, batch="1.4"), 1)
        self.assertEqual(kinds, [Skim, Parts])
        self.assertEqual(len(self.folder.read()), 4)


if __name__ == "__main__":
    unittest.main()
