"""What a change of a folder rests on: what it found there and does not put anew is on the disk before its own part has its name."""

from __future__ import annotations

import os
import pathlib
import shutil
import types
import unittest
import unittest.mock
from typing import Any, Callable, List, NamedTuple

from folders import InFolder, Syncs
from lanes import Damaged, Folder, Table, part_folder, resting

#: How many rows a batch has at most.
BATCH = 65_536

#: A load of two batches, 1.1 and 1.2.
TWO = "1,1\n" * BATCH + "2,2\n"


class Change(NamedTuple):
    """A change of a folder that adds something: what is there by other means, on which of it the change rests, and what it answers."""

    name: str
    there: List[Table]
    rests: List[int]
    act: Callable[[Folder], int]
    answer: int


def changes(empty: Table) -> List[Change]:
    """Changes, each of which finds some of what it brings."""
    first, second = (empty.import_csv(rows, heading=False, batch=(1, at)) for at, rows in ((1, "1,1\n" * BATCH), (2, "2,2\n")))
    third, both = empty.import_csv("3,3\n", heading=False, batch="1.3"), first.merge(second)
    gone, other = empty.delete_rows("1.1", 5, 7), empty.delete_rows("1.3", 0)
    three, two = both.merge(third), second.merge(third)
    apart, beside = (empty.import_csv(rows, heading=False, batch="1.4") for rows in ("1,1\n2,2\n1,1\n", "2,2\n1,1\n1,1\n"))
    return [
        Change("a named load of two batches, of which one is there", [first, third, other], [0], lambda folder: folder.import_csv(TWO, heading=False, batch="1.1"), 1),
        Change("the same of which the other one is there", [second, third, gone], [0], lambda folder: folder.import_csv(TWO, heading=False, batch="1.1"), 1),
        Change("a named load of a batch that is in two parts", [first, first.delete_rows("1.1", 9), third], [0, 1], lambda folder: folder.import_csv(TWO, heading=False, batch="1.1"), 1),
        Change("an apply of two batches, of which one is there", [second, first, gone], [0], lambda folder: folder.apply(two.to_bytes()), 1),
        Change("an apply of two offers, of which one is there", [second, third.delete_rows("1.3", 0)], [0], lambda folder: folder.apply(second.to_bytes(), first.to_bytes()), 1),
        Change("an apply of two offers, of which the second one is there", [first, third.delete_rows("1.3", 0)], [0], lambda folder: folder.apply(second.to_bytes(), first.to_bytes()), 1),
        Change("an apply of a batch that is there and a deletion", [second, first], [0], lambda folder: folder.apply(second.delete_rows("1.1", 3).to_bytes()), 0),
        Change("a delete of a row of two, of which the other is deleted", [three, gone, other], [1], lambda folder: folder.delete("A = 1 OR B = 2"), BATCH - 3 + 1),
        Change("the same of a deletion that came with its batch", [first.delete_rows("1.1", 9), two, other], [0], lambda folder: folder.delete("A < 3"), BATCH - 1 + 1),
        Change("a delete of rows of which none is deleted", [three, gone, other], [], lambda folder: folder.delete("A = 2"), 1),
        Change("a delete where a row is deleted twice", [three, gone, empty.delete_rows("1.1", 6, 70)], [1, 2], lambda folder: folder.delete("A = 1"), BATCH - 66),
        Change("a delete of rows apart, of which the last one is deleted", [apart, empty.delete_rows("1.4", 2), other], [1], lambda folder: folder.delete("A = 1"), 1),
        Change("a delete of rows side by side, of which the last one is deleted", [beside, empty.delete_rows("1.4", 2), other], [1], lambda folder: folder.delete("A = 1"), 1),
        Change("a named load of which nothing is there", [third, other], [], lambda folder: folder.import_csv("2,2\n", heading=False, batch="1.2"), 1),
    ]


class Rests(InFolder):
    def cases(self) -> List[Change]:
        return changes(self.empty)

    def put_there(self, change: Change) -> List[str]:
        """A folder of its own, with what is there; the names of the parts on which the change rests, in the order of names."""
        shutil.rmtree(self.path, ignore_errors=True)
        self.folder = Folder.of(self.path, self.empty)
        names = [part_folder.put(self.path, table.to_bytes()) for table in change.there]
        return sorted(names[at] for at in change.rests)

    def test_what_a_change_rests_on_is_on_the_disk_before_its_part_has_its_name(self) -> None:
        for change in self.cases():
            with self.subTest(change.name):
                rests, before, calls = self.put_there(change), self.folder.parts(), []
                syncs, link = Syncs(), os.link

                def linked(first: str, second: str) -> None:
                    calls.append([*syncs.paths])
                    link(first, second)

                with unittest.mock.patch.object(os, "link", linked):
                    syncs.of(lambda: self.assertEqual(change.act(self.folder), change.answer))
                (synced,) = calls
                kept = [name for name in synced if name.endswith(".lanes")]
                self.assertEqual(kept, rests)
                self.assertEqual(synced[:-1], [*rests, "site"] if rests else [])
                self.assertEqual(len({*self.folder.parts()} - {*before}), 1)

    def test_nothing_is_put_if_what_a_change_rests_on_can_not_be_synced(self) -> None:
        for change in self.cases():
            for at in range(len(change.rests) + 1 if change.rests else 0):
                with self.subTest(change.name, at=at):
                    rests, before = self.put_there(change), sorted(os.listdir(self.path))
                    with self.assertRaises(OSError) as caught:
                        Syncs(fails_at=at + 1).of(lambda: change.act(self.folder))
                    self.assertEqual((caught.exception.errno, caught.exception.filename), (5, os.path.join(self.path, [*rests, rests[-1]][at])))
                    self.assertIn("could not be synced", str(caught.exception))
                    self.assertEqual(sorted(os.listdir(self.path)), before)

    def test_a_part_that_was_damaged_since_is_rested_on(self) -> None:
        change = next(change for change in self.cases() if change.name.startswith("a delete of a row of two"))
        (rest,) = self.put_there(change)

        def damaged(folder: str, name: str) -> bytes:
            if name != rest:
                return part_folder.read_part(folder, name)
            pathlib.Path(folder, name).write_bytes(b"x")
            return b"x"

        # What the delete rests on is read once more, after the parts were looked at.
        with unittest.mock.patch.object(resting, "part_folder", types.SimpleNamespace(read_part=damaged)):
            self.assertIn(rest, Syncs().of(lambda: change.act(self.folder)))
        with self.assertRaises(Damaged):
            self.folder.read()

    def test_what_a_pack_took_away_meanwhile_is_not_kept(self) -> None:
        for change in self.cases():
            for module, call in (part_folder, "read_part"), (part_folder, "_put"):
                with self.subTest(change.name, call=call):
                    self.put_there(change)
                    true, gathered, packed = getattr(module, call), Folder._gathered, []

                    def late(*words: object) -> object:
                        if looks and not packed:
                            packed.append(words)
                            Folder(self.path).pack(everything=True)
                        return true(*words)

                    looks: List[object] = []

                    def after(folder: Folder, *words: Any) -> object:
                        found = gathered(folder, *words)
                        looks.append(found)
                        return found

                    with unittest.mock.patch.object(module, call, late), unittest.mock.patch.object(Folder, "_gathered", after):
                        self.assertEqual(change.act(self.folder), change.answer)
                    whole = self.empty.merge(*change.there)
                    self.assertEqual(whole.merge(self.folder.read()), self.folder.read())


if __name__ == "__main__":
    unittest.main()
