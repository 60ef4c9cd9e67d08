"""Changes of a folder, one table of cases: of each call with a name that is new, that is held with the same rows or with others, with locks and without,
and with parts that come after the call has looked, what it answers, what is read afterwards, and how many files are open then."""

from __future__ import annotations

import contextlib
import errno
import fcntl
import importlib.util
import itertools
import os
import shutil
import unittest
import unittest.mock
from typing import Any, Callable, Dict, Iterator, List, NamedTuple, Tuple

from folders import InFolder
from lanes import Folder, Refused, Table, part_folder

#: The load's name, its rows, and other ones.
NAME, ROWS, OTHERS = (7, 7), "1,10\n2,20\n", "1,10\n2,21\n"

#: Whether arrays and frames can be made here.
HAS_FRAMES = all(importlib.util.find_spec(name) for name in ("numpy", "pandas"))


def columns_of(rows: str) -> Dict[str, List[int]]:
    cells = [list(map(int, line.split(","))) for line in rows.splitlines()]
    return {"A": [cell[0] for cell in cells], "B": [cell[1] for cell in cells]}


def frame_of(rows: str) -> object:
    import pandas

    return pandas.DataFrame(columns_of(rows))


#: The ways by which rows come under a name.
LOADS: Dict[str, Callable[[Folder, Table, str], int]] = {
    "import_csv": lambda folder, empty, rows: folder.import_csv(rows, heading=False, batch=NAME),
    "apply": lambda folder, empty, rows: folder.apply(load_of(empty, rows).to_bytes()),
    "apply of two": lambda folder, empty, rows: folder.apply(load_of(empty, rows).to_bytes(), empty.to_bytes()),
}
if HAS_FRAMES:
    LOADS["import_columns"] = lambda folder, empty, rows: folder.import_columns(columns_of(rows), batch=NAME)
    LOADS["import_frame"] = lambda folder, empty, rows: folder.import_frame(frame_of(rows), batch=NAME)
    if hasattr(Table.create("T", {"A": "INTEGER"}), "__arrow_c_stream__"):
        LOADS["import_arrow"] = lambda folder, empty, rows: folder.import_arrow(load_of(empty, rows), batch=NAME)


def load_of(empty: Table, rows: str) -> Table:
    return empty.import_csv(rows, heading=False, batch=NAME)


class Came(NamedTuple):
    """Parts that come after a call has looked at the folder, and whether one of them has the load's name with other rows."""

    name: str
    parts: List[Table]
    clashes: bool


def cames(empty: Table) -> List[Came]:
    """None, one and two of them. Of two the one that clashes has the first name and the last one."""
    clash, same = load_of(empty, OTHERS), load_of(empty, ROWS).merge(empty.import_csv("5,5\n", heading=False, batch="5.5"))
    more = [empty.import_csv(f"{n},{n}\n", heading=False, batch=(8, n)) for n in range(1, 40)]
    names = {part_folder.part_name(table.to_bytes()): table for table in more}
    at = part_folder.part_name(clash.to_bytes())
    before, after = names[min(names)], names[max(names)]
    assert min(names) < at < max(names)
    return [
        Came("nothing", [], False),
        Came("another batch", [before], False),
        Came("the same rows", [same], False),
        Came("other rows", [clash], True),
        Came("two other batches", [before, after], False),
        Came("another batch, and then other rows", [before, clash], True),
        Came("other rows, and then another batch", [clash, after], True),
    ]


class Cases(InFolder):
    def setUp(self) -> None:
        super().setUp()
        self.held = self.empty.import_csv("3,30\n4,40\n", heading=False, batch="3.3").delete_rows("3.3", 1)

    def begin(self, *tables: Table) -> None:
        """A folder of these tables, each of which is a part."""
        shutil.rmtree(self.path)
        self.folder = Folder.of(self.path, self.held)
        for table in tables:
            part_folder.put(self.path, table.to_bytes())

    @contextlib.contextmanager
    def system(self, has_locks: bool, came: Came) -> Iterator[None]:
        """A file system with locks or without, to which parts come once a call has looked. No file is left open, and nothing is synced."""
        gathered, late = Folder._gathered, [*came.parts]

        def look(folder: Folder, *words: Any) -> object:
            found = gathered(folder, *words)
            for table in late:
                part_folder.put(self.path, table.to_bytes())
            late.clear()
            return found

        flock = fcntl.flock if has_locks else unittest.mock.Mock(side_effect=OSError(errno.ENOLCK, "no locks"))
        before = len(os.listdir("/proc/self/fd"))
        with unittest.mock.patch.object(os, "fsync"), unittest.mock.patch.object(fcntl, "flock", flock), unittest.mock.patch.object(Folder, "_gathered", look):
            yield
        self.assertEqual((len(os.listdir("/proc/self/fd")), late), (before, []))
        self.assertFalse([name for name in os.listdir(self.path) if not name.endswith(".lanes")])

    def cases(self) -> Iterator[Tuple[str, bool, Came]]:
        for way, has_locks, came in itertools.product(LOADS, (True, False), cames(self.empty)):
            yield way, has_locks, came

    def whole(self, *tables: Table) -> Table:
        return self.held.merge(*tables)

    def test_a_load_of_a_new_name_is_there_or_is_refused(self) -> None:
        load = load_of(self.empty, ROWS)
        for way, has_locks, came in self.cases():
            with self.subTest(way, has_locks=has_locks, came=came.name):
                self.begin()
                with self.system(has_locks, came):
                    if came.clashes:
                        with self.assertRaises(Refused) as caught:
                            LOADS[way](self.folder, self.empty, ROWS)
                        self.assertEqual((caught.exception.name, caught.exception.place), ("Conflict", NAME))
                    else:
                        self.assertEqual(LOADS[way](self.folder, self.empty, ROWS), 1)
                self.assertEqual(self.folder.read(), self.whole(*came.parts, *([] if came.clashes else [load])))

    def test_a_load_that_comes_again_adds_nothing(self) -> None:
        load = load_of(self.empty, ROWS)
        for way, has_locks, came in self.cases():
            if came.clashes:
                continue
            for there in [load], [load.merge(self.empty.import_csv("6,6\n", heading=False, batch="6.6"))]:
                with self.subTest(way, has_locks=has_locks, came=came.name):
                    self.begin(*there)
                    with self.system(has_locks, came):
                        for _ in range(3):
                            self.assertEqual(LOADS[way](self.folder, self.empty, ROWS), 0)
                    self.assertEqual(self.folder.read(), self.whole(*there, *came.parts))

    def test_a_load_with_other_rows_of_a_name_that_is_held_is_refused(self) -> None:
        for way, has_locks, came in self.cases():
            if came.clashes or came.name == "the same rows":
                continue
            with self.subTest(way, has_locks=has_locks, came=came.name):
                self.begin(load_of(self.empty, OTHERS))
                with self.system(has_locks, came), self.assertRaises(Refused) as caught:
                    LOADS[way](self.folder, self.empty, ROWS)
                self.assertEqual((caught.exception.name, caught.exception.place), ("Conflict", NAME))
                self.assertEqual(self.folder.read(), self.whole(load_of(self.empty, OTHERS), *came.parts))

    def test_an_apply_of_a_new_offer_and_one_that_is_held_adds_the_new_one(self) -> None:
        new, old = load_of(self.empty, ROWS), self.empty.import_csv("3,30\n4,40\n", heading=False, batch="3.3")
        for offers in itertools.permutations([new.to_bytes(), old.to_bytes(), self.empty.delete_rows("9.9", 9).to_bytes()]):
            for has_locks, came in itertools.product((True, False), cames(self.empty)):
                with self.subTest(has_locks=has_locks, came=came.name):
                    self.begin()
                    with self.system(has_locks, came), self.assertRaises(Refused) if came.clashes else contextlib.nullcontext():
                        self.assertEqual(self.folder.apply(*offers), 1)
                    self.assertEqual(self.folder.read(), self.whole(*came.parts, *([] if came.clashes else [new, self.empty.delete_rows("9.9", 9)])))

    def test_a_delete_finds_what_it_has_seen(self) -> None:
        load = load_of(self.empty, ROWS)
        for has_locks, came in itertools.product((True, False), cames(self.empty)):
            if came.clashes:
                continue
            for condition, rows, after in ("A < 3", 2, self.whole(load).delete("A < 3")), ("A = 3", 1, self.whole(load).delete("A = 3")), ("A = 4", 0, self.whole(load)):
                with self.subTest(condition, has_locks=has_locks, came=came.name):
                    self.begin(load)
                    with self.system(has_locks, came):
                        self.assertEqual(self.folder.delete(condition), rows)
                    self.assertEqual(self.folder.read(), after.merge(*came.parts))

    def test_rows_of_a_name_are_deleted_whenever_they_come(self) -> None:
        load, gone = load_of(self.empty, ROWS), self.empty.delete_rows(NAME, 0)
        for has_locks, there in itertools.product((True, False), ([], [load])):
            with self.subTest(has_locks=has_locks, there=len(there)):
                self.begin(*there)
                with self.system(has_locks, Came("nothing", [], False)):
                    self.assertIs(self.folder.delete_rows(NAME, 0, held=True), bool(there))
                    self.assertEqual(self.folder.read(), self.whole(*there, *([gone] if there else [])))
                    self.assertIs(self.folder.delete_rows(NAME, 0), True)
                    self.folder.import_csv(ROWS, heading=False, batch=NAME)
                self.assertEqual(self.folder.read(), self.whole(load, gone))


if __name__ == "__main__":
    unittest.main()
