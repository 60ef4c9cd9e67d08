"""Several processes and threads at one folder of parts, with the real program beside them where that has folders. LANES_PROGRAM may name
the program."""

from __future__ import annotations

import os
import pathlib
import random
import subprocess
import threading
import unittest
import unittest.mock
from typing import Any, Callable

from folders import InFolder
from lanes import Folder, Refused, Table, part_folder

#: The program: the script runs the one that was built here or the released one.
PROGRAM = os.environ.get("LANES_PROGRAM", os.fspath(pathlib.Path(__file__).resolve().parent.parent.parent / "lanes"))


class AtOnce(InFolder):
    def test_forgets_beside_loads_deletes_and_packs_lose_nothing(self) -> None:
        failures: list[BaseException] = []

        def guarded(act: Callable[[], object]) -> None:
            try:
                act()
            except BaseException as fault:
                failures.append(fault)

        def load() -> None:
            for number in range(1, 21):
                Folder(self.path).import_csv(f"{number},1\n", heading=False, batch=(1, number))

        def drop() -> None:
            for number in range(1, 21):
                Folder(self.path).import_csv(f"{number},2\n", heading=False, batch=(2, number))
                Folder(self.path).delete("B = 2")

        def forget() -> None:
            for _ in range(12):
                Folder(self.path).forget()

        def pack() -> None:
            for at in range(12):
                Folder(self.path).pack(everything=at % 2 == 0)

        threads = [threading.Thread(target=guarded, args=(act,)) for act in (load, drop, forget, forget, pack)]
        for thread in threads:
            thread.start()
        for thread in threads:
            thread.join(300)
        self.assertEqual(failures, [])
        self.folder.forget()
        self.assertEqual((self.folder.query("SELECT B,COUNT(*),SUM(A) FROM T GROUP BY B"), self.folder.read().check()[0]), ([(1, 20, 210)], 20))

    def test_loads_deletes_and_packs_at_once_lose_nothing(self) -> None:
        failures: list[BaseException] = []

        def guarded(act: object, *words: object) -> None:
            try:
                act(*words)  # type: ignore[operator]
            except BaseException as fault:
                failures.append(fault)

        def load(origin: int) -> None:
            folder = Folder(self.path)
            for number in range(1, 16):
                folder.import_csv(f"{number},{origin}\n", heading=False, batch=(origin, number) if origin % 2 else None)

        def pack(everything: bool) -> None:
            for _ in range(15):
                Folder(self.path).pack(everything=everything)

        def read() -> None:
            seen = 0
            for _ in range(40):
                count = len(Folder(self.path).read())
                self.assertLessEqual(seen, count)
                seen = count

        threads = [threading.Thread(target=guarded, args=(load, origin)) for origin in range(1, 5)]
        threads += [threading.Thread(target=guarded, args=words) for words in [(pack, True), (pack, False), (read,), (read,)]]
        for thread in threads:
            thread.start()
        for thread in threads:
            thread.join(300)
        self.assertEqual(failures, [])
        self.assertEqual(self.folder.query("SELECT B,COUNT(*),SUM(A) FROM T GROUP BY B"), [(origin, 15, 120) for origin in range(1, 5)])

    def test_of_two_loads_of_one_name_the_second_is_a_conflict(self) -> None:
        for _ in range(10):
            outcomes: list[str] = []
            gate = threading.Barrier(4)

            def load(value: int) -> None:
                gate.wait()
                try:
                    self.folder.import_csv(f"{value},1\n", heading=False, batch="7.7")
                    outcomes.append("taken")
                except Refused as refusal:
                    outcomes.append(refusal.name)

            threads = [threading.Thread(target=load, args=(value,)) for value in range(4)]
            for thread in threads:
                thread.start()
            for thread in threads:
                thread.join(60)
            self.assertEqual(sorted(outcomes), ["Conflict"] * 3 + ["taken"])
            self.assertEqual(len(self.folder.read()), 1)
            for name in self.folder.parts():
                if pathlib.Path(self.path, name).read_bytes() != self.empty.to_bytes():
                    os.unlink(os.path.join(self.path, name))

    def test_of_two_pulls_of_one_name_the_second_is_a_conflict(self) -> None:
        offers = [self.empty.import_csv(f"{value},1\n", heading=False, batch="7.7").to_bytes() for value in range(4)]
        for _ in range(10):
            outcomes: list[str] = []
            gate = threading.Barrier(4)

            def pull(offer: bytes) -> None:
                folder = Folder(self.path)
                gate.wait()
                try:
                    outcomes.append(f"{folder.apply(offer)} taken")
                except Refused as refusal:
                    outcomes.append(refusal.name)

            threads = [threading.Thread(target=pull, args=(offer,)) for offer in offers]
            for thread in threads:
                thread.start()
            for thread in threads:
                thread.join(60)
            self.assertEqual(sorted(outcomes), ["1 taken"] + ["Conflict"] * 3)
            self.assertEqual(len(self.folder.read()), 1)
            for name in self.folder.parts():
                if pathlib.Path(self.path, name).read_bytes() != self.empty.to_bytes():
                    os.unlink(os.path.join(self.path, name))

    def test_a_load_is_put_anew_beside_what_came_meanwhile(self) -> None:
        other, beside, tries = self.empty.import_csv("2,1\n", heading=False, batch="7.8"), part_folder.put_beside, []

        def late(folder: str, data: bytes, seen: list[str], relied: list[str]) -> bool:
            part_folder.put(self.path, other.to_bytes())
            tries.append(beside(folder, data, seen, relied))
            return tries[-1]

        with unittest.mock.patch.object(part_folder, "put_beside", late):
            self.assertEqual(self.folder.import_csv("1,1\n", heading=False, batch="7.7"), 1)
        self.assertEqual((tries, len(self.folder), len(self.folder.parts())), ([False, True], 2, 3))
        self.only_parts(3)

    def test_what_came_since_a_pull_looked_is_looked_at_again(self) -> None:
        one, other = (self.empty.import_csv(f"{value},1\n", heading=False, batch="7.7") for value in (1, 2))
        gathered = Folder._gathered

        def late(folder: Folder, *words: Any) -> object:
            found = gathered(folder, *words)
            part_folder.put(self.path, one.to_bytes())
            return found

        for act in lambda: self.folder.apply(other.to_bytes()), lambda: self.folder.import_csv("2,1\n", heading=False, batch="7.7"):
            with unittest.mock.patch.object(Folder, "_gathered", late), self.assertRaises(Refused) as caught:
                act()
            self.assertEqual((caught.exception.name, caught.exception.place), ("Conflict", (7, 7)))
            self.assertEqual(self.folder.query("SELECT A FROM T GROUP BY A"), [(1,)])
            self.only_parts(2)
            os.unlink(os.path.join(self.path, part_folder.part_name(one.to_bytes())))


class BesideTheProgram(InFolder):
    def program(self, *words: str, given: str = "") -> str:
        done = subprocess.run([PROGRAM, *words], input=given, capture_output=True, text=True, timeout=120, cwd=self.room)
        if done.returncode:
            raise AssertionError(f"{words} was refused: {done.stderr}")
        return done.stdout

    def setUp(self) -> None:
        super().setUp()
        if subprocess.run([PROGRAM, "pack", "--help"], capture_output=True, timeout=60).returncode:
            self.skipTest("this program has no folders")

    def test_both_add_the_same_parts(self) -> None:
        pick = random.Random(3)
        self.program("create", "other/", "T", "A", "INTEGER", "B", "BIGINT")
        other, table = os.path.join(self.room, "other"), self.empty
        for number in range(1, 13):
            csv = "".join(f"{pick.randint(0, 3)},{pick.choice(['', '5', '-7'])}\n" for _ in range(pick.randint(1, 30)))
            what = pick.random()
            if what < 0.5:
                batch = f"1.{pick.randint(max(1, number - 1), number) if pick.random() < 0.2 else number}"
                rows = f"{number},1\n" if batch != f"1.{number}" else csv
                try:
                    self.folder.import_csv(rows, heading=False, batch=batch)
                except Refused:
                    with self.assertRaises(AssertionError):
                        self.program("import", "--no-header", "--batch", batch, "other", "-", given=rows)
                else:
                    self.program("import", "--no-header", "--batch", batch, "other", "-", given=rows)
            elif what < 0.75:
                condition = f"A = {pick.randint(0, 3)} AND B IS NOT NULL"
                self.assertEqual(self.program("delete", "other", condition), f"ok {self.folder.delete(condition)}\n")
            elif what < 0.85:
                self.folder.delete_rows("2.5", number, number + 2)
                self.program("delete-rows", "other", "2.5", str(number), str(number + 2))
            elif what < 0.95:
                table = table.import_csv(csv, heading=False, batch=(2, number)).delete("A = 2")
                table.save(os.path.join(self.room, "offer"))
                self.folder.apply(table.to_bytes())
                self.program("apply", "other", "offer")
            else:
                parts, removed = self.folder.pack()
                self.assertEqual(self.program("pack", "other"), f"ok parts={parts} packed={removed}\n")
            self.assertEqual(sorted(os.listdir(other)), self.folder.parts(), number)
        parts, removed = self.folder.pack(everything=True)
        self.assertEqual(self.program("pack", "--all", "other"), f"ok parts={parts} packed={removed}\n")
        self.assertEqual(sorted(os.listdir(other)), self.folder.parts())
        self.program("merge", "whole", "site")
        self.assertEqual(Table.open(os.path.join(self.room, "whole")), self.folder.read())
        if "folder" in self.program("forget", "--help"):
            self.folder.delete("A = 1 OR A > 2")
            self.program("delete", "other", "A = 1 OR A > 2")
            self.assertIn(f"ok batches={self.folder.forget()} rows=", self.program("forget", "other"))
            self.assertEqual(sorted(os.listdir(other)), self.folder.parts())

    def test_both_may_change_a_folder_at_once(self) -> None:
        def python() -> None:
            for number in range(1, 11):
                self.folder.import_csv(f"{number},1\n", heading=False, batch=(1, number))
                self.folder.pack()

        def other() -> None:
            for number in range(1, 11):
                self.program("import", "--quiet", "--no-header", "--batch", f"2.{number}", "site", "-", given=f"{number},2\n")
                self.program("pack", "--quiet", "--all", "site")

        threads = [threading.Thread(target=python), threading.Thread(target=other)]
        for thread in threads:
            thread.start()
        for thread in threads:
            thread.join(200)
        self.assertEqual(self.folder.query("SELECT B,COUNT(*),SUM(A) FROM T GROUP BY B"), [(1, 10, 55), (2, 10, 55)])
        self.assertTrue(self.program("check", "site").startswith("ok batches=20 ranges=0 parts="))


if __name__ == "__main__":
    unittest.main()
