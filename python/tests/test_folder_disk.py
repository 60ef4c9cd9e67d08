"""What is on the disk before a call on a folder of parts is answered."""

from __future__ import annotations

import os
import pathlib
import re
import shutil
import subprocess
import sys
import unittest
import unittest.mock

import lanes
from folders import InFolder, Syncs
from lanes import Folder, Table, part_folder


class OnTheDisk(InFolder):
    def test_each_change_is_on_the_disk_before_it_is_answered(self) -> None:
        csv, named = "1,1\n", {"heading": False, "batch": "1.1"}
        offer = self.empty.import_csv("2,2\n", heading=False, batch="2.1").delete_rows("1.1", 0).to_bytes()
        for words, act in {
            "a load": lambda: self.folder.import_csv(csv, heading=False),
            "a named load": lambda: self.folder.import_csv(csv, **named),  # type: ignore[arg-type]
            "an offer": lambda: self.folder.apply(offer),
            "a delete": lambda: self.folder.delete("A = 2"),
            "a delete of rows": lambda: self.folder.delete_rows("1.7", 0),
        }.items():
            before = {*self.folder.parts()}
            with self.subTest(words):
                synced = Syncs().of(act)
                (new,) = {*self.folder.parts()} - before
                self.assertTrue(synced[0].startswith(".part-") and synced[1:] == ["site"] and new.endswith(".lanes"), synced)
        self.assertEqual(Syncs().of(lambda: Folder.of(os.path.join(self.room, "new"), self.empty))[-1], os.path.basename(self.room))

    def test_what_changes_nothing_is_on_the_disk_before_it_is_answered(self) -> None:
        load = self.empty.import_csv("1,1\n", heading=False, batch="1.1")
        self.folder.import_csv("1,1\n", heading=False, batch="1.1")
        self.folder.delete_rows("1.1", 0)
        parts, part = self.folder.parts(), part_folder.part_name(load.to_bytes())
        for words, act, wanted in [
            ("a load that comes again", lambda: self.folder.import_csv("1,1\n", heading=False, batch="1.1"), [part, "site"]),
            ("an offer of what is there", lambda: self.folder.apply(load.to_bytes()), [*parts, "site"]),
            ("an offer of a deletion that is there", lambda: self.folder.apply(self.empty.delete_rows("1.1", 0).to_bytes()), [*parts, "site"]),
            ("a delete of rows that are deleted", lambda: self.folder.delete("A = 1"), [*parts, "site"]),
            ("a delete by names that comes again", lambda: self.folder.delete_rows("1.1", 0), [part_folder.part_name(self.empty.delete_rows("1.1", 0).to_bytes()), "site"]),
        ]:
            with self.subTest(words):
                synced = [path for path in Syncs().of(act) if not path.startswith(".part-")]
                self.assertEqual((sorted({*synced}), synced[-1]), (wanted, "site"))
                self.assertEqual(self.folder.parts(), parts)
                with self.assertWarns(RuntimeWarning):
                    Syncs(fails_at=len(wanted)).of(act)

    def test_an_offer_of_nothing_stands_on_nothing(self) -> None:
        for offers in [self.empty.to_bytes()], [self.folder.offer(self.folder.summary())], []:
            self.assertEqual(Syncs().of(lambda: self.folder.apply(*offers)), [])

    @unittest.skipUnless(shutil.which("strace"), "strace is not installed")
    def test_the_calls_of_a_pack_are_in_their_order(self) -> None:
        for number in 1, 2:
            self.folder.import_csv(f"{number},1\n", heading=False, batch=(1, number))
        joined, trace = part_folder.part_name(self.folder.read().to_bytes()), os.path.join(self.room, "trace")
        code = f"import lanes; lanes.Folder({self.path!r}).pack(everything=True)"
        environment = {**os.environ, "PYTHONPATH": os.fspath(pathlib.Path(lanes.__file__).parent.parent)}
        words = ["strace", "-f", "-y", "-o", trace, "-e", "trace=openat,flock,write,fsync,link,linkat,rename,unlink,unlinkat", sys.executable, "-B", "-c", code]
        done = subprocess.run(words, capture_output=True, timeout=60, env=environment)
        if done.returncode != 0:
            self.skipTest(f"strace can't trace: {done.stderr[-200:]!r}")
        text, place = pathlib.Path(trace).read_text(errors="replace"), 0
        folder = re.escape(self.path)
        for step in [
            r"write\(\d+<[^>]*\.part-",
            r"fsync\(\d+<[^>]*\.part-",
            rf"flock\(\d+<{folder}>, LOCK_EX",
            rf"link.*\.part-.*{joined}",
            rf"fsync\(\d+<[^>]*{joined}>\) += 0",
            rf"fsync\(\d+<{folder}>\) += 0",
            r"unlink.*\.lanes",
            r"unlink.*\.lanes",
            rf"fsync\(\d+<{folder}>\) += 0",
        ]:
            found = re.compile(step).search(text, place)
            assert found, f"{step} is not in its place in\n{text[-3000:]}"
            place = found.end()
        self.assertEqual(len(re.findall(r"unlink[^\n]*\.lanes", text)), 3)
        self.assertEqual(self.folder.parts(), [joined])

    def test_of_a_load_that_comes_again_the_part_that_has_it_is_on_the_disk(self) -> None:
        self.folder.import_csv("1,1\n", heading=False, batch="1.1")
        self.folder.import_csv("2,2\n", heading=False, batch="1.2")
        self.folder.pack(everything=True)
        self.folder.import_csv("3,3\n", heading=False, batch="1.3")
        (packed,) = (name for name in self.folder.parts() if len(Table.from_bytes(part_folder.read_part(self.path, name))) == 2)
        synced = Syncs().of(lambda: self.assertEqual(self.folder.import_csv("1,1\n", heading=False, batch="1.1"), 0))
        self.assertEqual(synced, [packed, "site"])
        self.only_parts(2)
        self.assertEqual(len(self.folder.read()), 3)

    def test_a_pack_meanwhile_takes_nothing_from_an_answer(self) -> None:
        load = self.empty.import_csv("1,1\n", heading=False, batch="1.1")
        self.folder.apply(load.to_bytes())
        keep = part_folder.keep

        def late(folder: str, names: list[str]) -> None:
            self.folder.pack(everything=True)
            keep(folder, names)

        for act in lambda: self.folder.apply(load.to_bytes()), lambda: self.folder.delete("A = 9"):
            with unittest.mock.patch.object(part_folder, "keep", late):
                self.assertEqual(act(), 0)
            self.folder.delete_rows("9.9", 1)


if __name__ == "__main__":
    unittest.main()
