"""Imports of long texts, which go in pieces: the file is the one of an import at once, a fault has its line, and one who waits is told how far
it is and may stop. Expected values were worked out by hand."""

from __future__ import annotations

import os
import tempfile
import unittest
import unittest.mock
from typing import List, Tuple

from lanes import Folder, Refused, Table, pieces

#: The rows of the text: two batches, and some.
ROWS = 2 * 65_536 + 100

EMPTY = Table.create("T", {"A": "INTEGER", "B": "TINYINT"})
LINES = [f"{at},{at % 100}" if at % 7 else f"{at}," for at in range(ROWS)]
HEADED = "\n".join(["A,B", *LINES, ""])


def cut(rows: int) -> unittest.mock._patch[int]:
    """Texts go in pieces of so many rows."""
    return unittest.mock.patch.object(pieces, "AT_ONCE", rows)


def refusal(table: Table, text: str, heading: bool) -> str:
    """What the import of a text is refused as."""
    try:
        table.import_csv(text, heading=heading, batch="1.1")
    except Refused as refused:
        return str(refused)
    return ""


class Pieces(unittest.TestCase):
    def test_a_text_in_pieces_is_the_text_at_once(self) -> None:
        held = EMPTY.import_csv("-1,1\n", heading=False, batch="1.9")
        blank = "\r\n\n".join(["", "A,B", *LINES])[3:]
        for text, heading in (HEADED, True), ("\ufeff" + HEADED, True), (blank, True), ("\ufeff" + "\r\n".join(LINES), False):
            for table in EMPTY, held:
                wanted = table.import_csv(text, heading=heading, batch="1.1")
                self.assertEqual(len(wanted), len(table) + ROWS)
                with cut(65_536):
                    self.assertEqual(table.import_csv(text, heading=heading, batch="1.1"), wanted)
                    self.assertEqual(wanted.import_csv(text, heading=heading, batch="1.1"), wanted)

    def test_an_empty_line_is_a_row_of_one_field(self) -> None:
        empty, text = Table.create("T", {"A": "INTEGER"}), "A\n" + "1\n\n" * 70_000
        wanted = empty.import_csv(text, batch="1.1")
        self.assertEqual(wanted.query("SELECT COUNT(*),COUNT(A) FROM T"), [(140_000, 70_000)])
        with cut(65_536):
            self.assertEqual(empty.import_csv(text, batch="1.1"), wanted)

    def test_progress_is_told_after_each_piece(self) -> None:
        told: List[Tuple[int, int]] = []
        with cut(65_536):
            table = EMPTY.import_csv(HEADED, progress=lambda done, whole: told.append((done, whole)))
        ends = [len("\n".join(["A,B", *LINES[:rows], ""])) for rows in (65_536, 131_072, ROWS)]
        self.assertEqual((told, len(table), table.check()[0]), ([(end, len(HEADED)) for end in ends], ROWS, 3))
        EMPTY.import_csv("1,2\n", heading=False, progress=lambda done, whole: told.append((done, whole)))
        self.assertEqual(told[3:], [(4, 4)])

    def test_progress_is_not_told_of_a_piece_that_is_refused(self) -> None:
        told: List[Tuple[int, int]] = []
        with cut(65_536), self.assertRaises(Refused):
            EMPTY.import_csv(HEADED + "1,1000\n", progress=lambda done, whole: told.append((done, whole)))
        self.assertEqual([done < whole for done, whole in told], [True, True])

    def test_what_progress_raises_ends_the_import(self) -> None:
        def stop(done: int, whole: int) -> None:
            raise KeyboardInterrupt

        with tempfile.TemporaryDirectory() as room, cut(65_536):
            folder = Folder.of(os.path.join(room, "site"), EMPTY)
            for import_csv in EMPTY.import_csv, folder.import_csv:
                with self.assertRaises(KeyboardInterrupt):
                    import_csv(HEADED, progress=stop)
            self.assertEqual((len(EMPTY), len(folder), len(folder.parts())), (0, 0, 1))
            self.assertEqual((folder.import_csv(HEADED), len(folder), len(folder.parts())), (3, ROWS, 2))

    def test_a_fault_has_its_line_in_the_whole_text(self) -> None:
        for heading in True, False:
            for at in 0, 65_535, 65_536, 131_072, ROWS - 1:
                lines = [*LINES[:at], "1,1000", *LINES[at + 1 :]]
                text = "\n".join(["A,B", *lines] if heading else lines)
                with cut(65_536):
                    found = refusal(EMPTY, text, heading)
                self.assertEqual(found, refusal(EMPTY, text, heading))
                self.assertTrue(found.startswith(f"BadCsv {at + 1 + heading} 2: "), found)
        marked = "\n".join([*LINES[:65_536], "\ufeff1,1"])  # such a mark is passed over at the beginning of the text alone
        with cut(65_536):
            self.assertTrue(refusal(EMPTY, marked, False).startswith("BadCsv 65537 1: "))
            self.assertTrue(refusal(EMPTY.import_csv("5,5\n", heading=False, batch="1.2"), HEADED, True).startswith("Conflict 1.2: "))

    def test_names_end_with_the_greatest_number(self) -> None:
        last = (1 << 32) - 1
        with cut(65_536):
            self.assertEqual(len(EMPTY.import_csv(HEADED, batch=(1, last - 2))), ROWS)
            with self.assertRaises(Refused) as caught:
                EMPTY.import_csv(HEADED, batch=(1, last - 1))
            self.assertEqual(caught.exception.name, "NumbersSpent")
            wide = {"A": [1] * ROWS, "B": [1000, *[1] * (ROWS - 1)]}  # of a type that the column does not have
            with self.assertRaises(Refused) as caught:
                EMPTY.import_columns(wide, batch=(1, last - 1))
            self.assertEqual(caught.exception.name, "NumbersSpent")
            with unittest.mock.patch("secrets.randbelow", lambda most: most - 1):
                self.assertEqual(len(EMPTY.import_csv(HEADED)), ROWS)
            drawn = EMPTY.import_csv(HEADED)
        self.assertNotEqual(drawn.import_csv(HEADED), drawn)


if __name__ == "__main__":
    unittest.main()
