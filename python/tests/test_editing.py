"""Tables that are changed in their place: what an edit makes is what the same changes of tables make, and the table that it began with stays."""

from __future__ import annotations

import threading
import unittest
from typing import Any, Callable, List, Tuple

from lanes import Refused, Table

#: A change, of a table or of an edit, whose calls have the same names.
Change = Callable[[Any], Any]


def visits() -> Table:
    return Table.create("VISITS", {"SITE": "SMALLINT", "HITS": "INTEGER"}).import_csv("SITE,HITS\n1,10\n1,7\n2,\n", batch="1.1")


def offer() -> bytes:
    return Table.create("VISITS", {"SITE": "SMALLINT", "HITS": "INTEGER"}).import_csv("SITE,HITS\n9,90\n", batch="4.1").to_bytes()


CHANGES: List[Tuple[str, Change]] = [
    ("rows", lambda t: t.import_rows([{"SITE": 3, "HITS": None}, (4, 5)], batch="2.1")),
    ("no rows", lambda t: t.import_rows([], batch="2.2")),
    ("a text", lambda t: t.import_csv("7;8\n9;NA\n", heading=False, separator=";", null="NA", batch="2.3")),
    ("the same text again", lambda t: t.import_csv("7;8\n9;NA\n", heading=False, separator=";", null="NA", batch="2.3")),
    ("columns", lambda t: t.import_columns({"SITE": [5, None], "HITS": [6, 7]}, batch="2.4")),
    ("many rows", lambda t: t.import_columns({"SITE": [1] * 300_000, "HITS": list(range(300_000))}, batch="3.1")),
    ("a delete", lambda t: t.delete("SITE = ? OR HITS > ?", [1, 299_000])),
    ("a delete that finds nothing", lambda t: t.delete("SITE = 77")),
    ("rows by their names", lambda t: t.delete_rows("2.1", 1)),
    ("rows that come later", lambda t: t.delete_rows("6.1", 0, 9)),
    ("an offer", lambda t: t.apply(offer())),
    ("the same offer again", lambda t: t.apply(offer())),
]

REFUSED: List[Tuple[str, Change, str]] = [
    ("a text", lambda t: t.import_csv("1,2\n1,x\n", heading=False, batch="5.1"), "BadCsv"),
    ("a number outside its type", lambda t: t.import_rows([(1, 2), (70_000, 2)], batch="5.1"), "OutOfType"),
    ("other rows under a name", lambda t: t.import_rows([(1, 2)], batch="1.1"), "Conflict"),
    ("a condition", lambda t: t.delete("SITE ="), "Syntax"),
    ("a condition on no column", lambda t: t.delete("SIDE = 1"), "NoSuchColumn"),
    ("a name", lambda t: t.delete_rows((0, 1), 1), "BadName"),
    ("a range", lambda t: t.delete_rows("1.1", 5, 4), "BadRange"),
    ("an offer of another table", lambda t: t.apply(Table.create("OTHER", {"A": "TINYINT"}).to_bytes()), "SchemaDiffers"),
    ("what is no offer", lambda t: t.apply(b"no offer"), "BadMagic"),
]


class Edits(unittest.TestCase):
    def test_each_change_makes_what_it_makes_of_a_table(self) -> None:
        table = visits()
        edit = table.edit()
        for what, change in CHANGES:
            with self.subTest(what):
                table = change(table)
                self.assertIsNone(change(edit))
                self.assertEqual(edit.table(), table)
                self.assertEqual(edit.query("SELECT COUNT(*), SUM(HITS) FROM VISITS"), table.query("SELECT COUNT(*), SUM(HITS) FROM VISITS"))

    def test_a_change_that_is_refused_changes_nothing_and_says_what_it_says_of_a_table(self) -> None:
        table = visits()
        edit = table.edit()
        for what, change, name in REFUSED:
            with self.subTest(what):
                with self.assertRaises(Refused) as wanted:
                    change(table)
                with self.assertRaises(Refused) as refused:
                    change(edit)
                self.assertEqual((refused.exception.name, str(refused.exception)), (name, str(wanted.exception)))
                self.assertEqual(edit.table(), visits())

    def test_the_tables_that_it_began_with_and_that_it_gave_stay(self) -> None:
        table = visits()
        edit = table.edit()
        edit.delete("SITE = 1")
        first = edit.table()
        edit.import_rows([(8, 8)], batch="8.1")
        self.assertEqual((table, first, len(edit.table())), (visits(), visits().delete("SITE = 1"), 2))

    def test_two_edits_of_a_table_know_nothing_of_each_other(self) -> None:
        table = visits()
        one, other = table.edit(), table.edit()
        one.delete("SITE = 1")
        self.assertEqual((len(one.table()), other.table()), (1, visits()))

    def test_names_are_drawn(self) -> None:
        edit = visits().edit()
        for _ in range(3):
            edit.import_rows([(1, 1)])
        self.assertEqual((len(edit.table()), edit.table().inspect()["batches"]), (6, 4))

    def test_a_subclass_stays_one(self) -> None:
        class Visits(Table):
            pass

        table = Visits.from_bytes(visits().to_bytes())
        self.assertIs(type(table.edit().table()), Visits)

    def test_threads_change_it_one_after_another(self) -> None:
        edit = visits().edit()

        def add(origin: int) -> None:
            for number in range(1, 21):
                edit.import_rows([(origin, number)], batch=(origin, number))
                edit.query("SELECT COUNT(*) FROM VISITS")

        threads = [threading.Thread(target=add, args=(origin,)) for origin in range(10, 14)]
        for thread in threads:
            thread.start()
        for thread in threads:
            thread.join()
        self.assertEqual(len(edit.table()), 3 + 4 * 20)


if __name__ == "__main__":
    unittest.main()
