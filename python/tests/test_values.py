"""Values of queries and conditions."""

from __future__ import annotations

import os
import tempfile
import unittest
from typing import Any, List, Tuple

from lanes import Folder, Refused, Table, finish, split
from lanes.values import filled

#: Texts with values, and the text that is asked.
FILLED: List[Tuple[str, List[Any], str]] = [
    ("A = ?", [5], "A = 5"),
    ("A=?AND B=?", [-5, 6], "A=-5 AND B=6"),
    ("A BETWEEN?AND?", [1, 2], "A BETWEEN 1 AND 2"),
    ("A IN (?)", [[1, -2]], "A IN (1, -2)"),
    ("A not in ( ? )", [(3,)], "A not in ( 3 )"),
    ("A IN (?, 7, ?)", [1, range(2, 4)], "A IN (1, 7, 2, 3)"),
    ("A IN (?) AND B = ?", [[1], 2], "A IN (1) AND B = 2"),
    ("A IS ? OR A IS NOT ?", [None, None], "A IS NULL OR A IS NOT NULL"),
    ("A = 1", [], "A = 1"),
    ("'?' = 1", [], "'?' = 1"),
    ("\"?\" = ?", [], "\"?\" = ?"),
    ("A = 1; ?", [], "A = 1; ?"),
    ("A = ?", [10**30 - 1], f"A = {'9' * 30}"),
]

#: Values that are refused, and how the words begin.
WRONG: List[Tuple[str, Any, type, str]] = [
    ("A = ?", ["1 OR 1 = 1"], TypeError, "values[0]: a whole number is wanted here, and this is of type str"),
    ("A = ? AND B = ?", [1, 1.5], TypeError, "values[1]: a whole number is wanted here, and this is of type float"),
    ("A = ?", [True], TypeError, "values[0]: a whole number is wanted here, and this is of type bool"),
    ("A = ?", [[1]], TypeError, "values[0]: a whole number (a list goes into IN (?))"),
    ("A IN (?)", [[1, "2"]], TypeError, "values[0][1]: a whole number is wanted here, and this is of type str"),
    ("A IN (?)", [[1, None]], TypeError, "values[0][1]: a whole number is wanted here"),
    ("A IN (?)", [[]], ValueError, "values[0]: a list of IN has one value or more, and this one is empty"),
    ("A IN (?)", ["12"], TypeError, "values[0]: a whole number is wanted here, and this is of type str"),
    ("A = ?", [None], ValueError, "values[0]: None is a value after IS or IS NOT only"),
    ("A IS ?", [1], ValueError, "values[0]: after IS and IS NOT the value is None, and this is 1"),
    ("A = -?", [1], ValueError, "values[0]: a value has its own sign"),
    ("A = ?", [10**30], ValueError, "values[0]: a number has at most 30 digits, and this one has 31"),
    ("A = ?", [], ValueError, "values: condition has 1 ?, and 0 values are given"),
    ("A = ?", [1, 2], ValueError, "values: condition has 1 ?, and 2 values are given"),
    ("A = 1", [1], ValueError, "values: condition has no ?, and 1 value is given"),
    ("A = ?", 5, TypeError, "values: a list of values is wanted here, and this is of type int"),
    ("A = ?", "5", TypeError, "values: a list of values is wanted here, and this is of type str"),
    ("A = ?", {"A": 5}, TypeError, "values: a list of values is wanted here, and this is of type dict"),
]


class Index:
    """A whole number of another class, as numpy's are."""

    def __init__(self, number: int) -> None:
        self.number = number

    def __index__(self) -> int:
        return self.number


class Valued(unittest.TestCase):
    def setUp(self) -> None:
        self.table = Table.create("T", {"A": "INTEGER", "B": "INTEGER"}).import_csv("A,B\n1,10\n2,\n3,30\n4,40\n", batch="1.1")

    def test_each_value_is_in_the_place_of_its_mark(self) -> None:
        for text, values, wanted in FILLED:
            self.assertEqual(filled("condition", text, values).text.decode(), wanted)

    def test_what_is_no_value_is_told_by_its_place(self) -> None:
        for text, values, kind, words in WRONG:
            for call in self.table.delete, lambda text, values: self.table.dump(where=text, values=values):
                with self.subTest(text=text, values=values), self.assertRaises(kind) as caught:
                    call(text, values)
                self.assertEqual(str(caught.exception).replace("where has", "condition has")[: len(words)], words)

    def test_no_text_deletes_what_it_should_not(self) -> None:
        with self.assertRaises(TypeError):
            self.table.delete("A = ?", ["1 OR 1 = 1"])
        self.assertEqual(len(self.table.delete("A = ?", [Index(1)])), 3)

    def test_each_call_takes_values(self) -> None:
        sql, values = "SELECT SUM(B) FROM T WHERE A IN (?) AND B IS NOT ?", [[1, 2, 3], None]
        with tempfile.TemporaryDirectory() as room:
            for owner in self.table, Folder.of(os.path.join(room, "site"), self.table):
                self.assertEqual(owner.query(sql, values), [(40,)])
                self.assertEqual(finish(owner.partial(sql, values)), [(40,)])
                self.assertEqual(owner.dump(where="A > ?", values=[3]), "A,B\n4,40\n")
                self.assertEqual(list(owner.rows("A > ?", values=[2])), [(3, 30), (4, 40)])
            plan = split(sql, self.table, values)
            self.assertEqual(plan.finish(plan.ask(self.table)), [(40,)])
            self.assertEqual(Folder(os.path.join(room, "site")).delete("A < ? OR B = ?", [2, 40]), 2)

    def test_a_fault_is_at_its_byte_of_the_text_that_was_given(self) -> None:
        for text, values, place in [
            ("A = ? AND Z = 1", [12345], 10),
            ("A=?AND Z=1", [-12345], 7),
            ("A = ? AND", [12345], 9),
            ("A IN (?) AND B == 1", [[1, 2, 3]], 16),
            ("A = 1 ?", [12345], 6),
            ("Z = ?", [7], 0),
        ]:
            with self.assertRaises(Refused) as caught:
                self.table.delete(text, values)
            self.assertEqual(caught.exception.place, (place,), text)
            self.assertIn(f"byte {place}: ", caught.exception.sentence)


if __name__ == "__main__":
    unittest.main()
