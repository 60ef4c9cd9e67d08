"""Rows, out and in, without numpy; and what answers have for those who know other modules."""

from __future__ import annotations

import datetime
import os
import subprocess
import sys
import tempfile
import unittest
from typing import Any, List, Tuple

import lanes
from lanes import Folder, Refused, Table

EMPTY = Table.create("T", {"A": "INTEGER", "B": "SMALLINT"})

#: Columns that are refused, and how the words begin.
COLUMNS: List[Tuple[Any, Any, type, str]] = [
    ([True, 2], [1, 2], TypeError, "column A: whole numbers and None are wanted, and True is none, in row 0: it is a truth value"),
    ([True, None], [1, 2], TypeError, "column A: whole numbers and None are wanted, and True is none, in row 0: it is a truth value"),
    ([1, "2"], [1, 2], TypeError, "column A: whole numbers and None are wanted, and '2' is none, in row 1: it is a text"),
    ([1, 2.0], [1, 2], TypeError, "column A: whole numbers and None are wanted, and 2.0 is none, in row 1: it is a float: floats are not rounded"),
    ([datetime.date(2026, 12, 1)], [1], TypeError, "column A: whole numbers and None are wanted, and datetime.date(2026, 12, 1) is none, in row 0: it is a date"),
    ([[1]], [1], ValueError, "column A: a list of numbers is wanted, and in row 0 is [1]"),
    ([1 << 64], [1], ValueError, "column A: 18446744073709551616 in row 0 is outside every type"),
    ([1, 2], [1], ValueError, "columns: they have 1 and 2 rows"),
    ([1, 2, 3], [1, None, 40_000], Refused, "OutOfType 2 1: row 2, column B: 40000 is outside SMALLINT, which has -32768 to 32767"),
]

#: Rows that are refused.
ROWS: List[Tuple[Any, type, str]] = [
    ([{"A": 1}], ValueError, "rows[0]: the columns A, B are wanted, each once, and these are A"),
    ([{"A": 1, "B": 2}, {"A": 1, "B": 2, "C": 3}], ValueError, "rows[1]: the columns A, B are wanted, each once, and these are A, B, C"),
    ([(1, 2), (1,)], ValueError, "rows[1]: 2 values are wanted, of A, B, and these are 1"),
    ([5], TypeError, "rows[0]: a dict or a tuple is wanted here, and this is of type int"),
    (["12"], TypeError, "rows[0]: a dict or a tuple is wanted here, and this is of type str"),
    ({"A": [1], "B": [2]}, TypeError, "rows: several rows, as dicts or tuples, are wanted here, and this is of type dict"),
    (None, TypeError, "rows: several rows, as dicts or tuples, are wanted here, and this is of type NoneType"),
    ([(1, 40_000)], Refused, "OutOfType 0 1: row 0, column B: 40000 is outside SMALLINT"),
]


class Rows(unittest.TestCase):
    def test_rows_are_named_tuples(self) -> None:
        table = EMPTY.import_csv("A,B\n1,10\n2,\n3,30\n", batch="1.1").delete("A = 3")
        self.assertEqual(list(table), [(1, 10), (2, None)])
        self.assertEqual([(row.B, row._asdict()) for row in table.rows("A = ?", ["b"], [1])], [(10, {"B": 10})])
        self.assertEqual(list(table.rows(columns=[])), [(), ()])
        for columns in ["A", "a"], ["A", "B", "A"]:
            with self.assertRaisesRegex(ValueError, "columns: A is there twice"):
                table.rows(columns=columns)
        with self.assertRaises(Refused):
            table.rows("Z = 1")

    def test_rows_of_many_batches_come_in_order(self) -> None:
        table = EMPTY
        for number in range(1, 40):
            table = table.import_csv("".join(f"{row},{'' if row % 3 else 1}\n" for row in range(number)), heading=False, batch=(1, number))
        wanted = [(row, None if row % 3 else 1) for number in range(1, 40) for row in range(number)]
        self.assertEqual(list(table.rows()), wanted)
        self.assertEqual(list(table.rows("A > 5 AND B IS NULL", ["A"])), [(row,) for row, value in wanted if row > 5 and value is None])
        self.assertEqual(table.head(7), wanted[:7])

    def test_rows_and_columns_go_in_without_numpy(self) -> None:
        wanted = EMPTY.import_csv("1,10\n2,\n-3,30\n", heading=False, batch="1.1")
        for rows in [(1, 10), (2, None), (-3, 30)], [{"A": 1, "b": 10}, {"B": None, "a": 2}, {"A": -3, "B": 30}], iter([[1, 10], (2, None), {"A": -3, "B": 30}]):
            self.assertEqual(EMPTY.import_rows(rows, batch="1.1"), wanted)
        self.assertEqual(EMPTY.import_columns({"b": (10, None, 30), "a": [1, 2, -3]}, batch="1.1"), wanted)
        self.assertEqual(EMPTY.import_rows(wanted, batch="1.1"), wanted)
        self.assertEqual(list(EMPTY.import_columns({"A": range(2), "B": [5, None]})), [(0, 5), (1, None)])
        self.assertEqual(EMPTY.import_rows([]), EMPTY)
        with tempfile.TemporaryDirectory() as room:
            site = Folder.of(os.path.join(room, "site"), EMPTY)
            self.assertEqual((site.import_rows([(1, 10)], batch="1.1"), site.import_rows([{"A": 1, "B": 10}], batch="1.1"), list(site)), (1, 0, [(1, 10)]))
        done = subprocess.run([sys.executable, "-c", WITHOUT], env={**os.environ, "PYTHONPATH": os.path.dirname(os.path.dirname(lanes.__file__))}, capture_output=True, text=True)
        self.assertEqual((done.stdout, done.stderr), ("[(1, None), (2, 3)] [(5, 6)]\n", ""))

    def test_rows_past_a_piece_are_those_of_a_text(self) -> None:
        for rows in 511, 512, 513, 65_537:
            columns = {"A": list(range(rows)), "B": [None if row % 7 == 0 else row % 300 for row in range(rows)]}
            text = "".join(f"{row},{'' if row % 7 == 0 else row % 300}\n" for row in range(rows))
            self.assertEqual(EMPTY.import_columns(columns, batch="1.1"), EMPTY.import_csv(text, heading=False, batch="1.1"))

    def test_what_is_no_number_is_told_with_its_row(self) -> None:
        for first, second, kind, words in COLUMNS:
            with self.assertRaises(kind) as caught:
                EMPTY.import_columns({"A": first, "B": second})
            self.assertEqual(str(caught.exception)[: len(words)], words)
        for rows, kind, words in ROWS:
            with self.assertRaises(kind) as caught:
                EMPTY.import_rows(rows)
            self.assertEqual(str(caught.exception)[: len(words)], words)


class Answers(unittest.TestCase):
    def setUp(self) -> None:
        self.answer = EMPTY.import_rows([(1, 10), (2, None)]).query("SELECT A,COUNT(*) AS N,SUM(B) FROM T GROUP BY A")

    def test_a_field_is_an_attribute_and_a_heading_a_column(self) -> None:
        self.assertEqual([(row.A, row.N) for row in self.answer], [(1, 1), (2, 1)])
        self.assertEqual((self.answer["n"], self.answer["SUM(B)"]), ([1, 1], [10, None]))
        with self.assertRaisesRegex(KeyError, "there is no column 'X': the answer has A, N, SUM"):
            self.answer["X"]
        with self.assertRaises(AttributeError):
            self.answer[0].X

    def test_rows_are_fetched_one_after_another(self) -> None:
        self.assertEqual((self.answer.fetchone(), self.answer.fetchall(), self.answer.fetchone(), self.answer.fetchall()), ((1, 1, 10), [(2, 1, None)], None, []))
        self.assertEqual(len(self.answer), 2)

    def test_a_notebook_shows_60_rows_at_most(self) -> None:
        answer = EMPTY.import_columns({"A": list(range(100)), "B": [1] * 100}).query("SELECT A FROM T GROUP BY A")
        self.assertEqual((answer._repr_html_().count("<tr>"), answer._repr_html_().count("40 more rows")), (61, 1))


#: Rows go in and out without numpy and pandas.
WITHOUT = """
import sys
sys.modules["numpy"] = sys.modules["pandas"] = None
import lanes
empty = lanes.Table.create("T", {"A": "INTEGER", "B": "SMALLINT"})
table = empty.import_rows([(1, None), {"A": 2, "B": 3}])
print(list(table), list(empty.import_columns({"A": [5], "B": [6]})))
"""


if __name__ == "__main__":
    unittest.main()
