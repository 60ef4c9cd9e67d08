"""What the module raises: each a lanes.Error and what it is beside that, and wrong arguments by their names."""

from __future__ import annotations

import os
import pickle
import tempfile
import unittest
import unittest.mock
from typing import Any, Callable

import lanes
from lanes import Busy, Damaged, Error, Folder, NotApart, OutOfMemory, Refused, Table, calls, part_folder, waiting

TABLE = Table.create("T", {"A": "INTEGER", "B": "BIGINT"}).import_csv("1,1\n2,2\n", heading=False, batch="3.1")


class InRoom(unittest.TestCase):
    def setUp(self) -> None:
        room = tempfile.TemporaryDirectory(prefix="lanes-errors-")
        self.addCleanup(room.cleanup)
        self.path = os.path.join(room.name, "site")
        self.folder = Folder.of(self.path, TABLE)


class Raised(InRoom):
    def told(self, kind: type[Error], beside: type[BaseException], act: Callable[[], object]) -> Any:
        with self.assertRaises(kind) as caught:
            act()
        self.assertIsInstance(caught.exception, Error)
        self.assertIsInstance(caught.exception, beside)
        other = pickle.loads(pickle.dumps(caught.exception))
        self.assertEqual((type(other), str(other), other.__dict__), (kind, str(caught.exception), caught.exception.__dict__))
        return caught.exception

    def test_a_refusal_is_a_value_error_with_a_name_and_a_place(self) -> None:
        refused = self.told(Refused, ValueError, lambda: TABLE.query("SELECT C FROM T"))
        self.assertEqual((refused.name, refused.place), ("NoSuchColumn", (7,)))
        self.assertNotIsInstance(refused, MemoryError)

    def test_out_of_memory_is_a_memory_error_too(self) -> None:
        def act() -> None:
            raise calls.refused(calls.MEMORY)

        refused = self.told(OutOfMemory, MemoryError, act)
        self.assertIsInstance(refused, Refused)
        self.assertEqual((refused.name, str(refused)), ("Memory", "Memory: out of memory"))

    def test_parts_that_are_not_apart_tell_the_batch(self) -> None:
        fault = self.told(NotApart, ValueError, lambda: lanes.check_apart([TABLE, TABLE]))
        self.assertEqual((fault.batch, str(fault.batch)), ((3, 1), "3.1"))
        self.assertIn("batch 3.1", str(fault))

    def test_a_damaged_part_is_told(self) -> None:
        (name,) = self.folder.parts()
        path = os.path.join(self.path, name)
        with open(path, "ab") as file:
            file.write(b"x")
        fault = self.told(Damaged, OSError, self.folder.read)
        self.assertEqual((fault.part, fault.filename), (name, path))

    def test_who_waits_for_ten_seconds_is_told(self) -> None:
        with part_folder.locked(self.path, part_folder.fcntl.LOCK_EX), unittest.mock.patch.object(waiting, "LONGEST", 0.05):
            fault = self.told(Busy, TimeoutError, self.folder.read)
        self.assertEqual(fault.filename, self.path)
        self.assertIn("ten seconds", str(fault))

    def test_a_part_that_is_a_link_that_leads_nowhere_is_named_at_once(self) -> None:
        path = os.path.join(self.path, "0" * 32 + ".lanes")
        os.symlink("nowhere", path)
        for act in self.folder.read, lambda: self.folder.delete_rows("1.1", 0), lambda: self.folder.import_csv("1,1\n", heading=False), self.folder.pack:
            with self.assertRaises(FileNotFoundError) as caught:
                act()
            self.assertEqual(caught.exception.filename, path)

    def test_parts_that_come_and_go_are_busy(self) -> None:
        gone = FileNotFoundError(2, "gone", os.path.join(self.path, "part"))
        with unittest.mock.patch.object(part_folder, "read_part", side_effect=gone), unittest.mock.patch.object(waiting, "LONGEST", 0.05):
            self.told(Busy, TimeoutError, self.folder.read)


class Conditions(InRoom):
    def test_a_condition_that_is_refused_tells_its_argument_and_what_to_write(self) -> None:
        for condition, place, words in [
            ("Zed > 1", (0,), 'NoSuchColumn 0: condition: byte 0: there is no column "Zed": the table has A, B'),
            ("A = 1 AND zed = 2", (10,), 'NoSuchColumn 10: condition: byte 10: there is no column "zed": the table has A, B'),
            ("A == 2", (3,), "Syntax 3: condition: byte 3: equal is written ="),
            ("A =", (3,), "Syntax 3: condition: byte 3: the text ends too early; expected a column or a whole number"),
            ("A = \u00e9", (4,), "Syntax 4: condition: byte 4: names have the letters A to Z, digits and _ only, in either case"),
            (f"A = 1{'0' * 30}", (4,), "NumberTooLarge 4: condition: byte 4: the number has more than 30 digits"),
            ("(" * 65 + "A = 1" + ")" * 65, (), "TooDeep: condition: more than 64 parentheses are open at once"),
        ]:
            for act in TABLE.delete, self.folder.delete:
                with self.subTest(condition=condition), self.assertRaises(Refused) as caught:
                    act(condition)
                self.assertEqual((caught.exception.place, caught.exception.subject), (place, "condition"))
                self.assertEqual(str(caught.exception), words)
                self.assertEqual(str(caught.exception).partition(": condition: ")[2], caught.exception.sentence)


class Sentences(InRoom):
    """What is said of a refusal is what the program says, in the words of Python, but for what it is said of."""

    def told(self, act: Callable[[], object], wanted: str, subject: str = "") -> None:
        with self.assertRaises(Refused) as caught:
            act()
        self.assertEqual((caught.exception.sentence[: len(wanted)], caught.exception.subject), (wanted, subject))

    def test_a_query_tells_what_to_write(self) -> None:
        for sql, wanted in [
            ("SELECT * FROM T", "byte 7: a query lists grouping columns and set functions: table.rows() gives the rows"),
            ("SELECT COUNT(*) FROM U", 'there is no table "U": the table here is T'),
            ("SELECT A FROM T", 'byte 7: "A" must be in GROUP BY or inside a set function'),
            ("SELECT COUNT(*) FROM T LIMIT 1", "byte 23: there is no LIMIT: take the first rows, as answer[:3]"),
        ]:
            for act in TABLE.query, TABLE.partial, self.folder.query, self.folder.partial:
                with self.subTest(sql=sql):
                    self.told(lambda: act(sql), wanted)

    def test_rows_tell_the_column_and_what_is_wrong(self) -> None:
        for text, heading, wanted in [
            ("A,C\n", True, 'line 1, field 2: "C" is not a column of the table, which has A, B: name the fields by columns='),
            ("1,2\n", True, 'line 1, field 1: "1" is not a column of the table, which has A, B: if the first line is a row, say heading=False'),
            ("A,B\n", False, "line 1, column A: this line has the names of columns: leave heading=False out"),
            ("A,B\n99999999999,2\n", True, 'line 2, column A: "99999999999" is outside the type INTEGER'),
            ("B,A\n1,x\n", True, 'line 2, column A: "x" is not a whole number'),
            ("A;B\n", True, "line 1: the line has 1 field, and the table has 2 columns; semicolons seem to separate its fields"),
            ("", True, "line 1: "),
        ]:
            for act in TABLE.import_csv, self.folder.import_csv:
                with self.subTest(text=text):
                    self.told(lambda: act(text, heading=heading), wanted)
        self.told(lambda: TABLE.import_csv("5,5\n", heading=False, batch="3.1"), "this has batch 3.1 already, with other rows")

    def test_names_and_types_of_a_table_tell_which(self) -> None:
        for name, columns, wanted, subject in [
            ("SELECT", {"A": "INTEGER"}, '"SELECT" is a keyword of the query language and can\'t be a name', ""),
            ("1T", {"A": "INTEGER"}, '"1T" is not a name: a name is a letter and up to 63 letters, digits or _', "name"),
            ("T", {"A-B": "INTEGER"}, '"A-B" is not a name: a name is a letter and up to 63 letters, digits or _', "columns"),
            ("T", {"A": "INTEGER", "a": "BIGINT"}, 'two columns have the name "a"', ""),
            ("T", {f"A{at}": "INTEGER" for at in range(33)}, "a table has 1 to 32 columns, and these are 33", ""),
        ]:
            with self.subTest(name=name, columns=columns):
                self.told(lambda: Table.create(name, columns), wanted, subject)

    def test_an_input_of_another_kind_is_named(self) -> None:
        path = os.path.join(self.path, "..", "visits.csv")
        with open(path, "w") as file:
            file.write("A,B\n1,2\n")
        text = "this is a text file, not a lanes file: Table.import_csv imports comma-separated values"
        summary = "this is a summary: Table.offer reads it"
        self.told(lambda: Table.open(path), text, path)
        self.told(lambda: Table.from_bytes(b"A,B\n"), text, "file")
        self.told(lambda: Table.from_bytes(TABLE.summary()), summary, "file")
        self.told(lambda: TABLE.apply(TABLE.summary()), summary, "offer")
        self.told(lambda: TABLE.offer(b"A,B\n"), text, "summary")
        part = part_folder.put(self.path, b"A,B\n")
        self.told(self.folder.read, text, os.path.join(self.path, part))

    def test_no_sentence_is_long_or_moves_a_terminal(self) -> None:
        wide = Table.create("T", {f"A{at:063}": "INTEGER" for at in range(32)})
        with self.assertRaises(Refused) as caught:
            wide.delete("Z = 1")
        self.assertEqual((len(caught.exception.sentence), caught.exception.sentence[-3:]), (1024, "..."))
        for text in "\x1b[31m", "\u202e", "\x00", "\x7f\x85", "'\n\r\t":
            for act in TABLE.query, TABLE.delete, TABLE.import_csv:
                with self.subTest(text=text), self.assertRaises(Refused) as caught:
                    act(text + "\n")
                self.assertTrue(caught.exception.sentence.isprintable(), caught.exception.sentence)


class Arguments(InRoom):
    def test_wrong_arguments_are_told_by_their_names(self) -> None:
        folder, partial = self.folder, TABLE.partial("SELECT COUNT(*) FROM T")
        plan = lanes.split("SELECT COUNT(*) FROM T", TABLE)
        wrong: list[tuple[str, type[Exception], Callable[..., object], tuple[Any, ...]]] = [
            ("name", TypeError, Table.create, (5, {"A": "INTEGER"})),
            ("columns", TypeError, Table.create, ("T", 5)),
            ("columns", TypeError, Table.create, ("T", None)),
            ("columns", TypeError, Table.create, ("T", "A")),
            ("columns", TypeError, Table.create, ("T", [5])),
            ("columns", ValueError, Table.create, ("T", {"\ud800": "INTEGER"})),
            ("file", TypeError, Table, ("t.lanes",)),
            ("file", TypeError, Table, (5,)),
            ("path", TypeError, Table.open, (5,)),
            ("path", TypeError, Table.open, (None,)),
            ("path", ValueError, Table.open, ("a\0b",)),
            ("file", TypeError, Table.from_bytes, ("text",)),
            ("path", TypeError, TABLE.save, (None,)),
            ("sql", TypeError, TABLE.query, (None,)),
            ("sql", TypeError, TABLE.query, (b"SELECT COUNT(*) FROM T",)),
            ("sql", ValueError, TABLE.query, ("\ud800",)),
            ("sql", TypeError, TABLE.partial, (5,)),
            ("sqls", TypeError, TABLE.queries, (None,)),
            ("sqls", TypeError, TABLE.queries, ("SELECT COUNT(*) FROM T",)),
            ("sql", TypeError, TABLE.queries, ([5],)),
            ("csv", TypeError, TABLE.import_csv, (5,)),
            ("csv", ValueError, TABLE.import_csv, ("\ud800\n",)),
            ("columns", TypeError, TABLE.import_columns, (5,)),
            ("columns", TypeError, TABLE.import_columns, ([1, 2],)),
            ("columns", TypeError, TABLE.import_columns, ({1: [1], "B": [1]},)),
            ("frame", TypeError, TABLE.import_frame, (5,)),
            ("condition", TypeError, TABLE.delete, (None,)),
            ("condition", TypeError, folder.delete, (5,)),
            ("batch", TypeError, TABLE.delete_rows, (5, 0)),
            ("batch", TypeError, TABLE.delete_rows, ((1, "2"), 0)),
            ("batch", TypeError, TABLE.delete_rows, ((1.0, 2), 0)),
            ("batch", ValueError, TABLE.delete_rows, ("1.x", 0)),
            ("first", TypeError, TABLE.delete_rows, ("1.1", "0")),
            ("last", TypeError, TABLE.delete_rows, ("1.1", 0, 1.5)),
            ("first", ValueError, TABLE.delete_rows, ("1.1", -1, 2)),
            ("last", ValueError, folder.delete_rows, ("1.1", 0, 65_536)),
            ("others", TypeError, TABLE.merge, (5,)),
            ("others", TypeError, TABLE.merge, (TABLE, None)),
            ("summary", TypeError, TABLE.offer, ("text",)),
            ("offer", TypeError, TABLE.apply, (5,)),
            ("path", TypeError, Folder, (5,)),
            ("path", TypeError, Folder.of, (None, TABLE)),
            ("table", TypeError, Folder.of, (self.path + "2", 5)),
            ("columns", TypeError, Folder.create, (self.path + "2", "T", 5)),
            ("sql", TypeError, folder.query, (None,)),
            ("summary", TypeError, folder.offer, (5,)),
            ("offers[0]", TypeError, folder.apply, (5,)),
            ("csv", TypeError, folder.import_csv, (5,)),
            ("batch", TypeError, lambda given: folder.import_csv("1,1\n", batch=given), (5,)),
            ("table", TypeError, lanes.split, ("SELECT COUNT(*) FROM T", 5)),
            ("sql", TypeError, lanes.split, (None, TABLE)),
            ("table", TypeError, plan.ask, (5,)),
            ("partials[1]", TypeError, plan.combine, (partial, 5)),
            ("partials", TypeError, lanes.combine, (5,)),
            ("partials", TypeError, lanes.combine, (partial,)),
            ("partials[1]", TypeError, lanes.combine, ([partial, "text"],)),
            ("partials", ValueError, lanes.combine, ([],)),
            ("partial", TypeError, lanes.finish, (5,)),
            ("expect", TypeError, lanes.finish, (partial, 5)),
            ("expect", TypeError, lanes.finish, (partial, TABLE.summary())),
            ("expect[0]", TypeError, lanes.finish, (partial, [5])),
            ("count", TypeError, TABLE.spread, ("2",)),
            ("count", ValueError, TABLE.spread, (0,)),
            ("count", ValueError, TABLE.spread, (10**9,)),
            ("count", TypeError, TABLE.head, (None,)),
            ("count", ValueError, TABLE.head, (-1,)),
            ("names", TypeError, TABLE.dump, ("x.csv",)),
            ("names", TypeError, TABLE.dump, (None,)),
            ("heading", TypeError, lambda given: TABLE.import_csv("1,1\n", heading=given), ("no",)),
            ("heading", TypeError, lambda given: folder.import_csv("1,1\n", heading=given), (0,)),
            ("held", TypeError, lambda given: TABLE.delete_rows("1.1", 0, held=given), ("no",)),
            ("held", TypeError, lambda given: folder.delete_rows("1.1", 0, held=given), (None,)),
            ("everything", TypeError, lambda given: folder.pack(everything=given), ("yes",)),
            ("frame", TypeError, Table.from_frame, ("T", 5)),
            ("data", TypeError, Table.from_arrow, ("T", 5)),
            ("last", TypeError, lambda given: TABLE.delete_rows("1.1", 0, given, held=True), (1.5,)),
            ("tables", TypeError, lanes.check_apart, (5,)),
            ("tables", TypeError, lanes.check_apart, (TABLE,)),
            ("tables", TypeError, lanes.check_apart, ([TABLE, 5],)),
            ("path", TypeError, lambda given: lanes.update(given).__enter__(), (5,)),
        ]
        for name, kind, act, given in wrong:
            with self.subTest(name=name, given=given), self.assertRaises(kind) as caught:
                act(*given)
            self.assertTrue(str(caught.exception).startswith(f"{name}: "), f"{caught.exception} of {given}")
            self.assertNotIsInstance(caught.exception, Error)
        self.assertEqual(folder.parts(), [part_folder.part_name(TABLE.to_bytes())])


if __name__ == "__main__":
    unittest.main()
