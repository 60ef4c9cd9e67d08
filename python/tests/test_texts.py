"""Comma-separated values by path, unpacked, several at once, of another encoding, and with fields that are no numbers; files and folders that
are opened by what is there; and sentences in Python's words."""

from __future__ import annotations

import gzip
import os
import pathlib
import tempfile
import typing
import unittest
from typing import Any, Dict, List, Tuple

import lanes
from lanes import Folder, Refused, Table
from lanes.words import in_python

EMPTY = Table.create("T", {"DAY": "INTEGER", "ON": "TINYINT", "N": "INTEGER"})

#: Texts, how they are written, and the rows that they have.
TEXTS: List[Tuple[Any, Dict[str, Any], List[Tuple[Any, ...]]]] = [
    ("DAY,ON,N\n2026-12-01,true,5\n2026-12-02,No,7\n", {"dates": {"day": "%Y%m%d"}, "booleans": ["ON"]}, [(20261201, 1, 5), (20261202, 0, 7)]),
    ('N;DAY;ON\r\n1;"01.02.2026";"Yes"\r\n2;;\r\n', {"separator": ";", "dates": {"DAY": ("%d.%m.%Y", "%Y%m%d")}, "booleans": ["on"]}, [(20260201, 1, 1), (None, None, 2)]),
    ("2026-12-01T10:30:00,y,1\n", {"heading": False, "dates": {"DAY": "%H%M"}, "booleans": ["ON"]}, [(1030, 1, 1)]),
    ("x,\"a\",2026-12-01,t\n", {"heading": False, "columns": ["-", "-", "DAY", "ON"], "dates": {"DAY": "%y%j"}, "booleans": ["ON"]}, [(26335, 1, None)]),
    ('DAY,ON,N\nNA,n/a,-\n"n/a",1,NA\n1,,2\n', {"null": ["NA", "n/a", "-"]}, [(None, None, None), (None, 1, None), (1, None, 2)]),
    ("1,NA,NA\nn/a,NA,n/a", {"heading": False, "null": ("NA", "n/a", "")}, [(1, None, None), (None, None, None)]),
    ("NA,n/a,N\n1,2,n/a\n", {"columns": ["DAY", "-", "N"], "null": ["NA", "n/a"]}, [(1, None, None)]),
    ("DAY,ON,N\n1,1,1\n".encode("utf-16"), {"encoding": "utf-16"}, [(1, 1, 1)]),
    ("DAY,ON,N,\u00e9\n1,1,1,\u00e9\n".encode("latin-1"), {"encoding": "latin-1", "columns": ["DAY", "ON", "N", "-"]}, [(1, 1, 1)]),
]

#: Arguments that are refused, and how the words begin.
WRONG: List[Tuple[Any, Dict[str, Any], type, str]] = [
    ("DAY,ON,N\n1,1,x\n", {"null": ["a", "b"]}, Refused, 'BadCsv 2 3: line 2, column N: "x" is not a whole number'),
    ("DAY,ON,N\nsoon,1,1\n", {"dates": {"DAY": "%Y"}}, Refused, 'BadCsv 2 1: line 2, column DAY: "soon" is not a whole number'),
    ("DAY,ON,N\n1,maybe,1\n", {"booleans": ["ON"]}, Refused, 'BadCsv 2 2: line 2, column ON: "maybe" is not a whole number'),
    ("1,1,1\n", {"dates": {"DAY": "%d/%m"}}, ValueError, "dates: the format '%d/%m' of DAY gives no number"),
    ("1,1,1\n", {"dates": {"X": "%Y"}}, ValueError, "dates: there is no column 'X': the table has DAY, ON, N"),
    ("1,1,1\n", {"dates": ["DAY"]}, TypeError, "dates: a dict, as {'DAY': '%Y%m%d'}, is wanted here"),
    ("1,1,1\n", {"dates": {"DAY": 5}}, TypeError, "dates: of DAY a format"),
    ("1,1,1\n", {"booleans": "ON"}, TypeError, "booleans: several names"),
    ("1,1,1\n", {"null": ["NA", "7"]}, ValueError, "null: '7' is a number"),
    ("1,1,1\n", {"null": ["NA", 7]}, TypeError, "null: a text or several are wanted here"),
    (b"1,\xff\n", {"encoding": "ascii"}, ValueError, "csv: the text is not in ascii"),
    ("1,1,1\n", {"encoding": "nope"}, ValueError, "encoding: there is no encoding 'nope'"),
    ("1,1,1\n", {"progress": True}, TypeError, "progress: what is called, or None, is wanted here"),
    ([], {}, ValueError, "csv: one text or file is wanted, or more, and these are none"),
]

#: Sentences of the program, old and new, and what is said here.
WORDS = [
    ("; if it is a null, say --null 'n/a'", "; if it is a null, say null='n/a'"),
    ("; semicolons seem to separate its fields", "; semicolons seem to separate its fields: say separator=';'"),
    ("; semicolons seem to separate its fields: say --separator ';'", "; semicolons seem to separate its fields: say separator=';'"),
    ("; tabs seem to separate its fields: say --separator '\\t'", "; tabs seem to separate its fields: say separator='\\t'"),
    ("; name the fields by --columns, as --columns SITE,-", "; name the fields by columns=, as columns=['SITE', '-']"),
    ("this is a row and no header: with --no-header it is read as a row", "this is a row and no header: with heading=False it is read as a row"),
    ("there is no LIMIT: pipe the answer through head -n 4 (the heading and 3 rows)", "there is no LIMIT: take the first rows, as answer[:3]"),
    ("a query changes nothing: lanes delete deletes rows", "a query changes nothing: Table.delete deletes rows"),
    ('there is no column "lanes"', 'there is no column "lanes"'),
]


class Texts(unittest.TestCase):
    def setUp(self) -> None:
        room = tempfile.TemporaryDirectory(prefix="lanes-texts-")
        self.addCleanup(room.cleanup)
        self.room = pathlib.Path(room.name)

    def test_fields_become_numbers(self) -> None:
        for text, how, rows in TEXTS:
            for csv in text, text.encode() if isinstance(text, str) else text:
                with self.subTest(text=text):
                    self.assertEqual(list(EMPTY.import_csv(csv, **how)), rows)

    def test_what_is_wrong_is_told_before_anything_is_done(self) -> None:
        site = Folder.of(self.room / "site", EMPTY)
        for csv, how, kind, words in WRONG:
            for owner in EMPTY, site:
                with self.subTest(csv=csv, how=how), self.assertRaises(kind) as caught:
                    owner.import_csv(csv, **how)
                self.assertEqual(str(caught.exception)[: len(words)], words)
        self.assertEqual((len(site), len(site.parts())), (0, 1))

    def test_files_go_in_by_their_paths(self) -> None:
        first, second, packed = self.room / "a.csv", self.room / "b.csv", self.room / "c.csv.gz"
        texts = "DAY,ON,N\n1,1,1\n", "N,ON,DAY\n2,1,2\n", "DAY,ON,N\n3,1,3\n"
        for path, text in zip((first, second), texts):
            path.write_text(text)
        packed.write_bytes(gzip.compress(texts[2].encode()))
        self.assertEqual([list(EMPTY.import_csv(path)) for path in (first, str(second), packed, os.fspath(packed))], [[(1, 1, 1)], [(2, 1, 2)], [(3, 1, 3)], [(3, 1, 3)]])
        wanted = EMPTY
        for number, text in enumerate(texts, 7):
            wanted = wanted.import_csv(text, batch=(1, number))
        for csv in [first, str(second), packed], str(self.room / "*.csv*"), [str(self.room / "?.csv"), packed], [texts[0], first.with_name("b.csv"), packed]:
            self.assertEqual(EMPTY.import_csv(csv, batch="1.7"), wanted)
        self.assertEqual(len(EMPTY.import_csv(str(self.room / "*"))), 3)
        site = Folder.of(self.room / "site", EMPTY)
        self.assertEqual([site.import_csv([first, second], batch="1.7") for _ in range(2)], [2, 0])
        second.write_text("DAY,ON,N\nx,1,1\n")
        with self.assertRaises(Refused) as caught:
            EMPTY.import_csv([first, second])
        self.assertEqual((caught.exception.subject, caught.exception.place), (str(second), (2, 1)))
        packed.write_bytes(packed.read_bytes()[:-9])
        for missing in str(self.room / "none*.csv"), "none.csv", "none/x":
            with self.assertRaises(FileNotFoundError):
                EMPTY.import_csv(missing)
        with self.assertRaisesRegex(OSError, "this can't be unpacked"):
            EMPTY.import_csv(packed)

    def test_what_is_there_is_opened(self) -> None:
        table = EMPTY.import_csv("1,1,1\n", heading=False)
        table.save(self.room / "t.lanes")
        site = Folder.of(self.room / "site", table)
        self.assertEqual((lanes.open(self.room / "t.lanes"), lanes.open(str(self.room / "site"))), (table, site))
        for path in "t.lanes", "site":
            with lanes.connect(self.room / path) as found:
                self.assertEqual((list(found), found.head(), found.check(), found.inspect()["live"], len(found)), ([(1, 1, 1)], [(1, 1, 1)], (1, 0), 1, 1))
        site.save(self.room / "u.lanes")
        self.assertEqual(lanes.open(self.room / "u.lanes"), table)
        with self.assertRaises(FileNotFoundError):
            lanes.open(self.room / "none")

    def test_a_file_that_is_written_has_a_name(self) -> None:
        for act in EMPTY.save, lambda path: EMPTY.dump(path=path), lanes.update:
            with self.assertRaisesRegex(ValueError, "^path: the path of a file is wanted"):
                act("")  # type: ignore[operator]
            with self.assertRaises(IsADirectoryError):
                act(self.room)  # type: ignore[operator]


class Words(unittest.TestCase):
    def test_the_program_s_words_are_python_s(self) -> None:
        for program, wanted in WORDS:
            self.assertEqual(in_python(program), wanted)

    def test_each_public_call_has_hints_that_can_be_read(self) -> None:
        for name in dir(lanes):
            found = getattr(lanes, name)
            for one in [found, *(getattr(found, member) for member in dir(found) if not member.startswith("_"))] if isinstance(found, type) else [found]:
                call = one.fget if isinstance(one, property) else one
                if callable(call) and str(getattr(call, "__module__", "")).startswith("lanes") and not isinstance(call, type):
                    self.assertIsInstance(typing.get_type_hints(call), dict, call)

    def test_the_public_names_are_shown(self) -> None:
        self.assertEqual([name for name in dir(lanes) if not name.startswith("_")], sorted(["open", *(name for name in lanes.__all__ if name[0] != "_")]))


if __name__ == "__main__":
    unittest.main()
