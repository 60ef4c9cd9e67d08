"""Imports of texts that are written otherwise, and dumps of some rows and columns: what the program makes with the same options is made here, and
what it refuses is refused here, with the same words. LANES_PROGRAM may name the program."""

from __future__ import annotations

import os
import pathlib
import subprocess
import tempfile
import unittest
import unittest.mock
from typing import Any, Dict, List, Optional, Tuple, Type

from lanes import Folder, Refused, Table, pieces
from lanes.words import in_python

#: The program: the script runs the one that was built here or the released one.
PROGRAM = os.environ.get("LANES_PROGRAM", os.fspath(pathlib.Path(__file__).resolve().parent.parent.parent / "lanes"))
#: What ./lanes says first if the released program is of other sources.
OTHER_SOURCES = "lanes: this program is of other sources"

EMPTY = Table.create("T", {"A": "SMALLINT", "B": "INTEGER", "C": "BIGINT"})

#: Texts, with the options of the program and those of the module.
TAKEN: List[Tuple[str, List[str], Dict[str, Any]]] = [
    ("A,B,C\n1,2,3\n,-5,\n", [], {}),
    ("C;A;B\n3;1;2\n;;-5\n", ["--separator", ";"], {"separator": ";"}),
    ("C\tA\tB\r\n3\t1\t2\r\n\t\t-5\r\n", ["--separator", "\\t"], {"separator": "\t"}),
    ("1 2 3\n -5 \n", ["--separator", " ", "--no-header"], {"separator": " ", "heading": False}),
    ('A,B,C\nNA,2,"NA"\nNULL,\\N,\n', ["--null", "NA"], {"null": "NA"}),
    ("A,B,C\nn/v,2,\u00e9\n", ["--null", "n/v", "--columns", "A,B,-"], {"null": "n/v", "columns": ["A", "b", "-"]}),
    ("when,x,n\n3,x,1\n,y,2\n", ["--columns", "C,-,A"], {"columns": ("C", None, "a")}),
    ("3,x,1\n,y,2", ["--columns", "C,-,A", "--no-header"], {"columns": ["C", "-", "A"], "heading": False}),
    ("1\n\n2\n", ["--columns", "B", "--no-header"], {"columns": ["B"], "heading": False}),
    ("A,B,C\n1,2,3\n", ["--whole-lines"], {"whole_lines": True}),
    ("", ["--whole-lines", "--no-header"], {"whole_lines": True, "heading": False}),
]

#: Texts that are refused, with the same.
REFUSED: List[Tuple[str, List[str], Dict[str, Any]]] = [
    ("A,B,C\n1,2,3", ["--whole-lines"], {"whole_lines": True}),
    ("1,2,3\n4,5", ["--whole-lines", "--no-header"], {"whole_lines": True, "heading": False}),
    ("A,B,C\n1,NA,3\n", [], {}),
    ("A,B,C\n1,NA,n/v\n", ["--null", "NA"], {"null": "NA"}),
    ("A;B;C\n1;2,0;3\n", ["--separator", ";"], {"separator": ";"}),
    ("1,2,3\n", ["--separator", "|", "--no-header"], {"separator": "|", "heading": False}),
    ("1,2,3\n", ["--columns", "A,B,C"], {"columns": ["A", "B", "C"]}),
    ("a,b\n1,70000\n", ["--columns", "B,A"], {"columns": ["B", "A"]}),
    ("1,2\n", ["--columns", "A,-,C", "--no-header"], {"columns": ["A", "-", "C"], "heading": False}),
    ("A,B,C\n1,2,3\n", ["--columns", "A,Z"], {"columns": ["A", "Z"]}),
]

#: Dumps, with the options of the program and those of the module.
DUMPS: List[Tuple[List[str], Dict[str, Any]]] = [
    ([], {}),
    (["--names"], {"names": True}),
    (["--where", "A > 1"], {"where": "A > 1"}),
    (["--columns", "C,A"], {"columns": ["C", "a"]}),
    (["--columns", "B,B", "--where", "B IS NULL OR C < 0"], {"columns": ("B", "B"), "where": "B IS NULL OR C < 0"}),
    (["--names", "--columns", "A", "--where", "A > 9"], {"names": True, "columns": iter(["A"]), "where": "A > 9"}),
]


class Programs(unittest.TestCase):
    """The program, in a folder of its own."""

    def setUp(self) -> None:
        room = tempfile.TemporaryDirectory(prefix="lanes-dialects-")
        self.addCleanup(room.cleanup)
        self.room = pathlib.Path(room.name)

    def program(self, *words: str, given: str = "") -> Tuple[str, str]:
        """What the program writes, and what it says."""
        ended = subprocess.run([PROGRAM, *words], input=given.encode(), capture_output=True, cwd=self.room)
        said = ended.stderr.decode().splitlines(keepends=True)
        return ended.stdout.decode(), "".join(line for line in said if not line.startswith(OTHER_SOURCES))

    def imported(self, text: str, options: List[str]) -> Tuple[bytes, str]:
        """The file that the program makes of a text, and what it says."""
        EMPTY.save(self.room / "t")
        _, said = self.program("import", "--batch", "1.1", *options, "t", "-", given=text)
        return (self.room / "t").read_bytes(), said


class Imports(Programs):
    def test_a_text_is_taken_as_the_program_takes_it(self) -> None:
        folder = Folder.of(self.room / "site", EMPTY)
        for text, options, given in TAKEN:
            with self.subTest(options=options, text=text):
                made = EMPTY.import_csv(text, batch="1.1", **given)
                self.assertEqual((made.to_bytes(), ""), self.imported(text, options))
                self.assertEqual(folder.import_csv(text, batch=(1, len(folder.parts())), **given), made.check()[0])

    def test_a_text_is_refused_as_the_program_refuses_it(self) -> None:
        folder = Folder.of(self.room / "site", EMPTY)
        for text, options, given in REFUSED:
            with self.subTest(options=options, text=text):
                _, said = self.imported(text, options)
                for call in EMPTY.import_csv, folder.import_csv:
                    with self.assertRaises(Refused) as caught:
                        call(text, batch="1.1", **given)
                    found = caught.exception
                    self.assertEqual(" ".join([found.name, *map(str, found.place)]), said.splitlines()[0].removeprefix("refused "))
                    self.assertIn(found.sentence, in_python(said.splitlines()[1]))
                    self.assertEqual(found.subject, "columns" if found.name == "NoSuchColumn" else "")

    def test_wrong_arguments_are_named(self) -> None:
        wrong: List[Tuple[Dict[str, Any], Type[Exception], str]] = [
            ({"separator": ""}, ValueError, "separator: "),
            ({"separator": ";;"}, ValueError, "separator: "),
            ({"separator": "\u00e9"}, ValueError, "separator: "),
            ({"separator": b";"}, TypeError, "separator: "),
            ({"null": None}, TypeError, "null: "),
            ({"null": "-7"}, ValueError, "null: '-7' is a number"),
            ({"columns": "A,B"}, TypeError, "columns: "),
            ({"columns": [1]}, TypeError, "columns: "),
            ({"columns": []}, ValueError, "columns: "),
            ({"columns": ["-", None]}, ValueError, "columns: "),
            ({"columns": ["A", "-", "a"]}, ValueError, "columns: A is there twice"),
            ({"whole_lines": 1}, TypeError, "whole_lines: "),
        ]
        wrong += [({"separator": letter}, ValueError, "separator: ") for letter in 'aZ09"-_\\\r\n\0']
        for given, kind, message in wrong:
            with self.subTest(given=given):
                with self.assertRaises(kind) as caught:
                    EMPTY.import_csv("1,2,3\n", heading=False, **given)
                self.assertEqual(str(caught.exception)[: len(message)], message)

    def test_a_long_text_goes_in_pieces(self) -> None:
        rows = 65_536 + 7
        lines = [f"{at % 100}|x|{at if at % 3 else 'NA'}" for at in range(rows)]
        for heading in True, False:
            text = "\n".join([*["n|what|when"] * heading, *lines, ""])
            given: Dict[str, Any] = {"heading": heading, "separator": "|", "null": "NA", "columns": ["A", "-", "C"], "whole_lines": True, "batch": "1.1"}
            told: List[Tuple[int, int]] = []
            wanted = EMPTY.import_csv(text, **given)
            with unittest.mock.patch.object(pieces, "AT_ONCE", 65_536):
                made = EMPTY.import_csv(text, progress=lambda done, whole: told.append((done, whole)), **given)
            self.assertEqual((made.to_bytes(), len(made), len(told), told[-1]), (wanted.to_bytes(), rows, 2, (len(text), len(text))))
            cut = text[:-1] if heading else text.replace("|x|65539", "|x|y")
            with unittest.mock.patch.object(pieces, "AT_ONCE", 65_536), self.assertRaises(Refused) as in_pieces:
                EMPTY.import_csv(cut, **given)
            with self.assertRaises(Refused) as at_once:
                EMPTY.import_csv(cut, **given)
            self.assertEqual(str(in_pieces.exception), str(at_once.exception))

    def test_an_empty_line_of_one_field_is_a_row(self) -> None:
        text = "1\n\n" * 33_000
        wanted = EMPTY.import_csv(text, heading=False, columns=["B"], batch="1.1")
        self.assertEqual(wanted.query("SELECT COUNT(*),COUNT(B),COUNT(A) FROM T"), [(66_000, 33_000, 0)])
        with unittest.mock.patch.object(pieces, "AT_ONCE", 65_536):
            self.assertEqual(EMPTY.import_csv(text, heading=False, columns=["B"], batch="1.1"), wanted)


class Dumps(Programs):
    table = EMPTY.import_csv("A,B,C\n1,2,3\n2,,-5\n3,7,\n4,4,4\n", batch="1.1").delete("A = 4")

    def test_a_dump_is_the_programs(self) -> None:
        self.table.save(self.room / "t")
        folder = Folder.of(self.room / "site", self.table)
        for options, given in DUMPS:
            with self.subTest(options=options):
                if "columns" in given:
                    given["columns"] = list(given["columns"])
                wanted = self.program("dump", *options, "t")
                self.assertEqual((self.table.dump(**given), ""), wanted)
                self.assertEqual((folder.dump(**given), ""), wanted)

    def test_a_dump_goes_into_a_file(self) -> None:
        folder = Folder.of(self.room / "site", self.table)
        paths: List[Any] = [self.room / "all.csv", os.fspath(self.room / "some.csv")]
        results: List[Optional[object]] = [self.table.dump(path=paths[0]), folder.dump(True, where="A < 3", columns=["C"], path=paths[1])]
        self.assertEqual(results, [None, None])
        self.assertEqual(paths[0].read_text(), self.table.dump())
        with open(paths[1], encoding="ascii") as file:
            self.assertEqual(file.read(), "BATCH,ORDINAL,C\n1.1,0,3\n1.1,1,-5\n")
        self.assertEqual(sorted(os.listdir(self.room)), ["all.csv", "site", "some.csv"])

    def test_a_dump_goes_in_again(self) -> None:
        text = self.table.dump(columns=["C", "A"])
        again = EMPTY.import_csv(text, columns=["C", "A"], whole_lines=True)
        self.assertEqual(again.dump(columns=["C", "A"]), text)

    def test_a_dump_is_refused_as_the_program_refuses_it(self) -> None:
        self.table.save(self.room / "t")
        refused: List[Tuple[List[str], Dict[str, Any], str]] = [
            (["--where", "A >"], {"where": "A >"}, "where"),
            (["--where", "Z > 1"], {"where": "Z > 1"}, "where"),
            (["--columns", "A,Z"], {"columns": ["A", "Z"]}, "columns"),
        ]
        for options, given, subject in refused:
            with self.subTest(options=options), self.assertRaises(Refused) as caught:
                self.table.dump(**given)
            found, (_, said) = caught.exception, self.program("dump", *options, "t")
            self.assertEqual((" ".join([found.name, *map(str, found.place)]), found.subject), (said.splitlines()[0].removeprefix("refused "), subject))
            self.assertIn(found.sentence, in_python(said.splitlines()[1]))

    def test_wrong_arguments_are_named(self) -> None:
        wrong: List[Tuple[Dict[str, Any], Type[Exception], str]] = [
            ({"where": 1}, TypeError, "where: "),
            ({"columns": "A"}, TypeError, "columns: "),
            ({"columns": []}, ValueError, "columns: "),
            ({"path": 7}, TypeError, "path: "),
            ({"path": "a\0b"}, ValueError, "path: "),
            ({"names": "A"}, TypeError, "names: "),
        ]
        for given, kind, message in wrong:
            with self.subTest(given=given):
                with self.assertRaises(kind) as caught:
                    self.table.dump(**given)
                self.assertEqual(str(caught.exception)[: len(message)], message)


if __name__ == "__main__":
    unittest.main()
