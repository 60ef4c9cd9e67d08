"""What people do wrong, and what they are told: which argument, and what to do instead, in Python's words."""

from __future__ import annotations

import os
import tempfile
import unittest
from typing import Any, Dict

import lanes
from lanes import Folder, Table

CSV = "SITE,HITS\n1,2\n"

#: Mistakes, and the whole message, in which ROOM is the folder.
MISTAKES = {
    "Table()": "file: a table is made by Table.create, Table.open or Table.from_bytes",
    "Table('v.lanes')": "file: a table is made by Table.create, Table.open or Table.from_bytes, and not of what is of type str",
    "Table.open('site')": "[Errno 21] this is a folder, and not a file: lanes.Folder opens a folder of parts: 'site'",
    "Table.open('x.csv')": "BadMagic: x.csv: this is a text file, not a lanes file: Table.import_csv imports comma-separated values",
    "Table.from_bytes('v.lanes')": "file: bytes are wanted here, and this is of type str: Table.open opens a path",
    "Table.from_bytes(b'')": "Truncated 0: file: this is empty",
    "Folder('v.lanes')": "[Errno 20] this is a file, and not a folder: lanes.open opens either: 'ROOM/v.lanes'",
    "Folder('nope')": "[Errno 2] there is no such folder: Folder.create makes one: 'ROOM/nope'",
    "Folder('empty').head()": "[Errno 2] this folder has no part: Folder.create makes a folder that has one: 'ROOM/empty'",
    "Table.create('T', {})": "BadSchema: columns: a table has 1 to 32 columns, as {'SITE': 'SMALLINT'}, and these are none",
    "Table.create('T', ['A'])": "columns: 'A' is not a column's name and its type: columns are a dict, or pairs, as [('SITE', 'SMALLINT')]",
    "Table.create('T', {'A': int})": "BadSchema: the type 'int' of column A is unknown: a type is TINYINT, SMALLINT, INTEGER or BIGINT",
    "Table.create('T', {'A': 'text'})": "BadSchema: the type 'text' of column A is unknown: a type is TINYINT, SMALLINT, INTEGER or BIGINT; store a number for each text",
    "Table.create('T', {'A': float})": "BadSchema: the type 'float' of column A is unknown: a type is TINYINT, SMALLINT, INTEGER or BIGINT; store a whole number of a smaller unit, as cents for an amount",
    "Table.create('T', {'A': 'uint8'})": "BadSchema: the type 'uint8' of column A is unknown: a type is TINYINT, SMALLINT, INTEGER or BIGINT; a SMALLINT has all its numbers",
    "t.import_csv(CSV, sep=';')": "sep: Table.import_csv has no such argument; it is separator= here",
    "site.import_csv(CSV, header=None)": "header: Folder.import_csv has no such argument; it is heading= here",
    "t.import_csv(CSV, '1.1')": "Table.import_csv: '1.1' needs its name, one of heading=, batch=, progress=, separator=, null=, columns=, whole_lines=, encoding=, dates=, booleans=",
    "t.import_csv([[1, 2]])": "csv: a list of texts or paths is wanted here, and this is of type list: import_rows takes rows",
    "t.import_csv(CSV, batch=1.1)": "batch: a text or two numbers are wanted here, and this is of type float: (1, 17) and '1.17' are names",
    "t.import_csv(CSV, batch='monday')": "batch: 'monday' is not a batch's name: it is an origin and a number from 1 to 4,294,967,295, as (1, 17) or '1.17'",
    "t.import_csv(CSV, batch='0.1')": "BadName: batch: origins and batch numbers start at 1",
    "site.import_rows([(1, 2)], batch='0.1')": "BadName: batch: origins and batch numbers start at 1",
    "t.import_csv(CSV, progress=True)": "progress: what is called, or None, is wanted here, and this is of type bool: progress=print shows how far it is",
    "t.import_csv('SITE;HITS\\n1;2\\n')": "BadCsv 1 0: line 1: the line has 1 field, and the table has 2 columns; semicolons seem to separate its fields: say separator=';'",
    "t.import_csv('SITE,HITS\\n1,NA\\n')": "BadCsv 2 2: line 2, column HITS: \"NA\" is not a whole number; if it is a null, say null='NA'",
    "t.import_csv('SITE,HITS\\n1,2026-12-01\\n')": "BadCsv 2 2: line 2, column HITS: \"2026-12-01\" is not a whole number: dates= makes numbers of days and times, as dates={'DAY': '%Y%m%d'}",
    "t.import_csv('SITE,HITS\\ntrue,2\\n')": "BadCsv 2 1: line 2, column SITE: \"true\" is not a whole number: booleans= makes 1 and 0 of truth values, as booleans=['ACTIVE']",
    "t.import_csv(path for path in ['a.csv'])": "csv: a text of comma-separated values, or a file of one, is wanted here, and this is of type generator: list() makes a list of paths",
    "t.import_csv('1,2\\n')": 'BadCsv 1 1: line 1, field 1: "1" is not a column of the table, which has SITE, HITS: if the first line is a row, say heading=False',
    "t.import_csv('SITE\\n1\\n')": "BadCsv 1 0: line 1: the line has 1 field, and the table has 2 columns, SITE, HITS; HITS is missing; name the fields by columns=, as columns=['SITE']",
    "t.import_columns([{'SITE': 1, 'HITS': 2}])": "columns: a dict of columns is wanted here, and this is of type list: import_rows takes rows",
    "t.import_columns({'SITE': [40_000], 'HITS': [2]})": "OutOfType 0 0: row 0, column SITE: 40000 is outside SMALLINT, which has -32768 to 32767",
    "t.import_frame([{'SITE': 1}])": "frame: a frame of pandas is wanted here, and this is of type list: import_rows takes rows, and import_columns a dict of columns",
    "t.query('SELECT * FROM VISITS')": "Syntax 7: byte 7: a query lists grouping columns and set functions: table.rows() gives the rows",
    "t.query('SELECT COUNT(*) FROM VISITS LIMIT 3')": "Syntax 28: byte 28: there is no LIMIT: take the first rows, as answer[:3]",
    "t.query('DELETE FROM VISITS')": "Syntax 0: byte 0: a query changes nothing: Table.delete deletes rows",
    "t.query('SELECT SUM(HITS) FROM VISITS WHERE SITE = ?')": "values: sql has 1 ?, and 0 values are given",
    "t.delete('WHERE SITE = 1')": "Syntax 0: condition: byte 0: write the condition alone, as it is after WHERE",
    "t.delete('SITE = ?', ['1 OR 1 = 1'])": "values[0]: a whole number is wanted here, and this is of type str",
    "t.delete_rows('1.0', 1)": "BadName: batch: origins and batch numbers start at 1",
    "t.delete_rows('1.1', 5, 2)": "BadRange 0: last: 2 comes before first, which is 5",
    "t.merge('v.lanes')": "others: a Table or a Folder is wanted here, and this is of type str: lanes.open opens a path",
    "t.merge([t, t])": "others: a Table or a Folder is wanted here, and this is of type list: merge(*tables) takes several",
    "t.apply(t)": "offer: bytes are wanted here, and this is of type Table: table.offer(summary) and table.to_bytes() give them",
    "t.apply(b'')": "Truncated 0: offer: this is empty",
    "t.edit().apply(b'')": "Truncated 0: offer: this is empty",
    "site.apply(t)": "offers[0]: bytes are wanted here, and this is of type Table: folder.offer(summary) and table.to_bytes() give them",
    "t.offer(t)": "summary: bytes are wanted here, and this is of type Table: summary() gives them",
    "t.offer(b'')": "Truncated 0: summary: this is empty",
    "t.head(True)": "count: a whole number is wanted here, and this is of type bool",
    "t.dump('x.csv')": "names: True or False is wanted here, and this is of type str: path= names the file that is written",
    "t.save('')": "path: the path of a file is wanted, and this is empty",
    "t.save('site')": "[Errno 21] this is a folder, and a file is wanted: 'site'",
    "lanes.combine([t.partial(COUNT), b'x'])": "Truncated 1: partials[1]: byte 1: the bytes end too early",
    "lanes.combine([t])": "partials[0]: bytes are wanted here, and this is of type Table: table.partial(sql) gives them",
    "lanes.finish(t)": "partial: bytes are wanted here, and this is of type Table: table.partial(sql) gives them",
    "lanes.finish(b'')": "Truncated 0: partial: this is empty",
    "lanes.finish(t.partial(COUNT), [t])": "expect[0]: bytes are wanted here, and this is of type Table: table.summary() gives them",
    "lanes.check_apart([t, t])": "tables: batch 1.1 is in two of them, or one deletes rows of it that another has: merge these, as one.merge(other)",
    "site.pack(True)": "Folder.pack: True needs its name, everything=",
    "site.pack(all=True)": "all: Folder.pack has no such argument; it is everything= here",
}


class Mistakes(unittest.TestCase):
    def setUp(self) -> None:
        room = tempfile.TemporaryDirectory(prefix="lanes-mistakes-")
        self.addCleanup(room.cleanup)
        self.addCleanup(os.chdir, os.getcwd())
        os.chdir(room.name)
        self.room = os.getcwd()
        table = Table.create("VISITS", {"SITE": "SMALLINT", "HITS": "INTEGER"}).import_csv("1,10\n2,\n", heading=False, batch="1.1")
        table.save("v.lanes")
        os.mkdir("empty")
        with open("x.csv", "w") as file:
            file.write(CSV)
        self.names: Dict[str, Any] = {"lanes": lanes, "Table": Table, "Folder": Folder, "CSV": CSV, "COUNT": "SELECT COUNT(*) FROM VISITS", "t": table, "site": Folder.of("site", table)}

    def test_each_is_told_by_its_argument_and_with_what_to_do(self) -> None:
        before = self.names["t"].to_bytes(), self.names["site"].parts()
        for mistake, wanted in MISTAKES.items():
            with self.subTest(mistake=mistake), self.assertRaises((TypeError, ValueError, OSError)) as caught:
                eval(mistake, self.names)
            self.assertEqual(str(caught.exception), wanted.replace("ROOM", self.room), mistake)
        self.assertEqual((self.names["t"].to_bytes(), self.names["site"].parts()), before)


if __name__ == "__main__":
    unittest.main()
