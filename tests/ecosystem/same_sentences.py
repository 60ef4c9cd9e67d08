"""What the library says of a refusal is what the program says of it, in the words of Python: of queries and conditions, of headings and rows in several dialects, of
names of columns, of tables that are made, of files of another kind, and of batches that are there already."""

import os
import pathlib
import subprocess
import sys
import tempfile

HERE = pathlib.Path(__file__).resolve().parent
TOP = HERE.parent.parent
sys.path.append(os.fspath(TOP / "tests" / "program"))

import cures
import lanes
import sentences
from lanes import Folder, Refused, Table, calls
from lanes.words import in_python

#: The statements that people wrote who knew another SQL, over this table.
MISTAKES = (HERE / "mistakes.sql").read_text().splitlines()
VISITS = Table.create("VISITS", {"SITE": "SMALLINT", "HITS": "INTEGER", "ERRORS": "INTEGER"})

#: Conditions over this table that are refused.
CONDITIONS = [
    "", " ", "SITE", "SITE =", "SITE = 'a'", "SITE = \"a\"", "SITE == 1", "SITE != 1", "SITE <> NULL", "SITE IS 1", "SITE LIKE 1", "(SITE = 1", "SITE = 1)", "SITE = 1 AND",
    "SITE = 1 && HITS = 2", "HITTS > 1", "SUM(HITS) > 1", "SITE IN ()", "SITE IN (SELECT 1)", "SITE BETWEEN 1 TO 2", "HITS > 1e3", "HITS > 1.5", "WHERE SITE = 1",
    "SITE = 1 GROUP BY SITE", "SITE = 1;", "SITE = 1 -- all", "NOT SITE", "HITS + 1 > 10", "\u00e9 = 1", "SITE = \u202e7", "SITE\t= x", "(" * 65 + "SITE = 1", f"SITE = 1{'0' * 30}",
]

#: Lists of names of which one is no column, and the byte at which it begins.
NAMES = [("HITTS", 0), ("SITE,HITTS", 5), ("SITE,HITS,", 10), ("SITE,\u00e9", 5), ("SITE,A B,HITS", 5), ("A" * 80, 0)]

#: Rows of the table that are refused, with the options that the program is given and what the library is given for them.
ROWS = [
    ([], {"has_heading": True}, text)
    for text in [
        "", "\n", "SITE,HIT,ERRORS\n", "SITE,HITS\n", "SITE,HITS,ERRORS,MORE\n1,2,3,4\n", "1,2,3\n", "SITE;HITS;ERRORS\n", "SITE,HITS,SITE\n", "site,hits,errors\n1,2,x\n",
        "SITE,HITS,ERRORS\n1,2\n", "SITE,HITS,ERRORS\n1,2,3,4\n", "SITE,HITS,ERRORS\n1,99999999999,3\n", "SITE,HITS,ERRORS\n1,2,3\n40000,2,3\n", "SITE,HITS,ERRORS\n1, 2,3\n",
        "SITE,HITS,ERRORS\n1,+2,3\n", "SITE,HITS,ERRORS\n1,NA,3\n", "SITE,HITS,ERRORS\n1,\"\",3\n", "SITE,HITS,ERRORS\n1,1.5,3\n", "SITE,HITS,ERRORS\n1,2,3\nSITE,HITS,ERRORS\n",
        "ERRORS,SITE,HITS\nx,1,2\n", "ERRORS,SITE,HITS\n1,x,2\n", "\"SITE\",HITS,ERRORS\n\"1\",\"x\",3\n", "SITE,HITS,ERRORS\n1;2;3\n", "SITE,HITS,ERRORS\n1,\"2,000\",3\n", f"SITE,HITS,ERRORS\n1,{'9' * 31},3\n",
        "SITE,HITS,ERRORS\r\n1,2,\x1b[31m\r\n", "\ufeffSITE,HITS,ERRORS\n1,2,x\n", "{\"SITE\": 1}\n", "SITE,HITS,ERRORS\n" + "1,2,3\n" * 70_000 + "1,2,x\n",
    ]
] + [
    (["--no-header"], {}, "SITE,HITS,ERRORS\n"),
    (["--no-header"], {}, "1,2,3\nSITE,HITS,ERRORS\n"),
    (["--no-header"], {}, "1,2\n"),
    (["--no-header"], {}, "1,x,3\n"),
    (["--no-header", "--separator", ";"], {"separator": ord(";")}, "1,2,3\n"),
    (["--no-header", "--separator", ";"], {"separator": ord(";")}, "1;2;x\n"),
    (["--separator", ";"], {"separator": ord(";"), "has_heading": True}, "SITE;HITS;ERRORS\n1;2;NA\n"),
    (["--null", "NA"], {"null_word": b"NA", "has_heading": True}, "SITE,HITS,ERRORS\nNA,2,n\n"),
    (["--null", "NA", "--no-header"], {"null_word": b"NA"}, "NA,2,3\nNA,2\n"),
    (["--columns", "SITE,-,HITS", "--no-header"], {"columns": b"SITE,-,HITS"}, "1,2\n"),
    (["--columns", "SITE,-,HITS", "--no-header"], {"columns": b"SITE,-,HITS"}, "1,x,y\n"),
    (["--columns", "HITS,SITE"], {"columns": b"HITS,SITE", "has_heading": True}, "1,2\n"),
    (["--columns", "HITS,SITE"], {"columns": b"HITS,SITE", "has_heading": True}, "a,b\n1,70000\n"),
    (["--columns", "HITS"], {"columns": b"HITS", "has_heading": True}, ""),
    (["--whole-lines"], {"needs_ends": True, "has_heading": True}, "SITE,HITS,ERRORS\n1,2,3"),
    (["--whole-lines", "--no-header"], {"needs_ends": True}, "1,2,3\n1,2"),
]

#: Tables that are not made: their words.
TABLES = ["T", "SELECT A INTEGER", "1T A INTEGER", "T SUM INTEGER", "T A INTEGER a BIGINT", "T A-B INTEGER", f"T {'A' * 65} INTEGER", f"T {' '.join(f'A{at} INTEGER' for at in range(33))}", "T_ A_ INTEGER \u00e9 INTEGER"]

#: Files of other kinds, by how they begin.
FILES = [b"SITE,HITS\n1,2\n", b"FLSM\x01\0", b"FLPT\x01\0", b"\x1f\x8b\x08\0", b"PK\x03\x04", b"PAR1", b"SQLite format 3\0", b"%PDF-1.7", b"<!DOCTYPE html>", b"\xff\xfeA\0", b'{"A":1}', b"\x01\x02\x03\x04\x05"]


class Told:
    """What the program says, in a folder that has the table's file, and how often it was asked."""

    def __init__(self, program, room):
        self.program, self.room, self.count = program, room, 0

    def of(self, *words):
        """The name with its values, and the sentence."""
        ended = subprocess.run([self.program, *words], cwd=self.room, capture_output=True, stdin=subprocess.DEVNULL)
        lines = ended.stderr.decode().splitlines()
        assert ended.returncode == 1 and len(lines) == 2 and lines[0].startswith("refused "), (words, ended)
        return lines[0].removeprefix("refused "), lines[1]

    def is_said(self, found, subject, *words):
        """Whether the library has said the same, but for what it is said of."""
        name, sentence = self.of(*words)
        called = " ".join([found.name, *map(str, found.place)]) if found.name not in ("Conflict",) else f"{found.name} {found.place[0]}.{found.place[1]}"
        assert called == name, (words, called, name)
        # Of a text the program also names the file that it is for.
        file = next((word for word in words[1:] if word and sentence.startswith(f"{word}: ")), subject)
        sentence = in_python(sentence if file == subject else sentence.removeprefix(f"{file}: "))
        if words[-1] == "":  # an empty text has no byte
            sentence = sentence.replace("byte 0: ", "", 1)
        told = [found.sentence, f"{subject}, {found.sentence}", f"{subject}: {found.sentence}"]
        assert sentence == told[0] if not subject else sentence in told[1:], (words, sentence, found.sentence)
        assert len(found.sentence.encode()) <= 1024 and found.sentence.isprintable(), found.sentence
        self.count += 1


def refused(call, *given, **named):
    """What a call is refused as; None if it is taken."""
    try:
        call(*given, **named)
    except Refused as fault:
        return fault
    return None


def queries(told, file, table):
    statements = [*MISTAKES, *(text for text, _, _ in sentences.QUERIES), *(query.replace(" FROM T", f" FROM {table.name}") for query, _, _ in cures.CURES)]
    for sql in statements:
        found = refused(table.query, sql)
        if found is not None:
            assert str(refused(table.partial, sql)) == str(found), sql
            told.is_said(found, "", "query", file, sql)


def conditions(told, file, table):
    for condition in CONDITIONS:
        found = refused(table.delete, condition)
        assert found.subject == "condition", condition
        told.is_said(found, "", "delete", file, condition)


def names(told, file, table):
    for words, at in NAMES:
        fault = calls.refused(28, at)
        for separator in 0, ord(","):
            found = calls.explained(fault, calls.Given(calls.NAMES, words.replace(",", " ").encode() if separator == 0 else words.encode(), separator), table._words())
            if separator or " " not in words:
                told.is_said(found, "--columns", "dump", "--columns", words, file)


def arguments_of(given):
    """What `import_csv` is given for what the library is given."""
    return {
        "heading": given.get("has_heading", False),
        "separator": chr(given.get("separator", ord(","))),
        "null": given.get("null_word", b"").decode(),
        "columns": given["columns"].decode().split(",") if "columns" in given else None,
        "whole_lines": given.get("needs_ends", False),
    }


def rows(told, file, table):
    path = os.path.join(told.room, "v")
    texts = [(table, file, *row) for row in ROWS] + [
        (table, file, ["--no-header"] if kind else [], {"has_heading": not kind}, begins.decode("latin-1") + "\n") for begins, _ in sentences.BEGINNINGS if begins.isascii() for kind in (0, 1)
    ]
    for holder, name, options, given, text in texts:
        data = text.encode()
        with open(path, "wb") as out:
            out.write(data)
        place, _ = told.of("import", *options, name, "v")
        called, line, field = place.split()
        assert called == "BadCsv", (options, text, place)
        fault = calls.refused(38, int(line), int(field))
        found = calls.explained(fault, calls.Given(calls.ROWS, data, **given), holder._words())
        told.is_said(found, "v", "import", *options, name, "v")
        own = refused(holder.import_csv, data, **arguments_of(given))
        assert str(own) == str(found), (own, found)


def tables(told):
    for words in TABLES:
        found = refused(lambda: calls.given(calls.CREATE, 4096, words.encode()))
        found = calls.explained(found, calls.Given(calls.WORDS, words.encode()))
        told.is_said(found, "", "create", "new", *words.split(" ")) if len(words.split()) > 1 else None
    for name, columns in ("SELECT", {"A": "INTEGER"}), ("T", {"1": "INTEGER"}), ("T", {"A": "INTEGER", "a": "BIGINT"}):
        found = refused(Table.create, name, columns)
        told.is_said(found, "", "create", "new", name, *(word for pair in columns.items() for word in pair))


def inputs(told, file, table):
    for data in FILES:
        path = os.path.join(told.room, "other")
        with open(path, "wb") as out:
            out.write(data)
        found = refused(Table.open, path)
        assert found.subject == path and str(found).startswith(f"{found.name}: {path}: "), found
        told.is_said(refused(Table.from_bytes, data), "other", "check", "other")
        told.is_said(refused(table.apply, data), "other", "apply", file, "other")
        told.is_said(refused(table.offer, data), "other", "offer", file, "other")


def conflicts(told, file, table):
    held = table.import_csv("1,2,3\n", heading=False, batch="1.7")
    held.save(os.path.join(told.room, "held"))
    with open(os.path.join(told.room, "v"), "w") as out:
        out.write("4,5,6\n")
    found = refused(held.import_csv, "4,5,6\n", heading=False, batch="1.7")
    told.is_said(found, "held", "import", "--batch", "1.7", "--no-header", "held", "v")
    folder = Folder.of(os.path.join(told.room, "site"), held)
    found = refused(folder.import_csv, "4,5,6\n", heading=False, batch="1.7")
    assert "1.7" in found.sentence, found


def the_library_says_what_the_program_says(program):
    with tempfile.TemporaryDirectory(prefix="lanes-sentences-") as room:
        told, file = Told(program, room), "visits.lanes"
        VISITS.save(os.path.join(room, file))
        queries(told, file, VISITS)
        statements = told.count
        conditions(told, file, VISITS)
        names(told, file, VISITS)
        rows(told, file, VISITS)
        tables(told)
        inputs(told, file, VISITS)
        conflicts(told, file, VISITS)
    assert statements > 100 and told.count > 220, (statements, told.count)
    print(f"{told.count} sentences were alike")


if __name__ == "__main__":
    the_library_says_what_the_program_says(sys.argv[1])
