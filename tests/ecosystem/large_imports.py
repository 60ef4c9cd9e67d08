"""Large imports of the module, which go in pieces, beside those of the program: the file has the same digest, or the refusal says the same, in all
sizes about the pieces."""

from __future__ import annotations

import os
import re
import subprocess
import tempfile

from lanes import Refused, Table
from lanes.words import in_python

#: How many rows the module imports at once.
PIECE = 262_144

#: How many rows a text has: about the end of a piece, of a batch behind it, and of a second piece.
SIZES = [PIECE + more for more in (-1, 0, 1, 65_535, 65_536, 65_537, PIECE, PIECE + 1)]

TWO, ONE = {"A": "INTEGER", "B": "TINYINT"}, {"A": "INTEGER"}

BATCH = ["--batch", "2.1"]


def plain(rows):
    return "".join(f"{row},{row % 100}\n" if row % 7 else f"{row},\n" for row in range(rows))


def with_blank_lines(rows):
    """Blank lines of both kinds among the rows, and at the end."""
    blank = {0: "\n", 3: "\r\n", 7: "\n\r\n"}
    return "".join(f"{row},{row % 100}\n{blank.get(row % 11, '')}" for row in range(rows)) + "\r\n\n"


def nulls_by_blank_lines(rows):
    """Of one column, where a blank line is a row."""
    return "".join("\r\n" if row % 5 == 1 else "\n" if row % 5 == 3 else f"{row}\n" for row in range(rows))


#: The texts: of each the table's columns, the text of so many rows, the program's options and what the module is given.
KINDS = {
    "rows": (TWO, plain, ["--no-header"], {"heading": False}),
    "a heading": (TWO, lambda rows: f"a,b\n{plain(rows)}", [], {}),
    "a mark and a heading": (TWO, lambda rows: f"\ufeffA,B\n{plain(rows)}", [], {}),
    "a mark": (TWO, lambda rows: f"\ufeff{plain(rows)}", ["--no-header"], {"heading": False}),
    "ends of two characters": (TWO, lambda rows: plain(rows).replace("\n", "\r\n"), ["--no-header"], {"heading": False}),
    "no end": (TWO, lambda rows: plain(rows)[:-1], ["--no-header", "--whole-lines"], {"heading": False, "whole_lines": True}),
    "the last line without its end": (TWO, lambda rows: plain(rows)[:-1], ["--no-header"], {"heading": False}),
    "blank lines": (TWO, lambda rows: f"A,B\n\r\n\n{with_blank_lines(rows)}", [], {}),
    "blank lines of one column": (ONE, nulls_by_blank_lines, ["--no-header"], {"heading": False}),
    "one column of two fields": (ONE, with_blank_lines, ["--no-header", "--columns", "A,-"], {"heading": False, "columns": ["A", "-"]}),
    "one field for two columns": (TWO, nulls_by_blank_lines, ["--no-header", "--columns", "A"], {"heading": False, "columns": ["A"]}),
    "another separator and order": (TWO, lambda rows: plain(rows).replace(",", ";"), ["--no-header", "--columns", "A,B", "--separator", ";"], {"heading": False, "columns": ["A", "B"], "separator": ";"}),
    "a word for nulls": (TWO, lambda rows: plain(rows).replace(",\n", ",none\n"), ["--no-header", "--null", "none"], {"heading": False, "null": "none"}),
}


def tables(columns):
    """What a table has before: nothing, rows, and rows that are all deleted, of a batch whose name comes later than those of the load."""
    empty = Table.create("T", columns)
    held = empty.import_csv("-1,1\n-2,2\n" if len(columns) == 2 else "-1\n-2\n", heading=False, batch="2.90")
    return empty, held, held.delete("A < 0"), held.delete_rows("2.90", 1)


class Beside:
    """The program, in a folder of its own."""

    def __init__(self, program, room):
        self.program, self.room = program, room

    def run(self, *words):
        return subprocess.run([self.program, *words], cwd=self.room, capture_output=True, text=True)

    def imported(self, table, text, options):
        """What an import of the program comes to: the file's digest, or what is said."""
        table.save(os.path.join(self.room, "t"))
        with open(os.path.join(self.room, "rows.csv"), "w", newline="") as file:
            file.write(text)
        done = self.run("import", *options, *BATCH, "t", "rows.csv")
        if done.returncode == 0:
            return re.search(r"digest=(\w+)", self.run("check", "--digest", "t").stdout)[1]
        name, sentence = re.search(r"^refused (\w+).*\n(.*)$", done.stderr, re.M).groups()
        return name, in_python(sentence.removeprefix("rows.csv, "))

    def agrees(self, at, table, text, options, given):
        before, wanted = table.digest(), self.imported(table, text, options)
        found = imported(table, text, given)
        assert found == wanted, f"{at}: the module comes to {found}, and the program to {wanted}"
        assert table.digest() == before, f"{at}: the table has changed"
        return wanted


def imported(table, text, given):
    """What an import of the module comes to."""
    try:
        return table.import_csv(text, batch="2.1", **given).digest()
    except Refused as refused:
        return refused.name, refused.sentence


def texts_have_the_digest_of_the_program(program):
    """Each kind in every second size, into one table after another."""
    with tempfile.TemporaryDirectory(prefix="lanes-large-") as room:
        beside, digests = Beside(program, room), 0
        for number, (kind, (columns, text, options, given)) in enumerate(KINDS.items()):
            for at in range(number % 2, len(SIZES), 2):
                table = tables(columns)[(at // 2 + number) % 4]
                digests += isinstance(beside.agrees(f"{kind}, {SIZES[at]} rows", table, text(SIZES[at]), options, given), str)
        assert digests > 40, digests


#: The lines that are wrong: no number, one that the type does not have, a field too many, a field too few, and a line that is too long.
FAULTS = ["7,x\n", "7,128\n", "7,1,2\n", "7\n", "7," + " " * 2_000_000 + "\n"]


def refusals_are_those_of_the_program_at_every_place(program):
    with tempfile.TemporaryDirectory(prefix="lanes-large-") as room:
        beside, rows = Beside(program, room), PIECE + 65_537
        lines = plain(rows).splitlines(keepends=True)
        for number, place in enumerate((0, 65_536, PIECE - 1, PIECE, PIECE + 1, rows - 1)):
            for fault in FAULTS:
                heading, blank = ("A,B\n", "\r\n")[: 1 + number % 2] if number % 2 else ("", "")
                text = "".join([heading, blank, *lines[:place], fault, *lines[place + 1 :]])
                options, given = ([], {}) if heading else (["--no-header"], {"heading": False})
                wanted = beside.agrees(f"{fault[:6]!r} at {place}", tables(TWO)[number % 4], text, options, given)
                assert isinstance(wanted, tuple) and f"line {place + 1 + 2 * bool(heading)}" in wanted[1], (place, wanted)
