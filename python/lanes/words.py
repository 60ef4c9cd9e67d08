"""Sentences of the library in the words of this module: the options of the program are arguments here, and its commands calls."""

from __future__ import annotations

import re
from typing import Match

#: What the program says, and what is said here. The longer ones come first.
_WORDS = (
    ("pipe the answer through tail -n +2 | sort -t, -k2,2nr (by column 2, largest first)", "sort the answer, as sorted(answer, key=lambda row: row[1])"),
    ("pipe the answer through tail -n +2 | sort -t, -k1,1nr (by column 1, largest first)", "take answer[::-1]"),
    ("pipe the answer through tail -n +5 (without the heading and 3 rows)", "take the other rows, as answer[3:]"),
    ("pipe the answer through head -n 4 (the heading and 3 rows)", "take the first rows, as answer[:3]"),
    ("pipe the answer through sort -rn", "take answer[::-1]"),
    ("pipe the answer through sort -n", "sort the answer, as sorted(answer, key=lambda row: row[1])"),
    ("pipe the answer through head", "take the first rows, as answer[:3]"),
    ("pipe the answer through tail", "take the other rows, as answer[3:]"),
    ("lanes dump and lanes import move the rows to a table of other columns", "table.rows() and Table.import_rows move the rows to a table of other columns"),
    ("lanes dump writes the rows", "table.rows() gives the rows"),
    ("lanes inspect shows the columns", "table.columns has the columns"),
    ("lanes inspect shows how columns are coded", "the program's lanes inspect shows how columns are coded"),
    ("lanes import inserts rows", "Table.import_rows inserts rows"),
    ("delete rows by lanes delete, and import others", "delete rows by Table.delete, and import others"),
    ("lanes delete deletes rows", "Table.delete deletes rows"),
    ("lanes create makes a table", "Table.create makes a table"),
    ("lanes summary makes a summary of a table, and lanes partial a partial answer", "Table.summary makes a summary, and Table.partial a partial answer"),
    ("lanes offer and lanes inspect read it", "Table.offer reads it"),
    ("lanes combine, lanes finish and lanes inspect read it", "lanes.combine and lanes.finish read it"),
    ("import CSV with lanes import, run a script with lanes run", "Table.import_csv imports comma-separated values"),
    ("there are no parameters: write the number itself", "a value can't be here"),
    ("write a day as a number, as 20261130, and a time as seconds", "dates= makes numbers of days and times, as dates={'DAY': '%Y%m%d'}"),
    ("write 1 for true and 0 for false", "booleans= makes 1 and 0 of truth values, as booleans=['ACTIVE']"),
    ("say so by --null", "say so by null="),
    ("say --no-header", "say heading=False"),
    ("with --no-header", "with heading=False"),
    ("leave --no-header out", "leave heading=False out"),
    ("--columns has", "columns= has"),
    ("name the fields by --columns", "name the fields by columns="),
    (": did the command before it fail?", ""),
)

#: The program's options with a word.
_COLUMNS, _WORD = re.compile(r"columns=, as --columns ([A-Za-z0-9_,\-]+)"), re.compile(r"--(null|separator) '((?:[^']|'\\'')*)'")


#: What separators are called, if a sentence ends so.
_SEPARATORS = {"commas": ",", "semicolons": ";", "tabs": "\\t", "bars": "|"}


def in_python(sentence: str) -> str:
    """A sentence of the library in the words of this module."""
    for program, here in _WORDS:
        sentence = sentence.replace(program, here)
    for name, separator in _SEPARATORS.items():
        if sentence.endswith(f"{name} seem to separate its fields"):
            sentence += f": say separator='{separator}'"
    return _WORD.sub(_argument, _COLUMNS.sub(_columns, sentence))


def _columns(found: Match[str]) -> str:
    return f"columns=, as columns={found[1].split(',')!r}"


def _argument(found: Match[str]) -> str:
    return f"{found[1]}='{found[2]}'"
