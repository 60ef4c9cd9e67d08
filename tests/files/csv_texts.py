"""Comma-separated values as sqlite3, PostgreSQL's COPY and spreadsheets write them, and what is said of those that are at fault."""

import os
import shutil
import subprocess

from room import Lacking

HEADER = b"A,B\n"
ROWS = ((1, 10), (-2, None), (None, 2**62), (30_000, -(2**63)))


def made(room, text, *options):
    """The rows that a text is imported as."""
    room.ok("create", "t", "T", "A", "SMALLINT", "B", "BIGINT")
    room.ok("import", *options, "t", "-", given=text)
    return room.ok("dump", "t")


def dumped(rows):
    return HEADER + b"".join(",".join("" if value is None else str(value) for value in row).encode() + b"\n" for row in rows)


def postgres_copy_with_a_header(room):
    # COPY t TO STDOUT (FORMAT csv, HEADER, NULL '\\N'), and with FORCE_QUOTE *, which leaves nulls unquoted.
    text = b"a,b\n" + b"".join(",".join("\\N" if value is None else f'"{value}"' for value in row).encode() + b"\n" for row in ROWS)
    assert made(room, text) == dumped(ROWS)


def postgres_copy_without_a_header(room):
    text = b"".join(",".join("" if value is None else str(value) for value in row).encode() + b"\n" for row in ROWS)
    assert made(room, text, "--no-header") == dumped(ROWS)


def a_spreadsheet_with_a_mark_and_carriage_returns(room):
    text = b"\xef\xbb\xbf" + b'"B","A"\r\n' + b"".join(",".join("" if value is None else str(value) for value in row[::-1]).encode() + b"\r\n" for row in ROWS)
    assert made(room, text) == dumped(ROWS)


def nulls_in_each_form_and_a_last_line_without_its_end(room):
    assert made(room, b"A,B\n,NULL\n\\N,\"NULL\"\n\"\\N\",7") == dumped(((None, None), (None, None), (None, 7)))


def a_word_is_a_null_as_it_is_in_the_text_and_in_quotes(room):
    for word, text, rows in (
        ("NA", b'1,NA\n2,"NA"\n3,4\n', ((1, None), (2, None), (3, 4))),
        ('"5"', b'1,5\n2,"5"\n3,""5""\n', ((1, 5), (2, None), (3, None))),
        ("9" * 31, b"1,%s\n" % (b"9" * 31), ((1, None),)),
        ("", b'1,""\n2,\n', ((1, None), (2, None))),
        ("--", b'1,--\n2,"--"\n', ((1, None), (2, None))),
    ):
        found = made(room, text, "--no-header", "--null", word)
        assert found == dumped(rows), f"with {word} it is {found!r}"
        os.remove(room.path("t"))
    room.ok("create", "t", "T", "A", "SMALLINT", "B", "BIGINT")
    room.refused("import", "--no-header", "--null", '"x"', "t", "-", given=b"1,x\n", line="refused BadCsv 1 2")


def an_import_says_which_of_its_rows_are_deleted_already(room):
    """Rows may be deleted before they come, in a file and in a folder. An import says how many of its own are, also if it is quiet."""
    for name, quiet in (("t", ()), ("d/", ()), ("q", ("--quiet",)), ("e/", ("--quiet",))):
        room.ok("create", name, "T", "A", "SMALLINT")
        room.ok("delete-rows", name, "1.1", "1", "9")
        ok = b"" if quiet else b"ok batches=1 new=1 rows=4 first=1.1\n"
        found = room.run("import", *quiet, "--no-header", "--batch", "1.1", name, "-", given=b"1\n2\n3\n4\n")
        assert found == (0, ok, b"note: 3 of the 4 rows are deleted already: they are not live\n"), f"{name} with {quiet}: {found}"
        room.ok("delete-rows", name, "2.1", "0", "0")
        status, _, err = room.run("import", "--no-header", "--batch", "2.1", name, "-", given=b"1\n2\n")
        assert (status, err) == (0, b"note: 1 of the 2 rows is deleted already: it is not live\n"), f"{name}: {err}"
        status, _, err = room.run("import", "--no-header", "--batch", "3.1", name, "-", given=b"1\n2\n")
        assert (status, err) == (0, b""), f"{name}: {err}"


def an_empty_line_is_a_row_of_a_table_of_one_column_alone(room):
    room.ok("create", "one", "T", "A", "SMALLINT")
    room.ok("import", "--batch", "1.1", "one", "-", given=b"A\n1\n\n2\n\n", prints=b"ok batches=1 new=1 rows=4 first=1.1\n")
    room.ok("dump", "one", prints=b"A\n1\n\n2\n\n")
    assert made(room, b"\n1,2\n\n3,4\n\n", "--no-header") == dumped(((1, 2), (3, 4)))


def the_fields_of_a_text_are_those_that_words_name(room):
    text = b"when,b,who,a\n2026-11-27,20,Ada,1\n2026-11-28,,Bob,\n"
    assert made(room, text, "--columns", "-,B,-,a") == dumped(((1, 20), (None, None)))
    room.ok("import", "--no-header", "--columns", "b", "t", "-", given=b"7\n\n8\n")
    assert sorted(room.ok("dump", "t").split(b"\n")) == sorted(dumped(((1, 20), (None, None), (None, 7), (None, None), (None, 8))).split(b"\n"))
    room.ok("create", "u", "T", "A", "SMALLINT", "B", "BIGINT")
    room.ok("import", "--columns", "", "u", "-", given=b"B,A\n2,1\n")
    room.ok("dump", "u", prints=dumped(((1, 2),)))
    room.ok("create", "d/", "T", "A", "SMALLINT", "B", "BIGINT")
    room.ok("import", "--separator", ";", "--columns", "A,-", "d", "-", given=b"x;y\n1;2\n")
    room.ok("dump", "d", prints=dumped(((1, None),)))


def what_is_dumped_is_imported_as_the_same_rows(room):
    text = dumped(ROWS)
    assert made(room, text) == text
    room.ok("create", "u", "T", "A", "SMALLINT", "B", "BIGINT")
    room.ok("import", "u", "-", given=room.ok("dump", "t"))
    assert room.ok("dump", "u") == text
    named = room.ok("dump", "--names", "t").split(b"\n")
    assert named[0] == b"BATCH,ORDINAL,A,B" and named[1].endswith(b",0,1,10") and named[4].endswith(b",3,30000,-9223372036854775808"), named


def sqlite(room, *commands):
    if shutil.which("sqlite3") is None:
        raise Lacking("sqlite3 is not installed")
    return subprocess.run(["sqlite3", "db", *commands], cwd=room.folder, check=True, capture_output=True, timeout=60).stdout


def what_sqlite_writes_is_imported(room):
    values = ",".join("(" + ",".join("NULL" if value is None else str(value) for value in row) + ")" for row in ROWS[:3])
    sqlite(room, f"CREATE TABLE t(a,b); INSERT INTO t VALUES {values};")
    for option in ([], [".nullvalue NULL"], [".nullvalue \\\\N"]):
        text = sqlite(room, ".headers on", ".mode csv", *option, "SELECT * FROM t;")
        room.ok("create", "t", "T", "A", "SMALLINT", "B", "BIGINT")
        room.ok("import", "t", "-", given=text)
        assert room.ok("dump", "t") == dumped(ROWS[:3]), f"{text!r} was not imported as it was meant"
        subprocess.run(["rm", room.path("t")], check=True)


def what_is_dumped_loads_into_sqlite_with_the_same_sums(room):
    count = 5_000
    text = b"A,B\n" + b"".join(f"{at % 7 if at % 11 else ''},{at * 1_000_003 - 10**9}\n".encode() for at in range(count))
    room.ok("create", "t", "T", "A", "SMALLINT", "B", "BIGINT")
    room.ok("import", "t", "-", given=text)
    room.ok("delete", "t", "A = 3")
    room.put("d.csv", room.ok("dump", "t"))
    sqlite(room, "CREATE TABLE t(A INTEGER, B INTEGER);", ".mode csv", ".import --skip 1 d.csv t")
    wanted = sqlite(room, ".mode csv", "SELECT COUNT(*),SUM(B),MIN(B),MAX(B) FROM t;").strip().replace(b"\r", b"")
    found = room.ok("query", "t", "SELECT COUNT(*),SUM(B),MIN(B),MAX(B) FROM T").split(b"\n")[1]
    assert found == wanted, f"{found!r}, and sqlite3 says {wanted!r}"
    groups = sqlite(room, ".mode csv", "SELECT A,COUNT(*),SUM(B) FROM t WHERE A <> '' GROUP BY A;").replace(b"\r", b"")
    found = room.ok("query", "--format", "csv", "t", "SELECT A,COUNT(*),SUM(B) FROM T WHERE A IS NOT NULL GROUP BY A")
    assert found.split(b"\n", 1)[1] == groups, f"{found!r}, and sqlite3 says {groups!r}"


# A text, its options, and the refusal and the sentence that it gets.
FAULTS = (
    (b"A,B\n1,2\n3,abc\n", [], "BadCsv 3 2", 'visits.csv, line 3, column B: "abc" is not a whole number: write a number for each text'),
    (b"B,A\nx,2\n", [], "BadCsv 2 1", 'visits.csv, line 2, column B: "x" is not a whole number: write a number for each text'),
    (b"A,B\n40000,2\n", [], "BadCsv 2 1", 'visits.csv, line 2, column A: "40000" is outside the type SMALLINT'),
    (b'A,B\n"1.0",2\n', [], "BadCsv 2 1", 'visits.csv, line 2, column A: "1.0" is not a whole number: write it in a smaller unit, as cents for an amount'),
    (b"A,B\n\x1b[2J\xff,2\n", [], "BadCsv 2 1", 'visits.csv, line 2, column A: "\\x1B[2J\\xFF" is not a whole number: write a number for each text'),
    (b"A,B\n" + b"7" * 50 + b",2\n", [], "BadCsv 2 1", 'visits.csv, line 2, column A: "' + "7" * 40 + '".. has more than 30 digits'),
    (b"A,B\n1\n", [], "BadCsv 2 0", "visits.csv, line 2: the line has 1 field, and the table has 2 columns"),
    (b"A,B\n1,2,3\n", [], "BadCsv 2 0", "visits.csv, line 2: the line has 3 fields, and the table has 2 columns"),
    (b"A;B\n1;2\n", [], "BadCsv 1 0", "visits.csv, line 1: the line has 1 field, and the table has 2 columns; semicolons seem to separate its fields: say --separator ';'"),
    (b"\xff\xfeA\0", [], "BadCsv 1 0", "visits.csv, line 1: this is UTF-16: save it as UTF-8"),
    (b"", [], "BadCsv 1 0", "visits.csv, line 1: this line is empty, and should be the header: did the command before it fail?"),
    (b"\nA,B\n", [], "BadCsv 1 0", "visits.csv, line 1: this line is empty, and should be the header: did the command before it fail?"),
    (b"A;B\n1,2\n", ["--separator", ";"], "BadCsv 2 0", "visits.csv, line 2: the line has 1 field, and the table has 2 columns; commas seem to separate its fields: say --separator ','"),
    (b"x,y,z\n1,2\n", ["--columns", "A,-,B"], "BadCsv 2 0", "visits.csv, line 2: the line has 2 fields, and --columns has 3 words"),
    (b"x,y\n", ["--columns", "A,-,B"], "BadCsv 1 0", "visits.csv, line 1: the line has 2 fields, and --columns has 3 words"),
    (b"x,y\n", ["--columns", "b"], "BadCsv 1 0", "visits.csv, line 1: the line has 2 fields, and --columns has 1 word"),
    (b"1,x,2\n3,y,4\n", ["--columns", "A,-,B"], "BadCsv 1 0", "visits.csv, line 1: this is a row and no header: with --no-header it is read as a row"),
    (b"", ["--columns", "A,-"], "BadCsv 1 0", "visits.csv, line 1: this line is empty, and should be the header: did the command before it fail?"),
    (b"x,40000\n", ["--no-header", "--columns", "-,A"], "BadCsv 1 2", 'visits.csv, line 1, column A: "40000" is outside the type SMALLINT'),
    (b"x,y\n1,2\n", ["--columns", "B,C"], "NoSuchColumn 2", 't: --columns, byte 2: there is no column "C": the table has A, B'),
    (b"x,y\n1,2\n", ["--columns", "B,-,,A"], "NoSuchColumn 4", 't: --columns, byte 4: there is no column "": the table has A, B'),
    (b"A,C\n", [], "BadCsv 1 2", 'visits.csv, line 1, field 2: "C" is not a column of the table, which has A, B: name the fields by --columns'),
    (b"A,a\n", [], "BadCsv 1 2", 'visits.csv, line 1, field 2: "a" is there for the second time'),
    (b"1,2\n+5,2\n", ["--no-header"], "BadCsv 2 1", 'visits.csv, line 2, column A: "+5" is not a whole number: a number has no plus sign'),
    (b"1,2\n1, 5\n", ["--no-header"], "BadCsv 2 2", 'visits.csv, line 2, column B: " 5" is not a whole number: a field has no spaces'),
    (b"1,2\nnull,5\n", ["--no-header"], "BadCsv 2 1", 'visits.csv, line 2, column A: "null" is not a whole number; if it is a null, say --null \'null\''),
    (b'1,2\n"",5\n', ["--no-header"], "BadCsv 2 1", 'visits.csv, line 2, column A: "" is not a whole number: a null is an empty field without quotes, or NULL; if this is one too, say --null \'\''),
    (b"A,B\n1,2\n", ["--no-header"], "BadCsv 1 1", 'visits.csv, line 1, column A: this line has the names of columns: leave --no-header out'),
    (b"1,2\n", [], "BadCsv 1 1", 'visits.csv, line 1, field 1: "1" is not a column of the table, which has A, B: if the first line is a row, say --no-header'),
    (b"1,2\ncaf\xc3\xa9,5\n", ["--no-header"], "BadCsv 2 1", 'visits.csv, line 2, column A: "caf\u00e9" is not a whole number: write a number for each text'),
    (b"1,2\n" + b"x" * 39 + b"\xc3\xa9,5\n", ["--no-header"], "BadCsv 2 1", 'visits.csv, line 2, column A: "' + "x" * 39 + '".. is not a whole number: write a number for each text'),
    (b"A,C,B\n", [], "BadCsv 1 0", 'visits.csv, line 1: the line has 3 fields, and the table has 2 columns, A, B; "C" is not one of them; name the fields by --columns, as --columns A,-,B'),
    (b'"b"\n', [], "BadCsv 1 0", "visits.csv, line 1: the line has 1 field, and the table has 2 columns, A, B; A is missing; name the fields by --columns, as --columns B"),
    (b"x,y,z\n", [], "BadCsv 1 0", "visits.csv, line 1: the line has 3 fields, and the table has 2 columns, A, B"),
    (b'A,B\n"1,000",2\n', [], "BadCsv 2 0", "visits.csv, line 2: the line has 3 fields, and the table has 2 columns; quotes don't protect a separator: write numbers without it, or choose another one"),
    (b"A,B\r1,2\r3,4\r", [], "BadCsv 1 0", "visits.csv, line 1: the line has 4 fields, and the table has 2 columns; a carriage return alone does not end a line: end lines with line feeds"),
    (b"\xff\xfeA\0,\0B\0\n\0", [], "BadCsv 1 1", "visits.csv, line 1, field 1: this is UTF-16: save it as UTF-8"),
    (b"A\0,\0B\0\n\0", [], "BadCsv 1 1", "visits.csv, line 1, field 1: this is UTF-16, or no text: save it as UTF-8"),
    (b"\xfe\xff\0001\0,\0002", ["--no-header"], "BadCsv 1 1", "visits.csv, line 1, column A: this is UTF-16: save it as UTF-8"),
    (b"\x1f\x8b\x08\0,\n", [], "BadCsv 1 1", "visits.csv, line 1, field 1: this is packed by gzip: unpack it with gzip -dc"),
    (b'[{"A":1,"B":2}]\n', [], "BadCsv 1 1", "visits.csv, line 1, field 1: this is JSON: write its numbers as CSV"),
    (b'{"A":1,"B":2}\n', ["--no-header"], "BadCsv 1 1", "visits.csv, line 1, column A: this is JSON: write its numbers as CSV"),
    (b"<!DOCTYPE html>\n", [], "BadCsv 1 0", "visits.csv, line 1: this is HTML or XML: did a download fail?"),
    (b"FLSM\1\0,\n", [], "BadCsv 1 1", "visits.csv, line 1, field 1: this is a summary: lanes offer and lanes inspect read it"),
    (b"1,2\n1e3,5\n", ["--no-header"], "BadCsv 2 1", None),
    (b"1,2\n" + b"1" * 1_048_577 + b"\n", ["--no-header"], "LineTooLong", "visits.csv, line 2: the line has more than 1,048,576 bytes"),
)


# What is no file of this program, and what is said of it.
OTHER_FILES = (
    (b"A,B\n1,2\n", "this is a text file, not a lanes file: import CSV with lanes import, run a script with lanes run"),
    (b"\x1f\x8b\x08\0", "this is packed by gzip: unpack it with gzip -dc"),
    (b"SQLite format 3\0", "this is a database of SQLite: write its rows by sqlite3 -csv"),
    (b"FLPT\1\0\0\0", "this is a partial answer: lanes combine, lanes finish and lanes inspect read it"),
    (b"\1\2\3\4", "the first four bytes are not those of this format"),
)


def what_is_at_fault_is_said_with_its_place(room):
    held = room.make()
    for text, options, refusal, sentence in FAULTS:
        room.put("visits.csv", text)
        room.refused("import", *options, "t", "visits.csv", line=f"refused {refusal}", sentence=sentence)
    room.refused("import", "t", "none.csv", line="refused ReadFault", sentence="none.csv: no such file or folder")
    room.refused("import", "none", "none.csv", line="refused ReadFault", sentence="none: no such file or folder")
    room.refused("import", "t", ".", line="refused ReadFault", sentence=".: this is a folder")
    for data, sentence in OTHER_FILES:
        room.put("visits.csv", data)
        for words in (["query", "visits.csv", "SELECT COUNT(*) FROM T"], ["check", "visits.csv"], ["apply", "t", "visits.csv"]):
            room.refused(*words, line="refused BadMagic", sentence=f"visits.csv: {sentence}")
    assert room.get("t") == held
    room.only("t", "visits.csv")


# Texts of which --whole-lines takes each that ends with a line's end, and the line of the others.
WHOLE = (
    (b"A,B\n1,2\n", [], None),
    (b"A,B\r\n1,2\r\n", [], None),
    (b"A,B\n", [], None),
    (b"", ["--no-header"], None),
    (b"\n", ["--no-header"], None),
    (b"A,B\n1,2\n\n\n", [], None),
    (b"A,B\n1,2\n3,45", [], 3),
    (b"A,B\n1,2\n3,4\n" + b"5,6\n" * 20_000 + b"7,", [], 20_004),
    (b"A,B", [], 1),
    (b"1,2", ["--no-header"], 1),
    (b"\n\n1,2", ["--no-header"], 3),
    (b"\xef\xbb\xbfA,B\n1,2", [], 2),
    (b"\xef\xbb\xbf", ["--no-header"], None),
    (b"\xef\xbb", ["--no-header"], 1),
)


def lines_that_have_to_be_whole(room):
    sentence = "the last line has no line end: it may be cut off"
    for into in ("t", "d"):
        room.ok("create", "d/" if into == "d" else "t", "T", "A", "SMALLINT", "B", "BIGINT")
        for at, (text, options, line) in enumerate(WHOLE):
            words = ["import", "--whole-lines", *options, "--batch", f"{at + 1}.1", into]
            before = room.ok("dump", "--names", into)
            room.put("visits.csv", text)
            if line is None:
                room.ok(*words, "visits.csv")
                room.ok(*words, "-", given=text)
                continue
            room.refused(*words, "visits.csv", line=f"refused BadCsv {line} 0", sentence=f"visits.csv, line {line}: {sentence}")
            room.refused(*words, "-", given=text, line=f"refused BadCsv {line} 0", sentence=f"lanes import {into}: standard input, line {line}: {sentence}")
            assert room.ok("dump", "--names", into) == before
            if text == b"\xef\xbb":
                continue
            room.put("whole.csv", text + b"\n")
            room.refused(*words, "whole.csv", "visits.csv", line=f"refused BadCsv {line} 0", sentence=f"visits.csv, line {line}: {sentence}")
            assert room.ok("dump", "--names", into) == before
            room.ok("import", *options, into, "visits.csv")
    room.put("visits.csv", b"A,B\n1,2\n3")
    for last in (b"3", b"3,", b"3,-", b"x,4", b"3,4,5", b"A,B"):
        room.put("visits.csv", b"A,B\n1,2\n" + last)
        room.refused("import", "--whole-lines", "t", "visits.csv", line="refused BadCsv 3 0", sentence=f"visits.csv, line 3: {sentence}")
    room.put("visits.csv", b"A,B\nx,2\n3")
    room.refused("import", "--whole-lines", "t", "visits.csv", line="refused BadCsv 2 1", sentence='visits.csv, line 2, column A: "x" is not a whole number: write a number for each text')
    room.put("visits.csv", b"A,B\n" + b"7" * 1_048_577)
    room.refused("import", "--whole-lines", "t", "visits.csv", line="refused LineTooLong", sentence="visits.csv, line 2: the line has more than 1,048,576 bytes")


def a_second_heading_says_so(room):
    room.ok("create", "t", "T", "A", "SMALLINT", "B", "BIGINT")
    again = "this line has the names of columns again: leave it out, or name each CSV by itself"
    for text, place in ((b"A,B\n1,2\nA,B\n3,4\n", "3 1"), (b'A,B\n1,2\nb,"A"\n', "3 1"), (b"B,A\n1,2\n1,2\nB,A\n", "4 1")):
        line = place.split()[0]
        column = text[:1].decode()
        room.put("visits.csv", text)
        room.refused("import", "t", "visits.csv", line=f"refused BadCsv {place}", sentence=f"visits.csv, line {line}, column {column}: {again}")
    room.put("visits.csv", b"A,B\n1,2\nA,x\n")
    room.refused("import", "t", "visits.csv", line="refused BadCsv 3 1", sentence='visits.csv, line 3, column A: "A" is not a whole number: write a number for each text')


def batches_have_65536_rows_and_the_last_one_what_is_left(room):
    room.ok("create", "t", "T", "A", "SMALLINT")
    text = b"1\n" * 65_536 + b"2\n" * 65_536 + b"3\n"
    room.ok("import", "--no-header", "--batch", "7.4294967293", "t", "-", given=text, prints=b"ok batches=3 new=3 rows=131073 first=7.4294967293\n")
    room.ok("query", "t", "SELECT A,COUNT(*) FROM T GROUP BY A", prints=b"A,COUNT(*)\n1,65536\n2,65536\n3,1\n")
    names = room.ok("dump", "--names", "t").split(b"\n")
    assert names[65_537] == b"7.4294967294,0,2" and names[131_073] == b"7.4294967295,0,3", (names[65_537], names[131_073])


def names_are_drawn_at_random(room):
    firsts = set()
    for at in range(20):
        room.ok("create", f"t{at}", "T", "A", "SMALLINT")
        firsts.add(room.ok("import", "--no-header", f"t{at}", "-", given=b"1\n").rsplit(b"=", 1)[1])
    assert len(firsts) == 20, "two of twenty imports drew the same name"
    origins = [int(first.split(b".")[0]) for first in firsts]
    assert max(origins) > 2**28 and min(origins) >= 1


def inspect_counts_all_vectors_of_a_batch(room):
    """The first vector is 1,024 times 7: FOR at width 0, 7 bytes. The second ascends by 2: DELTA at width 0, 7 bytes and the first values of 64 lanes."""
    room.ok("create", "t", "T", "A", "SMALLINT")
    text = b"7\n" * 1024 + b"".join(b"%d\n" % value for value in range(0, 2048, 2))
    room.ok("import", "--no-header", "--batch", "1.1", "t", "-", given=text)
    bits = (7 + 7 + 64 * 2) * 8 / 2048
    found = room.ok("inspect", "t").decode().splitlines()[-1].split()
    assert found == ["A", "SMALLINT", "0", "2048", "0", "2046", "1", "1", "0", "0", f"{int(bits * 100) / 100:.2f}"], found


TESTS = [
    inspect_counts_all_vectors_of_a_batch,
    postgres_copy_with_a_header,
    postgres_copy_without_a_header,
    a_spreadsheet_with_a_mark_and_carriage_returns,
    nulls_in_each_form_and_a_last_line_without_its_end,
    a_word_is_a_null_as_it_is_in_the_text_and_in_quotes,
    an_import_says_which_of_its_rows_are_deleted_already,
    an_empty_line_is_a_row_of_a_table_of_one_column_alone,
    the_fields_of_a_text_are_those_that_words_name,
    what_is_dumped_is_imported_as_the_same_rows,
    what_sqlite_writes_is_imported,
    what_is_dumped_loads_into_sqlite_with_the_same_sums,
    what_is_at_fault_is_said_with_its_place,
    lines_that_have_to_be_whole,
    a_second_heading_says_so,
    batches_have_65536_rows_and_the_last_one_what_is_left,
    names_are_drawn_at_random,
]
