"""What is said of queries that are refused, of lines and texts of values, of headings, of tables, and of what is quoted."""

from cases import Case, file_of

# The file of the empty table VISITS with the columns SITE SMALLINT and HITS INTEGER, and of T with A, B and C SMALLINT.
VISITS = b"FLCF" + bytes([1, 0, 2, 0, 6]) + b"VISITS" + bytes([2, 4]) + b"SITE" + bytes([4, 4]) + b"HITS" + bytes(12)
THREE = b"FLCF" + bytes([1, 0, 3, 0, 1]) + b"T" + bytes([2, 1]) + b"A" + bytes([2, 1]) + b"B" + bytes([2, 1]) + b"C" + bytes(12)

# The file of the empty table T with the column A SMALLINT.
ONE_COLUMN = file_of(b"T")

# A query, why it is refused, and what is said of it. The places are those that docs/SQL.md gives.
QUERIES = [
    ("SELECT * FROM VISITS", "Syntax 7", "byte 7: a query lists grouping columns and set functions: lanes dump writes the rows"),
    ("SELECT SITE FROM VISITS ORDER BY SITE", "Syntax 24", "byte 24: there is no ORDER BY: rows ascend by the columns of GROUP BY; pipe the answer through tail -n +2 | sort -t, -k2,2nr (by column 2, largest first)"),
    ("SELECT COUNT(*) FROM VISITS limit 3", "Syntax 28", "byte 28: there is no LIMIT: pipe the answer through head -n 4 (the heading and 3 rows)"),
    ("SELECT COUNT(*) FROM VISITS;", "Syntax 27", "byte 27: there is no semicolon: a query ends with its text"),
    ("SELECT COUNT(*) FROM VISITS WHERE SITE != 1", "Syntax 39", "byte 39: not equal is written <>"),
    ("SELECT COUNT(*) FROM VISITS WHERE SITE == 1", "Syntax 40", "byte 40: equal is written ="),
    ("SELECT SUM(HITS * 2) FROM VISITS", "Syntax 16", "byte 16: there is no arithmetic: compute with the answer"),
    ("SELECT SUM(HITS) / 2 FROM VISITS", "Syntax 17", "byte 17: there is no arithmetic: compute with the answer"),
    ("SELECT \"SITE\" FROM VISITS", "Syntax 7", "byte 7: names are not quoted: write the name alone, in either case"),
    ("SELECT CASE WHEN SITE = 1 THEN 1 END FROM VISITS", "Syntax 17", "byte 17: there is no CASE: ask a query for each case, with its condition in WHERE"),
    ("SELECT MEDIAN(HITS) FROM VISITS", "Syntax 13", "byte 13: there is no such function: set functions are COUNT, SUM, AVG, MIN and MAX"),
    ("SELECT DISTINCT SITE FROM VISITS", "Syntax 7", "byte 7: there is no SELECT DISTINCT: name the columns in GROUP BY too"),
    ("SELECT COUNT(1) FROM VISITS", "Syntax 13", "byte 13: COUNT(*) counts rows, and a set function takes a column"),
    ("SELECT SITE FROM VISITS GROUP BY 1", "Syntax 33", "byte 33: GROUP BY names its columns: there are no numbers for them"),
    ("SELECT VISITS.SITE FROM VISITS", "Syntax 13", "byte 13: a column is named alone, without its table"),
    ("SELECT COUNT(*) FROM VISITS WHERE HITS > 1.5", "Syntax 42", "byte 42: numbers are whole: a mean too is compared with a whole number"),
    ("SELECT COUNT(*) FROM VISITS WHERE SITE = 'paris'", "Syntax 41", "byte 41: there are no texts: values are whole numbers"),
    ("SELECT COUNT(*) FROM VISITS -- all", "Syntax 28", "byte 28: there are no comments"),
    ("SELECT COUNT(*) FROM VISITS JOIN T", "Syntax 28", "byte 28: there are no joins: a query asks one table"),
    ("SELECT COUNT(*) FROM (SELECT SITE FROM VISITS)", "Syntax 21", "byte 21: \"(\" is not possible here; expected the table's name"),
    ("DELETE FROM VISITS", "Syntax 0", "byte 0: a query changes nothing: lanes delete deletes rows"),
    ("", "Syntax 0", "byte 0: the query is empty"),
    ("SELECT COUNT(*)", "Syntax 15", "byte 15: the text ends too early; expected a comma, FROM, AS or a name"),
    ("SELECT COUNT(*) FROM VISITS WHERE", "Syntax 33", "byte 33: the text ends too early; expected a condition"),
    ("SELECT COUNT(*) AS SUM FROM VISITS", "Syntax 19", "byte 19: \"SUM\" is not possible here; expected a name that is not a keyword"),
    ("SELEKT COUNT(*) FROM VISITS", "Syntax 0", "byte 0: \"SELEKT\" is not possible here; expected SELECT"),
    ("SELECT COUNT(*) FROM VISITS SITE", "Syntax 28", "byte 28: \"SITE\" is not possible here; expected WHERE, GROUP BY, HAVING or the end"),
    ("SELECT SUM(QTY) FROM VISITS", "NoSuchColumn 11", "byte 11: there is no column \"QTY\": the table has SITE, HITS"),
    ("SELECT COUNT(*) FROM visit", "NoSuchTable", "there is no table \"visit\": the table here is VISITS"),
    ("SELECT SITE, COUNT(*) FROM VISITS", "NotGrouped 7", "byte 7: \"SITE\" must be in GROUP BY or inside a set function"),
    ("SELECT COUNT(*) FROM VISITS WHERE " + "(" * 65, "TooDeep", "more than 64 parentheses are open at once"),
    ("SELECT COUNT(*) FROM VISITS WHERE SITE = 1" + "0" * 30, "NumberTooLarge 41", "byte 41: the number has more than 30 digits"),
]

# Options of an import into T, its first line, and what is said of it.
LINES = [
    (["--no-header"], b"1,2", "the line has 2 fields, and the table has 3 columns"),
    (["--no-header"], b"1,2,3,", "the line has 4 fields, and the table has 3 columns"),
    (["--no-header"], b"1;2;3", "the line has 1 field, and the table has 3 columns; semicolons seem to separate its fields: say --separator ';'"),
    ([], b"A\tB\tC", "the line has 1 field, and the table has 3 columns; tabs seem to separate its fields: say --separator '\\t'"),
    (["--no-header"], b"1|2|3", "the line has 1 field, and the table has 3 columns; bars seem to separate its fields: say --separator '|'"),
    (["--no-header"], b"1;2", "the line has 1 field, and the table has 3 columns"),
    ([], b"", "this line is empty, and should be the header: did the command before it fail?"),
    ([], b"a,C", "the line has 2 fields, and the table has 3 columns, A, B, C; B is missing; name the fields by --columns, as --columns A,C"),
    ([], b'A,B,C,"D"', "the line has 4 fields, and the table has 3 columns, A, B, C; \"D\" is not one of them; name the fields by --columns, as --columns A,B,C,-"),
    (["--no-header"], b'1,"2,000",3', "the line has 4 fields, and the table has 3 columns; quotes don't protect a separator: write numbers without it, or choose another one"),
    (["--no-header"], b'1,"2', "the line has 2 fields, and the table has 3 columns; quotes don't protect a line's end, so write each row in one line"),
    (["--no-header"], b"1,2,3\r4,5,6", "the line has 5 fields, and the table has 3 columns; a carriage return alone does not end a line: end lines with line feeds"),
    (["--columns", "A,-,B", "--no-header"], b"1,2", "the line has 2 fields, and --columns has 3 words"),
    (["--columns", "A", "--no-header"], b"1,2", "the line has 2 fields, and --columns has 1 word"),
    (["--columns", "A,B"], b"1,2", "this is a row and no header: with --no-header it is read as a row"),
    (["--columns", "A"], b"", "this line is empty, and should be the header: did the command before it fail?"),
    (["--columns", "A,B", "--no-header"], b"1;2", "the line has 1 field, and --columns has 2 words; semicolons seem to separate its fields: say --separator ';'"),
    (["--no-header", "--separator", ";"], b"1,2", "the line has 1 field, and the table has 3 columns"),
    (["--no-header", "--separator", ";"], b"1,2,3", "the line has 1 field, and the table has 3 columns; commas seem to separate its fields: say --separator ','"),
]

# How a text begins that should be values, and what is said of its first line.
BEGINNINGS = [
    (b"\xff\xfeA\x00", "this is UTF-16: save it as UTF-8"),
    (b"A\x00", "this is UTF-16, or no text: save it as UTF-8"),
    (b"\x1f\x8b\x08", "this is packed by gzip: unpack it with gzip -dc"),
    (b"PK\x03\x04", "this is a zip file or a workbook: save it as CSV"),
    (b'{"A":1', "this is JSON: write its numbers as CSV"),
    (b"<!DOCTYPE html>", "this is HTML or XML: did a download fail?"),
    (b"FLCF", "this is a table or an offer: lanes summary makes a summary of a table, and lanes partial a partial answer"),
]

# Options of an import, its table, and the place at which such a text is refused: a line, a heading or a field.
KINDS = [(["--columns", "A,-,-"], THREE, "1 0", "line 1"), ([], ONE_COLUMN, "1 1", "line 1, field 1"), (["--no-header"], ONE_COLUMN, "1 1", "line 1, column A")]

# A field of the column A SMALLINT, and what is said of it. What is quoted is cut at 40 bytes, and has no byte that a terminal acts on.
FIELDS = [
    (b"abc", '"abc" is not a whole number: write a number for each text'),
    (b'"-40000"', '"-40000" is outside the type SMALLINT'),
    (b"\x1b[2J\x7f\xc3\xa9~ ", '"\\x1B[2J\\x7F\u00e9~ " is not a whole number: write a number for each text'),
    (b"a234567890b234567890c234567890d234567890e", '"a234567890b234567890c234567890d234567890".. is not a whole number: write a number for each text'),
    (b"a234567890b234567890c234567890d23456789\xc3\xa9", '"a234567890b234567890c234567890d23456789".. is not a whole number: write a number for each text'),
    (b'""', '"" is not a whole number: a null is an empty field without quotes, or NULL; if this is one too, say --null \'\''),
    (b'"7', '"\"7" is not a whole number: quotes don\'t protect a line\'s end, so write each row in one line'),
    (b"2.5", '"2.5" is not a whole number: write it in a smaller unit, as cents for an amount'),
    (b"-0.25", '"-0.25" is not a whole number: write it in a smaller unit, as cents for an amount'),
    (b"2026-12-01", '"2026-12-01" is not a whole number: write a day as a number, as 20261130, and a time as seconds'),
    (b"12:30", '"12:30" is not a whole number: write a day as a number, as 20261130, and a time as seconds'),
    (b"True", '"True" is not a whole number: write 1 for true and 0 for false'),
    (b"n/a", '"n/a" is not a whole number; if it is a null, say --null \'n/a\''),
    (b"1" * 43, '"' + "1" * 40 + '".. has more than 30 digits'),
    (b"1" * 40, '"' + "1" * 40 + '" has more than 30 digits'),
    (b"\xe2\x80\xae7\xff", '"\\u{202E}7\\xFF" is not a whole number: write a number for each text'),
]

# A heading of VISITS, which of its fields is refused, and what is said of it.
HEADINGS = [
    (b'SITE,"QTY"', 2, '"QTY" is not a column of the table, which has SITE, HITS: name the fields by --columns'),
    (b"SITE,site", 2, '"site" is there for the second time'),
]

# A query over T, its place and what a terminal shows of it.
CARETS = [
    ("SELECT", "Syntax 6", "SELECT\n      ^\n"),
    ("SELECT \u00e9A FROM T", "Syntax 7", "SELECT \u00e9A FROM T\n       ^\n"),
    ("SELECT A,\u00e9 FROM T", "Syntax 9", "SELECT A,\u00e9 FROM T\n         ^\n"),
    ("SELECT A\nFROM T", "NotGrouped 7", "SELECT A\n       ^\n"),
    ("SELECT\n\tD FROM T", "NoSuchColumn 8", " D FROM T\n ^\n"),
]


def refused_query(text, refusal, sentence):
    wanted = f"refused {refusal}\nt: {sentence}\n".encode()
    return Case(f"what is said of the query {text[:80]}", ["query", "t", text], 1, err=wanted, files={"t": VISITS})


def refused_rows(options, text, table, place, sentence):
    """An import of one text that is refused at a place of its first line."""
    at, where = place
    wanted = f"refused BadCsv {at}\nv, {where}: {sentence}\n".encode()
    return Case(f"what is said of {text!r} with {options}", ["import", *options, "t", "v"], 1, err=wanted, files={"t": table, "v": text}, writes={"t": table})


def shown_query(text, refusal, shown):
    return Case(f"the caret of {text!r}", ["query", "t", text], 1, err=[f"refused {refusal}\n".encode(), f"\n{shown}".encode()], files={"t": THREE}, errors_to="terminal")


SENTENCE_CASES = [
    *(refused_query(*case) for case in QUERIES),
    *(refused_rows(options, text, THREE, ("1 0", "line 1"), sentence) for options, text, sentence in LINES),
    *(refused_rows(options, text, table, (at, where), sentence) for text, sentence in BEGINNINGS for options, table, at, where in KINDS),
    *(refused_rows(["--no-header"], text, ONE_COLUMN, ("1 1", "line 1, column A"), sentence) for text, sentence in FIELDS),
    *(refused_rows([], text, VISITS, (f"1 {field}", f"line 1, field {field}"), sentence) for text, field, sentence in HEADINGS),
    *(shown_query(*case) for case in CARETS),
    Case("the table that a file holds is told in whole", ["merge", "out", "t", "u"], 1, err=b"refused SchemaDiffers\nu: this holds the table T (A SMALLINT, B SMALLINT, C SMALLINT), but t holds VISITS (SITE SMALLINT, HITS INTEGER)\n", files={"t": VISITS, "u": THREE}),
    Case("a text is no file of lanes", ["check", "one.csv"], 1, err=b"refused BadMagic\none.csv: this is a text file, not a lanes file: import CSV with lanes import, run a script with lanes run\n", files={"one.csv": b"SITE,HITS\r\n1,2\r\n"}),
    Case("a summary is told as one", ["check", "t"], 1, err=b"refused BadMagic\nt: this is a summary: lanes offer and lanes inspect read it\n", files={"t": b"FLSM\x01\0"}),
    Case("a name has no byte that a terminal acts on", ["check", "t\u001b[2J"], 1, err=b"refused Truncated 3\nt [2J, byte 3: the bytes end too early\n", files={"t\u001b[2J": b"FLC"}),
]
