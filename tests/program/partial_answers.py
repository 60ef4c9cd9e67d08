"""What the commands on partial answers do: `partial`, `combine` and `finish`. Partial answers are made by hand from docs/FORMATS.md."""

import hashlib

from cases import BOTH, ONE_ROW, RANGES, SECOND_BATCH, Case, batch, file_of

QUESTION = b"SELECT COUNT(*),SUM(A) FROM T"


def number(value, size=8):
    return value.to_bytes(size, "little", signed=value < 0)


def listed(items):
    """How many items there are, and these."""
    return number(len(items)) + b"".join(items)


def runs(*names):
    """Runs of names of batches: of each its origin, and its first and its last number."""
    return listed([b"".join(number(word, 4) for word in name) for name in names])


def count(value):
    return b"\x00" + number(value)


def total(values, value):
    """A count and a sum."""
    return b"\x01" + number(values) + number(value, 16)


def group(*measures, key=()):
    """A group under whole numbers, with what is kept of it."""
    return listed([b"\x01" + number(cell) for cell in key]) + listed(measures)


def partial(sql, groups, held=(), strays=(), table=b"T"):
    """The partial answer of a table with the one column A SMALLINT."""
    return b"FLPT" + bytes([1, 0, 1, 0, 1]) + table + bytes([2, 1]) + b"A" + number(len(sql)) + sql + runs(*held) + runs(*strays) + listed(groups)


def counted(rows, value, *held, strays=(), sql=QUESTION, table=b"T"):
    """The partial answer of so many rows with this sum, of these batches."""
    return partial(sql, [group(count(rows), total(rows, value))], held, strays, table)


# The partial answers of the batches 1.1 and 2.1, which have a row each, 7, and of both.
FIRST, SECOND, TWO = counted(1, 7, (1, 1, 1)), counted(1, 7, (2, 1, 1)), counted(2, 14, (1, 1, 1), (2, 1, 1))
# The partial answer of the batch 1.1 in a file that deletes rows of 2.1.
DELETING = counted(1, 7, (1, 1, 1), strays=[(2, 1, 1)])
OTHER_QUESTION = counted(1, 7, (2, 1, 1), sql=b"SELECT COUNT(*),SUM( A) FROM T")
OF_U = counted(1, 7, (2, 1, 1), table=b"U")
NO_QUESTION = counted(1, 7, (2, 1, 1), sql=b"x")


def by_value(values, rows, *held):
    """The partial answer by groups of one value each, with so many rows."""
    return partial(b"SELECT A,COUNT(*),SUM(A) FROM T GROUP BY A", [group(count(rows), total(rows, rows * value), key=(value,)) for value in values], held)


# A thousand groups, in two partial answers that share every sixth.
EVEN, THIRD = by_value(range(-500, 500, 2), 1, (1, 1, 1)), by_value(range(-500, 500, 3), 1, (2, 1, 1))
ROWS_OF = {value: (value % 2 == 0) + ((value + 500) % 3 == 0) for value in range(-500, 500)}
MERGE = b"merge the two files%s make one partial answer from the result\n"
FOLDER = {f"d/{hashlib.sha512(file).hexdigest()[:32]}.lanes": file for file in (ONE_ROW, SECOND_BATCH)}
NO_BATCH = file_of(b"T")

PARTIAL_ANSWER_CASES = [
    Case("a partial answer has the batches that a file has, and what is counted of them", ["partial", "t", QUESTION], 0, FIRST, files={"t": ONE_ROW}),
    Case("a file's partial answer is read from standard input", ["partial", "-", QUESTION], 0, SECOND, input=SECOND_BATCH),
    Case("a folder has the partial answer of all its files", ["partial", "d", QUESTION], 0, TWO, files=FOLDER),
    Case("a file without rows has a partial answer too", ["partial", "t", QUESTION], 0, counted(0, 0), files={"t": NO_BATCH}),
    Case("a partial answer names the batches that a file doesn't have and deletes rows of", ["partial", "t", QUESTION], 0, counted(0, 0, strays=[(1, 7, 7), (2, 1, 1), (3, 1, 1)]), files={"t": file_of(b"T", ranges=RANGES)}),
    Case("a partial answer has a group for each list of keys", ["partial", "t", b"SELECT A,COUNT(*) FROM T GROUP BY A"], 0, partial(b"SELECT A,COUNT(*) FROM T GROUP BY A", [group(count(1), key=[-8]), group(count(2), key=[7])], [(1, 1, 3)]), files={"t": file_of(b"T", batch(1, 1, 7), batch(1, 2, 65_528), batch(1, 3, 7))}),
    Case("a query that is none has no partial answer", ["partial", "t", "SELECT B FROM T"], 1, err=b'refused NoSuchColumn 7\nt: byte 7: there is no column "B": the table has A\n', files={"t": ONE_ROW}),
    Case("a file is refused before the query is", ["partial", "t", "x"], 1, err=b"refused Truncated 41\nt, byte 41: the bytes end too early\n", files={"t": ONE_ROW[:41]}),
    Case("standard input that is no file has no partial answer, and it is said what it is", ["partial", "-", "x"], 1, err=b"refused BadMagic\nlanes partial: standard input: this is a partial answer: lanes combine, lanes finish and lanes inspect read it\n", input=FIRST),
    Case("so it is said of a text", ["partial", "-", "x"], 1, err=b"refused BadMagic\nlanes partial: standard input: this is a text file, not a lanes file: import CSV with lanes import, run a script with lanes run\n", input=b"A,B\n1,2\n"),
    Case("so it is said of what is packed", ["combine", "-"], 1, err=b"refused BadMagic\nlanes combine: standard input: this is packed by gzip: unpack it with gzip -dc\n", input=b"\x1f\x8b\x08\0\0\0\0\0"),
    Case("of other bytes nothing more is said", ["combine", "-"], 1, err=b"refused BadMagic\nlanes combine: standard input: the first four bytes are not those of this format\n", input=bytes(range(128, 160))),
    Case("a file that isn't there has no partial answer", ["partial", "t", "x"], 1, err=b"refused ReadFault\nt: no such file or folder\n"),
    Case("a folder without a file has no partial answer", ["partial", ".", "x"], 1, err=b"refused ReadFault\n.: this folder holds no part\n"),
    Case("a partial answer isn't written to a terminal", ["partial", "t", QUESTION], 2, err=[b"standard output is a terminal"], files={"t": ONE_ROW}, output_to="terminal"),
    Case("nor is one that is combined", ["combine", "a"], 2, err=[b"standard output is a terminal"], files={"a": FIRST}, output_to="terminal"),
    Case("a partial answer that can't be written is a failed write", ["partial", "t", QUESTION], 1, err=b"refused WriteFault\nlanes partial t: standard output: no space is left on the device\n", files={"t": ONE_ROW}, output_to="full"),
    Case("two partial answers are combined", ["combine", "a", "b"], 0, TWO, files={"a": FIRST, "b": SECOND}),
    Case("their order does not matter", ["combine", "b", "a"], 0, TWO, files={"a": FIRST, "b": SECOND}),
    Case("one of them may be standard input", ["combine", "a", "-"], 0, TWO, input=SECOND, files={"a": FIRST}),
    Case("one partial answer alone stays as it is", ["combine", "-"], 0, DELETING, input=DELETING),
    Case("a partial answer of nothing changes nothing", ["combine", "none", "a"], 0, FIRST, files={"a": FIRST, "none": counted(0, 0)}),
    Case("deletions of batches that nobody has are kept", ["combine", "a", "b"], 0, counted(2, 14, (1, 1, 1), (3, 1, 1), strays=[(2, 1, 1)]), files={"a": DELETING, "b": counted(1, 7, (3, 1, 1))}),
    Case("a partial answer that comes twice is refused", ["combine", "a", "b", "./a"], 1, err=b"refused NotApart 1.1\n./a: batch 1.1 is in a too: give each file once, or " + MERGE % b" and", files={"a": FIRST, "b": SECOND}),
    Case("partial answers of files that share a batch are refused", ["combine", "b", "a"], 1, err=b"refused NotApart 2.1\na: batch 2.1 is in b too: give each file once, or " + MERGE % b" and", files={"a": TWO, "b": SECOND}),
    Case("a partial answer is refused whose file deletes rows that another has", ["combine", "a", "b"], 1, err=b"refused NotApart 2.1\nb: this has batch 2.1, and the file of a deletes rows of it: " + MERGE % b", and", files={"a": DELETING, "b": SECOND}),
    Case("so it is the other way round", ["combine", "b", "a"], 1, err=b"refused NotApart 2.1\na: its file deletes rows of batch 2.1, which b has: " + MERGE % b", and", files={"a": DELETING, "b": SECOND}),
    Case("standard input is told so too", ["combine", "b", "-"], 1, err=b"refused NotApart 2.1\nlanes combine b: standard input: its file deletes rows of batch 2.1, which b has: " + MERGE % b", and", input=DELETING, files={"b": SECOND}),
    Case("and so is a file after it", ["combine", "-", "b"], 1, err=b"refused NotApart 2.1\nb: this has batch 2.1, and the file of standard input deletes rows of it: " + MERGE % b", and", input=DELETING, files={"b": SECOND}),
    Case("a partial answer of another query is refused", ["combine", "a", "b"], 1, err=b"refused QueryDiffers\nb: this partial answer is of the query `SELECT COUNT(*),SUM( A) FROM T`, but a is of `SELECT COUNT(*),SUM(A) FROM T`\n", files={"a": FIRST, "b": OTHER_QUESTION}),
    Case("so is one of another query from standard input", ["combine", "a", "-"], 1, err=b"refused QueryDiffers\nlanes combine a: standard input: this partial answer is of the query `SELECT COUNT(*),SUM( A) FROM T`, but a is of `SELECT COUNT(*),SUM(A) FROM T`\n", input=OTHER_QUESTION, files={"a": FIRST}),
    Case("a partial answer of another table is refused", ["combine", "a", "b", "c"], 1, err=b"refused SchemaDiffers\nc: this holds the table U (A SMALLINT), but a holds T (A SMALLINT)\n", files={"a": FIRST, "b": counted(1, 7, (3, 1, 1)), "c": OF_U}),
    Case("so is one of another table from standard input", ["combine", "a", "-"], 1, err=b"refused SchemaDiffers\nlanes combine a: standard input: this holds the table U (A SMALLINT), but a holds T (A SMALLINT)\n", input=OF_U, files={"a": FIRST}),
    Case("a file is no partial answer", ["combine", "a", "t"], 1, err=b"refused BadMagic\nt: this is a table or an offer: lanes summary makes a summary of a table, and lanes partial a partial answer\n", files={"a": FIRST, "t": ONE_ROW}),
    Case("a partial answer that is cut short is refused", ["combine", "a", "b"], 1, err=b"refused Truncated %d\nb, byte %d: the bytes end too early\n" % (len(SECOND) - 1, len(SECOND) - 1), files={"a": FIRST, "b": SECOND[:-1]}),
    Case("an empty partial answer is said to be", ["combine", "a", "-"], 1, err=b"refused Truncated 0\nlanes combine a: standard input: this is empty: did the command before it fail?\n", files={"a": FIRST}),
    Case("a partial answer that isn't there is a failed read", ["combine", "a", "none"], 1, err=b"refused ReadFault\nnone: no such file or folder\n", files={"a": FIRST}),
    Case("a folder is no partial answer", ["combine", "."], 1, err=b"refused ReadFault\n.: this is a folder\n"),
    Case("a count past 64 bits is refused", ["combine", "a", "b"], 1, err=[b"refused TooMany\nb: a count has more than 64 bits"], files={"a": partial(QUESTION, [group(count(2**64 - 1), total(1, 7))], [(1, 1, 1)]), "b": SECOND}),
    Case("a sum past 128 bits is refused", ["combine", "a", "b"], 1, err=[b"refused TooMany\nb: "], files={"a": partial(QUESTION, [group(count(1), total(1, 2**127 - 1))], [(1, 1, 1)]), "b": SECOND}),
    Case("one partial answer alone may be standard input", ["combine", "-", "-"], 2, err=[b"only one PARTIAL can be -"]),
    Case("a partial answer is finished", ["finish", "p"], 0, b"COUNT(*),SUM(A)\n2,14\n", files={"p": TWO}),
    Case("a partial answer is finished from standard input", ["finish", "-"], 0, b"COUNT(*),SUM(A)\n2,14\n", input=TWO),
    Case("a partial answer of no rows has an answer", ["finish", "p"], 0, b"COUNT(*),SUM(A)\n0,NULL\n", files={"p": counted(0, 0)}),
    *(
        Case(f"a partial answer is finished as {form}", ["finish", "--format", form, "p"], 0, wanted, files={"p": TWO})
        for form, wanted in {"text": b"COUNT(*),SUM(A)\n2,14\n", "csv": b"COUNT(*),SUM(A)\n2,14\n", "json": b'{"COUNT(*)":2,"SUM(A)":14}\n', "table": b"COUNT(*)  SUM(A)\n--------  ------\n       2      14\n"}.items()
    ),
    Case(
        "partial answers of hundreds of groups are combined",
        ["combine", "p", "q"],
        0,
        partial(b"SELECT A,COUNT(*),SUM(A) FROM T GROUP BY A", [group(count(rows), total(rows, rows * value), key=(value,)) for value, rows in ROWS_OF.items() if rows], [(1, 1, 1), (2, 1, 1)]),
        files={"p": EVEN, "q": THIRD},
    ),
    Case(
        "a partial answer of a thousand groups is finished",
        ["finish", "p"],
        0,
        b"A,COUNT(*),SUM(A)\n" + b"".join(b"%d,2,%d\n" % (value, 2 * value) for value in range(-500, 500)),
        files={"p": by_value(range(-500, 500), 2, (1, 1, 1))},
    ),
    Case("another form of an answer is a fault of the command line", ["finish", "--format", "xml", "p"], 2, err=[b"FORMAT is text, csv, json or table"], files={"p": TWO}),
    Case("a partial answer whose text is no query isn't finished", ["finish", "p"], 1, err=[b"refused Syntax 0\np", b"this was not written by lanes partial: its text is not a query\n"], files={"p": NO_QUESTION}),
    Case("a file isn't finished", ["finish", "t"], 1, err=b"refused BadMagic\nt: this is a table or an offer: lanes summary makes a summary of a table, and lanes partial a partial answer\n", files={"t": BOTH}),
    Case("bytes behind a partial answer are refused", ["finish", "p"], 1, err=b"refused TrailingBytes %d\np, byte %d: there are bytes after the end\n" % (len(TWO), len(TWO)), files={"p": TWO + b"\0"}),
    Case("an answer that can't be written is a failed write", ["finish", "p"], 1, err=b"refused WriteFault\nlanes finish p: standard output: no space is left on the device\n", files={"p": TWO}, output_to="full"),
    Case("help of the commands on partial answers tells how they go together", ["partial", "--help"], 0, [b"Usage: lanes partial <FILE> <SQL>", b"lanes combine", b"lanes finish", b"docs/COMMANDS.md"]),
]
