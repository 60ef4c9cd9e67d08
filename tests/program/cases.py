"""What the program does on a command line: arguments and input, and the status and both outputs that a user must see.

The replies are worked out by hand from docs/FORMATS.md; the texts of faults and help are `clap`'s, of which a case names
the parts that matter.
"""

import hashlib
from dataclasses import dataclass, field

FIRST = b"table 2 T A SMALLINT\nappend 1 (7)\nmerge 2 1\nquery 2 SELECT COUNT(*) FROM T\n"
FIRST_REPLIES = b"ok\nok 1.1\nok\nok 1\nCOUNT(*)\n1\n"


def batch(origin, number, value, rows=1):
    """A batch of equal rows of one SMALLINT column: FOR at width 0, so that its bytes are the name, the row count less one and the value."""
    return origin.to_bytes(4, "little") + number.to_bytes(4, "little") + (rows - 1).to_bytes(2, "little") + bytes(5) + value.to_bytes(2, "little")


def file_of(table, *batches, ranges=()):
    """The canonical file of a table with the one column A SMALLINT; a range is an origin, a number and the first and last ordinal."""
    head = b"FLCF" + bytes([1, 0, 1, 0, 1]) + table + bytes([2, 1]) + b"A" + len(batches).to_bytes(4, "little")
    deletions = b"".join(part.to_bytes(size, "little") for range in ranges for part, size in zip(range, (4, 4, 2, 2)))
    return head + b"".join(batches) + len(ranges).to_bytes(8, "little") + deletions


def digest(file):
    """The digest of what a file holds."""
    return hashlib.sha512(file).hexdigest()[:32]


# The canonical file of T(A SMALLINT) with the batch 1.1 of one row, 7: 42 bytes; and files like it.
ONE_ROW = file_of(b"T", batch(1, 1, 7))
OTHER_ROW = file_of(b"T", batch(1, 1, 8))
# The canonical file of T(A SMALLINT, B SMALLINT), empty, and with the batch 2.1 of one row, 7 and 8.
PAIR = b"FLCF" + bytes([1, 0, 2, 0, 1]) + b"T" + bytes([2, 1]) + b"A" + bytes([2, 1]) + b"B"
NO_PAIR = PAIR + bytes(12)
ONE_PAIR = PAIR + bytes([1, 0, 0, 0]) + batch(2, 1, 7) + bytes(5) + bytes([8, 0]) + bytes(8)
SECOND_BATCH = file_of(b"T", batch(2, 1, 7))
BOTH = file_of(b"T", batch(1, 1, 7), batch(2, 1, 7))
THIRD_BATCH = file_of(b"T", batch(3, 1, 7))
ALL_THREE = file_of(b"T", batch(1, 1, 7), batch(2, 1, 7), batch(3, 1, 7))
EACH_OF_SIX = {f"b{origin}": file_of(b"T", batch(origin, 1, origin)) for origin in range(1, 7)}
ALL_SIX = file_of(b"T", *(batch(origin, 1, origin) for origin in range(1, 7)))
# Rows whose mean is -0.5: 0, as batch 1.1, and -1.
MEAN = file_of(b"T", batch(1, 1, 0), batch(1, 2, 65_535))
OTHER_TABLE = file_of(b"U", batch(1, 1, 7))
# All three, with deletions: of a batch that isn't held, of 2.1 past its only row, and of rows behind that of 3.1.
RANGES = [(1, 7, 0, 65_535), (2, 1, 0, 9), (3, 1, 1, 9)]
DELETED = ALL_THREE[:-8] + len(RANGES).to_bytes(8, "little") + b"".join(origin.to_bytes(4, "little") + number.to_bytes(4, "little") + first.to_bytes(2, "little") + last.to_bytes(2, "little") for origin, number, first, last in RANGES)

# What is said of a folder where a command takes none.
USAGE = b"\n\nUsage: lanes merge [OPTIONS] <OUT> <IN>...\n\nFor more information, try '--help'.\n"
MERGE_FAULT = b"error: OUT is a folder: lanes apply FOLDER FILE.. adds files to it, and a name that ends in / makes a new one" + USAGE

# What is said to who types queries.
WELCOME = b"a query in a line; help says more, and quit leaves\n"

# A folder d and the file in it.
FOLDER = {"d/kept": b"old"}

# The same row at width 1, with 128 bytes of packed zeros after the reference.
WIDER = ONE_ROW[:29] + b"\x01" + ONE_ROW[30:34] + bytes(128) + ONE_ROW[34:]

# All commands.
COMMANDS = ["create", "import", "query", "partial", "combine", "finish", "delete", "delete-rows", "forget", "dump", "inspect", "summary", "offer", "apply", "check", "merge", "spread", "pack", "run"]


# Batches of one row and of two, and which rows of them are deleted.
ONE, TWO = batch(1, 1, 7), batch(2, 1, 8, rows=2)


@dataclass
class Case:
    """One run. An output is given whole, as bytes, as a list of texts that it must have, or as a function that tells whether it is right."""

    name: str
    arguments: list
    status: int
    out: object = b""
    err: object = b""
    input: bytes = b""
    # The files that are there, by name; a folder that a name has before its file is made.
    files: dict = field(default_factory=dict)
    # What files hold afterwards; None: there is no such file.
    writes: dict = field(default_factory=dict)
    # Where standard input, output and error go in place of a pipe: "folder" can't be read, "full" takes no byte, "terminal" is one.
    input_from: str = "pipe"
    output_to: str = "pipe"
    errors_to: str = "pipe"


def forgets(name, ranges, dropped, left):
    """A forget of a file of both batches with these ranges deleted: what it says, and the batches that stay."""
    return Case(name, ["forget", "t"], 0, dropped, files={"t": file_of(b"T", ONE, TWO, ranges=ranges)}, writes={"t": file_of(b"T", *left, ranges=ranges), ".t.lanes-lock": None})


FORGETS = [
    forgets("where no row is deleted no batch is dropped", [], b"ok batches=0 rows=0\n", [ONE, TWO]),
    forgets("a batch of which every row is deleted is dropped, and its deletion stays", [(2, 1, 0, 1)], b"ok batches=1 rows=2\n", [ONE]),
    forgets("a batch with one live row stays", [(2, 1, 0, 0)], b"ok batches=0 rows=0\n", [ONE, TWO]),
    forgets("a batch whose first row lives stays", [(2, 1, 1, 65_535)], b"ok batches=0 rows=0\n", [ONE, TWO]),
    forgets("a batch is dropped where rows past its end are deleted too", [(2, 1, 0, 65_535)], b"ok batches=1 rows=2\n", [ONE]),
    forgets("rows deleted in advance of a batch stay deleted", [(1, 2, 0, 9)], b"ok batches=0 rows=0\n", [ONE, TWO]),
    forgets("all batches are dropped where every row is deleted", [(1, 1, 0, 0), (2, 1, 0, 1)], b"ok batches=2 rows=3\n", []),
]

CASES = [
    Case("a script from standard input has its replies", ["run"], 0, FIRST_REPLIES, input=FIRST),
    Case("a script from a file has the same", ["run", "s.lanes"], 0, FIRST_REPLIES, files={"s.lanes": FIRST}),
    Case("the name - is standard input", ["run", "-"], 0, FIRST_REPLIES, input=FIRST),
    Case("a file whose name begins with a hyphen is named by a path", ["run", "./-x"], 0, FIRST_REPLIES, files={"-x": FIRST}),
    Case("a last line without a line feed is answered", ["run"], 0, b"ok\nok 1.1\n", input=b"table 1 T A INTEGER\nappend 1 (1)"),
    Case("a script that ends in the middle of a word is answered too", ["run"], 0, b"ok\nrefused BadLine\n", input=b"table 1 T A INTEGER\nappe"),
    Case("an empty script has no reply", ["run"], 0),
    Case("a refused line is a reply, and no fault of the program", ["run"], 0, b"refused BadLine\n", input=b"append 1 (7)\n"),
    Case("a file that isn't there is a failed read", ["run", "none.lanes"], 1, err=b"refused ReadFault\nnone.lanes: no such file or folder\n"),
    Case("a folder in place of a file is a failed read", ["run", "."], 1, err=b"refused ReadFault\n.: this is a folder\n"),
    Case("standard input that can't be read is a failed read", ["run"], 1, err=b"refused ReadFault\nlanes run: standard input: this can't be read\n", input_from="folder"),
    Case("replies that can't be written are a failed write", ["run"], 1, err=b"refused WriteFault\nlanes run: standard output: no space is left on the device\n", input=FIRST, output_to="full"),
    Case("help that can't be written is a failed write", ["--help"], 1, err=b"refused WriteFault\n", output_to="full"),
    Case("no command is a fault of the command line", [], 2, err=[b"requires a subcommand", b"Usage: lanes <COMMAND>"]),
    Case("an unknown command is one too", ["bogus"], 2, err=[b"unrecognized subcommand 'bogus'"]),
    Case("a second file is one too", ["run", "a", "b"], 2, err=[b"unexpected argument 'b'"], files={"a": FIRST, "b": FIRST}),
    Case("an argument that isn't UTF-8 is one too", ["run", b"\xff"], 2, err=[b"argument 2 is not UTF-8"]),
    Case("help names the commands in groups, and the pages", ["--help"], 0, [b"Usage: lanes <COMMAND>", *(f"\n  {name} ".encode() for name in COMMANDS), b"One table, in a file or a folder:\n", b"Between sites:\n", b"Over many machines:\n", b"Scripts:\n", b"--version", b"docs/COMMANDS.md", b"docs/SQL.md"]),
    Case("help of a command shows an example and names the page of the script language", ["run", "--help"], 0, [b"Usage: lanes run [OPTIONS] [SCRIPT]", b"--explain", b"table 2 T A SMALLINT", b"docs/FORMATS.md"]),
    Case("help of merge says what becomes of the file that is written", ["merge", "--help"], 0, [b"Usage: lanes merge [OPTIONS] <OUT> <IN>...", b"OUT is replaced as a whole", b"stays as it was if the merge is refused"]),
    Case("the version is a line", ["--version"], 0, b"lanes 0.12.1\n"),
    Case(
        "refused lines are explained where that is asked for, and the replies stay as they are",
        ["run", "--explain"],
        0,
        b"ok\nrefused OutOfType 0 0\nrefused BadLine\nok 1.1\n",
        b"line 2: refused OutOfType 0 0: the number is outside the type SMALLINT of A\nline 4: refused BadLine: rows are written (V,..),(V,..)\n",
        input=b"table 1 T A SMALLINT\nappend 1 (32768)\n\nappend 1 7\nappend 1 (7)\n",
    ),
    Case(
        "what is wrong in a query is explained",
        ["run", "--explain"],
        0,
        b"ok\nrefused Syntax 7\nrefused NoSuchTable\nrefused NoSuchColumn 0\nrefused WrongArity 0\n",
        b'line 2: refused Syntax 7: a query lists grouping columns and set functions: lanes dump writes the rows\nline 3: refused NoSuchTable: there is no table "U": the table here is T\n'
        b'line 4: refused NoSuchColumn 0: there is no column "B": the table has A\nline 5: refused WrongArity 0: the row has the wrong number of cells: the columns are A\n',
        input=b"table 1 T A SMALLINT\nquery 1 SELECT * FROM T\nquery 1 SELECT COUNT(*) FROM U\ndelete where 1 B = 1\nappend 1 (1,2)\n",
    ),
    Case(
        "a query without its SQL is explained",
        ["run", "--explain"],
        0,
        b"ok\nrefused BadLine\nrefused BadLine\n",
        b"line 2: refused BadLine: a query is written query R SQL\nline 3: refused BadLine: the SQL of a query is not empty\n",
        input=b"table 1 T A SMALLINT\nquery 1\nquery 1 \n",
    ),
    Case("on a terminal the program says that it waits for lines", ["run"], 0, b"ok\n", [b"reading a script's lines"], input=b"table 1 T A INTEGER\n", input_from="terminal"),
    Case("a canonical file is checked", ["check", "t.lanes"], 0, b"ok batches=1 ranges=0\n", files={"t.lanes": ONE_ROW}),
    Case("a file that isn't there can't be checked", ["check", "none"], 1, err=b"refused ReadFault\nnone: no such file or folder\n"),
    Case("a folder without a part can't be checked", ["check", "."], 1, err=b"refused ReadFault\n.: this folder holds no part\n"),
    Case("an empty file is cut short", ["check", "t"], 1, err=b"refused Truncated 0\nt: this is empty: did the command before it fail?\n", files={"t": b""}),
    Case("a file that is cut is cut short at its length", ["check", "t"], 1, err=b"refused Truncated 41\nt, byte 41: the bytes end too early\n", files={"t": ONE_ROW[:41]}),
    Case("bytes after a file are refused at their place", ["check", "t"], 1, err=b"refused TrailingBytes 42\nt, byte 42: there are bytes after the end\n", files={"t": ONE_ROW + b"\0"}),
    Case("a file of another magic is refused", ["check", "t"], 1, err=b"refused BadMagic\nt: the first four bytes are not those of this format\n", files={"t": b"G" + ONE_ROW[1:]}),
    Case("a wider packing isn't canonical", ["check", "t"], 1, err=b"refused NotCanonical 29\nt, byte 29: not in canonical form from this byte on\n", files={"t": WIDER}),
    Case("the name - is a file's name for check", ["check", "-"], 0, b"ok batches=1 ranges=0\n", files={"-": ONE_ROW}),
    Case("a report of a check that can't be written is a failed write", ["check", "t"], 1, err=b"refused WriteFault\nlanes check t: standard output: no space is left on the device\n", files={"t": ONE_ROW}, output_to="full"),
    Case("check wants a file", ["check"], 2, err=[b"FILE"]),
    Case("the digest of each batch is that of the file that has it alone, whatever is deleted", ["inspect", "--batches", "--digest", "t"], 0, f"BATCH,ROWS,LIVE,DIGEST\n1.1,1,1,{digest(ONE_ROW)}\n2.1,1,0,{digest(SECOND_BATCH)}\n3.1,1,1,{digest(THIRD_BATCH)}\n".encode(), files={"t": DELETED}),
    Case("in JSON each is a text behind the counts", ["inspect", "--batches", "--digest", "--format", "json", "t"], 0, f'{{"batch":"1.1","rows":1,"live":1,"digest":"{digest(ONE_ROW)}"}}\n{{"batch":"2.1","rows":1,"live":1,"digest":"{digest(SECOND_BATCH)}"}}\n'.encode(), files={"t": BOTH}),
    Case("other rows under a name have another digest", ["inspect", "--digest", "--batches", "t"], 0, f"BATCH,ROWS,LIVE,DIGEST\n1.1,1,1,{digest(OTHER_ROW)}\n".encode(), files={"t": OTHER_ROW}),
    Case("an empty file has no batch with a digest", ["inspect", "--batches", "--digest", "t"], 0, b"BATCH,ROWS,LIVE,DIGEST\n", files={"t": file_of(b"T")}),
    Case("digests that can't be written are a failed write", ["inspect", "--batches", "--digest", "t"], 1, err=b"refused WriteFault\nlanes inspect t: standard output: no space is left on the device\n", files={"t": BOTH}, output_to="full"),
    Case("the digest in JSON is a text", ["inspect", "--digest", "--format", "json", "t"], 0, [b'{"table":"T","digest":"' + digest(ONE_ROW).encode() + b'","batches":1,'], files={"t": ONE_ROW}),
    Case("a summary has no digest", ["inspect", "--digest", "s"], 1, err=b"refused BadMagic\ns: this is a summary, which has no digest: lanes inspect alone says which batches it names\n", files={"s": b"FLSM\1\0"}),
    Case("one file merged is the same file", ["merge", "out", "t"], 0, b"ok\n", files={"t": ONE_ROW}, writes={"out": ONE_ROW}),
    Case("a file merged with itself is the same file", ["merge", "out", "t", "t"], 0, b"ok\n", files={"t": ONE_ROW}, writes={"out": ONE_ROW}),
    Case("the file that is written may be one that is merged", ["merge", "t", "t", "u"], 0, b"ok\n", files={"t": ONE_ROW, "u": SECOND_BATCH}, writes={"t": BOTH, "u": SECOND_BATCH}),
    Case("two files in either order are the same file", ["merge", "out", "u", "t"], 0, b"ok\n", files={"t": ONE_ROW, "u": SECOND_BATCH}, writes={"out": BOTH}),
    Case("of three files each is merged, the last too", ["merge", "out", "t", "u", "v"], 0, b"ok\n", files={"t": ONE_ROW, "u": SECOND_BATCH, "v": THIRD_BATCH}, writes={"out": ALL_THREE}),
    Case("of six files each is merged", ["merge", "out", "b3", "b1", "b6", "b2", "b5", "b4"], 0, b"ok\n", files=EACH_OF_SIX, writes={"out": ALL_SIX}),
    Case("a fault of the sixth is found", ["merge", "out", "b3", "b1", "b6", "b2", "b5", "b4"], 1, err=b"refused Truncated 41\nb4, byte 41: the bytes end too early\n", files={**EACH_OF_SIX, "b4": ONE_ROW[:41]}, writes={"out": None}),
    Case("what is merged to standard output has nothing behind it", ["merge", "/dev/stdout", "t", "u"], 0, BOTH, files={"t": ONE_ROW, "u": SECOND_BATCH}),
    Case("of three queries each is answered, the last too", ["query", "t", "SELECT SUM(A) FROM T", "SELECT COUNT(*) FROM T", "SELECT MIN(A) N FROM T"], 0, b"SUM(A)\n7\nCOUNT(*)\n1\nN\n7\n", files={"t": ONE_ROW}),
    Case("a conflict is refused and leaves the file that is there", ["merge", "out", "t", "u"], 1, err=b"refused Conflict 1.1\nu: this and t have a batch 1.1, with different rows\n", files={"t": ONE_ROW, "u": OTHER_ROW, "out": b"old"}, writes={"out": b"old"}),
    Case("another table is refused", ["merge", "out", "t", "u"], 1, err=b"refused SchemaDiffers\nu: this holds the table U (A SMALLINT), but t holds T (A SMALLINT)\n", files={"t": ONE_ROW, "u": OTHER_TABLE}, writes={"out": None}),
    Case("a file that isn't there can't be merged", ["merge", "out", "t", "none"], 1, err=b"refused ReadFault\nnone: no such file or folder\n", files={"t": ONE_ROW}, writes={"out": None}),
    Case("a file in a folder that isn't there can't be written", ["merge", "none/out", "t"], 1, err=b"refused WriteFault\nnone/out: there is no such folder\n", files={"t": ONE_ROW}),
    Case("a folder can't be written in the place of a file", ["merge", "d", "t"], 2, err=MERGE_FAULT, files={"t": ONE_ROW, **FOLDER}, writes={"t": ONE_ROW, **FOLDER}),
    Case("a folder without a part can't forget", ["forget", "d"], 1, err=b"refused ReadFault\nd: this folder holds no part\n", files=FOLDER, writes=FOLDER),
    Case("a folder without a part that is one of the files to merge is a failed read", ["merge", "out", "t", "d"], 1, err=b"refused ReadFault\nd: this folder holds no part\n", files={"t": ONE_ROW, "out": b"old", **FOLDER}, writes={"out": b"old", **FOLDER}),
    Case("a folder that is the first of them is one too", ["merge", "out", "d", "t"], 1, err=b"refused ReadFault\nd: this folder holds no part\n", files={"t": ONE_ROW, **FOLDER}, writes={"out": None, **FOLDER}),
    Case("an empty file among those to merge is cut short", ["merge", "out", "t", "u"], 1, err=b"refused Truncated 0\nu: this is empty: did the command before it fail?\n", files={"t": ONE_ROW, "u": b"", "out": b"old"}, writes={"out": b"old", "u": b""}),
    Case("an empty file alone is cut short too", ["merge", "out", "u"], 1, err=b"refused Truncated 0\nu: this is empty: did the command before it fail?\n", files={"u": b""}, writes={"out": None, "u": b""}),
    Case("a file that would be written over stays where another is empty", ["merge", "t", "t", "u"], 1, err=b"refused Truncated 0\nu: this is empty: did the command before it fail?\n", files={"t": ONE_ROW, "u": b""}, writes={"t": ONE_ROW, "u": b""}),
    Case("the files to merge are judged in order", ["merge", "out", "u", "d"], 1, err=b"refused Truncated 0\nu: this is empty: did the command before it fail?\n", files={"u": b"", **FOLDER}, writes={"out": None}),
    Case("a folder to write is a fault of the command line, and comes before them", ["merge", "d", "u"], 2, err=MERGE_FAULT, files={"u": b"", **FOLDER}, writes=FOLDER),
    Case("the name - is a file's name for what merge reads", ["merge", "out", "t", "-"], 0, b"ok\n", input=OTHER_ROW, files={"t": ONE_ROW, "-": SECOND_BATCH}, writes={"out": BOTH, "-": SECOND_BATCH}),
    Case("where no file has that name it is a failed read", ["merge", "out", "-"], 1, err=b"refused ReadFault\n-: no such file or folder\n", input=ONE_ROW, writes={"out": None, "-": None}),
    Case("the name - is a file's name for what merge writes", ["merge", "-", "t"], 0, b"ok\n", files={"t": ONE_ROW}, writes={"-": ONE_ROW}),
    Case("merge wants a file to write and one to read", ["merge", "out"], 2, err=[b"IN"]),
    Case("a query over a file is answered", ["query", "t", "SELECT SUM(A) FROM T"], 0, b"SUM(A)\n7\n", files={"t": ONE_ROW}),
    Case(
        "several queries are answered one after another",
        ["query", "t", "SELECT COUNT(*) FROM T", "select a from t group by a having avg(a) = 7"],
        0,
        b"COUNT(*)\n2\nA\n7\n",
        files={"t": BOTH},
    ),
    Case("the first refusal ends them", ["query", "t", "SELECT SUM(A) FROM T", "SELECT B FROM T GROUP BY B", "SELECT"], 1, b"SUM(A)\n7\n", b"refused NoSuchColumn 7\nt: query 2, byte 7: there is no column \"B\": the table has A\n", files={"t": ONE_ROW}),
    Case("an empty query is a fault at its beginning", ["query", "t", ""], 1, err=b"refused Syntax 0\nt: byte 0: the query is empty\n", files={"t": ONE_ROW}),
    Case("a query that begins with a hyphen is a query after two hyphens", ["query", "t", "--", "-x"], 1, err=b"refused Syntax 0\nt: byte 0: \"-\" is not possible here; expected SELECT\n", files={"t": ONE_ROW}),
    Case("another table's query is refused", ["query", "t", "SELECT SUM(A) FROM U"], 1, err=b"refused NoSuchTable\nt: there is no table \"U\": the table here is T\n", files={"t": ONE_ROW}),
    Case("a file is judged before a query", ["query", "t", "SELECT"], 1, err=b"refused Truncated 3\nt, byte 3: the bytes end too early\n", files={"t": b"FLC"}),
    Case("an answer that can't be written is a failed write", ["query", "t", "SELECT SUM(A) FROM T"], 1, err=b"refused WriteFault\nlanes query t: standard output: no space is left on the device\n", files={"t": ONE_ROW}, output_to="full"),
    Case(
        "on a terminal a caret stands under the place where a query is refused",
        ["query", "t", "SELECT SUM(A) FROM T", "SELECT COUNT(B) FROM T"],
        1,
        b"SUM(A)\n7\n",
        b"refused NoSuchColumn 13\nt: query 2, byte 13: there is no column \"B\": the table has A\nSELECT COUNT(B) FROM T\n             ^\n",
        files={"t": ONE_ROW},
        errors_to="terminal",
    ),
    Case("a query that ends too early has the caret at its end", ["query", "t", "SELECT"], 1, err=b"refused Syntax 6\nt: byte 6: the text ends too early; expected a column or a set function\nSELECT\n      ^\n", files={"t": ONE_ROW}, errors_to="terminal"),
    Case("the caret stands in the line of the place", ["query", "t", "SELECT A\nFROM T"], 1, err=b"refused NotGrouped 7\nt: byte 7: \"A\" must be in GROUP BY or inside a set function\nSELECT A\n       ^\n", files={"t": ONE_ROW}, errors_to="terminal"),
    Case("a refusal that names no place of a query has no caret", ["query", "t", "SELECT SUM(A) FROM U"], 1, err=b"refused NoSuchTable\nt: there is no table \"U\": the table here is T\n", files={"t": ONE_ROW}, errors_to="terminal"),
    Case("query wants a file and a query", ["query", "t"], 2, err=[b"SQL"], files={"t": ONE_ROW}),
    Case("a refused file is explained in a sentence on a terminal too", ["check", "none"], 1, err=b"refused ReadFault\nnone: no such file or folder\n", errors_to="terminal"),
    Case("a refused merge too", ["merge", "out", "t", "u"], 1, err=b"refused Truncated 0\nu: this is empty: did the command before it fail?\n", files={"t": ONE_ROW, "u": b""}, errors_to="terminal"),
    Case("and a script that isn't there", ["run", "none"], 1, err=b"refused ReadFault\nnone: no such file or folder\n", errors_to="terminal"),
    Case("the third file to merge is merged too", ["merge", "out", "t", "t", "u"], 0, b"ok\n", files={"t": ONE_ROW, "u": SECOND_BATCH}, writes={"out": BOTH}),
    Case("the third query is answered too", ["query", "t", "SELECT SUM(A) FROM T", "SELECT COUNT(*) FROM T", "SELECT MIN(A) FROM T"], 0, b"SUM(A)\n7\nCOUNT(*)\n1\nMIN(A)\n7\n", files={"t": ONE_ROW}),
    Case("a table is created", ["create", "t", "t", "a", "smallint"], 0, b"ok\n", writes={"t": file_of(b"T")}),
    Case("a file that is there isn't created", ["create", "t", "t", "a", "smallint"], 1, err=b"refused Exists\nt: there is a file of this name already\n", files={"t": b""}, writes={"t": b""}),
    Case("a keyword is no table's name", ["create", "t", "select", "a", "smallint"], 1, err=b'refused BadSchema\nt: "select" is a keyword of the query language and can\'t be a name\n', writes={"t": None}),
    Case("nor a column's", ["create", "t", "T", "a", "smallint", "min", "bigint"], 1, err=b'refused BadSchema\nt: "min" is a keyword of the query language and can\'t be a name\n', writes={"t": None}),
    Case("a name begins with a letter", ["create", "t", "T", "1a", "smallint"], 1, err=b'refused BadSchema\nt: "1a" is not a name: a name is a letter and up to 63 letters, digits or _\n', writes={"t": None}),
    Case("two columns have two names", ["create", "t", "T", "a", "smallint", "A", "bigint"], 1, err=b'refused BadSchema\nt: two columns have the name "A"\n', writes={"t": None}),
    Case("a table has at most 32 columns", ["create", "t", "T", *(word for column in range(33) for word in (f"C{column}", "bigint"))], 1, err=b"refused BadSchema\nt: a table has 1 to 32 columns, and these are 33\n", writes={"t": None}),
    Case("an unknown type is a fault of the command line", ["create", "t", "t", "a", "text"], 2, err=[b"each column is a name and its type"], writes={"t": None}),
    Case("a column without a type is one too", ["create", "t", "t", "a", "smallint", "b"], 2, err=[b"each column is a name and its type"], writes={"t": None}),
    Case("rows are imported from standard input", ["import", "--no-header", "--batch", "2.1", "t", "-"], 0, b"ok batches=1 new=1 rows=1 first=2.1\n", input=b"7\n", files={"t": ONE_ROW}, writes={"t": BOTH, ".t.lanes-lock": None}),
    Case("rows are imported below a header", ["import", "--batch=2.1", "t", "rows"], 0, b"ok batches=1 new=1 rows=1 first=2.1\n", files={"t": ONE_ROW, "rows": b'"a"\r\n7'}, writes={"t": BOTH}),
    Case("a batch that is held with the same rows is nothing new", ["import", "--no-header", "--batch", "1.1", "t", "-"], 0, b"ok batches=1 new=0 rows=1 first=1.1\n", input=b"7\n", files={"t": ONE_ROW}, writes={"t": ONE_ROW}),
    Case("a batch that is held with other rows is a conflict", ["import", "--no-header", "--batch", "1.1", "t", "-"], 1, err=b"refused Conflict 1.1\nt: this has batch 1.1 already, with other rows\n", input=b"8\n", files={"t": ONE_ROW}, writes={"t": ONE_ROW}),
    Case("a name of a batch that is malformed is a fault of the command line", ["import", "--batch", "1", "t", "-"], 2, err=[b"a batch is named O.N"], files={"t": ONE_ROW}, writes={"t": ONE_ROW}),
    Case("a name with a number that is too great is one too", ["import", "--batch", "1.4294967296", "t", "-"], 2, err=[b"a batch is named O.N"]),
    Case("a name with a 0 is refused", ["import", "--no-header", "--batch", "0.1", "t", "-"], 1, err=[b"refused BadName\n"], input=b"7\n", files={"t": ONE_ROW}, writes={"t": ONE_ROW}),
    Case("but not where there are no rows", ["import", "--no-header", "--batch", "0.1", "t", "-"], 0, b"ok batches=0 new=0 rows=0\n", files={"t": ONE_ROW}, writes={"t": ONE_ROW}),
    Case("fields are separated by another character if it is given", ["import", "--separator", ";", "--batch", "2.1", "t", "-"], 0, b"ok batches=1 new=1 rows=1 first=2.1\n", input=b"B;A\n8;7\n", files={"t": NO_PAIR}, writes={"t": ONE_PAIR}),
    Case("a tab is written with a backslash, or as itself", ["import", "--separator", "\\t", "--batch", "2.1", "t", "-"], 0, b"ok batches=1 new=1 rows=1 first=2.1\n", input=b"B\tA\n8\t7\n", files={"t": NO_PAIR}, writes={"t": ONE_PAIR}),
    Case("a comma is then part of a field", ["import", "--separator=;", "--no-header", "t", "v"], 1, err=b'refused BadCsv 1 2\nv, line 1, column B: "2," is not a whole number\n', files={"t": NO_PAIR, "v": b"1;2,\n"}, writes={"t": NO_PAIR}),
    Case("a wrong number of fields is told by that separator", ["import", "--separator=;", "--no-header", "t", "v"], 1, err=b'refused BadCsv 1 0\nv, line 1: the line has 1 field, and the table has 2 columns; commas seem to separate its fields: say --separator \',\'\n', files={"t": NO_PAIR, "v": b"1,2\n"}, writes={"t": NO_PAIR}),
    Case("a separator of two characters is a fault of the command line", ["import", "--separator", ";;", "t", "-"], 2, err=[b"C is one ASCII character"], files={"t": ONE_ROW}),
    Case("a separator that a number has is one too", ["import", "--separator", "-", "t", "-"], 2, err=[b"C is one ASCII character"], files={"t": ONE_ROW}),
    Case("a further word is a null if it is given", ["import", "--null", "NA", "--no-header", "--batch", "2.1", "t", "-"], 0, b"ok batches=1 new=1 rows=3 first=2.1\n", input=b'NA\n"NA"\nNULL\n', files={"t": ONE_ROW}),
    Case("it is exactly that word", ["import", "--null", "NA", "--no-header", "t", "v"], 1, err=b'refused BadCsv 1 1\nv, line 1, column A: "na" is not a whole number; if it is a null, say --null \'na\'\n', files={"t": ONE_ROW, "v": b"na\n"}, writes={"t": ONE_ROW}),
    Case("a word may have quotes of its own", ["import", "--null", '"7"', "--no-header", "--batch", "2.1", "t", "-"], 0, b"ok batches=1 new=1 rows=1 first=2.1\n", input=b'7\n', files={"t": ONE_ROW}, writes={"t": BOTH}),
    Case("a number of 31 digits is a word like another", ["import", "--null", "9" * 31, "--no-header", "--batch", "2.1", "t", "-"], 0, b"ok batches=1 new=1 rows=1 first=2.1\n", input=b"9" * 31 + b"\n", files={"t": ONE_ROW}),
    Case("one of 30 digits is none", ["import", "--null", "9" * 30, "t", "-"], 2, err=[b"WORD is a number"], files={"t": ONE_ROW}),
    Case("the fields are those that words name if they are given", ["import", "--columns", "B,-,a", "--batch", "2.1", "t", "-"], 0, b"ok batches=1 new=1 rows=1 first=2.1\n", input=b"x,y,z\n8,?,7\n", files={"t": NO_PAIR}, writes={"t": ONE_PAIR}),
    Case("a word that names no column is refused with those that are there", ["import", "--columns", "A,-,C", "t", "-"], 1, err=b'refused NoSuchColumn 4\nt: --columns, byte 4: there is no column "C": the table has A, B\n', input=b"x,y,z\n", files={"t": NO_PAIR}, writes={"t": NO_PAIR}),
    Case("the file is judged before that", ["import", "--columns", "C", "t", "-"], 1, err=[b"refused Truncated 0\n"], files={"t": b""}),
    Case("a row is no header", ["import", "--columns", "A,B", "t", "v"], 1, err=b"refused BadCsv 1 0\nv, line 1: this is a row and no header: with --no-header it is read as a row\n", files={"t": NO_PAIR, "v": b"7,8\n"}, writes={"t": NO_PAIR}),
    Case("a name twice is a fault of the command line", ["import", "--columns", "A,-,a", "t", "-"], 2, err=[b"NAMES has a name twice"], files={"t": NO_PAIR}, writes={"t": NO_PAIR}),
    Case("words without a name are one too", ["import", "--columns", "-,-", "t", "-"], 2, err=[b"NAMES has no name of a column"], files={"t": NO_PAIR}, writes={"t": NO_PAIR}),
    Case("help of import tells of its option", ["import", "--help"], 0, [b"--columns <NAMES>"]),
    Case("a number is no word for a null", ["import", "--null", "-99", "t", "-"], 2, err=[b"WORD is a number"], files={"t": ONE_ROW}),
    Case("a field that is no number is refused with its place", ["import", "t", "v"], 1, err=b'refused BadCsv 3 1\nv, line 3, column A: "x" is not a whole number: write a number for each text\n', files={"t": ONE_ROW, "v": b"A\n1\nx\n"}, writes={"t": ONE_ROW}),
    Case("the file is judged before the rows", ["import", "t", "v"], 1, err=b"refused Truncated 0\nt: this is empty: did the command before it fail?\n", files={"t": b"", "v": b"x"}),
    Case("rows are deleted for which a condition is true", ["delete", "t", "A = 7"], 0, b"ok 2\n", files={"t": BOTH}),
    Case("a condition of a column that isn't there is refused with those that are", ["delete", "t", "B = 7"], 1, err=b'refused NoSuchColumn 0\nt: byte 0: there is no column "B": the table has A\n', files={"t": BOTH}, writes={"t": BOTH}),
    Case("a condition that is true nowhere changes nothing", ["delete", "t", "A = 8"], 0, b"ok 0\n", files={"t": BOTH}, writes={"t": BOTH}),
    Case("a condition that is none is refused", ["delete", "t", "A ="], 1, err=b"refused Syntax 3\nt: byte 3: the text ends too early; expected a column or a whole number\n", files={"t": BOTH}, writes={"t": BOTH}),
    Case("rows are deleted by name", ["delete-rows", "t", "2.1", "0", "0"], 0, b"ok\n", files={"t": BOTH}),
    Case("a range that ends before it starts is refused", ["delete-rows", "t", "2.1", "1", "0"], 1, err=b"refused BadRange 0\nt: the range ends before it starts\n", files={"t": BOTH}, writes={"t": BOTH}),
    Case("an ordinal of more than five digits is a fault of the command line", ["delete-rows", "t", "2.1", "0", "000001"], 2, err=[b"FIRST and LAST are numbers of 1 to 5 digits"], files={"t": BOTH}, writes={"t": BOTH}),
    Case("an ordinal that is too great is a fault of the command line", ["delete-rows", "t", "2.1", "1", "65536"], 2, err=[b"FIRST and LAST are numbers"]),
    *FORGETS,
    Case("forget wants a file", ["forget"], 2, err=[b"FILE"]),
    Case("help of forget says when to forget", ["forget", "--help"], 0, [b"Usage: lanes forget [OPTIONS] <FILE>", b"Pull from the other sites first", b"docs/COMMANDS.md"]),
    Case("a file that isn't there can't forget", ["forget", "t"], 1, err=b"refused ReadFault\nt: no such file or folder\n", writes={"t": None}),
    Case("a file that is cut short can't forget", ["forget", "t"], 1, err=[b"refused Truncated 41\n"], files={"t": ONE_ROW[:41]}, writes={"t": ONE_ROW[:41], ".t.lanes-lock": None}),
    Case("rows are dumped", ["dump", "t"], 0, b"A\n7\n7\n", files={"t": BOTH}),
    Case("rows are dumped with their names", ["dump", "--names", "t"], 0, b"BATCH,ORDINAL,A\n1.1,0,7\n2.1,0,7\n", files={"t": BOTH}),
    Case("rows are dumped for which a condition is true", ["dump", "--where", "A = 7", "t"], 0, b"A\n7\n7\n", files={"t": BOTH}),
    Case("those for which it is false are not", ["dump", "--where", "A < 7", "t"], 0, b"A\n", files={"t": BOTH}),
    Case("a condition may begin with a hyphen", ["dump", "--where", "-1 < A", "t"], 0, b"A\n7\n7\n", files={"t": BOTH}),
    Case("columns are dumped in the order of their names", ["dump", "--names", "--columns", "a,A", "t"], 0, b"BATCH,ORDINAL,A,A\n1.1,0,7,7\n2.1,0,7,7\n", files={"t": BOTH}),
    Case("an empty condition and an empty list are all rows and columns", ["dump", "--where", "", "--columns", "", "t"], 0, b"A\n7\n7\n", files={"t": BOTH}),
    Case("a column that isn't there is not dumped", ["dump", "--columns", "A,B", "t"], 1, err=b'refused NoSuchColumn 2\nt: --columns, byte 2: there is no column "B": the table has A\n', files={"t": BOTH}),
    Case("names of columns that begin with hyphens are names", ["dump", "--columns", "--x", "t"], 1, err=b'refused NoSuchColumn 0\nt: --columns, byte 0: there is no column "--x": the table has A\n', files={"t": BOTH}),
    Case("two hyphens are one too", ["dump", "--columns", "--", "t"], 1, err=b'refused NoSuchColumn 0\nt: --columns, byte 0: there is no column "--": the table has A\n', files={"t": BOTH}),
    Case("a dump's condition of a column that isn't there is refused", ["dump", "--where", "B = 7", "t"], 1, err=b'refused NoSuchColumn 0\nt: --where, byte 0: there is no column "B": the table has A\n', files={"t": BOTH}),
    Case("a dump's condition that is none is refused before its columns are", ["dump", "--where", "A =", "--columns", "B", "t"], 1, err=b"refused Syntax 3\nt: --where, byte 3: the text ends too early; expected a column or a whole number\n", files={"t": BOTH}),
    Case("help of dump tells of its options", ["dump", "--help"], 0, [b"--where <COND>", b"--columns <NAMES>"]),
    Case(
        "a file is inspected as an object",
        ["inspect", "--format", "json", "t"],
        0,
        b'{"table":"T","batches":2,"rows":2,"live":2,"ranges":0,"bytes":59,"columns":[{"column":"A","type":"SMALLINT","nulls":0,"values":2,"least":7,"greatest":7,"for":2,"delta":0,"rle":0,"dict":0,"bits":56.00}]}\n',
        files={"t": BOTH},
    ),
    Case("what an empty file does not have is null", ["inspect", "--format", "json", "t"], 0, [b'"least":null,"greatest":null', b'"bits":null}]}\n'], files={"t": file_of(b"T")}),
    Case("its batches are listed with their rows and their live rows", ["inspect", "--batches", "t"], 0, b"BATCH,ROWS,LIVE\n1.1,1,1\n2.1,1,0\n3.1,1,1\n", files={"t": DELETED}),
    Case("and as objects", ["inspect", "--batches", "--format", "json", "t"], 0, b'{"batch":"1.1","rows":1,"live":1}\n{"batch":"2.1","rows":1,"live":0}\n{"batch":"3.1","rows":1,"live":1}\n', files={"t": DELETED}),
    Case("an empty file has no batches", ["inspect", "--batches", "t"], 0, b"BATCH,ROWS,LIVE\n", files={"t": file_of(b"T")}),
    Case("another form of a report is a fault of the command line", ["inspect", "--format", "csv", "t"], 2, err=[b"FORMAT is text or json"], files={"t": BOTH}),
    Case("a query is answered as values", ["query", "--format", "csv", "t", "SELECT SUM(A),MIN(A) FROM T WHERE A = 1"], 0, b"SUM(A),MIN(A)\n,\n", files={"t": BOTH}),
    Case("a query is answered as objects", ["query", "--format", "json", "t", "SELECT A,COUNT(*) AS N,AVG(A) FROM T GROUP BY A"], 0, b'{"A":7,"N":2,"AVG(A)":7.000000}\n', files={"t": BOTH}),
    Case("a query is answered as a table", ["query", "--format", "table", "t", "SELECT A,SUM(A) FROM T GROUP BY A"], 0, b"A  SUM(A)\n-  ------\n7      14\n", files={"t": BOTH}),
    *(
        Case(f"of several queries each is answered as {form}", ["query", "--format", form, "t", "SELECT SUM(A) FROM T", "SELECT COUNT(*) AS N FROM T", "SELECT MAX(A) FROM T"], 0, wanted, files={"t": BOTH})
        for form, wanted in {
            "csv": b"SUM(A)\n14\nN\n2\nMAX(A)\n7\n",
            "json": b'{"SUM(A)":14}\n{"N":2}\n{"MAX(A)":7}\n',
            "table": b"SUM(A)\n------\n    14\nN\n-\n2\nMAX(A)\n------\n     7\n",
        }.items()
    ),
    *(
        Case(f"the first refusal ends them as {form} too", ["query", "--format", form, "t", "SELECT SUM(A) FROM T", "SELECT B FROM T", "SELECT COUNT(*) FROM T"], 1, wanted, b'refused NoSuchColumn 7\nt: query 2, byte 7: there is no column "B": the table has A\n', files={"t": BOTH})
        for form, wanted in {"csv": b"SUM(A)\n14\n", "json": b'{"SUM(A)":14}\n', "table": b"SUM(A)\n------\n    14\n"}.items()
    ),
    *(
        Case(f"a mean of -0.5 has its sign as {form}", ["query", "--format", form, "t", "SELECT AVG(A) AS M FROM T"], 0, wanted, files={"t": MEAN})
        for form, wanted in {"text": b"M\n-0.500000\n", "csv": b"M\n-0.500000\n", "json": b'{"M":-0.500000}\n', "table": b"        M\n---------\n-0.500000\n"}.items()
    ),
    Case("a folder is not an offer, and its parts are", ["apply", "t", "d"], 1, err=b"refused ReadFault\nd: this is a folder: apply its parts, as d/*.lanes\n", files={"t": ONE_ROW, **FOLDER}, writes={"t": ONE_ROW}),
    Case("a folder is not one for a folder either", ["apply", "d", "e"], 1, err=b"refused ReadFault\ne: this is a folder: apply its parts, as e/*.lanes\n", files={"d/%s.lanes" % hashlib.sha512(ONE_ROW).hexdigest()[:32]: ONE_ROW, "e/kept": b"old"}),
    Case("another form is a fault of the command line", ["query", "--format", "xml", "t", "SELECT A FROM T"], 2, err=[b"FORMAT is text, csv, json or table"]),
    Case("lines of standard input are queries", ["query", "t", "-"], 0, b"SUM(A)\n14\nCOUNT(*)\n2\n", input=b"SELECT SUM(A) FROM T\n\nSELECT COUNT(*) FROM T", files={"t": BOTH}),
    Case(
        "a line that is refused is told, and passed over",
        ["query", "t", "-"],
        1,
        b"SUM(A)\n14\n",
        b"refused Syntax 0\nt: line 1, byte 0: \"x\" is not possible here; expected SELECT\nrefused Syntax 2\nt: line 2, byte 2: this is not UTF-8\nrefused LineTooLong\nt: line 3: the line has more than 1,048,576 bytes\n",
        input=b"x\nSE\xff\n" + b"y" * 1_048_577 + b"\nSELECT SUM(A) FROM T\n",
        files={"t": BOTH},
    ),
    Case("on a terminal lines are asked for, and it is said how to leave", ["query", "t", "-"], 0, b"COUNT(*)\n2\n", WELCOME + b"lanes> lanes> ", input=b"SELECT COUNT(*) FROM T\n", files={"t": BOTH}, input_from="terminal"),
    Case("there a query may end in a semicolon", ["query", "t", "-"], 0, b"COUNT(*)\n2\n", WELCOME + b"lanes> lanes> ", input=b"SELECT COUNT(*) FROM T ; \n", files={"t": BOTH}, input_from="terminal"),
    Case("a semicolon in its midst is refused", ["query", "t", "-"], 1, err=[b"refused Syntax 22\nt: line 1, byte 22: there is no semicolon"], input=b"SELECT COUNT(*) FROM T; SELECT\n", files={"t": BOTH}, input_from="terminal"),
    *(
        Case(f"{word} leaves", ["query", "t", "-"], 0, b"COUNT(*)\n2\n", WELCOME + b"lanes> lanes> ", input=b"SELECT COUNT(*) FROM T\n%s\nSELECT\n" % word.encode(), files={"t": BOTH}, input_from="terminal")
        for word in ("quit", "QUIT;", " exit", "\\q")
    ),
    Case("help says how to ask and how to leave", ["query", "t", "-"], 0, b"", [WELCOME + b"lanes> A query is a line", b"Ctrl-D", b"leaves.\nlanes> "], input=b"help\n", files={"t": BOTH}, input_from="terminal"),
    Case("in a pipe help is no word of its own", ["query", "t", "-"], 1, err=[b"refused Syntax 0\n"], input=b"help\n", files={"t": BOTH}),
    Case("lines that are queries stand alone", ["query", "t", "-", "SELECT A FROM T"], 2, err=[b"SQL that is - is the only SQL"]),
    Case("a file is an offer of itself", ["apply", "t", "u"], 0, b"ok batches=2 ranges=0 new=1\n", files={"t": ONE_ROW, "u": SECOND_BATCH}, writes={"t": BOTH}),
    Case("of several offers the new batches are counted once", ["apply", "t", "u", "v", "u", "t"], 0, b"ok batches=3 ranges=0 new=2\n", files={"t": ONE_ROW, "u": BOTH, "v": ALL_THREE}, writes={"t": ALL_THREE}),
    Case("offers are applied all or not at all", ["apply", "t", "u", "v"], 1, err=b"refused Conflict 1.1\nt: this has batch 1.1 already, with other rows\n", files={"t": ONE_ROW, "u": SECOND_BATCH, "v": OTHER_ROW}, writes={"t": ONE_ROW}),
    Case("an offer of another table is refused", ["apply", "t", "u"], 1, err=b"refused SchemaDiffers\nu: this holds the table U (A SMALLINT), but t holds T (A SMALLINT)\n", files={"t": ONE_ROW, "u": OTHER_TABLE}, writes={"t": ONE_ROW}),
    Case("an offer that is empty is said to be", ["apply", "t", "-"], 1, err=b"refused Truncated 0\nlanes apply t: standard input: this is empty: did the command before it fail?\n", files={"t": ONE_ROW}, writes={"t": ONE_ROW}),
    Case("of several offers the one of another table is named", ["apply", "t", "u", "v"], 1, err=b"refused SchemaDiffers\nv: this holds the table U (A SMALLINT), but t holds T (A SMALLINT)\n", files={"t": ONE_ROW, "u": SECOND_BATCH, "v": OTHER_TABLE}, writes={"t": ONE_ROW}),
    *(
        Case(f"{words[0]} prints nothing if it is to be quiet", [words[0], "--quiet", *words[1:]], 0, b"", files={"t": ONE_ROW, "u": SECOND_BATCH, "rows": b"A\n7\n"})
        for words in (["create", "new", "T", "A", "SMALLINT"], ["import", "t", "rows"], ["delete", "t", "A = 7"], ["delete-rows", "t", "1.1", "0", "0"], ["apply", "t", "u"], ["merge", "out", "t", "u"])
    ),
    Case("a refusal is said though it is to be quiet", ["import", "--quiet", "--no-header", "t", "-"], 1, err=b'refused BadCsv 1 1\nlanes import t: standard input, line 1, column A: "x" is not a whole number: write a number for each text\n', input=b"x\n", files={"t": ONE_ROW}, writes={"t": ONE_ROW}),
    Case("several texts are imported under names that count on", ["import", "--batch", "2.1", "t", "rows", "-"], 0, b"ok batches=2 new=2 rows=2 first=2.1\n", input=b"A\n8\n", files={"t": ONE_ROW, "rows": b"A\n7\n"}, writes={"t": file_of(b"T", batch(1, 1, 7), batch(2, 1, 7), batch(2, 2, 8))}),
    Case("of several texts all are imported or none", ["import", "t", "rows", "bad", "worse"], 1, err=b'refused BadCsv 2 1\nbad, line 2, column A: "x" is not a whole number: write a number for each text\n', files={"t": ONE_ROW, "rows": b"A\n7\n", "bad": b"A\nx\n", "worse": b""}, writes={"t": ONE_ROW}),
    Case("one text alone may be standard input", ["import", "t", "-", "-"], 2, err=[b"only one CSV can be -"], files={"t": ONE_ROW}),
    Case("one offer alone may be standard input", ["apply", "t", "-", "-"], 2, err=[b"only one OFFER can be -"]),
    Case("a summary isn't written to a terminal", ["summary", "t"], 2, err=[b"standard output is a terminal"], files={"t": ONE_ROW}, output_to="terminal"),
    Case("nor is an offer", ["offer", "t", "-"], 2, err=[b"standard output is a terminal"], files={"t": ONE_ROW}, output_to="terminal"),
]
