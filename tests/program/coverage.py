"""What a partial answer and a summary are told to cover by `inspect`, and what `finish --expect` refuses. Summaries are made by hand from docs/FORMATS.md."""

from cases import BOTH, ONE, Case, file_of
from partial_answers import DELETING, FIRST, NO_QUESTION, OF_U, SECOND, TWO, counted, number, partial


def summary(*names, table=b"T"):
    """The summary of a table with the one column A SMALLINT: an origin and a number of each batch, in ascending order."""
    return b"FLSM" + bytes([1, 0, 1, 0, 1]) + table + bytes([2, 1]) + b"A" + number(len(names), 4) + b"".join(number(word, 4) for name in names for word in name)


MANY = counted(9, 63, (1, 1, 1), (1, 3, 9), (4_294_967_295, 7, 4_294_967_295), strays=[(2, 5, 6), (3, 1, 1)])
LINES = b"SELECT COUNT(*),SUM(A)\n\tFROM T"
HOSTILE = 'x"\\\x01\x1b[2J\u00e9'.encode()
NO_GROUP = partial(b"SELECT A,COUNT(*) FROM T GROUP BY A", [], [(1, 1, 1)])
LOST = b": batch %s is named here and was not counted: the partial answer of its file is missing, or the batch was forgotten since this summary was made\n"
ANSWER = b"COUNT(*),SUM(A)\n2,14\n"
# A file of one batch of one row, which is deleted.
ALL_DELETED = file_of(b"T", ONE, ranges=[(1, 1, 0, 0)])


def told(name, bytes_, text, json):
    return [Case(name, ["inspect", "p"], 0, text, files={"p": bytes_}), Case(f"{name}, as JSON", ["inspect", "--format", "json", "p"], 0, json, files={"p": bytes_})]


def looks_like(name, bytes_, found):
    return Case(name, ["inspect", "p"], 1, err=b"refused BadMagic\np: " + found + b"\n", files={"p": bytes_})


def expects(name, words, files, **outcome):
    return Case(name, ["finish", *words], files=files, **{"status": 0, "out": b"", "err": b"", **outcome})


COVERAGE_CASES = [
    *told(
        "a partial answer is told by its table, its query, its groups and its batches",
        TWO,
        b"table T\nquery SELECT COUNT(*),SUM(A) FROM T\ngroups 1\nbatches 2\nrun 1.1 1.1\nrun 2.1 2.1\n",
        b'{"table":"T","query":"SELECT COUNT(*),SUM(A) FROM T","groups":1,"batches":2,"runs":[["1.1","1.1"],["2.1","2.1"]],"strays":[]}\n',
    ),
    *told(
        "a run of many names has its first and its last",
        MANY,
        b"table T\nquery SELECT COUNT(*),SUM(A) FROM T\ngroups 1\nbatches 4294967297\nrun 1.1 1.1\nrun 1.3 1.9\nrun 4294967295.7 4294967295.4294967295\n",
        b'{"table":"T","query":"SELECT COUNT(*),SUM(A) FROM T","groups":1,"batches":4294967297,"runs":[["1.1","1.1"],["1.3","1.9"],["4294967295.7","4294967295.4294967295"]],"strays":[["2.5","2.6"],["3.1","3.1"]]}\n',
    ),
    *told("strays are told as JSON", DELETING, b"table T\nquery SELECT COUNT(*),SUM(A) FROM T\ngroups 1\nbatches 1\nrun 1.1 1.1\n", b'{"table":"T","query":"SELECT COUNT(*),SUM(A) FROM T","groups":1,"batches":1,"runs":[["1.1","1.1"]],"strays":[["2.1","2.1"]]}\n'),
    *told("a partial answer may have no group", NO_GROUP, b"table T\nquery SELECT A,COUNT(*) FROM T GROUP BY A\ngroups 0\nbatches 1\nrun 1.1 1.1\n", b'{"table":"T","query":"SELECT A,COUNT(*) FROM T GROUP BY A","groups":0,"batches":1,"runs":[["1.1","1.1"]],"strays":[]}\n'),
    *told("it may have no batch", counted(0, 0), b"table T\nquery SELECT COUNT(*),SUM(A) FROM T\ngroups 1\nbatches 0\n", b'{"table":"T","query":"SELECT COUNT(*),SUM(A) FROM T","groups":1,"batches":0,"runs":[],"strays":[]}\n'),
    *told(
        "a query of several lines is told in one",
        counted(1, 7, (1, 1, 1), sql=LINES),
        b"table T\nquery SELECT COUNT(*),SUM(A)  FROM T\ngroups 1\nbatches 1\nrun 1.1 1.1\n",
        b'{"table":"T","query":"SELECT COUNT(*),SUM(A)\\u000a\\u0009FROM T","groups":1,"batches":1,"runs":[["1.1","1.1"]],"strays":[]}\n',
    ),
    *told(
        "a text that is no query does no harm at a terminal, nor in JSON",
        counted(1, 7, (1, 1, 1), sql=HOSTILE),
        b'table T\nquery x"\\  [2J  \ngroups 1\nbatches 1\nrun 1.1 1.1\n',
        '{"table":"T","query":"x\\u0022\\u005c\\u0001\\u001b[2J\u00e9","groups":1,"batches":1,"runs":[["1.1","1.1"]],"strays":[]}\n'.encode(),
    ),
    *told("a summary is told by its table and its batches", summary((1, 1), (1, 2), (2, 7)), b"table T\nbatches 3\nrun 1.1 1.2\nrun 2.7 2.7\n", b'{"table":"T","batches":3,"runs":[["1.1","1.2"],["2.7","2.7"]]}\n'),
    *told("a summary may have no batch", summary(), b"table T\nbatches 0\n", b'{"table":"T","batches":0,"runs":[]}\n'),
    Case("a partial answer that is cut short is refused with its place", ["inspect", "p"], 1, err=b"refused Truncated 40\np, byte 40: the bytes end too early\n", files={"p": TWO[:40]}),
    Case("a summary that claims more names than it has is refused with its place", ["inspect", "p"], 1, err=[b"refused Truncated 17\np, byte 17: "], files={"p": summary()[:-4] + number(2**20, 4)}),
    Case("a name twice in a summary is refused with its place", ["inspect", "p"], 1, err=[b"refused BadOrder 25\np, byte 25: "], files={"p": summary((1, 1), (1, 1))}),
    Case("bytes behind a summary are refused", ["inspect", "p"], 1, err=[b"refused TrailingBytes 25\n"], files={"p": summary((1, 1)) + b"\0"}),
    Case("a report that can't be written is a failed write", ["inspect", "p"], 1, err=b"refused WriteFault\nlanes inspect p: standard output: no space is left on the device\n", files={"p": TWO}, output_to="full"),
    looks_like("a text is said to be one", b"A\n7\n", b"this is a text file, not a lanes file: import CSV with lanes import, run a script with lanes run"),
    looks_like("so is what gzip packed", b"\x1f\x8b\x08\x00\x00", b"this is packed by gzip: unpack it with gzip -dc"),
    looks_like("of other bytes it is said that they are no format of this program", bytes(range(128, 160)), b"the first four bytes are not those of this format"),
    *(
        Case(f"a partial answer has no digest: {' '.join(options)}", ["inspect", *options, "p"], 1, err=b"refused BadMagic\np: this is a partial answer, which has no digest: lanes inspect alone says what it covers\n", files={"p": TWO})
        for options in (["--digest"], ["--batches", "--digest"])
    ),
    Case("a partial answer has no list of batches", ["inspect", "--batches", "p"], 1, err=[b"refused BadMagic\np: ", b"this is a partial answer: lanes combine, lanes finish and lanes inspect read it\n"], files={"p": TWO}),
    Case("three bytes are too few", ["inspect", "p"], 1, err=b"refused Truncated 3\np, byte 3: the bytes end too early\n", files={"p": b"FLP"}),
    expects("an answer comes if all batches of a summary were counted", ["--expect", "s", "p"], {"p": TWO, "s": summary((1, 1), (2, 1))}, out=ANSWER),
    expects("and if some were", ["--expect", "s", "p"], {"p": TWO, "s": summary((2, 1))}, out=ANSWER),
    expects("a summary without batches expects nothing", ["--expect", "s", "p"], {"p": TWO, "s": summary()}, out=ANSWER),
    expects("an answer under an expectation has the forms of every answer", ["--expect", "s", "--format", "json", "p"], {"p": TWO, "s": summary((1, 1))}, out=b'{"COUNT(*)":2,"SUM(A)":14}\n'),
    expects("a batch that was not counted is missing", ["--expect", "s", "p"], {"p": FIRST, "s": summary((1, 1), (2, 1))}, status=1, err=b"refused Missing 2.1\ns" + LOST % b"2.1"),
    expects("the second summary is looked at too", ["--expect", "r", "--expect", "s", "p"], {"p": FIRST, "r": summary((1, 1)), "s": summary((2, 1))}, status=1, err=b"refused Missing 2.1\ns" + LOST % b"2.1"),
    expects("the least batch is told, with the first summary that names it", ["--expect", "r", "--expect", "s", "--expect", "p2", "p"], {"p": FIRST, "r": summary((9, 1)), "s": summary((2, 1), (9, 1)), "p2": summary((2, 1))}, status=1, err=b"refused Missing 2.1\ns" + LOST % b"2.1"),
    expects("a stray is not counted", ["--expect", "s", "p"], {"p": DELETING, "s": summary((2, 1))}, status=1, err=b"refused Missing 2.1\ns" + LOST % b"2.1"),
    expects("a batch past a run is missing", ["--expect", "s", "p"], {"p": MANY, "s": summary((1, 9), (1, 10), (4_294_967_295, 4_294_967_295))}, status=1, err=b"refused Missing 1.10\ns" + LOST % b"1.10"),
    expects("a summary may be standard input", ["--expect", "-", "p"], {"p": FIRST}, input=summary((2, 1)), status=1, err=b"refused Missing 2.1\nlanes finish p: standard input" + LOST % b"2.1"),
    expects("so may the partial answer", ["--expect", "s", "-"], {"s": summary((2, 1))}, input=SECOND, out=b"COUNT(*),SUM(A)\n1,7\n"),
    expects("but not both", ["--expect", "-", "-"], {}, status=2, err=[b"only one of SUMMARY and PARTIAL can be -"]),
    expects("the faults of the partial answer come first", ["--expect", "s", "p"], {"p": FIRST[:-1], "s": b""}, status=1, err=[b"refused Truncated %d\np, " % (len(FIRST) - 1)]),
    expects("then those of the summaries in turn", ["--expect", "r", "--expect", "s", "p"], {"p": OF_U, "r": summary((1, 1)), "s": FIRST}, status=1, err=b"refused BadMagic\ns: this is a partial answer: lanes combine, lanes finish and lanes inspect read it\n"),
    expects("a summary that isn't there is a failed read", ["--expect", "s", "p"], {"p": FIRST}, status=1, err=b"refused ReadFault\ns: no such file or folder\n"),
    expects("then another table", ["--expect", "r", "--expect", "s", "p"], {"p": NO_QUESTION, "r": summary((8, 8)), "s": summary((8, 8), table=b"U")}, status=1, err=b"refused SchemaDiffers\ns: this holds the table U (A SMALLINT), but p holds T (A SMALLINT)\n"),
    expects("then a missing batch", ["--expect", "s", "p"], {"p": NO_QUESTION, "s": summary((8, 8))}, status=1, err=b"refused Missing 8.8\ns" + LOST % b"8.8"),
    expects("and then the refusals of the query", ["--expect", "s", "p"], {"p": NO_QUESTION, "s": summary((2, 1))}, status=1, err=[b"refused Syntax 0\np", b"its text is not a query\n"]),
    expects("an answer under an expectation that can't be written is a failed write", ["--expect", "s", "p"], {"p": TWO, "s": summary((1, 1))}, status=1, err=b"refused WriteFault\nlanes finish p: standard output: no space is left on the device\n", output_to="full"),
    Case("rows of a batch that is held are deleted", ["delete-rows", "--held", "t", "1.1", "0", "0"], 0, b"ok held=1\n", files={"t": file_of(b"T", ONE)}, writes={"t": ALL_DELETED, ".t.lanes-lock": None}),
    Case("rows that are deleted already stay so, and their batch is held", ["delete-rows", "--held", "t", "1.1", "0", "0"], 0, b"ok held=1\n", files={"t": ALL_DELETED}, writes={"t": ALL_DELETED}),
    Case("rows of a batch that isn't held are not deleted", ["delete-rows", "--held", "t", "2.2", "0", "0"], 0, b"ok held=0\n", files={"t": BOTH}, writes={"t": BOTH, ".t.lanes-lock": None}),
    Case("with --quiet neither is said", ["delete-rows", "--held", "--quiet", "t", "2.2", "0", "0"], 0, files={"t": BOTH}, writes={"t": BOTH}),
    Case("a name that isn't proper is refused, held or not", ["delete-rows", "--held", "t", "0.1", "1", "0"], 1, err=b"refused BadName\nt: origins and batch numbers start at 1\n", files={"t": BOTH}, writes={"t": BOTH}),
    Case("so is a range that ends before it starts", ["delete-rows", "--held", "t", "2.2", "1", "0"], 1, err=b"refused BadRange 0\nt: the range ends before it starts\n", files={"t": BOTH}, writes={"t": BOTH}),
]
