"""Cases at the limits: full replicas, many messages, ranges, columns and groups, and queries of a megabyte.

What is wanted is worked out here from the input, by rules of its own, never from what the program wrote.
"""

import hashlib

from cases import ONE_ROW, SECOND_BATCH, Case, batch, file_of

BATCHES = 1_048_576
MESSAGES = 65_536
LINE = 1_048_576


def lines(*parts):
    return "".join(f"{part}\n" for part in parts).encode()


def full_replica():
    """Appends to the limit, and what is refused and what isn't after that."""
    replies = ["ok", *(f"ok 1.{number}" for number in range(1, BATCHES + 1))]
    script = ["table 2 T A SMALLINT", *["append 1 (7)"] * BATCHES]
    script += ["append 1 (7)", "insert 1 9.1 (7)", "insert 1 1.5 (7)", "merge 2 1", "append 2 (7)", "delete 2 9.1 0 0", "query 2 SELECT COUNT(*),SUM(A) FROM T"]
    replies += ["refused Full", "refused Full", "ok already", "ok", "refused Full", "ok", "ok 1", "COUNT(*),SUM(A)", f"{BATCHES},{7 * BATCHES}"]
    return Case("a replica holds 1,048,576 batches and no more", ["run"], 0, lines(*replies), input=lines(*script))


def full_union():
    """Two replicas that are too many batches together: the merge is refused, and each stays as it was."""
    half = BATCHES // 2 + 1
    script = ["table 2 T A SMALLINT", *["append 1 (7)"] * half, *["append 2 (7)"] * half, "merge 1 2", "query 1 SELECT COUNT(*) FROM T"]
    replies = ["ok", *(f"ok 1.{number}" for number in range(1, half + 1)), *(f"ok 2.{number}" for number in range(1, half + 1)), "refused Full", "ok 1", "COUNT(*)", str(half)]
    return Case("a merge past 1,048,576 batches is refused", ["run"], 0, lines(*replies), input=lines(*script))


def full_messages():
    script = ["table 1 T A SMALLINT", *["ask 1"] * (MESSAGES + 1), "serve 1 1", "take 1 1"]
    replies = ["ok", *(f"ok {number}" for number in range(1, MESSAGES + 1)), "refused Full", "refused Full", "refused NoSuchMessage"]
    return Case("65,536 messages are kept and no more", ["run"], 0, lines(*replies), input=lines(*script))


def equal_exports(count, *others):
    """Whether the last replies are so many exports of the same bytes, and the ones before end as is wanted."""

    def holds(out):
        replies = out.split(b"\n")
        exports = replies[-1 - count : -1]
        return len(set(exports)) == 1 and exports[0].startswith(b"ok 464c4346") and replies[: -1 - count][-len(others) :] == [other.encode() for other in others]

    return holds


def many_ranges():
    """Every other row of 20,000 is deleted: 10,000 ranges, which a merge and an exchange of messages bring alike."""
    rows = ",".join(f"({row % 1000})" for row in range(20_000))
    script = ["table 3 T A SMALLINT", f"append 1 {rows}", *(f"delete 2 1.1 {row} {row}" for row in range(0, 20_000, 2))]
    script += ["merge 1 2", "ask 3", "serve 1 1", "take 3 2", "merge 2 3", "query 3 SELECT COUNT(*),SUM(A) FROM T", "export 1", "export 2", "export 3"]
    kept = [row % 1000 for row in range(1, 20_000, 2)]
    return Case("10,000 ranges are exported alike", ["run"], 0, equal_exports(3, "ok 1", "COUNT(*),SUM(A)", f"{len(kept)},{sum(kept)}"), input=lines(*script))


def many_columns():
    """32 columns of four types, with a null in each row and a column of nulls alone, grouped by all 32."""
    types = ["TINYINT", "SMALLINT", "INTEGER", "BIGINT"]
    names = [f"C{column}" for column in range(32)]
    table = " ".join(f"{name} {types[column % 4]}" for column, name in enumerate(names))

    def cell(row, column):
        return "NULL" if column == 31 or (row + column) % 3 == 0 else str((row * 31 + column) % 100 - 50)

    rows = [[cell(row, column) for column in range(32)] for row in range(300)]
    text = ",".join("(" + ",".join(row) + ")" for row in rows)
    keys = {tuple(row) for row in rows}
    ascending = sorted(keys, key=lambda row: [(0, 0) if it == "NULL" else (1, int(it)) for it in row])
    grouped = ",".join(names)
    script = [f"table 2 T {table}", f"append 1 {text}", "merge 2 1", "recode 2 1.1 5 0 DICT", f"query 2 SELECT {grouped} FROM T GROUP BY {grouped}", "export 1", "export 2"]
    return Case("32 columns are exported and grouped", ["run"], 0, equal_exports(2, f"ok {len(keys)}", grouped, *(",".join(row) for row in ascending)), input=lines(*script))


def many_groups():
    """100,000 groups of two rows each, whose rows come in no order."""
    values = [place * 7919 % 100_000 for place in range(100_000)]
    batches = [",".join(f"({value - 50_000})" for value in values[start : start + 50_000]) for start in (0, 50_000)]
    script = ["table 1 T A INTEGER", *(f"append 1 {rows}" for rows in batches), *(f"append 1 {rows}" for rows in reversed(batches)), "query 1 SELECT A,COUNT(*),MAX(A) FROM T GROUP BY A"]
    replies = ["ok", "ok 1.1", "ok 1.2", "ok 1.3", "ok 1.4", "ok 100000", "A,COUNT(*),MAX(A)", *(f"{value},2,{value}" for value in range(-50_000, 50_000))]
    return Case("100,000 groups ascend", ["run"], 0, lines(*replies), input=lines(*script))


def long_where(name, word, last, count):
    """A condition as long as a line may be, of comparisons that are false, or true, but for the last."""
    head, step, end = "query 1 SELECT COUNT(*) FROM T WHERE ", f"A={7 if word == 'AND' else 1} {word} ", f"A={last}"
    text = head + step * ((LINE - len(head) - len(end)) // len(step)) + end
    script = ["table 1 T A SMALLINT", "append 1 (7),(NULL),(7)", text]
    return Case(name, ["run"], 0, lines("ok", "ok 1.1", "ok 1", "COUNT(*)", count), input=lines(*script))


def ranges_of(count):
    """Deletions of single rows that don't touch, of a batch that isn't held."""
    return count.to_bytes(8, "little") + b"".join((9).to_bytes(4, "little") + (9).to_bytes(4, "little") + 2 * (2 * place).to_bytes(2, "little") for place in range(count))


def query_line(length):
    """A query of so many bytes: white space in it is as long as is needed."""
    return b"SELECT COUNT(*)" + b" " * (length - 21) + b"FROM T"


def lines_of_queries(name, *lengths, refused=None):
    """Queries of these lengths as lines of standard input, of which one may be too long."""
    kept = [length for length in lengths if length != refused]
    told = b"".join(b"refused LineTooLong\nt: line %d: the line has more than 1,048,576 bytes\n" % (lengths.index(length) + 1) for length in lengths if length == refused)
    return Case(name, ["query", "t", "-"], 1 if refused else 0, b"COUNT(*)\n1\n" * len(kept), told, b"".join(query_line(length) + b"\n" for length in lengths), files={"t": SECOND_BATCH})


def many_words():
    """An import whose --columns has 96 words: the 32 columns of a table, each between two fields that are passed over."""
    head = b"FLCF" + bytes([1, 0, 32, 0, 1]) + b"T" + b"".join(bytes([2, len(name)]) + name for name in (b"C%d" % column for column in range(32)))
    row = batch(1, 1, 0) + b"".join(bytes(5) + column.to_bytes(2, "little") for column in range(1, 32))
    words = ",".join(f"-,C{column},-" for column in reversed(range(32)))
    line = ",".join(f"x,{column}," for column in reversed(range(32)))
    return Case(
        "an import takes 96 words for its fields",
        ["import", "--no-header", "--columns", words, "--batch", "1.1", "t", "-"],
        0,
        b"ok batches=1 new=1 rows=1 first=1.1\n",
        input=lines(line),
        files={"t": head + bytes(12)},
        writes={"t": head + bytes([1, 0, 0, 0]) + row + bytes(8)},
    )


FULL_FILE = file_of(b"T", *(batch(1, number, 7) for number in range(1, BATCHES + 1)))[:-8] + ranges_of(10_000)
NO_BATCHES = file_of(b"T")


def folder_of(*files):
    """A folder d that has each of these files as a part."""
    return {f"d/{hashlib.sha512(data).hexdigest()[:32]}.lanes": data for data in files}


def no_room(name):
    return f"refused Full\n{name}: there is no room: a replica holds at most 1,048,576 batches, a script 65,536 messages\n".encode()


# A folder with a batch that lies in two parts, which counts twice where only the heads are read.
FULL_FOLDER, FULLER_FOLDER = folder_of(FULL_FILE), folder_of(FULL_FILE, ONE_ROW)
NO_ROWS = b"ok batches=0 new=0 rows=0\n"

# Each batch but the last is deleted.
ALL_BATCHES = [batch(1, number, 7) for number in range(1, BATCHES + 1)]
ALL_RANGES = [(1, number, 0, 0) for number in range(1, BATCHES)]

LIMIT_CASES = [
    full_replica(),
    full_union(),
    full_messages(),
    many_ranges(),
    many_columns(),
    many_words(),
    many_groups(),
    long_where("a megabyte of OR is answered", "OR", 7, 2),
    long_where("a megabyte of AND is answered", "AND", 8, 0),
    lines_of_queries("a query of exactly 1,048,576 bytes is answered, and one more byte is too long", LINE - 1, LINE, LINE + 1, 40, refused=LINE + 1),
    # What is read at once is 65,536 bytes: the lines end before, at and behind its end, and at the end of the second.
    lines_of_queries("queries whose lines lie across what is read at once are answered", 65_530, 40, 30, 65_436, 65_535, 65_536, 65_537, 200_000, 40),
    Case("a file of 1,048,576 batches and 10,000 ranges is checked", ["check", "t"], 0, b"ok batches=1048576 ranges=10000\n", files={"t": FULL_FILE}),
    Case("it is merged with itself to the same bytes", ["merge", "out", "t", "t"], 0, b"ok\n", files={"t": FULL_FILE}, writes={"out": FULL_FILE}),
    Case("it is queried", ["query", "t", "SELECT COUNT(*),SUM(A) FROM T"], 0, f"COUNT(*),SUM(A)\n{BATCHES},{7 * BATCHES}\n".encode(), files={"t": FULL_FILE}),
    Case(
        "a million batches are forgotten in one command",
        ["forget", "t"],
        0,
        f"ok batches={BATCHES - 1} rows={BATCHES - 1}\n".encode(),
        files={"t": file_of(b"T", *ALL_BATCHES, ranges=ALL_RANGES)},
        writes={"t": file_of(b"T", ALL_BATCHES[-1], ranges=ALL_RANGES)},
    ),
    Case("one batch more is refused in a full file", ["merge", "out", "t", "u"], 1, err=b"refused Full\nu: there is no room: a replica holds at most 1,048,576 batches, a script 65,536 messages\n", files={"t": FULL_FILE, "u": SECOND_BATCH}, writes={"out": None}),
    *(
        Case(f"{what} into {where} is refused" if rows else f"no rows go into {where}, {what}", ["import", "--no-header", *named, target, "-"], 1 if rows else 0, b"" if rows else NO_ROWS, no_room(target) if rows else b"", input=rows, files=files, writes=files)
        for where, target, files in (("a full file", "t", {"t": FULL_FILE}), ("a full folder", "d", FULL_FOLDER), ("a folder that counts a batch twice", "d", FULLER_FOLDER))
        for what, named in (("a load under a drawn name", []), ("a named load", ["--batch", "2.1"]))
        for rows in (b"7\n", b"")
    ),
    Case("a file that claims a batch too many is refused", ["check", "t"], 1, err=b"refused BadCount 13\nt, byte 13: the count is out of range\n", files={"t": NO_BATCHES[:13] + (BATCHES + 1).to_bytes(4, "little") + NO_BATCHES[17:]}),
    Case("a file that claims batches that aren't there is cut short", ["check", "t"], 1, err=b"refused Truncated 17\nt, byte 17: the bytes end too early\n", files={"t": NO_BATCHES[:13] + BATCHES.to_bytes(4, "little")}),
    Case("a file that claims ranges that aren't there is cut short", ["check", "t"], 1, err=b"refused Truncated 25\nt, byte 25: the bytes end too early\n", files={"t": NO_BATCHES[:17] + bytes([255] * 8)}),
]
