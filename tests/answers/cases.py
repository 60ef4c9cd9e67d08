"""Queries and their answers: tables of rows, and for each query its heading and its rows, worked out by hand from docs/SQL.md."""

from dataclasses import dataclass, field

LEAST, GREATEST = -(2**63), 2**63 - 1


@dataclass
class Table:
    """A table by its columns, its batches of rows, each as the text of an append, and what is deleted: batch, first row, last row."""

    name: str
    columns: str
    batches: list
    queries: list
    deleted: list = field(default_factory=list)


def rows(values):
    """The rows of one column, as an append has them."""
    return ",".join(f"({'NULL' if value is None else value})" for value in values)


def count_where(condition, count):
    """A query for the number of rows at which a condition is true."""
    return f"SELECT COUNT(*) FROM T WHERE {condition}", ["COUNT(*)", str(count)]


def groups_where(condition, *keys):
    """A query for the groups of A that HAVING keeps."""
    return f"SELECT A FROM T GROUP BY A HAVING {condition}", ["A", *keys]


EACH = "COUNT(A),SUM(A),AVG(A),MIN(A),MAX(A)"
ONCE = "COUNT(DISTINCT A),SUM(DISTINCT A),AVG(DISTINCT A),MIN(DISTINCT A),MAX(DISTINCT A)"


def each_function(name, kind, values, plain, once):
    """All set functions of one column, with duplicates and of each value once, without GROUP BY and in a group of its own."""
    queries = [(f"SELECT {EACH} FROM T", [EACH, plain]), (f"SELECT {ONCE} FROM T", [ONCE, once])]
    if values:
        queries += [(f"SELECT B,{EACH} FROM T GROUP BY B", [f"B,{EACH}", f"NULL,{plain}"]), (f"SELECT B,{ONCE} FROM T GROUP BY B", [f"B,{ONCE}", f"NULL,{once}"])]
    batch = ",".join(f"({'NULL' if value is None else value},NULL)" for value in values)
    return Table(name, f"A {kind} B SMALLINT", [batch] if values else [], queries)


def text_of(value):
    return "NULL" if value is None else str(value)


def grouped(pairs):
    """The lines of groups, null first, with COUNT(*), COUNT, SUM, MIN and MAX of the values: from keys, each a tuple of cells, and values."""
    groups = {}
    for key, value in pairs:
        groups.setdefault(key, []).append(value)
    for key in sorted(groups, key=lambda key: [(cell is not None, cell or 0) for cell in key]):
        there = [value for value in groups[key] if value is not None]
        cells = [*key, len(groups[key]), len(there), *([sum(there), min(there), max(there)] if there else [None] * 3)]
        yield ",".join(text_of(cell) for cell in cells)


def by_runs(name, length, size):
    """Rows whose key A has runs of a length, in batches of a size. K is A with nulls: scattered ones, and whole runs of them."""
    keys = [n // length * 7919 % 499 for n in range(70_000)]
    nullable = [None if n % 89 == 5 or n // length % 7 == 2 else key for n, key in enumerate(keys)]
    values = [None if n % 11 == 3 else n * n % 1009 - 500 for n in range(70_000)]
    cells = list(zip(keys, nullable, values))
    wheres = {"": lambda row: True, " WHERE B > 0": lambda row: row[2] is not None and row[2] > 0, " WHERE A <> 3": lambda row: row[0] != 3}
    queries = []
    for where, keeps in wheres.items():
        for columns in ([0], [1], [0, 1]):
            names = ",".join("AK"[column] for column in columns)
            heading = f"{names},COUNT(*),COUNT(B),SUM(B),MIN(B),MAX(B)"
            pairs = [(tuple(row[column] for column in columns), row[2]) for row in cells if keeps(row)]
            queries.append((f"SELECT {heading} FROM T{where} GROUP BY {names}", [heading, *grouped(pairs)]))
    batches = [",".join("(" + ",".join(map(text_of, row)) + ")" for row in cells[first : first + size]) for first in range(0, len(cells), size)]
    return Table(name, "A INTEGER K INTEGER B SMALLINT", batches, queries)


SET_FUNCTIONS = [
    each_function("no rows", "BIGINT", [], "0,NULL,NULL,NULL,NULL", "0,NULL,NULL,NULL,NULL"),
    each_function("nulls alone", "INTEGER", [None, None], "0,NULL,NULL,NULL,NULL", "0,NULL,NULL,NULL,NULL"),
    each_function("one row", "SMALLINT", [-7], "1,-7,-7.000000,-7,-7", "1,-7,-7.000000,-7,-7"),
    each_function("duplicates and nulls", "SMALLINT", [5, None, 5, 2], "3,12,4.000000,2,5", "2,7,3.500000,2,5"),
    each_function("extremes of 16 bits", "SMALLINT", [-32768, 32767, None, 32767], "3,32766,10922.000000,-32768,32767", "2,-1,-0.500000,-32768,32767"),
    each_function("extremes of 32 bits", "INTEGER", [-2147483648, 2147483647], "2,-1,-0.500000,-2147483648,2147483647", "2,-1,-0.500000,-2147483648,2147483647"),
    each_function(
        "extremes of 64 bits",
        "BIGINT",
        [LEAST, LEAST, GREATEST],
        "3,-9223372036854775809,-3074457345618258603.000000,-9223372036854775808,9223372036854775807",
        "2,-1,-0.500000,-9223372036854775808,9223372036854775807",
    ),
]

TABLES = SET_FUNCTIONS + [
    Table(
        "sums past 64 bits, and a deleted row",
        "A BIGINT",
        [rows([LEAST, LEAST, None, 5])],
        [("SELECT COUNT(*),COUNT(A),SUM(A),AVG(A) FROM T", ["COUNT(*),COUNT(A),SUM(A),AVG(A)", "3,2,-18446744073709551616,-9223372036854775808.000000"])],
        deleted=[("1.1", 3, 3)],
    ),
    Table(
        "no rows",
        "A SMALLINT",
        [],
        [
            ("SELECT COUNT(*),SUM(A) FROM T", ["COUNT(*),SUM(A)", "0,NULL"]),
            ("SELECT COUNT(*),SUM(A) FROM T GROUP BY A", ["COUNT(*),SUM(A)"]),
            ("SELECT COUNT(*) FROM T HAVING COUNT(*) > 0", ["COUNT(*)"]),
        ],
    ),
    Table(
        "a mean of -0.0000004 has no sign, and is 0 to HAVING",
        "A SMALLINT",
        [rows([-1] + [0] * 49_999)] + [rows([0] * 50_000)] * 49,
        [
            ("SELECT AVG(A) FROM T", ["AVG(A)", "0.000000"]),
            ("SELECT COUNT(*) FROM T HAVING AVG(A) < 0", ["COUNT(*)"]),
            ("SELECT COUNT(*) FROM T HAVING AVG(A) = 0", ["COUNT(*)", "2500000"]),
            ("SELECT COUNT(*) FROM T HAVING AVG(A) IN (0)", ["COUNT(*)", "2500000"]),
            ("SELECT COUNT(*) FROM T HAVING SUM(A) BETWEEN AVG(A) AND 0", ["COUNT(*)"]),
            ("SELECT COUNT(*) FROM T HAVING AVG(A) BETWEEN SUM(A) AND 0", ["COUNT(*)", "2500000"]),
        ],
    ),
    Table(
        "means are truncated toward zero, and so compared",
        "A SMALLINT",
        [rows([-1, -1, 0])],
        [
            ("select avg(a) as mean from t", ["MEAN", "-0.666666"]),
            ("SELECT COUNT(*) FROM T HAVING COUNT(*) > 5", ["COUNT(*)"]),
            ("SELECT COUNT(*) FROM T HAVING AVG(A) > -1 AND AVG(A) < 0", ["COUNT(*)", "3"]),
            ("SELECT COUNT(*) FROM T HAVING AVG(A) BETWEEN -1 AND MAX(A)", ["COUNT(*)", "3"]),
        ],
    ),
    Table(
        "null keys are one group, before all others",
        "A SMALLINT B SMALLINT",
        ["(1,NULL),(1,3),(NULL,4),(NULL,NULL),(0,9)"],
        [
            ("SELECT A,COUNT(*),COUNT(B),SUM(B) FROM T GROUP BY A", ["A,COUNT(*),COUNT(B),SUM(B)", "NULL,2,1,4", "0,1,1,9", "1,2,1,3"]),
            ("SELECT B,A FROM T GROUP BY A,B", ["B,A", "NULL,NULL", "4,NULL", "9,0", "NULL,1", "3,1"]),
            ("SELECT A,COUNT(*) FROM T GROUP BY A,A", ["A,COUNT(*)", "NULL,2", "0,1", "1,2"]),
            ("SELECT A,A FROM T GROUP BY A", ["A,A", "NULL,NULL", "0,0", "1,1"]),
            ("SELECT A AS B,SUM(B) AS A FROM T GROUP BY A", ["B,A", "NULL,4", "0,9", "1,3"]),
        ],
    ),
    Table(
        "HAVING with each kind of operand",
        "A SMALLINT B SMALLINT",
        ["(5,1),(5,2),(NULL,NULL),(2,9)"],
        [
            groups_where("COUNT(*) = 2", "5"),
            groups_where("A = 2", "2"),
            groups_where("NOT A = 2", "5"),
            groups_where("A IS NULL", "NULL"),
            groups_where("(A = 2) IS UNKNOWN", "NULL"),
            groups_where("SUM(B) < A", "5"),
            groups_where("AVG(B) > 1", "2", "5"),
            groups_where("AVG(B) BETWEEN 1 AND 2", "5"),
            groups_where("AVG(B) IN (1,9)", "2"),
            groups_where("AVG(B) NOT IN (1,9)", "5"),
            groups_where("SUM(B) IN (3)", "5"),
            groups_where("SUM(B) NOT IN (3)", "2"),
            groups_where("MIN(B) = MAX(B)", "2"),
            groups_where("COUNT(DISTINCT B) = 0 OR A BETWEEN 0 AND 2", "NULL", "2"),
            groups_where("1 = 1", "NULL", "2", "5"),
            ("SELECT A N FROM T GROUP BY A HAVING AVG(A) >= 5 OR COUNT(A) = 0", ["N", "NULL", "5"]),
        ],
    ),
    Table(
        "three-valued conditions",
        "A SMALLINT",
        [rows([1, None, 3])],
        [
            count_where("A NOT IN (1,2)", 1),
            count_where("(A = 1) IS UNKNOWN", 1),
            count_where("NOT A = 1", 1),
            count_where("A = 1 OR A IS NULL", 2),
            count_where("NOT (A = 1 AND A IS NULL)", 2),
            count_where("(A IN (1,2)) IS NOT TRUE", 2),
            count_where("A BETWEEN 3 AND 1", 0),
            count_where("A NOT BETWEEN 3 AND 1", 2),
        ],
    ),
    Table(
        "columns of two types, and literals past every type",
        "A SMALLINT B BIGINT",
        ["(1,1),(2,1),(NULL,1),(1,NULL)"],
        [
            count_where("A > B", 1),
            count_where("(A > B) IS UNKNOWN", 2),
            count_where("A BETWEEN B AND 2", 2),
            count_where("A BETWEEN -999999999999999999999999999999 AND 999999999999999999999999999999", 3),
            count_where("A < 999999999999999999999999999999", 3),
            count_where("B > 999999999999999999999999999999", 0),
            count_where("A IN (999999999999999999999999999999,1)", 2),
            count_where("999999999999999999999999999999 > 1", 4),
            ("SELECT SUM(A) FROM T HAVING SUM(A) BETWEEN 4 AND 999999999999999999999999999999", ["SUM(A)", "4"]),
            ("SELECT SUM(A) FROM T HAVING AVG(A) < 999999999999999999999999999999", ["SUM(A)", "4"]),
            ("SELECT SUM(A) FROM T HAVING AVG(A) IN (999999999999999999999999999999)", ["SUM(A)"]),
        ],
    ),
    Table(
        "two vectors, of which the first is deleted",
        "A SMALLINT",
        [rows([0] * 1025)],
        [count_where("A IN (1,2,3)", 0), count_where("A BETWEEN 0 AND 5", 1), ("SELECT SUM(A) FROM T WHERE A >= 0", ["SUM(A)", "0"])],
        deleted=[("1.1", 0, 1023)],
    ),
    Table(
        "a group for each row",
        "A SMALLINT",
        [rows(range(1, 11))],
        [("SELECT A,SUM(A) FROM T GROUP BY A", ["A,SUM(A)"] + [f"{n},{n}" for n in range(1, 11)])],
    ),
    Table(
        "32 grouping columns",
        " ".join(f"C{n} SMALLINT" for n in range(32)),
        ["(" + ",".join(["1"] * 32) + "),(" + ",".join(["1"] * 31 + ["NULL"]) + "),(" + ",".join(["1"] * 32) + ")"],
        [
            (
                "SELECT C31,COUNT(*) FROM T GROUP BY " + ",".join(f"C{n}" for n in range(32)),
                ["C31,COUNT(*)", "NULL,1", "1,2"],
            )
        ],
    ),
    # 1,024 * 997 and 1,024 differ by multiples of 1,024: their places are remembered under one number.
    Table(
        "keys whose low bits are the same",
        "A INTEGER",
        [rows([0, 1024, 0, 1020928, 1024, -1024, None, 0])],
        [("SELECT A,COUNT(*) FROM T GROUP BY A", ["A,COUNT(*)", "NULL,1", "-1024,1", "0,3", "1024,2", "1020928,1"])],
    ),
    Table(
        "100,000 groups of two rows each, in two orders",
        "A INTEGER",
        [rows(range(n, n + 50_000)) for n in (50_000, 0)] + [rows(range(n + 49_999, n - 1, -1)) for n in (50_000, 0)],
        [
            ("SELECT A,COUNT(*),SUM(A) FROM T GROUP BY A", ["A,COUNT(*),SUM(A)"] + [f"{n},2,{2 * n}" for n in range(100_000)]),
            ("SELECT COUNT(DISTINCT A) FROM T", ["COUNT(DISTINCT A)", "100000"]),
        ],
    ),
    # The same answers by vectors that are full and by vectors that aren't: with some 20 runs in a vector, and with some 60.
    by_runs("runs of 36 rows in batches of 700 rows", 36, 700),
    by_runs("runs of 36 rows in batches of 65,536 rows", 36, 65_536),
    by_runs("runs of 12 rows in batches of 700 rows", 12, 700),
    by_runs("runs of 12 rows in batches of 65,536 rows", 12, 65_536),
]
