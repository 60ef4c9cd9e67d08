"""Columns out and in: random tables, whose arrays, frames and Arrow streams are compared with `dump`, and whose rows go in again with the
bytes that comma-separated values have. Needs numpy and pandas."""

from __future__ import annotations

import ctypes
import gc
import random
import time
import unittest.mock
from decimal import Decimal

import lanes
import numpy as np
import pandas as pd
import questions
from lanes import ColumnData, Refused, Table

BITS = {"TINYINT": 8, "SMALLINT": 16, "INTEGER": 32, "BIGINT": 64}
TABLES = 25


def random_table(pick):
    """A table of loads of any length, up to some that go past vectors and batches."""
    columns = questions.schema(pick)
    table = Table.create("T", columns)
    for number in range(1, pick.randint(1, 4)):
        count = pick.choice([pick.randint(1, 20), pick.randint(1000, 1100), pick.randint(500, 3000)])
        table = table.import_csv(questions.rows(pick, columns, count), heading=False, batch=(pick.randint(1, 3), number))
        if pick.random() < 0.6:
            table = table.delete(questions.condition(pick, columns, [], 1))
    return table


def dumped(table):
    """The live rows as `dump` has them: of each column its fields, None for a null."""
    lines = table.dump().splitlines()
    names = lines[0].split(",")
    rows = [line.split(",") for line in lines[1:]]
    return {name: [int(row[at]) if row[at] else None for row in rows] for at, name in enumerate(names)}


def listed(data):
    """A ColumnData as a list."""
    nulls = [False] * len(data.values) if data.nulls is None else data.nulls.tolist()
    assert data.nulls is None or data.nulls.any()
    assert not any(value for value, is_null in zip(data.values.tolist(), nulls) if is_null), "a null has the value 0"
    return [None if is_null else value for value, is_null in zip(data.values.tolist(), nulls)]


def arrays_and_frames_have_the_rows_of_dump(seed, count=TABLES):
    pick = random.Random(seed)
    for _ in range(count):
        table = random_table(pick)
        condition = pick.choice(["", questions.condition(pick, table.columns, [], 2)])
        some = pick.sample([*table.columns], pick.randint(1, len(table.columns)))
        kept = table if not condition else table.delete(f"({condition}) IS NOT TRUE")
        wanted = dumped(kept)
        found = table.to_numpy(where=condition)
        assert list(found) == list(table.columns) and {name: listed(data) for name, data in found.items()} == wanted, condition
        for name, data in found.items():
            assert data.values.dtype == np.dtype(f"i{BITS[table.columns[name]] // 8}")
        frame = table.to_pandas([name.lower() for name in some], where=condition)
        assert list(frame.columns) == some and [str(kind) for kind in frame.dtypes] == [f"Int{BITS[table.columns[name]]}" for name in some]
        assert {name: [None if cell is pd.NA else int(cell) for cell in frame[name]] for name in some} == {name: wanted[name] for name in some}


def told(kind, words, call, *given, **named):
    """Whether a call raises this, in words that begin so."""
    try:
        call(*given, **named)
    except kind as fault:
        assert str(fault).startswith(words), f"{fault} is told of {given} {named}"
        return
    raise AssertionError(f"{given} {named} was taken")


def columns_and_conditions_that_are_wrong_are_told_by_their_names():
    table = Table.create("T", {"A": "INTEGER", "B": "BIGINT"})
    for call in table.to_numpy, table.to_pandas:
        for columns, where, kind, words in [
            (["A", "c"], "", Refused, 'NoSuchColumn 2: columns: there is no column "c": the table has A, B'),
            (["A B"], "", Refused, 'NoSuchColumn 0: columns: there is no column "A B"'),
            (["\u00e9"], "", Refused, 'NoSuchColumn 0: columns: there is no column "\u00e9"'),
            (["A"], "Zed > 1", Refused, 'NoSuchColumn 0: where: byte 0: there is no column "Zed": the table has A, B'),
            (None, "A =", Refused, "Syntax 3: where: byte 3: "),
            (["A"], "1 = 1 GROUP BY A", Refused, "Syntax 6: where: byte 6: write the condition alone"),
            ("A", "", TypeError, "columns: several names"),
            (5, "", TypeError, "columns: several names"),
            ([5], "", TypeError, "columns: the name of a column"),
            (["A", "a"], "", ValueError, "columns: A is there twice"),
            (["A"], 5, TypeError, "where: a text is wanted"),
        ]:
            told(kind, words, call, columns, where)
    assert table.to_numpy([]) == {} and len(table.to_pandas()) == 0 and list(table.batches(1, columns=[])) == []
    three = table.import_columns({"A": [1, 2, 3], "B": [4, 5, 6]})
    assert [piece.rows for piece in three.batches(2, columns=[])] == [2, 1] and len(three.to_pandas([])) == three.to_numpy([]).rows == 3
    assert [piece.rows for piece in three.batches(2, where="A > ?", values=[1])] == [2] and three.to_pandas(where=None).equals(three.to_pandas())
    frame = pd.DataFrame({"A": [1], "B": [2]})
    for wrong, kind, words in [
        (frame.rename(columns={"B": 1}), TypeError, "frame: 1 is no name of a column"),
        (frame.rename(columns={"B": "A"}), ValueError, "frame: the column 'A' is there twice"),
        (frame["A"], TypeError, "frame: a frame of pandas is wanted"),
        (frame.to_numpy(), TypeError, "frame: a frame of pandas is wanted"),
        (frame[["A"]], ValueError, "columns: the columns A, B are wanted, each once, and these are A"),
        (frame.set_index("A"), ValueError, "frame: the index A is no column: frame.reset_index() makes one of it"),
    ]:
        told(kind, words, table.import_frame, wrong)


def frames_keep_their_index_and_the_types_of_empty_columns():
    frame = pd.DataFrame({"SITE": [1, 1, 2], "HITS": [10, 7, 5]})
    for grouped in frame.groupby("SITE").sum(), frame.groupby(["SITE", "HITS"]).sum(), frame.set_index(["SITE", "HITS"]):
        told(ValueError, "frame: the index SITE", Table.from_frame, "T", grouped)
    assert Table.from_frame("T", frame.groupby("SITE").sum().reset_index()).query("SELECT SITE,SUM(HITS) FROM T GROUP BY SITE") == [(1, 17), (2, 5)]
    types = {"int8": "TINYINT", "uint8": "SMALLINT", "int16": "SMALLINT", "Int16": "SMALLINT", "int32": "INTEGER", "int64": "BIGINT"}
    empty = pd.DataFrame({f"C{at}": pd.Series([], dtype=kind) for at, kind in enumerate(types)})
    assert list(Table.from_frame("T", empty).columns.values()) == list(types.values())
    told(TypeError, "column A: whole numbers are wanted, and this is float64", Table.from_frame, "T", pd.DataFrame({"A": pd.Series([], dtype="float64")}))


def rows_go_in_with_the_bytes_of_comma_separated_values(seed, count=TABLES):
    pick = random.Random(seed)
    for _ in range(count):
        table = random_table(pick)
        empty = Table.create("T", table.columns)
        wanted = empty.import_csv(table.dump(), batch="5.7") if len(table) else empty
        fields = dumped(table)
        frame = table.to_pandas()
        ways = [fields, table.to_numpy(), {name: frame[name] for name in frame}]
        ways.append({name: np.ma.MaskedArray([cell or 0 for cell in cells], [cell is None for cell in cells], dtype=np.int64) for name, cells in fields.items()})
        ways.append({name.lower(): pd.array(cells, "Int64") for name, cells in reversed(list(fields.items()))})
        for columns in ways:
            assert empty.import_columns(columns, batch="5.7") == wanted, columns
        assert empty.import_frame(frame[pick.sample([*frame], len(frame.columns))], batch=(5, 7)) == wanted
        drawn = empty.import_frame(frame)
        assert drawn.dump() == wanted.dump() and (not len(table) or drawn != wanted)


def many_rows_become_batches_as_of_an_import():
    rows = 5 * 65_536 + 1_500  # more than are made canonical at once
    pick = np.random.default_rng(5)
    columns = {"A": pick.integers(-100, 100, rows), "B": np.arange(rows), "C": pick.integers(0, 3, rows)}
    nulls = pick.random(rows) < 0.3
    nulls[:70_000] = False
    table = Table.create("T", {"A": "TINYINT", "B": "INTEGER", "C": "BIGINT"})
    found = table.import_columns({**columns, "B": ColumnData(columns["B"], nulls)}, batch="4.9")
    fields = [columns["A"].tolist(), ["" if is_null else value for value, is_null in zip(columns["B"].tolist(), nulls)], columns["C"].tolist()]
    csv = "".join(f"{a},{b},{c}\n" for a, b, c in zip(*fields))
    assert found == table.import_csv(csv, heading=False, batch="4.9")
    assert found.check()[0] == 6 and found.import_columns({**columns, "B": ColumnData(columns["B"], nulls)}, batch="4.9") == found
    kept = found.delete("A < 0")
    assert kept.to_numpy(["B"])["B"].values.sum() == columns["B"][(columns["A"] >= 0) & ~nulls].sum()


def rows_that_do_not_fit_are_refused():
    table = Table.create("T", {"A": "TINYINT", "B": "BIGINT"})
    good = [1, 2, 3]
    for columns, kind, words in [
        ({"A": good}, ValueError, "A, B are wanted"),
        ({"A": good, "B": good, "C": good}, ValueError, "A, B are wanted"),
        ({"A": good, "a": good, "B": good}, ValueError, "A, B are wanted"),
        ({"A": good, "B": [1]}, ValueError, "1 and 3 rows"),
        ({"A": good, "B": [1.5, 2.0, 3.0]}, TypeError, "floats are not rounded"),
        ({"A": good, "B": [1.0, float("nan"), 3.0]}, TypeError, "floats are not rounded"),
        ({"A": good, "B": pd.Series([1, None, 3])}, TypeError, "floats are not rounded"),
        ({"A": good, "B": ["1", "2", "3"]}, TypeError, "whole numbers"),
        ({"A": good, "B": [True, False, None]}, TypeError, "whole numbers"),
        ({"A": good, "B": [True, False, True]}, TypeError, "whole numbers"),
        ({"A": [True, 2, 3], "B": good}, TypeError, "True is none, in row 0: it is a truth value"),
        ({"A": pd.Series([True, False, True]), "B": good}, TypeError, "and this is bool, of truth values: .astype('int8') makes"),
        ({"A": pd.Series(["x", "y", "z"]), "B": good}, TypeError, "'x' is none, in row 0: it is a text"),
        ({"A": pd.Series(pd.date_range("2020", periods=3)), "B": good}, TypeError, "and this is datetime64[ns], of times"),
        ({"A": good, "B": [1, None, float("nan")]}, TypeError, "whole numbers and None are wanted, and nan is none"),
        ({"A": good, "B": np.array([1, None, np.float64("nan")], object)}, TypeError, "whole numbers and None are wanted, and nan is none"),
        ({"A": good, "B": [1, 1 << 64, None]}, ValueError, "outside every type"),
        ({"A": good, "B": np.zeros((3, 1), int)}, ValueError, "column B: a list of numbers"),
        ({"A": good, "B": [[1], [2, 3], [4]]}, ValueError, "column B: a list of numbers"),
        ({"A": good, "B": None}, ValueError, "column B: a list of numbers"),
        ({"A": good, "B": 5}, ValueError, "column B: a list of numbers is wanted, and this is of type int: [5] is a list"),
        ({"A": good, "B": {1, 2, 3}}, ValueError, "column B: a list of numbers"),
        ({"A": good, "B": (n for n in good)}, ValueError, "column B: a list of numbers is wanted, and this is of type generator: list() makes one of it"),
        ({"A": good, "B": pd.array([1.0, None, 2.0], "Float64")}, TypeError, "column B: whole numbers"),
        ({"A": good, "B": pd.array([True, None, False], "boolean")}, TypeError, "column B: whole numbers"),
        ({"A": [1, 2, 128], "B": good}, Refused, "row 2, column A: 128 is outside TINYINT"),
        ({"A": [-129, None, 128], "B": good}, Refused, "OutOfType 0 0: row 0, column A: -129 is outside TINYINT"),
        ({"A": good, "B": np.array([1, 1 << 63, 2], np.uint64)}, Refused, "row 1, column B: 9223372036854775808 is outside BIGINT"),
        ({"A": [1, 2, 128], "B": np.array([1, 1 << 63, 2], np.uint64)}, Refused, "row 1, column B: 9223372036854775808 is outside BIGINT"),
        ({"A": np.arange(300_000) // 299_999 * 200, "B": np.arange(300_000)}, Refused, "row 299999, column A: 200"),
        ({"A": np.array([1, (1 << 64) - 1, 2], np.uint64), "B": good}, Refused, "row 1, column A: "),
        ({"A": np.array([1, 128, (1 << 64) - 1], np.uint64), "B": np.array([1, 2, 1 << 63], np.uint64)}, Refused, "row 1, column A: "),
        ({"A": [1, 2, 128], "B": np.array([1, 2, 1 << 63], np.uint64)}, Refused, "row 2, column A: 128 is outside TINYINT"),
        ({"A": [1, 128, 2], "B": np.array([1, 2, 1 << 63], np.uint64)}, Refused, "row 1, column A: "),
        ({"A": np.arange(300_000) // 299_999 * 200, "B": np.arange(300_000, dtype=np.uint64) // 299_998 << 63}, Refused, "row 299998, column B: 9223372036854775808"),
    ]:
        try:
            table.import_columns(columns, batch="1.1")
        except kind as told:
            assert words in str(told), (columns, told)
            continue
        raise AssertionError(f"{columns} was taken")
    held = table.import_columns({"A": good, "B": good}, batch="1.1")
    past = np.array([4, 5, 1 << 63], np.uint64)
    for batch, numbers, words in [
        ("1.1", [4, 5, 6], "Conflict 1.1: this has batch 1.1 already, with other rows"),
        ("1.0", [4, 5, 6], "BadName: "),
        ("1.1", past, "OutOfType 2 1: row 2, column B: 9223372036854775808"),
        ("1.0", past, "OutOfType 2 1: row 2, column B: 9223372036854775808"),
    ]:
        try:
            held.import_columns({"A": good, "B": numbers}, batch=batch)
        except Refused as refusal:
            assert str(refusal).startswith(words), refusal
            continue
        raise AssertionError(f"other rows were taken under {batch}")
    try:
        table.import_columns({"A": np.zeros(70_000, int), "B": np.zeros(70_000, int)}, batch=(1, (1 << 32) - 1))
    except Refused as refusal:
        assert refusal.name == "NumbersSpent"
    else:
        raise AssertionError("names went past the end")
    last = table.import_columns({"A": good, "B": good}, batch=(1, (1 << 32) - 1))
    assert last == table.import_csv("1,1\n2,2\n3,3\n", heading=False, batch=(1, (1 << 32) - 1)), "the greatest name serves for one batch"


def rows_go_in_from_arrays_of_every_kind():
    table, wanted = Table.create("T", {"A": "SMALLINT"}), [1, -2, None, 300]
    held = table.import_csv("1\n-2\n\n300\n", heading=False, batch="1.1")
    plain = np.array([1, -2, 0, 300])
    assert listed(held.to_numpy()["A"]) == wanted
    for kind in "<i2", ">i2", "<i4", ">i4", "<i8", ">i8":
        values, nulls = plain.astype(kind), np.array([False, False, True, False])
        for data in ColumnData(values, nulls), np.ma.MaskedArray(values, nulls), ColumnData(np.repeat(values, 2)[::2], nulls):
            assert table.import_columns({"A": data}, batch="1.1") == held, (kind, data)
        if kind[0] == "<":
            assert table.import_frame(pd.DataFrame({"A": pd.arrays.IntegerArray(values, nulls)}, index=[7, 7, 0, 1]), batch="1.1") == held, kind
        assert listed(table.import_columns({"A": values}, batch="1.1").to_numpy()["A"]) == [1, -2, 0, 300]
    for data in np.array([1, 2, 300], ">u4"), np.array([1, 2, 300], ">i2"), pd.array([1, 2, 300], "UInt16"), pd.array([1, 2, 300], "Int64"), pd.Series([1, 2, 300], index=[5, 6, 5]):
        assert listed(table.import_columns({"A": data}, batch="1.1").to_numpy()["A"]) == [1, 2, 300], data
    big = np.arange(1024, dtype=">i2")  # a whole vector
    assert listed(table.import_columns({"A": big}, batch="1.1").to_numpy()["A"]) == list(range(1024))
    large = ColumnData(np.array([1, (1 << 64) - 1, 3], np.uint64), np.array([False, True, False]))
    assert listed(table.import_columns({"A": large}, batch="1.1").to_numpy()["A"]) == [1, None, 3]
    under = np.ma.MaskedArray(np.array([1, 1 << 40, 3]), [False, True, False])  # what is under the mask is no value
    for data in under, ColumnData(under.data, under.mask):
        assert listed(table.import_columns({"A": data}, batch="1.1").to_numpy()["A"]) == [1, None, 3]


class Sized(Table):
    """A table that looks at its file when it is made."""

    def __init__(self, file):
        super().__init__(file)
        self.size, self.held_names = len(bytes(file)), [*self.columns]


def tables_of_columns_are_those_of_their_files():
    """Rows of a few batches go into what is open, and those of many into a file."""
    for kind in Table, Sized:
        empty = kind.create("T", {"A": "SMALLINT", "B": "BIGINT"})
        for rows in 1, 65_536, 65_537, 262_144, 262_145:
            columns, rest = {"A": np.arange(rows) % 300, "B": np.arange(rows)}, {"A": [1, 2], "B": [3, None]}
            csv = "".join(f"{row % 300},{row}\n" for row in range(rows))
            wanted = empty.import_csv(csv, heading=False, batch="1.1")
            first = empty.import_columns(columns, batch="1.1")
            assert first.query("SELECT COUNT(*),SUM(B) FROM T") == [(rows, rows * (rows - 1) // 2)]
            found = first.import_columns(rest, batch="2.1")
            assert type(found) is kind and found == wanted.import_csv("1,3\n2,\n", heading=False, batch="2.1")
            assert first == wanted and first.import_columns(columns, batch="1.1") == wanted and len(first.import_columns(rest)) == rows + 2
            assert found.delete("A > 0").delete_rows("2.1", 0).forget() == Table.from_bytes(found.to_bytes()).delete("A > 0").delete_rows("2.1", 0).forget()
            if kind is Sized:
                assert (first.size, found.size, found.held_names) == (len(first.to_bytes()), len(found.to_bytes()), ["A", "B"])


def a_name_is_drawn_that_has_neither_rows_nor_deletions():
    held = Table.create("T", {"A": "INTEGER"}).import_columns({"A": [1]}, batch="1.1").delete_rows("2.2", 9)
    words = [0, 7, 1 << 32, (2 << 32) + 1, (3 << 32) + 2, 4 << 32, 0, 0]  # those below 1 << 32 serve for no name
    with unittest.mock.patch.object(lanes.table.secrets, "randbits", side_effect=words):
        assert held.import_columns({"A": [2]}) == held.import_columns({"A": [2]}, batch="3.3")


def rows_about_the_ends_of_vectors_have_their_nulls():
    """What is read has a stride of bits by 512 rows."""
    for rows in 1, 511, 512, 513, 1023, 1024, 1025, 1536:
        a, b = [row % 5 or None for row in range(rows)], [None if row % 3 == 1 else row for row in range(rows)]
        table = Table.create("T", {"A": "TINYINT", "B": "BIGINT", "C": "INTEGER"}).import_columns({"A": a, "B": b, "C": [None] * rows}, batch="1.1")
        wanted = {"A": a, "B": b, "C": [None] * rows}
        for condition in "", "A IS NOT NULL OR A IS NULL":
            assert {name: listed(data) for name, data in table.to_numpy(where=condition).items()} == wanted, rows
            frame = table.to_pandas(where=condition)
            assert {name: [None if cell is pd.NA else int(cell) for cell in frame[name]] for name in frame} == wanted, rows
        if hasattr(table, "__arrow_c_stream__"):
            assert {name: cells for name, (_, cells) in consumed(table.__arrow_c_stream__()).items()} == wanted, rows


def memory_of(act):
    """How much memory a call takes at most, beside what there was."""
    gc.collect()
    with open("/proc/self/clear_refs", "w", encoding="ascii") as file:
        file.write("5")
    before = resident()
    kept = act()
    with open("/proc/self/status", encoding="ascii") as file:
        most = next(int(line.split()[1]) * 1024 for line in file if line.startswith("VmHWM"))
    return most - before, kept


def frames_take_little_memory_beside_them():
    """With MALLOC_MMAP_THRESHOLD_ in the environment, so that memory that is let go goes back to the system at once."""
    rows = 1_500_000
    columns = {"A": "SMALLINT", "B": "INTEGER", "C": "BIGINT", "D": "SMALLINT", "E": "INTEGER", "F": "BIGINT"}
    pick = np.random.default_rng(1)
    empty = Table.create("T", columns)
    nulls = pick.random(rows) < 0.3
    size = sum((width + 1) * rows for width in (2, 4, 8, 2, 4, 8))
    for greatest in 1000, (1 << 63) - 1:  # numbers that are packed well, and others
        data = {name: ColumnData(pick.integers(0, min(greatest, 32767 if name in "AD" else 1 << 31 if name in "BE" else greatest), rows), nulls if name in "BF" else None) for name in columns}
        table = Table.from_bytes(empty.import_columns(data, batch="1.1").to_bytes())
        del data
        len(table.to_pandas(["A"], where="A < 3"))  # pandas is loaded
        for act in lambda: table.to_pandas(), lambda: table.to_pandas(where="A >= 0"):
            most, frame = memory_of(act)
            assert len(frame) == rows and 0.5 * size <= most <= 1.6 * size, most / size
        most, other = memory_of(lambda: empty.import_frame(frame, batch="1.1"))
        assert other == table and most <= 1.6 * size, most / size
        del frame, other


def answers_become_frames():
    big = (1 << 63) - 1
    table = Table.create("T", {"A": "INTEGER", "B": "BIGINT"}).import_csv(f"1,{big}\n1,{big}\n,-{big}\n2,\n", heading=False, batch="1.1")
    frame = table.query("SELECT A,COUNT(*) AS N,SUM(B) AS S,MAX(B) AS M,AVG(A) AS MEAN FROM T GROUP BY A").to_pandas()
    assert [str(kind) for kind in frame.dtypes] == ["Int64", "Int64", "object", "Int64", "Float64"]
    assert frame["S"].tolist() == [-big, 2 * big, None] and frame["M"].tolist() == [-big, big, pd.NA] and frame["A"][2] == 2
    assert frame["A"][0] is pd.NA and frame["MEAN"].tolist() == [pd.NA, 1.0, 2.0]
    for sum_, rest in (big, "0"), (big + 1, "1"), (-big - 1, "-1"), (-big - 2, "-2"), (-2 * big - 2, f"-{big}\n-2"):
        rows = f"{big if sum_ > 0 else -big}\n{rest}\n"
        frame = Table.create("T", {"B": "BIGINT"}).import_csv(rows, heading=False).query("SELECT SUM(B) AS S FROM T").to_pandas()
        assert frame["S"].tolist() == [sum_] and str(frame["S"].dtype) == ("Int64" if -big - 1 <= sum_ <= big else "object"), (sum_, frame)
    nothing = table.query("SELECT A,SUM(B) FROM T WHERE A > 9 GROUP BY A").to_pandas()
    assert (list(nothing.columns), len(nothing)) == (["A", "SUM(B)"], 0)
    for where, count in ("A IS NULL", 1), ("A > 9", 0), ("A = 1", 1):
        for select in "AVG(A)", "avg ( distinct A ) AS M", "\nAvg\t(A) COUNTED":
            sql = f"select\tA , {select},SUM(A)\nFrom T WHERE {where} GROUP BY A HAVING AVG(A) IS NULL OR AVG(A) > 0"
            for answer in table.query(sql), lanes.finish(table.partial(sql)), lanes.split(sql, table).finish(table.partial(sql)):
                frame = answer.to_pandas()
                assert len(frame) == count and [str(kind) for kind in frame.dtypes] == ["Int64", "Float64", "Int64"], (sql, frame.dtypes)
    html = table.query("SELECT A,SUM(B) FROM T GROUP BY A")._repr_html_()
    assert html == f"<table><tr><th>A</th><th>SUM(B)</th></tr><tr><td><i>NULL</i></td><td>-{big}</td></tr><tr><td>1</td><td>{2 * big}</td></tr><tr><td>2</td><td><i>NULL</i></td></tr></table>"
    assert "<b>T</b>: 4 rows" in table._repr_html_() and "<tr><td>B</td><td>BIGINT</td></tr>" in table._repr_html_()


class Schema(ctypes.Structure):
    """`struct ArrowSchema`."""


class Array(ctypes.Structure):
    """`struct ArrowArray`."""


class Stream(ctypes.Structure):
    """`struct ArrowArrayStream`."""


P, N = ctypes.c_void_p, ctypes.c_int64
Schema._fields_ = [("format", ctypes.c_char_p), ("name", ctypes.c_char_p), ("metadata", P), ("flags", N), ("n_children", N), ("children", ctypes.POINTER(ctypes.POINTER(Schema))), ("dictionary", P), ("release", ctypes.CFUNCTYPE(None, P)), ("private", P)]
Array._fields_ = [("length", N), ("null_count", N), ("offset", N), ("n_buffers", N), ("n_children", N), ("buffers", ctypes.POINTER(P)), ("children", ctypes.POINTER(ctypes.POINTER(Array))), ("dictionary", P), ("release", ctypes.CFUNCTYPE(None, P)), ("private", P)]
Stream._fields_ = [("get_schema", ctypes.CFUNCTYPE(ctypes.c_int, P, ctypes.POINTER(Schema))), ("get_next", ctypes.CFUNCTYPE(ctypes.c_int, P, ctypes.POINTER(Array))), ("get_last_error", P), ("release", ctypes.CFUNCTYPE(None, P)), ("private", P)]
POINTER_OF = ctypes.PYFUNCTYPE(P, ctypes.py_object, ctypes.c_char_p)(("PyCapsule_GetPointer", ctypes.pythonapi))
LETTERS = {b"c": ctypes.c_int8, b"s": ctypes.c_int16, b"i": ctypes.c_int32, b"l": ctypes.c_int64}


def numbers_at(address, letter, count):
    """The numbers of a buffer. Those of a decimal have 16 bytes each, and of one with six decimals they are millionths."""
    if letter in LETTERS:
        return list((LETTERS[letter] * count).from_address(address))
    data = ctypes.string_at(address, 16 * count)
    whole = [int.from_bytes(data[at : at + 16], "little", signed=True) for at in range(0, 16 * count, 16)]
    return {b"d:38,0": whole, b"d:38,6": [Decimal(f"{number}E-6") for number in whole]}[letter]


def consumed(capsule):
    """The columns of a capsule's stream as lists with their letters, by a consumer that knows Arrow's structs alone."""
    stream = Stream.from_address(POINTER_OF(capsule, b"arrow_array_stream"))
    at, schema, found = ctypes.addressof(stream), Schema(), {}
    assert stream.get_schema(at, schema) == 0 and schema.format == b"+s"
    columns = [schema.children[c].contents for c in range(schema.n_children)]
    assert all(column.flags == 2 and column.n_children == 0 for column in columns)
    for column in columns:
        found[column.name.decode()] = (column.format, [])
    while True:
        array = Array()
        assert stream.get_next(at, array) == 0
        if not array.release:
            break
        assert 0 < array.length <= 65_536 and array.n_buffers == 1 and not array.buffers[0] and array.null_count == 0
        for c, column in enumerate(columns):
            child = array.children[c].contents
            assert child.length == array.length and child.offset == 0 and child.n_buffers == 2 and child.buffers[1] % 64 == 0
            values = numbers_at(child.buffers[1], column.format, child.length)
            bits = ctypes.string_at(child.buffers[0], (child.length + 7) // 8) if child.buffers[0] else b""
            cells = [value if not bits or bits[row // 8] >> row % 8 & 1 else None for row, value in enumerate(values)]
            assert cells.count(None) == child.null_count and bool(bits) == bool(child.null_count)
            found[column.name.decode()][1].extend(cells)
        array.release(ctypes.addressof(array))
        assert not array.release
    schema.release(ctypes.addressof(schema))
    stream.release(at)
    assert not schema.release and not stream.release
    return found


def streams_have_the_rows_of_dump(seed, count=TABLES):
    pick = random.Random(seed)
    letters = {"TINYINT": b"c", "SMALLINT": b"s", "INTEGER": b"i", "BIGINT": b"l"}
    for _ in range(count):
        table = random_table(pick)
        found = consumed(table.__arrow_c_stream__())
        assert list(found) == list(table.columns) and {name: cells for name, (_, cells) in found.items()} == dumped(table)
        assert {name: letter for name, (letter, _) in found.items()} == {name: letters[kind] for name, kind in table.columns.items()}
    rows = 140_000
    long = Table.create("T", {"A": "INTEGER", "B": "BIGINT"}).import_columns({"A": ColumnData(np.arange(rows), np.arange(rows) % 7 == 3), "B": np.arange(rows)}, batch="1.1")
    capsule = long.__arrow_c_stream__()
    del long
    gc.collect()
    assert consumed(capsule)["A"][1] == [None if row % 7 == 3 else row for row in range(rows)]


class Given:
    """A stream of Arrow by hand: columns of a name, a format and flags, and arrays of a length and an offset, of a bitmap of their own and, for
    each column, of an offset, values and a bitmap. It counts what is not released."""

    def __init__(self, columns, arrays, fails_at=None, whole=b"+s", coded=()):
        self.columns, self.arrays, self.fails_at, self.whole, self.coded = columns, list(arrays), fails_at, whole, coded
        self.kept, self.held = [], 0

    def __arrow_c_stream__(self, requested_schema=None):
        stream = Stream(self.call("get_schema", self.get_schema), self.call("get_next", self.get_next), None, self.call("release", self.gone(Stream)))
        words = ctypes.create_string_buffer(b"the cable is cut")
        said = ctypes.CFUNCTYPE(P, P)(lambda _: ctypes.addressof(words))
        stream.get_last_error = ctypes.cast(said, P)
        self.held += 1
        self.kept.append((stream, words, said))
        return ctypes.PYFUNCTYPE(ctypes.py_object, P, ctypes.c_char_p, P)(("PyCapsule_New", ctypes.pythonapi))(ctypes.addressof(stream), b"arrow_array_stream", None)

    def call(self, name, act):
        made = dict(Stream._fields_)[name](act)
        self.kept.append(made)
        return made

    def gone(self, kind):
        def release(at):
            kind.from_address(at).release = dict(kind._fields_)["release"]()
            self.held -= 1
        return release

    def fill(self, struct, values):
        for name, value in values.items():
            setattr(struct, name, value)
        struct.release = self.call("release", self.gone(type(struct)))
        self.held += 1
        return struct

    def many(self, kind, items):
        pointers = (ctypes.POINTER(kind) * max(len(items), 1))(*map(ctypes.pointer, items))
        self.kept.append((items, pointers))
        return ctypes.cast(pointers, ctypes.POINTER(ctypes.POINTER(kind)))

    def get_schema(self, _, out):
        words = Schema(format=b"u", name=b"words")
        self.kept.append(words)
        children = [
            self.fill(Schema(), {"format": kind, "name": name.encode(), "flags": flags, "dictionary": ctypes.addressof(words) if name in self.coded else None})
            for name, kind, flags in self.columns
        ]
        self.held -= len(children)  # they go with their parent
        self.fill(out.contents, {"format": self.whole, "name": b"", "n_children": len(children), "children": self.many(Schema, children)})
        return 0

    def buffers(self, *given):
        kept = [ctypes.create_string_buffer(data, max(len(data), 1)) if data is not None else None for data in given]
        pointers = (P * len(kept))(*(ctypes.addressof(data) if data is not None else None for data in kept))
        self.kept.append((kept, pointers))
        return ctypes.cast(pointers, ctypes.POINTER(P))

    def get_next(self, _, out):
        if self.fails_at == len(self.arrays):
            return 5
        if not self.arrays:
            out.contents.release = dict(Array._fields_)["release"]()
            return 0
        length, offset, bits, columns = self.arrays.pop(0)
        children = [
            self.fill(Array(), {"length": length + offset, "null_count": -1 if mask is not None else 0, "offset": begin, "n_buffers": 2, "buffers": self.buffers(mask, values)})
            for begin, values, mask in columns
        ]
        self.held -= len(children)
        self.fill(out.contents, {"length": length, "offset": offset, "null_count": -1 if bits else 0, "n_buffers": 1, "buffers": self.buffers(bits), "n_children": len(children), "children": self.many(Array, children)})
        return 0


def streams_go_in():
    table = Table.create("T", {"A": "INTEGER", "B": "BIGINT"})
    wanted = table.import_csv("7,-1\n8,\n,3\n10,4\n,5\n", heading=False, batch="1.1")
    small = np.arange(20, dtype="<i1").tobytes()
    arrays = [
        (0, 0, None, [(0, b"", None), (0, b"", None)]),
        (2, 3, None, [(4, small, None), (1, np.array([9, 9, 9, 9, -1, 9], "<i8").tobytes(), bytes([0b010000]))]),
        (3, 0, bytes([0b111]), [(9, small, bytes([0xFF, 0b100])), (0, np.array([3, 4, 5], "<i8").tobytes(), None)]),
    ]
    given = Given([("A", b"c", 2), ("B", b"l", 2)], arrays)
    found = table.import_arrow(given, batch="1.1")
    assert found == wanted and given.held == 0, found.dump()
    for data in found.to_pandas(), found.to_pandas(["B", "A"]):
        assert table.import_frame(data, batch="1.1") == wanted
    if hasattr(table, "__arrow_c_stream__"):
        big = Table.create("T", {"A": "TINYINT", "B": "BIGINT"}).import_columns({"A": [row % 7 or None for row in range(140_000)], "B": list(range(140_000))}, batch="1.1")
        assert Table.create("T", big.columns).import_arrow(big, batch="1.1") == big
        assert len(table.import_arrow(big)) == 140_000
        assert table.import_arrow(table) == table
    one = (1, 0, None, [(0, bytes(8), None)])
    good = [("A", b"i", 2), ("B", b"l", 2)]
    for columns, rows, kind, words, more in [
        ([("A", b"I", 2), ("B", b"L", 2)], [(1, 0, None, [(0, bytes(4), None), (0, bytes(8), None)])], None, "", {}),
        ([("A", b"i", 2), ("B", b"L", 2)], [(1, 0, None, [(0, bytes(4), None), (0, b"\xff" * 8, None)])], Refused, "OutOfType 0 1: row 0, column B: 18446744073709551615", {}),
        ([("A", b"g", 2)], [one], TypeError, "column A: whole numbers of 8, 16, 32 or 64 bits are wanted, and this is float64", {}),
        ([("A", b"u", 2)], [one], TypeError, "column A: whole numbers of 8, 16, 32 or 64 bits are wanted, and this is utf8", {}),
        ([("A", b"tdD", 2)], [one], TypeError, "column A: whole numbers of 8, 16, 32 or 64 bits are wanted, and this is date or time", {}),
        ([("A", b"i", 2), ("A", b"i", 2)], [one], ValueError, "data: the column 'A' is there twice", {}),
        ([("A", b"i", 2)], [one], ValueError, "columns: the columns A, B are wanted", {}),
        (good, [(1, 0, None, [(0, bytes(4), None), (0, bytes(8), None)])], TypeError, "column B: whole numbers of 8, 16, 32 or 64 bits are wanted, and this is a dictionary", {"coded": "B"}),
        (good, [(2, 0, bytes([0b01]), [(0, bytes(8), None), (0, bytes(16), None)])], ValueError, "data: a row is null as a whole", {}),
        (good, [one], OSError, "data: the stream gives 1 columns", {}),
        (good, [one], OSError, "[Errno 5] data: the stream fails: the cable is cut", {"fails_at": 1}),
        (good, [one], TypeError, "the stream of a table is wanted here, and this is", {"whole": b"i"}),
        (good, [(1, 0, None, [(0, bytes(4), None), (0, bytes(8), None)])] * 2, None, "", {}),
        ([("A", b"l", 2), ("B", b"l", 2)], [(1, 0, None, [(0, (1 << 40).to_bytes(8, "little"), None), (0, bytes(8), None)])], Refused, "OutOfType", {}),
    ]:
        given = Given(columns, rows, **more)
        if kind:
            told(kind, words, table.import_arrow, given)
        else:
            table.import_arrow(given)
        gc.collect()
        assert given.held == 0, (columns, given.held)
    for wrong in 5, None, "text", [1, 2]:
        told(TypeError, "data: whatever gives Arrow's stream is wanted here", table.import_arrow, wrong)


def asked_for(columns, whole=b"+s"):
    """A capsule of a schema, and what it stands on."""
    given = Given(columns, [], whole=whole)
    schema = Schema()
    given.get_schema(None, ctypes.pointer(schema))
    given.kept.append(schema)
    return ctypes.PYFUNCTYPE(ctypes.py_object, P, ctypes.c_char_p, P)(("PyCapsule_New", ctypes.pythonapi))(ctypes.addressof(schema), b"arrow_schema", None), given


def a_schema_of_wider_integers_is_given_and_another_one_refused():
    table = Table.create("T", {"A": "TINYINT", "B": "INTEGER"}).import_csv("1,10\n-1,\n,30\n", heading=False, batch="1.1")
    a, b = [1, -1, None], [10, None, 30]
    for columns, wanted in [
        ([("A", b"c", 2), ("B", b"i", 2)], {"A": (b"c", a), "B": (b"i", b)}),
        ([("A", b"l", 2), ("B", b"l", 2)], {"A": (b"l", a), "B": (b"l", b)}),
        ([("B", b"i", 2), ("A", b"s", 2)], {"B": (b"i", b), "A": (b"s", a)}),
        ([("B", b"l", 2)], {"B": (b"l", b)}),
    ]:
        capsule, kept = asked_for(columns)
        found = consumed(table.__arrow_c_stream__(requested_schema=capsule))
        assert found == wanted and list(found) == list(wanted), found
    for columns, words, whole in [
        ([("A", b"c", 2), ("B", b"s", 2)], "requested_schema: column B is INTEGER", b"+s"),
        ([("A", b"C", 2)], "requested_schema: column A is TINYINT", b"+s"),
        ([("A", b"g", 2)], "requested_schema: column A is TINYINT", b"+s"),
        ([("A", b"c", 0)], "requested_schema: column A may be null", b"+s"),
        ([("C", b"c", 2)], "requested_schema: the columns A, B are there", b"+s"),
        ([("A", b"c", 2), ("A", b"c", 2)], "requested_schema: the columns A, B are there", b"+s"),
        ([("A", b"c", 2)], "requested_schema: the stream of a table is wanted", b"c"),
    ]:
        capsule, kept = asked_for(columns, whole)
        told(ValueError, words, table.__arrow_c_stream__, capsule)
        assert kept.held == 1, "a schema is its giver's"
    told(ValueError, "", table.__arrow_c_stream__, table.__arrow_c_stream__())


def a_head_costs_at_most_twice_the_first_batch():
    """In processor time, turn by turn."""
    pick, rows = np.random.default_rng(3), 200_000
    columns = {"A": pick.integers(0, 500_000, rows), "B": np.ma.array(pick.integers(0, 99, rows), mask=pick.random(rows) < 0.05), "C": pick.integers(-(2**62), 2**62, rows)}
    table = Table.create("T", {"A": "INTEGER", "B": "INTEGER", "C": "BIGINT"}).import_columns(columns)
    costs = {table.head: [], lambda count: next(table.batches(count)): []}
    for _ in range(7):
        for act, found in costs.items():
            begun = time.process_time()
            act(5)
            found.append(time.process_time() - begun)
    head, batch = map(min, costs.values())
    assert head <= 2 * batch, f"{head:.4f} s for {batch:.4f} s"


def streams_that_nobody_takes_are_released():
    table = Table.create("T", {"A": "BIGINT"}).import_columns({"A": np.arange(200_000)}, batch="1.1")
    before = resident()
    for _ in range(60):
        table.__arrow_c_stream__()
    assert resident() - before < 40_000_000, "1.6 MB each"


def resident():
    """How many bytes this process has."""
    with open("/proc/self/statm", encoding="ascii") as file:
        return int(file.read().split()[1]) * 4096
