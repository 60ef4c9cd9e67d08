"""Tables that are made of frames and of Arrow's streams, what folders give, and tables in pieces; with numpy and pandas."""

import os
import random
import tempfile

import numpy as np
import pandas as pd
from lanes import Folder, Refused, Table

BIG = 1 << 62


def types_are_those_of_the_data():
    """Expected types were worked out by hand."""
    for kind, expected in [
        ("int8", "TINYINT"), ("uint8", "SMALLINT"), ("int16", "SMALLINT"), ("uint16", "INTEGER"), ("int32", "INTEGER"), ("uint32", "BIGINT"), ("int64", "BIGINT"),
        ("uint64", "BIGINT"), ("Int8", "TINYINT"), ("UInt8", "SMALLINT"), ("Int16", "SMALLINT"), ("UInt16", "INTEGER"), ("Int32", "INTEGER"), ("UInt32", "BIGINT"), ("Int64", "BIGINT"),
    ]:  # fmt: skip
        greatest = 127 if "8" in kind and "U" not in kind.upper() else 255 if "8" in kind else 1 << 15 - 1
        table = Table.from_frame("t", pd.DataFrame({"a": pd.Series([1, greatest], dtype=kind)}), batch="1.1")
        assert (table.name, table.columns) == ("T", {"A": expected}) and table.head() == [(1,), (greatest,)], (kind, table.columns)
        assert Table.create("T", {"A": pd.Series([1], dtype=kind).dtype}).columns == {"A": expected} if kind.lower().startswith("int") else True
    for kind, expected in (np.int8, "TINYINT"), (np.int16, "SMALLINT"), (np.int32, "INTEGER"), (np.int64, "BIGINT"), (np.dtype(">i4"), "INTEGER"):
        assert Table.create("T", {"A": kind}).columns == {"A": expected}
    table = Table.from_frame("t", pd.DataFrame({"o": pd.Series([1, None, BIG], dtype=object), "n": pd.array([None, 2, 3], "Int8")}))
    assert table.columns == {"O": "BIGINT", "N": "TINYINT"} and table.head() == [(1, None), (None, 2), (BIG, 3)]


def frames_that_are_no_table_are_refused():
    for frame, kind, words in [
        (pd.DataFrame({"a b": [1]}), Refused, "'a b' is no name"),
        (pd.DataFrame({"a": [1], "A": [1]}), Refused, "BadSchema"),
        (pd.DataFrame({"a": [1.5]}), TypeError, "column a: whole numbers are wanted"),
        (pd.DataFrame({"a": [True]}), TypeError, "column a: whole numbers are wanted"),
        (pd.DataFrame({"a": ["1"]}), TypeError, "column a: whole numbers"),
        (pd.DataFrame({"a": np.array([1 << 63], np.uint64)}), Refused, "OutOfType"),
        (pd.DataFrame({1: [1]}), TypeError, "1 is no name of a column"),
        (pd.DataFrame(), Refused, "1 to 32 columns"),
    ]:
        try:
            raise AssertionError(Table.from_frame("T", frame))
        except kind as fault:
            assert words in str(fault), fault
    try:
        Table.create("T", {"A": np.float64})
        raise AssertionError("floats")
    except Refused as fault:
        assert fault.name == "BadSchema"


def a_frame_that_is_sent_again_under_its_name_is_the_same_load():
    frame = pd.DataFrame({"A": [1, 2], "B": [3, 4]})
    first, again = (Table.from_frame("T", frame, batch="1.1") for _ in range(2))
    assert first == again and len(first.merge(again)) == 2
    assert first.dump(names=True).splitlines()[1].startswith("1.1"), first.dump(names=True)


def table_of(pick, rows):
    """A table of some batches, with nulls and deleted rows."""
    table = Table.create("T", {"A": "INTEGER", "B": "TINYINT", "C": "BIGINT"})
    for number in range(pick.randint(1, 5)):
        count = pick.randint(1, rows)
        data = {name: [None if pick.random() < part else pick.randrange(100) for _ in range(count)] for name, part in (("A", 0), ("B", 0.5), ("C", 0.01))}
        table = table.import_columns(data, batch=(1, 2 * number + 1))
    return table.delete(f"A < {pick.choice([0, 10, 99])}")


def pieces_are_the_rows_in_order(seed, count=20):
    pick = random.Random(seed)
    for _ in range(count):
        table = table_of(pick, pick.choice([10, 2000]))
        rows, where, columns = pick.choice([1, 7, 1024, 70_000]), pick.choice(["", "B IS NULL", "A > 100"]), pick.choice([None, ["C", "B"]])
        if len(table) // rows > 300:
            rows = 300
        pieces, whole = list(table.batches(rows, columns, where)), table.to_pandas(columns, where)
        assert [len(piece.to_pandas()) for piece in pieces] == [min(rows, len(whole) - first) for first in range(0, len(whole), rows)]
        if pieces:
            pd.testing.assert_frame_equal(pd.concat([piece.to_pandas() for piece in pieces], ignore_index=True), whole)
    many = Table.create("T", {"A": "INTEGER"}).import_columns({"A": np.arange(200_000)}, batch="1.1")
    assert [int(piece["A"].values[-1]) for piece in many.batches(70_000)] == [69_999, 139_999, 199_999]
    for given, words in ((0,), "rows: "), ((5, ["NO"]), "columns: "), ((5, None, "NO = 1"), "where: "):
        try:
            many.batches(*given)  # at once, and not when the first piece is asked for
            raise AssertionError(given)
        except ValueError as fault:
            assert words in str(fault), fault


def imports_of_columns_tell_how_far_they_are():
    rows, told = 300_000, []
    empty, data = Table.create("T", {"A": "INTEGER"}), {"A": np.arange(rows)}
    for import_rows, given in (empty.import_columns, data), (empty.import_frame, pd.DataFrame(data)), (empty.import_arrow, empty.import_columns(data)):
        told.clear()
        table = import_rows(given, batch="1.1", progress=lambda done, whole: told.append((done, whole)))
        assert told == [(262_144, rows), (rows, rows)] and table == empty.import_columns(data, batch="1.1"), told
    with tempfile.TemporaryDirectory() as room:
        folder = Folder.of(os.path.join(room, "site"), empty)
        try:
            folder.import_columns(data, progress=lambda done, whole: 1 // (whole - done))  # of the last piece
            raise AssertionError("nothing was raised")
        except ZeroDivisionError:
            assert len(folder) == 0 and len(folder.parts()) == 1
        assert folder.import_columns({"A": [1, 2]}, progress=lambda done, whole: told.append((done, whole))) == 1 and told[-1] == (2, 2)


def frames_of_answers_have_their_headings():
    table = table_of(random.Random(4), 100)
    answer = table.query("SELECT B,COUNT(*) AS N,AVG(C) FROM T GROUP BY B")
    for frame in pd.DataFrame(answer), pd.DataFrame(answer[:2]), pd.DataFrame(table.head()):
        assert list(frame.columns) == (["A", "B", "C"] if len(frame.columns) == 3 and frame.columns[0] == "A" else ["B", "N", "AVG(C)"])
    assert pd.DataFrame(answer)["N"].tolist() == answer.to_pandas()["N"].tolist()


def folders_give_frames_and_arrays():
    with tempfile.TemporaryDirectory() as room:
        table = table_of(random.Random(5), 3000)
        folder = Folder.of(os.path.join(room, "site"), table)
        folder.import_columns({"A": [1], "B": [None], "C": [3]})
        whole = folder.read()
        pd.testing.assert_frame_equal(folder.to_pandas(), whole.to_pandas())
        pd.testing.assert_frame_equal(folder.to_pandas(["C"], "B IS NULL"), whole.to_pandas(["C"], "B IS NULL"))
        assert folder.to_numpy(["C"])["C"].values.tolist() == whole.to_numpy(["C"])["C"].values.tolist()


def streams_make_tables_and_folders_give_them():
    """Arrow's stream by the shim, out of a folder and into a new table."""
    with tempfile.TemporaryDirectory() as room:
        table = table_of(random.Random(6), 3000)
        folder = Folder.of(os.path.join(room, "site"), table)
        for source in table, folder:
            made = Table.from_arrow("U", source, batch="7.1")
            assert (made.name, made.columns) == ("U", table.columns)
            pd.testing.assert_frame_equal(made.to_pandas(), table.to_pandas())
        assert len(table.import_arrow(folder)) == 2 * len(table)


TESTS = [types_are_those_of_the_data, frames_that_are_no_table_are_refused, a_frame_that_is_sent_again_under_its_name_is_the_same_load, imports_of_columns_tell_how_far_they_are, frames_of_answers_have_their_headings, folders_give_frames_and_arrays]
