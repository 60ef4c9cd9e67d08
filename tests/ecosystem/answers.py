"""Answers by columns: arrays of numpy, frames of pandas and Arrow's stream of them, beside their rows."""

import copy
import pickle
import random
from decimal import Decimal

import frames
import numpy as np
import pandas as pd
import questions

import lanes
from lanes import Answer, ColumnData, Table

BIG = (1 << 63) - 1


def letters_of(answer):
    """What Arrow says of each column, by the answer's rows: means if one is there, and decimals if a number has more than 64 bits."""
    found = []
    for at in range(len(answer.headings)):
        fields = [row[at] for row in answer if row[at] is not None]
        if any(isinstance(field, Decimal) for field in fields):
            found.append({b"d:38,6"})
        elif all(-BIG - 1 <= field <= BIG for field in fields):
            found.append({b"l"} if fields else {b"l", b"d:38,6"})
        else:
            found.append({b"d:38,0"})
    return found


def check(answer):
    """That arrays, a frame and a stream have an answer's rows."""
    columns = list(zip(*answer)) if len(answer) else [()] * len(answer.headings)
    frame, arrays = answer.to_pandas(), answer.to_numpy()
    assert list(frame.columns) == answer.headings and len(frame) == len(answer)
    for at, (heading, fields) in enumerate(zip(answer.headings, columns)):
        expected = [None if field is None else float(field) if isinstance(field, Decimal) else field for field in fields]
        assert [None if value is None or value is pd.NA else value for value in frame.iloc[:, at].tolist()] == expected, heading
        if answer.headings.count(heading) == 1:
            values, nulls = arrays[heading]
            assert [None if nulls is not None and nulls[row] else value for row, value in enumerate(values.tolist())] == expected, heading
            assert (nulls is None) == (None not in expected) and answer.columns()[heading] == list(fields)
    if len(set(answer.headings)) == len(answer.headings):
        found = frames.consumed(answer.__arrow_c_stream__())
        assert [cells for _, cells in found.values()] == [list(fields) for fields in columns] and list(found) == answer.headings
        assert all(letter in letters for (letter, _), letters in zip(found.values(), letters_of(answer))), (found, letters_of(answer))


def columns_have_the_rows(seed, count):
    """Of random questions; each answer also as that of a partial answer, as a list of rows, and after a pickle."""
    pick = random.Random(seed)
    for _ in range(count):
        columns = questions.schema(pick)
        table = questions.table(pick, columns, 1, most=60)
        sql = questions.question(pick, columns)
        answer = table.query(sql)
        check(answer)
        check(table.query(sql)[pick.randrange(4) : pick.randrange(40)])
        finished = lanes.finish(table.partial(sql))
        check(finished)
        again = pickle.loads(pickle.dumps(table.query(sql)))
        assert answer == finished == again == copy.copy(again) == Answer(answer.headings, list(answer), sql) == list(answer)
        check(again)
        check(Answer(answer.headings, list(answer), sql))


def types_are_those_of_the_values():
    """Expected types were worked out by hand."""
    table = Table.create("T", {"A": "INTEGER", "B": "BIGINT"}).import_csv(f"1,{BIG}\n1,{BIG}\n,-{BIG}\n2,\n", heading=False, batch="1.1")
    answer = table.query("SELECT A,COUNT(*) AS N,SUM(B) AS S,MAX(B) AS M,AVG(A) AS MEAN,AVG(B) FROM T GROUP BY A")
    check(answer)
    assert [letter for letter, _ in frames.consumed(answer.__arrow_c_stream__()).values()] == [b"l", b"l", b"d:38,0", b"l", b"d:38,6", b"d:38,6"]
    assert [(heading, str(data.values.dtype), data.nulls is None) for heading, data in answer.to_numpy().items()] == [
        ("A", "int64", False), ("N", "int64", True), ("S", "object", False), ("M", "int64", False), ("MEAN", "float64", False), ("AVG(B)", "float64", False),
    ]  # fmt: skip
    assert [str(kind) for kind in answer.to_pandas().dtypes] == ["Int64", "Int64", "object", "Int64", "Float64", "Float64"]
    small = table.query("SELECT SUM(B) AS S FROM T WHERE A = 2 OR A IS NULL GROUP BY A")
    assert frames.consumed(small.__arrow_c_stream__()) == {"S": (b"l", [-BIG, None])} and str(small.to_pandas()["S"].dtype) == "Int64"
    nulls = table.query("SELECT AVG(B) AS M,SUM(B) AS S FROM T WHERE A = 2")
    assert frames.consumed(nulls.__arrow_c_stream__()) == {"M": (b"d:38,6", [None]), "S": (b"l", [None])}
    assert [str(kind) for kind in nulls.to_pandas().dtypes] == ["Float64", "Int64"]
    for number, word in (10**38 - 1, "d:38,0"), (-(10**38) + 1, "d:38,0"), (10**38, None), (-(10**38), None):
        given = Answer(["S"], [(number,), (None,)])
        if word:
            assert frames.consumed(given.__arrow_c_stream__()) == {"S": (word.encode(), [number, None])}
            continue
        try:
            raise AssertionError(given.__arrow_c_stream__())
        except ValueError as fault:
            assert "38 digits" in str(fault)


def means_are_the_nearest_floats():
    for millionths in *range(-5, 6), 2**53 - 1, 2**53, 2**53 + 1, 2**63 - 1, -(2**63), 2**63, 10**30 + 7, -(10**30) - 7:
        mean = Decimal(f"{millionths}E-6")
        answer = pickle.loads(pickle.dumps(Answer(["M"], [(mean,), (None,)])))
        assert answer.to_numpy()["M"].values.tolist() == [float(mean), 0.0] and answer.to_pandas()["M"].tolist() == [float(mean), pd.NA], millionths
        assert frames.consumed(answer.__arrow_c_stream__())["M"] == (b"d:38,6", [mean, None])


def rows_stay_and_have_names():
    table = Table.create("T", {"A": "INTEGER", "B": "BIGINT"}).import_columns({"A": np.arange(100_000) % 1000, "B": np.arange(100_000)}, batch="1.1")
    answer = table.query("SELECT A,SUM(B) AS S,AVG(B) AS M FROM T GROUP BY A")
    assert answer._rows is None and len(answer) == 1000 and answer._rows is None
    head = answer[:2]
    assert answer._rows is None and head == [(0, 4950000, Decimal("49500")), (1, 4950100, Decimal("49501"))] and head.headings == answer.headings
    assert answer[2] == answer[-998] == (2, 4950200, Decimal("49502")) and answer[2]._fields == ("A", "S", "M") and type(answer[2][1]) is int
    assert list(pd.DataFrame(answer).columns) == ["A", "S", "M"] and answer[990:][::3] == [row for row in answer if row[0] >= 990][::3]
    assert answer[5:2] == [] and answer[5:2].headings == answer.headings and (2, 4950200, Decimal("49502")) in answer and list(reversed(answer))[0] == answer[-1]
    frame = answer.to_pandas()
    frame.loc[0, "S"] = 7
    answer.to_numpy()["S"].values[0] = 7
    assert answer.to_pandas()["S"][0] == 4950000 and answer[0][1] == 4950000, "a frame is a copy"
    assert isinstance(table.query("SELECT B FROM T GROUP BY B").to_numpy()["B"], ColumnData) and len(frames.consumed(table.query("SELECT B FROM T GROUP BY B").__arrow_c_stream__())["B"][1]) == 100_000


def streams_that_nobody_takes_are_released():
    table = Table.create("T", {"A": "BIGINT"}).import_columns({"A": np.arange(200_000)}, batch="1.1")
    answer = table.query("SELECT A,SUM(A) FROM T GROUP BY A")
    before = frames.resident()
    for _ in range(40):
        answer.__arrow_c_stream__()
    assert frames.resident() - before < 60_000_000, "3.2 MB each"


TESTS = [types_are_those_of_the_values, means_are_the_nearest_floats, rows_stay_and_have_names, streams_that_nobody_takes_are_released]
