"""The Arrow stream of files, taken by a program in C, beside what queries say of them."""

from __future__ import annotations

import os
import random
import subprocess
import tempfile

import lanes
import questions

LETTERS = {"TINYINT": "c", "SMALLINT": "s", "INTEGER": "i", "BIGINT": "l"}


def wrapped(total):
    """A sum as 64 bits have it."""
    return (total + (1 << 63)) % (1 << 64) - (1 << 63)


def expected(table, where):
    """What the program prints of a table's rows at which a condition is true."""
    fields = "".join(f",SUM({name}),COUNT({name})" for name in table.columns)
    rows, *cells = table.query(f"SELECT COUNT(*){fields} FROM T{f' WHERE {where}' if where else ''}")[0]
    lines = [f"{name} {LETTERS[kind]} {wrapped(total or 0)} {rows - count}" for (name, kind), total, count in zip(table.columns.items(), cells[0::2], cells[1::2])]
    return "".join(f"{line}\n" for line in [*lines, f"rows={rows} arrays={-(-rows // 65_536)}"])


def a_program_in_c_takes_what_queries_say(consumer, seed=1, count=25):
    pick = random.Random(seed)
    with tempfile.TemporaryDirectory(prefix="lanes-arrow-") as room:
        path = os.path.join(room, "t.lanes")
        for at in range(count):
            columns = questions.schema(pick)
            table = questions.table(pick, columns, 1, most=2500)
            if at == 0:
                columns = {"A": "TINYINT", "B": "INTEGER"}
                table = lanes.Table.create("T", columns).import_csv("1,\n,-7\n3,4\n" * 50_000, heading=False, batch="1.1").delete_rows("1.1", 3)
            elif at <= 5:  # about the ends of what 64 bytes of bits have
                columns, rows = {"A": "SMALLINT", "B": "BIGINT", "C": "TINYINT"}, (511, 512, 513, 1024, 1025)[at - 1]
                csv = "".join(f"{row % 7 or ''},{row if row % 3 else ''},\n" for row in range(rows))
                table = lanes.Table.create("T", columns).import_csv(csv, heading=False, batch="1.1")
            table.save(path)
            for where in "", questions.condition(pick, columns, [], 1):
                found = subprocess.run([consumer, path, where], capture_output=True, text=True, timeout=60)
                assert found.returncode == 0 and found.stdout == expected(table, where), f"{where!r}: {found.stdout}{found.stderr}\nis not\n{expected(table, where)}"
        refused = subprocess.run([consumer, path, "X ="], capture_output=True, text=True, timeout=60)
        assert refused.returncode == 1 and "columns: 26" in refused.stdout, refused.stdout
