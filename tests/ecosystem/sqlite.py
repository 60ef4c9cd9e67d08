"""The extension of SQLite, beside a copy of the rows in a table of SQLite's own, and beside `query`.

    sqlite.py EXTENSION [SEED [QUESTIONS]]      prints how many questions were alike

It is run by a Python whose sqlite3 loads extensions."""

from __future__ import annotations

import fcntl
import os
import random
import sqlite3
import subprocess
import sys
import tempfile
import time
from decimal import Decimal

import lanes
import questions
from lanes import Table, part_folder


def connected(extension):
    """A database with the extension."""
    base = sqlite3.connect(":memory:")
    base.enable_load_extension(True)
    base.load_extension(extension)
    return base


def operand(pick, names):
    what = pick.random()
    if what < 0.6:
        return str(pick.choice([-2, -1, 0, 1, 2, 127, -128, (1 << 63) - 1, -(1 << 62)]))
    if what < 0.75:
        return pick.choice(names)
    return pick.choice(["1.5", "-0.5", "1.0", "'1'", "'x'", "NULL", "1 + 1", "x'01'", "9223372036854775808"])


def condition(pick, names, depth=2):
    """A condition in SQLite's language."""
    if depth and pick.random() < 0.6:
        return "(" + pick.choice([" AND ", " AND ", " OR "]).join(condition(pick, names, depth - 1) for _ in range(pick.randint(2, 3))) + ")"
    name, what = pick.choice(names), pick.random()
    if what < 0.6:
        sides = [name, operand(pick, names)]
        if pick.random() < 0.2:
            sides.reverse()
        return f"{sides[0]} {pick.choice(['=', '<>', '<', '<=', '>', '>=', 'IS', 'IS NOT'])} {sides[1]}"
    if what < 0.75:
        return f"{name} {pick.choice(['', 'NOT '])}IN ({','.join(operand(pick, names) for _ in range(pick.randint(1, 4)))})"
    if what < 0.85:
        return f"{name} BETWEEN {operand(pick, names)} AND {operand(pick, names)}"
    if what < 0.95:
        return f"{name} IS {pick.choice(['', 'NOT '])}NULL"
    return f"NOT {name} = {operand(pick, names)}"


def row_condition(pick):
    """A condition on the places of rows."""
    number = pick.choice([str(pick.randint(-1, 30)), str(pick.randint(-1, 300)), "9223372036854775807", "-9223372036854775808", "2.5", "NULL", "'3'"])
    one = f"rowid {pick.choice(['=', '<', '<=', '>', '>=', '<>', 'IS'])} {number}"
    return f"{one} AND {row_condition(pick)}" if pick.random() < 0.4 else one


def asked(pick, names):
    """A question of the table x."""
    a, b = pick.choice(names), pick.choice(names)
    where = f"WHERE {condition(pick, names)}" if pick.random() < 0.8 else ""
    return pick.choice(
        [
            f"SELECT rowid,* FROM x {where} ORDER BY rowid",
            f"SELECT {a} FROM x {where} ORDER BY rowid",
            f"SELECT rowid FROM x {where} ORDER BY rowid",
            f"SELECT rowid,{a} FROM x {where} ORDER BY rowid DESC",
            f"SELECT {a},rowid FROM x {where} ORDER BY rowid DESC LIMIT {pick.choice([1, 3])} OFFSET {pick.choice([0, 2])}",
            f"SELECT rowid FROM x WHERE rowid IN (5, 1, 900, 3) ORDER BY rowid DESC",
            f"SELECT COUNT(*) FROM x {where}",
            f"SELECT COUNT(*),COUNT({a}),TOTAL({a}),MIN({b}),MAX({b}) FROM x {where}",
            f"SELECT {a},COUNT(*),COUNT(DISTINCT {b}) FROM x {where} GROUP BY {a} ORDER BY {a}",
            f"SELECT DISTINCT {a},{b} FROM x {where} ORDER BY 1,2 LIMIT 7",
            f"SELECT p.rowid,q.rowid FROM x p JOIN x q ON p.{a} = q.{b} ORDER BY 1,2 LIMIT 200",
            f"SELECT p.rowid FROM x p WHERE EXISTS (SELECT 1 FROM x q WHERE q.{a} = p.{b} AND q.rowid <> p.rowid) ORDER BY 1",
            f"SELECT rowid,{a} FROM x WHERE {condition(pick, names, 0)} OR {condition(pick, names, 0)} OR {condition(pick, names, 0)} ORDER BY rowid",
            f"SELECT COUNT(*) FROM x p LEFT JOIN x q ON q.{a} > p.{a} AND q.{b} = 1",
            f"SELECT rowid FROM x WHERE {a} IN (SELECT {b} FROM x {where}) ORDER BY rowid",
            f"SELECT (SELECT COUNT(*) FROM x q WHERE q.{a} < p.{a}) FROM x p {where} ORDER BY p.rowid",
            f"SELECT p.rowid,p.{a},q.{a},q.{b} FROM x p, x q ORDER BY 1,3,4 LIMIT 300",
            f"SELECT rowid,* FROM x WHERE {row_condition(pick)} ORDER BY rowid",
            f"SELECT rowid,{a} FROM x WHERE {row_condition(pick)} AND {condition(pick, names)} ORDER BY rowid",
            f"SELECT p.rowid,p.{a},q.{b} FROM x p JOIN x q ON q.rowid = p.rowid + {pick.randint(-2, 2)} {where.replace(names[0], 'p.' + names[0]) if len(names) == 1 else ''} ORDER BY 1",
            f"SELECT COUNT(*),TOTAL({b}) FROM x WHERE rowid IN (SELECT rowid + 1 FROM x {where})",
        ]
    )


def copied(base, table):
    """Makes the table y, a copy of the rows of SQLite's own. A row's rowid is its place among the live rows, as of the extension."""
    base.execute(f"CREATE TABLE y({','.join(f'{name} INTEGER' for name in table.columns)})")
    for at, line in enumerate(table.dump().splitlines()[1:]):
        cells = [int(field) if field else None for field in line.split(",")]
        base.execute(f"INSERT INTO y(rowid,{','.join(table.columns)}) VALUES(?{',?' * len(cells)})", [at, *cells])


def outcome(base, sql):
    try:
        return base.execute(sql).fetchall()
    except sqlite3.Error as fault:
        return str(fault)


def rows_are_those_of_a_copy(extension, seed, count):
    """How many questions are alike."""
    pick, alike = random.Random(seed), 0
    with tempfile.TemporaryDirectory(prefix="lanes-sqlite-") as room:
        path = os.path.join(room, "it's.lanes")
        while alike < count:
            columns = questions.schema(pick)
            table = questions.table(pick, columns, 1).merge(questions.table(pick, columns, 2))
            table.save(path)
            base = connected(extension)
            quoted = path.replace("'", "''")
            base.execute(f"CREATE VIRTUAL TABLE temp.x USING lanes('{quoted}')")
            copied(base, table)
            for _ in range(30):
                sql = asked(pick, [*columns])
                found, wanted = outcome(base, sql), outcome(base, sql.replace("FROM x", "FROM y").replace("JOIN x", "JOIN y"))
                assert found == wanted, f"{sql}\nover {table.dump()}\nis {found}\nand not {wanted}"
                alike += 1
            answers_are_those_of_queries(pick, base, quoted, table)
            base.close()
    return alike


def answers_are_those_of_queries(pick, base, quoted, table):
    """The second form, with what `query` says: means as floats, and what has more than 64 bits as text."""
    for _ in range(5):
        sql = questions.question(pick, table.columns)
        answer = table.query(sql)
        if len({heading.upper() for heading in answer.headings}) < len(answer.headings):
            continue
        escaped = sql.replace("'", "''")
        base.execute(f"CREATE VIRTUAL TABLE temp.z USING lanes('{quoted}', '{escaped}', sums='text')")
        found = base.execute("SELECT * FROM z")
        assert [column[0] for column in found.description] == answer.headings, sql
        assert found.fetchall() == [tuple(map(field_of, row)) for row in answer], sql
        assert base.execute("SELECT COUNT(*) FROM z a JOIN z b ON a.rowid = b.rowid").fetchone() == (len(answer),)
        base.execute("DROP TABLE z")


def field_of(field):
    if field is None or isinstance(field, Decimal):
        return None if field is None else float(field)
    return field if -(1 << 63) <= field < 1 << 63 else str(field)


def a_statement_sees_one_state(extension):
    with tempfile.TemporaryDirectory(prefix="lanes-sqlite-") as room:
        path = os.path.join(room, "t.lanes")
        first = Table.create("T", {"A": "INTEGER"}).import_csv("".join(f"{n}\n" for n in range(100)), heading=False, batch="1.1")
        second = first.import_csv("5\n" * 50, heading=False, batch="2.1").delete("A < 40")
        first.save(path)
        base = connected(extension)
        base.execute(f"CREATE VIRTUAL TABLE temp.x USING lanes('{path}')")
        base.execute(f"CREATE VIRTUAL TABLE temp.z USING lanes('{path}', 'SELECT COUNT(*) AS N,SUM(A) FROM T')")
        running = base.execute("SELECT p.A,(SELECT COUNT(*) FROM x q WHERE q.A >= 0) FROM x p ORDER BY +p.rowid")
        assert running.fetchone() == (0, 100)
        scanning = base.execute("SELECT A FROM x")
        assert scanning.fetchone() == (0,)
        second.save(path)
        assert scanning.fetchall() == [(n,) for n in range(1, 100)]
        assert {count for _, count in running.fetchall()} == {100}
        assert base.execute("SELECT COUNT(*),SUM(A) FROM x").fetchone() == tuple(second.query("SELECT COUNT(*),SUM(A) FROM T")[0])
        assert base.execute("SELECT * FROM z").fetchone() == tuple(second.query("SELECT COUNT(*),SUM(A) FROM T")[0])
        with open(path + ".new", "wb") as file:
            file.write(b"no file")
        os.replace(path + ".new", path)
        for sql in "SELECT * FROM x", "SELECT * FROM z":
            assert "BadMagic" in outcome(base, sql), outcome(base, sql)
        Table.create("U", {"B": "INTEGER"}).save(path)
        assert "NoSuchColumn" in outcome(base, "SELECT A FROM x") and "NoSuchTable" in outcome(base, "SELECT * FROM z")


def a_cursor_that_opens_late_sees_the_state_of_its_statement(extension):
    with tempfile.TemporaryDirectory(prefix="lanes-sqlite-") as room:
        path = os.path.join(room, "t.lanes")
        first = Table.create("T", {"A": "INTEGER"}).import_csv("1\n2\n3\n", heading=False, batch="1.1")
        first.save(path)
        base = connected(extension)
        base.execute(f"CREATE VIRTUAL TABLE temp.x USING lanes('{path}')")
        base.execute("CREATE TABLE n(N)")
        base.execute("INSERT INTO n VALUES (1), (2), (3)")
        running = base.execute("SELECT A,CASE WHEN A > 1 THEN (SELECT TOTAL(q.A) FROM x q WHERE q.A >= p.A) END FROM x p ORDER BY +p.rowid")
        late = base.execute("SELECT N,CASE WHEN N > 1 THEN (SELECT TOTAL(q.A) FROM x q WHERE q.A >= n.N) END FROM n JOIN x p ON p.A = N")
        assert running.fetchone() == (1, None) and late.fetchone() == (1, None)
        first.import_csv("100\n", heading=False, batch="2.1").save(path)
        assert late.fetchall() == [(2, 5.0), (3, 3.0)]
        assert running.fetchall() == [(2, 5.0), (3, 3.0)]


def a_cursor_that_is_not_read_to_its_end_keeps_nothing(extension):
    """A later statement sees the file as it is then, whatever cursors are open; and at the end nothing is left open."""
    with tempfile.TemporaryDirectory(prefix="lanes-sqlite-") as room:
        path = os.path.join(room, "t.lanes")
        table = Table.create("T", {"A": "INTEGER"}).import_csv("1\n2\n3\n", heading=False, batch="1.1")
        table.save(path)
        base = connected(extension)
        base.execute(f"CREATE VIRTUAL TABLE temp.x USING lanes('{path}')")
        base.execute(f"CREATE VIRTUAL TABLE temp.z USING lanes('{path}', 'SELECT COUNT(*) AS N FROM T')")
        opened, mapped = open_files(), mappings(room)
        cursors = []
        for number in range(2, 6):
            for _ in "once", "again":
                cursors.append(base.execute("SELECT A FROM x"))
                assert cursors[-1].fetchone() == (1,)
                cursors.append(base.execute("SELECT N FROM z"))
            table = table.import_csv(f"{number}\n", heading=False, batch=(number, 1))
            table.save(path)
            assert base.execute("SELECT COUNT(*) FROM x").fetchall() == base.execute("SELECT N FROM z").fetchall() == [(2 + number,)]
        left = [len(cursor.fetchall()) for cursor in cursors[::4]]
        assert left == [2, 3, 4, 5], left
        for cursor in cursors:
            cursor.close()
        # Each of the two tables may keep the file that is there now, and no other one.
        assert open_files() <= opened + 2 and mappings(room) <= mapped + 2, (open_files() - opened, mappings(room) - mapped)


def a_file_of_the_same_length_in_its_place_is_another_one(extension):
    """What a statement has open is shared by a later one only if the file is still the same."""
    with tempfile.TemporaryDirectory(prefix="lanes-sqlite-") as room:
        path = os.path.join(room, "t.lanes")
        first, second = (Table.create("T", {"A": "INTEGER"}).import_csv(f"{n}\n{n}\n", heading=False, batch="1.1") for n in (7, 8))
        assert len(first.to_bytes()) == len(second.to_bytes())
        first.save(path)
        base = connected(extension)
        base.execute(f"CREATE VIRTUAL TABLE temp.x USING lanes('{path}')")
        running = base.execute("SELECT A FROM x")
        assert running.fetchone() == (7,)
        second.save(path)
        assert base.execute("SELECT A FROM x").fetchall() == [(8,), (8,)]
        assert running.fetchall() == [(7,)]


def open_files():
    return len(os.listdir("/proc/self/fd"))


def opened_in(room):
    """Which files of a folder are open."""
    paths = (os.path.join("/proc/self/fd", name) for name in os.listdir("/proc/self/fd"))
    return [os.readlink(path) for path in paths if os.path.lexists(path) and os.readlink(path).startswith(room)]


def mappings(room):
    with open("/proc/self/maps") as file:
        return sum(room in line for line in file)


def counted(rows, columns):
    """A table of so many rows in batches of at most 400, of which each column has nulls of its own."""
    table = Table.create("T", {f"C{n}_" + "LONG" * 14 * (columns > 9): "INTEGER" for n in range(columns)})
    for first in range(0, rows, 400):
        lines = [",".join("" if (row * 7 + n) % (n % 5 + 2) == 0 else str(row * (n + 1) % 1000) for n in range(columns)) + "\n" for row in range(first, min(rows, first + 400))]
        table = table.import_csv("".join(lines), heading=False, batch=(1, first // 400 + 1))
    return table


def tables_of_all_sizes_are_those_of_a_copy(extension):
    """Numbers of rows around those that fill a word of bits, 32 columns of long names, and batches that are read in steps."""
    with tempfile.TemporaryDirectory(prefix="lanes-sqlite-") as room:
        for rows, columns in [(0, 3), (1, 3), (511, 3), (512, 3), (513, 3), (1024, 3), (1025, 3), (700, 32)]:
            table, base = counted(rows, columns), connected(extension)
            names = [*table.columns]
            table.save(os.path.join(room, "t.lanes"))
            base.execute(f"CREATE VIRTUAL TABLE temp.x USING lanes('{room}/t.lanes')")
            copied(base, table)
            for sql in [
                "SELECT rowid,* FROM x",
                f"SELECT {','.join(f'COUNT({name}),TOTAL({name})' for name in names)} FROM x",
                f"SELECT rowid,{names[-1]} FROM x WHERE {names[1]} > 500",
                f"SELECT rowid,{names[-1]} FROM x ORDER BY rowid DESC LIMIT 450",
                f"SELECT rowid FROM x WHERE {names[1]} > 500 ORDER BY rowid DESC",
                f"SELECT rowid,{names[0]} FROM x WHERE rowid BETWEEN 398 AND 402 ORDER BY rowid DESC",
                f"SELECT rowid FROM x WHERE rowid <= 401 AND {names[1]} > 500 ORDER BY rowid DESC LIMIT 3",
                f"SELECT rowid FROM x WHERE rowid > 398 ORDER BY rowid DESC",
                f"SELECT p.rowid,q.{names[-1]} FROM x p JOIN x q ON q.rowid = p.rowid WHERE p.{names[0]} IS NOT NULL",
                f"SELECT rowid,{names[0]} FROM x WHERE rowid BETWEEN 398 AND 402 OR rowid = 512 ORDER BY 1",
                *(f"SELECT rowid,{names[0]} FROM x WHERE rowid {op} {row} ORDER BY 1" for op in ["=", "<", "<=", ">", ">=", "<>"] for row in [-1, 0, 1, 399, 400, 401, rows - 1, rows]),
                f"SELECT p.{names[0]},q.{names[0]},q.{names[1]} FROM (SELECT * FROM x LIMIT 30) p, x q",
                f"SELECT {','.join(reversed(names))} FROM x WHERE {names[-1]} = 1 OR {names[0]} = 2 ORDER BY rowid",
            ]:
                found, wanted = outcome(base, sql), outcome(base, sql.replace("FROM x", "FROM y").replace("JOIN x", "JOIN y"))
                assert found == wanted, (rows, columns, sql)
            base.close()


def answers_longer_than_their_first_room_are_whole(extension):
    with tempfile.TemporaryDirectory(prefix="lanes-sqlite-") as room:
        path, rows = os.path.join(room, "t.lanes"), 200_000
        Table.create("T", {"A": "INTEGER"}).import_csv("".join(f"{n}\n" for n in range(rows)), heading=False, batch="1.1").save(path)
        base = connected(extension)
        base.execute(f"CREATE VIRTUAL TABLE temp.z USING lanes('{path}', 'SELECT A,COUNT(*) AS N FROM T GROUP BY A')")
        assert base.execute("SELECT COUNT(*),SUM(A),SUM(N),MAX(A) FROM z").fetchone() == (rows, rows * (rows - 1) // 2, rows, rows - 1)
        assert base.execute("SELECT rowid,A,N FROM z WHERE rowid IN (0, 199999, 200000) OR rowid BETWEEN 7 AND 8 ORDER BY 1").fetchall() == [(n, n, 1) for n in (0, 7, 8, 199999)]


def a_row_is_found_by_its_place(extension):
    """A join by rowid ends soon: a row is found at once, and not by a scan."""
    with tempfile.TemporaryDirectory(prefix="lanes-sqlite-") as room:
        path, rows = os.path.join(room, "t.lanes"), 2 * 65536 + 100
        Table.create("T", {"A": "INTEGER", "B": "INTEGER"}).import_csv("".join(f"{n},{n % 1000}\n" for n in range(rows)), heading=False, batch="1.1").save(path)
        base = connected(extension)
        base.execute(f"CREATE VIRTUAL TABLE temp.x USING lanes('{path}')")
        assert base.execute("SELECT rowid,A FROM x WHERE A = 123456").fetchall() == [(123456, 123456)]
        assert base.execute("SELECT A,B FROM x WHERE rowid = 123456").fetchall() == [(123456, 456)]
        steps = iter(range(50))  # of a million operations each
        base.set_progress_handler(lambda: next(steps, None) is None, 1_000_000)
        assert base.execute("SELECT COUNT(*),SUM(q.B = p.B) FROM x p JOIN x q ON q.rowid = p.rowid").fetchone() == (rows, rows)


FIRST_ROWS = """
import sqlite3, sys
base = sqlite3.connect(":memory:")
base.enable_load_extension(True)
base.load_extension(sys.argv[1])
base.execute(f"CREATE VIRTUAL TABLE temp.x USING lanes('{sys.argv[2]}')")
def peak():
    with open("/proc/self/status") as file:
        return next(int(line.split()[1]) for line in file if line.startswith("VmHWM"))
assert base.execute("SELECT * FROM x WHERE rowid < 0").fetchall() == []
opened = peak()
assert base.execute("SELECT A,B,C,D FROM x LIMIT 3").fetchall() == [(0, 1, 2, 3), (1, 2, 3, 4), (2, 3, 4, 5)]
assert base.execute("SELECT rowid,A FROM x WHERE B = 7 LIMIT 1").fetchall() == [(6, 6)]
assert base.execute("SELECT A FROM x LIMIT 1 OFFSET 200000").fetchall() == [(200000 % 10,)]
first = peak() - opened
assert base.execute("SELECT SUM(A) FROM x").fetchone() == (1300000 // 10 * 45,)
print(first)
"""


def the_first_row_costs_a_batch(extension):
    """The first rows of a table of 1.3 million rows take little memory beside its opening: its four columns would take 42 MB."""
    with tempfile.TemporaryDirectory(prefix="lanes-sqlite-") as room:
        path = os.path.join(room, "t.lanes")
        rows = "".join(f"{n},{n + 1},{n + 2},{n + 3}\n" for n in range(10)) * 130_000
        Table.create("T", {name: "BIGINT" for name in "ABCD"}).import_csv(rows, heading=False, batch="1.1").save(path)
        # The address sanitizer keeps what was freed, if it is there: little of it here, so that what is in use is measured.
        options = {"ASAN_OPTIONS": f"{os.environ.get('ASAN_OPTIONS', '')}:quarantine_size_mb=1:thread_local_quarantine_size_kb=64"}
        ran = subprocess.run([sys.executable, "-c", FIRST_ROWS, extension, path], capture_output=True, text=True, env={**os.environ, **options})
        assert ran.returncode == 0 and int(ran.stdout) < 16 * 1024, (ran.stdout, ran.stderr)


def a_folder_is_a_table(extension):
    with tempfile.TemporaryDirectory(prefix="lanes-sqlite-") as room:
        site = lanes.Folder.create(os.path.join(room, "site"), "T", {"A": "INTEGER", "B": "BIGINT"})
        for number in range(1, 8):
            site.import_csv("".join(f"{n},{n * number}\n" for n in range(number * 10)), heading=False, batch=(1, number))
        with open(os.path.join(room, "site", "notes.txt"), "w") as file:
            file.write("no part")
        base = connected(extension)
        base.execute(f"CREATE VIRTUAL TABLE temp.x USING lanes('{room}/site')")
        base.execute(f"CREATE VIRTUAL TABLE temp.z USING lanes('{room}/site/', 'SELECT COUNT(*) AS N,SUM(B) AS S FROM T')")

        def agree():
            assert base.execute("SELECT A,B FROM x").fetchall() == [tuple(map(int, line.split(","))) for line in site.read().dump().splitlines()[1:]]
            assert base.execute("SELECT * FROM z").fetchone() == tuple(site.query("SELECT COUNT(*),SUM(B) FROM T")[0])

        agree()
        site.delete("A < 5")
        agree()
        os.mkdir(os.path.join(room, "site", "0" * 32 + ".lanes"))
        assert base.execute("SELECT COUNT(*),SUM(B) FROM x").fetchone() == base.execute("SELECT * FROM z").fetchone()
        os.rmdir(os.path.join(room, "site", "0" * 32 + ".lanes"))
        running = base.execute("SELECT B FROM x")
        first = running.fetchone()
        site.pack(everything=True)
        site.delete("A > 50")
        assert len([first, *running]) == 245
        agree()
        other = part_folder.put(site.path, Table.create("U", {"A": "INTEGER"}).to_bytes())
        names, found = site.parts(), outcome(base, "SELECT * FROM x")
        assert f"{site.path}/{names[1] if other == names[0] else other}: SchemaDiffers" in found, found
        os.unlink(os.path.join(site.path, other))
        assert base.execute("SELECT COUNT(*) FROM x").fetchone() == (len(site),)
        for part in site.parts():
            os.unlink(os.path.join(site.path, part))
        assert "has no part, so it is no replica" in outcome(base, "SELECT * FROM x")


def a_part_at_fault_is_named(extension):
    """A part that was cut, or that has a bit flipped in a value, is refused as each other reader of the folder refuses it, and so is a pipe."""
    with tempfile.TemporaryDirectory(prefix="lanes-sqlite-") as room:
        site = lanes.Folder.create(os.path.join(room, "site"), "T", {"A": "INTEGER"})
        for number in 1, 2:
            site.import_csv("".join(f"{n * number}\n" for n in range(300)), heading=False, batch=(1, number))
        base = connected(extension)
        base.execute(f"CREATE VIRTUAL TABLE temp.x USING lanes('{room}/site')")
        before = base.execute("SELECT SUM(A) FROM x").fetchall()
        for part in site.parts():
            path = os.path.join(site.path, part)
            with open(path, "rb") as file:
                data = file.read()
            for at in 12, len(data) // 2, len(data) - 1:
                for spoiled in data[:at], data[:at] + bytes([data[at] ^ 1]) + data[at + 1 :]:
                    with open(path, "wb") as file:
                        file.write(spoiled)
                    assert base.execute("SELECT SUM(A) FROM x").fetchall() == before  # what is open has the parts of these names
                    found = outcome(connected(extension), f"CREATE VIRTUAL TABLE temp.x USING lanes('{room}/site')")
                    assert f"{path}: Damaged: " in found, (found, before)
            os.unlink(path)
            os.mkfifo(path)
            found = outcome(connected(extension), f"CREATE VIRTUAL TABLE temp.x USING lanes('{room}/site')")
            assert f"{path} can't be read: Invalid argument" in found, found
            os.unlink(path)
            with open(path, "wb") as file:
                file.write(data)
        assert base.execute("SELECT SUM(A) FROM x").fetchall() == before


def a_folder_that_another_has_is_busy(extension):
    """So that a handler of SQLite's can wait for it."""
    with tempfile.TemporaryDirectory(prefix="lanes-sqlite-") as room:
        site = lanes.Folder.create(os.path.join(room, "site"), "T", {"A": "INTEGER"})
        base = connected(extension)
        base.execute(f"CREATE VIRTUAL TABLE temp.x USING lanes('{room}/site')")
        with part_folder.locked(site.path, fcntl.LOCK_EX):
            try:
                base.execute("SELECT * FROM x").fetchall()
                raise AssertionError("the lock is not waited for")
            except sqlite3.OperationalError as fault:
                assert "Busy" in str(fault) and getattr(fault, "sqlite_errorname", "SQLITE_BUSY") == "SQLITE_BUSY", fault
        assert base.execute("SELECT * FROM x").fetchall() == []


def statements_that_fail_leave_nothing(extension):
    """Of a file that is gone or is another one, and of a folder that is at fault."""
    with tempfile.TemporaryDirectory(prefix="lanes-sqlite-") as room:
        path, table = os.path.join(room, "t.lanes"), Table.create("T", {"A": "INTEGER"}).import_csv("1\n", heading=False)
        table.save(path)
        site = lanes.Folder.of(os.path.join(room, "site"), table)
        base = connected(extension)
        base.execute(f"CREATE VIRTUAL TABLE temp.x USING lanes('{path}')")
        base.execute(f"CREATE VIRTUAL TABLE temp.y USING lanes('{room}/site')")
        part_folder.put(site.path, b"no file")

        def spoil():
            with open(path, "wb") as file:
                file.write(b"no file")

        for change in (os.unlink, path), (spoil,), (Table.create("U", {"B": "INTEGER"}).save, path):
            change[0](*change[1:])
            opened, mapped = open_files(), mappings(room)
            for _ in range(100):
                for name in "xy":
                    assert isinstance(outcome(base, f"SELECT A FROM {name}"), str)
            assert (open_files(), mappings(room)) == (opened, mapped)


def a_file_that_is_written_in_place_is_another_one(extension):
    """A statement that begins afterwards sees the file as it is, while another one is not read to its end."""
    with tempfile.TemporaryDirectory(prefix="lanes-sqlite-") as room:
        path = os.path.join(room, "t.lanes")
        first, second = (Table.create("T", {"A": "INTEGER"}).import_csv("".join(f"{n + more}\n" for n in range(3000)), heading=False, batch="1.1") for more in (0, 1))
        assert len(first.to_bytes()) == len(second.to_bytes())
        first.save(path)
        base = connected(extension)
        base.execute(f"CREATE VIRTUAL TABLE temp.x USING lanes('{path}')")
        running = base.execute("SELECT A FROM x")
        assert running.fetchone() == (0,)
        time.sleep(0.02)  # so that its time is another one
        with open(path, "r+b") as file:
            file.write(second.to_bytes())
        assert base.execute("SELECT SUM(A) FROM x").fetchone() == (3000 * 3001 // 2,)
        running.close()


def a_settled_file_that_is_written_in_place_with_as_many_bytes_is_another_one(extension):
    """What was open could be shared, and is not."""
    with tempfile.TemporaryDirectory(prefix="lanes-sqlite-") as room:
        path = os.path.join(room, "t.lanes")
        first, second = (Table.create("T", {"A": "INTEGER"}).import_csv("".join(f"{n + more}\n" for n in range(3000)), heading=False, batch="1.1") for more in (0, 1))
        assert len(first.to_bytes()) == len(second.to_bytes())
        first.save(path)
        base = connected(extension)
        time.sleep(2.1)  # as is_settled has it
        base.execute(f"CREATE VIRTUAL TABLE temp.x USING lanes('{path}')")
        assert base.execute("SELECT SUM(A) FROM x").fetchone() == (2999 * 3000 // 2,)
        with open(path, "r+b") as file:
            file.write(second.to_bytes())
        assert base.execute("SELECT SUM(A) FROM x").fetchone() == (3000 * 3001 // 2,)


def a_folder_of_as_many_other_parts_is_another_one(extension):
    """Parts come in the place of others, each of which has the least name or the greatest in turn."""
    with tempfile.TemporaryDirectory(prefix="lanes-sqlite-") as room:
        site = lanes.Folder.create(os.path.join(room, "site"), "T", {"A": "INTEGER"})
        empty = Table.create("T", {"A": "INTEGER"})
        base = connected(extension)
        base.execute(f"CREATE VIRTUAL TABLE temp.x USING lanes('{site.path}')")
        for parts in 1, 2, 3:
            while len(site.parts()) < parts:
                site.import_csv("1\n", heading=False)
            for number in range(24):
                gone = site.parts()[number % parts]
                part_folder.put(site.path, empty.import_csv(f"{number}\n", heading=False, batch=(7, 24 * parts + number)).to_bytes())
                os.unlink(os.path.join(site.path, gone))
                found = sorted(row for (row,) in base.execute("SELECT A FROM x"))
                assert found == sorted(int(line) for line in site.dump().splitlines()[1:]), (parts, number)


def scans_beside_each_other_have_each_row_once(extension):
    """One from the first row on, and one from the last row back, each of which reads on while the other one is in a block that begins where its own
    does and ends elsewhere."""
    rows = 126_000
    with tempfile.TemporaryDirectory(prefix="lanes-sqlite-") as room:
        table = Table.create("T", {"A": "INTEGER"})
        for batch in range(126):
            table = table.import_columns({"A": range(batch * 1000, batch * 1000 + 1000)}, batch=(1, batch + 1))
        table.save(os.path.join(room, "t.lanes"))
        base = connected(extension)
        base.execute(f"CREATE VIRTUAL TABLE temp.x USING lanes('{room}/t.lanes')")
        wanted = [(row,) for row in range(rows)]
        time.sleep(2.1)  # so that both scans share what is open
        for back in 14_999, 15_000, 30_999, 31_000:  # some versions of Python ask for a row in advance
            scans = base.execute("SELECT A FROM x ORDER BY rowid DESC"), base.execute("SELECT A FROM x")
            found = [scan.fetchmany(count) for scan, count in zip(scans, (back, 63_001))]
            found = [before + scan.fetchall() for scan, before in zip(scans, found)]
            assert found == [wanted[::-1], wanted], back


#: Another process that goes on writing over a file, cutting it and putting another one in its place, until its input ends.
WRITER = """
import os, select, sys
path, *sources = sys.argv[1:]
whole = [open(source, "rb").read() for source in sources]
while not select.select([sys.stdin], [], [], 0)[0]:
    for data in whole:
        with open(path, "wb") as file:
            file.write(data)
        os.truncate(path, len(data) // 2)
        with open(path + ".new", "wb") as file:
            file.write(data)
        os.replace(path + ".new", path)
"""


def a_file_that_is_written_over_while_it_is_opened_ends_no_process(extension):
    """A thousand openings beside a process that writes over the file, cuts it and replaces it: each has the rows of one state, or is refused."""
    with tempfile.TemporaryDirectory(prefix="lanes-sqlite-") as room:
        path, sources, outcomes = os.path.join(room, "t.lanes"), [os.path.join(room, name) for name in "ab"], {}
        wanted = []
        for at, source in enumerate(sources):
            table = Table.create("T", {"A": "BIGINT"}).import_csv("".join(f"{n * 7919 % 1000003 + at}\n" for n in range(100_000)), heading=False, batch="1.1")
            table.save(source)
            wanted.append([tuple(table.query("SELECT COUNT(*),SUM(A) FROM T")[0])])
        base = connected(extension)
        with subprocess.Popen([sys.executable, "-c", WRITER, path, *sources], stdin=subprocess.PIPE) as writer:
            while not os.path.exists(path):
                time.sleep(0.01)
            ends = time.monotonic() + 300
            while sum(outcomes.values()) < 1000 or len(outcomes) < 2:
                made = outcome(base, f"CREATE VIRTUAL TABLE temp.x USING lanes('{path}')")
                found = outcome(base, "SELECT COUNT(*),SUM(A) FROM x") if made == [] else made
                assert found in wanted or isinstance(found, str) and found.startswith("lanes: "), found
                outcomes[found in wanted] = outcomes.get(found in wanted, 0) + 1
                base.execute("DROP TABLE IF EXISTS temp.x")
                assert time.monotonic() < ends, outcomes
            writer.stdin.close()


def what_is_wrong_is_said(extension):
    with tempfile.TemporaryDirectory(prefix="lanes-sqlite-") as room:
        path = os.path.join(room, "t.lanes")
        Table.create("T", {"A": "INTEGER"}).save(path)
        base = connected(extension)
        for words, said in [
            (f"'{room}/none'", "/none can't be read: No such file or directory"),
            ("'/dev/null'", "/dev/null can't be read: it is neither a regular file nor a folder"),
            (f"'{path}', 'SELECT COUNT(*) FROM T', sums='other'", "sums='text' or sums='real'"),
            (f"'{room}'", "has no part, so it is no replica"),
            ("", "a file is wanted"),
            (f"'{path}', 'SELECT 1', 2", "a file is wanted"),
            (f"'{path}', 'SELECT B FROM T'", 'NoSuchColumn: byte 7: there is no column "B": the table has A'),
            (f"'{path}', 'SELECT A FROM T LIMIT 1'", "Syntax: byte 16: there is no LIMIT: pipe the answer through head -n 4 (the heading and 3 rows)"),
            (f"'{__file__}'", "BadMagic: this is a text file, not a lanes file"),
            (f"'{path}', 'SELECT A,A FROM T GROUP BY A'", "duplicate column"),
        ]:
            found = outcome(base, f"CREATE VIRTUAL TABLE temp.x USING lanes({words})")
            assert said in found, (words, found)
        base.execute(f"CREATE VIRTUAL TABLE temp.x USING lanes('{path}')")
        assert outcome(base, "SELECT * FROM x") == []
        for sql in "INSERT INTO x VALUES(1)", "DELETE FROM x", "UPDATE x SET A = 1":
            assert "may not be modified" in outcome(base, sql), outcome(base, sql)


def a_sum_past_64_bits_is_refused_or_given_as_the_table_says(extension):
    """As text it would be greater than each number, and a float is only near it."""
    big = (1 << 63) - 1
    with tempfile.TemporaryDirectory(prefix="lanes-sqlite-") as room:
        path = os.path.join(room, "t.lanes")
        Table.create("T", {"A": "TINYINT", "B": "BIGINT"}).import_csv(f"1,{big}\n1,{big}\n2,-{big}\n2,-{big}\n3,{big}\n4,-{big}\n4,-1\n", heading=False).save(path)
        sql = "'SELECT A,SUM(B) AS S FROM T GROUP BY A'"
        base = connected(extension)
        for name, more in ("refused", ""), ("texts", ", sums='text'"), ("reals", ", SUMS = real"):
            base.execute(f"CREATE VIRTUAL TABLE temp.{name} USING lanes('{path}', {sql}{more})")
        for asked_ in "MAX(S) FROM refused", "A FROM refused ORDER BY S", "A FROM refused WHERE S > 0", "S FROM refused LIMIT 1":
            found = outcome(base, f"SELECT {asked_}")
            assert f"lanes: {2 * big} has more than 64 bits" in found and "sums='text'" in found and "sums='real'" in found, found
        assert base.execute("SELECT A FROM refused").fetchall() == [(1,), (2,), (3,), (4,)]
        assert base.execute("SELECT S FROM refused WHERE rowid IN (2, 3)").fetchall() == [(big,), (-big - 1,)]
        assert base.execute("SELECT S FROM texts").fetchall() == [(str(2 * big),), (str(-2 * big),), (big,), (-big - 1,)]
        assert base.execute("SELECT A FROM reals ORDER BY S DESC").fetchall() == [(1,), (3,), (4,), (2,)]
        assert base.execute("SELECT MAX(S),MIN(S) FROM reals").fetchone() == (float(2 * big), float(-2 * big))


def means_are_the_nearest_floats(extension):
    """Those of numbers of all sizes, and of seven numbers near 2^62 whose mean is a seventh beside the middle of two floats."""
    pick, lines = random.Random(1), []
    for group in range(20_000):
        most = 1 << pick.randint(1, 62)
        lines += [f"{group},{pick.choice((-1, 1)) * pick.randint(most // 2, most)}\n" for _ in range(pick.randint(1, 7))]
    for group in range(100):
        middle = (1 << 62) + 1024 * group + 512
        lines += [f"{20_000 + group},{number}\n" for number in [middle] * 6 + [middle + pick.choice((-1, 1))]]
    with tempfile.TemporaryDirectory(prefix="lanes-sqlite-") as room:
        path, sql = os.path.join(room, "t.lanes"), "SELECT A,AVG(B) AS M FROM T GROUP BY A"
        table = Table.create("T", {"A": "INTEGER", "B": "BIGINT"}).import_csv("".join(lines), heading=False)
        table.save(path)
        base = connected(extension)
        base.execute(f"CREATE VIRTUAL TABLE temp.x USING lanes('{path}', '{sql}')")
        found, wanted = base.execute("SELECT * FROM x").fetchall(), [tuple(map(field_of, row)) for row in table.query(sql)]
        assert found == wanted, next((one, other) for one, other in zip(found, wanted) if one != other)


def what_is_open_stays_open_while_it_is_the_same(extension):
    """A row by its rowid costs no opening, which takes a hundred times as long; a row at the end costs no scan."""
    with tempfile.TemporaryDirectory(prefix="lanes-sqlite-") as room:
        path, rows = os.path.join(room, "t.lanes"), 2_000_000
        table = Table.create("T", {"A": "BIGINT"}).import_csv("".join(f"{n * 7919 % 1000003}\n" for n in range(rows)), heading=False, batch="1.1")
        table.save(path)
        site = lanes.Folder.of(os.path.join(room, "site"), table)
        time.sleep(2.1)  # a file that was just changed may be changed again within the same tick of its time
        base = connected(extension)
        for source in path, site.path:
            base.execute(f"CREATE VIRTUAL TABLE temp.x USING lanes('{source}')")
            took = {}
            for sql, wanted in ("SELECT A FROM x WHERE rowid = 1234567", 1234567 * 7919 % 1000003), ("SELECT A FROM x ORDER BY rowid DESC LIMIT 1", (rows - 1) * 7919 % 1000003):
                for _ in range(9):
                    began = time.process_time()
                    assert base.execute(sql).fetchall() == [(wanted,)]
                    took[sql] = min(took.get(sql, 9), time.process_time() - began)
                assert opened_in(room) == [path] * (source == path)
            assert max(took.values()) < 0.005, took
            base.execute("DROP TABLE x")


TESTS = [
    a_sum_past_64_bits_is_refused_or_given_as_the_table_says,
    means_are_the_nearest_floats,
    what_is_open_stays_open_while_it_is_the_same,
    a_statement_sees_one_state,
    a_cursor_that_opens_late_sees_the_state_of_its_statement,
    a_cursor_that_is_not_read_to_its_end_keeps_nothing,
    a_file_of_the_same_length_in_its_place_is_another_one,
    tables_of_all_sizes_are_those_of_a_copy,
    answers_longer_than_their_first_room_are_whole,
    a_row_is_found_by_its_place,
    the_first_row_costs_a_batch,
    a_folder_is_a_table,
    a_part_at_fault_is_named,
    statements_that_fail_leave_nothing,
    a_file_that_is_written_in_place_is_another_one,
    a_settled_file_that_is_written_in_place_with_as_many_bytes_is_another_one,
    a_folder_of_as_many_other_parts_is_another_one,
    scans_beside_each_other_have_each_row_once,
    a_file_that_is_written_over_while_it_is_opened_ends_no_process,
    what_is_wrong_is_said,
]


def main():
    extension, seed, count = sys.argv[1], int((sys.argv + ["", "1"])[2] or 1), int((sys.argv + [""] * 3)[3] or 600)
    for test in TESTS:
        test(extension)
    if seed == 1:
        a_folder_that_another_has_is_busy(extension)  # it takes ten seconds
    print(rows_are_those_of_a_copy(extension, seed, count), "questions were alike")


if __name__ == "__main__":
    main()
