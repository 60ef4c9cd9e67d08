"""Tables: their names, columns and rows, what is taken leniently, and what is refused. Expected values were worked out by hand."""

from __future__ import annotations

import copy
import gc
import hashlib
import io
import os
import pathlib
import pickle
import random
import tempfile
import unittest
import unittest.mock
import weakref

from lanes import BatchName, Folder, OutOfMemory, Refused, Table, arrow, given_columns, library
from lanes import table as table_module


def visits() -> Table:
    table = Table.create("Visits", {"Site": "smallint", "Hits": "Integer"})
    return table.import_csv("SITE,HITS\n1,10\n1,7\n2,\n", batch="1.1").import_csv("HITS,SITE\n20,3\n30,1\n", batch=(2, 1))


class Descriptions(unittest.TestCase):
    def test_a_table_has_a_name_columns_and_rows(self) -> None:
        for table in visits(), Table.from_bytes(visits().to_bytes()):
            self.assertEqual((table.name, table.columns, len(table)), ("VISITS", {"SITE": "SMALLINT", "HITS": "INTEGER"}, 5))
            self.assertEqual(list(table.columns), ["SITE", "HITS"])
            self.assertEqual(repr(table), f"<lanes.Table VISITS of {len(table.to_bytes())} bytes>")
        self.assertEqual(len(visits().delete("SITE = 1")), 2)

    def test_an_empty_table_is_true(self) -> None:
        table = Table.create("T", {"A": "tinyint"})
        self.assertEqual((len(table), bool(table)), (0, True))

    def test_what_is_in_a_table_is_inspected(self) -> None:
        table = visits().delete("SITE = 3")
        self.assertEqual(
            table.inspect(),
            {
                "table": "VISITS", "batches": 2, "live": 4, "ranges": 1, "bytes": len(table.to_bytes()),
                "columns": [
                    {"column": "SITE", "type": "SMALLINT", "nulls": 0, "values": 4, "least": 1, "greatest": 2},
                    {"column": "HITS", "type": "INTEGER", "nulls": 1, "values": 3, "least": 7, "greatest": 30},
                ],
            },
        )
        self.assertEqual(Table.create("T", {"A": "BIGINT"}).inspect()["columns"], [{"column": "A", "type": "BIGINT", "nulls": 0, "values": 0, "least": None, "greatest": None}])

    def test_a_table_is_copied_and_pickled(self) -> None:
        for other in copy.copy(visits()), copy.deepcopy(visits()), pickle.loads(pickle.dumps(visits())):
            self.assertEqual((other, len(other)), (visits(), 5))

    def test_the_digest_is_that_of_the_file_and_of_a_folder_of_the_same(self) -> None:
        table = visits().delete("SITE = 3")
        self.assertEqual(table.digest(), hashlib.sha512(table.to_bytes()).hexdigest()[:32])
        with tempfile.TemporaryDirectory() as room:
            folder = Folder.of(os.path.join(room, "visits"), visits())
            self.assertEqual(folder.digest(), visits().digest())
            folder.delete("SITE = 3")
            self.assertEqual(folder.digest(), table.digest())

    def test_the_digests_of_batches_are_those_of_tables_that_have_them_alone(self) -> None:
        one = Table.create("T", {"A": "BIGINT"}).import_rows([(1,), (2,)], batch="1.1")
        other = Table.create("T", {"A": "BIGINT"}).import_rows([(3,)], batch="1.1").import_rows([(4,)], batch="2.7")
        self.assertEqual(one.delete_rows("1.1", 0).batch_digests(), {"1.1": one.digest()})
        self.assertEqual(list(other.batch_digests()), ["1.1", "2.7"])
        self.assertNotEqual(other.batch_digests()["1.1"], one.digest())
        self.assertEqual(Table.create("T", {"A": "BIGINT"}).batch_digests(), {})

    def test_equal_tables_have_equal_hashes(self) -> None:
        other = visits().delete("SITE = 3")
        self.assertEqual(len({visits(), visits(), other}), 2)
        self.assertNotEqual(visits(), other)
        self.assertNotEqual(visits(), visits().to_bytes())


class Rows(unittest.TestCase):
    def test_the_first_rows_are_those_of_a_dump(self) -> None:
        table = visits().delete("SITE = 2")
        self.assertEqual(table.head(), [(1, 10), (1, 7), (3, 20), (1, 30)][:5])
        self.assertEqual(table.head().headings, ["SITE", "HITS"])
        self.assertEqual([len(table.head(count)) for count in range(6)], [0, 1, 2, 3, 4, 4])
        self.assertEqual(visits().head(3)[2], (2, None))
        many = Table.create("T", {"A": "INTEGER", "B": "TINYINT"}).import_csv("".join(f"{n},{'' if n % 3 else n % 9}\n" for n in range(1100)), heading=False)
        self.assertEqual(many.delete("A < 500").head(700)[-1], (1099, None))
        self.assertEqual(many.head(520)[510:], [(n, None if n % 3 else n % 9) for n in range(510, 520)])
        self.assertEqual(Table.create("T", {"A": "BIGINT"}).head(), [])

    def test_a_folder_is_merged_as_a_table(self) -> None:
        with tempfile.TemporaryDirectory() as room:
            folder = Folder.of(os.path.join(room, "site"), visits())
            folder.delete("SITE = 1")
            other = Table.create("Visits", visits().columns).import_csv("SITE,HITS\n5,5\n", batch="3.1")
            self.assertEqual(other.merge(folder, visits()), other.merge(folder.read()))

    def test_a_file_at_fault_and_a_folder_are_named(self) -> None:
        with tempfile.TemporaryDirectory() as room:
            path = os.path.join(room, "t.lanes")
            for data, name in (b"PNG " * 20, "BadMagic"), (b"", "Truncated"), (visits().to_bytes()[:-1], "Truncated"):
                with open(path, "wb") as file:
                    file.write(data)
                with self.assertRaises(Refused) as caught:
                    Table.open(path)
                self.assertEqual(caught.exception.name, name)
                self.assertEqual(caught.exception.subject, path)
                self.assertTrue(str(caught.exception).partition(": ")[2].startswith(f"{path}: "), caught.exception)
            with self.assertRaises(IsADirectoryError) as told:
                Table.open(room)
            self.assertEqual(told.exception.filename, room)
            self.assertIn("lanes.Folder", str(told.exception))

    def test_rows_have_names(self) -> None:
        answer = visits().query("SELECT SITE,SUM(HITS) FROM VISITS GROUP BY SITE")
        for row in answer[0], pickle.loads(pickle.dumps(answer))[0], pickle.loads(pickle.dumps(answer[0])), copy.deepcopy(answer)[0]:
            self.assertEqual((row, row._fields, row._asdict()), ((1, 47), ("SITE", "SUM(HITS)"), {"SITE": 1, "SUM(HITS)": 47}))
            self.assertIsInstance(row, tuple)
        self.assertEqual(pickle.loads(pickle.dumps(answer)), answer)

    def test_what_is_shown_of_an_answer_is_a_short_line(self) -> None:
        self.assertEqual(repr(visits().query("SELECT COUNT(*) FROM VISITS")), "Answer(['COUNT(*)'], [(5,)])")
        many = Table.create("T", {"A": "INTEGER"}).import_csv("".join(f"{n}\n" for n in range(1000)), heading=False)
        self.assertEqual(repr(many.query("SELECT A,COUNT(*) FROM T GROUP BY A")), "<lanes.Answer of 1,000 rows: A, COUNT(*)>")
        wide = many.query(f"SELECT {','.join(['COUNT(DISTINCT A)'] * 40)} FROM T")
        self.assertRegex(repr(wide), "^<lanes.Answer of 1 row: COUNT.*[.][.]>$")
        self.assertLess(len(repr(wide)), 120)
        self.assertRegex(repr(many.partial("SELECT A FROM T GROUP BY A")), "^<lanes.Partial of [0-9,]+ bytes>$")


class Habits(unittest.TestCase):
    def test_a_table_is_closed_at_the_end_of_its_block(self) -> None:
        with tempfile.TemporaryDirectory() as room:
            path = pathlib.Path(room, "t.lanes")
            visits().save(path)
            for table in Table.open(path), visits():
                with table as entered:
                    self.assertIs(entered, table)
                    self.assertEqual(len(table), 5)
                for act in lambda: len(table), table.to_bytes, lambda: table.delete("SITE = 1"), lambda: table.merge(visits()), table.check:
                    with self.assertRaisesRegex(ValueError, "this table is closed"):
                        act()
                self.assertEqual(repr(table), "<lanes.Table, closed>")
                table.close()
        with self.assertRaises(ZeroDivisionError), visits() as table:
            raise ZeroDivisionError

    def test_a_table_that_nobody_has_is_gone(self) -> None:
        table = visits()
        seen = weakref.ref(table)
        self.assertIs(seen(), table)
        del table
        gc.collect()
        self.assertIsNone(seen())

    def test_calls_of_a_subclass_give_that_subclass(self) -> None:
        class Own(Table):
            """A table of one's own."""

        table = Own.create("VISITS", visits().columns)
        self.assertIs(type(table), Own)
        self.assertIs(type(Own.from_bytes(visits().to_bytes())), Own)
        loaded = table.import_csv("SITE,HITS\n1,1\n", batch="1.1")
        for other in loaded, loaded.delete("SITE = 1"), loaded.delete_rows("1.1", 0), loaded.forget(), loaded.merge(table, table.delete_rows("1.1", 0)), loaded.apply(table.to_bytes()), copy.copy(loaded):
            self.assertIs(type(other), Own)
        self.assertEqual(loaded, Table.from_bytes(loaded.to_bytes()))
        self.assertEqual(repr(table), f"<Own VISITS of {len(table.to_bytes())} bytes>")

    def test_a_table_of_many_long_names_is_described(self) -> None:
        columns = {f"C{number:02}{'X' * 61}": "TINYINT" for number in range(32)}
        table = Table.create("T" * 64, columns).import_csv(",".join(map(str, range(32))) + "\n", heading=False, batch="1.1")
        self.assertEqual((table.name, table.columns, len(table)), ("T" * 64, columns, 1))
        self.assertEqual(Table.from_bytes(table.to_bytes()).columns, columns)
        self.assertEqual(table.query(f"SELECT {','.join(columns)} FROM {'T' * 64} GROUP BY {','.join(columns)}"), [tuple(range(32))])

    def test_large_tables_that_differ_at_the_end_are_not_equal(self) -> None:
        pick = random.Random(1)
        rows = "".join(f"{pick.randrange(-(1 << 31), 1 << 31)}\n" for _ in range(400_000))
        table = Table.create("T", {"A": "INTEGER"}).import_csv(rows, heading=False, batch="1.1")
        one, other = table.delete_rows("1.7", 3), table.delete_rows("1.7", 4)
        self.assertGreater(len(one.to_bytes()), 1_200_000)
        self.assertEqual(len(one.to_bytes()), len(other.to_bytes()))
        self.assertNotEqual(one, other)
        self.assertEqual(one, Table.from_bytes(one.to_bytes()))

    def test_there_is_no_stream_without_a_compiler(self) -> None:
        nowhere = pathlib.Path("/nowhere")
        caches = [arrow._shim, arrow.has_shim]
        with unittest.mock.patch.object(library, "_SHIM", nowhere), unittest.mock.patch.object(library, "_PACKAGED", nowhere):
            for cache in caches:
                cache.cache_clear()
            self.assertFalse(hasattr(visits(), "__arrow_c_stream__"))
            self.assertFalse(hasattr(Table, "__arrow_c_stream__"))
        for cache in caches:
            cache.cache_clear()


    def test_a_stream_that_can_not_be_made_leaves_nothing(self) -> None:
        if not hasattr(visits(), "__arrow_c_stream__"):
            self.skipTest("there is no C compiler")
        for call, answer in ("lanes_arrow_stream", 12), ("lanes_arrow_room", None):
            free = unittest.mock.Mock(side_effect=arrow._shim().lanes_arrow_free)
            with unittest.mock.patch.object(arrow._shim(), call, return_value=answer), unittest.mock.patch.object(arrow._shim(), "lanes_arrow_free", free):
                with self.assertRaises(OutOfMemory):
                    visits().__arrow_c_stream__()
            self.assertEqual(free.call_count, 1)
        self.assertTrue(visits().__arrow_c_stream__())


class Lenience(unittest.TestCase):
    def test_columns_are_a_dict_or_pairs(self) -> None:
        pairs = [("A", "bigint"), ("B", "TinyInt")]
        self.assertEqual(Table.create("T", pairs), Table.create("T", dict(pairs)))
        for columns in [["A"], ["AB"], [("A",)], [("A", 4)]]:
            with self.subTest(columns=columns), self.assertRaises(TypeError):
                Table.create("T", columns)  # type: ignore[arg-type, list-item]

    def test_a_type_that_is_none_is_named(self) -> None:
        with self.assertRaises(Refused) as caught:
            Table.create("T", {"A": "INTEGRAL"})
        self.assertEqual((caught.exception.name, caught.exception.sentence), ("BadSchema", "the type 'INTEGRAL' of column A is unknown: a type is TINYINT, SMALLINT, INTEGER or BIGINT"))

    def test_types_have_other_names(self) -> None:
        for word, kind in [("int", "INTEGER"), ("INT8", "TINYINT"), ("Int16", "SMALLINT"), ("int32", "INTEGER"), ("int64", "BIGINT"), ("bigint", "BIGINT")]:
            self.assertEqual(Table.create("T", {"A": word}).columns, {"A": kind})

    def test_a_name_with_spaces_is_no_name(self) -> None:
        for name, columns in [("T A INTEGER", {"B": "INTEGER"}), ("T", {"A INTEGER B": "INTEGER"}), ("T", {"A": "\u0131nteger"})]:
            with self.subTest(name=name), self.assertRaises(Refused) as caught:
                Table.create(name, columns)
            self.assertEqual(caught.exception.name, "BadSchema")

    def test_only_ascii_letters_are_taken_in_either_case(self) -> None:
        """`\u0131`, `\u00df` and `\ufb01` have capital letters of ASCII, and are no letters of a name."""
        for word, name in ("\u0131", "I"), ("\u00df", "SS"), ("\ufb01", "FI"):
            table = Table.create("T", {name: "INTEGER"})
            with self.subTest(word=word):
                with self.assertRaisesRegex(ValueError, f"columns: the columns {name} are wanted, each once, and these are {word}"):
                    table.import_columns({word: [1]})
                for act in lambda: table.to_numpy([word]), lambda: table.query(f"SELECT {word} FROM T"), lambda: Table.create("T", {word: "INTEGER"}):
                    with self.assertRaises(Refused):
                        act()

    def test_a_batch_is_named_by_a_text_or_a_pair(self) -> None:
        empty = Table.create("T", {"A": "INTEGER"})
        for batch in ["3.17", (3, 17), [3, 17], BatchName(3, 17), "03.0017"]:
            with self.subTest(batch=batch):
                table = empty.import_csv("A\n1\n", batch=batch)  # type: ignore[arg-type]
                self.assertEqual(table.dump(names=True), "BATCH,ORDINAL,A\n3.17,0,1\n")
        self.assertEqual(str(BatchName(3, 17)), "3.17")
        for batch in ["3", "3.", "3.17.1", "3,17", "-3.1", "4294967296.1", "", "0.0", (3,), (1, 2, 3), "\u0663.1"]:
            with self.subTest(batch=batch), self.assertRaises(ValueError):
                empty.import_csv("A\n1\n", batch=batch)  # type: ignore[arg-type]
        with self.assertRaises(Refused) as caught:
            empty.import_csv("A\n1\n", batch="3.0")
        self.assertEqual(caught.exception.name, "BadName")

    def test_a_file_of_comma_separated_values_is_read(self) -> None:
        empty, text = Table.create("T", {"A": "INTEGER"}), "A\n1\n\u2212\n"
        wanted = empty.import_csv("A\n1\n", batch="1.1")
        for csv in [io.StringIO("A\n1\n"), io.BytesIO(b"A\n1\n"), b"A\n1\n", bytearray(b"A\n1\n"), memoryview(b"A\n1\n")]:
            self.assertEqual(empty.import_csv(csv, batch="1.1"), wanted)
        with self.assertRaises(Refused):
            empty.import_csv(io.StringIO(text))
        with tempfile.TemporaryDirectory() as room:
            path = pathlib.Path(room, "monday")
            path.write_text("A\n1\n")
            self.assertEqual(empty.import_csv(path, batch="1.1"), wanted)
            self.assertEqual(empty.import_csv(str(path), batch="1.1"), wanted)
            for given in [os.fsencode(path), b"monday.csv"]:
                with self.subTest(given=given), self.assertRaises(ValueError) as caught:
                    empty.import_csv(given)
                self.assertIn(repr(os.fsdecode(given)), str(caught.exception))
                self.assertNotIsInstance(caught.exception, Refused)
            for name in [pathlib.Path(room, "none.csv"), "monday.csv", "a/b.TSV", "x.txt", "x.csv.gz", "x*.csv", ["A", "1"]]:
                with self.subTest(name=name), self.assertRaises(FileNotFoundError):
                    empty.import_csv(name)
        self.assertEqual(empty.import_csv(f"{'1' * 5}", heading=False, batch="1.1"), empty.import_csv("11111\n", heading=False, batch="1.1"))
        for csv in [5, [1, 2], None, {"A": 1}]:
            with self.subTest(csv=csv), self.assertRaisesRegex(TypeError, "a text of comma-separated values"):
                empty.import_csv(csv)  # type: ignore[arg-type]

    def test_a_number_is_not_taken_for_bytes(self) -> None:
        for call in [Table.from_bytes, visits().apply, visits().offer]:
            for given in [5, [1, 2], "text", None]:
                with self.subTest(given=given), self.assertRaisesRegex(TypeError, "bytes are wanted"):
                    call(given)  # type: ignore[operator]


class Changes(unittest.TestCase):
    def test_merges_of_many_tables_have_the_rows_of_all(self) -> None:
        empty = Table.create("T", {"A": "INTEGER"})
        tables = [empty.import_csv(f"{n}\n", heading=False, batch=(n, 1)) for n in range(1, 10)]
        for count in range(1, 10):
            some = tables[:count]
            merged = some[0].merge(*some[1:])
            self.assertEqual(merged.query("SELECT COUNT(*),SUM(A) FROM T"), [(count, count * (count + 1) // 2)])
            self.assertEqual(merged, some[-1].merge(*some))
        self.assertIs(tables[0].merge(), tables[0])

    def test_rows_are_deleted_by_their_names(self) -> None:
        self.assertEqual(visits().delete_rows("1.1", 0, 1).dump(), "SITE,HITS\n2,\n3,20\n1,30\n")
        self.assertEqual(visits().delete_rows("2.1", 1), visits().delete("HITS = 30"))
        self.assertEqual(visits().delete_rows("1.1", 1).delete_rows((1, 1), 0), visits().delete("HITS < 11"))
        early = Table.create("VISITS", {"SITE": "SMALLINT", "HITS": "INTEGER"}).delete_rows("2.1", 0)
        self.assertEqual(early.merge(visits()), visits().delete("HITS = 20"))

    def test_rows_to_the_end_of_a_batch_are_deleted(self) -> None:
        table = Table.create("T", {"A": "INTEGER"}).import_csv("1\n" * 65_536, heading=False, batch="1.1")
        for first, last, rows in (32_767, 32_768, 65_534), (65_535, None, 65_535), (0, 65_535, 0), (40_000, 65_535, 40_000):
            self.assertEqual(len(table.delete_rows("1.1", first, last)), rows)
        with self.assertRaises(Refused) as caught:
            table.delete_rows("1.1", 1, 0)
        self.assertTrue(str(caught.exception).startswith("BadRange 0: "))
        self.assertEqual(caught.exception.place, (0,))

    def test_a_text_without_a_last_line_end_has_all_its_bytes(self) -> None:
        empty = Table.create("T", {"A": "INTEGER"})
        for csv in "A\n1\n23", b"A\n1\n23", bytearray(b"A\n1\n23"), io.BytesIO(b"A\n1\n23"), io.StringIO("A\n1\n23"):
            self.assertEqual(empty.import_csv(csv, batch="1.1").query("SELECT SUM(A) FROM T"), [(24,)])

    def test_a_name_is_drawn_of_eight_words(self) -> None:
        empty = Table.create("T", {"A": "INTEGER"})
        words = [7] * 7 + [(3 << 32) + 16]  # of seven the high bits are 0, so they serve for no name
        with unittest.mock.patch.object(table_module.secrets, "randbits", side_effect=words):
            self.assertEqual(empty.import_csv("A\n1\n").dump(names=True), "BATCH,ORDINAL,A\n3.17,0,1\n")

    def test_names_are_drawn_of_all_origins_and_numbers(self) -> None:
        names = [given_columns.drawn_name(visits(), 1) for _ in range(64)]
        for drawn in {name.origin for name in names}, {name.number for name in names}:
            self.assertEqual(len(drawn), 64)
            self.assertGreater(max(drawn), 1 << 31)
            self.assertLess(min(drawn), 1 << 31)

    def test_rows_that_are_none_are_refused(self) -> None:
        for batch, first, last, name in [("1.1", 2, 1, "BadRange"), ("9.9", 2, 1, "BadRange"), ("1.0", 0, 0, "BadName"), ("0.1", 2, 1, "BadName")]:
            for held in False, True:
                with self.subTest(batch=batch, held=held), self.assertRaises(Refused) as caught:
                    visits().delete_rows(batch, first, last, held=held)
                self.assertEqual(caught.exception.name, name)
        for first, last in [(-1, 0), (0, 65_536), (65_536, None)]:
            with self.subTest(first=first), self.assertRaises(ValueError):
                visits().delete_rows("1.1", first, last)

    def test_a_conflict_is_named_as_by_the_program(self) -> None:
        with self.assertRaises(Refused) as caught:
            visits().import_csv("SITE,HITS\n5,5\n", batch="1.1")
        self.assertEqual(str(caught.exception), "Conflict 1.1: this has batch 1.1 already, with other rows")


if __name__ == "__main__":
    unittest.main()
