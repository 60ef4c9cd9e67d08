"""The module `lanes`. Expected values were worked out by hand."""

from __future__ import annotations

import contextlib
import copy
import doctest
import gzip
import hashlib
import mmap
import os
import pathlib
import pickle
import random
import subprocess
import sys
import tempfile
import threading
import unittest
import unittest.mock
from decimal import Decimal

import lanes
from lanes import BatchName, Refused, Table, calls, library
from lanes.calls import Opened, _Place, _refused

TOP = pathlib.Path(__file__).resolve().parent.parent.parent


def counts(*loads: tuple[str, tuple[int, int]]) -> Table:
    """A table of counts with loads under these names."""
    table = Table.create("COUNTS", {"SITE": "SMALLINT", "HITS": "INTEGER"})
    for csv, batch in loads:
        table = table.import_csv(csv, batch=batch)
    return table


FIRST = ("SITE,HITS\n1,10\n1,7\n2,\n", (1, 1))
SECOND = ("HITS,SITE\n20,3\n30,1\n", (2, 1))
THIRD = ("SITE,HITS\n4,400\n", (3, 1))


class Openings:
    """Counts how often a file is opened while it is patched in."""

    def __init__(self, case: unittest.TestCase) -> None:
        self.count = 0
        whole = Opened.of_file

        def counted(file: calls.Input) -> Opened:
            self.count += 1
            return whole(file)

        patch = unittest.mock.patch.object(Opened, "of_file", counted)
        patch.start()
        case.addCleanup(patch.stop)


class Queries(unittest.TestCase):
    def test_rows_have_ints_means_and_none_under_their_headings(self) -> None:
        answer = counts(FIRST).query("SELECT SITE,COUNT(*) AS N,SUM(HITS),AVG(HITS) FROM COUNTS GROUP BY SITE")
        self.assertEqual(answer.headings, ["SITE", "N", "SUM(HITS)", "AVG(HITS)"])
        self.assertEqual(answer, [(1, 2, 17, Decimal("8.5")), (2, 1, None, None)])
        self.assertIs(type(answer[0][2]), int)
        self.assertEqual(str(answer[0][3]), "8.500000")
        self.assertEqual(answer.columns()["N"], [2, 1])

    def test_an_answer_without_rows_has_headings(self) -> None:
        answer = counts().query("SELECT SITE FROM COUNTS GROUP BY SITE")
        self.assertEqual((answer.headings, list(answer)), (["SITE"], []))

    def test_what_a_call_gives_is_made_once_whatever_its_size(self) -> None:
        rows = "".join(f"{n}\n" for n in range(20_000))
        table = Table.create("T", {"A": "INTEGER"}).import_csv(rows, heading=False, batch=(1, 1))
        sql = "SELECT A,COUNT(*),COUNT(DISTINCT A) FROM T GROUP BY A"
        wanted = [(n, 1, 1) for n in range(20_000)]
        for name, act, answer in [
            ("_ANSWER_ASK", lambda: table.query(sql), wanted),
            ("_PARTIAL", lambda: lanes.finish(table.partial(sql)), wanted),
            ("_ANSWER_FINISH", lambda: lanes.finish(table.partial(sql)), wanted),
            ("DUMP_WHERE", table.dump, "A\n" + rows),
            ("DUMP_WHERE", lambda: table.dump(names=True), "BATCH,ORDINAL,A\n" + "".join(f"1.1,{n},{n}\n" for n in range(20_000))),
        ]:
            made = unittest.mock.Mock(wraps=getattr(calls, name))
            with self.subTest(name), unittest.mock.patch.object(calls, name, made):
                self.assertEqual(act(), answer)
                self.assertEqual(made.call_count, 1)

    def test_a_dump_comes_though_memory_is_limited(self) -> None:
        table = Table.create("T", {"A": "INTEGER"}).import_csv("".join(f"{n}\n" for n in range(20_000)), heading=False, batch=(1, 1))
        taken = mmap.mmap

        def limited(file: int, size: int, **more: int) -> mmap.mmap:
            if size > most:
                raise OSError(12, "no memory")
            return taken(file, size, **more)

        for most in 1_000_000, 500_000, 100_000:
            with unittest.mock.patch.object(calls.mmap, "mmap", limited):
                if most > 200_000:
                    self.assertEqual(len(table.dump().splitlines()), 20_001)
                    continue
                with self.assertRaises(lanes.OutOfMemory):
                    table.dump()

    def test_an_answer_without_memory_for_its_columns_is_refused(self) -> None:
        table = counts(FIRST)
        for name in "SELECT SITE FROM COUNTS GROUP BY SITE", "SELECT COUNT(*) FROM COUNTS":
            with unittest.mock.patch.object(lanes.answer_columns, "bytearray", unittest.mock.Mock(side_effect=MemoryError), create=True):
                with self.assertRaises(lanes.OutOfMemory):
                    table.query(name)

    def test_a_part_of_an_answer_is_an_answer(self) -> None:
        table = counts(FIRST, SECOND)
        sql = "SELECT SITE,SUM(HITS) AS S,AVG(HITS) FROM COUNTS GROUP BY SITE"
        rows = [(1, 47, Decimal("15.666666")), (2, None, None), (3, 20, Decimal("20"))]
        for of in slice(0, 2), slice(1, None), slice(None, None, -1), slice(-1, None), slice(5, 9), slice(2, 1), slice(None):
            for answer in table.query(sql), lanes.Answer(["SITE", "S", "AVG(HITS)"], rows, sql):
                part = answer[of]
                self.assertIsInstance(part, lanes.Answer)
                self.assertEqual((list(part), part.headings, len(part)), (rows[of], ["SITE", "S", "AVG(HITS)"], len(rows[of])))
        answer = table.query(sql)
        self.assertEqual((answer[-1], answer.index(rows[1]), rows[2] in answer, list(reversed(answer))), (rows[2], 1, True, rows[::-1]))
        with self.assertRaises(IndexError):
            answer[3]

    def test_sums_past_64_bits_are_whole(self) -> None:
        big = (1 << 63) - 1
        for values in [big, big], [-big - 1, -1], [big, 1], [-big - 1], [big], [-big - 1] * 3, [0]:
            text = "".join(f"{value}\n" for value in values)
            table = Table.create("T", {"A": "BIGINT"}).import_csv(text, heading=False, batch="1.1")
            self.assertEqual(table.query("SELECT SUM(A),MIN(A) FROM T"), [(sum(values), min(values))])
            self.assertEqual(lanes.finish(table.partial("SELECT SUM(A) FROM T")), [(sum(values),)])

    def test_an_answer_is_pickled(self) -> None:
        answer = counts(FIRST).query("SELECT SITE,AVG(HITS) FROM COUNTS GROUP BY SITE")
        for other in pickle.loads(pickle.dumps(answer)), copy.copy(answer):
            self.assertEqual((other.headings, list(other), other.__dict__), (answer.headings, list(answer), answer.__dict__))

    def test_answers_are_equal_that_have_the_same_headings_and_rows(self) -> None:
        table = counts(FIRST)
        sites = table.query("SELECT SITE FROM COUNTS GROUP BY SITE")
        self.assertEqual(sites, table.query("select site from counts group by site"))
        for other in table.query("SELECT SITE AS HITS FROM COUNTS GROUP BY SITE"), table.query("SELECT SITE FROM COUNTS WHERE SITE = 1 GROUP BY SITE"), [(1,)], 5:
            self.assertTrue(sites != other)
            self.assertFalse(sites == other)
        self.assertTrue(sites == [(1,), (2,)])
        self.assertFalse(sites != [(1,), (2,)])
        with self.assertRaises(TypeError):
            hash(sites)

    def test_of_equal_headings_the_last_column_is_given(self) -> None:
        answer = counts(FIRST).query("SELECT SUM(HITS) AS A,COUNT(*) AS A FROM COUNTS")
        self.assertEqual((answer.headings, answer.columns()), (["A", "A"], {"A": [3]}))

    def test_a_fault_of_a_query_has_a_name_a_place_and_a_sentence(self) -> None:
        with self.assertRaises(Refused) as caught:
            counts(FIRST).query("SELECT VISITS FROM COUNTS")
        refused = caught.exception
        self.assertEqual((refused.number, refused.name, refused.place), (28, "NoSuchColumn", (7,)))
        self.assertEqual(refused.sentence, 'byte 7: there is no column "VISITS": the table has SITE, HITS')
        self.assertEqual(str(refused), f"NoSuchColumn 7: {refused.sentence}")

    def test_a_query_of_other_letters_is_refused_at_its_byte(self) -> None:
        with self.assertRaises(Refused) as caught:
            counts().query("SELECT \u00e9 FROM COUNTS")
        self.assertEqual((caught.exception.name, caught.exception.place), ("Syntax", (7,)))


    def test_several_queries_are_answered_in_order(self) -> None:
        table = counts(FIRST)
        sums, sites = table.queries(["SELECT SUM(HITS) FROM COUNTS", "SELECT SITE FROM COUNTS GROUP BY SITE"])
        self.assertEqual((sums.headings, list(sums), list(sites)), (["SUM(HITS)"], [(17,)], [(1,), (2,)]))
        self.assertEqual(table.queries([]), [])
        with self.assertRaises(Refused) as caught:
            table.queries(["SELECT SUM(HITS) FROM COUNTS", "SELECT VISITS FROM COUNTS", "SELECT"])
        self.assertEqual((caught.exception.name, caught.exception.place), ("NoSuchColumn", (7,)))
        with self.assertRaises(TypeError):
            table.queries("SELECT SUM(HITS) FROM COUNTS")

    def test_a_file_is_judged_once_for_all_its_queries(self) -> None:
        file = counts(FIRST).to_bytes()
        openings = Openings(self)
        table = Table.from_bytes(file)
        self.assertEqual(openings.count, 1)
        for _ in range(20):
            self.assertEqual(table.query("SELECT SUM(HITS) FROM COUNTS"), [(17,)])
        self.assertEqual(openings.count, 1)
        made = table.delete("HITS < 10").merge(counts(SECOND))
        self.assertEqual(openings.count, 1)
        self.assertEqual([list(answer) for answer in made.queries(["SELECT SUM(HITS) FROM COUNTS"] * 20)], [[(60,)]] * 20)
        self.assertEqual(openings.count, 2)

    def test_each_question_closes_its_own_handle(self) -> None:
        table = counts(FIRST)
        table.query("SELECT SUM(HITS) FROM COUNTS")
        for sql in "SELECT SUM(HITS) FROM COUNTS", "SELECT":
            with unittest.mock.patch.object(calls, "_SHARE", wraps=calls._SHARE) as share, unittest.mock.patch.object(calls, "_CLOSE", wraps=calls._CLOSE) as close:
                with contextlib.suppress(Refused):
                    table.query(sql)
            # The second one, which does nothing, is that of an owner who is gone.
            self.assertEqual((share.call_count, close.call_count), (1, 2))

    def test_a_closed_handle_is_told_by_name(self) -> None:
        opened = Opened.of_file(counts(FIRST).to_bytes())
        opened.close_now()
        with self.assertRaises(Refused) as caught:
            opened.answer(b"SELECT SUM(HITS) FROM COUNTS")
        self.assertEqual((caught.exception.number, caught.exception.name, caught.exception.place), (39, "NotOpen", ()))


class Changes(unittest.TestCase):
    def test_merges_agree_in_any_order_and_with_repeats(self) -> None:
        one, other = counts(FIRST), counts(SECOND)
        both = one.merge(other)
        self.assertEqual(both, other.merge(one, other, one))
        self.assertEqual(hash(both), hash(other.merge(one)))
        self.assertEqual(both.query("SELECT COUNT(*),SUM(HITS) FROM COUNTS"), [(5, 67)])
        self.assertEqual(both.check(), (2, 0))

    def test_a_merge_of_three_tables_has_the_rows_of_all(self) -> None:
        merged = counts(FIRST).merge(counts(SECOND), counts(THIRD))
        self.assertEqual(merged, counts(FIRST, SECOND, THIRD))
        self.assertEqual(merged.query("SELECT SITE,SUM(HITS) FROM COUNTS GROUP BY SITE"), [(1, 47), (2, None), (3, 20), (4, 400)])

    def test_draws_of_two_tables_differ(self) -> None:
        names = {counts().import_csv("1,1\n", heading=False).dump(names=True).splitlines()[1].split(",")[0] for _ in range(8)}
        self.assertEqual(len(names), 8)

    def test_a_delete_leaves_the_table_that_it_was_asked_of(self) -> None:
        table = counts(FIRST)
        self.assertEqual(table.delete("HITS < 10").query("SELECT COUNT(*) FROM COUNTS"), [(2,)])
        self.assertEqual(table.query("SELECT COUNT(*) FROM COUNTS"), [(3,)])
        self.assertEqual(table.delete("HITS > 99"), table)
        self.assertEqual(table.delete("HITS < 10").dump(), "SITE,HITS\n1,10\n2,\n")

    def test_a_forget_drops_the_batches_of_which_every_row_is_deleted(self) -> None:
        table = counts(FIRST, SECOND).delete("HITS >= 20")
        left = table.forget()
        self.assertEqual((table.check(), left.check()), ((2, 1), (1, 1)))
        self.assertEqual(left.dump(), table.dump())
        self.assertLess(len(left.to_bytes()), len(table.to_bytes()))
        self.assertEqual(left.forget(), left)
        # What was forgotten comes back deleted, and is forgotten again.
        again = left.import_csv(SECOND[0], batch=SECOND[1])
        self.assertEqual((again, again.forget()), (table, left))
        self.assertEqual(left.merge(table).forget(), left)

    def test_a_load_that_comes_twice_is_there_once(self) -> None:
        self.assertEqual(counts(FIRST, FIRST), counts(FIRST))
        with self.assertRaises(Refused) as caught:
            counts(FIRST, (SECOND[0], FIRST[1]))
        self.assertEqual((caught.exception.name, caught.exception.place), ("Conflict", (1, 1)))

    def test_names_that_are_drawn_differ(self) -> None:
        table = counts().import_csv(FIRST[0]).import_csv(FIRST[0])
        self.assertEqual(table.check()[0], 2)
        self.assertEqual(table.query("SELECT COUNT(*) FROM COUNTS"), [(6,)])

    def test_a_name_is_dumped_with_its_rows(self) -> None:
        table = counts().import_csv("5,5\n", heading=False, batch=BatchName(4_294_967_295, 7))
        self.assertEqual(table.dump(names=True), "BATCH,ORDINAL,SITE,HITS\n4294967295.7,0,5,5\n")

    def test_faults_of_a_text_have_their_line(self) -> None:
        for csv, name, place in [
            ("SITE,HITS\n1,2\n1,x\n", "BadCsv", (3, 2)),
            ("SITE,HITS\n1\n", "BadCsv", (2, 0)),
            ("SITE,HITS\n40000,1\n", "BadCsv", (2, 1)),
            ("SITE,HITS\n" + "1" * 1_048_577 + "\n", "LineTooLong", (2,)),
        ]:
            with self.subTest(csv=csv[:20]), self.assertRaises(Refused) as caught:
                counts().import_csv(csv)
            self.assertEqual((caught.exception.name, caught.exception.place), (name, place))

    def test_names_outside_their_range_are_no_names(self) -> None:
        for batch in [(-1, 1), (1, 1 << 32), (0, 0)]:
            with self.assertRaises(ValueError):
                counts().import_csv("", heading=False, batch=batch)

    def test_a_schema_outside_the_rules_is_refused(self) -> None:
        for name, columns in [("T", {}), ("SELECT", {"A": "INTEGER"}), ("T", {"A": "TEXT"}), ("T", {"A B": "INTEGER"})]:
            with self.subTest(name=name), self.assertRaises(Refused) as caught:
                Table.create(name, columns)
            self.assertEqual(caught.exception.name, "BadSchema")

    def test_tables_of_other_columns_are_not_merged(self) -> None:
        with self.assertRaises(Refused) as caught:
            counts().merge(Table.create("COUNTS", {"SITE": "INTEGER", "HITS": "INTEGER"}))
        self.assertEqual(caught.exception.name, "SchemaDiffers")

    def test_the_sentence_of_other_tables_names_both(self) -> None:
        wanted = Table.create("T", {"A": "SMALLINT"})
        found = Table.create("U", {"A": "SMALLINT", "B": "BIGINT"})
        sentence = "this holds the table U (A SMALLINT, B BIGINT), but the other one holds T (A SMALLINT)"
        for call in (
            lambda: wanted.merge(found),
            lambda: wanted.merge(wanted, wanted, found),
            lambda: wanted.apply(found.to_bytes()),
            lambda: wanted.apply(found.offer(Table.create("U", {"A": "SMALLINT", "B": "BIGINT"}).summary())),
            lambda: wanted.offer(found.summary()),
            lambda: lanes.combine([wanted.partial("SELECT COUNT(*) FROM T"), found.partial("SELECT COUNT(*) FROM U")]),
            lambda: lanes.finish(wanted.partial("SELECT COUNT(*) FROM T"), expect=[found.summary()]),
        ):
            with self.assertRaises(Refused) as caught:
                call()
            self.assertEqual((caught.exception.name, caught.exception.sentence), ("SchemaDiffers", sentence))


class Messages(unittest.TestCase):
    def test_a_pull_brings_what_is_lacked(self) -> None:
        mine, theirs = counts(FIRST), counts(FIRST, SECOND).delete("SITE = 2")
        offer = theirs.offer(mine.summary())
        self.assertLess(len(offer), len(theirs.to_bytes()))
        self.assertEqual(mine.apply(offer), theirs)
        self.assertEqual(mine.apply(theirs.to_bytes()), mine.merge(theirs))
        self.assertEqual(theirs.apply(offer), theirs)

    def test_bytes_that_are_no_message_are_refused(self) -> None:
        with self.assertRaises(Refused) as caught:
            counts().offer(b"")
        self.assertEqual((caught.exception.name, caught.exception.place), ("Truncated", (0,)))
        with self.assertRaises(Refused) as caught:
            counts().apply(b"no offer")
        self.assertEqual(caught.exception.name, "BadMagic")


#: Opens a file a thousand times while a thread copies over it, shortens it and replaces it.
OVERWRITTEN = """
import os, sys, threading, lanes
path, opened, refused, ends = sys.argv[1], 0, 0, threading.Event()
whole = open(path, "rb").read()
def change():
    while not ends.is_set():
        with open(path, "r+b") as file:
            file.write(whole[:9000])
            file.truncate(5000)
            file.write(whole[9000:])
        with open(path + ".new", "wb") as file:
            file.write(whole)
        os.replace(path + ".new", path)
thread = threading.Thread(target=change)
thread.start()
try:
    for _ in range(1000):
        try:
            table = lanes.Table.open(path)
            opened += len(table.to_bytes()) > 0
        except lanes.Refused:
            refused += 1
finally:
    ends.set()
    thread.join()
print(opened + refused, opened)
"""


class Files(unittest.TestCase):
    def setUp(self) -> None:
        self.folder = tempfile.TemporaryDirectory()
        self.addCleanup(self.folder.cleanup)
        self.path = os.path.join(self.folder.name, "counts.lanes")

    def test_a_table_is_saved_and_opened(self) -> None:
        table = counts(FIRST)
        table.save(self.path)
        opened = Table.open(self.path)
        self.assertEqual(opened, table)
        self.assertEqual(opened.query("SELECT COUNT(*) FROM COUNTS"), [(3,)])
        self.assertEqual(opened.merge(counts(SECOND)), counts(FIRST, SECOND))
        self.assertEqual(os.listdir(self.folder.name), ["counts.lanes"])

    def test_a_large_file_is_opened_whole(self) -> None:
        pick = random.Random(2)
        values = [pick.randrange(-(1 << 63), 1 << 63) for _ in range(30_000)]
        table = Table.create("T", {"A": "BIGINT"}).import_csv("".join(f"{value}\n" for value in values), heading=False, batch="1.1")
        with tempfile.TemporaryDirectory() as folder:
            path = os.path.join(folder, "t.lanes")
            table.save(path)
            self.assertGreater(os.path.getsize(path), 3 * 65_536)
            opened = Table.open(path)
            self.assertEqual((opened, opened.query("SELECT SUM(A) FROM T")), (table, [(sum(values),)]))

    def test_a_table_stays_as_it_was_when_its_file_is_replaced(self) -> None:
        counts(FIRST).save(self.path)
        opened = Table.open(self.path)
        counts(SECOND).save(self.path)
        self.assertEqual(opened, counts(FIRST))
        self.assertEqual(Table.open(pathlib.Path(self.path)), counts(SECOND))

    def test_a_file_may_be_overwritten_shortened_and_replaced_while_it_is_opened(self) -> None:
        """What is opened is a table all the same, or refused; a process that had mapped the file would be killed."""
        Table.create("T", {"A": "BIGINT"}).import_csv("A\n" + "".join(f"{random.getrandbits(62)}\n" for _ in range(4_000))).save(self.path)
        done = subprocess.run([sys.executable, "-c", OVERWRITTEN, self.path], capture_output=True, text=True, env={**os.environ, "PYTHONPATH": os.fspath(TOP / "python")})
        self.assertEqual((done.returncode, done.stderr, done.stdout.split()[0]), (0, "", "1000"), done)

    def test_what_is_no_file_is_refused_when_it_is_opened(self) -> None:
        for content, name in [(b"", "Truncated"), (b"no file", "BadMagic"), (counts(FIRST).to_bytes()[:-1], "Truncated")]:
            pathlib.Path(self.path).write_bytes(content)
            with self.subTest(content=content), self.assertRaises(Refused) as caught:
                Table.open(self.path)
            self.assertEqual(caught.exception.name, name)
            self.assertEqual(pathlib.Path(self.path).read_bytes(), content)
            with self.subTest(content=content), self.assertRaises(Refused) as caught:
                Table.from_bytes(content)
            self.assertEqual(caught.exception.name, name)

    def test_a_pipe_is_read_and_a_folder_is_none(self) -> None:
        os.mkfifo(self.path)
        writing = threading.Thread(target=counts(FIRST).save, args=(self.path,))
        writing.start()
        self.assertEqual(Table.open(self.path), counts(FIRST))
        writing.join(30)
        with self.assertRaises(IsADirectoryError):
            Table.open(self.folder.name)

    def test_a_table_goes_to_another_process_as_its_file(self) -> None:
        counts(FIRST).save(self.path)
        for table in counts(FIRST), Table.open(self.path):
            other = pickle.loads(pickle.dumps(table))
            self.assertEqual(other, table)
            self.assertEqual(other.query("SELECT SUM(HITS) FROM COUNTS"), [(17,)])

    def test_the_mode_of_a_file_is_kept(self) -> None:
        counts().save(self.path)
        os.chmod(self.path, 0o640)
        counts(FIRST).save(self.path)
        self.assertEqual(os.stat(self.path).st_mode & 0o777, 0o640)

    def test_the_program_reads_what_was_saved(self) -> None:
        program = TOP / "crates" / "lanes" / "out" / "lanes"
        if not program.is_file():
            self.skipTest("the program is not built here")
        counts(FIRST).save(self.path)
        ran = subprocess.run([program, "check", self.path], capture_output=True, text=True, check=True)
        self.assertEqual(ran.stdout, "ok batches=1 ranges=0\n")


class Threads(unittest.TestCase):
    SQL = "SELECT A,COUNT(*) FROM T GROUP BY A"
    ROWS = "".join(f"{n % 97}\n" for n in range(5_000))

    def ask_in_eight_threads(self, table: Table, wanted: list[lanes.Row]) -> None:
        """Asks a table in eight threads that begin at once."""
        differing: list[str] = []
        gate = threading.Barrier(8)

        def ask() -> None:
            gate.wait()
            for _ in range(10):
                if table.query(self.SQL) != wanted:
                    differing.append("rows")

        threads = [threading.Thread(target=ask) for _ in range(8)]
        for thread in threads:
            thread.start()
        for thread in threads:
            thread.join()
        self.assertEqual(differing, [])

    def test_eight_threads_get_what_one_gets(self) -> None:
        table = Table.create("T", {"A": "INTEGER"}).import_csv(self.ROWS, heading=False, batch=(1, 1))
        self.ask_in_eight_threads(Table.from_bytes(table.to_bytes()), list(table.query(self.SQL)))

    def test_eight_threads_may_be_the_first_to_ask(self) -> None:
        wanted = [(n, 52 if n < 53 else 51) for n in range(97)]
        self.ask_in_eight_threads(Table.create("T", {"A": "INTEGER"}).import_csv(self.ROWS, heading=False, batch=(1, 1)), wanted)

    def test_a_table_that_is_let_go_leaves_its_threads_their_answers(self) -> None:
        table = Table.create("T", {"A": "INTEGER"}).import_csv(self.ROWS, heading=False, batch=(1, 1))
        answers: list[int] = []
        threads = [threading.Thread(target=lambda held: answers.append(len(held.query(self.SQL))), args=(table,)) for _ in range(8)]
        for thread in threads:
            thread.start()
        del table
        for thread in threads:
            thread.join()
        self.assertEqual(answers, [97] * 8)


def whole_sentence(name: str, shown: str, sentence: str) -> str:
    """The sentence at the place (70000, 3), from the name with its values and the sentence as the page shows them."""
    if name in ("Conflict", "NotApart", "Missing"):
        return sentence.replace("O.N", "70000.3")
    if name == "LineTooLong":
        return f"line 70000: {sentence}"
    places = {"AT": "byte 70000: ", "ROW": "row 70000: ", "ROW COLUMN": "row 70000, column 3: "}
    return places.get(shown.strip("`").partition(" ")[2], "") + sentence


class Library(unittest.TestCase):
    def test_a_library_that_is_not_the_released_one_is_refused(self) -> None:
        with tempfile.TemporaryDirectory() as room:
            release = pathlib.Path(room, "release")
            release.mkdir()
            (release / "x.so.gz").write_bytes(gzip.compress(b"machine code"))
            with unittest.mock.patch.object(library, "_RELEASE", release), unittest.mock.patch.dict(os.environ, {"HOME": room, "XDG_CACHE_HOME": room}):
                with self.assertRaisesRegex(ImportError, "is not what"):
                    library._unpack("x.so", "0" * 64)
                kept = library._unpack("x.so", hashlib.sha256(b"machine code").hexdigest())
                self.assertEqual(kept.read_bytes(), b"machine code")

    def test_a_library_that_is_kept_is_for_every_user(self) -> None:
        with tempfile.TemporaryDirectory() as room, unittest.mock.patch.object(library, "_RELEASE", pathlib.Path(room)):
            path = library.kept("x.so", lambda part: None if part.write_bytes(b"machine code") else None)
            self.assertEqual((path, path.stat().st_mode & 0o7777), (pathlib.Path(room, "unpacked", "x.so"), 0o755))
            self.assertEqual(os.listdir(path.parent), ["x.so"])

    def test_a_shim_is_built_anew_once_its_source_is_another_one(self) -> None:
        names = []
        with tempfile.TemporaryDirectory() as room, unittest.mock.patch.object(library, "_SHIM", pathlib.Path(room)), unittest.mock.patch.object(library, "_PACKAGED", pathlib.Path(room)):
            for source, header in ("1", "1"), ("2", "1"), ("2", "2"), ("1", "1"):
                pathlib.Path(room, "lanes_arrow.c").write_text(source)
                pathlib.Path(room, "lanes_arrow.h").write_text(header)
                with unittest.mock.patch.object(library, "kept", lambda name, _: names.append(name) or name), unittest.mock.patch.object(library.ctypes, "CDLL"):
                    library.load_shim()
        self.assertEqual((len({*names}), names[0] == names[3]), (3, True))

    def test_a_level_of_processors_needs_all_its_flags(self) -> None:
        second, third = (flags for _, flags in library._LEVELS)
        for flags, level in [(second | third, "x86-64-v3"), (second, "x86-64-v2"), (second | {"avx"}, "x86-64-v2"), (second - {"cx16"}, None), (third, None)]:
            text = f"processor : 0\nflags\t\t: fpu {' '.join(sorted(flags))}\n"
            with unittest.mock.patch.object(pathlib.Path, "read_text", return_value=text):
                self.assertEqual(library._level(), level)


class Notebooks(unittest.TestCase):
    def test_a_long_answer_shows_its_first_rows_and_how_many_there_are(self) -> None:
        table = Table.create("T", {"A": "INTEGER"}).import_csv("".join(f"{n}\n" for n in range(5000)), heading=False)
        html = table.query("SELECT A,COUNT(*) FROM T GROUP BY A")._repr_html_()
        shown = html.count("<tr><td>")
        self.assertTrue(0 < shown < 1000 and len(html) < 100_000)
        self.assertIn(f"and {5000 - shown:,} more rows", html)


class Module(unittest.TestCase):
    def test_each_process_draws_the_key_of_its_queries(self) -> None:
        code = "from lanes import calls; print(calls._KEY)"
        drawn = {subprocess.run([sys.executable, "-c", code], check=True, stdout=subprocess.PIPE).stdout for _ in range(3)}
        self.assertEqual(len({*drawn, f"{calls._KEY}\n".encode()}), 4)

    def test_its_version_is_the_programs(self) -> None:
        source = (TOP / "crates" / "command_line" / "src" / "commands.rt").read_text()
        self.assertIn(f'const VERSION: &str = "{lanes.version()}";', source)

    def test_its_own_version_is_that_of_the_page_of_changes(self) -> None:
        page = (TOP / "CHANGELOG.md").read_text()
        self.assertTrue(page.partition("\n## ")[2].startswith(f"{lanes.__version__}\n"))
        self.assertIn("__version__", lanes.__all__)

    def test_its_examples_are_as_they_are_shown(self) -> None:
        found = doctest.testmod(lanes)
        self.assertEqual((found.failed, found.attempted), (0, 4))

    def test_its_sentences_are_those_of_the_page(self) -> None:
        page = (TOP / "docs" / "REFUSALS.md").read_text()
        told = []
        for line in page.splitlines():
            cells = [cell.strip() for cell in line.strip("|").split("|")]
            if cells[0].isdigit():
                refused = _refused(int(cells[0]), _Place(70_000, 3))
                self.assertEqual(refused.name, cells[1].strip("`").split()[0])
                self.assertEqual(refused.sentence, whole_sentence(refused.name, cells[1], cells[2]))
                places = len(cells[1].strip("`").replace(".", " ").split()) - 1
                self.assertEqual(len(refused.place), places or refused.name == "LineTooLong", cells[1])
                told.append(int(cells[0]))
        self.assertEqual(told, [*range(1, 38), *range(39, 47)])
        self.assertEqual(_refused(38, _Place(70_000, 3)).sentence, "line 70000, field 3: the field is not a whole number")
        self.assertEqual(_refused(38, _Place(70_000, 0)).sentence, "line 70000: the line has the wrong number of fields")

    def test_it_is_loaded_in_a_second(self) -> None:
        ran = subprocess.run([sys.executable, "-c", "import lanes"], env={**os.environ, "PYTHONPATH": str(TOP / "python")}, timeout=10, check=True)
        self.assertEqual(ran.returncode, 0)


if __name__ == "__main__":
    unittest.main()
