"""Partial answers: made, combined and finished."""

from __future__ import annotations

import pickle
import unittest

import lanes

SQL = "SELECT A,COUNT(*),AVG(B),COUNT(DISTINCT B) FROM T GROUP BY A HAVING COUNT(*) > 1"


def table(rows: str, origin: int) -> lanes.Table:
    return lanes.Table.create("T", {"A": "SMALLINT", "B": "BIGINT"}).import_csv(rows, heading=False, batch=(origin, 1))


ONE, OTHER = table("1,10\n2,\n3,7\n,4\n", 1), table("1,11\n3,7\n,5\n2,7\n", 2)


class PartialAnswers(unittest.TestCase):
    def test_partial_answers_come_to_the_answer_of_the_merged_table(self) -> None:
        partials = [ONE.partial(SQL), OTHER.partial(SQL)]
        whole = lanes.combine(partials)
        self.assertEqual(whole, lanes.combine(reversed(partials)))
        self.assertEqual(whole, ONE.merge(OTHER).partial(SQL))
        self.assertEqual(lanes.finish(whole), ONE.merge(OTHER).query(SQL))
        self.assertEqual(lanes.finish(whole).headings, ["A", "COUNT(*)", "AVG(B)", "COUNT(DISTINCT B)"])

    def test_any_number_of_partial_answers_is_combined(self) -> None:
        tables = [table(f"{at % 3},{at}\n", at) for at in range(1, 12)]
        merged = tables[0].merge(*tables[1:])
        self.assertEqual(lanes.combine(each.partial(SQL) for each in tables), merged.partial(SQL))
        self.assertEqual(lanes.combine([ONE.partial(SQL)]), ONE.partial(SQL))
        for data in b"x", b"", ONE.to_bytes(), ONE.partial(SQL)[:-1], ONE.partial(SQL) + b"x":
            for given in [data], [data, ONE.partial(SQL)]:
                with self.assertRaises(lanes.Refused) as told:
                    lanes.combine(given)
                self.assertIn(told.exception.name, ("Truncated", "BadMagic", "TrailingBytes"))
        with self.assertRaises(ValueError):
            lanes.combine([])

    def test_a_plan_asks_combines_and_finishes(self) -> None:
        plan = pickle.loads(pickle.dumps(lanes.split(SQL, ONE)))
        whole = plan.combine(plan.combine(plan.ask(ONE), plan.none()), plan.ask(OTHER))
        self.assertEqual(plan.finish(whole), ONE.merge(OTHER).query(SQL))
        self.assertEqual((plan.name, plan.columns, plan.sql), ("T", ONE.columns, SQL))

    def test_a_batch_is_not_counted_twice(self) -> None:
        for pair in (ONE, ONE), (ONE, ONE.merge(OTHER)), (OTHER, ONE.delete_rows((2, 1), 0)):
            with self.assertRaises(lanes.NotApart) as told:
                lanes.combine(each.partial(SQL) for each in pair)
            self.assertIn("batch 2.1" if pair[0] is OTHER else "batch 1.1", str(told.exception))
            with self.assertRaises(lanes.NotApart):
                lanes.check_apart(pair)
        lanes.check_apart([ONE, OTHER])
        lanes.check_apart([])
        third = table("1,1\n", 3)
        for three in [ONE, OTHER, ONE], [ONE, third, OTHER, ONE], [third, ONE, OTHER, third]:
            with self.assertRaises(lanes.NotApart):
                lanes.check_apart(three)

    def test_partial_answers_of_other_queries_and_tables_are_refused(self) -> None:
        wider = lanes.Table.create("T", {"A": "SMALLINT", "B": "INTEGER"})
        for partial, name, number in (OTHER.partial(SQL + " "), "QueryDiffers", 41), (wider.partial(SQL), "SchemaDiffers", 8), (b"", "Truncated", 13), (ONE.to_bytes(), "BadMagic", 14):
            with self.assertRaises(lanes.Refused) as told:
                lanes.combine([ONE.partial(SQL), partial])
            self.assertEqual((told.exception.name, told.exception.number), (name, number))
        with self.assertRaises(lanes.Refused) as told:
            lanes.split(SQL, ONE).ask(wider)
        self.assertEqual(told.exception.name, "SchemaDiffers")

    def test_a_partial_answer_is_refused_what_a_query_is(self) -> None:
        for sql in "", "SELECT C FROM T", "SELECT A FROM U", "SELECT A FROM T":
            with self.assertRaises(lanes.Refused) as wanted:
                ONE.query(sql)
            with self.assertRaises(lanes.Refused) as told:
                ONE.partial(sql)
            self.assertEqual((told.exception.number, told.exception.place), (wanted.exception.number, wanted.exception.place))

    def test_a_partial_answer_tells_what_it_covers(self) -> None:
        stray = ONE.delete_rows((7, 2), 0, 3)
        whole = lanes.combine([stray.partial(SQL), OTHER.partial(SQL)])
        self.assertIsInstance(whole, bytes)
        self.assertEqual((whole.table, whole.query, whole.groups, whole.batches), ("T", SQL, 4, 2))
        self.assertEqual(whole.runs, [((1, 1), (1, 1)), ((2, 1), (2, 1))])
        self.assertEqual(whole.strays, [((7, 2), (7, 2))])
        for again in (pickle.loads(pickle.dumps(whole)), lanes.Partial(bytes(whole)), lanes.combine([bytes(whole)])):
            self.assertEqual((type(again), again, again.batches), (lanes.Partial, whole, 2))
        self.assertEqual(lanes.finish(bytes(whole)), lanes.finish(whole))
        several = table("1,1\n", 9).import_csv("2,2\n" * 70_000, heading=False, batch=(9, 2)).partial("SELECT COUNT(*)\n FROM T\t")
        self.assertEqual((several.runs, several.query), ([((9, 1), (9, 3))], "SELECT COUNT(*)\n FROM T\t"))
        for data, name in (b"", "Truncated"), (ONE.to_bytes(), "BadMagic"), (bytes(whole) + b"x", "TrailingBytes"):
            with self.assertRaises(lanes.Refused) as told:
                lanes.Partial(data).batches
            self.assertEqual(told.exception.name, name)
        self.assertIsInstance(lanes.split(SQL, ONE).ask(ONE), lanes.Partial)

    def test_a_lost_partial_answer_is_noticed(self) -> None:
        third = table("1,1\n", 3)
        tables, summaries = [ONE, OTHER, third], [each.summary() for each in (ONE, OTHER, third)]
        whole = lanes.combine(each.partial(SQL) for each in tables)
        self.assertEqual(lanes.finish(whole, expect=summaries), ONE.merge(OTHER, third).query(SQL))
        self.assertEqual(lanes.split(SQL, ONE).finish(whole, expect=summaries[:1]), lanes.finish(whole))
        self.assertEqual(lanes.finish(whole, expect=[]), lanes.finish(whole))
        lost = lanes.combine([ONE.partial(SQL), third.partial(SQL)])
        with self.assertRaises(lanes.Refused) as told:
            lanes.finish(lost, expect=summaries)
        self.assertEqual((told.exception.name, told.exception.number, told.exception.place), ("Missing", 43, (2, 1)))
        self.assertRegex(str(told.exception), r"^Missing 2\.1: expect\[1\]: batch 2\.1 .*forgotten")
        wider = lanes.Table.create("T", {"A": "SMALLINT", "B": "INTEGER"}).summary()
        for expect, name, place, subject in (
            ([summaries[0], wider], "SchemaDiffers", (), "expect[1]"),
            ([summaries[0], b"", b"x"], "Truncated", (0,), "expect[1]"),
            ([b"x" * 40], "BadMagic", (), "expect[0]"),
            ([*summaries, summaries[0] + b"x"], "TrailingBytes", (len(summaries[0]),), "expect[3]"),
        ):
            with self.assertRaises(lanes.Refused) as told:
                lanes.finish(lost, expect=expect)
            self.assertEqual((told.exception.name, told.exception.place), (name, place))
            self.assertEqual(told.exception.subject, subject)
        with self.assertRaises(lanes.Refused) as told:
            lanes.finish(summaries[0], expect=[b""])
        self.assertEqual(told.exception.name, "BadMagic")
        self.assertEqual(told.exception.subject, "")

    def test_a_spread_table_gives_the_same_answers(self) -> None:
        whole = ONE.merge(OTHER, *(table(f"{at % 4},{at}\n" * at, at) for at in range(3, 12))).delete("B = 7").delete_rows((90, 1), 0, 5)
        for count in 1, 2, 3, 11, 15:
            shares = whole.spread(count)
            self.assertEqual(len(shares), count)
            self.assertEqual(shares[0].merge(*shares[1:]), whole)
            self.assertEqual(lanes.combine(each.partial(SQL) for each in shares), whole.partial(SQL))
            lanes.check_apart(shares)
            self.assertEqual(sum(each.check()[0] for each in shares), 11)
            if count <= 11:
                self.assertTrue(all(each.check()[0] for each in shares))
            self.assertIn(((90, 1), (90, 1)), shares[0].partial(SQL).strays)

        class Own(lanes.Table):
            pass

        self.assertTrue(all(type(each) is Own for each in Own.from_bytes(whole.to_bytes()).spread(2)))

    def test_one_deletion_is_sent_to_all_shares(self) -> None:
        whole = ONE.merge(OTHER)
        shares = whole.spread(2)
        for batch in (1, 1), "2.1", (5, 5):
            left = [share.delete_rows(batch, 1, 2, held=True) for share in shares]
            self.assertEqual([before is after for before, after in zip(shares, left)].count(False), 0 if batch == (5, 5) else 1)
            shares = left
        self.assertEqual(shares[0].merge(shares[1]), whole.delete_rows((1, 1), 1, 2).delete_rows((2, 1), 1, 2))
        lanes.combine(share.partial(SQL) for share in shares)
        for batch, first, last, name in ((9, 9), 2, 1, "BadRange"), ((1, 0), 0, 0, "BadName"):
            with self.assertRaises(lanes.Refused) as told:
                ONE.delete_rows(batch, first, last, held=True)
            self.assertEqual(told.exception.name, name)


if __name__ == "__main__":
    unittest.main()
