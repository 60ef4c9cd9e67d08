"""Answers over many files: random questions over random files, whose partial answers are combined in random trees, in Python and by the program,
beside `query` over the merged file; faulty ones are refused alike; files that aren't apart are refused, and so are damaged partial answers."""

from __future__ import annotations

import pathlib
import pickle
import random
import subprocess
import tempfile

import lanes
import questions

QUESTIONS = 400


def tree(pick, plan, partials):
    """The combination of partial answers in any shape and order."""
    partials = list(partials)
    while len(partials) > 1:
        pick.shuffle(partials)
        partials.append(plan.combine(partials.pop(), partials.pop()))
    return partials[0]


def text(answer):
    """An answer with the texts of its fields, since 1.0 and 1.000000 are equal numbers."""
    return answer.headings, [[str(field) for field in row] for row in answer]


def shards(pick):
    """The columns of a table, and some tables of them that share no batch."""
    columns = questions.schema(pick)
    tables = [questions.table(pick, columns, origin) for origin in range(1, pick.randint(2, 7))]
    for at in range(len(tables)):
        if pick.random() < 0.2:  # a deletion of rows that nobody has
            tables[at] = tables[at].delete_rows((99, 1), pick.randint(0, 5), 9)
    return columns, tables


def questions_have_the_answer_of_the_merged_file(seed, count):
    pick = random.Random(seed)
    asked = refused = 0
    while asked < count:
        columns, tables = shards(pick)
        merged = tables[0].merge(*tables[1:])
        for _ in range(20):
            sql = questions.question(pick, columns) if pick.random() < 0.8 else questions.faulty(pick, columns)
            asked += 1
            try:
                wanted = merged.query(sql)
            except lanes.Refused as refusal:
                refused += 1
                for act in (lambda: lanes.split(sql, tables[0]), lambda: tables[0].partial(sql)):
                    try:
                        act()
                    except lanes.Refused as other:
                        assert (other.number, other.place) == (refusal.number, refusal.place), sql
                        continue
                    raise AssertionError(f"{sql!r} was not refused")
                continue
            plan = pickle.loads(pickle.dumps(lanes.split(sql, tables[0])))
            partials = [pickle.loads(pickle.dumps(plan.ask(table))) for table in tables]
            if pick.random() < 0.3:
                partials.append(plan.none())
            whole = tree(pick, plan, partials)
            pick.shuffle(partials)
            assert whole == lanes.combine(partials) == merged.partial(sql), sql
            found = plan.finish(whole)
            assert text(found) == text(wanted), f"{sql!r} over {[table.dump(names=True) for table in tables]}\n{found}\n{wanted}"
    assert refused > count // 50
    return asked


def files_that_are_not_apart_are_refused():
    one, other = (lanes.Table.create("T", {"A": "INTEGER"}).import_csv("1\n2\n3\n4\n", heading=False, batch=(n, 1)) for n in (1, 2))
    plan = lanes.split("SELECT COUNT(*),SUM(A) FROM T", one)
    deleting = one.delete_rows("2.1", 1, 2)
    for first, second, message in [
        (one, one, "1.1"),
        (one, other.merge(one), "1.1"),
        (deleting, other, "2.1"),
        (deleting, other.delete_rows("2.1", 1, 3), "2.1"),
    ]:
        for pair in (first, second), (second, first):
            for act in (lambda: lanes.check_apart(pair), lambda: plan.combine(*map(plan.ask, pair))):
                try:
                    act()
                except lanes.NotApart as told:
                    assert message in str(told)
                    continue
                raise AssertionError("files that aren't apart were taken")
    both = deleting, other
    whole = both[0].merge(both[1])
    assert plan.finish(plan.combine(plan.ask(whole), plan.none())) == whole.query(plan.sql)
    lanes.check_apart([])
    lanes.check_apart([deleting])
    widened = lanes.Table.create("T", {"A": "BIGINT"})
    try:
        plan.ask(widened)
    except lanes.Refused as refusal:
        assert refusal.name == "SchemaDiffers"
        return
    raise AssertionError("a table of other columns was asked")


def sums_go_past_64_bits():
    most = (1 << 63) - 1
    tables = [lanes.Table.create("T", {"A": "BIGINT"}).import_csv(f"{most}\n" * 3, heading=False, batch=(n, 1)) for n in range(1, 6)]
    plan = lanes.split("SELECT SUM(A),AVG(A),MAX(A) FROM T HAVING SUM(A) > 100000000000000000000", tables[0])
    found = plan.finish(tree(random.Random(1), plan, map(plan.ask, tables)))
    assert text(found)[1] == [[str(15 * most), f"{most}.000000", str(most)]], found


def damaged_partial_answers_are_refused_or_read(seed):
    """Each front of a partial answer is refused, and one with a changed byte is refused or is another partial answer: no call ends the process."""
    pick = random.Random(seed)
    columns, tables = shards(pick)
    while len(tables) < 2 or not all(map(len, tables)):
        columns, tables = shards(pick)
    asked = f"SELECT {','.join(f'COUNT(DISTINCT {name}),SUM({name}),MIN({name})' for name in columns)} FROM T GROUP BY A"
    one, other = (table.partial(asked) for table in tables[:2])
    refused = 0
    for at in range(len(one)):
        changed = bytearray(one)
        changed[at] ^= 1 << pick.randrange(8)
        for act in (lambda partial: lanes.combine([other, partial]), lanes.finish):
            try:
                act(bytes(changed))
            except (lanes.Refused, lanes.NotApart):
                refused += 1
            try:
                act(one[:at])
            except lanes.Refused as refusal:
                assert refusal.name in ("Truncated", "BadMagic"), refusal
                continue
            raise AssertionError(f"a partial answer of {at} bytes was taken")
    assert refused > len(one) // 4, refused


def by_the_program(program, room, pick, partials, form):
    """The answer that some partial answers, which are files, come to: combined by the program, a few at a time."""
    files = [room / f"{at}.partial" for at in range(len(partials))]
    for file, partial in zip(files, partials):
        file.write_bytes(partial)
    while len(files) > 1:
        pick.shuffle(files)
        taken = [files.pop() for _ in range(min(len(files), pick.randint(2, 3)))]
        made = subprocess.run([program, "combine", *taken[:-1], "-"], input=taken[-1].read_bytes(), stdout=subprocess.PIPE, check=True).stdout
        taken[0].write_bytes(made)
        files.append(taken[0])
    return subprocess.run([program, "finish", "--format", form, files[0]], stdout=subprocess.PIPE, check=True).stdout


def the_program_gives_the_answer_of_the_merged_file(program, seed, count):
    """Byte for byte, in each form; and its partial answers are those of Python."""
    pick = random.Random(seed)
    with tempfile.TemporaryDirectory(prefix="lanes-parts-") as folder:
        room = pathlib.Path(folder)
        for _ in range(count):
            columns, tables = shards(pick)
            sql, form = questions.question(pick, columns), pick.choice(["text", "csv", "json", "table"])
            partials = []
            for table in tables:
                table.save(room / "t.lanes")
                partials.append(subprocess.run([program, "partial", room / "t.lanes", sql], stdout=subprocess.PIPE, check=True).stdout)
                assert partials[-1] == table.partial(sql), sql
            tables[0].merge(*tables[1:]).save(room / "t.lanes")
            wanted = subprocess.run([program, "query", "--format", form, room / "t.lanes", sql], stdout=subprocess.PIPE, check=True).stdout
            found = by_the_program(program, room, pick, partials, form)
            assert found == wanted, f"{sql!r}: {found} and {wanted}"
