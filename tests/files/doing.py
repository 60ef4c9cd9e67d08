"""What a sentence says to do is done, word for word, and then the command does what was meant. And what is said if only an answer is lost."""

import os
import re
import shlex
import subprocess

COUNT = "SELECT COUNT(*) FROM T"


def said(room, *words, status=1, given=b"", **how):
    """The last line of what is said of a command that ends with a status."""
    found, _, err = room.run(*words, given=given, **how)
    assert found == status, f"{words} ended with {found}: {err[-300:]!r}"
    lines = err.decode().splitlines()
    return lines[0] if status == 2 else lines[-1]


def behind(sentence, words):
    """What comes in a sentence behind these words."""
    assert words in sentence, f"{words!r} is not in {sentence!r}"
    return sentence.split(words)[-1]


def an_option_that_is_named_reads_the_text(room):
    for at, (text, options) in enumerate((
        (b"A;B\n1;2\n", ()),
        (b"A\tB\n1\t2\n", ()),
        (b"A|B\n1|2\n", ()),
        (b"A,B\n1,2\n", ("--separator", ";")),
        (b'A,B\n1,""\n', ()),
        (b"A,B\n1,NA\n", ()),
        (b"A,B\n1,?\n", ()),
        (b"A,B\n1,n/a\n", ()),
    )):
        name = f"t{at}"
        room.ok("create", name, "T", "A", "SMALLINT", "B", "BIGINT")
        room.put("rows.csv", text)
        sentence = said(room, "import", *options, name, "rows.csv")
        room.ok("import", *shlex.split(behind(sentence, ": say " if "separate" in sentence else ", say ")), name, "rows.csv")
        assert room.ok("dump", name) in (b"A,B\n1,2\n", b"A,B\n1,\n"), f"{text!r} was read as {room.ok('dump', name)!r}"


def columns_that_are_named_read_the_text(room):
    room.make(rows=None)
    room.put("rows.csv", b"B,C,A\n2,9,1\n")
    option = behind(said(room, "import", "t", "rows.csv"), "name the fields by --columns, as ")
    room.ok("import", *shlex.split(option), "t", "rows.csv")
    assert room.ok("dump", "t") == b"A,B\n1,2\n"


def a_pipe_that_is_named_orders_and_cuts_the_answer(room):
    room.make(rows=b"".join(b"%d,%d\n" % (at, at * 7 % 10) for at in range(10)))
    rows = [b"%d,%d" % (at, at * 7 % 10) for at in range(10)]
    by_second = sorted(rows, key=lambda row: -int(row.split(b",")[1]))
    asked = "SELECT A,SUM(B) FROM T GROUP BY A"
    for more, wanted in (
        (" ORDER BY SUM(B) DESC", by_second),
        (" DESC", rows[::-1]),
        (" LIMIT 3", [b"A,SUM(B)", *rows[:3]]),
        (" FETCH FIRST 3 ROWS ONLY", [b"A,SUM(B)", *rows[:3]]),
        (" OFFSET 3", rows[3:]),
    ):
        sentence = said(room, "query", "t", asked + more)
        pipe = behind(sentence, "pipe the answer through ").split(" (")[0]
        found = subprocess.run(["sh", "-c", f"'{room.program}' query t '{asked}' | {pipe}"], cwd=room.folder, capture_output=True, timeout=60)
        assert found.stdout.splitlines() == wanted, f"{pipe} of {more} gives {found.stdout!r}"


def words_in_quotes_are_one_text(room):
    room.make()
    assert "put the query into quotes" in said(room, "query", "t", *COUNT.split())
    assert "put the query into quotes" in said(room, "partial", "t", *COUNT.split(), status=2)
    assert "put the condition into quotes" in said(room, "delete", "t", "A", "=", "1", status=2)
    room.ok("query", "t", COUNT, prints=b"COUNT(*)\n3\n")
    room.ok("delete", "t", "A = 1", prints=b"ok 1\n")
    assert behind(said(room, "delete", "t", "TRUE"), "only after IS: ").startswith("1 = 1 is true")
    room.ok("delete", "t", "1 = 1", prints=b"ok 2\n")


def a_hyphen_is_standard_input(room):
    room.make(rows=None)
    for words, given in ((("import", "t"), b"A,B\n1,2\n"), (("query", "t"), COUNT.encode() + b"\n")):
        assert "or - for " in said(room, *words, status=2)
        room.ok(*words, "-", given=given)
    room.put("s", room.ok("summary", "t"))
    for words, given in ((("offer", "t"), "s"), (("apply", "t"), "t"), (("combine",), "p"), (("finish",), "p")):
        if given == "p":
            room.put("p", room.ok("partial", "t", COUNT))
        assert "or - for standard input" in said(room, *words, status=2)
        room.ok(*words, "-", given=room.get(given))


def the_word_at_fault_is_shown(room):
    for words, shown, cure in (
        (("create", "x", "T", "A"), '"A" has no type', ""),
        (("create", "x", "T", "A", "VARCHAR(9)"), '"VARCHAR(9)" is no type', "a number for each text"),
        (("create", "x", "T", "A", "int"), '"int" is no type', "write INTEGER"),
        (("create", "x", "T", "A", "DOUBLE"), '"DOUBLE" is no type', "smaller unit"),
        (("create", "x", "T", "A", "TIMESTAMP"), '"TIMESTAMP" is no type', "seconds since 1970"),
        (("create", "x", "T", "A", "SMALLINT,B", "BIGINT"), '"SMALLINT,B" is no type', "no comma"),
        (("import", "--batch", "2026-12-01", "t", "c"), '"2026-12-01" is no name of a batch', ""),
        (("delete-rows", "t", "1.1", "x", "2"), '"x" is no ordinal', ""),
        (("delete-rows", "t", "1.1", "-1", "2"), '"-1"', "ordinals begin at 0"),
        (("offer", "t", b"\xff"), '"\\xFF"', ""),
    ):
        sentence = said(room, *words, status=2)
        assert shown in sentence and cure in sentence, f"{words} said {sentence!r}"
    _, _, err = room.run("offer", "t", b"\xff")
    assert b"Usage: lanes offer " in err, err
    assert room.names() == []


def each_file_of_a_folder_is_an_offer(room):
    room.ok("create", "d/", "T", "A", "SMALLINT", "B", "BIGINT")
    room.ok("import", "--no-header", "--batch", "1.1", "d", "-", given=b"1,10\n")
    room.make("t", rows=None)
    words = behind(said(room, "apply", "t", "d"), "apply its parts, as ")
    done = subprocess.run(["sh", "-c", f"'{room.program}' apply t {words}"], cwd=room.folder, capture_output=True, timeout=60)
    assert done.stdout == b"ok batches=1 ranges=0 new=1\n", done


def a_merge_over_a_file_says_how_to_add_to_it_and_how_to_replace_it(room):
    room.make("mine", rows=b"1,10\n")
    room.ok("create", "theirs", "T", "A", "SMALLINT", "B", "BIGINT")
    room.ok("import", "--no-header", "--batch", "2.1", "theirs", "-", given=b"2,20\n")
    before = room.get("mine"), room.get("theirs")
    sentence = said(room, "merge", "mine", "theirs")
    assert sentence.startswith("mine: ") and (room.get("mine"), room.get("theirs")) == before
    words = re.search(r"lanes (apply) (OUT) (IN\.\.)", sentence).groups()
    room.ok(*({"OUT": "mine", "IN..": "theirs"}.get(word, word) for word in words), prints=b"ok batches=2 ranges=0 new=1\n")
    assert room.ok("dump", "mine") == b"A,B\n1,10\n2,20\n"
    assert "--replace" in said(room, "merge", "mine", "theirs")
    room.ok("merge", "--replace", "mine", "theirs", prints=b"ok\n")
    assert room.get("mine") == before[1]


def other_table(room, name):
    room.ok("create", name, "U", "A", "SMALLINT")


def a_merge_replaces_a_file_only_by_what_has_all_of_it(room):
    """What is there and is no IN: it stays and is told as Exists, after the faults of the INs, unless the result has all that it holds."""
    room.make("one", rows=b"1,10\n2,20\n")
    room.ok("create", "two", "T", "A", "SMALLINT", "B", "BIGINT")
    room.ok("import", "--no-header", "--batch", "2.1", "two", "-", given=b"3,30\n")
    room.make("other", rows=b"7,70\n")
    room.ok("merge", "--quiet", "deleted", "one")
    room.ok("delete", "deleted", "A = 1")
    room.put("text", b"A,B\n1,2\n")
    room.put("empty", b"")
    other_table(room, "table")
    room.ok("merge", "both", "one", "two")
    for out, files, is_kept in (
        ("new", ("one",), False),
        ("empty", ("one",), False),
        ("one", ("one", "two"), False),
        ("one", ("deleted",), False),
        ("one", ("both",), False),
        ("both", ("one",), True),
        ("deleted", ("one",), True),
        ("other", ("one",), True),
        ("table", ("one",), True),
        ("text", ("one",), True),
    ):
        room.put("out", room.get(out) if out != "new" else b"")
        if out == "new":
            os.remove(room.path("out"))
        words = ("merge", "out", *("out" if name == out and len(files) > 1 else name for name in files))
        if is_kept:
            room.refused(*words, line="refused Exists")
            room.refused(*words[:2], "none", line="refused ReadFault")
            room.refused(*words, "table" if out != "table" else "other", line="refused SchemaDiffers" if out != "table" else "refused Conflict 1.1")
            assert room.get("out") == room.get(out) and not os.path.exists(room.path(".out.lanes-lock")), f"{out} was written over"
            room.ok("merge", "--replace", *words[1:])
        else:
            room.ok(*words)
        room.ok("merge", "--quiet", "--replace", "wanted", *(("one", "two") if len(files) > 1 else files))
        assert room.get("out") == room.get("wanted"), f"{words} wrote another file"


def an_answer_that_is_lost_says_that_the_change_is_made(room):
    lost = "only the answer could not be written"
    for home in ("t", "d"):
        name = home + ("/" if home == "d" else "")
        with open("/dev/full", "wb") as full:
            def told(*words, given=b""):
                done = subprocess.run([room.program, *words], input=given, stdout=full, stderr=subprocess.PIPE, cwd=room.folder, timeout=60)
                assert done.returncode == 1, done
                return done.stderr.decode().splitlines()

            assert told("create", name, "T", "A", "SMALLINT") == ["refused WriteFault", f"lanes create {name}: standard output: no space is left on the device", f"{name} has the change; {lost}"]
            for words, given in ((("import", "--no-header", "--batch", "1.1", home, "-"), b"1\n2\n3\n"), (("delete", home, "A = 1"), b""), (("delete-rows", home, "1.1", "1", "1"), b"")):
                assert told(*words, given=given) == ["refused WriteFault", f"lanes {words[0]} {home}: standard output: no space is left on the device", f"{home} has the change; {lost}"]
            assert told("delete", home, "A = 99")[-1] == f"{home} is as it was; {lost}"
            assert told("import", "--no-header", "--batch", "1.1", home, "-", given=b"1\n2\n3\n")[-1] == f"{home} is as it was; {lost}"
            if home == "d":
                assert told("pack", "--all", home)[-1] == f"{home} has the change; {lost}"
                assert told("pack", "--all", home)[-1] == f"{home} is as it was; {lost}"
            assert told("merge", f"m{home}", home)[-1] == f"m{home} has the change; {lost}"
            assert told("spread", home, f"s{home}")[-1] == f"each OUT is made; {lost}"
        assert room.ok("dump", home) == room.ok("dump", f"m{home}") == room.ok("dump", f"s{home}") == b"A\n3\n"


TESTS = [
    an_option_that_is_named_reads_the_text,
    columns_that_are_named_read_the_text,
    a_pipe_that_is_named_orders_and_cuts_the_answer,
    words_in_quotes_are_one_text,
    a_hyphen_is_standard_input,
    the_word_at_fault_is_shown,
    each_file_of_a_folder_is_an_offer,
    a_merge_over_a_file_says_how_to_add_to_it_and_how_to_replace_it,
    a_merge_replaces_a_file_only_by_what_has_all_of_it,
    an_answer_that_is_lost_says_that_the_change_is_made,
]
