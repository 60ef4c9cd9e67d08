"""What lies at the edges of commands on folders: nothing to do, nothing said, a sync that fails, few open files, which part is named, and names
that parts have and that are those of no files."""

import os
import re
import resource
import shutil

from parts import count, make_folder, name_of, parts_of
from putting import in_order, only_parts, traced

COLUMNS = ("A", "SMALLINT", "B", "BIGINT")


def a_load_of_no_rows_adds_no_part(room):
    make_folder(room)
    before = parts_of(room)
    for named in ((), ("--batch", "9.9"), ("--batch", "1.1"), ("--batch", "0.0")):
        room.ok("import", "--no-header", *named, "d", "-", prints=b"ok batches=0 new=0 rows=0\n")
        room.ok("import", *named, "d", "-", given=b"B,A\n", prints=b"ok batches=0 new=0 rows=0\n")
        assert parts_of(room) == before
        only_parts(room)


def a_quiet_command_does_the_same_and_says_nothing(room):
    """Each command that changes a file or a folder, in turn, with the option and without it: silence, and the same bytes."""
    room.make("o", rows=b"70,71\n")
    room.ok("create", "p", "T", *COLUMNS)
    room.ok("import", "--no-header", "--batch", "7.1", "p", "-", given=b"5,6\n")
    for end in ("", "/"):
        for name, quiet in (("t", ()), ("q", ("--quiet",))):
            steps = (
                ("create", f"{name}{end}", "T", *COLUMNS),
                ("import", "--no-header", "--batch", "2.1", f"{name}{end}", "-"),
                ("import", "--no-header", "--batch", "2.2", f"{name}{end}", "-"),
                ("delete", f"{name}{end}", "A = 1"),
                ("delete-rows", f"{name}{end}", "2.2", "0", "65535"),
                ("delete-rows", "--held", f"{name}{end}", "2.1", "0", "0"),
                ("delete-rows", "--held", f"{name}{end}", "9.9", "0", "0"),
                ("apply", f"{name}{end}", "p"),
                ("forget", f"{name}{end}"),
                ("pack", "--all", f"{name}{end}") if end else ("forget", name),
                ("merge", f"{name}-m{end}", f"{name}{end}", "o"),
                ("merge", f"{name}-m", f"{name}-m", "o") if not end else ("merge", f"{name}-n/", "o"),
                ("spread", f"{name}{end}", f"{name}-s{end}", f"{name}-u{end}"),
            )
            for step in steps:
                status, out, err = room.run(step[0], *quiet, *step[1:], given=b"1,10\n2,20\n" if step[0] == "import" else b"")
                assert status == 0 and err == b"", f"{step} with {quiet} ended with {status} and said {err!r}"
                assert (out == b"") if quiet else out.startswith(b"ok"), f"{step} with {quiet} wrote {out!r}"
        for name in ("", "-m", "-s", "-u", *(["-n"] if end else [])):
            if end:
                assert parts_of(room, f"t{name}") == parts_of(room, f"q{name}") != []
            else:
                assert room.get(f"t{name}") == room.get(f"q{name}")
        for name in {*room.names()} - {"o", "p"}:
            if os.path.isdir(room.path(name)):
                shutil.rmtree(room.path(name))
            else:
                os.remove(room.path(name))


def a_quiet_command_still_says_why_it_is_refused(room):
    make_folder(room)
    room.make("t")
    for name in ("t", "d"):
        for words, line in (
            (("create", "--quiet", "t", "T", *COLUMNS), "refused Exists"),
            (("import", "--quiet", "--no-header", name, "-"), "refused BadCsv 1 1"),
            (("delete", "--quiet", name, "A ="), "refused Syntax 3"),
            (("delete-rows", "--quiet", name, "1.1", "1", "0"), "refused BadRange 0"),
            (("apply", "--quiet", name, "none"), "refused ReadFault"),
            (("merge", "--quiet", "--replace", "m", name, "none"), "refused ReadFault"),
            (("delete-rows", "--quiet", "--held", name, "1.1", "1", "0"), "refused BadRange 0"),
            (("spread", "--quiet", name, "m", "m"), "refused Exists"),
        ):
            room.refused(*words, given=b"x,9\n", line=line)
    room.refused("forget", "--quiet", "none", line="refused ReadFault")
    room.refused("pack", "--quiet", "none", line="refused ReadFault")


def a_new_folder_whose_own_folder_can_not_be_synced_is_told_and_is_there(room):
    os.mkdir(room.path("e"))
    room.make("t")
    for words in (("create", "e/d/", "T", *COLUMNS), ("create", "--quiet", "e/q/", "T", *COLUMNS), ("merge", "e/m/", "t")):
        trace, status, err = traced(room, *words, options=("-e", "inject=fsync:error=EIO:when=3"))
        name = next(word for word in words if word.startswith("e/"))
        assert status == 0 and "INJECTED" in trace, f"{words} ended with {status}"
        assert err.startswith(f"{name}: ".encode()) and b"could not be synced: a loss of power may take it away\n" in err, f"{words} said {err!r}"
        room.ok("check", name)


def a_part_that_is_there_already_is_synced_before_it_is_answered(room):
    make_folder(room)
    words = ("delete-rows", "d", "5.5", "1", "2")
    room.ok(*words)
    before = parts_of(room)
    trace, status, err = traced(room, *words)
    assert status == 0 and parts_of(room) == before, f"it said {err!r}"
    in_order(trace, (r"link.*EEXIST", r"fsync\([0-9]+<[^>]*/d/[0-9a-f]{32}\.lanes>\) += 0", r"fsync\([0-9]+<[^>]*/d>\) += 0", r"write\(1<.*ok"))
    syncs = trace.count("fsync(")
    for at in (syncs - 1, syncs):
        _, status, err = traced(room, *words, options=("-e", f"inject=fsync:error=EIO:when={at}"))
        assert (status, err) == (0, b"d: the part was added, but the folder could not be synced: a loss of power may take it away\n"), f"at {at} of {syncs} it ended with {status} and said {err!r}"
    only_parts(room)


def the_faults_of_the_folder_come_before_those_of_the_other_input(room):
    make_folder(room, loads=3)
    room.put("bad", b"junk")
    room.put("rows", b"A,B\n1,x\n")
    part = min(parts_of(room), key=lambda name: (os.path.getsize(room.path("d/" + name)), name))
    data = room.get("d/" + part)
    # The smallest part, which each command reads to its end, has a byte too many behind its head.
    room.put("d/" + part, data + b"x")
    for words in (
        ("import", "d", "rows"),
        ("import", "d", "none"),
        ("import", "--batch", "0.1", "d", "rows"),
        ("import", "--columns", "C", "d", "rows"),
        ("apply", "d", "bad"),
        ("apply", "d", "none"),
        ("delete", "d", "A ="),
        ("delete-rows", "d", "0.1", "2", "1"),
        ("offer", "d", "bad"),
        ("query", "d", "SELECT"),
        ("dump", "--columns", "C", "d"),
    ):
        room.refused(*words, line="refused Damaged")
    room.put("d/" + part, data)
    room.refused("apply", "d", "bad", line="refused BadMagic")
    only_parts(room)


def a_part_whose_read_fails_is_a_failed_read(room):
    make_folder(room, loads=2)
    before = parts_of(room)
    for words in (("query", "d", "SELECT COUNT(*) FROM T"), ("import", "--no-header", "d", "-"), ("import", "--no-header", "--batch", "8.8", "d", "-"), ("delete", "d", "A = 1"), ("merge", "m", "d")):
        for part in before:
            # Each read of this part in turn: its head, the rest of it and its end.
            trace, _, _ = traced(room, *words, options=("-e", "trace=read"), given=b"7,7\n")
            reads = re.findall(r"read\(\d+<([^>]*)>", trace)
            for name in set(parts_of(room)) - set(before):
                os.remove(room.path("d/" + name))
            if words[0] == "merge":
                os.remove(room.path("m"))
            for at in [at for at, name in enumerate(reads, 1) if name == room.path("d/" + part)]:
                _, status, err = traced(room, *words, options=("-e", "trace=read", "-e", f"inject=read:error=EIO:when={at}"), given=b"7,7\n")
                assert (status, err.split(b"\n")[0]) == (1, b"refused ReadFault") and f"d/{part}: ".encode() in err, f"{words} at {at} ended with {status} and said {err!r}"
                assert parts_of(room) == before and room.names() == ["d", "trace"], f"{words} at {at} left {room.names()}"
                only_parts(room)


def few_open_files():
    resource.setrlimit(resource.RLIMIT_NOFILE, (16, 16))


def many_inputs_and_parts_need_few_open_files(room):
    make_folder(room, loads=40)
    room.ok("create", "e", "T", *COLUMNS)
    for load in range(1, 41):
        room.ok("create", f"t{load}", "T", *COLUMNS)
        room.ok("import", "--no-header", "--batch", f"1.{load}", f"t{load}", "-", given=f"{load},{load * 10}\n,{load}\n".encode())
    names = [f"t{load}" for load in range(1, 41)]
    for words in (
        ("merge", "m", *names),
        ("merge", "n", "d", *names[:3]),
        ("apply", "e", *names),
        ("query", "d", "SELECT COUNT(*) FROM T"),
        ("import", "--no-header", "d", "-"),
        ("import", "--no-header", "--batch", "1.1", "d", "-"),
        ("delete", "d", "A = 99"),
        ("pack", "--all", "d"),
    ):
        room.ok(*words, given=b"1,10\n,1\n" if words[0] == "import" else b"", preexec_fn=few_open_files)
    assert room.get("m") == room.get("n") == room.get("e")
    assert count(room) == 82


def of_three_parts_the_two_that_disagree_are_named(room):
    make_folder(room, loads=0)
    for name, rows in (("t", b"9,9\n"), ("u", b"8,8\n"), ("v", b"7,7\n")):
        room.make(name, rows=rows)
    room.ok("create", "w", "T", *COLUMNS)
    room.ok("import", "--no-header", "--batch", "5.1", "w", "-", given=b"1,1\n")
    data = {name: room.get(name) for name in "tuvw"}
    for one, two in (("t", "u"), ("t", "v"), ("u", "v")):
        for name in (one, two, "w"):
            room.put("d/" + name_of(data[name]), data[name])
        first, second = sorted((name_of(data[one]), name_of(data[two])))
        for words in (("check", "d"), ("merge", "m", "d")):
            room.refused(*words, line="refused Conflict 1.1", sentence=f"d/{second}: this and d/{first} have a batch 1.1, with different rows")
        for name in (one, two, "w"):
            os.remove(room.path("d/" + name_of(data[name])))


def of_parts_of_many_batches_the_one_that_has_the_name_is_named(room):
    """Whatever the codings, types, nulls and lengths of what lies before the name in its part."""
    types = ("A", "TINYINT", "B", "SMALLINT", "C", "INTEGER", "D", "BIGINT")

    def made(name, seed, loads):
        room.ok("create", name, "T", *types)
        for batch, rows in loads:
            room.ok("import", "--no-header", "--batch", batch, name, "-", given=mixed_rows(rows, seed))
        return room.get(name)

    room.ok("create", "d/", "T", *types)
    one = made("t", 1, (("1.1", 70_000), ("1.7", 1), ("2.1", 1024), ("3.4", 1025), ("9.1", 3)))
    other = made("u", 2, (("1.5", 2049), ("4.1", 66_000), ("8.1", 5)))
    for turn, batch in enumerate(("1.1", "1.2", "1.7", "2.1", "3.4", "9.1", "1.5", "4.2", "8.1")):
        clash = made(f"v{turn}", 3, ((batch, 1000),))
        named = one if batch in ("1.1", "1.2", "1.7", "2.1", "3.4", "9.1") else other
        for data in (one, other, clash):
            room.put("d/" + name_of(data), data)
        first, second = sorted((name_of(named), name_of(clash)))
        room.refused("check", "d", line=f"refused Conflict {batch}", sentence=f"d/{second}: this and d/{first} have a batch {batch}, with different rows")
        os.remove(room.path("d/" + name_of(clash)))


def mixed_rows(count, seed):
    """Rows whose columns change their pattern, and so their coding, every 1,000 rows."""
    patterns = (
        lambda row: seed,
        lambda row: row % 1000 // 10,
        lambda row: row * row * 7919 % 101 + seed,
        lambda row: "" if row % 3 == 0 else (5, 120)[row // 7 % 2],
        lambda row: row // 97 % 50,
    )
    lines = []
    for row in range(count):
        lines.append(",".join(str(patterns[(row // 1000 + column) % len(patterns)](row)) for column in range(4)))
    return ("\n".join(lines) + "\n").encode()


def a_folder_that_has_a_parts_name_is_none(room):
    make_folder(room, loads=2)
    os.mkdir(room.path("d/" + "0" * 32 + ".lanes"))
    room.ok("check", "d", prints=b"ok batches=2 ranges=0 parts=3 others=1\n")
    room.ok("pack", "--all", "d", prints=b"ok parts=1 packed=3\n")
    room.ok("check", "d", prints=b"ok batches=2 ranges=0 parts=1 others=1\n")
    assert count(room) == 4


def a_pipe_that_has_a_parts_name_is_refused_and_not_waited_for(room):
    make_folder(room, loads=2)
    before, name = parts_of(room), "d/" + "0" * 32 + ".lanes"
    os.mkfifo(room.path(name))
    for words in (
        ("query", "d", "SELECT COUNT(*) FROM T"),
        ("check", "d"),
        ("delete", "d", "A = 9"),
        ("delete-rows", "d", "1.1", "0", "0"),
        ("forget", "d"),
        ("apply", "d", "d"),
        ("import", "--no-header", "d", "-"),
        ("import", "--no-header", "--batch", "8.8", "d", "-"),
        ("merge", "m", "d"),
        ("merge", "m/", "d"),
    ):
        room.refused(*words, given=b"7,7\n", line="refused ReadFault", sentence=f"{name}: this is neither a file nor a folder")
        assert room.names() == ["d"] and set(parts_of(room)) == {*before, os.path.basename(name)}, f"{words} left {room.names()}"
    for words in (("pack", "d"), ("pack", "--all", "d")):
        room.refused(*words, line="refused ReadFault", sentence=f"{name}: this is neither a file nor a folder")
        assert set(parts_of(room)) == {*before, os.path.basename(name)}


TESTS = [
    a_load_of_no_rows_adds_no_part,
    a_quiet_command_does_the_same_and_says_nothing,
    a_quiet_command_still_says_why_it_is_refused,
    a_new_folder_whose_own_folder_can_not_be_synced_is_told_and_is_there,
    a_part_that_is_there_already_is_synced_before_it_is_answered,
    the_faults_of_the_folder_come_before_those_of_the_other_input,
    a_part_whose_read_fails_is_a_failed_read,
    many_inputs_and_parts_need_few_open_files,
    of_three_parts_the_two_that_disagree_are_named,
    of_parts_of_many_batches_the_one_that_has_the_name_is_named,
    a_folder_that_has_a_parts_name_is_none,
    a_pipe_that_has_a_parts_name_is_refused_and_not_waited_for,
]
