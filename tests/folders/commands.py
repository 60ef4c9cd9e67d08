"""What each command does with a folder, beside the same with a file."""

import os
import random
import subprocess
import sys

from parts import all_are_named, count, make_folder, name_of, parts_of


def a_folder_is_made_with_one_part_that_is_the_empty_file(room):
    room.ok("create", "t", "T", "A", "SMALLINT", "B", "BIGINT")
    make_folder(room, loads=0)
    assert parts_of(room) == [name_of(room.get("t"))] and os.listdir(room.path("d")) == parts_of(room)
    assert room.get("d/" + parts_of(room)[0]) == room.get("t")
    room.only("d", "t")
    room.ok("check", "d", prints=b"ok batches=0 ranges=0 parts=1 others=0\n")


def a_folder_is_not_made_over_anything(room):
    os.mkdir(room.path("empty"))
    room.put("file", b"")
    os.symlink("nowhere", room.path("link"))
    for name, kind in (("empty/", "folder"), ("file/", "file"), ("link/", "file"), ("empty//", "folder"), ("empty", "folder")):
        room.refused("create", name, "T", "A", "SMALLINT", line="refused Exists", sentence=f"{name}: there is a {kind} of this name already")
        room.refused("create", name, "1T", "A", "SMALLINT", line="refused Exists")
    room.refused("create", "d/", "1T", "A", "SMALLINT", line="refused BadSchema")
    room.refused("create", "none/d/", "T", "A", "SMALLINT", line="refused WriteFault", sentence="none/d/: there is no such folder")
    room.only("empty", "file", "link")


def each_command_says_of_a_folder_what_it_says_of_a_file(room):
    room.ok("create", "t", "T", "A", "SMALLINT", "B", "BIGINT")
    make_folder(room, loads=0)
    room.ok("create", "o", "T", "A", "SMALLINT", "B", "BIGINT")
    room.ok("import", "--no-header", "--batch", "7.1", "o", "-", given=b"70,71\n")
    room.ok("delete-rows", "o", "1.1", "0", "0")
    steps = (
        ("import", "--no-header", "--batch", "1.1", b"1,10\n2,20\n,30\n"),
        ("import", "--no-header", "--batch", "1.1", b"1,10\n2,20\n,30\n"),
        ("import", "--no-header", "--batch", "1.2", b"5,10\n"),
        ("import", "--no-header", "--batch", "0.0", b""),
        ("delete", "A = 2"),
        ("delete", "A = 2"),
        ("delete-rows", "9.9", "3", "5"),
        ("delete-rows", "--held", "1.1", "2", "2"),
        ("delete-rows", "--held", "1.1", "2", "9"),
        ("delete-rows", "--held", "9.9", "0", "9"),
        ("apply", "o"),
        ("apply", "o"),
        ("forget",),
        ("delete", "B = 10"),
        ("forget",),
        ("forget",),
        ("import", "--no-header", "--batch", "1.2", b"5,10\n"),
    )
    for step in steps:
        given = step[-1] if isinstance(step[-1], bytes) else b""
        words = [word for word in step if isinstance(word, str)]
        if words[0] == "import":
            said = [room.ok(*words, file, "-", given=given) for file in ("t", "d")]
        else:
            options = [word for word in words[1:] if word.startswith("--")]
            said = [room.ok(words[0], *options, file, *words[1 + len(options) :]) for file in ("t", "d")]
        assert said[0] == said[1], f"{step} said {said}"
        room.ok("merge", "--quiet", "--replace", "m", "d")
        assert room.get("m") == room.get("t"), f"after {step} the folder merges to other bytes than the file"
    all_are_named(room)
    room.put("s", room.ok("summary", "o"))
    for words in (("dump",), ("dump", "--names"), ("summary",), ("query", "SELECT A,SUM(B) FROM T GROUP BY A"), ("query", "--format", "json", "SELECT COUNT(*) FROM T"), ("offer", "s"), ("inspect", "--batches"), ("inspect", "--batches", "--format", "json")):
        options = [word for word in words[1:] if word.startswith("--") or word == "json"]
        rest = [word for word in words[1:] if word not in options]
        said = [room.ok(words[0], *options, file, *rest) for file in ("t", "d")]
        assert said[0] == said[1], f"{words} said {said}"
    lines = room.ok("query", "d", "-", given=b"SELECT COUNT(*) FROM T\n\nSELECT MAX(B) FROM T\n")
    assert lines == room.ok("query", "t", "-", given=b"SELECT COUNT(*) FROM T\n\nSELECT MAX(B) FROM T\n")


def inspect_and_check_count_parts_and_others(room):
    make_folder(room, loads=2)
    os.mkdir(room.path("d/" + "0" * 32 + ".lanes"))
    for name in ("x (1).lanes", ".x.lanes.AbCd", "X.sync-conflict-1.lanes", ".part-0123456789abcdef"):
        room.put(f"d/{name}", b"junk")
    with open(os.path.join(os.fsencode(room.path("d")), b"\xff.lanes"), "wb"):
        pass
    room.ok("check", "d", prints=b"ok batches=2 ranges=0 parts=3 others=6\n")
    room.ok("merge", "m", "d")
    of_file = room.ok("inspect", "m").split(b"\n")
    assert room.ok("inspect", "d").split(b"\n") == of_file[:1] + [b"parts 3", b"others 6"] + of_file[1:]
    digest = name_of(room.get("m")).removesuffix(".lanes").encode()
    assert room.ok("check", "--digest", "d") == b"ok batches=2 ranges=0 parts=3 others=6 digest=" + digest + b"\n"
    assert room.ok("check", "--digest", "m").endswith(b" digest=" + digest + b"\n")
    assert room.ok("inspect", "--digest", "d").split(b"\n")[:5] == of_file[:1] + [b"parts 3", b"others 6", b"digest " + digest] + of_file[1:2]
    of_file = room.ok("inspect", "--format", "json", "m")
    assert room.ok("inspect", "--format", "json", "d") == of_file.replace(b'{"table":"T",', b'{"table":"T","parts":3,"others":6,')
    room.ok("import", "--no-header", "d", "-", given=b"7,7\n")


def refusals_of_a_folder_are_those_of_a_file(room):
    make_folder(room)
    before = parts_of(room)
    room.refused("delete", "d", "A = ", line="refused Syntax 4")
    room.refused("delete", "d", "C = 1", line="refused NoSuchColumn 0", sentence='d: byte 0: there is no column "C": the table has A, B')
    room.refused("delete-rows", "d", "1.1", "2", "1", line="refused BadRange 0", sentence="d: the range ends before it starts")
    room.refused("delete-rows", "d", "0.1", "1", "1", line="refused BadName")
    room.refused("delete-rows", "--held", "d", "0.1", "2", "1", line="refused BadName")
    room.refused("delete-rows", "--held", "d", "7.7", "2", "1", line="refused BadRange 0")
    room.refused("import", "--no-header", "--batch", "1.1", "d", "-", given=b"9,9\n", line="refused Conflict 1.1", sentence="d: this has batch 1.1 already, with other rows")
    room.refused("import", "--no-header", "--batch", "0.1", "d", "-", given=b"9,9\n", line="refused BadName")
    room.refused("import", "--no-header", "d", "-", given=b"x,9\n", line="refused BadCsv 1 1")
    room.refused("import", "--no-header", "--batch", "9.9", "d", "-", given=b"x,9\n", line="refused BadCsv 1 1")
    room.refused("import", "d", "none", line="refused ReadFault", sentence="none: no such file or folder")
    room.refused("apply", "d", "-", given=b"junk", line="refused BadMagic")
    room.ok("create", "u", "U", "A", "SMALLINT")
    room.refused("apply", "d", "u", line="refused SchemaDiffers", sentence="u: this holds the table U (A SMALLINT), but d holds T (A SMALLINT, B BIGINT)")
    room.refused("query", "d", "SELECT COUNT(*) FROM X", line="refused NoSuchTable")
    room.refused("query", "none", "SELECT COUNT(*) FROM X", line="refused ReadFault", sentence="none: no such file or folder")
    assert parts_of(room) == before


def a_folder_without_a_part_is_no_replica(room):
    os.mkdir(room.path("d"))
    sentence = "d: this folder holds no part"
    for words in (("check", "d"), ("dump", "d"), ("query", "d", "SELECT COUNT(*) FROM T"), ("delete", "d", "A = 1"), ("pack", "d"), ("merge", "m", "d")):
        room.refused(*words, line="refused ReadFault", sentence=sentence)
    room.refused("import", "d", "-", line="refused ReadFault", sentence=sentence)
    room.refused("import", "--batch", "1.1", "d", "-", line="refused ReadFault", sentence=sentence)
    room.refused("pack", "none", line="refused ReadFault", sentence="none: no such file or folder")
    room.only("d")


def files_and_folders_merge_to_each_other(room):
    make_folder(room, loads=3)
    room.ok("merge", "m", "d", prints=b"ok\n")
    room.ok("merge", "e/", "m", prints=b"ok\n")
    assert parts_of(room, "e") == [name_of(room.get("m"))] == os.listdir(room.path("e"))
    room.ok("merge", "f/", "d", "e", "m", prints=b"ok\n")
    assert parts_of(room, "f") == parts_of(room, "e")
    room.refused("merge", "f/", "d", line="refused Exists")
    room.refused("merge", "f/", "none", line="refused ReadFault")
    status, _, err = room.run("merge", "f", "d")
    assert status == 2 and b"OUT is a folder" in err, f"it ended with {status} and said {err!r}"
    room.make("t", rows=b"1,1\n")
    room.refused("merge", "m", "t", "d", line="refused Conflict 1.1")
    room.ok("merge", "m", "m", "d", prints=b"ok\n")
    room.only("d", "e", "f", "m", "t")


def a_pack_keeps_what_the_folder_holds(room):
    make_folder(room, loads=9)
    room.ok("merge", "m", "d")
    room.ok("pack", "d")
    room.ok("merge", "n", "d")
    assert room.get("m") == room.get("n")
    all_are_named(room)
    packed = len(parts_of(room))
    assert packed < 10, f"the folder has {packed} parts"
    room.ok("import", "--no-header", "--batch", "2.1", "d", "-", given=b"7,7\n")
    room.ok("merge", "m", "d")
    room.ok("pack", "--all", "d", prints=f"ok parts=1 packed={packed + 1}\n".encode())
    assert parts_of(room) == [name_of(room.get("m"))]
    room.ok("pack", "--all", "d", prints=b"ok parts=1 packed=0\n")
    room.ok("pack", "d", prints=b"ok parts=1 packed=0\n")
    assert count(room) == 19


def a_pack_that_is_one_of_the_parts_stays(room):
    make_folder(room, loads=3)
    room.ok("merge", "m", "d")
    room.put("d/" + name_of(room.get("m")), room.get("m"))
    room.ok("pack", "--all", "--quiet", "d", prints=b"")
    assert parts_of(room) == [name_of(room.get("m"))]
    assert count(room) == 6


def a_pack_joins_small_parts_alone(room):
    make_folder(room, loads=20)
    rows = "".join(f"{at % 999},{at * 7_654_321_987}\n" for at in range(20_000)).encode()
    room.ok("import", "--no-header", "d", "-", given=rows)
    great = max(parts_of(room), key=lambda name: os.path.getsize(room.path("d/" + name)))
    room.ok("pack", "d")
    assert great in parts_of(room) and len(parts_of(room)) == 2, f"the folder has {parts_of(room)}"
    assert count(room) == 20_040


def a_pack_sweeps_what_nobody_holds(room):
    make_folder(room)
    room.put("d/.part-0123456789abcdef", b"left")
    room.put("d/.part-0123456789ABCDEF", b"of somebody else")
    os.mkdir(room.path("d/.part-00000000000000aa"))
    os.symlink("nowhere", room.path("d/.part-00000000000000bb"))
    room.ok("pack", "d")
    left = sorted(set(os.listdir(room.path("d"))) - set(parts_of(room)))
    assert left == [".part-00000000000000aa", ".part-00000000000000bb", ".part-0123456789ABCDEF"], f"left are {left}"


def the_same_part_twice_is_one(room):
    make_folder(room)
    room.ok("delete-rows", "d", "1.1", "0", "0")
    parts = parts_of(room)
    stamps = [(found.st_ino, found.st_mtime_ns) for found in (os.stat(room.path("d/" + part)) for part in parts)]
    for _ in range(3):
        room.ok("delete-rows", "d", "1.1", "0", "0", prints=b"ok\n")
    assert parts_of(room) == parts == sorted(os.listdir(room.path("d")))
    assert stamps == [(found.st_ino, found.st_mtime_ns) for found in (os.stat(room.path("d/" + part)) for part in parts)]


def rows_are_deleted_only_where_their_batch_is(room):
    make_folder(room, loads=2)
    before = parts_of(room)
    room.ok("delete-rows", "--held", "d", "5.5", "0", "0", prints=b"ok held=0\n")
    assert parts_of(room) == before == sorted(os.listdir(room.path("d")))
    name = room.ok("inspect", "--batches", "d").split(b"\n")[1].split(b",")[0].decode()
    rows = count(room)
    room.ok("delete-rows", "--held", "--quiet", "d", name, "0", "0", prints=b"")
    assert count(room) == rows - 1 and len(parts_of(room)) == len(before) + 1
    room.ok("delete-rows", "--held", "d", name, "0", "0", prints=b"ok held=1\n")
    assert count(room) == rows - 1 and len(parts_of(room)) == len(before) + 1


def a_link_to_a_folder_and_links_to_parts_are_read_through(room):
    make_folder(room, loads=2)
    os.symlink("d", room.path("l"))
    part = parts_of(room)[0]
    os.rename(room.path("d/" + part), room.path("p"))
    os.symlink("../p", room.path("d/" + part))
    assert count(room, "l") == count(room, "d/") == 4
    room.ok("import", "--no-header", "l", "-", given=b"1,1\n")
    room.ok("pack", "--all", "d/")
    assert os.path.exists(room.path("p")) and count(room) == 5
    os.symlink("gone", room.path("d/" + "0" * 32 + ".lanes"))
    room.refused("check", "d", line="refused ReadFault", sentence="d/" + "0" * 32 + ".lanes: no such file or folder")


# Runs a command, and prints the most memory that it took, in KiB. A process has at least what the one that started it had then, so a small
# one starts it.
MEASURED = """
import os, sys
pid = os.spawnv(os.P_NOWAIT, sys.argv[1], sys.argv[1:])
_, status, used = os.wait4(pid, 0)
print(used.ru_maxrss)
sys.exit(os.waitstatus_to_exitcode(status))
"""


def peak(room, *words, given=b""):
    """The most memory that a run took which ended well, in KiB."""
    run = subprocess.run([sys.executable, "-S", "-c", MEASURED, room.program, *words], input=given, cwd=room.folder, capture_output=True, timeout=60)
    assert run.returncode == 0, f"{words} ended with {run.returncode}: {run.stderr[-300:]!r}"
    return int(run.stdout.split()[-1])


def a_plain_import_next_to_one_large_part_takes_little_memory(room):
    make_folder(room)
    words = ("import", "--no-header", "d", "-")
    few = peak(room, *words, given=b"7,7\n")
    draw = random.Random(7)
    rows = "".join(f"{at % 999},{draw.getrandbits(62)}\n" for at in range(1_000_000)).encode()
    room.ok(*words, given=rows)
    room.ok("pack", "--all", "d")
    sizes = [os.path.getsize(room.path("d/" + name)) for name in parts_of(room)]
    assert len(sizes) == 1 and sizes[0] > 8_000_000, f"the parts have {sizes} bytes"
    many = peak(room, *words, given=b"7,7\n")
    assert many < few + 2_048, f"an import took {many} KiB, and {few} KiB next to small parts"


TESTS = [
    a_folder_is_made_with_one_part_that_is_the_empty_file,
    a_folder_is_not_made_over_anything,
    each_command_says_of_a_folder_what_it_says_of_a_file,
    inspect_and_check_count_parts_and_others,
    refusals_of_a_folder_are_those_of_a_file,
    a_folder_without_a_part_is_no_replica,
    files_and_folders_merge_to_each_other,
    a_pack_keeps_what_the_folder_holds,
    a_pack_that_is_one_of_the_parts_stays,
    a_pack_joins_small_parts_alone,
    a_pack_sweeps_what_nobody_holds,
    the_same_part_twice_is_one,
    a_plain_import_next_to_one_large_part_takes_little_memory,
    rows_are_deleted_only_where_their_batch_is,
    a_link_to_a_folder_and_links_to_parts_are_read_through,
]
