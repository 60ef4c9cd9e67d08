"""What a command finds in a folder and does not put itself, since a part has it: that part is on the disk before the new one has its name."""

import os
import re

from parts import make_folder, parts_of
from putting import in_order, offered, only_parts, traced

#: The rows of two loads, and the commands that find a part of them in the folder: each by its words, what it is given, and what it prints.
FIRST, SECOND = b"1,10\n2,20\n", b"3,30\n"
COMMANDS = (
    (("import", "--no-header", "--batch", "5.1", "d", "first", "second"), b"ok batches=2 new=1 rows=3 first=5.1\n"),
    (("apply", "d", "offering"), b"ok batches=4 ranges=1 new=1\n"),
    (("delete", "d", "A = 1"), b"ok 1\n"),
)


def one_part_more(room, *words, given=b""):
    """The name of the part that a command adds."""
    before = set(parts_of(room))
    room.ok(*words, given=given)
    (name,) = set(parts_of(room)) - before
    return name


def relied_on(room):
    """A folder of which each of the commands finds something in one part, and that part's name for each."""
    make_folder(room, loads=2)
    room.put("first", FIRST)
    room.put("second", SECOND)
    # Others have the second load's batch, and so has the offer.
    room.ok("create", "offering", "T", "A", "SMALLINT", "B", "BIGINT")
    for name, rows in (("5.1", "first"), ("6.6", "second")):
        room.ok("import", "--no-header", "--batch", name, "offering", rows)
    held = one_part_more(room, "import", "--no-header", "--batch", "5.1", "d", "first")
    deleted = one_part_more(room, "delete-rows", "d", "1.1", "0", "0")
    return held, held, deleted


def what_a_command_relies_on_is_on_the_disk_before_its_part_is_put(room):
    parts = relied_on(room)
    for (words, prints), relied in zip(COMMANDS, parts):
        before = parts_of(room)
        trace, status, err = traced(room, *words)
        assert (status, err) == (0, b""), f"{words} said {err!r}"
        in_order(
            trace,
            (
                rf"openat\(.*\"d/{relied}\", O_RDONLY",
                rf"fsync\(.*/d/{relied}>\) += 0",
                r"fsync\([0-9]+<[^>]*/d>\) += 0",
                r"openat\(.*\"d/\.part-[0-9a-f]{16}\", O_WRONLY\|O_CREAT\|O_EXCL",
                r"fsync\(.*\.part-[0-9a-f]{16}>\) += 0",
                r"link.*\"d/\.part-[0-9a-f]{16}\".*\"d/[0-9a-f]{32}\.lanes\".* = 0",
                r"fsync\([0-9]+<[^>]*/d>\) += 0",
                r"write\(1<.*ok ",
            ),
        )
        assert trace.count("fsync(") == 4, f"{words} has other syncs too:\n{trace[-2000:]}"
        (new,) = set(parts_of(room)) - set(before)
        os.remove(room.path("d/" + new))
    only_parts(room)


def a_part_that_can_not_be_synced_is_named_and_nothing_is_put(room):
    parts = relied_on(room)
    held = parts_of(room)
    for (words, prints), relied in zip(COMMANDS, parts):
        # The first sync is of the part, the second one of the folder, and the third one of the new part.
        for when, name in ((1, f"d/{relied}"), (2, "d"), (3, "d")):
            trace, status, err = traced(room, *words, options=("-e", f"inject=fsync:error=EIO:when={when}"))
            said = err.decode().split("\n")
            assert "INJECTED" in trace and status == 1 and said[0] == "refused WriteFault", f"{words} said {err!r} at {when}"
            assert said[1].startswith(f"{name}: ") and len(said) == 3, f"{words} said {err!r} at {when}"
            assert not re.search(r"\b(link|linkat|rename.*)\(", trace), f"{words} at {when} gave a part its name"
            assert parts_of(room) == held
            only_parts(room)
        status, out, err = room.run(*words)
        assert (status, out, err) == (0, prints, b""), f"{words} said {out!r} and {err!r}"
        (new,) = set(parts_of(room)) - set(held)
        os.remove(room.path("d/" + new))


def a_part_that_is_gone_when_it_is_to_be_kept_is_no_matter(room):
    parts = relied_on(room)
    for (words, prints), relied in zip(COMMANDS, parts):
        before = parts_of(room)
        # The head of each part is read first by a load.
        when = 3 if words[0] == "import" else 2
        trace, status, err = traced(room, *words, options=("-P", f"d/{relied}", "-e", f"inject=openat:error=ENOENT:when={when}"))
        assert "INJECTED" in trace and status == 0, f"{words} said {err!r}"
        (new,) = set(parts_of(room)) - set(before)
        os.remove(room.path("d/" + new))
    only_parts(room)


def a_command_that_relies_on_nothing_syncs_its_own_part_alone(room):
    make_folder(room, loads=3)
    offered(room, "one", b"1,1\n")
    for words in (("import", "--no-header", "--batch", "8.8", "d", "-"), ("apply", "d", "one"), ("delete", "d", "A = 2")):
        trace, status, err = traced(room, *words, given=b"8,8\n")
        assert (status, err) == (0, b""), f"{words} said {err!r}"
        synced = re.findall(r"fsync\([0-9]+<[^>]*/(d|\.part-)[0-9a-f]*>", trace)
        assert synced == [".part-", "d"], f"{words} synced {synced}"


TESTS = [
    what_a_command_relies_on_is_on_the_disk_before_its_part_is_put,
    a_part_that_can_not_be_synced_is_named_and_nothing_is_put,
    a_part_that_is_gone_when_it_is_to_be_kept_is_no_matter,
    a_command_that_relies_on_nothing_syncs_its_own_part_alone,
]
