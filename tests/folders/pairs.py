"""Every two commands that change a folder, at once on one folder. Each ends as in one order of the two or in the other, and so do the
folder's rows: what was answered `ok` is there, and what is refused is refused by its name."""

import fcntl
import itertools
import os
import shutil
import time

from folder_calls import COLUMNS, make_starts
from parts import all_are_named, parts_of

NAMED = ("import", "--no-header", "--batch", "8.8")
COMMANDS = (
    ("import", "--no-header", "d", "rows"),
    (*NAMED, "d", "rows"),
    (*NAMED, "d", "others"),
    ("delete", "d", "A = 3 OR A = 8"),
    ("delete-rows", "d", "8.8", "0", "0"),
    ("delete-rows", "--held", "d", "1.3", "0", "0"),
    ("apply", "d", "v"),
    ("apply", "d", "w"),
    ("pack", "d"),
    ("pack", "--all", "d"),
    ("forget", "d"),
)
#: How the two meet: by chance, or because both wait for the folder's lock, which the test has for so many seconds.
MEETINGS = (0, 0, 0.15)


def begin(room):
    shutil.rmtree(room.path("d"), ignore_errors=True)
    shutil.copytree(room.path("many"), room.path("d"))


def rows_of(room):
    """The rows in order, without names, as these may be drawn."""
    return tuple(sorted(room.ok("dump", "d").split(b"\n")))


def said(status, err):
    """What of a command's end is the same whenever it comes: its status, and the first line of its refusal."""
    return status, err.split(b"\n")[0]


def in_turn(room, pair):
    """How two commands end one after the other, in each of the two orders, and which rows they leave."""
    ends = set()
    for order in ((0, 1), (1, 0)):
        begin(room)
        ended = {}
        for at in order:
            status, _, err = room.run(*pair[at])
            ended[at] = said(status, err)
        ends.add((ended[0], ended[1], rows_of(room)))
    return ends


def at_once(room, pair, seconds):
    """The same of two commands that are started together."""
    begin(room)
    lock = os.open(room.path("d"), os.O_RDONLY)
    if seconds:
        fcntl.flock(lock, fcntl.LOCK_SH)
    running = [room.start(*words) for words in pair]
    time.sleep(seconds)
    os.close(lock)
    ended = [(one.communicate(timeout=60)[1], one.returncode) for one in running]
    all_are_named(room)
    return *(said(status, err) for err, status in ended), rows_of(room)


def judge(room, pair, found, ends):
    """Two commands have ended as they may. What they left goes on: a pack leaves one part, and the same rows."""
    assert found in ends, f"{pair} ended so: {found[:2]}, with {len(found[2]) - 2} rows; one after the other they end so: {[(end[:2], len(end[2]) - 2) for end in ends]}"
    assert all(status == 0 or line.startswith(b"refused Conflict ") for status, line in found[:2]), f"{pair} ended so: {found[:2]}"
    room.ok("pack", "--all", "d")
    assert rows_of(room) == found[2] and os.listdir(room.path("d")) == parts_of(room) and len(parts_of(room)) == 1, f"{pair}: a pack leaves {os.listdir(room.path('d'))}"


def put_inputs(room):
    """The rows of two loads and two offers of one batch, which do not agree, and the folders from which commands start."""
    for name, rows, offer in (("rows", b"8,80\n", "v"), ("others", b"8,81\n", "w")):
        room.put(name, rows)
        room.ok("create", offer, "T", *COLUMNS)
        room.ok(*NAMED, offer, name)
    make_starts(room)


def every_two_commands_at_once_end_as_in_one_order_or_the_other(room):
    put_inputs(room)
    pairs = list(itertools.combinations_with_replacement(COMMANDS, 2))
    refused = 0
    for pair in pairs:
        ends = in_turn(room, pair)
        for seconds in MEETINGS:
            found = at_once(room, pair, seconds)
            judge(room, pair, found, ends)
            refused += any(status for status, _ in found[:2])
    print(f"every_two_commands_at_once_end_as_in_one_order_or_the_other: {len(pairs)} pairs, each {len(MEETINGS)} times; in {refused} one of the two was refused")
    assert refused


TESTS = [every_two_commands_at_once_end_as_in_one_order_or_the_other]
