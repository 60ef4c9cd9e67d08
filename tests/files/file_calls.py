"""Each command that changes a file, with each of its system calls failing in turn, and killed at each: the file has what it had or what the
command makes of it, whole; what is answered `ok` is there; and the same command then goes on."""

import os

from injecting import NAMED, Tries, each_call, each_kind_was_tried, faults_seen, held_file, is_end_refused, wrong_program
from room import COLUMNS

LOCK = ".t.lanes-lock"
INPUTS = ("rows", "v")

#: Calls without which a lock may stay: it can't be removed, or it was made and could not be locked. The next command takes it.
LEAVES_A_LOCK = ("unlink,unlinkat", "flock")
COMMANDS = (
    ("create", "t", "T", *COLUMNS),
    ("import", "--no-header", "t", "rows"),
    ("import", "--no-header", "--batch", "2.1", "t", "rows"),
    ("delete", "t", "A = 1"),
    ("delete-rows", "t", "1.1", "0", "0"),
    ("delete-rows", "--held", "t", "1.1", "0", "0"),
    ("apply", "t", "v"),
    ("forget", "t"),
    ("merge", "t", "t", "v"),
    ("merge", "--replace", "t", "v"),
)


class Command:
    """A command on the file `t`, with what there is before it and after it."""

    def __init__(self, room, words):
        self.room, self.words = room, words
        self.start = None
        if words[0] != "create":
            room.make("t", rows=b"1,10\n2,20\n,30\n")
            room.ok("import", "--no-header", "--batch", "1.2", "t", "-", given=b"4,40\n")
            room.ok("delete", "t", "A = 4")
            self.start = room.get("t")
        self.before = held_file(room)
        room.ok(*words)
        self.after = held_file(room)
        assert self.before != self.after, f"{words} changes nothing"

    def prepare(self):
        for name in set(self.room.names()) - set(INPUTS):
            os.remove(self.room.path(name))
        if self.start is not None:
            self.room.put("t", self.start)

    def judge(self, ended):
        """What an end has left is right, and the command goes on from there."""
        room, at, now = self.room, f"{' '.join(self.words)}, {ended}", held_file(self.room)
        if ended.is_killed:
            assert now in (self.before, self.after), f"{at}: the file holds {now}"
            assert not ended.out or now == self.after, f"{at}: it had answered {ended.out!r}, and the file is the old one"
        elif ended.status == 0:
            assert ended.out.startswith(b"ok") and now == self.after, f"{at}: it answered {ended.out!r}, and the file holds {now}"
            assert ended.kind != "fsync" or b"could not be synced" in ended.err, f"{at}: it said {ended.err!r}"
        else:
            assert ended.err.startswith(NAMED) or ended.is_before_the_program(), f"{at}: it said {ended.err!r}"
            assert now == (self.after if ended.is_told_of_the_output() else self.before), f"{at}: it said {ended.err!r}, and the file holds {now}"
        left = {LOCK} if ended.is_killed or ended.kind in LEAVES_A_LOCK else set()
        assert set(room.names()) - left == {*INPUTS} | ({"t"} if now else set()), f"{at}: there are {room.names()}"
        self.go_on(now, at)

    def go_on(self, now, at):
        """The same command again, or if its work is done already another one. No lock is left."""
        if now == self.before:
            self.room.ok(*self.words)
            assert held_file(self.room) == self.after, f"after {at} the same command leaves {held_file(self.room)}"
        else:
            self.room.ok("delete-rows", "t", "9.9", "0", "0")
        self.room.only(*INPUTS, "t")


def put_inputs(room):
    room.put("rows", b"3,40\n")
    room.make("v", rows=b"")
    room.ok("import", "--no-header", "--batch", "5.1", "v", "-", given=b"5,50\n")


def each_call_of_a_command_on_a_file_fails_and_kills_and_nothing_is_lost(room):
    put_inputs(room)
    tried = []
    for words in COMMANDS:
        command, tries = Command(room, words), Tries(words)
        for ended in each_call(room, words, command.prepare):
            tries.add(ended)
            command.judge(ended)
        tries.tell()
        tried.append(tries)
        os.remove(room.path("t"))
    each_kind_was_tried(tried, "mkdir,mkdirat", "getdents64", "link,linkat", "unlink,unlinkat")


#: An import that writes the new file over the old one.
IN_PLACE = """
if [ "$*" = "import --no-header t rows" ]; then
    cp t $room/t
    lanes import --no-header $room/t rows
    dd if=$room/t of=t bs=100 status=none
    exit
fi"""


def a_program_that_writes_a_file_in_place_is_seen(room):
    wrong = wrong_program(room, IN_PLACE)
    put_inputs(wrong)
    faults = list(faults_seen(Command(wrong, ("import", "--no-header", "t", "rows")), "write"))
    assert any("('dump', 't') ended with 1" in fault for fault in faults), f"a file that was half written is not seen: {faults}"


def an_end_of_a_command_that_is_wrong_is_refused(room):
    """Of an import: what it said, whether its rows are there, and what is left."""
    put_inputs(room)
    command = Command(room, ("import", "--no-header", "--batch", "2.1", "t", "rows"))

    ok, unsynced, fault = b"ok batches=1 new=1 rows=1\n", b"t: this was replaced, but its folder could not be synced\n", b"refused WriteFault\nt: no room\n"
    for wrong in (
        ("write", False, 0, ok, b"", False),
        ("write", True, -9, ok, b"", False),
        ("fsync", False, 0, ok, b"", True),
        ("fsync", False, 0, ok, unsynced, False),
        ("write", False, 0, b"", b"", True),
        ("write", False, 1, b"", fault, True),
        ("write", False, 1, b"", b"refused Conflict\n2.1\n", False),
        ("write", False, 1, b"", b"refused WriteFault\nlanes import t: standard output: no room\n", False),
        ("write", False, 1, b"", fault, False, LOCK),
        ("write", True, -9, b"", b"", False, "notes"),
    ):
        assert is_end_refused(command, *wrong), f"{wrong} is not refused"
    for right in (
        ("write", True, -9, b"", b"", False),
        ("write", True, -9, ok, b"", True, LOCK),
        ("write", False, 1, b"", fault, False),
        ("fsync", False, 0, ok, unsynced, True),
        ("flock", False, 1, b"", fault, False, LOCK),
    ):
        assert not is_end_refused(command, *right), f"{right} is refused"


TESTS = [
    an_end_of_a_command_that_is_wrong_is_refused,
    each_call_of_a_command_on_a_file_fails_and_kills_and_nothing_is_lost,
    a_program_that_writes_a_file_in_place_is_seen,
]
