"""Each command that changes a folder, with each of its system calls failing in turn, and killed at each: the folder has the rows that it had or
those that the command makes of them, each part is whole and named by its bytes, what is answered `ok` is there, and the same command then
goes on."""

import os
import re
import shutil

from injecting import NAMED, Tries, each_call, each_kind_was_tried
from parts import all_are_named, make_folder, parts_of

COLUMNS = ("A", "SMALLINT", "B", "BIGINT")
COMMANDS = (
    ("create", "d/", "T", *COLUMNS),
    ("import", "--no-header", "d", "rows"),
    ("import", "--no-header", "--batch", "8.8", "d", "rows"),
    ("delete", "d", "A = 3"),
    ("delete-rows", "d", "1.3", "0", "0"),
    ("delete-rows", "--held", "d", "1.3", "0", "0"),
    ("apply", "d", "v"),
    ("pack", "d"),
    ("pack", "--all", "d"),
    ("forget", "d"),
    ("merge", "d/", "v"),
)
#: Commands that make a folder, and those that leave the rows as they are.
MAKES, KEEPS = ("create", "merge"), ("pack", "forget")

#: What a command may leave in a folder that is no part, and next to it, until a later command takes it away.
LEFT = re.compile(r"\.part-[0-9a-f]{16}|\.d\.lanes-new-[0-9a-f]{16}")


def make_starts(room):
    """The folders from which commands start: of four loads, of which one is dead; and of so many that a pack joins some."""
    for folder, loads in (("loads", 4), ("many", 9)):
        make_folder(room, folder, loads)
        room.ok("delete-rows", folder, "1.2", "0", "65535")


def held(room, known={}):
    """The rows of the folder, in order and without names, as these may be drawn. None if there is no folder.

    Folders that were looked at before are known by the names of their parts, each of which is compared with its bytes."""
    if not os.path.exists(room.path("d")):
        return None
    all_are_named(room)
    parts = tuple(parts_of(room))
    if parts not in known:
        known[parts] = sorted(room.ok("dump", "d").split(b"\n"))
    return known[parts]


class Command:
    """A command on the folder `d`, with what there is before it and after it."""

    def __init__(self, room, words):
        self.room, self.words = room, words
        self.prepare()
        self.before, self.parts = held(room), parts_of(room) if self.before_is_there() else []
        room.ok(*words)
        self.after, self.made = held(room), parts_of(room)
        assert self.made != self.parts and (self.before != self.after) == (words[0] not in KEEPS), f"{words} changes nothing"

    def before_is_there(self):
        return self.words[0] not in MAKES

    def prepare(self):
        for name in self.room.names():
            if name == "d" or LEFT.fullmatch(name):
                shutil.rmtree(self.room.path(name))
        if self.before_is_there():
            shutil.copytree(self.room.path("many" if self.words == ("pack", "d") else "loads"), self.room.path("d"))

    def judge(self, ended):
        """What an end has left is right, and the command goes on from there."""
        at, now = f"{' '.join(self.words)}, {ended}", held(self.room)
        if ended.is_killed:
            assert now in (self.before, self.after), f"{at}: the folder holds {now}"
            assert not ended.out or now == self.after, f"{at}: it had answered {ended.out!r}, and the folder holds {now}"
        elif ended.status == 0:
            assert ended.out.startswith(b"ok") and now == self.after, f"{at}: it answered {ended.out!r}, and the folder holds {now}"
            assert ended.kind != "fsync" or b"could not be synced" in ended.err, f"{at}: it said {ended.err!r}"
        else:
            assert ended.err.startswith(NAMED) or ended.is_before_the_program(), f"{at}: it said {ended.err!r}"
            assert now == (self.after if ended.is_told_of_the_output() else self.before), f"{at}: it said {ended.err!r}, and the folder holds {now}"
        others = [name for name in self.room.names() if name not in ("d", "loads", "many", "rows", "v")]
        others += [name for name in os.listdir(self.room.path("d")) if name not in parts_of(self.room)] if now else []
        assert all(LEFT.fullmatch(name) for name in others), f"{at}: it left {others}"
        assert not others or ended.is_killed or ended.kind in ("unlink,unlinkat", "flock", "rename,renameat,renameat2"), f"{at}: it left {others}"
        self.go_on(now, at)

    def go_on(self, now, at):
        """The same command again, if its work is not done yet, and then a pack. Nothing but the pack is left."""
        if now == self.before:
            self.room.ok(*self.words)
        assert held(self.room) == self.after, f"after {at} the same command leaves {held(self.room)}"
        self.room.ok("pack", "--all", "--quiet", "d")
        assert held(self.room) == self.after and os.listdir(self.room.path("d")) == parts_of(self.room), f"after {at} a pack leaves {os.listdir(self.room.path('d'))}"
        assert len(parts_of(self.room)) == 1


def each_call_of_a_command_on_a_folder_fails_and_kills_and_nothing_is_lost(room):
    room.put("rows", b"8,80\n")
    room.ok("create", "v", "T", *COLUMNS)
    room.ok("import", "--no-header", "--batch", "5.1", "v", "-", given=b"5,50\n")
    make_starts(room)
    tried = []
    for words in COMMANDS:
        command, tries = Command(room, words), Tries(words)
        for ended in each_call(room, words, command.prepare):
            tries.add(ended)
            command.judge(ended)
        tries.tell()
        tried.append(tries)
    each_kind_was_tried(tried, "ftruncate")


TESTS = [each_call_of_a_command_on_a_folder_fails_and_kills_and_nothing_is_lost]
