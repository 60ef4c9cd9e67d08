"""Each command's system calls on what is in a folder keep to the protocol: the rules of crates/folder_model/specs/Turn.antt, read off strace.

Of a call on a folder the protocol knows: made, wrote, synced, linked, removed, settled, locked, unlocked, began, listed, read and looked. A
look at a name opens its file as a read does, so it is taken for one here. What the protocol says of the order of covering can't be seen in a
trace; that a removed part was read, and another one guarded, can."""

import os
import re
import shutil
import signal
import subprocess
import time

from parts import PART, all_are_named, count, make_folder, parts_of
from putting import CALLS, in_order, only_parts, traced
from room import Lacking

LINE = re.compile(r"^\d+ +(\w+)\((.*)\) += (-?\d+)(?:<([^>]*)>)?(.*)$", re.M)
QUOTED = re.compile(r'"([^"]*)"')
OPENED = re.compile(r"^\d+<([^>]*?)(?: \(deleted\))?>")
TEMPORARY = re.compile(r"\.part-[0-9a-f]{16}")


class OutOfTurn(AssertionError):
    """A call that the protocol does not have at its place."""


class Process:
    """How far a process is with its open file, by its calls, as `stage_of` says it; its lock, and what it has read."""

    def __init__(self):
        self.stage, self.name, self.lock = "idle", None, None
        self.read, self.stored, self.synced, self.kept = set(), [], set(), set()

    def wants(self, holds, call):
        if not holds:
            raise OutOfTurn(f"{call} at stage {self.stage} of {self.name}, with lock {self.lock}")

    def made(self, name, ok):
        self.wants(TEMPORARY.fullmatch(name), f"made {name}")
        self.stage, self.name = ("filled", name) if ok else ("idle", None)

    def wrote(self, name, ok):
        self.wants((self.stage, self.name) == ("filled", name), f"wrote {name}")
        if not ok:
            self.stage = "idle"

    def synced_file(self, name, ok):
        self.wants(self.name == name, f"synced {name}")
        if not ok:
            self.stage = "idle"
        elif self.stage == "seen":
            self.stage = "whole"
            self.synced.add(name)
        elif self.stage == "filled":
            self.stage = "ready"

    def linked(self, first, second, answer):
        self.wants((self.stage, self.name) == ("ready", first) and PART.fullmatch(second), f"linked {first} {second}")
        if answer == "done":
            self.stage, self.name = "placed", second
        elif answer == "failed":
            self.stage = "idle"

    def removed(self, name):
        guarded = self.stage == "guarded" and name in self.read and name != self.name
        self.wants(not PART.fullmatch(name) or guarded, f"removed {name}")

    def settled(self, ok):
        if not ok:
            self.stage = "idle"
        elif self.stage == "placed":
            self.stage = "stored"
            self.stored.append(self.name)
        elif self.stage == "whole":
            self.stage = "guarded" if self.lock == "exclusive" else "stored"
            self.stored.append(self.name)
        if ok:
            self.kept |= self.synced

    def locks(self, kind):
        self.lock = kind
        self.stage = {"seen": "idle", "whole": "placed", "guarded": "stored"}.get(self.stage, self.stage)

    def began(self):
        self.wants(self.lock, "a listing began")

    def reads(self, name, ok):
        self.stage, self.name = ("seen", name) if ok else ("idle", None)
        if ok:
            self.read.add(name)


def within(room, path, folder):
    """The name of a path in the folder, "." for the folder itself; None if it is elsewhere."""
    top = os.path.realpath(room.path(folder))
    path = os.path.normpath(os.path.join(os.path.realpath(room.folder), path))
    if path == top:
        return "."
    return os.path.basename(path) if os.path.dirname(path) == top else None


def note(process, call, names, opened, ok, words):
    """Notes one call of the system; its names are those in the folder."""
    if call == "openat" and names and names[0] not in (None, "."):
        if "O_CREAT" in words:
            process.made(names[0], ok)
        elif PART.fullmatch(names[0]):
            process.reads(names[0], ok)
    elif call == "write" and opened not in (None, "."):
        process.wrote(opened, ok)
    elif call == "fsync" and opened is not None:
        process.settled(ok) if opened == "." else process.synced_file(opened, ok)
    elif call in ("link", "linkat") and names[-1] is not None:
        process.linked(names[0], names[-1], "done" if ok else "taken" if "EEXIST" in words else "failed")
    elif call in ("unlink", "unlinkat") and names[0] is not None:
        process.removed(names[0])
    elif call.startswith("rename") and any(name not in (None, ".") for name in names):
        process.wants(False, f"renamed {names}")
    elif call == "flock" and opened == ".":
        process.locks(None if "LOCK_UN" in words or not ok else "exclusive" if "LOCK_EX" in words else "shared")
    elif call == "getdents64" and opened == ".":
        process.began()


def follow(room, trace, folder="d"):
    """The process that made these calls, each of which is in turn."""
    process = Process()
    for call, words, answer, _, rest in LINE.findall(trace):
        names = [within(room, path, folder) for path in QUOTED.findall(words)] if call not in ("write", "getdents64") else []
        held = OPENED.match(words)
        opened = within(room, held[1], folder) if held else None
        note(process, call, names, opened, int(answer) >= 0, words + rest)
    return process


def offered(room):
    room.ok("create", "one", "T", "A", "SMALLINT", "B", "BIGINT")
    room.ok("import", "--no-header", "--batch", "7.1", "one", "-", given=b"1,1\n")


# Commands one after another on one folder; whether each puts a part, relies on parts that are there, or only reads.
PUTS, RELIES, READS = "puts", "relies", "reads"
COMMANDS = (
    (READS, ("query", "d", "SELECT COUNT(*) FROM T")),
    (READS, ("check", "d")),
    (READS, ("inspect", "d")),
    (READS, ("dump", "d")),
    (READS, ("summary", "d")),
    (READS, ("merge", "out", "d")),
    (PUTS, ("import", "--no-header", "d", "-")),
    (PUTS, ("import", "--no-header", "--batch", "8.8", "d", "-")),
    (RELIES, ("import", "--no-header", "--batch", "8.8", "d", "-")),
    (PUTS, ("apply", "d", "one")),
    (RELIES, ("apply", "d", "one")),
    (PUTS, ("delete", "d", "A = 8")),
    (RELIES, ("delete", "d", "A = 30000")),
    (PUTS, ("delete-rows", "d", "7.1", "0", "0")),
    (PUTS, ("pack", "d")),
    (PUTS, ("forget", "d")),
    (RELIES, ("forget", "d")),
    (PUTS, ("pack", "--all", "d")),
)


def has_done(what, words, process, before, after):
    """A command of a kind has made of the parts before it those after it, and what it answers is on the disk."""
    if what == PUTS:
        # What came is on the disk once the command has answered, and was before anything went.
        assert process.stored and after - before <= set(process.stored), f"{words} stored {process.stored} and made {after - before}"
    else:
        assert before == after, f"{words} changed {before ^ after}"
    if what == RELIES:
        assert process.kept >= after, f"{words} did not sync {after - process.kept}"


def each_call_of_each_command_is_in_turn(room):
    make_folder(room, loads=9)
    offered(room)
    for what, words in COMMANDS:
        if words[0] == "pack" and words[1] != "d":
            room.ok("import", "--no-header", "d", "-", given=b"9,9\n")
        before = set(parts_of(room))
        trace, status, err = traced(room, *words, given=b"8,8\n")
        assert status == 0, f"{words} said {err!r}"
        try:
            process = follow(room, trace)
        except OutOfTurn as fault:
            raise AssertionError(f"{words}: {fault} in\n{trace[-2000:]}") from fault
        after = set(parts_of(room))
        has_done(what, words, process, before, after)
        all_are_named(room)
        only_parts(room)


def each_call_in_a_folder_that_is_made_is_in_turn(room):
    make_folder(room, loads=3)
    for words, folder in ((("create", "n/", "T", "A", "SMALLINT"), "n"), (("merge", "m/", "d"), "m"), (("spread", "d", "s/", "u"), "s")):
        trace, status, err = traced(room, *words)
        new = re.search(rf'"\./(\.{folder}\.lanes-new-[0-9a-f]{{16}})"', trace)
        assert status == 0 and new, f"{words} said {err!r}"
        try:
            process = follow(room, trace, new[1])
        except OutOfTurn as fault:
            raise AssertionError(f"{words}: {fault} in\n{trace[-2000:]}") from fault
        assert process.stored == parts_of(room, folder) and len(process.stored) == 1, f"{words} stored {process.stored}"
        only_parts(room, folder)


def a_part_that_came_meanwhile_is_judged_and_then_the_part_is_put(room):
    make_folder(room)
    offered(room)
    if shutil.which("strace") is None:
        raise Lacking("strace is not installed")
    # It is stopped when it has synced its temporary.
    words = ["strace", "-f", "-y", "-o", "trace", "-e", f"trace={CALLS}", "-e", "inject=fsync:signal=STOP:when=1", room.program, "apply", "d", "one"]
    waiting = subprocess.Popen(words, cwd=room.folder, stdin=subprocess.DEVNULL, stdout=subprocess.PIPE, stderr=subprocess.PIPE)
    deadline = time.monotonic() + 20
    while "stopped by SIGSTOP" not in (room.get("trace").decode() if os.path.exists(room.path("trace")) else ""):
        assert time.monotonic() < deadline and waiting.poll() is None, f"it was not stopped: {waiting.stderr.read()!r}"
        time.sleep(0.02)
    room.ok("import", "--no-header", "d", "-", given=b"5,5\n")
    os.kill(int(room.get("trace").split()[0]), signal.SIGCONT)
    out, err = waiting.communicate(timeout=60)
    assert (waiting.returncode, out, err) == (0, b"ok batches=2 ranges=0 new=1\n", b""), f"it said {out!r} {err!r}"
    trace = room.get("trace").decode()
    try:
        follow(room, trace)
    except OutOfTurn as fault:
        raise AssertionError(f"{fault} in\n{trace[-2000:]}") from fault
    locked, free, part = r"flock\(.*/d>, LOCK_EX\|LOCK_NB\) += 0", r"flock\(.*/d>, LOCK_UN\)", r"openat\(.*\"d/[0-9a-f]{32}\.lanes\", O_RDONLY"
    in_order(trace, (r"SIGSTOP", locked, r"getdents64\(", r"unlink.*\.part-", free, part, r"O_CREAT", locked, r"link.*\.lanes\".* = 0", free))
    assert count(room) == 4
    only_parts(room)


# Histories that the protocol does not have: the rules are seen to refuse.
PART_NAME = "0" * 32 + ".lanes"
OTHER_NAME = "1" * 32 + ".lanes"
WRONG = (
    ("a listing without the lock", (("began",),)),
    ("a link of a file that is not synced", (("made", ".part-" + "0" * 16, True), ("linked", ".part-" + "0" * 16, PART_NAME, "done"))),
    ("a removal without the look", (("reads", OTHER_NAME, True), ("locks", "exclusive"), ("removed", OTHER_NAME))),
    ("a removal without the lock", (("reads", OTHER_NAME, True), ("reads", PART_NAME, True), ("synced_file", PART_NAME, True), ("settled", True), ("removed", OTHER_NAME))),
    (
        "a removal after a failed settle",
        (("reads", OTHER_NAME, True), ("locks", "exclusive"), ("reads", PART_NAME, True), ("synced_file", PART_NAME, True), ("settled", False), ("removed", OTHER_NAME)),
    ),
    (
        "a removal of what was not read",
        (("locks", "exclusive"), ("reads", PART_NAME, True), ("synced_file", PART_NAME, True), ("settled", True), ("removed", OTHER_NAME)),
    ),
    (
        "a removal of the part that was put",
        (
            ("made", ".part-" + "0" * 16, True),
            ("wrote", ".part-" + "0" * 16, True),
            ("synced_file", ".part-" + "0" * 16, True),
            ("locks", "exclusive"),
            ("linked", ".part-" + "0" * 16, PART_NAME, "done"),
            ("reads", PART_NAME, True),
            ("synced_file", PART_NAME, True),
            ("settled", True),
            ("removed", PART_NAME),
        ),
    ),
    ("a write to another file", (("made", ".part-" + "0" * 16, True), ("wrote", PART_NAME, True))),
)


def the_rules_refuse_what_the_protocol_does_not_have(_room):
    for said, calls in WRONG:
        process = Process()
        for at, (call, *words) in enumerate(calls):
            try:
                getattr(process, call)(*words)
                assert at + 1 < len(calls), f"{said} is in turn"
            except OutOfTurn:
                assert at + 1 == len(calls), f"{said}: refused too early, at {call}"


TESTS = [
    each_call_of_each_command_is_in_turn,
    each_call_in_a_folder_that_is_made_is_in_turn,
    a_part_that_came_meanwhile_is_judged_and_then_the_part_is_put,
    the_rules_refuse_what_the_protocol_does_not_have,
]
