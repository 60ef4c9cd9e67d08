"""Ends of commands that were made up, each of which the judges of these tests refuse."""

import os

import pairs
from folder_calls import Command, make_starts
from injecting import is_end_refused, wrong_program
from ledger import Ledger, values_of
from parts import make_folder, parts_of
from storm import Storm, rows_text
from turns import PUTS, READS, RELIES, Process, has_done


#: A pack that drops a row.
PACK = """
if [ "$1" = pack ]; then
    lanes delete d 'A = 4'
fi"""


def fault_of(judge, *words):
    """What a judge says is wrong, or nothing."""
    try:
        judge(*words)
    except AssertionError as fault:
        return str(fault)
    return ""


def is_refused(judge, *words):
    """Whether a judge says that something is wrong."""
    return bool(fault_of(judge, *words))


def an_end_of_a_command_that_is_wrong_is_refused(room):
    """Of an import: what it said, and whether its rows are there."""
    room.put("rows", b"8,80\n")
    make_starts(room)
    command = Command(room, ("import", "--no-header", "--batch", "8.8", "d", "rows"))

    ok, unsynced, fault = b"ok batches=1 new=1 rows=1\n", b"d: this is there, but it could not be synced\n", b"refused WriteFault\nd: no room\n"
    for wrong in (
        ("write", False, 0, ok, b"", False),
        ("write", True, -9, ok, b"", False),
        ("fsync", False, 0, ok, b"", True),
        ("fsync", False, 0, ok, unsynced, False),
        ("write", False, 0, b"", b"", True),
        ("write", False, 1, b"", fault, True),
        ("write", False, 1, b"", b"refused Conflict\n8.8\n", False),
        ("write", False, 1, b"", b"refused Damaged\nd\n", False),
        ("write", False, 1, b"", b"refused WriteFault\nlanes import d: standard output: no room\n", False),
        ("write", False, 1, b"", fault, False, f"d/.part-{'0' * 16}"),
        ("write", True, -9, b"", b"", False, "d/notes"),
    ):
        assert is_end_refused(command, *wrong), f"{wrong} is not refused"
    for right in (
        ("write", True, -9, b"", b"", False),
        ("write", True, -9, ok, b"", True),
        ("write", False, 1, b"", fault, False),
        ("fsync", False, 0, ok, unsynced, True),
        ("write", False, 1, b"", b"refused WriteFault\nlanes import d: standard output: no room\n", True),
        ("write", True, -9, b"", b"", False, f"d/.part-{'0' * 16}"),
    ):
        assert not is_end_refused(command, *right), f"{right} is refused"


def a_command_that_does_its_work_twice_when_it_is_sent_again_is_refused(room):
    room.put("rows", b"8,80\n")
    make_starts(room)
    command = Command(room, ("import", "--no-header", "--batch", "8.8", "d", "rows"))
    for more, fault in ((), ""), (("import", "--no-header", "--batch", "8.9", "d", "rows"), "the same command leaves"):
        command.prepare()
        for words in (command.words, more)[: 1 + bool(more)]:
            room.ok(*words)
        found = fault_of(command.go_on, command.after, "a call")
        assert found.startswith(f"after a call {fault}" if fault else "") and bool(found) == bool(fault), f"{more}: {found}"


def two_commands_that_end_as_in_no_order_are_refused(room):
    """The ends are right, and a row is lost, or comes twice; or a command is refused as it is in no order."""
    pairs.put_inputs(room)
    pair = (("import", "--no-header", "--batch", "8.8", "d", "rows"), ("delete", "d", "A = 3 OR A = 8"))
    ends = pairs.in_turn(room, pair)
    first, second, _ = next(iter(ends))
    ok = (0, b"")
    for more, said, is_right in (
        ((), (first, second), True),
        ((("delete", "d", "A = 4"),), (first, second), False),
        ((("import", "--no-header", "--batch", "8.9", "d", "others"),), (first, second), False),
        ((), ((1, b"refused Busy"), second), False),
        ((), (first, (1, b"refused Conflict 8.8: other rows")), False),
    ):
        pairs.begin(room)
        for words in (*pair, *more):
            room.ok(*words)
        found = (*said, pairs.rows_of(room))
        assert is_refused(pairs.judge, room, pair, found, ends) != is_right, f"{more}, {said}"
    # What an order ends with is still no refusal but of a conflict.
    wrong = ((1, b"refused Damaged"), ok, pairs.rows_of(room))
    assert is_refused(pairs.judge, room, pair, wrong, {wrong}), wrong


def a_pack_that_drops_a_row_after_two_commands_is_refused(room):
    wrong = wrong_program(room, PACK)
    pairs.put_inputs(wrong)
    pair = (("import", "--no-header", "--batch", "8.8", "d", "rows"), ("delete", "d", "A = 3"))
    ends = pairs.in_turn(wrong, pair)
    assert is_refused(pairs.judge, wrong, pair, next(iter(ends)), ends), "a row that a pack drops is not seen"


def a_part_that_was_made_and_is_not_on_the_disk_is_refused(_room):
    one, two, three = (digit * 32 + ".lanes" for digit in "123")
    process = Process()
    process.stored, process.kept = [one], {one}
    for what, before, after in (PUTS, set(), {one, two}), (PUTS, {three}, {two, three}), (READS, {one}, {one, two}), (RELIES, {one, two}, {one, two}), (RELIES, set(), {one}):
        assert is_refused(has_done, what, "", process, before, after), f"{what}, {before}, {after}"
    for what, before, after in (PUTS, set(), {one}), (PUTS, {two, three}, {one}), (READS, {two}, {two}), (RELIES, {one}, {one}):
        assert not is_refused(has_done, what, "", process, before, after), f"{what}, {before}, {after}"
    assert is_refused(has_done, PUTS, "", Process(), set(), set()), "a command that stores nothing"


def a_storm_has_each_fault_of_what_is_said_and_read(room):
    """A program is refused as it may not be, or a reading lacks a load that was answered."""
    make_folder(room, loads=0)
    for said, is_fault in (b"refused Damaged", True), (b"refused Conflict", True), (b"refused WriteFault", True), (b"error: no such command", True), (b"refused Busy", False):
        room.put("program", b"#!/bin/sh\necho '" + said + b"' >&2\nexit 1\n")
        os.chmod(room.path("program"), 0o755)
        wrong = type(room)(room.path("program"), room.folder)
        storm = Storm(wrong, seconds=0.2)
        storm.pack(0)
        assert bool(storm.faults) == is_fault, f"{said}: {storm.faults}"
    storm, ledger = Storm(room, seconds=1), Ledger()
    ledger.note(begun=[7], answered=[7])
    storm.ledger = ledger
    storm.read(0)
    assert storm.faults, "a load that was answered and is not there is not seen"
    assert parts_of(room) and values_of(7)


def a_storm_sees_rows_that_nobody_loaded(room):
    """Both readings see them, the one that counts and the one that reads the rows."""
    make_folder(room, loads=0)
    room.ok("import", "--no-header", "d", "-", given=rows_text(7))
    seen = set()
    for reader in range(20):
        storm = Storm(room, seconds=1)
        storm.read(reader)
        seen |= {fault.split(" ")[2] for fault in storm.faults[:1]}
    assert len(seen) == 2 and "counts" in seen, seen


TESTS = [
    an_end_of_a_command_that_is_wrong_is_refused,
    a_command_that_does_its_work_twice_when_it_is_sent_again_is_refused,
    two_commands_that_end_as_in_no_order_are_refused,
    a_pack_that_drops_a_row_after_two_commands_is_refused,
    a_part_that_was_made_and_is_not_on_the_disk_is_refused,
    a_storm_has_each_fault_of_what_is_said_and_read,
    a_storm_sees_rows_that_nobody_loaded,
]
