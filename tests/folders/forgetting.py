"""What `lanes forget FOLDER` drops and keeps: beside the same in a file, in the order of its system calls, each of which fails or is its last
one, and beside loads, deletes, packs and other forgets, in whichever order they meet."""

import fcntl
import os
import random
import re
import shutil
import signal
import subprocess
import time

from parts import all_are_named, count, make_folder, name_of, parts_of
from putting import in_order, only_parts, stopped_at, traced
from replacing import as_nobody

PART = r"[0-9a-f]{32}\.lanes"
NOT_ON_DISK = b"refused WriteFault\nd: the joined part was added, but it could not be synced, so no part is removed\n"

#: The system calls by which a forget changes a folder.
CHANGES = ("openat", "write", "fsync", "flock", "link", "unlink")


def half_dead(room, folder="d"):
    """A new folder of four loads, of which two are deleted, and one row of another: what is alive, and the file that it forgets to."""
    shutil.rmtree(room.path(folder), ignore_errors=True)
    make_folder(room, folder, loads=4)
    room.ok("delete-rows", folder, "1.2", "0", "65535")
    room.ok("delete", folder, "A = 4 OR B = 4 OR A = 1")
    room.ok("merge", "--quiet", "--replace", "all", folder)
    room.ok("forget", "all", prints=b"ok batches=2 rows=4\n")
    return room.ok("dump", "--names", folder), room.get("all")


def a_folder_forgets_what_its_file_forgets(room):
    pick, dropped = random.Random(7), 0
    make_folder(room, loads=0)
    for turn in range(40):
        name = f"{pick.randrange(1, 4)}.{pick.randrange(1, 9)}"
        act = pick.randrange(4)
        if act == 0:
            rows = "".join(f"{pick.randrange(4)},{turn}\n" for _ in range(pick.randrange(1, 4))).encode()
            room.ok("import", "--no-header", "d", "-", given=rows)
        elif act == 1:
            room.run("import", "--no-header", "--batch", name, "d", "-", given=f"{turn % 4},{turn}\n".encode())
        elif act == 2:
            room.ok("delete", "d", f"A = {pick.randrange(4)}")
        else:
            room.ok("delete-rows", "d", name, "0", str(pick.choice([0, 1, 65_535])))
        if turn % 5 == 4:
            rows = room.ok("dump", "--names", "d")
            room.ok("merge", "--quiet", "--replace", "m", "d")
            said = room.ok("forget", "m")
            room.ok("forget", "d", prints=said)
            room.ok("merge", "--quiet", "--replace", "n", "d")
            assert room.get("m") == room.get("n") and room.ok("dump", "--names", "d") == rows
            batches = int(re.match(rb"ok batches=(\d+) ", said)[1])
            dropped += batches
            if batches:
                assert parts_of(room) == [name_of(room.get("m"))]
            only_parts(room)
            room.ok("forget", "d", prints=b"ok batches=0 rows=0\n")
    assert dropped > 5, f"only {dropped} batches were dropped"


def a_forget_without_dead_batches_changes_nothing_and_syncs_what_is_there(room):
    make_folder(room, loads=3)
    room.ok("delete", "d", "A = 2")
    before = parts_of(room)
    trace, status, err = traced(room, "forget", "d")
    assert (status, err) == (0, b"") and parts_of(room) == before, f"it said {err!r}"
    in_order(trace, [rf"fsync\(.*/d/{name}>\) += 0" for name in before] + [r"fsync\([0-9]+<[^>]*/d>\) += 0", r"write\(1<.*ok batches=0 rows=0"])
    assert "link" not in trace and "O_CREAT" not in trace and "LOCK_EX" not in trace
    said = b"d: nothing was added, but the parts or the folder could not be synced: a loss of power may take parts away\n"
    for when in (1, len(before) + 1):
        trace, status, err = traced(room, "forget", "d", options=("-e", f"inject=fsync:error=EIO:when={when}"))
        assert "INJECTED" in trace and (status, err) == (0, said), f"at {when} it said {err!r}"
    room.ok("forget", "--quiet", "d", prints=b"")
    assert parts_of(room) == before


def a_forget_is_on_the_disk_before_anything_is_removed_under_the_lock(room):
    rows, left = half_dead(room)
    before = parts_of(room)
    trace, status, err = traced(room, "forget", "d")
    assert (status, err) == (0, b""), f"it said {err!r}"
    in_order(
        trace,
        [
            r"flock\(.*/d>, LOCK_SH\|LOCK_NB\) += 0",
            r"write\(.*\.part-[0-9a-f]{16}>",
            r"fsync\(.*\.part-[0-9a-f]{16}>\) += 0",
            r"flock\(.*/d>, LOCK_EX\|LOCK_NB\) += 0",
            r"getdents64\(",
            rf"link.*\"d/\.part-[0-9a-f]{{16}}\".*\"d/{PART}\".* = 0",
            rf"openat\(.*\"d/{PART}\", O_RDONLY",
            rf"fsync\(.*/d/{PART}>\) += 0",
            r"fsync\([0-9]+<[^>]*/d>\) += 0",
            *[rf"unlink.*\"d/{name}\"" for name in before],
            r"fsync\([0-9]+<[^>]*/d>\) += 0",
            r"flock\(.*/d>, LOCK_UN\)",
            r"write\(1<.*ok batches=2 rows=4",
        ],
    )
    assert parts_of(room) == [name_of(left)] and room.ok("dump", "--names", "d") == rows
    assert trace.count(f"\"d/{name_of(left)}\", O_RDONLY") == 1, "the part is not synced by the handle that read it"
    only_parts(room)


def each_failed_call_of_a_forget_loses_nothing_and_is_told(room):
    """Each of its changing calls fails in turn. Nothing is removed before the new part is seen to be on the disk."""
    tried = 0
    for call, error in (("fsync", "EIO"), ("link", "EIO"), ("unlink", "EIO"), ("flock", "EIO"), ("write", "ENOSPC"), ("openat", "EMFILE"), ("getdents64", "EIO")):
        for when in range(1, 60):
            rows, left = half_dead(room)
            before = parts_of(room)
            trace, status, err = traced(room, "forget", "d", options=("-e", f"inject={call}:error={error}:when={when}"))
            if "INJECTED" not in trace:
                break
            tried += 1
            at = f"{call} {when}"
            now = parts_of(room)
            assert room.ok("dump", "--names", "d") == rows, f"at {at} the folder has other rows"
            all_are_named(room)
            if call == "fsync":
                assert status == 1 and err == (NOT_ON_DISK if 2 <= when <= 3 else b"refused WriteFault\nd: this can't be written\n"), f"at {at} it said {err!r}"
                assert set(now) == set(before) | {name_of(left)} if 2 <= when <= 3 else now in (before, [name_of(left)]), f"at {at} there are {now}"
            elif status:
                assert err.startswith((b"refused WriteFault\n", b"refused ReadFault\n", b"refused Busy\n")), f"at {at} it said {err!r}"
                assert set(before) <= set(now) or (call == "unlink" and name_of(left) in now) or now == [name_of(left)], f"at {at} there are {now}"
            else:
                assert now == [name_of(left)], f"at {at} it ended well, and there are {now}"
            room.ok("forget", "d")
            room.ok("merge", "--quiet", "--replace", "m", "d")
            assert room.get("m") == left and room.ok("dump", "--names", "d") == rows, f"after {at} the next forget leaves something else"
    print(f"each_failed_call_of_a_forget_loses_nothing_and_is_told: {tried} calls failed in turn")
    assert tried > 30, f"only {tried} calls were tried"


def a_forget_that_is_killed_at_each_call_loses_nothing(room):
    tried = 0
    for call in CHANGES:
        for when in range(1, 60):
            rows, left = half_dead(room)
            before = parts_of(room)
            trace, status, _ = traced(room, "forget", "d", options=("-e", f"inject={call}:signal=KILL:when={when}"))
            if "SIGKILL" not in trace:
                assert status == 0
                break
            tried += 1
            now = parts_of(room)
            assert set(before) <= set(now) or name_of(left) in now, f"killed at {call} {when} it left {now}"
            assert room.ok("dump", "--names", "d") == rows, f"killed at {call} {when} it left other rows"
            all_are_named(room)
            room.ok("forget", "d")
            room.ok("pack", "--all", "d")
            assert parts_of(room) == [name_of(left)] and room.ok("dump", "--names", "d") == rows
            only_parts(room)
    print(f"a_forget_that_is_killed_at_each_call_loses_nothing: it was killed {tried} times")
    assert tried > 30, f"it was only killed {tried} times"


def what_a_forget_dropped_a_pack_that_read_it_before_does_not_bring_back(room):
    rows, left = half_dead(room)
    # The pack has written what it joined, dead batches among it, and is stopped before it looks at the folder again.
    packing, process = stopped_at(room, "fsync", "pack", "--all", "d")
    room.ok("forget", "d", prints=b"ok batches=2 rows=4\n")
    room.ok("import", "--no-header", "--batch", "8.8", "d", "-", given=b"8,8\n")
    os.kill(process, signal.SIGCONT)
    out, err = packing.communicate(timeout=60)
    assert (packing.returncode, out, err) == (0, b"ok parts=1 packed=2\n", b""), f"it said {out!r} and {err!r}"
    room.ok("delete-rows", "d", "8.8", "0", "65535")
    room.ok("forget", "d", prints=b"ok batches=1 rows=1\n")
    assert room.ok("dump", "--names", "d") == rows
    only_parts(room)


def a_forget_that_meets_a_pack_a_load_and_a_delete_reads_anew_and_loses_nothing(room):
    for others, dropped in (((("pack", "--all"),), 2), ((("forget",),), 0), ((("import", "--no-header", "--batch", "8.8"), ("delete-rows",)), 2), ((("delete",), ("pack", "--all")), 3)):
        rows, _ = half_dead(room)
        forgetting, process = stopped_at(room, "fsync", "forget", "d")
        for words in others:
            rest = {"import": ("-",), "delete": ("A = 3 OR B = 3",), "delete-rows": ("8.8", "1", "1")}.get(words[0], ())
            room.ok(*words, "d", *rest, given=b"8,8\n8,8\n" if words[0] == "import" else b"")
        room.ok("merge", "--quiet", "--replace", "m", "d")
        now = room.ok("dump", "--names", "d")
        os.kill(process, signal.SIGCONT)
        out, err = forgetting.communicate(timeout=60)
        said = f"ok batches={dropped} rows={2 * dropped}\n".encode()
        assert (forgetting.returncode, out, err) == (0, said, b""), f"beside {others} it said {out!r} and {err!r}"
        assert room.ok("dump", "--names", "d") == now
        room.ok("forget", "--quiet", "m")
        room.ok("merge", "--quiet", "--replace", "n", "d")
        assert room.get("m") == room.get("n"), f"beside {others} it left dead batches"
        only_parts(room)
        os.remove(room.path("trace"))


def commands_that_meet_lose_nothing_in_any_order(room):
    """Each command that changes a folder beside a forget, both of which have read the folder before either changes it."""
    room.make("o", rows=b"")
    room.ok("import", "--no-header", "--batch", "7.1", "o", "-", given=b"70,71\n")
    room.put("rows", b"8,8\n")
    adds = (("import", "--no-header", "d", "rows"), ("import", "--no-header", "--batch", "8.8", "d", "rows"), ("delete", "d", "A = 3"), ("delete-rows", "d", "1.3", "0", "0"), ("apply", "d", "o"))
    for words in (*adds, ("pack", "d"), ("pack", "--all", "d"), ("forget", "d")):
        half_dead(room)
        # In a file the order makes no difference: the command, and then the forget.
        room.ok("merge", "--quiet", "--replace", "m", "d")
        drawn = "import" in words and "--batch" not in words
        if words in adds and not drawn:
            room.ok(*("m" if word == "d" else word for word in words))
        room.ok("forget", "m")
        lock = os.open(room.path("d"), os.O_RDONLY)
        fcntl.flock(lock, fcntl.LOCK_SH)
        pair = [room.start(*words), room.start("forget", "d")]
        time.sleep(0.3)
        os.close(lock)
        ended = [(one.wait(60), one.stderr.read()) for one in pair]
        assert ended == [(0, b""), (0, b"")], f"{words} and a forget ended so: {ended}"
        room.ok("forget", "d")
        room.ok("merge", "--quiet", "--replace", "n", "d")
        if drawn:
            assert count(room) == count(room, "m") + 1
        else:
            assert room.get("m") == room.get("n"), f"{words} and a forget left something else than one after the other"
        only_parts(room)


def what_was_dropped_comes_back_with_an_old_part_alone(room):
    rows, left = half_dead(room)
    old = {name: room.get("d/" + name) for name in parts_of(room)}
    room.ok("forget", "d", prints=b"ok batches=2 rows=4\n")
    room.ok("check", "d", prints=b"ok batches=2 ranges=3 parts=1 others=0\n")
    for name, data in old.items():
        room.put("d/" + name, data)
    room.ok("check", "d", prints=f"ok batches=4 ranges=3 parts={len(old) + 1} others=0\n".encode())
    assert room.ok("dump", "--names", "d") == rows
    room.ok("forget", "d", prints=b"ok batches=2 rows=4\n")
    assert parts_of(room) == [name_of(left)]
    # The name stays used up: a load of it comes in dead.
    room.ok("import", "--no-header", "--batch", "1.2", "d", "-", given=b"9,9\n", prints=b"ok batches=1 new=1 rows=1 first=1.2\n")
    assert room.ok("dump", "--names", "d") == rows


def a_forget_is_refused_as_other_commands_are(room):
    half_dead(room)
    before = parts_of(room)
    room.refused("forget", "none", line="refused ReadFault", sentence="none: no such file or folder")
    _, status, err = traced(room, "forget", "d", options=("-e", "inject=flock:error=EOPNOTSUPP"))
    assert status == 1 and err == b"refused WriteFault\nd: this folder can't be locked here, so that no part is removed from it\n", f"it said {err!r}"
    assert parts_of(room) == before
    only_parts(room)
    lock = os.open(room.path("d"), os.O_RDONLY)
    fcntl.flock(lock, fcntl.LOCK_SH)
    started = time.monotonic()
    room.refused("forget", "d", line="refused Busy", sentence="d: another command has had this folder for ten seconds")
    assert 9 < time.monotonic() - started < 30
    os.close(lock)
    assert parts_of(room) == before
    only_parts(room)
    os.mkdir(room.path("e"))
    room.refused("forget", "e", line="refused ReadFault", sentence="e: this folder holds no part")
    how = as_nobody(room)
    os.chmod(room.path("d"), 0o555)
    try:
        room.refused("forget", "d", line="refused WriteFault", sentence="d: permission denied: this may not be written", **how)
    finally:
        os.chmod(room.path("d"), 0o755)
    assert parts_of(room) == before


TESTS = [
    a_folder_forgets_what_its_file_forgets,
    a_forget_without_dead_batches_changes_nothing_and_syncs_what_is_there,
    a_forget_is_on_the_disk_before_anything_is_removed_under_the_lock,
    each_failed_call_of_a_forget_loses_nothing_and_is_told,
    a_forget_that_is_killed_at_each_call_loses_nothing,
    what_a_forget_dropped_a_pack_that_read_it_before_does_not_bring_back,
    a_forget_that_meets_a_pack_a_load_and_a_delete_reads_anew_and_loses_nothing,
    commands_that_meet_lose_nothing_in_any_order,
    what_was_dropped_comes_back_with_an_old_part_alone,
    a_forget_is_refused_as_other_commands_are,
]
