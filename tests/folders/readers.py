"""A reader that lists a folder while packs put it together anew. A listing takes several calls of the system, and is not of one moment:
without the lock on the folder a reader can miss the pack, which came behind its place, and all that it was made of, which went before
its place. Then every listed part opens, and rows are missing without a word."""

import fcntl
import os
import re
import shutil
import subprocess
import tempfile
import threading
import time

from parts import make_folder, name_of, parts_of
from room import Lacking, Room

DELAY = 500_000
SHM = "/dev/shm"


def listed_newest_first(folder):
    """Whether a folder lists the names first that came last."""
    os.mkdir(folder)
    for at in range(20):
        with open(f"{folder}/{at}", "w"):
            pass
    return os.listdir(folder) == [str(at) for at in range(19, -1, -1)]


def fill(room, first, count):
    """So many names in the folder that are no parts and are as long as those of parts: a call of the system lists 64 of them."""
    for at in range(first, first + count):
        room.put(f"d/{at:038}", b"")


def packed(room, pack, gone, more=()):
    """Puts a pack into the folder and removes what it was made of, under the exclusive lock, as `lanes pack` does."""
    for data in (pack, *more):
        room.put(f"d/{name_of(data)}", data)
    lock = os.open(room.path("d"), os.O_RDONLY)
    fcntl.flock(lock, fcntl.LOCK_EX)
    for data in gone:
        os.remove(room.path(f"d/{name_of(data)}"))
    os.close(lock)


def calls_done(room):
    """How many calls that list the folder the reader has made."""
    if not os.path.exists(room.path("trace")):
        return 0
    return len(re.findall(r"getdents64\(.*\) += ", room.get("trace").decode()))


def wait_for(room, calls, reader):
    """Waits until the reader has made so many calls that list the folder."""
    while calls_done(room) < calls and reader.poll() is None:
        time.sleep(0.01)


def load(room, number):
    """The part of a load of two rows."""
    file = f"load{number}"
    room.ok("create", file, "T", "A", "SMALLINT", "B", "BIGINT")
    room.ok("import", "--no-header", "--batch", f"1.{number}", file, "-", given=f"{number},1\n{number},2\n".encode())
    return room.get(file)


def joined(room, number, *loads):
    """The part that has what these have."""
    names = []
    for at, data in enumerate(loads):
        names.append(f"in{number}-{at}")
        room.put(names[-1], data)
    room.ok("merge", f"out{number}", *names)
    return room.get(f"out{number}")


def rows_read_during_two_packs(room, is_locked):
    """How many rows a slow reader counts, in the middle of each of whose two listings a pack comes. All the time the folder holds at
    least four."""
    one, two, three = (load(room, number) for number in (1, 2, 3))
    first, second = joined(room, 1, one, two), joined(room, 2, one, two, three)
    make_folder(room, loads=0)
    for data in (one, two):
        room.put(f"d/{name_of(data)}", data)
    fill(room, 0, 150)
    options = ["-e", f"inject=getdents64:delay_enter={DELAY}"]
    if not is_locked:
        options += ["-e", "inject=flock:error=EOPNOTSUPP"]
    words = ["strace", "-o", "trace", "-e", "trace=getdents64,flock", *options, room.program, "query", "d", "SELECT COUNT(*) FROM T"]
    reader = subprocess.Popen(words, cwd=room.folder, stdout=subprocess.PIPE, stderr=subprocess.PIPE)

    def pack():
        wait_for(room, 1, reader)
        packed(room, first, (one, two), more=(three,))
        fill(room, 1000, 100)
        # The first listing has four calls: three with names, and one that finds no more.
        wait_for(room, 5, reader)
        packed(room, second, (first, three))

    packer = threading.Thread(target=pack)
    packer.start()
    out, err = reader.communicate(timeout=120)
    packer.join(timeout=120)
    if b"ptrace" in err or not os.path.exists(room.path("trace")):
        raise Lacking(f"strace can't trace: {err[-200:]!r}")
    assert reader.returncode == 0, f"the reader said {err!r}"
    assert parts_of(room) == sorted({name_of(second), *parts_of(room)})
    return int(out.split(b"\n")[1])


def in_memory(act):
    """Does something in a folder of a file system in memory."""
    if shutil.which("strace") is None:
        raise Lacking("strace is not installed")
    if not os.path.isdir(SHM):
        raise Lacking(f"there is no {SHM}")
    with tempfile.TemporaryDirectory(prefix="lanes-folders-", dir=SHM) as folder:
        if not listed_newest_first(f"{folder}/order"):
            raise Lacking(f"{SHM} does not list the newest name first")
        act(folder)


def a_reading_that_meets_packs_has_all_rows(room):
    def act(folder):
        rows = rows_read_during_two_packs(Room(room.program, folder), is_locked=True)
        assert rows in (4, 6), f"a reader counted {rows} rows of 4 or 6"

    in_memory(act)


def without_the_lock_that_reading_lacks_rows(room):
    def act(folder):
        rows = rows_read_during_two_packs(Room(room.program, folder), is_locked=False)
        assert rows == 0, f"a reader without the lock counted {rows} rows: the test above shows nothing"

    in_memory(act)


def a_part_that_is_gone_when_it_is_read_begins_the_listing_anew(room):
    if shutil.which("strace") is None:
        raise Lacking("strace is not installed")
    make_folder(room, loads=4)
    words = ["strace", "-o", "trace", "-e", "trace=getdents64,flock", "-e", "inject=flock:delay_exit=700000:when=2", room.program, "query", "d", "SELECT COUNT(*) FROM T"]
    reader = subprocess.Popen(words, cwd=room.folder, stdout=subprocess.PIPE, stderr=subprocess.PIPE)
    wait_for(room, 4, reader)
    room.ok("pack", "--all", "d")
    out, err = reader.communicate(timeout=120)
    if b"ptrace" in err or not os.path.exists(room.path("trace")):
        raise Lacking(f"strace can't trace: {err[-200:]!r}")
    assert out == b"COUNT(*)\n8\n", f"it wrote {out!r} and said {err!r}"


TESTS = [
    a_reading_that_meets_packs_has_all_rows,
    without_the_lock_that_reading_lacks_rows,
    a_part_that_is_gone_when_it_is_read_begins_the_listing_anew,
]
