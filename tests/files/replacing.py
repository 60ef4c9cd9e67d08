"""How a file is replaced: whole, with its mode, through links, in an order of system calls that no crash can spoil, or not at all."""

import fcntl
import os
import random
import re
import resource
import shutil
import signal
import stat
import subprocess
import time

from room import Lacking, rows_text

LOCK = ".t.lanes-lock"
NOBODY = 65_534
TOO_LARGE = "t: the file would be larger than is allowed"
NO_NEW_FILE = "t: permission denied: the folder that it is in may not be written, and a file is replaced whole"


def as_nobody(room):
    """How a command is run without root's rights, from a copy of the program that anybody may run."""
    if os.getuid() != 0:
        return {}
    shutil.copy(room.program, room.path("program"))
    os.chmod(room.path("program"), 0o755)
    room.program = room.path("program")
    os.chown(room.folder, NOBODY, NOBODY)
    return {"user": NOBODY, "group": NOBODY, "extra_groups": []}


def a_change_that_changes_nothing_leaves_the_file_and_no_lock(room):
    room.make()
    before = os.stat(room.path("t"))
    room.ok("delete", "t", "A = 7", prints=b"ok 0\n")
    room.ok("import", "--no-header", "--batch", "1.1", "t", "-", given=b"1,10\n2,20\n,30\n", prints=b"ok batches=1 new=0 rows=3 first=1.1\n")
    room.ok("import", "--no-header", "--batch", "0.0", "t", "-", prints=b"ok batches=0 new=0 rows=0\n")
    room.ok("apply", "t", "t", prints=b"ok batches=1 ranges=0 new=0\n")
    room.ok("delete-rows", "t", "5.5", "1", "2", prints=b"ok\n")
    changed = os.stat(room.path("t"))
    room.ok("delete-rows", "t", "5.5", "1", "2", prints=b"ok\n")
    room.ok("forget", "t", prints=b"ok batches=0 rows=0\n")
    after = os.stat(room.path("t"))
    assert before.st_ino != changed.st_ino and changed.st_ino == after.st_ino and changed.st_mtime_ns == after.st_mtime_ns
    room.only("t")


def a_refusal_leaves_the_file_and_no_lock(room):
    held = room.make()
    room.refused("delete", "t", "A = ", line="refused Syntax 4")
    room.refused("delete-rows", "t", "1.1", "2", "1", line="refused BadRange 0", sentence="t: the range ends before it starts")
    room.refused("import", "--no-header", "--batch", "1.1", "t", "-", given=b"1,10\n", line="refused Conflict 1.1", sentence="t: this has batch 1.1 already, with other rows")
    room.refused("import", "--no-header", "--batch", "0.1", "t", "-", given=b"1,10\n", line="refused BadName")
    room.refused("import", "--no-header", "--batch", "1.4294967295", "t", "-", given=rows_text(65_537), line="refused NumbersSpent")
    room.refused("apply", "t", "-", given=b"junk", line="refused BadMagic", sentence="lanes apply t: standard input: this is a text file, not a lanes file: import CSV with lanes import, run a script with lanes run")
    room.refused("create", "t", "T", "A", "SMALLINT", line="refused Exists", sentence="t: there is a file of this name already")
    assert room.get("t") == held
    room.only("t")


def a_refused_create_makes_nothing(room):
    room.refused("create", "t", "1T", "A", "SMALLINT", line="refused BadSchema")
    room.refused("create", "none/t", "T", "A", "SMALLINT", line="refused WriteFault", sentence="none/t: there is no such folder")
    room.refused("create", "none/t", "SELECT", "A", "SMALLINT", line="refused BadSchema")
    os.symlink("nowhere", room.path("link"))
    room.refused("create", "link", "T", "A", "SMALLINT", line="refused Exists")
    room.only("link")


def the_mode_is_kept(room):
    for mode in (0o600, 0o640, 0o664, 0o444):
        room.make()
        os.chmod(room.path("t"), mode)
        room.ok("import", "--no-header", "t", "-", given=b"3,40\n")
        found = stat.S_IMODE(os.stat(room.path("t")).st_mode)
        assert found == mode, f"the mode is {found:o}, not {mode:o}"
        os.remove(room.path("t"))


def a_new_file_has_the_usual_mode(room):
    room.ok("create", "t", "T", "A", "SMALLINT", umask=0o027)
    assert stat.S_IMODE(os.stat(room.path("t")).st_mode) == 0o640


def a_symbolic_link_stays_one(room):
    os.mkdir(room.path("real"))
    room.make("real/t")
    os.symlink("real/t", room.path("link"))
    room.ok("import", "--no-header", "link", "-", given=b"3,40\n")
    assert os.readlink(room.path("link")) == "real/t" and os.listdir(room.path("real")) == ["t"]
    room.ok("check", "real/t", prints=b"ok batches=2 ranges=0\n")
    room.ok("merge", "link", "link", prints=b"ok\n")
    assert os.path.islink(room.path("link"))
    room.only("link", "real")


def taken(room, lock):
    """A lock that this test has, as a file."""
    file = open(room.path(lock), "wb")
    fcntl.flock(file, fcntl.LOCK_EX)
    return file


def a_link_that_is_switched_while_a_command_waits_loses_nothing(room):
    for words, given in ((("import", "--no-header", "--batch", "9.1", "link", "-"), b"9,9\n"), (("merge", "link", "link", "more"), b"")):
        room.make("t")
        room.ok("create", "u", "T", "A", "SMALLINT", "B", "BIGINT")
        room.ok("import", "--no-header", "--batch", "2.1", "u", "-", given=b"2,2\n")
        room.ok("create", "more", "T", "A", "SMALLINT", "B", "BIGINT")
        room.ok("import", "--no-header", "--batch", "9.1", "more", "-", given=b"9,9\n")
        other = room.get("u")
        os.symlink("t", room.path("link"))
        with taken(room, LOCK):
            with room.start(*words, stdin=subprocess.PIPE) as waiting:
                waiting.stdin.write(given)
                waiting.stdin.close()
                time.sleep(0.7)
                os.symlink("u", room.path("new"))
                os.rename(room.path("new"), room.path("link"))
                os.remove(room.path(LOCK))
                assert waiting.wait(60) == 0, f"it said {waiting.stderr.read()!r}"
        assert room.get("u") == other
        room.ok("query", "t", "SELECT COUNT(*),SUM(A) FROM T", prints=b"COUNT(*),SUM(A)\n4,12\n")
        for name in room.names():
            os.remove(room.path(name))


def a_hard_link_to_the_file_that_has_the_locks_name_is_no_lock(room):
    held = room.make()
    os.link(room.path("t"), room.path(LOCK))
    room.ok("delete", "t", "A = 7", prints=b"ok 0\n")
    assert room.get("t") == held
    os.link(room.path("t"), room.path(LOCK))
    room.refused("delete", "t", "A = ", line="refused Syntax 4")
    assert room.get("t") == held
    os.link(room.path("t"), room.path(LOCK))
    room.ok("import", "--no-header", "--batch", "2.1", "t", "-", given=b"3,40\n")
    room.ok("check", "t", prints=b"ok batches=2 ranges=0\n")
    room.only("t")


def what_is_no_lock_and_has_its_name_is_told_by_name(room):
    held = room.make()
    sentence = f"{room.path(LOCK)}: this is in the way: the lock of the file has this name, and this is no lock that can be taken"
    os.symlink("elsewhere", room.path(LOCK))
    room.refused("delete", "t", "A = 1", line="refused WriteFault", sentence=sentence)
    room.refused("delete", "t", "A = ", line="refused Syntax 4")
    room.only(LOCK, "t")
    room.put("elsewhere", b"something")
    room.refused("delete", "t", "A = 1", line="refused WriteFault", sentence=sentence)
    assert room.get("elsewhere") == b"something"
    os.remove(room.path(LOCK))
    os.mkdir(room.path(LOCK))
    room.refused("delete", "t", "A = 1", line="refused WriteFault", sentence=sentence)
    assert room.get("t") == held


def a_lock_that_another_user_left_is_replaced(room):
    if os.getuid() != 0:
        raise Lacking("only root has another user's rights")
    how = as_nobody(room)
    room.ok("create", "t", "T", "A", "SMALLINT", **how)
    for mode in (0o666, 0o644, 0o600, 0o222):
        room.put(LOCK, b"left")
        os.chmod(room.path(LOCK), mode)
        if mode == 0o600:
            room.refused("delete", "t", "A = 1", line="refused WriteFault", **how)
            os.remove(room.path(LOCK))
        else:
            room.ok("import", "--no-header", "t", "-", given=b"3\n", **how)
            assert not os.path.exists(room.path(LOCK)) and os.stat(room.path("t")).st_uid == NOBODY


def another_hard_link_keeps_the_old_file(room):
    held = room.make()
    os.link(room.path("t"), room.path("other"))
    room.ok("import", "--no-header", "t", "-", given=b"3,40\n")
    assert room.get("other") == held and room.get("t") != held


def a_lock_that_a_crash_left_is_taken(room):
    for left in (b"", b"x" * 3_000_000):
        room.make()
        room.put(LOCK, left)
        room.ok("import", "--no-header", "--batch", "2.1", "t", "-", given=b"3,40\n", prints=b"ok batches=1 new=1 rows=1 first=2.1\n")
        room.ok("check", "t", prints=b"ok batches=2 ranges=0\n")
        room.only("t")
        os.remove(room.path("t"))


def a_lock_that_may_not_be_written_is_taken_too(room):
    how = as_nobody(room)
    room.ok("create", "t", "T", "A", "SMALLINT", **how)
    room.put(LOCK, b"left")
    if how:
        os.chown(room.path(LOCK), NOBODY, NOBODY)
    os.chmod(room.path(LOCK), 0o444)
    room.ok("import", "--no-header", "t", "-", given=b"3\n", **how)
    assert not os.path.exists(room.path(LOCK))


def a_folder_without_the_right_to_write_is_a_failed_write(room):
    how = as_nobody(room)
    room.ok("create", "t", "T", "A", "SMALLINT", **how)
    held = room.get("t")
    os.chmod(room.folder, 0o555)
    try:
        room.refused("import", "--no-header", "t", "-", given=b"3\n", line="refused WriteFault", sentence=NO_NEW_FILE, **how)
        room.refused("import", "--no-header", "--batch", "0.1", "t", "-", given=b"3\n", line="refused BadName", **how)
        room.refused("delete", "t", "A = 7", line="refused WriteFault", sentence=NO_NEW_FILE, **how)
        room.refused("forget", "t", line="refused WriteFault", sentence=NO_NEW_FILE, **how)
        room.refused("merge", "t", "t", line="refused WriteFault", sentence=NO_NEW_FILE, **how)
        room.refused("create", "u", "T", "A", "SMALLINT", line="refused WriteFault", sentence=NO_NEW_FILE.replace("t", "u", 1), **how)
        room.refused("delete", "t", "A", line="refused Syntax 1", **how)
    finally:
        os.chmod(room.folder, 0o755)
    assert room.get("t") == held


def a_folder_that_can_not_be_opened_is_a_failed_write_before_the_file_is_replaced(room):
    how = as_nobody(room)
    room.ok("create", "t", "T", "A", "SMALLINT", **how)
    held = room.get("t")
    os.chmod(room.folder, 0o300)
    try:
        if how:
            for _ in range(2):
                room.refused("import", "--no-header", "--batch", "1.1", "t", "-", given=b"3\n", line="refused WriteFault", sentence="t: permission denied: this may not be written", **how)
    finally:
        os.chmod(room.folder, 0o755)
    assert room.get("t") == held and not os.path.exists(room.path(LOCK))


def a_file_that_may_not_be_read_is_a_failed_read(room):
    how = as_nobody(room)
    room.ok("create", "t", "T", "A", "SMALLINT", **how)
    os.chmod(room.path("t"), 0)
    room.refused("dump", "t", line="refused ReadFault", sentence="t: permission denied: this may not be read", **how)


def a_file_that_may_not_be_written_is_a_failed_write(room):
    how = as_nobody(room)
    held = room.make()
    room.make("more", rows=b"")
    room.ok("import", "--no-header", "--batch", "2.1", "more", "-", given=b"3,40\n")
    room.put("empty", b"")
    os.mkdir(room.path("other"))
    room.put("other/t", held)
    for path in ("t", "more", "empty", "other/t"):
        os.chmod(room.path(path), 0o444)
    there = room.names()
    denied = "permission denied: this may not be written"
    for words in (
        ("import", "--no-header", "--batch", "3.1", "t", "-"),
        ("delete", "t", "A = 1"),
        ("delete-rows", "t", "1.1", "0", "0"),
        ("delete-rows", "--held", "t", "1.1", "0", "0"),
        ("apply", "t", "more"),
        ("merge", "--replace", "t", "more"),
        ("merge", "t", "t", "more"),
    ):
        room.refused(*words, given=b"3,40\n", line="refused WriteFault", sentence=f"t: {denied}", **how)
        assert room.get("t") == held and room.names() == there, f"{words} left {room.names()}"
    # The faults of the command and of its other inputs come first.
    room.refused("import", "--no-header", "t", "-", given=b"x,1\n", line="refused BadCsv 1 1", **how)
    room.refused("import", "--no-header", "--batch", "1.1", "t", "-", given=b"9,9\n", line="refused Conflict 1.1", **how)
    room.refused("delete", "t", "C = 1", line="refused NoSuchColumn 0", **how)
    room.refused("merge", "t", "more", "empty", line="refused Truncated 0", **how)
    room.refused("merge", "t", "more", line="refused Exists", **how)
    room.refused("merge", "t", "t", "empty", line="refused Truncated 0", **how)
    assert room.get("t") == held and room.names() == there
    # Reading needs no such right.
    room.ok("check", "t", **how)
    room.ok("merge", "out", "t", "more", **how)
    os.chmod(room.path("t"), 0o644)
    os.chown(room.path("t"), NOBODY, NOBODY) if os.getuid() == 0 else None
    room.ok("delete", "t", "A = 1", prints=b"ok 1\n", **how)


def who_reads_no_more_hears_nothing(room):
    room.make(rows=rows_text(60_000))
    room.put("s", room.ok("summary", "t"))
    room.put("script", b"table 1 T A INTEGER\n" + b"append 1 (1)\n" * 60_000)
    many = "SELECT A,COUNT(*) FROM T GROUP BY A"
    room.put("p", room.ok("partial", "t", many))
    for words in (["dump", "t"], ["query", "t", many, many], ["query", "--format", "json", "t", many], ["run", "script"], ["finish", "p"], ["combine", "p"], ["partial", "t", many]):
        with room.start(*words) as running:
            running.stdout.close()
            said = running.stderr.read()
            status = running.wait(60)
        assert (status, said) == (1, b""), f"{words} ended with {status} and said {said!r}"
    # Less than a pipe holds may be written before its reader is gone. So these get a pipe that never had one.
    reading, writing = os.pipe()
    os.close(reading)
    for words in (["--help"], ["import", "--help"], ["check", "t"], ["inspect", "t"], ["delete", "t", "A = 99"], ["summary", "t"], ["merge", "/dev/stdout", "t"]):
        done = subprocess.run([room.program, *words], stdout=writing, stderr=subprocess.PIPE, cwd=room.folder, timeout=60)
        is_told = done.stderr.startswith(b"refused WriteFault\n/dev/stdout: ") if words[0] == "merge" else done.stderr == b""
        assert done.returncode == 1 and is_told, f"{words} ended with {done.returncode} and said {done.stderr!r}"
    os.close(writing)


def a_refusal_is_one_write(room):
    if shutil.which("strace") is None:
        raise Lacking("strace is not installed")
    room.make()
    long = "./" * 2_000 + "none"
    for words, at_most in ((["check", "none"], 100), (["query", "t", "SELECT"], 100), (["check", long], 4_096), (["import", "t", "-"], 200)):
        subprocess.run(["strace", "-f", "-y", "-o", "trace", "-e", "trace=write", room.program, *words], input=b"", cwd=room.folder, capture_output=True, timeout=60)
        if not os.path.exists(room.path("trace")) or not room.get("trace"):
            raise Lacking("strace can't trace")
        told = re.findall(r" write\(2<.*= (\d+)\n", room.get("trace").decode())
        assert len(told) == 1 and int(told[0]) <= at_most, f"{words} wrote {told} bytes to standard error"


def refusals_at_once_do_not_mix(room):
    room.make()
    reading, writing = os.pipe()
    running = [subprocess.Popen([room.program, "check", f"none{at}"], stdin=subprocess.DEVNULL, stdout=subprocess.DEVNULL, stderr=writing, cwd=room.folder) for at in range(60)]
    os.close(writing)
    with os.fdopen(reading, "rb") as errors:
        told = errors.read().decode().splitlines()
    assert all(one.wait(60) == 1 for one in running)
    assert set(told[::2]) == {"refused ReadFault"} and sorted(told[1::2]) == sorted(f"none{at}: no such file or folder" for at in range(60)), told[:6]


def limited(count):
    """What makes a process one that may write files of so many bytes, and is told so by an error."""

    def limit():
        signal.signal(signal.SIGXFSZ, signal.SIG_IGN)
        resource.setrlimit(resource.RLIMIT_FSIZE, (count, count))

    return limit


def a_file_that_has_no_room_leaves_the_old_one(room):
    held = room.make()
    pick = random.Random(3)
    rows = "".join(f"{pick.randrange(30_000)},{pick.randrange(2**62)}\n" for _ in range(70_000)).encode()
    room.refused("import", "--no-header", "t", "-", given=rows, line="refused WriteFault", sentence=TOO_LARGE, preexec_fn=limited(65_536))
    assert room.get("t") == held
    room.only("t")


def a_file_without_room_for_its_last_bytes_leaves_the_old_one(room):
    held = room.make()
    room.make("more", rows=b"")
    room.ok("import", "--no-header", "--batch", "2.1", "more", "-", given=b"3,40\n")
    for count in (1, 50, len(held)):
        room.refused("import", "--no-header", "t", "-", given=b"3,40\n", line="refused WriteFault", sentence=TOO_LARGE, preexec_fn=limited(count))
        room.refused("merge", "t", "t", "more", line="refused WriteFault", sentence=TOO_LARGE, preexec_fn=limited(count))
        assert room.get("t") == held
        room.only("more", "t")


def what_is_said_to_a_full_device_is_a_failed_write_and_the_file_is_replaced(room):
    room.make()
    with open("/dev/full", "wb") as full:
        status = subprocess.run([room.program, "import", "--no-header", "--batch", "2.1", "t", "-"], input=b"3,40\n", stdout=full, stderr=subprocess.PIPE, cwd=room.folder, timeout=60)
    assert status.returncode == 1 and status.stderr.startswith(b"refused WriteFault\nlanes import t: standard output: "), f"it said {status.stderr!r}"
    room.ok("check", "t", prints=b"ok batches=2 ranges=0\n")
    with open("/dev/full", "wb") as full:
        for words in (["dump", "t"], ["summary", "t"], ["inspect", "t"], ["offer", "t", "s"], ["query", "--format", "json", "t", "SELECT SUM(A) FROM T"]):
            room.put("s", room.ok("summary", "t"))
            done = subprocess.run([room.program, *words], stdout=full, stderr=subprocess.PIPE, cwd=room.folder, timeout=60)
            assert done.returncode == 1 and done.stderr.startswith(b"refused WriteFault\n"), f"{words} said {done.stderr!r}"


def a_merge_into_a_device_is_written_in_place(room):
    room.make()
    room.ok("merge", "/dev/null", "t", prints=b"")
    assert stat.S_ISCHR(os.stat("/dev/null").st_mode)
    room.refused("merge", "/dev/full", "t", line="refused WriteFault", sentence="/dev/full: no space is left on the device")
    os.mkfifo(room.path("pipe"))
    with room.start("merge", "pipe", "t") as merging:
        assert room.get("pipe") == room.get("t")
        merging.communicate(timeout=60)
        assert merging.returncode == 0
    room.only("pipe", "t")


CALLS = "openat,flock,ftruncate,fchmod,chmod,write,fsync,fdatasync,rename,renameat,renameat2,unlink,unlinkat"


def traced(room, options=()):
    """What strace says of an import into d/t, which ends well, and what the import says on standard error."""
    if shutil.which("strace") is None:
        raise Lacking("strace is not installed")
    os.mkdir(room.path("d"))
    room.make("d/t")
    words = ["strace", "-f", "-y", "-o", "trace", "-e", f"trace={CALLS}", *options, room.program, "import", "--no-header", "d/t", "-"]
    done = subprocess.run(words, input=b"3,40\n", cwd=room.folder, capture_output=True, timeout=60)
    if not os.path.exists(room.path("trace")) or not room.get("trace"):
        raise Lacking(f"strace can't trace: {done.stderr[-200:]!r}")
    assert done.returncode == 0, f"it ended with {done.returncode} and said {done.stderr!r}"
    return room.get("trace").decode(), done.stderr


def the_system_calls_stand_in_their_order(room):
    trace, _ = traced(room)
    steps = (
        r"openat\(.*t\", O_RDONLY",
        r"openat\(.*\.t\.lanes-lock\", .*O_CREAT\|O_EXCL",
        r"flock\(.*lanes-lock>, LOCK_EX\|LOCK_NB\) += 0",
        r"f?chmod\(.*lanes-lock",
        r"openat\(.*/t\", O_WRONLY(\|O_NOCTTY)?(\|O_CLOEXEC)?\)",
        r"openat\(.*t\", O_RDONLY",
        r"openat\(.*/d\", O_RDONLY",
        r"ftruncate\(.*lanes-lock>, 0\)",
        r"write\(.*lanes-lock>",
        r"fsync\(.*lanes-lock>\)",
        r"rename.*\.t\.lanes-lock\".*t\"",
        r"fsync\([0-9]+<[^>]*/d>\) += 0",
        r"write\(1<.*ok batches=1",
    )
    place = 0
    for step in steps:
        found = re.compile(step).search(trace, place)
        assert found, f"{step} doesn't stand in its place in\n{trace[-2000:]}"
        place = found.end()
    assert "unlink" not in trace and trace.count("rename") == 1 and trace.count("fsync(") == 2


def a_folder_that_can_not_be_synced_is_told_and_the_file_is_replaced(room):
    trace, told = traced(room, options=("-e", "inject=fsync:error=EIO:when=2"))
    assert "INJECTED" in trace
    assert told == b"d/t: this was replaced, but its folder could not be synced: a loss of power may bring the old file back\n"
    room.ok("check", "d/t", prints=b"ok batches=2 ranges=0\n")
    assert os.listdir(room.path("d")) == ["t"]


def a_file_that_can_not_be_synced_is_a_failed_write(room):
    os.mkdir(room.path("e"))
    held = room.make("e/t")
    if shutil.which("strace") is None:
        raise Lacking("strace is not installed")
    for fault, reason in (
        ("fsync:error=EIO:when=1", "this can't be written"),
        ("fsync:error=ENOSPC:when=1", "no space is left on the device"),
        ("write:error=ENOSPC:when=1", "no space is left on the device"),
        ("write:error=EDQUOT:when=1", "the quota of this user is used up"),
        ("write:error=EFBIG:when=1", "the file would be larger than is allowed"),
        ("ftruncate:error=EROFS", "the file system is read-only"),
        ("rename,renameat,renameat2:error=EPERM", "permission denied: this may not be written"),
        ("rename,renameat,renameat2:error=EIO", "this can't be written"),
    ):
        words = ["strace", "-f", "-o", "trace", "-e", f"inject={fault}", room.program, "import", "--no-header", "e/t", "-"]
        done = subprocess.run(words, input=b"3,40\n", cwd=room.folder, capture_output=True, timeout=60)
        if not os.path.exists(room.path("trace")) or not room.get("trace"):
            raise Lacking(f"strace can't trace: {done.stderr[-200:]!r}")
        assert done.returncode == 1 and done.stderr == f"refused WriteFault\ne/t: {reason}\n".encode(), f"with {fault} it said {done.stderr!r}"
        assert room.get("e/t") == held and os.listdir(room.path("e")) == ["t"]


def traced_at(room, words, options=(), given=b""):
    """What strace says of a command, with its status and what it says on standard error."""
    if shutil.which("strace") is None:
        raise Lacking("strace is not installed")
    words = ["strace", "-f", "-y", "-o", "trace", "-e", f"trace={CALLS}", *options, room.program, *words]
    done = subprocess.run(words, input=given, cwd=room.folder, capture_output=True, timeout=60)
    if not os.path.exists(room.path("trace")) or not room.get("trace"):
        raise Lacking(f"strace can't trace: {done.stderr[-200:]!r}")
    return room.get("trace").decode(), done.returncode, done.stderr


def an_answer_that_changes_nothing_syncs_the_file_and_its_folder(room):
    os.mkdir(room.path("d"))
    room.make("d/t")
    load = ("import", "--no-header", "--batch", "2.1", "d/t", "-")
    # The load is killed before the folder is synced, and sent again.
    traced_at(room, load, options=("-e", "inject=fsync:signal=KILL:when=2"), given=b"3,40\n")
    room.ok("check", "d/t", prints=b"ok batches=2 ranges=0\n")
    room.ok("delete-rows", "d/t", "5.5", "1", "2")
    held = room.get("d/t")
    said = b"d/t: nothing changed, but this or its folder could not be synced: a loss of power may bring an older file back\n"
    for words in (load, ("delete", "d/t", "A = 7"), ("delete-rows", "d/t", "5.5", "1", "2"), ("apply", "d/t", "d/t"), ("forget", "d/t"), ("merge", "d/t", "d/t")):
        trace, status, err = traced_at(room, words, given=b"3,40\n")
        assert (status, err) == (0, b""), f"{words} ended with {status} and said {err!r}"
        place = 0
        for step in (r"flock\(.*lanes-lock>, LOCK_EX", r"fsync\([0-9]+<[^>]*/d/t>\) += 0", r"fsync\([0-9]+<[^>]*/d>\) += 0", r"unlink.*lanes-lock"):
            found = re.compile(step).search(trace, place)
            assert found, f"{words}: {step} isn't in its place in\n{trace[-2000:]}"
            place = found.end()
        assert "rename" not in trace and trace.count("fsync(") == 2
        for when in (1, 2):
            trace, status, err = traced_at(room, words, options=("-e", f"inject=fsync:error=EIO:when={when}"), given=b"3,40\n")
            assert "INJECTED" in trace and (status, err) == (0, said), f"{words} ended with {status} and said {err!r} at {when}"
        assert room.get("d/t") == held and os.listdir(room.path("d")) == ["t"]


TESTS = [
    a_change_that_changes_nothing_leaves_the_file_and_no_lock,
    a_refusal_leaves_the_file_and_no_lock,
    a_refused_create_makes_nothing,
    the_mode_is_kept,
    a_new_file_has_the_usual_mode,
    a_symbolic_link_stays_one,
    a_link_that_is_switched_while_a_command_waits_loses_nothing,
    a_hard_link_to_the_file_that_has_the_locks_name_is_no_lock,
    what_is_no_lock_and_has_its_name_is_told_by_name,
    a_lock_that_another_user_left_is_replaced,
    another_hard_link_keeps_the_old_file,
    a_lock_that_a_crash_left_is_taken,
    a_lock_that_may_not_be_written_is_taken_too,
    a_folder_without_the_right_to_write_is_a_failed_write,
    a_folder_that_can_not_be_opened_is_a_failed_write_before_the_file_is_replaced,
    a_file_that_may_not_be_read_is_a_failed_read,
    a_file_that_may_not_be_written_is_a_failed_write,
    who_reads_no_more_hears_nothing,
    a_refusal_is_one_write,
    refusals_at_once_do_not_mix,
    a_file_that_has_no_room_leaves_the_old_one,
    a_file_without_room_for_its_last_bytes_leaves_the_old_one,
    what_is_said_to_a_full_device_is_a_failed_write_and_the_file_is_replaced,
    a_merge_into_a_device_is_written_in_place,
    the_system_calls_stand_in_their_order,
    a_folder_that_can_not_be_synced_is_told_and_the_file_is_replaced,
    an_answer_that_changes_nothing_syncs_the_file_and_its_folder,
    a_file_that_can_not_be_synced_is_a_failed_write,
]
