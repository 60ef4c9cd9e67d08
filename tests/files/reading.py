"""How commands read: FILE once, the line at a terminal that says how far a reading is, and what is left alone if nothing changes."""

import os
import pty
import random
import re
import shutil
import subprocess
import time

from replacing import LOCK
from room import Lacking, rows_text

# What a file's schema is read from, before its lock is had.
HEAD = 4_096


def reads_of(room, name, *words, given=b""):
    """How often a command opened a file to read it, and how many bytes it read from it each time."""
    if shutil.which("strace") is None:
        raise Lacking("strace is not installed")
    run = ["strace", "-f", "-y", "-o", "trace", "-e", "trace=openat,read,pread64,readv,mmap,close", room.program, *words]
    done = subprocess.run(run, input=given, cwd=room.folder, capture_output=True, timeout=120)
    if not os.path.exists(room.path("trace")) or not room.get("trace"):
        raise Lacking(f"strace can't trace: {done.stderr[-200:]!r}")
    assert done.returncode == 0, f"{words} ended with {done.returncode} and said {done.stderr!r}"
    return reads_in(room.get("trace").decode(), re.escape(room.path(name)))


def reads_in(trace, path):
    """For each time that a trace opens the file of a path to read it, how many bytes are read from it then."""
    reads = []
    for line in trace.split("\n"):
        if re.search(rf"openat\(.*O_RDONLY.* = [0-9]+<{path}>$", line):
            reads.append(0)
        read = re.search(rf"(?:read|pread64|readv)\([0-9]+<{path}>.* = ([0-9]+)$", line)
        if read:
            reads[-1] += int(read[1])
        assert not re.search(rf"mmap\(.*<{path}>", line), line
    return reads


def big(room, name="t"):
    """A file of some 100 kB, and its size."""
    pick = random.Random(4)
    rows = "".join(f"{pick.randrange(30_000)},{pick.randrange(2**62)}\n" for _ in range(12_000)).encode()
    return len(room.make(name, rows=rows))


def a_command_that_reads_a_file_reads_its_bytes_once(room):
    size = big(room)
    room.put("s", room.ok("summary", "t"))
    for words in (
        ("check", "t"),
        ("summary", "t"),
        ("offer", "t", "s"),
        ("inspect", "t"),
        ("inspect", "--batches", "t"),
        ("dump", "t"),
        ("query", "t", "SELECT COUNT(*) FROM T", "SELECT SUM(B) FROM T"),
        ("query", "t", "-"),
        ("merge", "u", "t"),
    ):
        found = reads_of(room, "t", *words, given=b"SELECT COUNT(*) FROM T\nSELECT SUM(A) FROM T\n")
        assert found == [size], f"{words} read {found} bytes of {size}"


def a_command_that_changes_a_file_reads_its_bytes_once_under_the_lock(room):
    room.put("empty", room.ok("create", "other", "T", "A", "SMALLINT", "B", "BIGINT") and room.ok("summary", "other"))
    room.make("more", rows=b"")
    room.ok("import", "--no-header", "--batch", "7.1", "more", "-", given=b"7,7\n")
    room.put("o", room.ok("offer", "more", "empty"))
    size = big(room)
    held = room.get("t")
    for words, ahead in (
        (("delete", "t", "A = 7"), []),
        (("delete-rows", "t", "1.1", "3", "5"), []),
        (("apply", "t", "o"), []),
        (("forget", "t"), []),
        (("import", "--no-header", "--batch", "9.1", "t", "-"), [HEAD]),
    ):
        room.put("t", held)
        found = reads_of(room, "t", *words, given=b"1,1\n")
        # A file that stays as it is is opened once more, to be synced, and not read.
        synced = [0] if words[0] == "forget" else []
        assert found == [*ahead, size, *synced], f"{words} read {found} bytes of {size}"


def an_import_opens_its_file_once_before_the_lock_and_once_under_it(room):
    size = big(room)
    assert reads_of(room, "t", "import", "--no-header", "--batch", "9.1", "t", "-", given=b"1,1\n") == [HEAD, size]
    trace = room.get("trace").decode()
    path, lock = re.escape(room.path("t")), re.escape(LOCK)
    order = [found.lastgroup for found in re.finditer(rf"(?P<file>openat\(.*O_RDONLY.* = [0-9]+<{path}>\n)|(?P<lock>openat\(.*{lock}.*O_CREAT.* = [0-9])", trace)]
    assert order == ["file", "lock", "file"], f"the order is {order}"


def what_brings_nothing_leaves_the_file_alone(room):
    room.make()
    room.make("u")
    room.put("old", room.ok("summary", "t"))
    room.put("o", room.ok("offer", "t", "old"))
    room.ok("delete", "t", "A = 1", prints=b"ok 1\n")
    time.sleep(0.02)
    before, held = os.stat(room.path("t")), room.get("t")
    room.ok("merge", "t", "t", "u", prints=b"ok\n")
    room.ok("merge", "t", "u", "t", prints=b"ok\n")
    room.ok("merge", "t", "t", prints=b"ok\n")
    room.ok("import", "--no-header", "--batch", "1.1", "t", "-", given=b"1,10\n2,20\n,30\n", prints=b"ok batches=1 new=0 rows=3 first=1.1\n")
    room.ok("apply", "t", "o", prints=b"ok batches=1 ranges=1 new=0\n")
    room.ok("delete", "t", "A = 1", prints=b"ok 0\n")
    room.ok("delete", "t", "A = 7", prints=b"ok 0\n")
    room.ok("delete-rows", "t", "1.1", "0", "0", prints=b"ok\n")
    after = os.stat(room.path("t"))
    assert room.get("t") == held and (before.st_ino, before.st_mtime_ns) == (after.st_ino, after.st_mtime_ns)
    room.only("o", "old", "t", "u")


def shown_on(screen):
    """What was shown on a terminal that no process writes to any more."""
    shown = b""
    with os.fdopen(screen, "rb", buffering=0) as reader:
        try:
            while part := reader.read(65_536):
                shown += part
        except OSError:
            pass
    return shown.replace(b"\r\n", b"\n")


def at_a_terminal(room, *words, pieces, pause):
    """What a command shows on a terminal that is its standard error, and its status, if `pipe` gives it these pieces with a pause after each."""
    if not os.path.exists(room.path("pipe")):
        os.mkfifo(room.path("pipe"))
    screen, terminal = pty.openpty()
    running = room.start(*words, stderr=terminal)
    os.close(terminal)
    with open(room.path("pipe"), "wb", buffering=0) as pipe:
        for piece in pieces:
            try:
                pipe.write(piece)
            except BrokenPipeError:
                break
            time.sleep(pause)
    running.communicate(timeout=120)
    return shown_on(screen), running.returncode


CLEAR = b"\r\x1b[K"


def a_slow_reading_says_at_a_terminal_how_far_it_is_and_clears_the_line(room):
    room.make()
    line = b"1,10\n"
    shown, status = at_a_terminal(room, "import", "--no-header", "--quiet", "t", "pipe", pieces=[line] * 30, pause=0.1)
    assert status == 0 and shown == b"", f"with --quiet it showed {shown!r}"
    shown, status = at_a_terminal(room, "import", "--no-header", "t", "pipe", pieces=[line] * 6, pause=0.1)
    assert status == 0 and shown == b"", f"within two seconds it showed {shown!r}"
    shown, status = at_a_terminal(room, "import", "--no-header", "t", "pipe", pieces=[line] * 40, pause=0.1)
    steps = shown.split(CLEAR)
    assert status == 0 and steps[0] == b"" and steps[-1] == b"", f"it showed {shown!r}"
    # A slow machine reads the table itself late enough that its line is due as well.
    # Between the two the line is cleared twice.
    told = [re.fullmatch(rb"reading (?:pipe: ([0-9]+) bytes|.*t: [0-9]+ bytes of [0-9]+ bytes)", step) for step in steps[1:-1] if step]
    assert all(told), f"it showed {shown!r}"
    counts = [int(step[1]) for step in told if step[1]]
    assert 3 <= len(counts) <= 9 and counts == sorted(counts) and counts[0] >= 80 and counts[-1] <= 200, f"it showed {shown!r}"


def each_command_that_reads_slowly_says_so(room):
    held = room.make()
    summary = room.ok("summary", "t")
    for words, given in (
        (("check", "pipe"), held),
        (("query", "pipe", "SELECT COUNT(*) FROM T"), held),
        (("dump", "pipe"), held),
        (("inspect", "pipe"), held),
        (("summary", "pipe"), held),
        (("merge", "out", "t", "pipe"), held),
        (("offer", "t", "pipe"), summary),
        (("run", "pipe"), b"table 1 T A INTEGER\n" * 2),
    ):
        half = len(given) // 2
        shown, status = at_a_terminal(room, *words, pieces=[given[:half], given[half:-1], given[-1:]], pause=1.2)
        assert status == 0 and b"reading pipe: " in shown and shown.endswith(CLEAR), f"{words} ended with {status} and showed {shown!r}"


def a_file_that_is_read_slowly_under_its_lock_says_so(room):
    big(room)
    if shutil.which("strace") is None:
        raise Lacking("strace is not installed")
    slowly = ["strace", "-f", "-o", "trace", "-P", room.path("t"), "-e", "inject=read,pread64,readv:delay_exit=600000"]
    for words in (["delete", "t", "A = 99"], ["forget", "t"]):
        screen, terminal = pty.openpty()
        done = subprocess.run([*slowly, room.program, *words], cwd=room.folder, stdin=subprocess.DEVNULL, stdout=subprocess.PIPE, stderr=terminal, timeout=120)
        os.close(terminal)
        shown = shown_on(screen)
        if b"strace: " in shown:
            raise Lacking(f"strace can't trace: {shown[-200:]!r}")
        assert done.returncode == 0 and re.search(rb"reading .*t: [0-9]+ kB of [0-9]+ kB", shown) and shown.endswith(CLEAR), f"{words} ended with {done.returncode} and showed {shown!r}"


def the_line_is_cleared_before_a_refusal(room):
    room.make()
    rows = [b"1,10\n"] * 25 + [b"x,10\n"]
    shown, status = at_a_terminal(room, "import", "--no-header", "t", "pipe", pieces=rows, pause=0.1)
    assert status == 1 and b"reading pipe: " in shown and CLEAR + b"refused BadCsv 26 1\n" in shown, f"it showed {shown!r}"
    assert shown.rindex(b"reading pipe: ") < shown.rindex(CLEAR)


def the_size_of_a_file_is_said(room):
    room.make()
    room.put("rows", rows_text(10_000))
    size = len(room.get("rows")) // 1_000
    shown, status = at_a_terminal(room, "import", "--no-header", "t", "pipe", "rows", pieces=[b"1,10\n"], pause=2.2)
    assert status == 0 and shown.startswith(CLEAR + b"reading rows: 65 kB of %d kB" % size + CLEAR) and shown.endswith(CLEAR), f"it showed {shown!r}"


def held_up_at_a_terminal(room, path, *words):
    """What a command shows on a terminal that is its standard error, and its status, if each read of a file takes more than a second."""
    if shutil.which("strace") is None:
        raise Lacking("strace is not installed")
    screen, terminal = pty.openpty()
    run = ["strace", "-f", "-qq", "-o", "/dev/null", "-P", room.path(path), "-e", "trace=read", "-e", "inject=read:delay_enter=1300000"]
    running = subprocess.Popen([*run, room.program, *words], cwd=room.folder, stdin=subprocess.DEVNULL, stdout=subprocess.PIPE, stderr=terminal)
    os.close(terminal)
    running.communicate(timeout=120)
    return shown_on(screen), running.returncode


def a_folder_that_opens_slowly_says_which_part_is_read(room):
    room.ok("create", "d/", "T", "A", "SMALLINT", "B", "BIGINT")
    for number in range(3):
        room.ok("import", "--no-header", "--batch", f"{number + 1}.1", "d", "-", given=b"%d,10\n" % number)
    first = "d/" + sorted(name for name in os.listdir(room.path("d")) if not name.startswith("."))[0]
    for words in (("query", "d", "SELECT COUNT(*) FROM T"), ("check", "d"), ("dump", "d"), ("inspect", "d"), ("summary", "d")):
        shown, status = held_up_at_a_terminal(room, first, *words)
        assert status == 0 and shown.startswith(CLEAR + b"reading d: part 2 of 4" + CLEAR) and shown.endswith(CLEAR), f"{words} ended with {status} and showed {shown!r}"
    shown, status = held_up_at_a_terminal(room, first, "delete", "--quiet", "d", "A = 9")
    assert status == 0 and shown == b"", f"a delete of no row ended with {status} and showed {shown!r}"


def nothing_is_said_where_standard_error_is_no_terminal(room):
    room.make()
    os.mkfifo(room.path("pipe"))
    running = room.start("import", "--no-header", "t", "pipe")
    with open(room.path("pipe"), "wb", buffering=0) as pipe:
        for _ in range(5):
            pipe.write(b"1,10\n")
            time.sleep(0.6)
    _, err = running.communicate(timeout=60)
    assert running.returncode == 0 and err == b"", f"it said {err!r}"


TESTS = [
    a_command_that_reads_a_file_reads_its_bytes_once,
    a_command_that_changes_a_file_reads_its_bytes_once_under_the_lock,
    an_import_opens_its_file_once_before_the_lock_and_once_under_it,
    what_brings_nothing_leaves_the_file_alone,
    a_slow_reading_says_at_a_terminal_how_far_it_is_and_clears_the_line,
    each_command_that_reads_slowly_says_so,
    a_file_that_is_read_slowly_under_its_lock_says_so,
    the_line_is_cleared_before_a_refusal,
    the_size_of_a_file_is_said,
    a_folder_that_opens_slowly_says_which_part_is_read,
    nothing_is_said_where_standard_error_is_no_terminal,
]
