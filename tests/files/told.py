"""What a command tells, at a terminal and elsewhere, and how soon: sentences, prompts, sizes and waits that few other tests meet."""

import fcntl
import os
import pty
import random
import shutil
import subprocess
import threading
import time

from reading import CLEAR, at_a_terminal, shown_on
from room import Lacking
from spreading import put_batches


def a_number_of_more_than_30_digits_is_told_as_such(room):
    room.make(rows=b"")
    for digits, words in ((30, "is outside the type BIGINT"), (31, "has more than 30 digits"), (40, "has more than 30 digits")):
        number = "1" * digits
        room.refused("import", "t", "-", given=f"A,B\n1,{number}\n".encode(), line="refused BadCsv 2 2", sentence=f'lanes import t: standard input, line 2, column B: "{number}" {words}')


def an_offer_to_another_table_tells_which_is_which(room):
    room.ok("create", "t", "T", "A", "INTEGER")
    room.ok("create", "u", "U", "B", "INTEGER")
    room.put("asked", room.ok("summary", "u"))
    room.refused("offer", "t", "asked", line="refused SchemaDiffers", sentence="asked: this holds the table U (B INTEGER), but t holds T (A INTEGER)")


def a_file_that_can_not_be_locked_is_a_failed_write(room):
    before = room.make()
    if shutil.which("strace") is None:
        raise Lacking("strace is not installed")
    for error in "ENOLCK", "EIO":
        words = ["strace", "-f", "-o", "/dev/null", "-e", "trace=flock", "-e", f"inject=flock:error={error}", room.program]
        for change in ("delete", "t", "A = 1"), ("delete-rows", "t", "1.1", "0", "0"), ("import", "--no-header", "t", "-"):
            done = subprocess.run([*words, *change], cwd=room.folder, input=b"1,1\n", capture_output=True, timeout=60)
            assert done.returncode == 1 and done.stderr.startswith(b"refused WriteFault\nt: "), f"{change}, {error}: {done}"
            assert room.get("t") == before


def a_file_that_is_let_go_soon_is_changed_soon(room):
    """The wait ends within some hundredths of a second after the lock is let go."""
    room.make()

    def taken(seconds):
        lock = open(room.path(".t.lanes-lock"), "wb")
        fcntl.flock(lock, fcntl.LOCK_EX)
        timer = threading.Timer(seconds, lambda: (os.remove(room.path(".t.lanes-lock")), lock.close()))
        begun = time.monotonic()
        timer.start()
        room.ok("delete-rows", "t", "9.9", "0", "0")
        timer.join()
        return time.monotonic() - begun - seconds

    late = sorted(taken(seconds) for seconds in (0.1, 0.15, 0.2, 0.25, 0.3))
    # The least of them, since others may be at work too.
    assert late[0] < 0.15, f"it ended {late} seconds after the lock was let go"


def shares_have_as_many_bytes_whatever_their_batches_have(room):
    """A share has at most an equal part of the bytes and one batch."""
    draw = random.Random(3)
    batches = [(f"1.{number}", [(draw.randrange(50), draw.randrange(2**40)) for _ in range(size)]) for number, size in enumerate([1] * 8 + [3000] * 4, 1)]
    whole = len(put_batches(room, "t", batches))
    outs = [f"s{at}" for at in range(4)]
    room.ok("spread", "t", *outs)
    sizes = [len(room.get(name)) for name in outs]
    assert max(sizes) - min(sizes) < 600 and max(sizes) < whole / 4 + 600, f"of {whole} bytes the shares have {sizes}"


def a_script_is_explained_only_if_it_is_asked(room):
    script = b"table 1 T A SMALLINT\nappend 1 (x)\nquery 1 SELECT B FROM T\n"
    room.put("script", script)
    for words, given in ((("run", "script"), b""), (("run", "-"), script), (("run",), script)):
        status, plain, err = room.run(*words, given=given)
        assert (status, err) == (0, b"") and plain.count(b"\n") == 3, f"{words}: {status}, {plain!r}, {err!r}"
        status, out, err = room.run(words[0], "--explain", *words[1:], given=given)
        assert (status, out) == (0, plain) and len(err.splitlines()) >= 2, f"{words}: {status}, {out!r}, {err!r}"


def shown_by(room, *words):
    """What a command shows on a terminal that is its standard error."""
    screen, terminal = pty.openpty()
    running = room.start(*words, stderr=terminal)
    os.close(terminal)
    running.communicate(timeout=60)
    return shown_on(screen)


def a_caret_is_below_the_word_at_fault_in_each_line_of_a_query(room):
    room.make()
    for sql, at, line, before in (
        ("SELECT COUNT(*),MAX(X) FROM T", 20, "SELECT COUNT(*),MAX(X) FROM T", 20),
        ("SELECT COUNT(*),\n  MAX(X)\nFROM T", 23, "  MAX(X)", 6),
        ("SELECT COUNT(*)\nFROM T\nWHERE X = 1", 29, "WHERE X = 1", 6),
        ("SELECT COUNT(*)\nFROM T\n\n WHERE A = 1\n  AND X = 1", 43, "  AND X = 1", 6),
    ):
        wanted = f'refused NoSuchColumn {at}\nt: byte {at}: there is no column "X": the table has A, B\n{line}\n{" " * before}^\n'
        shown = shown_by(room, "query", "t", sql).decode()
        assert shown == wanted, f"{sql!r} shows {shown!r}, not {wanted!r}"


def a_query_is_prompted_before_it_is_given(room):
    room.make()
    screen, terminal = pty.openpty()
    running = room.start("query", "t", "-", stdin=terminal, stderr=terminal)
    os.close(terminal)
    os.set_blocking(screen, False)

    def shows(end):
        shown, deadline = b"", time.monotonic() + 20
        while not shown.endswith(end):
            assert time.monotonic() < deadline, f"it showed {shown!r}, and no {end!r}"
            try:
                shown += os.read(screen, 4096)
            except BlockingIOError:
                time.sleep(0.02)
        return shown

    begun = shows(b"lanes> ")
    assert b"quit" in begun and begun.count(b"lanes> ") == 1, begun
    for _ in range(2):
        os.write(screen, b"SELECT COUNT(*) FROM T\n")
        assert shows(b"lanes> ").replace(b"\r\n", b"\n") == b"SELECT COUNT(*) FROM T\nlanes> "
    os.write(screen, b"\4")
    out, _ = running.communicate(timeout=60)
    os.close(screen)
    assert (running.returncode, out.splitlines()[1::2]) == (0, [b"3", b"3"]), out


def the_size_of_a_large_file_is_said_in_megabytes(room):
    room.make()
    row = b"1," + b"0" * 24 + b"1\n"
    room.put("rows", row * (25_000_000 // len(row)))
    shown, status = at_a_terminal(room, "import", "--no-header", "t", "pipe", "rows", pieces=[b"1,10\n"], pause=2.2)
    assert status == 0 and b" of 24 MB" + CLEAR in shown, f"it showed {shown[:200]!r}"


TESTS = [
    a_number_of_more_than_30_digits_is_told_as_such,
    an_offer_to_another_table_tells_which_is_which,
    a_file_that_can_not_be_locked_is_a_failed_write,
    a_file_that_is_let_go_soon_is_changed_soon,
    shares_have_as_many_bytes_whatever_their_batches_have,
    a_script_is_explained_only_if_it_is_asked,
    a_caret_is_below_the_word_at_fault_in_each_line_of_a_query,
    a_query_is_prompted_before_it_is_given,
    the_size_of_a_large_file_is_said_in_megabytes,
]
