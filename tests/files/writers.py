"""Several commands on one file at once, and commands that are killed."""

import fcntl
import os
import random
import signal
import subprocess
import threading
import time

from room import rows_text

LOCK = ".t.lanes-lock"
WRITERS = 8
LOADS = 12
KILLS = 30


def eight_writers_lose_nothing(room):
    room.make(rows=b"")
    faults = []

    def write(writer):
        for load in range(1, LOADS + 1):
            words = ("import", "--no-header", "--batch", f"{writer}.{load}", "t", "-")
            status, _, err = room.run(*words, given=f"{writer},{load}\n".encode())
            # On a machine that is slow enough a writer waits for ten seconds, and sends again.
            while status == 1 and err.startswith(b"refused Busy\n"):
                status, _, err = room.run(*words, given=f"{writer},{load}\n".encode())
            if status != 0:
                faults.append(err)

    threads = [threading.Thread(target=write, args=(writer,)) for writer in range(1, WRITERS + 1)]
    for thread in threads:
        thread.start()
    for thread in threads:
        thread.join()
    assert not faults, f"{len(faults)} of them failed: {faults[0]!r}"
    room.ok("check", "t", prints=f"ok batches={WRITERS * LOADS} ranges=0\n".encode())
    room.ok("query", "t", "SELECT COUNT(*),SUM(B) FROM T", prints=f"COUNT(*),SUM(B)\n{WRITERS * LOADS},{WRITERS * LOADS * (LOADS + 1) // 2}\n".encode())
    room.only("t")


def merges_in_place_lose_no_import(room):
    room.make()
    room.make("u", rows=b"")
    room.ok("import", "--no-header", "--batch", "9.1", "u", "-", given=b"9,9\n")
    merging = [room.start("merge", "t", "t", "u") for _ in range(10)]
    for load in range(10):
        room.ok("import", "--no-header", "--batch", f"2.{load + 1}", "t", "-", given=b"3,40\n")
    for one in merging:
        _, err = one.communicate(timeout=60)
        assert one.returncode == 0, f"a merge said {err!r}"
    room.ok("check", "t", prints=b"ok batches=12 ranges=0\n")


def of_several_creates_one_makes_the_file(room):
    for _ in range(5):
        making = [room.start("create", "t", f"T{at}", "A", "SMALLINT") for at in range(6)]
        ended = [(one.communicate(timeout=60), one.returncode) for one in making]
        assert sorted(status for _, status in ended) == [0, 1, 1, 1, 1, 1], f"they ended so: {ended}"
        assert all(err.startswith(b"refused Exists\n") for (_, err), status in ended if status)
        room.ok("check", "t", prints=b"ok batches=0 ranges=0\n")
        room.only("t")
        os.remove(room.path("t"))


def no_lock_is_held_while_an_input_is_slow(room):
    room.make()
    summary = room.ok("summary", "t")
    slow = [room.start(*words, stdin=subprocess.PIPE) for words in (("import", "--no-header", "--batch", "3.1", "t", "-"), ("apply", "t", "-"))]
    time.sleep(0.3)
    started = time.monotonic()
    room.ok("import", "--no-header", "--batch", "2.1", "t", "-", given=b"3,40\n")
    assert time.monotonic() - started < 5
    room.put("s", summary)
    offer = room.ok("offer", "t", "s")
    for one, given in zip(slow, (b"5,50\n", offer)):
        _, err = one.communicate(given, timeout=60)
        assert one.returncode == 0, f"a slow one said {err!r}"
    room.ok("check", "t", prints=b"ok batches=3 ranges=0\n")


def a_file_that_another_holds_is_busy_after_ten_seconds(room):
    held = room.make()
    with open(room.path(LOCK), "wb") as lock:
        fcntl.flock(lock, fcntl.LOCK_EX)
        started = time.monotonic()
        forgetting = room.start("forget", "t")
        room.refused("import", "--no-header", "t", "-", given=b"3,40\n", line="refused Busy", sentence="t: another command has had the file for ten seconds")
        assert forgetting.communicate(timeout=60)[1].startswith(b"refused Busy\n")
        assert 9 < time.monotonic() - started < 20
        room.refused("import", "--no-header", "t", "-", given=b"x,40\n", line="refused BadCsv 1 1")
        room.ok("query", "t", "SELECT COUNT(*) FROM T", prints=b"COUNT(*)\n3\n")
    assert room.get("t") == held
    room.ok("import", "--no-header", "t", "-", given=b"3,40\n")
    room.only("t")


def a_lock_that_is_a_link_is_never_followed(room):
    held = room.make()
    room.put("other", b"kept")
    os.symlink("other", room.path(LOCK))
    room.refused("import", "--no-header", "t", "-", given=b"3,40\n", line="refused WriteFault")
    assert room.get("t") == held and room.get("other") == b"kept"


def a_file_that_changes_its_table_meanwhile_is_refused(room):
    room.make()
    slow = room.start("import", "--no-header", "t", "-", stdin=subprocess.PIPE)
    slow.stdin.write(b"1,1\n")
    slow.stdin.flush()
    time.sleep(0.3)
    os.remove(room.path("t"))
    room.ok("create", "t", "U", "A", "SMALLINT")
    _, err = slow.communicate(timeout=60)
    assert slow.returncode == 1 and err.startswith(b"refused SchemaDiffers\n"), f"it said {err!r}"
    room.only("t")


def a_killed_import_leaves_the_file_whole(room):
    held = room.make()
    room.put("rows", rows_text(600_000))
    pick = random.Random(1)
    started = time.monotonic()
    room.ok("import", "--no-header", "--batch", "2.1", "t", "rows")
    whole = time.monotonic() - started
    replaced = room.get("t")
    killed = 0
    for _ in range(KILLS):
        room.put("t", held)
        with room.start("import", "--no-header", "--batch", "2.1", "t", "rows") as importing:
            time.sleep(whole * pick.uniform(0.3, 1.02))
            importing.send_signal(signal.SIGKILL)
            importing.communicate(timeout=60)
            killed += importing.returncode == -signal.SIGKILL
        assert room.get("t") in (held, replaced), "the file is neither the old one nor the new one"
        # The next command goes on, and leaves no lock.
        room.ok("import", "--no-header", "--batch", "3.1", "t", "-", given=b"1,1\n", prints=b"ok batches=1 new=1 rows=1 first=3.1\n")
        room.ok("check", "t")
        room.only("rows", "t")
    assert killed > KILLS // 4, f"only {killed} of {KILLS} were killed in time"
    room.put("t", held)
    room.ok("import", "--no-header", "--batch", "2.1", "t", "rows")
    assert room.get("t") == replaced
    room.only("rows", "t")


def a_killed_forget_leaves_the_file_whole(room):
    room.put("rows", rows_text(600_000))
    room.make()
    room.ok("import", "--no-header", "--batch", "2.1", "t", "rows")
    for number in range(2, 10):
        room.ok("delete-rows", "t", f"2.{number}", "0", "65535", prints=b"ok\n")
    held = room.get("t")
    times = []
    for _ in range(3):
        room.put("t", held)
        with room.start("forget", "t") as forgetting:
            started = time.monotonic()
            printed, _ = forgetting.communicate(timeout=60)
            times.append(time.monotonic() - started)
        assert printed == f"ok batches=8 rows={8 * 65_536}\n".encode(), f"it wrote {printed!r}"
    # As below, without the time that a start takes. On a machine with other work the first run can be much slower than those that are killed.
    whole = min(times)
    replaced = room.get("t")
    assert len(replaced) < len(held)
    pick, killed = random.Random(3), 0
    for _ in range(KILLS // 2):
        room.put("t", held)
        with room.start("forget", "t") as forgetting:
            time.sleep(whole * pick.uniform(0.3, 1.02))
            forgetting.send_signal(signal.SIGKILL)
            forgetting.communicate(timeout=60)
            killed += forgetting.returncode == -signal.SIGKILL
        assert room.get("t") in (held, replaced), "the file is neither the old one nor the new one"
        # The next forget goes on, and leaves no lock.
        room.ok("forget", "t")
        assert room.get("t") == replaced
        room.only("rows", "t")
    assert killed > KILLS // 8, f"only {killed} of {KILLS // 2} were killed in time"


def a_killed_merge_leaves_the_file_whole(room):
    room.make("u", rows=rows_text(600_000))
    held = room.make()
    pick = random.Random(2)
    started = time.monotonic()
    room.ok("delete-rows", "u", "1.1", "0", "0")
    whole = time.monotonic() - started
    with open(room.path("u"), "rb") as file:
        big = file.read()
    for _ in range(KILLS // 2):
        room.put("v", big)
        with room.start("merge", "v", "v", "v") as merging:
            time.sleep(whole * pick.uniform(0.1, 1.5))
            merging.send_signal(signal.SIGKILL)
            merging.communicate(timeout=60)
        assert room.get("v") == big, "a merge that was killed lost the file"
    assert room.get("t") == held


TESTS = [
    eight_writers_lose_nothing,
    merges_in_place_lose_no_import,
    of_several_creates_one_makes_the_file,
    no_lock_is_held_while_an_input_is_slow,
    a_file_that_another_holds_is_busy_after_ten_seconds,
    a_lock_that_is_a_link_is_never_followed,
    a_file_that_changes_its_table_meanwhile_is_refused,
    a_killed_import_leaves_the_file_whole,
    a_killed_forget_leaves_the_file_whole,
    a_killed_merge_leaves_the_file_whole,
]
