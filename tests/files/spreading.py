"""A table that is spread over several files: each batch is in one of them, merged they are the file, and it is all or nothing."""

import json
import os
import random
import shutil
import signal
import subprocess
import time

from replacing import limited, taken, traced_at
from room import Lacking, rows_text

QUERIES = (
    "SELECT COUNT(*), SUM(B), MIN(A), MAX(A), AVG(B) FROM T",
    "SELECT A, COUNT(*), SUM(B) FROM T WHERE B > 20 GROUP BY A HAVING COUNT(*) > 1",
    "SELECT COUNT(DISTINCT A) FROM T",
)


def values_text(values):
    return ",".join(f"({a},{b})" for a, b in values)


def put_batches(room, name, batches, deletions=()):
    """A file with these batches, each a name and its rows, and these deletions, written by a script."""
    script = ["table 1 T A SMALLINT B BIGINT", *(f"insert 1 {batch} {values_text(rows)}" for batch, rows in batches), *(f"delete 1 {batch} {first} {last}" for batch, first, last in deletions), "export 1"]
    replies = room.ok("run", given="".join(f"{line}\n" for line in script).encode()).decode().splitlines()
    assert all(reply.startswith("ok") for reply in replies), f"{[reply for reply in replies if not reply.startswith('ok')][:3]}"
    room.put(name, bytes.fromhex(replies[-1].removeprefix("ok ")))
    return room.get(name)


def loaded(room, name, sizes, deletions=()):
    """A file with a batch of each of these sizes, of origin 1, of values that no coding makes small."""
    draw = random.Random(11)
    batches = [(f"1.{number}", [(draw.randrange(50), draw.randrange(2**40)) for _ in range(size)]) for number, size in enumerate(sizes, 1)]
    return put_batches(room, name, batches, deletions)


def batches_of(room, name):
    """The names of a file's batches, in their order, as pairs of numbers."""
    lines = room.ok("inspect", "--batches", "--format", "json", name).splitlines()
    return [tuple(int(it) for it in json.loads(line)["batch"].split(".")) for line in lines]


def is_spread(room, file, outs, batches):
    """A spread of a file: its line, runs of names that follow each other, merged bytes, answers, and deletions at their batches."""
    room.ok("spread", file, *outs, prints=f"ok files={len(outs)} batches={batches}\n".encode())
    runs = [batches_of(room, out) for out in outs]
    assert [name for run in runs for name in run] == batches_of(room, file), f"the runs are {runs}"
    room.ok("merge", "--quiet", "whole", *outs)
    room.ok("merge", "--quiet", "before", file)
    assert room.get("whole") == room.get("before"), "merged they are another file"
    for query in QUERIES:
        for at, out in enumerate(outs):
            room.put(f"partial-{at}", room.ok("partial", out, query))
        random.shuffle(order := list(range(len(outs))))
        room.put("partial", room.ok("combine", *(f"partial-{at}" for at in order)))
        assert room.ok("finish", "partial") == room.ok("query", file, query), f"{query} is answered otherwise"
    for name in ["whole", "before", "partial", *(f"partial-{at}" for at in range(len(outs)))]:
        os.remove(room.path(name))
    return runs


def a_spread_file_is_that_file_when_it_is_merged(room):
    for sizes, count in (([], 1), ([], 3), ([3], 1), ([3], 3), ([3, 900], 2), ([2, 5, 1, 4], 3), ([2, 5, 1, 4], 4), ([2, 5, 1, 4], 7), ([1500, 1, 1, 1, 1], 5), ([1, 1, 1, 1, 1500], 2)):
        loaded(room, "t", sizes)
        runs = is_spread(room, "t", [f"s{at}" for at in range(count)], len(sizes))
        assert all(runs) or len(sizes) < count, f"one of {runs} is empty"
        for name in ("t", *(f"s{at}" for at in range(count))):
            os.remove(room.path(name))
    room.only()


def a_thousand_batches_are_spread_evenly(room):
    draw = random.Random(7)
    batches = [(f"{origin}.{number}", [(draw.randrange(50), draw.randrange(2**40)) for _ in range(draw.choice((1, 2, 30, 90)))]) for origin in (1, 3, 7, 4_000_000_000) for number in range(1, 251)]
    put_batches(room, "t", draw.sample(batches, len(batches)), [(draw.choice(batches)[0], 0, draw.randrange(100)) for _ in range(200)])
    whole = os.path.getsize(room.path("t"))
    for count in (2, 9, 30):
        outs = [f"s{at}" for at in range(count)]
        runs = is_spread(room, "t", outs, 1000)
        assert all(runs)
        sizes = [os.path.getsize(room.path(out)) for out in outs]
        # A batch has 1,100 bytes at most, besides up to 4,000 bytes of deletions; the head of a file has less than 200 bytes.
        assert max(sizes) <= whole / count + 1_100 + 200 + 4_000, f"the files have {sizes} of {whole} bytes"
        for out in outs:
            os.remove(room.path(out))


def files_have_equal_bytes_and_not_equal_numbers_of_batches(room):
    """Of eight batches of one row and four long ones after them each of four files has a long one."""
    loaded(room, "t", [1] * 8 + [9000] * 4)
    whole = os.path.getsize(room.path("t"))
    outs = ["a", "b", "c", "d"]
    runs = is_spread(room, "t", outs, 12)
    sizes = [os.path.getsize(room.path(out)) for out in outs]
    # The head of a file, and a batch of one row, have less than 100 bytes.
    assert [len(run) for run in runs] == [9, 1, 1, 1] and max(sizes) <= whole / 4 + 1_000, f"the files have {sizes} of {whole} bytes, and {runs}"


def deletions_go_with_their_batches_and_strays_to_the_first(room):
    # Rows that the batch doesn't have, and rows of batches that aren't there: before all others, between them and after them.
    deletions = [("1.3", 5, 9), ("1.4", 100, 200), ("1.1", 65_535, 65_535), ("1.9", 0, 3), ("7.1", 1, 1), ("1.2", 0, 0)]
    batches = [(f"1.{number}", [(at, number * at) for at in range(40)]) for number in (1, 2, 3, 4)]
    put_batches(room, "t", batches, deletions)
    runs = is_spread(room, "t", ["a", "b", "c"], 4)
    assert all(runs)
    ranges = [int(room.ok("check", out).decode().split("ranges=")[1]) for out in ("a", "b", "c")]
    wanted = [len(run) + 2 * (at == 0) for at, run in enumerate(runs)]
    assert ranges == wanted, f"the files have {ranges} ranges, not {wanted}"
    # A batch that comes to the first file after its deletion comes without these rows.
    room.ok("import", "--no-header", "--batch", "1.9", "a", "-", given=rows_text(6))
    room.ok("merge", "--quiet", "m", "a", "b", "c")
    room.ok("import", "--no-header", "--batch", "1.9", "t", "-", given=rows_text(6))
    assert room.get("m") == room.get("t")


def folders_are_spread_and_made(room):
    room.ok("create", "d/", "T", "A", "SMALLINT", "B", "BIGINT")
    for number in range(1, 6):
        room.ok("import", "--no-header", "--batch", f"2.{number}", "d", "-", given=rows_text(20, number))
    room.ok("delete", "d", "B > 9000000")
    runs = is_spread(room, "d", ["x/", "y", "z/"], 5)
    assert all(runs) and os.path.isdir(room.path("x")) and os.path.isfile(room.path("y")) and len(os.listdir(room.path("z"))) == 1
    # What was made is a folder like others.
    room.ok("import", "--no-header", "x", "-", given=b"1,1\n")
    room.ok("pack", "--all", "x")
    room.ok("spread", "--quiet", "x/", "w", prints=b"")
    room.only("d", "w", "x", "y", "z")


def what_is_there_is_not_replaced(room):
    held = loaded(room, "t", [3, 4])
    os.mkdir(room.path("d"))
    os.symlink("nowhere", room.path("link"))
    os.symlink("d", room.path("to-d"))
    there, folder = (f"there is a {kind} of this name already" for kind in ("file", "folder"))
    twice = "this OUT is named twice"
    for outs, named, why in (
        (["t"], "t", there), (["a", "t"], "t", there), (["a", "d"], "d", folder), (["d/"], "d/", folder), (["a/", "link"], "link", there), (["link/", "a"], "link/", there),
        (["a", "a"], "a", twice), (["a", "b", "./a"], "./a", twice), (["a", "a/"], "a/", twice), (["d/a", "to-d/a"], "to-d/a", twice), (["a/", "d/../a"], "d/../a", twice), ([room.path("a"), "a"], "a", twice),
        (["/"], "/", folder), (["."], ".", folder),
    ):
        room.refused("spread", "t", *outs, line="refused Exists", sentence=f"{named}: {why}")
        assert os.listdir(room.path("d")) == []
        room.only("d", "link", "t", "to-d")
    # The file is judged first.
    room.put("bad", held[:-1])
    room.refused("spread", "bad", "t", line=f"refused Truncated {len(held) - 1}")
    room.refused("spread", "none", "t", "t", line="refused ReadFault", sentence="none: no such file or folder")
    assert room.get("t") == held


def one_that_is_not_written_takes_all_away(room):
    held = loaded(room, "t", [3, 4, 9_000])
    room.refused("spread", "t", "a", "none/b", "c", line="refused WriteFault", sentence="none/b: there is no such folder")
    room.only("t")
    room.refused("spread", "t", "a/", "b", "none/c/", line="refused WriteFault")
    room.only("t")
    # The third is larger than a file may be.
    room.refused("spread", "t", "a/", "b", "c", line="refused WriteFault", sentence="c: the file would be larger than is allowed", preexec_fn=limited(4_096))
    room.only("t")
    room.refused("spread", "t", "a", "b", "c/", line="refused WriteFault", preexec_fn=limited(4_096))
    room.only("t")
    assert room.get("t") == held
    is_spread(room, "t", ["a", "b", "c"], 3)


def a_spread_that_is_killed_leaves_the_first_of_them_whole(room):
    loaded(room, "t", [70] * 8)
    outs = [f"s{at}" for at in range(8)]
    room.ok("spread", "t", *outs)
    wanted = [room.get(out) for out in outs]
    for out in outs:
        os.remove(room.path(out))
    seen = set()
    for at in range(1, 60):
        strace = ["strace", "-f", "-o", os.devnull, "-e", f"inject=rename:signal=KILL:when={at}", room.program, "spread", "t", *outs]
        try:
            done = subprocess.run(strace, cwd=room.folder, capture_output=True, timeout=120)
        except FileNotFoundError:
            raise Lacking("strace is not installed")
        made = [out for out in outs if os.path.exists(room.path(out))]
        assert made == outs[: len(made)], f"{made} were made"
        assert [room.get(out) for out in made] == wanted[: len(made)], "one of them is not whole"
        seen.add(len(made))
        for name in room.names():
            if name != "t":
                os.remove(room.path(name))
        if done.returncode not in (-signal.SIGKILL, 128 + signal.SIGKILL):
            assert len(made) == 8, f"{done.stderr[-200:]!r}"
            break
    assert seen >= set(range(1, 9)), f"kills left {seen}"


def an_out_that_comes_meanwhile_is_not_replaced(room):
    """The second OUT is locked by somebody, who makes it and lets the lock go, or who keeps the lock."""
    loaded(room, "t", [3, 4])
    for is_made, line in ((True, "refused Exists"), (False, "refused Busy")):
        with taken(room, ".b.lanes-lock"):
            run = room.start("spread", "t", "a", "b")
            deadline = time.monotonic() + 20
            while "a" not in room.names():
                assert time.monotonic() < deadline and run.poll() is None, f"the first was not made: {run.stderr.read()!r}"
                time.sleep(0.02)
            time.sleep(0.3)
            if is_made:
                room.put("b", b"mine")
            else:
                run.wait(60)
        out, err = run.communicate(timeout=60)
        assert (run.returncode, out, err.decode().split("\n")[0]) == (1, b"", line), f"it said {err!r}"
        assert not is_made or room.get("b") == b"mine"
        # A lock that somebody left stays only if it was never had.
        room.only("t", *(["b"] if is_made else [".b.lanes-lock"]))
        for name in set(room.names()) - {"t"}:
            os.remove(room.path(name))


def an_out_whose_folder_can_not_be_synced_is_told_and_is_there(room):
    loaded(room, "t", [3, 4])
    for outs, when, told in ((["a"], 2, "a"), (["a", "b"], 4, "b"), (["a/"], 3, "a/"), (["a", "b/"], 5, "b/")):
        trace, status, err = traced_at(room, ("spread", "t", *outs), ("-e", "trace=fsync", "-e", f"inject=fsync:error=EIO:when={when}"))
        err = err.decode()
        assert status == 0 and trace.count("fsync(") == when, f"{outs}: {err!r} {trace}"
        assert err.startswith(f"{told}: ") and "could not be synced: a loss of power may" in err and err.count("\n") == 1, f"{outs} said {err!r}"
        room.ok("merge", "m", *(out.rstrip("/") for out in outs))
        assert room.get("m") == room.get("t")
        for name in set(room.names()) - {"t"}:
            shutil.rmtree(room.path(name)) if os.path.isdir(room.path(name)) else os.remove(room.path(name))


TESTS = [
    a_spread_file_is_that_file_when_it_is_merged,
    a_thousand_batches_are_spread_evenly,
    files_have_equal_bytes_and_not_equal_numbers_of_batches,
    deletions_go_with_their_batches_and_strays_to_the_first,
    folders_are_spread_and_made,
    what_is_there_is_not_replaced,
    one_that_is_not_written_takes_all_away,
    a_spread_that_is_killed_leaves_the_first_of_them_whole,
    an_out_that_comes_meanwhile_is_not_replaced,
    an_out_whose_folder_can_not_be_synced_is_told_and_is_there,
]
