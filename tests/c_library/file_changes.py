"""Files that programs in C change by c/lanes_file_driver.c: beside the program, killed at each system call, and with each of them failing."""

import concurrent.futures
import fcntl
import os
import pathlib
import random
import re
import subprocess
import tempfile
import time

from compiling import C99, CPP17, DRIVERS, TOP, compiled, valgrind
from injecting import each_call, held_file, traced
from replacing import as_nobody
from room import Room

LOCK = ".t.lanes-lock"
HERE = pathlib.Path(__file__).resolve().parent

#: Calls without which a lock may stay: it can't be removed, or it was made and could not be locked. The next command takes it.
LEAVES_A_LOCK = ("unlink,unlinkat", "flock")
MAKE = ("t", "make", "T A INTEGER")

#: How the driver takes the lock.
TAKES_LOCK = "flock(held->lock, LOCK_EX | LOCK_NB)"


def rooms(library, folder, driver=DRIVERS["file_driver"]):
    """A folder, with the example that changes files as its program, and with the program itself."""
    example = compiled(library, folder, "changes_file", TOP / "c" / "changes_file.c", driver)
    (folder / "site").mkdir()
    return Room(os.fspath(example), os.fspath(folder / "site")), Room(os.fspath(TOP / "lanes"), os.fspath(folder / "site"))


def tried_under(library, folder, name, *driver):
    """A program that counts what holds is right as C99, as C++17, and under valgrind, each time in a folder of its own."""
    for standard, under in ((C99, ()), (CPP17, ()), (C99, valgrind("--leak-check=full", "--show-leak-kinds=all", "--errors-for-leak-kinds=all"))):
        program = compiled(library, folder, name, HERE / f"{name}.c", *driver, standard=standard)
        with tempfile.TemporaryDirectory(dir=folder) as site:
            ran = subprocess.run([*under, program], cwd=site, capture_output=True, text=True, timeout=600)
        assert ran.returncode == 0 and re.fullmatch(rf"{name}: \d+ passed, 0 failed\n", ran.stdout), f"{under} {ran}"


def held_files_are_as_the_header_says(library, folder):
    tried_under(library, folder, "held_files", DRIVERS["file_driver"])


def a_change_without_memory_leaves_the_file_and_no_lock(library, folder):
    """The programs of this test and of the next one have the driver in them."""
    tried_under(library, folder, "held_memory")


def a_lock_that_others_rename_or_remove_is_not_had(library, folder):
    tried_under(library, folder, "held_races")


class Change:
    """A change of the file by the example: what the file holds before it and after it."""

    def __init__(self, example, program, words, earlier):
        self.example, self.program, self.words, self.earlier = example, program, words, earlier
        self.prepare()
        self.before = held_file(program)
        example.ok(*words, prints=b"ok\n")
        self.after = held_file(program)

    def prepare(self):
        for name in self.example.names():
            os.remove(self.example.path(name))
        for words in self.earlier:
            self.example.ok(*words)

    def judge(self, ended):
        """What an end has left is right, and the program goes on from there. No lock is left then."""
        at, now = f"{self.words}, {ended}", held_file(self.program)
        if ended.is_killed:
            assert now in (self.before, self.after), f"{at}: the file holds {now}"
            assert not ended.out or now == self.after, f"{at}: it had answered {ended.out!r}, and the file is the old one"
        elif ended.status == 0:
            assert ended.out == b"ok\n" and now == self.after, f"{at}: it answered {ended.out!r}, and the file holds {now}"
            assert ended.kind != "fsync" or b"could not be synced" in ended.err, f"{at}: it said {ended.err!r}"
        elif ended.err.startswith(b"standard output: "):
            assert ended.kind == "write" and now == self.after, f"{at}: it said {ended.err!r}, and the file holds {now}"
        else:
            is_told = ended.err.startswith(b"refused System: ") or ended.is_before_the_program()
            assert is_told and now == self.before, f"{at}: it said {ended.err!r}, and the file holds {now}"
        left = {LOCK} if ended.is_killed or ended.kind in LEAVES_A_LOCK else set()
        assert set(self.example.names()) - left == ({"t"} if now else set()), f"{at}: there are {self.example.names()}"
        if now:
            self.program.ok("delete-rows", "t", "9.9", "0", "0")
        else:
            self.program.ok("create", "t", "T", "A", "INTEGER")
        self.program.only("t")


def each_call_of_a_change_fails_and_kills_and_nothing_is_lost(library, folder):
    example, program = rooms(library, folder)
    load = ("t", "load", "1", "A\n1\n2\n")
    changes = ((MAKE, ()), (load, (MAKE,)), (load, (MAKE, load)), (("t", "delete", "A = 1"), (MAKE, load)), (("t", "import", "A\n3\n"), (MAKE,)))
    for words, earlier in changes:
        change, tried = Change(example, program, words, earlier), {}
        for ended in each_call(example, words, change.prepare):
            tried.setdefault((ended.kind, ended.is_killed), []).append(ended.when)
            change.judge(ended)
        is_put = change.before != change.after
        wanted = {"fsync": 2, "flock": 2, "ftruncate": is_put, "rename,renameat,renameat2": is_put, "unlink,unlinkat": not is_put}
        for kind, count in wanted.items():
            assert all(len(tried.get((kind, is_killed), [])) == count for is_killed in (False, True)), f"{words}: {kind}: {tried}"


#: The calls of a change that changes something, and of one that doesn't, in their order, as strace tells them.
PUT = [
    r'openat\(.*, "\.t\.lanes-lock", .*O_CREAT\|O_EXCL',
    r"flock\(.*, LOCK_EX\|LOCK_NB\) += 0",
    r"fchmod\(",
    r'openat\(.*, "t", O_WRONLY',
    r'openat\(.*, "t", O_RDONLY',
    r"ftruncate\(.*, 0\)",
    r"write\(",
    r"fsync\(.*lanes-lock>\)",
    r'rename.*"\.t\.lanes-lock".*"t"',
    r"fsync\([0-9]+<[^>]*/site>\) += 0",
]
KEPT = PUT[:5] + [r"fsync\([0-9]+<[^>]*/t>\) += 0", r"fsync\([0-9]+<[^>]*/site>\) += 0", r'unlinkat\(.*"\.t\.lanes-lock"']


def the_system_calls_are_those_of_the_program_in_their_order(library, folder):
    example, _ = rooms(library, folder)
    example.ok(*MAKE)
    for steps in PUT, KEPT:
        trace, done = traced(example, ("t", "load", "1", "A\n1\n"), "openat,flock,fchmod,ftruncate,write,fsync,rename,renameat,renameat2,unlink,unlinkat", "-y")
        assert done.returncode == 0, done
        place = 0
        for step in steps:
            found = re.compile(step).search(trace, place)
            assert found, f"{step} isn't in its place in\n{trace[-2000:]}"
            place = found.end()
        assert trace.count("fsync(") == 2 and ("rename" in trace) == (steps is PUT), trace


def a_file_that_may_not_be_written_is_refused_and_stays(library, folder):
    """As by the program, though the folder allows its replacement."""
    example, _ = rooms(library, folder)
    os.chmod(folder, 0o755)
    how = as_nobody(example)
    example.ok(*MAKE, **how)
    os.chmod(example.path("t"), 0o444)
    before, names = example.get("t"), example.names()
    for words in ("import", "A\n1\n"), ("load", "1", "A\n1\n"), ("delete", "A = 1"):
        example.refused("t", *words, line="refused System: the system refused a call on the file: Permission denied", **how)
        assert example.get("t") == before and example.names() == names, f"{words} left {example.names()}"


def rows_of(program, site="t"):
    """The rows of a file, and how often each is there."""
    lines = program.ok("query", site, "SELECT A,COUNT(*) FROM T GROUP BY A").decode().split()[1:]
    return {int(row): int(count) for row, count in (line.split(",") for line in lines)}


def storm(example, program, seconds):
    """Imports by the example and by the program at once, of which some are killed: the rows whose import was answered."""
    answered, ends = set(), time.monotonic() + seconds

    def write(worker):
        pick, number = random.Random(worker), 100_000 * worker
        while time.monotonic() < ends:
            number += 1
            words = [example.program, "t", "import", f"A\n{number}\n"] if worker % 2 else [program.program, "import", "t", "-"]
            child = subprocess.Popen(words, cwd=example.folder, stdin=subprocess.PIPE, stdout=subprocess.PIPE, stderr=subprocess.PIPE)
            try:
                out, said = child.communicate(f"A\n{number}\n".encode(), timeout=pick.uniform(0, 0.1) if number % 5 == 4 else 60)
            except subprocess.TimeoutExpired:
                child.kill()
                child.communicate()
                continue
            assert child.returncode == 0 and out.startswith(b"ok"), (words, said)
            answered.add(number)

    with concurrent.futures.ThreadPoolExecutor(6) as pool:
        list(pool.map(write, range(1, 7)))
    return answered


def imports_in_c_beside_imports_of_the_program_lose_nothing(library, folder):
    example, program = rooms(library, folder)
    example.ok(*MAKE)
    answered = storm(example, program, 6)
    there = rows_of(program)
    assert answered <= {*there} and {*there.values()} == {1}, f"{sorted(answered - {*there})[:9]} are lost, of {len(answered)}"
    assert any(row // 100_000 % 2 for row in answered) and any(row // 100_000 % 2 == 0 for row in answered), answered
    example.ok("t", "delete", "A >= 0", prints=b"ok\n")
    program.only("t")


def a_driver_without_a_lock_is_seen(library, folder):
    """The storm loses rows, or a change fails, if the driver replaces the file unlocked."""
    wrong, text = folder / "wrong.c", DRIVERS["file_driver"].read_text()
    assert text.count(TAKES_LOCK) == 1
    wrong.write_text(text.replace(TAKES_LOCK, "0"))
    example, program = rooms(library, folder, wrong)
    example.ok(*MAKE)
    try:
        answered = storm(example, program, 6)
    except AssertionError:
        return
    assert answered - {*rows_of(program)}, f"no row of {len(answered)} was lost without a lock"


def a_file_that_another_holds_is_busy_after_ten_seconds(library, folder):
    example, program = rooms(library, folder)
    example.ok(*MAKE)
    before = example.get("t")
    with open(example.path(LOCK), "wb") as lock:
        fcntl.flock(lock, fcntl.LOCK_EX)
        started = time.monotonic()
        waiting = [example.start("t", "import", f"A\n{row}\n") for row in range(3)]
        for one in waiting:
            _, said = one.communicate(timeout=60)
            assert one.returncode == 1 and said == b"refused Busy: another process has had the file for ten seconds\n", said
        assert 9 < time.monotonic() - started < 20 and example.get("t") == before
        waiting = [example.start("t", "import", f"A\n{row}\n") for row in range(3)]
        time.sleep(1)
        assert all(one.poll() is None for one in waiting)
    for one in waiting:
        assert one.communicate(timeout=60) == (b"ok\n", b"")
    assert rows_of(program) == {0: 1, 1: 1, 2: 1}
    program.only("t")


TESTS = [
    held_files_are_as_the_header_says,
    a_change_without_memory_leaves_the_file_and_no_lock,
    a_lock_that_others_rename_or_remove_is_not_had,
    a_file_that_may_not_be_written_is_refused_and_stays,
    the_system_calls_are_those_of_the_program_in_their_order,
    each_call_of_a_change_fails_and_kills_and_nothing_is_lost,
    imports_in_c_beside_imports_of_the_program_lose_nothing,
    a_driver_without_a_lock_is_seen,
    a_file_that_another_holds_is_busy_after_ten_seconds,
]
