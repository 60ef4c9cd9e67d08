"""A folder of parts that the second program keeps at the same time as the first one, by what docs/FORMATS.md says of folders alone."""

import contextlib
import fcntl
import hashlib
import os
import random
import re
import secrets
import subprocess
import time
from concurrent.futures import ThreadPoolExecutor

from files import Schema, State, file_bytes, read_file
from query_text import Fault

SCHEMA = Schema("T", (("A", "INTEGER"),))
PART = re.compile(r"[0-9a-f]{32}\.lanes")
SECONDS = 10


class Folder:
    """The second program's hold on a folder. A wrong one takes no lock to put a part under a given name."""

    def __init__(self, path, is_wrong=False):
        self.path, self.is_wrong = path, is_wrong

    @contextlib.contextmanager
    def locked(self, kind):
        descriptor, end = os.open(self.path, os.O_RDONLY | os.O_DIRECTORY), time.monotonic() + SECONDS
        try:
            while True:
                try:
                    fcntl.flock(descriptor, kind | fcntl.LOCK_NB)
                    break
                except BlockingIOError:
                    if time.monotonic() > end:
                        raise Fault("Busy") from None
                    time.sleep(0.01)
            yield
        finally:
            os.close(descriptor)

    def names(self):
        return {name for name in os.listdir(self.path) if PART.fullmatch(name)}

    def listed(self):
        with self.locked(fcntl.LOCK_SH):
            return self.names() | self.names()

    def read(self):
        """The names of the parts, and what they hold together. If one is gone meanwhile, it begins anew."""
        while True:
            names, state = self.listed(), State()
            try:
                for name in sorted(names):
                    self.join(state, name)
                return names, state
            except FileNotFoundError:
                continue

    def join(self, state, name):
        with open(os.path.join(self.path, name), "rb") as file:
            data = file.read()
        if name_of(data) != name:
            raise Fault("Damaged")
        _, part = read_file(data)
        for batch, rows in sorted(part.batches.items()):
            if state.batches.setdefault(batch, rows) != rows:
                raise Fault(f"Conflict {batch[0]}.{batch[1]}")
        state.deleted |= part.deleted

    def put(self, data):
        """Puts a part: a temporary with a lock, synced, and a hard link."""
        temporary = os.path.join(self.path, f".part-{secrets.token_hex(8)}")
        with open(temporary, "xb") as file:
            fcntl.flock(file, fcntl.LOCK_EX)
            file.write(data)
            file.flush()
            os.fsync(file.fileno())
            with contextlib.suppress(FileExistsError):
                os.link(temporary, os.path.join(self.path, name_of(data)))
            os.unlink(temporary)
        self.sync()

    def sync(self):
        descriptor = os.open(self.path, os.O_RDONLY | os.O_DIRECTORY)
        os.fsync(descriptor)
        os.close(descriptor)

    def load(self, name, rows, meanwhile=lambda: None):
        """Puts a batch under a given name, and answers as the first program does. `meanwhile` is called between the look and the lock."""
        data = file_bytes(SCHEMA, State({name: rows}))
        while True:
            seen, state = self.read()
            if state.batches.get(name, rows) != rows:
                return f"refused Conflict {name[0]}.{name[1]}"
            meanwhile()
            if self.is_wrong:
                return self.put(data) or "ok"
            with self.locked(fcntl.LOCK_EX):
                if self.names() <= seen:
                    return self.put(data) or "ok"

    def pack(self):
        """Joins all parts into one, and removes them under the lock if all are still there."""
        seen, state = self.read()
        data = file_bytes(SCHEMA, state)
        with self.locked(fcntl.LOCK_EX):
            if seen <= self.names():
                self.put(data)
                for name in seen - {name_of(data)}:
                    os.unlink(os.path.join(self.path, name))
                self.sync()


def name_of(data):
    return f"{hashlib.sha512(data).hexdigest()[:32]}.lanes"


def start(program, room, *words):
    return subprocess.Popen([program, *words], cwd=room, stdin=subprocess.PIPE, stdout=subprocess.PIPE, stderr=subprocess.STDOUT, text=True)


def said(program, room, *words, given=""):
    """The first word, or the refusal, that the first program prints."""
    line = start(program, room, *words).communicate(given, timeout=60)[0].splitlines()[0]
    return line if line.startswith("refused") else line.split()[0]


def loaded(program, room, number, value):
    return said(program, room, "import", "--no-header", "--batch", f"1.{number}", "d", "-", given=f"{value}\n")


def a_load_that_comes_between_is_seen(program, room, folder):
    """The first program loads other rows under the name after the second one has looked. So the folder never has both."""
    found = folder.load((1, 1), ((2,),), meanwhile=lambda: loaded(program, room, 1, 1))
    assert (found, said(program, room, "check", "d")) == ("refused Conflict 1.1", "ok"), found


def a_load_waits_for_the_lock(program, room, folder):
    """The first program waits while the second one has the lock and puts other rows under the same name."""
    with folder.locked(fcntl.LOCK_EX):
        waiting = start(program, room, "import", "--no-header", "--batch", "1.1", "d", "-")
        waiting.stdin.write("1\n")
        waiting.stdin.close()
        time.sleep(0.3)
        assert waiting.poll() is None, "the load did not wait"
        folder.put(file_bytes(SCHEMA, State({(1, 1): ((2,),)})))
    assert waiting.stdout.readline() == "refused Conflict 1.1\n" and waiting.wait() == 1, "the load was taken"
    waiting.stdout.close()


def a_pack_waits_for_who_lists(program, room, folder):
    for number in 1, 2, 3:
        loaded(program, room, number, number)
    with folder.locked(fcntl.LOCK_SH):
        names, packing = folder.names(), start(program, room, "pack", "--all", "d")
        time.sleep(0.3)
        assert packing.poll() is None and folder.names() == names, "the pack did not wait"
    assert packing.communicate(timeout=60)[0] == "ok parts=1 packed=4\n" and len(folder.read()[1].batches) == 3, "a row is lost"


def loads_and_packs_of_both_at_once(program, room, folder):
    """Of two loads under one name one is taken, and its rows stay."""
    pick, taken = random.Random(1), {}
    with ThreadPoolExecutor(4) as pool:
        for number in range(1, 31):
            packs = [pool.submit(folder.pack), pool.submit(said, program, room, "pack", "--all", "d")] if number % 3 == 0 else []
            loads = [(1, loaded, program, room, number, 1), (2, folder.load, (1, number), ((2,),))]
            pick.shuffle(loads)
            running = [(value, pool.submit(*words)) for value, *words in loads]
            answers = {load.result(): value for value, load in running}
            assert sorted(answers) == ["ok", f"refused Conflict 1.{number}"], answers
            taken[number] = answers["ok"]
            for pack in packs:
                pack.result()
    state = folder.read()[1]
    assert {name[1]: rows[0][0] for name, rows in state.batches.items()} == taken, "a load that was taken has other rows"
    assert said(program, room, "check", "d") == "ok"


def a_second_program_without_the_lock_is_seen(program, room, folder):
    """What the tests above would say of a program that puts a load without the exclusive lock."""
    wrong = Folder(folder.path, is_wrong=True)
    assert wrong.load((1, 1), ((2,),), meanwhile=lambda: loaded(program, room, 1, 1)) == "ok"
    assert said(program, room, "check", "d") == "refused Conflict 1.1"


TESTS = [
    a_load_that_comes_between_is_seen,
    a_load_waits_for_the_lock,
    a_pack_waits_for_who_lists,
    loads_and_packs_of_both_at_once,
    a_second_program_without_the_lock_is_seen,
]


def fault_of(test, program, room):
    """What is wrong by a test of a new folder `d` in a room, or None."""
    try:
        assert said(program, room, "create", "d/", "T", "A", "INTEGER") == "ok"
        test(program, room, Folder(os.path.join(room, "d")))
    except (AssertionError, Fault, OSError, subprocess.SubprocessError) as fault:
        return repr(fault)
    return None
