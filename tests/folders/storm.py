"""Importers, packers, forgetters and readers in one folder at once, killed at random. A ledger has what was answered: it is there at every
reading that began later, and at the end all of it is there once."""

import os
import random
import re
import signal
import subprocess
import threading
import time

from ledger import ROWS, Ledger, counts_of, faults_of, values_of
from parts import all_are_named, make_folder, parts_of

SECONDS = 20
IMPORTERS = 3
PACKERS = 2
READERS = 2
DROPPERS = 2
FORGETTERS = 2

#: The least value of column A in rows that are deleted again.
DROPPED = 500
KEYS = 100_000


def rows_text(key):
    """The rows of a load, whose first column says who loads it."""
    return "".join(f"{key // KEYS},{value}\n" for value in values_of(key)).encode()


def stays(key):
    """Whether a load is never deleted."""
    return key < DROPPED * KEYS


class Storm:
    def __init__(self, room, seconds=None):
        self.room, self.ends = room, time.monotonic() + (seconds or SECONDS)
        self.lock, self.ledger = threading.Lock(), Ledger()
        self.faults, self.counts = [], {}

    def is_over(self):
        return time.monotonic() >= self.ends or self.faults

    def add(self, kind, count=1):
        with self.lock:
            self.counts[kind] = self.counts.get(kind, 0) + count

    def run(self, pick, kind, words, given=b""):
        """What a run wrote if it ended well, which is counted; None if it was killed, as now and then one is, or found the folder busy."""
        with self.room.start(*words, stdin=subprocess.PIPE) as one:
            if pick.random() < 0.25:
                try:
                    one.stdin.write(given)
                    one.stdin.close()
                except OSError:
                    pass
                one.stdin = None
                time.sleep(pick.uniform(0, 0.06))
                one.send_signal(signal.SIGKILL)
                given = None
            out, err = one.communicate(given, timeout=120)
        if one.returncode == 0:
            self.add(kind)
            return out
        if one.returncode == -signal.SIGKILL:
            self.add("kills")
        elif not err.startswith(b"refused Busy\n"):
            self.faults.append(f"{words} said {err!r}")
        return None

    def load(self, pick, key, name=None):
        """Loads rows; under a given name it is sent again until it is answered."""
        self.ledger.note(begun=[key])
        words = ("import", "--no-header", *(("--batch", name) if name else ()), "d", "-")
        while self.run(pick, "imports", words, rows_text(key)) is None:
            if not name or self.faults:
                return
        self.ledger.note(answered=[key])

    def import_loads(self, importer):
        """Loads that stay. One of the importers gives each its name."""
        pick, number = random.Random(importer), 0
        while not self.is_over():
            number += 1
            self.load(pick, importer * KEYS + number, f"1.{number}" if importer == 0 else None)

    def apply_offers(self, applier):
        """Loads that come as files."""
        pick, number = random.Random(500 + applier), 0
        while not self.is_over():
            number += 1
            key, file = (100 + applier) * KEYS + number, f"offer{applier}"
            self.room.ok("create", file, "T", "A", "SMALLINT", "B", "BIGINT")
            self.room.ok("import", "--no-header", "--batch", f"{100 + applier}.{number}", file, "-", given=rows_text(key))
            self.ledger.note(begun=[key])
            if self.run(pick, "applies", ("apply", "d", file)) is not None:
                self.ledger.note(answered=[key])
            os.remove(self.room.path(file))

    def pack(self, packer):
        pick = random.Random(100 + packer)
        while not self.is_over():
            self.run(pick, "packs", ("pack", "d") if pick.random() < 0.8 else ("pack", "--all", "d"))
            time.sleep(pick.uniform(0, 0.05))

    def drop_loads(self, dropper):
        """Loads that are deleted again: by their names, or all of them by a condition."""
        pick, number = random.Random(300 + dropper), 0
        while not self.is_over():
            number += 1
            group = DROPPED + dropper
            key, name = group * KEYS + number, f"{dropper + 1_000}.{number}"
            self.load(pick, key, name)
            by_name = pick.random() < 0.7
            keys = [key] if by_name else [group * KEYS + at for at in range(1, number + 1)]
            self.ledger.note(drops_begun=keys)
            if self.run(pick, "deletes", ("delete-rows", "d", name, "0", "65535") if by_name else ("delete", "d", f"A = {group}")) is not None:
                self.ledger.note(dropped=keys)

    def forget(self, forgetter):
        pick = random.Random(400 + forgetter)
        while not self.is_over():
            out = self.run(pick, "forgets", ("forget", "d"))
            if out is not None:
                self.add("forgotten", int(re.match(rb"ok batches=(\d+) rows=\d+\n$", out)[1]))
            time.sleep(pick.uniform(0, 0.05))

    def read(self, reader):
        """Counts the rows that stay, or reads all rows, and compares them with what was answered before and begun until the end."""
        pick = random.Random(200 + reader)
        while not self.is_over():
            before, counts = self.ledger.moment(), pick.random() < 0.7
            out = self.run(pick, "readings", ("query", "d", f"SELECT COUNT(*) FROM T WHERE A < {DROPPED}") if counts else ("dump", "d"))
            if out is None:
                continue
            after, lines = self.ledger.moment(), out.split(b"\n")[1:-1]
            if counts:
                (least, most), rows = counts_of(before, after, stays), int(lines[0])
                if not (least * ROWS <= rows <= most * ROWS and rows % ROWS == 0):
                    self.faults.append(f"a reading counts {rows} rows; {least} loads were answered before it began, and {most} were begun when it ended")
            else:
                self.faults += [f"a reading: {fault}" for fault in faults_of([int(line.split(b",")[1]) for line in lines], before, after)]


def in_threads(storm, *works):
    """Each work so often at once, until the storm is over. What ends one of them early is a fault."""

    def whole(work, at):
        try:
            work(at)
        except Exception as fault:
            storm.faults.append(f"{work.__name__}: {fault!r}")

    threads = [threading.Thread(target=whole, args=(work, at)) for work, count in works for at in range(count)]
    for thread in threads:
        thread.start()
    for thread in threads:
        thread.join()


def rows_left(room, storm):
    """The rows of a folder, once it is packed, each with its name. All that was answered is among them, once."""
    all_are_named(room)
    room.ok("pack", "--all", "d")
    assert sorted(os.listdir(room.path("d"))) == parts_of(room) and len(parts_of(room)) == 1
    rows = [line.split(",") for line in room.ok("dump", "--names", "d").decode().split("\n")[1:-1]]
    now = storm.ledger.moment()
    faults = faults_of([int(row[-1]) for row in rows], now, now)
    assert not faults, f"{len(faults)} faults at the end: {faults[0]}"
    return rows


def told(name, storm, *kinds):
    """Prints what was done. Each of these kinds was, and no reading and no answer is at fault."""
    assert not storm.faults, f"{len(storm.faults)} faults: {storm.faults[0]}"
    now = storm.ledger.moment()
    print(f"{name}: {storm.counts} in {SECONDS} s; {len(now.answered)} of {len(now.begun)} loads were answered, {len(now.dropped)} deleted")
    assert all(storm.counts.get(kind) for kind in ("imports", "applies", "packs", "readings", "kills", *kinds)), f"too little was done: {storm.counts}"


def nothing_is_lost_in_a_storm(room):
    make_folder(room, loads=0)
    storm = Storm(room)
    in_threads(storm, (storm.import_loads, IMPORTERS), (storm.apply_offers, 1), (storm.pack, PACKERS), (storm.read, READERS))
    told("nothing_is_lost_in_a_storm", storm)
    rows_left(room, storm)


def forgets_lose_nothing_in_a_storm(room):
    """Loads that stay, and others that are deleted again and forgotten, beside packs and readers."""
    make_folder(room, loads=0)
    storm = Storm(room)
    others = ((storm.drop_loads, DROPPERS), (storm.forget, FORGETTERS), (storm.pack, PACKERS - 1), (storm.read, READERS))
    in_threads(storm, (storm.import_loads, IMPORTERS - 1), (storm.apply_offers, 1), *others)
    told("forgets_lose_nothing_in_a_storm", storm, "deletes", "forgets", "forgotten")
    room.ok("forget", "d")
    rows = rows_left(room, storm)
    # No dead batch is left: a batch for each name that a live row has.
    said, names = room.ok("check", "d").decode(), {row[0] for row in rows}
    assert said.startswith(f"ok batches={len(names)} "), f"{len(names)} batches are alive, and a check said {said!r}"


TESTS = [nothing_is_lost_in_a_storm, forgets_lose_nothing_in_a_storm]
