"""Processes that change a file or a folder and are killed at random moments: what they had answered is there afterwards, whole, and the next one
goes on.

    kills.py file|folder PATH ORIGIN        what is killed: it imports row after row under names of an origin, and prints each number once its
                                            import has returned; in a folder it also deletes others, packs and forgets"""

from __future__ import annotations

import os
import random
import signal
import subprocess
import sys
import tempfile
import threading
import time

import lanes

#: What is added to the origin of rows that are deleted at once.
_DROPPED = 1_000


def changing(kind, path, origin):
    """Imports for ever."""
    number = 0
    while True:
        number += 1
        if kind == "file":
            with lanes.update(path) as change:
                change.table = change.table.import_csv(f"{number}\n", heading=False, batch=(origin, number))
        else:
            folder = lanes.Folder(path)
            folder.import_csv(f"{number}\n", heading=False, batch=(origin, number))
            folder.import_csv(f"{number}\n", heading=False, batch=(origin + _DROPPED, number))
            folder.delete_rows((origin + _DROPPED, number), 0)
            if number % 3 == 0:
                folder.pack(everything=number % 2 == 0)
            if number % 4 == 0:
                folder.forget()
        print(number, flush=True)


def killed(kind, path, origin, seconds):
    """The greatest number that a process printed before it was killed."""
    child = subprocess.Popen([sys.executable, __file__, kind, path, str(origin)], stdout=subprocess.PIPE, text=True)
    first = child.stdout.readline()  # it has begun
    time.sleep(seconds)
    child.send_signal(signal.SIGKILL)
    rest = child.stdout.read().split()
    child.wait(30)
    child.stdout.close()
    assert first, "it ended before it was killed"
    return int(rest[-1] if rest else first)


def killed_changes_lose_nothing_that_was_answered(kind, seed=1, rounds=6):
    pick = random.Random(seed)
    empty = lanes.Table.create("T", {"A": "INTEGER"})
    with tempfile.TemporaryDirectory(prefix="lanes-kills-") as room:
        path = os.path.join(room, "t")
        if kind == "file":
            empty.save(path)
        else:
            lanes.Folder.of(path, empty)
        answered = {}
        for step in range(rounds):
            origins = [2 * step + 1, 2 * step + 2]
            threads = [threading.Thread(target=lambda origin, seconds: answered.update({origin: killed(kind, path, origin, seconds)}), args=(origin, pick.random() * 0.4)) for origin in origins]
            for thread in threads:
                thread.start()
            for thread in threads:
                thread.join(60)
            table = lanes.Table.open(path) if kind == "file" else lanes.Folder(path).read()
            counts = {}
            for line in table.dump(names=True).splitlines()[1:]:
                name, _, value = line.split(",")
                origin, number = map(int, name.split("."))
                assert number == int(value)
                if origin > _DROPPED:  # it was killed before it deleted this one
                    continue
                counts[origin] = max(counts.get(origin, 0), number)
            assert len(answered) == 2 * step + 2
            for origin, number in answered.items():
                assert number <= counts.get(origin, 0) <= number + 1, f"{number} of {origin} were answered, and {counts.get(origin, 0)} are there"
            assert 0 <= len(table) - sum(counts.values()) <= len(answered)
        if kind == "file":
            with lanes.update(path) as change:
                change.table = change.table.import_csv("0\n", heading=False, batch="999.1")
            assert os.listdir(room) == ["t"]
        else:
            lanes.Folder(path).forget()
            held = lanes.Folder(path).read()
            assert held.forget() == held
            parts, _ = lanes.Folder(path).pack(everything=True)
            assert parts == 1 and os.listdir(path) == lanes.Folder(path).parts()


if __name__ == "__main__":
    changing(sys.argv[1], sys.argv[2], int(sys.argv[3]))
