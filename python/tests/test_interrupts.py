"""Ctrl-C at each step of Python that a call takes: it is raised, and what the call had made is given back."""

from __future__ import annotations

import contextlib
import gc
import os
import pathlib
import random
import signal
import sys
import tempfile
import threading
import time
import types
import unittest
from typing import Any, Callable, Optional

import lanes
from lanes import Folder, Table, owned

#: The files in whose steps the interrupts come: those of the module, and of what its blocks are made of.
INSIDE = os.path.dirname(lanes.__file__), contextlib.__file__

#: Whether a step is a line: since 3.12 Python tells of no smaller ones, unless a frame was traced before.
BY_LINES = sys.version_info >= (3, 12)

#: How many interrupts come in all steps of a call at most.
MOST = 100


class _At:
    """Raises KeyboardInterrupt before a step of the module, counted from 0, and counts the steps."""

    def __init__(self, step: int) -> None:
        self.step, self.steps = step, 0

    def __call__(self, frame: types.FrameType, event: str, argument: Any) -> Optional[Callable[..., Any]]:
        if not frame.f_code.co_filename.startswith(INSIDE):
            return None
        frame.f_trace_opcodes, frame.f_trace_lines = not BY_LINES, BY_LINES
        if event == ("line" if BY_LINES else "opcode"):
            self.steps += 1
            if self.steps > self.step >= 0:
                self.step = sys.maxsize
                raise KeyboardInterrupt
        return self


def steps_of(act: Callable[[], object], step: int = -1) -> int:
    """How many steps a call takes, one of which may be interrupted."""
    at = _At(step)
    sys.settrace(at)
    try:
        act()
    finally:
        sys.settrace(None)
    return at.steps


def held() -> tuple[int, int]:
    """How many files are open, and how many locks this process has."""
    locks = [line.split()[4] for line in pathlib.Path("/proc/locks").read_text().splitlines() if " -> " not in line]
    return len(os.listdir("/proc/self/fd")), locks.count(str(os.getpid()))


class Interrupts(unittest.TestCase):
    def setUp(self) -> None:
        room = tempfile.TemporaryDirectory(prefix="lanes-interrupts-")
        self.addCleanup(room.cleanup)
        self.room, self.path = room.name, os.path.join(room.name, "t.lanes")
        self.table = Table.create("T", {"A": "INTEGER"}).import_csv("A\n1\n2\n", batch="1.1")
        self.table.save(self.path)
        lost = sys.unraisablehook
        self.lost: list[object] = []
        sys.unraisablehook = lambda told: self.lost.append(told.exc_value)
        self.addCleanup(setattr, sys, "unraisablehook", lost)

    def update(self) -> None:
        with lanes.update(self.path) as change:
            change.table = change.table.import_csv("A\n3\n")

    def gives_back(self, act: Callable[[], object]) -> None:
        """An interrupt at each step of a call is raised, and afterwards no more is held than before."""
        act()
        steps, lost = steps_of(act), 0
        gc.collect()
        before = held()
        for step in range(random.randrange(-(-steps // MOST)), steps, -(-steps // MOST)):
            try:
                steps_of(act, step)
                lost += 1
            except KeyboardInterrupt:
                pass
        gc.collect()
        owned.close_left()
        self.assertEqual((held(), self.lost), (before, []))
        # A call need not take as many steps each time, as of one that draws a name.
        self.assertLessEqual(lost, 20)
        self.assertEqual([name for name in os.listdir(self.room) if name.endswith(".lanes-lock")], [])

    def test_no_thread_waits_for_one_that_was_interrupted(self) -> None:
        """An interrupt at each step of closing what was left: another thread's call ends, and nothing stays open."""

        def leave_and_close() -> None:
            owned.OpenFile().open(self.path, os.O_RDONLY)
            owned.close_left()

        leave_and_close()
        before = held()
        for step in range(steps_of(leave_and_close)):
            with contextlib.suppress(KeyboardInterrupt):
                steps_of(leave_and_close, step)
            thread = threading.Thread(target=Table.open, args=(self.path,), daemon=True)
            thread.start()
            thread.join(20)
            self.assertFalse(thread.is_alive(), step)
        owned.close_left()
        self.assertEqual((held(), self.lost), (before, []))

    def test_opening(self) -> None:
        data = self.table.to_bytes()
        self.gives_back(lambda: Table.open(self.path))
        self.gives_back(lambda: Table.from_bytes(data).query("SELECT COUNT(*) FROM T"))

    def test_saving(self) -> None:
        self.gives_back(lambda: self.table.save(self.path))
        self.gives_back(lambda: self.table.save(os.path.join(self.room, f"{random.getrandbits(64)}.lanes")))

    def test_updating(self) -> None:
        self.gives_back(self.update)

    def test_imports(self) -> None:
        self.gives_back(lambda: self.table.import_csv("A\n3\n"))
        self.gives_back(lambda: self.table.apply(Table.create("T", {"A": "INTEGER"}).import_csv("A\n3\n").to_bytes()))

    def test_folders(self) -> None:
        folder = Folder.of(os.path.join(self.room, "site"), self.table)
        self.gives_back(lambda: folder.import_csv("A\n3\n"))
        self.gives_back(lambda: folder.import_csv("A\n1\n2\n", batch="1.1"))
        self.gives_back(folder.pack)

    def test_each_signal_is_raised(self) -> None:
        """The timer's, at random moments: they come only where Python looks for signals."""

        def ring(*_: object) -> None:
            rung.append(1)
            raise KeyboardInterrupt

        rung: list[int] = []
        self.addCleanup(signal.signal, signal.SIGALRM, signal.signal(signal.SIGALRM, ring))
        self.update()
        begun = time.perf_counter()
        self.update()
        took, raised, before = time.perf_counter() - begun, 0, held()
        for _ in range(100):
            try:
                signal.setitimer(signal.ITIMER_REAL, random.uniform(1e-5, took))
                self.update()
                signal.setitimer(signal.ITIMER_REAL, 0)
            except KeyboardInterrupt:
                raised += 1
        gc.collect()
        owned.close_left()
        self.assertEqual((raised, held(), self.lost), (len(rung), before, []))

    def test_what_is_open_in_the_library_is_closed_once_its_owner_is_gone(self) -> None:
        """Files of 4 MB whose opening is interrupted, and tables that are in a circle: the memory is given back."""
        data = Table.create("T", {"A": "BIGINT"}).import_csv("A\n" + "".join(f"{random.getrandbits(62)}\n" for _ in range(500_000))).to_bytes()

        def in_circle() -> None:
            circle: list[object] = [Table.from_bytes(data)]
            circle.append(circle)

        def resident() -> int:
            gc.collect()
            return int(pathlib.Path("/proc/self/statm").read_text().split()[1]) * os.sysconf("SC_PAGE_SIZE")

        in_circle()
        steps, before = steps_of(lambda: Table.from_bytes(data)), resident()
        for step in range(0, steps, -(-steps // 40)):
            with contextlib.suppress(KeyboardInterrupt):
                steps_of(lambda: Table.from_bytes(data), step)
        for _ in range(20):
            in_circle()
            gc.collect()
        self.assertLess(resident() - before, 8 * len(data))


if __name__ == "__main__":
    unittest.main()
