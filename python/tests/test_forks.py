"""Children that are forked while other threads have locks: they keep none."""

from __future__ import annotations

import fcntl
import os
import signal
import subprocess
import threading
import time
import unittest
from typing import Callable, List

from folders import InFolder
from lanes import Table, owned, update
from test_updating import PROGRAM

#: How many children are forked, and how many seconds each sleeps.
CHILDREN, SLEEP = 60, 300


class Forks(InFolder):
    def forked_beside(self, *acts: Callable[[], object]) -> List[int]:
        """Children that were forked while threads do this over and over. They have ended when the test has."""
        children: List[int] = []
        ends, faults = threading.Event(), []

        def work(act: Callable[[], object]) -> None:
            try:
                while not ends.is_set():
                    act()
            except BaseException as fault:
                faults.append(fault)

        threads = [threading.Thread(target=work, args=(act,)) for act in acts]
        for thread in threads:
            thread.start()
        try:
            for _ in range(CHILDREN):
                child = os.fork()
                if not child:
                    time.sleep(SLEEP)
                    os._exit(0)
                children.append(child)
                self.addCleanup(self.end, child)
                time.sleep(0.002)
        finally:
            ends.set()
            for thread in threads:
                thread.join()
        self.assertEqual(faults, [])
        return children

    @staticmethod
    def end(child: int) -> None:
        os.kill(child, signal.SIGKILL)
        os.waitpid(child, 0)

    def load_and_pack(self) -> None:
        self.folder.import_csv("1,1\n", heading=False)
        self.folder.pack()

    def test_children_forked_beside_a_reader_and_a_packer_keep_no_lock(self) -> None:
        self.forked_beside(self.folder.parts, self.load_and_pack)
        for words in ["query", self.path, "SELECT COUNT(*) FROM T"], ["pack", "--all", self.path]:
            done = subprocess.run([PROGRAM, *words], capture_output=True, text=True, timeout=120)
            self.assertEqual((done.returncode, "Busy" in done.stderr), (0, False), (words, done.stderr))
        self.only_parts(1)

    def test_children_forked_beside_a_thread_that_saves_keep_no_lock(self) -> None:
        path = os.path.join(self.room, "t.lanes")
        self.forked_beside(lambda: self.empty.save(path))
        self.assertEqual(sorted(os.listdir(self.room)), ["site", "t.lanes"])
        self.empty.save(path)

    def child(self, act: Callable[[], object]) -> int:
        """How a child ends that does this: 0 if all is well."""
        child = os.fork()
        if not child:
            end = 1
            try:
                signal.alarm(60)
                act()
                end = 0
            finally:
                os._exit(end)
        return os.waitstatus_to_exitcode(os.waitpid(child, 0)[1])

    def test_a_child_waits_for_no_thread_of_its_parent(self) -> None:
        """Of a thread that is about to close what was left, and of which there is none in the child."""
        has, ends = threading.Event(), threading.Event()

        class Left:
            pass

        def wait() -> None:
            has.set()
            ends.wait()

        def close() -> None:
            left = Left()
            owned.when_gone(left, wait)
            del left
            owned.close_left()

        thread = threading.Thread(target=close)
        thread.start()
        has.wait()
        try:
            self.assertEqual(self.child(self.folder.parts), 0)
        finally:
            ends.set()
            thread.join()

    def test_a_child_that_leaves_a_block_leaves_the_lock_to_its_parent(self) -> None:
        path = os.path.join(self.room, "t.lanes")
        self.empty.save(path)

        def is_locked() -> bool:
            with owned.OpenFile() as lock:
                try:
                    fcntl.flock(lock.open(os.path.join(self.room, ".t.lanes.lanes-lock"), os.O_RDONLY), fcntl.LOCK_EX | fcntl.LOCK_NB)
                except BlockingIOError:
                    return True
                return False

        block = update(path)
        with block as change:
            self.assertEqual(self.child(lambda: block.__exit__(KeyboardInterrupt)), 0)
            self.assertTrue(is_locked())
            change.table = self.empty.import_csv("1,1\n", heading=False)
        self.assertEqual((len(Table.open(path)), sorted(os.listdir(self.room))), (1, ["site", "t.lanes"]))


if __name__ == "__main__":
    unittest.main()
