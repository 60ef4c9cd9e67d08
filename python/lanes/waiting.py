"""Waiting for what others have."""

from __future__ import annotations

import time

from .errors import Busy

#: How many seconds are waited, and how many one sleep takes at most.
LONGEST, _LONGEST_SLEEP = 10.0, 0.01


class Wait:
    """A wait of at most ten seconds, each sleep of which is a little longer."""

    def __init__(self, words: str, path: str) -> None:
        self._words, self._path = words, path
        self._begun, self._pause = time.monotonic(), 0.001

    def again(self) -> None:
        """Sleeps, before the next try.

        Raises:
            Busy: the ten seconds are over.
        """
        if time.monotonic() - self._begun >= LONGEST:
            raise Busy(self._words, self._path)
        time.sleep(self._pause)
        self._pause = min(self._pause + 0.001, _LONGEST_SLEEP)
