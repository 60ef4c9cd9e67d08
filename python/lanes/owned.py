"""What calls make, and who owns it: handles of the library, and files that are open. Python hears Ctrl-C between any two of its steps, also
between the end of a call and the use of what it gave. So what a call makes has its owner before the call is made; and when the owner is gone,
no step of Python is taken in its place, since an interrupt that came there would be lost."""

from __future__ import annotations

import collections
import contextlib
import ctypes
import errno
import fcntl
import functools
import os
import threading
import weakref
from typing import Any, Callable, Deque, List, Set

#: How many records of handles that are closed are kept at most.
_RECORDS = 64


class Handle(ctypes.Structure):
    """`lanes_table`, `lanes_parts`, `lanes_turn` and the like. A new one is closed. One call at a time may have it."""

    _fields_ = [("opened", ctypes.c_void_p)]


class _Closing(weakref.ref):  # type: ignore[type-arg]
    """Closes a handle once its owner is gone: it is called with this reference, for which ctypes takes the handle."""

    __slots__ = ("_as_parameter_",)

    _as_parameter_: Any


class _Record(weakref.ref):  # type: ignore[type-arg]
    """What is done by a later call once an owner is gone: `act` is called, and the record is dropped."""

    __slots__ = ("act", "closing")

    act: Callable[[], object]
    closing: _Closing


#: The records of all owners: a weak reference that is gone itself calls nothing.
_RECORDED: Set[_Record] = set()

#: The records whose owners are gone: of handles, which are closed already, and of files, which are not.
_CLOSED: Deque[_Record] = collections.deque()
_LEFT: Deque[_Record] = collections.deque()

#: The records that a thread is at work on. They are its own, and no thread waits for another one: an interrupt may come at any step, and the
#: thread's next call does what was left undone then.
_TAKEN = threading.local()


class Owner:
    """Who has a handle, which is closed once this object is gone, or before by `close_now`."""

    __slots__ = ("handle", "_close", "__weakref__")

    def __init__(self, close: Any) -> None:
        if len(_CLOSED) > _RECORDS:
            with contextlib.suppress(IndexError):
                any(map(_RECORDED.discard, iter(_CLOSED.popleft, None)))  # one step of Python: an interrupt loses no record
        self.handle, self._close = Handle(), close
        record = _Record(self, _CLOSED.append)  # type: ignore[arg-type]
        record.closing = _Closing(self, close)
        record.closing._as_parameter_ = ctypes.byref(self.handle)
        _RECORDED.add(record)

    def close_now(self) -> None:
        """Closes the handle. Closing it again does nothing."""
        self._close(ctypes.byref(self.handle))

    def __enter__(self) -> Any:
        return ctypes.byref(self.handle)

    def __exit__(self, *_: object) -> None:
        self.close_now()


def close_left() -> None:
    """Does what is to be done for owners that are gone. What another thread is about to do is left to it."""
    taken: List[_Record] = _TAKEN.__dict__.setdefault("records", [])
    while taken or _take(taken):
        for record in taken[:1]:  # none if a signal's handler was here
            with contextlib.suppress(OSError):
                record.act()
            _RECORDED.discard(record)
            with contextlib.suppress(ValueError):
                taken.remove(record)


def _take(taken: List[_Record]) -> bool:
    """Takes a record that is left, and tells whether there is one. It is taken in one step of Python, so no interrupt loses it."""
    if _LEFT:
        with contextlib.suppress(IndexError):  # another thread was faster
            taken.extend(map(collections.deque.popleft, (_LEFT,)))
    return bool(taken)


def when_gone(owner: object, act: Callable[[], object]) -> None:
    """Has something done by the next call that owns anything, once an owner is gone. It may be done twice."""
    close_left()
    record = _Record(owner, _LEFT.append)  # type: ignore[arg-type]
    record.act = act
    _RECORDED.add(record)


class _Numbers(List[int]):
    """The descriptor of a file that is open, or none, and the process that opened it."""

    process = 0


class OpenFile:
    """A file or a folder that may be open, with the lock that it may have. If this object goes before it is closed, the next call closes it."""

    __slots__ = ("_numbers", "__weakref__")

    def __init__(self) -> None:
        self._numbers = _Numbers()
        when_gone(self, functools.partial(_close, self._numbers))

    @property
    def number(self) -> int:
        """The descriptor.

        Raises:
            OSError: it is not open.
        """
        if not self._numbers:
            raise OSError(errno.EBADF, os.strerror(errno.EBADF))
        return self._numbers[0]

    @property
    def is_open(self) -> bool:
        """Whether it is open."""
        return bool(self._numbers)

    @property
    def is_own(self) -> bool:
        """Whether this process opened it, and not the one from which it was forked."""
        return self._numbers.process == os.getpid()

    def open(self, path: str, flags: int, mode: int = 0o666) -> int:
        """Opens a file in the place of the one that was open.

        Raises:
            OSError: it can't be opened.
        """
        self.close()
        self._numbers.process = os.getpid()
        self._numbers.extend(map(os.open, (path,), (flags | os.O_CLOEXEC,), (mode,)))  # one step of Python
        return self._numbers[0]

    def open_folder(self, path: str) -> int:
        """Opens a folder.

        Raises:
            OSError: it can't be opened, as what is no folder.
        """
        return self.open(path, os.O_RDONLY | os.O_DIRECTORY)

    def close(self) -> None:
        """Lets the lock go and closes the file. A child that was forked meanwhile has the same file open, and would keep the lock if the file were
        closed alone. The child itself closes it alone: the lock is its parent's."""
        _close(self._numbers)

    def __enter__(self) -> OpenFile:
        return self

    def __exit__(self, *_: object) -> None:
        self.close()


def _close(numbers: _Numbers) -> None:
    """Lets the locks of files go and closes them."""
    for number in numbers[:]:
        if numbers.process == os.getpid():
            with contextlib.suppress(OSError):
                fcntl.flock(number, fcntl.LOCK_UN)
        with contextlib.suppress(IndexError):
            any(map(os.close, map(numbers.pop, (0,))))  # one step of Python: no number stays of a file that is closed
