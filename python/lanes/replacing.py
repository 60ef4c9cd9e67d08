"""How a file is replaced: whole, under the lock that the program `lanes` takes too, by the same calls in the same order.

The lock of a file is the new file. It is next to the old one as `.NAME.lanes-lock`, and takes its place once it is written and synced.
"""

from __future__ import annotations

import errno
import fcntl
import os
import stat
import warnings
from typing import Union

from .owned import OpenFile, when_gone
from .waiting import Wait


def replace(path: Union[str, os.PathLike[str]], data: Union[bytes, memoryview]) -> None:
    """Puts bytes in the place of a file, whose symbolic links are followed, with its mode. Whoever opens it meets the old file or the new
    one, whole, and so does whoever opens it after a crash. What is there and is no regular file is written in place.

    If the folder can't be synced afterwards, the file is replaced, and a `RuntimeWarning` says so.

    Raises:
        Busy: another process has had the file for ten seconds. It is as it was.
        OSError: the file can't be written. It is as it was.
    """
    if _is_written_in_place(path):
        with OpenFile() as file:
            _write(file.open(os.fspath(path), os.O_WRONLY), data)
        return
    with Held(path) as held:
        held.put(data)


class Held:
    """A file that nobody else replaces meanwhile: `with Held(path) as held`. At the end its lock is gone, whether it was replaced or not.

    Raises:
        Busy: another process has had the file for ten seconds.
        OSError: the lock can't be had, or what is there is no regular file.
    """

    def __init__(self, path: Union[str, os.PathLike[str]]) -> None:
        #: The file itself, behind its links.
        self.target = os.path.realpath(path)
        self._folder, name = os.path.split(self.target)
        self._lock = _Lock(os.path.join(self._folder, f".{name}.lanes-lock"))
        when_gone(self, self._lock.release)
        try:
            self._lock.wait(self.target)
            _take_mode(self._lock.file.number, self.target)
        except BaseException:
            self.release()
            raise

    def put(self, data: Union[bytes, memoryview]) -> None:
        """Puts bytes in the file's place, once.

        Raises:
            OSError: the file can't be written. It is as it was.
        """
        file = self._lock.file.number
        with OpenFile() as folder:
            folder.open_folder(self._folder)
            os.ftruncate(file, 0)
            _write(file, data)
            os.fsync(file)
            os.rename(self._lock.path, self.target)
            self._sync(folder.number, "this was replaced, but its folder could not be synced")

    def settle(self) -> None:
        """Has the file that is there on the disk: syncs it, and its folder."""
        with OpenFile() as opened:
            for path in self.target, self._folder:
                self._sync(opened.open(path, os.O_RDONLY), "this is there, but it could not be synced")

    def _sync(self, opened: int, words: str) -> None:
        """Syncs an open file or folder. If that fails, a warning says so."""
        try:
            os.fsync(opened)
        except OSError:
            warnings.warn(f"{self.target}: {words}: a loss of power may bring the old file back", RuntimeWarning, stacklevel=4)

    def release(self) -> None:
        """Takes the lock away, unless it has become the file."""
        self._lock.release()

    def __enter__(self) -> Held:
        return self

    def __exit__(self, *_: object) -> None:
        self.release()


def _is_written_in_place(path: Union[str, os.PathLike[str]]) -> bool:
    """Whether there is something that is no regular file, as a pipe or a device."""
    try:
        return not stat.S_ISREG(os.stat(path).st_mode)
    except OSError:
        return False


class _Lock:
    """The lock of a file."""

    def __init__(self, path: str) -> None:
        self.path = path
        self.file = OpenFile()

    def wait(self, target: str) -> None:
        """Takes the lock.

        Raises:
            Busy: another process has had it for ten seconds.
            OSError: it can't be had.
        """
        wait = Wait("another process has had the file for ten seconds", target)
        while not self._tried():
            wait.again()

    def _tried(self) -> bool:
        """Whether this process has it now. One that was there already is removed once it is locked, and then this process does not have it."""
        try:
            is_new = self._made_or_opened()
        except FileNotFoundError:
            if os.path.isdir(os.path.dirname(self.path)):
                return False
            raise FileNotFoundError(errno.ENOENT, "there is no such folder", os.path.dirname(self.path)) from None
        try:
            fcntl.flock(self.file.number, fcntl.LOCK_EX | fcntl.LOCK_NB)
        except BlockingIOError:
            self.file.close()
            return False
        if is_new and _is_named(self.file.number, self.path):
            return True
        self.release()
        return False

    def _made_or_opened(self) -> bool:
        """Opens the lock's file; whether it was made. What is no regular file is refused, links too."""
        try:
            self.file.open(self.path, os.O_WRONLY | os.O_CREAT | os.O_EXCL)
            return True
        except FileExistsError:
            if not stat.S_ISREG(os.lstat(self.path).st_mode):
                raise
        try:
            self.file.open(self.path, os.O_WRONLY | os.O_NOFOLLOW)
        except PermissionError:
            self.file.open(self.path, os.O_RDONLY | os.O_NOFOLLOW)
        return False

    def release(self) -> None:
        """Removes the lock, unless it has become the file or another process has it, and lets it go. A child that was forked meanwhile leaves it."""
        try:
            if self.file.is_open and self.file.is_own and _is_named(self.file.number, self.path):
                fcntl.flock(self.file.number, fcntl.LOCK_EX | fcntl.LOCK_NB)
                os.unlink(self.path)
        except BlockingIOError:
            pass
        finally:
            self.file.close()


def _is_named(file: int, name: str) -> bool:
    """Whether an open file is the one of a name: another process may have renamed or removed it meanwhile."""
    try:
        return os.path.samestat(os.fstat(file), os.lstat(name))
    except OSError:
        return False


def _take_mode(file: int, target: str) -> None:
    """Gives an open file the mode of a file, if there is one. What is no regular file is refused, and so is what may not be written: its folder
    could be, and it would be replaced all the same."""
    try:
        old = os.stat(target)
    except FileNotFoundError:
        return
    if not stat.S_ISREG(old.st_mode):
        raise OSError(errno.EINVAL, "this is no regular file", target)
    with OpenFile() as opened:
        opened.open(target, os.O_WRONLY)
    os.fchmod(file, stat.S_IMODE(old.st_mode))


def _write(file: int, data: Union[bytes, memoryview]) -> None:
    """Writes all bytes, in as many writes as it takes."""
    rest = memoryview(data).cast("B")
    while rest:
        rest = rest[os.write(file, rest) :]
