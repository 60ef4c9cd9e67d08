"""Driving a folder of parts: the library says which call on the folder comes next, this module makes it and tells what came of it."""

from __future__ import annotations

import contextlib
import errno
import fcntl
import io
import os
import re
import secrets
import stat
from typing import Callable, Dict, Iterable, Optional, Tuple

from . import calls
from .errors import Busy, Damaged, Refused
from .owned import OpenFile
from .waiting import Wait

#: The commands of `lanes_folder_begin`.
PUT, KEEP, REPLACE, REMOVE, LIST, KEEP_ALL, PUT_JUDGED, KEEP_AND_PUT, KEEP_AND_PUT_JUDGED = range(1, 10)

#: What a command comes to.
ON_DISK, UNSYNCED, GONE, UNSEEN = range(1, 5)

#: What is told of a call.
_NOTHING, _DONE, _FAILED, _TAKEN, _WROTE, _LISTED, _MISSING, _FOUND = range(8)

#: The numbers of `Busy`, `Damaged` and `System`.
_BUSY, _DAMAGED, _SYSTEM = 44, 45, 46

#: The errors of a file system that has no locks, and of one that has no hard links. Any other one is a fault.
_NO_LOCKS = frozenset([errno.ENOSYS, errno.EOPNOTSUPP, errno.ENOLCK])
_NO_LINKS = frozenset([errno.EPERM, errno.EOPNOTSUPP, errno.EMLINK])

_PART = re.compile(r"[0-9a-f]{32}\.lanes")

#: What is told: a number of these, an error's number or how many bytes were written, and what a file has.
_Told = Tuple[int, int, bytes]

_IS_DONE: _Told = (_DONE, 0, b"")

#: The folders that this process could not sync once, by device and number, with the error. A later sync may say that all is well, and what was
#: not written then is lost all the same: the system tells it once. Each is held open, so that no other folder gets its number.
_UNSYNCED_FOLDERS: Dict[Tuple[int, int], Tuple[int, OSError]] = {}


class Driver:
    """A folder that is open, with the file that is open in it and its lock."""

    def __init__(self, folder: str) -> None:
        self.folder = folder
        self._opened, self._file, self._lock = OpenFile(), OpenFile(), OpenFile()
        self._opened.open_folder(folder)
        self._part, self._temporary = memoryview(b""), ""
        self._path = folder
        self._faults: dict[int, OSError] = {}
        #: Why a file or the folder could not be synced, and its path.
        self.unsynced: Optional[tuple[OSError, str]] = None
        #: What the last listing gave.
        self.names: list[str] = []
        #: How many parts were removed.
        self.removed = 0
        self._calls = [
            *(self._end, self._make, self._write, self._sync, self._link, self._remove, self._settle),
            *(self._lock_alone, self._lock_shared, self._list, self._read, self._unlock),
        ]

    def follow(self, command: int, part: bytes = b"", names: Iterable[str] = (), relied: Iterable[str] = ()) -> int:
        """What a command comes to. The part relies on those of the last names.

        Raises:
            Busy: others have had the folder for ten seconds.
            Damaged: a part has other bytes than its name says.
            OSError: a call failed.
        """
        turn = calls.Turn.of(command, temporary(), part)
        for name in names:
            turn.name(name)
        for name in relied:
            turn.relied(name)
        return self.run(turn, memoryview(part))

    def run(self, turn: calls.Turn, part: memoryview) -> int:
        """What a turn comes to that puts these bytes.

        Raises:
            Busy, Damaged, OSError: the same.
        """
        self._part = part
        told: _Told = (_NOTHING, 0, b"")
        while True:
            try:
                kind, number, text = turn.next(*told)
            except Refused as refusal:
                raise self._why(refusal) from None
            told = (_NOTHING, 0, b"")  # the library has the bytes of a part that was read, and the next one may come
            if kind == 0:
                return number
            told = self._told(turn, kind, number, os.fsdecode(text))

    def _told(self, turn: calls.Turn, kind: int, number: int, text: str) -> _Told:
        """What is told of a call, which is made."""
        try:
            told = self._calls[kind](number, text)
        except Busy as busy:
            self._faults[errno.EAGAIN] = busy
            return _FAILED, errno.EAGAIN, b""
        except OSError as fault:
            code = fault.errno or errno.EIO
            self._faults[code] = fault
            return _FAILED, code, b""
        if told[0] == _LISTED:
            for name in self.names:
                turn.name(name)
        return told

    def _why(self, refusal: Refused) -> Exception:
        """Why a command was refused."""
        if refusal.number == _DAMAGED:
            return Damaged(self._path)
        if refusal.number in (_BUSY, _SYSTEM):
            return self._faults.get(errno.EAGAIN if refusal.number == _BUSY else refusal.place[0], refusal)
        return refusal

    def _end(self, number: int, text: str) -> _Told:
        raise AssertionError("no call is asked for")

    def _make(self, number: int, name: str) -> _Told:
        """Makes the temporary, and takes its lock, so that no sweep removes it."""
        path = os.path.join(self.folder, name)
        file = self._file.open(path, os.O_WRONLY | os.O_CREAT | os.O_EXCL)
        self._path, self._temporary = path, name
        if try_lock(file, path, fcntl.LOCK_EX) is False or not is_named(file, path):  # without locks no sweep removes it
            raise FileExistsError(errno.EEXIST, "a sweep came before its lock", path)
        self._take_mode(file)
        return _IS_DONE

    def _take_mode(self, file: int) -> None:
        """Gives an open file the mode of the part of least name, so that who reads the folder's parts reads this one, too. If there is no part, the
        mode is that of a new file."""
        for name in sorted(_names_once(self.folder)):
            with contextlib.suppress(FileNotFoundError):
                found = os.stat(os.path.join(self.folder, name)).st_mode
                if stat.S_ISREG(found):
                    os.fchmod(file, stat.S_IMODE(found))
                    return

    def _write(self, number: int, name: str) -> _Told:
        return _WROTE, os.write(self._file.number, self._part[number:]), b""

    def _sync(self, number: int, name: str) -> _Told:
        return self._synced(os.fsync, self._file.number)

    def _link(self, number: int, names: str) -> _Told:
        """Gives the temporary the name of its part."""
        first, path = (os.path.join(self.folder, name) for name in (names[:number], names[number:]))
        self._path = path
        try:
            os.link(first, path)
        except FileExistsError:
            return _TAKEN, 0, b""
        except OSError as fault:
            if fault.errno not in _NO_LINKS:
                raise
            if os.path.lexists(path):
                return _TAKEN, 0, b""
            os.rename(first, path)
        return _IS_DONE

    def _remove(self, number: int, name: str) -> _Told:
        with contextlib.suppress(FileNotFoundError):
            os.unlink(os.path.join(self.folder, name))
        if name == self._temporary:
            self._temporary = ""
        else:
            self.removed += 1
        return _IS_DONE

    def _settle(self, number: int, name: str) -> _Told:
        return self._synced(sync_folder, self._opened.number)

    def _synced(self, sync: Callable[[int], None], opened: int) -> _Told:
        """Syncs a file or the folder."""
        try:
            sync(opened)
        except OSError as fault:
            self.unsynced = fault, self._path
            raise
        return _IS_DONE

    def _lock_alone(self, number: int, name: str) -> _Told:
        if not self._locked(fcntl.LOCK_EX):
            raise OSError(errno.ENOLCK, "the folder can't be locked, so no part is removed", self.folder)
        return _IS_DONE

    def _lock_shared(self, number: int, name: str) -> _Told:
        self._locked(fcntl.LOCK_SH)
        return _IS_DONE

    def _locked(self, kind: int) -> bool:
        """Takes the lock of the folder; False if the file system has none."""
        return wait_for_lock(self.folder, self._lock.open_folder(self.folder), kind)

    def _list(self, number: int, name: str) -> _Told:
        """Lists the names of parts, in ascending order: those of two listings."""
        self.names = sorted({*_names_once(self.folder), *_names_once(self.folder)})
        return _LISTED, 0, b""

    def _read(self, number: int, name: str) -> _Told:
        self._path = os.path.join(self.folder, name)
        try:
            return _FOUND, 0, open_part(self._file, self._path).readall()
        except FileNotFoundError:
            if leads_nowhere(self._path):
                raise
            return _MISSING, 0, b""

    def _unlock(self, number: int, name: str) -> _Told:
        self._lock.close()
        return _IS_DONE

    def __enter__(self) -> Driver:
        return self

    def __exit__(self, *fault: object) -> None:
        """Lets the folder go. A turn that was broken off leaves no temporary. In a child that was forked meanwhile the turn is its parent's."""
        if self._temporary and self._opened.is_own:
            with contextlib.suppress(OSError):
                os.unlink(os.path.join(self.folder, self._temporary))
        for opened in self._lock, self._file, self._opened:
            opened.close()


def temporary() -> str:
    """The name of a new temporary."""
    return f".part-{secrets.token_hex(8)}"


def open_part(file: OpenFile, path: str) -> io.FileIO:
    """Opens a file of a part's name. A pipe is not waited for.

    Raises:
        FileNotFoundError: it is gone.
        OSError: it can't be opened, or is no regular file.
    """
    number = file.open(path, os.O_RDONLY | os.O_NONBLOCK)
    if not stat.S_ISREG(os.fstat(number).st_mode):
        raise no_part(path)
    return io.FileIO(number, closefd=False)


def no_part(path: str) -> OSError:
    """What is raised of what has a part's name, and is neither a file nor a folder."""
    return OSError(errno.EINVAL, "this is neither a file nor a folder", path)


def sync_folder(opened: int) -> None:
    """Syncs a folder that is open.

    Raises:
        OSError: it can't be synced, or could not once before.
    """
    found = os.fstat(opened)
    identity = found.st_dev, found.st_ino
    if identity in _UNSYNCED_FOLDERS:
        fault = _UNSYNCED_FOLDERS[identity][1]
        raise OSError(fault.errno, f"{fault.strerror}, at an earlier sync by this process")
    try:
        os.fsync(opened)
    except OSError as fault:
        _UNSYNCED_FOLDERS[identity] = os.dup(opened), fault
        raise


def try_lock(opened: int, path: str, kind: int) -> Optional[bool]:
    """Whether the lock of what is open is held, or another process has it; None if the file system has no locks.

    Raises:
        OSError: it can't be locked.
    """
    try:
        fcntl.flock(opened, kind | fcntl.LOCK_NB)
    except BlockingIOError:
        return False
    except OSError as fault:
        if fault.errno not in _NO_LOCKS:
            raise OSError(fault.errno, f"this can't be locked: {fault.strerror}", path) from None
        return None
    return True


def wait_for_lock(folder: str, opened: int, kind: int) -> bool:
    """Waits for the lock of a folder that is open; whether there is one.

    Raises:
        Busy: others have had it for ten seconds.
        OSError: it can't be locked.
    """
    wait = Wait("others have had the folder for ten seconds", folder)
    while True:
        is_had = try_lock(opened, folder, kind)
        if is_had is not False:
            return is_had is not None
        wait.again()


def _names_once(folder: str) -> list[str]:
    """The names of parts in one listing. A folder that has a part's name is no part."""
    with os.scandir(folder) as entries:
        return [entry.name for entry in entries if is_part_name(entry.name) and not entry.is_dir()]


def is_part_name(name: str) -> bool:
    """Whether a name is that of a part."""
    return _PART.fullmatch(name) is not None


def leads_nowhere(path: str) -> bool:
    """Whether there is a link of this path, and no file behind it."""
    return os.path.islink(path) and not os.path.exists(path)


def is_named(file: int, path: str) -> bool:
    """Whether an open file is the one of a path.

    Raises:
        OSError: it can't be told.
    """
    try:
        return os.path.samestat(os.fstat(file), os.lstat(path))
    except FileNotFoundError:
        return False
