"""A folder of parts in the file system, by the calls and locks of the program `lanes`. The library says in which order parts are put, listed
and removed."""

from __future__ import annotations

import contextlib
import errno
import fcntl
import os
import re
import secrets
import stat
import warnings
from typing import Iterable, Iterator, Optional, Sequence

from . import calls, folder_driver
from .errors import Busy
from .folder_driver import Driver, is_named, is_part_name, leads_nowhere, open_part, try_lock, wait_for_lock
from .owned import OpenFile
from .waiting import Wait

_TEMPORARY = re.compile(r"\.part-[0-9a-f]{16}")

#: What comes before the 16 digits of a new folder's name, behind the name that it will have.
_UNFINISHED = ".lanes-new-"

#: How many bytes at the front of a part have its schema and its number of batches.
_FRONT = 4096

#: How often a new folder is made, if another process removes it as what a crash left.
_TRIES = 100


def part_name(data: bytes) -> str:
    """The name of the part that has these bytes."""
    return calls.part_name(data)


@contextlib.contextmanager
def locked(folder: str, kind: int) -> Iterator[bool]:
    """The lock of a folder, `fcntl.LOCK_SH` while it is listed and `fcntl.LOCK_EX` while parts are removed. It gives False if the file
    system has no such lock.

    Raises:
        Busy: others have had it for ten seconds.
        OSError: it can't be locked.
    """
    with OpenFile() as opened:
        yield wait_for_lock(folder, opened.open_folder(folder), kind)


def listed(folder: str) -> list[str]:
    """The names of a folder's parts, in ascending order, listed under its shared lock."""
    with Driver(folder) as driver:
        driver.follow(folder_driver.LIST)
        return driver.names


def front_of(folder: str, name: str) -> tuple[bytes, int]:
    """The first bytes of a part, among which are its schema and its number of batches, and how many bytes it has.

    Raises:
        FileNotFoundError: it is gone.
        OSError: it can't be read, or is no regular file.
    """
    with OpenFile() as opened:
        file = open_part(opened, os.path.join(folder, name))
        return file.read(_FRONT) or b"", os.fstat(opened.number).st_size


def read_part(folder: str, name: str) -> bytes:
    """The bytes of the file of a part's name.

    Raises:
        FileNotFoundError: it is gone.
        OSError: it can't be read, or is no regular file.
    """
    with OpenFile() as opened:
        return open_part(opened, os.path.join(folder, name)).readall()


def put(folder: str, data: bytes, relied: Sequence[str] = ()) -> str:
    """Puts bytes into a folder as a part, unless it has it; its name. A warning tells that it could not be synced. Before that, the parts are
    on the disk on which it relies, if they are there: what took one away is on the disk.

    Raises:
        Damaged: the part of this name has other bytes.
        OSError: the part can't be written; or another one can't be read or synced, and nothing is put.
    """
    name = part_name(data)
    _put(folder, name, folder_driver.KEEP_AND_PUT, data, (), relied)
    return name


def put_beside(folder: str, data: bytes, seen: Sequence[str], relied: Sequence[str] = ()) -> bool:
    """The same, if the folder has no parts but those of the names that were seen; whether it has no others.

    Raises:
        Busy: others have had the folder for ten seconds.
        OSError: `errno.ENOLCK` if the file system has no locks.
    """
    return _put(folder, part_name(data), folder_driver.KEEP_AND_PUT_JUDGED, data, seen, relied) != folder_driver.UNSEEN


def _put(folder: str, name: str, command: int, data: bytes, seen: Sequence[str], relied: Sequence[str]) -> int:
    """What a put comes to. It is begun anew for ten seconds if a sweep took the temporary, or if the part that was there is gone when it is
    compared."""
    path = os.path.join(folder, name)
    wait = Wait("the part comes and goes", path)
    while True:
        with Driver(folder) as driver, contextlib.suppress(FileExistsError):
            end = _followed(driver, command, data, seen, relied)
            if end == folder_driver.UNSYNCED:
                _warn(path)
            if end != folder_driver.GONE:
                return end
        wait.again()


def _followed(driver: Driver, command: int, data: bytes, seen: Sequence[str], relied: Sequence[str]) -> int:
    """What a put comes to.

    Raises:
        OSError: a part on which it relies can't be synced; or another call failed.
    """
    try:
        return driver.follow(command, data, seen, relied)
    except OSError:
        if driver.unsynced is not None and folder_driver.is_part_name(os.path.basename(driver.unsynced[1])):
            raise _could_not_be_synced(*driver.unsynced) from None
        raise


def keep(folder: str, names: Iterable[str]) -> None:
    """Has the parts of these names on the disk, if they are there: what took one away is on the disk. The first that can't be synced ends it, and a
    warning tells of it.

    Raises:
        OSError: a part can't be read.
    """
    with Driver(folder) as driver:
        for name in names:  # a turn for each: it costs the time of all that it was told, at each call
            try:
                driver.follow(folder_driver.KEEP_ALL, names=[name])
            except OSError:
                if driver.unsynced is None:
                    raise
                _warn(driver.unsynced[1])
                return


def _could_not_be_synced(fault: OSError, path: str) -> OSError:
    return OSError(fault.errno, f"this could not be synced: {fault.strerror}", path)


def make(folder: str, data: bytes) -> None:
    """Makes a folder of one part, all at once.

    Raises:
        FileExistsError: something has its name.
    """
    name = folder.rstrip("/")
    if not name or os.path.lexists(name):
        raise FileExistsError(errno.EEXIST, "there is a file or a folder of this name already", folder)
    above, last = os.path.split(name)
    with OpenFile() as outer, OpenFile() as held:
        outer.open_folder(above or ".")
        _clear(above, last)
        new = _new_folder(held, above, last, folder)
        try:
            put(new, data)
            os.rename(new, name)
        except BaseException:
            with contextlib.suppress(OSError):
                os.unlink(os.path.join(new, part_name(data)))
            with contextlib.suppress(OSError):
                os.rmdir(new)
            raise
        held.close()
        _sync(outer.number, name)


def _clear(above: str, last: str) -> None:
    """Removes what a crash left of folders that were to get this name: those that nobody has, and that have nothing but parts and temporaries."""
    unfinished = re.compile(re.escape(f".{last}{_UNFINISHED}") + "[0-9a-f]{16}")
    with os.scandir(above or ".") as entries:
        left = [entry.path for entry in entries if unfinished.fullmatch(entry.name) and entry.is_dir(follow_symlinks=False)]
    for path in left:
        with contextlib.suppress(OSError), OpenFile() as held:
            if try_lock(held.open_folder(path), path, fcntl.LOCK_EX) and is_named(held.number, path):
                _remove_folder(path)


def _remove_folder(path: str) -> None:
    """Removes a folder that has nothing but parts and temporaries."""
    names = os.listdir(path)
    if all(is_part_name(name) or _TEMPORARY.fullmatch(name) for name in names):
        for name in names:
            os.unlink(os.path.join(path, name))
        os.rmdir(path)


def _new_folder(held: OpenFile, above: str, last: str, folder: str) -> str:
    """The path of an empty folder next to the place of another one, which is opened and locked, so that no command removes it as what a crash left.
    Such a command may come before its lock: then another one is made."""
    for _ in range(_TRIES):
        new = os.path.join(above, f".{last}{_UNFINISHED}{secrets.token_hex(8)}")
        os.mkdir(new)
        try:
            is_had = _is_held(held, new)
        except BaseException:
            with contextlib.suppress(OSError):
                os.rmdir(new)
            raise
        if is_had:
            return new
    raise Busy("no folder can be made", folder)


def _is_held(held: OpenFile, new: str) -> bool:
    """Whether a new folder is opened and locked; not if it is gone, or another process has it, which removes it. Without locks no process does."""
    try:
        return try_lock(held.open_folder(new), new, fcntl.LOCK_EX) is not False and is_named(held.number, new)
    except FileNotFoundError:
        return False


def replace(folder: str, turn: calls.Turn, room: int) -> Optional[int]:
    """Follows the turn of a pack or a forget, whose part has some such number of bytes; how many parts were removed. The part is written
    first; then, under the exclusive lock of the folder, those that it was made of are seen to be there, it is given its name and is seen to be
    on the disk, and they are removed. If one of them is gone, or the part itself, a pack or a forget was here: None, and none is removed.

    Raises:
        Busy: others have had the folder for ten seconds. Nothing is put or removed then.
        Damaged: the part of this name has other bytes. Nothing is removed then.
        OSError: the part can't be written, or the file system has no such lock, and nothing is put; or the part or the folder can't be
            synced, and nothing is removed; or a part can't be removed.
    """
    part = turn.part(room)
    with Driver(folder) as driver:
        try:
            end = driver.run(turn, memoryview(part) if isinstance(part, bytes) else part.view())
        except FileExistsError:  # a sweep took the temporary
            return None
        if end == folder_driver.UNSYNCED and driver.unsynced is not None:
            raise _could_not_be_synced(*driver.unsynced)
        return None if end == folder_driver.GONE else driver.removed


def sweep(folder: str) -> None:
    """Removes the temporaries that no process holds."""
    with locked(folder, fcntl.LOCK_SH):
        names = [name for name in os.listdir(folder) if _TEMPORARY.fullmatch(name)]
    for name in names:
        with contextlib.suppress(OSError):
            _sweep_one(os.path.join(folder, name))


def _sweep_one(path: str) -> None:
    """Removes a temporary, if its lock is to be had and it still has its name."""
    if not stat.S_ISREG(os.lstat(path).st_mode):
        return
    with OpenFile() as file:
        fcntl.flock(file.open(path, os.O_RDONLY | os.O_NOFOLLOW), fcntl.LOCK_EX | fcntl.LOCK_NB)
        if is_named(file.number, path):
            os.unlink(path)


def size(folder: str, name: str) -> Optional[int]:
    """How many bytes a part has; None if it is gone, or is a folder.

    Raises:
        FileNotFoundError: it is a link that leads nowhere.
        OSError: it is neither a file nor a folder.
    """
    path = os.path.join(folder, name)
    try:
        found = os.stat(path)
    except FileNotFoundError:
        if leads_nowhere(path):
            raise
        return None
    if stat.S_ISDIR(found.st_mode):
        return None
    if not stat.S_ISREG(found.st_mode):
        raise folder_driver.no_part(path)
    return found.st_size


def _sync(opened: int, path: str) -> None:
    """Syncs an open folder. If that fails, a warning says so."""
    try:
        folder_driver.sync_folder(opened)
    except OSError:
        _warn(path)


def _warn(path: str) -> None:
    """Warns that what is there could not be synced."""
    warnings.warn(f"{path}: this is there, but it could not be synced: a loss of power may take it away", RuntimeWarning, stacklevel=4)
