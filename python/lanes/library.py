"""The shared library: which file it is, and how the released one is taken out of its archive."""

from __future__ import annotations

import ctypes
import gzip
import hashlib
import os
import pathlib
import platform
import subprocess
import sys
import tempfile
from typing import Callable

#: Where a wheel has its libraries.
_PACKAGED = pathlib.Path(__file__).resolve().parent / "native"

_TOP = pathlib.Path(__file__).resolve().parent.parent.parent
_RELEASE = _TOP / "release"
_SHIM = _TOP / "c"
_BUILT = _TOP / "crates" / "lanes_c" / "out" / "library"

#: The flags of /proc/cpuinfo that a processor of each level has beside those of the levels before it, as the script `lanes` has them.
_LEVELS = [
    ("x86-64-v2", {"cx16", "popcnt", "ssse3", "sse4_1", "sse4_2"}),
    ("x86-64-v3", {"abm", "avx", "avx2", "bmi1", "bmi2", "f16c", "fma", "movbe"}),
]


def package_version() -> str:
    """The version of this package: in a wheel the one that it was built as, and in a clone the one that CHANGELOG.md begins with."""
    written = pathlib.Path(__file__).resolve().parent / "VERSION"
    if written.is_file():
        return written.read_text().strip()
    with open(_TOP / "CHANGELOG.md", encoding="utf-8") as page:
        return next(line[3:].strip() for line in page if line.startswith("## "))


def _level() -> str | None:
    """The greatest level of processors that this one has, or None."""
    if sys.platform != "linux" or platform.machine() != "x86_64":
        return None
    lines = pathlib.Path("/proc/cpuinfo").read_text().splitlines()
    flags: set[str] = next((set(line.partition(":")[2].split()) for line in lines if line.startswith("flags")), set())
    found = None
    for level, wanted in _LEVELS:
        if not wanted <= flags:
            break
        found = level
    return found


def _released_sum(name: str) -> str | None:
    """The sum that the release has of a library, if it has one."""
    sums = _RELEASE / "LIBRARY_SHA256SUMS"
    lines = sums.read_text().splitlines() if sums.is_file() else []
    return next((line.split()[0] for line in lines if line.split()[1:] == [name]), None)


def _places() -> list[pathlib.Path]:
    """The folders for what is unpacked or built: one in the clone, and one of the user for a clone that can't be written. The script `lanes`
    uses the same."""
    home = os.environ.get("HOME")
    cache = os.environ.get("XDG_CACHE_HOME") or (os.path.join(home, ".cache") if home else "")
    return [_RELEASE / "unpacked", *([pathlib.Path(cache) / "lanes" / os.fspath(_TOP).replace("/", "%")] if cache else [])]


def kept(name: str, made: Callable[[pathlib.Path], None]) -> pathlib.Path:
    """A file that is made once, by a call that is given the path to write to, in one step, so that no other process meets a part of it.

    Raises:
        ImportError: no folder can be written.
    """
    for folder in _places():
        if (folder / name).is_file():
            return folder / name
    for folder in _places():
        try:
            folder.mkdir(parents=True, exist_ok=True)
            descriptor, part = tempfile.mkstemp(dir=folder)
        except OSError:
            continue
        os.close(descriptor)
        try:
            made(pathlib.Path(part))
            os.chmod(part, 0o755)
            os.replace(part, folder / name)
        except BaseException:
            os.unlink(part)
            raise
        return folder / name
    raise ImportError(f"{name} can't be kept: neither {_places()[0]} nor a folder of the user can be written; LANES_LIBRARY may name another library")


def _unpack(name: str, wanted: str) -> pathlib.Path:
    """The released library of a name, taken out of its archive once."""

    def unpacked(part: pathlib.Path) -> None:
        content = gzip.decompress((_RELEASE / f"{name}.gz").read_bytes())
        if hashlib.sha256(content).hexdigest() != wanted:
            raise ImportError(f"release/{name}.gz is not what release/LIBRARY_SHA256SUMS says")
        part.write_bytes(content)

    return kept(f"{name}-{wanted[:16]}", unpacked)


def _found() -> pathlib.Path:
    """The library: the one that LANES_LIBRARY names, else the package's own, else the one that was built here, else the released one for
    this processor."""
    if "LANES_LIBRARY" in os.environ:
        return pathlib.Path(os.environ["LANES_LIBRARY"])
    level = _level()
    if level is None:
        raise ImportError("lanes needs Linux on an x86-64 processor of the level x86-64-v2")
    name = f"liblanes-{level}.so"
    for folder in _PACKAGED, _BUILT:
        if (folder / name).is_file():
            return folder / name
    wanted = _released_sum(name)
    if wanted is None:
        raise ImportError("there is no library yet: release/library builds it, and LANES_LIBRARY may name another one")
    return _unpack(name, wanted)


def load() -> ctypes.CDLL:
    """The library. Its calls let other threads of Python run meanwhile."""
    return ctypes.CDLL(os.fspath(_found()))


def _compile(part: pathlib.Path) -> None:
    """Builds the shim for Arrow with the system's compiler."""
    words = [os.environ.get("CC", "cc"), "-std=c11", "-O2", "-march=x86-64-v2", "-fPIC", "-shared", os.fspath(_SHIM / "lanes_arrow.c"), "-o", os.fspath(part)]
    try:
        subprocess.run(words, check=True, capture_output=True)
    except (OSError, subprocess.CalledProcessError) as fault:
        raise ImportError(f"the shim for Arrow can't be built: {fault}") from None


def load_shim() -> ctypes.CDLL:
    """The shim for Arrow: the package's own, or one that is built once of the clone's c/lanes_arrow.c.

    Raises:
        ImportError: it is neither there nor can it be built.
    """
    packaged = _PACKAGED / "liblanes_arrow.so"
    if packaged.is_file():
        return ctypes.CDLL(os.fspath(packaged))
    if not _SHIM.is_dir():
        raise ImportError("this package was made without the shim for Arrow, since there was no C compiler")
    content = b"".join((_SHIM / name).read_bytes() for name in ("lanes_arrow.c", "lanes_arrow.h"))
    return ctypes.CDLL(os.fspath(kept(f"liblanes_arrow-{hashlib.sha256(content).hexdigest()[:16]}.so", _compile)))
