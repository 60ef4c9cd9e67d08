"""Builds the wheel `lanes-store`: the module, the released library for both levels of processors, and, where there is a C compiler, the shim
by which tables go to programs that take Arrow. pip calls it (PEP 517 and PEP 660). It needs Python alone, and nothing of a network."""

from __future__ import annotations

import base64
import gzip
import hashlib
import io
import os
import pathlib
import re
import shutil
import subprocess
import sys
import tarfile
import tempfile
import zipfile

HERE = pathlib.Path(__file__).resolve().parent
RELEASE = HERE.parent / "release"
SHIM = HERE.parent / "c"


def version() -> str:
    """The version that CHANGELOG.md begins with; in a source archive the one that was written there."""
    written = HERE / "PKG-INFO"
    page, pattern = (written, r"^Version: (\S+)$") if written.is_file() else (HERE.parent / "CHANGELOG.md", r"^## (\S+)$")
    found = re.search(pattern, page.read_text(), re.M)
    assert found, f"{page} has no version"
    return found[1]


VERSION = version()
LEVELS = ("x86-64-v2", "x86-64-v3")
FRONT = f"lanes_store-{VERSION}"
TAG = "py3-none-manylinux2014_x86_64"
METADATA = f"""\
Metadata-Version: 2.1
Name: lanes-store
Version: {VERSION}
Summary: A proved, replicated column store for one table of nullable integer columns
Requires-Python: >=3.9
Provides-Extra: numpy
Provides-Extra: pandas
Requires-Dist: numpy>=1.21; extra == "numpy"
Requires-Dist: pandas>=1.5; extra == "pandas"
Description-Content-Type: text/markdown

"""


def released(name: str) -> bytes:
    """A released library, once its sum is checked; in a source archive the one that is packed there."""
    packed = HERE / "lanes" / "native" / name
    if not RELEASE.is_dir() and packed.is_file():
        return packed.read_bytes()
    content = gzip.decompress((RELEASE / f"{name}.gz").read_bytes())
    lines = [line.split() for line in (RELEASE / "LIBRARY_SHA256SUMS").read_text().splitlines()]
    if [hashlib.sha256(content).hexdigest(), name] not in lines:
        raise SystemExit(f"release/{name}.gz is not what release/LIBRARY_SHA256SUMS says")
    return content


def shim() -> bytes | None:
    """The shim for Arrow, where a C compiler can build it; it runs on each processor that the library runs on."""
    compiler = os.environ.get("CC") or shutil.which("cc") or shutil.which("gcc") or shutil.which("clang")
    source = SHIM / "lanes_arrow.c"
    packed = HERE / "lanes" / "native" / "liblanes_arrow.so"
    if not source.is_file() and packed.is_file():
        return packed.read_bytes()
    with tempfile.TemporaryDirectory() as room:
        built = pathlib.Path(room) / "liblanes_arrow.so"
        words = ["-std=c11", "-O2", "-march=x86-64-v2", "-fPIC", "-shared", "-s", os.fspath(source), "-o", os.fspath(built)]
        if compiler and subprocess.run([compiler, *words]).returncode == 0:
            return built.read_bytes()
    print("build_wheel: there is no C compiler, so this wheel has no shim for Arrow", file=sys.stderr)
    return None


def natives() -> dict[str, bytes]:
    """The machine code of the wheel, by its path."""
    found = {f"lanes/native/liblanes-{level}.so": released(f"liblanes-{level}.so") for level in LEVELS}
    built = shim()
    return {**found, "lanes/native/liblanes_arrow.so": built} if built else found


def sources() -> dict[str, bytes]:
    """The module, by its path."""
    names = [*(HERE / "lanes").glob("*.py"), HERE / "lanes" / "py.typed"]
    return {"lanes/VERSION": f"{VERSION}\n".encode(), **{f"lanes/{name.name}": name.read_bytes() for name in sorted(names)}}


def write(folder: str, files: dict[str, bytes]) -> str:
    """A wheel of these files, with what every wheel has beside them."""
    readme = (HERE / "README.md").read_text()
    wheel = f"Wheel-Version: 1.0\nGenerator: build_wheel\nRoot-Is-Purelib: false\nTag: {TAG}\n"
    files = {**files, f"{FRONT}.dist-info/METADATA": (METADATA + readme).encode(), f"{FRONT}.dist-info/WHEEL": wheel.encode()}
    lines = []
    name = f"{FRONT}-{TAG}.whl"
    with zipfile.ZipFile(pathlib.Path(folder) / name, "w", zipfile.ZIP_DEFLATED) as archive:
        for path, content in files.items():
            sum_ = base64.urlsafe_b64encode(hashlib.sha256(content).digest()).rstrip(b"=").decode()
            lines.append(f"{path},sha256={sum_},{len(content)}\n")
            put(archive, path, content)
        put(archive, f"{FRONT}.dist-info/RECORD", "".join([*lines, f"{FRONT}.dist-info/RECORD,,\n"]).encode())
    return name


def put(archive: zipfile.ZipFile, path: str, content: bytes) -> None:
    """Writes a file of the archive, the same at each time."""
    info = zipfile.ZipInfo(path)
    info.compress_type = zipfile.ZIP_DEFLATED
    info.external_attr = (0o755 if path.endswith(".so") else 0o644) << 16
    archive.writestr(info, content)


def build_wheel(wheel_directory: str, config_settings: object = None, metadata_directory: object = None) -> str:
    """Builds the wheel into a folder, and gives its name."""
    return write(wheel_directory, {**sources(), **natives()})


def build_editable(wheel_directory: str, config_settings: object = None, metadata_directory: object = None) -> str:
    """A wheel by which the folder of the clone is used as it is."""
    return write(wheel_directory, {"lanes_store.pth": f"{HERE}\n".encode()})


def build_sdist(sdist_directory: str, config_settings: object = None) -> str:
    """An archive of the sources, with the libraries packed."""
    files = {**sources(), **natives()}
    for name in "pyproject.toml", "build_wheel.py", "README.md":
        files[name] = (HERE / name).read_bytes()
    files["PKG-INFO"] = METADATA.encode()
    name = f"{FRONT}.tar.gz"
    with tarfile.open(pathlib.Path(sdist_directory) / name, "w:gz") as archive:
        for path, content in files.items():
            info = tarfile.TarInfo(f"{FRONT}/{path}")
            info.size = len(content)
            archive.addfile(info, io.BytesIO(content))
    return name
