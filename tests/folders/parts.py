"""Folders of parts, as tests make and look at them."""

import hashlib
import os
import re

PART = re.compile(r"[0-9a-f]{32}\.lanes")


def name_of(data):
    """The name of a part with these bytes, by the words of docs/FORMATS.md."""
    return hashlib.sha512(data).hexdigest()[:32] + ".lanes"


def parts_of(room, folder="d"):
    """The names of a folder's parts."""
    return sorted(name for name in os.listdir(room.path(folder)) if PART.fullmatch(name))


def make_folder(room, name="d", loads=1):
    """A folder of a table with two columns, with loads of two rows each: 1.1, 1.2 and so on."""
    room.ok("create", f"{name}/", "T", "A", "SMALLINT", "B", "BIGINT", prints=b"ok\n")
    for load in range(1, loads + 1):
        rows = f"{load},{load * 10}\n,{load}\n".encode()
        room.ok("import", "--no-header", "--batch", f"1.{load}", name, "-", given=rows, prints=f"ok batches=1 new=1 rows=2 first=1.{load}\n".encode())


def all_are_named(room, folder="d"):
    """Each part has the name of its bytes."""
    for name in parts_of(room, folder):
        data = room.get(os.path.join(folder, name))
        assert name == name_of(data), f"{name} has the bytes of {name_of(data)}"


def count(room, folder="d"):
    """How many rows a query counts."""
    return int(room.ok("query", folder, "SELECT COUNT(*) FROM T").split(b"\n")[1])
