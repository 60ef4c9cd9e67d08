"""Keys that were chosen so that their hashes collide under the fixed key, asked by other doors than the program's: the extension of SQLite, the
module of Python, the example in C, and a handle with a key in which another table was opened. By each they take no longer than random keys."""

import os
import pathlib
import subprocess
import sys

TOP = pathlib.Path(__file__).resolve().parent.parent.parent
sys.path.append(os.fspath(TOP / "bench"))
from chosen_keys import BY_PAIR, chosen_pairs, made, random_rows, slower

#: How many keys are chosen, and how many times the seconds of random keys they may take. By the fixed key they take more.
KEYS, TIMES = 12_000, 3

SQLITE = """
import sqlite3, sys
base = sqlite3.connect(":memory:")
base.enable_load_extension(True)
base.load_extension(sys.argv[1])
base.execute(f"CREATE VIRTUAL TABLE temp.x USING lanes('{sys.argv[2]}', '{sys.argv[3]}')")
print(base.execute("SELECT COUNT(*) FROM x").fetchall())
"""

MODULE = """
import lanes, sys
print(len(lanes.Table.open(sys.argv[1]).query(sys.argv[2])))
"""

OF_A_FOLDER = """
import lanes, sys
print(len(lanes.Folder(sys.argv[1]).query(sys.argv[2])))
"""

#: lanes_query has no handle, and so the key that is the same in each process.
FIXED = """
import ctypes, os, sys
data, query, out, length, place = open(sys.argv[1], "rb").read(), sys.argv[2].encode(), bytearray(1 << 22), ctypes.c_size_t(), (ctypes.c_uint64 * 2)()
room = (ctypes.c_uint8 * len(out)).from_buffer(out)
library = ctypes.CDLL(os.environ["LANES_LIBRARY"])
sys.exit(library.lanes_query(data, ctypes.c_size_t(len(data)), query, ctypes.c_size_t(len(query)), room, ctypes.c_size_t(len(out)), ctypes.byref(length), place))
"""

#: A handle that has a key, in which the file is opened again: by itself, or as a part.
OPENED_AGAIN = """
import ctypes, hashlib, os, sys
data, query, out, length, place = open(sys.argv[1], "rb").read(), sys.argv[2].encode(), bytearray(1 << 22), ctypes.c_size_t(), (ctypes.c_uint64 * 2)()
name = hashlib.sha512(data).hexdigest()[:32].encode() + b".lanes"
room, size, table, parts = (ctypes.c_uint8 * len(out)).from_buffer(out), ctypes.c_size_t, ctypes.c_void_p(), ctypes.c_void_p()
library = ctypes.CDLL(os.environ["LANES_LIBRARY"])
word = lambda: ctypes.c_uint64(int.from_bytes(os.urandom(8), "little"))
tried = [library.lanes_open(data, size(len(data)), ctypes.byref(table), place), library.lanes_hash_key(ctypes.byref(table), word(), word())]
if sys.argv[3:]:
    tried += [library.lanes_parts_take(ctypes.byref(parts), name, size(len(name)), data, size(len(data)), place), library.lanes_parts_open(ctypes.byref(parts), ctypes.byref(table), place)]
else:
    tried += [library.lanes_open(data, size(len(data)), ctypes.byref(table), place)]
tried += [library.lanes_ask(ctypes.byref(table), query, size(len(query)), room, size(len(out)), ctypes.byref(length), place)]
library.lanes_close(ctypes.byref(table))
sys.exit(max(number & 255 for number in tried))
"""


def ways(program, room, side, rows, loads, extension, keeps):
    """The words that ask a query which groups by these keys."""
    file, _ = made(program, room, side, rows)
    folder = room / f"{side}.parts"
    subprocess.run([program, "create", f"{folder}/", "T", "A", "BIGINT", "B", "BIGINT"], check=True, stdout=subprocess.DEVNULL)
    subprocess.run([program, "import", folder, room / f"{side}.csv"], check=True, stdout=subprocess.DEVNULL)
    return {
        "the fixed key": [sys.executable, "-c", FIXED, file, BY_PAIR],
        "a handle that is opened again": [sys.executable, "-c", OPENED_AGAIN, file, BY_PAIR],
        "a handle that is opened again, of a part": [sys.executable, "-c", OPENED_AGAIN, file, BY_PAIR, "part"],
        "SQLite": [loads, "-c", SQLITE, extension, file, BY_PAIR],
        "SQLite over a folder": [loads, "-c", SQLITE, extension, folder, BY_PAIR],
        "Table.query": [sys.executable, "-c", MODULE, file, BY_PAIR],
        "Folder.query": [sys.executable, "-c", OF_A_FOLDER, folder, BY_PAIR],
        "keeps_folder query": [keeps, folder, "query", BY_PAIR],
    }


def chosen_keys_cost_what_random_ones_cost(program, room, loads, extension, keeps, env):
    chosen = ways(program, room, "chosen", chosen_pairs(KEYS), loads, extension, keeps)
    others = ways(program, room, "random", random_rows(KEYS, 2), loads, extension, keeps)
    found = {name: slower((words, os.devnull), (others[name], os.devnull), room / "out", env=env) for name, words in chosen.items()}
    fixed = found.pop("the fixed key")
    assert fixed > TIMES, f"by the fixed key they take {fixed:.1f} times as long: they were chosen for another hash"
    assert max(found.values()) <= TIMES, f"times as long as random keys: {found}"
