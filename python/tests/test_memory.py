"""Memory that runs out: each call is a MemoryError then, and no other one."""

from __future__ import annotations

import os
import pathlib
import pickle
import random
import resource
import tempfile
import unittest
from typing import Callable, Dict

from lanes import Folder, Table

#: How many bytes a call may have in addition to what the process has.
LIMITS = 1 << 20, 3 << 20, 6 << 20, 12 << 20, 24 << 20

#: What a child ends with.
DONE, LACKED, OTHER = 0, 1, 2


def end_of(act: Callable[[], object], limit: int) -> int:
    """How a call ends in a child that may have so much more memory."""
    child = os.fork()
    if not child:
        end = OTHER
        try:
            size = int(pathlib.Path("/proc/self/statm").read_text().split()[0]) * os.sysconf("SC_PAGE_SIZE")
            resource.setrlimit(resource.RLIMIT_AS, (size + limit, size + limit))
            act()
            end = DONE
        except MemoryError:
            end = LACKED
        finally:
            os._exit(end)
    return os.waitstatus_to_exitcode(os.waitpid(child, 0)[1])


def of_arrays(table: Table, folder: Folder) -> Dict[str, Callable[[], object]]:
    """The calls that give and take arrays, frames and Arrow's streams, if numpy and pandas are here."""
    try:
        import numpy  # noqa: F401
        import pandas  # noqa: F401
    except ImportError:
        return {}
    columns, frame, empty = table.to_numpy(), table.to_pandas(), Table.create("T", table.columns)
    answer = table.query("SELECT A,COUNT(*) FROM T GROUP BY A")
    acts: Dict[str, Callable[[], object]] = {
        "to_numpy": table.to_numpy,
        "to_pandas": table.to_pandas,
        "batches": lambda: [0 for _ in table.batches(100_000)],
        "df": answer.df,
        "import_columns": lambda: empty.import_columns(columns),
        "from_frame": lambda: Table.from_frame("T", frame),
        "Folder.import_columns": lambda: folder.import_columns(columns),
    }
    if hasattr(table, "__arrow_c_stream__"):
        acts["stream"], acts["import_arrow"] = table.__arrow_c_stream__, lambda: empty.import_arrow(table)
    return acts


class Memory(unittest.TestCase):
    def test_each_call_without_memory_is_a_memory_error(self) -> None:
        with tempfile.TemporaryDirectory(prefix="lanes-memory-") as room:
            path, text = os.path.join(room, "t.lanes"), pathlib.Path(room, "t.csv")
            text.write_text("A,B\n" + "".join(f"{random.getrandbits(30)},{random.getrandbits(60)}\n" for _ in range(300_000)))
            empty = Table.create("T", {"A": "INTEGER", "B": "BIGINT"})
            table = empty.import_csv(text, batch="1.1")
            table.save(path)
            folder, data = Folder.of(os.path.join(room, "site"), table), table.to_bytes()
            acts = {
                "open": lambda: Table.open(path),
                "from_bytes": lambda: Table.from_bytes(data),
                "query": lambda: table.query("SELECT A,SUM(B) FROM T GROUP BY A"),
                "answer": lambda: list(table.query("SELECT A,COUNT(*) FROM T GROUP BY A")),
                "rows": lambda: list(table),
                "partial": lambda: table.partial("SELECT A,COUNT(*) FROM T GROUP BY A"),
                "dump": table.dump,
                "delete": lambda: table.delete("A < 9"),
                "merge": lambda: table.merge(empty.import_csv("A,B\n1,2\n")),
                "apply": lambda: empty.apply(data),
                "import_csv": lambda: empty.import_csv(text),
                "import_csv of dates": lambda: empty.import_csv(text, dates={"A": "%Y"}, null=["NA", "n/a"]),
                "import_rows": lambda: empty.import_rows([(1, 2)] * 300_000),
                "pickle": lambda: pickle.dumps(table),
                "spread": lambda: table.spread(3),
                "check": table.check,
                "save": lambda: table.save(os.path.join(room, "u.lanes")),
                "Folder.read": folder.read,
                "Folder.import_csv": lambda: folder.import_csv(text, batch="1.1"),
                "Folder.pack": lambda: folder.pack(everything=True),
                "Folder.delete": lambda: folder.delete("A < 9"),
                **of_arrays(table, folder),
            }
            for name, act in acts.items():
                ends = [end_of(act, limit) for limit in LIMITS]
                self.assertNotIn(OTHER, ends, name)
            self.assertIn(LACKED, [end_of(acts["import_csv"], limit) for limit in LIMITS])


if __name__ == "__main__":
    unittest.main()
