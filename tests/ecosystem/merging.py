"""Many files, merged by processes that are killed at random and run again: the bytes are those of one merge of all."""

from __future__ import annotations

import os
import pathlib
import random
import signal
import subprocess
import tempfile
import time
from concurrent.futures import ThreadPoolExecutor

import lanes
import questions


def merged(program, pick, folder, files, is_first):
    """A merge of some files, and how often it was killed: the first one at once, the others at random. OUT is written in one step."""
    out, kills = os.path.join(folder, f"{pick.getrandbits(64):016x}.lanes"), 0
    while True:
        child = subprocess.Popen([program, "merge", out, *files], stdout=subprocess.PIPE, stderr=subprocess.PIPE)
        if is_first and not kills or pick.random() < 0.5:
            time.sleep(0 if is_first else pick.random() * 0.01)
            child.send_signal(signal.SIGKILL)
        said = child.communicate(timeout=60)
        if child.returncode == 0:
            return out, kills
        assert child.returncode == -signal.SIGKILL, said
        kills += 1


def killed_merges_end_with_the_bytes_of_all(program, seed=1, count=40):
    pick = random.Random(seed)
    tables = [questions.table(pick, {"A": "SMALLINT", "B": "BIGINT"}, origin % 30 + 1 if origin > 30 else origin) for origin in range(1, 31)]
    tables += [pick.choice(tables).merge(pick.choice(tables)).delete("A = 1") for _ in range(count - 30)]
    with tempfile.TemporaryDirectory(prefix="lanes-merging-") as folder:
        files = []
        for at, table in enumerate(tables):
            files.append(os.path.join(folder, f"{at}.lanes"))
            table.save(files[-1])
        kills = 0
        with ThreadPoolExecutor(4) as pool:
            while len(files) > 1:
                pick.shuffle(files)
                fan = pick.randint(2, 8)
                places = range(0, len(files), fan)
                made = list(pool.map(lambda at: merged(program, pick, folder, files[at : at + fan], at == 0), places))
                files, kills = [out for out, _ in made], kills + sum(times for _, times in made)
        assert pathlib.Path(files[0]).read_bytes() == tables[0].merge(*tables[1:]).to_bytes()
        assert kills, "nothing was killed"
