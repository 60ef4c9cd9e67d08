#!/usr/bin/env python3
"""Times GROUP BY of up to 1,000,000 groups through the program, and through sqlite3, and prints how much memory each takes.

    python3 bench/many_groups.py [--program PROGRAM] [--rows N] [--runs N] [--data FOLDER]

The rows come in no order: of each number of groups one key (K), and the same as two keys (A, B); N is a number, M one with nulls.
FOLDER holds T.flcf, a table of counts that sites report (see queries.py), for groups by three of its columns. A query's time is the
processor's time of a run with it, less that of a run of a cheap query; its memory is the peak of the run beyond that of the cheap
one. Each is the least of a few runs, program and sqlite3 in turns. What is measured on a loaded machine says little.

The rows are written by a process of their own: a run's peak is at least the memory of the process that starts it.
"""
import os, random, shutil, subprocess, sys, tempfile

sys.path.insert(0, os.path.dirname(os.path.abspath(__file__)))
from queries import options_of

CHEAP = "SELECT COUNT(*) FROM T"
GROUPS = [(10, 5), (500, 25), (10_000, 100), (100_000, 400), (1_000_000, 1000)]
MEASURES = "COUNT(*), SUM(N), AVG(M)"


def write_rows(path, count):
    """Writes the rows as CSV."""
    dice = random.Random(7)
    places = list(range(count))
    dice.shuffle(places)
    with open(path, "w") as out:
        out.write(",".join([f"K{g},A{g},B{g}" for g, _ in GROUPS] + ["N", "M"]) + "\n")
        for place in places:
            keys = [f"{place % g},{place % g // b},{place % g % b}" for g, b in GROUPS]
            out.write(",".join([*keys, str(dice.randrange(1000)), "" if dice.random() < 0.2 else str(dice.randrange(-50, 50_000))]) + "\n")


def make_tables(program, folder, csv):
    """Imports the rows into a file of lanes and a database of sqlite3."""
    columns = [word for g, _ in GROUPS for word in (f"K{g}", "INTEGER", f"A{g}", "SMALLINT", f"B{g}", "SMALLINT")] + ["N", "BIGINT", "M", "INTEGER"]
    file, base = os.path.join(folder, "T.lanes"), os.path.join(folder, "T.db")
    subprocess.run([program, "create", file, "T", *columns], check=True, stdout=subprocess.DEVNULL)
    subprocess.run([program, "import", file, csv], check=True, stdout=subprocess.DEVNULL)
    if shutil.which("sqlite3") is None:
        return file, None
    shape = ", ".join(f"{name} INTEGER" for name in columns[::2])
    script = f"CREATE TABLE T ({shape});\n.mode csv\n.import --skip 1 {csv} T\nUPDATE T SET M = NULL WHERE M = '';\n"
    subprocess.run(["sqlite3", base], input=script, text=True, check=True)
    return file, base


def run(words):
    """How many seconds of the processor a run takes, its peak of memory in KiB, and what it writes."""
    with tempfile.TemporaryFile() as out:
        running = subprocess.Popen(words, stdout=out)
        _, status, used = os.wait4(running.pid, 0)
        running.returncode = os.waitstatus_to_exitcode(status)
        if running.returncode:
            sys.exit(f"{words[0]} ended with status {running.returncode}")
        out.seek(0)
        return used.ru_utime + used.ru_stime, used.ru_maxrss, out.read()


def least(sides, query, runs):
    """For each side the least time and the least peak of a few runs beyond those of the cheap query, and its answer."""
    found = {side: [] for side in sides}
    for _ in range(runs):
        for side, words in sides.items():
            found[side].append((run([*words, CHEAP]), run([*words, query])))
    return {
        side: (
            min(asked[0] for _, asked in every) - min(cheap[0] for cheap, _ in every),
            min(asked[1] for _, asked in every) - min(cheap[1] for cheap, _ in every),
            every[0][1][2],
        )
        for side, every in found.items()
    }


def show(name, rows, found):
    """Prints a line for each side."""
    for side, (seconds, peak, answer) in found.items():
        lines = answer.count(b"\n")
        print(f"{name:34} {side:8} {seconds * 1000:9.0f} ms {seconds / rows * 1e9:7.1f} ns a row {peak / 1024:8.1f} MB beyond the table, {lines} lines")


def main():
    asked = options_of("Times GROUP BY of up to 1,000,000 groups, compared with sqlite3.", rows=2_000_000, runs=3)
    asked.add_argument("--data")
    given = asked.parse_args()
    if given.write:
        return write_rows(given.write, given.rows)
    with tempfile.TemporaryDirectory(prefix="lanes-") as folder:
        csv = os.path.join(folder, "T.csv")
        subprocess.run([sys.executable, __file__, "--write", csv, "--rows", str(given.rows)], check=True)
        file, base = make_tables(given.program, folder, csv)
        sides = {"lanes": [given.program, "query", file]}
        if base:
            sides["sqlite3"] = ["sqlite3", base]
        for groups, _ in GROUPS:
            for keys in (f"K{groups}", f"A{groups}, B{groups}"):
                show(f"{groups} groups by {keys}", given.rows, least(sides, f"SELECT {keys}, {MEASURES} FROM T GROUP BY {keys}", given.runs))
            show(f"{groups} groups, DISTINCT", given.rows, least(sides, f"SELECT K{groups}, COUNT(DISTINCT N) FROM T GROUP BY K{groups}", given.runs))
    if given.data:
        sides = {"lanes": [given.program, "query", os.path.join(given.data, "T.flcf")]}
        count = int(run([*sides["lanes"], CHEAP])[2].split()[-1])
        for keys in ("SITE, KIND", "SITE, DAY", "SITE, DAY, KIND"):
            show(keys, count, least(sides, f"SELECT {keys}, COUNT(*), SUM(EVENTS), AVG(ERRORS) FROM T GROUP BY {keys}", given.runs))


sys.exit(main())
