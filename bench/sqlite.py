#!/usr/bin/env python3
"""Times lanes and sqlite3 on one table and prints two tables as docs/COMPARISON.md has them: what each costs to load, to keep and to
change, and each of the twelve queries of queries.py.

    python3 bench/sqlite.py [--program PROGRAM] [--rows N] [--runs N] [--room FOLDER]

The rows are those of queries.py, counts that sites report, 6,400,000 if not said. Seconds and milliseconds are those of a processor,
user and system together, the least of N runs, 5 if not said, the two programs in turns; of twice N if a run takes less than a second. A query is a whole command, which opens its file; `answer`
is that of lanes without the opening: what many of one query in one call take more than none, by their number. Memory is the peak of the process.
An empty field is text in sqlite3 until an UPDATE makes NULL of it, which is not counted. The answers are compared; sqlite3's means are
floats, so of these six decimals are. In a folder that is named the rows and files are kept for the next time.
"""
import gzip, os, pathlib, shutil, subprocess, sys, tempfile

sys.path.insert(0, os.path.dirname(os.path.abspath(__file__)))
import queries

NAMES = queries.COLUMNS.split()[::2]
INDEX = "CREATE INDEX BY_SITE ON T(SITE)"
ROW = "137,19400,2,7,,100038399999"


def write_rows(path, count):
    """Writes the rows as comma-separated values under a header."""
    with open(path, "w") as out:
        out.write(",".join(NAMES) + "\n")
        out.writelines(line[1:-1].replace("NULL", "") + "\n" for line in queries.reports(count))


def used(words, typed=None):
    """The processor seconds of a process that ends well, and what it writes."""
    with tempfile.TemporaryFile() as out:
        child = subprocess.Popen([os.fspath(word) for word in words], stdin=subprocess.PIPE if typed else subprocess.DEVNULL, stdout=out)
        if typed:
            child.stdin.write(typed.encode())
            child.stdin.close()
        _, status, spent = os.wait4(child.pid, 0)
        child.returncode = status
        assert status == 0, f"{words} ends well"
        out.seek(0)
        return spent.ru_utime + spent.ru_stime, out.read().decode()


def least(words, runs):
    return min(used(words)[0] for _ in range(runs))


def peak(words):
    """The peak memory of a process in MB. A small program starts it, since Python's own memory would count."""
    done = subprocess.run(["time", "-q", "-f", "%M", *map(os.fspath, words)], stdout=subprocess.DEVNULL, stderr=subprocess.PIPE, text=True, check=True)
    return int(done.stderr.splitlines()[-1]) * 1024 / 1e6


class Sides:
    """The same rows in a file and a folder of lanes, and in a database of sqlite3 with and without an index."""

    def __init__(self, program, room, rows):
        self.program, self.room, self.count = program, room, rows
        self.csv, self.file, self.folder = room / "T.csv", room / "T.lanes", room / "T"
        self.base, self.indexed = room / "T.db", room / "indexed.db"
        if not self.csv.exists():
            subprocess.run([sys.executable, __file__, "--write", os.fspath(self.csv), "--rows", str(rows)], check=True)
        self.row = room / "row.csv"
        self.row.write_text(f"{','.join(NAMES)}\n{ROW}\n")

    def loaded(self, runs):
        """Loads both sides, and returns the least seconds that each takes."""
        lanes = sqlite = float("inf")
        for _ in range(runs):
            self.file.unlink(missing_ok=True)
            used([self.program, "create", self.file, "T", *queries.COLUMNS.split()])
            lanes = min(lanes, used([self.program, "import", self.file, self.csv])[0])
            self.base.unlink(missing_ok=True)
            used(["sqlite3", self.base, f"CREATE TABLE T({', '.join(f'{name} INTEGER' for name in NAMES)})"])
            sqlite = min(sqlite, used(["sqlite3", self.base], f".mode csv\n.import --skip 1 {self.csv} T\n")[0])
        used(["sqlite3", self.base, "UPDATE T SET ERRORS = NULL WHERE ERRORS = ''"])
        shutil.copy(self.base, self.indexed)
        used(["sqlite3", self.indexed, INDEX])
        shutil.rmtree(self.folder, ignore_errors=True)
        used([self.program, "merge", f"{self.folder}/", self.file])
        return lanes, sqlite

    def import_peaks(self):
        """The peak memory of a load into an empty file, and into an empty database."""
        file, base = self.room / "peak.lanes", self.room / "peak.db"
        for path in file, base:
            path.unlink(missing_ok=True)
        used([self.program, "create", file, "T", *queries.COLUMNS.split()])
        used(["sqlite3", base, f"CREATE TABLE T({', '.join(f'{name} INTEGER' for name in NAMES)})"])
        found = peak([self.program, "import", file, self.csv]), peak(["sqlite3", base, ".mode csv", f".import --skip 1 {self.csv} T"])
        for path in file, base:
            path.unlink()
        return found


def times_of(program, file, query):
    """How many answers of lanes take half a second when the file is open, at most 4,096."""
    times, one = 1, least([program, "query", file, queries.CHEAP], 2)
    while times < 4_096 and used([program, "query", file, queries.CHEAP, *[query] * times])[0] < one + 0.5:
        times *= 2
    return times


def answer_of(program, file, query, times, runs):
    """The least milliseconds of an answer of lanes when the file is open, by so many answers."""
    one = least([program, "query", file, queries.CHEAP], runs)
    return 1e3 * (least([program, "query", file, queries.CHEAP, *[query] * times], runs) - one) / times


def megabytes(path):
    return f"{path.stat().st_size / 1e6:.1f} MB"


def print_costs(sides, runs):
    """What it costs to load, to keep and to change the table."""
    lanes, sqlite = sides.loaded(runs)
    lanes_peak, sqlite_peak = sides.import_peaks()
    packed = sides.room / "T.csv.gz"
    if not packed.exists():
        packed.write_bytes(gzip.compress(sides.csv.read_bytes(), 6))
    insert = f"INSERT INTO T VALUES({ROW.replace(',,', ',NULL,')})"
    one_row = [least(words, runs) for words in ([sides.program, "import", sides.file, sides.row], [sides.program, "import", sides.folder, sides.row], ["sqlite3", sides.base, insert])]
    print(f"{sides.count:,} rows as CSV: {megabytes(sides.csv)}, by gzip -6 {megabytes(packed)}\n\n| What | lanes | sqlite3 |\n|---|---:|---:|")
    print(f"| size | {megabytes(sides.file)} | {megabytes(sides.base)}; with an index of SITE {megabytes(sides.indexed)} |")
    print(f"| load of all rows from CSV | {lanes:.1f} s, {lanes_peak:.0f} MB of memory | {sqlite:.1f} s, {sqlite_peak:.0f} MB of memory |")
    print(f"| load of one row more | a file {1e3 * one_row[0]:.0f} ms, a folder {1e3 * one_row[1]:.1f} ms | {1e3 * one_row[2]:.1f} ms |", flush=True)


def same(ours, theirs):
    """Whether two answers are the same, but that means have six decimals in one and are floats in the other."""
    def rows(text):
        return sorted([float(cell) if cell not in ("", "NULL") else float("-inf") for cell in line.replace("|", ",").split(",")] for line in text.splitlines())

    pairs = [pair for mine, other in zip(rows(ours), rows(theirs), strict=True) for pair in zip(mine, other, strict=True)]
    return all(mine == other or abs(mine - other) < 1e-6 for mine, other in pairs)


def print_queries(sides, runs):
    """What each query takes."""
    print("\n| Query | lanes, the command | its answer | sqlite3 | with the index |\n|---|---:|---:|---:|---:|")
    for name, query in queries.QUERIES:
        commands = {"lanes": [sides.program, "query", sides.file, query], "sqlite3": ["sqlite3", sides.base, query], "indexed": ["sqlite3", sides.indexed, query]}
        times = {side: [] for side in commands}
        for turn in range(2 * runs):
            for side, words in commands.items():
                if turn < runs or min(times[side]) < 1:
                    times[side].append(used(words)[0])
        ours, theirs = used(commands["lanes"])[1].split("\n", 1)[1], used(commands["sqlite3"])[1]
        lanes, sqlite, indexed = (1e3 * min(found) for found in times.values())
        print(f"| {name}, `{query}` | {lanes:.0f} ms | {answer_of(sides.program, sides.file, query, times_of(sides.program, sides.file, query), runs):.1f} ms | {sqlite:.0f} ms | {indexed:.0f} ms |{'' if same(ours, theirs) else ' ANSWERS DIFFER'}", flush=True)
    grouping = dict(queries.QUERIES)["Q08"]
    print(f"\nPeak memory of Q08: lanes {peak([sides.program, 'query', sides.file, grouping]):.0f} MB, sqlite3 {peak(['sqlite3', sides.base, grouping]):.0f} MB")


def main():
    asked = queries.options_of("Times lanes and sqlite3 on one table.", rows=6_400_000, runs=5)
    asked.add_argument("--room")
    given = asked.parse_args()
    if given.write:
        return write_rows(given.write, given.rows)
    with tempfile.TemporaryDirectory(prefix="lanes-") as room:
        sides = Sides(os.path.abspath(given.program), pathlib.Path(given.room or room), given.rows)
        print_costs(sides, given.runs)
        print_queries(sides, given.runs)


if __name__ == "__main__":
    sys.exit(main())
