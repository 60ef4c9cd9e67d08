#!/usr/bin/env python3
"""Measures how much memory and how much more disk the commands of a service need, and prints a table as docs/OPERATIONS.md has it.

    python3 bench/needs.py [--program PROGRAM] [--loads N] [--rows N]     N loads of N rows, 1,000 of 6,400 if not said

The rows are those of queries.py. Memory is the peak of the process. Disk is what the site's folder has at most while the command runs, more
than before it: that is seen by looking at the folder's files every millisecond, so a short peak can be missed. Processor time is that of one run.
"""
import argparse, itertools, os, pathlib, subprocess, sys, tempfile, threading, time

sys.path.insert(0, os.path.dirname(os.path.abspath(__file__)))
import queries

TOP = pathlib.Path(__file__).resolve().parent.parent
HEADER = ",".join(queries.COLUMNS.split()[::2]) + "\n"
GROUPS = "SELECT SITE,COUNT(*),SUM(EVENTS) FROM T GROUP BY SITE"


def write_loads(room, loads, rows):
    """Writes the loads, one file each."""
    every = queries.reports(loads * rows)
    for load in range(loads):
        lines = (row[1:-1].replace("NULL", "") + "\n" for row in itertools.islice(every, rows))
        (room / f"{load}.csv").write_text(HEADER + "".join(lines))


def size_of(folder):
    """The bytes of the files below a folder. A file may go while it is looked at."""
    total = 0
    for at, _, names in os.walk(folder):
        for name in names:
            try:
                total += os.lstat(os.path.join(at, name)).st_size
            except FileNotFoundError:
                pass
    return total


class Measured:
    """A run of a command, in a shell of its own that waits for it: its peak memory, its processor seconds, and how much more the site has meanwhile."""

    def __init__(self, site, words):
        self.site, self.before, self.most, self.ended = site, size_of(site), 0, False
        watching = threading.Thread(target=self.watch)
        watching.start()
        done = subprocess.run(["time", "-q", "-f", "%M %U %S", *map(os.fspath, words)], stdout=subprocess.PIPE, stderr=subprocess.PIPE, text=True)
        self.ended = True
        watching.join()
        assert done.returncode == 0, f"{words}: {done.stderr}"
        kilobytes, *seconds = done.stderr.splitlines()[-1].split()
        self.said, self.memory, self.seconds = done.stdout, int(kilobytes) * 1024, sum(map(float, seconds))

    def watch(self):
        while not self.ended:
            self.most = max(self.most, size_of(self.site))
            time.sleep(0.001)

    def line(self, what):
        return f"| {what} | {self.memory / 1e6:.0f} MB | {max(0, self.most - self.before) / 1e6:.1f} MB | {self.seconds:.2f} s |"


def main():
    asked = argparse.ArgumentParser(description="Measures what the commands of a service need.")
    asked.add_argument("--program", default=os.fspath(TOP / "crates" / "lanes" / "out" / "lanes"))
    asked.add_argument("--loads", type=int, default=1_000)
    asked.add_argument("--rows", type=int, default=6_400)
    given = asked.parse_args()
    with tempfile.TemporaryDirectory(prefix="lanes-") as room:
        measure(os.path.abspath(given.program), pathlib.Path(room), given.loads, given.rows)


def measure(program, room, loads, rows):
    site, folder, file, csv = room / "site", room / "site" / "visits", room / "site" / "visits.lanes", room / "csv"
    site.mkdir()
    csv.mkdir()
    write_loads(csv, loads + 62, rows)

    def run(*words):
        return Measured(site, [program, *words])

    def quiet(*words):
        subprocess.run([program, *map(os.fspath, words)], stdout=subprocess.DEVNULL, check=True)

    quiet("create", f"{folder}/", "T", *queries.COLUMNS.split())
    for load in range(loads):
        quiet("import", folder, csv / f"{load}.csv")
    print(f"{loads:,} loads of {rows:,} rows, {sum(1 for _ in folder.iterdir()):,} parts, {size_of(folder) / 1e6:.1f} MB\n\n| What | Memory | More disk | Processor |\n|---|---:|---:|---:|")

    def show(what, *words):
        measured = run(*words)
        print(measured.line(what), flush=True)
        return measured.said

    show("a load, into these parts", "import", folder, csv / f"{loads}.csv")
    show("a load with `--batch`", "import", "--batch", "1.1", folder, csv / f"{loads + 1}.csv")
    show("a query of 500 groups", "query", folder, GROUPS)
    show("`pack`, which joins them all", "pack", folder)
    for load in range(60):
        quiet("import", folder, csv / f"{loads + 2 + load}.csv")
    show("`pack` of 60 loads and the large part", "pack", folder)
    show("a query of 500 groups, of few parts", "query", folder, GROUPS)
    show("`delete` of a thirtieth of the days", "delete", folder, f"DAY < {19000 + loads * rows // 16_000 // 30}")
    show("`forget`", "forget", folder)
    show("`merge` to a file: a backup", "merge", file, folder)
    print(f"| the file has {file.stat().st_size / 1e6:.1f} MB | | | |")
    show("a load into the file", "import", file, csv / "0.csv")
    show("a query of 500 groups of the file", "query", file, GROUPS)
    show("`apply` of the file to the folder, which has all but a load", "apply", folder, file)
    show("`forget` of the file", "forget", file)


if __name__ == "__main__":
    sys.exit(main())
