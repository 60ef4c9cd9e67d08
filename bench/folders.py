#!/usr/bin/env python3
"""Times the program on folders of parts and prints a table: loads in sequence, a load of one row, and queries over a folder compared
with the same query over the one file that its parts make.

    python3 bench/folders.py [--program PROGRAM] [--loads N] [--parts N]     --loads: how many loads of 10,000 rows, 1,000 if not given;
                                                                             --parts: how many parts of 10 rows the second folder has, 20,000

Processor time is that of the processes of the program, user and system, without those of this script. A query's and a small load's is the least of five runs.
"""
import argparse, os, pathlib, random, shutil, subprocess, tempfile, time

TOP = pathlib.Path(__file__).resolve().parent.parent
COLUMNS = ["DAY", "INTEGER", "SITE", "INTEGER", "PAGE", "SMALLINT", "HITS", "INTEGER", "ERRORS", "SMALLINT", "BYTES", "BIGINT"]
QUERIES = ["SELECT COUNT(*) FROM T", "SELECT SUM(HITS) FROM T WHERE ERRORS IS NULL", "SELECT PAGE,SUM(HITS) FROM T GROUP BY PAGE"]


def used(words):
    """The processor seconds of a process that ends well."""
    child = subprocess.Popen(words, stdout=subprocess.DEVNULL)
    _, status, spent = os.wait4(child.pid, 0)
    child.returncode = status
    assert status == 0, f"{words} ends well"
    return spent.ru_utime + spent.ru_stime


def write_rows(path, chance, count, first):
    """Writes a file of comma-separated values of so many rows of a table of six columns."""
    lines, total = ["DAY,SITE,PAGE,HITS,ERRORS,BYTES\n"], first * 10**6
    for row in range(count):
        hits = chance.randrange(200)
        total += hits
        errors = "" if chance.random() < 0.1 else str(int(chance.expovariate(1)))
        lines.append(f"{first},{row * 500 // count},{chance.randrange(6)},{hits},{errors},{total}\n")
    path.write_text("".join(lines))


def load(program, folder, csv, loads):
    """The processor seconds and those that pass in so many loads, one after another."""
    start = time.perf_counter()
    spent = sum(used([program, "import", folder, csv]) for _ in range(loads))
    return spent, time.perf_counter() - start


def load_apart(program, folder, csv, loads, room):
    """As `load`, a thousand loads at a time into a folder of their own, whose parts are then moved: an import reads the head of each part."""
    spent, start = 0, time.perf_counter()
    for first in range(0, loads, 1_000):
        apart = room / "apart"
        used([program, "create", f"{apart}/", "T", *COLUMNS])
        spent += load(program, apart, csv, min(1_000, loads - first))[0]
        for part in apart.glob("*.lanes"):
            part.rename(folder / part.name)
        shutil.rmtree(apart)
    return spent, time.perf_counter() - start


def least(words, runs=5):
    return min(used(words) for _ in range(runs))


def print_queries(program, folder, one):
    """Prints what queries take over a folder and over the file of its parts."""
    used([program, "merge", one, folder])
    for query in QUERIES:
        parts, whole = (1e3 * least([program, "query", path, query]) for path in (folder, one))
        print(f"| {query}, over {len(list(folder.glob('*.lanes'))):,} parts, by the one file of {one.stat().st_size / 1e6:.1f} MB | {parts:.0f} ms | {whole:.0f} ms | {parts / whole:.2f} |", flush=True)


def main():
    parser = argparse.ArgumentParser(description=__doc__, formatter_class=argparse.RawDescriptionHelpFormatter)
    parser.add_argument("--program", default=TOP / "crates" / "lanes" / "out" / "lanes", type=pathlib.Path)
    parser.add_argument("--loads", type=int, default=1_000)
    parser.add_argument("--parts", type=int, default=20_000)
    given = parser.parse_args()
    program, chance = os.fspath(given.program.resolve()), random.Random(1)
    with tempfile.TemporaryDirectory(prefix="lanes-folders-") as room:
        room = pathlib.Path(room)
        csv, row, ten = room / "load.csv", room / "row.csv", room / "ten.csv"
        for path, count in ((csv, 10_000), (row, 1), (ten, 10)):
            write_rows(path, chance, count, 19_000)
        print("| What | | | ratio |\n|---|---:|---:|---:|")
        large, small = room / "large", room / "small"
        for folder in (large, small):
            used([program, "create", f"{folder}/", "T", *COLUMNS])
        spent, passed = load(program, large, csv, given.loads)
        print(f"| {given.loads:,} loads of 10,000 rows, processor and passed | {spent:.1f} s | {passed:.1f} s | |", flush=True)
        print(f"| a load of one row after them, processor | {1e3 * least([program, 'import', large, row]):.1f} ms | | |", flush=True)
        print_queries(program, large, room / "large.lanes")
        spent, passed = load_apart(program, small, ten, given.parts, room)
        print(f"| {given.parts:,} loads of 10 rows, processor and passed | {spent:.1f} s | {passed:.1f} s | |", flush=True)
        print_queries(program, small, room / "small.lanes")


if __name__ == "__main__":
    main()
