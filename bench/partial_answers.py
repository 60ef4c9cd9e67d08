#!/usr/bin/env python3
"""Times queries over many files by their partial answers, compared with the same query over the one file that they merge into, and prints a table:
by the program, with a process for each file and four at a time, and by the module of Python, with four processes that stay.

    python3 bench/partial_answers.py [--program PROGRAM] [--files N] [--rows N] [--processes N]     64 files of 1,000,000 rows and four processes,
                                                                                          if nothing else is given

Times are by the clock: the least of three runs, each with the opening of all files. Every file has the same rows, under names of its own.
"""
import argparse, multiprocessing, os, pathlib, random, subprocess, sys, tempfile, time

from folders import COLUMNS, QUERIES, write_rows

TOP = pathlib.Path(__file__).resolve().parent.parent
sys.path.insert(0, os.fspath(TOP / "python"))
import lanes

MORE = ["SELECT PAGE,AVG(HITS),COUNT(DISTINCT SITE) FROM T GROUP BY PAGE HAVING COUNT(*) > 10"]

#: Partial answers of all files, made side by side, and the answer of what they are combined into.
SCRIPT = """printf '%s\\0' "$2"/*.lanes | xargs -0 -P "$4" -I FILE "$1" FILE "$3" && lanes combine "$2"/*.partial | lanes finish -"""
ONE = """#!/bin/sh
exec lanes partial "$1" "$2" > "$1.partial"
"""


def seconds(words, **how):
    """The seconds that pass in a process, and what it prints."""
    start = time.perf_counter()
    done = subprocess.run(words, stdout=subprocess.PIPE, check=True, **how)
    return time.perf_counter() - start, done.stdout


def least(words, runs=3, **how):
    """The least seconds of some runs, and what each of them prints."""
    found = [seconds(words, **how) for _ in range(runs)]
    assert len({printed for _, printed in found}) == 1, f"{words} prints the same"
    return min(passed for passed, _ in found), found[0][1]


def partial_of(asked):
    """The partial answer of some files to a query, as one process makes it."""
    files, query = asked
    return lanes.combine(lanes.Table.open(path).partial(query) for path in files)


def least_of_pool(pool, processes, files, query, runs=3):
    """The least seconds of some runs by processes that stay, each with its share of the files, and the answer's rows."""
    found = []
    for _ in range(runs):
        start = time.perf_counter()
        partials = pool.map(partial_of, [(files[at::processes], query) for at in range(processes)], chunksize=1)
        answer = lanes.finish(lanes.combine(partials))
        found.append((time.perf_counter() - start, [tuple(row) for row in answer]))
    return min(passed for passed, _ in found), found[0][1]


def make_files(program, folder, count, rows):
    """Makes so many files of the same rows under names of their own."""
    csv = folder / "rows.csv"
    write_rows(csv, random.Random(1), rows, 19_000)
    for origin in range(1, count + 1):
        path = folder / f"{origin:03}.lanes"
        seconds([program, "create", "--quiet", path, "T", *COLUMNS])
        seconds([program, "import", "--quiet", "--batch", f"{origin}.1", path, csv])
    csv.unlink()


def main():
    parser = argparse.ArgumentParser(description=__doc__, formatter_class=argparse.RawDescriptionHelpFormatter)
    parser.add_argument("--program", default=TOP / "crates" / "lanes" / "out" / "lanes", type=pathlib.Path)
    parser.add_argument("--files", type=int, default=64)
    parser.add_argument("--rows", type=int, default=1_000_000)
    parser.add_argument("--processes", type=int, default=4)
    given = parser.parse_args()
    program = os.fspath(given.program.resolve())
    with tempfile.TemporaryDirectory(prefix="lanes-partial-answers-") as room:
        files, whole, one = pathlib.Path(room) / "files", pathlib.Path(room) / "whole.lanes", pathlib.Path(room) / "one"
        files.mkdir()
        os.symlink(program, os.path.join(room, "lanes"))
        one.write_text(ONE)
        one.chmod(0o755)
        make_files(program, files, given.files, given.rows)
        seconds([program, "merge", whole, *sorted(files.glob("*.lanes"))])
        print(f"| Query, over {given.files} files of {given.rows:,} rows | their file of {whole.stat().st_size / 1e6:.0f} MB | a process for each file | ratio | {given.processes} that stay | ratio |\n|---|---:|---:|---:|---:|---:|")
        paths = sorted(files.glob("*.lanes"))
        with multiprocessing.Pool(given.processes) as pool:
            for query in QUERIES + MORE:
                words = ["bash", "-c", SCRIPT, "bash", one, files, query, str(given.processes)]
                apart, answer = least(words, env={**os.environ, "PATH": f"{room}{os.pathsep}{os.environ['PATH']}"})
                merged, wanted = least([program, "query", whole, query])
                assert answer == wanted, f"{query}: {answer} and {wanted}"
                stayed, rows = least_of_pool(pool, given.processes, paths, query)
                assert len(rows) == len(wanted.splitlines()) - 1, f"{query}: {len(rows)} rows"
                print(f"| {query} | {merged:.2f} s | {apart:.2f} s | {apart / merged:.2f} | {stayed:.2f} s | {stayed / merged:.2f} |", flush=True)


if __name__ == "__main__":
    main()
