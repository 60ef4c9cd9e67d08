#!/usr/bin/env python3
"""Runs scripts through the program and prints, for each, the size, seconds, MB of script text a second and peak memory.

    python3 bench/scripts.py [--program PROGRAM] [--runs N]

Without a program named it is the one that ./lanes --build builds. Of several runs of a script the least time counts.

A peak of less than about 20 MiB is not seen: it is what this program itself takes when it starts the other.
"""
import argparse, os, subprocess, sys, tempfile, time

TOP = os.path.dirname(os.path.dirname(os.path.abspath(__file__)))
# What ./lanes --build leaves here too.
BUILT = os.path.join(TOP, "crates", "lanes", "out", "lanes")


def batches(replicas, kind, count, rows, last):
    """Each replica appends so many batches, the rows of turn i being rows(i); the script ends with `last`."""
    yield f"table {replicas} T A {kind}\n"
    for i in range(count):
        for replica in range(1, replicas + 1):
            yield f"append {replica} {rows(i)}\n"
    yield last


def one_row(i):
    return f"({i % 30000})"


def small_batches(count):
    """One replica takes so many batches of one row each."""
    return batches(1, "SMALLINT", count, one_row, "query 1 SELECT COUNT(*) FROM T\n")


def long_lines(count, rows):
    """One replica takes batches of so many rows each, a line a batch."""
    row = ",".join(f"({i % 90000})" for i in range(rows))
    return batches(1, "INTEGER", count, lambda _: row, "query 1 SELECT COUNT(*) FROM T\n")


def merged_batches(count):
    """Two replicas append so many batches each, and merge."""
    last = "merge 1 2\nmerge 2 1\nquery 2 SELECT COUNT(*) FROM T\n"
    return batches(2, "SMALLINT", count, one_row, last)


def scattered_deletes(count):
    """Two replicas delete so many single rows each, no two adjacent, and merge."""
    yield "table 2 T A SMALLINT\n"
    for replica, first in ((1, 0), (2, 2)):
        for i in range(count):
            row = i % 16384 * 4 + first
            yield f"delete {replica} 1.{i // 16384 + 1} {row} {row}\n"
    yield "merge 1 2\n"


def descending_deletes(count):
    """One replica deletes so many single rows, each before all that it deleted earlier."""
    yield "table 1 T A SMALLINT\n"
    for i in reversed(range(count)):
        row = i % 16384 * 4
        yield f"delete 1 1.{i // 16384 + 1} {row} {row}\n"


def merged_from_above(count):
    """One replica takes so many batches from another, whose origin is greater."""
    yield "table 2 T A SMALLINT\n"
    for i in range(count):
        yield f"append 2 {one_row(i)}\n"
    yield "merge 1 2\n"


def batches_below(count):
    """One replica takes as many batches from another, and appends batches that come before them, this many of each."""
    yield from merged_from_above(count)
    for i in range(count):
        yield f"append 1 {one_row(i)}\n"


def scripts():
    """The name of each script, and its lines."""
    yield "64 batches of 65,536 rows", long_lines(64, 65536)
    for count in (16384, 32768, 65536):
        yield f"{count} batches of one row", small_batches(count)
        yield f"merge {count} scattered deletes", scattered_deletes(count)
        yield f"{count} deletes in descending order", descending_deletes(count)
    for count in (8192, 16384, 32768):
        yield f"merge {count} batches with as many", merged_batches(count)
        yield f"{count} batches below as many", batches_below(count)


def once(program, script):
    """The seconds of a run of a script, what the system says of it, and its status and last reply."""
    start = time.monotonic()
    with open(script) as text:
        child = subprocess.Popen([program, "run"], stdin=text, stdout=subprocess.PIPE)
        last = b""
        for line in child.stdout:
            last = line
        _, status, usage = os.wait4(child.pid, 0)
    return time.monotonic() - start, usage.ru_maxrss / 1024, status >> 8, last.decode().strip()


def run(given, name, lines):
    """Prints the least time of a few runs of a script, and answers it."""
    with tempfile.NamedTemporaryFile("w", suffix=".lanes", delete=False) as script:
        script.writelines(lines)
    size = os.path.getsize(script.name) / 1e6
    seconds, peak, status, last = min(once(given.program, script.name) for _ in range(given.runs))
    os.unlink(script.name)
    print(f"{name:34} {size:8.2f} MB {seconds:8.3f} s {size / seconds:8.2f} MB/s {peak:8.1f} MiB peak  status {status}  last reply {last}", flush=True)
    return seconds


def appends_after_a_merge(given, count):
    """Prints how many times an append into an empty store an append takes after a merge of so many batches of a greater origin."""
    empty = run(given, f"{count} batches of one row", small_batches(count))
    merged = run(given, f"merge {count} batches", merged_from_above(count))
    both = run(given, f"{count} batches below as many", batches_below(count))
    print(f"an append after a merge takes {(both - merged) / empty:.2f} times one into an empty store", flush=True)


def main():
    asked = argparse.ArgumentParser(description="Times scripts through the program.")
    asked.add_argument("--program")
    asked.add_argument("--runs", type=int, default=3)
    given = asked.parse_args()
    if not given.program:
        subprocess.run([os.path.join(TOP, "lanes"), "--build"], stdout=subprocess.DEVNULL, check=True)
        given.program = BUILT
    for name, lines in scripts():
        run(given, name, lines)
    appends_after_a_merge(given, 32768)


if __name__ == "__main__":
    sys.exit(main())
