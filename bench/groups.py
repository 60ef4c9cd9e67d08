#!/usr/bin/env python3
"""Times GROUP BY through the program, and prints how much memory it takes in addition to the table: 10, 1,000 and 100,000 groups.

    python3 bench/groups.py [--program PROGRAM] [--rows N] [--runs N]

A table's rows (KEY INTEGER, N BIGINT) go through a script into a canonical file for each number of groups, the keys in no order.
A query's time is that of a run that asks a cheap query and then this one several times, less that of a run with the cheap query
alone, by the number of times: the best of a few runs each. Its memory is the peak of a run with it beyond that of a run with the
cheap query alone. What is measured on a loaded machine says little.
"""
import argparse, os, subprocess, sys, tempfile, time

TOP = os.path.dirname(os.path.dirname(os.path.abspath(__file__)))
CHEAP = "SELECT COUNT(*) FROM T"
QUERY = "SELECT KEY, COUNT(*), SUM(N), MAX(N) FROM T GROUP BY KEY HAVING COUNT(*) < 0"
TIMES = 4


def rows(count, groups):
    """Rows whose keys follow one another in no order, by a small generator of numbers."""
    seed = 12345
    for n in range(count):
        seed = (seed * 6364136223846793005 + 1442695040888963407) % 2**64
        yield f"({(seed >> 33) % groups},{n % 1000})"


def make_file(program, file, count, groups, batch=50_000):
    """Writes the canonical file of such rows."""
    lines, every = ["table 1 T KEY INTEGER N BIGINT"], list(rows(count, groups))
    lines += ["append 1 " + ",".join(every[n : n + batch]) for n in range(0, count, batch)] + ["export 1"]
    done = subprocess.run([program, "run"], input="\n".join(lines).encode() + b"\n", stdout=subprocess.PIPE, check=True)
    with open(file, "wb") as out:
        out.write(bytes.fromhex(done.stdout.decode().splitlines()[-1].removeprefix("ok").strip()))


def run(program, file, queries):
    """How many seconds a run takes, and its peak of memory in KiB."""
    start = time.perf_counter()
    running = subprocess.Popen([program, "query", file, *queries], stdout=subprocess.DEVNULL)
    _, status, used = os.wait4(running.pid, 0)
    running.returncode = os.waitstatus_to_exitcode(status)
    if running.returncode:
        sys.exit(f"{program} ended with status {running.returncode}")
    return time.perf_counter() - start, used.ru_maxrss


def least(program, file, queries, runs):
    """The least time and the least peak of a few runs."""
    found = [run(program, file, queries) for _ in range(runs)]
    return min(one for one, _ in found), min(peak for _, peak in found)


def main():
    asked = argparse.ArgumentParser(description="Times GROUP BY of 10, 1,000 and 100,000 groups.")
    asked.add_argument("--program", default=os.path.join(TOP, "crates", "lanes", "out", "lanes"))
    asked.add_argument("--rows", type=int, default=1_000_000)
    asked.add_argument("--runs", type=int, default=5)
    given = asked.parse_args()
    with tempfile.TemporaryDirectory(prefix="lanes-") as room:
        file = os.path.join(room, "T.flcf")
        for count in (given.rows // 4, given.rows // 2, given.rows):
            for groups in (10, 1_000, 100_000):
                make_file(given.program, file, count, groups)
                opening, before = least(given.program, file, [CHEAP], given.runs)
                asked_too, peak = least(given.program, file, [CHEAP] + [QUERY] * TIMES, given.runs)
                spent = (asked_too - opening) / TIMES
                print(f"{count:9} rows {groups:7} groups {spent * 1000:9.2f} ms {spent / count * 1e9:7.1f} ns a row {peak - before:7} KiB beyond the table")


sys.exit(main())
