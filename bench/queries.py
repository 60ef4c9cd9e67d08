#!/usr/bin/env python3
"""Times queries over a canonical file through the program, the file opened once, and prints milliseconds a query.

    python3 bench/queries.py [--program PROGRAM] [--data FOLDER] [--beside PROGRAM] [--runs N]

FOLDER holds T.flcf and T.csv, the canonical file and the rows of one table of counts that sites report (SITE SMALLINT, DAY
INTEGER, KIND SMALLINT, EVENTS BIGINT, ERRORS INTEGER, TOTAL BIGINT). PROGRAM beside is run as `PROGRAM FOLDER/T.csv N` and
prints lines `query NAME MS,MS,.. ANSWER`; the bench then prints both sides and their ratio, and says where the answers differ.
Q10 is compared with a plain loop that unpacks each vector and puts each value into a set (queries/distinct.rs), if `rustc` is
there, since a program beside may read bounds and dictionaries alone.
Without a folder, lanes is timed alone, on 400,000 rows of its own.

A query's time is that of a run that asks a cheap query and then this one many times, less that of a run with the cheap query
alone, by the number of times: the best of N runs each. The opening of the file so falls out. The times are as many as make the
run half a second longer, or 8,192. What is measured on a loaded machine says little.
"""
import argparse, os, shutil, subprocess, sys, tempfile, time

TOP = os.path.dirname(os.path.dirname(os.path.abspath(__file__)))
CHEAP = "SELECT COUNT(*) FROM T"
QUERIES = [
    ("Q01", CHEAP),
    ("Q02", "SELECT SUM(EVENTS) FROM T"),
    ("Q03", "SELECT SUM(EVENTS) FROM T WHERE KIND = 2"),
    ("Q04", "SELECT COUNT(*), SUM(EVENTS) FROM T WHERE DAY BETWEEN 19100 AND 19129 AND (KIND IN (1, 3) OR ERRORS IS NULL)"),
    ("Q05", "SELECT COUNT(*) FROM T WHERE NOT (ERRORS BETWEEN 0 AND 2) AND EVENTS > 10"),
    ("Q06", "SELECT MIN(TOTAL), MAX(TOTAL), MIN(EVENTS), MAX(EVENTS), MAX(ERRORS) FROM T"),
    ("Q07", "SELECT AVG(ERRORS), COUNT(ERRORS) FROM T"),
    ("Q08", "SELECT KIND, COUNT(*), SUM(EVENTS), AVG(ERRORS) FROM T GROUP BY KIND"),
    ("Q09", "SELECT SITE, COUNT(*), SUM(EVENTS), MAX(ERRORS) FROM T GROUP BY SITE HAVING SUM(EVENTS) > 200000"),
    ("Q10", "SELECT COUNT(DISTINCT DAY) FROM T"),
    ("Q11", "SELECT COUNT(*), SUM(EVENTS), MIN(DAY), MAX(DAY) FROM T WHERE TOTAL BETWEEN 100020000000 AND 100020040000"),
    ("Q12", "SELECT COUNT(*), SUM(EVENTS), COUNT(ERRORS) FROM T WHERE SITE = 137"),
]
COLUMNS = "SITE SMALLINT DAY INTEGER KIND SMALLINT EVENTS BIGINT ERRORS INTEGER TOTAL BIGINT"


def reports(count):
    """Rows like those of the table, by a small generator of numbers."""
    seed, total = 12345, 100_000_000_000
    for n in range(count):
        seed = (seed * 6364136223846793005 + 1442695040888963407) % 2**64
        dice = seed >> 33
        events = dice % 97 % 13
        total += events
        errors = "NULL" if dice % 5 < 2 else dice // 7 % 20
        yield f"({n // 32 % 500},{19000 + n // 16000},{min(dice % 9, 5)},{events},{errors},{total})"


def own_file(program, folder, count=400_000, batch=20_000):
    """Writes the canonical file of rows of its own."""
    lines, every = [f"table 1 T {COLUMNS}"], list(reports(count))
    lines += ["append 1 " + ",".join(every[n : n + batch]) for n in range(0, count, batch)] + ["export 1"]
    done = subprocess.run([program, "run"], input="\n".join(lines).encode() + b"\n", stdout=subprocess.PIPE, check=True)
    with open(os.path.join(folder, "T.flcf"), "wb") as file:
        file.write(bytes.fromhex(done.stdout.decode().splitlines()[-1].removeprefix("ok").strip()))


def seconds(program, file, queries):
    """How long a run takes, and what it writes."""
    start = time.perf_counter()
    done = subprocess.run([program, "query", file, *queries], stdout=subprocess.PIPE, check=True)
    return time.perf_counter() - start, done.stdout.decode()


def least_seconds(program, file, queries, runs):
    """The best time of a few runs."""
    return min(seconds(program, file, queries)[0] for _ in range(runs))


def milliseconds(program, file, query, runs):
    """The best time of a query, and its answer's rows."""
    opening, times = least_seconds(program, file, [CHEAP], runs), 1
    while times < 8_192 and seconds(program, file, [CHEAP] + [query] * times)[0] < opening + 0.5:
        times *= 2
    best = least_seconds(program, file, [CHEAP] + [query] * times, runs) - opening
    return best / times * 1000, ";".join(seconds(program, file, [query])[1].splitlines()[1:])


def beside(other, folder, runs):
    """The times and answers of the other program."""
    done = subprocess.run([other, os.path.join(folder, "T.csv"), str(runs)], stdout=subprocess.PIPE, check=True)
    found = {}
    for line in done.stdout.decode().splitlines():
        if line.startswith("query\t") or line.startswith("query "):
            _, name, times, *answer = line.split("\t") if "\t" in line else line.split(" ", 3)
            found[name] = min(float(one) for one in times.split(",")), "".join(answer)
    return found


def plain_loop(room):
    """The program of Q10's plain loop, or nothing if there is no compiler."""
    if not shutil.which("rustc"):
        return None
    made = os.path.join(room, "distinct")
    source = os.path.join(TOP, "bench", "queries", "distinct.rs")
    subprocess.run(["rustc", "--edition=2021", "-O", "-C", "target-cpu=native", source, "-o", made], check=True)
    return made


def options_of(description, rows, runs):
    """The options of a bench that writes its rows by a process of its own (`--write`), with how many rows and runs there are if not said."""
    options = argparse.ArgumentParser(description=description)
    options.add_argument("--program", default=os.path.join(TOP, "crates", "lanes", "out", "lanes"))
    options.add_argument("--rows", type=int, default=rows)
    options.add_argument("--runs", type=int, default=runs)
    options.add_argument("--write", help=argparse.SUPPRESS)
    return options


def main():
    asked = argparse.ArgumentParser(description="Times queries over a canonical file.")
    asked.add_argument("--program", default=os.path.join(TOP, "crates", "lanes", "out", "lanes"))
    asked.add_argument("--data")
    asked.add_argument("--beside")
    asked.add_argument("--runs", type=int, default=5)
    given = asked.parse_args()
    with tempfile.TemporaryDirectory(prefix="lanes-") as room:
        folder = given.data or room
        if not given.data:
            own_file(given.program, room)
        others = beside(given.beside, folder, given.runs) if given.beside else {}
        loop = plain_loop(room) if given.data else None
        others |= beside(loop, folder, given.runs) if loop else {}
        for name, query in QUERIES:
            time_of, answer = milliseconds(given.program, os.path.join(folder, "T.flcf"), query, given.runs)
            line = f"{name} {time_of:9.3f} ms"
            if name in others:
                line += f" {others[name][0]:9.3f} ms of the other program, ratio {time_of / others[name][0]:8.2f}"
                line += "" if others[name][1] == answer else f", ANSWERS DIFFER: {answer[:80]} and {others[name][1][:80]}"
            print(line)


if __name__ == "__main__":
    sys.exit(main())
