#!/usr/bin/env python3
"""Times segments on a table of six columns: building, canonical, copy, write_bytes and read_bytes, and what they take.

What it builds is in a folder outside the repository, which a later run takes up again: there the crates are proved
once, which takes some minutes. It needs the command rt. With --beside it also runs a program that prints, for the same file
of rows, lines 'encode ms', 'read ms, no checks' and 'canonical check ms all', each with a tab and a number, and gives the
ratios of both.
"""
import argparse, pathlib, random, shutil, subprocess, sys

sys.dont_write_bytecode = True
from workspace import TOP, libraries_below, run, say, usual_folder, write_workspace

SOURCES = TOP / "bench" / "segments" / "program"
NAME = "segment_times"
LIBRARIES = libraries_below("segment_core")
BATCH = 20_000


def rows(count, seed):
    """Rows of a table of counts that sites report: SITE, DAY, KIND, EVENTS, ERRORS or None, and TOTAL."""
    numbers = random.Random(seed)
    runs = [9 + int(numbers.random() ** 3 * 150) for _ in range(500)]
    total, day, made = 100_000_000_000, 19_000, 0
    kinds = [0] * 55 + [1] * 20 + [2] * 12 + [3] * 8 + [4] * 4 + [5]
    while True:
        for site, mean in enumerate(runs):
            for _ in range(int(mean * (0.5 + numbers.random())) if numbers.random() > 0.1 else 0):
                if made == count:
                    return
                made += 1
                events = int(4 * ((1 - numbers.random()) ** -0.6 - 1))
                total += events
                few = int(3 * numbers.random()) if numbers.random() < 0.75 else 3 + int(numbers.expovariate(0.4))
                errors = None if numbers.random() < 0.4 else few if numbers.random() > 0.0005 else int(50_000 * numbers.random() ** 4)
                yield site, day, kinds[numbers.randrange(100)], events, errors, total
        day += 1


def write_rows(path, count, seed):
    with open(path, "w") as file:
        for row in rows(count, seed):
            file.write(",".join("\\N" if cell is None else str(cell) for cell in row) + "\n")


def build(folder, cpu):
    """Proves and builds the program for a processor, or for the default one, and gives its path."""
    crate = folder / "crates" / NAME
    say(f"proving and building the program for {cpu or 'the default processor'}")
    run(["rt", "run", *(["--cpu", cpu] if cpu else [])], crate)
    program = folder / f"{NAME}-{cpu or 'default'}"
    shutil.copy(crate / "out" / NAME, program)
    return program


def figures(words):
    """What a program prints: a number for each name, if a line ends in a tab and a number."""
    lines = subprocess.run(words, stdout=subprocess.PIPE, text=True, check=True).stdout.splitlines()
    found = {}
    for line in lines:
        name, _, number = line.rpartition("\t")
        if number.replace(".", "", 1).isdigit():
            found[name.replace("\t", " ")] = float(number)
    return found


def least(found, words):
    """Keeps for each name the lesser of what was found and what a program prints now."""
    for name, number in figures(words).items():
        found[name] = min(number, found.get(name, number))


def print_times(ours, theirs):
    beside = {"check_rows and build": "encode ms", "canonical": "canonical check ms all", "read_bytes": "read ms, no checks"}
    print("| Call | ms | ns a value | the other program, ms | ratio |\n|---|---:|---:|---:|---:|")
    for name in ("check_rows", "check_rows and build", "canonical", "copy", "write_bytes", "read_bytes"):
        other = theirs.get(beside.get(name))
        ratio = [f"{other:.2f}", f"{ours[name] / 1e6 / other:.2f}"] if other else ["", ""]
        print(f"| {name} | {ours[name] / 1e6:.2f} | {ours[name] / 6 / ours['rows']:.2f} | {' | '.join(ratio)} |")


def print_sizes(ours):
    disk, vectors, parts, own = (ours[name] for name in ("bytes on disk", "vectors", "bytes of parts", "bytes of vectors"))
    values = 6 * ours["rows"]
    print(f"\nOn disk {disk:.0f} bytes, {disk / values:.3f} a value; in memory {parts + own:.0f}, {(parts + own) / values:.3f} a value,")
    print(f"{(parts + own) / disk:.2f} times as many: {parts:.0f} in parts, and {own / vectors:.1f} a vector in addition.")


def main():
    usual = usual_folder("segments")
    options = argparse.ArgumentParser(description=__doc__, formatter_class=argparse.RawDescriptionHelpFormatter)
    options.add_argument("--folder", type=pathlib.Path, default=usual, help=f"where to build, {usual} if left out")
    options.add_argument("--data", type=pathlib.Path, help="a file of rows; if left out, 1,000,000 are made")
    options.add_argument("--beside", type=pathlib.Path, help="another program, run as PROGRAM DATA ROUNDS FILE")
    options.add_argument("--cpu", help="the processor to build for, as x86-64-v3; the default one if left out")
    options.add_argument("--rounds", type=int, default=5, help="how often each call is timed in a run")
    options.add_argument("--runs", type=int, default=5, help="how often each program runs: the least times count")
    given = options.parse_args()
    folder = given.folder.resolve()
    below = " ".join(name for name in LIBRARIES if name != "byteorder")
    write_workspace(folder, LIBRARIES, NAME, SOURCES, f": {below} thiserror")
    program = build(folder, given.cpu)
    data = given.data or folder / "rows.csv"
    if not data.exists():
        write_rows(data, 1_000_000, 1)
    ours, theirs = {}, {}
    for _ in range(given.runs):
        least(ours, [program, data, str(given.rounds), str(BATCH)])
        if given.beside:
            least(theirs, [given.beside.resolve(), data, str(given.rounds), folder / "beside.out"])
    print_times(ours, theirs)
    print_sizes(ours)


if __name__ == "__main__":
    main()
