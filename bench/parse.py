#!/usr/bin/env python3
"""Times the proved parser of queries compared with plain Rust, and prints a Markdown table of both.

What it builds is in a folder outside the repository, which a later run takes up again: there the crates are proved
once, which takes some minutes. It needs the commands rt and rustc.
"""
import argparse, os, pathlib, subprocess, sys

sys.dont_write_bytecode = True
from workspace import TOP, libraries_below, link, say, usual_folder, write_workspace

SOURCES = TOP / "bench" / "parse"
NAME = "parse_times"
LIBRARIES = libraries_below("query_parser")
# The C library keeps freed memory for the next call. Else the kernel takes it back after some calls and clears it anew at the
# next, on one side or on the other as the heap happens to lie.
KEPT_MEMORY = {"MALLOC_TRIM_THRESHOLD_": "1000000000", "MALLOC_MMAP_THRESHOLD_": "1000000000"}


def timed(program, runs):
    """The best speed of each side at each kind of text."""
    best = {}
    for turn in range(runs):
        say(f"run {turn + 1} of {runs}")
        done = subprocess.run([program], env=os.environ | KEPT_MEMORY, stdout=subprocess.PIPE, text=True, check=True)
        lines = done.stdout.splitlines()
        for name, *sides in (line.split("\t") for line in lines):
            best[name] = [max(pair) for pair in zip(map(float, sides), best.get(name, (0.0, 0.0)))]
    return best


def main():
    usual = usual_folder("parse")
    options = argparse.ArgumentParser(description=__doc__, formatter_class=argparse.RawDescriptionHelpFormatter)
    options.add_argument("--folder", type=pathlib.Path, default=usual, help=f"where to build, {usual} if left out")
    options.add_argument("--runs", type=int, default=3, help="how often the program runs: the best speeds count")
    given = options.parse_args()
    folder = given.folder.resolve()
    write_workspace(folder, LIBRARIES, NAME, SOURCES / "exports", f" staticlib: {' '.join(LIBRARIES)}")
    best = timed(link(folder, NAME, SOURCES / "timing"), given.runs)
    print("Million bytes a second; the ratio is plain Rust's by Rattle's.\n\n| text | Rattle | plain Rust | ratio |\n|---|---:|---:|---:|")
    for name, (proved, plain) in best.items():
        print(f"| {name} | {proved:.1f} | {plain:.1f} | {plain / proved:.2f} |")


if __name__ == "__main__":
    main()
