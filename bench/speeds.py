"""Speeds of proved kernels compared with those of plain Rust: what both benches of kernels measure, and print as Markdown tables.

A timing program prints a line for each kernel, lane width and data: these, Rattle's values a nanosecond and plain Rust's, with
tabs between.
"""
import argparse, pathlib, subprocess

from workspace import has_wider, link, say, usual_folder, write_workspace

WIDER = "x86-64-v3"


def timed(programs, runs):
    """The best speed of each side of each kernel, by the kernel's name, lane width and data, for each program."""
    best = [{} for _ in programs]
    for turn in range(runs):
        for speeds, program in zip(best, programs):
            say(f"run {turn + 1} of {runs}: {program.name}")
            lines = subprocess.run([program], stdout=subprocess.PIPE, text=True, check=True).stdout.splitlines()
            for kernel, lane_width, data, *sides in (line.split("\t") for line in lines):
                key = kernel, lane_width, data
                speeds[key] = [max(pair) for pair in zip(map(float, sides), speeds.get(key, (0.0, 0.0)))]
    return best


def options(usage, folder):
    """The options of a bench of kernels, and where it builds if no folder is named."""
    usual = usual_folder(folder)
    asked = argparse.ArgumentParser(description=usage, formatter_class=argparse.RawDescriptionHelpFormatter)
    asked.add_argument("--folder", type=pathlib.Path, default=usual, help=f"where to build, {usual} if left out")
    asked.add_argument("--runs", type=int, default=3, help="how often each program runs: the best speeds count")
    return asked


def measured(given, libraries, name, sources):
    """Builds a bench's programs, for the default processor, and for WIDER if this machine runs that, and times them.

    Gives the processors' names and the best speeds for each."""
    folder = given.folder.resolve()
    write_workspace(folder, libraries, name, sources / "exports", f" staticlib: {' '.join(libraries)}")
    cpus = [None, WIDER] if has_wider() else [None]
    best = timed([link(folder, name, sources / "timing", cpu) for cpu in cpus], given.runs)
    return [cpu or "default" for cpu in cpus], best


def ratio_text(ratio, is_slow):
    """A ratio with two decimals, in bold if it is slow."""
    return f"**{ratio:.2f}**" if is_slow else f"{ratio:.2f}"


def print_tables(names, best, ratio_of):
    """Prints a table of each kernel, a row for each lane width and data; `ratio_of` gives the text of a ratio of both speeds."""
    heads = ["T", "data", *(f"{side}, {name}" for name in names for side in ("Rattle", "plain Rust", "ratio"))]
    for kernel in dict.fromkeys(key[0] for key in best[0]):
        print(f"\n### {kernel}\n\n| {' | '.join(heads)} |\n|{'---|' * 2}{'---:|' * (len(heads) - 2)}")
        for key in (key for key in best[0] if key[0] == kernel):
            cells = [cell for table in best for cell in (*(f"{speed:#.3g}" for speed in table[key]), ratio_of(*table[key]))]
            print(f"| {' | '.join([*key[1:], *cells])} |")
