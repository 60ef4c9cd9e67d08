#!/usr/bin/env python3
"""Times the proved kernels over coded vectors compared with plain Rust over the same coded words, and prints Markdown tables of both.

What it builds is in a folder outside the repository, which a later run takes up again: there the crates are proved
once, which takes some minutes. It needs the commands rt and rustc.
"""
import sys

sys.dont_write_bytecode = True
from speeds import measured, options, print_tables, ratio_text
from workspace import TOP, libraries_below

SLOW = 0.7


def ratio_of(proved, plain):
    return ratio_text(proved / plain, proved / plain < SLOW)


def print_least(names, best):
    """Prints the least ratio of each kernel, lane width and coding, over its data and masks."""
    print(f"\n### The least ratios\n\n| kernel | T | coding | {' | '.join(names)} |\n|---|---|---|{'---:|' * len(names)}")
    coding_of = lambda key: (*key[:2], key[2].split(",")[0])
    for row in dict.fromkeys(map(coding_of, best[0])):
        least = [min((sides for key, sides in table.items() if coding_of(key) == row), key=lambda it: it[0] / it[1]) for table in best]
        print(f"| {' | '.join([*row, *(ratio_of(*sides) for sides in least)])} |")


def main():
    given = options(__doc__, "fused").parse_args()
    names, best = measured(given, libraries_below("fused_kernels"), "fused_times", TOP / "bench" / "fused")
    print(f"Values a nanosecond; the ratio is Rattle's by plain Rust's, in bold if it is below {SLOW}.")
    print_tables(names, best, ratio_of)
    print_least(names, best)


if __name__ == "__main__":
    main()
