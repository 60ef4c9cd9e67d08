#!/usr/bin/env python3
"""Times the proved kernels of packing and of the codings compared with plain Rust, and prints Markdown tables of both.

What it builds is in a folder outside the repository, which a later run takes up again: there the crates are proved
once, which takes some minutes. It needs the commands rt and rustc.
"""
import sys

sys.dont_write_bytecode = True
from speeds import measured, options, print_tables, ratio_text
from workspace import TOP, libraries_below

SLOW = 1.5


def ratio_of(proved, plain):
    return ratio_text(plain / proved, plain / proved > SLOW)


def main():
    given = options(__doc__, "kernels").parse_args()
    names, best = measured(given, libraries_below("frame_delta", "run_dictionary"), "lane_kernels", TOP / "bench" / "kernels")
    print(f"Values a nanosecond; the ratio is plain Rust's by Rattle's, in bold if it is above {SLOW}.")
    print_tables(names, best, ratio_of)


if __name__ == "__main__":
    main()
