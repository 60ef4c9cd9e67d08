#!/usr/bin/env python3
"""Times queries over keys that were chosen so that their hashes collide under the fixed key, which a table of the library has that was given
none, and over as many random keys, and prints a table.

    python3 bench/chosen_keys.py [--program PROGRAM] [--pairs N] [--keys N] [--runs N]

A key of two columns is found by a formula: whatever the first number is, the second one makes all 64 bits of the hash equal. Keys of one
column, and values under DISTINCT, are tried one after another by a program in C (cc), some 500,000 for each that is found. The others have
a plan that needs no key: steps of a power of two, and a square. Times are the processor's, less those of a cheap query: the least of a
few runs. `combine` and `finish` are of two partial answers of the same keys. tests/answers and tests/ecosystem take their chosen keys from here.
"""
import argparse, os, pathlib, random, subprocess, sys, tempfile

TOP = pathlib.Path(__file__).resolve().parent.parent
WORD = 2**64 - 1

#: The library's fold: the state that it begins with, and its multiplier, which is the second word of the fixed key too. The first one is 0.
START, MULTIPLIER = 0x243F_6A88_85A3_08D3, 0x9E37_79B9_7F4A_7C15

#: A query that groups by two columns.
BY_PAIR = "SELECT A,B,COUNT(*) FROM T GROUP BY A,B"

FINDER = r"""
#include <inttypes.h>
#include <stdio.h>
#include <stdlib.h>

static uint64_t folded(uint64_t a, uint64_t b) {
    unsigned __int128 product = (unsigned __int128)a * b;
    return (uint64_t)product ^ (uint64_t)(product >> 64);
}

/* Prints `count` numbers from 1 on at which a table of up to 18,432 entries looks in the same place, and sees the same tag. */
int main(int argc, char **argv) {
    uint64_t state = strtoull(argv[1], 0, 10), factor = strtoull(argv[2], 0, 10), last = strtoull(argv[3], 0, 10), count = strtoull(argv[4], 0, 10);
    for (uint64_t value = 1; count; value++) {
        uint64_t hash = folded(folded(state ^ value, factor), last);
        if (((hash ^ hash >> 32) & 0xff0007ff) == 0x3a000123) {
            printf("%" PRIu64 "\n", value);
            count--;
        }
    }
    return argc != 5;
}
"""


def folded(a, b):
    """The product of two words: its lower half xor its upper half."""
    return (a * b & WORD) ^ (a * b >> 64)


def after_word(state, word):
    """The state after a word of 8 bytes."""
    return folded(state ^ word, MULTIPLIER ^ 16)


def after_cell(state, cell):
    """The state after a cell, which goes in as 16 bytes."""
    return folded((state + 16 & WORD) ^ (cell & WORD), MULTIPLIER ^ (cell >> 64 & WORD))


#: The state after the first word of the fixed key.
KEYED = after_word(START, 0)


def chosen_pairs(count):
    """Keys of two columns that have one hash by the fixed key."""
    dice, pairs, first = random.Random(7), [], KEYED
    while len(pairs) < count:
        a = dice.getrandbits(62)
        b = (after_cell(first, a) + 16 & WORD) ^ 0x0123_4567_89AB_CDEF
        if b < 2**63:
            pairs.append((a, b))
    assert len({after_cell(after_cell(first, a), b) for a, b in pairs}) == 1
    return pairs


def found_keys(room, state, factor, count):
    """Numbers that a table looks for in one place, one column each."""
    source, finder = room / "finder.c", room / "finder"
    source.write_text(FINDER)
    subprocess.run(["cc", "-O2", "-o", finder, source], check=True)
    done = subprocess.run([finder, str(state), str(factor), str(MULTIPLIER), str(count)], check=True, stdout=subprocess.PIPE)
    return [(int(line),) for line in done.stdout.split()]


def random_rows(count, columns):
    """Random keys."""
    dice = random.Random(8)
    return [tuple(dice.getrandbits(62) for _ in range(columns)) for _ in range(count)]


def made(program, room, name, rows):
    """A file of rows, and one that has the same keys and no batch in common."""
    csv = room / f"{name}.csv"
    heading = ["A", "B"][: len(rows[0])]
    csv.write_text("".join(",".join(map(str, row)) + "\n" for row in [heading, *rows]))
    files = [room / f"{name}.{n}.lanes" for n in (1, 2)]
    for n, file in enumerate(files, 1):
        subprocess.run([program, "create", file, "T", *(word for column in heading for word in (column, "BIGINT"))], check=True, stdout=subprocess.DEVNULL)
        subprocess.run([program, "import", "--batch", f"{n}.1", file, csv], check=True, stdout=subprocess.DEVNULL)
    return files


def seconds(words, out, given=os.devnull, env=None):
    """How many seconds of the processor a run takes, which reads a file as its standard input. What it writes goes into another one."""
    with open(out, "wb") as written, open(given, "rb") as read:
        running = subprocess.Popen(words, stdin=read, stdout=written, env=env)
        _, status, used = os.wait4(running.pid, 0)
    running.returncode = os.waitstatus_to_exitcode(status)
    if running.returncode:
        sys.exit(f"{words} ended with status {running.returncode}")
    return used.ru_utime + used.ru_stime


def slower(chosen, others, out, runs=3, env=None):
    """How many times the seconds of another command a command takes, by the least of a few runs of both in turn. Each is its words and the
    file that it reads."""
    taken = [[seconds(words, out, given, env) for words, given in (chosen, others)] for _ in range(runs)]
    return min(first for first, _ in taken) / min(second for _, second in taken)


def times(program, room, files, query, runs):
    """The seconds of a query, of its partial answer, of two partial answers combined and of what they are finished to."""
    parts = [room / f"{n}.partial" for n in (1, 2)]
    both, rest = room / "both.partial", room / "rest"
    seconds([program, "partial", files[1], query], parts[1])
    cheap = min(seconds([program, "query", files[0], "SELECT COUNT(*) FROM T"], rest) for _ in range(runs))
    steps = [["query", files[0], query], ["partial", files[0], query], ["combine", *parts], ["finish", both]]
    found = []
    for step, out in zip(steps, [rest, parts[0], both, rest]):
        taken = min(seconds([program, *step], out) for _ in range(runs))
        found.append(max(taken - cheap, 0) if step[0] in ("query", "partial") else taken)
    return found


def plans(room, pairs, keys):
    """What is asked: a name, the query, the keys, and as many random ones."""
    square = max(int(pairs**0.5), 1)
    by_key, distinct = "SELECT A,COUNT(*) FROM T GROUP BY A", "SELECT COUNT(DISTINCT A) FROM T"
    yield "chosen", BY_PAIR, chosen_pairs(pairs), random_rows(pairs, 2)
    yield "chosen", by_key, found_keys(room, KEYED + 16 & WORD, MULTIPLIER, keys), random_rows(keys, 1)
    yield "chosen", distinct, found_keys(room, KEYED, MULTIPLIER ^ 16, keys), random_rows(keys, 1)
    yield "a square", BY_PAIR, [(a << 32, b << 32) for a in range(square) for b in range(square)], random_rows(square * square, 2)
    for step in (0, 16, 32, 46):
        yield f"steps of 2^{step}", by_key, [(n << step,) for n in range(keys)], random_rows(keys, 1)
        yield f"steps of 2^{step}", distinct, [(n << step,) for n in range(keys)], random_rows(keys, 1)


def main():
    asked = argparse.ArgumentParser(description="Times queries over keys that were chosen so that their hashes collide.")
    asked.add_argument("--program", default=os.fspath(TOP / "crates" / "lanes" / "out" / "lanes"))
    asked.add_argument("--pairs", type=int, default=64_000)
    asked.add_argument("--keys", type=int, default=16_000)
    asked.add_argument("--runs", type=int, default=5)
    given = asked.parse_args()
    print("| Keys | Query | Chosen: query, partial, combine, finish (ms) | Random | Ratio |\n|---|---|---:|---:|---:|")
    with tempfile.TemporaryDirectory(prefix="lanes-") as name:
        room = pathlib.Path(name)
        for kind, query, chosen, others in plans(room, given.pairs, given.keys):
            sides = []
            for side, rows in (("chosen", chosen), ("random", others)):
                files = made(given.program, room, side, rows)
                sides.append(times(given.program, room, files, query, given.runs))
                for file in files:
                    file.unlink()
            texts = [" / ".join(f"{1000 * one:.0f}" for one in side) for side in sides]
            ratios = " / ".join(f"{a / b:.1f}" if b > 0.001 else "-" for a, b in zip(*sides))
            print(f"| {len(chosen):,} {kind} | {query.split(' FROM T')[0].removeprefix('SELECT ')} | {texts[0]} | {texts[1]} | {ratios} |", flush=True)


if __name__ == "__main__":
    main()
