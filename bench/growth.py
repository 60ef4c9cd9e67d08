#!/usr/bin/env python3
"""Measures how the time and the memory of the program grow with what it is given, for each kind of text and input, and prints a table.

    python3 bench/growth.py [--program PROGRAM] [--runs N] [KIND..]     KINDs are parts of names of kinds, all if none is given

Each kind is tried at three sizes, each twice the one before. Time is that of the processor, of the program and of the system for it, the
least of a few runs, sizes in turns. Memory is the peak. The last two columns say how much the time grows from the first size to the
last, which is four times as large, and how many bytes of memory each further byte of input takes. tests/files/growing.py fails if one
grows faster than its input.
"""
import argparse, dataclasses, hashlib, os, pathlib, subprocess, sys, tempfile

TOP = pathlib.Path(__file__).resolve().parent.parent
GROUPS = 2_000
# A folder in memory, for what would wait for the disk.
QUICK = "/dev/shm"


@dataclasses.dataclass
class Asked:
    """A command: its words, what is on its standard input, and how many bytes it is given in all."""

    words: list
    given: bytes
    size: int


@dataclasses.dataclass
class Cost:
    """What a run took: seconds of a processor, bytes of memory at the peak, and how many bytes it was given."""

    seconds: float
    memory: int
    size: int


class Place:
    """A folder for the files of one kind at one size, and the program."""

    def __init__(self, program, folder):
        self.program, self.folder = program, pathlib.Path(folder)

    def run(self, *words, given=b""):
        done = subprocess.run([self.program, *map(os.fspath, words)], input=given, stdout=subprocess.PIPE, cwd=self.folder)
        assert done.returncode == 0, f"lanes {' '.join(map(str, words))[:200]} ended with status {done.returncode}"
        return done.stdout

    def put(self, name, data):
        (self.folder / name).write_bytes(data)
        return name

    def size(self, *names):
        return sum((self.folder / name).stat().st_size for name in names)

    def rows(self, rows):
        """A table of two columns with these rows."""
        self.run("create", "--quiet", "t", "T", "A", "INTEGER", "B", "INTEGER")
        self.put("t.csv", ("A,B\n" + "".join(f"{a},{b}\n" for a, b in rows)).encode())
        self.run("import", "--quiet", "t", "t.csv")
        return "t"

    def groups(self):
        return self.rows((row, row % 7) for row in range(GROUPS))

    def batches(self, name, count, replica=1):
        """A table of as many batches, each of one row."""
        script = ["table 2 T A SMALLINT", *[f"append {replica} (7)"] * count, f"export {replica}"]
        replies = self.run("run", given="".join(f"{line}\n" for line in script).encode())
        return self.put(name, bytes.fromhex(replies.splitlines()[-1].removeprefix(b"ok ").decode()))

    def asked(self, *words, given=b"", files=()):
        return Asked(list(words), given, len(given) + self.size(*files) + sum(map(len, words)))

    def text(self, query, table):
        """A query, on standard input."""
        return self.asked("query", table, "-", given=query.encode() + b"\n", files=[table])


def having(place, predicates):
    return place.text("SELECT A FROM T GROUP BY A HAVING " + " AND ".join(predicates), place.groups())


def mentions(place, count):
    return having(place, ["COUNT(DISTINCT B)<5"] * count)


def predicates(place, count):
    return having(place, (f"SUM(B)<>{number + 10}" for number in range(count)))


def grouping(place, count):
    return place.text("SELECT COUNT(*) FROM T GROUP BY " + ",".join(["A"] * count), place.groups())


def groups(place, count):
    return place.text("SELECT A,COUNT(*),SUM(B),COUNT(DISTINCT B) FROM T GROUP BY A", place.rows((row * 7919 % 1_000_003, row % 7) for row in range(count)))


def items(place, count):
    return place.text(f"SELECT {','.join(['SUM(B)'] * count)} FROM T", place.groups())


def columns(place, count):
    return place.text(f"SELECT {','.join(['B'] * count)} FROM T GROUP BY B", place.groups())


def literals(count):
    return ",".join(str(number * 3) for number in range(count))


def where_in(place, count):
    return place.text(f"SELECT COUNT(*) FROM T WHERE A IN ({literals(count)})", place.groups())


def having_in(place, count):
    return place.text(f"SELECT B FROM T GROUP BY B HAVING SUM(A) IN ({literals(count)})", place.groups())


def terms(place, count):
    return place.text("SELECT COUNT(*) FROM T WHERE " + " OR ".join(f"A={number * 3}" for number in range(count)), place.groups())


def nested(place, count):
    deep = "NOT(" * 60 + "A=3" + ")" * 60
    return place.text("SELECT COUNT(*) FROM T WHERE " + " OR ".join([deep] * count), place.groups())


def finish(place, count):
    query = "SELECT A FROM T GROUP BY A HAVING " + " AND ".join(["COUNT(DISTINCT B)<5"] * count)
    place.put("p", place.run("partial", place.groups(), query))
    return place.asked("finish", "p", files=["p"])


def summary(place, count):
    return place.asked("summary", place.batches("t", count), files=["t"])


def offer(place, count):
    table = place.batches("t", count)
    place.put("s", place.run("summary", place.batches("other", count // 2, replica=2)))
    return place.asked("offer", table, "s", files=["t", "s"])


def ranges(place, count):
    table = place.rows((row % 2, row % 7) for row in range(2 * count))
    place.run("delete", "--quiet", table, "A=1")
    return place.asked("merge", "--quiet", "m", table, files=[table])


def batches(place, count):
    return place.asked("merge", "--quiet", "m", place.batches("t", count), place.batches("u", count, replica=2), files=["t", "u"])


def parts(place, count):
    """A folder of as many parts, each of one batch: one file with the number of its batch changed. A part has the digest of its bytes as its name."""
    folder = place.folder / "f"
    folder.mkdir()
    one = (place.folder / place.batches("t", 1)).read_bytes()
    for number in range(1, count + 1):
        part = one[:21] + number.to_bytes(4, "little") + one[25:]
        (folder / (hashlib.sha512(part).hexdigest()[:32] + ".lanes")).write_bytes(part)
    return Asked(["query", "f", "SELECT COUNT(*) FROM T"], b"", count * len(one))


def spread(place, count):
    return place.asked("spread", "--quiet", place.batches("t", count), *(f"o{number}" for number in range(count)), files=["t"])


KINDS = {
    "mentions of one set function in HAVING": (mentions, 1_000),
    "predicates of HAVING": (predicates, 1_000),
    "mentions of one grouping column": (grouping, 10_000),
    "groups": (groups, 20_000),
    "select items": (items, 10_000),
    "mentions of one column in the select list": (columns, 10_000),
    "literals of IN in WHERE": (where_in, 20_000),
    "literals of IN in HAVING": (having_in, 20_000),
    "terms of OR in WHERE": (terms, 10_000),
    "nested conditions": (nested, 500),
    "a partial answer that is finished": (finish, 1_000),
    "a summary": (summary, 20_000),
    "an offer": (offer, 20_000),
    "ranges that are merged": (ranges, 40_000),
    "batches that are merged": (batches, 10_000),
    "parts that are read": (parts, 500),
    "a spread": (spread, 500),
}


def cost(program, asked, folder):
    """What a run takes. A file that it makes is taken away first."""
    for name in folder.iterdir():
        if name.name == "m" or name.name.startswith("o") and name.name != "other":
            name.unlink()
    with tempfile.TemporaryFile() as given:
        given.write(asked.given)
        given.seek(0)
        running = subprocess.Popen([program, *asked.words], stdin=given, stdout=subprocess.DEVNULL, cwd=folder)
        _, status, used = os.wait4(running.pid, 0)
        running.returncode = os.waitstatus_to_exitcode(status)
    assert running.returncode == 0, f"lanes {' '.join(asked.words)[:200]} ended with status {running.returncode}"
    return Cost(used.ru_utime + used.ru_stime, used.ru_maxrss * 1024, asked.size)


def costs(program, kind, scales, runs):
    """What a kind takes at some sizes, so many times its first one: for each the least of a few runs, which are made in turns."""
    make, first = KINDS[kind]
    with tempfile.TemporaryDirectory(prefix="lanes-growth-", dir=QUICK if os.access(QUICK, os.W_OK) else None) as room:
        asked = []
        for scale in scales:
            folder = pathlib.Path(room) / str(scale)
            folder.mkdir()
            asked.append((make(Place(program, folder), first * scale), folder))
        every = [[cost(program, one, folder) for one, folder in asked] for _ in range(runs)]
    return [Cost(min(run[at].seconds for run in every), min(run[at].memory for run in every), every[0][at].size) for at in range(len(scales))]


def growth(least, most):
    """How much the time grows from one cost to another, and the bytes of memory that each further byte of input takes."""
    return most.seconds / max(least.seconds, 0.001), max(0, most.memory - least.memory) / (most.size - least.size)


def main():
    asked = argparse.ArgumentParser(description="Measures how time and memory grow with what the program is given.")
    asked.add_argument("--program", default=os.fspath(TOP / "crates" / "lanes" / "out" / "lanes"))
    asked.add_argument("--runs", type=int, default=3)
    asked.add_argument("kinds", nargs="*", metavar="KIND")
    given = asked.parse_args()
    program = os.path.abspath(given.program)
    print("| Kind | Sizes | Seconds | Memory, MB | Time grows | Bytes a byte |\n|---|---|---|---|---:|---:|")
    for kind, (_, first) in KINDS.items():
        if given.kinds and not any(part in kind for part in given.kinds):
            continue
        found = costs(program, kind, (1, 2, 4), given.runs)
        times, bytes_a_byte = growth(found[0], found[-1])
        sizes = ", ".join(f"{first * scale:,}" for scale in (1, 2, 4))
        print(f"| {kind} | {sizes} | {', '.join(f'{one.seconds:.2f}' for one in found)} | {', '.join(f'{one.memory / 1e6:.0f}' for one in found)} | {times:.1f} | {bytes_a_byte:.0f} |", flush=True)


if __name__ == "__main__":
    sys.exit(main())
