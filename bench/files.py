#!/usr/bin/env python3
"""Times the program on canonical files and prints a table: how long it takes to check a file, to open it and to export it again, at a
quarter, a half and the whole of some batches, and how much memory a check takes at its peak, compared with a bound, also of files whose counts
claim more than their bytes hold and of files that are made to take much memory for their bytes.

The batches are those of the script T.lanes in the folder that --data names (a `table` line and then `append` lines of one replica), or
of a script of the bench's own. A time is the least processor time of some runs of a process, less that of a file with no batch: `open` is a query
that reads no vector, `export` a merge of one file less `open`. They are compared with the times of bench/files/plain.rs, which reads the
file into vectors and writes them again with no checks; and with --beside PROGRAM those of a program that is run as
`PROGRAM T.csv TURNS FILE` on the folder's T.csv and prints the lines `read ms, no checks`, a tab and a number, and `canonical check
ms`, a tab, `all`, a tab and a number, which are medians by the clock: so are then those that they are compared with.
"""
import argparse, os, pathlib, random, shutil, statistics, subprocess, sys, tempfile, time

TOP = pathlib.Path(__file__).resolve().parent.parent
PLAIN = TOP / "bench" / "files" / "plain.rs"
QUERY = "SELECT COUNT(*) FROM T"
BOUND = "3 times the bytes, 256 bytes for each vector, and 64 for each range and each name of a batch"
KNOWN = "For a file of few bytes the peak is mostly the pages of the buffer that it is read through."
HEAD = b"FLCF" + bytes([1, 0, 1, 0, 1]) + b"T" + bytes([2, 1]) + b"A"


def own_script():
    """The lines of a script with 50 batches of 20,000 rows of six columns of three types."""
    yield "table 1 T A SMALLINT B INTEGER C SMALLINT D BIGINT E INTEGER F BIGINT\n"
    chance, total = random.Random(1), 100_000_000_000
    for batch in range(50):
        rows = []
        for row in range(20_000):
            count = chance.randrange(200)
            total += count
            rare = "NULL" if chance.random() < 0.1 else str(int(chance.expovariate(1)))
            rows.append(f"({row * 500 // 20_000},{19_000 + batch * 7},{chance.randrange(6)},{count},{rare},{total})")
        yield f"append 1 {','.join(rows)}\n"


def made_file(program, lines, path):
    """Writes the canonical file of a script's replica 1."""
    script = subprocess.Popen([program, "run"], stdin=subprocess.PIPE, stdout=subprocess.PIPE, text=True)
    reply, _ = script.communicate("".join(lines) + "export 1\n")
    path.write_bytes(bytes.fromhex(reply.splitlines()[-1].removeprefix("ok ")))


def seconds(words, runs):
    """The least processor time of some runs of a process that ends well."""
    least = float("inf")
    for _ in range(runs):
        child = subprocess.Popen(words, stdout=subprocess.DEVNULL)
        _, status, used = os.wait4(child.pid, 0)
        child.returncode = status
        assert status == 0, f"{words} ends well"
        least = min(least, used.ru_utime + used.ru_stime)
    return least


def median_passed(words, runs):
    """The median time that passes in some runs of a process that ends well."""
    passed = []
    for _ in range(runs):
        start = time.perf_counter()
        subprocess.run(words, stdout=subprocess.DEVNULL, check=True)
        passed.append(time.perf_counter() - start)
    return statistics.median(passed)


def peak(words):
    """The peak memory of a process in bytes, and what it wrote. A small program starts it, since Python's own memory would count."""
    done = subprocess.run(["time", "-q", "-f", "%M", *words], stdout=subprocess.PIPE, stderr=subprocess.PIPE, text=True)
    *said, most = done.stderr.splitlines()
    return int(most) * 1024, (done.stdout + "".join(said)).strip()


def times(program, path, folder, runs):
    """The milliseconds that a check, an open and an export of a file take."""
    out = folder / "out"
    checked = seconds([program, "check", path], runs)
    opened = seconds([program, "query", path, QUERY], runs)
    merged = seconds([program, "merge", out, path], runs)
    assert out.read_bytes() == path.read_bytes(), "a merge of one file gives its bytes"
    return [1e3 * x for x in (checked, opened, merged)]


def print_times(program, plain, files, folder, runs):
    nothing = folder / "nothing"
    nothing.write_bytes(HEAD + bytes(12))
    base = times(program, nothing, folder, runs)
    print("| File | bytes | check ms | open ms | export ms | plain read ms | plain write ms | export by plain write |\n|---|" + "---:|" * 7)
    for name, path in files:
        checked, opened, merged = (x - b for x, b in zip(times(program, path, folder, runs), base))
        lines = subprocess.run([plain, path, folder / "again", str(runs)], stdout=subprocess.PIPE, text=True, check=True).stdout.splitlines()
        read, write = (float(line.split("\t")[1]) for line in lines)
        export = merged - opened
        print(f"| {name} | {path.stat().st_size:,} | {checked:.1f} | {opened:.1f} | {export:.1f} | {read:.1f} | {write:.1f} | {export / write:.2f} |", flush=True)


def print_beside(program, beside, rows, path, folder, runs):
    """The times of another program that reads and checks the same file, and the ratio: the median time that passes on both sides."""
    other = folder / "other"
    lines = subprocess.run([beside, rows, str(runs), other], stdout=subprocess.PIPE, text=True, check=True).stdout.splitlines()
    told = {line.rsplit("\t", 1)[0]: line.rsplit("\t", 1)[1] for line in lines}
    same = "the same bytes" if other.read_bytes() == path.read_bytes() else "OTHER BYTES"
    read, judged = float(told["read ms, no checks"]), float(told["canonical check ms\tall"])
    ours = 1e3 * (median_passed([program, "check", path], runs) - median_passed([program, "check", folder / "nothing"], runs))
    print(f"\nBeside it, on {same}, medians of the time that passes: a check {ours:.1f} ms, less that of a file with no batch; the other program's read {read:.1f} and canonical check {judged:.1f} ms; ratio {ours / (read + judged):.2f}")


def numbers(values, size):
    """Numbers of so many bytes each, the lowest byte first."""
    return b"".join(value.to_bytes(size, "little", signed=True) for value in values)


def head_of(kind, columns, batches):
    """What comes before the batches in a file of so many columns of a type, given by its bytes, C00 and so on."""
    names = b"".join(bytes([kind, 3]) + f"C{column:02}".encode() for column in range(columns))
    return b"FLCF" + bytes([1, 0, columns, 0, 1]) + b"T" + names + batches.to_bytes(4, "little")


def made(kind, columns, batches, vector):
    """A file of so many batches of 65,536 rows of so many columns of a type, each of whose vectors `vector()` gives."""
    head = head_of(kind, columns, batches)
    listed = (numbers([1, number + 1], 4) + b"\xff\xff" + b"".join(vector() for _ in range(64 * columns)) for number in range(batches))
    return head + b"".join(listed) + bytes(8)


def ranges_of_two(count):
    """A file of so many ranges of two deleted rows, 10,000 a batch."""
    places = (divmod(place, 10_000) for place in range(count))
    return HEAD + bytes(4) + count.to_bytes(8, "little") + b"".join(numbers([1, batch + 1], 4) + (6 * row).to_bytes(2, "little") + (6 * row + 1).to_bytes(2, "little") for batch, row in places)


def single_rows(columns):
    """A file of 65,536 batches of one row of so many SMALLINT columns."""
    return head_of(2, columns, 65_536) + b"".join(numbers([1, number + 1], 4) + bytes(2) + (bytes(5) + (number % 9).to_bytes(2, "little")) * columns for number in range(65_536)) + bytes(8)


def in_frame_from_0(chance):
    """A BIGINT vector of random numbers as distances of 64 bits from 0, where the canonical form has the least number as its reference."""
    return bytes([0, 0, 64, 0, 0]) + bytes(8) + chance.randbytes(8192)


def wide_in_deltas():
    """A BIGINT vector of 269 bytes in DELTA of width 1, whose deltas are 2^63 - 1 and, once, one more, which is -2^63: so the least DELTA
    has width 64, and the canonical form, FOR of width 64, has 8,205 bytes."""
    return bytes([0, 1, 1, 0, 0]) + numbers([2**63 - 1], 8) + numbers((-1_000 * lane for lane in range(16)), 8) + (1 << 485).to_bytes(128, "little")


def narrow_runs(chance):
    """A SMALLINT vector of 600 runs, canonical: no other coding of so many values that are so far apart is as short."""
    starts = sum(1 << row for row in chance.sample(range(1, 1024), 599))
    return bytes([0, 2, 1]) + (600).to_bytes(2, "little") + starts.to_bytes(128, "little") + numbers(chance.sample(range(-(2**15), 2**15), 600), 2)


def narrow_dictionary(chance):
    """A SMALLINT vector of a dictionary of 1,024 values, which isn't canonical: FOR is shorter."""
    values = sorted(chance.sample(range(-(2**15), 2**15), 1024))
    return bytes([0, 3, 10]) + (1024).to_bytes(2, "little") + numbers(values, 2) + chance.randbytes(1280)


def narrow_deltas(chance):
    """A SMALLINT vector in DELTA of width 0, canonical: 64 lanes that each grow by the same step."""
    return bytes([0, 1, 0, 0, 0]) + numbers([chance.randrange(3, 100), *(chance.randrange(-(2**15), 2**15) for _ in range(64))], 2)


def hostile():
    """The name of each file that is refused late, claims more than its bytes hold, or is to take much memory for its bytes; and the
    file."""
    name = bytes([1, 0, 0, 0, 1, 0, 0, 0])
    chance = random.Random(2)
    yield "8 batches of a BIGINT column, FOR from 0", made(8, 1, 8, lambda: in_frame_from_0(chance))
    yield "a batch of 8 BIGINT columns, FOR from 0", made(8, 8, 1, lambda: in_frame_from_0(chance))
    yield "a batch of 32 BIGINT columns in 269 bytes a vector for 8,205", made(8, 32, 1, wide_in_deltas)
    yield "8 batches of 32 BIGINT columns in 269 bytes a vector for 8,205", made(8, 32, 8, wide_in_deltas)
    yield "a batch of 32 SMALLINT columns, 600 runs a vector", made(2, 32, 1, lambda: narrow_runs(chance))
    yield "a batch of 32 SMALLINT columns, 1,024 dictionary values a vector", made(2, 32, 1, lambda: narrow_dictionary(chance))
    yield "16 batches of 32 SMALLINT columns, DELTA of width 0", made(2, 32, 16, lambda: narrow_deltas(chance))
    yield "65,536 batches of one row", single_rows(1)
    yield "65,536 batches of one row of 32 columns", single_rows(32)
    yield "10,000 ranges", ranges_of_two(10_000)
    yield "300,000 ranges", ranges_of_two(300_000)
    yield "65,536 batches, none there", HEAD + bytes([0, 0, 1, 0])
    yield "2^64 - 1 ranges, none there", HEAD + bytes(4) + b"\xff" * 8
    yield "65,536 rows, one vector there", HEAD + bytes([1, 0, 0, 0]) + name + b"\xff\xff" + bytes(7)
    yield "1,024 dictionary values, none there", HEAD + bytes([1, 0, 0, 0]) + name + bytes(2) + bytes([0, 3, 16, 0, 4])


def payload_size(size, tag, width, count):
    """How many bytes the payload of a coding takes, of values of so many bytes."""
    words = 128 * width
    return (size + words, size + 1024 // 8 + words, 128 + size * count, size * count + words)[tag]


def counted(data):
    """How many vectors the bytes of a container hold, and how many names of batches and ranges, and where they end. What is cut off
    isn't counted."""
    at = 9 + data[8]
    sizes = []
    for _ in range(data[6]):
        sizes.append(data[at])
        at += 2 + data[at + 1]
    batches, at = int.from_bytes(data[at : at + 4], "little"), at + 4
    vectors = listed = 0
    for _ in range(batches):
        if at + 10 > len(data):
            return vectors, listed, len(data)
        rows, at = int.from_bytes(data[at + 8 : at + 10], "little") + 1, at + 10
        listed += 1
        for size in (size for size in sizes for _ in range((rows + 1023) // 1024)):
            at += 1 + (128 if data[at : at + 1] == b"\1" else 0)
            if at + 4 > len(data):
                return vectors, listed, len(data)
            at += 4 + payload_size(size, data[at], data[at + 1], int.from_bytes(data[at + 2 : at + 4], "little"))
            if at > len(data):
                return vectors, listed, len(data)
            vectors += 1
    claimed, there = int.from_bytes(data[at : at + 8], "little"), (len(data) - at - 8) // 12
    return vectors, listed + min(claimed, there), at + 8 + 12 * min(claimed, there)


def extremes():
    """The name of each file at the limits of what a file holds, and the file, written from the format by hand."""
    name = b"\1\0\0\0"
    yield "65,536 batches of one row", single_rows(1)
    yield "10,000 ranges", ranges_of_two(10_000)
    kinds = [(2, 4, 8)[column % 3] for column in range(32)]
    head = b"FLCF" + bytes([1, 0, 32, 0, 1]) + b"T" + b"".join(bytes([kind, 3]) + f"C{column:02}".encode() for column, kind in enumerate(kinds))
    columns = b"".join(b"\1" + b"\xff" * 128 + bytes(4 + kind) + b"\1\1" + bytes(127) + bytes(4 + kind) for kind in kinds)
    yield "32 columns of 1,025 nulls", head + name * 3 + (1_024).to_bytes(2, "little") + columns + bytes(8)


def print_extremes(program, folder):
    """Whether each of them is checked, and is the same after it was opened and exported."""
    print("\n| File | bytes | check says | open and export give | ms |\n|---|---:|---|---|---:|")
    path, out = folder / "extreme", folder / "out"
    for name, data in extremes():
        path.write_bytes(data)
        said = subprocess.run([program, "check", path], stdout=subprocess.PIPE, stderr=subprocess.STDOUT, text=True).stdout.strip()
        taken = seconds([program, "merge", out, path], 3)
        same = "the same bytes" if out.read_bytes() == data else "OTHER BYTES"
        print(f"| {name} | {len(data):,} | {said} | {same} | {1e3 * taken:.0f} |", flush=True)


def print_peaks(program, files, folder):
    """The peak memory of a check of each file, compared with the bound."""
    if not shutil.which("time"):
        print("\nPeak memory isn't measured: there is no program `time`.")
        return
    nothing = folder / "nothing"
    own, _ = peak([program, "check", nothing])
    print(f"\nPeak memory of a check, beyond the {own:,} bytes of a file with no batch. The bound is {BOUND}.\n")
    print("| File | bytes | vectors | names and ranges | peak | peak by bytes | bound | over it | said |\n|---|---:|---:|---:|---:|---:|---:|---|---|")
    path = folder / "hostile"
    over = []
    for name, data in [*((name, path.read_bytes()) for name, path in files), *hostile()]:
        path.write_bytes(data)
        most, said = peak([program, "check", path])
        vectors, listed, _ = counted(data)
        bound = 3 * len(data) + 256 * vectors + 64 * listed
        if most - own > bound:
            over.append(name)
        print(f"| {name} | {len(data):,} | {vectors:,} | {listed:,} | {most - own:,} | {(most - own) / len(data):.2f} | {bound:,} | {'OVER' if most - own > bound else ''} | {said} |", flush=True)
    print(f"\nOver the bound: {'; '.join(over) or 'none'}. {KNOWN}")


def main():
    options = argparse.ArgumentParser(description=__doc__, formatter_class=argparse.RawDescriptionHelpFormatter)
    options.add_argument("--data", type=pathlib.Path, help="a folder with T.lanes, and for --beside with T.csv")
    options.add_argument("--beside", help="another program that reads and checks the file")
    options.add_argument("--program", help="the built program; without it ./lanes --build builds it")
    options.add_argument("--runs", type=int, default=9, help="how often each process runs: the least time counts")
    given = options.parse_args()
    if not given.program:
        subprocess.run([TOP / "lanes", "--build"], stdout=subprocess.DEVNULL, check=True)
    program = given.program or str(TOP / "crates" / "lanes" / "out" / "lanes")
    lines = (given.data / "T.lanes").read_text().splitlines(keepends=True) if given.data else list(own_script())
    batches = [line for line in lines if line.startswith("append ")]
    with tempfile.TemporaryDirectory(prefix="lanes-files-") as room:
        folder = pathlib.Path(room)
        plain = folder / "plain"
        subprocess.run(["rustc", "--edition=2021", "-Copt-level=3", "-o", plain, PLAIN], check=True)
        files = []
        for name, part in (("a quarter", 4), ("a half", 2), ("the whole", 1)):
            files.append((name, folder / name.replace(" ", "-")))
            made_file(program, [lines[0], *batches[: len(batches) // part]], files[-1][1])
        print_times(program, plain, files, folder, given.runs)
        if given.beside:
            print_beside(program, given.beside, given.data / "T.csv", files[-1][1], folder, given.runs)
        print_extremes(program, folder)
        print_peaks(program, files, folder)


if __name__ == "__main__":
    sys.exit(main())
