"""Canonical files, as bytes: written from docs/FORMATS.md alone."""

import re
from dataclasses import dataclass, field

from query_text import KEYWORDS, Fault
from vectors import ROWS, Bytes, canonical, read_vector

BITS = {"TINYINT": 8, "SMALLINT": 16, "INTEGER": 32, "BIGINT": 64}
TYPE_BYTES = {1: "TINYINT", 2: "SMALLINT", 4: "INTEGER", 8: "BIGINT"}
NAME = re.compile(rb"[A-Z][A-Z0-9_]*")
MOST_BATCHES = 1_048_576


@dataclass(frozen=True)
class Schema:
    """A table's name and its columns' names, in upper case, and types."""

    table: str
    columns: tuple

    def names(self):
        return [name for name, _ in self.columns]

    def bits(self):
        return [BITS[kind] for _, kind in self.columns]

    def version(self):
        """The version of its files: 2 where a column is TINYINT, else 1."""
        return 2 if 8 in self.bits() else 1


@dataclass
class State:
    """Batches by their names, each a tuple of rows, and the names of deleted rows: origin, number, ordinal."""

    batches: dict = field(default_factory=dict)
    deleted: set = field(default_factory=set)

    def ranges(self):
        """The deletions as maximal ranges, in order."""
        found = []
        for origin, number, ordinal in sorted(self.deleted):
            if found and found[-1][0] == (origin, number) and found[-1][2] == ordinal - 1:
                found[-1][2] = ordinal
            else:
                found.append([(origin, number), ordinal, ordinal])
        return found

    def live_named(self):
        """The rows that aren't deleted, each with its name, in order."""
        named = (((*name, at), row) for name, rows in sorted(self.batches.items()) for at, row in enumerate(rows))
        return [(name, row) for name, row in named if name not in self.deleted]

    def live_rows(self):
        return [row for _, row in self.live_named()]

    def forget(self):
        """Drops the batches of which every row is deleted, and says how many there were and how many rows they had."""
        dead = [name for name, rows in self.batches.items() if all((*name, at) in self.deleted for at in range(len(rows)))]
        return len(dead), sum(len(self.batches.pop(name)) for name in dead)


def number(size, value):
    return value.to_bytes(size, "little")


def schema_bytes(schema):
    def name_bytes(name):
        return number(1, len(name)) + name.encode()

    kinds = {kind: size for size, kind in TYPE_BYTES.items()}
    columns = b"".join(number(1, kinds[kind]) + name_bytes(name) for name, kind in schema.columns)
    return number(2, len(schema.columns)) + name_bytes(schema.table) + columns


def batch_bytes(schema, name, rows, coded=canonical):
    """A batch, its vectors as `coded` has them."""
    parts = [number(4, name[0]) + number(4, name[1]) + number(2, len(rows) - 1)]
    for column, bits in enumerate(schema.bits()):
        cells = tuple(row[column] for row in rows)
        parts += [coded(bits, cells[at : at + ROWS]) for at in range(0, len(cells), ROWS)]
    return b"".join(parts)


def file_bytes(schema, state, coded=canonical, ranges=None):
    """The container of a state, which is its canonical file where nothing else is said."""
    ranges = state.ranges() if ranges is None else ranges
    batches = b"".join(batch_bytes(schema, name, rows, coded) for name, rows in sorted(state.batches.items()))
    deleted = b"".join(number(4, name[0]) + number(4, name[1]) + number(2, first) + number(2, last) for name, first, last in ranges)
    return b"FLCF" + number(2, schema.version()) + schema_bytes(schema) + number(4, len(state.batches)) + batches + number(8, len(ranges)) + deleted


# ---- reading
def read_name(source):
    size = source.number(1)
    if not 1 <= size <= 64:
        raise Fault("BadSchema")
    name = source.field(size)
    if not NAME.fullmatch(name) or name.decode() in KEYWORDS:
        raise Fault("BadSchema")
    return name.decode()


def read_schema(source):
    """The version and the schema, which have to fit each other."""
    version = source.number(2)
    if version not in (1, 2):
        raise Fault("BadVersion")
    schema = read_columns(source, [size for size in TYPE_BYTES if size > 1 or version == 2])
    if version != schema.version():
        raise Fault("BadVersion")
    return schema


def read_columns(source, sizes):
    """The table's name and its columns, whose types have these numbers of bytes."""
    count = source.judged(2, "BadCount", lambda it: 1 <= it <= 32)
    table, columns = read_name(source), []
    for _ in range(count):
        size = source.number(1)
        if size not in sizes:
            raise Fault("BadSchema")
        name = read_name(source)
        if name in [it for it, _ in columns]:
            raise Fault("BadSchema")
        columns.append((name, TYPE_BYTES[size]))
    return Schema(table, tuple(columns))


def read_batch_name(source):
    source.needs(8)
    name = source.number(4), source.number(4)
    if 0 in name:
        raise Fault("BadName")
    return name


def read_batch(source, schema, last):
    place = source.at
    name = read_batch_name(source)
    if last is not None and name <= last:
        raise Fault(f"BadOrder {place}")
    count = source.number(2) + 1
    columns = []
    for bits in schema.bits():
        sizes = [min(ROWS, count - at) for at in range(0, count, ROWS)]
        columns.append([cell for size in sizes for cell in read_vector(source, bits, size)])
    return name, tuple(zip(*columns))


def read_ranges(source, deleted):
    last = None
    for _ in range(source.number(8)):
        place = source.at
        source.needs(12)
        name, first, end = read_batch_name(source), source.number(2), source.number(2)
        if first > end:
            raise Fault(f"BadRange {place}")
        if last is not None and (name, first) <= last:
            raise Fault(f"BadOrder {place}")
        last = name, end
        deleted.update((*name, at) for at in range(first, end + 1))


def read_container(data):
    """The schema and the state of a container."""
    source, state = Bytes(data), State()
    if source.field(4) != b"FLCF":
        raise Fault("BadMagic")
    schema, last = read_schema(source), None
    for _ in range(source.judged(4, "BadCount", lambda it: it <= MOST_BATCHES)):
        last, rows = read_batch(source, schema, last)
        state.batches[last] = rows
    read_ranges(source, state.deleted)
    if source.at < len(data):
        raise Fault(f"TrailingBytes {source.at}")
    return schema, state


def read_file(data):
    """The schema and the state of a canonical file."""
    schema, state = read_container(data)
    wanted = file_bytes(schema, state)
    if data != wanted:
        place = next((at for at, (one, other) in enumerate(zip(data, wanted)) if one != other), min(len(data), len(wanted)))
        raise Fault(f"NotCanonical {place}")
    return schema, state
