"""Comma-separated values, answers in each form and what `inspect` writes: written from docs/COMMANDS.md alone."""

import hashlib
import json
import re

from answers import spelled
from files import BITS, ROWS, State, file_bytes
from query_text import Fault
from vectors import canonical

MOST_BYTES = 1_048_576
MARK = b"\xef\xbb\xbf"
NUMBER = re.compile(rb'"-?[0-9]{1,30}"|-?[0-9]{1,30}')
NULLS = (b"", b"NULL", b"\\N", b'"NULL"', b'"\\N"')
CODINGS = ("FOR", "DELTA", "RLE", "DICT")


def lines_of(text):
    """The lines of a text, without their ends; a line that is too long is a fault, told in its turn."""
    lines = text.removeprefix(MARK).split(b"\n")
    for line in lines[: None if lines[-1] else -1]:
        line = line.removesuffix(b"\r")
        if len(line) > MOST_BYTES:
            raise Fault("LineTooLong")
        yield line


def header_order(line, names):
    """The place of the column that each field of a header names."""
    fields = line.split(b",")
    if not line or len(fields) != len(names):
        raise Fault("BadCsv 1 0")
    order = []
    for at, field in enumerate(fields, 1):
        name = unquoted(field).decode("latin-1").upper()
        if name not in names or names.index(name) in order:
            raise Fault(f"BadCsv 1 {at}")
        order.append(names.index(name))
    return order


def unquoted(field):
    return field[1:-1] if len(field) > 1 and field[:1] == b'"' == field[-1:] else field


def cell_of(field, bits, word=None):
    """The cell that a field is, or False if it is none of its column's type. A further word is a null, in quotes too."""
    if field in NULLS or word in (field, unquoted(field)):
        return None
    if not NUMBER.fullmatch(field):
        return False
    value = int(field.strip(b'"'))
    return value if -(1 << bits - 1) <= value < 1 << bits - 1 else False


def read_rows(text, schema, has_header, word=None):
    """The rows of a text, or its first fault, where a further word may be a null."""
    names, bits, rows = schema.names(), schema.bits(), []
    order, first, lines = list(range(len(names))), 1, lines_of(text)
    if has_header:
        order, first = header_order(next(lines, b""), names), 2
    for number, line in enumerate(lines, first):
        if not line and len(names) > 1:
            continue
        fields = line.split(b",")
        if len(fields) != len(names):
            raise Fault(f"BadCsv {number} 0")
        row = [None] * len(names)
        for at, (field, place) in enumerate(zip(fields, order), 1):
            cell = cell_of(field, bits[place], word)
            if cell is False:
                raise Fault(f"BadCsv {number} {at}")
            row[place] = cell
        rows.append(tuple(row))
    return rows


def values_line(cells):
    return ",".join("" if it is None else spelled(it) for it in cells)


def dumped(schema, state, has_names, columns=None, kept=None):
    """The live rows in order, below a header: all, or those of these names; in all columns, or in those of these names."""
    names = schema.names()
    columns = names if columns is None else columns
    lines = [",".join([*["BATCH", "ORDINAL"][: 2 * has_names], *columns])]
    for name, row in state.live_named():
        if kept is None or name in kept:
            line = values_line([row[names.index(column)] for column in columns])
            origin, number, at = name
            lines.append(f"{origin}.{number},{at},{line}" if has_names else line)
    return "".join(f"{line}\n" for line in lines)


def aligned(lines):
    """Lines of cells, each column to the right and as wide as its widest cell, with a rule below the first line."""
    widths = [max(map(len, column)) for column in zip(*lines)]
    lines = [lines[0], ["-" * width for width in widths], *lines[1:]]
    return "".join("  ".join(cell.rjust(width) for cell, width in zip(line, widths)) + "\n" for line in lines)


def in_form(form, heading, rows):
    """An answer in a form."""
    if form == "json":
        objects = (",".join(f"{json.dumps(name)}:{'null' if it is None else spelled(it)}" for name, it in zip(heading, row)) for row in rows)
        return "".join(f"{{{it}}}\n" for it in objects)
    if form == "table":
        return aligned([heading, *[[spelled(it) for it in row] for row in rows]])
    line = values_line if form == "csv" else lambda row: ",".join(map(spelled, row))
    return "".join(f"{it}\n" for it in [",".join(heading), *map(line, rows)])


def vectors_of(state, column, bits):
    """The bytes of a column's vectors."""
    for _, rows in sorted(state.batches.items()):
        cells = tuple(row[column] for row in rows)
        yield from (canonical(bits, cells[at : at + ROWS]) for at in range(0, len(cells), ROWS))


def column_line(schema, state, column, stored):
    """What is said of a column."""
    name, kind = schema.columns[column]
    vectors = list(vectors_of(state, column, BITS[kind]))
    cells = [row[column] for row in state.live_rows()]
    values = [it for it in cells if it is not None]
    codings = [it[1 + 128 * it[0]] for it in vectors]
    hundredths = 800 * sum(map(len, vectors)) // stored if stored else None
    bits = "-" if hundredths is None else f"{hundredths // 100}.{hundredths % 100:02}"
    least, greatest = (str(min(values)), str(max(values))) if values else ("-", "-")
    return [name, kind, str(len(cells) - len(values)), str(len(values)), least, greatest, *(str(codings.count(it)) for it in range(4)), bits]


def counts_of(schema, state):
    stored = sum(map(len, state.batches.values()))
    return (("batches", len(state.batches)), ("rows", stored), ("live", len(state.live_rows())), ("ranges", len(state.ranges())), ("bytes", len(file_bytes(schema, state))))


def lines_of_columns(schema, state):
    stored = sum(map(len, state.batches.values()))
    return [column_line(schema, state, column, stored) for column in range(len(schema.columns))]


HEADINGS = ["COLUMN", "TYPE", "NULLS", "VALUES", "LEAST", "GREATEST", *CODINGS, "BITS"]


def inspected(schema, state):
    """What `inspect` writes of a file."""
    head = "".join(f"{name} {count}\n" for name, count in counts_of(schema, state))
    return f"table {schema.table}\n{head}\n" + aligned([HEADINGS, *lines_of_columns(schema, state)])


def inspected_as_json(schema, state):
    """What `inspect --format json` writes of a file."""
    head = "".join(f',"{name}":{count}' for name, count in counts_of(schema, state))
    columns = []
    for line in lines_of_columns(schema, state):
        values = [f'"{cell}"' if place < 2 else "null" if cell == "-" else str(cell) for place, cell in enumerate(line)]
        columns.append("{" + ",".join(f'"{key.lower()}":{value}' for key, value in zip(HEADINGS, values)) + "}")
    return f'{{"table":"{schema.table}"{head},"columns":[{",".join(columns)}]}}\n'


def digest_of(schema, name, rows):
    """The digest of a batch: that of the file that has it alone, with all its rows and no deletions."""
    return hashlib.sha512(file_bytes(schema, State({name: rows}))).hexdigest()[:32]


def batches_of(schema, state, has_digests):
    """For each batch the cells of its line in what `inspect --batches` writes."""
    for (origin, number), rows in sorted(state.batches.items()):
        live = sum((origin, number, at) not in state.deleted for at in range(len(rows)))
        yield f"{origin}.{number}", len(rows), live, *[digest_of(schema, (origin, number), rows)] * has_digests


def batches_listed(schema, state, has_digests):
    """What `inspect --batches` writes of a file."""
    heading = ["BATCH", "ROWS", "LIVE", *["DIGEST"] * has_digests]
    return "".join(",".join(map(str, line)) + "\n" for line in [heading, *batches_of(schema, state, has_digests)])


def batches_as_json(schema, state, has_digests):
    """What `inspect --batches --format json` writes of a file."""
    keys = ("batch", "rows", "live", "digest")
    return "".join(json.dumps(dict(zip(keys, line)), separators=(",", ":")) + "\n" for line in batches_of(schema, state, has_digests))
