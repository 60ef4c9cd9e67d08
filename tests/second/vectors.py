"""Coded vectors of 1024 values and their bytes: written from docs/FORMATS.md alone."""

from dataclasses import dataclass
from functools import cache

from query_text import Fault

ROWS = 1024
CODINGS = ("FOR", "DELTA", "RLE", "DICT")
CODE_BITS = 16


def reversed_bits(count, number):
    """The `count` low bits of a number in reverse."""
    return sum(1 << count - 1 - place for place in range(count) if number >> place & 1)


@cache
def rows_by_lane(bits):
    """The rows of each lane of so many bits, in order of step."""
    lanes = [[0] * bits for _ in range(ROWS // bits)]
    for row in range(ROWS):
        group = reversed_bits((64 // bits).bit_length() - 1, row % 64 // bits)
        lanes[16 * group + row // 64][row % bits] = row
    return lanes


def pack(bits, width, values):
    """The bytes of values in lanes of so many bits."""
    lanes = [sum(values[row] << width * step for step, row in enumerate(rows)) for rows in rows_by_lane(bits)]
    words = (lane >> word * bits & (1 << bits) - 1 for word in range(width) for lane in lanes)
    return b"".join(word.to_bytes(bits // 8, "little") for word in words)


def unpack(bits, width, packed):
    size, count = bits // 8, ROWS // bits
    values = [0] * ROWS
    for lane, rows in enumerate(rows_by_lane(bits)):
        words = (packed[(word * count + lane) * size :][:size] for word in range(width))
        stream = int.from_bytes(b"".join(words), "little")
        for step, row in enumerate(rows):
            values[row] = stream >> width * step & (1 << width) - 1
    return values


def signed(bits, number):
    """A number modulo two to so many bits, as a signed one."""
    number %= 1 << bits
    return number - (1 << bits) if number >> bits - 1 else number


def value_bytes(bits, value):
    return (value % (1 << bits)).to_bytes(bits // 8, "little")


def mask_bytes(truths):
    return sum(1 << row for row, truth in enumerate(truths) if truth).to_bytes(ROWS // 8, "little")


def head(tag, width, count):
    return bytes([tag, width]) + count.to_bytes(2, "little")


# ---- the least form of each coding, as its bytes from the tag on
def frame(bits, values, wider=0):
    """FOR, with a width that is wider than the least one by so many bits."""
    least = min(values)
    width = min((max(values) - least).bit_length() + wider, bits)
    return head(0, width, 0) + value_bytes(bits, least) + pack(bits, width, [it - least for it in values])


def deltas(bits, values, wider=0):
    lanes = rows_by_lane(bits)
    found = {row: signed(bits, values[row] - values[before]) for rows in lanes for before, row in zip(rows, rows[1:])}
    least = min(found.values())
    packed = [found.get(row, least) - least for row in range(ROWS)]
    width = min(max(packed).bit_length() + wider, bits)
    bases = b"".join(value_bytes(bits, values[rows[0]] - least) for rows in lanes)
    return head(1, width, 0) + value_bytes(bits, least) + bases + pack(bits, width, packed)


def runs(bits, values):
    starts = [False] + [one != other for one, other in zip(values, values[1:])]
    listed = [values[0]] + [value for value, start in zip(values, starts) if start]
    return head(2, 1, len(listed)) + mask_bytes(starts) + b"".join(value_bytes(bits, it) for it in listed)


def dictionary(bits, values, wider=0):
    listed = sorted(set(values))
    code = {value: at for at, value in enumerate(listed)}
    width = min((len(listed) - 1).bit_length() + wider, CODE_BITS)
    return head(3, width, len(listed)) + b"".join(value_bytes(bits, it) for it in listed) + pack(CODE_BITS, width, [code[it] for it in values])


LEAST_FORMS = {"FOR": frame, "DELTA": deltas, "RLE": runs, "DICT": dictionary}


def filled(cells):
    """The 1024 values of a vector's cells: at a null or absent place the nearest earlier value, else the first, else 0."""
    last = next((it for it in cells if it is not None), 0)
    values = []
    for cell in cells:
        last = last if cell is None else cell
        values.append(last)
    return values + [last] * (ROWS - len(values))


def with_mask(cells, form):
    """A coded vector's bytes: its null mask, where it has a null, and its form."""
    nulls = [it is None for it in cells]
    return (b"\x01" + mask_bytes(nulls) if any(nulls) else b"\x00") + form


@cache
def canonical(bits, cells):
    """The bytes of the canonical coded vector of a column's cells, a tuple, in up to 1024 rows."""
    values = filled(cells)
    return with_mask(cells, min((form(bits, values) for form in LEAST_FORMS.values()), key=len))


# ---- reading
@dataclass
class Bytes:
    """Bytes that are read from the left."""

    whole: bytes
    at: int = 0

    def needs(self, size):
        """So many bytes are there, or it is a fault."""
        if len(self.whole) - self.at < size:
            raise Fault(f"Truncated {len(self.whole)}")

    def field(self, size):
        self.needs(size)
        self.at += size
        return self.whole[self.at - size : self.at]

    def number(self, size):
        return int.from_bytes(self.field(size), "little")

    def value(self, bits):
        return signed(bits, self.number(bits // 8))

    def judged(self, size, name, is_right):
        """A number that is right, or the fault of this name at its place."""
        place = self.at
        number = self.number(size)
        if not is_right(number):
            raise Fault(f"{name} {place}")
        return number

    def mask(self, is_right):
        number = self.judged(ROWS // 8, "BadMask", is_right)
        return [number >> row & 1 == 1 for row in range(ROWS)]


def is_width(tag, bits, width):
    if CODINGS[tag] == "RLE":
        return width == 1
    return width <= (CODE_BITS if CODINGS[tag] == "DICT" else bits)


def is_count(tag, count):
    return count == 0 if CODINGS[tag] in ("FOR", "DELTA") else 1 <= count <= ROWS


def read_vector(source, bits, rows):
    """The cells of a coded vector of so many rows."""
    nulls = [False] * ROWS
    if source.judged(1, "BadMask", lambda it: it < 2):
        nulls = source.mask(lambda it: it and not it >> rows)
    tag = source.judged(1, "BadTag", lambda it: it < len(CODINGS))
    width = source.judged(1, "BadWidth", lambda it: is_width(tag, bits, it))
    place = source.at
    count = source.judged(2, "BadCount", lambda it: is_count(tag, it))
    values = (read_frame, read_deltas, read_runs, read_dictionary)[tag](source, bits, width, count, place)
    return [None if null else value for null, value in zip(nulls[:rows], values)]


def read_frame(source, bits, width, _count, _place):
    reference = source.value(bits)
    return [signed(bits, reference + it) for it in unpack(bits, width, source.field(128 * width))]


def read_deltas(source, bits, width, _count, _place):
    least = source.value(bits)
    bases = [source.value(bits) for _ in range(ROWS // bits)]
    packed = unpack(bits, width, source.field(128 * width))
    values = [0] * ROWS
    for total, rows in zip(bases, rows_by_lane(bits)):
        for row in rows:
            total += least + packed[row]
            values[row] = signed(bits, total)
    return values


def read_runs(source, bits, _width, count, place):
    starts = source.mask(lambda it: it & 1 == 0)
    if count != 1 + sum(starts):
        raise Fault(f"BadCount {place}")
    listed = [source.value(bits) for _ in range(count)]
    values, run = [], 0
    for start in starts:
        run += start
        values.append(listed[run])
    return values


def read_dictionary(source, bits, width, count, _place):
    listed = []
    for _ in range(count):
        place = source.at
        listed.append(source.value(bits))
        if listed[:-1] and listed[-2] >= listed[-1]:
            raise Fault(f"BadDictionary {place}")
    place = source.at
    codes = unpack(CODE_BITS, width, source.field(128 * width))
    if max(codes) >= count:
        raise Fault(f"BadCode {place}")
    return [listed[code] for code in codes]
