"""What a query answers over rows: written from docs/SQL.md alone. A condition is 2 where it is true, 1 unknown, 0 false."""

from dataclasses import dataclass
from operator import eq, ge, gt, le, lt, ne

from query_text import Column, Literal

FALSE, UNKNOWN, TRUE = 0, 1, 2
TRUTHS = {"FALSE": FALSE, "UNKNOWN": UNKNOWN, "TRUE": TRUE}
COMPARED = {"=": eq, "<>": ne, "<": lt, "<=": le, ">": gt, ">=": ge}
MILLION = 1_000_000


@dataclass(frozen=True)
class Millionths:
    """What AVG answers."""

    number: int


def condition(test, field_of):
    """The truth of a condition, where `field_of` says what an operand stands for."""
    kind, parts = test.kind, test.parts
    if kind == "OR":
        return max(condition(it, field_of) for it in parts)
    if kind == "AND":
        return min(condition(it, field_of) for it in parts)
    if kind == "NOT":
        return TRUE - condition(parts[0], field_of)
    if kind == "IS":
        inner, truth, negated = parts
        return TRUE if (condition(inner, field_of) == TRUTHS[truth]) != negated else FALSE
    if kind == "NULL":
        return TRUE if field_of(parts[0]) is None else FALSE
    return compared(COMPARED[kind], field_of(parts[0]), field_of(parts[1]))


def compared(holds, one, other):
    if one is None or other is None:
        return UNKNOWN
    if isinstance(one, Millionths) or isinstance(other, Millionths):
        one, other = millionths(one), millionths(other)
    return TRUE if holds(one, other) else FALSE


def millionths(number):
    return number.number if isinstance(number, Millionths) else number * MILLION


def set_function(function, rows, place):
    """A set function over rows of cells; `place` has each column's place."""
    if function.column is None:
        return len(rows)
    cells = [row[place[function.column.name]] for row in rows]
    values = [it for it in cells if it is not None]
    if function.distinct:
        values = list(set(values))
    if function.keyword == "COUNT":
        return len(values)
    if not values:
        return None
    if function.keyword == "AVG":
        total = sum(values) * MILLION
        mean = abs(total) // len(values)
        return Millionths(-mean if total < 0 else mean)
    return {"SUM": sum, "MIN": min, "MAX": max}[function.keyword](values)


def field_in_row(row, place):
    return lambda it: it.number if isinstance(it, Literal) else row[place[it.name]]


def field_in_group(names, cells, rows, place):
    """What an operand or an item stands for in a group with these cells in the grouping columns of these names."""

    def field(it):
        if isinstance(it, Literal):
            return it.number
        if isinstance(it, Column):
            return cells[names.index(it.name)]
        return set_function(it, rows, place)

    return field


def groups_of(query, rows, place):
    """The groups' cells and rows, in the order in which they are answered."""
    if query.keys is None:
        return [((), rows)]
    found = {}
    for row in rows:
        found.setdefault(tuple(row[place[it.name]] for it in query.keys), []).append(row)
    return sorted(found.items(), key=lambda it: [(cell is not None, cell or 0) for cell in it[0]])


def table_of(query, rows, columns):
    """The heading and the rows of fields of a query's answer over the live rows of a table with these columns."""
    place = {name: at for at, name in enumerate(columns)}
    kept = [row for row in rows if query.where is None or condition(query.where, field_in_row(row, place)) == TRUE]
    names = [it.name for it in query.keys or []]
    heading = [alias or (it.name if isinstance(it, Column) else it.spelling()) for it, alias in query.items]
    found = []
    for cells, group in groups_of(query, kept, place):
        field = field_in_group(names, cells, group, place)
        if query.having is None or condition(query.having, field) == TRUE:
            found.append([field(it) for it, _ in query.items])
    return heading, found


def answer(query, rows, columns):
    """The lines of a query's answer: its heading, and a line for each row."""
    heading, found = table_of(query, rows, columns)
    return [",".join(heading)] + [",".join(spelled(it) for it in row) for row in found]


def names_where(where, named, columns):
    """The names of the rows, each given with its own, at which a condition is true."""
    place = {name: at for at, name in enumerate(columns)}
    return [name for name, row in named if condition(where, field_in_row(row, place)) == TRUE]


def spelled(field):
    if field is None:
        return "NULL"
    if isinstance(field, Millionths):
        whole, part = divmod(abs(field.number), MILLION)
        return f"{'-' if field.number < 0 else ''}{whole}.{part:06}"
    return str(field)
