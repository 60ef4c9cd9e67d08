"""Queries with groups that are made at random: of no group, one, two, some 500 and some 66,000, by one to four columns, with nulls, set
functions of distinct values, WHERE and HAVING."""

import random
import subprocess

from answers import answer
from query_text import read_query

COLUMNS = {"A": "SMALLINT", "B": "INTEGER", "C": "BIGINT", "D": "TINYINT"}
FUNCTIONS = ["COUNT(*)", *(f"{name}({ask}_)" for name in ("COUNT", "SUM", "AVG", "MIN", "MAX") for ask in ("", "DISTINCT "))]
# How many groups there are about, and of how many rows.
SIZES = [(0, 0), (1, 3_000), (2, 3_000), (500, 20_000), (66_000, 90_000)]
# The greatest values of each column's type, at which sums are wide.
EDGES = {"A": 32_767, "B": 2_147_483_647, "C": 9_223_372_036_854_775_807, "D": 127}


def cells_of(chance, name, values):
    """Some cells of a column, one null among them if there is more than one: near 0, or at the ends of the type, which differ in the last bit."""
    most = EDGES[name]
    near = chance.random() < 0.6
    found = {chance.randint(-most - 1, most) if most < 200 or not near else chance.randint(-min(values, most), min(values, most)) for _ in range(4 * values)}
    found |= {most, most - 1, -most - 1, -most} if not near else set()
    found = chance.sample(sorted(found), min(values, len(found)))
    return found[:-1] + [None] if len(found) > 1 else found


def rows_of(chance, groups, count):
    """So many rows whose first columns have about so many lists of cells, in no order, and the names of these columns."""
    names = chance.sample(sorted(COLUMNS), chance.randint(1, 4))
    if groups > 20_000 and names == ["D"]:
        names = ["B"]
    each = max(1, round(groups ** (1 / len(names))))
    wide = {name: min(each + 1, 250) if name == "D" else each + 1 for name in names}
    while groups > 1 and len(names) > 1 and product(wide.values()) < groups:
        largest = next(name for name in names if name != "D")
        wide[largest] *= 2
    lists = {name: cells_of(chance, name, wide.get(name, 300)) for name in COLUMNS}
    if groups == 1:
        lists.update({name: [chance.choice(lists[name])] for name in names})
    rows = [tuple(chance.choice(lists[name]) for name in COLUMNS) for _ in range(count)]
    return rows, names


def product(numbers):
    """All of them multiplied."""
    whole = 1
    for number in numbers:
        whole *= number
    return whole


def query_of(chance, names):
    """A query with groups by columns of these names."""
    others = sorted(COLUMNS)
    items = chance.sample(names, chance.randint(0, len(names))) + [chance.choice(FUNCTIONS).replace("_", chance.choice(others)) for _ in range(chance.randint(1, 4))]
    text = f"SELECT {','.join(items)} FROM T"
    if chance.random() < 0.3:
        text += f" WHERE {chance.choice(others)} {chance.choice(['IS NOT NULL', '> 0', '<> 7', 'IN (1,2,3)'])}"
    text += f" GROUP BY {','.join(names)}"
    if chance.random() < 0.4:
        function = chance.choice(FUNCTIONS).replace("_", chance.choice(others))
        text += f" HAVING {function} {chance.choice(['> 1', '<> 0', 'IS NOT NULL', '= 1'])}"
    return text


def difference_of_groups(program, room, number):
    """The first query with groups that is answered otherwise than by the second program, or None."""
    chance = random.Random(number)
    groups, count = SIZES[number % len(SIZES)]
    rows, names = rows_of(chance, groups, count)
    file = f"{room}/t{number}"
    made = subprocess.run([program, "create", "--quiet", file, "T", *(word for pair in COLUMNS.items() for word in pair)])
    lines = "".join(",".join("" if cell is None else str(cell) for cell in row) + "\n" for row in rows)
    into = subprocess.run([program, "import", "--quiet", "--no-header", file, "-"], input=lines.encode())
    if made.returncode or into.returncode:
        return f"status {made.returncode} of create and {into.returncode} of import"
    for _ in range(2 if groups > 20_000 else 6):
        text = query_of(chance, names)
        wanted = answer(read_query(text, "T", list(COLUMNS)), rows, list(COLUMNS))
        done = subprocess.run([program, "query", file, text], stdout=subprocess.PIPE, timeout=60)
        found = done.stdout.decode().splitlines()
        if found != wanted or done.returncode:
            at = next((at for at, (one, other) in enumerate(zip(found, wanted)) if one != other), min(len(found), len(wanted)))
            return f"{text}: status {done.returncode}, line {at} of {len(wanted)}: second {wanted[at : at + 1]}, program {found[at : at + 1]}"
    return None
