"""Random tables, and random questions of the whole language, for tests that compare two ways to an answer."""

from __future__ import annotations

import random

import lanes

TYPES = {"TINYINT": 8, "SMALLINT": 16, "INTEGER": 32, "BIGINT": 64}
FUNCTIONS = ["COUNT", "SUM", "AVG", "MIN", "MAX"]
SPACES = [" ", " ", " ", "  ", "\t", "\n", "\r\n "]


def schema(pick: random.Random) -> dict[str, str]:
    """1 to 5 columns of random types."""
    return {name: pick.choice([*TYPES]) for name in "ABCDE"[: pick.randint(1, 5)]}


def cell(pick: random.Random, kind: str) -> str:
    """A field: often null, often small, and at times at the ends of the type."""
    bits = TYPES[kind]
    what = pick.random()
    if what < 0.2:
        return ""
    if what < 0.8:
        return str(pick.randint(-3, 3))
    if what < 0.9:
        return str(pick.choice([-(1 << bits - 1), (1 << bits - 1) - 1]))
    return str(pick.randint(-(1 << bits - 1), (1 << bits - 1) - 1))


def rows(pick: random.Random, columns: dict[str, str], count: int) -> str:
    """Rows as comma-separated values without a heading. A table of one column may have empty lines: they are nulls."""
    return "".join(",".join(cell(pick, kind) for kind in columns.values()) + "\n" for _ in range(count))


def table(pick: random.Random, columns: dict[str, str], origin: int, most: int = 40) -> lanes.Table:
    """A table of 0 to 3 loads of an origin, some rows of which are deleted."""
    made = lanes.Table.create("T", columns)
    for number in range(1, pick.randint(1, 4)):
        made = made.import_csv(rows(pick, columns, pick.randint(1, most)), heading=False, batch=(origin, number))
        if pick.random() < 0.5:
            made = made.delete(condition(pick, columns, [], 1))
        if pick.random() < 0.2:
            made = made.delete_rows((origin, number), pick.randint(0, 5), pick.randint(5, 60))
    return made.forget() if pick.random() < 0.2 else made


def literal(pick: random.Random) -> str:
    if pick.random() < 0.05:
        return str(pick.choice([-1, 1]) * pick.randint(10**18, 10**29))
    return pick.choice(["", "", "+", "-", "- "]) + str(pick.choice([0, 1, 2, 3, 127, 1000, 32767]))


def function(pick: random.Random, columns: dict[str, str]) -> str:
    if pick.random() < 0.2:
        return pick.choice(["COUNT(*)", "count ( * )"])
    quantifier = pick.choice(["", "", "ALL ", "DISTINCT ", "distinct "])
    return f"{pick.choice(FUNCTIONS)}({quantifier}{pick.choice([*columns])})"


def operand(pick: random.Random, names: list[str], functions: dict[str, str]) -> str:
    what = pick.random()
    if names and what < 0.5:
        return pick.choice(names).lower() if pick.random() < 0.2 else pick.choice(names)
    if functions and what < 0.85:
        return function(pick, functions)
    return literal(pick)


def predicate(pick: random.Random, names: list[str], functions: dict[str, str]) -> str:
    left, what, negated = operand(pick, names, functions), pick.random(), pick.choice(["", "NOT "])
    if what < 0.5:
        return f"{left} {pick.choice(['=', '<>', '<', '<=', '>', '>='])} {operand(pick, names, functions)}"
    if what < 0.7:
        return f"{left} {negated}BETWEEN {operand(pick, names, functions)} AND {operand(pick, names, functions)}"
    if what < 0.85:
        return f"{left} {negated}IN ({','.join(literal(pick) for _ in range(pick.randint(1, 3)))})"
    return f"{left} IS {negated}NULL"


def condition(pick: random.Random, columns: dict[str, str], keys: list[str], depth: int, functions: bool = False) -> str:
    """A condition over the columns, or, of HAVING, over the grouping columns and set functions."""
    names, given = (keys, columns) if functions else ([*columns], {})
    if depth == 0 or pick.random() < 0.3:
        text = predicate(pick, names, given)
    else:
        parts = [condition(pick, columns, keys, depth - 1, functions) for _ in range(pick.randint(1, 3))]
        text = '(' + f" {pick.choice(['AND', 'OR'])} ".join(parts) + ')'
    if pick.random() < 0.15:
        text += f" IS {pick.choice(['', 'NOT '])}{pick.choice(['TRUE', 'FALSE', 'UNKNOWN'])}"
    return f"NOT {text}" if pick.random() < 0.2 else text


def question(pick: random.Random, columns: dict[str, str]) -> str:
    """A query without a fault."""
    keys = [pick.choice([*columns]) for _ in range(pick.choice([0, 0, 1, 1, 2, 3]))]
    items = []
    for _ in range(pick.randint(1, 5)):
        item = pick.choice(keys) if keys and pick.random() < 0.4 else function(pick, columns)
        items.append(item + pick.choice(["", "", "", " AS N", " hits"]))
    words = ["SELECT", ", ".join(items), "FROM", pick.choice(["T", "t"])]
    if pick.random() < 0.6:
        words += ["WHERE", condition(pick, columns, [], pick.randint(0, 2))]
    if keys:
        words += ["GROUP", "BY", ",".join(keys)]
    if pick.random() < 0.4:
        words += ["HAVING", condition(pick, columns, keys, pick.randint(0, 2), functions=True)]
    return pick.choice(SPACES).join(words)


def faulty(pick: random.Random, columns: dict[str, str]) -> str:
    """A query that may have a fault: one with a piece taken out, put in or moved."""
    text = question(pick, columns)
    at, length = pick.randrange(len(text)), pick.randint(1, 6)
    pieces = ["X", " A", "9" * 31, "(", ")", "COUNT", ",", ";", "\u00e9", "((", " FROM U", "*"]
    return text[:at] + pick.choice([*pieces, ""]) + text[at + (length if pick.random() < 0.7 else 0) :]
