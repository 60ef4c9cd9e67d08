"""What a refused query is said to expect is what the program takes there: each kind of word and symbol is put at the faults of random queries.

A fault is made by `~`, which no query has. Its sentence ends with `; expected ` and what is possible; each kind that is among it must not be
refused at that byte, and each other kind must be.
"""

import random
import re

from cases import ONE_ROW, Case

FAULTS = 500
FUNCTIONS = ["COUNT", "SUM", "AVG", "MIN", "MAX"]
KEYWORDS = "ALL AND AS AVG BETWEEN BY COUNT DISTINCT FALSE FROM GROUP HAVING IN IS MAX MIN NOT NULL OR SELECT SUM TRUE UNKNOWN WHERE".split()
COMPARISONS = ["=", "<>", "<", "<=", ">", ">="]
END = ""
KINDS = [*KEYWORDS, "(", ")", ",", "*", "+", "-", *COMPARISONS, "A", "7", END]

# The words of sentences, and the kinds that they mean.
MEANINGS = {
    "(*) or a column in parentheses": "(",
    "a column in parentheses": "(",
    "whole numbers in parentheses": "(",
    "AND and the upper bound": "AND",
    "NULL or NOT NULL": "NULL NOT",
    "TRUE, FALSE or UNKNOWN, optionally after NOT": "TRUE FALSE UNKNOWN NOT",
    "a condition without a second NOT": "( A 7 + -",
    "a condition": "NOT ( A 7 + -",
    "a comparison": " ".join(COMPARISONS),
    "NOT BETWEEN": "NOT",
    "NOT IN": "NOT",
    "a set function": " ".join(FUNCTIONS),
    "a name that is not a keyword": "A",
    "the table's name": "A",
    "a whole number": "7 + -",
    "GROUP BY": "GROUP",
    "a column": "A",
    "a comma": ",",
    "a name": "A",
    "digits": "7",
    **{word: word for word in [*KEYWORDS, "*", ")"]},
}


def kinds_of(said, has_functions):
    """The kinds that a sentence expects. In HAVING a condition can begin with a set function."""
    kinds = set()
    if "the end" in said:
        kinds.add(END)
        said = said.replace("the end", "")
    for words in sorted(MEANINGS, key=len, reverse=True):
        pattern = rf"(?<![A-Za-z]){re.escape(words)}(?![A-Za-z])"
        if re.search(pattern, said):
            said = re.sub(pattern, "", said)
            kinds |= set(MEANINGS[words].split())
            kinds |= set(FUNCTIONS) if has_functions and words.startswith("a condition") else set()
    assert not re.sub(r"\bor\b|,", "", said).strip(), f"not understood: {said!r}"
    return kinds


def operand(chance, has_functions):
    if has_functions and chance.random() < 0.4:
        return function(chance)
    return chance.choice([["A"], ["7"], ["-", "7"], ["+", "0"]])


def function(chance):
    if chance.random() < 0.3:
        return ["COUNT", "(", "*", ")"]
    return [chance.choice(FUNCTIONS), "(", *chance.choice([[], ["ALL"], ["DISTINCT"]]), "A", ")"]


def predicate(chance, has_functions):
    first, negation = operand(chance, has_functions), chance.choice([[], ["NOT"]])
    second, third = operand(chance, has_functions), operand(chance, has_functions)
    return [
        *first,
        *chance.choice(
            [
                [chance.choice(COMPARISONS), *second],
                [*negation, "BETWEEN", *second, "AND", *third],
                [*negation, "IN", "(", "7", *chance.choice([[], [",", "-", "7"]]), ")"],
                ["IS", *negation, "NULL"],
            ]
        ),
    ]


def condition(chance, has_functions, depth=0):
    inner = ["(", *condition(chance, has_functions, depth + 1), ")"] if depth < 3 and chance.random() < 0.4 else predicate(chance, has_functions)
    truth = ["IS", *chance.choice([[], ["NOT"]]), chance.choice(["TRUE", "FALSE", "UNKNOWN"])] if chance.random() < 0.3 else []
    words = [*chance.choice([[], ["NOT"]]), *inner, *truth]
    if chance.random() < 0.4 and depth < 4:
        words += [chance.choice(["AND", "OR"]), *condition(chance, has_functions, depth + 1)]
    return words


def query(chance):
    items = [chance.choice([["A"], function(chance)]) + chance.choice([[], ["AS", "X"], ["X"]]) for _ in range(chance.randint(1, 3))]
    words = ["SELECT", *items[0], *(word for item in items[1:] for word in [",", *item]), "FROM", "T"]
    if chance.random() < 0.6:
        words += ["WHERE", *condition(chance, False)]
    if chance.random() < 0.6:
        words += ["GROUP", "BY", "A", *chance.choice([[], [",", "A"]])]
    if chance.random() < 0.6:
        words += ["HAVING", *condition(chance, True)]
    return words


def fronts():
    """The beginnings of random queries, each as a text."""
    chance = random.Random(71)
    found = []
    for _ in range(FAULTS):
        words = query(chance)
        found.append(words[: chance.randint(0, len(words))])
    return found


FRONTS = fronts()


def probes():
    """For each front its fault, and then the front with each kind behind it."""
    for front in FRONTS:
        yield from (" ".join([*front, kind]) if kind else " ".join(front) or " " for kind in ["~", *KINDS])


def is_said_right(errors):
    """Whether each front expects what is not refused after it, and nothing else."""
    refused = {int(line): (int(at), words) for line, at, words in re.findall(r"^t: line (\d+), byte (\d+): (.*)$", errors.decode(), re.M)}
    for index, front in enumerate(FRONTS):
        first = index * (len(KINDS) + 1) + 1
        at = len(" ".join(front)) + (1 if front else 0)
        place, words = refused[first]
        assert place == at, f"{front}: ~ is refused at {place}"
        assert "; expected " in words, f"{front}: {words}"
        expected = kinds_of(words.split("; expected ")[1], "HAVING" in front)
        for offset, kind in enumerate(KINDS, 1):
            # A text that ends too early is refused at its length, and one of names that are not there elsewhere.
            wanted_at = len(" ".join(front) or " ") if kind == END else at
            found = refused.get(first + offset)
            is_refused = found is not None and found[0] == wanted_at and not found[1].startswith(("there is no column", '"A" must be'))
            if is_refused == (kind in expected):
                print(f"after {' '.join(front)!r} the kind {kind!r} is {'' if is_refused else 'not '}refused, and expected are {sorted(expected)}")
                return False
    return True


EXPECTED_CASES = [
    Case("what a sentence says to be expected is what is taken there", ["query", "t", "-"], 1, out=lambda out: True, err=is_said_right, input="".join(f"{text}\n" for text in probes()).encode(), files={"t": ONE_ROW}),
]
