"""The text of a query as its parts, or its first fault: written from docs/SQL.md alone."""

import re
from dataclasses import dataclass, field

KEYWORDS = set(
    "ALL AND AS AVG BETWEEN BY COUNT DISTINCT FALSE FROM GROUP HAVING IN IS MAX MIN NOT NULL OR SELECT SUM TRUE UNKNOWN WHERE".split()
)
FUNCTIONS = ("COUNT", "SUM", "AVG", "MIN", "MAX")
COMPARISONS = ("=", "<>", "<", "<=", ">", ">=")
MOST_DIGITS, MOST_OPEN, LONGEST_NAME = 30, 64, 64
TOKEN = re.compile(r"[ \t\n\r]*(?:([A-Za-z][A-Za-z0-9_]*)|([0-9]+)(?![A-Za-z_0-9])|(<>|<=|>=|[(),*+=<>-]))")


class Fault(Exception):
    """A refusal, as a reply has it after the word `refused`."""


@dataclass(frozen=True)
class Column:
    """A column that a query mentions, in upper case, and where."""

    name: str
    place: int


@dataclass(frozen=True)
class Literal:
    number: int


@dataclass(frozen=True)
class Function:
    """A set function: its keyword, whether it takes each value once, and its column, or None for `*`."""

    keyword: str
    distinct: bool
    column: Column | None

    def spelling(self):
        inside = "*" if self.column is None else ("DISTINCT " if self.distinct else "") + self.column.name
        return f"{self.keyword}({inside})"


@dataclass(frozen=True)
class Test:
    """A condition: what it is made by, and of which conditions, operands or words."""

    kind: str
    parts: tuple


@dataclass
class Query:
    items: list
    table: str = ""
    where: Test | None = None
    keys: list | None = None
    having: Test | None = None
    mentions: list = field(default_factory=list)
    ungrouped: list = field(default_factory=list)


class Reader:
    """A text's tokens, from the left. A token is its kind, its text and its place; a kind is a keyword, a symbol, `name`, `number`, `end`
    or, where a byte begins no token, `none`."""

    def __init__(self, text):
        self.text, self.at = text, 0
        self.open, self.query = 0, Query([])
        self.step()

    def step(self):
        """Goes on to the next token."""
        found = TOKEN.match(self.text, self.at)
        if found is None:
            rest = self.text[self.at :]
            self.place = self.at + len(rest) - len(rest.lstrip(" \t\n\r"))
            self.kind, self.word = ("end" if self.place == len(self.text) else "none"), ""
            return
        word, digits, symbol = found.groups()
        self.word, self.at = word or digits or symbol, found.end()
        self.place = self.at - len(self.word)
        if word:
            upper = word.upper()
            self.kind = upper if upper in KEYWORDS else "name" if len(word) <= LONGEST_NAME else "none"
        else:
            self.kind = "number" if digits else symbol

    def take(self, *kinds):
        """The token's text, where its kind is one of these; else the fault of a token that no query has there."""
        if self.kind not in kinds:
            raise Fault(f"Syntax {self.place}")
        word = self.word
        self.step()
        return word

    def has(self, kind):
        """Whether the token is of this kind; it is then taken."""
        is_there = self.kind == kind
        if is_there:
            self.step()
        return is_there

    # ---- the grammar, a call for each of its lines
    def read(self):
        query = self.query
        self.take("SELECT")
        query.items = self.list_of(self.item)
        self.take("FROM")
        query.table = self.take("name").upper()
        if self.has("WHERE"):
            query.where = self.condition(False)
        if self.has("GROUP"):
            self.take("BY")
            query.keys = self.list_of(self.column)
        if self.has("HAVING"):
            query.having = self.condition(True)
        self.take("end")
        return query

    def list_of(self, read):
        found = [read()]
        while self.has(","):
            found.append(read())
        return found

    def column(self):
        place = self.place
        column = Column(self.take("name").upper(), place)
        self.query.mentions.append(column)
        return column

    def grouped_column(self):
        """A column that GROUP BY has to name."""
        column = self.column()
        self.query.ungrouped.append(column)
        return column

    def item(self):
        what = self.function() if self.kind in FUNCTIONS else self.grouped_column()
        if self.has("AS"):
            return what, self.take("name").upper()
        return what, self.take("name").upper() if self.kind == "name" else None

    def function(self):
        keyword = self.take(*FUNCTIONS).upper()
        self.take("(")
        if keyword == "COUNT" and self.has("*"):
            self.take(")")
            return Function(keyword, False, None)
        distinct = self.has("DISTINCT")
        if not distinct:
            self.has("ALL")
        found = Function(keyword, distinct, self.column())
        self.take(")")
        return found

    def condition(self, is_having):
        terms = [self.term(is_having)]
        while self.has("OR"):
            terms.append(self.term(is_having))
        return Test("OR", tuple(terms))

    def term(self, is_having):
        factors = [self.factor(is_having)]
        while self.has("AND"):
            factors.append(self.factor(is_having))
        return Test("AND", tuple(factors))

    def factor(self, is_having):
        if self.has("NOT"):
            return Test("NOT", (self.test(is_having),))
        return self.test(is_having)

    def test(self, is_having):
        found = self.primary(is_having)
        if not self.has("IS"):
            return found
        negated = self.has("NOT")
        truth = self.take("TRUE", "FALSE", "UNKNOWN").upper()
        return Test("IS", (found, truth, negated))

    def primary(self, is_having):
        if self.kind != "(":
            return self.predicate(is_having)
        if self.open == MOST_OPEN:
            raise Fault("TooDeep")
        self.open += 1
        self.step()
        found = self.condition(is_having)
        self.take(")")
        self.open -= 1
        return found

    def predicate(self, is_having):
        left = self.operand(is_having)
        if self.has("IS"):
            negated = self.has("NOT")
            self.take("NULL")
            return not_where(negated, Test("NULL", (left,)))
        if self.kind in COMPARISONS:
            sign = self.take(*COMPARISONS)
            return Test(sign, (left, self.operand(is_having)))
        negated = self.has("NOT")
        if self.has("BETWEEN"):
            least = self.operand(is_having)
            self.take("AND")
            found = Test("AND", (Test(">=", (left, least)), Test("<=", (left, self.operand(is_having)))))
            return not_where(negated, found)
        self.take("IN")
        self.take("(")
        listed = self.list_of(self.literal)
        self.take(")")
        return not_where(negated, Test("OR", tuple(Test("=", (left, one)) for one in listed)))

    def operand(self, is_having):
        if self.kind == "name":
            return self.grouped_column() if is_having else self.column()
        if is_having and self.kind in FUNCTIONS:
            return self.function()
        return self.literal()

    def literal(self):
        negative = False
        if self.kind in ("+", "-"):
            negative = self.take("+", "-") == "-"
        if self.kind == "number" and len(self.word.lstrip("0")) > MOST_DIGITS:
            raise Fault(f"NumberTooLarge {self.place}")
        number = int(self.take("number"))
        return Literal(-number if negative else number)


def read_condition(text, columns):
    """The condition of a text, as it stands behind WHERE, over a table with these columns."""
    reader = Reader(text)
    found = reader.condition(False)
    reader.take("end")
    judge_columns(reader.query, columns)
    return found


def not_where(negated, test):
    return Test("NOT", (test,)) if negated else test


def judge_columns(query, columns):
    """The fault of a column that the table has not, if there is one."""
    lacking = [it.place for it in query.mentions if it.name not in columns]
    if lacking:
        raise Fault(f"NoSuchColumn {min(lacking)}")


def judge_names(query, table, columns):
    """The fault of a query's names, if it has one."""
    if query.table != table:
        raise Fault("NoSuchTable")
    judge_columns(query, columns)
    keys = {it.name for it in query.keys or []}
    ungrouped = [it.place for it in query.ungrouped if it.name not in keys]
    if ungrouped:
        raise Fault(f"NotGrouped {min(ungrouped)}")


def read_query(text, table, columns):
    """The query of a text over a table with these columns."""
    query = Reader(text).read()
    judge_names(query, table, columns)
    return query
