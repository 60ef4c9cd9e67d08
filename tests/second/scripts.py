"""Scripts made at random, the same for the same number: every step, queries of every form, and faults of each."""

import random

from files import BITS, Schema, State, file_bytes
from query_text import FUNCTIONS, KEYWORDS, TOKEN
from replicas import ASKED, Cluster, spelled
from vectors import CODINGS, LEAST_FORMS, ROWS, filled, with_mask

NAMES = ["A", "b", "Hits", "DAY_1", "x", "Site"]
GAPS = ["", " ", " ", "  "]
SIGNS = ["=", "<>", "<", "<=", ">", ">="]
STRAY = [*sorted(KEYWORDS), "(", ")", ",", "*", "+", "-", "=", "<>", "T", "A", "NOPE", "7", "0", "1" + "0" * 30, "12x", "!", "_a", "9" * 30]


def long_column(pick, bits, count):
    """Cells of one of the patterns that the codings are made for."""
    top = 1 << bits - 1
    start, step = pick.randrange(-top, top), pick.choice([0, 1, 3, -7, top // ROWS])
    few = [pick.randrange(-top, top) for _ in range(pick.choice([2, 3, 60]))]
    made = {
        "ramp": lambda at: (start + step * at + top) % (2 * top) - top,
        "runs": lambda at: few[at // 37 % len(few)],
        "few": lambda at: pick.choice(few),
        "near": lambda at: max(-top, min(top - 1, start + pick.randrange(1 << pick.choice([1, 5, 9])))),
        "any": lambda at: pick.randrange(-top, top),
    }
    cell, nulls = made[pick.choice(list(made))], pick.choice([0, 0, 0.01, 0.5])
    return [None if pick.random() < nulls else cell(at) for at in range(count)]


class Maker:
    """Makes a script line by line, beside the replicas that it is about."""

    def __init__(self, number):
        self.pick, self.cluster = random.Random(number), Cluster()
        self.lines, self.replies = [], []

    def add(self, line):
        self.lines.append(line)
        self.replies.append(self.cluster.reply(line))

    def make(self, count):
        pick = self.pick
        names = pick.sample(NAMES, pick.randint(1, 4))
        self.add(f"table {pick.randint(1, 3)} T " + " ".join(f"{name} {pick.choice(list(BITS))}" for name in names))
        self.schema = self.cluster.replicas[0].schema
        steps = [self.append, self.insert, self.delete, self.delete_where, self.merge, self.message, self.recode, self.open, self.export, self.query, self.stray]
        weights = [16, 8, 8, 6, 8, 8, 4, 8, 6, 40, 3]
        for step in pick.choices(steps, weights, k=count):
            self.add(step())
        return self

    # ---- what lines are made of
    def replica(self):
        return self.pick.choices([self.pick.randint(1, len(self.cluster.replicas)), 0, 65], [50, 1, 1])[0]

    def some_name(self):
        """A name of a batch, mostly one that some replica holds."""
        held = sorted(self.pick.choice(self.cluster.replicas).state.batches)
        if held and self.pick.random() < 0.7:
            return self.pick.choice(held)
        return self.pick.choice([0, 1, 1, 2, 3, 2**32 - 1]), self.pick.choice([0, *range(1, 6), *range(1, 6), 2**32 - 1])

    def cell(self, bits):
        top = 1 << bits - 1
        return self.pick.choice([None, 0, 1, 2, 3, -1, 5, 7, -top, top - 1, self.pick.randrange(-top, top)])

    def some_rows(self):
        if self.pick.random() < 0.08:
            count = self.pick.choice([1000, 1024, 1025, 2050])
            return list(zip(*(long_column(self.pick, bits, count) for bits in self.schema.bits())))
        rows = [tuple(self.cell(bits) for bits in self.schema.bits()) for _ in range(self.pick.randint(1, 9))]
        if self.pick.random() < 0.05:
            at = self.pick.randrange(len(rows))
            rows[at] = self.pick.choice([rows[at] + (0,), (1 << 63,) + rows[at][1:]])
        return rows

    # ---- the lines
    def append(self):
        return f"append {self.replica()} {row_text(self.some_rows())}"

    def insert(self):
        name, replica = self.some_name(), self.pick.choice(self.cluster.replicas)
        held = replica.state.batches.get(name)
        rows = held if held and self.pick.random() < 0.5 else self.some_rows()
        return f"insert {self.replica()} {spelled(name)} {row_text(rows)}"

    def delete(self):
        first = self.pick.choice([0, 0, 1, 2, 5, 1023, 65535])
        last = self.pick.choice([first, first + 1, first + 3, 0, 1024])
        return f"delete {self.replica()} {spelled(self.some_name())} {first} {last}"

    def delete_where(self):
        tokens = self.condition(2, self.row_operand)
        if self.pick.random() < 0.05:
            tokens = self.function() + [self.pick.choice(SIGNS)] + self.literal()
        return f"delete where {self.replica()} {self.text_of(self.changed(tokens))}"

    def merge(self):
        return f"merge {self.replica()} {self.replica()}"

    def message(self):
        """A step with a message; most name one of the right kind, once there is one."""
        messages = self.cluster.messages
        word = self.pick.choice(["ask", *[it for it in ASKED if any(isinstance(one, ASKED[it]) for one in messages)] * 2, "serve", "take"])
        if word == "ask":
            return f"ask {self.replica()}"
        fitting = [at for at, it in enumerate(messages, 1) if isinstance(it, ASKED[word])]
        number = self.pick.choice(fitting) if fitting and self.pick.random() < 0.8 else self.pick.randint(0, len(messages) + 1)
        return f"{word} {self.replica()} {number}"

    def recode(self):
        return f"recode {self.replica()} {spelled(self.some_name())} {self.pick.randint(0, 2)} {self.pick.choice([0, 0, 1, 2])} {self.pick.choice(CODINGS)}"

    def export(self):
        return f"export {self.replica()}"

    def open(self):
        return f"open {self.replica()} {self.file().hex()}"

    def stray(self):
        line = self.pick.choice([self.append, self.delete, self.delete_where, self.message, self.query])()
        at = self.pick.randrange(len(line))
        return self.pick.choice([line[:at] + line[at + 1 :], line[:at] + self.pick.choice(" 0x(,.\x7f") + line[at:], "table 1 T A SMALLINT", "nothing 1"]) or "x"

    def file(self):
        """A file's bytes: canonical or not, of a state that some replica has or a front of it, whole or damaged."""
        pick = self.pick
        source = pick.choice(self.cluster.replicas).state
        state = State({name: rows for name, rows in source.batches.items() if pick.random() < 0.7}, set(source.deleted))
        schema = self.schema if pick.random() < 0.9 else Schema("U", self.schema.columns)
        kind = pick.choice(["canonical", "canonical", "coded", "coded", "coded", "split", "damaged", "damaged", "cut", "longer"])
        data = file_bytes(schema, state)
        if kind == "coded":
            data = file_bytes(schema, state, coded=self.some_form)
        elif kind == "split":
            data = file_bytes(schema, state, ranges=[part for it in state.ranges() for part in split(pick, *it)])
        elif kind == "damaged":
            data = self.damaged(data, pick.choice([16, 60, len(data)]))
        elif kind == "cut":
            data = data[: pick.randrange(1, len(data))]
        elif kind == "longer":
            data += bytes(pick.randint(1, 3))
        return data

    def some_form(self, bits, cells):
        """A vector's least form of some coding, or one with a wider packing."""
        name = self.pick.choice(CODINGS)
        wider = {"wider": self.pick.choice([0, 1, 2])} if name != "RLE" else {}
        form = with_mask(cells, LEAST_FORMS[name](bits, filled(cells), **wider))
        return self.damaged(form, self.pick.choice([8, 20, 140, len(form)])) if self.pick.random() < 0.2 else form

    def damaged(self, data, end):
        """Bytes of which one, before this end, is another."""
        at = self.pick.randrange(min(end, len(data)))
        return data[:at] + bytes([self.pick.choice([0, 1, 2, 3, 4, 255, data[at] ^ 1 << self.pick.randrange(8)])]) + data[at + 1 :]

    # ---- queries
    def query(self):
        pick = self.pick
        keys = [self.column() for _ in range(pick.randint(1, 3))] if pick.random() < 0.5 else []
        parts = [["SELECT", *listed([self.item(keys) for _ in range(pick.randint(1, 3))])], ["FROM", pick.choice(["T"] * 40 + ["U"])]]
        if pick.random() < 0.6:
            parts.append(["WHERE", *self.condition(3, self.row_operand)])
        if keys:
            parts.append(["GROUP", "BY", *listed([[it] for it in keys])])
        if pick.random() < 0.4:
            parts.append(["HAVING", *self.condition(2, lambda: self.group_operand(keys))])
        return f"query {self.replica()} {self.text_of(self.changed([token for part in parts for token in part]))}"

    def changed(self, tokens):
        """The tokens, sometimes with one taken out, put in or exchanged."""
        pick, at = self.pick, self.pick.randrange(len(tokens))
        kind = pick.choices(["same", "lost", "more", "other"], [80, 6, 7, 7])[0]
        new = {"same": [tokens[at]], "lost": [], "more": [tokens[at], pick.choice(STRAY)], "other": [pick.choice(STRAY)]}[kind]
        return tokens[:at] + new + tokens[at + 1 :]

    def text_of(self, tokens):
        """Tokens in upper or lower case, with gaps between them: none, sometimes, where they can be told apart without."""
        pick, text, last = self.pick, "", ""
        for token in tokens:
            token = pick.choice([token, token.lower(), token.upper()])
            gap = pick.choice(GAPS[0 if may_join(last, token) else 1 :]) if text else ""
            text, last = text + gap + token, token
        return text or " "

    def column(self):
        return self.pick.choice([*self.schema.names()] * 40 + ["NOPE"])

    def function(self):
        if self.pick.random() < 0.2:
            return ["COUNT", "(", "*", ")"]
        return [self.pick.choice(FUNCTIONS), "(", *self.pick.choice([[], [], ["DISTINCT"], ["ALL"]]), self.column(), ")"]

    def item(self, keys):
        some = self.pick.random()
        what = [self.column()] if some < 0.03 else [self.pick.choice(keys)] if keys and some < 0.5 else self.function()
        return what + self.pick.choice([[], [], [], ["AS", "N1"], ["Total"]])

    def literal(self):
        number = self.pick.choice([0, 1, 2, 3, 5, 7, -1, -2, 10**20, -(1 << 15), (1 << 31) - 1, 1 << 63, 10**30 - 1] * 9 + [10**30])
        return (["-"] if number < 0 else self.pick.choice([[], [], ["+"]])) + [self.pick.choice(["", "", "00"]) + str(abs(number))]

    def row_operand(self):
        return [self.column()] if self.pick.random() < 0.6 else self.literal()

    def group_operand(self, keys):
        some = self.pick.random()
        return self.function() if some < 0.5 else [self.pick.choice(keys)] if keys and some < 0.8 else [self.column()] if some > 0.98 else self.literal()

    def condition(self, depth, operand):
        pick = self.pick
        word = pick.choice(["AND", "OR"])
        tokens = self.factor(depth, operand)
        for _ in range(pick.choice([0, 0, 1, 1, 2])):
            tokens = tokens + [word if pick.random() < 0.7 else pick.choice(["AND", "OR"])] + self.factor(depth, operand)
        return tokens

    def factor(self, depth, operand):
        pick = self.pick
        tokens = ["(", *self.condition(depth - 1, operand), ")"] if depth and pick.random() < 0.3 else self.predicate(operand)
        if pick.random() < 0.01:
            count = pick.choice([61, 64, 65])
            tokens = ["("] * count + tokens + [")"] * count
        if pick.random() < 0.2:
            tokens = tokens + ["IS", *pick.choice([[], ["NOT"]]), pick.choice(["TRUE", "FALSE", "UNKNOWN"])]
        return pick.choice([[], [], ["NOT"]]) + tokens

    def predicate(self, operand):
        pick, left, negated = self.pick, operand(), self.pick.choice([[], [], ["NOT"]])
        kind = pick.choice(["compare", "compare", "between", "in", "null"])
        if kind == "compare":
            return left + [pick.choice(SIGNS)] + operand()
        if kind == "between":
            return left + negated + ["BETWEEN", *operand(), "AND", *operand()]
        if kind == "in":
            return left + negated + ["IN", "(", *listed([self.literal() for _ in range(pick.choice([1, 2, 3, 7]))]), ")"]
        return left + ["IS", *negated, "NULL"]


def listed(parts):
    """Lists of tokens, with commas between them."""
    return [token for part in parts for token in [",", *part]][1:]


def may_join(one, other):
    """Whether two tokens can be told apart without a gap."""
    found = TOKEN.match(one + other)
    return found is not None and found[0] == one


def row_text(rows):
    return ",".join("(" + ",".join("NULL" if it is None else str(it) for it in row) + ")" for row in rows)


def split(pick, name, first, last):
    """A range, or two that touch."""
    if first == last or pick.random() < 0.5:
        return [(name, first, last)]
    middle = pick.randrange(first, last)
    return [(name, first, middle), (name, middle + 1, last)]
