"""The replies to the lines of a script: written from docs/FORMATS.md and docs/SQL.md alone."""

import re
from dataclasses import dataclass, field

from answers import answer, names_where
from files import BITS, MOST_BATCHES, Schema, State, file_bytes, read_file
from query_text import KEYWORDS, Fault, read_condition, read_query
from vectors import CODINGS, ROWS

LONGEST_LINE, MOST_ROWS, MOST_MESSAGES, MOST_REPLICAS, MOST_COLUMNS = 1_048_576, 65_536, 65_536, 64, 32
GREATEST = 2**32 - 1
CELL = r"(?:NULL|-?[0-9]{1,30})"
ROW = rf"\({CELL}(?:,{CELL})*\)"
ROWS_OF = re.compile(rf"{ROW}(?:,{ROW})*")
NAME = re.compile(r"[A-Z][A-Z0-9_]{0,63}")


class BadLine(Fault):
    def __init__(self):
        super().__init__("BadLine")


def whole_number(word, digits=10, most=GREATEST):
    if not re.fullmatch(rf"[0-9]{{1,{digits}}}", word) or int(word) > most:
        raise BadLine
    return int(word)


def ordinal(word):
    return whole_number(word, 5, MOST_ROWS - 1)


def batch_name(word):
    parts = word.split(".")
    if len(parts) != 2:
        raise BadLine
    return whole_number(parts[0]), whole_number(parts[1])


def rows_of(word):
    if not ROWS_OF.fullmatch(word):
        raise BadLine
    return [tuple(None if cell == "NULL" else int(cell) for cell in row.split(",")) for row in word[1:-1].split("),(")]


def hex_bytes(word):
    if not re.fullmatch(r"(?:[0-9A-Fa-f]{2})+", word):
        raise BadLine
    return bytes.fromhex(word)


def coding(word):
    if word not in CODINGS:
        raise BadLine
    return word


def spelled(name):
    return f"{name[0]}.{name[1]}"


def check_rows(schema, rows):
    """Rows fit a schema, or it is the first row's fault."""
    if len(rows) > MOST_ROWS:
        raise Fault("BatchTooLong")
    for at, row in enumerate(rows):
        if len(row) != len(schema.columns):
            raise Fault(f"WrongArity {at}")
        for column, (cell, bits) in enumerate(zip(row, schema.bits())):
            if cell is not None and not -(1 << bits - 1) <= cell < 1 << bits - 1:
                raise Fault(f"OutOfType {at} {column}")


def check_name(name):
    if 0 in name:
        raise Fault("BadName")


@dataclass
class Replica:
    schema: Schema
    origin: int
    state: State = field(default_factory=State)

    def append(self, rows):
        check_rows(self.schema, rows)
        last = max((number for origin, number in self.state.batches if origin == self.origin), default=0)
        if last == GREATEST:
            raise Fault("NumbersSpent")
        self.room(1)
        name = self.origin, last + 1
        self.state.batches[name] = tuple(rows)
        return spelled(name)

    def room(self, count):
        if len(self.state.batches) + count > MOST_BATCHES:
            raise Fault("Full")

    def insert(self, name, rows):
        check_rows(self.schema, rows)
        check_name(name)
        held = self.state.batches.get(name)
        if held is not None:
            if held != tuple(rows):
                raise Fault(f"Conflict {spelled(name)}")
            return "already"
        self.room(1)
        self.state.batches[name] = tuple(rows)
        return "new"

    def delete(self, name, first, last):
        check_name(name)
        if last < first:
            raise Fault("BadRange 0")
        self.state.deleted.update((*name, at) for at in range(first, last + 1))

    def join(self, other):
        """Takes another state."""
        differing = [name for name, rows in other.batches.items() if self.state.batches.get(name, rows) != rows]
        if differing:
            raise Fault(f"Conflict {spelled(min(differing))}")
        self.room(len(other.batches.keys() - self.state.batches.keys()))
        self.state.batches.update(other.batches)
        self.state.deleted |= other.deleted

    def offer(self, names):
        return State({name: rows for name, rows in self.state.batches.items() if name not in names}, set(self.state.deleted))

    def open(self, data):
        schema, state = read_file(data)
        if schema != self.schema:
            raise Fault("SchemaDiffers")
        self.join(state)

    def recode(self, name, column, vector):
        rows = self.state.batches.get(name, ())
        if column >= len(self.schema.columns) or vector * ROWS >= len(rows):
            raise Fault("NoSuchVector")

    def query(self, text):
        names = self.schema.names()
        return answer(read_query(text, self.schema.table, names), self.state.live_rows(), names)

    def delete_where(self, text):
        """Deletes the rows at which a condition is true, and answers how many."""
        names = self.schema.names()
        found = names_where(read_condition(text, names), self.state.live_named(), names)
        self.state.deleted.update(found)
        return len(found)


# How the words after each command are read; `R` is a replica and `M` a message.
WORDS = {
    "append": ("R", rows_of),
    "insert": ("R", batch_name, rows_of),
    "delete": ("R", batch_name, ordinal, ordinal),
    "merge": ("R", "R"),
    "ask": ("R",),
    "serve": ("R", "M"),
    "take": ("R", "M"),
    "recode": ("R", batch_name, whole_number, whole_number, coding),
    "open": ("R", hex_bytes),
    "export": ("R",),
}
# What each message is a message of, and which command asks for which.
ASKED = {"serve": frozenset, "take": State}


class Cluster:
    """The replicas of a script and their messages. `reply` answers a line."""

    def __init__(self):
        self.replicas, self.messages = [], []

    def reply(self, line):
        try:
            return self.done(line)
        except Fault as fault:
            return f"refused {fault}"

    def done(self, line):
        if len(line) > LONGEST_LINE:
            raise Fault("LineTooLong")
        if not re.fullmatch(r"[ -~]*", line):
            raise BadLine
        command, _, rest = line.partition(" ")
        if (command == "table") == bool(self.replicas):
            raise BadLine
        if command == "table":
            return self.table(rest.split(" "))
        if command == "query":
            return self.query(rest)
        if command == "delete" and rest.startswith("where "):
            return self.delete_where(rest.removeprefix("where "))
        return self.step(command, rest.split(" "))

    def table(self, words):
        if len(words) < 4 or len(words) % 2 or "" in words:
            raise BadLine
        count = whole_number(words[0])
        if not 1 <= count <= MOST_REPLICAS or not BITS.keys() >= set(words[3::2]):
            raise BadLine
        names = [it.upper() for it in words[2::2]]
        table = words[1].upper()
        if len(names) > MOST_COLUMNS or len(set(names)) < len(names) or not all(map(is_name, [table, *names])):
            raise Fault("BadSchema")
        schema = Schema(table, tuple(zip(names, words[3::2])))
        self.replicas = [Replica(schema, at + 1) for at in range(count)]
        return "ok"

    def replica(self, number):
        if not 1 <= number <= len(self.replicas):
            raise Fault("NoSuchReplica")
        return self.replicas[number - 1]

    def query(self, rest):
        word, _, text = rest.partition(" ")
        number = whole_number(word)
        if not text:
            raise BadLine
        lines = self.replica(number).query(text)
        return "\n".join([f"ok {len(lines) - 1}", *lines])

    def delete_where(self, rest):
        word, _, text = rest.partition(" ")
        number = whole_number(word)
        if not text:
            raise BadLine
        return f"ok {self.replica(number).delete_where(text)}"

    def step(self, command, words):
        forms = WORDS.get(command)
        if forms is None or len(words) != len(forms):
            raise BadLine
        read = [(whole_number if form in ("R", "M") else form)(word) for form, word in zip(forms, words)]
        replicas = [self.replica(it) for it, form in zip(read, forms) if form == "R"]
        messages = [self.message(it, ASKED[command]) for it, form in zip(read, forms) if form == "M"]
        others = [it for it, form in zip(read, forms) if form not in ("R", "M")]
        said = getattr(self, command)(*replicas, *messages, *others)
        return "ok" if said is None else f"ok {said}"

    def message(self, number, kind):
        if not 1 <= number <= len(self.messages) or not isinstance(self.messages[number - 1], kind):
            raise Fault("NoSuchMessage")
        return self.messages[number - 1]

    def keep(self, message):
        if len(self.messages) >= MOST_MESSAGES:
            raise Fault("Full")
        self.messages.append(message)
        return len(self.messages)

    # ---- the commands
    def append(self, replica, rows):
        return replica.append(rows)

    def insert(self, replica, name, rows):
        return replica.insert(name, rows)

    def delete(self, replica, name, first, last):
        replica.delete(name, first, last)

    def merge(self, replica, other):
        replica.join(other.state)

    def ask(self, replica):
        return self.keep(frozenset(replica.state.batches))

    def serve(self, replica, summary):
        return self.keep(replica.offer(summary))

    def take(self, replica, offer):
        replica.join(offer)

    def recode(self, replica, name, column, vector, _coding):
        replica.recode(name, column, vector)

    def open(self, replica, data):
        replica.open(data)

    def export(self, replica):
        return file_bytes(replica.schema, replica.state).hex()


def is_name(word):
    return NAME.fullmatch(word) is not None and word not in KEYWORDS


def replies(lines):
    """The replies to a script's lines."""
    cluster = Cluster()
    return [cluster.reply(line) for line in lines if line]
