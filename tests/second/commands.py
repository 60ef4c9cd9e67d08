"""Commands on a file at random, the same for the same number, and what the second program says of each."""

import os
import random
import subprocess

from files import BITS, Schema, State, file_bytes
from answers import names_where, table_of
from query_text import Fault, read_condition, read_query
from scripts import NAMES, Maker
from texts import MARK, batches_as_json, batches_listed, dumped, in_form, inspected, inspected_as_json, read_rows

STRAY = ["+5", "1.0", "1e3", " 5", "5 ", "null", '""', '"5', '5"', "--1", "-", "9" * 31, '"1"2', "\\n", "x", "7\t", "\u00e9", '"NULL', "\\N\\N", "0x1"]
# Words for a null: with quotes of their own, of hyphens, of digits that are too many, and nothing at all.
WORDS = ["NA", '"5"', '"NA"', "--", "-", "", "9" * 31, "5 ", '"', '""', "+5"]
FORMS = ("text", "csv", "json", "table")
STEPS = 12


class Site(Maker):
    """A file and the second program's state of it. Its queries and conditions are those of scripts."""

    def __init__(self, program, room, number):
        super().__init__(number)
        self.program, self.room, self.state = program, room, State()
        columns = tuple((name.upper(), self.pick.choice(list(BITS))) for name in self.pick.sample(NAMES, self.pick.choice([1, 1, 2, 3, 4])))
        self.schema, self.loads = Schema("T", columns), []

    def tell(self):
        """The first command that the program answers otherwise, or None."""
        words = [word for name, kind in self.schema.columns for word in (name.lower(), kind.lower())]
        steps = [self.load] * 5 + [self.load_again, self.delete, self.delete, self.delete_rows, self.delete_rows, self.forget, self.merge_over] + [self.read_out] * 2 + [self.dump_some] * 2 + [self.ask] * 5
        if self.said("create", "t", "t", *words) != (0, b"ok\n", b""):
            return "create"
        for step in self.pick.choices(steps, k=STEPS):
            found = step()
            if found is not None:
                return found
            with open(os.path.join(self.room, "t"), "rb") as file:
                if file.read() != file_bytes(self.schema, self.state):
                    return f"{step.__name__}: the file isn't that of its rows and deletions"
        return None

    def said(self, *words, given=b""):
        """Status, standard output and the first line of standard error of a command."""
        done = subprocess.run([self.program, *words], input=given, cwd=self.room, capture_output=True, timeout=60)
        return done.returncode, done.stdout, done.stderr.split(b"\n")[0]

    def compared(self, words, wanted, given=b"", note=""):
        """None where a command answers as it has to: a text, with a note on standard error if there is one to say, or a refusal."""
        wanted = (1, b"", f"refused {wanted}".encode()) if isinstance(wanted, Fault) else (0, wanted.encode(), note.encode())
        found = self.said(*words, given=given)
        return None if found == wanted else f"{words} {given[:300]!r}\n  second {str(wanted)[:400]}\n  program {str(found)[:400]}"

    # ---- loads
    def field(self, bits, word=None):
        if self.pick.random() < 0.01:
            return self.pick.choice(STRAY)
        if word is not None and self.pick.random() < 0.2:
            return self.pick.choice(["{}", '"{}"']).format(word)
        top = 1 << bits - 1
        value = self.cell(bits) if self.pick.random() < 0.99 else self.pick.choice([top, -top - 1])
        if value is None:
            return self.pick.choice(["", "", "NULL", "\\N", '"NULL"', '"\\N"'])
        digits = self.pick.choice(["", "", "00"]) + str(abs(value))
        return self.pick.choice(["{}", "{}", '"{}"']).format(("-" if value < 0 else "") + digits)

    def line(self, order, word):
        if self.pick.random() < 0.05:
            return ""
        fields = [self.field(BITS[self.schema.columns[place][1]], word) for place in order]
        if self.pick.random() < 0.01:
            fields = self.pick.choice([fields[1:], fields + ["1"]])
        return ",".join(fields)

    def header(self, order):
        names = [self.schema.columns[place][0] for place in order]
        if self.pick.random() < 0.05:
            names[self.pick.randrange(len(names))] = self.pick.choice([names[0], "NOPE", "", '"A'])
        if self.pick.random() < 0.03:
            names.append("A")
        return ",".join(self.pick.choice(["{}", '"{}"']).format(self.pick.choice([name, name.lower()])) for name in names)

    def text(self, has_header, word):
        order = list(range(len(self.schema.columns)))
        if has_header:
            self.pick.shuffle(order)
        lines = [self.header(order)] * has_header + [self.line(order, word) for _ in range(self.pick.choice([0, 1, 2, 5, 20]))]
        ends = [self.pick.choice(["\n", "\n", "\r\n"]) for _ in lines]
        text = "".join(line + end for line, end in zip(lines, ends))
        if self.pick.random() < 0.3:
            text = text.removesuffix(ends[-1]) if lines else text
        return (MARK if self.pick.random() < 0.1 else b"") + text.encode()

    def load(self):
        has_header = self.pick.random() < 0.6
        word = self.pick.choice(WORDS) if self.pick.random() < 0.2 else None
        given = self.text(has_header, word)
        self.loads.append((self.some_load_name(), has_header, word, given))
        return self.imported(*self.loads[-1])

    def load_again(self):
        return self.imported(*self.pick.choice(self.loads)) if self.loads else None

    def some_load_name(self):
        return self.pick.choice([(0, 1), (1, 0), *[(1, at) for at in range(1, 6)], *[(2**32 - 1, 2**32 - 1)], (7, len(self.loads) + 1)])

    def imported(self, name, has_header, word, given):
        words = ["import", "--batch", f"{name[0]}.{name[1]}", *["--no-header"] * (not has_header), *["--null", word][: 2 * (word is not None)], "t", "-"]
        note = ""
        try:
            rows = read_rows(given, self.schema, has_header, None if word is None else word.encode())
            wanted, note = self.taken(name, rows), self.note_on(name, len(rows))
        except Fault as fault:
            wanted = fault
        return self.compared(words, wanted, given, note)

    def note_on(self, name, count):
        """What is said if some of so many rows of a batch are deleted already."""
        deleted = sum((*name, at) in self.state.deleted for at in range(count))
        are = "is deleted already: it is not live" if deleted == 1 else "are deleted already: they are not live"
        return f"note: {deleted} of the {count} rows {are}" if deleted else ""

    def taken(self, name, rows):
        if not rows:
            return "ok batches=0 new=0 rows=0\n"
        if 0 in name:
            raise Fault("BadName")
        new = int(name not in self.state.batches)
        if self.state.batches.setdefault(name, tuple(rows)) != tuple(rows):
            raise Fault(f"Conflict {name[0]}.{name[1]}")
        return f"ok batches=1 new={new} rows={len(rows)} first={name[0]}.{name[1]}\n"

    # ---- deletions
    def delete(self):
        text = self.text_of(self.changed(self.condition(2, self.row_operand)))
        names = self.schema.names()
        try:
            found = names_where(read_condition(text, names), self.state.live_named(), names)
            self.state.deleted.update(found)
            wanted = f"ok {len(found)}\n"
        except Fault as fault:
            wanted = fault
        return self.compared(["delete", "t", text], wanted)

    def delete_rows(self):
        origin, number = self.pick.choice([(0, 1), (1, 0), (1, 1), (1, 2), (7, 1), (9, 9)])
        first = self.pick.choice([0, 1, 3, 65_535])
        last = self.pick.choice([first, first, 2, 7])
        is_held = self.pick.random() < 0.4
        has_batch = (origin, number) in self.state.batches
        wanted = f"ok held={int(has_batch)}\n" if is_held else "ok\n"
        if 0 in (origin, number):
            wanted = Fault("BadName")
        elif last < first:
            wanted = Fault("BadRange 0")
        elif has_batch or not is_held:
            self.state.deleted.update((origin, number, at) for at in range(first, last + 1))
        return self.compared(["delete-rows", *["--held"] * is_held, "t", f"{origin}.{number}", str(first), str(last)], wanted)

    def forget(self):
        batches, rows = self.state.forget()
        return self.compared(["forget", "t"], f"ok batches={batches} rows={rows}\n")

    # ---- merges
    def near(self):
        """A state near the file's: it may lack batches and deletions, have others, or have other rows under a name."""
        batches = {name: rows for name, rows in self.state.batches.items() if self.pick.random() < 0.8}
        deleted = {row for row in self.state.deleted if self.pick.random() < 0.95}
        if self.pick.random() < 0.15:
            batches[8, 8] = ((None,) * len(self.schema.columns),)
        if batches and self.pick.random() < 0.15:
            name = self.pick.choice(sorted(batches))
            batches[name] = batches[name] + batches[name][:1]
        if self.pick.random() < 0.15:
            deleted.add((9, 9, 99))
        return State(batches, deleted)

    def is_covered(self, near):
        """Whether the file has all that a state holds."""
        return all(self.state.batches.get(name) == rows for name, rows in near.batches.items()) and near.deleted <= self.state.deleted

    def merge_over(self):
        """A merge of the file into one that is there: an empty one, one that is near it, one of another table, or a text."""
        near, path = self.near(), os.path.join(self.room, "o")
        before, is_lost = self.pick.choice([(b"", False), (b"A,B\n1,2\n", True), (file_bytes(Schema("OTHER", self.schema.columns), near), True), *[(file_bytes(self.schema, near), not self.is_covered(near))] * 5])
        is_replacing = self.pick.random() < 0.2
        with open(path, "wb") as file:
            file.write(before)
        is_kept = is_lost and not is_replacing
        found = self.compared(["merge", *["--replace"] * is_replacing, "o", "t"], Fault("Exists") if is_kept else "ok\n")
        with open(path, "rb") as file:
            if found is None and file.read() != (before if is_kept else file_bytes(self.schema, self.state)):
                return f"merge over {before[:300]!r}: OUT is another file"
        return found

    # ---- what is read out
    def read_out(self):
        has_names, has_digests = self.pick.random() < 0.5, self.pick.random() < 0.5
        listed = ["inspect", "--batches", *["--digest"] * has_digests]
        return (
            self.compared(["dump", *["--names"] * has_names, "t"], dumped(self.schema, self.state, has_names))
            or self.compared(["inspect", "t"], inspected(self.schema, self.state))
            or self.compared(["inspect", "--format", "json", "t"], inspected_as_json(self.schema, self.state))
            or self.compared([*listed, "t"], batches_listed(self.schema, self.state, has_digests))
            or self.compared([*listed, "--format", "json", "t"], batches_as_json(self.schema, self.state, has_digests))
        )

    def dump_some(self):
        text, names = self.text_of(self.changed(self.condition(2, self.row_operand))), self.schema.names()
        columns = self.pick.choices(names, k=self.pick.choice([1, 1, 2, 3]))
        if self.pick.random() < 0.1:
            columns[self.pick.randrange(len(columns))] = self.pick.choice(["--", "--X", "-", "NOPE"])
        try:
            wanted = self.some_dumped(text, columns)
        except Fault as fault:
            wanted = fault
        return self.compared(["dump", "--where", text, "--columns", ",".join(columns).lower(), "t"], wanted)

    def some_dumped(self, text, columns):
        """What a dump writes. The faults of a condition's text come before a column that isn't there, and its own columns after that."""
        names = self.schema.names()
        lacking = [len(",".join([*columns[:at], ""])) for at, name in enumerate(columns) if name not in names]
        try:
            kept = set(names_where(read_condition(text, names), self.state.live_named(), names)) if text else None
        except Fault as fault:
            if not lacking or not str(fault).startswith("NoSuchColumn"):
                raise
        if lacking:
            raise Fault(f"NoSuchColumn {lacking[0]}")
        return dumped(self.schema, self.state, False, columns, kept)

    def ask(self):
        text = self.query().removeprefix("query  ")
        form, names = self.pick.choice(FORMS), self.schema.names()
        try:
            wanted = in_form(form, *table_of(read_query(text, "T", names), self.state.live_rows(), names))
        except Fault as fault:
            wanted = fault
        return self.compared(["query", "--format", form, "t", text], wanted)

    def replica(self):
        return ""

