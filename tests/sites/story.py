"""A story of three sites: what each does next, by chance, and what its file holds then."""

import os
import random
import subprocess

from files import Schema, State, file_bytes

SITES = ("a.lanes", "b.lanes", "c.lanes")
COLUMNS = (("SITE", "SMALLINT"), ("DAY", "INTEGER"), ("HITS", "BIGINT"))
SCHEMA = Schema("VISITS", COLUMNS)
QUERIES = (
    "SELECT COUNT(*),SUM(HITS),MIN(DAY),MAX(DAY),COUNT(DISTINCT SITE) FROM VISITS",
    "SELECT SITE,COUNT(*),AVG(HITS) FROM VISITS GROUP BY SITE HAVING COUNT(*) > 1",
    "SELECT DAY,SUM(HITS) FROM VISITS WHERE HITS IS NOT NULL AND SITE <> 2 GROUP BY DAY",
)
# Conditions, and whether each is true of a row.
CONDITIONS = (
    ("SITE = 1", lambda row: row[0] == 1),
    ("HITS IS NULL", lambda row: row[2] is None),
    ("NOT (DAY > 3)", lambda row: row[1] is not None and row[1] <= 3),
    ("site between 2 and 3 and day in (1,2)", lambda row: row[0] in (2, 3) and row[1] in (1, 2)),
    ("HITS = -1 OR SITE IS NULL", lambda row: row[2] == -1 or row[0] is None),
)


class Story:
    ACTS = ("load", "load", "load_drawn", "load_again", "delete", "delete_rows", "pull", "pull", "merge", "apply_file", "late_offer")

    def __init__(self, program, room, number):
        self.program, self.room, self.pick = program, room, random.Random(number)
        self.states = {site: State() for site in SITES}
        # Loads that were made: the first name, the rows, and the text, so that they come again.
        self.loads = []
        # Messages that were kept: the site that asked, an offer's bytes, what the site had then, and what the other one had.
        self.kept = []

    def tell(self, steps):
        self.begin()
        for _ in range(steps):
            self.step()
        self.take_all()
        self.agree()

    def begin(self):
        for site in SITES:
            self.run("create", site, "visits", *(word for column in COLUMNS for word in column), prints=b"ok\n")

    def step(self):
        """What one site does, which is the answer."""
        act, site = getattr(self, self.pick.choice(self.ACTS)), self.pick.choice(SITES)
        act(site)
        self.compare(site)
        return site

    def take_all(self):
        """Each site pulls from each other, until all have the same."""
        for _ in range(2):
            for site in SITES:
                for other in SITES:
                    self.take(site, other)

    def run(self, *words, given=b"", prints=None):
        """What a command writes; it has to end well."""
        done = subprocess.run([self.program, *words], input=given, cwd=self.room, capture_output=True, timeout=60)
        assert done.returncode == 0, f"{words} ended with {done.returncode}: {done.stderr[-300:]!r}"
        assert prints is None or done.stdout == prints, f"{words} wrote {done.stdout[-300:]!r}, not {prints!r}"
        return done.stdout

    def path(self, site):
        return os.path.join(self.room, site)

    def bytes_of(self, site):
        with open(self.path(site), "rb") as file:
            return file.read()

    def compare(self, site):
        assert self.bytes_of(site) == file_bytes(SCHEMA, self.states[site]), f"{site} isn't the file of what it took"
        assert sorted(os.listdir(self.room)) == sorted(SITES), f"the folder has {os.listdir(self.room)}"

    def rows(self):
        def cell(numbers):
            return None if self.pick.random() < 0.1 else self.pick.choice(numbers)

        count = self.pick.choice((1, 3, 40, 1_100))
        return tuple((cell((1, 2, 3)), cell(range(1, 6)), cell((-1, 0, 7, 2**40, -(2**63)))) for _ in range(count))

    def text_of(self, rows):
        """The rows as a text, with a header in any order, in a form that other programs write."""
        order = self.pick.sample(range(3), 3)
        end = self.pick.choice(("\n", "\r\n"))
        null = self.pick.choice(("", "NULL", "\\N"))
        quote = self.pick.choice(("", '"'))

        def field(value):
            return null if value is None else f"{quote}{value}{quote}"

        lines = [",".join(self.pick.choice((str.upper, str.lower))(COLUMNS[at][0]) for at in order)]
        lines += [",".join(field(row[at]) for at in order) for row in rows]
        mark = self.pick.choice(("", "\ufeff"))
        return (mark + end.join(lines) + self.pick.choice(("", end))).encode()

    def add(self, site, name, rows):
        self.states[site].batches[name] = rows

    def load(self, site):
        """A load under a name that no site has."""
        name, rows = (self.pick.randint(1, 3), len(self.loads) + 1), self.rows()
        text = self.text_of(rows)
        self.loads.append((name, rows, text))
        self.import_text(site, name, rows, text)

    def load_again(self, site):
        """A load that was made before, here or elsewhere."""
        if self.loads:
            self.import_text(site, *self.pick.choice(self.loads))

    def import_text(self, site, name, rows, text):
        new = 0 if name in self.states[site].batches else 1
        spelled = f"{name[0]}.{name[1]}"
        self.run("import", "--batch", spelled, site, "-", given=text, prints=f"ok batches=1 new={new} rows={len(rows)} first={spelled}\n".encode())
        self.add(site, name, rows)

    def load_drawn(self, site):
        """A load under a name that is drawn."""
        rows = self.rows()
        wrote = self.run("import", site, "-", given=self.text_of(rows))
        head = f"ok batches=1 new=1 rows={len(rows)} first=".encode()
        assert wrote.startswith(head) and wrote.endswith(b"\n"), f"the import wrote {wrote!r}"
        origin, number = wrote[len(head) : -1].split(b".")
        name = (int(origin), int(number))
        assert 1 <= name[0] < 2**32 and 1 <= name[1] <= 2**31 and name not in self.states[site].batches, f"the name drawn is {name}"
        self.add(site, name, rows)

    def delete(self, site):
        state = self.states[site]
        condition, holds = self.pick.choice(CONDITIONS)
        found = [(*name, at) for name, rows in state.batches.items() for at, row in enumerate(rows) if (*name, at) not in state.deleted and holds(row)]
        self.run("delete", site, condition, prints=f"ok {len(found)}\n".encode())
        state.deleted.update(found)

    def delete_rows(self, site):
        """Rows that are there, or come later, or never."""
        origin, number, first = self.pick.randint(1, 3), self.pick.randint(1, len(self.loads) + 2), self.pick.randint(0, 1_200)
        last = first + self.pick.choice((0, 1, 200))
        self.run("delete-rows", site, f"{origin}.{number}", str(first), str(last), prints=b"ok\n")
        self.states[site].deleted.update((origin, number, at) for at in range(first, last + 1))

    def join(self, site, other):
        state = self.states[site]
        state.batches.update(other.batches)
        state.deleted.update(other.deleted)

    def take(self, site, other):
        """A pull: a summary, an offer for it, and its application, each to the next one through a pipe."""
        command = f'"$LANES" summary {site} | "$LANES" offer {other} - | "$LANES" apply {site} -'
        done = subprocess.run(["bash", "-o", "pipefail", "-c", command], cwd=self.room, env={**os.environ, "LANES": self.program}, capture_output=True, timeout=60)
        had = len(self.states[site].batches)
        self.join(site, self.states[other])
        has, ranges = len(self.states[site].batches), len(self.states[site].ranges())
        wanted = f"ok batches={has} ranges={ranges} new={has - had}\n".encode()
        assert done.returncode == 0 and done.stdout == wanted, f"the pull of {site} from {other} wrote {done.stdout!r} and {done.stderr!r}, not {wanted!r}"

    def pull(self, site):
        other = self.pick.choice(SITES)
        if self.pick.random() < 0.3:
            offer = self.run("offer", other, "-", given=self.run("summary", site))
            self.kept.append((site, offer, State(dict(self.states[site].batches), set()), State(dict(self.states[other].batches), set(self.states[other].deleted))))
        self.take(site, other)

    def kept_for(self, site):
        """The offers that the site may take: all of them, since no site forgets what its summary listed."""
        return self.kept

    def late_offer(self, site):
        """An offer that was kept, maybe for another site: it brings the batches that its summary lacked, and all deletions."""
        kept = self.kept_for(site)
        if not kept:
            return
        _, offer, asked, served = self.pick.choice(kept)
        self.run("apply", site, "-", given=offer)
        brought = {name: rows for name, rows in served.batches.items() if name not in asked.batches}
        self.join(site, State(brought, served.deleted))

    def merge(self, site):
        """A merge in place, with another file or two."""
        others = self.pick.sample(SITES, self.pick.randint(1, 2))
        self.run("merge", site, site, *others, prints=b"ok\n")
        for other in others:
            self.join(site, self.states[other])

    def apply_file(self, site):
        """A file is an offer of all that it holds."""
        others = self.pick.sample(SITES, self.pick.randint(1, 2))
        self.run("apply", site, *others)
        for other in others:
            self.join(site, self.states[other])

    def agree(self):
        files = {self.bytes_of(site) for site in SITES}
        assert len(files) == 1, "the sites took the same, and have different files"
        for query in QUERIES:
            answers = {self.run("query", site, query) for site in SITES}
            assert len(answers) == 1, f"the sites answer {query} differently"
        state = self.states[SITES[0]]
        for site in SITES:
            self.compare(site)
            self.run("check", site, prints=f"ok batches={len(state.batches)} ranges={len(state.ranges())}\n".encode())
        live = ["SITE,DAY,HITS"] + [",".join("" if value is None else str(value) for value in row) for row in state.live_rows()]
        self.run("dump", SITES[0], prints="".join(f"{line}\n" for line in live).encode())
