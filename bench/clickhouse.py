#!/usr/bin/env python3
"""Times lanes and ClickHouse on one table and prints a table as docs/COMPARISON.md has it: what both cost to load and to keep, and each of
the twelve queries of queries.py. If there is no clickhouse-server it says so, and ends.

    python3 bench/clickhouse.py [--program PROGRAM] [--rows N] [--runs N] [--room FOLDER]

The rows are those of queries.py, 6,400,000 if not said. ClickHouse is a server of its own on the loopback, with one thread for a query
and a MergeTree in order of SITE and DAY, which is merged to one part after the load. Milliseconds are those of a processor, user and
system together: of lanes the answer when the file is open, as sqlite.py has it, and of ClickHouse what the server takes for an answer,
by the number of queries of one call of the client. Each is the least of N runs, 5 if not said, the two in turns. The load counts the client too. The
answers are compared. In a folder that is named the rows are kept for the next time.
"""
import os, pathlib, re, shutil, socket, subprocess, sys, tempfile, time

sys.path.insert(0, os.path.dirname(os.path.abspath(__file__)))
import queries, sqlite

TYPES = {"SMALLINT": "Int16", "INTEGER": "Int32", "BIGINT": "Int64"}
TICK = os.sysconf("SC_CLK_TCK")
CONFIG = """<yandex>
    <logger><level>error</level><log>{room}/log</log><errorlog>{room}/errors</errorlog></logger>
    <tcp_port>{port}</tcp_port><listen_host>127.0.0.1</listen_host>
    <path>{room}/data/</path><tmp_path>{room}/tmp/</tmp_path>
    <users_config>{room}/users.xml</users_config><default_profile>default</default_profile><default_database>default</default_database>
    <mark_cache_size>5368709120</mark_cache_size>
</yandex>
"""
USERS = """<yandex>
    <profiles><default><max_threads>1</max_threads></default></profiles>
    <users><default><password></password><networks><ip>127.0.0.1</ip></networks><profile>default</profile><quota>default</quota></default></users>
    <quotas><default/></quotas>
</yandex>
"""


def columns():
    """The columns as ClickHouse declares them; ERRORS alone has nulls."""
    words = queries.COLUMNS.split()
    types = {name: TYPES[kind] for name, kind in zip(words[::2], words[1::2])}
    return ", ".join(f"{name} {f'Nullable({kind})' if name == 'ERRORS' else kind}" for name, kind in types.items())


class Server:
    """A server of ClickHouse in a folder of its own."""

    def __init__(self, room):
        with socket.socket() as free:
            free.bind(("127.0.0.1", 0))
            self.port = free.getsockname()[1]
        (room / "data").mkdir()
        (room / "config.xml").write_text(CONFIG.format(room=room, port=self.port))
        (room / "users.xml").write_text(USERS)
        self.process = subprocess.Popen(["clickhouse-server", f"--config-file={room / 'config.xml'}"], cwd=room, stdout=subprocess.DEVNULL, stderr=subprocess.DEVNULL)

    def client(self, *words):
        return ["clickhouse-client", "--host", "127.0.0.1", "--port", str(self.port), *words]

    def wait(self):
        """Waits until it answers."""
        for _ in range(300):
            if subprocess.run(self.client("--query", "SELECT 1"), capture_output=True).returncode == 0:
                return
            time.sleep(0.2)
        raise SystemExit("clickhouse-server does not answer")

    def said(self, text):
        return subprocess.run(self.client("--query", text), stdout=subprocess.PIPE, text=True, check=True).stdout

    def seconds(self):
        """The processor seconds that the server has taken."""
        fields = pathlib.Path(f"/proc/{self.process.pid}/stat").read_text().rsplit(")", 1)[1].split()
        return (int(fields[11]) + int(fields[12])) / TICK

    def taken(self, words, **how):
        """The processor seconds that the server takes for a call of the client."""
        before = self.seconds()
        subprocess.run(words, stdout=subprocess.DEVNULL, check=True, **how)
        return self.seconds() - before

    def many(self, query, times):
        """The processor seconds of so many answers in one call."""
        return self.taken(self.client("--multiquery", "--query", f"{query};" * times))

    def times(self, query):
        """How many answers take half a second, at most 1,024."""
        times = 1
        while times < 1_024 and self.many(query, times) < 0.5:
            times *= 2
        return times


def loaded(server, csv):
    """Loads the rows, and gives the seconds of the server and of the client."""
    server.said(f"CREATE TABLE T ({columns()}) ENGINE = MergeTree ORDER BY (SITE, DAY)")
    before = os.times()
    with open(csv) as rows:
        taken = server.taken(server.client("--query", "INSERT INTO T FORMAT CSVWithNames"), stdin=rows)
    after = os.times()
    merging = server.taken(server.client("--query", "OPTIMIZE TABLE T FINAL"))
    return taken + merging + after.children_user - before.children_user + after.children_system - before.children_system


def print_table(server, program, room, rows, runs):
    csv, file, marked = room / "T.csv", room / "T.lanes", room / "marked.csv"
    if not csv.exists():
        sqlite.write_rows(csv, rows)
    if not marked.exists():
        marked.write_text(re.sub(r",(?=,)", r",\\N", csv.read_text()))
    file.unlink(missing_ok=True)
    sqlite.used([program, "create", file, "T", *queries.COLUMNS.split()])
    ours, theirs = sqlite.used([program, "import", file, csv])[0], loaded(server, marked)
    stored = int(server.said("SELECT sum(bytes_on_disk) FROM system.parts WHERE active AND table = 'T'"))
    print(f"{rows:,} rows, ClickHouse {server.said('SELECT version()').strip()}\n\n| What | lanes | ClickHouse |\n|---|---:|---:|")
    print(f"| size | {sqlite.megabytes(file)} | {stored / 1e6:.1f} MB |\n| load of all rows from CSV | {ours:.1f} s | {theirs:.1f} s |", flush=True)
    for name, query in queries.QUERIES:
        mine, other = [], []
        our_times, their_times = sqlite.times_of(program, file, query), server.times(query)
        for _ in range(runs):
            mine.append(sqlite.answer_of(program, file, query, our_times, 1))
            other.append(1e3 * server.many(query, their_times) / their_times)
        same = sqlite.same(sqlite.used([program, "query", file, query])[1].split("\n", 1)[1], server.said(f"{query} FORMAT CSV").replace("\\N", "NULL"))
        print(f"| {name}, `{query}` | {min(mine):.1f} ms | {min(other):.1f} ms |{'' if same else ' ANSWERS DIFFER'}", flush=True)


def main():
    given = queries.options_of("Times lanes and ClickHouse on one table.", rows=6_400_000, runs=5)
    given.add_argument("--room")
    given = given.parse_args()
    if not shutil.which("clickhouse-server"):
        print("there is no clickhouse-server, so nothing is measured (Debian: clickhouse-server, clickhouse-client)")
        return
    with tempfile.TemporaryDirectory(prefix="lanes-") as room:
        server = Server(pathlib.Path(room))
        try:
            server.wait()
            print_table(server, os.path.abspath(given.program), pathlib.Path(given.room or room), given.rows, given.runs)
        finally:
            server.process.terminate()
            server.process.wait()


if __name__ == "__main__":
    sys.exit(main())
