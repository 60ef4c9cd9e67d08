"""The lines for Dask of docs/MANY-MACHINES.md, on a cluster of four processes, each in a folder of its own. Each machine is killed while it
is asked, a folder is damaged or emptied, and machines are stopped for good. It is measured that all is over within twice the timeout. Then
the scheduler is stopped at each moment, and it is measured that the program ends."""

import contextlib
import io
import json
import logging
import os
import pathlib
import signal
import subprocess
import sys
import threading
import time

import lanes
from distributed import Client, Nanny, Scheduler, SpecCluster

#: The months that the shard of each machine has.
MONTHS = {"one": range(1, 5), "two": [5, 6, 7, 8, 13], "three": range(9, 13)}
#: What each worker does first. If there is a file `waits`, the next read of its folder does not end.
PRELOAD = """
import lanes, os, time
os.chdir({folder!r})
def slow_read(folder, read=lanes.Folder.read):
    if os.path.exists("waits"):
        os.rename("waits", "asked")
        time.sleep(600)
    return read(folder)
lanes.Folder.read = slow_read
"""
#: How long the page waits for a machine, and a test here.
PAGE_WAITS, SECONDS = "TIMEOUT = 60\n", 5
#: What the page's program does when the scheduler is stopped: before or after which call of Dask. PID is the scheduler.
STOPPING = """
import os, signal
from distributed import Client, Future
def stop_at(kind, name):
    call = getattr(kind, name)
    def stopping(*words, **named):
        if MOMENT == f"before {name}":
            os.kill(PID, signal.SIGSTOP)
        try:
            return call(*words, **named)
        finally:
            if MOMENT == f"after {name}":
                os.kill(PID, signal.SIGSTOP)
    setattr(kind, name, stopping)
for kind, name in [(Client, "__init__"), (Client, "run_on_scheduler"), (Client, "submit"), (Future, "result"), (Client, "close")]:
    stop_at(kind, name)
"""
MOMENTS = ["before __init__", "after __init__", "after run_on_scheduler", "after submit", "before result", "before close"]


def shards(room):
    """Makes the folder of each machine as the page has them before it asks, with a replica of the first shard in `spare`."""
    for machine, months in MONTHS.items():
        (room / machine).mkdir()
        folder = lanes.Folder.create(room / machine / "visits", "VISITS", {"MONTH": "TINYINT", "SITE": "SMALLINT", "HITS": "INTEGER"})
        for month in months:
            folder.import_csv(f"{month},1,{month * 10}\n{month},2,{month * 7}\n", heading=False, batch=(1, month))
        folder.delete("MONTH = 3")
    lanes.Folder(room / "three" / "visits").delete_rows((1, 12), 0)
    (room / "spare").mkdir()
    lanes.Folder.of(room / "spare" / "visits", lanes.Folder(room / "one" / "visits").read())


def cluster_of(room):
    """A scheduler and a worker for each machine, which is a process in the folder of the machine."""
    options = {"nthreads": 1, "host": "127.0.0.1", "dashboard": False, "local_directory": os.fspath(room)}
    workers = {machine: {"cls": Nanny, "options": {**options, "preload": [PRELOAD.format(folder=os.fspath(room / machine))]}} for machine in [*MONTHS, "spare"]}
    scheduler = {"cls": Scheduler, "options": {"host": "127.0.0.1", "port": 0, "dashboard": False}}
    return SpecCluster(workers=workers, scheduler=scheduler, silence_logs=logging.CRITICAL)


def process_of(cluster, machine):
    """The process of a machine's worker."""
    with Client(cluster.scheduler_address) as client:
        return client.submit(os.getpid, workers=machine, pure=False).result(timeout=60)


def killed_when_asked(cluster, room, machine):
    """Kills a machine's worker once it is asked. Nothing is waited for; what is returned is the thread that does it."""
    process = process_of(cluster, machine)
    (room / machine / "waits").touch()

    def kill():
        end = time.monotonic() + 60
        while not (room / machine / "asked").exists() and time.monotonic() < end:
            time.sleep(0.05)
        os.kill(process, signal.SIGKILL)

    thread = threading.Thread(target=kill)
    thread.start()
    return thread


def printed(cluster, text, seconds=60):
    """What the page's lines print on this cluster. They may take twice the timeout, and a second to begin and to end."""
    out, begun = io.StringIO(), time.monotonic()
    try:
        with contextlib.redirect_stdout(out):
            exec(text.replace("tcp://HOST:8786", cluster.scheduler_address).replace(PAGE_WAITS, f"TIMEOUT = {seconds}\n"), {"__name__": "__main__"})
    finally:
        took = time.monotonic() - begun
        assert took < 2 * seconds + 1, f"it took {took:.1f} s with a timeout of {seconds} s"
    return out.getvalue()


def refused(cluster, text, seconds=SECONDS):
    """What the page's lines are refused with."""
    try:
        return f"nothing is refused: {printed(cluster, text, seconds)}"
    except SystemExit as ended:
        return ended.code


def the_page_asks_four_machines(room, text, wanted):
    """The page prints what it shows: with all machines, and with one that is killed while it is asked, or that does not answer and has a
    spare. A machine without a spare that does not answer is named."""
    room = pathlib.Path(room)
    shards(room)
    os.chdir(room)
    assert "tcp://HOST:8786" in text and text.count(PAGE_WAITS) == 1 and ", pure=False" in text, text
    with cluster_of(room) as cluster:
        assert printed(cluster, text) == wanted
        for machine in MONTHS:
            a_machine_is_killed_when_it_is_asked(cluster, room, text, wanted, machine)
        if not_apart := refused_without_pure(cluster, text):
            raise AssertionError(not_apart)
        a_damaged_folder_is_told(cluster, room, text, wanted)
        an_emptied_machine_is_missing(cluster, room, text, wanted)
        with stopped(cluster, "one"):
            begun = time.monotonic()
            assert printed(cluster, text, SECONDS) == wanted
            assert time.monotonic() - begun >= SECONDS, "the machine was not waited for"
            a_spare_without_the_last_batch_is_missing(cluster, room, text)
            with stopped(cluster, "spare"):
                assert refused(cluster, text) == "one: no answer"
            with stopped(cluster, "two"), stopped(cluster, "three"):
                assert refused(cluster, text) == "two: no answer\nthree: no answer"
    a_scheduler_that_is_stopped_is_not_waited_for(room, text, wanted)


def a_machine_is_killed_when_it_is_asked(cluster, room, text, wanted, machine):
    """Dask starts it again, and the page's lines ask it again, long before the timeout. Nobody else is asked: two of the machines have no spare."""
    killing, begun = killed_when_asked(cluster, room, machine), time.monotonic()
    assert printed(cluster, text) == wanted, machine
    killing.join()
    assert (room / machine / "asked").exists(), f"{machine} was not killed"
    assert time.monotonic() - begun < 30, f"{machine} was not asked again at once"


def a_damaged_folder_is_told(cluster, room, text, wanted):
    """If a machine can't answer, its spare is asked at once. Without one the machine is named, with the refusal."""
    with damaged(room / "one" / "visits"):
        assert printed(cluster, text) == wanted
    with damaged(room / "two" / "visits"):
        said = refused(cluster, text, 60)
    assert said.startswith("two: ") and "its bytes are not those of its name" in said, said


def an_emptied_machine_is_missing(cluster, room, text, wanted):
    """It answers, and its own summary names nothing. The one that was kept at the last answer does."""
    visits = room / "two" / "visits"
    visits.rename(room / "kept")
    lanes.Folder.create(visits, "VISITS", {"MONTH": "TINYINT", "SITE": "SMALLINT", "HITS": "INTEGER"})
    missing_is_told(cluster, text, (1, 5))
    for left in visits.iterdir():
        left.unlink()
    visits.rmdir()
    (room / "kept").rename(visits)
    assert printed(cluster, text) == wanted


@contextlib.contextmanager
def damaged(folder):
    """A folder of which a part has one byte more."""
    part = min(folder.glob("*.lanes"))
    whole = part.read_bytes()
    part.write_bytes(whole + b"x")
    try:
        yield
    finally:
        part.write_bytes(whole)


@contextlib.contextmanager
def stopped(cluster, machine):
    """A machine that is there and does not answer."""
    process = process_of(cluster, machine)
    os.kill(process, signal.SIGSTOP)
    try:
        yield
    finally:
        os.kill(process, signal.SIGCONT)


def a_spare_without_the_last_batch_is_missing(cluster, room, text):
    """The machine has answered with that batch once."""
    lanes.Folder(room / "one" / "visits").import_csv("2,1,1\n", heading=False, batch=(1, 20))
    (room / "one.before").write_bytes(lanes.Folder(room / "one" / "visits").summary())
    missing_is_told(cluster, text, (1, 20))


def missing_is_told(cluster, text, batch):
    try:
        raise AssertionError(f"nothing is refused: {printed(cluster, text, SECONDS)}")
    except lanes.Refused as refused:
        assert refused.name == "Missing" and refused.place == batch, refused


@contextlib.contextmanager
def processes(room):
    """A scheduler and a worker for each machine without a spare, as processes. It gives the scheduler's address and process."""
    def start(what, *words, folder=room):
        return subprocess.Popen([sys.executable, "-m", f"distributed.cli.dask_{what}", "--scheduler-file", room / "scheduler", "--no-dashboard", *words], cwd=folder, stdout=subprocess.DEVNULL, stderr=subprocess.DEVNULL)

    started = [start("scheduler", "--host", "127.0.0.1", "--port", "0")]
    try:
        started += [start("worker", "--no-nanny", "--nthreads", "1", "--host", "127.0.0.1", "--name", machine, folder=room / machine) for machine in MONTHS]
        end = time.monotonic() + 60
        while not (room / "scheduler").exists() and time.monotonic() < end:
            time.sleep(0.1)
        address = json.loads((room / "scheduler").read_text())["address"]
        with Client(address) as client:
            client.wait_for_workers(len(MONTHS), timeout=60)
        yield address, started[0]
    finally:
        for process in reversed(started):
            process.kill()
            process.wait()


def a_scheduler_that_is_stopped_is_not_waited_for(room, text, wanted):
    """Whenever it is stopped, the page's program prints the answer or an error, and has ended some seconds after its limit."""
    assert text.count("LIMIT = 2 * TIMEOUT + 10\n") == 1, text
    for path in room.glob("*.before"):
        path.unlink()
    lanes.Folder(room / "one" / "visits").delete_rows((1, 20), 0)
    with processes(room) as (address, scheduler):
        whole = text.replace("tcp://HOST:8786", address)
        assert asked_in_a_process(room, whole.replace("LIMIT = 2 * TIMEOUT + 10\n", "LIMIT = 280\n"), scheduler, "never") == wanted
        quick = whole.replace(PAGE_WAITS, "TIMEOUT = 2\n").replace("LIMIT = 2 * TIMEOUT + 10\n", "LIMIT = 5\n")
        for moment in MOMENTS:
            said = asked_in_a_process(room, quick, scheduler, moment)
            assert said == wanted or "no answer within 5 seconds" in said or "can't be asked" in said, f"stopped {moment}: {said}"
            scheduler.send_signal(signal.SIGCONT)


def asked_in_a_process(room, text, scheduler, moment):
    """What the page's program prints if the scheduler is stopped at a moment. On a machine that does other work too it may begin and end slowly."""
    program = f"MOMENT, PID = {moment!r}, {scheduler.pid}\n{STOPPING}{text}"
    return subprocess.run([sys.executable, "-c", program], cwd=room, stdout=subprocess.PIPE, stderr=subprocess.STDOUT, text=True, timeout=300).stdout


def refused_without_pure(cluster, text):
    """What is wrong if the page leaves out `pure=False`: the machines are taken for one, so that is refused."""
    try:
        return f"nothing is refused: {printed(cluster, text.replace(', pure=False', ''))}"
    except lanes.NotApart:
        return None
