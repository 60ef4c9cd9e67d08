"""What goes wrong at a site. After each mishap no row that was answered is lost at all copies, nothing comes back that was deleted, somebody
is told, and what the page says to type brings everything back."""

import contextlib
import os
import shutil
import subprocess
import sys

from page import commands_of_sentences
from room import SCHEMA, SITES, UNSYNCED

ALL = [1001, 1002, 1003, 2001, 2002, 2003]


class Skipped(Exception):
    """What a test needs is not here."""


def a_week_goes_well(room):
    """Ten days: loads, pulls and nights at both sites, rows that get too old. No fault is told, and seven days of backups are kept."""
    number = 10
    for ahead in range(1, 11):
        clock = {"AHEAD": str(ahead)}
        for site in SITES:
            for ago in 0, 0, 28:
                number += 1
                room.deliver(site, number, ago, ahead=ahead)
            room.run(site, "load", environment=clock)
            room.run(site, "pack", environment=clock)
        for site in SITES:
            room.run(site, f"pull {room.other(site)}", environment=clock)
        for site in SITES:
            room.run(site, "night", environment=clock)
            # The other site has not forgotten yet what this one dropped, and offers it.
            room.run(site, f"pull {room.other(site)}", environment=clock)
        for site in SITES:
            room.sees_nothing(site, environment=clock)
    assert len(list(room.path("paris", "backup").glob("*.lanes"))) == 7, room.files("paris", "backup")
    assert all(hits in room.held(site) for hits in ALL for site in SITES)
    assert len(room.held("paris")) == 6 + 2 * 10 * 2 + 2 * 3, room.held("paris")
    room.run("paris", "retire tokyo")


def the_clock_is_a_year_ahead(room):
    """All rows seem old: none is deleted, anywhere, however many may go."""
    room.set("paris", "MOST_DELETED=30", "MOST_DELETED=100")
    for _ in 1, 2:
        room.run("paris", "night", status="fails", environment={"AHEAD": "365"})
        room.sees("paris", "is the clock right?", environment={"AHEAD": "365"})
    room.sees("paris", "pulled.tokyo is of a time to come", "a backup of a day to come")
    room.exchange()
    assert room.held("paris") == ALL == room.held("tokyo")
    room.run("paris", "night")
    assert room.held("paris") == ALL


def the_clock_is_some_days_ahead(room):
    """Half of the rows seem old, and others do not."""
    for number, ago in (4, 28), (5, 28), (6, 28), (7, 27):
        room.deliver("paris", number, ago)
    room.run("paris", "load")
    room.run("paris", "night", status="fails", environment={"AHEAD": "5"})
    assert len(room.held("paris")) == 10
    room.sees("paris", "percent: is the clock right?")


def ssh_goes_wrong(room):
    """A hang, a failure, a banner, half an offer, no program: the pull ends, the night goes on, and the age of the last pull is told."""
    for number, (how, status) in enumerate([("hangs", 75), ("away", 75), ("banner", 1), ("half", 75), ("none", 127)], 4):
        room.load("tokyo", number)
        room.ssh(how)
        room.set("paris", "LIMIT=60", "LIMIT=3" if how == "hangs" else "LIMIT=60")
        room.run("paris", "pull tokyo", status=status)
        room.load("paris", number)
        assert len(room.held("paris")) == 2 * number - 1
        room.sees_nothing("paris")
        room.age("paris", "state/pulled.tokyo", "3 hours ago")
        room.sees("paris", "no pull from tokyo has gone well for 180 minutes")
        room.run("paris", "night")
        room.ssh("")
        room.set("paris", "LIMIT=3" if how == "hangs" else "LIMIT=60", "LIMIT=60")
        room.run("paris", "pull tokyo")
        room.run("paris", "compare tokyo")


def a_peer_is_away_for_days(room):
    room.ssh("away")
    room.run("paris", "night")
    room.age("paris", "state/pulled.tokyo", "3 days ago")
    room.sees("paris", "no pull from tokyo has gone well for 4320 minutes")
    for files, words in ("state/loaded", "no load has come"), ("state/night", "no night has ended well"), ("backup/*", "no backup that is whole was made"):
        room.age("paris", files, "3 days ago")
        room.sees("paris", f"{words} for 4320 minutes")


def the_folder_is_made_anew_by_mistake(room):
    """Ten nights do not replace the good backups, and a restore has everything."""
    room.ssh("away")
    shutil.rmtree(room.path("paris", "visits"))
    room.lanes("create", "--quiet", f"{room.path('paris', 'visits')}/", *SCHEMA)
    for ahead in range(10):
        room.run("paris", "night", status="fails", environment={"AHEAD": str(ahead)})
        assert set(ALL) <= room.backed_up("paris")
    room.sees("paris", "6 of 6 rows are gone since the last backup")
    room.run("paris", "restore")
    assert room.held("paris") == ALL
    room.ssh("")
    room.run("paris", "pull tokyo")
    room.run("paris", "release")
    room.sees("paris", "a backup of a day to come")


def the_folder_is_emptied(room):
    """All parts are gone: loads wait, and a restore has everything."""
    for part in room.path("paris", "visits").glob("*.lanes"):
        part.unlink()
    room.deliver("paris", 4)
    room.run("paris", "load", status="fails")
    assert room.files("paris", "inbox") == ["1.4.csv"]
    room.run("paris", "night", status="fails")
    room.sees("paris", "refused ReadFault")
    shutil.rmtree(room.path("paris", "done"))
    room.path("paris", "done").mkdir()
    room.ssh("away")
    room.run("paris", "restore")
    assert room.held("paris") == ALL
    room.run("paris", "load", status=75)
    room.ssh("")
    room.run("paris", "pull tokyo")
    room.run("paris", "load")
    assert room.held("paris") == sorted([*ALL, 1004])
    room.run("paris", "release")
    room.run("paris", "night")
    room.sees_nothing("paris")


def snapshot(room):
    shutil.copytree(room.path("paris"), room.room / "snapshot")


def put_back(room):
    shutil.rmtree(room.path("paris"))
    os.rename(room.room / "snapshot", room.path("paris"))


def an_old_snapshot_is_put_back(room):
    """The loads since come back from tokyo, and nothing is deleted until somebody has looked."""
    snapshot(room)
    room.load("paris", 4)
    room.exchange()
    put_back(room)
    room.run("paris", "pull tokyo")
    assert room.held("paris") == sorted([*ALL, 1004])
    room.sees("paris", "tokyo has 1.4, a load of this site's origin that was not here")
    room.run("paris", "night", status="fails")
    room.deliver("paris", 5)
    room.run("paris", "load", status=75)
    assert room.files("paris", "inbox") == ["1.5.csv"]
    room.run("paris", "release")
    room.run("paris", "load")
    assert 1005 in room.held("paris")


def a_load_is_done_while_a_pull_runs(room):
    """It is at tokyo before tokyo makes its offer, and not in the summary: this is no mishap, and nobody is called."""
    whole = (room.bin / "ssh").read_text()
    load = f'LANES_SERVICE="$ROOM/paris.conf" lanes-service load\nLANES_SERVICE="$ROOM/tokyo.conf" lanes-service pull paris\n'
    room.put("ssh", whole.replace("#!/bin/bash\n", f'#!/bin/bash\nif mkdir "$ROOM/once" 2> /dev/null; then {{\n{load}}} < /dev/null > /dev/null; fi\n'))
    room.deliver("paris", 4)
    room.run("paris", "pull tokyo")
    assert 1004 in room.held("tokyo") and 1004 in room.held("paris")
    room.sees_nothing("paris")


def a_snapshot_is_put_back_and_loads_begin_first(room):
    """The numbers are used again before a pull: both rows stay, and the night tells. Only somebody who puts back files, and starts nothing again, can do so."""
    snapshot(room)
    room.load("paris", 4)
    room.exchange()
    put_back(room)
    room.load("paris", 4, hits=77)
    room.exchange()
    room.run("paris", "night", status="fails")
    room.sees("paris", "batch 1.4 has other rows here than at tokyo: two loads have one name")
    assert 77 in room.held("paris") and 1004 in room.held("tokyo")


def a_name_is_of_two_loads_that_are_deleted(room):
    """Digests tell other rows under one name whatever is deleted, and nothing else: no deletion, no load that is here alone, no answer that was cut."""
    delete = ["lanes", "delete-rows", "--quiet", str(room.path("paris", "visits")), "1.4", "0", "0"]
    snapshot(room)
    room.load("paris", 4)
    room.exchange()
    room.run("paris", delete)
    room.load("paris", 5)
    room.run("paris", "compare tokyo")
    put_back(room)
    room.load("paris", 4, hits=77)
    room.run("paris", delete)
    room.ssh("half")
    room.run("paris", "compare tokyo", status=75)
    room.ssh("")
    room.run("paris", "compare tokyo", status="fails")
    room.sees("paris", "batch 1.4 has other rows here than at tokyo: two loads have one name")


def set_back_comes_first(room):
    """The load is refused instead of taken under a name that tokyo has."""
    set_back(room, lambda: room.run("paris", "set-back"))


def the_machine_is_started_again(room):
    """From a snapshot, and nobody says so: the first load does it."""
    set_back(room, lambda: (room.room / "paris.boot").write_text("second\n"))
    room.ssh("away")
    (room.room / "paris.boot").write_text("third\n")
    room.deliver("paris", 5)
    room.run("paris", "load", status=75)
    room.run("paris", "release tokyo")
    room.run("paris", "load")
    assert 1005 in room.held("paris")


def set_back(room, notice):
    snapshot(room)
    room.load("paris", 4)
    room.exchange()
    put_back(room)
    room.ssh("away")
    notice()
    room.deliver("paris", 4, hits=77)
    room.run("paris", "load", status=75)
    room.sees("paris", "loads wait for a pull from tokyo")
    room.ssh("")
    room.run("paris", "pull tokyo")
    room.run("paris", "load")
    assert room.held("paris") == sorted([*ALL, 1004]) and room.files("paris", "refused") == ["1.4.csv"]


def two_sites_have_one_origin(room):
    """Rows do not cross, and before anything is deleted it is told."""
    room.set("tokyo", "ORIGIN=2", "ORIGIN=1")
    room.set("tokyo", "paris 1 paris", "paris 2 paris")
    room.load("paris", 9)
    room.load("tokyo", 9, origin=1, hits=88)
    room.exchange()
    for site in SITES:
        room.run(site, "night", status="fails")
    room.sees("paris", "tokyo has this site's origin 1")
    assert 1009 in room.held("paris") and 88 in room.held("tokyo")
    room.set("tokyo", "ORIGIN=1", "ORIGIN=2")
    room.set("tokyo", "paris 2 paris", "paris 1 paris")
    room.run("paris", "release")
    room.run("paris", "compare tokyo", status="fails")
    room.sees("paris", "batch 1.9 has other rows here than at tokyo: two loads have one name")


def one_of_two_sites_takes_the_rows_of_the_other(room):
    """Two loads have one name. All rows are at both sites in the end, those of one of the loads under a new name."""
    room.load("paris", 9)
    subprocess.run([room.program, "import", "--quiet", "--no-header", "--batch", "1.9", room.path("tokyo", "visits"), "-"], input="20261201,1,88\n", text=True, check=True)
    room.load("paris", 11)
    room.run("paris", "take-theirs tokyo")
    replaced = next(room.path("paris", "refused").glob("replaced-*"))
    assert replaced.read_text().splitlines()[1].endswith(",1,1009") and len(replaced.read_text().splitlines()) == 2
    for site in SITES:
        room.run(site, "release")
    command = commands_of_sentences("cut")[0].replace("/srv", str(room.path("paris"))).replace("1.9002", "1.10")
    room.run("paris", ["sh", "-c", f"{command} && lanes-service load"])
    room.exchange()
    assert room.held("paris") == room.held("tokyo") == sorted([*ALL, 88, 1009, 1011])
    for site in SITES:
        room.run(site, "night")


def a_load_has_another_origin(room):
    room.deliver("paris", 9, origin=2)
    room.load("paris", 4)
    assert room.files("paris", "refused") == ["2.9.csv"] and room.files("paris", "inbox") == []
    room.sees("paris", "has loads: 2.9.csv")


def a_folder_is_not_synced(room):
    """The load stays in the inbox, and no later load says that all is well, until the folder is written again."""
    if not shutil.which("strace"):
        raise Skipped("strace is not here")
    whole = (room.bin / "lanes").read_text()
    room.put("lanes", UNSYNCED.replace("REAL", str(room.program)))
    room.deliver("paris", 4)
    room.run("paris", "load", status=74)
    room.put("lanes", whole)
    room.run("paris", "load", status=75)
    assert room.files("paris", "inbox") == ["1.4.csv"]
    room.sees("paris", "could not be synced")
    room.run("paris", "night", status="fails")
    room.run("paris", "rewrite")
    room.run("paris", "load")
    assert room.held("paris") == sorted([*ALL, 1004]) and room.files("paris", "inbox") == []


def killed(command, side):
    """A mishap: a command is killed at each call of `lanes`, `mv` and `touch` in turn, before it or after it. The next run does the rest."""

    def happens(room):
        expected = list(ALL)
        for call in range(1, 100):
            expected.append(room.deliver("paris", 10 + call))
            if command != "load":
                room.run("paris", "load")
            ended = not is_killed(room, command, f"{side} {call}")
            if command in ("rewrite", "restore"):
                room.run("paris", command if room.path("paris", "visits").exists() else "restore")
                for old in room.path("paris").glob("visits.old-*"):
                    shutil.rmtree(old)
            room.run("paris", "pull tokyo")
            said = room.run("paris", "load", status=None)
            assert room.held("paris") == sorted(expected), f"{command}, killed {side} call {call}: {said}{room.held('paris')}"
            assert room.files("paris", "inbox") == [] == room.files("paris", "refused"), room.files("paris", "refused")
            if ended:
                break
        for again in command, "night":
            room.run("paris", again)
        room.sees_nothing("paris")

    happens.__name__ = f"{command.split()[0]}_is_killed_{side}"
    return happens


def is_killed(room, command, moment):
    for left in "calls", "killed":
        (room.room / left).unlink(missing_ok=True)
    room.run("paris", command, status=None, environment={"KILL_AT": moment})
    return (room.room / "killed").exists()


KILLS = [killed(command, side) for command in ("night", "restore", "rewrite", "load", "pull tokyo", "pack", "backup") for side in ("before", "after")]


def two_nights_run_at_once(room):
    """One waits or ends, and what both have done is what one does."""
    for number, ago in (4, 0), (5, 31):
        room.deliver("paris", number, ago)
    room.run("paris", "load")
    nights = [room.start("paris", "night") for _ in range(3)]
    said = [night.communicate(timeout=90)[0] for night in nights]
    assert sorted({night.returncode for night in nights} | {0}) in ([0], [0, 75]), said
    assert room.held("paris") == sorted([*ALL, 1004]) and 1004 in room.backed_up("paris")
    room.sees_nothing("paris")


def loads_are_at_fault(room):
    """An unreadable one, a folder, a link to nothing, a name that is none: the loads behind them are taken."""
    inbox = room.path("paris", "inbox")
    prefix = ()
    os.mkfifo(inbox / "1.39.csv")
    for name in "1.40.csv", "x.csv":
        (inbox / name).mkdir()
    (inbox / "1.41.csv").symlink_to("nothing")
    room.deliver("paris", 42, text="DAY,SITE,HITS\n20261201,1,many\n")
    room.deliver("paris", 43, text="DAY,SITE,HITS\n20261201,1,5")
    room.deliver("paris", 44, text="")
    room.deliver("paris", 45, text="DAY,SITE,HITS\n" + "20261201,1,1\n" * 65537)
    for number in 46, 47, 48, 49:
        room.deliver("paris", number)
    os.rename(inbox / "1.46.csv", inbox / "monday.csv")
    os.rename(inbox / "1.47.csv", inbox / "1.4 7.csv")
    (inbox / "1.48.csv").chmod(0)
    if os.getuid() == 0:
        room.has_program()  # where it is now, another user may not read it
        for path in [room.room, *room.room.rglob("*")]:
            os.chown(path, 65534, 65534, follow_symlinks=False)
        prefix = ("setpriv", "--reuid", "65534", "--regid", "65534", "--clear-groups")
    room.run("paris", "load", prefix=prefix)
    assert room.files("paris", "inbox") == [] and "1.49.csv" in room.files("paris", "done")
    assert room.files("paris", "refused") == sorted(["1.39.csv", "1.40.csv", "1.41.csv", "1.42.csv", "1.43.csv", "1.44.csv", "1.45.csv", "monday.csv", "1.4 7.csv", "1.48.csv", "x.csv"])
    room.sees("paris", "has loads")


def tmp_is_full(room):
    """No command needs /tmp, and a bad load is set aside all the same."""
    nowhere = {"TMPDIR": "/nowhere"}
    room.deliver("paris", 4, text="bad\n")
    room.deliver("paris", 5)
    said = room.run("paris", "load", environment=nowhere)
    assert "refused BadCsv" in said and room.files("paris", "refused") == ["1.4.csv"] and 1005 in room.held("paris")
    room.run("paris", "night", environment=nowhere)
    room.run("paris", ["sh", "-c", "lanes-service undo-load 1.5"], environment=nowhere)


def the_disk_is_full(room):
    """Loads wait, it is told, and the reserve makes room."""
    room.deliver("paris", 4)
    room.deliver("paris", 5, text="bad\n")
    fill(room)
    room.run("paris", "load", status=75)
    room.run("paris", "night", status="fails")
    assert room.held("paris") == ALL and "1.4.csv" in room.files("paris", "inbox")
    room.sees("paris", "no room for a forget")
    fill(room)
    room.run("paris", "full-disk")
    room.run("paris", "load")
    assert room.held("paris") == sorted([*ALL, 1004]) and room.files("paris", "refused") == ["1.5.csv"]
    room.path("paris", "filler").unlink()
    room.run("paris", "night")
    os.remove(room.path("paris", "refused") / "1.5.csv")
    room.sees_nothing("paris")


def fill(room):
    """Fills the disk of paris to the last byte."""
    for size in 4096, 1:
        with open(room.path("paris", "filler"), "ab", buffering=0) as filler, contextlib.suppress(OSError):
            while True:
                filler.write(b"x" * size)


def a_part_is_damaged(room):
    """The rows of all other parts stay, deleted rows stay deleted, and those of the damaged part come from a backup, a CSV or tokyo."""
    room.load("paris", 4)
    room.lanes("delete", room.path("paris", "visits"), "HITS = 1002")
    room.run("tokyo", "pull paris")
    newest = max(room.path("paris", "visits").glob("*.lanes"), key=lambda path: path.stat().st_mtime_ns)
    newest.write_bytes(newest.read_bytes()[:-1] + b"x")
    room.deliver("paris", 5)
    room.run("paris", "night", status="fails")
    room.sees("paris", "refused Damaged")
    room.path("paris", "done/1.4.csv").unlink()
    room.ssh("away")
    room.run("paris", "restore")
    assert {*ALL, 1004} - {1002} <= set(room.held("paris"))
    room.ssh("")
    room.run("paris", "pull tokyo")
    room.run("paris", "load")
    assert room.held("paris") == sorted({*ALL, 1004, 1005} - {1002})


def the_folder_is_lost_with_its_machine(room):
    """A new machine has tokyo's rows, its own among them, before it loads."""
    shutil.rmtree(room.path("paris"))
    room.path("paris").mkdir()
    room.ssh("away")
    room.run("paris", "set-up")
    room.deliver("paris", 1, hits=99)
    room.run("paris", "load", status=75)
    room.ssh("")
    room.run("paris", "pull tokyo")
    room.run("paris", "load")
    assert room.held("paris") == ALL and room.files("paris", "refused") == ["1.1.csv"]


def the_folder_goes_to_another_disk(room):
    """By a rewrite of what is whole, and by a restore of what is not; the peer need not know."""
    first = room.path("paris", "visits")
    for number, command in (4, "rewrite {new}"), (5, "restore {old}"):
        old, new = (first if number == 4 else room.path("paris", "disk4")), room.path("paris", f"disk{number}")
        before = room.hits(old)
        if number == 4:
            room.run("paris", command.format(new=new))
            room.deliver("paris", 40)
            room.run("paris", "load", status=75)
        room.set("paris", f"FOLDER={old}", f"FOLDER={new}")
        if number == 5:
            shutil.rmtree(room.path("paris", "done"))
            shutil.rmtree(room.path("paris", "backup"))
            room.path("paris", "done").mkdir()
            room.path("paris", "backup").mkdir()
            room.ssh("away")
            room.run("paris", command.format(old=old))
            room.ssh("")
        assert room.hits(new) == before
        room.run("paris", "release")
        room.deliver("tokyo", number)
        room.run("tokyo", "load")
        room.exchange()
        assert room.hits(new) == room.held("tokyo") and 2000 + number in room.hits(new)


def a_restore_was_killed_between_its_moves(room):
    """The folder is not there, and only the one that was moved away has all."""
    room.ssh("away")
    for folder in "done", "backup":
        shutil.rmtree(room.path("paris", folder))
        room.path("paris", folder).mkdir()
    os.rename(room.path("paris", "visits"), room.path("paris", "visits.old-20261201-030000"))
    room.deliver("paris", 4)
    room.run("paris", "load", status=1)
    room.sees("paris", "refused ReadFault")
    room.run("paris", "restore")
    assert room.held("paris") == ALL


def a_load_is_undone(room):
    """Its rows go, and the name is not taken for other rows, which would be dead at once."""
    room.run("paris", "undo-load 1.2")
    assert room.held("paris") == [hits for hits in ALL if hits != 1002]
    room.lanes("forget", room.path("paris", "visits"))
    for hits in 1002, 55:
        room.load("paris", 2, ago=1, hits=hits)
        assert "1.2.csv" in room.files("paris", "refused") and "1.2.csv" not in room.files("paris", "done")
    room.load("paris", 4, hits=55)
    assert 55 in room.held("paris")
    room.run("paris", "undo-load 1.77", status=1)
    room.run("paris", "restore")
    assert room.held("paris") == sorted({*ALL, 55} - {1002})


def a_delete_is_undone(room):
    """Rows that are deleted come back, at both sites, and those that are not deleted do not come twice."""
    room.lanes("delete", room.path("tokyo", "visits"), "HITS >= 1002 AND HITS < 2002")
    room.exchange()
    assert room.held("paris") == [1001, 2002, 2003]
    backup = max(room.path("paris", "backup").glob("*.lanes"))
    for name, status in ("2.900", 1), ("1.900", 0), ("1.900", 1), ("1.901", 1):
        room.run("paris", ["lanes-service", "undo-delete", str(backup), "HITS > 0", name], status=status)
    room.exchange()
    assert room.held("paris") == ALL == room.held("tokyo")


def a_peer_deletes_everything(room):
    """The deletions come by a pull. The backups from before are kept however many nights follow, and the rows come back from one."""
    room.lanes("delete", room.path("tokyo", "visits"), "HITS > 0")
    room.lanes("forget", room.path("tokyo", "visits"))
    backup = str(min(room.path("paris", "backup").glob("*.lanes")))
    for ahead in range(10):
        room.run("paris", "night", status="fails", environment={"AHEAD": str(ahead)})
        assert set(ALL) - {2001, 2002, 2003} <= room.backed_up("paris")
    room.sees("paris", "rows are gone since the last backup")
    before = sorted(room.hits(backup))
    room.run("paris", ["lanes-service", "undo-delete", backup, "HITS > 0", "1.900"])
    room.run("tokyo", "pull paris")
    assert room.held("paris") == room.held("tokyo") == before and set(ALL) <= set(before)


def a_lock_is_held(room):
    """The watch names the process that has it, also if only a child of the one that took it is left."""
    folder = room.path("paris", "visits")
    room.deliver("paris", 4)
    takes = f"import fcntl, os, sys, time\nfcntl.flock(os.open({str(folder)!r}, os.O_RDONLY), fcntl.LOCK_EX)\nif os.fork() == 0:\n    print(os.getpid(), flush=True)\n    time.sleep(100)"
    parent = subprocess.Popen([sys.executable, "-c", takes], stdout=subprocess.PIPE, text=True)
    child = int(parent.stdout.readline())
    parent.wait()
    try:
        room.run("paris", "load", status=75)
        assert room.files("paris", "inbox") == ["1.4.csv"]
        room.sees("paris", "somebody keeps the lock", f"{child} ", sys.executable)
    finally:
        os.kill(child, 9)
    room.run("paris", "load")


def a_backup_is_damaged(room):
    """The watch tells it if none is whole; a restore takes the last one that is."""
    room.load("paris", 4)
    for _ in 1, 2:
        room.run("paris", "backup")
    last, *_ = backups = sorted(room.path("paris", "backup").glob("*.lanes"), reverse=True)
    last.write_bytes(b"x" + last.read_bytes()[1:])
    room.ssh("away")
    for folder in "visits", "done":
        shutil.rmtree(room.path("paris", folder))
    room.path("paris", "done").mkdir()
    said = room.run("paris", "restore")
    assert backups[1].name in said and room.held("paris") == sorted([*ALL, 1004])
    room.ssh("")
    room.run("paris", "pull tokyo")
    room.age("paris", "backup/*", "3 days ago")
    last.touch()
    room.sees("paris", "no backup that is whole was made for 4320 minutes")
    for file in backups[1:]:
        file.write_bytes(b"x" + file.read_bytes()[1:])
    room.sees("paris", "no backup that is whole was made ever")


def the_replica_is_full(room):
    """`Full` is no fault of a load: all wait."""
    room.put("lanes", f'#!/bin/sh\n[ "$1" = import ] || exec {room.program} "$@"\necho refused Full >&2\nexit 1\n')
    room.deliver("paris", 4)
    room.run("paris", "load", status=1)
    assert room.files("paris", "inbox") == ["1.4.csv"] and room.files("paris", "refused") == []


def the_backup_is_not_mounted(room):
    """Loads and pulls go on, nothing is deleted, and the watch tells it."""
    os.rename(room.path("paris", "backup"), room.path("paris", "elsewhere"))
    room.load("paris", 5, ago=31)
    room.run("paris", "pull tokyo")
    room.run("paris", "night", status=2)
    assert 1005 in room.held("paris")
    room.sees("paris", "BACKUP=", "is no folder that can be written")


def root_types_a_command(room):
    """The service could not change what root makes, so it is refused, and says what to type. The watch changes nothing."""
    if os.getuid() != 0:
        raise Skipped("this is not root")
    os.chown(room.path("paris", "state"), 65534, 65534)
    room.deliver("paris", 4)
    assert "lanes-service load" in room.run("paris", "load", status=1)
    assert room.files("paris", "inbox") == ["1.4.csv"]
    room.run("paris", "watch")


def settings_are_wrong(room):
    """Each is named before anything is done."""
    room.deliver("paris", 4)
    whole = (room.room / "paris.conf").read_text()
    for old, new, words in SETTINGS:
        room.set("paris", old, new)
        said = room.run("paris", "load", status=2, environment={"ORIGIN": "7"})
        assert words in said and "paris.conf" in said, f"{new}: {said}"
        (room.room / "paris.conf").write_text(whole)
    room.run("paris", "load", status=2, environment={"LANES_SERVICE": str(room.room / "none.conf")})
    assert room.files("paris", "inbox") == ["1.4.csv"]
    room.run("paris", "load")
    assert room.files("paris", "done")[-1] == "1.4.csv"


#: What is replaced in the settings, by what, and what is said of it.
SETTINGS = [
    ("ORIGIN=1", "ORIGIN=0", "ORIGIN=0 is no number from 1 to 4294967295"),
    ("ORIGIN=1", "ORIGIN=1x", "ORIGIN=1x is no number"),
    ("ORIGIN=1", "ORIGIN=4294967296", "ORIGIN=4294967296 is no number"),
    ("ORIGIN=1", "ORIGINS=1", "ORIGIN is missing"),
    ("ORIGIN=1", "ORIGIN=2", "two sites of ORIGIN, PEERS and RETIRED have origin 2"),
    ('RETIRED=""', "RETIRED=2", "two sites of ORIGIN, PEERS and RETIRED have origin 2"),
    ('RETIRED=""', "RETIRED=two", "RETIRED has two, which is no origin"),
    ('RETIRED=""', "", "RETIRED is missing"),
    ("FOLDER=/", "FOLDER=", "is no path that begins with /"),
    ("visits\n", "visits/\n", "is no path that begins with / and has a name at its end"),
    ("/done", "/inbox", "two of FOLDER INBOX DONE REFUSED STATE BACKUP are"),
    ("/done", "/don", "is no folder that can be written"),
    ("/state", "/stat", "is no folder that can be written"),
    ('TABLE="VISITS DAY INTEGER', 'TABLE="VISITS DAY', "is no name with a name and a type for each column"),
    ('TABLE="VISITS DAY INTEGER', "TABLE=VISITS DAY INTEGER", "sh can't read it"),
    ("DAY=DAY", "DAY=DATE", "DAY=DATE is no column of TABLE"),
    ("DAY_FORMAT=%Y%m%d", "DAY_FORMAT=%F", "DAY_FORMAT=%F does not make a number of a day"),
    ("MOST_DELETED=30", "MOST_DELETED=101", "MOST_DELETED=101 is no number from 0 to 100"),
    ("KEEP_BACKUPS=7", "KEEP_BACKUPS=0", "KEEP_BACKUPS=0 is no number from 1"),
    ("KEEP_DAYS=30", "KEEP_DAYS=", "KEEP_DAYS is missing"),
    ("LIMIT=60", "LIMIT=1m", "LIMIT=1m is no number"),
    ("tokyo 2 tokyo", "tokyo 2", 'PEERS has no line "NAME ORIGIN HOST" for tokyo'),
    ("tokyo 2 tokyo", "tokyo two tokyo", 'PEERS has no line "NAME ORIGIN HOST" for tokyo'),
    ("tokyo 2 tokyo", "to/kyo 2 tokyo", "PEERS has to/kyo, which is no name"),
    ("tokyo 2 tokyo", "tokyo 2 tokyo\ntokyo 3 tokyo", "two peers are tokyo"),
    ("tokyo 2 tokyo", "tokyo 2 tokyo\nlima 2 lima", "two sites of ORIGIN, PEERS and RETIRED have origin 2"),
    ("SSH=", "SHH=", "SSH is missing"),
]


def a_peer_is_added_that_has_another_origin(room):
    """A peer is not added before its origin is the one of PEERS, and its rows are here."""
    room.load("tokyo", 4)
    room.set("paris", "tokyo 2 tokyo", "tokyo 3 tokyo")
    room.run("paris", "add tokyo", status=1)
    room.sees("paris", "tokyo has origin 2, and PEERS has 3 for it")
    room.set("paris", "tokyo 3 tokyo", "tokyo 2 tokyo")
    room.run("paris", "release")
    assert "tokyo answers" in room.run("paris", "add tokyo")
    assert 2004 in room.held("paris")
    room.run("paris", "add lima", status=2)


def a_peer_is_retired_that_still_loads(room):
    """It is not retired before this site has all of it."""
    whole = (room.bin / "ssh").read_text()
    load = 'LANES_SERVICE="$ROOM/tokyo.conf" LANES_SERVICE_BOOT="$ROOM/tokyo.boot" lanes-service load\n'
    room.put("ssh", whole.replace("#!/bin/bash\n", f'#!/bin/bash\n[ "$*" != "${{*%about}}" ] && {{ {load}}} < /dev/null > /dev/null\n'))
    room.deliver("tokyo", 4)
    assert "tokyo has 1 batches that are not here" in room.run("paris", "retire tokyo", status=1)
    assert "this site has all of tokyo" in room.run("paris", "retire tokyo")
    assert 2004 in room.held("paris")


NOT_MISHAPS = (snapshot, put_back, set_back, is_killed, fill)
#: The longest first.
MISHAPS = KILLS + [body for body in list(globals().values()) if callable(body) and getattr(body, "__code__", None) and body.__code__.co_varnames[:1] == ("room",) and body not in NOT_MISHAPS]
BY_NAME = {body.__name__: body for body in MISHAPS}
