"""Commands of which one system call fails, or at one of which they are killed, by strace."""

import itertools
import os
import re
import shutil
import subprocess
from typing import NamedTuple

from room import Lacking, Room

#: The system calls by which a command changes a file or a folder, and those that it needs for it, each with an error that it can have.
KINDS = {
    "fsync": "EIO",
    "write": "ENOSPC",
    "link,linkat": "EIO",
    "rename,renameat,renameat2": "EIO",
    "unlink,unlinkat": "EIO",
    "mkdir,mkdirat": "ENOSPC",
    "ftruncate": "EIO",
    "fchmod": "EIO",
    "openat": "EMFILE",
    "flock": "EIO",
    "getdents64": "EIO",
}

#: How a refusal of a call that failed begins.
NAMED = (b"refused WriteFault\n", b"refused ReadFault\n")


class Ended(NamedTuple):
    """How a command ended of which one call failed, or that was killed at it."""

    kind: str
    when: int
    is_killed: bool
    status: int
    out: bytes
    err: bytes

    def __str__(self):
        return f"{self.kind} {self.when} {'killed' if self.is_killed else 'failed'}"

    def is_told_of_the_output(self):
        """Whether all was done, and what could not be written is the answer."""
        return re.match(rb"refused WriteFault\nlanes [a-z-]+ \S+: standard output: ", self.err) is not None

    def is_before_the_program(self):
        """Whether the system could not load the program."""
        return self.status == 127 and b"shared libraries" in self.err


def traced(room, words, kinds, *options):
    """What strace says of a command's calls of some kinds, and how the command ended."""
    if shutil.which("strace") is None:
        raise Lacking("strace is not installed")
    words = ["strace", "-f", "-o", "trace", "-e", f"trace={kinds}", *options, room.program, *words]
    done = subprocess.run(words, stdin=subprocess.DEVNULL, cwd=room.folder, capture_output=True, timeout=120)
    trace = room.get("trace").decode(errors="replace") if os.path.exists(room.path("trace")) else ""
    if not trace:
        raise Lacking(f"strace can't trace: {done.stderr[-200:]!r}")
    os.remove(room.path("trace"))
    return trace, done


def calls_of(room, words):
    """How many calls of each kind a command makes if none fails."""
    trace, _ = traced(room, words, ",".join(KINDS))
    return {kind: len(re.findall(rf"^\d+ +(?:{kind.replace(',', '|')})\(", trace, re.M)) for kind in KINDS}


def ended_with(room, words, kind, when, is_killed):
    """How a command ends if its call of this kind and number fails, or is the last one."""
    how = "signal=KILL" if is_killed else f"error={KINDS[kind]}"
    trace, done = traced(room, words, kind, "-e", f"inject={kind}:{how}:when={when}")
    assert ("killed by SIGKILL" if is_killed else "(INJECTED)") in trace, f"{words} did not come to {kind} {when}"
    return Ended(kind, when, is_killed, done.returncode, done.stdout, done.stderr)


def each_call(room, words, prepare):
    """For each such call of a command how it ends if the call fails, and if it is killed at it. `prepare` comes before each run."""
    prepare()
    for kind, count in calls_of(room, words).items():
        for when, is_killed in itertools.product(range(1, count + 1), (False, True)):
            prepare()
            yield ended_with(room, words, kind, when, is_killed)


def held_file(room, known={}):
    """What the file `t` holds: its rows without their names, as names may be drawn, and what a check says of it. None if there is no file.

    Files that were looked at before are known by their bytes."""
    if not os.path.exists(room.path("t")):
        return None
    data = room.get("t")
    if data not in known:
        known[data] = sorted(room.ok("dump", "t").split(b"\n")), room.ok("check", "t")
    return known[data]


def is_end_refused(command, kind, is_killed, status, out, err, is_done, left=None):
    """Whether a command's judge says that an end of it is wrong, if its work was done before or not, and a file of a name was left."""
    command.prepare()
    if is_done:
        command.room.ok(*command.words)
    if left:
        command.room.put(left, b"")
    try:
        command.judge(Ended(kind, 1, is_killed, status, out, err))
    except AssertionError:
        return True
    return False


def faults_seen(command, kind):
    """What is said against a command that is killed at each call of a kind, of whichever of its processes."""
    command.prepare()
    for when in range(1, calls_of(command.room, command.words)[kind] + 1):
        command.prepare()
        trace, done = traced(command.room, command.words, kind, "-e", f"inject={kind}:signal=KILL:when={when}")
        try:
            if "killed by SIGKILL" in trace:
                command.judge(Ended(kind, when, True, done.returncode, done.stdout, done.stderr))
        except AssertionError as fault:
            yield str(fault)


def wrong_program(room, body):
    """A room whose program is a script: `lanes` in it is the program of this one, and `$room` is a folder for its own files."""
    folder = room.path("wrong")
    os.makedirs(f"{folder}/files")
    os.mkdir(f"{folder}/room")
    with open(f"{folder}/program", "w", encoding="utf-8") as file:
        file.write(f'#!/bin/sh -e\nroom={folder}/files\nlanes() {{ {room.program} "$@"; }}\n{body}\nlanes "$@"\n')
    os.chmod(f"{folder}/program", 0o755)
    return Room(f"{folder}/program", f"{folder}/room")


def each_kind_was_tried(tries, *never):
    """Each kind of call failed in some command, but those that none of these commands makes."""
    kinds = {kind for of_command in tries for kind, (failed, killed) in of_command.counts.items() if failed and killed}
    assert kinds == WANTED - {*never}, f"of the calls of the system {sorted(WANTED - {*never} - kinds)} were not tried, and {sorted(kinds - WANTED)} were"


#: The calls that are to be tried: a list of its own, so that none is left out of KINDS unseen.
WANTED = {"fsync", "write", "link,linkat", "rename,renameat,renameat2", "unlink,unlinkat", "mkdir,mkdirat", "ftruncate", "fchmod", "openat", "flock", "getdents64"}


class Tries:
    """How many calls of a command failed, and at how many it was killed."""

    def __init__(self, words):
        self.words, self.counts = " ".join(words), {}

    def add(self, ended):
        of_kind = self.counts.setdefault(ended.kind, [0, 0])
        of_kind[ended.is_killed] += 1

    def tell(self):
        """Prints the numbers. Syncs, writes, and links or renames were all tried."""
        failed, killed = (sum(counts[at] for counts in self.counts.values()) for at in (0, 1))
        told = ", ".join(f"{kind.split(',')[0]} {counts[0]}" for kind, counts in self.counts.items())
        print(f"{self.words}: {failed} calls failed in turn, and it was killed at {killed} ({told})")
        put = [self.counts.get(kind, [0, 0]) for kind in ("link,linkat", "rename,renameat,renameat2")]
        tried = [self.counts.get("fsync", [0, 0]), self.counts.get("write", [0, 0]), [sum(kind) for kind in zip(*put)]]
        assert all(all(counts) for counts in tried), f"{self.words}: too little was tried: {self.counts}"
