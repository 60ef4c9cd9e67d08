"""A copy of the script `lanes` with made-up crates, on a made-up machine, and what a run of it shows.

Nothing is proved here: the command `rt` that the copy finds is the stub beside this file. Its `nproc`, `awk` and `grep` tell of
the made-up machine, since the script asks them how much may be done at once, and for which processor.
"""

import gzip
import hashlib
import os
import select
import shutil
import signal
import subprocess
from dataclasses import dataclass

HERE = os.path.dirname(os.path.abspath(__file__))
TOP = os.path.dirname(os.path.dirname(HERE))
SECONDS = 60

# What the program does that the stub makes, once it has the variable `source`: all that it was given comes out again.
PROGRAM = """echo "made of $source, run in $(pwd)"
for argument; do printf '<%s>\\n' "$argument"; done
cat
echo "said by the program" >&2
exit 7
"""
STATUS = 7

# A released program, which tells its level too.
RELEASED = """#!/bin/sh
if [ "$1" = --version ]; then exit 0; fi
source="a release for LEVEL"
""" + PROGRAM

# A command as it is, but for what it reads of the machine and what the trial has it do before.
OF_THE_MACHINE = """#!/bin/sh
if [ -e '{room}/does/{name}' ]; then . '{room}/does/{name}'; fi
for word; do
    shift
    case $word in /proc/*) word='{room}'$word ;; esac
    set -- "$@" "$word"
done
exec '{command}' "$@"
"""


class Differs(Exception):
    """What a trial found in place of what it wants."""


def agree(what, found, wanted):
    if found != wanted:
        raise Differs(f"{what}: {str(found)[:600]}, not {str(wanted)[:600]}")


def has(what, found, *parts):
    """That a text, or a list, has each of the parts."""
    for part in parts:
        if part not in found:
            raise Differs(f"{what}: {found[-600:]!r} lacks {part!r}")


def without_cache(environment):
    return {name: value for name, value in environment.items() if name != "XDG_CACHE_HOME"}


@dataclass
class Call:
    """A call of rt: its crate's name, its arguments, the places in the log at which it begins and ends, and its status."""

    crate: str
    arguments: str
    begin: int
    # Where it has no end in the log it was killed.
    end: float = float("inf")
    status: object = None


@dataclass
class Run:
    """What a run of the script shows. Its status is below 0 where a signal ended it; something may run on once it has ended."""

    status: int
    out: str
    err: str
    calls: list
    runs_on: bool

    def checked(self):
        """The names of the crates that were proved, in order."""
        return sorted(call.crate for call in self.calls if call.arguments == "check")

    def last(self):
        """The crate and the arguments of the last call."""
        return [(call.crate, call.arguments) for call in self.calls[-1:]]

    def most_at_once(self):
        """The greatest number of checks that were under way at once."""
        checks = [call for call in self.calls if call.arguments == "check"]
        return max((sum(other.begin <= call.begin < other.end for other in checks) for call in checks), default=0)


def libraries(crates):
    """The lines of a crates.txt: each crate's name with those that it uses."""
    lines = [line.partition(":") for line in crates.splitlines() if not line.startswith("#")]
    return {name: used.split() for name, _, used in lines}


def is_held(pipe, seconds):
    """Whether a pipe is still open elsewhere after so many seconds."""
    return not select.select([pipe], [], [], seconds)[0]


class Trial:
    """The copy, in a folder of its own whose name has a space."""

    def __init__(self, room, crates):
        self.room = room
        self.top, self.elsewhere, self.commands = self.at("a copy"), self.at("elsewhere"), self.at("commands")
        for folder in (self.top, self.elsewhere, self.commands, self.at("does"), self.at("proc")):
            os.mkdir(folder)
        self.started = []
        shutil.copy(os.path.join(TOP, "lanes"), self.top)
        os.mkdir(os.path.join(self.top, "release"))
        for name in ("sources", "files.sh"):
            shutil.copy(os.path.join(TOP, "release", name), os.path.join(self.top, "release"))
        os.mkdir(self.at("home"))
        os.mkfifo(self.at("silence"))
        self.write("crates.txt", crates)
        for name in libraries(crates):
            self.write(f"crates/{name}/src/{'main' if name == 'lanes' else 'lib'}.rt", "first source")
        with open(self.at("program"), "w") as file:
            file.write(PROGRAM)
        shutil.copy(os.path.join(HERE, "rt"), self.commands)
        self.path = os.pathsep.join(self.folder_without_rt(place, folder) for place, folder in enumerate(os.get_exec_path()))
        for name in ("awk", "grep", "sort"):
            self.command(name, OF_THE_MACHINE.format(room=room, name=name, command=shutil.which(name, path=self.path)))
        self.machine()

    def at(self, name):
        """The path of a file beside the copy."""
        return os.path.join(self.room, name)

    def folder_without_rt(self, place, folder):
        """A folder of the PATH, or where the toolchain's own command stands in it, one with links to all else: no trial may call that."""
        if not os.path.lexists(os.path.join(folder, "rt")):
            return folder
        links = self.at(f"links{place}")
        os.mkdir(links)
        for name in os.listdir(folder):
            if name != "rt":
                os.symlink(os.path.join(folder, name), os.path.join(links, name))
        return links

    def command(self, name, text):
        path = os.path.join(self.commands, name)
        with open(path, "w") as file:
            file.write(text)
        os.chmod(path, 0o755)

    def machine(self, processors=4, memory=64, instructions="sse2 avx2", kind="x86_64"):
        """Says what the machine has; its memory is in GiB."""
        self.command("nproc", f"#!/bin/sh\necho {processors}\n")
        self.command("uname", f"#!/bin/sh\necho {kind}\n")
        with open(self.at("proc/meminfo"), "w") as file:
            file.write(f"MemTotal: {128 << 20} kB\nMemFree: {96 << 20} kB\nMemAvailable: {int(memory * (1 << 20))} kB\n")
        with open(self.at("proc/cpuinfo"), "w") as file:
            file.write(f"flags : {instructions}\n" if kind == "x86_64" else "Features : fp asimd\n")

    def write(self, name, text):
        """A file of the copy."""
        path = os.path.join(self.top, name)
        os.makedirs(os.path.dirname(path), exist_ok=True)
        with open(path, "w") as file:
            file.write(text)

    def release(self, sources=None, program=RELEASED):
        """Releases a made-up program for each level of processors, of the sources as they are where no other sum is given."""
        found = subprocess.run([os.path.join(self.top, "release/sources")], stdout=subprocess.PIPE, text=True, check=True).stdout
        self.write("release/SOURCES", sources or found)
        sums = ""
        for level in ("x86-64-v2", "x86-64-v3"):
            text = program.replace("LEVEL", level).encode()
            sums += f"{hashlib.sha256(text).hexdigest()}  lanes-{level}\n"
            with open(os.path.join(self.top, f"release/lanes-{level}.gz"), "wb") as file:
                file.write(gzip.compress(text))
        self.write("release/SHA256SUMS", sums)

    def remove(self, name):
        os.remove(os.path.join(self.top, name))

    def does(self, name, text=None):
        """Has the stub do what a text of the shell says, each time that it is called in the crate of that name, or no more. A command has it done before."""
        path = self.at(f"does/{name}")
        if text is None:
            os.remove(path)
        else:
            with open(path, "w") as file:
                file.write(text)

    def calls(self):
        """The calls of rt since the last run began, in the order in which they began."""
        if not os.path.exists(self.at("log")):
            return []
        with open(self.at("log")) as file:
            lines = file.read().splitlines()
        found, under_way = [], {}
        for place, line in enumerate(lines):
            what, process, rest = line.split(" ", 2)
            if what == "begin":
                found.append(Call(*rest.split(" ", 1), place))
                under_way[process] = found[-1]
            else:
                call = under_way.pop(process)
                call.end, call.status = place, int(rest)
        return found

    def start(self, *arguments, given=b"", has_rt=True, language="C", script=None, user=None):
        """Starts the script from another folder, in a process group of its own; by another path, or as another user, where one is given."""
        if os.path.exists(self.at("log")):
            os.remove(self.at("log"))
        with open(self.at("given"), "wb") as file:
            file.write(given)
        path = os.pathsep.join([self.commands, self.path]) if has_rt else self.path
        # Whatever the script starts has this pipe open too, so that its other end tells when the last of it has ended.
        ends, held = os.pipe()
        with open(self.at("given"), "rb") as source, open(self.at("out"), "wb") as out, open(self.at("err"), "wb") as err:
            process = subprocess.Popen(
                [script or os.path.join(self.top, "lanes"), *arguments],
                cwd=self.elsewhere,
                stdin=source,
                stdout=out,
                stderr=err,
                env={**without_cache(os.environ), "PATH": path, "LC_ALL": language, "TRIAL": self.room, "HOME": self.at("home")},
                user=user,
                start_new_session=True,
                pass_fds=[held],
                # Where these tests run in the background they ignore interrupts, and the script would too.
                preexec_fn=lambda: signal.signal(signal.SIGINT, signal.SIG_DFL),
            )
        os.close(held)
        process.ends = ends
        self.started.append(process)
        return process

    def finish(self, process):
        """What the run shows, once it has ended, and what it may have left running too."""
        try:
            process.wait(SECONDS)
        except subprocess.TimeoutExpired:
            raise Differs(f"it had not ended after {SECONDS} seconds") from None
        runs_on = is_held(process.ends, 0)
        if runs_on and is_held(process.ends, 5):
            raise Differs("something that it started still ran 5 seconds after its end")
        with open(self.at("out")) as out, open(self.at("err")) as err:
            return Run(process.returncode, out.read(), err.read(), self.calls(), runs_on)

    def run(self, *arguments, **how):
        return self.finish(self.start(*arguments, **how))

    def close(self):
        """Ends what a failed trial may have left."""
        for process in self.started:
            if is_held(process.ends, 0):
                os.killpg(process.pid, signal.SIGKILL)
            process.wait()
            os.close(process.ends)
