"""Two sites in a folder, paris and tokyo, that the commands of service/ keep. What needs a network or a clock is a stub."""

import os
import pathlib
import re
import shutil
import signal
import subprocess

TOP = pathlib.Path(__file__).resolve().parent.parent.parent
SERVICE = TOP / "service"
SITES = {"paris": 1, "tokyo": 2}
SCHEMA = "VISITS DAY INTEGER SITE SMALLINT HITS INTEGER".split()
#: A stub runs instead of the program of its name. ROOM/ssh says how ssh goes wrong, AHEAD how many days the clock is ahead, and
#: KILL_AT before or after which call of `lanes`, `mv` or `touch` everything is killed.
SSH = r"""#!/bin/bash
while [[ $1 == -* ]]; do [ "$1" = -o ] && shift; shift; done
host=$1; shift
case $(cat "$ROOM/ssh" 2> /dev/null) in
    away) exit 255 ;;
    hangs) exec sleep 100 ;;
    banner) echo "Welcome to $host" ;;
    half) LANES_SERVICE=$ROOM/$host.conf "$@" | head -c 60; exit 0 ;;
    none) echo "sh: lanes: command not found" >&2; exit 127 ;;
esac
LANES_SERVICE=$ROOM/$host.conf LANES_SERVICE_BOOT=$ROOM/$host.boot exec "$@"
"""
DATE = r"""#!/bin/sh
[ "$1" = -d ] && exec /usr/bin/date -d "$2 ${AHEAD:-0} days" "$3"
exec /usr/bin/date -d "${AHEAD:-0} days" "$@"
"""
KILLED = r"""#!/bin/bash
# Kills this process and those above it, up to the command of the service, which is the first of its session.
kill_all() {
    local pid=$$ chain=() first fields
    read -r -a fields < /proc/$$/stat
    first=${fields[5]}
    while [ "$pid" != "$first" ]; do
        chain=("$pid" "${chain[@]}")
        read -r -a fields < "/proc/$pid/stat"
        pid=${fields[3]}
    done
    /usr/bin/touch "$ROOM/killed"
    kill -9 "$first" "${chain[@]}"
}
if [ -n "$KILL_AT" ]; then
    calls=$(($(cat "$ROOM/calls" 2> /dev/null) + 1))
    echo $calls > "$ROOM/calls"
    [ "$KILL_AT" != "before $calls" ] || kill_all
    if [ "$KILL_AT" = "after $calls" ]; then REAL "$@"; kill_all; fi
fi
exec REAL "$@"
"""
#: A sync of a folder that fails: the second of an import.
UNSYNCED = '#!/bin/sh\n[ "$1" = import ] || exec REAL "$@"\nexec strace -f -qq -o /dev/null -e trace=fsync -e inject=fsync:error=EIO:when=2 REAL "$@"\n'


def furnish(room, program):
    """Makes the stubs, and both sites, each with loads of three days and one night."""
    room = pathlib.Path(room)
    (room / "bin").mkdir()
    shutil.copytree(SERVICE, room / "lib")
    stubs = {"ssh": SSH, "date": DATE, "lanes": KILLED.replace("REAL", str(program)), "mv": KILLED.replace("REAL", "/usr/bin/mv")}
    stubs["touch"] = KILLED.replace("REAL", '/usr/bin/touch -d "${AHEAD:-0} days"')
    for name, text in stubs.items():
        (room / "bin" / name).write_text(text)
        (room / "bin" / name).chmod(0o755)
    (room / "bin" / "lanes-service").symlink_to("../lib/lanes-service")
    sites = Room(program, room)
    for site in SITES:
        (room / f"{site}.boot").write_text("first\n")
        (room / site).mkdir()
        (room / f"{site}.conf").write_text(settings(room, site))
        sites.run(site, "set-up")
    sites.exchange()
    for site in SITES:
        for ago in 0, 1, 2:
            sites.deliver(site, ago + 1, ago)
        sites.run(site, "load")
    sites.exchange()
    for site in SITES:
        sites.run(site, "night")


def settings(room, site):
    """The settings of a site: those of the example in this room."""
    other = next(name for name in SITES if name != site)
    text = (SERVICE / "settings.example").read_text().replace("/srv/", f"{room}/{site}/")
    text = re.sub(r"^ORIGIN=.*", f"ORIGIN={SITES[site]}", text, flags=re.M)
    text = text.replace("tokyo 2 tokyo.example.org", f"{other} {SITES[other]} {other}")
    return text.replace("LIMIT=1800", "LIMIT=60").replace("MOST_DELETED=10", "MOST_DELETED=30")


class Room:
    """Both sites, in a folder that `furnish` has made, or a copy of it; EDIT is what is wrong with their service."""

    def __init__(self, program, room, edit=None):
        self.room, self.program, self.bin = pathlib.Path(room), program, pathlib.Path(room) / "bin"
        if edit:
            file, old, new = edit
            text = (self.room / "lib" / file).read_text()
            assert text.count(old) >= 1, f"{file} has no {old}"
            (self.room / "lib" / file).write_text(text.replace(old, new))

    @classmethod
    def copied(cls, furnished, program, room, edit=None):
        """A room that begins as another one. Only the settings name it."""
        shutil.copytree(furnished, room, symlinks=True, dirs_exist_ok=True)
        for site in SITES:
            conf = pathlib.Path(room) / f"{site}.conf"
            conf.write_text(conf.read_text().replace(str(furnished), str(room)))
        return cls(program, room, edit)

    def other(self, site):
        return next(name for name in SITES if name != site)

    def has_program(self):
        """Has the program in this room itself, for a user who can't read where it was."""
        own = shutil.copy(self.program, self.bin / "program")
        self.put("lanes", (self.bin / "lanes").read_text().replace(str(self.program), str(own)))

    def put(self, name, text):
        (self.bin / name).write_text(text)
        (self.bin / name).chmod(0o755)

    def set(self, site, old, new):
        """Changes the settings of a site."""
        conf = self.room / f"{site}.conf"
        text = conf.read_text()
        assert old in text, f"{conf} has no {old}"
        conf.write_text(text.replace(old, new))

    def path(self, site, name=""):
        return self.room / site / name

    def start(self, site, command, environment={}, prefix=()):
        named = {"ROOM": str(self.room), "LANES_SERVICE": str(self.room / f"{site}.conf"), "LANES_SERVICE_BOOT": str(self.room / f"{site}.boot")}
        lines = {**os.environ, "PATH": f"{self.bin}:{os.environ['PATH']}", **named, **environment}
        words = command if isinstance(command, list) else ["lanes-service", *command.split()]
        return subprocess.Popen([*prefix, *words], env=lines, stdout=subprocess.PIPE, stderr=subprocess.STDOUT, text=True, start_new_session=True)

    def run(self, site, command, status=0, environment={}, prefix=()):
        """What a command of the service says; it ends with this status, or with any if that is None, or with one but 0 if it is `fails`."""
        process = self.start(site, command, environment, prefix)
        try:
            said = process.communicate(timeout=90)[0]
        except subprocess.TimeoutExpired:
            os.killpg(process.pid, signal.SIGKILL)
            process.communicate()
            raise AssertionError(f"{site}: {command} hangs")
        good = status is None or (process.returncode != 0 if status == "fails" else process.returncode == status)
        assert good, f"{site}: {command} ends with {process.returncode}, not {status}:\n{said}{self.notes(site)}"
        return said

    def lanes(self, *words):
        """What the program prints. It is no command of the service."""
        return subprocess.run([self.program, *map(str, words)], stdout=subprocess.PIPE, text=True, check=True).stdout

    def notes(self, site):
        """What a site has noted: its hold, its faults, what loads wait for."""
        return "".join(f"{path.name}: {path.read_text()}\n" for pattern in ("hold", "fault.*", "wait-for.*") for path in self.path(site, "state").glob(pattern))

    def deliver(self, site, number, ago=0, origin=None, hits=None, text=None, ahead=0):
        """Puts a load of one row into the inbox. Its hits tell it from all others."""
        origin = origin or SITES[site]
        hits = hits or 1000 * origin + number
        day = subprocess.run(["/usr/bin/date", "-d", f"{ahead - ago} days", "+%Y%m%d"], stdout=subprocess.PIPE, text=True).stdout.strip()
        (self.path(site, "inbox") / f"{origin}.{number}.csv").write_text(text if text is not None else f"DAY,SITE,HITS\n{day},{origin},{hits}\n")
        return hits

    def load(self, site, number, **how):
        """Delivers a load, and loads it."""
        self.deliver(site, number, **how)
        self.run(site, "load")

    def files(self, site, folder):
        return sorted(path.name for path in self.path(site, folder).iterdir())

    def hits(self, file):
        """The hits of the live rows of a file or a folder, in order."""
        done = subprocess.run([self.program, "dump", "--columns", "HITS", str(file)], stdout=subprocess.PIPE, stderr=subprocess.STDOUT, text=True)
        return sorted(int(line) for line in done.stdout.split()[1:]) if done.returncode == 0 else []

    def held(self, site):
        return self.hits(self.path(site, "visits"))

    def backed_up(self, site):
        """The hits that some backup of a site has."""
        return {hits for file in self.path(site, "backup").glob("*.lanes") for hits in self.hits(file)}

    def sees(self, site, *words, environment={}):
        """The watch says each of these."""
        said = self.run(site, "watch", status=1, environment=environment)
        for word in words:
            assert word in said, f"the watch does not say {word}:\n{said}"

    def sees_nothing(self, site, environment={}):
        assert self.run(site, "watch", environment=environment) == ""

    def ssh(self, how):
        (self.room / "ssh").write_text(how)

    def age(self, site, files, words):
        """Makes files of a site old, of which this is the pattern."""
        subprocess.run(["/usr/bin/touch", "-d", words, *self.path(site).glob(files)], check=True)

    def exchange(self):
        """Pulls in both directions."""
        for site in SITES:
            self.run(site, f"pull {self.other(site)}")
