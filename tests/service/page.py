"""That docs/OPERATIONS.md quotes the files of service/ as they are, that its commands run, and that systemd and cron can run the service."""

import pathlib
import re
import shutil
import subprocess

TOP = pathlib.Path(__file__).resolve().parent.parent.parent
PAGE = TOP / "docs" / "OPERATIONS.md"
SERVICE = TOP / "service"
QUOTED = {"conf": "settings.example", "cron": "crontab", "ini": "systemd/lanes-night.service"}
#: Stubs for what a room does not have: users, a running systemd, an editor, what the system says of disks.
STUBS = {
    "sudo": '#!/bin/sh\nshift 2\nexec "$@"\n',
    "editor": '#!/bin/sh\nsed -i "s|/srv/|$ROOM/srv/|; s|tokyo.example.org|tokyo|; s|MOST_DELETED=10|MOST_DELETED=60|" "$1"\n',
    "install": '#!/bin/sh\nshift 3\nexec mkdir -p "$@"\n',
    **dict.fromkeys(["id", "chown", "systemctl", "journalctl", "dmesg", "smartctl"], '#!/bin/sh\necho "${0##*/} $*" >> "$ROOM/stubs"\n'),
}
#: What a shell or a command of the service says if a line of the page is no command.
WRONG = re.compile(r"not found|usage:|there is no command|No such file")


def moved(room, text):
    """A text of the page in this room, in which no other site is."""
    text = text.replace("service/install visits", f"service/install visits {room.room}/units /etc/lanes-service.conf")
    for path in "/srv", "/usr/local", "/etc/lanes-service.conf", "/mnt":
        text = text.replace(path, f"{room.room}{path}")
    return text


def commands_of_sentences(begin):
    """The commands in the page's sentences that begin so."""
    return re.findall(rf"`({begin} [^`\n]+)`", PAGE.read_text())


def the_page_quotes_the_files(room):
    blocks = dict(re.findall(r"^```(conf|cron|ini)\n(.*?)^```$", PAGE.read_text(), re.M | re.S))
    for kind, file in QUOTED.items():
        assert blocks[kind] == (SERVICE / file).read_text(), f"docs/OPERATIONS.md does not quote service/{file} as it is"


def each_command_is_there(room):
    commands = {path.name for path in (SERVICE / "commands").iterdir()}
    texts = [PAGE, SERVICE / "crontab", SERVICE / "common.sh", *(SERVICE / "systemd").iterdir(), *(SERVICE / "commands").iterdir()]
    for path in texts:
        for name in re.findall(r"lanes-service ([a-z][a-z-]*)", path.read_text()):
            assert name in commands, f"{path.name} names {name}, which is no command"
    for words in [], ["--help"]:
        listed = {line.split()[1] for line in room.run("paris", ["lanes-service", *words], status=2).splitlines()}
        assert listed == commands, listed ^ commands
    assert "there is no command nights" in room.run("paris", "nights", status=2)


def the_commands_of_the_page_run(room):
    """Those of its blocks, on a new machine in place of paris, and then those of the service in its sentences."""
    for name, text in STUBS.items():
        room.put(name, text)
    shutil.rmtree(room.path("paris"))
    (room.bin / "lanes-service").unlink()
    for folder in "srv", "etc", "mnt":
        (room.room / folder).mkdir()
    named = {"LANES_SERVICE": str(room.room / "etc" / "lanes-service.conf"), "PATH": f"{room.bin}:{room.room}/usr/local/bin:/usr/bin:/bin:/usr/sbin:/sbin"}
    setting_up, *blocks = re.findall(r"^```sh\n(.*?)^```$", PAGE.read_text(), re.M | re.S)
    typed(room, moved(room, setting_up), named, 0)
    assert room.hits(room.room / "srv" / "visits") == room.held("tokyo")
    room.lanes("delete", room.room / "srv" / "visits", "SITE = 2 AND HITS = 2001")
    for block in blocks:
        typed(room, moved(room, re.sub(r"/srv/backup/VISITS-\d+-\d+\.lanes", "$(ls /srv/backup/*.lanes | head -n 1)", block)), named)
    assert room.hits(room.room / "srv" / "visits") == room.held("tokyo")
    for command in commands_of_sentences("lanes-service"):
        typed(room, moved(room, command), named)


def typed(room, commands, named, status=None):
    said = room.run("paris", ["bash", "-ec" if status == 0 else "-c", f"cd {TOP}\n{commands}"], status=status, environment=named)
    assert not WRONG.search(said), f"{commands}\n{said}"


def the_service_is_set_up(room):
    """The settings that are there stay, systemd knows the units, and the command runs, also if the PATH has not got the program's folder."""
    top, units, settings = room.room / "usr/share/lanes/service", room.room / "units", room.room / "installed.conf"
    shutil.copytree(SERVICE, top)
    for user in "root", "daemon":
        subprocess.run([top / "install", user, units, settings], stdout=subprocess.DEVNULL, check=True)
        assert settings.read_text() == (SERVICE / "settings.example").read_text()
    names = sorted(path.name for path in units.iterdir())
    assert len(names) == 10 and all(name.replace(".timer", ".service") in names for name in names), names
    for name in names:
        text = (units / name).read_text()
        assert name.endswith(".timer") or all(line in text for line in ("User=daemon", f"LANES_SERVICE={settings}", f"ExecStart={room.room}/usr/bin/lanes-service ", "TimeoutStartSec=")), text
    assert "lanes-service load" in room.run("paris", [str(room.room / "usr/bin/lanes-service")], status=2)
    (room.room / "usr/bin/lanes").symlink_to(room.program)
    assert room.run("paris", [str(room.room / "usr/bin/lanes-service"), "about"], environment={"PATH": "/usr/bin:/bin"}).startswith("1 ")
    for words, status in (["nobody-here", units, settings], 1), ([], 2):
        assert subprocess.run([top / "install", *words], stderr=subprocess.DEVNULL).returncode == status
    assert subprocess.run([SERVICE / "install", "root", units, settings], stderr=subprocess.DEVNULL).returncode == 1
    if shutil.which("systemd-analyze"):
        # What is not instantiated can't be looked at.
        paths = [path.rename(path.with_name(path.name.replace("@", "@tokyo"))) if "@" in path.name else path for path in sorted(units.iterdir())]
        said = subprocess.run(["systemd-analyze", "verify", "--man=no", *paths], stdout=subprocess.PIPE, stderr=subprocess.STDOUT, text=True).stdout
        said = [line for line in said.splitlines() if str(units) in line]
        assert not said, said


def each_line_of_cron_runs(room):
    lines = (SERVICE / "crontab").read_text().splitlines()
    assert lines[0].startswith("PATH=")
    for line in lines[1:]:
        room.run("paris", ["sh", "-c", re.match(r"(?:[\d*/,-]+ +){5}(\S.*)$", line)[1]])


TESTS = [the_page_quotes_the_files, each_command_is_there, the_commands_of_the_page_run, the_service_is_set_up, each_line_of_cron_runs]
