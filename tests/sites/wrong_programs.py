"""Programs that keep a site's file wrong, and say what is right: the stories see each."""

import os

from forgetting import Forgetting
from story import Story

#: A command that is done on a copy of the file, so that what it prints is right and the file is as it was.
ON_A_COPY = """
if [ "$1" = {command} ]; then
    cp "$2" "$room/copy"
    status=0
    lanes "$@" || status=$?
    cp "$room/copy" "$2"
    exit $status
fi"""

#: A file that is right but has other bytes: the rows of one more batch, which has none alive.
MORE = """
if [ "$1" = delete-rows ]; then
    lanes "$@"
    lanes delete-rows "$2" 4294967295.1 0 0
    exit
fi"""

WRONG = (
    *((Story, ON_A_COPY.format(command=command)) for command in ("import", "delete", "delete-rows", "apply", "merge")),
    (Story, MORE),
    (Forgetting, ON_A_COPY.format(command="forget")),
    (Forgetting, ON_A_COPY.format(command="delete")),
)


def wrong_program(program, room, body):
    path = os.path.join(room, "program")
    os.mkdir(os.path.join(room, "files"))
    with open(path, "w", encoding="utf-8") as file:
        file.write(f'#!/bin/sh -e\nroom={room}/files\nlanes() {{ {program} "$@"; }}\n{body}\nlanes "$@"\n')
    os.chmod(path, 0o755)
    os.mkdir(os.path.join(room, "sites"))
    return path


def is_seen(program, room, kind, body, steps):
    """Whether a story of a wrong program is refused."""
    try:
        kind(wrong_program(program, room, body), os.path.join(room, "sites"), 0).tell(steps)
    except AssertionError:
        return True
    return False
