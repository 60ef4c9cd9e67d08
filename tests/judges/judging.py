"""What the tests of judges have in common: scripts that take the place of tests and of the toolchain, and trees that are wrong in one place."""

import os
import pathlib
import shutil
import subprocess

TOP = pathlib.Path(__file__).resolve().parent.parent.parent


def write(path, text, mode=0o755):
    path.parent.mkdir(parents=True, exist_ok=True)
    path.write_text(text)
    path.chmod(mode)


def ended(words, **how):
    """How a command ends: its status, and all that it prints."""
    done = subprocess.run([os.fspath(word) for word in words], stdin=subprocess.DEVNULL, stdout=subprocess.PIPE, stderr=subprocess.STDOUT, text=True, timeout=300, **how)
    return done.returncode, done.stdout


def tree(room, *copied):
    """A tree with links to what is in the repository, but for files and folders that are copied, so that they can be changed."""
    outer = {path.split("/")[0] for path in copied if "/" in path}
    for folder in "", *outer:
        (room / folder).mkdir(exist_ok=True)
        for name in os.listdir(TOP / folder):
            path = f"{folder}/{name}" if folder else name
            if name != ".git" and path not in outer and not any(f"{one}/".startswith(f"{path}/") for one in copied):
                (room / path).symlink_to(TOP / path)
    for path in copied:
        (room / path).parent.mkdir(parents=True, exist_ok=True)
        if (TOP / path).is_dir():
            shutil.copytree(TOP / path, room / path)
        else:
            shutil.copy(TOP / path, room / path)
