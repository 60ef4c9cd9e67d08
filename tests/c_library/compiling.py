"""How what c/ has is compiled: the drivers, and programs that use them."""

import os
import pathlib
import shutil
import subprocess

from room import Lacking

TOP = pathlib.Path(__file__).resolve().parent.parent.parent
C99, CPP17 = ("gcc", "-x", "c", "-std=c99"), ("g++", "-x", "c++", "-std=c++17")
STRICT = ("-Wall", "-Wextra", "-Wpedantic", "-Werror", f"-I{TOP / 'include'}", f"-I{TOP / 'c'}", f"-I{TOP / 'tests' / 'c_library'}")

#: The drivers, by the variables of pkg-config that name them.
DRIVERS = {
    "file_driver": TOP / "c" / "lanes_file_driver.c",
    "folder_driver": TOP / "c" / "lanes_folder_driver.c",
    "arrow": TOP / "c" / "lanes_arrow.c",
}


def run(*words):
    """What a command prints; it must succeed."""
    ran = subprocess.run([os.fspath(word) for word in words], stdout=subprocess.PIPE, stderr=subprocess.STDOUT, text=True, timeout=600)
    assert ran.returncode == 0, f"{words} ended with {ran.returncode}:\n{ran.stdout[-2000:]}"
    return ran.stdout


def valgrind(*options):
    """The words that run a program under valgrind."""
    if not shutil.which("valgrind"):
        raise Lacking("there is no valgrind")
    return ("valgrind", "--quiet", "--error-exitcode=9", *options)


def compiled(library, folder, name, *sources, standard=C99):
    """A program of some sources, without a warning. It has the library for every processor, which valgrind knows."""
    program = folder / f"{name}-{standard[-1]}"
    run(*standard, *STRICT, "-g", "-O1", *sources, "-x", "none", library / "liblanes-x86-64-v2.a", "-o", program)
    return program
