"""A folder of its own for a test, and the program in it."""

import os
import subprocess

SECONDS = 120
COLUMNS = ("A", "SMALLINT", "B", "BIGINT")


class Lacking(Exception):
    """What a test needs and this machine has not."""


class Room:
    def __init__(self, program, folder):
        self.program, self.folder = program, folder

    def path(self, name):
        return os.path.join(self.folder, name)

    def put(self, name, data):
        with open(self.path(name), "wb") as file:
            file.write(data)

    def get(self, name):
        with open(self.path(name), "rb") as file:
            return file.read()

    def names(self):
        return sorted(os.listdir(self.folder))

    def start(self, *words, **how):
        """A run that goes on meanwhile."""
        how = {"stdin": subprocess.DEVNULL, "stdout": subprocess.PIPE, "stderr": subprocess.PIPE, "cwd": self.folder, **how}
        return subprocess.Popen([self.program, *words], **how)

    def run(self, *words, given=b"", **how):
        """Status, standard output and standard error of a run."""
        done = subprocess.run([self.program, *words], input=given, **{"cwd": self.folder, "capture_output": True, "timeout": SECONDS, **how})
        return done.returncode, done.stdout, done.stderr

    def ok(self, *words, given=b"", prints=None, **how):
        """The standard output of a run that has to end well, and maybe to print exactly this."""
        status, out, err = self.run(*words, given=given, **how)
        assert status == 0, f"{words} ended with {status}: {err[-300:]!r}"
        assert prints is None or out == prints, f"{words} wrote {out[-300:]!r}, not {prints!r}"
        return out

    def refused(self, *words, given=b"", line, sentence=None, **how):
        """A run that has to be refused with this line, and maybe with this sentence below it."""
        status, _, err = self.run(*words, given=given, **how)
        told = err.decode(errors="replace").split("\n")
        assert status == 1 and told[0] == line, f"{words} ended with {status} and said {err[-300:]!r}, not {line!r}"
        assert sentence is None or told[1:] == [sentence, ""], f"{words} said {told[1:]}, not {sentence!r}"

    def make(self, name="t", rows=b"1,10\n2,20\n,30\n"):
        """A file of a table with two columns, with one batch."""
        self.ok("create", name, "T", *COLUMNS, prints=b"ok\n")
        if rows:
            self.ok("import", "--no-header", "--batch", "1.1", name, "-", given=rows)
        return self.get(name)

    def only(self, *names):
        """Nothing else stands in the folder, and no lock."""
        assert self.names() == sorted(names), f"the folder has {self.names()}, not {sorted(names)}"


def rows_text(count, first=0):
    """So many rows of the two columns, as a text without a header."""
    return "".join(f"{at % 30_000},{at * 1_000_003}\n" for at in range(first, first + count)).encode()
