"""The driver of folders in C, by the example that keeps one: each of its calls of the system fails in turn, with the errors that the manual names
for it one after another, and it is killed at each that changes something. The folder has the rows that it had or those that the command makes of
them, each part is whole and named by its bytes, and the same command then goes on."""

import errno
import hashlib
import itertools
import os
import re
import shutil
import subprocess

#: The errors of a file system that has no locks, and of one that has no hard links.
NO_LOCKS = ("ENOLCK", "ENOSYS", "EOPNOTSUPP")
NO_LINKS = ("EPERM", "EOPNOTSUPP", "EMLINK")

#: The calls of the system, each with errors that it can have.
ERRORS = {
    "openat": ("EACCES", "EMFILE", "ENFILE", "ENOMEM", "EIO"),
    "getdents64": ("EIO", "ENOMEM"),
    "fstat,newfstatat": ("EIO", "ENOMEM"),
    "fchmod": ("EPERM", "EIO", "EROFS"),
    "flock": (*NO_LOCKS, "EIO", "EBADF", "EINVAL"),
    "read": ("EIO", "EISDIR"),
    "write": ("ENOSPC", "EDQUOT", "EFBIG", "EIO"),
    "fsync": ("EIO", "ENOSPC", "EDQUOT", "EROFS"),
    "linkat": (*NO_LINKS, "EIO", "ENOSPC", "EDQUOT", "EACCES", "EROFS", "ENOMEM", "EXDEV"),
    "unlinkat": ("EIO", "EACCES", "EBUSY", "EROFS", "ENOENT"),
}

#: The calls at which it is killed, those of which each error is tried, and how many calls are to have failed at least, with each error.
KILLED_AT, EACH, LEAST = ("write", "fsync", "linkat", "unlinkat"), ("flock", "linkat", "unlinkat"), 1

COMMANDS = (
    ("make", "T A INTEGER"),
    ("import", "A\n7\n"),
    ("load", "5", "A\n7\n"),
    ("load", "1", "A\n1\n"),
    ("query", "SELECT COUNT(*) FROM T"),
    ("pack",),
)

#: What is left if a temporary can't be removed, and by a kill.
TEMPORARY = re.compile(r"\.part-[0-9a-f]{16}")


class Folder:
    """A folder that the example keeps."""

    def __init__(self, room, keeps):
        self.room, self.keeps, self.path = room, keeps, room / "site"
        start = room / "start"
        start.mkdir()
        for words in ("make", "T A INTEGER"), ("load", "1", "A\n1\n"), ("load", "2", "A\n2\n3\n"):
            done = subprocess.run([keeps, start, *words], capture_output=True, text=True)
            assert done.returncode == 0, done
        for part in start.iterdir():
            part.chmod(0o604)  # a mode that no umask gives, so that a new part is given it

    def begin(self, is_empty=False):
        shutil.rmtree(self.path, ignore_errors=True)
        if is_empty:
            self.path.mkdir()
        else:
            shutil.copytree(self.room / "start", self.path)

    def run(self, words, *options):
        """How a command ends below strace, and its trace."""
        trace = self.room / "trace"
        words = ["strace", "-f", "-o", trace, *options, self.keeps, self.path, *words]
        done = subprocess.run([os.fspath(word) for word in words], capture_output=True, text=True, timeout=60)
        return done, trace.read_text(errors="replace")

    def rows(self):
        """The rows, in order; None of a folder without parts. Each part is named by its bytes."""
        parts = self.parts()
        for name in parts:
            assert name == hashlib.sha512((self.path / name).read_bytes()).hexdigest()[:32] + ".lanes", name
        if not parts:
            return None
        done = subprocess.run([self.keeps, self.path, "query", "SELECT A,COUNT(*) FROM T GROUP BY A"], capture_output=True, text=True, timeout=60)
        assert done.returncode == 0, done
        return sorted(done.stdout.split("\n"))

    def parts(self):
        return sorted(name for name in os.listdir(self.path) if re.fullmatch(r"[0-9a-f]{32}\.lanes", name))

    def others(self):
        return sorted({*os.listdir(self.path)} - {*self.parts()})


def calls_of(trace, kind):
    return len(re.findall(rf"^\d+ +(?:{kind.replace(',', '|')})\(", trace, re.M))


def judge(folder, at, ended, kind, error, before, after):
    """What an end has left is right."""
    now, others = folder.rows(), folder.others()
    assert now in (before, after), f"{at}: it has the rows {now}"
    assert all(TEMPORARY.fullmatch(name) for name in others), f"{at}: it left {others}"
    if not error:
        return
    assert not others or kind == "unlinkat", f"{at}: it left {others}"
    if ended.returncode == 0:
        assert now == after, f"{at}: it has the rows {now}"
        assert kind != "fsync" or "could not be synced" in ended.stderr, f"{at}: {ended}"
    elif ended.returncode == 2 and now == before and kind in ("openat", "read"):
        pass  # the example has no random numbers
    else:
        said = ended.stderr.split("\n")
        is_told = said[0].startswith("refused Memory: ") if error == "ENOMEM" else said[0].startswith("refused System: ") and said[1] == os.strerror(getattr(errno, error))
        assert is_told, f"{at}: {ended}"
        assert kind != "linkat" or error not in NO_LINKS, f"{at}: it does not do without links: {ended}"
        assert (kind, error) != ("unlinkat", "ENOENT"), f"{at}: it takes what is gone for a fault: {ended}"


def tries_of(kind, count, errors):
    """The calls of a kind that fail, each with its errors, and those at which the command is killed, without one."""
    for when in range(1, count + 1):
        for error in ERRORS[kind] if kind in EACH else (next(errors[kind]),):
            yield when, error
        if kind in KILLED_AT:
            yield when, None


def each_call_of_the_example_fails_and_nothing_is_lost(room, keeps):
    """How often each call failed with each error; and was the last one, by no error."""
    folder, counts, errors = Folder(room, keeps), {}, {kind: itertools.cycle(names) for kind, names in ERRORS.items()}
    for words in COMMANDS:
        folder.begin(words[0] == "make")
        before, parts = folder.rows(), folder.parts()
        ended, trace = folder.run(words)
        assert ended.returncode == 0, (words, ended)
        after = folder.rows()
        for kind in ERRORS:
            for when, error in tries_of(kind, calls_of(trace, kind), errors):
                folder.begin(words[0] == "make")
                at = f"{words}, {kind} {when} {error or 'killed'}"
                ended, told = folder.run(words, "-y", "-e", f"trace={kind}", "-e", f"inject={kind}:{f'error={error}' if error else 'signal=KILL'}:when={when}")
                assert ("(INJECTED)" if error else "killed by SIGKILL") in told, f"{at} was not come to"
                judge(folder, at, ended, kind, error, before, after)
                counts[kind, error] = counts.get((kind, error), 0) + 1
                if kind == "flock" and error:
                    # Without locks a folder is listed and a part is made, but none is removed or judged.
                    is_alone = re.search(r"flock\(\d+<[^>]*/site>, LOCK_EX.*INJECTED", told)
                    is_let_go = re.search(r"flock\(.*, LOCK_UN.*INJECTED", told)  # it is closed all the same
                    assert bool(ended.returncode) == (bool(is_alone) or error not in NO_LOCKS and not is_let_go), f"{at}: {ended}"
                    assert not is_alone or folder.parts() == parts, f"{at}: it changed parts without the lock"
                again = subprocess.run([keeps, folder.path, *words], capture_output=True, text=True, timeout=60)
                assert again.returncode == 0, f"after {at}: {again}"
    wanted = {(kind, error) for kind, names in ERRORS.items() for error in names} | {(kind, None) for kind in KILLED_AT}
    assert all(counts.get(one, 0) >= LEAST for one in wanted), f"too little was tried: {counts}"
    return counts
