"""Which fault is told: of a read that fails in the middle of an input, and of commands more than one of whose inputs is at fault."""

import os
import re
import shutil
import subprocess

from replacing import LOCK, taken
from room import COLUMNS, Lacking, rows_text

# A read that the system fails for no reason of the file's own.
UNREAD = "refused ReadFault"


def traced(room, words, options=(), given=None):
    """What strace says of a command's reads, with its status and what it says. Standard input is the file that is given."""
    if shutil.which("strace") is None:
        raise Lacking("strace is not installed")
    line = ["strace", "-f", "-y", "-o", room.path("trace"), "-e", "trace=read", *options, room.program, *words]
    with open(room.path(given) if given else os.devnull, "rb") as source:
        done = subprocess.run(line, stdin=source, cwd=room.folder, capture_output=True, timeout=120)
    if not os.path.exists(room.path("trace")) or not room.get("trace"):
        raise Lacking(f"strace can't trace: {done.stderr[-200:]!r}")
    trace = room.get("trace").decode(errors="replace")
    os.remove(room.path("trace"))
    return trace, done.returncode, done.stdout, done.stderr.decode()


def reads_of(trace, path):
    """Which of all reads are those of a file, counted from 1."""
    reads = re.findall(r"read\(\d+<([^>]*)>", trace)
    return [at for at, name in enumerate(reads, 1) if name == path]


def each_failed_read_is_told(room, words, name, subject, given=None):
    """A command is refused wherever a read of a file fails, says so of the file, and leaves the replica as it was."""
    before = {entry: room.get(entry) for entry in ("t", "o")}
    trace, status, _, err = traced(room, words, given=given)
    assert status == 0, f"{words} said {err}"
    found = reads_of(trace, room.path(name))
    assert len(found) > 2 or name in "sp", f"{words} reads {name} {len(found)} times"
    for entry, data in before.items():
        room.put(entry, data)
    # The first, the second, one in the middle, that of the last bytes and the one that finds the end.
    for at in sorted({found[0], found[1], found[len(found) // 2], found[-2], found[-1]}):
        _, status, out, err = traced(room, words, ("-e", f"inject=read:error=EIO:when={at}"), given)
        assert (status, out, err) == (1, b"", f"{UNREAD}\n{subject}: this can't be read\n"), f"{words}, read {at} of {found}: {status} {out!r} {err!r}"
        for entry, data in before.items():
            assert room.get(entry) == data, f"{words}, read {at} of {found}: {entry} is changed"
        assert LOCK not in room.names(), f"{words}, read {at} of {found}: the lock is left"


def a_read_that_fails_in_the_middle_of_an_input_is_never_its_end(room):
    room.make("t")
    room.make("o", rows=b"")
    room.put("rows", rows_text(30_000))
    room.ok("import", "--no-header", "--batch", "2.1", "o", "rows")
    room.put("s", room.ok("summary", "t"))
    room.put("f", room.ok("offer", "o", "s"))
    room.put("p", room.ok("partial", "t", "SELECT COUNT(*) FROM T"))
    for words, name, subject, given in (
        (("import", "--no-header", "t", "rows"), "rows", "rows", None),
        (("import", "--no-header", "t", "-"), "rows", "lanes import t: standard input", "rows"),
        (("import", "--no-header", "--batch", "3.1", "t", "-"), "rows", "lanes import t: standard input", "rows"),
        (("apply", "t", "f"), "f", "f", None),
        (("apply", "t", "-"), "f", "lanes apply t: standard input", "f"),
        (("offer", "o", "s"), "s", "s", None),
        (("offer", "o", "-"), "s", "lanes offer o: standard input", "s"),
        (("offer", "o", "s"), "o", "o", None),
        (("finish", "--expect", "s", "p"), "s", "s", None),
        (("finish", "--expect", "-", "p"), "s", "lanes finish p: standard input", "s"),
        (("inspect", "o"), "o", "o", None),
        (("inspect", "s"), "s", "s", None),
        (("merge", "t", "t", "o"), "o", "o", None),
        (("query", "o", "SELECT COUNT(*) FROM T"), "o", "o", None),
        (("dump", "o"), "o", "o", None),
        (("check", "o"), "o", "o", None),
        (("summary", "o"), "o", "o", None),
        (("spread", "o", "x", "y"), "o", "o", None),
        (("partial", "o", "SELECT COUNT(*) FROM T"), "o", "o", None),
        (("partial", "-", "SELECT COUNT(*) FROM T"), "o", "lanes partial: standard input", "o"),
        (("combine", "p"), "p", "p", None),
        (("finish", "p"), "p", "p", None),
        (("finish", "-"), "p", "lanes finish: standard input", "p"),
    ):
        each_failed_read_is_told(room, words, name, subject, given)


def a_read_that_fails_under_the_lock_is_told_and_the_lock_is_given_back(room):
    room.make("t", rows=rows_text(30_000))
    room.make("o", rows=b"")
    for words in (("delete", "t", "A = 1"), ("delete-rows", "t", "1.1", "0", "0"), ("delete-rows", "--held", "t", "1.1", "0", "0"), ("apply", "t", "o"), ("forget", "t")):
        each_failed_read_is_told(room, words, "t", "t")


def damaged(data):
    """A file whose head is good: the count of its ranges claims one that isn't there."""
    return data[:-8] + (1).to_bytes(8, "little"), f"refused Truncated {len(data)}"


def the_faults_of_the_file_come_before_those_of_the_other_input(room):
    data, fault = damaged(room.make("t"))
    room.put("t", data)
    room.ok("create", "u", "U", "A", "SMALLINT")
    room.put("bad", b"junk")
    room.put("rows", b"A,B\n1,x\n")
    for words in (
        ("import", "t", "rows"),
        ("import", "--columns", "C", "t", "rows"),
        ("import", "--batch", "0.1", "t", "rows"),
        ("import", "t", "none"),
        ("apply", "t", "bad"),
        ("apply", "t", "u"),
        ("apply", "t", "none"),
        ("delete", "t", "A ="),
        ("delete", "t", "C = 1"),
        ("delete-rows", "t", "0.1", "2", "1"),
        ("delete-rows", "--held", "t", "0.1", "2", "1"),
        ("offer", "t", "bad"),
        ("query", "t", "SELECT"),
        ("dump", "--where", "A =", "t"),
        ("merge", "m", "t", "bad"),
        ("merge", "m", "t", "none"),
    ):
        room.refused(*words, line=fault)
        assert room.get("t") == data
        room.only("bad", "rows", "t", "u")


def a_busy_file_is_judged_before_it_is_told_busy(room):
    held = room.make("t")
    data, fault = damaged(held)
    room.put("bad", b"junk")
    room.put("rows", b"A,B\n1,x\n")
    with taken(room, LOCK):
        # The file's own faults, those of the other input, and Busy before those of the command.
        steps = [
            (data, ("import", "--no-header", "t", "-"), fault),
            (data, ("delete", "t", "A = 1"), fault),
            (data, ("apply", "t", "bad"), fault),
            (held, ("import", "t", "rows"), "refused BadCsv 2 2"),
            (held, ("apply", "t", "bad"), "refused BadMagic"),
            (held, ("delete", "t", "C = 1"), "refused Busy"),
            (held, ("import", "--no-header", "--batch", "0.1", "t", "one"), "refused Busy"),
            (held, ("merge", "t", "t", "bad"), "refused BadMagic"),
            (held, ("merge", "t", "t"), "refused Busy"),
            (held, ("merge", "--replace", "t", "o"), "refused Busy"),
            (held, ("merge", "t", "o"), "refused Exists"),
        ]
        room.put("one", b"7,7\n")
        room.make("o", rows=b"7,7\n")
        for kind in (data, held):
            room.put("t", kind)
            waiting = [(words, line, room.start(*words)) for wanted, words, line in steps if wanted is kind]
            for words, line, run in waiting:
                _, err = run.communicate(timeout=60)
                told = err.decode().split("\n")
                assert run.returncode == 1 and told[0] == line, f"{words} said {err!r}, not {line}"
                if line == "refused Busy":
                    assert told[1:] == ["t: another command has had the file for ten seconds", ""], f"{words} said {told}"
            assert room.get("t") == kind
        assert LOCK in room.names()


def a_merge_reads_its_inputs_in_their_order(room):
    room.make("t")
    room.put("bad", b"junk")
    os.mkdir(room.path("empty"))
    os.mkdir(room.path("d"))
    room.put("d/" + "0" * 32 + ".lanes", b"x")
    for words, line in (
        (("merge", "m", "bad", "none"), "refused BadMagic"),
        (("merge", "m", "none", "bad"), "refused ReadFault"),
        (("merge", "m", "bad", "empty"), "refused BadMagic"),
        (("merge", "m", "empty", "bad"), "refused ReadFault"),
        (("merge", "m", "t", "bad", "d"), "refused BadMagic"),
        (("merge", "m", "t", "d", "bad"), "refused Damaged"),
        (("merge", "m/", "bad", "empty"), "refused BadMagic"),
    ):
        room.refused(*words, line=line)
        room.only("bad", "d", "empty", "t")


def a_merge_that_is_refused_or_changes_nothing_gives_the_lock_back(room):
    held = room.make("t")
    room.make("other", rows=b"9,9\n")
    room.ok("create", "u", "U", "A", "SMALLINT")
    room.put("bad", b"junk")
    for words, line in (
        (("merge", "t", "t", "bad"), "refused BadMagic"),
        (("merge", "t", "bad", "t"), "refused BadMagic"),
        (("merge", "t", "t", "u"), "refused SchemaDiffers"),
        (("merge", "t", "t", "other"), "refused Conflict 1.1"),
        (("merge", "t", "t", "none"), "refused ReadFault"),
    ):
        room.refused(*words, line=line)
        assert room.get("t") == held
        room.only("bad", "other", "t", "u")
    before = os.stat(room.path("t")).st_ino
    for words in (("merge", "t", "t"), ("merge", "t", "t", "t"), ("merge", "--quiet", "t", "t")):
        room.ok(*words, prints=b"" if "--quiet" in words else b"ok\n")
        assert os.stat(room.path("t")).st_ino == before and room.get("t") == held
        room.only("bad", "other", "t", "u")


def a_folder_that_can_not_be_synced_is_told_by_each_command_that_writes_a_file(room):
    room.make("o", rows=b"9,9\n")
    room.put("rows", b"3,40\n")
    told = "t: this was replaced, but its folder could not be synced: a loss of power may bring the old file back\n"
    for words in (
        ("create", "t", "T", *COLUMNS),
        ("import", "--no-header", "--batch", "2.1", "t", "rows"),
        ("delete", "t", "A = 1"),
        ("delete-rows", "t", "2.1", "0", "0"),
        ("apply", "t", "v"),
        ("forget", "t"),
        ("merge", "--replace", "t", "o"),
        ("merge", "t", "t", "v"),
    ):
        for name in ("t", "v"):
            if name in room.names():
                os.remove(room.path(name))
        if words[0] != "create":
            room.make("t", rows=b"1,10\n")
        if words[0] == "forget":
            room.ok("delete", "t", "A = 1")
        room.make("v", rows=b"")
        room.ok("import", "--no-header", "--batch", "5.1", "v", "rows")
        trace, status, out, err = traced(room, words, ("-e", "trace=fsync", "-e", "inject=fsync:error=EIO:when=2"))
        assert status == 0 and out.startswith(b"ok") and trace.count("fsync(") == 2, f"{words} ended with {status} and wrote {out!r}"
        assert err == told or (words[0] == "create" and err.startswith("t: ") and "could not be synced" in err), f"{words} said {err!r}"
        room.only("o", "rows", "t", "v")


def a_name_that_can_not_be_drawn_is_told_and_nothing_is_changed(room):
    """Each random word that the system refuses: those of a batch's name, and that of a temporary of a folder."""
    held = room.make("t")
    room.ok("create", "d/", "T", *COLUMNS)
    room.put("rows", b"3,40\n")
    parts = os.listdir(room.path("d"))
    for words, draws in (
        (("import", "--no-header", "t", "rows"), [UNREAD] * 16),
        (("import", "--no-header", "d", "rows"), [UNREAD] * 16 + ["refused WriteFault"]),
        (("delete-rows", "d", "1.1", "0", "0"), ["refused WriteFault"]),
        # The name of the folder until it is whole, and that of the temporary in it.
        (("create", "e/", "T", *COLUMNS), ["refused WriteFault"] * 2),
    ):
        trace, status, _, err = traced(room, words, ("-e", "trace=getrandom"))
        # The C library draws words of its own, for which it doesn't wait.
        drawn = [at for at, line in enumerate(re.findall(r"getrandom\(.*", trace), 1) if "GRND_NONBLOCK" not in line]
        assert status == 0 and len(drawn) == len(draws), f"{words} drew {len(drawn)} words and said {err!r}"
        room.put("t", held)
        for name in set(os.listdir(room.path("d"))) - set(parts):
            os.remove(room.path("d/" + name))
        if "e" in room.names():
            shutil.rmtree(room.path("e"))
        for at, line in zip(drawn, draws):
            _, status, out, err = traced(room, words, ("-e", "trace=getrandom", "-e", f"inject=getrandom:error=EIO:when={at}"))
            assert (status, out, err.split("\n")[0]) == (1, b"", line), f"{words}, word {at}: {status} {out!r} {err!r}"
            assert line != UNREAD or err.endswith("\nthe system gives no random bytes to draw a batch's name with: give it, by --batch O.N\n"), f"{words} said {err!r}"
            assert room.get("t") == held and os.listdir(room.path("d")) == parts
            room.only("d", "rows", "t")


def a_file_of_another_disk_is_not_the_output(room):
    """OUT and IN have one number, each on a file system of its own. A merge that took them for one file would leave OUT as it is."""
    room.make("one", rows=b"1,10\n")
    room.make("two", rows=b"2,20\n")
    os.mkdir(room.path("a"))
    os.mkdir(room.path("b"))
    script = 'mount -t tmpfs none a && mount -t tmpfs none b && cp one a/t && cp two b/t && stat -c %i a/t b/t > numbers && "$0" merge --replace a/t b/t && cp a/t merged'
    if shutil.which("unshare") is None:
        raise Lacking("unshare is not installed")
    done = subprocess.run(["unshare", "-m", "sh", "-c", script, room.program], cwd=room.folder, capture_output=True, timeout=120)
    if "numbers" not in room.names():
        raise Lacking(f"no file system can be mounted: {done.stderr[-200:]!r}")
    numbers = room.get("numbers").split()
    if len(set(numbers)) != 1:
        raise Lacking(f"the files have the numbers {numbers}")
    assert (done.returncode, done.stdout, done.stderr) == (0, b"ok\n", b""), done
    assert room.get("merged") == room.get("two") != room.get("one")


def a_file_in_the_root_is_replaced_too(room):
    """The folder of FILE is the root: a folder of this test, in which are the program and the libraries that it is linked with."""
    if os.geteuid() != 0 or shutil.which("ldd") is None:
        raise Lacking("this is not root, or there is no ldd")
    held = room.make("t", rows=b"1,10\n")
    room.ok("delete", "t", "A = 1")
    root = room.path("root")
    libraries = re.findall(r"(/\S+) \(0x", subprocess.run(["ldd", room.program], capture_output=True, text=True, timeout=120).stdout)
    for name in libraries:
        os.makedirs(root + os.path.dirname(name), exist_ok=True)
        shutil.copy(name, root + name)
    os.makedirs(root, exist_ok=True)
    shutil.copy(room.program, f"{root}/lanes")
    room.put("root/t", held)
    room.put("root/o", held)
    before = os.listdir(root)

    def enter():
        os.chroot(root)
        os.chdir("/")

    for words, prints in (
        (("apply", "/t", "/o"), b"ok batches=1 ranges=0 new=0\n"),
        (("delete", "/t", "A = 1"), b"ok 1\n"),
        (("merge", "t", "/t", "o"), b"ok\n"),
        (("create", "/d/", "U", "A", "SMALLINT"), b"ok\n"),
    ):
        done = subprocess.run(["/lanes", *words], preexec_fn=enter, capture_output=True, timeout=120)
        assert (done.returncode, done.stdout, done.stderr) == (0, prints, b""), f"{words}: {done}"
    assert room.get("root/t") == room.get("t")
    assert sorted(os.listdir(root)) == sorted([*before, "d"])


TESTS = [
    a_read_that_fails_in_the_middle_of_an_input_is_never_its_end,
    a_read_that_fails_under_the_lock_is_told_and_the_lock_is_given_back,
    the_faults_of_the_file_come_before_those_of_the_other_input,
    a_busy_file_is_judged_before_it_is_told_busy,
    a_merge_reads_its_inputs_in_their_order,
    a_merge_that_is_refused_or_changes_nothing_gives_the_lock_back,
    a_folder_that_can_not_be_synced_is_told_by_each_command_that_writes_a_file,
    a_name_that_can_not_be_drawn_is_told_and_nothing_is_changed,
    a_file_of_another_disk_is_not_the_output,
    a_file_in_the_root_is_replaced_too,
]
