"""How a part comes into a folder and goes: whole, in an order of system calls that no crash can spoil, under locks, or not at all."""

import fcntl
import os
import random
import re
import shutil
import signal
import stat
import subprocess
import time

from parts import all_are_named, count, make_folder, parts_of
from replacing import as_nobody, limited
from room import Lacking

CALLS = "openat,flock,getdents64,write,fsync,link,linkat,rename,renameat,renameat2,unlink,unlinkat,mkdir,mkdirat"


def traced(room, *words, options=(), given=b""):
    """What strace says of a command, with the command's status and what it says on standard error."""
    if shutil.which("strace") is None:
        raise Lacking("strace is not installed")
    words = ["strace", "-f", "-y", "-o", "trace", "-e", f"trace={CALLS}", *options, room.program, *words]
    done = subprocess.run(words, input=given, cwd=room.folder, capture_output=True, timeout=120)
    if not os.path.exists(room.path("trace")) or not room.get("trace"):
        raise Lacking(f"strace can't trace: {done.stderr[-200:]!r}")
    return room.get("trace").decode(), done.returncode, done.stderr


def in_order(trace, steps):
    """Each of these steps is in a trace, in this order."""
    place = 0
    for step in steps:
        found = re.compile(step).search(trace, place)
        assert found, f"{step} is not in its place in\n{trace[-3000:]}"
        place = found.end()


def only_parts(room, folder="d"):
    """The folder has parts and nothing else."""
    assert sorted(os.listdir(room.path(folder))) == parts_of(room, folder), f"the folder has {os.listdir(room.path(folder))}"


def an_import_lists_under_the_lock_and_syncs_before_it_answers(room):
    make_folder(room)
    trace, status, err = traced(room, "import", "--no-header", "d", "-", given=b"7,7\n")
    assert status == 0, f"it said {err!r}"
    in_order(
        trace,
        (
            r"openat\(.*\"d\", O_RDONLY",
            r"flock\(.*/d>, LOCK_SH\|LOCK_NB\) += 0",
            r"getdents64\(",
            r"getdents64\(.*\) += 0",
            r"getdents64\(.*\) += [1-9]",
            r"getdents64\(.*\) += 0",
            r"flock\(.*/d>, LOCK_UN\)",
            r"openat\(.*\"d/[0-9a-f]{32}\.lanes\", O_RDONLY",
            r"openat\(.*\"d\", O_RDONLY",
            r"openat\(.*\"d/\.part-[0-9a-f]{16}\", O_WRONLY\|O_CREAT\|O_EXCL",
            r"flock\(.*\.part-[0-9a-f]{16}>, LOCK_EX\|LOCK_NB\) += 0",
            r"write\(.*\.part-[0-9a-f]{16}>",
            r"fsync\(.*\.part-[0-9a-f]{16}>\) += 0",
            r"link.*\"d/\.part-[0-9a-f]{16}\".*\"d/[0-9a-f]{32}\.lanes\".* = 0",
            r"unlink.*\"d/\.part-[0-9a-f]{16}\"",
            r"fsync\([0-9]+<[^>]*/d>\) += 0",
            r"write\(1<.*ok batches=1",
        ),
    )
    assert trace.count("fsync(") == 2 and "rename" not in trace and "LOCK_EX" not in trace.replace(re.search(r"flock\(.*\.part-.*", trace)[0], "")


def a_pack_is_on_the_disk_before_anything_is_removed_under_the_lock(room):
    make_folder(room, loads=3)
    trace, status, err = traced(room, "pack", "--all", "d")
    assert status == 0, f"it said {err!r}"
    in_order(
        trace,
        (
            r"fsync\(.*\.part-[0-9a-f]{16}>\) += 0",
            r"flock\(.*/d>, LOCK_EX\|LOCK_NB\) += 0",
            r"getdents64\(",
            r"link.*\"d/\.part-[0-9a-f]{16}\".*\"d/[0-9a-f]{32}\.lanes\".* = 0",
            r"openat\(.*\"d/[0-9a-f]{32}\.lanes\", O_RDONLY",
            r"fsync\(.*/d/[0-9a-f]{32}\.lanes>\) += 0",
            r"fsync\([0-9]+<[^>]*/d>\) += 0",
            r"unlink.*\"d/[0-9a-f]{32}\.lanes\"",
            r"unlink.*\"d/[0-9a-f]{32}\.lanes\"",
            r"unlink.*\"d/[0-9a-f]{32}\.lanes\"",
            r"unlink.*\"d/[0-9a-f]{32}\.lanes\"",
            r"fsync\([0-9]+<[^>]*/d>\) += 0",
            r"flock\(.*/d>, LOCK_UN\)",
            r"write\(1<.*ok parts=1 packed=4",
        ),
    )
    assert trace.count(f"\"d/{parts_of(room)[0]}\", O_RDONLY") == 1, "the pack is not synced by the handle that read it"
    placed = trace.index("link")
    assert not re.search(r"unlink.*\"d/[0-9a-f]{32}\.lanes\"", trace[:placed]), "a part was removed before the pack was in its place"
    assert f"unlink(\"d/{parts_of(room)[0]}\"" not in trace and f"\"d/{parts_of(room)[0]}\", 0) = 0" not in trace


def a_pack_that_is_not_known_to_be_on_the_disk_removes_nothing(room):
    # The syncs are those of the temporary, and under the lock of the new part and of the folder.
    for when in ("2", "3", "2+"):
        folder = f"d{when}"
        make_folder(room, folder, loads=3)
        before = set(parts_of(room, folder))
        trace, status, err = traced(room, "pack", "--all", folder, options=("-e", f"inject=fsync:error=EIO:when={when}"))
        assert "INJECTED" in trace
        said = f"refused WriteFault\n{folder}: the joined part was added, but it could not be synced, so no part is removed\n"
        assert status == 1 and err == said.encode(), f"at {when} it said {err!r}"
        left = set(parts_of(room, folder))
        assert before < left and len(left) == len(before) + 1, f"at {when} the folder has {left}"
        assert count(room, folder) == 6
        room.ok("pack", "--all", folder, prints=b"ok parts=1 packed=4\n")
        assert count(room, folder) == 6


def stopped_at(room, call, *words, trace="trace", when=1):
    """A command that is stopped by the kernel once it has made a system call so often, and the id of its process."""
    if shutil.which("strace") is None:
        raise Lacking("strace is not installed")
    words = ["strace", "-f", "-o", trace, "-e", f"trace={call}", "-e", f"inject={call}:signal=STOP:when={when}", room.program, *words]
    one = subprocess.Popen(words, cwd=room.folder, stdin=subprocess.DEVNULL, stdout=subprocess.PIPE, stderr=subprocess.PIPE)
    deadline = time.monotonic() + 20
    while "stopped by SIGSTOP" not in (room.get(trace).decode() if os.path.exists(room.path(trace)) else ""):
        assert time.monotonic() < deadline and one.poll() is None, f"{words} was not stopped: {one.stderr.read()!r}"
        time.sleep(0.02)
    return one, int(room.get(trace).split()[0])


def a_pack_looks_under_the_lock_at_its_part_before_it_removes(room):
    for fault in ("other", "gone"):
        make_folder(room, fault, loads=3)
        before = set(parts_of(room, fault))
        # It has given its part the name, and has the lock.
        packing, process = stopped_at(room, "link", "pack", "--all", fault, trace=f"trace-{fault}")
        (pack,) = set(parts_of(room, fault)) - before
        if fault == "other":
            room.put(f"{fault}/{pack}", b"other bytes")
        else:
            os.remove(room.path(f"{fault}/{pack}"))
        os.kill(process, signal.SIGCONT)
        out, err = packing.communicate(timeout=60)
        if fault == "other":
            assert packing.returncode == 1 and err.startswith(f"refused Damaged\n{fault}/{pack}: ".encode()), f"it said {err!r}"
            os.remove(room.path(f"{fault}/{pack}"))
            assert set(parts_of(room, fault)) == before
        else:
            assert (packing.returncode, out, err) == (0, b"ok parts=1 packed=4\n", b""), f"it said {err!r}"
        assert count(room, fault) == 6


def a_part_that_is_there_already_is_synced_by_the_handle_that_read_it(room):
    make_folder(room)
    room.ok("delete-rows", "d", "5.5", "1", "1")
    before = parts_of(room)
    trace, status, err = traced(room, "delete-rows", "d", "5.5", "1", "1")
    assert status == 0 and parts_of(room) == before, f"it said {err!r}"
    put = trace[trace.index("link") :]
    in_order(
        put,
        (
            r"link.*EEXIST",
            r"openat\(.*\"d/[0-9a-f]{32}\.lanes\", O_RDONLY",
            r"fsync\(.*/d/[0-9a-f]{32}\.lanes>\) += 0",
            r"fsync\([0-9]+<[^>]*/d>\) += 0",
            r"write\(1<.*ok",
        ),
    )
    assert len(re.findall(r"openat\(.*\.lanes\", O_RDONLY", put)) == 1


def a_merge_opens_each_part_once(room):
    make_folder(room)
    for rows in (b"1,1\n", b"2,2\n", b"3,3\n", b"4,4\n"):
        room.ok("import", "--no-header", "d", "-", given=rows)
    trace, status, err = traced(room, "merge", "all.lanes", "d")
    assert status == 0, f"it said {err!r}"
    opened = re.findall(r"openat\(.*\"(d/[0-9a-f]{32}\.lanes)\", O_RDONLY", trace)
    assert sorted(opened) == sorted("d/" + name for name in parts_of(room)), f"it opened {opened}"
    folders = re.findall(r"openat\(.*\"d\", O_RDONLY", trace)
    assert len(folders) < len(opened), f"it opened the folder {len(folders)} times"


def a_folder_is_made_all_at_once(room):
    os.mkdir(room.path("e"))
    trace, status, err = traced(room, "create", "e/d/", "T", "A", "SMALLINT")
    assert status == 0, f"it said {err!r}"
    new = r"e/\.d\.lanes-new-[0-9a-f]{16}"
    in_order(
        trace,
        (
            rf"mkdir.*\"{new}\"",
            rf"openat\(.*\"{new}\", O_RDONLY",
            rf"flock\(.*{new}>, LOCK_EX\|LOCK_NB\) += 0",
            rf"openat\(.*\"{new}/\.part-[0-9a-f]{{16}}\", O_WRONLY\|O_CREAT\|O_EXCL",
            rf"flock\(.*{new}/\.part-[0-9a-f]{{16}}>, LOCK_EX\|LOCK_NB\) += 0",
            rf"write\(.*{new}/\.part-[0-9a-f]{{16}}>",
            rf"fsync\(.*{new}/\.part-[0-9a-f]{{16}}>\) += 0",
            rf"link.*\"{new}/\.part-[0-9a-f]{{16}}\".*\"{new}/[0-9a-f]{{32}}\.lanes\".* = 0",
            rf"unlink.*\"{new}/\.part-[0-9a-f]{{16}}\"",
            rf"fsync\(.*{new}>\) += 0",
            rf"rename.*\"{new}\".*\"e/d\"",
            r"fsync\([0-9]+<[^>]*/e>\) += 0",
            r"write\(1<.*ok",
        ),
    )
    assert os.listdir(room.path("e")) == ["d"]
    for fault in ("fsync:error=EIO:when=1", "fsync:error=EIO:when=2", "write:error=EIO:when=1", "rename,renameat,renameat2:error=EIO"):
        _, status, err = traced(room, "create", "e/f/", "T", "A", "SMALLINT", options=("-e", f"inject={fault}"))
        assert status == 1 and err.startswith(b"refused WriteFault\n"), f"at {fault} it said {err!r}"
        assert os.listdir(room.path("e")) == ["d"], f"at {fault} the folder has {os.listdir(room.path('e'))}"


def a_failed_call_leaves_the_folder_as_it_was(room):
    make_folder(room)
    before = parts_of(room)
    for fault in ("fsync:error=EIO:when=1", "write:error=ENOSPC:when=1"):
        for words in (("import", "--no-header", "d", "-"), ("import", "--no-header", "--batch", "8.8", "d", "-"), ("delete", "d", "A = 1"), ("pack", "--all", "d")):
            _, status, err = traced(room, *words, options=("-e", f"inject={fault}"), given=b"7,7\n")
            assert status == 1 and err.startswith(b"refused WriteFault\nd: "), f"at {fault} {words} said {err!r}"
            assert sorted(os.listdir(room.path("d"))) == before, f"at {fault} {words} left {os.listdir(room.path('d'))}"


def a_folder_that_can_not_be_synced_is_told_and_the_part_is_there(room):
    make_folder(room)
    _, status, err = traced(room, "import", "--no-header", "d", "-", options=("-e", "inject=fsync:error=EIO:when=2"), given=b"7,7\n")
    assert status == 0 and err == b"d: the part was added, but the folder could not be synced: a loss of power may take it away\n", f"it said {err!r}"
    assert count(room) == 3
    only_parts(room)


def without_hard_links_a_part_is_renamed_and_replaces_none(room):
    make_folder(room)
    for error in ("EPERM", "EOPNOTSUPP", "EMLINK"):
        before = len(parts_of(room))
        trace, status, err = traced(room, "import", "--no-header", "d", "-", options=("-e", f"inject=link,linkat:error={error}"), given=b"7,7\n")
        assert status == 0, f"it said {err!r}"
        in_order(trace, (r"link.*INJECTED", r"rename.*\"d/\.part-[0-9a-f]{16}\".*\"d/[0-9a-f]{32}\.lanes\".* = 0", r"fsync\([0-9]+<[^>]*/d>\) += 0"))
        assert len(parts_of(room)) == before + 1
    room.ok("delete-rows", "d", "5.5", "1", "1")
    trace, status, err = traced(room, "delete-rows", "d", "5.5", "1", "1", options=("-e", "inject=link,linkat:error=EPERM"))
    assert status == 0 and "rename" not in trace, f"it said {err!r}"
    only_parts(room)


def a_link_that_fails_is_a_failed_write_and_changes_nothing(room):
    make_folder(room, loads=3)
    offered(room, "v", b"9,9\n")
    before = parts_of(room)
    for error, sentence in (("EIO", "this can't be written"), ("ENOSPC", "no space is left on the device"), ("EACCES", "permission denied: this may not be written"), ("ENOSYS", "this can't be written")):
        for words in (("import", "--no-header", "d", "-"), ("import", "--no-header", "--batch", "8.8", "d", "-"), ("delete", "d", "A = 1"), ("apply", "d", "v"), ("pack", "--all", "d")):
            trace, status, err = traced(room, *words, options=("-e", f"inject=link,linkat:error={error}"), given=b"7,7\n")
            assert "rename" not in trace and status == 1 and err == f"refused WriteFault\nd: {sentence}\n".encode(), f"at {error} {words} said {err!r}"
            assert sorted(os.listdir(room.path("d"))) == before, f"at {error} {words} left {os.listdir(room.path('d'))}"


def locks_of(room, *words, given=b""):
    """Which of all calls of flock, counted from 1, take the lock of the folder shared, that of a temporary, and that of the folder alone."""
    trace, status, err = traced(room, *words, given=given)
    assert status == 0, f"{words} said {err!r}"
    calls = re.findall(r"flock\(\d+<([^>]*)>, (\w+)", trace)
    return tuple([at for at, (name, how) in enumerate(calls, 1) if how == kind and name.endswith(end)] for kind, end in (("LOCK_SH", "/d"), ("LOCK_EX", ""), ("LOCK_EX", "/d")))


def a_lock_that_fails_is_refused_and_changes_nothing(room):
    make_folder(room, "start", loads=3)
    offered(room, "v", b"9,9\n")

    def begin():
        shutil.rmtree(room.path("d"), ignore_errors=True)
        shutil.copytree(room.path("start"), room.path("d"))

    for words in (("query", "d", "SELECT COUNT(*) FROM T"), ("import", "--no-header", "d", "-"), ("import", "--no-header", "--batch", "8.8", "d", "-"), ("apply", "d", "v"), ("delete", "d", "A = 1"), ("pack", "--all", "d")):
        begin()
        shared, temporary, alone = locks_of(room, *words, given=b"7,7\n")
        assert shared and bool(temporary) == (words[0] != "query") and bool(alone) == (words[0] in ("apply", "pack") or "--batch" in words), f"{words} takes {shared, temporary, alone}"
        # Who lists reads, and who puts writes.
        for at, refusal, sentence in [(at, "ReadFault", "this can't be read") for at in shared[:1]] + [(at, "WriteFault", "this can't be written") for at in temporary]:
            begin()
            before = parts_of(room)
            _, status, err = traced(room, *words, options=("-e", f"inject=flock:error=EIO:when={at}"), given=b"7,7\n")
            assert status == 1 and err == f"refused {refusal}\nd: {sentence}\n".encode(), f"at lock {at} {words} said {err!r}"
            assert sorted(os.listdir(room.path("d"))) == before, f"at lock {at} {words} left {os.listdir(room.path('d'))}"


def that_too_many_files_are_open_is_told(room):
    make_folder(room)
    offered(room, "v", b"9,9\n")
    for error in ("EMFILE", "ENFILE"):
        for name, words in (("d", ("query", "d", "SELECT COUNT(*) FROM T")), ("d", ("import", "--no-header", "d", "-")), ("v", ("query", "v", "SELECT COUNT(*) FROM T")), ("v", ("apply", "d", "v"))):
            _, status, err = traced(room, *words, options=("-P", name, "-e", f"inject=openat:error={error}"), given=b"7,7\n")
            err = b"".join(line for line in err.splitlines(True) if not line.startswith(b"strace: "))
            assert status == 1 and err == f"refused ReadFault\n{name}: too many files are open: allow more by ulimit -n\n".encode(), f"at {error} {words} said {err!r}"


def a_folder_that_can_not_be_locked_is_read_and_not_packed(room):
    for error in ("EOPNOTSUPP", "ENOSYS", "ENOLCK"):
        shutil.rmtree(room.path("d"), ignore_errors=True)
        one_that_can_not_be_locked_is_read_and_not_packed(room, error)


def one_that_can_not_be_locked_is_read_and_not_packed(room, error):
    make_folder(room, loads=3)
    no_lock = ("-e", f"inject=flock:error={error}")
    for words in (("query", "d", "SELECT COUNT(*) FROM T"), ("import", "--no-header", "d", "-"), ("import", "--no-header", "--batch", "8.8", "d", "-"), ("delete", "d", "A = 1")):
        _, status, err = traced(room, *words, options=no_lock, given=b"7,7\n")
        assert status == 0, f"{words} said {err!r}"
    held = count(room)
    before = set(parts_of(room))
    _, status, err = traced(room, "pack", "--all", "d", options=no_lock)
    assert status == 1 and err == b"refused WriteFault\nd: this folder can't be locked here, so that no part is removed from it\n", f"it said {err!r}"
    assert before == set(parts_of(room)) and count(room) == held
    only_parts(room)
    room.ok("pack", "--all", "d")
    assert len(parts_of(room)) == 1 and count(room) == held
    only_parts(room)


def a_folder_that_others_have_locked_is_busy_after_ten_seconds(room):
    make_folder(room, loads=3)
    before = parts_of(room)
    lock = os.open(room.path("d"), os.O_RDONLY)
    fcntl.flock(lock, fcntl.LOCK_SH)
    started = time.monotonic()
    waiting = [room.start(*words, stdin=subprocess.PIPE) for words in (("pack", "--all", "d"), ("import", "--no-header", "--batch", "8.8", "d", "-"))]
    waiting[1].stdin.write(b"8,8\n")
    for one in waiting:
        one.stdin.close()
    # A shared lock holds up neither a reader nor an import.
    assert count(room) == 6
    room.ok("import", "--no-header", "d", "-", given=b"7,7\n")
    for one in waiting:
        assert one.wait(60) == 1 and one.stderr.read() == b"refused Busy\nd: another command has had this folder for ten seconds\n"
    assert 9 < time.monotonic() - started < 30
    left = set(parts_of(room)) - set(before)
    assert set(before) < set(parts_of(room)) and len(left) == 1 and count(room) == 7
    only_parts(room)
    fcntl.flock(lock, fcntl.LOCK_EX)
    reading = room.start("query", "d", "SELECT COUNT(*) FROM T")
    importing = room.start("import", "--no-header", "d", "-")
    for one in (reading, importing):
        assert one.wait(60) == 1 and one.stderr.read().startswith(b"refused Busy\n")
    os.close(lock)
    room.ok("pack", "--all", "d")


def a_folder_without_the_right_to_write_is_a_failed_write(room):
    how = as_nobody(room)
    room.ok("create", "d/", "T", "A", "SMALLINT", **how)
    room.ok("import", "--no-header", "d", "-", given=b"3\n", **how)
    os.chmod(room.path("d"), 0o555)
    sentence = "d: permission denied: this may not be written"
    try:
        for words in (("import", "--no-header", "d", "-"), ("import", "--no-header", "--batch", "8.8", "d", "-"), ("delete", "d", "A = 3"), ("delete-rows", "d", "1.1", "0", "0"), ("pack", "--all", "d")):
            room.refused(*words, given=b"3\n", line="refused WriteFault", sentence=sentence, **how)
        room.ok("query", "d", "SELECT COUNT(*) FROM T", prints=b"COUNT(*)\n1\n", **how)
        room.ok("delete", "d", "A = 7", prints=b"ok 0\n", **how)
        room.refused("delete", "d", "A", line="refused Syntax 1", **how)
        os.chmod(room.path("d"), 0o333)
        room.refused("query", "d", "SELECT COUNT(*) FROM T", line="refused ReadFault", sentence="d: permission denied: this may not be read", **how)
    finally:
        os.chmod(room.path("d"), 0o755)
    only_parts(room)


def mode_of(path):
    return stat.S_IMODE(os.stat(path).st_mode)


def a_part_has_the_mode_of_the_part_with_the_least_name(room):
    """Whatever the umask is. With no part a file is made as the umask says, and a name that is no part's counts for nothing."""
    room.ok("create", "d/", "T", "A", "SMALLINT", umask=0o027)
    assert {mode_of(room.path(f"d/{name}")) for name in parts_of(room)} == {0o640}
    room.put("d/0.lanes", b"")
    os.chmod(room.path("d/0.lanes"), 0o777)
    room.ok("create", "t", "T", "A", "SMALLINT")
    room.ok("import", "--no-header", "--batch", "7.7", "t", "-", given=b"7\n")
    for at, (mode, umask) in enumerate(((0o644, 0o077), (0o664, 0o022), (0o600, 0), (0o444, 0o077))):
        for words, given in (
            (("import", "--no-header", "d", "-"), b"%d\n" % at),
            (("import", "--no-header", "--batch", f"5.{at + 1}", "d", "-"), b"%d\n" % at),
            (("delete", "d", f"A = {at}"), b""),
            (("apply", "d", "t"), b""),
            (("pack", "--all", "d"), b""),
            (("import", "--no-header", "d", "-"), b"9\n"),
            (("forget", "d"), b""),
        ):
            before = parts_of(room)
            for name in before:
                os.chmod(room.path(f"d/{name}"), 0o640)
            os.chmod(room.path(f"d/{before[0]}"), mode)
            room.ok(*words, given=given, umask=umask)
            for name in set(parts_of(room)) - set(before):
                assert mode_of(room.path(f"d/{name}")) == mode, f"{words} under {umask:o} made a part of mode {mode_of(room.path(f'd/{name}')):o}, not {mode:o}"


def a_folder_that_has_no_room_is_as_it_was(room):
    make_folder(room)
    before = parts_of(room)
    pick = random.Random(3)
    rows = "".join(f"{pick.randrange(30_000)},{pick.randrange(2**62)}\n" for _ in range(20_000)).encode()
    for words in (("import", "--no-header", "d", "-"), ("import", "--no-header", "--batch", "8.8", "d", "-")):
        room.refused(*words, given=rows, line="refused WriteFault", sentence="d: the file would be larger than is allowed", preexec_fn=limited(65_536))
    room.refused("merge", "e/", "d", line="refused WriteFault", sentence="e/: the file would be larger than is allowed", preexec_fn=limited(10))
    assert parts_of(room) == before
    only_parts(room)
    room.only("d")


def seconds_of(room, *words):
    """How long a run took that ended well."""
    started = time.monotonic()
    room.ok(*words)
    return time.monotonic() - started


def what_a_kill_leaves_is_swept_and_no_part_is_half(room):
    make_folder(room)
    rows = "".join(f"{at % 30_000},{at * 1_000_003}\n" for at in range(100_000)).encode()
    room.put("rows", rows)
    whole = min(seconds_of(room, "import", "--no-header", "d", "rows") for _ in range(3))
    pick, killed = random.Random(5), 0
    for _ in range(15):
        with room.start("import", "--no-header", "d", "rows") as importing:
            time.sleep(whole * pick.uniform(0.3, 1.05))
            importing.send_signal(signal.SIGKILL)
            importing.communicate(timeout=60)
            killed += importing.returncode == -signal.SIGKILL
        all_are_named(room)
        assert (count(room) - 2) % 100_000 == 0
    assert killed > 3, f"only {killed} of 15 were killed in time"
    rows = count(room)
    room.ok("pack", "d")
    only_parts(room)
    assert count(room) == rows


def a_temporary_that_is_held_is_not_swept(room):
    make_folder(room, loads=3)
    room.put("d/.part-00000000000000ff", b"half")
    with open(room.path("d/.part-00000000000000ff"), "rb") as held:
        fcntl.flock(held, fcntl.LOCK_EX)
        room.ok("pack", "--all", "d")
        assert os.path.exists(room.path("d/.part-00000000000000ff"))
    room.ok("pack", "d")
    only_parts(room)


def what_a_killed_create_leaves_goes_with_the_next_of_its_name(room):
    os.mkdir(room.path("e"))
    for call in ("fsync:signal=SIGKILL:when=1", "fsync:signal=SIGKILL:when=2", "rename,renameat,renameat2:signal=SIGKILL"):
        traced(room, "create", "e/d/", "T", "A", "SMALLINT", options=("-e", f"inject={call}"))
    left = sorted(os.listdir(room.path("e")))
    assert len(left) == 3 and all(re.fullmatch(r"\.d\.lanes-new-[0-9a-f]{16}", name) for name in left), f"left is {left}"
    room.ok("create", "e/other/", "T", "A", "SMALLINT")
    assert sorted(os.listdir(room.path("e"))) == sorted([*left, "other"])
    room.refused("create", "e/other/", "T", "A", "SMALLINT", line="refused Exists")
    room.ok("create", "e/d/", "T", "A", "SMALLINT")
    assert sorted(os.listdir(room.path("e"))) == ["d", "other"], f"left is {os.listdir(room.path('e'))}"
    only_parts(room, "e/d")


def a_folder_that_is_made_by_another_is_not_swept(room):
    make_folder(room)
    digits = "0123456789abcdef"
    kept = [f".m.lanes-new-{digits[::-1]}", f".m.lanes-new-{digits}0", f".m.lanes-new-{digits[:-1]}G", f".mm.lanes-new-{digits}", f"m.lanes-new-{digits}"]
    for name in [*kept, f".m.lanes-new-{digits}"]:
        os.mkdir(room.path(name))
        room.put(f"{name}/{'0' * 32}.lanes", b"half")
    os.mkdir(room.path(f".m.lanes-new-{'1' * 16}"))
    os.mkdir(room.path(f".m.lanes-new-{'2' * 16}"))
    room.put(f".m.lanes-new-{'2' * 16}/notes", b"of a person")
    os.symlink(kept[0], room.path(f".m.lanes-new-{'3' * 16}"))
    room.put(f".m.lanes-new-{'4' * 16}", b"a file")
    for digit, name in (("5", "notes"), ("6", "x (1).lanes"), ("7", "0" * 31 + ".lanes"), ("8", "sub/of a person")):
        os.makedirs(os.path.dirname(room.path(f".m.lanes-new-{digit * 16}/{name}")))
        room.put(f".m.lanes-new-{digit * 16}/{'0' * 32}.lanes", b"half")
        room.put(f".m.lanes-new-{digit * 16}/.part-{'0' * 16}", b"half")
        room.put(f".m.lanes-new-{digit * 16}/{name}", b"of a person")
    kept += [f".m.lanes-new-{digit * 16}" for digit in "2345678"]
    held = os.open(room.path(kept[0]), os.O_RDONLY)
    fcntl.flock(held, fcntl.LOCK_EX)
    room.ok("merge", "m/", "d")
    assert sorted(os.listdir(room.path("."))) == sorted([*kept, "d", "m"]), f"there are {os.listdir(room.path('.'))}"
    assert room.get(f"{kept[0]}/{'0' * 32}.lanes") == b"half"
    for digit in "5678":
        assert len(os.listdir(room.path(f".m.lanes-new-{digit * 16}"))) == 3, "a folder that stays lost a part"
    shutil.rmtree(room.path("m"))
    os.close(held)
    _, status, err = traced(room, "merge", "m/", "d", options=("-e", "inject=flock:error=EOPNOTSUPP"))
    assert status == 0 and os.path.exists(room.path(kept[0])), f"it said {err!r}"
    shutil.rmtree(room.path("m"))
    room.ok("merge", "m/", "d")
    assert not os.path.exists(room.path(kept[0]))
    assert count(room, "m") == 2


def folders_of_one_name_that_are_made_at_once_are_made_once(room):
    make_folder(room)
    for turn in range(5):
        makers = [room.start("merge", f"m{turn}/", "d") for _ in range(6)]
        ended = [(one.wait(60), one.stderr.read()) for one in makers]
        assert sorted(status for status, _ in ended) == [0, 1, 1, 1, 1, 1], f"they ended so: {ended}"
        assert all(err.startswith(b"refused Exists") for status, err in ended if status), f"they ended so: {ended}"
        only_parts(room, f"m{turn}")
        assert count(room, f"m{turn}") == 2
    assert sorted(os.listdir(room.path("."))) == ["d", "m0", "m1", "m2", "m3", "m4"]


def of_two_loads_of_one_name_at_once_one_is_refused(room):
    for turn in range(1, 6):
        if turn == 1:
            make_folder(room)
        lock = os.open(room.path("d"), os.O_RDONLY)
        fcntl.flock(lock, fcntl.LOCK_SH)
        loads = [room.start("import", "--no-header", "--batch", f"5.{turn}", "d", "-", stdin=subprocess.PIPE) for _ in range(3)]
        for at, one in enumerate(loads):
            one.stdin.write(b"1,1\n" if at < 2 else b"2,2\n")
            one.stdin.close()
        # All three have looked at the folder, and wait for its lock.
        deadline = time.monotonic() + 8
        while len([name for name in os.listdir(room.path("d")) if name.startswith(".part-")]) < 3 and time.monotonic() < deadline:
            time.sleep(0.05)
        os.close(lock)
        ended = [(one.wait(60), one.stderr.read()) for one in loads]
        other = ended[2]
        assert ended[0][0] == ended[1][0] != other[0], f"they ended so: {ended}"
        refused = other if other[0] else ended[0]
        assert refused[1] == f"refused Conflict 5.{turn}\nd: this has batch 5.{turn} already, with other rows\n".encode(), f"it said {refused}"
        assert count(room) == 2 + turn
        only_parts(room)


def offered(room, name, rows):
    """A file whose batch 7.1 has these rows."""
    room.ok("create", name, "T", "A", "SMALLINT", "B", "BIGINT")
    room.ok("import", "--no-header", "--batch", "7.1", name, "-", given=rows)


def of_two_applies_at_once_that_disagree_one_is_refused(room):
    offered(room, "one", b"1,1\n")
    offered(room, "other", b"2,2\n")
    named = ("import", "--no-header", "--batch", "7.1")
    for turn, (first, second) in enumerate(
        (
            (("apply", "d", "one"), ("apply", "d", "other")),
            (("apply", "d", "one"), (*named, "d", "2.csv")),
            ((*named, "d", "1.csv"), ("apply", "d", "other")),
        )
    ):
        folder = f"d{turn}"
        make_folder(room, folder)
        lock = os.open(room.path(folder), os.O_RDONLY)
        fcntl.flock(lock, fcntl.LOCK_SH)
        room.put("1.csv", b"1,1\n")
        room.put("2.csv", b"2,2\n")
        commands = [room.start(*(folder if word == "d" else word for word in words)) for words in (first, second)]
        # Both have looked at the folder, and wait for its lock.
        deadline = time.monotonic() + 8
        while len([name for name in os.listdir(room.path(folder)) if name.startswith(".part-")]) < 2 and time.monotonic() < deadline:
            time.sleep(0.05)
        os.close(lock)
        ended = sorted((one.wait(60), one.stderr.read()) for one in commands)
        conflict = f"refused Conflict 7.1\n{folder}: this has batch 7.1 already, with other rows\n".encode()
        assert ended == [(0, b""), (1, conflict)], f"{first} and {second} ended so: {ended}"
        assert count(room, folder) == 3
        only_parts(room, folder)


def an_apply_that_is_stopped_before_its_lock_sees_what_came_meanwhile(room):
    offered(room, "one", b"1,1\n")
    offered(room, "other", b"2,2\n")
    conflict = b"refused Conflict 7.1\nd: this has batch 7.1 already, with other rows\n"
    for words, folder, expected, rows in (("other", "d", (1, conflict), 3), ("one", "e", (0, b""), 3)):
        make_folder(room, folder)
        if shutil.which("strace") is None:
            raise Lacking("strace is not installed")
        # It is stopped when it has synced its temporary.
        stopped = ["strace", "-f", "-o", "trace", "-e", "trace=fsync", "-e", "inject=fsync:signal=STOP:when=1", room.program, "apply", folder, words]
        waiting = subprocess.Popen(stopped, cwd=room.folder, stdin=subprocess.DEVNULL, stdout=subprocess.PIPE, stderr=subprocess.PIPE)
        deadline = time.monotonic() + 8
        while "SIGSTOP" not in (room.get("trace").decode() if os.path.exists(room.path("trace")) else "") and time.monotonic() < deadline:
            time.sleep(0.05)
        room.ok("apply", folder, "one", prints=b"ok batches=2 ranges=0 new=1\n")
        process = int(room.get("trace").split()[0])
        os.kill(process, signal.SIGCONT)
        _, err = waiting.communicate(timeout=60)
        assert (waiting.returncode, err) == expected, f"it ended with {waiting.returncode} and said {err!r}"
        assert count(room, folder) == rows
        only_parts(room, folder)
        os.remove(room.path("trace"))


def an_answer_that_adds_nothing_syncs_what_it_relies_on(room):
    make_folder(room)
    offered(room, "one", b"1,1\n")
    # The load and the apply are killed before the folder is synced, and sent again.
    kill = ("-e", "inject=fsync:signal=KILL:when=2")
    load = ("import", "--no-header", "--batch", "8.8", "d", "-")
    for words in (load, ("apply", "d", "one")):
        before = parts_of(room)
        traced(room, *words, options=kill, given=b"8,8\n")
        assert len(parts_of(room)) == len(before) + 1, f"{words} put no part before it was killed"
    held = parts_of(room)
    for words in (load, ("apply", "d", "one"), ("delete", "d", "A = 77"), ("--quiet", *load)):
        words = (words[1], words[0], *words[2:]) if words[0] == "--quiet" else words
        trace, status, err = traced(room, *words, given=b"8,8\n")
        assert (status, err) == (0, b"") and parts_of(room) == held, f"{words} said {err!r}"
        in_order(trace, [rf"fsync\(.*/d/{name}>\) += 0" for name in held] + [r"fsync\([0-9]+<[^>]*/d>\) += 0"])
        said = b"d: nothing was added, but the parts or the folder could not be synced: a loss of power may take parts away\n"
        for when in (1, len(held) + 1):
            trace, status, err = traced(room, *words, options=("-e", f"inject=fsync:error=EIO:when={when}"), given=b"8,8\n")
            assert "INJECTED" in trace and (status, err) == (0, said), f"{words} said {err!r} at {when}"
    assert parts_of(room) == held
    only_parts(room)


def a_named_load_and_an_apply_are_placed_under_the_lock(room):
    make_folder(room)
    offered(room, "one", b"1,1\n")
    for words in (("import", "--no-header", "--batch", "8.8", "d", "-"), ("apply", "d", "one")):
        trace, status, err = traced(room, *words, given=b"8,8\n")
        assert status == 0, f"{words} said {err!r}"
        in_order(
            trace,
            (
                r"fsync\(.*\.part-[0-9a-f]{16}>\) += 0",
                r"flock\(.*/d>, LOCK_EX\|LOCK_NB\) += 0",
                r"getdents64\(",
                r"link.*\"d/\.part-[0-9a-f]{16}\".*\"d/[0-9a-f]{32}\.lanes\".* = 0",
                r"fsync\([0-9]+<[^>]*/d>\) += 0",
                r"flock\(.*/d>, LOCK_UN\)",
                r"write\(1<.*ok batches=",
            ),
        )
        assert "LOCK_UN" not in trace[trace.index("LOCK_EX|LOCK_NB) = 0\n", trace.index("/d>, LOCK_EX")) : trace.index("link")]


def packs_that_meet_choose_anew_and_lose_nothing(room):
    make_folder(room, loads=60)
    for is_all in (True, False):
        packs = [room.start("pack", *(["--all"] if is_all else []), "d") for _ in range(4)]
        ended = [(one.wait(120), one.stderr.read()) for one in packs]
        assert ended == [(0, b"")] * 4, f"they ended so: {ended}"
        assert count(room) == 120
        for at in range(40):
            room.ok("import", "--no-header", "d", "-", given=b"7,7\n")
        for row in range(40):
            room.ok("delete-rows", "d", "6.6", str(row), str(row))
        room.ok("delete", "d", "A = 7 AND B = 7", prints=b"ok 40\n")
    only_parts(room)


def a_part_that_is_gone_at_each_look_is_busy_after_ten_seconds(room):
    if shutil.which("strace") is None:
        raise Lacking("strace is not installed")
    make_folder(room, loads=2)
    part = f"d/{parts_of(room)[0]}"
    started = time.monotonic()
    commands = []
    for at, words in enumerate((("query", "d", "SELECT COUNT(*) FROM T"), ("pack", "--all", "d"), ("import", "--no-header", "d", "/dev/null"), ("merge", "m", "d"))):
        gone = ["strace", "-f", "-o", f"trace{at}", "-P", part, "-e", "trace=openat", "-e", "inject=openat:error=ENOENT", room.program, *words]
        commands.append((words, subprocess.Popen(gone, cwd=room.folder, stdin=subprocess.DEVNULL, stdout=subprocess.PIPE, stderr=subprocess.PIPE)))
    for words, one in commands:
        _, err = one.communicate(timeout=60)
        assert one.returncode == 1 and b"refused Busy\n" in err, f"{words} ended with {one.returncode} and said {err!r}"
        assert time.monotonic() - started > 9, f"{words} ended after {time.monotonic() - started} seconds"
    assert count(room) == 4


TESTS = [
    an_import_lists_under_the_lock_and_syncs_before_it_answers,
    a_pack_is_on_the_disk_before_anything_is_removed_under_the_lock,
    a_pack_that_is_not_known_to_be_on_the_disk_removes_nothing,
    a_pack_looks_under_the_lock_at_its_part_before_it_removes,
    a_part_that_is_there_already_is_synced_by_the_handle_that_read_it,
    a_merge_opens_each_part_once,
    a_folder_is_made_all_at_once,
    a_failed_call_leaves_the_folder_as_it_was,
    a_folder_that_can_not_be_synced_is_told_and_the_part_is_there,
    without_hard_links_a_part_is_renamed_and_replaces_none,
    a_link_that_fails_is_a_failed_write_and_changes_nothing,
    a_lock_that_fails_is_refused_and_changes_nothing,
    that_too_many_files_are_open_is_told,
    a_folder_that_can_not_be_locked_is_read_and_not_packed,
    a_folder_that_others_have_locked_is_busy_after_ten_seconds,
    a_folder_without_the_right_to_write_is_a_failed_write,
    a_part_has_the_mode_of_the_part_with_the_least_name,
    a_folder_that_has_no_room_is_as_it_was,
    what_a_kill_leaves_is_swept_and_no_part_is_half,
    a_temporary_that_is_held_is_not_swept,
    what_a_killed_create_leaves_goes_with_the_next_of_its_name,
    a_folder_that_is_made_by_another_is_not_swept,
    folders_of_one_name_that_are_made_at_once_are_made_once,
    of_two_loads_of_one_name_at_once_one_is_refused,
    of_two_applies_at_once_that_disagree_one_is_refused,
    an_apply_that_is_stopped_before_its_lock_sees_what_came_meanwhile,
    an_answer_that_adds_nothing_syncs_what_it_relies_on,
    a_named_load_and_an_apply_are_placed_under_the_lock,
    packs_that_meet_choose_anew_and_lose_nothing,
    a_part_that_is_gone_at_each_look_is_busy_after_ten_seconds,
]
