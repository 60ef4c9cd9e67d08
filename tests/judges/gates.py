"""What decides that a change is well: tests/all, tests/quick, tests/must-fail and ./prove. Tests and the toolchain are stubs, so nothing is proved."""

import concurrent.futures
import gzip
import hashlib
import importlib.machinery
import importlib.util
import os
import re
import shutil
import sys

from judging import TOP, ended, write

#: What tests/all runs, in order, with its arguments. The wrong bodies of libraries are tried once these are proved, those of the program at the end.
RUNS_OF_ALL = """setup
builder/run
judges/run
documents/run
joints
rt ci
proved
must-fail one
must-fail lanes program_one
release/run
install/run
program/run
answers/run
refused-memory scripts commands
transcripts/run
second/run
sites/run
service/run --mutants
folders/run --seconds 60
files/run
c_library/run
ecosystem/run""".splitlines()

#: What tests/quick runs, with its arguments. P is the released program, and L is the folder of the released library.
RUNS_OF_QUICK = """answers/run P
builder/run
c_library/run L
documents/run
ecosystem/run L
files/run P
folders/run --seconds 10 P
install/run P
judges/run
program/run P
refused-memory scripts commands P
second/run P
service/run P
sites/run P
transcripts/run P""".splitlines()

#: The released files, as the script that names them has them.
LIBRARIES = [f"liblanes-x86-64-{level}.{kind}" for level in ("v2", "v3") for kind in ("a", "so")]


def stub(room, run, fails, more=""):
    """A test that notes that it ran, with its arguments, in place of the one of this name."""
    name = run.split()[0]
    write(room / "tests" / name, f'#!/bin/sh\necho {name} "$@" >> {room}/ran\n{more}exit {int(run == fails)}\n')


def make_all(room, fails):
    """tests/all over stubs, of which one fails, or none. The wrong bodies have one stub, which fails if it is given the crates of `fails`."""
    for run in RUNS_OF_ALL:
        if run.split()[0] not in ("rt", "proved", "must-fail"):
            stub(room, run, fails)
    stub(room, "must-fail", None, f'[ "must-fail $*" != "{fails}" ] || exit 1\n')
    shutil.copy(TOP / "tests" / "all", room / "tests" / "all")
    write(room / "crates.txt", "one:\nprogram_one: one\nlanes: one program_one\n")
    for crate in "one", "program_one", "lanes":
        (room / "crates" / crate / "must-fail-functions").mkdir(parents=True)
    proves = f"echo rt ci >> {room}/ran\nsleep 0.3\necho proved >> {room}/ran\necho 'rt: one proved'\nsleep 0.3\n"
    write(room / "commands" / "rt", f"#!/bin/sh\n{proves}exit {int(fails == 'rt ci')}\n")


def run_all(room):
    """How tests/all ends there: its status, its last line, and what ran."""
    status, said = ended([room / "tests" / "all"], env={**os.environ, "PATH": f"{room / 'commands'}:{os.environ['PATH']}", "RT_JOBS": "2"})
    return status, said.strip().split("\n")[-1], (room / "ran").read_text().splitlines()


def tests_all_runs_each_test_in_order_and_fails_if_one_fails(room):
    cases = [None, *(run for run in RUNS_OF_ALL if run != "proved")]
    rooms = {fails: room / str(at) for at, fails in enumerate(cases)}
    # All scripts are written before one is run: a process that is forked meanwhile has a file open for writing, which then can't be run.
    for fails, one in rooms.items():
        make_all(one, fails)
    with concurrent.futures.ThreadPoolExecutor(len(cases)) as pool:
        found = dict(zip(cases, pool.map(run_all, rooms.values())))
    for fails, (status, last, ran) in found.items():
        if fails is None:
            assert status == 0 and last.startswith("tests/all: passed") and ran == RUNS_OF_ALL, (status, last, ran)
        else:
            name = fails if fails == "rt ci" else f"tests/{fails}"
            assert status == 1 and last.startswith(f"tests/all: FAILED at {name},"), (fails, status, last)
            # The proofs and the wrong bodies of libraries go side by side, and each of them is ended before the rest is left out.
            most = max(RUNS_OF_ALL.index(fails), RUNS_OF_ALL.index("must-fail one") if fails == "rt ci" else 0) + 1
            assert ran == RUNS_OF_ALL[:most], (fails, ran)


def make_quick(room, fails):
    """tests/quick over stubs, of which one fails, or none, and a release of empty files."""
    for run in RUNS_OF_QUICK:
        stub(room, run, fails)
    shutil.copy(TOP / "tests" / "quick", room / "tests" / "quick")
    release = room / "release"
    write(release / "sources", "#!/bin/sh\necho these\n")
    write(release / "files.sh", 'find_level() { level=x86-64-v3; }\nunpack() { new=$(mktemp "$3/new.XXXXXX"); }\n')
    write(release / "SOURCES", "these\n")
    write(release / "LIBRARY_SOURCES", "these\n")
    write(release / "LIBRARY_SHA256SUMS", "".join(f"0  {name}\n" for name in LIBRARIES))


def run_quick(room):
    """How tests/quick ends there: its status, what it says, and what ran, the folder of its program and its library left out."""
    status, said = ended([room / "tests" / "quick"])
    ran = [re.sub(r" /\S*/library$", " L", re.sub(r" /\S*/lanes$", " P", line)) for line in (room / "ran").read_text().splitlines()]
    return status, said, sorted(ran)


def tests_quick_runs_each_test_and_fails_if_one_fails(room):
    cases = [None, *RUNS_OF_QUICK]
    rooms = {fails: room / str(at) for at, fails in enumerate(cases)}
    for fails, one in rooms.items():
        make_quick(one, fails)
    with concurrent.futures.ThreadPoolExecutor(4) as pool:
        found = dict(zip(cases, pool.map(run_quick, rooms.values())))
    count = len(RUNS_OF_QUICK)
    for fails, (status, said, ran) in found.items():
        assert ran == RUNS_OF_QUICK, (fails, ran)
        if fails is None:
            assert status == 0 and f"tests/quick: {count} passed, 0 failed" in said, (status, said)
        else:
            name = fails.split("/")[0].split()[0]
            assert status == 1 and f"tests/quick: failed: {name}\ntests/quick: {count - 1} passed, 1 failed" in said, (fails, status, said)
    for stamp in "SOURCES", "LIBRARY_SOURCES":
        write(rooms[None] / "release" / stamp, "others\n")
        assert "is of older sources than these tests" in run_quick(rooms[None])[1], stamp


def must_fail():
    loader = importlib.machinery.SourceFileLoader("must_fail", os.fspath(TOP / "tests" / "must-fail"))
    spec = importlib.util.spec_from_loader("must_fail", loader)
    module = importlib.util.module_from_spec(spec)
    sys.modules["must_fail"] = module
    loader.exec_module(module)
    return module


def an_edit_counts_only_if_a_proof_refused_what_it_means(room):
    module = must_fail()
    edit = module.Edit("wrong", "asks::more", True, "src/asks.rt", [("1", "2")])
    clause = "src/asks.rt:3:5: error: `asks::more` does not keep its clause"
    for status, lines, holds, words in [
        (1, ["fn house::asks::more: refused", clause], True, "refused in"),
        (1, ["fn house::asks::more: refused", f"note: {clause}"], True, "refused in"),
        (0, ["fn house::asks::more: proved"], False, "NOT REFUSED"),
        (1, ["fn house::asks::more: proved", clause], False, "NOT REFUSED"),
        (1, ["fn house::asks::more: refused"], False, "NOT TRIED"),
        (2, ["fn house::asks::more: refused", clause], False, "NOT TRIED"),
        (-9, [], False, "NOT TRIED"),
        (1, ["src/asks.rt:7:9: error: cannot find value `mroe` in this scope"], False, "NOT TRIED: the edited text can't be read"),
        (1, ["error[E0425]: cannot find value `mroe` in this scope", clause], False, "NOT TRIED: the edited text can't be read"),
        (1, ["fn house::asks::more: refused", "proofs/asks/More.antt:3:4: error: `mroe` is not in scope"], False, "NOT TRIED: no clause was refused"),
        (1, ["fn house::asks::more: refused", "note: proofs/asks/More.antt:3:4: error: the record has no field mroe"], False, "NOT TRIED: no clause was refused"),
        (1, ["fn house::asks::more: refused", "proofs/asks/More.antt:3:4: error: was not admitted"], False, "NOT TRIED: no clause was refused"),
        (1, ["fn house::asks::more: refused", "proofs/asks/More.antt:3:4: error: `mroe` is not in scope", clause], True, "refused in"),
    ]:
        found = module.judged("house", edit, module.Proof(status, lines, 1))
        assert found[0] is holds and found[1].startswith(words), (status, lines, found)
    for old, text, wanted in [("1", "a 1", "a 2"), ("1", "a 1 1", None), ("1", "a", None)]:
        assert module.Edit("wrong", "asks::more", True, "src/asks.rt", [(old, "2")]).changes(text) == wanted


def prove_compares_each_released_file(room):
    names = ["lanes-x86-64-v2", "lanes-x86-64-v3", *LIBRARIES]
    shutil.copy(TOP / "prove", room / "prove")
    release = room / "release"
    write(release / "sources", '#!/bin/sh\necho "sources of ${1:-lanes}"\n')
    write(release / "SOURCES", "sources of lanes\n")
    write(release / "LIBRARY_SOURCES", "sources of lanes_c\n")
    write(release / "build", "#!/bin/sh\nset -e\nfor name in " + " ".join(names) + "; do echo made of $name > \"$1/$name\"; done\n")
    write(room / "commands" / "rt", "#!/bin/sh\n")
    sums = ""
    for name in names:
        data = f"made of {name}\n".encode()
        (release / f"{name}.gz").write_bytes(gzip.compress(data))
        sums += f"{hashlib.sha256(data).hexdigest()}  {name}\n" if name.startswith("lib") else ""
    write(release / "LIBRARY_SHA256SUMS", sums)
    environment = {**os.environ, "PATH": f"{room / 'commands'}:{os.environ['PATH']}"}
    status, said = ended([room / "prove"], env=environment)
    assert status == 0 and said.endswith("are the same byte for byte\n"), (status, said)
    for name in names:
        path = release / f"{name}.gz"
        kept = path.read_bytes()
        path.write_bytes(gzip.compress(f"Made of {name}\n".encode()))
        status, said = ended([room / "prove"], env=environment)
        assert status == 1 and said.endswith(f"the released {name} is another one\n"), (name, status, said)
        path.write_bytes(kept)
    for stamp in "SOURCES", "LIBRARY_SOURCES":
        text = (release / stamp).read_text()
        write(release / stamp, "other sources\n")
        status, said = ended([room / "prove"], env=environment)
        assert status == 1 and said.endswith("there is nothing to compare\n"), (stamp, status, said)
        write(release / stamp, text)


TESTS = [
    tests_all_runs_each_test_in_order_and_fails_if_one_fails,
    tests_quick_runs_each_test_and_fails_if_one_fails,
    an_edit_counts_only_if_a_proof_refused_what_it_means,
    prove_compares_each_released_file,
]
