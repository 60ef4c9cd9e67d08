"""Trials of the script `lanes`: which program it runs and what it says of it, and what it has the toolchain prove and build if it is told to.

The made-up crates are few: `left` and `right` use `ground`, `roof` uses all three, and the program uses `roof`; `shed` and
the tests are used by nothing. Each good run of the program ends with the status of the one that the stub makes, 7.
"""

import os
import shutil
import signal
import time

from trial import RELEASED, SECONDS, STATUS, TOP, Differs, agree, has, libraries

NOBODY = 65534

HOUSE = """# Each line names a crate and the libraries that it stands on, lowest first.
ground:
ground_tests: ground
left: ground
right: ground ported
shed: ground
roof: ground left right ported
roof_tests: ground shed roof
lanes: ground roof
"""
BELOW = ["ground", "left", "right", "roof"]
FOUR = "one:\ntwo:\nthree:\nfour:\nlanes: one two three four\n"

with open(os.path.join(TOP, "crates.txt")) as file:
    REPOSITORY = file.read()

LINKED = "run --cpu x86-64-v3 -- --help"


def wrote(trial, *arguments, source="first source", given=""):
    """What the program writes that was made of a source."""
    return "".join([f"made of {source}, run in {trial.elsewhere}\n", *(f"<{argument}>\n" for argument in arguments), given])


def built(trial, run, source="first source"):
    """That a run proved all libraries and built the program, which the next run then runs."""
    agree("status", run.status, 0)
    agree("standard output", run.out, "")
    agree("crates that were proved", run.checked(), BELOW)
    agree("the last call", run.last(), [("lanes", LINKED)])
    ran_only(trial, trial.run(), source=source)


def ran_only(trial, run, source="first source", note=""):
    """That a run called rt not at all, said this, and ran the program."""
    agree("calls", run.calls, [])
    agree("status", run.status, STATUS)
    agree("standard output", run.out, wrote(trial, source=source))
    agree("standard error", run.err, note + "said by the program\n")


def other_sources(trial):
    """What is said where the program is of other sources."""
    return f"lanes: this program is of other sources than those in {trial.top}; ./lanes --build builds theirs\n"


NONE = "lanes: there is no program that runs here; ./lanes --build builds one, which takes about an hour and needs the toolchain\n"


def ran_nothing(run, *said):
    """That a run called rt not at all, ran nothing, and said this."""
    agree("calls", run.calls, [])
    agree("status", run.status, 2)
    agree("standard output", run.out, "")
    agree("standard error", run.err, "".join(said))


def first_run(trial):
    uses = libraries(REPOSITORY)
    below, rest = set(), {"lanes"}
    while rest:
        rest = {library for name in rest for library in uses[name] if library in uses} - below
        below |= rest
    run = trial.run("--build")
    agree("status", run.status, 0)
    agree("crates that were proved", run.checked(), sorted(below))
    has("crates that were proved", run.checked(), "table_model", "column_file", "lanes_main", "command_line")
    agree("crates of tests that were proved", [name for name in run.checked() if name.endswith("_tests") or name == "test_support"], [])
    ends = {call.crate: call.end for call in run.calls}
    for call in run.calls:
        for library in below if call.crate == "lanes" else below & set(uses[call.crate]):
            if ends[library] > call.begin:
                raise Differs(f"{call.crate} was begun before {library} had ended")
    agree("the last call", run.last(), [("lanes", LINKED)])
    has("standard error", run.err, "lanes: building the program", f"lanes: proved {len(below)} of {len(below)}: ", "lanes: built\n")
    agree("whether standard error has what rt prints", "rt prints" in run.err or "rt complains" in run.err, False)
    run = trial.run("query", "a file", given=b"given")
    agree("status", run.status, STATUS)
    agree("standard output", run.out, wrote(trial, "query", "a file", given="given"))


def unasked(trial):
    """With no program, with one of other sources, and with a word beside --build nothing is built."""
    trial.machine(instructions=V3)
    for words in ([], ["query", "t"], ["--build", "now"]):
        ran_nothing(trial.run(*words), "lanes: there is no released program for x86-64-v3\n", NONE)
    built(trial, trial.run("--build"))
    trial.write("crates/left/src/lib.rt", "other source")
    ran_only(trial, trial.run(), note=other_sources(trial))


def older_processor(trial):
    trial.machine(instructions="sse2 avx avx20")
    run = trial.run("--build")
    agree("status", run.status, 0)
    agree("the last call", run.last(), [("lanes", "run -- --help")])


def second_run(trial):
    built(trial, trial.run("--build"))
    again = trial.run("--build")
    agree("calls", again.calls, [])
    agree("standard error", again.err, "lanes: the program of these sources is built already\n")
    os.utime(os.path.join(trial.top, "crates/ground/src/lib.rt"))
    ran_only(trial, trial.run())
    # Names are sorted otherwise in other languages, here all the other way round.
    trial.does("sort", '[ "$LC_ALL" = C ] || set -- -r "$@"')
    os.utime(os.path.join(trial.top, "crates/ground/src/lib.rt"))
    ran_only(trial, trial.run(language="POSIX"))


def changes_of_sources(trial):
    built(trial, trial.run("--build"))
    for name, text in [("ground/src/lib.rt", "other source"), ("ground/src/deep/part.rt", "new source"), ("roof/src/lib.rt", "third source")]:
        trial.write(f"crates/{name}", text)
        ran_only(trial, trial.run(), note=other_sources(trial))
        built(trial, trial.run("--build"))
    for name, text in [("left/specs/Lib.antt", "definitions"), ("right/proofs/roof/Invariants.antt", "a proof"), ("lanes/proofs/main.antt", "a proof")]:
        trial.write(f"crates/{name}", text)
        built(trial, trial.run("--build"))
    trial.write("crates.txt", HOUSE.replace("left: ground", "left: ground ported"))
    ran_only(trial, trial.run(), note=other_sources(trial))
    built(trial, trial.run("--build"))
    trial.write("crates/lanes/src/main.rt", "second source")
    ran_only(trial, trial.run(), note=other_sources(trial))
    built(trial, trial.run("--build"), source="second source")
    # A file that is put in another's place is seen too, however old it is.
    old = os.path.join(trial.top, "old")
    trial.write("old", "first source")
    os.utime(old, (1, 1))
    os.replace(old, os.path.join(trial.top, "crates/lanes/src/main.rt"))
    ran_only(trial, trial.run(), source="second source", note=other_sources(trial))


def source_of_another_time(trial):
    """A source that is written over, and has an old time then, as files have that are unpacked or checked out by some tools, is of other sources."""
    built(trial, trial.run("--build"))
    source = os.path.join(trial.top, "crates/left/src/lib.rt")
    for text in ("other source", "third source"):
        ran_only(trial, trial.run(), note="" if text == "other source" else other_sources(trial))
        trial.write("crates/left/src/lib.rt", text)
        os.utime(source, (1, 1))
        ran_only(trial, trial.run(), note=other_sources(trial))


def source_that_is_saved_meanwhile(trial):
    """A source that is saved while the sources are summed: the next call sees that."""
    built(trial, trial.run("--build"))
    time.sleep(0.02)
    os.utime(os.path.join(trial.top, "crates/ground/src/lib.rt"))
    # The files are listed in order, then each is read: it is saved once it was read.
    trial.command("sha256sum", f'#!/bin/sh\n{shutil.which("sha256sum")} "$@"\nif [ $# -gt 0 ]; then sleep 0.1; echo saved > "{trial.top}/crates/left/src/lib.rt"; fi\n')
    trial.run()
    os.remove(os.path.join(trial.commands, "sha256sum"))
    ran_only(trial, trial.run(), note=other_sources(trial))


def other_program(trial):
    built(trial, trial.run("--build"))
    # As a program of other sources, or for another processor, that the toolchain has built there.
    trial.write("crates/lanes/out/lanes", "#!/bin/sh\necho another program\n")
    ran_only(trial, trial.run())


def other_changes(trial):
    built(trial, trial.run("--build"))
    for name in [
        "shed/src/lib.rt",
        "roof_tests/src/lib.rt",
        "ground_tests/specs/Lib.antt",
        "left/out/src/made.rt",
        "lanes/out/stdout",
        "right/must-fail/other.edit",
        "ground/README.md",
        "lanes/stdin",
    ]:
        trial.write(f"crates/{name}", "other text")
        ran_only(trial, trial.run())


def crate_that_fails(trial):
    built(trial, trial.run("--build"))
    trial.write("crates/lanes/src/main.rt", "second source")
    # The other one ends later, and the script waits for it.
    trial.does("left", "await 'right check'; echo 'the fault of left'; exit 1")
    trial.does("right", "await 'left check'; sleep 0.3")
    run = trial.run("--build")
    agree("status", run.status, 2)
    agree("standard output", run.out, "")
    has("standard error", run.err, "rt complains of left", "the fault of left", "lanes: left is not proved\n")
    agree("crates that standard error says are not proved", run.err.count("not proved"), 1)
    agree("whether a check ran on when the script had ended", run.runs_on, False)
    agree("calls and how they ended", sorted((call.crate, call.arguments, call.status) for call in run.calls), [("ground", "check", 0), ("left", "check", 1), ("right", "check", 0)])
    trial.does("left")
    ran_only(trial, trial.run(), note=other_sources(trial))
    built(trial, trial.run("--build"), source="second source")


def first_crate_that_fails(trial):
    trial.does("ground", "exit 3")
    run = trial.run("--build")
    agree("status", run.status, 2)
    agree("standard output", run.out, "")
    has("standard error", run.err, "lanes: ground is not proved\n")
    agree("crates that were proved", run.checked(), ["ground"])
    trial.does("ground")
    built(trial, trial.run("--build"))


def program_that_fails(trial):
    built(trial, trial.run("--build"))
    trial.write("crates/lanes/src/main.rt", "second source")
    trial.does("lanes", "echo 'the fault of lanes'; exit 1")
    run = trial.run("--build")
    agree("status", run.status, 2)
    agree("standard output", run.out, "")
    has("standard error", run.err, "the fault of lanes", "lanes: the program is not built\n")
    # What was linked before it failed must not pass for what the first source gives.
    trial.does("lanes")
    trial.write("crates/lanes/src/main.rt", "first source")
    ran_only(trial, trial.run())


def check_whose_shell_is_killed(trial):
    """It is killed once while the script waits for it, and once while the script looks for the next check to begin: then bash forgets it."""
    trial.does("left", "kill_shell")
    for slow in ("", 'case "$*" in *crate=right*) sleep 0.4 ;; esac'):
        trial.does("awk", slow)
        run = trial.run("--build")
        agree("status", run.status, 2)
        agree("standard output", run.out, "")
        has("standard error", run.err, "lanes: left is not proved\n")
        agree("crates that were proved", run.checked(), ["ground", "left", "right"])
    trial.does("awk")
    trial.does("left")
    built(trial, trial.run("--build"))


def interrupt(trial, crate, which):
    """Signals a run to end while the stub is called in a crate, as Ctrl-C does: all that the run has started gets the signal."""
    # The stub waits in its own shell: a process that it starts just then might be missed by the signal.
    trial.does(crate, ': > "$TRIAL/there"; read -r -t 60 <> "$TRIAL/silence"')
    process = trial.start("--build")
    latest = time.monotonic() + SECONDS
    while not os.path.exists(trial.at("there")):
        if process.poll() is not None or time.monotonic() > latest:
            raise Differs(f"rt was not called in {crate}")
        time.sleep(0.01)
    os.killpg(process.pid, which)
    run = trial.finish(process)
    # Where the script waits just then for a command that ends well, bash goes on, and finds that the check has failed.
    if run.status not in (-which, 2):
        raise Differs(f"status {run.status}, neither {-which} nor 2")
    agree("standard output", run.out, "")
    os.remove(trial.at("there"))
    trial.does(crate)


def interrupts(crate, which):
    """An interrupt in the first run, one after a source was changed, and one after which that source is as it was before."""

    def case(trial):
        interrupt(trial, crate, which)
        built(trial, trial.run("--build"))
        trial.write("crates/lanes/src/main.rt", "second source")
        interrupt(trial, crate, which)
        built(trial, trial.run("--build"), source="second source")
        trial.write("crates/lanes/src/main.rt", "third source")
        interrupt(trial, crate, which)
        ran_only(trial, trial.run(), source="second source", note=other_sources(trial))
        trial.write("crates/lanes/src/main.rt", "second source")
        ran_only(trial, trial.run(), source="second source")

    return case


def no_toolchain(trial):
    ran_nothing(trial.run("--build", has_rt=False), "lanes: the toolchain's command rt is not on the PATH\n")
    built(trial, trial.run("--build"))
    ran_only(trial, trial.run(has_rt=False))


def arguments_and_input(trial):
    built(trial, trial.run("--build"))
    arguments = ["run", "", "two words", " ", "*", "--", "-n", "$HOME", "'", '"', "\\", "a\nb", "", "--help", ""]
    for _ in range(2):
        run = trial.run(*arguments, given=b"table 2 T A SMALLINT\nappend 1 (7)\n")
        agree("status", run.status, STATUS)
        agree("standard output", run.out, wrote(trial, *arguments, given="table 2 T A SMALLINT\nappend 1 (7)\n"))
    agree("calls", run.calls, [])


def side_by_side(trial):
    """Each of the two waits for the other to begin."""
    trial.does("left", "await 'right check'")
    trial.does("right", "await 'left check'")
    run = trial.run("--build")
    agree("checks at once", run.most_at_once(), 2)
    built(trial, run)


def at_once(wanted, **machine):
    """Of four checks, each of which waits until so many have begun, as many are begun at once as the machine may do, and no more."""

    def case(trial):
        trial.machine(**machine)
        for name in ("one", "two", "three", "four"):
            trial.does(name, f"await check {wanted}; sleep 0.1")
        run = trial.run("--build")
        agree("status", run.status, 0)
        agree("crates that were proved", run.checked(), ["four", "one", "three", "two"])
        agree("checks at once", run.most_at_once(), wanted)

    return case


V2 = "cx16 popcnt ssse3 sse4_1 sse4_2"
V3 = f"{V2} abm avx avx2 bmi1 bmi2 f16c fma movbe"


def ran_released(trial, run, level):
    """That a run called rt not at all, and ran the released program of this level."""
    ran_only(trial, run, source=f"a release for {level}")


def released_program(trial):
    trial.machine(instructions=V3)
    trial.release()
    for _ in range(2):
        ran_released(trial, trial.run(), "x86-64-v3")
    trial.machine(instructions=V2)
    ran_released(trial, trial.run(), "x86-64-v2")
    # Without the toolchain the script sees the processor that there is.
    agree("status", trial.run(has_rt=False).status, STATUS)


def flags_of_processors(trial):
    """Without one of its flags a processor has the program of the level below."""
    trial.release()
    for flag in V3.removeprefix(V2).split():
        trial.machine(instructions=" ".join(one for one in V3.split() if one != flag))
        ran_released(trial, trial.run(), "x86-64-v2")
    trial.machine(instructions=V3)
    ran_released(trial, trial.run(), "x86-64-v3")


def release_and_sources(trial):
    trial.machine(instructions=V3)
    trial.release(sources="another sum\n")
    ran_only(trial, trial.run(), source="a release for x86-64-v3", note=other_sources(trial))
    # What is built of the sources as they are comes first.
    built(trial, trial.run("--build"))
    trial.release()
    ran_only(trial, trial.run())
    trial.write("crates/lanes/src/main.rt", "second source")
    ran_only(trial, trial.run(), note=other_sources(trial))
    # A release of the sources as they are comes before a program of other ones.
    trial.release()
    ran_released(trial, trial.run(), "x86-64-v3")
    # A crate that the program doesn't use, and a comment, leave the sum as it is.
    trial.write("crates/shed/src/lib.rt", "other text")
    trial.write("crates.txt", "# A comment.\n\n" + HOUSE + "barn: shed\n")
    ran_released(trial, trial.run(), "x86-64-v3")


def damaged_release(trial):
    trial.machine(instructions=V3)
    trial.release()
    trial.write("release/SHA256SUMS", f"{'0' * 64}  lanes-x86-64-v3\n")
    ran_nothing(trial.run(), f"lanes: {trial.top}/release/lanes-x86-64-v3.gz is not what {trial.top}/release/SHA256SUMS says\n", NONE)
    agree("what was left of it", [name for name in os.listdir(os.path.join(trial.top, "release/unpacked")) if "x86" in name], [])
    # Another release of the same name is taken out anew.
    trial.release()
    ran_released(trial, trial.run(), "x86-64-v3")
    trial.release(program=RELEASED.replace("a release", "the next release"))
    ran_only(trial, trial.run(), source="the next release for x86-64-v3")


def processor_without_release(trial):
    trial.release()
    trial.machine(kind="aarch64")
    ran_nothing(trial.run(), "lanes: the released programs are for Linux on x86-64 processors, and this one is aarch64\n", NONE)
    trial.machine(instructions="sse2 cx16 popcnt ssse3 sse4_1 avx2")
    ran_nothing(trial.run(), "lanes: the released programs need a processor of the level x86-64-v2, and this one does not have sse4_2\n", NONE)
    built(trial, trial.run("--build"))


def release_that_does_not_start(trial):
    trial.machine(instructions=V3)
    trial.release(program="#!/no/such/loader\n")
    for _ in range(2):
        ran_nothing(trial.run(), "lanes: the released program does not start here: it needs glibc 2.34 or newer\n", NONE)


def other_paths(trial):
    """By symbolic links, one to another, and by a copy."""
    trial.machine(instructions=V3)
    trial.release()
    first, second, copy = trial.at("first link"), os.path.join(trial.elsewhere, "lanes"), trial.at("copied")
    os.symlink(os.path.join(trial.top, "lanes"), first)
    os.symlink("../first link", second)
    for script in (first, second):
        ran_released(trial, trial.run(script=script), "x86-64-v3")
    shutil.copy(os.path.join(trial.top, "lanes"), copy)
    ran_nothing(trial.run(script=copy), "lanes: this is a copy of a clone's script: make a symbolic link to that one, or run ./install in the clone\n")


def clone_of_another_user(trial):
    """A clone that can't be written: the program is unpacked in a folder of the user's own."""
    if os.getuid() != 0:
        return
    trial.machine(instructions=V3)
    trial.release()
    for folder in (trial.room, trial.at("home")):
        os.chmod(folder, 0o777)
    for _ in range(2):
        ran_released(trial, trial.run(user=NOBODY), "x86-64-v3")
    agree("whether the clone has it", os.path.exists(os.path.join(trial.top, "release/unpacked")), False)
    run = trial.run("--build", user=NOBODY)
    agree("standard error", run.err, f"lanes: {trial.top} can't be written, so nothing can be built there\n")
    os.chmod(trial.at("home"), 0o755)
    shutil.rmtree(trial.at("home/.cache"))
    ran_nothing(trial.run(user=NOBODY), f"lanes: the released program can't be unpacked: neither {trial.top} nor a folder of the user can be written\n", NONE)


CASES = [
    ("--build proves what the program stands on and nothing else, from below, and builds the program", REPOSITORY, first_run),
    ("for a processor without AVX2 the toolchain chooses", HOUSE, older_processor),
    ("nothing is built unasked", HOUSE, unasked),
    ("what is built is not built again", HOUSE, second_run),
    ("after a change of a source the program is said to be of other ones", HOUSE, changes_of_sources),
    ("so it is after one whose source has an old time", HOUSE, source_of_another_time),
    ("so it is after one that is saved while the sources are summed", HOUSE, source_that_is_saved_meanwhile),
    ("a program that another command builds beside it does not matter", HOUSE, other_program),
    ("nor does a change of anything else", HOUSE, other_changes),
    ("a crate that is not proved is named", HOUSE, crate_that_fails),
    ("so it is where it is the first", HOUSE, first_crate_that_fails),
    ("a program that is not built is not run", HOUSE, program_that_fails),
    ("a crate is not proved where the shell of its check is killed", HOUSE, check_whose_shell_is_killed),
    ("an interrupt in a check leaves nothing that runs on or passes for built", HOUSE, interrupts("left", signal.SIGINT)),
    ("nor does an interrupt in linking", HOUSE, interrupts("lanes", signal.SIGINT)),
    ("nor does a request to end in a check", HOUSE, interrupts("left", signal.SIGTERM)),
    ("nor does a request to end in linking", HOUSE, interrupts("lanes", signal.SIGTERM)),
    ("without the toolchain nothing is built, and what is built is run", HOUSE, no_toolchain),
    ("arguments and standard input reach the program as they are", HOUSE, arguments_and_input),
    ("crates of which neither stands on the other are begun side by side", HOUSE, side_by_side),
    ("there are never more checks at once than processors", FOUR, at_once(2, processors=2)),
    ("with one processor there is one", FOUR, at_once(1, processors=1)),
    ("there are never more at once than the memory has 2 GiB for", FOUR, at_once(3, memory=7)),
    ("with little memory there is one", FOUR, at_once(1, memory=1.5)),
    ("the released program of these sources is run at once, without the toolchain", HOUSE, released_program),
    ("a processor without one flag of a level has the released program of the level below", HOUSE, flags_of_processors),
    ("a release of other sources is run with a word of that, and the program that is of these sources comes first", HOUSE, release_and_sources),
    ("a release that is not what its sums say is not run", HOUSE, damaged_release),
    ("a processor that no release is for is named", HOUSE, processor_without_release),
    ("a release that does not start here is named", HOUSE, release_that_does_not_start),
    ("a symbolic link runs the program, and a copy says what to do", HOUSE, other_paths),
    ("a clone that the user can't write runs the program", HOUSE, clone_of_another_user),
]
