#!/usr/bin/env python3
"""Checks that the program makes no call of the system on what is in a folder but by the implementation of the protocol's calls.
`crates/folder_system/src/system.rt` implements them (`Folder`, `Looks` and `Sweeps` of folder_protocol), over the files that are named beside
it; each is noted. Of folders that others keep, as through the library, the calls are made by who drives it. Beside it are folders that are
made or that were not made to the end, operands and inputs.

The script knows each place in the program and in folder_system that makes a call by `std::fs`, and how many such calls it makes. A call
more or less is told: name it here with its reason, or make it through `SystemFolder`. It prints what is wrong, and the status is then 1."""
import pathlib, re, sys

CRATES = pathlib.Path(__file__).resolve().parent.parent / "crates"
# Below these crates it is looked at each source. Those of the protocol and of what commands do by it have no call at all.
LOOKED_AT = ["folder_system", "lanes", "program_folders", "program_files", "program_changes", "program_failures", "program_inputs", "folder_commands", "folder_parts", "folder_simulation", "folder_model", "folder_protocol", "folder_turns"]
CALL = re.compile(r"\bfs::[a-z_]+\(|\bOpenOptions::new\(|\.sync_all\(|\.sync_data\(|\.set_len\(|\.set_permissions\(|\.try_lock\(|\.try_lock_shared\(")
CHANGES = re.compile(r"\bfs::(create|write|rename|remove|hard_link|copy|set_)[a-z_]*\(|\bOpenOptions::new\(|\.sync_all\(|\.sync_data\(|\.set_len\(|\.set_permissions\(")

# The calls of the protocol, as SystemFolder makes and notes them.
IMPLEMENTATION = {
    # Six calls, of which one gives a temporary that was just made the mode of the part with the least name: no byte and no name changes.
    "folder_system/src/system.rt": 6,
    "folder_system/src/listing.rt": 1,
    "folder_system/src/lock.rt": 3,
    "folder_system/src/keeping.rt": 3,
    "folder_system/src/temporary.rt": 9,
    "folder_system/src/names.rt": 1,
}
# Calls that change something beside it.
CHANGING = {
    "folder_system/src/making.rt": (7, "it makes a folder under a name that no command takes, and renames it once it is whole; the part in it is put by the calls of the protocol"),
    "folder_system/src/sweeping.rt": (7, "it removes folders that were not made to the end, which no command takes"),
    "program_files/src/output.rt": (2, "it writes OUT, which is no folder"),
    "program_files/src/watched_folder.rt": (3, "it hands a call on the lock of a FILE to file_protocol, and opens FILE to see that it may be written"),
    "lanes/src/spreading.rt": (3, "it removes the files and folders that a spread has made, if it is refused"),
}
# Calls that change nothing, on operands and inputs.
LOOKING = {
    "folder_system/src/modes.rt": (1, "it asks for the mode of the part with the least name that was listed, which a new part takes"),
    "program_folders/src/packing.rt": (1, "it asks if its operand is a file"),
    "program_inputs/src/home.rt": (2, "it asks if an operand is a folder, and if its name is free"),
    "program_inputs/src/inputs.rt": (1, "it reads inputs"),
    "program_failures/src/failure.rt": (4, "it looks at an operand that was refused, for a sentence"),
    "lanes/src/merging.rt": (3, "it asks if OUT is one of the inputs, and if OUT is there and has a byte"),
    "program_inputs/src/progress.rt": (1, "it asks for the size of an input, which it says at a terminal"),
}


def calls_of(source):
    """The calls in a source, without its comments."""
    return [call for line in source.read_text().splitlines() if not line.lstrip().startswith("//") for call in CALL.findall(line)]


def main():
    wanted = {**IMPLEMENTATION, **{name: count for name, (count, _) in {**CHANGING, **LOOKING}.items()}}
    wrong = []
    for crate in LOOKED_AT:
        for source in sorted((CRATES / crate / "src").glob("**/*.rt")):
            name = source.relative_to(CRATES).as_posix()
            count = len(calls_of(source))
            if count != wanted.get(name, 0):
                wrong.append(f"{name} makes {count} calls of the system, and docs/edge.py knows of {wanted.get(name, 0)}")
            if name in LOOKING and any(CHANGES.search(call) for call in calls_of(source)):
                wrong.append(f"{name} changes something, and docs/edge.py says that it only looks")
    wrong += [f"{name} is not there" for name in wanted if not (CRATES / name).is_file()]
    print("\n".join(wrong)) if wrong else None
    sys.exit(1 if wrong else 0)


if __name__ == "__main__":
    main()
