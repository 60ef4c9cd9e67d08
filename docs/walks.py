#!/usr/bin/env python3
"""Checks the lists of CONTRIBUTING.md, "Where to touch". Each list is compared with the files that name the last thing of its kind, as
the last set function: they are the places that the next one has to touch. And each file that a list names has to be there.

A file of a crate is listed if an item has the crate and, after it, the file between backquotes, as `shape.rt`, `specs/Shape.antt`, or
`Measured` for a file of proofs. Every other file is listed by its path. Tests and pages are listed by hand: the script asks only that
they are there. It prints what is wrong, and the status is then 1."""
import pathlib, re, sys

TOP = pathlib.Path(__file__).resolve().parent.parent
CRATES = TOP / "crates"

# By the head of a list: what files of code that belong to it name, and in which crates these are looked for, all if none is named.
SIBLINGS = {
    "A column type": (r"\bTINYINT\b|\bTiny\w*", []),
    "A step of a script": (r"\bServe\b|\bServed\b", ["cluster_history", "script_lines", "lanes_main"]),
    "A command of the program": (r"\bSpread\b|\bspread\b|\bspread_command\b", ["command_line", "lanes", "lanes_c", "program_changes", "program_files", "program_folders"]),
    "A set function": (r"\bAVG\b|\bAvg\b", []),
    "A refusal": (r"\bNotGrouped\b|\bNOT_GROUPED\b", []),
    "A call of the library for C": (r"\blanes_finish\b", []),
}
# Further ones that belong to a list: of the commands the last one that changes a file, in the crates that such a command touches.
FURTHER = {
    "A command of the program": (r"\bForget\b|\bforget\b", ["command_line", "lanes", "program_changes", "program_files", "program_folders", "file_commands", "covering_laws", "replica_reports", "replica_changes"]),
}
# Below which folders of a crate code is looked for. Files of proofs that are named by a function come with it.
CODE = ["src/**/*.rt", "specs/*.antt", "proofs/*.antt"]
# The other files of c/ are examples, which need no change.
OTHER_CODE = ["include/*.h", "python/lanes/*.py", "c/lanes_*.c", "c/lanes_*.h"]


def lists():
    """The items of each list, by its head."""
    section = (TOP / "CONTRIBUTING.md").read_text().split("## Where to touch")[1].split("\n## ")[0]
    blocks = re.findall(r"^\*\*(.+?)\*\*\n\n((?:- .*\n)+)", section, re.M)
    return {head: [line[2:] for line in items.splitlines()] for head, items in blocks}


def crates_in(item):
    """The crates of an item, each with what follows it up to the next one."""
    names = [found for found in re.finditer(r"`(\w+)`", item) if (CRATES / found[1]).is_dir()]
    ends = [found.start() for found in names[1:]] + [len(item)]
    return [(found[1], item[found.end() : end]) for found, end in zip(names, ends)]


def files_of(crate):
    """The files of code of a crate."""
    return [file for pattern in CODE for file in sorted((CRATES / crate).glob(pattern))]


def is_named(file, crate, item):
    """Whether an item names a file of a crate."""
    for name, after in crates_in(item):
        words = re.findall(r"`([\w./]+)`", after)
        ends = [word for word in words if "." in word and f"/{file.relative_to(CRATES)}".endswith(f"/{word}")]
        if name == crate and (ends or file.parts[-2] == "proofs" and file.stem in words):
            return True
    return False


def wanted(pattern, crates):
    """The files of code that match, each with its crate, or None for one of no crate."""
    names = crates or [crate.name for crate in sorted(CRATES.iterdir()) if not crate.name.endswith("_tests") and crate.is_dir()]
    found = [(file, crate) for crate in names for file in files_of(crate)]
    if not crates:
        found += [(file, None) for pattern_of in OTHER_CODE for file in sorted(TOP.glob(pattern_of))]
    return [(file, crate) for file, crate in found if re.search(pattern, file.read_text())]


def omitted(head, items):
    """The files that belong to a list and that it does not name."""
    named = wanted(*SIBLINGS[head]) + (wanted(*FURTHER[head]) if head in FURTHER else [])
    for file, crate in dict.fromkeys(named):
        path = str(file.relative_to(TOP))
        if not any(is_named(file, crate, item) if crate else path in item for item in items):
            yield f"CONTRIBUTING.md: {head}: {path} is not listed"


def lost(head, items):
    """What a list names and is not there."""
    for item in items:
        for crate, after in crates_in(item):
            for word in re.findall(r"`([\w./]+\.(?:rt|antt))`", after):
                if not any(f"/{file.relative_to(CRATES)}".endswith(f"/{word}") for file in files_of(crate)):
                    yield f"CONTRIBUTING.md: {head}: {crate} has no {word}"
        for path in re.findall(r"(?<![\w/`])(?:tests|docs|python|include|c|release|examples)/[\w./-]*\w", item):
            if not (TOP / path).exists():
                yield f"CONTRIBUTING.md: {head}: there is no {path}"


def main():
    found = lists()
    wrong = [f"CONTRIBUTING.md: there is no list of {head}" for head in SIBLINGS if head not in found]
    for head, items in found.items():
        wrong += [*(omitted(head, items) if head in SIBLINGS else []), *lost(head, items)]
    print("".join(f"{line}\n" for line in wrong), end="")
    sys.exit(1 if wrong else 0)


if __name__ == "__main__":
    main()
