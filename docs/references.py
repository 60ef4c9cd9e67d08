#!/usr/bin/env python3
"""Checks what pages refer to: that each link to another file leads to one, that docs/GLOSSARY.md names for each word a file that defines
it, that the map of docs/ARCHITECTURE.md has a row for each crate, below those of all crates that use it, that each crate has the
public calls of whose clauses pages speak, that the examples in the READMEs of crates are those that their tests run, and that the rule on
names of batches is on its pages in the same words. It prints what is wrong, and the status is then 1."""
import pathlib, re, sys

TOP = pathlib.Path(__file__).resolve().parent.parent
PAGES = ["*.md", "docs/*.md", "tests/*.md", "examples/*.md", "bench/**/*.md", "crates/*/README.md"]


def dead_links():
    """The links of pages that lead nowhere."""
    for page in [page for pattern in PAGES for page in sorted(TOP.glob(pattern))]:
        for link in re.findall(r"\]\(([^)#]+)[^)]*\)", page.read_text()):
            if "://" not in link and not (page.parent / link).exists():
                yield f"{page.relative_to(TOP)}: there is no {link}"


def defines(places, word):
    """Whether one of the places of a row, each a crate and a file of its specs, defines a word."""
    files = [TOP / "crates" / crate / "specs" / f"{name}.antt" for crate, name in re.findall(r"`(\w+)`, `(\w+)`", places)]
    return any(file.exists() and re.search(rf"\bpub (?:record |data )?{word}\b", file.read_text()) for file in files)


def lost_words():
    """The words of the glossary that the files of their rows don't define."""
    for line in (TOP / "docs" / "GLOSSARY.md").read_text().splitlines():
        cells = line.strip("| ").split(" | ")
        if len(cells) == 3 and re.search(r"`\w+`, `\w+`", cells[2]):
            for word in re.findall(r"`(\w+)[^`]*`", cells[0]):
                if not defines(cells[2], word):
                    yield f"docs/GLOSSARY.md: {word} is not defined in {cells[2]}"


def crates():
    """The crates of crates.txt, each with the crates of this repository that it uses."""
    lines = [line.split(":") for line in (TOP / "crates.txt").read_text().splitlines() if re.match("[a-z]", line)]
    names = [before.split()[0] for before, _ in lines]
    return {name: [used for used in after.split() if used in names] for name, (_, after) in zip(names, lines)}


def unmapped_crates():
    """The crates that have no row, or two, in the map of docs/ARCHITECTURE.md, rows of no crate, and crates that use one of a row above their own.

    The crates of tests have one row together; each may use the crate that it tests.
    """
    page = (TOP / "docs" / "ARCHITECTURE.md").read_text().split("| Part | Crate | What it is |")[1].split("\n\n")[0]
    rows = re.findall(r"^\|[^|]*\| `(\w+)` \|", page, re.M)
    used = {("NAME_tests" if name.endswith("_tests") else name): uses for name, uses in crates().items()}
    for name in used:
        if rows.count(name) != 1:
            yield f"docs/ARCHITECTURE.md: {name} has {rows.count(name)} rows in the map"
    for name in sorted(set(rows) - set(used)):
        yield f"docs/ARCHITECTURE.md: there is no crate {name}"
    for name, uses in crates().items():
        row = "NAME_tests" if name.endswith("_tests") else name
        for other in uses:
            if name != f"{other}_tests" and row in rows and other in rows and rows.index(other) < rows.index(row):
                yield f"docs/ARCHITECTURE.md: {name} uses {other}, whose row is above"


def lost_calls():
    """The calls whose clauses a page cites, as `x()` of `crate`, and that the crate does not have."""
    for page in [page for pattern in PAGES for page in sorted(TOP.glob(pattern))]:
        for calls, crate in re.findall(r"\bclauses? of ((?:[\w ]*`\w+\(?\)?`(?:, | and )?)+) of `(\w+)`", page.read_text()):
            sources = "".join(source.read_text() for source in sorted((TOP / "crates" / crate).glob("src/**/*.rt")))
            for call in re.findall(r"`(\w+)\(?\)?`", calls):
                if not re.search(rf"\bpub fn {call}\b", sources):
                    yield f"{page.relative_to(TOP)}: `{crate}` has no public call `{call}`"


def untested_examples():
    """The READMEs of crates with an example that the crate's tests don't have, and tests of an example that isn't in the README."""
    for crate in sorted((TOP / "crates").iterdir()):
        readme, test = crate / "README.md", TOP / "crates" / f"{crate.name}_tests" / "src" / "readme_example.rt"
        examples = re.findall(r"```rust\n(.*?)```", readme.read_text(), re.S) if readme.exists() else []
        text = test.read_text() if test.exists() else ""
        if any(example not in text for example in examples) or (text and not examples):
            yield f"{readme.relative_to(TOP)}: its example isn't the one in {test.relative_to(TOP)}"


def other_rules():
    """The pages on which the rule on names of batches isn't as docs/COMMANDS.md has it."""
    rule = (TOP / "docs" / "COMMANDS.md").read_text().split("## Names of batches\n\n")[1].split("\n")[0]
    for page in "README.md", "docs/OPERATIONS.md":
        if f"\n{rule}\n" not in (TOP / page).read_text():
            yield f"{page}: the rule on names of batches isn't in the words of docs/COMMANDS.md"


def main():
    wrong = [*dead_links(), *lost_words(), *unmapped_crates(), *lost_calls(), *untested_examples(), *other_rules()]
    print("".join(f"{line}\n" for line in wrong), end="")
    sys.exit(1 if wrong else 0)


if __name__ == "__main__":
    main()
