#!/usr/bin/env python3
"""Writes crates/README.md, the map: the layers of crates.txt, the highest first, and of each crate the first sentence of its README.
With --check it only tells whether the page is fresh, by its status."""
import pathlib, re, sys

import pictures

CRATES = pictures.TOP / "crates"
PAGE = CRATES / "README.md"
# How many characters say what a crate is.
ENOUGH = 45
HEAD = """# The crates

`python3 docs/crate_map.py` writes this page: the layers from crates.txt, the highest first, and the first sentence of each crate's README. A crate uses crates of the layers below it, and of its own layer those that come before it in crates.txt. The map of [docs/ARCHITECTURE.md](../docs/ARCHITECTURE.md) has them one by one, and says how a row, a query and a forget go through them.

![The crates in their layers](../docs/pictures/layers.svg)

## What to read first

1. `table_model`: names, rows, schemas, and what a state and a query mean. Read `specs/Table.antt` and `specs/Meaning.antt`, then `src/schema.rt`.
2. `catalogue_join` and `segment_core`: what a store is made of, the sets of names and the rows.
3. `replica_store`: a replica, and what a merge is. `column_file`: its bytes.
4. `query_parser` and `query_eval`: from a query's text to its answer.
5. `cluster_history`: the main theorem, which [docs/THEOREM.md](../docs/THEOREM.md) explains word by word.

Each crate's folder has `src/` (the code and its contracts), `specs/` (the definitions that contracts cite), `proofs/` (what the prover needs besides), `must-fail-functions/` and `wrong-bodies/` (bodies that have to be refused), and a README that says what is proved and why it is so. Begin at `src/lib.rt`, the table of contents. The tests of NAME are in the crate `NAME_tests`, if it has any.
"""


def first_words(crate):
    """The first sentence of a crate's README, and the next ones if it is short, its links without where they lead."""
    paragraph = (CRATES / crate / "README.md").read_text().split("\n\n")[1].strip()
    words = re.sub(r"\[([^\]]*)\]\([^)]*\)", r"\1", " ".join(paragraph.split()))
    said = ""
    for sentence in re.split(r"(?<=[.!?]) (?=[A-Z`])", words):
        said = f"{said} {sentence}".strip()
        if len(said) >= ENOUGH:
            break
    return said.replace("|", "\\|")


def page():
    text = HEAD
    for head, crates in reversed(pictures.layers()):
        text += f"\n## {head}\n\n| Crate | What it is |\n|---|---|\n"
        text += "".join(f"| [`{crate}`]({crate}/README.md) | {first_words(crate)} |\n" for crate in reversed(crates))
    return text


def main():
    if sys.argv[1:] == ["--check"]:
        if not PAGE.exists() or PAGE.read_text() != page():
            print("crates/README.md is not what docs/crate_map.py writes")
            sys.exit(1)
    else:
        PAGE.write_text(page())


if __name__ == "__main__":
    main()
