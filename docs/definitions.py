#!/usr/bin/env python3
"""Writes docs/DEFINITIONS.md anew: each definition of the crates' specs that a clause of a public call or type cites, with the comment
above it. Every other public definition needs a comment too. With --check it only tells whether the page is fresh, by its status."""
import pathlib, re, sys

TOP = pathlib.Path(__file__).resolve().parent.parent
HEAD = """# Definitions

Each definition that a clause of a public call or type cites, with its plain meaning, by crate and file. A definition lives once, in the lowest crate that needs it. What these definitions are made of, and what only proofs use, is in the same folders of `specs/`, each with a comment. `python3 docs/definitions.py` writes this page.
"""
DEFINED = re.compile(r"\s*(?:abbrev |unfoldable )?pub (?:record |data )?(?!mod |use |module )(\S+)")
EQUATION = re.compile(r"\s*(?:abbrev |unfoldable )?pub \S+ :.* ≡ ")
SYNTAX = re.compile(r"[a-z]+ (=|[A-Z]\b|SQL|HEX)|cond$|identifier \\\|")
# What begins an item of a source, a clause, and a word of one.
ITEM = re.compile(r"\s*(fn\b|pub\(|pub\b|impl\b|trait\b)")
CLAUSE = re.compile(r"\s*(?:ensures|requires|ghost (?!use))")
WORD = re.compile(r"[^\s(){}\[\],.;:]+")
FIELD = re.compile(r"\s+pub \S+ :")


def meaning(comment):
    """The comment as a sentence's beginning, but for a variable's name or a rule of a grammar at its head."""
    text = " ".join(comment).rstrip(".").replace("|", "\\|")
    if re.match(r"[a-z]{2}|a [a-z]{2}", text) and not SYNTAX.match(text):
        text = text[0].upper() + text[1:]
    return text


def definitions(lines):
    """Each name that is defined, with the comment right above it; not a lemma, whose name has a hyphen or whose type ends in an equation, nor a heading."""
    found, comment, inside = [], [], False
    for line in lines:
        words = line.strip()
        defined = DEFINED.match(line)
        if words.startswith("-- --"):
            comment = []
        elif words.startswith("-- "):
            comment = comment + [words[3:]]
        elif defined and not (inside and FIELD.match(line)):
            if "-" not in defined[1] and not EQUATION.match(line):
                found.append((defined[1], comment))
            comment, inside = [], "record " in line
        elif words or not inside:
            comment = []
            inside = inside and line.startswith(" ")
    return found


def cited():
    """The words of clauses of public calls, of types and of traits."""
    words = set()
    for source in sorted(TOP.glob("crates/*/src/**/*.rt")):
        is_public = False
        for line in source.read_text().splitlines() if "_tests/" not in str(source) else []:
            item = ITEM.match(line)
            is_public = is_public if item is None else item[1] not in ("fn", "pub(")
            if is_public and CLAUSE.match(line):
                words |= set(WORD.findall(line))
    return words


CITED = cited()


def section(crate):
    rows = []
    for file in sorted((TOP / "crates" / crate / "specs").rglob("*.antt")):
        if file.name == "Lib.antt":
            continue
        place = file.relative_to(TOP / "crates" / crate / "specs")
        for name, comment in definitions(file.read_text().splitlines()):
            if not comment:
                sys.exit(f"{crate}: {name} of {place} has no comment that says what it means")
            if name in CITED:
                rows.append(f"| `{name}` | {meaning(comment)} | `{place}` |")
    return [f"\n## `{crate}`\n", "| Definition | Meaning | File in `specs/` |", "|---|---|---|", *rows] if rows else []


def main():
    crates = [line.split(":")[0].split()[0] for line in (TOP / "crates.txt").read_text().splitlines() if line and line[0] != "#"]
    page = HEAD + "\n".join(line for crate in crates for line in section(crate)) + "\n"
    path = TOP / "docs" / "DEFINITIONS.md"
    if "--check" in sys.argv:
        sys.exit(0 if path.read_text() == page else "docs/DEFINITIONS.md is stale: run docs/definitions.py")
    path.write_text(page)


if __name__ == "__main__":
    main()
