#!/usr/bin/env python3
"""Keeps docs/THEOREM.md true to the code. It lists the definitions on which the page's statements rest, and counts their lines: what a
reader has to believe. And it compares what the page quotes with the code, and each law of the table with the clauses of the calls that the
row names (docs/laws.py).

The statements are those of the page's table `| Clause | Law | Stated in |`. From the files of its last column the script follows
imports, file by file: of definitions, and of the types that declared types are made of, with their views. The rows of the headline are
those whose clause begins in bold, and so are the names of the files that they rest on. It writes the list in docs/THEOREM.md anew; with
--check it only says by its status whether the page is fresh. It fails in either case if a file of the table isn't there, if a law of the
table is defined in none of the row's files or is not what a clause of each call says that the row names for it, or if a quoted statement is
not the code's.
"""
import re, sys

from laws import CRATES, TOP, definition, unstated

IMPORT = re.compile(r"^\s*(?:ghost )?use Rattle\.(\w+)\.specs\.([\w.]+?)(?:\.\{| as |\.?[;\s])", re.M)
TYPE = re.compile(r"^pub (?:enum|struct) (\w+)[^;{]*(?:\{.*?^\}|\([^)]*\);)", re.M | re.S)
MODEL = re.compile(r"^impl(?:<[^>]*>)? Model for .*?^\}", re.M | re.S)
USED = re.compile(r"^use ([\w:]+?)(?:::\{([^}]*)\}|::(\w+));", re.M)
BEGIN, END = "<!-- written by docs/believed.py -->", "<!-- until here -->"
STATED, ALOUD = "| Clause | Law | Stated in |", "| In the code | In words |"


def rows(page, head):
    """The cells of the rows of the page's table that has this head."""
    lines = page.split(head + "\n")[1].splitlines()
    return [line.strip("| ").split(" | ") for line in lines[1 : lines.index("")]]


def quoted(cell):
    """What a cell has between backquotes."""
    return re.findall(r"`([^`]+)`", cell)


def one_line(text):
    return " ".join(text.split())


def stated(page):
    """The files of the page's statements, and those of the headline. The script ends here if one isn't there, or a law isn't in them."""
    found, headline = [], []
    for row in rows(page, STATED):
        len(row) == 3 or sys.exit(f"docs/THEOREM.md: the row of `{row[0]}` does not have three cells")
        clause, laws, places = row
        files = [CRATES / place for place in quoted(places)]
        for file in files:
            file.exists() or sys.exit(f"docs/THEOREM.md: there is no file {file.relative_to(TOP)}, in which `{clause}` is stated")
        if fault := unstated(laws, files):
            sys.exit(f"docs/THEOREM.md: in the row of `{clause}`: {fault}")
        found += files
        headline += files if clause.startswith("**") else []
    return found, headline or sys.exit("docs/THEOREM.md: no clause of the table is one of the headline")


def compare(page, files):
    """Ends the script if a statement that the page quotes is not the code's. A row of the page that reads it aloud may leave out parts, by `..`."""
    statements = [block for block in re.findall(r"^```\n(.*?)^```$", page, re.M | re.S) if re.match(r"[A-Z]\w* =", block)]
    statements or sys.exit("docs/THEOREM.md: it quotes no statement")
    for block in statements:
        name = block.split()[0]
        code = one_line(definition(name, files) or "")
        code.endswith(" " + one_line(block)) or sys.exit(f"docs/THEOREM.md: {name} is not quoted as the code has it")
    told = " ".join(map(one_line, statements))
    for row in rows(page, ALOUD):
        for part in quoted(row[0])[0].split(".."):
            one_line(part) in told or sys.exit(f"docs/THEOREM.md: `{part.strip()}` is read aloud, and is in no statement that the page quotes")


def file_of(crate, place):
    """The file of an imported module: one of specs/, or the source that declares a type."""
    parts = [part for part in place.split(".") if part != "TheVariants"]
    if not (CRATES / crate).is_dir():
        return None
    if parts[0] == "declared":
        source = CRATES / crate / "src" / ("/".join(parts[1:-1]) + ".rt")
        return source if source.exists() else None
    while parts:
        found = CRATES / crate / "specs" / ("/".join(parts) + ".antt")
        if found.exists():
            return found
        parts = parts[:-1]
    return None


def definitions_in(text):
    """The files of definitions that a text imports."""
    return [found for crate, place in IMPORT.findall(text) if (found := file_of(crate, place))]


def declaring(crate, name):
    """The source of a crate that declares a type of this name."""
    return [source for source in (CRATES / crate / "src").rglob("*.rt") if re.search(rf"^pub (?:enum|struct) {name}\b", source.read_text(), re.M)]


def types_in(file):
    """The sources of the types that the types of a source are made of."""
    text, crate = file.read_text(), file.relative_to(CRATES).parts[0]
    words = {word for found in TYPE.finditer(text) for word in re.findall(r"\w+", found[0])}
    used = [(path.split("::")[0], name) for path, many, one in USED.findall(text) for name in re.findall(r"\w+", many or one)]
    return [source for owner, name in used if name in words for source in declaring(crate if owner == "crate" else owner, name)]


def imports(file):
    """The files that a file rests on: of definitions, and of a source's types and of their views."""
    text = file.read_text()
    if file.suffix == ".rt":
        return types_in(file) + [found for model in MODEL.findall(text) for found in definitions_in(model)]
    return definitions_in(text)


def believed(files):
    """All files that these rest on, themselves among them."""
    found, waiting = set(), list(files)
    while waiting:
        file = waiting.pop()
        if file not in found:
            found.add(file)
            waiting += imports(file)
    return found


def lines_of(file):
    """How many lines of definitions a file has: of a source those that declare types and say how contracts see them."""
    text = file.read_text()
    if file.suffix == ".rt":
        text = "\n".join([found[0] for found in TYPE.finditer(text)] + MODEL.findall(text))
    return sum(1 for line in map(str.strip, text.splitlines()) if line and not line.startswith(("use ", "ghost use ", "--", "//", "#[")))


def listed(files, headline):
    """The part of the page that lists files, by crate, those of the headline in bold."""
    order = [line.split(":")[0].split()[0] for line in (TOP / "crates.txt").read_text().splitlines() if re.match("[a-z]", line)]
    by_crate = {crate: sorted(it for it in files if it.relative_to(CRATES).parts[0] == crate) for crate in order}
    names = {file: f"`{'/'.join(file.relative_to(CRATES).parts[2:])}`" for file in files}
    names |= {file: f"**{names[file]}**" for file in headline}
    table = [f"| `{crate}` | {', '.join(names[it] for it in found)} | {sum(map(lines_of, found))} |" for crate, found in by_crate.items() if found]
    head = f"{len(files)} files, {sum(map(lines_of, files))} lines of definitions, without imports and comments. Of files that end in `.rt`, the types that they declare are counted, and how contracts see them."
    head += f" {len(headline)} files with {sum(map(lines_of, headline))} lines, in bold, are those of the sentence at the top."
    return "\n".join([BEGIN, head, "", "| Crate | Files | Lines |", "|---|---|---:|", *table, END])


def main():
    path = TOP / "docs" / "THEOREM.md"
    page = path.read_text()
    files, headline = stated(page)
    compare(page, files)
    before, rest = page.split(BEGIN)
    fresh = before + listed(believed(files), believed(headline)) + rest.split(END)[1]
    if "--check" in sys.argv:
        sys.exit(0 if fresh == page else "docs/THEOREM.md is stale: run docs/believed.py")
    path.write_text(fresh)


if __name__ == "__main__":
    main()
