"""What the contracts of public calls state: the clauses of a call, and the definitions that they are made of."""
import functools, pathlib, re

TOP = pathlib.Path(__file__).resolve().parent.parent
CRATES = TOP / "crates"
WORD = re.compile(r"[A-Za-z_][\w-]*")
IMPORTED = re.compile(r"^\s*(?:ghost )?use Rattle\.(\w+)\.specs\.([\w.]+?)\.\{([^}]*)\}", re.M)
CLAUSE = re.compile(r"\s*(ensures|requires|ghost)\b")
# How many definitions a law may be away from a clause, or from a law named before it: that of the clause, and one that this names.
NEAR = 2


@functools.cache
def text_of(file):
    return file.read_text()


@functools.cache
def defined(name, file):
    """The text of the definition of this name in a file, or None."""
    found = re.search(rf"^(?:abbrev |unfoldable )?pub (?:record |data )?{name}\b.*?(?=\n\n|\Z)", text_of(file), re.M | re.S)
    return found and found[0]


def definition(name, files):
    """The text of the definition of this name in one of some files, or None."""
    return next((found for file in files if (found := defined(name, file))), None)


@functools.cache
def imported(file):
    """The names that a file imports of specs, each with the file that defines it and the name that it has there."""
    found = {}
    for crate, place, names in IMPORTED.findall(text_of(file)):
        home = CRATES / crate / "specs" / (place.replace(".", "/") + ".antt")
        for name in names.split(","):
            there, _, here = name.strip().partition(" as ")
            found[here or there] = (home, there)
    return found


def named(text, file):
    """The definitions that a text of a file names: the file of each, and its name."""
    found = set()
    for word in set(WORD.findall(text)):
        home, name = imported(file).get(word, (file, word))
        if home.suffix == ".antt" and home.exists() and defined(name, home):
            found.add((home, name))
    return found


def states(text, file, law, steps):
    """Whether a text of a file names a law, by its file and its name, or names what does in so many steps; None is any number."""
    near, seen = named(text, file), set()
    while near:
        if law in near:
            return True
        if steps == 0:
            return False
        steps = steps and steps - 1
        seen |= near
        near = set().union(*(named(defined(name, home), home) for home, name in near)) - seen
    return False


def clauses(name, source):
    """What a public call of a source ensures, as one text, or None if it isn't there."""
    begun = re.search(rf'^\s*pub (?:extern "C" )?fn {name}\b', text_of(source), re.M)
    if begun is None:
        return None
    ensured, kind = [], ""
    for line in text_of(source)[begun.end() :].splitlines():
        clause, said = CLAUSE.match(line), line.partition("//")[0]
        kind = clause[1] if clause else kind
        if line.strip() in ("{", "{}") or (line.endswith(" {") and not kind):
            break
        ensured += [said] if kind == "ensures" else []
    return "\n".join(ensured)


def calls(name, crate):
    """The sources that have a public call of this name, with what it ensures there: those of a crate, or of all."""
    sources = sorted(CRATES.glob(f"{crate or '*'}/src/**/*.rt"))
    return [(source, found) for source in sources if (found := clauses(name, source)) is not None]


def groups(cell):
    """The laws that a cell of the page names, with the calls of which they are clauses, and the crate of these, or None."""
    found = []
    for part in cell.split(";"):
        group = ([], [], [])
        for word in re.findall(r"`([^`]+)`", part):
            kind = 1 if word.endswith("()") else 2 if (CRATES / word).is_dir() else 0
            if kind == 0 and group[1]:
                found.append(group)
                group = ([], [], [])
            group[kind].append(word.removesuffix("()"))
        found.append(group)
    return [(laws, names, (crates or [None])[0]) for laws, names, crates in found if laws or names]


def unsaid(laws, name, call, files):
    """What is wrong with the laws of a call of this name: each is defined in these files, and a clause or a law before it says it."""
    said = [call]
    for law in laws:
        home = next((file for file in files if defined(law, file)), None)
        if home is None:
            return f"{law} is not defined in the files of its row"
        steps = NEAR if law[0].isupper() else None
        if not any(states(text, file, (home, law), steps) for file, text in said):
            return f"{law} is not what a clause of {name} says"
        said.append((home, defined(law, home)))
    return None


def unstated(cell, files):
    """What is wrong with a cell that names laws and calls, whose laws are defined in these files: a sentence, or None."""
    for laws, names, crate in groups(cell):
        if laws and not names:
            return f"no call is named that states {', '.join(laws)}"
        for name in names:
            found = calls(name, crate)
            if len(found) != 1:
                return f"there are {len(found)} public functions {name}" + (f" in {crate}" if crate else "")
            if fault := unsaid(laws, name, found[0], files):
                return fault
    return None
