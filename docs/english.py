#!/usr/bin/env python3
"""Checks a few words of the pages that are written by hand: README.md, CONTRIBUTING.md, docs/*.md but DEFINITIONS.md, the examples, the
READMEs of tests and benchmarks, and those of crates; of the docstrings of all crates and of Python's; of the comments of include/ and
c/; and, if a program is named, of its help. A condition is told by `if` or `when`, so the
word `where` comes in headings alone; and `is had` and `is none` are not said. Nor are they in the texts of the program's messages, in all
crates. The pages that belong to no crate, and the messages, do not say `stands` for `is`, `lacks`, `beside` and `maybe` either, and the pages
neither `is told`, `want of`, `so many` nor `hasn't a`. Code is passed over. It prints each line that is wrong, and the status is then 1.

    docs/english.py [PROGRAM]"""
import ast, pathlib, re, subprocess, sys

TOP = pathlib.Path(__file__).resolve().parent.parent
PAGES = ["README.md", "CONTRIBUTING.md", "docs/*.md", "examples/*.md", "tests/README.md", "bench/README.md", "python/README.md"]
READMES = ["crates/*/README.md"]
PYTHON = ["python/lanes/*.py"]
C = ["include/*.h", "c/*.h", "c/*.c"]
WRITTEN = ["DEFINITIONS.md"]
# The option whose name is that of the clause.
WHERE_CLAUSE = "--where"
# A text of a program that has two words at least, so that names and options are none.
TEXT = re.compile(r'"((?:[^"\\]|\\.)* (?:[^"\\]|\\.)*)"')
# The condition of a script's line.
SCRIPT_WORD = "delete where"
NOT_SAID = re.compile(r"\b[Ww]here\b|\b(?:is|are|was|were) had\b|\bis none\b")
# A file stands for what was taken, by the second theorem, and the repository stands alone.
NOT_SAID_TO_USERS = re.compile(NOT_SAID.pattern + r"|\b[Ss]t(?:ands?|ood)\b(?! for| alone)|\b[Ll]ack(?:s|ed|ing)?\b|\b[Bb]eside\b|\b[Mm]aybe\b")
NOT_SAID_ON_PAGES = re.compile(NOT_SAID_TO_USERS.pattern + r"|\b(?:is|are) told\b|\b[Ww]ant of\b|\b[Ss]o many\b|\b(?:has|have)n't an?\b")


def lines_of(page):
    """The lines of a page that are no headings, each with its number, without their code."""
    text = re.sub(r"^```.*?^```$", lambda block: "\n" * block[0].count("\n"), page.read_text(), flags=re.M | re.S)
    return [(number, re.sub(r"`[^`]*`", "`", line)) for number, line in enumerate(text.splitlines(), 1) if not line.startswith("#")]


def docstrings_of(source):
    """The lines of docstrings of a source, each with its number, without their code."""
    lines = enumerate(source.read_text().splitlines(), 1)
    return [(number, re.sub(r"`[^`]*`", "`", line)) for number, line in lines if re.match(r"\s*//[/!]", line)]


def messages_of(source):
    """The texts in quotes of a source, each with the number of its line, without the lines of scripts that they show."""
    lines = [(number, line) for number, line in enumerate(source.read_text().splitlines(), 1) if not re.match(r"\s*//|\s*(?:ghost|ensures|requires)\b", line)]
    return [(number, text.replace(SCRIPT_WORD, "")) for number, line in lines for text in TEXT.findall(line)]


def python_docstrings_of(source):
    """The lines of docstrings of a source in Python, each with its number, without their code."""
    kinds = (ast.Module, ast.ClassDef, ast.FunctionDef, ast.AsyncFunctionDef)
    nodes = [node for node in ast.walk(ast.parse(source.read_text())) if isinstance(node, kinds) and ast.get_docstring(node, clean=False)]
    texts = [(node.body[0].lineno, re.sub(r"`[^`]*`", lambda code: "`" + "\n" * code[0].count("\n"), node.body[0].value.value)) for node in nodes]
    return [(first + at, line) for first, text in texts for at, line in enumerate(text.splitlines())]


def comments_of(source):
    """The lines of comments of a source in C, each with its number, without what is between backquotes."""
    text = re.sub(r"/\*.*?\*/|[^\n]", lambda found: found[0] if found[0].startswith("/*") else "", source.read_text(), flags=re.S)
    return [(number, re.sub(r"`[^`]*`", "`", line)) for number, line in enumerate(text.splitlines(), 1)]


def help_of(program):
    """The lines of the help of a program and of its commands, each with its number."""
    whole = subprocess.run([program, "--help"], stdout=subprocess.PIPE, text=True, check=True).stdout
    commands = re.findall(r"^  ([a-z-]+)  +[A-Z]", whole, re.M)
    texts = [whole] + [subprocess.run([program, name, "--help"], stdout=subprocess.PIPE, text=True, check=True).stdout for name in commands if name != "help"]
    return list(enumerate("".join(texts).splitlines(), 1))


def faults_of(file, lines, not_said=NOT_SAID):
    """The words of these lines of a file that are not said."""
    return [f"{file.relative_to(TOP)}:{number}: {found[0]}" for number, line in lines for found in not_said.finditer(line)]


def pages_of(patterns):
    """The pages that are written by hand."""
    return [page for pattern in patterns for page in sorted(TOP.glob(pattern)) if page.name not in WRITTEN]


def main():
    sources = sorted((TOP / "crates").glob("*/src/**/*.rt"))
    speaking = [source for source in sources if "_tests/" not in str(source)]
    wrong = [fault for page in pages_of(PAGES) for fault in faults_of(page, lines_of(page), NOT_SAID_ON_PAGES)]
    wrong += [fault for page in pages_of(READMES) for fault in faults_of(page, lines_of(page))]
    wrong += [fault for source in sources for fault in faults_of(source, docstrings_of(source))]
    wrong += [fault for source in speaking for fault in faults_of(source, messages_of(source), NOT_SAID_TO_USERS)]
    wrong += [fault for source in pages_of(PYTHON) for fault in faults_of(source, python_docstrings_of(source), NOT_SAID_TO_USERS)]
    wrong += [fault for source in pages_of(C) for fault in faults_of(source, comments_of(source), NOT_SAID_TO_USERS)]
    for program in sys.argv[1:]:
        lines = [(number, line.replace(WHERE_CLAUSE, "")) for number, line in help_of(program)]
        wrong += [f"{program} --help, line {number}: {found[0]}" for number, line in lines for found in NOT_SAID_TO_USERS.finditer(line)]
    print("".join(f"{line}\n" for line in wrong), end="")
    sys.exit(1 if wrong else 0)


if __name__ == "__main__":
    main()
