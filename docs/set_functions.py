#!/usr/bin/env python3
"""Compares the lists of set functions that the sources have as texts with the variants of `Fold`, which table_model has once.

Each list is another text: keywords are sorted, a lexer knows them by their signs, a sentence names them in English. So they can't be one
constant. A name that one list has and another does not is told, and the status is then 1."""
import pathlib, re, sys

CRATES = pathlib.Path(__file__).resolve().parent.parent / "crates"
NAME = r"[A-Z]+"
# Each list: its source, the text that it is in, a name in that text, and whether the list may have other names too.
LISTS = [
    ("table_model/src/identifier.rt", r"(?s)\[.*?\]", rf'b"({NAME})"', True),
    ("table_model/specs/Identifier.antt", r"(?s).*", rf'codes "({NAME})"', True),
    ("query_parser/src/lexer.rt", r"(?s).*", rf'\(b"({NAME})", Sign::', True),
    ("query_parser/specs/Token.antt", r"(?s)keywords =.*", rf'\(codes "({NAME})", sign\.', True),
    ("query_eval/src/answers/heading.rt", r"(?s)fn fold_text.*?\n}", rf'=> "({NAME})"', False),
    ("table_model/specs/Meaning.antt", r"(?s)abbrev pub fold_text.*?\n\n", rf'codes "({NAME})"', False),
    ("refusal_sentences/src/tokens.rt", r"(?s)fn is_function.*?\n}", rf'b"({NAME})"', False),
    ("refusal_sentences/src/place.rt", r"set functions are [^\"]*", rf"\b({NAME})\b", False),
]


def set_functions():
    """The names of the set functions: the variants of `Fold`, in capitals."""
    source = (CRATES / "table_model/src/query.rt").read_text()
    variants = re.search(r"(?s)pub enum Fold \{(.*?)\n\}", source)[1]
    return {name.upper() for name in re.findall(r"^\s*(\w+),", variants, re.M)}


def main():
    wanted, wrong = set_functions(), []
    for name, part, word, may_have_more in LISTS:
        text = "".join(re.findall(part, (CRATES / name).read_text()))
        found = set(re.findall(word, text))
        if lacking := sorted(wanted - found):
            wrong.append(f"{name} does not have the set functions {', '.join(lacking)}")
        if not may_have_more and (more := sorted(found - wanted)):
            wrong.append(f"{name} has {', '.join(more)}, which are no set functions of table_model")
    print("\n".join(wrong)) if wrong else None
    sys.exit(1 if wrong or not wanted else 0)


if __name__ == "__main__":
    main()
