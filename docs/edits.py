#!/usr/bin/env python3
"""Fails if a wrong body can't be applied: if a text that it replaces is not exactly once in its file. The wrong bodies are the files
crates/*/must-fail/*.edit, crates/*/must-fail-functions/*.edit and crates/*/wrong-bodies/*.edit; tests/must-fail says how they are
written. Each further pair of texts is looked for in what the earlier ones made."""
import pathlib, sys

TOP = pathlib.Path(__file__).resolve().parent.parent


def faults(edit):
    """What is wrong with the edit of a path: a sentence for each text that is not there once."""
    found, file, texts, old = [], None, {}, None
    for word, _, rest in (line.partition(": ") for line in edit.read_text().splitlines()):
        if word == "file":
            file = edit.parent.parent / rest
            texts.setdefault(file, file.read_text() if file.exists() else "")
        elif word == "old":
            old = rest
            if texts[file].count(old) != 1:
                found.append(f"{edit.relative_to(TOP)}: {texts[file].count(old)} times {old.strip()!r}")
        elif word == "new":
            texts[file] = texts[file].replace(old, rest)
    return found


def main():
    edits = [edit for folder in ("must-fail", "must-fail-functions", "wrong-bodies") for edit in sorted(TOP.glob(f"crates/*/{folder}/*.edit"))]
    found = [fault for edit in edits for fault in faults(edit)]
    print("\n".join(found) or f"edits: {len(edits)} wrong bodies apply")
    return bool(found)


if __name__ == "__main__":
    sys.exit(main())
