"""What compares pages with the sources: the scripts of docs/ and release/manual, each over a tree that is wrong in one place."""

import os
import re
import sys

from judging import TOP, ended, tree, write

#: The crates in which docs/edge.py has to see a call more.
CRATES_OF_FOLDERS = "folder_system lanes program_folders program_files program_changes program_failures program_inputs folder_commands folder_parts folder_simulation folder_model folder_protocol folder_turns".split()

#: The set functions are listed in these files. One list has AVG in each.
LISTS = "table_model/src/identifier.rt table_model/specs/Identifier.antt query_parser/src/lexer.rt query_parser/specs/Token.antt query_eval/src/answers/heading.rt table_model/specs/Meaning.antt refusal_sentences/src/tokens.rt refusal_sentences/src/place.rt".split()

#: A line that is not plain English, for each kind of text, by a file that has such texts.
NOT_ENGLISH = {
    "README.md": "It is none.\n",
    "CONTRIBUTING.md": "It is none.\n",
    "docs/SQL.md": "It is none.\n",
    "tests/README.md": "It is none.\n",
    "bench/README.md": "It is none.\n",
    "python/README.md": "It is none.\n",
    "crates/patience/README.md": "It is none.\n",
    "crates/patience/src/lib.rt": "/// It is none.\n",
    "crates/command_line/src/lib.rt": 'const WRONG: &str = "it is none";\n',
    "python/lanes/schema.py": 'def wrong():\n    """It is none."""\n',
    "include/lanes.h": "/* It is none. */\n",
    "c/lanes_arrow.c": "/* It is none. */\n",
}

#: A link that leads nowhere, in a page of each kind.
PAGES_WITH_LINKS = "README.md docs/SQL.md tests/README.md bench/README.md crates/patience/README.md".split()

#: A law of docs/THEOREM.md's table that a call does not say: in which file, what is there once or more often, what comes in its place, and what is told.
UNSAID = [
    ("crates/cluster_history/specs/History.antt", "pub exports : SameExport", "pub exports : ReadsLeaveAll", "SameExport is not what a clause of history_laws says"),
    ("crates/folder_protocol/src/keeping.rt", "    ensures in_turn {", "    ensures turns { Unit {0} } //", "GoesInTurn is not what a clause of keep_all says"),
    ("crates/replica_store/src/laws.rt", "ensures { MergeLaws }", "requires { MergeLaws }", "MergeLaws is not what a clause of merge_laws says"),
    ("crates/lanes_c/specs/FolderTurns.antt", " × MayEndAs state.task call.number", "", "MayEndAs is not what a clause of lanes_folder_next says"),
    ("docs/THEOREM.md", "| `FileLaws` of `file_laws()` |", "| `FileLaws` |", "no call is named that states FileLaws"),
    ("docs/THEOREM.md", "| `FileLaws` of `file_laws()` |", "| `FileLaws` of `laws_of_files()` |", "there are 0 public functions laws_of_files"),
    ("docs/THEOREM.md", "`folder_model/specs/Laws.antt`", "`folder_model/specs/Run.antt`", "FolderHistoryLaws is not defined in the files of its row"),
]

#: A program whose help release/manual reads.
PROGRAM = """#!/bin/sh
case "$*" in
    --version) echo 'lanes 1.2.3' ;;
    *) exec {program} "$@" ;;
esac
"""


def append(path, text):
    with open(path, "a", encoding="utf-8") as file:
        file.write(text)


def run(room, script, *words):
    return ended([sys.executable, room / script, *words])


def a_call_beside_the_protocol_is_told_in_each_crate(room):
    tree(room, "docs/edge.py", *(f"crates/{crate}/src" for crate in CRATES_OF_FOLDERS))
    script = [sys.executable, room / "docs" / "edge.py"]
    assert ended(script) == (0, ""), ended(script)
    for crate in CRATES_OF_FOLDERS:
        source = sorted((room / "crates" / crate / "src").glob("**/*.rt"))[0]
        text = source.read_text()
        for call in ("fs::rename(a, b)", "OpenOptions::new()", "file.sync_all()", "file.try_lock()") if crate == "lanes" else ("fs::rename(a, b)",):
            source.write_text(f"{text}\nfn beside() {{\n    {call};\n}}\n")
            status, said = ended(script)
            assert status == 1 and source.relative_to(room / "crates").as_posix() in said, (crate, call, said)
        source.write_text(f"{text}\n// fs::rename(a, b)\n")
        assert ended(script) == (0, ""), ended(script)
        source.write_text(text)
    taken = room / "crates" / "folder_system" / "src" / "lock.rt"
    taken.unlink()
    status, said = ended(script)
    assert status == 1 and "folder_system/src/lock.rt is not there" in said, said


def a_place_to_touch_that_is_not_listed_or_not_there_is_told(room):
    tree(room, "docs/walks.py", "CONTRIBUTING.md")
    script, page = [sys.executable, room / "docs" / "walks.py"], room / "CONTRIBUTING.md"
    text = page.read_text()
    assert ended(script) == (0, ""), ended(script)
    section = text.split("## Where to touch")[1].split("\n## ")[0]
    places = {(crate, word) for crate, word in re.findall(r"`(\w+)`: `([\w/]+\.rt)`", section)}
    told = 0
    some = sorted(places)[:: -(-len(places) // 6)]
    for crate, word in some:
        page.write_text(text.replace(f"`{crate}`: `{word}`", f"`{crate}`: `none_{word.split('/')[-1]}`"))
        status, said = ended(script)
        assert status == 1 and f"{crate} has no none_" in said, (crate, word, said)
        told += "is not listed" in said and f"{crate}/" in said
    assert told >= 1, f"of {len(some)} places {told} are told to be left out"
    for path in re.findall(r"(?<![\w/`])(?:tests|docs|python|include)/[\w./-]*\w", section)[:1]:
        page.write_text(text.replace(path, f"{path}_none"))
        status, said = ended(script)
        assert status == 1 and "there is no " in said, (path, said)


def a_call_that_changes_something_is_told_if_its_file_only_looks(room):
    source = "crates/program_inputs/src/home.rt"
    tree(room, "docs/edge.py", "crates/program_inputs/src")
    assert run(room, "docs/edge.py") == (0, ""), run(room, "docs/edge.py")
    text = (room / source).read_text()
    changed = re.sub(r"\bfs::(metadata|symlink_metadata)\(", "fs::rename(", text, count=1)
    assert changed != text
    (room / source).write_text(changed)
    status, said = run(room, "docs/edge.py")
    assert status == 1 and "program_inputs/src/home.rt changes something" in said, (status, said)


def a_file_that_the_last_command_alone_names_is_listed(room):
    """Of the commands the list has those that name `spread`, and those that name `forget`, the last one that changes a file."""
    tree(room, "docs/walks.py", "CONTRIBUTING.md")
    page = room / "CONTRIBUTING.md"
    text = page.read_text()
    assert "`covering_laws`: " in text
    page.write_text(text.replace("`covering_laws`: ", "another crate: "))
    status, said = run(room, "docs/walks.py")
    assert status == 1 and "crates/covering_laws/" in said and "is not listed" in said, (status, said)


def a_list_of_set_functions_that_does_not_have_one_is_told(room):
    tree(room, "docs/set_functions.py", *(f"crates/{name}" for name in LISTS), "crates/table_model/src/query.rt")
    assert run(room, "docs/set_functions.py") == (0, ""), run(room, "docs/set_functions.py")
    for name in LISTS:
        path = room / "crates" / name
        text = path.read_text()
        path.write_text(re.sub(r"\bAVG\b", "AVERAGE", text))
        status, said = run(room, "docs/set_functions.py")
        assert status == 1 and f"{name} does not have the set functions AVG" in said, (name, status, said)
        path.write_text(text)


def words_that_are_not_plain_english_are_told_in_each_kind_of_text(room):
    tree(room, "docs/english.py", *NOT_ENGLISH)
    assert run(room, "docs/english.py") == (0, ""), run(room, "docs/english.py")
    for name, line in NOT_ENGLISH.items():
        append(room / name, f"\n{line}")
    status, said = run(room, "docs/english.py")
    told = {line.split(":")[0] for line in said.splitlines()}
    assert status == 1 and told == {*NOT_ENGLISH}, (status, told ^ {*NOT_ENGLISH})


def a_link_that_leads_nowhere_is_told_in_each_kind_of_page(room):
    tree(room, "docs/references.py", *PAGES_WITH_LINKS)
    assert run(room, "docs/references.py") == (0, ""), run(room, "docs/references.py")
    for name in PAGES_WITH_LINKS:
        append(room / name, "\n[nothing](nowhere.md)\n")
    status, said = run(room, "docs/references.py")
    assert status == 1 and sorted(said.splitlines()) == sorted(f"{name}: there is no nowhere.md" for name in PAGES_WITH_LINKS), (status, said)


def a_crate_above_its_user_in_the_map_is_told(room):
    tree(room, "docs/references.py", "docs/ARCHITECTURE.md")
    page = room / "docs" / "ARCHITECTURE.md"
    text = page.read_text()
    rows = {crate: row for row, crate in re.findall(r"^(\|[^|]*\| `(\w+)` \|.*)$", text, re.M)}
    low, high = rows["table_model"], rows["column_file"]
    page.write_text(text.replace(low, "LOW").replace(high, low).replace("LOW", high))
    status, said = run(room, "docs/references.py")
    assert status == 1 and "docs/ARCHITECTURE.md: column_file uses table_model, whose row is above" in said, (status, said)


def a_page_or_a_picture_that_is_old_is_told(room):
    pictures = sorted(f"docs/pictures/{name}" for name in os.listdir(TOP / "docs" / "pictures"))
    tree(room, "docs/crate_map.py", "docs/pictures.py", "crates/README.md", *pictures)
    for script, pages in ("docs/crate_map.py", ["crates/README.md"]), ("docs/pictures.py", pictures):
        assert run(room, script, "--check") == (0, ""), (script, run(room, script, "--check"))
        for name in pages:
            text = (room / name).read_text()
            append(room / name, " ")
            status, said = run(room, script, "--check")
            assert status == 1 and name.split("/")[-1] in said, (name, status, said)
            (room / name).write_text(text)


def a_law_that_no_clause_of_its_call_says_is_told(room):
    crates = [f"crates/{crate}/{part}" for crate in ("cluster_history", "folder_protocol", "replica_store") for part in ("src", "specs")]
    tree(room, "docs/believed.py", "docs/laws.py", "docs/THEOREM.md", *crates)
    assert run(room, "docs/believed.py", "--check") == (0, ""), run(room, "docs/believed.py", "--check")
    for name, old, new, wanted in UNSAID:
        text = (room / name).read_text()
        assert old in text, (name, old)
        (room / name).write_text(text.replace(old, new))
        status, said = run(room, "docs/believed.py", "--check")
        assert status == 1 and wanted in said, (name, old, status, said)
        (room / name).write_text(text)


def a_wrong_body_that_cannot_be_applied_is_told(room):
    folders = "crates/folder_protocol/src", "crates/folder_protocol/wrong-bodies", "crates/folder_protocol/must-fail-functions"
    tree(room, "docs/edits.py", *folders)
    status, said = run(room, "docs/edits.py")
    assert status == 0 and "wrong bodies apply" in said, (status, said)
    source = room / "crates/folder_protocol/src/keeping.rt"
    source.write_text(source.read_text().replace("        folder.sync()", "        Ok(folder.sync()?)"))
    status, said = run(room, "docs/edits.py")
    assert status == 1 and "a_part_is_kept_unsynced.edit: 0 times 'folder.sync()'" in said, (status, said)


def a_manual_or_completions_of_another_program_are_told(room):
    tree(room, "release/manual", "release/lanes.1", "release/lanes.bash")
    write(room / "program", PROGRAM.format(program=TOP / "lanes"))
    words = [room / "release" / "manual"]
    assert ended([*words, room / "program"])[0] == 0
    check = [*words, "--check", room / "program"]
    assert ended(check)[0] == 0, ended(check)
    for name in "lanes.1", "lanes.bash":
        path = room / "release" / name
        text = path.read_text()
        path.write_text(text.replace("a", "b", 1))
        status, said = ended(check)
        assert status == 1 and f"release/{name} isn't what" in said, (name, status, said)
        path.write_text(text)


TESTS = [
    a_call_beside_the_protocol_is_told_in_each_crate,
    a_call_that_changes_something_is_told_if_its_file_only_looks,
    a_place_to_touch_that_is_not_listed_or_not_there_is_told,
    a_file_that_the_last_command_alone_names_is_listed,
    a_list_of_set_functions_that_does_not_have_one_is_told,
    words_that_are_not_plain_english_are_told_in_each_kind_of_text,
    a_link_that_leads_nowhere_is_told_in_each_kind_of_page,
    a_crate_above_its_user_in_the_map_is_told,
    a_page_or_a_picture_that_is_old_is_told,
    a_law_that_no_clause_of_its_call_says_is_told,
    a_wrong_body_that_cannot_be_applied_is_told,
    a_manual_or_completions_of_another_program_are_told,
]
