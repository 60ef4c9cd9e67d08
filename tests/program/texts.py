"""Whole texts of help and of faults of the command line, and command lines that are faults."""

from cases import Case

PROGRAM_HELP = """\
A replicated column store for one table of nullable integer columns

Usage: lanes <COMMAND>

One table, in a file or a folder:
  create       Creates an empty table: a file, or a folder if the name ends in /
  import       Inserts rows of comma-separated values
  query        Writes the answers of queries, one after another; docs/SQL.md describes the language
  delete       Deletes the rows for which a condition is true
  delete-rows  Deletes rows by their names, also rows that arrive later
  forget       Drops the batches of which every row is deleted; no answer changes
  dump         Writes the rows as comma-separated values
  inspect      Writes what a file holds and how its columns are coded
  check        Says whether a file is in canonical form, and how many batches and ranges of deletions it has
  pack         Joins small parts of a folder into one, so that there are few

Between sites:
  summary      Writes the names of a file's batches, for lanes offer
  offer        Writes what a file has and a summary does not, for lanes apply
  apply        Applies offers, or other files of the same table, to a file
  merge        Merges files and folders into one file

Over many machines:
  spread       Spreads what a file holds over new files, which share no batch
  partial      Computes a file's partial answer to a query over many files
  combine      Combines the partial answers of several files, for lanes finish
  finish       Turns a partial answer into the answer

Scripts:
  run          Runs a script and writes its replies to standard output
  help         Print this message, or the help of a command

Options:
  -h, --help     Print help
  -V, --version  Print version

lanes help COMMAND says how a command is used. The pages are in share/doc/lanes next to bin: README.md has a first example,
docs/COMMANDS.md all about each command, and docs/SQL.md the language of queries.
"""

RUN_HELP = """\
Runs a script and writes its replies to standard output

Usage: lanes run [OPTIONS] [SCRIPT]

Arguments:
  [SCRIPT]  The script (default: standard input)

Options:
      --explain  Say on standard error for each refused line its number and why it is refused
  -h, --help     Print help

A script has lines such as these, and each has a reply:
  table 2 T A SMALLINT
  append 1 (7),(NULL)
  query 1 SELECT COUNT(*) FROM T
All lines and replies are in docs/FORMATS.md, and examples/ has scripts to run.
"""

MERGE_HELP = """\
Merges files and folders into one file

Usage: lanes merge [OPTIONS] <OUT> <IN>...

Arguments:
  <OUT>    The file that is written
  <IN>...  The files that are merged, in this order

Options:
      --replace  Replace OUT, whatever it holds
      --quiet    Print nothing on success
  -h, --help     Print help

OUT is replaced as a whole, and stays as it was if the merge is refused. An OUT that is there and is not an IN is replaced only if the
result has all its rows and deletions, or with --replace: lanes apply OUT IN.. adds files to it. If OUT is not a regular file it is
written in place. A name OUT/ makes a new folder. An IN may be a folder: its parts are merged.
"""

SPREAD_HELP = """\
Spreads what a file holds over new files, which share no batch

Usage: lanes spread [OPTIONS] <FILE> <OUT>...

Arguments:
  <FILE>    The file, or the folder of parts
  <OUT>...  The files that are made

Options:
      --quiet  Print nothing on success
  -h, --help   Print help

Each batch goes to one OUT, with the deletions of its rows, and the OUTs have about as many bytes each. Merged they are FILE.
FILE may be a folder. A name OUT/ makes a new folder. If one of the OUTs is there already, nothing is made.
"""

PACK_HELP = """\
Joins small parts of a folder into one, so that there are few

Usage: lanes pack [OPTIONS] <FOLDER>

Arguments:
  <FOLDER>  The folder of parts

Options:
      --all    Join all parts into one
      --quiet  Print nothing on success
  -h, --help   Print help

Each change of a folder adds a part. Run this each hour, as by cron, so that there are few: small parts are joined into one, and are
then removed. What the folder holds stays the same, and other commands may run meanwhile.
"""

PARTIAL_HELP = """\
Computes a file's partial answer to a query over many files

Usage: lanes partial <FILE> <SQL>

Arguments:
  <FILE>  The file, or the folder of parts, or - for standard input
  <SQL>   The query

Options:
  -h, --help  Print help

A partial answer is bytes, for a file or a pipe. lanes combine combines those of files that share no batch, and lanes finish writes
the answer: that of the query over all these files merged. docs/COMMANDS.md has an example.
"""

COMBINE_HELP = """\
Combines the partial answers of several files, for lanes finish

Usage: lanes combine <PARTIAL>...

Arguments:
  <PARTIAL>...  The partial answers that are combined, or - for standard input

Options:
  -h, --help  Print help

The partial answers are of one query, and of files that share no batch. Their order does not matter. What is written is a partial
answer too.
"""

# Help names each command, in groups.
HELP = [
    (["--help"], PROGRAM_HELP),
    (["help"], PROGRAM_HELP),
    (["help", "--help"], PROGRAM_HELP),
    (["run", "--help"], RUN_HELP),
    (["merge", "--help"], MERGE_HELP),
    (["spread", "--help"], SPREAD_HELP),
    (["pack", "--help"], PACK_HELP),
    (["partial", "--help"], PARTIAL_HELP),
    (["combine", "--help"], COMBINE_HELP),
]

# A fault names what is wrong, the usage, and where help is. However the program is called, it is told as lanes.
FAULTS = [
    ([], "error: 'lanes' requires a subcommand but one was not provided\n  [subcommands: create, import, query, partial, combine, finish, delete, delete-rows, forget, dump, inspect, summary, offer, apply, check, merge, spread, pack, run, help]\n\nUsage: lanes <COMMAND>\n\nFor more information, try '--help'.\n"),
    (["run", "x", "y"], "error: unexpected argument 'y' found\n\nUsage: lanes run [OPTIONS] [SCRIPT]\n\nFor more information, try '--help'.\n"),
    (["bogus"], "error: unrecognized subcommand 'bogus'\n\nUsage: lanes <COMMAND>\n\nFor more information, try '--help'.\n"),
    (["query", "t", "A", "--x"], 'error: lanes query has no option "--x", only --format and --help: no query begins with -\n\nUsage: lanes query [OPTIONS] <FILE> <SQL>...\n\nFor more information, try \'--help\'.\n'),
    (["create", "t", "T", "A", "text"], "error: \"text\" is no type: each column is a name and its type, TINYINT, SMALLINT, INTEGER or BIGINT; store a number for each text\n\nUsage: lanes create [OPTIONS] <FILE> <TABLE> <COL TYPE>...\n\nFor more information, try '--help'.\n"),
    (["import", "t"], "error: CSV is missing: give files, or - for standard input\n\nUsage: lanes import [OPTIONS] <FILE> <CSV>...\n\nFor more information, try '--help'.\n"),
]

# Command lines that have a word too few or too many, or one that is malformed.
MALFORMED = [
    ["spread", "t"],
    ["query", "t", "A", "--format"],
    ["query", "t", "A", "-x", "-"],
    ["query", "t", "-", "A"],
    ["query", "t", "-", "-"],
    ["query", "--format", "TEXT", "t", "A"],
    ["create", "f", "t", "a", "smallint", "b"],
    ["create", "f", "t", "a", "text"],
    ["create", "f", "t"],
    ["import", "--columns", "-", "f", "c"],
    ["import", "--columns", "-,-", "f", "c"],
    ["import", "--columns", "A,-,B,a", "f", "c"],
    ["import", "--separator", "", "f", "c"],
    ["import", "--separator", ";;", "f", "c"],
    ["import", "--separator", "\u00e9", "f", "c"],
    ["import", "--separator", "7", "f", "c"],
    ["import", "--separator", "x", "f", "c"],
    ["import", "--separator", "-", "f", "c"],
    ["import", "--separator", "_", "f", "c"],
    ["import", "--separator", "\"", "f", "c"],
    ["import", "--separator", "\\", "f", "c"],
    ["import", "--separator", "\n", "f", "c"],
    ["import", "--null", "-99", "f", "c"],
    ["import", "--null", "0", "f", "c"],
    ["import", "--null", "-000000000000000000000000000001", "f", "c"],
    ["import", "f", "-", "-"],
    ["import", "f", "c", "--batch"],
    ["check", "--quiet", "f"],
    ["import", "--batch", "1.4294967296", "f", "c"],
    ["import", "--batch", "00000000001.1", "f", "c"],
    ["delete-rows", "f", "-1.2", "1", "3"],
    ["delete-rows", "f", "1.2", "0", "65536"],
    ["delete-rows", "f", "1.2", "0", "000001"],
    ["pack", "d", "-all"],
    ["finish", "--expect", "-", "-"],
    ["finish", "--format", "xml", "p"],
    ["finish", "p", "--format"],
    ["inspect", "--format", "csv", "f"],
    ["forget"],
    ["forget", "f", "f"],
    ["pack"],
    ["pack", "d", "d"],
    ["apply", "f", "-", "-"],
    ["apply", "f"],
    ["offer", "f"],
    ["offer", "f", "s", "s"],
    ["summary"],
    ["summary", "f", "f"],
    ["dump"],
    ["dump", "--name", "f"],
    ["dump", "--where", "f"],
    ["inspect"],
    ["delete", "f"],
    ["delete", "f", "A", "B"],
    ["delete-rows", "f", "1.1", "0"],
    ["delete-rows", "f", "1.1", "0", "1", "2"],
    ["delete-rows", "f", "1", "0", "1"],
    ["delete-rows", "f", "1.1.1", "0", "1"],
    ["delete-rows", "f", "+1.1", "0", "1"],
    ["delete-rows", "f", "1.1", "-1", "1"],
    ["delete-rows", "f", "1.1", "", "1"],
    ["import", "f"],
    ["import", "--batch", "1", "f", "c"],
    ["import", "--batch", ".1", "f", "c"],
    ["imports", "f", "c"],
    ["query", "t"],
    ["partial", "t"],
    ["part", "t", "A"],
    ["combine"],
    ["combine", "-", "a", "-"],
    ["finish"],
    ["finish", "p", "p"],
]


def is_fault(wrote):
    """Whether this is a fault of the command line, which ends with where help is."""
    return wrote.startswith(b"error: ") and wrote.endswith(b"\n\nFor more information, try '--help'.\n")


TEXT_CASES = [
    *(Case(f"the whole help of {words}", words, 0, text.encode()) for words, text in HELP),
    *(Case(f"the whole fault of {words}", words, 2, err=text.encode()) for words, text in FAULTS),
    *(Case(f"{words} is a fault of the command line", words, 2, err=is_fault) for words in MALFORMED),
]
