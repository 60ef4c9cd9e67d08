"""Each command with each of its options before, between and after its other words: it means the same in each place. And words that
begin with a hyphen and are no options."""

from cases import BOTH, COMMANDS, NO_PAIR, ONE_PAIR, ONE_ROW, SECOND_BATCH, Case, batch, digest, file_of
from coverage import summary
from partial_answers import TWO

EMPTY = file_of(b"T")
NAMED = ["--batch", "2.1"]
ADDED = b"ok batches=1 new=1 rows=1 first=2.1\n"
REPORT = b'{"table":"T","batches":0,"rows":0,"live":0,"ranges":0,"bytes":25,'
SUMMARY = summary((1, 1), (2, 1))


def line(command, words, option, out, status=0, err=b"", files=None, writes=None, first=()):
    """A command, its words, one option with its value, what comes of both, and options that always come first."""
    return command, words, option, status, out, err, files or {}, writes or {}, first


def imports(option, text, out, first=NAMED, table=EMPTY, **more):
    return line("import", ["t", "c"], option, out, files={"t": table, "c": text}, first=[] if option[0] == "--batch" else first, **more)


LINES = [
    line("create", ["t", "T", "A", "SMALLINT"], ["--quiet"], b"", writes={"t": EMPTY}),
    imports(["--batch", "2.1"], b"A\n7\n", ADDED, writes={"t": SECOND_BATCH}),
    imports(["--batch=2.1"], b"A\n7\n", ADDED, first=[], writes={"t": SECOND_BATCH}),
    imports(["--no-header"], b"7\n", ADDED, writes={"t": SECOND_BATCH}),
    imports(["--separator", ";"], b"B;A\n8;7\n", ADDED, table=NO_PAIR, writes={"t": ONE_PAIR}),
    imports(["--null", "--"], b"A\n--\n", ADDED),
    imports(["--columns", "-,A"], b"X,Y\n1,7\n", ADDED, writes={"t": SECOND_BATCH}),
    imports(["--whole-lines"], b"A\n7", b"", status=1, err=b"refused BadCsv 2 0\nc, line 2: the last line has no line end: it may be cut off\n", writes={"t": EMPTY}),
    imports(["--quiet"], b"A\n7\n", b"", writes={"t": SECOND_BATCH}),
    line("query", ["t", "SELECT SUM(A) FROM T", "SELECT COUNT(*) AS N FROM T"], ["--format", "json"], b'{"SUM(A)":14}\n{"N":2}\n', files={"t": BOTH}),
    line("finish", ["p"], ["--format", "csv"], b"COUNT(*),SUM(A)\n2,14\n", files={"p": TWO}),
    line("finish", ["p"], ["--expect", "s"], b"COUNT(*),SUM(A)\n2,14\n", files={"p": TWO, "s": SUMMARY}),
    line("delete", ["t", "A = 7"], ["--quiet"], b"", files={"t": EMPTY}, writes={"t": EMPTY}),
    line("delete", ["t", "-1 < A"], ["--quiet"], b"", files={"t": EMPTY}, writes={"t": EMPTY}),
    line("delete-rows", ["t", "1.1", "0", "0"], ["--held"], b"ok held=0\n", files={"t": EMPTY}, writes={"t": EMPTY}),
    line("delete-rows", ["t", "1.1", "0", "0"], ["--quiet"], b"", files={"t": EMPTY}),
    line("forget", ["t"], ["--quiet"], b"", files={"t": BOTH}, writes={"t": BOTH}),
    line("dump", ["t"], ["--names"], b"BATCH,ORDINAL,A\n1.1,0,7\n2.1,0,7\n", files={"t": BOTH}),
    line("dump", ["t"], ["--where", "-1 > A"], b"A\n", files={"t": BOTH}),
    line("dump", ["t"], ["--columns", "a,A"], b"A,A\n7,7\n7,7\n", files={"t": BOTH}),
    line("inspect", ["t"], ["--batches"], b"BATCH,ROWS,LIVE\n1.1,1,1\n2.1,1,1\n", files={"t": BOTH}),
    line("inspect", ["t"], ["--batches", "--digest"], f"BATCH,ROWS,LIVE,DIGEST\n1.1,1,1,{digest(ONE_ROW)}\n2.1,1,1,{digest(SECOND_BATCH)}\n".encode(), files={"t": BOTH}),
    line("inspect", ["t"], ["--format", "json"], [REPORT], files={"t": EMPTY}),
    line("inspect", ["t"], ["--digest"], [f"table T\ndigest {digest(EMPTY)}\nbatches 0\n".encode()], files={"t": EMPTY}),
    line("check", ["t"], ["--digest"], f"ok batches=2 ranges=0 digest={digest(BOTH)}\n".encode(), files={"t": BOTH}),
    line("apply", ["t", "u", "v"], ["--quiet"], b"", files={"t": ONE_ROW, "u": SECOND_BATCH, "v": EMPTY}, writes={"t": BOTH}),
    line("merge", ["out", "t", "u"], ["--quiet"], b"", files={"t": ONE_ROW, "u": SECOND_BATCH}, writes={"out": BOTH}),
    line("spread", ["t", "out"], ["--quiet"], b"", files={"t": BOTH}, writes={"out": BOTH}),
    line("pack", ["d"], ["--all"], b"", status=1, err=b"refused ReadFault\nd: this folder holds no part\n", files={"d/kept": b"old"}),
    line("pack", ["d"], ["--quiet"], b"", status=1, err=b"refused ReadFault\nd: this folder holds no part\n", files={"d/kept": b"old"}),
    line("run", ["s"], ["--explain"], b"refused BadLine\n", err=[b"line 1: refused BadLine"], files={"s": b"query 1 SELECT COUNT(*) FROM T\n"}),
]

# The words of each command, for its help.
WORDS = {
    "create": ["t", "T", "A", "SMALLINT"],
    "import": ["t", "c", "d"],
    "query": ["t", "A", "B"],
    "partial": ["t", "A"],
    "combine": ["p", "q"],
    "finish": ["p"],
    "delete": ["t", "A = 7"],
    "delete-rows": ["t", "1.1", "0", "0"],
    "forget": ["t"],
    "dump": ["t"],
    "inspect": ["t"],
    "summary": ["t"],
    "offer": ["t", "s"],
    "apply": ["t", "u", "v"],
    "check": ["t"],
    "merge": ["out", "t", "u"],
    "spread": ["t", "o", "p"],
    "pack": ["d"],
    "run": ["s"],
}
assert sorted(WORDS) == sorted(COMMANDS) and len(WORDS) == 19


def placed(words, option, at):
    return [*words[:at], *option, *words[at:]]


def with_options():
    for command, words, option, status, out, err, files, writes, first in LINES:
        for at in range(len(words) + 1):
            given = [command, *first, *placed(words, option, at)]
            yield Case(f"an option means the same in each place: {' '.join(given)}", given, status, out, err, files=files, writes=writes)


def with_help():
    for command, words in WORDS.items():
        for at in range(len(words) + 1):
            for option in ("--help", "-h"):
                given = [command, *placed(words, [option], at)]
                yield Case(f"help is help in each place: {' '.join(given)}", given, 0, [f"Usage: lanes {command} ".encode()])


# What is said of a word that begins with a hyphen, by the options of its command and by what is wanted there.
NAME = ": write a name that begins with - as ./-name, or put -- before it"
QUERY = ": no query begins with -"
ORDINAL = ": ordinals begin at 0"


def refused(command, words, at, said, advice=NAME, word="-q"):
    given = [command, *placed(words, [word], at)]
    text = f'error: lanes {command} has no option "{word}", only {said}{advice}\n\nUsage: lanes {command} '.encode()
    return Case(f"a word that begins with a hyphen is no name: {' '.join(given)}", given, 2, err=lambda err: err.startswith(text), writes={"-q": None, "--q": None, "out": None})


ONLY = {
    "create": "--quiet and --help",
    "import": "--batch, --no-header, --separator, --null, --columns, --whole-lines, --quiet and --help",
    "query": "--format and --help",
    "partial": "--help",
    "combine": "--help",
    "finish": "--expect, --format and --help",
    "delete": "--quiet and --help",
    "delete-rows": "--held, --quiet and --help",
    "forget": "--quiet and --help",
    "dump": "--names, --where, --columns and --help",
    "inspect": "--batches, --digest, --format and --help",
    "summary": "--help",
    "offer": "--help",
    "apply": "--quiet and --help",
    "check": "--digest and --help",
    "merge": "--replace, --quiet and --help",
    "spread": "--quiet and --help",
    "pack": "--all, --quiet and --help",
    "run": "--explain and --help",
}


def without_hyphens():
    for command, words in WORDS.items():
        for at in range(len(words)):
            if (command, at) == ("delete", 1):
                continue
            advice = QUERY if command in ("query", "partial") and at >= 1 else ORDINAL if command == "delete-rows" and at >= 2 else NAME
            for word in ("-q", "--q", "--q=1"):
                yield refused(command, words, at, ONLY[command], advice, word)


COMMAND_LINE_CASES = [
    *with_options(),
    *with_help(),
    *without_hyphens(),
    Case("a merge to a name like an option makes no file", ["merge", "-q", "backup.lanes", "site"], 2, err=[b'lanes merge has no option "-q"'], files={"backup.lanes": ONE_ROW, "site": SECOND_BATCH}, writes={"-q": None, "backup.lanes": ONE_ROW}),
    Case("after two hyphens a name is taken as it is", ["merge", "--quiet", "--", "-q", "--quiet"], 0, b"", files={"--quiet": ONE_ROW}, writes={"-q": ONE_ROW}),
    Case("so is an option of the command", ["delete", "t", "--", "--quiet"], 1, err=[b"refused Syntax 1\n"], files={"t": ONE_ROW}, writes={"t": ONE_ROW}),
    Case("a path says that a name is none", ["check", "./-q"], 0, b"ok batches=1 ranges=0\n", files={"-q": ONE_ROW}),
    Case("a condition may begin with a hyphen", ["delete", "t", "-1 < A"], 0, b"ok 1\n", files={"t": ONE_ROW}),
    Case("a condition that begins like an option is one", ["delete", "t", "--x"], 1, err=[b"refused Syntax 1\n"], files={"t": ONE_ROW}, writes={"t": ONE_ROW}),
    Case("a word after a condition is none", ["delete", "t", "A = 1", "-x"], 2, err=[b'lanes delete has no option "-x"'], files={"t": ONE_ROW}, writes={"t": ONE_ROW}),
    Case("the value of an option is taken as it is", ["query", "t", "--format", "--help", "A"], 2, err=[b"FORMAT is text, csv, json or table"], files={"t": ONE_ROW}),
    Case("an option without its value is a fault", ["import", "t", "c", "--batch"], 2, err=[b"a value is required for '--batch <O.N>'"], files={"t": ONE_ROW, "c": b"A\n"}, writes={"t": ONE_ROW}),
    Case("an option twice is one too", ["check", "t", "t"], 2, err=[b"unexpected argument 't'"], files={"t": ONE_ROW}),
    Case("what can't be seen is shown", ["check", "-\x1b[2J\n"], 2, err=[b'lanes check has no option "-\\x1B[2J\\x0A", only --digest and --help']),
    Case("a line feed in a name is shown as a space", ["check", "no\nne"], 1, err=b"refused ReadFault\nno ne: no such file or folder\n"),
    Case("a control character in a table's name is shown, and no file is made", ["create", "t", "T\x07", "A", "SMALLINT"], 1, err=b'refused BadSchema\nt: "T\\x07" is not a name: a name is a letter and up to 63 letters, digits or _\n', writes={"t": None}),
    Case("a merge of a name that isn't UTF-8 makes no file", ["merge", "out", b"\xff\xfe"], 2, err=[b'argument 3 is not UTF-8: "\\xFF\\xFE"'], writes={"out": None}),
    Case("an argument that isn't UTF-8 is named by its number", ["check", b"t\xff"], 2, err=[b'argument 2 is not UTF-8: "t\\xFF"']),
]
