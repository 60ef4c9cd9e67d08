"""What c/ has, as C99 and as C++17: the drivers and their headers, and the examples, each of which prints what its first comment says."""

import re
import shutil
import subprocess

from compiling import C99, CPP17, DRIVERS, STRICT, TOP, compiled, run, valgrind

#: The examples that take words, which other tests try. The others print what they say.
TRIED_ELSEWHERE = {"keeps_folder", "changes_file"}

#: A program that takes each header twice, and calls each driver.
ALL = """
#include "lanes_arrow.h"
#include "lanes_file_driver.h"
#include "lanes_folder_driver.h"
#include "lanes_arrow.h"
#include "lanes_file_driver.h"
#include "lanes_folder_driver.h"
#include <stdlib.h>

#if LANES_VERSION_NUMBER < 9000
#error "this is older than the drivers"
#endif

static lanes_held held;

int main(void) {
    size_t length;
    uint64_t came;
    lanes_place place;
    lanes_parts parts = LANES_NO_PARTS;
    lanes_part_names names;
    lanes_temporary temporary;
    static const uint8_t none = 0;
    int status = lanes_folder_read("no folder", &parts, &names, &length, &place) != LANES_SYSTEM;
    free(names.names);
    status |= lanes_folder_follow("no folder", LANES_FOLDER_LIST, &none, 0, NULL, NULL, &came, &place) != LANES_SYSTEM;
    status |= lanes_folder_draw(temporary, &place) != 0;
    status |= lanes_file_hold("no folder/t", &held, &place) != LANES_SYSTEM;
    lanes_arrow_free(lanes_arrow_room(3, 2));
    held = LANES_NOT_HELD;
    lanes_file_let_go(&held);
    return status;
}
"""


def standards():
    """The compilers that are here, each with a standard."""
    clangs = [("clang", *C99[1:]), ("clang++", *CPP17[1:])]
    return [C99, CPP17, *(words for words in clangs if shutil.which(words[0]))]


def the_drivers_compile_as_c99_and_as_cpp17(room):
    for standard in standards():
        for name, driver in DRIVERS.items():
            if name != "arrow" or standard[2] == "c":
                run(*standard, *STRICT, "-O2", "-c", driver, "-o", room / "object")


def a_program_in_c_or_cpp_has_the_drivers_by_either_compiler(library, room):
    (room / "all").write_text(ALL)
    for of_drivers in C99, CPP17:
        objects = []
        for name, driver in DRIVERS.items():
            objects.append(room / f"{name}.o")
            run(*(C99 if name == "arrow" else of_drivers), *STRICT, "-c", driver, "-o", objects[-1])
        for of_program in C99, CPP17:
            run(of_program[0], *STRICT, *of_program[1:], room / "all", "-x", "none", *objects, library / "liblanes-x86-64-v2.a", "-o", room / "program")
            run(room / "program")


def printed_by(example):
    """What an example says that it prints: the indented lines of its first comment after the words `It prints`."""
    comment = example.read_text().split("*/")[0]
    told = comment.partition("It prints\n *\n")[2]
    return "".join(re.findall(r"^ \*     (.*\n)", told, re.M))


def each_example_prints_what_it_says(library, room):
    drivers = {driver.stem for driver in DRIVERS.values()} | {"lanes_sqlite", "lanes_sqlite_states"}
    examples = [file for file in sorted((TOP / "c").glob("*.c")) if file.stem not in drivers | TRIED_ELSEWHERE]
    assert len(examples) >= 3, examples
    for example in examples:
        for standard, under in ((CPP17, ()), (C99, ()), (C99, valgrind("--leak-check=full", "--show-leak-kinds=all", "--errors-for-leak-kinds=all"))):
            program = compiled(library, room, example.stem, example, standard=standard)
            ran = subprocess.run([*under, program], capture_output=True, text=True, timeout=600)
            assert (ran.returncode, ran.stdout, ran.stderr) == (0, printed_by(example), ""), f"{example.name}: {ran}"


TESTS_WITHOUT_LIBRARY = [the_drivers_compile_as_c99_and_as_cpp17]

TESTS = [a_program_in_c_or_cpp_has_the_drivers_by_either_compiler, each_example_prints_what_it_says]
