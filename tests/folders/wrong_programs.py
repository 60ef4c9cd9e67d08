"""Programs that lose rows of a folder, each of which the tests of this folder see."""

import pairs
from folder_calls import Command, make_starts
from injecting import faults_seen, wrong_program
from parts import make_folder
from storm import Storm, in_threads

#: A pack that removes what it has joined before its own part is there, and looks neither at a lock nor at what came meanwhile.
PACK = """
if [ "$1" = pack ]; then
    rm -f $room/m
    lanes merge --quiet --replace $room/m d
    sleep 0.1
    rm d/*.lanes
    cp $room/m d/$(sha512sum < $room/m | cut -c 1-32).lanes
    echo ok parts=1 packed=9
    exit
fi"""

#: A forget that removes all parts that are there once it has made its own, also those that it has not read.
FORGET = """
if [ "$1" = forget ]; then
    lanes merge --quiet --replace $room/m d
    lanes forget $room/m
    sleep 1.2
    rm d/*.lanes
    cp $room/m d/$(sha512sum < $room/m | cut -c 1-32).lanes
    rm $room/m
    exit
fi"""


def a_pack_that_removes_before_it_puts_is_seen_when_it_is_killed(room):
    wrong = wrong_program(room, PACK)
    make_starts(wrong)
    faults = list(faults_seen(Command(wrong, ("pack", "--all", "d")), "unlink,unlinkat"))
    assert any("the folder holds" in fault for fault in faults), f"parts that are gone are not seen: {faults}"


def a_forget_that_removes_what_it_has_not_read_is_seen_beside_a_load(room):
    wrong = wrong_program(room, FORGET)
    pairs.put_inputs(wrong)
    pair = (("import", "--no-header", "--batch", "8.8", "d", "rows"), ("forget", "d"))
    # The load waits for the lock that the test has, and comes when this forget has read the folder.
    ends = pairs.in_turn(wrong, pair)
    assert any(pairs.at_once(wrong, pair, 0.6) not in ends for _ in range(3)), "a load that is lost is not seen"


def a_pack_that_takes_no_lock_is_seen_in_a_storm(room):
    wrong = wrong_program(room, PACK)
    make_folder(wrong, loads=0)
    storm = Storm(wrong, seconds=4)
    in_threads(storm, (storm.import_loads, 1), (storm.pack, 1), (storm.read, 1))
    assert storm.faults, f"a pack that loses loads is not seen: {storm.counts}"


TESTS = [
    a_pack_that_removes_before_it_puts_is_seen_when_it_is_killed,
    a_forget_that_removes_what_it_has_not_read_is_seen_beside_a_load,
    a_pack_that_takes_no_lock_is_seen_in_a_storm,
]
