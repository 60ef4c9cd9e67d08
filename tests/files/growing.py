"""Whatever the program is given, its time and its memory grow no faster than that.

The kinds of texts and inputs are those of bench/growth.py. Each is tried at one size and at four times that. Time is the processor's,
the least of a few runs, so that other work on the machine hardly counts; twice as long as the growth of the input is let pass.
"""

import growth

# Four times the input may take this many times as long, and each further byte of it this many bytes of memory.
MOST_TIME = 8
MOST_MEMORY = 512
# Below this many seconds a run is too short to be compared.
SHORT = 0.004
RUNS = (2, 4)


def is_fast(found):
    least, most = found
    return most.seconds <= MOST_TIME * max(least.seconds, SHORT)


def grows_with_its_input(program, kind):
    """Tries a kind a few times, and a few times more if it seems to grow faster."""
    found = growth.costs(program, kind, (1, 4), RUNS[0])
    if not is_fast(found):
        found = growth.costs(program, kind, (1, 4), RUNS[1])
    least, most = found
    assert is_fast(found), f"{kind}: {least.size:,} bytes take {least.seconds:.3f} s, {most.size:,} bytes {most.seconds:.3f} s"
    memory = most.memory - least.memory
    assert memory <= MOST_MEMORY * (most.size - least.size), f"{kind}: {most.size - least.size:,} bytes more take {memory:,} bytes of memory more"


def time_and_memory_grow_no_faster_than_what_the_program_is_given(room):
    faults = []
    for kind in growth.KINDS:
        try:
            grows_with_its_input(room.program, kind)
        except AssertionError as fault:
            faults.append(str(fault))
    assert not faults, "\n".join(faults)


TESTS = [time_and_memory_grow_no_faster_than_what_the_program_is_given]
