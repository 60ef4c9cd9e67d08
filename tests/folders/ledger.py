"""What commands on a folder have begun and answered, load by load, and what a reading of it may show then."""

import threading
from typing import NamedTuple

#: How many rows a load has. The value of row `at` of a load is its key times 100, and `at`.
ROWS = 20


def values_of(key):
    """The values of a load's rows."""
    return [key * 100 + at for at in range(ROWS)]


class Moment(NamedTuple):
    """What a ledger knows at a moment: loads that were begun and answered, and deletes of loads that were."""

    begun: frozenset = frozenset()
    answered: frozenset = frozenset()
    drops_begun: frozenset = frozenset()
    dropped: frozenset = frozenset()


class Ledger:
    """It is written by several threads, each of which runs commands."""

    def __init__(self):
        self.lock = threading.Lock()
        self.now = Moment()

    def note(self, **keys):
        """More keys, by what is known of them."""
        with self.lock:
            self.now = self.now._replace(**{name: getattr(self.now, name) | frozenset(more) for name, more in keys.items()})

    def moment(self):
        with self.lock:
            return self.now


def faults_of(values, before, after):
    """What is wrong with the values that a reading gave, which began and ended at two moments of a ledger.

    A load is there whole or not at all, and each value once. It is there if it was answered before, and no delete of it was begun
    meanwhile. It is not there if its delete was answered before, or if it was never begun."""
    found = {}
    for value in values:
        found.setdefault(value // 100, []).append(value)
    faults = [f"load {key} has rows {sorted(rows)}" for key, rows in found.items() if sorted(rows) != values_of(key)]
    faults += [f"load {key} was answered, and is not there" for key in (before.answered - after.drops_begun) - set(found)]
    faults += [f"load {key} is there, and its delete was answered" for key in before.dropped & set(found)]
    faults += [f"load {key} is there, and was never begun" for key in set(found) - after.begun]
    return faults


def counts_of(before, after, kept):
    """The least and the most loads that such a reading may count, of those that `kept` says are never deleted."""
    return sum(map(kept, before.answered)), sum(map(kept, after.begun))


def a_ledger_sees_what_is_wrong(room):
    """Readings that were made up: right ones, and wrong ones of each kind."""
    ledger = Ledger()
    ledger.note(begun=[1, 2, 3, 4, 5], answered=[1, 2, 3, 4])
    ledger.note(drops_begun=[3, 4], dropped=[4])
    now = ledger.moment()
    one, two, three, four, five, six = ([*values_of(key)] for key in range(1, 7))
    for values in (one + two, one + two + three, two + one + five, three + five + one + two):
        assert faults_of(values, now, now) == [], f"{values} are right"
    for values, kind in (
        (two, "load 1 was answered"),
        (one + two[1:], "load 2 has rows"),
        (one + two + two, "load 2 has rows"),
        (one + two + three[:1], "load 3 has rows"),
        (one + two + four, "load 4 is there, and its delete"),
        (one + two + six, "load 6 is there, and was never begun"),
        ([], "load"),
    ):
        assert any(fault.startswith(kind) for fault in faults_of(values, now, now)), f"{values} are wrong, and nothing is seen"
    # A load that is answered while the reading goes on may be there or not, and so may one whose delete is answered meanwhile.
    earlier = Moment(frozenset([1, 2, 3]), frozenset([1, 3]))
    for values in (one, one + two, one + three, one + four, one + five):
        assert faults_of(values, earlier, now) == [], f"{values} are right"
    assert faults_of(three + two, earlier, now), "a load that was answered before is not there"
    assert counts_of(earlier, now, lambda key: key < 3) == (1, 2)


TESTS = [a_ledger_sees_what_is_wrong]
