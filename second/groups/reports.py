"""Counting from a scan file for the report."""

from itertools import accumulate, groupby, product

import chance as by
from groups import files
from groups.scans import MEDIAN_3
from rules.files import file_of
from rules.limits import LARGEST_SET, TOP
from wire import call

# The forms that give the sample before, and the one behind.
BEFORE, BEHIND = 8, 32


def read_files(chance):
    """The files that the group `files` reads, each once."""
    read = (a_call.arguments[0] for a_call in files.calls(chance) if a_call.name == "read")
    for file, _ in groupby(read):
        yield call("count", file)


def counted(chance):
    """Spikes at the ends, beside each other and apart; both totals as large as they come."""
    for scan in ([10, 10, 90, 0, 10, 10], [90, 10, 10, 10, 90], [1, 9, 1, 9, 1, 9, 1],
                 [5], [5, 5], [0, TOP, 0, 0, TOP, 0], [9, 0, 9, 9, 0, 0, 9, 0, 0]):
        for terms in (MEDIAN_3, [16], [], [0], [LARGEST_SET], [8], [24, 48], [16, 40]):
            yield call("count", file_of(terms, scan))
    for _ in range(60):
        yield call("count", file_of(by.any_form(chance), by.scan(chance)))


def signs():
    """Every row of four signs, with a residue of 0 before it or behind it: the sample before, or the
    one behind, taken from each sample."""
    for row in product((0, 1, -1), repeat=4):
        scan = list(accumulate(row, initial=len(row)))
        yield call("count", file_of([BEFORE], scan))
        yield call("count", file_of([BEHIND], scan[::-1]))
    for row in ([0, TOP], [0, TOP, 0], [TOP, 0, TOP, 0], [0, TOP, TOP, 0, TOP, 1]):
        yield call("count", file_of([BEFORE], row))


def calls(chance):
    yield from counted(chance)
    yield from signs()
    yield from read_files(chance)
