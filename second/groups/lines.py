"""The report's line."""

import chance as by
from groups.files import WORKED_FILE, sets_of_faults, trailer, with_faults
from groups.forms import LONGEST_FORM
from groups.scans import MEDIAN_3
from rules.files import file_of
from rules.limits import BYTE_BITS, LINE_BYTES, LONGEST_FILE, MOST_SAMPLES, TOP, TRAILER_BYTES
from wire import call


def line(file, lent=LINE_BYTES):
    return call("line", file, lent)


def slices():
    """10 for every other length than 128, whatever the file is; the bytes behind the line stay."""
    for file in (WORKED_FILE, [], file_of([24, 16], [1]), file_of([16], [])):
        for lent in (0, 1, len(WORKED_FILE), LINE_BYTES - 1, LINE_BYTES, LINE_BYTES + 1, 2 * LINE_BYTES):
            yield line(file, lent)


def digits():
    """Numbers on both sides of each power of ten, as samples, as changed samples and as totals."""
    for size in (1, 9, 10, 11, 99, 100, 101, 999, 1000, 1001, 9999, 10000):
        yield line(file_of([16], [7] * size))
    for size in (9, 10, 99, 100):
        yield line(file_of([], [TOP] * size))
        yield line(file_of([0], [0] * size))
    for top in (1, 9, 10, 99, 100, 999, 1000, 9999, 10000, TOP):
        yield line(file_of(MEDIAN_3, [0, top, 0, 0, top, top, 0, top]))


def longest():
    """The largest totals, each way."""
    yield line(file_of([], [TOP] * MOST_SAMPLES))
    yield line(file_of([0], [0] * MOST_SAMPLES))


def layouts():
    """Each field at fault, alone and together; the places of 15 to 18 with one digit and with more."""
    for faults in sets_of_faults():
        yield line(with_faults(MEDIAN_3, [10, 90], faults, 1))
    for size in (0, 9, 10, 11, LONGEST_FILE, LONGEST_FILE + 1, 100_000):
        yield line([0] * size)
    yield line(trailer(0, 0, 0))
    yield line(trailer(0, TRAILER_BYTES, 0))
    for place in (10, 99, 100, 999, 1000):
        yield line([0] * (place + 2))
        yield line([0] * (place - 4) + trailer(0, 0, 0))
        yield line([0] * place + trailer(0, TRAILER_BYTES, 0))


def refused(chance):
    """The places of 7 and 9 with one digit and with more; damaged files."""
    yield line(file_of(LONGEST_FORM[:10] + [0], [1]))
    yield line(file_of(LONGEST_FORM + [0], [1]))
    yield line(file_of([16], [0] * (MOST_SAMPLES + 1)))
    for _ in range(60):
        yield line(file_of(by.damaged_form(chance), by.scan(chance)))
        file = file_of(by.any_form(chance), by.scan(chance))
        file[chance.below(len(file))] ^= 2 ** chance.below(BYTE_BITS)
        yield line(file)


def calls(chance):
    yield from slices()
    yield from digits()
    yield from longest()
    yield from layouts()
    yield from refused(chance)
