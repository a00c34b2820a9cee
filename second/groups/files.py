"""Writing and reading a scan file."""

from itertools import combinations

import chance as by
from groups.forms import BAD_LISTS, GOOD_LISTS, LONGEST_FORM
from groups.scans import MEDIAN_3
from rules.files import file_of, trailer_of
from rules.limits import (BYTE_BITS, LARGEST_SET, LARGEST_WORD, LONGEST_FILE, MARK, MOST_SAMPLES,
                          MOST_TERMS, TERM_BYTES, TOP, TRAILER_BYTES, file_bytes)
from wire import call

WORKED_FILE = file_of(MEDIAN_3, [10, 10, 90, 10, 10])


def trailer(to_first_sample, to_first_term, terms, mark=tuple(MARK)):
    """Distances that are negative or too large wrap."""
    return trailer_of(to_first_sample % 2 ** 32, to_first_term % 2 ** 32, terms, mark)


def read(file, samples=20, terms=10):
    return call("read", file, samples, terms)


# ---- writing

def writes(chance):
    for terms in GOOD_LISTS:
        for scan in ([7], [0, TOP, 258]):
            yield call("write", terms, scan, file_bytes(len(scan), len(terms)))
    for lent in (0, 1, 11, 12, 17, 19, 20, 27, 29, 100):
        yield call("write", MEDIAN_3, [1], lent)
    # 7 before 9 before 10
    for terms in [MEDIAN_3, *BAD_LISTS]:
        for scan in ([], [1, 2]):
            for lent in (0, file_bytes(len(scan), len(terms))):
                yield call("write", terms, scan, lent)
    for _ in range(60):
        terms, scan = by.any_form(chance), by.scan(chance)
        needed = file_bytes(len(scan), len(terms))
        yield call("write", terms, scan, needed + chance.one_of([0, 0, 0, -1, 1]))
        yield call("write", by.damaged_form(chance), scan, needed)


# ---- reading what was written

def lent_slices():
    """6 before 10; longer slices keep their tails."""
    for samples in (0, 4, 5, 6, 45):
        for terms in (0, 2, 3, 4, 45):
            yield read(WORKED_FILE, samples, terms)
    # 9 before 6: no samples, terms too short; 7 before both
    yield read(file_of([16], []), 0, 0)
    yield read(file_of([16], []), 5, 5)
    yield read(file_of([24, 16], []), 0, 0)
    yield read(file_of([], []))
    yield read(file_of([], [1, 2]), 2, 0)
    yield read(file_of([], [1, 2]), 1, 0)


def round_trips(chance):
    for terms in GOOD_LISTS:
        yield read(file_of(terms, [0, 9, TOP, 9]), 4, len(terms))
    for terms in BAD_LISTS:
        yield read(file_of(terms, [1, 2]), 0, 0)
    for _ in range(60):
        terms, scan = by.any_form(chance), by.scan(chance)
        yield read(file_of(terms, scan), len(scan) + chance.one_of([0, 0, 3, -1]),
                   max(0, len(terms) + chance.one_of([0, 0, 3, -1])))
    for _ in range(20):
        yield read(file_of(by.damaged_form(chance), by.scan(chance)))


# ---- files that are badly laid out, and those that only seem so

def layouts():
    body = WORKED_FILE[:-TRAILER_BYTES]
    size, to_terms, count = len(WORKED_FILE), file_bytes(0, len(MEDIAN_3)), len(MEDIAN_3)
    good = (size, to_terms, count)
    # each distance off by a little, by a byte, or down past 0 so that it wraps
    for delta in (-2, -1, 1, 2, 256, 65536, 2 ** 24, 2 ** 31, -size, -to_terms, -size - 2):
        yield read(body + trailer(size + delta, to_terms, count))
        yield read(body + trailer(size, to_terms + delta, count))
        yield read(body + trailer(size + delta, to_terms + delta, count))
    # the number of terms, with and without its distance
    for terms in (0, 1, 2, 4, 5, 8, 9, MOST_TERMS + 1, 32768, 32771, LARGEST_WORD):
        yield read(body + trailer(size, to_terms, terms))
        yield read(body + trailer(size, file_bytes(0, terms), terms))
        yield read(body + trailer(size, file_bytes(0, terms) % 2 ** 16, terms))
    for mark in ((0x46, 0x53), (0x53, 0x53), (0x46, 0x46), (0, 0), (0x53, 0x47), (0x52, 0x46)):
        yield read(body + trailer(*good, mark))
    # odd lengths: a byte more in front, a byte less in front
    yield read([0] + body + trailer(size + 1, to_terms, count))
    yield read(body[1:] + trailer(size - 1, to_terms, count))
    yield read([0] + WORKED_FILE)
    yield read(WORKED_FILE + [0])
    # a file in front of a file
    yield read(WORKED_FILE + WORKED_FILE)


# What a field of the trailer says in place of what is right, in three ways.
FAULTS = {
    "mark": lambda right: [(0x46, 0x53), (0x53, 0x52), (0, 0)],
    "to_first_term": lambda right: [right + 2, right - 2, -1],
    "to_first_sample": lambda right: [right + 2, right - 1, -1],
    "terms": lambda right: [right + 1, right + 256, LARGEST_WORD],
}
WAYS = range(3)


def with_faults(terms, scan, faults, way):
    """A file in whose trailer these fields, and no others, are at fault."""
    file = file_of(terms, scan)
    fields = {"to_first_sample": len(file), "to_first_term": file_bytes(0, len(terms)),
              "terms": len(terms), "mark": MARK}
    for fault in faults:
        fields[fault] = FAULTS[fault](fields[fault])[way]
    return file[:-TRAILER_BYTES] + trailer(**fields)


def sets_of_faults():
    """None, each alone, and together with each other one, up to all of them."""
    return [faults for size in range(len(FAULTS) + 1) for faults in combinations(FAULTS, size)]


def faults_together():
    """15 before 16 before 17 before 18, in files with terms and without, and in a byte too few."""
    for faults in sets_of_faults():
        for way in WAYS:
            yield read(with_faults(MEDIAN_3, [10, 90], faults, way))
            yield read(with_faults([], [7], faults, way))
        yield read(with_faults([], [], faults, 0)[1:])


def sample_distances():
    """The file's length, on both sides of the term distance, and that distance itself."""
    bare = TRAILER_BYTES
    for size in range(bare, bare + 7):
        for terms in (0, 1, 2, 3, LARGEST_WORD):
            yield read([0] * (size - bare) + trailer(size, file_bytes(0, terms), terms))
            yield read([0] * (size - bare) + trailer(file_bytes(0, terms), file_bytes(0, terms), terms))


def large_distances():
    """About the largest that four bytes can say, and those whose lower bytes are right."""
    body = WORKED_FILE[:-TRAILER_BYTES]
    size, to_terms, count = len(WORKED_FILE), file_bytes(0, len(MEDIAN_3)), len(MEDIAN_3)
    for distance in (0, 2 ** 16 - 1, 2 ** 31 - 2, 2 ** 31 - 1, 2 ** 31, 2 ** 32 - 2, 2 ** 32 - 1,
                     2 ** 16 + size, 2 ** 31 + size, 2 ** 32 - size, 2 ** 16 + to_terms, 2 ** 32 - to_terms):
        yield read(body + trailer(distance, to_terms, count))
        yield read(body + trailer(size, distance, count))
        yield read(body + trailer(distance, distance, count))


def small_files():
    bare = TRAILER_BYTES
    for size in (0, 1, 2, bare - 2, bare - 1):
        yield read([0] * size)
        yield read(trailer(size, bare, 0)[bare - size:])
    yield read(trailer(bare, bare, 0), 0, 0)
    yield read([0] + trailer(bare + 1, bare, 0), 0, 0)
    yield read([0, 0] + trailer(bare + 2, bare, 0), 1, 0)
    yield read([0, 0] + trailer(bare + 2, bare + 2, 1), 1, 1)
    yield read(trailer(bare, bare + 2, 1))
    # the number of terms wraps their distance
    most = file_bytes(0, LARGEST_WORD)
    yield read(trailer(bare, most, LARGEST_WORD))
    yield read(trailer(most, most, LARGEST_WORD))
    yield read(trailer(bare, bare - TERM_BYTES, LARGEST_WORD))


def cut_files():
    for size in range(len(WORKED_FILE)):
        yield read(WORKED_FILE[:size])
    for start in range(1, len(WORKED_FILE)):
        yield read(WORKED_FILE[start:])


def random_bytes(chance):
    for _ in range(60):
        yield read(chance.bytes(chance.between(0, 40)))
        file = list(WORKED_FILE)
        file[chance.below(len(file))] ^= 2 ** chance.below(BYTE_BITS)
        yield read(file)


# ---- the longest

def long_files(chance):
    most, samples = LONGEST_FORM, MOST_SAMPLES
    longest = [chance.one_of([0, 1, 300, TOP]) for _ in range(samples)]
    file = file_of(most, longest)
    yield call("write", most, longest, LONGEST_FILE)
    yield call("write", most, longest, LONGEST_FILE - 1)
    yield call("write", most, longest, LONGEST_FILE + 1)
    yield call("write", most, longest + [0], LONGEST_FILE + 2)
    yield read(file, samples, MOST_TERMS)
    yield read(file, samples - 1, MOST_TERMS)
    yield read(file, samples + 6, MOST_TERMS + 4)
    # as long as a scan may be, then one sample more, and as many more as the longest file holds
    in_all = samples + MOST_TERMS
    yield read(file_of([], [0] * samples), samples, 0)
    yield read(file_of([0], [0] * samples), samples, 1)
    yield read(file_of([], [0] * (samples + 1)), samples, 0)
    yield read(file_of(most[:-1], [0] * (samples + 1)), samples + 1, MOST_TERMS)
    yield read(file_of([], [0] * in_all), samples + 1, 0)
    # each field at fault in the longest file; 15 before all of them
    for fault in FAULTS:
        yield read(with_faults(most, longest, [fault], 0))
    yield read(with_faults(most, longest + [0], FAULTS, 0))
    # longer than the longest file, though each of these is else sound
    yield read([0] + file_of([], [0] * in_all), samples + 1, 0)
    yield read(file_of([], [0] * (in_all + 1)), samples + 1, 0)
    yield read(file_of(most + [LARGEST_SET], longest), samples, MOST_TERMS)
    # one term too many, and as many as two bytes can say
    yield read(file_of(most + [LARGEST_SET], [1]), 1, MOST_TERMS)
    yield read(file_of(list(range(in_all)), []), 0, 0)
    yield read(file_of([0] * LARGEST_WORD, []), 0, 0)


def calls(chance):
    yield from writes(chance)
    yield from lent_slices()
    yield from round_trips(chance)
    yield from small_files()
    yield from layouts()
    yield from faults_together()
    yield from sample_distances()
    yield from large_distances()
    yield from cut_files()
    yield from random_bytes(chance)
    yield from long_files(chance)
