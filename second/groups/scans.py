"""Running a form, its residue and the root question."""

import chance as by
from groups.forms import ALSO_LONGEST, BAD_LISTS, LONGEST_FORM, NO_SET, SINGLE_OFFSETS, presets
from rules.forms import OFFSETS, PATTERNS, form_of, function_of, number_of, set_of
from rules.limits import LARGEST_SET, LARGEST_WORD, MOST_SAMPLES, TOP
from rules.scans import filtered
from wire import call

MEDIAN_3 = [24, 40, 48]
MEDIAN_5 = [28, 44, 52, 56, 76, 84, 88, 100, 104, 112]


def all_three(terms, scan):
    yield call("clean", terms, scan, len(scan))
    yield call("residue", terms, scan, len(scan))
    yield call("root", terms, scan)


# ---- worked cases

def runs(*lengths):
    """A 0/1 scan: so many zeros, so many ones, and so on."""
    return [i % 2 for i, length in enumerate(lengths) for _ in range(length)]


WORKED = [
    # the scope document
    (MEDIAN_3, [10, 10, 90, 10, 10]),
    ([16, 40], [2, 2, 0, 1, 1]),
    ([], [3, 9]),
    ([0], [3, 9]),
    ([1], [7]),
    # its edges: level 0 adds nothing, residues at both ends of the range
    ([], [0, TOP]),
    ([0], [0, TOP]),
    ([LARGEST_SET], [0]),
    ([LARGEST_SET], [TOP]),
    # the papers
    ([16, 40], [1, 1, 3, 2, 2]),
    ([24, 48], [2, 2, 0, 1, 1]),
    ([24, 48], [1, 1, 3, 2, 2]),
    (MEDIAN_3, [2, 2, 0, 1, 1]),
    (MEDIAN_3, [1, 1, 3, 2, 2]),
    (MEDIAN_5, runs(4, 9, 4, 3, 3)),
    (MEDIAN_5, [0, 1, 0, 1, 0, 1, 0, 1, 0]),
    # a change request's scan: a hit up beside a hit down
    (MEDIAN_3, [10, 10, 90, 0, 10, 10]),
]


def worked():
    for terms, scan in WORKED:
        yield from all_three(terms, scan)


# ---- refusals and their order

def refusals():
    scan = [5, 0, 9]
    for lent in (0, 1, 2, 4, 10, 45):
        for name in ("clean", "residue"):
            yield call(name, MEDIAN_3, scan, lent)
    for terms in BAD_LISTS:
        yield from all_three(terms, scan)
    # 7 before 9 before 10
    for terms in (MEDIAN_3, [], [24, 16], [16, 24], [NO_SET]):
        for samples in ([], scan):
            for lent in (0, 2, 3):
                yield call("clean", terms, samples, lent)
                yield call("residue", terms, samples, lent)
            yield call("root", terms, samples)
    many = LONGEST_FORM + [LARGEST_SET]
    yield from all_three(many, scan)
    yield call("clean", many, [], 1)


# ---- every offset and every preset

STEPS = [0, 10, 20, 30, 40, 50, 60, 70, 80, 90, 100]


def windows():
    """A ramp shows which sample each offset reads, and what stands beyond the ends."""
    for d in OFFSETS:
        term = number_of([d])
        yield call("clean", [term], STEPS, len(STEPS))
        yield call("clean", [term], [7], 1)
        yield call("residue", [term], [0, TOP], 2)
    yield call("clean", [LARGEST_SET], STEPS, len(STEPS))
    yield call("clean", SINGLE_OFFSETS, STEPS, len(STEPS))


PRESET_SCANS = [[2, 2, 0, 1, 1], [1, 1, 3, 2, 2], [0, TOP, 0, TOP, TOP, 0], [9, 7, 5, 3],
                [3, 5, 7, 9], [0, 0, 0], [TOP, TOP]]


def preset_scans():
    for terms in presets():
        for scan in PRESET_SCANS:
            yield from all_three(terms, scan)


# ---- laws between calls, as ordinary vectors

def mirrored(terms):
    return sorted(number_of(-d for d in set_of(term)) for term in terms)


def dual(terms):
    """The form whose function is 0 on the absent offsets where the form's is 1 on the present."""
    function = function_of(terms)
    return form_of([not function[LARGEST_SET - v] for v in PATTERNS])


def mirror_and_dual(terms, scan):
    yield call("clean", terms, scan, len(scan))
    yield call("clean", mirrored(terms), scan[::-1], len(scan))
    yield call("clean", dual(terms), [TOP - s for s in scan], len(scan))


def related(chance):
    for terms in presets() + [MEDIAN_5, LONGEST_FORM, ALSO_LONGEST]:
        yield from mirror_and_dual(terms, by.scan(chance))
    for _ in range(60):
        yield from mirror_and_dual(by.any_form(chance), by.scan(chance))


# ---- by chance

def random(chance):
    for _ in range(220):
        terms, scan = by.any_form(chance), by.scan(chance)
        name = chance.one_of(["clean", "clean", "residue"])
        lent = max(0, len(scan) + chance.one_of([0] * 8 + [-1, 1]))
        yield call(name, terms, scan, lent)
        yield call("root", terms, scan)
    for _ in range(60):
        scan = by.scan(chance)
        yield call("clean", by.damaged_form(chance), scan, len(scan))
        yield call("residue", by.damaged_form(chance), [], chance.below(2))
        yield call("root", by.damaged_form(chance), scan)


def settled(terms, scan):
    """The scan after so many runs that most forms leave it alone."""
    for _ in range(20):
        scan = filtered(terms, scan)
    return scan


def near_roots(chance):
    """Roots, and roots with one sample changed, so that the first that differs stands anywhere."""
    for _ in range(60):
        terms = chance.one_of([MEDIAN_3, MEDIAN_5, [16, 40], [24, 48], by.any_form(chance)])
        scan = settled(terms, by.scan(chance))
        yield call("root", terms, scan)
        at = chance.below(len(scan))
        yield call("root", terms, scan[:at] + [chance.between(0, TOP)] + scan[at + 1:])


# ---- scans about as long as the window

ABOUT_THE_WIDTH = range(1, len(OFFSETS) + 3)


def short_scans():
    """Each offset on scans of distinct samples, and a spike at each place: the first sample, the last and those near them come in sight
    and go out of it within a few steps."""
    for size in ABOUT_THE_WIDTH:
        distinct = [100 + 37 * x % 53 for x in range(size)]
        for d in OFFSETS:
            yield call("clean", [number_of([d])], distinct, size)
        yield from all_three(SINGLE_OFFSETS, distinct)
        yield from all_three([LARGEST_SET], distinct)
        for at in range(size):
            spiked = [5] * at + [9] + [5] * (size - at - 1)
            yield call("residue", MEDIAN_3, spiked, size)
            yield call("root", MEDIAN_3, spiked)


# ---- long scans

def sawtooth(size, period):
    return [(i % period) * (TOP // period) for i in range(size)]


def long_scans(chance):
    most = MOST_SAMPLES
    longest = [chance.one_of([0, 10, 500, TOP]) for _ in range(most)]
    yield call("clean", MEDIAN_3, longest, most)
    yield call("clean", MEDIAN_3, longest, most + 1)
    yield call("residue", LONGEST_FORM, longest, most)
    yield call("root", MEDIAN_5, longest)
    # a root but for the very last sample
    yield call("root", MEDIAN_3, [4] * (most - 1) + [5])
    yield call("root", [8, 16], [4] * (most - 1) + [5])
    yield call("root", [8, 16], [4] * (most - 1) + [3])
    for size in (most + 1, 100000):
        scan = sawtooth(size, 7)
        yield call("clean", MEDIAN_3, scan, most)
    yield call("residue", MEDIAN_3, sawtooth(most + 1, 5), most + 1)
    yield call("root", [16, 24], sawtooth(most + 1, 5))
    yield call("root", [16], sawtooth(most + 1, 5))
    yield call("clean", ALSO_LONGEST, sawtooth(1000, 13), 1000)
    yield call("residue", MEDIAN_5, sawtooth(1000, 3), 1000)
    # lists as long as they come
    yield call("clean", list(range(LARGEST_WORD)), [1], 1)


def calls(chance):
    yield from worked()
    yield from refusals()
    yield from windows()
    yield from preset_scans()
    yield from related(chance)
    yield from random(chance)
    yield from near_roots(chance)
    yield from long_scans(chance)
    yield from short_scans()
