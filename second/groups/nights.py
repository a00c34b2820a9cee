"""Outcomes, totals and their lines."""

from rules.limits import LARGEST_TOTAL, LINE_BYTES, MOST_NAMES, MOST_SAMPLES, TOP, TOTALS_BYTES
from rules.nights import COUNTED_REFUSALS, COUNTS, TOTALS, UNOPENED
from wire import call

LARGEST_NUMBER = 255
# A file of the most samples, all cleaned to 0 or to the top.
FULL_UP = (MOST_SAMPLES, MOST_SAMPLES, 1, MOST_SAMPLES * TOP, 0)
FULL_DOWN = (MOST_SAMPLES, MOST_SAMPLES, 1, 0, MOST_SAMPLES * TOP)
REFUSALS = [(7, 0), (7, 126), (8, 127), (9, 0), (9, 16385), (15, 0), (15, 11), (15, 33033), (15, 5_000_000_000),
            (16, 10), (16, 33030), (17, 4), (17, 33024), (18, 0), (18, 33020)]
LISTS = [(19, 1), (19, 9), (19, 10), (19, 250), (20, 250)]
# No file is refused under these; 11 is not used any more.
OTHERS = [(0, 0), (1, 0), (6, 3), (10, 128), (11, 0), (12, 5), (LARGEST_NUMBER, LARGEST_TOTAL)]


def refused(number, place):
    return ("refused", number, place)


def digits():
    """Numbers on both sides of each power of ten and of two."""
    tens = [10 ** n for n in range(20)]
    twos = [2 ** n for n in range(64)]
    return sorted({0, *(n + d for n in [*tens, *twos] for d in (-1, 0, 1)), LARGEST_TOTAL - 1, LARGEST_TOTAL})


def a_number(chance):
    return chance.one_of([chance.below(10), chance.below(1000), chance.below(2 ** 32),
                          chance.below(2 ** 32) * 2 ** 32 + chance.below(2 ** 32),
                          LARGEST_TOTAL - chance.below(3)])


def an_outcome(chance):
    kind = chance.below(4)
    if kind == 0:
        return UNOPENED
    if kind == 1:
        return refused(*chance.one_of(REFUSALS))
    return tuple(chance.below(MOST_SAMPLES + 1) for _ in range(COUNTS - 2)) + tuple(
        chance.below(MOST_SAMPLES * TOP) for _ in range(2))


# ---- lines

def outcome_lines(chance):
    for outcome in (UNOPENED, FULL_UP, FULL_DOWN, (5, 1, 1, 80, 0), (0,) * COUNTS, (LARGEST_TOTAL,) * COUNTS,
                    *(refused(*refusal) for refusal in REFUSALS + LISTS + OTHERS)):
        for lent in (0, 1, LINE_BYTES - 1, LINE_BYTES, LINE_BYTES + 1, TOTALS_BYTES):
            yield call("outcome_line", outcome, lent)
    for i in range(COUNTS):
        counts = [0] * COUNTS
        counts[i] = LARGEST_TOTAL
        yield call("outcome_line", tuple(counts), LINE_BYTES)
    yield call("outcome_line", (1, 22, 333, 4444, 55555), LINE_BYTES)
    for number in digits():
        yield call("outcome_line", (number, 0, number, 1, number), LINE_BYTES)
    for _ in range(40):
        yield call("outcome_line", tuple(a_number(chance) for _ in range(COUNTS)), LINE_BYTES)
        yield call("outcome_line", an_outcome(chance), LINE_BYTES)


def refused_lines(chance):
    for refusal in REFUSALS + LISTS + OTHERS:
        for lent in (0, LINE_BYTES - 1, LINE_BYTES, LINE_BYTES + 1, TOTALS_BYTES):
            yield call("refused_line", refusal, lent)
    for number in (0, 1, 9, 10, 19, 20, 99, 100, LARGEST_NUMBER):
        yield call("refused_line", (number, chance.below(251)), LINE_BYTES)
    for place in digits():
        yield call("refused_line", (19, place), LINE_BYTES)


def totals_lines(chance):
    for totals in ([0] * TOTALS, [LARGEST_TOTAL] * TOTALS, list(range(1, TOTALS + 1)),
                   [10 ** i for i in range(TOTALS)]):
        for lent in (0, 1, LINE_BYTES, TOTALS_BYTES - 1, TOTALS_BYTES, TOTALS_BYTES + 1):
            yield call("totals_line", totals, lent)
    for i in range(TOTALS):
        for number in (1, LARGEST_TOTAL):
            totals = [0] * TOTALS
            totals[i] = number
            yield call("totals_line", totals, TOTALS_BYTES)
    for number in digits():
        yield call("totals_line", ([number, 1] * TOTALS)[:TOTALS], TOTALS_BYTES)
    for _ in range(40):
        yield call("totals_line", [a_number(chance) for _ in range(TOTALS)], TOTALS_BYTES)


# ---- totals

def sums(chance):
    nothing, full = [0] * TOTALS, [LARGEST_TOTAL] * TOTALS
    each = [UNOPENED, (5, 1, 1, 80, 0), (1, 2, 3, 4, 5), (0,) * COUNTS, (LARGEST_TOTAL,) * COUNTS, FULL_UP,
            FULL_DOWN, *(refused(*refusal) for refusal in REFUSALS + LISTS + OTHERS), refused(7, LARGEST_TOTAL)]
    for before in (nothing, full, list(range(100, 100 + TOTALS)), [LARGEST_TOTAL - i for i in range(TOTALS)]):
        yield call("add", before, [])
        yield call("add", before, each)
        for outcome in each:
            yield call("add", before, [outcome])
            yield call("add", before, [outcome, outcome])
    # numbers of refusals that have no count, and those whose low bits are like one that has
    for number in range(LARGEST_NUMBER + 1):
        yield call("add", nothing, [refused(number, 3)])
    # whole nights: the largest sums, and all of one kind
    for outcome in (FULL_UP, FULL_DOWN, UNOPENED, *(refused(number, 1) for number in COUNTED_REFUSALS)):
        yield call("add", nothing, [outcome] * MOST_NAMES)
    yield call("add", nothing, [FULL_UP, FULL_DOWN] * (MOST_NAMES // 2))
    for size in (1, 2, 3, 10, 50, MOST_NAMES):
        for _ in range(6):
            outcomes = [an_outcome(chance) for _ in range(size)]
            yield call("add", nothing, outcomes)
            yield call("add", [a_number(chance) for _ in range(TOTALS)], outcomes)
            yield call("add", nothing, list(reversed(outcomes)))


def calls(chance):
    yield from outcome_lines(chance)
    yield from refused_lines(chance)
    yield from totals_lines(chance)
    yield from sums(chance)
