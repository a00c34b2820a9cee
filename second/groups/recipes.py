"""Running a recipe directly, and compiling it."""

import chance as by
from rules.forms import OFFSETS, SETS, number_of
from rules.limits import (LARGEST_SET, LARGEST_WORD, LONGEST_RECIPE, MOST_SAMPLES, MOST_SIGNALS,
                          MOST_STEPS, MOST_TERMS, PATTERNS, TOP, WIDTH)
from rules.recipes import CLOSE, DILATE, ERODE, LARGER, MEDIAN, OPEN, RANK, SIGNAL, SMALLER, Step
from wire import LONGEST_SHOWN as SHOWN, call

# ---- steps, short to write

# The least code that no step has.
NO_STEP = SMALLER + 1

signal = Step(SIGNAL, 0, 0)
larger = Step(LARGER, 0, 0)
smaller = Step(SMALLER, 0, 0)


def erode(b):
    return Step(ERODE, 0, b)


def dilate(b):
    return Step(DILATE, 0, b)


def opening(b):
    return Step(OPEN, 0, b)


def closing(b):
    return Step(CLOSE, 0, b)


def rank(k, b):
    return Step(RANK, k, b)


def median(b):
    return Step(MEDIAN, 0, b)


def compiled(*steps, lent=SHOWN):
    return call("compile", by.recipe_of(steps), lent)


def run(scan, *steps):
    return call("run_recipe", by.recipe_of(steps), scan, len(scan))


def both(scan, *steps):
    yield run(scan, *steps)
    yield compiled(*steps)


# ---- worked cases

# A scan on which steps that are easily confused part.
UNEVEN = [1, 1, 0, 0, 1, 0, 9, 3, TOP, 0, 4, 4, 7]


def worked():
    """The scope document's cases and what goes wrong, then the papers' vectors."""
    for steps in ([], [median(56)], [opening(48)], [closing(48)], [dilate(48)], [opening(56)],
                  [closing(48), signal, smaller], [erode(257)], [opening(496)], [opening(504)],
                  [erode(1), erode(1)], [erode(0)], [signal]):
        yield from both(UNEVEN, signal, *steps)
    yield from both([5, 0, 0], signal, erode(56), dilate(56))
    yield from both([7], signal, erode(1))
    yield from both(UNEVEN, erode(56))
    yield from both([1, 2, 4], signal, rank(1, 48))
    yield from both([1, 2, 4], signal, dilate(48))
    yield from both([1, 1, 0, 0, 1, 0], signal, closing(176))
    yield from both([1, 1, 0, 0, 1, 0], signal, opening(176))
    yield from both([3, 1, 2], signal, rank(1, 56))
    yield from both([3, 1, 2], signal, rank(3, 56))
    for steps in ([median(124)], [opening(240)], [closing(240)], [closing(496)], [closing(56)],
                  [opening(48), closing(48)], [closing(48), opening(48)],
                  [opening(112), closing(112)], [closing(112), opening(112)]):
        yield from both(UNEVEN, signal, *steps)
    for step in [median(LARGEST_SET)] + [rank(k, LARGEST_SET) for k in range(1, WIDTH + 1)]:
        yield run(UNEVEN, signal, step)
        yield compiled(signal, step, lent=MOST_TERMS)
    # openings by offsets that are not neighbours, at held ends
    yield from both([2, 4, 2], signal, opening(number_of([0, 2, 3])))


def equal_recipes():
    """Different steps that say the same, so that their forms must be the same."""
    yield from both(UNEVEN, signal, erode(48), signal, erode(24), larger)
    yield from both(UNEVEN, signal, opening(48), signal, smaller)
    yield from both(UNEVEN, signal, opening(48))
    yield from both(UNEVEN, signal, opening(48), opening(48))
    yield from both(UNEVEN, signal, opening(24))
    yield from both(UNEVEN, signal, signal, larger)
    yield from both(UNEVEN, signal, erode(256), dilate(256))
    yield from both(UNEVEN, signal, dilate(1), erode(1))
    yield from both(UNEVEN, signal, median(16))
    yield from both(UNEVEN, signal, rank(2, 56))
    yield from both(UNEVEN, signal, erode(24), signal, erode(40), larger, signal, erode(48), larger)


# ---- refusals and their order

def sizes():
    """Refusal 1: sound first steps do not help, and faulty ones do not matter."""
    longest = LONGEST_RECIPE
    for size in (0, 1, 2, 3, 5, 6, 7, longest - 1, longest + 1, longest + 2, longest + 4,
                 2 * longest, 1000):
        for byte in (SIGNAL, NO_STEP):
            recipe = [byte] * size
            yield call("compile", recipe, 0)
            yield call("run_recipe", recipe, [], 1)
    yield from both([4, 2], signal, *[median(16)] * (MOST_STEPS - 1))
    yield from both([4, 2], signal, *[closing(16)] * MOST_STEPS)


FAULTY_FIELDS = (
    [Step(code, 1, 0) for code in (SIGNAL, LARGER, SMALLER)]
    + [Step(code, 0, 1) for code in (SIGNAL, LARGER, SMALLER)]
    + [Step(code, 0, 256) for code in (SIGNAL, LARGER, SMALLER)]
    + [Step(code, 1, 56) for code in (ERODE, DILATE, OPEN, CLOSE, MEDIAN)]
    + [Step(code, 255, 16) for code in (ERODE, DILATE, OPEN, CLOSE, MEDIAN)]
    + [Step(code, 0, b) for code in (ERODE, DILATE, OPEN, CLOSE, MEDIAN)
       for b in (0, PATTERNS, PATTERNS + 16, LARGEST_WORD)]
    + [Step(RANK, 1, b) for b in (0, PATTERNS, PATTERNS + 16, LARGEST_WORD)]
    + [rank(0, 56), rank(4, 56), rank(255, 56), rank(2, 1), rank(WIDTH + 1, LARGEST_SET)]
    + [rank(0, 0)]
    + [median(b) for b in (48, 3, 257, 240, 255, 510)]
)


def faults():
    """Refusals 2, 3 and 4 at their step, with what comes before which."""
    for code in (NO_STEP, NO_STEP + 1, 16, 127, 128, 255):
        yield from both([1], signal, Step(code, 0, 0))
        yield from both([1], Step(code, 7, 999))
    for step in FAULTY_FIELDS:
        yield from both([1], signal, signal, step, larger)
        yield compiled(step)
    for code in (ERODE, DILATE, OPEN, CLOSE, RANK, MEDIAN):
        step = Step(code, 1 if code == RANK else 0, LARGEST_SET)
        yield compiled(step)
        yield from both([1], step, signal, larger)
    for step in (larger, smaller):
        yield from both([1], step)
        yield from both([1], signal, step)
        yield from both([1], signal, signal, step, step)
        yield from both([1], signal, Step(step.code, 0, 3))


def held_signals():
    """So many signals may be held, one more may not; one is left."""
    most = MOST_SIGNALS
    for held in range(1, most + 3):
        yield from both([6, 1], *[signal] * held)
        yield from both([6, 1], *[signal] * held, *[larger] * (held - 1))
        yield from both([6, 1], *[signal] * held, *[smaller] * held)
    yield from both([6, 1], *[signal] * most, larger, signal, *[smaller] * (most - 1))
    yield from both([6, 1], *[signal] * most, larger, signal, signal, *[smaller] * most)
    yield from both([6, 1], *[signal] * MOST_STEPS)


def reaches():
    """Refusal 5: the reach may come back, and the inside of an open or close is not tested."""
    for step in (erode, dilate):
        for b in (1, 256, 257, LARGEST_SET, 2, 128, 130):
            yield from both(UNEVEN, signal, step(b))
            for then in (16, 8, 32):
                yield from both(UNEVEN, signal, step(b), erode(then))
                yield from both(UNEVEN, signal, step(b), dilate(then))
    for step in (opening, closing):
        for b in (1, 256, 496, 31, 504, 63, 257, 273, LARGEST_SET, 272):
            yield from both(UNEVEN, signal, step(b))
        for b in (256, 1, 48, 24, 16, 257):
            yield from both(UNEVEN, signal, erode(256), step(b))
            yield from both(UNEVEN, signal, dilate(256), step(b))
            yield from both(UNEVEN, signal, erode(128), step(b))
    for b in (1, 256, 257, 84, LARGEST_SET):
        yield from both(UNEVEN, signal, erode(1), dilate(1), median(b | 16))
        yield from both(UNEVEN, signal, erode(1), rank(1, b))
        yield from both(UNEVEN, signal, dilate(1), rank(1, b))
    # the reach of two signals together: one goes left, one right
    yield from both(UNEVEN, signal, erode(1), signal, erode(256), larger)
    yield from both(UNEVEN, signal, erode(1), signal, erode(256), larger, erode(16))
    yield from both(UNEVEN, signal, erode(1), signal, erode(256), larger, erode(32))
    yield from both(UNEVEN, signal, erode(1), signal, erode(256), smaller, dilate(32))


OUT_OF_REACH = [signal, erode(256), erode(256)]


def orders():
    """The first faulty step decides, whatever its number; the end comes last."""
    yield from both([1], *OUT_OF_REACH, Step(NO_STEP, 0, 0))
    yield from both([1], signal, erode(0), Step(255, 0, 0))
    yield from both([1], signal, Step(NO_STEP, 0, 0), erode(0))
    yield from both([1], signal, larger, erode(0))
    yield from both([1], signal, erode(0), larger)
    yield from both([1], signal, erode(256), Step(ERODE, 1, 256))
    yield from both([1], signal, *OUT_OF_REACH)
    yield from both([1], signal, signal, erode(1))
    # one signal too many before a wrong scan and a wrong slice; a wrong scan before a wrong slice
    bad_code = [signal, Step(NO_STEP, 0, 0)]
    for recipe in ([signal, signal], [signal], bad_code, OUT_OF_REACH, [larger]):
        for scan in ([], [1, 2]):
            for lent in (0, 1, 2, 3):
                yield call("run_recipe", by.recipe_of(recipe), scan, lent)
        yield compiled(*recipe, lent=0)
    for lent in (0, 1, 2, 3, 4, 10):
        yield compiled(signal, median(56), lent=lent)
    for lent in (0, MOST_TERMS - 1, MOST_TERMS, MOST_TERMS + 1):
        yield compiled(signal, median(LARGEST_SET), lent=lent)


# ---- each kind of step, by chance

def single_steps(chance):
    for code in (ERODE, DILATE, OPEN, CLOSE, RANK, MEDIAN):
        for _ in range(25):
            b = by.some_set(chance, chance.between(1, 7))
            k = chance.between(1, len(SETS[b])) if code == RANK else 0
            yield from both(by.scan(chance), signal, Step(code, k, b))
    for b in (number_of([d]) for d in OFFSETS):
        for step in (erode(b), dilate(b), opening(b), closing(b), rank(1, b), median(b)):
            yield run([7, 1, 2, 3, 9], signal, step)


def random(chance):
    for _ in range(130):
        recipe = by.accepted_recipe(chance, chance.between(2, 12))
        scan = by.scan(chance)
        yield call("run_recipe", recipe, scan, len(scan))
        yield call("compile", recipe, chance.one_of([SHOWN, SHOWN, MOST_TERMS, 3, 0]))
    for _ in range(30):
        recipe = by.accepted_recipe(chance, chance.between(13, MOST_STEPS))
        scan = by.scan(chance)
        yield call("run_recipe", recipe, scan, len(scan))
        yield call("compile", recipe, MOST_TERMS)
    for _ in range(200):
        recipe, scan = by.damaged_recipe(chance), by.scan(chance)
        yield call("run_recipe", recipe, scan, max(0, len(scan) + chance.one_of([0, 0, 0, -1, 1])))
        yield call("compile", recipe, SHOWN)


def long_scans(chance):
    most = MOST_SAMPLES
    longest = [chance.one_of([0, 3, 700, TOP]) for _ in range(most)]
    recipe = by.recipe_of([signal, opening(112), closing(112)])
    yield call("run_recipe", recipe, longest, most)
    yield call("run_recipe", recipe, longest, most - 1)
    yield call("run_recipe", recipe, [1] * (most + 1), most + 1)
    yield call("run_recipe", recipe + [SIGNAL, 0, 0, 0], [1] * (most + 1), most + 1)
    some = longest[:1500]
    for size in (5, 12, MOST_STEPS):
        yield call("run_recipe", by.accepted_recipe(chance, size), some, len(some))


def calls(chance):
    yield from worked()
    yield from equal_recipes()
    yield from sizes()
    yield from faults()
    yield from held_signals()
    yield from reaches()
    yield from orders()
    yield from single_steps(chance)
    yield from random(chance)
    yield from long_scans(chance)
