"""Recipes: which are refused, what they mean on the endless signal, and their forms."""

from collections import namedtuple

from .forms import PATTERNS, SETS, fill_terms, form_of
from .limits import LARGEST_SET, LONGEST_RECIPE, MOST_SIGNALS, REACH, STEP_BYTES
from .refusals import fill, refuse_if
from .scans import check_output, check_scan, endless

SIGNAL, ERODE, DILATE, OPEN, CLOSE, RANK, MEDIAN, LARGER, SMALLER = range(9)

Step = namedtuple("Step", "code rank b")
Reach = namedtuple("Reach", "lo hi")


def steps_of(recipe):
    """Steps of "4 bytes: code, rank, then the set B (two bytes, low first)"."""
    return [Step(recipe[i], recipe[i + 1], recipe[i + 2] + 256 * recipe[i + 3])
            for i in range(0, len(recipe), STEP_BYTES)]


# ---- refusals 1 to 5

def fields_are_allowed(step):
    """By "a field not listed must be 0", "B is 1 to 511", "k is 1 to the size of B", and the odd
    size of a median."""
    if step.code in (SIGNAL, LARGER, SMALLER):
        return step.rank == 0 and step.b == 0
    if not 1 <= step.b <= LARGEST_SET:
        return False
    size = len(SETS[step.b])
    if step.code == RANK:
        return 1 <= step.rank <= size
    return step.rank == 0 and (step.code != MEDIAN or size % 2 == 1)


def signals_suffice(step, held):
    """Not so where there are "too few signals held, a ninth added"."""
    if step.code == SIGNAL:
        return held < MOST_SIGNALS
    return held >= (2 if step.code in (LARGER, SMALLER) else 1)


def reaches_after(step, reaches):
    """The reaches of the signals held after the step, by the column "Reach"."""
    if step.code == SIGNAL:
        return reaches + [Reach(0, 0)]
    if step.code in (LARGER, SMALLER):
        rest, (one, other) = reaches[:-2], reaches[-2:]
        return rest + [Reach(min(one.lo, other.lo), max(one.hi, other.hi))]
    rest, (lo, hi) = reaches[:-1], reaches[-1]
    least, most = min(SETS[step.b]), max(SETS[step.b])
    if step.code == DILATE:
        return rest + [Reach(lo - most, hi - least)]
    if step.code in (OPEN, CLOSE):
        return rest + [Reach(lo - (most - least), hi + (most - least))]
    return rest + [Reach(lo + least, hi + most)]


def is_near(reach):
    """Not so where the "reach leaves -4 to 4"."""
    return -REACH <= reach.lo and reach.hi <= REACH


def judged(recipe):
    """The recipe's steps. Order "1; then step by step 2, 3, 4, 5; then 4 at the end"."""
    size = len(recipe)
    refuse_if(size == 0 or size % STEP_BYTES != 0 or size > LONGEST_RECIPE, 1, size)
    steps, reaches = steps_of(recipe), []
    for place, step in enumerate(steps):
        refuse_if(step.code > SMALLER, 2, place)
        refuse_if(not fields_are_allowed(step), 3, place)
        refuse_if(not signals_suffice(step, len(reaches)), 4, place)
        reaches = reaches_after(step, reaches)
        refuse_if(not is_near(reaches[-1]), 5, place)
    refuse_if(len(reaches) != 1, 4, len(steps))
    return steps


# ---- what a recipe means: a signal is a function from every whole number to a value

def remembered(signal):
    """The same signal, asked at each position once."""
    known = {}

    def at(x):
        if x not in known:
            known[x] = signal(x)
        return known[x]
    return at


def erode(g, b):
    """The "least g(x+b)"."""
    return remembered(lambda x: min([g(x + d) for d in b]))


def dilate(g, b):
    """The "largest g(x-b)"."""
    return remembered(lambda x: max([g(x - d) for d in b]))


def rank(g, k, b):
    """The "k-th largest of g(x+b)"."""
    return remembered(lambda x: sorted([g(x + d) for d in b], reverse=True)[k - 1])


def after(step, scan, held):
    """The signals held after the step, by the column "Value at x"."""
    if step.code == SIGNAL:
        return held + [scan]
    if step.code in (LARGER, SMALLER):
        choose = max if step.code == LARGER else min
        rest, (one, other) = held[:-2], held[-2:]
        return rest + [remembered(lambda x: choose(one(x), other(x)))]
    rest, g, b = held[:-1], held[-1], SETS[step.b]
    if step.code == ERODE:
        return rest + [erode(g, b)]
    if step.code == DILATE:
        return rest + [dilate(g, b)]
    if step.code == OPEN:
        return rest + [dilate(erode(g, b), b)]
    if step.code == CLOSE:
        return rest + [erode(dilate(g, b), b)]
    if step.code == RANK:
        return rest + [rank(g, step.rank, b)]
    return rest + [rank(g, (len(b) + 1) // 2, b)]


def meaning(steps, scan):
    """The signal that the steps leave, where `scan` is the endless signal they start from. No step
    extends anything anew: each reads the signal before it at any whole number."""
    held = []
    for step in steps:
        held = after(step, scan, held)
    return held[-1]


# ---- the calls

def run_recipe(recipe, scan, out):
    """Order "1 to 5 as above, 9, 10". Returns the number of samples."""
    steps = judged(recipe)
    check_scan(scan)
    check_output(out, len(scan))
    signal = meaning(steps, lambda x: endless(scan, x))
    fill(out, [signal(x) for x in range(len(scan))])
    return len(scan)


def recipe_function(steps):
    """The steps' Boolean function: asked at position 0 of each 0/1 signal. Beyond the offsets the
    signals are 0; refusal 5 has seen to it that this can't matter."""
    def value(pattern):
        ones = SETS[pattern]
        return meaning(steps, lambda x: 1 if x in ones else 0)(0) == 1
    return [value(pattern) for pattern in PATTERNS]


def compile_recipe(recipe, lent_terms):
    """Refusals 1 to 5, then 6. Returns the number of terms."""
    return fill_terms(lent_terms, form_of(recipe_function(judged(recipe))))
