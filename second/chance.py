"""Inputs by chance, from a generator of our own so that no Python version can change them."""

from rules.forms import OFFSETS, SETS, function_of, number_of, table_of
from rules.limits import (BYTE_BITS, LARGEST_SET, LARGEST_WORD, MOST_SIGNALS, PATTERNS, STEP_BYTES,
                          TOP, WIDTH)
from rules.recipes import (CLOSE, DILATE, ERODE, LARGER, MEDIAN, OPEN, RANK, SIGNAL, SMALLER, Step,
                           fields_are_allowed, is_near, reaches_after)


class Chance:
    """Knuth's 64-bit linear congruential generator; the upper half of its state is used."""

    def __init__(self, seed):
        self.state = seed

    def below(self, bound):
        self.state = (self.state * 6364136223846793005 + 1442695040888963407) % 2 ** 64
        return (self.state // 2 ** 32) * bound // 2 ** 32

    def between(self, least, most):
        return least + self.below(most - least + 1)

    def one_of(self, choices):
        return choices[self.below(len(choices))]

    def bytes(self, size):
        return [self.below(256) for _ in range(size)]


# ---- forms and tables

def some_set(chance, size):
    """A set of so many offsets, as its number."""
    offsets = list(OFFSETS)
    return number_of(offsets.pop(chance.below(len(offsets))) for _ in range(size))


def form(chance, tries):
    """The smallest sets among so many: sizes lie close together, so that few contain another."""
    size = chance.between(1, WIDTH - 1)
    drawn = {some_set(chance, min(WIDTH, size + chance.below(2))) for _ in range(tries)}
    return sorted(v for v in drawn if not any(SETS[u] < SETS[v] for u in drawn))


def any_form(chance):
    return form(chance, chance.one_of([0, 1, 1, 2, 3, 3, 5, 8, 12, 20, 40, 90]))


def damaged_form(chance):
    """A form with one or two faults of any kind put in at any place."""
    terms = any_form(chance) or [16]
    for _ in range(chance.between(1, 2)):
        at, kind = chance.below(len(terms) + 1), chance.below(5)
        if kind == 0:
            terms.insert(at, chance.one_of([PATTERNS, PATTERNS + 1, 1024, 32768, LARGEST_WORD,
                                             PATTERNS + terms[0]]))
        elif kind == 1:
            terms.insert(at, chance.one_of(terms))
        elif kind == 2:
            terms.insert(at, chance.below(PATTERNS))
        elif kind == 3:
            terms[at:at + 2] = reversed(terms[at:at + 2])
        else:
            terms.append(min(LARGEST_SET, chance.one_of(terms) | 256))
    return terms


def positive_table(chance):
    return table_of(function_of(any_form(chance)))


def nearly_positive_table(chance):
    """A positive table with one value turned round."""
    table, v = positive_table(chance), chance.below(PATTERNS)
    table[v // BYTE_BITS] ^= 2 ** (v % BYTE_BITS)
    return table


# ---- scans

def scan(chance, most=20):
    """Samples with few distinct values, or any, or next to the ends of the range."""
    size = chance.between(1, most)
    kind = chance.below(4)
    if kind == 0:
        values = [chance.below(4) for _ in range(3)]
    elif kind == 1:
        values = [0, TOP, chance.between(0, TOP)]
    elif kind == 2:
        values = [0, 1, 2, TOP - 2, TOP - 1, TOP]
    else:
        values = [chance.between(0, TOP) for _ in range(size)]
    return [chance.one_of(values) for _ in range(size)]


# ---- recipes

def recipe_of(steps):
    return [byte for s in steps for byte in (s.code, s.rank, s.b % 256, s.b // 256)]


def fitting_step(chance, reaches):
    """A step from erode to median that keeps the last signal's reach near."""
    for _ in range(60):
        code, b = chance.between(ERODE, MEDIAN), some_set(chance, chance.between(1, 5))
        step = Step(code, chance.between(1, len(SETS[b])) if code == RANK else 0, b)
        if fields_are_allowed(step):
            if is_near(reaches_after(step, reaches)[-1]):
                return step
    return Step(chance.one_of([ERODE, DILATE, OPEN, CLOSE, MEDIAN]), 0, 16)


def accepted_recipe(chance, size):
    """So many steps, each chosen among those that the rules allow and that can still end well."""
    steps, reaches = [], []
    for left in range(size, 0, -1):
        held, choices = len(reaches), []
        if held < MOST_SIGNALS and held + 1 <= left:
            choices += [Step(SIGNAL, 0, 0)]
        if held >= 2:
            choices += [Step(LARGER, 0, 0), Step(SMALLER, 0, 0)]
        if 1 <= held <= left:
            choices += [fitting_step(chance, reaches)] * 3
        steps.append(chance.one_of(choices))
        reaches = reaches_after(steps[-1], reaches)
    return recipe_of(steps)


def any_step(chance):
    """A step whose fields may be at fault."""
    return Step(chance.one_of([*range(SMALLER + 2), 255]),
                chance.one_of([0, 0, 0, 1, 2, WIDTH]),
                chance.one_of([0, 16, 56, 48, 1, 256, LARGEST_SET, PATTERNS, LARGEST_WORD,
                               chance.below(PATTERNS)]))


def damaged_recipe(chance):
    """An accepted recipe with a step exchanged, put in or taken out."""
    recipe = accepted_recipe(chance, chance.between(1, 10))
    at = STEP_BYTES * chance.below(len(recipe) // STEP_BYTES)
    kind = chance.below(4)
    if kind == 0:
        recipe[at:at + STEP_BYTES] = recipe_of([any_step(chance)])
    elif kind == 1:
        recipe[at:at] = recipe_of([any_step(chance)])
    elif kind == 2:
        del recipe[at:at + STEP_BYTES]
    else:
        recipe[at + chance.below(STEP_BYTES)] ^= 2 ** chance.below(BYTE_BITS)
    return recipe
