"""The form check, truth tables and presets."""

import chance as by
from rules import limits
from rules.forms import (PATTERNS, PRESET_TABLES, SETS, form_of, function_in, preset_function,
                         table_of)
from rules.limits import LARGEST_SET, LARGEST_WORD, MOST_TERMS, PRESETS, TABLE_BYTES, WIDTH
from wire import call

# ---- forms that other groups use too

def subsets_of_size(size):
    """All sets of so many offsets."""
    return [v for v in PATTERNS if len(SETS[v]) == size]


# Half of the offsets, rounded up or down: no form has more terms.
LONGEST_FORM = subsets_of_size((WIDTH + 1) // 2)
ALSO_LONGEST = subsets_of_size(WIDTH // 2)
assert len(LONGEST_FORM) == len(ALSO_LONGEST) == MOST_TERMS


def presets():
    return [form_of(preset_function(table)) for table in PRESET_TABLES]


SINGLE_OFFSETS = subsets_of_size(1)

# The least number that is no set.
NO_SET = limits.PATTERNS

# Lists that are no forms, each with another fault or another place.
BAD_LISTS = [
    [24, 16], [16, 24], [16, 16], [0, 0], [0, 1], [0, LARGEST_SET],
    [NO_SET], [LARGEST_WORD], [NO_SET, NO_SET], [16, NO_SET], [24, 40, 48, NO_SET],
    [24, 40, 600, 48],
    [24, 40, 48, 56], [8, 16, 33, 40], SINGLE_OFFSETS + [LARGEST_SET],
    [48, 40, 24], [24, 40, 40], [1, LARGEST_SET], [256, 257], [LARGEST_SET] * 2,
    [LARGEST_SET, NO_SET], [3, 5, 6, 7],
]

GOOD_LISTS = [
    [], [0], [1], [16], [256], [LARGEST_SET], [24, 40, 48], [16, 40], [24, 48], [28, 56, 112],
    [8, 16], SINGLE_OFFSETS, [3, 5, 6], [255, 256], [254, 257], [16, 36, 40, 72],
]


# ---- the form check

def checks(chance):
    for terms in GOOD_LISTS + BAD_LISTS:
        yield call("check", terms)
    for size in range(WIDTH + 1):
        yield call("check", subsets_of_size(size))
    # one term too many: whichever is added, and wherever, refusal 7 comes before 8
    most = ALSO_LONGEST
    for extra in (0, 1, 15, 16, 31, 300, 496, LARGEST_SET, NO_SET, LARGEST_WORD):
        yield call("check", sorted(most + [extra]))
        yield call("check", most + [extra])
    yield call("check", list(range(LARGEST_WORD)))
    yield call("check", most + [LARGEST_SET] * (LARGEST_WORD - len(most)))
    for _ in range(120):
        yield call("check", by.any_form(chance))
        yield call("check", by.damaged_form(chance))
    for _ in range(30):
        yield call("check", [chance.below(540) for _ in range(chance.between(1, 6))])


# ---- truth tables

def lent_around(needed):
    """One short, exact and longer slices; nothing lent at all."""
    return sorted({0, max(needed - 1, 0), needed, needed + 1, needed + 3})


def true_on(*patterns):
    return table_of([v in patterns for v in PATTERNS])


def tables_to_forms(chance):
    for table in ([0] * TABLE_BYTES, [255] * TABLE_BYTES, true_on(LARGEST_SET)):
        for lent in (0, 1, 2, 512):
            yield call("table_to_form", table, lent)
    # lengths, also where the table is not positive or the lent slice is too short
    for size in (0, 1, 8, TABLE_BYTES - 1, TABLE_BYTES + 1, 2 * TABLE_BYTES, limits.PATTERNS):
        yield call("table_to_form", [0] * size, 3)
        yield call("table_to_form", [1] * size, 0)
        yield call("table_to_form", [255] * size, 0)
    # not positive, also where nothing is lent
    for v in (0, 1, 16, 255, 256, LARGEST_SET - 1):
        yield call("table_to_form", true_on(v), 3)
        yield call("table_to_form", true_on(v), 0)
        yield call("table_to_form", true_on(v, LARGEST_SET), 0)
    yield call("table_to_form", true_on(*range(LARGEST_SET)), 3)
    for _ in range(150):
        table = by.positive_table(chance)
        needed = len(form_of(function_in(table)))
        yield call("table_to_form", table, chance.one_of(lent_around(needed)))
        yield call("table_to_form", by.nearly_positive_table(chance), chance.one_of([0, 2, 40]))
    for size in range(WIDTH + 1):
        table = table_of([len(SETS[v]) >= size for v in PATTERNS])
        yield call("table_to_form", table, MOST_TERMS)
        yield call("table_to_form", table, MOST_TERMS - 1)
    for _ in range(10):
        yield call("table_to_form", chance.bytes(TABLE_BYTES), 3)


def forms_to_tables(chance):
    for terms in GOOD_LISTS + presets():
        yield call("form_to_table", terms, TABLE_BYTES)
    for lent in (0, 1, TABLE_BYTES - 1, TABLE_BYTES + 1, 100):
        yield call("form_to_table", [24, 40, 48], lent)
        yield call("form_to_table", [], lent)
        yield call("form_to_table", [0], lent)
    for terms in BAD_LISTS:
        yield call("form_to_table", terms, TABLE_BYTES)
        yield call("form_to_table", terms, TABLE_BYTES - 1)
    for size in range(WIDTH + 1):
        yield call("form_to_table", subsets_of_size(size), TABLE_BYTES)
    yield call("form_to_table", LONGEST_FORM + [LARGEST_SET], TABLE_BYTES)
    yield call("form_to_table", LONGEST_FORM + [LARGEST_SET], TABLE_BYTES + 1)
    for _ in range(100):
        yield call("form_to_table", by.any_form(chance), TABLE_BYTES)
    for _ in range(20):
        lent = [0, TABLE_BYTES - 1, TABLE_BYTES, TABLE_BYTES + 1]
        yield call("form_to_table", by.damaged_form(chance), chance.one_of(lent))


# ---- presets

# A number cut to one, two or four bytes would name a preset here.
NO_PRESETS = [PRESETS, PRESETS + 1, 127, 128, 255, 256, 256 + 10, 256 + PRESETS, 1000,
              2 ** 16 - 1, 2 ** 16, 2 ** 16 + 10, 2 ** 31, 2 ** 32 - 1, 2 ** 32, 2 ** 32 + 10,
              2 ** 63, 2 ** 64 - 1]


def preset_calls():
    for number, terms in enumerate(presets()):
        for lent in lent_around(len(terms)):
            yield call("preset", number, lent)
    for number in NO_PRESETS:
        yield call("preset", number, 3)
        yield call("preset", number, 0)


def calls(chance):
    yield from checks(chance)
    yield from tables_to_forms(chance)
    yield from forms_to_tables(chance)
    yield from preset_calls()
