"""Sets of offsets, forms, truth tables and presets."""

from . import limits
from .limits import BYTE_BITS, LARGEST_SET, MOST_TERMS, REACH, TABLE_BYTES
from .refusals import fill, refuse_if

OFFSETS = range(-REACH, REACH + 1)
PATTERNS = range(limits.PATTERNS)


# ---- sets of offsets

def worth(offset):
    """By "offset d is worth 2^(d+4)"."""
    return 2 ** (offset + REACH)


def set_of(number):
    """The offsets whose worths add up to the number, 0 to 511."""
    return frozenset(d for d in OFFSETS if number // worth(d) % 2 == 1)


def number_of(offsets):
    return sum(worth(d) for d in offsets)


SETS = [set_of(number) for number in PATTERNS]
PROPERLY_WITHIN = [[u for u in PATTERNS if SETS[u] < SETS[v]] for v in PATTERNS]


def contains(outer, inner):
    return SETS[inner] <= SETS[outer]


# ---- forms

def is_at_fault(terms, i):
    """Refusal 7: "a term is over 511, not above its predecessor, or contains an earlier one"."""
    return (terms[i] > LARGEST_SET
            or (i > 0 and terms[i] <= terms[i - 1])
            or any(contains(terms[i], earlier) for earlier in terms[:i]))


def check(terms):
    """Refusals 7 and 8. Returns the number of terms."""
    for i in range(len(terms)):
        refuse_if(is_at_fault(terms, i), 7, i)
    refuse_if(len(terms) > MOST_TERMS, 8, len(terms))
    return len(terms)


def holds(terms, pattern):
    """By "Its Boolean function is 1 on a pattern when the pattern contains some term"."""
    return any(contains(pattern, term) for term in terms)


def function_of(terms):
    """The form's Boolean function, as its 512 values."""
    return [holds(terms, pattern) for pattern in PATTERNS]


def form_of(function):
    """The minimal patterns, ascending: 1 there, and 0 on every other pattern within."""
    return [v for v in PATTERNS
            if function[v] and not any(function[u] for u in PROPERLY_WITHIN[v])]


# ---- truth tables

def function_in(table):
    """By "bit v mod 8 of byte v / 8 (bit 0 lowest) is the value on pattern v"."""
    return [table[v // BYTE_BITS] // 2 ** (v % BYTE_BITS) % 2 == 1 for v in PATTERNS]


def table_of(function):
    return [sum(2 ** bit for bit in range(BYTE_BITS) if function[BYTE_BITS * byte + bit])
            for byte in range(TABLE_BYTES)]


def is_lost_above(function, v):
    """Refusal 12: a "pattern with value 1 that one more offset turns to 0"."""
    return function[v] and any(not function[v + worth(d)] for d in OFFSETS if d not in SETS[v])


def table_to_form(table, lent_terms):
    """Order 13, 12, 6. Returns the number of terms."""
    refuse_if(len(table) != TABLE_BYTES, 13, len(table))
    function = function_in(table)
    for v in PATTERNS:
        refuse_if(is_lost_above(function, v), 12, v)
    return fill_terms(lent_terms, form_of(function))


def form_to_table(terms, lent_table):
    """Order 7, 8, 13. Returns the number of terms."""
    check(terms)
    refuse_if(len(lent_table) != TABLE_BYTES, 13, len(lent_table))
    fill(lent_table, table_of(function_of(terms)))
    return len(terms)


def fill_terms(lent_terms, terms):
    """With "fewer elements lent for terms than needed" it is 6, at the terms needed."""
    refuse_if(len(lent_terms) < len(terms), 6, len(terms))
    fill(lent_terms, terms)
    return len(terms)


# ---- presets

PRESET_TABLES = [0, 128, 136, 160, 168, 170, 192, 200, 204, 224,
                 232, 234, 236, 238, 240, 248, 250, 252, 254, 255]
assert len(PRESET_TABLES) == limits.PRESETS


def preset_function(table):
    """By "8-bit tables over x1, x2, x3 (offsets -1, 0, 1; x1 is the lowest bit)"."""
    def value(pattern):
        x1, x2, x3 = (d in SETS[pattern] for d in (-1, 0, 1))
        return table // 2 ** (x1 + 2 * x2 + 4 * x3) % 2 == 1
    return [value(pattern) for pattern in PATTERNS]


def preset(number, lent_terms):
    """Order 14, 6. Returns the number of terms."""
    refuse_if(number >= limits.PRESETS, 14, number)
    return fill_terms(lent_terms, form_of(preset_function(PRESET_TABLES[number])))
