"""Scans, the filter of a form as a count of levels, its residue and its roots."""

from .forms import OFFSETS, check, function_of, number_of
from .limits import MOST_SAMPLES, TOP
from .refusals import fill, refuse_if


def check_scan(scan):
    """A "scan of 0 or over 16,384 samples" is 9, at the samples."""
    refuse_if(not 1 <= len(scan) <= MOST_SAMPLES, 9, len(scan))


def check_output(lent, needed):
    """An "output slice of wrong length" is 10, at the length needed."""
    refuse_if(len(lent) != needed, 10, needed)


def endless(scan, x):
    """The endless signal: "Outside it the first sample is repeated to the left and the last to the
    right, without end"."""
    if x < 0:
        return scan[0]
    if x >= len(scan):
        return scan[-1]
    return scan[x]


def cut(neighbours, level):
    """The pattern around x: "The scan cut at level t is 1 where the sample is at least t"."""
    return number_of(d for d in OFFSETS if neighbours[d] >= level)


def filtered_at(function, scan, x):
    """Demand 2: "the number of levels t in 1..65,535 whose cut makes the function 1 around x".

    The levels above one neighbouring value and up to the next have the same cut, so they are
    counted by their number.
    """
    neighbours = {d: endless(scan, x + d) for d in OFFSETS}
    bounds = sorted({0, TOP, *neighbours.values()})
    return sum(upper - lower
               for lower, upper in zip(bounds, bounds[1:])
               if function[cut(neighbours, upper)])


def filtered(terms, scan):
    function = function_of(terms)
    return [filtered_at(function, scan, x) for x in range(len(scan))]


def residues(terms, scan):
    """At each sample "raw minus cleaned, -65,535 to 65,535, as a signed number"."""
    return [raw - cleaned for raw, cleaned in zip(scan, filtered(terms, scan))]


def clean(terms, scan, out):
    """Order 7, 8, 9, 10. Returns the number of samples."""
    check(terms)
    check_scan(scan)
    check_output(out, len(scan))
    fill(out, filtered(terms, scan))
    return len(scan)


def residue(terms, scan, out):
    """Order 7, 8, 9, 10. Returns the number of samples."""
    check(terms)
    check_scan(scan)
    check_output(out, len(scan))
    fill(out, residues(terms, scan))
    return len(scan)


def root(terms, scan):
    """Order 7, 8, 9. Returns the first sample that differs from its filtered value, or the number
    of samples where "each sample equals its filtered value"."""
    check(terms)
    check_scan(scan)
    for x, (raw, cleaned) in enumerate(zip(scan, filtered(terms, scan))):
        if raw != cleaned:
            return x
    return len(scan)
