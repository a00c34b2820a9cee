"""The lines that the programs print."""

from .files import check_length, count
from .limits import LINE_BYTES, TOTALS_BYTES
from .refusals import Refused, fill
from .scans import check_output


def text_of(fields):
    """"Single spaces stand between fields and one line feed at the end"."""
    return " ".join(map(str, fields)) + "\n"


def refused_fields(no):
    """Prints "`refused`, number, place"."""
    return ("refused", no.number, no.place)


def answered(rule, given):
    """What the rule returns; "A refused file prints `refused`, number, place"."""
    try:
        return rule(given)
    except Refused as no:
        return refused_fields(no)


def fields_of(file):
    """"samples, changed samples, spikes, total of positive residues, total of negative residues
    with the sign dropped"."""
    return answered(count, file)


def fields_of_long(length):
    """Those of a file that is too long, whatever stands in it."""
    return answered(check_length, length)


def line_of(file):
    """The line that the report program prints."""
    return text_of(fields_of(file))


# ---- the calls: order 10 alone, since what is refused has a line too; each returns the line's length

def written(fields, out, needed):
    check_output(out, needed)
    line = list(text_of(fields).encode("ascii"))
    fill(out, line)
    return len(line)


def line(file, out):
    return written(fields_of(file), out, LINE_BYTES)


def outcome_line(outcome, out):
    """An outcome is its line's fields (see nights.py)."""
    return written(outcome, out, LINE_BYTES)


def refused_line(refusal, out):
    """A refused list's line."""
    return written(("refused", *refusal), out, LINE_BYTES)


def totals_line(totals, out):
    return written(totals, out, TOTALS_BYTES)
