"""The night sheet: what became of each file of a list, and the totals.

An outcome is the fields of the file's line: five counts, `refused` with its number and place, or
`unopened` alone. So the totals are taken from nothing but the lines above them.
"""

from .limits import LARGEST_TOTAL
from .lines import fields_of, outcome_line, refused_fields, text_of
from .lists import names_in
from .refusals import Refused

UNOPENED = ("unopened",)
COUNTED_REFUSALS = (7, 8, 9, 15, 16, 17, 18)
COUNTS = 5
TOTALS = 2 + len(COUNTED_REFUSALS) + COUNTS


def outcome_of(contents):
    """"a file that can't be opened or read .. prints `unopened`", and its contents are None; else its
    line is "as the present program does"."""
    return UNOPENED if contents is None else fields_of(contents)


def is_cleaned(outcome):
    return outcome[0] not in ("unopened", "refused")


def totals_of(outcomes):
    """"exact totals: files cleaned, files not opened, files refused under 7, 8, 9 and 11 (a count
    each), samples, changed samples, spikes and both residue totals", and by request 3, of 15, 16, 17
    and 18 where 11 stood, "The night sheet counts the four apart"."""
    cleaned = [outcome for outcome in outcomes if is_cleaned(outcome)]
    unopened = [outcome for outcome in outcomes if outcome == UNOPENED]
    numbers = [outcome[1] for outcome in outcomes if outcome[0] == "refused"]
    return (len(cleaned), len(unopened),
            *(numbers.count(number) for number in COUNTED_REFUSALS),
            *(sum(counts[i] for counts in cleaned) for i in range(COUNTS)))


def sheet(text, outcome_of_file):
    """The whole night. "Lines follow the list; a name given twice counts twice"; "a name with a 0
    byte, prints `unopened`"; both refusals of a list "are found before any file is opened .. and
    print the one line". Of every other name the outcome is asked for."""
    try:
        names = names_in(text)
    except Refused as no:
        return text_of(refused_fields(no))
    outcomes = [UNOPENED if 0 in name else outcome_of_file(name) for name in names]
    return "".join(map(text_of, [*outcomes, totals_of(outcomes)]))


def sheet_of_none(text):
    """The sheet of a list of names that no file has."""
    return sheet(text, lambda name: UNOPENED)


def sheet_of_length(length):
    """The sheet of one file, which has so many bytes, each 0."""
    return sheet(b"long", lambda name: fields_of(bytes(length)))


# ---- the calls

def add(totals, outcomes):
    """The totals that there are with those of further files. Each is a number of 64 bits, which no
    night reaches; beyond it starts at 0 again. Returns the totals."""
    more = totals_of(outcomes)
    return tuple((old + new) % (LARGEST_TOTAL + 1) for old, new in zip(totals, more))


def added_line(outcome, totals, out):
    """Writes the line and adds to the totals that are lent; where 10 is refused nothing changes.
    Returns the line's length."""
    length = outcome_line(outcome, out)
    totals[:] = add(totals, [outcome])
    return length


def night_line(file, totals, out):
    return added_line(fields_of(file), totals, out)


def night_unopened(totals, out):
    return added_line(UNOPENED, totals, out)
