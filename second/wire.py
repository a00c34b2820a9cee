"""How a call stands in the stdin of its program, and how its outcome stands in the stdout.

README.md describes the formats. The programs are crates/cases and crates/nightcases.
"""

from collections import namedtuple
from itertools import groupby

from rules import files, forms, lines, lists, nights, recipes, scans
from rules.refusals import Refused

# ---- the calls

# What an argument is. A lent slice is given as its length, a text as its runs.
(TERMS, SCAN, BYTES, LENT_BYTES, LENT_WORDS, LENT_RESIDUES, NUMBER,
 TEXT, SIZES, OUTCOME, OUTCOMES, REFUSAL, TOTALS, LENT_TOTALS) = range(14)
# Every record of a program has these.
FIELDS = {"cases": [TERMS, SCAN, BYTES], "nightcases": [TEXT, SIZES]}
FILLERS = {LENT_BYTES: 0xAB, LENT_WORDS: 0xABCD, LENT_RESIDUES: -7}

Kind = namedtuple("Kind", "program number rule arguments")

KINDS = {
    "check": Kind("cases", 1, forms.check, [TERMS]),
    "clean": Kind("cases", 2, scans.clean, [TERMS, SCAN, LENT_WORDS]),
    "residue": Kind("cases", 3, scans.residue, [TERMS, SCAN, LENT_RESIDUES]),
    "root": Kind("cases", 4, scans.root, [TERMS, SCAN]),
    "table_to_form": Kind("cases", 5, forms.table_to_form, [BYTES, LENT_WORDS]),
    "form_to_table": Kind("cases", 6, forms.form_to_table, [TERMS, LENT_BYTES]),
    "preset": Kind("cases", 7, forms.preset, [NUMBER, LENT_WORDS]),
    "run_recipe": Kind("cases", 8, recipes.run_recipe, [BYTES, SCAN, LENT_WORDS]),
    "compile": Kind("cases", 9, recipes.compile_recipe, [BYTES, LENT_WORDS]),
    "write": Kind("cases", 10, files.write, [TERMS, SCAN, LENT_BYTES]),
    "read": Kind("cases", 11, files.read, [BYTES, LENT_WORDS, LENT_WORDS]),
    "count": Kind("cases", 12, files.count, [BYTES]),
    "line": Kind("cases", 13, lines.line, [BYTES, LENT_BYTES]),
    "check_list": Kind("nightcases", 1, lists.check_list, [TEXT]),
    "judge": Kind("nightcases", 2, lists.judge, [TEXT, SIZES]),
    "line_end": Kind("nightcases", 3, lists.line_end, [TEXT, NUMBER]),
    "outcome_line": Kind("nightcases", 4, lines.outcome_line, [OUTCOME, LENT_BYTES]),
    "refused_line": Kind("nightcases", 5, lines.refused_line, [REFUSAL, LENT_BYTES]),
    "totals_line": Kind("nightcases", 6, lines.totals_line, [TOTALS, LENT_BYTES]),
    "add": Kind("nightcases", 7, nights.add, [TOTALS, OUTCOMES]),
    # Functions of the C interface that are no call of one crate, for its must-fail edits.
    "night_line": Kind("C", None, nights.night_line, [BYTES, LENT_TOTALS, LENT_BYTES]),
    "night_unopened": Kind("C", None, nights.night_unopened, [LENT_TOTALS, LENT_BYTES]),
    # What the program `night` prints, for its must-fail edits.
    "sheet": Kind("night", None, nights.sheet_of_none, [TEXT]),
    "sheet_of_length": Kind("night", None, nights.sheet_of_length, [NUMBER]),
}

Call = namedtuple("Call", "name arguments")


def call(name, *arguments):
    assert len(arguments) == len(KINDS[name].arguments)
    return Call(name, arguments)


def arguments_of(a_call):
    """Each argument with what it is."""
    return list(zip(KINDS[a_call.name].arguments, a_call.arguments))


def joined(runs):
    """A text from its runs: a unit, and how often it stands there."""
    return b"".join(bytes(unit) * times for unit, times in runs)


# ---- the record in stdin

def low_first(number, size):
    return number.to_bytes(size, "little")


def encoded(elements, size):
    """How many elements there are, and each in so many bytes."""
    return low_first(len(elements), 4) + b"".join(low_first(n, size) for n in elements)


def encoded_runs(runs):
    """How many runs there are; for each its unit, and how many bytes it has in all."""
    return low_first(len(runs), 4) + b"".join(
        encoded(unit, 1) + low_first(len(unit) * times, 4) for unit, times in runs)


# How a field is written.
WRITTEN = {
    TERMS: lambda terms: encoded(terms, 2),
    SCAN: lambda scan: encoded(scan, 2),
    BYTES: lambda given: encoded(given, 1),
    TEXT: encoded_runs,
    SIZES: lambda sizes: encoded(sizes, 2),
}


def outcome_numbers(outcome):
    """Six numbers: 0 for unopened, 1 and the counts, or 2 and the refusal's two; then zeros."""
    words = {"unopened": 0, "refused": 2}
    numbers = [words[outcome[0]], *outcome[1:]] if outcome[0] in words else [1, *outcome]
    return numbers + [0] * (1 + nights.COUNTS - len(numbers))


# The numbers of eight bytes each that stand behind the fields.
NUMBERS = {
    NUMBER: lambda number: [number],
    REFUSAL: list,
    TOTALS: list,
    OUTCOME: outcome_numbers,
    OUTCOMES: lambda outcomes: [len(outcomes), *(n for outcome in outcomes for n in outcome_numbers(outcome))],
}


def head(a_call):
    """The call's number, and in the records of `cases` its name."""
    kind = KINDS[a_call.name]
    return low_first(kind.number, 2) + (encoded(a_call.name.encode(), 1) if kind.program == "cases" else b"")


def record(a_call):
    given = dict(arguments_of(a_call))
    fields = [WRITTEN[field](given.get(field, [])) for field in FIELDS[KINDS[a_call.name].program]]
    lent = [low_first(length, 4) for kind, length in arguments_of(a_call) if kind in FILLERS]
    numbers = [low_first(number, 8) for kind, argument in arguments_of(a_call) if kind in NUMBERS
               for number in NUMBERS[kind](argument)]
    return b"".join([head(a_call), *fields, *lent, *numbers])


END = low_first(0, 2)

# ---- the line in stdout

LONGEST_SHOWN = 40


def checksum(elements):
    h = 0
    for element in elements:
        h = (h * 31 + element % 2 ** 32 + 1) % 2 ** 48
    return h


def shown(elements):
    """Each element after a space, or the checksum of more than forty."""
    if len(elements) > LONGEST_SHOWN:
        return " #%d" % checksum(elements)
    return "".join(" %d" % element for element in elements)


def lend(kind, argument):
    """What the rule is given: a slice of fillers for a lent one, a list of its own for another."""
    if kind in FILLERS:
        return [FILLERS[kind]] * argument
    if kind == TEXT:
        return joined(argument)
    return list(argument) if kind in (TERMS, SCAN, BYTES, LENT_TOTALS) else argument


def outcome(a_call):
    """The call's number (0 where accepted), its values, and the lent slices after it."""
    kind = KINDS[a_call.name]
    given = [lend(*argument) for argument in arguments_of(a_call)]
    lent = [slice_ for argument, slice_ in zip(kind.arguments, given) if argument in (*FILLERS, LENT_TOTALS)]
    try:
        answer = kind.rule(*given)
    except Refused as no:
        return no.number, [no.place], lent
    if a_call.name == "judge":
        return answer[0], list(answer[1:]), lent
    return 0, list(answer) if isinstance(answer, tuple) else [answer], lent


def written_line(number, values, lent):
    """The bytes of a slice that were written, for the eye, but for the line feed at their end."""
    return " " + bytes(lent[0][:values[0] - 1]).decode() if number == 0 else ""


def shown_sheet(a_call):
    """The lines of a sheet with / between them; `250 unopened` is so many of these lines in turn."""
    text = KINDS[a_call.name].rule(*(lend(*argument) for argument in arguments_of(a_call)))
    runs = [(words, len(list(run))) for words, run in groupby(text.splitlines())]
    return a_call.name + " " + " / ".join(
        words if times == 1 else "%d %s" % (times, words) for words, times in runs)


def line(a_call):
    if KINDS[a_call.name].program == "night":
        return shown_sheet(a_call)
    number, values, lent = outcome(a_call)
    words = " ".join(map(str, [a_call.name, number, *values]))
    text = words + "".join(" :" + shown(slice_) for slice_ in lent)
    if KINDS[a_call.name].program == "nightcases" and lent:
        text += written_line(number, values, lent)
    return text


# ---- for the eye

def readable(kind, argument):
    if kind in FILLERS:
        return "lent %d" % argument
    if kind in (NUMBER, OUTCOME, OUTCOMES, REFUSAL, TOTALS, LENT_TOTALS):
        return str(argument)
    elements = joined(argument) if kind == TEXT else argument
    if len(elements) > LONGEST_SHOWN:
        return "[%d elements]" % len(elements)
    return "[" + " ".join(map(str, elements)) + "]"


def described(a_call):
    return a_call.name + " " + " ".join(readable(*argument) for argument in arguments_of(a_call))
