"""Stack filters on scans of whole counts: a Python package over the proved library.

A scan is 1 to 16,384 samples of 0 to 65,535; beyond its ends the first and the last sample are repeated without end. A
set of offsets, each -4 to 4, has a number, in which offset d is worth 2 ** (d + 4): offsets(-1, 0, 1) is 56. A form is a
list of such numbers, its terms, strictly ascending, none containing another; its filter gives at each sample the
largest, over the terms, of the smallest sample that the term reaches. A recipe is 1 to 32 steps that compile to a form.

    >>> terms = compile(recipe("signal", ("median", offsets(-1, 0, 1))))
    >>> terms
    [24, 40, 48]
    >>> clean(terms, [10, 10, 90, 10, 10])
    [10, 10, 10, 10, 10]

Each argument may be a list, any other sequence of whole numbers, or a NumPy array of them with one axis; recipes, tables
and files may be bytes. An answer is bytes where it is a table or a file. Otherwise it is a NumPy array where the scan, or
in a call without one the only argument, was a NumPy array; and a list where not.

`night` opens files by their names, and gives one sheet for all of them: a line each, and the totals.

    >>> night(["none.scan"])
    'unopened\\n0 1 0 0 0 0 0 0 0 0 0 0 0 0\\n'

Every error is a StackfilterError: an ArgumentError where the call cannot take what it was given, a Refusal where the
library says no, a LibraryError where the shared object is not there.
"""

from .calls import (Counts, ScanFile, check, clean, compile, count, form_to_table, line, preset, read, residue, root,
                    run_recipe, table_to_form, write)
from .errors import ArgumentError, LibraryError, StackfilterError
from .limits import (LINE_BYTES, LONGEST_FILE, LONGEST_LIST, LONGEST_NAME, LONGEST_RECIPE, MOST_NAMES, MOST_SAMPLES,
                     MOST_SIGNALS, MOST_STEPS, MOST_TERMS, PATTERNS, PRESETS, REACH, STEP_BYTES, TABLE_BYTES, TOP, TOTALS,
                     TOTALS_BYTES, TRAILER_BYTES, WIDTH, WORD_BYTES, file_bytes)
from .offset_sets import Offsets, offsets
from .recipes import CODES, recipe
from .refusals import SENTENCES, Refusal
from .sheets import night
from .version import __version__

__all__ = [
    "ArgumentError", "CODES", "Counts", "LINE_BYTES", "LONGEST_FILE", "LONGEST_LIST", "LONGEST_NAME", "LONGEST_RECIPE",
    "LibraryError", "MOST_NAMES", "MOST_SAMPLES", "MOST_SIGNALS", "MOST_STEPS", "MOST_TERMS", "Offsets", "PATTERNS",
    "PRESETS", "REACH", "Refusal", "SENTENCES", "STEP_BYTES", "ScanFile", "StackfilterError", "TABLE_BYTES", "TOP",
    "TOTALS", "TOTALS_BYTES", "TRAILER_BYTES", "WIDTH", "WORD_BYTES", "__version__", "check", "clean", "compile", "count",
    "file_bytes", "form_to_table", "line", "night", "offsets", "preset", "read", "recipe", "residue", "root", "run_recipe",
    "table_to_form", "write",
]
