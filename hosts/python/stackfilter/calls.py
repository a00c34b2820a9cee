"""The library's calls. The numbers after "Refuses" are those of the refusals, in the order in which they are tested.

An output is never longer than the longest answer, so an input that is too long costs none: the library refuses it before
it looks at the output.
"""

from __future__ import annotations

import ctypes
from typing import Any, List, NamedTuple, Optional, SupportsIndex, overload

from . import library
from .arguments import FILE, NAMES, RECIPE, SCAN, TABLE, TERMS
from .errors import ArgumentError
from .kinds import Array, Listed, Numbers, Residues, Row, Totals, Words
from .limits import (LINE_BYTES, MOST_SAMPLES, MOST_TERMS, PRESETS, TABLE_BYTES, TOTALS, TOTALS_BYTES, WORD_BYTES,
                     file_bytes)
from .memory import Answer, Memory, give, lend
from .refusals import Refusal, of_recipe
from .values import shown, whole


class ScanFile(NamedTuple):
    """What a scan file holds."""

    samples: Listed
    terms: Listed


class Counts(NamedTuple):
    """What the report says about a scan file: samples, changed samples, spikes (longest runs of neighbouring samples whose
    residues are of one sign), the sum of the positive residues, and that of the negative ones with the sign dropped."""

    samples: int
    changed: int
    spikes: int
    above: int
    below: int


@overload
def compile(recipe: Numbers) -> List[int]: ...
@overload
def compile(recipe: Array) -> Words: ...
def compile(recipe: Any) -> Any:
    """The terms of the form that a recipe computes.

    Refuses 1; then step by step 2, 3, 4, 5; then 4 at the end.
    """
    given, terms = give(RECIPE, recipe), lend("H", MOST_TERMS)
    return terms.first(_call_with_recipe("sf_compile", given, terms), recipe)


@overload
def run_recipe(recipe: Row, scan: Numbers) -> List[int]: ...
@overload
def run_recipe(recipe: Row, scan: Array) -> Words: ...
def run_recipe(recipe: Row, scan: Any) -> Any:
    """The scan as the recipe's steps leave it, without compiling.

    Refuses 1 to 5 as compile does, then 9.
    """
    given, samples = give(RECIPE, recipe), give(SCAN, scan)
    out = _lend_for("H", samples)
    return out.first(_call_with_recipe("sf_run_recipe", given, samples, out), scan)


def check(terms: Row) -> int:
    """The number of terms of a form.

    Refuses 7, 8.
    """
    return _call("sf_check", give(TERMS, terms))


@overload
def clean(terms: Row, scan: Numbers) -> List[int]: ...
@overload
def clean(terms: Row, scan: Array) -> Words: ...
def clean(terms: Row, scan: Any) -> Any:
    """The scan as the form's filter gives it.

    Refuses 7, 8, 9.
    """
    form, samples = give(TERMS, terms), give(SCAN, scan)
    out = _lend_for("H", samples)
    return out.first(_call("sf_clean", form, samples, out), scan)


@overload
def residue(terms: Row, scan: Numbers) -> List[int]: ...
@overload
def residue(terms: Row, scan: Array) -> Residues: ...
def residue(terms: Row, scan: Any) -> Any:
    """Raw minus cleaned at each sample, -65,535 to 65,535.

    Refuses 7, 8, 9.
    """
    form, samples = give(TERMS, terms), give(SCAN, scan)
    out = _lend_for("i", samples)
    return out.first(_call("sf_residue", form, samples, out), scan)


def root(terms: Row, scan: Row) -> Optional[int]:
    """The first sample that the form's filter changes, or None where it leaves the scan as it is.

    Refuses 7, 8, 9.
    """
    form, samples = give(TERMS, terms), give(SCAN, scan)
    first = _call("sf_root", form, samples)
    return first if first < samples.length else None


@overload
def table_to_form(table: Numbers) -> List[int]: ...
@overload
def table_to_form(table: Array) -> Words: ...
def table_to_form(table: Any) -> Any:
    """The terms of the form of a positive truth table of TABLE_BYTES: bit v % 8 of byte v // 8 is the value on pattern v.

    Refuses 13, 12.
    """
    given, terms = give(TABLE, table), lend("H", MOST_TERMS)
    return terms.first(_call("sf_table_to_form", given, terms), table)


def form_to_table(terms: Row) -> bytes:
    """The bytes of a form's truth table.

    Refuses 7, 8.
    """
    form, table = give(TERMS, terms), lend("B", TABLE_BYTES)
    _call("sf_form_to_table", form, table)
    return table.first_bytes(TABLE_BYTES)


def preset(number: SupportsIndex) -> List[int]:
    """The terms of one of the twenty filters of three samples, 0 to 19; 10 is the median.

    Refuses 14.
    """
    asked = whole(number)
    if asked is None or not 0 <= asked < 1 << 64:
        raise ArgumentError("number", None, f"number is {shown(number)}: give the number of a preset, 0 to {PRESETS - 1}")
    terms = lend("H", MOST_TERMS)
    return terms.elements[:_call("sf_preset", ctypes.c_uint64(asked), terms)].tolist()


def read(file: Row) -> ScanFile:
    """The samples and the terms that a scan file holds.

    Refuses 15, 16, 17, 18, 7, 8, 9.
    """
    given, terms, terms_read = give(FILE, file), lend("H", MOST_TERMS), ctypes.c_size_t()
    samples = lend("H", min(given.length // WORD_BYTES, MOST_SAMPLES))
    samples_read = _call("sf_read", given, samples, terms, after_value=ctypes.byref(terms_read))
    return ScanFile(samples.first(samples_read, file), terms.first(terms_read.value, file))


def write(terms: Row, scan: Row) -> bytes:
    """The bytes of the scan file that holds this form and this scan.

    Refuses 7, 8, 9.
    """
    form, samples = give(TERMS, terms), give(SCAN, scan)
    out = lend("B", file_bytes(min(samples.length, MOST_SAMPLES), min(form.length, MOST_TERMS)))
    return out.first_bytes(_call("sf_write", form, samples, out))


def count(file: Row) -> Counts:
    """Filters the scan that a scan file holds by the form beside it and counts what that changes.

    Refuses 15, 16, 17, 18, 7, 8, 9.
    """
    counts = (ctypes.c_uint64 * len(Counts._fields))()
    _call("sf_count", give(FILE, file), counts)
    return Counts(*counts)


def line(file: Row) -> str:
    """The report's line about a scan file, with its line feed. A file that count refuses has a line too: `refused`, the
    number and the place.
    """
    return _written(LINE_BYTES, "sf_line", give(FILE, file))


# ---- the night sheet, which stackfilter.night puts together

def night_list(text: Row) -> int:
    """The number of names in a list of file names, one to a line.

    Refuses 20, 19.
    """
    return _call("sf_night_list", give(NAMES, text))


def no_totals() -> Totals:
    """The totals before the first file."""
    return (ctypes.c_uint64 * TOTALS)()


def night_line(file: Row, totals: Totals) -> str:
    """The line of a file that was read, with its line feed. The totals take the file in."""
    return _written(LINE_BYTES, "sf_night_line", give(FILE, file), totals)


def night_unopened(totals: Totals) -> str:
    """The line of a file that could not be opened or read, with its line feed. The totals take the file in."""
    return _written(LINE_BYTES, "sf_night_unopened", totals)


def night_totals(totals: Totals) -> str:
    """The last line, with its line feed."""
    return _written(TOTALS_BYTES, "sf_night_totals", totals)


# ---- the library is called

def _lend_for(kind: str, samples: Memory) -> Answer:
    """As many elements as the scan has samples, if it is none too long."""
    return lend(kind, min(samples.length, MOST_SAMPLES))


def _written(room: int, name: str, *given: Any) -> str:
    """The line that a function of the library writes when it is lent so many bytes after what it is given."""
    out = lend("B", room)
    return out.first_bytes(_call(name, *given, out)).decode("ascii")


def _call_with_recipe(name: str, recipe: Memory, *others: Any) -> int:
    try:
        return _call(name, recipe, *others)
    except Refusal as refusal:
        raise of_recipe(refusal, recipe.first_bytes(recipe.length)) from None


def _call(name: str, *arguments: Any, after_value: Any = None) -> int:
    """What a function of the library gives back, or its refusal raised. Memory passes as address and length."""
    value = ctypes.c_size_t()
    passed: List[Any] = []
    for argument in arguments:
        if isinstance(argument, Memory):
            passed += [ctypes.c_void_p(argument.address), ctypes.c_size_t(argument.length)]
        else:
            passed.append(argument)
    passed.append(ctypes.byref(value))
    if after_value is not None:
        passed.append(after_value)
    number = library.function(name)(*passed)
    if number != 0:
        raise Refusal(number, value.value)
    return value.value
