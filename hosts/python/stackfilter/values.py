"""What a value that was given is: a whole number, a row of values; and how a sentence shows it."""

from __future__ import annotations

import numbers
import operator
import reprlib
from typing import Any, Optional, Sequence

# The types of truth values, Python's and NumPy's, and how long a number is written out.
TRUTH_VALUES = ("bool", "bool_")
SHOWN_BITS = 64


def whole(value: Any) -> Optional[int]:
    """The value as an int where it is a whole number, NumPy's too; else None. A truth value is no number."""
    if type(value).__name__ in TRUTH_VALUES:
        return None
    try:
        return operator.index(value)
    except TypeError:
        return None


def listed(values: Any) -> Optional[Sequence[Any]]:
    """The values one after the other, or None where this is no row of values."""
    if isinstance(values, (list, tuple)):
        return values
    try:
        return list(values)
    except (TypeError, NotImplementedError):
        return None


def shown(value: Any) -> str:
    """A whole number as it is, another number or text with its type, anything else by its type alone."""
    number = whole(value)
    if number is not None:
        return str(number) if number.bit_length() <= SHOWN_BITS else f"a number of {number.bit_length()} bits"
    kind = type(value).__name__
    if isinstance(value, (numbers.Number, str)):
        return f"{reprlib.repr(value)}, of type {kind}"
    return f"a value of type {kind}"
