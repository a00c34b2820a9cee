"""Sets of offsets.

The library knows a set of offsets as a number, 0 to 511, in which offset d is worth 2 ** (d + 4). Nobody thinks in these
numbers: 7 looks like a window of seven samples and is the set {-4, -3, -2}. So a set is written out, offset by offset,
and a plain number is no set of offsets: only `offsets` and `Offsets` make one.
"""

from __future__ import annotations

from typing import List

from . import limits
from .errors import ArgumentError
from .values import shown, whole


class Offsets(int):
    """A set of offsets, which is its number. `Offsets(56)` is for a number that stands in a form or in a recipe's bytes.

    >>> Offsets(56).members()
    [-1, 0, 1]
    """

    def __new__(cls, number: int) -> Offsets:
        value = whole(number)
        if value is None or not 0 <= value < limits.PATTERNS:
            raise ArgumentError("number", None, f"number is {shown(number)}: a set of offsets has a number from 0 to"
                                                f" {limits.PATTERNS - 1}, which offsets(-1, 0, 1) works out")
        return super().__new__(cls, value)

    def members(self) -> List[int]:
        """The offsets of the set, ascending."""
        return [offset for offset in range(-limits.REACH, limits.REACH + 1) if self & _worth(offset)]


def offsets(*members: int) -> Offsets:
    """The set of these offsets, each -4 to 4, each once.

    >>> offsets(-1, 0, 1)
    56
    """
    number = 0
    for index, member in enumerate(members):
        offset = whole(member)
        if offset is None or not -limits.REACH <= offset <= limits.REACH:
            raise ArgumentError("offsets", index, f"offsets[{index}] is {shown(member)}: an offset is a whole number from"
                                                  f" -{limits.REACH} to {limits.REACH}, as in offsets(-1, 0, 1)")
        if number & _worth(offset):
            raise ArgumentError("offsets", index, f"offsets[{index}] is {offset} a second time: a set has an offset once,"
                                                  " and a filter cannot weigh it; leave it out")
        number |= _worth(offset)
    return Offsets(number)


def _worth(offset: int) -> int:
    return 1 << (offset + limits.REACH)
