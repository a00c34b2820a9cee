"""What the calls take: rows of whole numbers, and what is said of anything else.

A row is a list, a tuple, a range, a NumPy array of one axis, a pandas Series: whatever gives whole numbers one after
the other. Where an argument is made of bytes, it may be bytes as well. A sentence names the argument, the index where
there is one, and what to do instead; it is the same for lists and for arrays.
"""

from __future__ import annotations

import array
import collections.abc
import numbers
import sys
from typing import Any, NamedTuple, NoReturn, Sequence, Union

from . import limits
from .errors import ArgumentError
from .kinds import Array
from .values import listed, shown, whole

# The elements of a row as they pass to the library.
Elements = Union["array.array[int]", Array]


class Argument(NamedTuple):
    """An argument of a call."""

    name: str
    kind: str      # its elements as array.array names them: B of 8 bits, H of 16
    element: str   # one element in words, and the largest
    most: int
    instead: str   # what to give where it is no row of numbers
    mend: str      # what to do where an element does not fit


SCAN = Argument("scan", "H", "a sample", limits.TOP, "give its samples as a list of whole numbers",
                "round the readings, and shift or clip them into that range, first")
TERMS = Argument("terms", "H", "a term", limits.PATTERNS - 1, "give its terms as a list",
                 "compile, preset and offsets make terms")
RECIPE = Argument("recipe", "B", "a byte", 255, 'give the bytes that recipe("signal", ("median", (-1, 0, 1))) makes',
                  'recipe("signal", ("median", (-1, 0, 1))) makes the bytes')
TABLE = Argument("table", "B", "a byte", 255, "give the bytes of a truth table", "form_to_table makes the bytes")
FILE = Argument("file", "B", "a byte", 255, "give the bytes of a scan file, as pathlib.Path(name).read_bytes() does",
                "pathlib.Path(name).read_bytes() gives the bytes of a scan file")
NAMES = Argument("text", "B", "a byte", 255, "give the bytes of a list of names, one to a line",
                 "pathlib.Path(name).read_bytes() gives the bytes of a list")


def is_array(values: Any) -> bool:
    """Whether it is a NumPy array. Whoever has one has loaded NumPy, so it is not loaded here."""
    numpy = sys.modules.get("numpy")
    return numpy is not None and isinstance(values, numpy.ndarray)


def row(argument: Argument, values: Any) -> Elements:
    """The elements as they pass to the library: judged, and of the argument's kind."""
    _judge(argument, values)
    if is_array(values):
        return _of_array(argument, values)
    if _is_bytes(values):
        return array.array(argument.kind, bytes(values))
    elements = listed(values)
    if elements is None:
        _refuse(argument, f"is {shown(values)}: {argument.instead}")
    return _of_sequence(argument, elements)


# ---- what is a row of numbers

def _judge(argument: Argument, values: Any) -> None:
    """Refuses what is no row of numbers, whatever its elements are."""
    name = argument.name
    if hasattr(values, "columns"):
        _refuse(argument, f"is a data frame: give one column of it, as {name}['counts'].tolist() does")
    if isinstance(values, collections.abc.Mapping):
        _refuse(argument, f"is a dict: give its numbers in their order, as list({name}.values()) does")
    if isinstance(values, collections.abc.Set):
        _refuse(argument, f"is a set, which has no order: {argument.instead}")
    if isinstance(values, str):
        _refuse(argument, f"is text: {argument.instead}")
    if hasattr(values, "read"):
        _refuse(argument, f"is an open file: give what {name}.read() gives")
    if hasattr(values, "mask") and hasattr(values, "filled"):
        _refuse(argument, f"is a masked array: put a number where one is missing, as {name}.filled(0) does")
    if getattr(values, "ndim", 1) != 1:
        _refuse(argument, f"has {values.ndim} axes: give one row of it, as {name}[0] does, or all in one, as {name}.ravel()")
    if argument.kind == "H" and _is_bytes(values):
        _refuse(argument, f"is bytes, and {argument.element} may be one or two of them: give list({name}) where it is one,"
                          f" array.array('H', {name}) where it is two, low byte first")


def _is_bytes(values: Any) -> bool:
    return isinstance(values, (bytes, bytearray)) or isinstance(values, memoryview) and values.format == "B"


def _refuse(argument: Argument, sentence: str) -> NoReturn:
    raise ArgumentError(argument.name, None, f"{argument.name} {sentence}")


# ---- what is an element

def _of_sequence(argument: Argument, values: Sequence[Any]) -> array.array[int]:
    # Where all are ints, array.array tests at once whether they fit. Otherwise they are looked at one by one.
    try:
        if all(issubclass(kind, int) and kind is not bool for kind in set(map(type, values))):
            return array.array(argument.kind, values)
    except OverflowError:
        pass
    return array.array(argument.kind, [_element(argument, index, value) for index, value in enumerate(values)])


def _of_array(argument: Argument, values: Array) -> Elements:
    """The array itself, or a copy that has the kind of elements, their alignment and no gaps."""
    numpy = sys.modules["numpy"]
    if values.size == 0 or values.dtype.kind == "O":
        return _of_sequence(argument, values.tolist())
    if values.dtype.kind not in "iu":
        _refuse_element(argument, 0, values[0].item())
    if values.min() < 0 or values.max() > _largest(argument):
        index = int(numpy.argmax((values < 0) | (values > _largest(argument))))
        _refuse_element(argument, index, values[index])
    fitting: Array = numpy.require(values, argument.kind, ["C_CONTIGUOUS", "ALIGNED"])
    return fitting


def _element(argument: Argument, index: int, value: Any) -> int:
    number = whole(value)
    if number is None or not 0 <= number <= _largest(argument):
        _refuse_element(argument, index, value)
    return number


def _largest(argument: Argument) -> int:
    """The largest number that passes to the library, which judges terms over 511 itself."""
    return 255 if argument.kind == "B" else limits.TOP


def _refuse_element(argument: Argument, index: int, value: Any) -> NoReturn:
    advice = argument.mend if isinstance(value, numbers.Number) else argument.instead
    raise ArgumentError(argument.name, index, f"{argument.name}[{index}] is {shown(value)}: {argument.element} is a whole"
                                              f" number from 0 to {argument.most:,}; {advice}")
