"""Recipes: the bytes of steps that are given by name.

A step is a name, or a tuple of a name and its fields: `"signal"`, `("median", (-1, 0, 1))`, `("rank", 2, (-1, 0, 1))`.
Its offsets are a collection of whole numbers from -4 to 4, or what `offsets` gives. They are never a plain number: what
looks like a window's width would be taken for the number of a set, and ("median", 7) for the median of x-4 to x-2.
"""

from __future__ import annotations

import collections.abc
import struct
from typing import Any, Iterable, NoReturn, Sequence, Tuple, Union

from .errors import ArgumentError
from .offset_sets import Offsets, offsets
from .values import listed, shown, whole

# The codes of a recipe's steps.
CODES = {"signal": 0, "erode": 1, "dilate": 2, "open": 3, "close": 4, "rank": 5, "median": 6, "larger": 7, "smaller": 8}
STEP_NAMES = {code: name for name, code in CODES.items()}

# The steps that join the last two signals, and all that take no field.
JOINING = ("larger", "smaller")
BARE = ("signal", *JOINING)

# What type checkers are told of a step.
Members = Union[Offsets, Iterable[int]]
Step = Union[str, Tuple[str], Tuple[str, Members], Tuple[str, int, Members]]


def recipe(*steps: Step) -> bytes:
    """The bytes of a recipe. What no step can mean is an ArgumentError; `compile` and `run_recipe` judge the rest.

    >>> recipe("signal", ("open", (0, 1)), ("rank", 2, offsets(-1, 0, 1))).hex(" ", 4)
    '00000000 03003000 05023800'
    """
    return b"".join(_step_bytes(index, step) for index, step in enumerate(steps))


def _step_bytes(index: int, step: Step) -> bytes:
    name, fields = _taken_apart(index, step)
    rank, members = _named_fields(index, name, fields)
    return struct.pack("<BBH", CODES[name], rank, members)


def _taken_apart(index: int, step: Any) -> Tuple[str, Tuple[Any, ...]]:
    """The step's name and its fields."""
    parts = (step,) if isinstance(step, str) else step
    if not isinstance(parts, (tuple, list)) or not parts or not isinstance(parts[0], str):
        _refuse(index, f'is {shown(step)}: a step is a name or a tuple that begins with one, as in recipe("signal",'
                       ' ("median", (-1, 0, 1)))')
    name, *fields = parts
    if name not in CODES:
        _refuse(index, f"is {name!r}: a step is {', '.join(list(CODES)[:-1])} or {list(CODES)[-1]}")
    return name, tuple(fields)


def _named_fields(index: int, name: str, fields: Tuple[Any, ...]) -> Tuple[int, Offsets]:
    """The step's rank and its set of offsets, 0 where it has none."""
    if name in BARE:
        _expect(index, name, fields, 0, f'no field: write "{name}"')
        return 0, Offsets(0)
    if name == "rank":
        _expect(index, name, fields, 2, 'its number k, then its offsets: write ("rank", 2, (-1, 0, 1))')
        members = _members(index, fields[1])
        return _rank(index, fields[0], members), members
    _expect(index, name, fields, 1, f'its offsets: write ("{name}", (-1, 0, 1))')
    members = _members(index, fields[0])
    if name == "median":
        _expect_odd(index, members)
    return 0, members


def _expect(index: int, name: str, fields: Tuple[Any, ...], count: int, takes: str) -> None:
    if len(fields) != count:
        given = "1 field" if len(fields) == 1 else f"{len(fields)} fields"
        _refuse(index, f"is {name} with {given}, and it takes {takes}")


def _members(index: int, given: Any) -> Offsets:
    """The set of offsets that a field gives."""
    members = given if isinstance(given, Offsets) else _collected(index, _written_out(index, given))
    if not members:
        _refuse(index, "has no offsets: give one at least, as (0,)")
    return members


def _written_out(index: int, given: Any) -> Sequence[Any]:
    """The offsets of a collection. A set is one, since the order of offsets means nothing."""
    is_other = whole(given) is not None or isinstance(given, (str, bytes, collections.abc.Mapping))
    members = None if is_other else listed(given)
    if members is None:
        _refuse(index, f"gives its offsets as {shown(given)}: write them out, as (-1, 0, 1) or offsets(-1, 0, 1)")
    return members


def _collected(index: int, members: Sequence[Any]) -> Offsets:
    try:
        return offsets(*members)
    except ArgumentError as error:
        sentence = f"has bad offsets: {error}"
    _refuse(index, sentence)


def _rank(index: int, given: Any, members: Offsets) -> int:
    size = len(members.members())
    rank = whole(given)
    if rank is None or not 1 <= rank <= size:
        _refuse(index, f"asks for rank {shown(given)}: a rank is 1, the largest, to the number of offsets, here {size}")
    return rank


def _expect_odd(index: int, members: Offsets) -> None:
    size = len(members.members())
    if size % 2 == 0:
        _refuse(index, f'is the median of {size} offsets, and it takes an odd number of them: write ("rank", k, offsets) for'
                       " the k-th largest")


def _refuse(index: int, sentence: str) -> NoReturn:
    raise ArgumentError("steps", index, f"steps[{index}] {sentence}")
