"""Finds and loads the shared object, at the first call that needs it.

It is at the path that the environment variable STACKFILTER_LIB names; where that is not set, in the package, as a wheel
carries it, or in the checkout's folder build, where hosts/build writes it.
"""

from __future__ import annotations

import ctypes
import functools
import os
import pathlib
from typing import Any, List

from .errors import LibraryError
from .version import CHECKOUT, PACKAGE, __version__

NAME = f"libstackfilter.so.{__version__.rpartition('.')[0]}"
VARIABLE = "STACKFILTER_LIB"
ADVICE = f"run hosts/build in the checkout, which makes it, or set {VARIABLE} to its path"


def places() -> List[pathlib.Path]:
    """Where the shared object may be; the first place that has it counts."""
    named = os.environ.get(VARIABLE)
    return [pathlib.Path(named).resolve()] if named else [PACKAGE / NAME, CHECKOUT / "build" / NAME]


def find() -> pathlib.Path:
    """Where the shared object is."""
    for place in places():
        if place.is_file():
            return place
    raise LibraryError(f"the shared object is not there, at {' or '.join(map(str, places()))}: {ADVICE}")


@functools.lru_cache(maxsize=None)
def load() -> ctypes.CDLL:
    """The shared object."""
    place = find()
    try:
        return ctypes.CDLL(str(place))
    except OSError as error:
        sentence = f"the shared object does not load on this machine, and it is for x86-64 Linux: {error}; {ADVICE}"
        raise LibraryError(sentence) from None


@functools.lru_cache(maxsize=None)
def function(name: str) -> Any:
    """A function of the shared object. Each gives 0 or the number of a refusal."""
    try:
        found = getattr(load(), name)
    except AttributeError:
        sentence = f"the shared object at {find()} has no {name}, so it is of another version: {ADVICE}"
        raise LibraryError(sentence) from None
    found.restype = ctypes.c_uint8
    return found
