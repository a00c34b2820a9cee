"""The package's errors: one family, StackfilterError.

ArgumentError   what was given is not what the call takes: the package says so before the library is asked
Refusal         the library said no, with a number and a place (refusals.py)
LibraryError    the shared object is not there, or cannot be used

The first two are ValueErrors as well, also where an argument's type is wrong, so that one `except` is enough.
"""

from __future__ import annotations

from typing import Optional


class StackfilterError(Exception):
    """Every error that this package raises."""


class ArgumentError(StackfilterError, ValueError):
    """An argument is not what the call takes: its name, the index in it or None, and a sentence."""

    def __init__(self, argument: str, index: Optional[int], sentence: str) -> None:
        super().__init__(argument, index, sentence)
        self.argument = argument
        self.index = index
        self.sentence = sentence

    def __str__(self) -> str:
        return self.sentence


class LibraryError(StackfilterError):
    """The shared object is not there, or cannot be used; the sentence says what to do."""
