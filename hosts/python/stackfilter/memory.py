"""Memory that passes to the library: rows that a call is given, and rows that it is lent for its answer."""

from __future__ import annotations

import array
import sys
from typing import Any

from .arguments import Argument, Elements, is_array, row


class Memory:
    """A row of elements, their address and their number; the address is good as long as this object is there."""

    def __init__(self, elements: Elements, address: int, length: int) -> None:
        self.elements = elements
        self.address = address
        self.length = length

    def first_bytes(self, length: int) -> bytes:
        """So many elements from the start, which are bytes."""
        return self.elements[:length].tobytes()


class Answer(Memory):
    """A row that is lent for an answer."""

    elements: array.array[int]

    def first(self, length: int, like: Any) -> Any:
        """So many elements from the start: as a NumPy array where `like` is one, else as a list."""
        if is_array(like):
            return sys.modules["numpy"].frombuffer(self.elements, self.elements.typecode)[:length]
        return self.elements[:length].tolist()


def give(argument: Argument, values: Any) -> Memory:
    """An argument's elements."""
    elements = row(argument, values)
    if isinstance(elements, array.array):
        return Memory(elements, *_place(elements))
    return Memory(elements, elements.ctypes.data, elements.size)


def lend(kind: str, length: int) -> Answer:
    """Zeros of a kind: B or H, 8 or 16 bits, or i, 32 with a sign."""
    elements = array.array(kind, [0]) * length
    return Answer(elements, *_place(elements))


def _place(elements: array.array[int]) -> tuple[int, int]:
    """The address and the length, after one element more, which is not passed: an empty array has no address."""
    length = len(elements)
    elements.append(0)
    return elements.buffer_info()[0], length
