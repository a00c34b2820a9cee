"""What type checkers are told: what a call takes, and which array it gives where it was given one."""

from __future__ import annotations

import ctypes
import os
from typing import TYPE_CHECKING, Any, List, Sequence, SupportsIndex, Union

if TYPE_CHECKING:
    import numpy

    Array = numpy.ndarray[Any, Any]
    Words = numpy.ndarray[Any, numpy.dtype[numpy.uint16]]
    Residues = numpy.ndarray[Any, numpy.dtype[numpy.int32]]

    # The night sheet's totals so far, in the order of its last line.
    Totals = ctypes.Array[ctypes.c_uint64]
else:
    # NumPy is not needed at run time.
    Array = Words = Residues = Totals = Any

# Whole numbers one after the other, and these in an array as well.
Numbers = Sequence[SupportsIndex]
Row = Union[Numbers, Array]

# A list of numbers, or a NumPy array of them.
Listed = Union[List[int], Words]

# A file's name.
Name = Union[str, bytes, "os.PathLike[str]", "os.PathLike[bytes]"]
