"""The night sheet: one line a file, then a last line with the totals.

The library judges the list of names, writes the lines and keeps the totals; here the files are opened and read. Of a file
that is too long only the start is read, so its line is made here, where its length is known, and it is counted here.
"""

from __future__ import annotations

import itertools
import os
import stat
from typing import Any, BinaryIO, Iterable, List, NamedTuple, NoReturn, Optional

from .calls import night_line, night_list, night_totals, night_unopened, no_totals
from .errors import ArgumentError
from .kinds import Name, Totals
from .limits import LONGEST_FILE, MOST_NAMES
from .refusals import FILE_LENGTH, Refusal
from .values import shown

# Where the files refused under FILE_LENGTH stand among the totals.
FILE_LENGTH_TOTAL = 5

LINE_FEED = b"\n"
PIECE = 65536
INSTEAD = 'give the names in a list, as ["day.scan", "night.scan"]'


def night(names: Iterable[Name]) -> str:
    """The sheet that the program `night` prints for the list of these names, each on a line of its own.

    A name is text, bytes or a path. It is opened as it stands, from the working folder; each file is closed before the
    next is opened. A file has one line, in the order of the names: its five counts, or `refused`, the number and the
    place, or `unopened` where it cannot be opened or read, is no regular file (a folder, a pipe, a device), or has a
    0 byte in its name. Of a file that is too long no more is read than tells that, and the place is the length that the
    system says it has. A name that is not UTF-8 is opened too, which the program cannot do. The last line has fourteen
    totals: files cleaned, files not opened, files refused under 7, 8, 9, 15, 16, 17 and 18, samples, changed samples,
    spikes, the sum of the positive residues, that of the negative ones without sign.

    A refused list of names opens no file and gives one line: `refused 20 250` where there are over 250 names, then
    `refused 19` and the first name, from 1, that is empty or has over 255 bytes.

    >>> night([])
    '0 0 0 0 0 0 0 0 0 0 0 0 0 0\\n'
    >>> night(["", "day.scan"])
    'refused 19 1\\n'
    """
    given = _taken(names)
    try:
        night_list(b"".join(name + LINE_FEED for name in given))
    except Refusal as refusal:
        return _refused(refusal.number, refusal.place)
    totals = no_totals()
    lines = [_line(name, totals) for name in given]
    return "".join(lines) + night_totals(totals)


# ---- names

def _taken(names: Any) -> List[bytes]:
    """The names as bytes. Of more than a list has, one more is taken: the list is refused then, whatever follows."""
    fault = _fault(names)
    if fault is not None:
        raise ArgumentError("names", None, f"names is {fault}: {INSTEAD}")
    return [_bytes(index, name) for index, name in enumerate(itertools.islice(names, MOST_NAMES + 1))]


def _fault(names: Any) -> Optional[str]:
    """What the names are where they are no names one after the other, or would not be taken as they were meant."""
    if isinstance(names, (str, bytes, bytearray, memoryview, os.PathLike)):
        return "one name"
    if isinstance(names, (set, frozenset)):
        return "a set, which has no order"
    if isinstance(names, dict):
        return "a dict"
    if hasattr(names, "columns"):
        return "a data frame"
    if hasattr(names, "read"):
        return "an open file"
    try:
        iter(names)
    except TypeError:
        return shown(names)
    return None


def _bytes(index: int, name: Any) -> bytes:
    """A name as it stands on a line of a list."""
    try:
        encoded = bytes(os.fsencode(name))
    except TypeError:
        _refuse(index, f"is {shown(name)}: a name is text, bytes or a path")
    except UnicodeEncodeError:
        _refuse(index, "has a character that no file's name has here: give the name's bytes")
    if LINE_FEED in encoded:
        _refuse(index, "has a line feed, which ends a line of a list: take it off, or rename the file")
    return encoded


def _refuse(index: int, sentence: str) -> NoReturn:
    raise ArgumentError("names", index, f"names[{index}] {sentence}")


# ---- files

class Opened(NamedTuple):
    """What is read of a file, and the length of the whole of it."""

    content: bytes
    length: int


def _line(name: bytes, totals: Totals) -> str:
    opened = _open(name)
    if opened is None:
        return night_unopened(totals)
    if opened.length > LONGEST_FILE:
        totals[FILE_LENGTH_TOTAL] += 1
        return _refused(FILE_LENGTH, opened.length)
    return night_line(opened.content, totals)


def _refused(number: int, place: int) -> str:
    return f"refused {number} {place}\n"


def _open(name: bytes) -> Optional[Opened]:
    """A file, or None where it cannot be opened or read, or is no regular file."""
    if b"\0" in name:
        return None
    try:
        # What a name stands for is looked at before it is opened: whoever opens a pipe waits for its other end.
        if not stat.S_ISREG(os.stat(name).st_mode):
            return None
        with open(name, "rb", buffering=0) as file:
            content = _read(file)
            return Opened(content, _length(content, file))
    except OSError:
        return None


def _read(file: BinaryIO) -> bytes:
    """A file to its end; of one that is too long one byte more than the longest has, which tells that."""
    content = bytearray()
    while len(content) <= LONGEST_FILE:
        piece = file.read(LONGEST_FILE + 1 - len(content))
        if not piece:
            break
        content += piece
    return bytes(content)


def _length(content: bytes, file: BinaryIO) -> int:
    """How long a file is of which this was read: where that is not all, up to where the system says that it ends, or as
    long as what was read if the file was cut meanwhile."""
    if len(content) <= LONGEST_FILE:
        return len(content)
    try:
        return max(len(content), file.seek(0, os.SEEK_END))
    except OSError:
        # A file of the system's own may not say where it ends.
        return len(content) + sum(map(len, iter(lambda: file.read(PIECE), b"")))
