"""The list of file names that the night sheet is made of."""

from itertools import accumulate

from .limits import LONGEST_NAME, MOST_NAMES
from .refusals import Refused, refuse_if

LINE_FEED = 10


def lines_of(text):
    """Names are given "one to a line (.. the last line end optional)": a line feed ends a line, and
    bytes after the last one are a further line, if there are any. A carriage return or a space is a
    byte of the name."""
    *ended, last = bytes(text).split(bytes([LINE_FEED]))
    return ended + [last] if last else ended


def names_in(text):
    """"Refusals: 19 for a list line that is empty or too long (place: the first such, from 1), 20
    for over 250 lines (place: 250)"; "20 first". Returns the names."""
    names = lines_of(text)
    refuse_if(len(names) > MOST_NAMES, 20, MOST_NAMES)
    for place, name in enumerate(names, 1):
        refuse_if(not 1 <= len(name) <= LONGEST_NAME, 19, place)
    return names


# ---- the calls

def check_list(text):
    """Order 20, 19. Returns the number of names."""
    return len(names_in(text))


def pieces_of(text, sizes):
    """The text in pieces of these sizes, taken from the first again after the last, until it is
    through. The last piece may be shorter."""
    pieces, at = [], 0
    while at < len(text):
        size = sizes[len(pieces) % len(sizes)]
        pieces.append(text[at:at + size])
        at += size
    return pieces


def pieces_until_over(text, pieces):
    """How many pieces had come when line 251 began, which is with its first byte; all of them where
    it never does."""
    lines = lines_of(text)
    if len(lines) <= MOST_NAMES:
        return len(pieces)
    before = sum(len(line) + 1 for line in lines[:MOST_NAMES])
    came = accumulate(map(len, pieces))
    return next(n for n, so_far in enumerate(came, 1) if so_far > before)


def judge(text, sizes):
    """Returns the number and the place of the list's refusal, 0 and 0 where there is none, and the
    pieces until it is over. The list is the pieces joined: where it is cut makes no difference."""
    pieces = pieces_of(bytes(text), sizes)
    until = pieces_until_over(b"".join(pieces), pieces)
    try:
        names_in(b"".join(pieces))
    except Refused as no:
        return no.number, no.place, until
    return 0, 0, until


def line_end(text, at):
    """Where the line ends that begins at a place: at the first line feed from there, or where there
    is none at the text's end. A place behind that is itself the end."""
    feeds = [place for place in range(at, len(text)) if text[place] == LINE_FEED]
    return min(feeds, default=max(at, len(text)))
