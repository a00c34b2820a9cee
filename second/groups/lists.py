"""Lists of names, whole and in pieces."""

from rules.limits import LONGEST_NAME, MOST_NAMES
from wire import call, joined

LONGEST = MOST_NAMES * (LONGEST_NAME + 1)
# What a name may have in it, and what must not be taken for a line feed.
SHORT = [b"", b"\n", b"a", b"\r", b"\0", b" ", b"\n\n", b"a\n", b"\na", b"a\n\n", b"\n\na", b"a\nb", b"a\nb\n",
         b"\r\n", b"a\r\n", b"\n\r", b"\x0b\x0c\n", b"\0\n\0", b"\x8a\n", b"\xff\n\x80", b" \n ", b"\n\n\n",
         b"a\n\nb", b"a\n\nb\n", b"ab\ncd\nef"]


def text(*parts):
    """A text of units, each with how often it stands there, or a unit alone."""
    return [part if isinstance(part, tuple) else (part, 1) for part in parts]


def name(size, byte=b"a"):
    return byte * size


def whole(runs):
    yield call("check_list", runs)


def in_pieces(runs, *sizes):
    yield call("judge", runs, list(sizes))


def everyhow(runs):
    """Whole; in one piece; a byte a piece; and cut at every place, with nothing in between."""
    size = len(joined(runs))
    yield from whole(runs)
    yield from in_pieces(runs, 1)
    yield from in_pieces(runs, 0, 1)
    for at in range(size + 1):
        yield from in_pieces(runs, at, 0, max(1, size - at))


def some_ways(runs, chance):
    """Whole; in one piece; a byte a piece; in some sizes; in the sizes of pipes."""
    yield from whole(runs)
    for size in (65535, 4096, 1):
        yield from in_pieces(runs, size)
    yield from in_pieces(runs, *(chance.below(600) for _ in range(7)), 1)


# ---- small texts

def small(chance):
    for unit in SHORT:
        yield from everyhow(text(unit))
    # every text of up to six bytes that are a name's byte or a line feed
    for size in range(1, 7):
        for number in range(2 ** size):
            unit = bytes(b"a\n"[number // 2 ** i % 2] for i in range(size))
            yield from whole(text(unit))
            yield from in_pieces(text(unit), 1)
    for _ in range(60):
        unit = bytes(chance.one_of(b"ab\n\n\r\0 \xff") for _ in range(chance.between(1, 12)))
        yield from everyhow(text(unit))


# ---- lines of 0, 1 and about 255 bytes

def lengths(chance):
    """One such line at the first, a middle and the last place, with and without its line end."""
    for size in (0, 1, LONGEST_NAME - 1, LONGEST_NAME, LONGEST_NAME + 1, LONGEST_NAME + 2, 1000):
        for before in (0, 1, 2, MOST_NAMES // 2, MOST_NAMES - 2, MOST_NAMES - 1, MOST_NAMES):
            for after in (0, 1, MOST_NAMES - 1 - before, MOST_NAMES - before):
                if after >= 0:
                    parts = (b"b\n", before), name(size), (b"\n", 1), (b"c\n", after)
                    runs = text(*parts)
                    yield from whole(runs)
                    yield from in_pieces(runs, chance.between(1, 300), chance.between(0, 300), 1)
            yield from whole(text((b"b\n", before), name(size)))
            yield from in_pieces(text((b"b\n", before), name(size)), chance.between(1, 300))


def about_the_longest_name():
    """Cut at every place about the end of a name of 254 to 257 bytes."""
    for size in range(LONGEST_NAME - 1, LONGEST_NAME + 3):
        for rest in (b"", b"\n", b"\nb", b"\n\n"):
            runs = text((b"a", size), rest)
            yield from in_pieces(runs, 1)
            for at in range(size - 2, size + len(rest) + 1):
                yield from in_pieces(runs, at, 0, 1)


def first_decides():
    """The first of several bad lines is the place; 20 comes before all."""
    bad = [b"\n", name(LONGEST_NAME + 1) + b"\n"]
    for one in bad:
        for other in bad:
            yield from whole(text(b"b\n", one, b"c\n", other))
            yield from in_pieces(text(b"b\n", one, b"c\n", other), 1)
        for lines in (MOST_NAMES - 1, MOST_NAMES, MOST_NAMES + 1):
            for place in (1, 2, lines - 1, lines):
                runs = text((b"b\n", place - 1), one, (b"c\n", lines - place))
                yield from whole(runs)
                yield from in_pieces(runs, 7)
        yield from whole(text((one, MOST_NAMES)))
        yield from whole(text((one, MOST_NAMES + 1)))
        yield from in_pieces(text((one, MOST_NAMES)), 256)
        yield from in_pieces(text((one, MOST_NAMES + 1)), 256)


# ---- numbers of lines

def about_250():
    """249 to 252 lines, with and without the last line end, cut where line 251 begins and about it."""
    for lines in (MOST_NAMES - 1, MOST_NAMES, MOST_NAMES + 1, MOST_NAMES + 2):
        for unit in (b"a\n", b"ab\n", b"\n"):
            for last in (b"", b"z", b"\n", b"z\n", b"\0", b"\r"):
                runs = text((unit, lines), last)
                yield from whole(runs)
                yield from in_pieces(runs, 1)
                for more in range(-2, 3):
                    yield from in_pieces(runs, MOST_NAMES * len(unit) + more, 0, 1)
    for lines in (500, 1000, 40000):
        yield from whole(text((b"a\n", lines)))
        yield from in_pieces(text((b"a\n", lines)), 1000)
        yield from whole(text((b"\n", lines)))
        yield from in_pieces(text((b"\n", lines)), 499, 1)
    # a long line stands behind, which no one needs to read
    yield from in_pieces(text((b"a\n", MOST_NAMES), (b"a", 60000)), 100)
    yield from in_pieces(text((b"a\n", MOST_NAMES), (b"a", 60000), b"\n"), 100)
    # a long line stands before
    for lines in (MOST_NAMES - 1, MOST_NAMES):
        yield from whole(text((b"a", 60000), b"\n", (b"b\n", lines)))
        yield from in_pieces(text((b"a", 60000), b"\n", (b"b\n", lines)), 4096)


# ---- about as long as a list may be

def longest(chance):
    full = name(LONGEST_NAME) + b"\n"
    lists = [
        text((full, MOST_NAMES)),
        text((full, MOST_NAMES - 1), name(LONGEST_NAME)),
        text((full, MOST_NAMES), b"a"),
        text((full, MOST_NAMES), b"\n"),
        text((full, MOST_NAMES + 1)),
        text((full, MOST_NAMES - 1), name(LONGEST_NAME + 1)),
        text((full, MOST_NAMES - 1), name(LONGEST_NAME + 1), b"\n"),
        text((full, MOST_NAMES - 1), b"\n"),
        text((full, MOST_NAMES - 1)),
        text(name(LONGEST_NAME + 1), b"\n", (full, MOST_NAMES - 1)),
        text(b"\n", (full, MOST_NAMES - 1)),
        text((full, 100), b"\n", (full, MOST_NAMES - 101)),
        text((full, 100), name(LONGEST_NAME + 1), b"\n", (full, MOST_NAMES - 101)),
        text((full, 500)),
        text((b"a", LONGEST - 1)),
        text((b"a", LONGEST)),
        text((b"a", LONGEST + 1)),
        text((b"a", LONGEST - 1), b"\n"),
        text((b"a", LONGEST), b"\n"),
        text((b"a", 131000), b"\n"),
    ]
    for runs in lists:
        yield from some_ways(runs, chance)


def random_lists(chance):
    """Names of any bytes and lengths; now and then one line is bad, or there are too many."""
    for _ in range(100):
        lines = chance.one_of([3, 9, 30, MOST_NAMES - 1, MOST_NAMES, MOST_NAMES + 1])
        sizes = [chance.between(1, 3) for _ in range(lines)]
        for _ in range(chance.below(3)):
            sizes[chance.below(lines)] = chance.one_of([0, LONGEST_NAME, LONGEST_NAME + 1, 300])
        names = [bytes(chance.one_of(b"abc \r\0\xff\x8a") for _ in range(size)) for size in sizes]
        runs = text(b"\n".join(names), chance.one_of([b"", b"\n"]))
        yield from whole(runs)
        yield from in_pieces(runs, *(chance.below(40) for _ in range(3)), chance.between(1, 300))


# ---- where a line ends

def line_ends(chance):
    for unit in SHORT:
        for at in [*range(len(unit) + 3), 2 ** 32, 2 ** 64 - 1]:
            yield call("line_end", text(unit), at)
    for size in (0, 1, LONGEST_NAME, LONGEST_NAME + 1, 3000):
        for at in (0, 1, size // 2, size, size + 1, size + 2):
            yield call("line_end", text((b"a", size), b"\n", b"b\n"), at)
    runs = text((name(LONGEST_NAME) + b"\n", MOST_NAMES))
    for at in (0, 255, 256, 257, LONGEST - 257, LONGEST - 256, LONGEST - 2, LONGEST - 1, LONGEST, LONGEST + 1):
        yield call("line_end", runs, at)
    for _ in range(60):
        unit = bytes(chance.one_of(b"ab\n\r\0\xff") for _ in range(chance.between(1, 20)))
        yield call("line_end", text(unit), chance.below(22))


def calls(chance):
    yield from small(chance)
    yield from lengths(chance)
    yield from about_the_longest_name()
    yield from first_decides()
    yield from about_250()
    yield from longest(chance)
    yield from random_lists(chance)
    yield from line_ends(chance)
