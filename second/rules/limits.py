"""The numbers of the scope document and of request 1, each named once; what follows from others stands as
that."""

# An offset is -REACH to REACH; a set of offsets, or a pattern, is a number below PATTERNS.
REACH = 4
WIDTH = 2 * REACH + 1
PATTERNS = 2 ** WIDTH
LARGEST_SET = PATTERNS - 1

# A form's terms; a truth table has a bit to a pattern.
MOST_TERMS = 126
BYTE_BITS = 8
TABLE_BYTES = PATTERNS // BYTE_BITS

# A scan's samples, each 0 to TOP; TOP is also the number of levels.
MOST_SAMPLES = 16384
TOP = 65535

# A recipe's steps, and the signals held at once.
STEP_BYTES = 4
MOST_STEPS = 32
LONGEST_RECIPE = STEP_BYTES * MOST_STEPS
MOST_SIGNALS = 8

PRESETS = 20

# A scan file: a sample, a term, and the trailer: two distances, the number of terms, the mark.
SAMPLE_BYTES = 2
TERM_BYTES = 2
DISTANCE_BYTES = 4
COUNT_BYTES = 2
MARK = [0x53, 0x46]
TRAILER_BYTES = 2 * DISTANCE_BYTES + COUNT_BYTES + len(MARK)


def file_bytes(samples, terms):
    """How long a scan file is that holds so many."""
    return SAMPLE_BYTES * samples + TERM_BYTES * terms + TRAILER_BYTES


LONGEST_FILE = file_bytes(MOST_SAMPLES, MOST_TERMS)

# What is lent for a file's line, and for the night sheet's last line.
LINE_BYTES = 128
TOTALS_BYTES = 512

# A list of names: its lines, and the bytes of a name.
MOST_NAMES = 250
LONGEST_NAME = 255

# What a term, or the number of terms, can be made to say; what a total can hold.
LARGEST_WORD = 2 ** 16 - 1
LARGEST_TOTAL = 2 ** 64 - 1
