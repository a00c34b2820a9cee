"""The library's numbers, each named once; what follows from others stands as that."""

# An offset is -REACH to REACH, a window has a position to an offset, and a set of offsets is a number below PATTERNS.
REACH = 4
WIDTH = 2 * REACH + 1
PATTERNS = 2 ** WIDTH

# A truth table has a bit to a pattern.
BYTE_BITS = 8
TABLE_BYTES = PATTERNS // BYTE_BITS

# A form has at most so many terms, and a scan 1 to so many samples, each 0 to TOP.
MOST_TERMS = 126
MOST_SAMPLES = 16_384
TOP = 65_535

# A recipe is 1 to MOST_STEPS steps, which hold at most so many signals at once.
STEP_BYTES = 4
MOST_STEPS = 32
LONGEST_RECIPE = STEP_BYTES * MOST_STEPS
MOST_SIGNALS = 8

PRESETS = 20

# A scan file: samples and terms are words, and the trailer follows. The report's line has at most LINE_BYTES.
WORD_BYTES = 2
TRAILER_BYTES = 12
LINE_BYTES = 128


def file_bytes(samples: int, terms: int) -> int:
    """How long a scan file is that holds so many samples and terms."""
    return WORD_BYTES * samples + WORD_BYTES * terms + TRAILER_BYTES


LONGEST_FILE = file_bytes(MOST_SAMPLES, MOST_TERMS)

# A list of names has at most MOST_NAMES lines, and a name 1 to LONGEST_NAME bytes; a line feed ends each.
MOST_NAMES = 250
LONGEST_NAME = 255
LONGEST_LIST = MOST_NAMES * (LONGEST_NAME + 1)

# The night sheet's last line has so many totals, in at most TOTALS_BYTES.
TOTALS = 14
TOTALS_BYTES = 512
