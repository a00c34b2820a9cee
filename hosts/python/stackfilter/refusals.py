"""What the library's refusals mean: the numbers by their names in the crate `refusals`, and a sentence to each."""

from __future__ import annotations

from typing import Optional

from . import limits
from .errors import StackfilterError
from .recipes import CODES, JOINING, STEP_NAMES

RECIPE_LENGTH = 1
STEP_CODE = 2
STEP_FIELD = 3
SIGNALS_HELD = 4
REACH = 5
TERMS_LENT = 6
BAD_TERM = 7
TERM_COUNT = 8
SCAN_LENGTH = 9
OUTPUT_LENGTH = 10
NOT_POSITIVE = 12
TABLE_LENGTH = 13
PRESET_NUMBER = 14
FILE_LENGTH = 15
MARK = 16
TERM_DISTANCE = 17
SAMPLE_DISTANCE = 18
BAD_NAME = 19
NAME_COUNT = 20

# The place stands where the braces are; where there are none, it is always the same. A file's first byte is byte 0.
SENTENCES = {
    RECIPE_LENGTH: f"a recipe has {limits.STEP_BYTES} to {limits.LONGEST_RECIPE} bytes, a multiple of"
                   f" {limits.STEP_BYTES}, and this has {{}}",
    STEP_CODE: f"step {{}} has a code over {max(STEP_NAMES)}",
    STEP_FIELD: "step {} has a field that is not allowed",
    SIGNALS_HELD: "at step {} too few signals are held, a ninth is added, or not one is left at the end",
    REACH: f"at step {{}} the reach leaves -{limits.REACH} to {limits.REACH}",
    TERMS_LENT: "{} elements are needed for the terms, and fewer were lent",
    BAD_TERM: f"term {{}} is over {limits.PATTERNS - 1}, not above its predecessor, or contains an earlier one",
    TERM_COUNT: f"a form has at most {limits.MOST_TERMS} terms, and this has {{}}",
    SCAN_LENGTH: f"a scan has 1 to {limits.MOST_SAMPLES:,} samples, and this has {{}}",
    OUTPUT_LENGTH: "the output has the wrong length, and {} is needed",
    NOT_POSITIVE: "the truth table is 1 on pattern {} and 0 with one offset more, so it is not positive",
    TABLE_LENGTH: f"a truth table has {limits.TABLE_BYTES} bytes, and this slice has {{}}",
    PRESET_NUMBER: f"presets have the numbers 0 to {limits.PRESETS - 1}, and {{}} was asked for",
    FILE_LENGTH: f"a scan file has {limits.TRAILER_BYTES} to {limits.LONGEST_FILE:,} bytes, and this has {{}}",
    MARK: "the mark 53 46 hex, which ends a scan file, does not stand at byte {}",
    TERM_DISTANCE: f"the scan file's term distance, at byte {{}}, is not {limits.TRAILER_BYTES} + {limits.WORD_BYTES} x the"
                   " number of terms",
    SAMPLE_DISTANCE: "the scan file's sample distance, at byte {}, is not the file's length, is below the term distance, or"
                     " differs from it by an odd number",
    BAD_NAME: f"a name has 1 to {limits.LONGEST_NAME} bytes, and line {{}} of the list is empty or longer",
    NAME_COUNT: f"a list of names has at most {limits.MOST_NAMES} lines, and this has more",
}


class Refusal(StackfilterError, ValueError):
    """The library said no: the number, the place and a sentence."""

    def __init__(self, number: int, place: int, sentence: Optional[str] = None) -> None:
        super().__init__(number, place, sentence)
        self.number = number
        self.place = place
        self.sentence = SENTENCES[number].format(place) if sentence is None else sentence

    def __str__(self) -> str:
        return f"refused {self.number} {self.place}: {self.sentence}"


def of_recipe(refusal: Refusal, recipe: bytes) -> Refusal:
    """The refusal of this recipe: where signals are missing or left over, the sentence says which of the two."""
    if refusal.number != SIGNALS_HELD:
        return refusal
    return Refusal(refusal.number, refusal.place, _signals_held(refusal.place, recipe))


def _signals_held(place: int, recipe: bytes) -> str:
    """Which of the three causes of SIGNALS_HELD it is: the place tells, with the code of the step there."""
    if place == len(recipe) // limits.STEP_BYTES:
        return f"after the {place} steps more than one signal is left: join them by larger or smaller"
    code = recipe[limits.STEP_BYTES * place]
    if code == CODES["signal"]:
        return f"step {place} adds a ninth signal, and at most {limits.MOST_SIGNALS} are held: join some before it"
    needed = "two signals" if STEP_NAMES[code] in JOINING else "a signal"
    return f"step {place} ({STEP_NAMES[code]}) needs {needed}, and fewer are held: put a signal step before it"
