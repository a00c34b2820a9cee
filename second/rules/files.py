"""The scan file, and the counts that the report prints."""

from collections import namedtuple
from itertools import groupby

from .forms import check
from .limits import (COUNT_BYTES, DISTANCE_BYTES, LONGEST_FILE, MARK, SAMPLE_BYTES, TERM_BYTES,
                     TRAILER_BYTES, file_bytes)
from .refusals import fill, refuse_if
from .scans import check_output, check_scan, residues


def low_first(number, size):
    return list(number.to_bytes(size, "little"))


def number_in(part):
    return int.from_bytes(bytes(part), "little")


def numbers_in(part, size):
    """The numbers of so many bytes each, low byte first."""
    return [number_in(part[i:i + size]) for i in range(0, len(part), size)]


# ---- writing

def file_of(terms, scan):
    """The bytes: "Samples, two bytes each, low byte first; then terms likewise; then a 12-byte
    trailer that points back"."""
    samples = [byte for sample in scan for byte in low_first(sample, SAMPLE_BYTES)]
    body = samples + [byte for term in terms for byte in low_first(term, TERM_BYTES)]
    to_first_sample, to_first_term = file_bytes(len(scan), len(terms)), file_bytes(0, len(terms))
    return body + trailer_of(to_first_sample, to_first_term, len(terms), MARK)


def trailer_of(to_first_sample, to_first_term, terms, mark):
    return (low_first(to_first_sample, DISTANCE_BYTES) + low_first(to_first_term, DISTANCE_BYTES)
            + low_first(terms, COUNT_BYTES) + list(mark))


def write(terms, scan, out):
    """Order 7, 8, 9, 10. Returns the length written."""
    check(terms)
    check_scan(scan)
    check_output(out, file_bytes(len(scan), len(terms)))
    fill(out, file_of(terms, scan))
    return len(out)


# ---- reading

Field = namedtuple("Field", "place number")


def trailer_in(file):
    """The trailer's two distances, number of terms and mark, each with the place of its first byte."""
    fields, place = [], len(file) - TRAILER_BYTES
    for size in (DISTANCE_BYTES, DISTANCE_BYTES, COUNT_BYTES, len(MARK)):
        fields.append(Field(place, number_in(file[place:place + size])))
        place += size
    return fields


def check_length(length):
    """Refusal 15 is "for a length outside 12 to 33,032 (place: the length)"."""
    refuse_if(not TRAILER_BYTES <= length <= LONGEST_FILE, 15, length)


def check_layout(file):
    """"15 for a length .., 16 for the mark (place: its first byte), 17 for the term distance (place:
    its first byte), 18 for the sample distance (place: its first byte), in this order where 11 stood".
    What is asked of them: "the mark; the term distance is 12 + 2 x terms; the sample distance is the
    file length, is not below the term distance, and differs from it by an even number"."""
    check_length(len(file))
    to_first_sample, to_first_term, terms, mark = trailer_in(file)
    refuse_if(mark.number != number_in(MARK), 16, mark.place)
    refuse_if(to_first_term.number != TRAILER_BYTES + TERM_BYTES * terms.number, 17, to_first_term.place)
    refuse_if(to_first_sample.number != len(file)
              or to_first_sample.number < to_first_term.number
              or (to_first_sample.number - to_first_term.number) % SAMPLE_BYTES != 0,
              18, to_first_sample.place)


def parts_of(file):
    """The samples and the terms of a file that is laid out well."""
    _, to_first_term, _, _ = trailer_in(file)
    first_term = len(file) - to_first_term.number
    terms = file[first_term:len(file) - TRAILER_BYTES]
    return numbers_in(file[:first_term], SAMPLE_BYTES), numbers_in(terms, TERM_BYTES)


def opened(file):
    """The samples and the terms. Order 15, 16, 17, 18, 7, 8, 9."""
    check_layout(file)
    scan, terms = parts_of(file)
    check(terms)
    check_scan(scan)
    return scan, terms


def read(file, lent_samples, lent_terms):
    """Order 15, 16, 17, 18, 7, 8, 9, 6, 10. Returns the numbers of samples and of terms."""
    scan, terms = opened(file)
    refuse_if(len(lent_terms) < len(terms), 6, len(terms))
    refuse_if(len(lent_samples) < len(scan), 10, len(scan))
    fill(lent_samples, scan)
    fill(lent_terms, terms)
    return len(scan), len(terms)


# ---- counting

def sign(number):
    return (number > 0) - (number < 0)


def spikes(residue_list):
    """How many there are: "A spike is a longest run of neighbouring samples whose residue isn't
    0", and by request 2 "a run also ends where the residue changes sign"."""
    return sum(1 for a_sign, _ in groupby(residue_list, sign) if a_sign != 0)


def count(file):
    """Order 15, 16, 17, 18, 7, 8, 9. Returns "samples, changed samples, spikes, total of positive
    residues, total of negative residues with the sign dropped"."""
    scan, terms = opened(file)
    left = residues(terms, scan)
    return (len(scan), sum(r != 0 for r in left), spikes(left),
            sum(r for r in left if r > 0), -sum(r for r in left if r < 0))
