"""The second program itself, against the documents' worked cases and the papers' vectors.

    python3 second/test_second.py
"""

import unittest
from itertools import combinations

from chance import Chance, accepted_recipe, any_form, damaged_form, recipe_of, scan as some_scan
from groups.forms import LONGEST_FORM
from groups.recipes import closing, dilate, erode, median, opening, rank, signal, smaller
from groups.scans import MEDIAN_3, MEDIAN_5, dual, mirrored, runs
from rules import files, forms, limits, lines, lists, nights, recipes, scans
from rules.forms import number_of
from rules.limits import (LARGEST_SET, LONGEST_RECIPE, MOST_SAMPLES, MOST_SIGNALS, MOST_STEPS,
                          MOST_TERMS, PRESETS, REACH, TABLE_BYTES, TOP, WIDTH)
from rules.recipes import SMALLER, Step
from rules.refusals import Refused
from vectors import CRATES, GROUPS
from wire import call, checksum, line, record


in_hex = bytes.fromhex


def cleaned(terms, scan):
    out = [0] * len(scan)
    scans.clean(terms, scan, out)
    return out


def ran(scan, *steps):
    out = [0] * len(scan)
    recipes.run_recipe(recipe_of(steps), scan, out)
    return out


def form(*steps):
    lent = [0] * MOST_TERMS
    return lent[:recipes.compile_recipe(recipe_of(steps), lent)]


def preset(number):
    lent = [0] * 3
    return lent[:forms.preset(number, lent)]


class Case(unittest.TestCase):
    def refused(self, number, place, rule, *arguments):
        with self.assertRaises(Refused) as caught:
            rule(*arguments)
        self.assertEqual((caught.exception.number, caught.exception.place), (number, place))


class ScopeDocument(Case):
    """Its numbers, its "Cases at the edges" and "Ways this goes wrong"."""

    def test_numbers(self):
        self.assertEqual((list(forms.OFFSETS), WIDTH), ([-4, -3, -2, -1, 0, 1, 2, 3, 4], 9))
        self.assertEqual((limits.PATTERNS, LARGEST_SET), (512, 511))
        self.assertEqual((TABLE_BYTES, MOST_TERMS), (64, 126))
        self.assertEqual((MOST_SAMPLES, TOP), (16384, 65535))
        self.assertEqual((MOST_STEPS, LONGEST_RECIPE, MOST_SIGNALS, PRESETS), (32, 128, 8, 20))
        self.assertEqual((limits.TRAILER_BYTES, limits.LONGEST_FILE, limits.LINE_BYTES),
                         (12, 33032, 128))
        self.assertEqual((limits.MOST_NAMES, limits.LONGEST_NAME, limits.TOTALS_BYTES),
                         (250, 255, 512))

    def test_forms_of_recipes(self):
        self.assertEqual(form(signal), [16])
        self.assertEqual(form(signal, median(56)), [24, 40, 48])
        self.assertEqual(form(signal, opening(48)), [24, 48])
        self.assertEqual(form(signal, closing(48)), [16, 40])
        self.assertEqual(form(signal, dilate(48)), [8, 16])
        self.assertEqual(form(signal, opening(56)), [28, 56, 112])
        self.assertEqual(form(signal, closing(48), signal, smaller), [16])

    def test_runs(self):
        self.assertEqual(cleaned([24, 40, 48], [10, 10, 90, 10, 10]), [10] * 5)
        self.assertEqual(cleaned([16, 40], [2, 2, 0, 1, 1]), [2, 2, 1, 1, 1])
        self.assertEqual(ran([5, 0, 0], signal, erode(56), dilate(56)), [5, 0, 0])
        self.assertEqual(ran([7], signal, erode(1)), [7])
        self.assertEqual(cleaned([], [3, 9]), [0, 0])
        self.assertEqual(cleaned([0], [3, 9]), [TOP, TOP])

    def test_recipes_accepted_and_refused(self):
        def judge(*steps):
            return recipes.judged(recipe_of(steps))
        self.assertEqual(len(judge(signal, erode(257))), 2)
        self.assertEqual(len(judge(signal, opening(496))), 2)
        self.refused(5, 1, judge, signal, opening(504))
        self.refused(5, 2, judge, signal, erode(1), erode(1))
        self.refused(3, 1, judge, signal, erode(0))
        self.refused(4, 2, judge, signal, signal)
        self.refused(4, 0, judge, erode(56))

    def test_lists_and_tables_refused(self):
        self.refused(7, 1, forms.check, [24, 16])
        self.refused(7, 1, forms.check, [16, 24])
        self.refused(12, 0, forms.table_to_form, [1] + [0] * (TABLE_BYTES - 1), [])

    def test_ways_this_goes_wrong(self):
        self.assertEqual(form(signal, rank(1, 48)), [16, 32])
        self.assertEqual(ran([1, 1, 0, 0, 1, 0], signal, closing(176))[2], 1)
        self.assertEqual(ran([3, 1, 2], signal, rank(1, 56)), [3, 3, 2])
        self.assertEqual(form(signal, opening(48), signal, smaller), form(signal, opening(48)))

    def test_report(self):
        file = in_hex("0A 00 0A 00 5A 00 0A 00 0A 00 18 00 28 00 30 00"
                      "1C 00 00 00 12 00 00 00 03 00 53 46")
        self.assertEqual(files.count(file), (5, 1, 1, 80, 0))
        self.assertEqual(bytes(files.file_of([24, 40, 48], [10, 10, 90, 10, 10])), file)
        self.assertEqual(lines.line_of(file), "5 1 1 80 0\n")
        self.assertEqual(lines.line_of(file[1:]), "refused 18 15\n")


class Readings(Case):
    """Where the document's words leave room, what was settled."""

    def judge(self, *steps):
        return recipes.judged(recipe_of(steps))

    def test_reach_may_come_back(self):
        self.assertEqual(form(signal, erode(256), dilate(256)), [16])
        self.assertEqual(form(signal, erode(256), opening(256)), [256])
        self.refused(5, 2, self.judge, signal, erode(256), opening(48))

    def test_first_faulty_step_decides(self):
        self.refused(5, 2, self.judge, signal, erode(1), erode(1), Step(SMALLER + 1, 0, 0))
        self.refused(3, 0, self.judge, erode(0))
        self.refused(3, 1, self.judge, signal, Step(7, 0, 1))
        self.refused(4, MOST_SIGNALS, self.judge, *[signal] * (MOST_SIGNALS + 1))
        self.refused(3, 1, self.judge, signal, median(48))

    def test_lengths(self):
        for size in (0, 1, 3, 5, LONGEST_RECIPE - 1, LONGEST_RECIPE + 1, LONGEST_RECIPE + 4):
            self.refused(1, size, recipes.judged, [0] * size)
        self.assertEqual(len(self.judge(signal, *[median(16)] * (MOST_STEPS - 1))), MOST_STEPS)

    def test_slices(self):
        self.refused(10, 2, scans.clean, [16], [1, 2], [0] * 3)
        self.refused(10, 2, scans.residue, [16], [1, 2], [0])
        self.refused(10, 18, files.write, [16], [1, 2], [0] * 17)
        self.refused(13, TABLE_BYTES + 1, forms.form_to_table, [16], [0] * (TABLE_BYTES + 1))
        self.assertEqual(forms.preset(0, []), 0)
        self.refused(6, 3, forms.preset, 10, [0, 0])
        table = [0] * TABLE_BYTES
        self.assertEqual(forms.form_to_table([24, 40, 48], table), 3)

    def test_lines(self):
        file, lent = files.file_of([16], [1]), [0] * limits.LINE_BYTES
        self.refused(10, 128, lines.line, file, [0] * 127)
        self.refused(10, 128, lines.line, [], [0] * 129)
        self.assertEqual(lines.line(file, lent), 10)
        self.assertEqual(lent, list(b"1 0 0 0 0\n") + [0] * 118)

    def test_preset_numbers_are_never_cut(self):
        for number in (PRESETS, 255, 256, 256 + PRESETS, 2 ** 16, 2 ** 32 - 1, 2 ** 64 - 1):
            self.refused(14, number, forms.preset, number, [0] * 3)

    def test_reading(self):
        self.refused(9, 0, files.read, files.file_of([], []), [], [])
        self.refused(9, 0, files.read, files.file_of([16], []), [], [])
        self.refused(7, 1, files.read, files.file_of([24, 16], []), [], [])
        self.refused(6, 1, files.read, files.file_of([16], [1]), [], [])
        self.refused(10, 1, files.read, files.file_of([16], [1]), [], [0])
        too_many = LONGEST_FORM + [LARGEST_SET]
        self.refused(7, MOST_TERMS, files.read, files.file_of(too_many, [1]), [], [])
        too_long = [0] * (MOST_SAMPLES + 1)
        self.refused(9, len(too_long), files.read, files.file_of([], too_long), [], [])
        in_all = MOST_SAMPLES + MOST_TERMS
        self.refused(9, in_all, files.count, files.file_of([], [0] * in_all))
        self.refused(15, 33034, files.count, files.file_of([], [0] * (in_all + 1)))
        self.refused(15, 0, files.count, [])

    def test_refused_calls_write_nothing_and_accepted_ones_no_more(self):
        samples, terms = [1] * 3, [2] * 3
        self.refused(10, 4, files.read, files.file_of([16], [9] * 4), samples, terms)
        self.assertEqual((samples, terms), ([1] * 3, [2] * 3))
        files.read(files.file_of([16], [9, 8]), samples, terms)
        self.assertEqual((samples, terms), ([9, 8, 1], [16, 2, 2]))

    def test_spike_is_a_run_of_one_sign_that_cannot_be_lengthened(self):
        self.assertEqual(files.count(files.file_of(MEDIAN_3, [10, 10, 90, 0, 10, 10])),
                         (6, 2, 2, 80, 10))
        for residues, number in (([], 0), ([0], 0), ([0, 0], 0), ([5], 1), ([-5], 1), ([5, 6], 1),
                                 ([-5, -6], 1), ([5, -5], 2), ([-5, 5], 2), ([5, 0, 5], 2),
                                 ([5, 0, -5], 2), ([0, 5, -1, -1, 5, 5, 0, 0, -5, 0], 4),
                                 ([1, -1, 1, -1], 4)):
            self.assertEqual(files.spikes(residues), number)


class Layout(Case):
    """Request 3, by hand: what is wrong with the file, and where."""

    # Two samples, a term, the two distances, the number of terms and the mark; the same with no term.
    GOOD = in_hex("05 00 06 00" "10 00" "12 00 00 00" "0E 00 00 00" "01 00" "53 46")
    BARE = in_hex("05 00 06 00" "10 00 00 00" "0C 00 00 00" "00 00" "53 46")

    def refused_file(self, number, place, file):
        """All calls say the same."""
        self.refused(number, place, files.count, file)
        self.refused(number, place, files.read, file, [0] * 9, [0] * 9)
        self.assertEqual(lines.line_of(file), "refused %d %d\n" % (number, place))

    def put(self, file, place, text):
        """The file with other bytes from a place on."""
        part = in_hex(text)
        return file[:place] + part + file[place + len(part):]

    def test_good(self):
        self.assertEqual(files.opened(self.GOOD), ([5, 6], [16]))
        self.assertEqual(files.opened(self.BARE), ([5, 6], []))

    def test_length(self):
        for length in range(12):
            self.refused_file(15, length, bytes(length))
            self.refused_file(15, length, self.GOOD[18 - length:])
        self.refused_file(16, 10, bytes(12))
        self.refused_file(16, 33030, bytes(33032))
        for length in (33033, 33034, 65536, 131072 + 18, 1_000_000):
            self.refused_file(15, length, bytes(length))
            self.refused_file(15, length, bytes(length - 18) + self.GOOD)
        for length in (33033, 5_000_000_000, 2 ** 63 - 1):
            self.assertEqual(lines.fields_of_long(length), ("refused", 15, length))

    def test_mark(self):
        for mark in ("46 53", "53 52", "53 47", "52 46", "00 00", "46 46", "53 53"):
            self.refused_file(16, 16, self.put(self.GOOD, 16, mark))
            self.refused_file(16, 14, self.put(self.BARE, 14, mark))
            self.refused_file(16, 10, in_hex("0C 00 00 00 0C 00 00 00 00 00" + mark))

    def test_term_distance(self):
        for distance in ("0D", "0F", "10", "0C", "00", "8E", "0E 01", "0E 80", "0E 00 01", "0E 00 80",
                         "0E 00 00 01", "0E 00 00 80", "FE FF FF FF", "FF FF FF FF", "F2 FF FF FF"):
            self.refused_file(17, 10, self.put(self.GOOD, 10, distance))
        self.refused_file(17, 8, self.put(self.BARE, 8, "0E"))
        self.refused_file(17, 4, in_hex("0C 00 00 00 FF FF FF FF 00 00 53 46"))

    def test_number_of_terms(self):
        """A wrong one shows where the term distance stands."""
        for terms in ("00", "02", "81", "01 01", "01 80", "FF FF"):
            self.refused_file(17, 10, self.put(self.GOOD, 14, terms))
        self.refused_file(17, 8, self.put(self.BARE, 12, "01"))
        # of 12 + 2 x 65,530 the lower two bytes are 0, of 12 + 2 x 32,768 they are 12
        self.refused_file(17, 4, in_hex("0C 00 00 00 00 00 00 00 FA FF 53 46"))
        self.refused_file(17, 4, in_hex("0C 00 00 00 0C 00 00 00 00 80 53 46"))

    def test_sample_distance(self):
        # not the length: less, more, in an upper byte, and about 2^31 and 2^32
        for distance in ("10", "14", "11", "13", "0E", "00", "12 01", "12 00 01", "12 00 00 01", "12 00 00 80",
                         "FF FF FF 7F", "00 00 00 80", "FE FF FF FF", "FF FF FF FF", "EE FF FF FF"):
            self.refused_file(18, 6, self.put(self.GOOD, 6, distance))
        # the length, but below the term distance, by an even number and by an odd one
        self.refused_file(18, 0, in_hex("0C 00 00 00 0E 00 00 00 01 00 53 46"))
        self.refused_file(18, 0, in_hex("0C 00 00 00 0A 00 02 00 FF FF 53 46"))
        self.refused_file(18, 1, in_hex("00 0D 00 00 00 0E 00 00 00 01 00 53 46"))
        # the length, but odd beside it
        self.refused_file(18, 1, in_hex("00 0D 00 00 00 0C 00 00 00 00 00 53 46"))
        self.refused_file(18, 5, in_hex("05 00 06 10 00 11 00 00 00 0E 00 00 00 01 00 53 46"))

    def test_order(self):
        """15, 16, 17, 18, then 7, 9: each is put right, and the next shows."""
        self.refused_file(15, 11, in_hex("FF FF FF FF FF FF FF FF FF FF FF"))
        self.refused_file(16, 12, in_hex("FF FF FF FF FF FF FF FF FF FF FF FF FF FF"))
        self.refused_file(17, 6, in_hex("FF FF FF FF FF FF FF FF FF FF FF FF 53 46"))
        self.refused_file(18, 2, in_hex("FF FF FF FF FF FF 0E 00 00 00 01 00 53 46"))
        self.refused_file(7, 0, in_hex("FF FF 0E 00 00 00 0E 00 00 00 01 00 53 46"))
        self.refused_file(9, 0, in_hex("FF 01 0E 00 00 00 0E 00 00 00 01 00 53 46"))


class NightSheet(Case):
    """Request 1, by hand."""

    # A name a line, and what stands in the file.
    FILES = {
        b"worked": files.file_of(MEDIAN_3, [10, 10, 90, 10, 10]),
        b"two": files.file_of(MEDIAN_3, [10, 10, 90, 0, 10, 10]),
        b"down": files.file_of([0], [65534]),
        b"seven": files.file_of([24, 16], [1]),
        b"nine": files.file_of([16], []),
        b"fifteen": [],
        b"sixteen": [0] * 12,
        b"seventeen": in_hex("0C 00 00 00 0C 00 00 00 01 00 53 46"),
        b"eighteen": in_hex("00 00 0C 00 00 00 0C 00 00 00 00 00 53 46"),
        b" a b\r": files.file_of([16], [1]),
    }

    def names(self, text, *expected):
        self.assertEqual(lists.names_in(text), list(expected))

    def test_lines_of_a_list(self):
        self.names(b"")
        self.names(b"a", b"a")
        self.names(b"a\n", b"a")
        self.names(b"a\nb", b"a", b"b")
        self.names(b"a\nb\n", b"a", b"b")
        self.names(b" a \r\n\xff", b" a \r", b"\xff")
        self.names(b"\r\n\0\n", b"\r", b"\0")
        self.names(b"a\x0bb\x0cc\x1cd\x85e", b"a\x0bb\x0cc\x1cd\x85e")

    def test_empty_lines(self):
        self.refused(19, 1, lists.check_list, b"\n")
        self.refused(19, 1, lists.check_list, b"\na")
        self.refused(19, 2, lists.check_list, b"a\n\n")
        self.refused(19, 2, lists.check_list, b"a\n\n\n")
        self.refused(19, 3, lists.check_list, b"a\nb\n\nc")

    def test_long_lines(self):
        self.assertEqual(lists.check_list(b"a" * 255), 1)
        self.assertEqual(lists.check_list(b"a" * 255 + b"\n"), 1)
        self.refused(19, 1, lists.check_list, b"a" * 256)
        self.refused(19, 1, lists.check_list, b"a" * 256 + b"\n")
        self.refused(19, 2, lists.check_list, b"b\n" + b"a" * 256 + b"\n\n")
        self.refused(19, 1, lists.check_list, b"\0" * 256)
        # a carriage return is a byte of the name
        self.assertEqual(lists.check_list(b"a" * 254 + b"\r\n"), 1)
        self.refused(19, 1, lists.check_list, b"a" * 255 + b"\r\n")

    def test_250_lines(self):
        self.assertEqual(lists.check_list(b"a\n" * 250), 250)
        self.assertEqual(lists.check_list(b"a\n" * 249 + b"a"), 250)
        self.refused(20, 250, lists.check_list, b"a\n" * 250 + b"a")
        self.refused(20, 250, lists.check_list, b"a\n" * 251)
        self.refused(20, 250, lists.check_list, b"a\n" * 1000)
        # 20 first, wherever a bad line stands: 251 lines with an empty one, and 250 lines alike
        self.refused(20, 250, lists.check_list, b"\n" + b"a\n" * 250)
        self.refused(20, 250, lists.check_list, b"a\n" * 250 + b"\n")
        self.refused(19, 1, lists.check_list, b"\n" + b"a\n" * 249)
        self.refused(19, 250, lists.check_list, b"a\n" * 249 + b"\n")
        self.refused(20, 250, lists.check_list, b"a" * 256 + b"\n" + b"a\n" * 250)

    def test_pieces(self):
        self.assertEqual(lists.pieces_of(b"abcdefg", [2, 0, 1]), [b"ab", b"", b"c", b"de", b"", b"f", b"g"])
        self.assertEqual(lists.judge(b"a\n\n", [1]), (19, 2, 3))
        self.assertEqual(lists.judge(b"", [1]), (0, 0, 0))
        self.assertEqual(lists.judge(b"a\nb", [2, 5]), (0, 0, 2))
        # line 251 begins with byte 501, whichever it is
        for rest in (b"b", b"\n", b"bbb", b"\n\n\n"):
            self.assertEqual(lists.judge(b"a\n" * 250 + rest, [1]), (20, 250, 501))
            self.assertEqual(lists.judge(b"a\n" * 250 + rest, [500, 1]), (20, 250, 2))
        self.assertEqual(lists.judge(b"a\n" * 250, [1]), (0, 0, 500))

    def test_line_ends(self):
        self.assertEqual([lists.line_end(b"ab\n\nc", at) for at in range(8)], [2, 2, 2, 3, 5, 5, 6, 7])

    def sheet(self, text):
        return nights.sheet(text, lambda name: nights.outcome_of(self.FILES.get(name)))

    def test_sheets(self):
        self.assertEqual(self.sheet(b""), "0 0 0 0 0 0 0 0 0 0 0 0 0 0\n")
        self.assertEqual(self.sheet(b"\n"), "refused 19 1\n")
        self.assertEqual(self.sheet(b"worked\n\n"), "refused 19 2\n")
        self.assertEqual(self.sheet(b"worked\n" * 251), "refused 20 250\n")
        self.assertEqual(self.sheet(b"worked"), "5 1 1 80 0\n1 0 0 0 0 0 0 0 0 5 1 1 80 0\n")
        self.assertEqual(
            self.sheet(b"worked\nnone\nseven\nnine\nfifteen\ndown\n a b\r\ntwo\nworked\nworked\r\n"),
            "5 1 1 80 0\nunopened\nrefused 7 1\nrefused 9 0\nrefused 15 0\n1 1 1 0 1\n"
            "1 0 0 0 0\n6 2 2 80 10\n5 1 1 80 0\nunopened\n"
            "5 2 1 0 1 1 0 0 0 18 5 5 240 11\n")
        # request 3 counts the four apart
        self.assertEqual(
            self.sheet(b"eighteen\nseventeen\nfifteen\nsixteen\neighteen\nworked\neighteen\nseventeen\n"
                       b"sixteen\neighteen\nsixteen"),
            "refused 18 2\nrefused 17 4\nrefused 15 0\nrefused 16 10\nrefused 18 2\n5 1 1 80 0\n"
            "refused 18 2\nrefused 17 4\nrefused 16 10\nrefused 18 2\nrefused 16 10\n"
            "1 0 0 0 0 1 3 2 4 5 1 1 80 0\n")

    def test_a_name_with_a_0_byte_is_not_looked_for(self):
        def found(name):
            self.assertNotIn(0, name)
            return nights.outcome_of(self.FILES[b"worked"])
        self.assertEqual(nights.sheet(b"a\0\n\0\na", found),
                         "unopened\nunopened\n5 1 1 80 0\n1 2 0 0 0 0 0 0 0 5 1 1 80 0\n")

    def test_a_refused_list_opens_nothing(self):
        for text in (b"a\n\n", b"a\n" * 251):
            nights.sheet(text, self.fail)

    def test_the_largest_sums(self):
        up, down = (16384, 16384, 1, 16384 * 65535, 0), (16384, 16384, 1, 0, 16384 * 65535)
        self.assertEqual(files.count(files.file_of([], [TOP] * MOST_SAMPLES)), up)
        self.assertEqual(files.count(files.file_of([0], [0] * MOST_SAMPLES)), down)
        self.assertEqual(nights.totals_of([up] * 250),
                         (250, *[0] * 8, 4096000, 4096000, 250, 268431360000, 0))
        self.assertEqual(nights.totals_of([down] * 250)[-2:], (0, 268431360000))

    def test_totals(self):
        nothing = (0,) * 14
        self.assertEqual(nights.totals_of([]), nothing)
        self.assertEqual(nights.totals_of([("unopened",)]), (0, 1) + (0,) * 12)
        # 11 is not used again
        self.assertEqual(nights.totals_of([("refused", 11, 0)]), nothing)
        for place, number in enumerate((7, 8, 9, 15, 16, 17, 18), 2):
            expected = [0] * 14
            expected[place] = 2
            self.assertEqual(nights.totals_of([("refused", number, 5)] * 2), tuple(expected))
        self.assertEqual(nights.totals_of([(1, 2, 3, 4, 5), (10, 20, 30, 40, 50)]),
                         (2, *[0] * 8, 11, 22, 33, 44, 55))
        self.assertEqual(nights.add([2 ** 64 - 1] * 14, [("unopened",), (1, 2, 3, 4, 5)]),
                         (0, 0, *[2 ** 64 - 1] * 7, 0, 1, 2, 3, 4))

    def test_lines_lent(self):
        lent = [0] * 128
        self.assertEqual(lines.outcome_line(("unopened",), lent), 9)
        self.assertEqual(bytes(lent[:10]), b"unopened\n\0")
        self.assertEqual(lines.refused_line((19, 2), lent), 13)
        self.assertEqual(bytes(lent[:14]), b"refused 19 2\n\0")
        self.assertEqual(lines.totals_line([2 ** 64 - 1] * 14, [0] * 512), 294)
        self.refused(10, 128, lines.outcome_line, ("unopened",), [0] * 129)
        self.refused(10, 128, lines.refused_line, (19, 2), [0] * 127)
        self.refused(10, 512, lines.totals_line, [0] * 14, [0] * 511)

    def test_lines_that_are_added(self):
        lent, totals, worked = [0] * 128, [1] * 14, self.FILES[b"worked"]
        self.assertEqual(nights.night_line(worked, totals, lent), 11)
        self.assertEqual(bytes(lent[:12]), b"5 1 1 80 0\n\0")
        self.assertEqual(totals, [2, *[1] * 8, 6, 2, 2, 81, 1])
        self.assertEqual(nights.night_unopened(totals, lent), 9)
        self.assertEqual(totals, [2, 2, *[1] * 7, 6, 2, 2, 81, 1])
        self.refused(10, 128, nights.night_line, worked, totals, [0] * 127)
        self.refused(10, 128, nights.night_unopened, totals, [])
        self.assertEqual(totals, [2, 2, *[1] * 7, 6, 2, 2, 81, 1])
        self.assertEqual(nights.night_line(self.FILES[b"eighteen"], totals, lent), 13)
        self.assertEqual(bytes(lent[:14]), b"refused 18 2\n\0")
        self.assertEqual(totals, [2, 2, *[1] * 6, 2, 6, 2, 2, 81, 1])


class Papers(Case):
    """The vectors of the five source documents."""

    def test_004_figure_6(self):
        self.assertEqual(preset(12), [16, 40])
        self.assertEqual(cleaned([16, 40], [1, 1, 3, 2, 2]), [1, 1, 3, 2, 2])
        self.assertEqual(cleaned(preset(7), [2, 2, 0, 1, 1]), [2, 2, 0, 1, 1])
        self.assertEqual(cleaned(preset(10), [2, 2, 0, 1, 1]), [2, 2, 1, 1, 1])
        for number in (7, 10):
            self.assertEqual(cleaned(preset(number), [1, 1, 3, 2, 2]), [1, 1, 2, 2, 2])

    def test_000_examples(self):
        self.assertEqual(form(signal, closing(56)), [16, 36, 40, 72])
        fives = [number_of(c) for c in combinations(range(-2, 3), 3)]
        self.assertEqual(form(signal, median(124)), sorted(fives))
        self.assertEqual(MEDIAN_5, sorted(fives))
        self.assertEqual(scans.root(MEDIAN_5, runs(4, 9, 4, 3, 3)), 23)
        self.assertEqual(scans.root(MEDIAN_5, [0, 1, 0, 1, 0, 1, 0, 1, 0]), 1)
        self.assertEqual(cleaned(MEDIAN_5, [0, 1, 0, 1, 0, 1, 0, 1, 0]),
                         [0, 0, 0, 1, 0, 1, 0, 0, 0])

    def test_003_closing_by_neighbours(self):
        """Proposition 6: {0} and the pairs {a, b}, a < 0 < b, 2 <= b - a <= n."""
        for n, b in ((2, 48), (3, 112), (4, 240), (5, 496)):
            pairs = [number_of([a, c]) for a in range(-REACH, 0) for c in range(1, REACH + 1)
                     if c - a <= n]
            self.assertEqual(form(signal, closing(b)), sorted([16] + pairs))
            self.assertEqual(len(pairs), n * (n - 1) // 2)

    def test_003_rank_5_of_9(self):
        self.assertEqual(form(signal, rank(5, LARGEST_SET)), LONGEST_FORM)

    def test_computed_forms(self):
        self.assertEqual(form(signal, opening(240)), [30, 60, 120, 240])
        self.assertEqual(form(signal, opening(496)), [31, 62, 124, 248, 496])
        self.assertEqual(form(signal, closing(176)), [16, 70, 76, 98, 104, 134, 140, 162, 168])
        self.assertEqual(form(signal, opening(176)), [22, 88, 176])
        self.assertEqual(form(signal, opening(48), closing(48)), [24, 48, 108])
        self.assertEqual(form(signal, closing(48), opening(48)), [20, 24, 40, 48, 80])
        self.assertEqual(form(signal, opening(112), closing(112)), [28, 56, 112, 231, 238, 462])
        self.assertEqual(form(signal, closing(112), opening(112)),
                         [18, 20, 25, 36, 40, 72, 80, 144, 304])
        self.assertEqual(dual(form(signal, opening(112), closing(112))),
                         form(signal, closing(112), opening(112)))

    def test_held_ends_are_not_infinite_ends(self):
        self.assertEqual(ran([2, 4, 2], signal, opening(number_of([0, 2, 3]))), [2, 2, 2])

    PRESETS = [
        # form, dual, mirror
        ([], 19, 0), ([56], 18, 1), ([24], 13, 6), ([40], 16, 3), ([24, 40], 11, 9), ([8], 5, 14),
        ([48], 17, 2), ([24, 48], 12, 7), ([16], 8, 8), ([40, 48], 15, 4), ([24, 40, 48], 10, 10),
        ([8, 48], 4, 15), ([16, 40], 7, 12), ([8, 16], 2, 17), ([32], 14, 5), ([24, 32], 9, 11),
        ([8, 32], 3, 16), ([16, 32], 6, 13), ([8, 16, 32], 1, 18), ([0], 0, 19),
    ]

    def test_presets(self):
        for number, (terms, its_dual, its_mirror) in enumerate(self.PRESETS):
            self.assertEqual(preset(number), terms)
            self.assertEqual(dual(terms), preset(its_dual))
            self.assertEqual(mirrored(terms), preset(its_mirror))


class Laws(Case):
    """What holds of every form and recipe, tried on some."""

    def test_levels_against_largest_of_smallest(self):
        """By "the largest, over the terms, of the smallest sample the term reaches"."""
        chance = Chance(1)
        for _ in range(100):
            terms, scan = any_form(chance), some_scan(chance)
            expected = [max([min([TOP] + [scans.endless(scan, x + d) for d in forms.SETS[term]])
                             for term in terms], default=0) for x in range(len(scan))]
            self.assertEqual(cleaned(terms, scan), expected)

    def test_levels_one_by_one(self):
        function = forms.function_of(MEDIAN_3)
        scan = [3, TOP, 0, 40000]
        for x in range(len(scan)):
            around = {d: scans.endless(scan, x + d) for d in forms.OFFSETS}
            levels = sum(function[scans.cut(around, t)] for t in range(1, TOP + 1))
            self.assertEqual(scans.filtered_at(function, scan, x), levels)

    def test_mirror_and_dual(self):
        chance = Chance(2)
        for _ in range(50):
            terms, scan = any_form(chance), some_scan(chance)
            out = cleaned(terms, scan)
            self.assertEqual(cleaned(mirrored(terms), scan[::-1]), out[::-1])
            self.assertEqual(cleaned(dual(terms), [TOP - s for s in scan]),
                             [TOP - s for s in out])

    def test_compiled_form_is_the_recipe(self):
        chance = Chance(3)
        for _ in range(40):
            recipe, scan = accepted_recipe(chance, chance.between(1, 9)), some_scan(chance)
            lent = [0] * MOST_TERMS
            terms = lent[:recipes.compile_recipe(recipe, lent)]
            out = [0] * len(scan)
            recipes.run_recipe(recipe, scan, out)
            self.assertEqual(cleaned(terms, scan), out)

    def test_tables_and_forms_are_inverse(self):
        chance = Chance(4)
        for _ in range(50):
            terms, table, lent = any_form(chance), [0] * TABLE_BYTES, [0] * MOST_TERMS
            forms.form_to_table(terms, table)
            self.assertEqual(lent[:forms.table_to_form(table, lent)], terms)

    def test_counts_of_positive_functions(self):
        """004: 20 positive functions of three samples."""
        def is_positive(function):
            return not any(forms.is_lost_above(function, v) for v in forms.PATTERNS)
        positive = [t for t in range(256) if is_positive(forms.preset_function(t))]
        self.assertEqual(positive, forms.PRESET_TABLES)

    def test_damaged_forms_are_mostly_refused(self):
        chance = Chance(5)
        refused = 0
        for _ in range(100):
            try:
                forms.check(damaged_form(chance))
            except Refused as no:
                self.assertEqual(no.number, 7)
                refused += 1
        self.assertGreater(refused, 70)


class Vectors(Case):
    """The formats, and that the vectors reach what they are to reach."""

    def test_record(self):
        self.assertEqual(record(call("clean", [24], [1, 258], 2)).hex(" "),
                         "02 00 05 00 00 00 63 6c 65 61 6e "
                         "01 00 00 00 18 00 02 00 00 00 01 00 02 01 00 00 00 00 02 00 00 00")
        self.assertEqual(record(call("preset", 2 ** 64 - 1, 3)).hex(" "),
                         "07 00 06 00 00 00 70 72 65 73 65 74 00 00 00 00 00 00 00 00 00 00 00 00 "
                         "03 00 00 00 ff ff ff ff ff ff ff ff")

    def test_line(self):
        self.assertEqual(line(call("clean", [16], [1, 2], 2)), "clean 0 2 : 1 2")
        self.assertEqual(line(call("clean", [16], [1, 2], 0)), "clean 10 2 :")
        self.assertEqual(line(call("residue", [], [], 2)), "residue 9 0 : -7 -7")
        self.assertEqual(line(call("root", [16], [1, 2])), "root 0 2")
        self.assertEqual(line(call("read", files.file_of([16], [5]), 2, 1)),
                         "read 0 1 1 : 5 43981 : 16")
        self.assertEqual(line(call("table_to_form", [0] * TABLE_BYTES, 41)),
                         "table_to_form 0 0 : #%d" % checksum([43981] * 41))

    def test_night_record(self):
        self.assertEqual(record(call("judge", [(b"ab", 3)], [1, 2])).hex(" "),
                         "02 00 01 00 00 00 02 00 00 00 61 62 06 00 00 00 02 00 00 00 01 00 02 00")
        self.assertEqual(record(call("refused_line", (19, 2), 128)).hex(" "),
                         "05 00 00 00 00 00 00 00 00 00 80 00 00 00 "
                         "13 00 00 00 00 00 00 00 02 00 00 00 00 00 00 00")
        numbers = record(call("add", [0] * 14, [("unopened",), ("refused", 9, 4), (1, 2, 3, 4, 5)]))[10 + 112:]
        self.assertEqual([int.from_bytes(numbers[i:i + 8], "little") for i in range(0, len(numbers), 8)],
                         [3, 0, 0, 0, 0, 0, 0, 2, 9, 4, 0, 0, 0, 1, 1, 2, 3, 4, 5])

    def test_night_line(self):
        self.assertEqual(line(call("check_list", [(b"a\n", 250)])), "check_list 0 250")
        self.assertEqual(line(call("check_list", [(b"a\n", 2), (b"\n", 1)])), "check_list 19 3")
        self.assertEqual(line(call("judge", [(b"a\n", 251)], [1])), "judge 20 250 501")
        self.assertEqual(line(call("judge", [(b"a", 3)], [2])), "judge 0 0 2")
        self.assertEqual(line(call("line_end", [(b"ab", 2)], 1)), "line_end 0 4")
        self.assertEqual(line(call("refused_line", (19, 2), 3)), "refused_line 10 128 : 171 171 171")
        self.assertEqual(line(call("totals_line", [1] * 14, 512)), "totals_line 0 28 : #%d 1%s" % (
            checksum([*b"1 1 1 1 1 1 1 1 1 1 1 1 1 1\n", *[171] * 484]), " 1" * 13))
        self.assertEqual(line(call("add", range(14), [("unopened",)])),
                         "add 0 0 2 2 3 4 5 6 7 8 9 10 11 12 13")

    def test_sheet_line(self):
        self.assertEqual(line(call("sheet", [(b"a\n", 3)])), "sheet 3 unopened / 0 3%s" % (" 0" * 12))
        self.assertEqual(line(call("sheet_of_length", 40000)),
                         "sheet_of_length refused 15 40000 / 0 0 0 0 0 1%s" % (" 0" * 8))

    def test_checksum(self):
        self.assertEqual(checksum([0, -7]), 31 + 2 ** 32 - 7 + 1)

    # What each call can answer: 0 for accepted, and its refusals. No input has refusal 8.
    ANSWERS = {
        "check": {0, 7}, "clean": {0, 7, 9, 10}, "residue": {0, 7, 9, 10}, "root": {0, 7, 9},
        "table_to_form": {0, 6, 12, 13}, "form_to_table": {0, 7, 13}, "preset": {0, 6, 14},
        "run_recipe": {0, 1, 2, 3, 4, 5, 9, 10}, "compile": {0, 1, 2, 3, 4, 5, 6},
        "write": {0, 7, 9, 10}, "read": {0, 6, 7, 9, 10, 15, 16, 17, 18}, "count": {0, 7, 9, 15, 16, 17, 18},
        "line": {0, 10},
        "check_list": {0, 19, 20}, "judge": {0, 19, 20}, "line_end": {0}, "outcome_line": {0, 10},
        "refused_line": {0, 10}, "totals_line": {0, 10}, "add": {0},
    }

    def test_the_stored_lines_have_every_answer_of_every_call(self):
        found = {}
        for program in GROUPS:
            for stored in (CRATES / program / "stdout").read_text().splitlines():
                name, number = stored.split()[:2]
                found.setdefault(name, set()).add(int(number))
        self.assertEqual(found, self.ANSWERS)


if __name__ == "__main__":
    unittest.main()
