"""The calls: document 01's cases, what each takes and gives, and its refusals."""

import itertools
import tracemalloc
import unittest

import stackfilter
from stackfilter import (LONGEST_FILE, LONGEST_RECIPE, MOST_SAMPLES, MOST_TERMS, PRESETS, STEP_BYTES, TABLE_BYTES, TOP, Counts,
                         Refusal, ScanFile, offsets, recipe)

try:
    import numpy
except ImportError:
    numpy = None

MEDIAN = [24, 40, 48]
SCAN = [10, 10, 90, 10, 10]
FILE = bytes.fromhex("0A000A005A000A000A00 180028003000 1C000000 12000000 0300 5346")


class Answers(unittest.TestCase):
    def test_recipes_compile_to_their_forms(self):
        cases = [([], [16]), ([("median", (-1, 0, 1))], MEDIAN), ([("open", (0, 1))], [24, 48]),
                 ([("close", (0, 1))], [16, 40]), ([("dilate", (0, 1))], [8, 16]), ([("rank", 1, (0, 1))], [16, 32]),
                 ([("open", (-1, 0, 1))], [28, 56, 112]), ([("close", (0, 1)), "signal", "smaller"], [16]),
                 ([("erode", (-4, 4))], [257])]
        for steps, terms in cases:
            self.assertEqual(stackfilter.compile(recipe("signal", *steps)), terms)

    def test_a_recipe_runs_on_the_endless_signal(self):
        steps = recipe("signal", ("erode", (-1, 0, 1)), ("dilate", (-1, 0, 1)))
        self.assertEqual(stackfilter.run_recipe(steps, [5, 0, 0]), [5, 0, 0])

    def test_a_form_is_checked(self):
        self.assertEqual(stackfilter.check(MEDIAN), 3)
        self.assertEqual(stackfilter.check([]), 0)
        self.assertEqual(stackfilter.check([offsets(-1, 0), offsets(-1, 1), offsets(0, 1)]), 3)

    def test_scans(self):
        self.assertEqual(stackfilter.clean(MEDIAN, SCAN), [10] * 5)
        self.assertEqual(stackfilter.clean([], [3, 9]), [0, 0])
        self.assertEqual(stackfilter.residue(MEDIAN, SCAN), [0, 0, 80, 0, 0])
        self.assertEqual(stackfilter.residue([0], [0, TOP]), [-TOP, 0])
        self.assertEqual(stackfilter.root(MEDIAN, SCAN), 2)
        self.assertIsNone(stackfilter.root(MEDIAN, [10, 10, 90, 90]))

    def test_tables_and_presets(self):
        for number in range(PRESETS):
            terms = stackfilter.preset(number)
            table = stackfilter.form_to_table(terms)
            self.assertEqual((type(table), len(table)), (bytes, TABLE_BYTES))
            self.assertEqual(stackfilter.table_to_form(table), terms)
        self.assertEqual(stackfilter.preset(10), MEDIAN)

    def test_files(self):
        self.assertEqual(stackfilter.write(MEDIAN, SCAN), FILE)
        self.assertEqual(stackfilter.read(FILE), ScanFile(SCAN, MEDIAN))
        self.assertEqual(stackfilter.count(FILE), Counts(5, 1, 1, 80, 0))

    def test_a_spike_up_beside_a_spike_down_is_two(self):
        file = stackfilter.write(stackfilter.preset(10), [10, 10, 90, 0, 10, 10])
        self.assertEqual(stackfilter.count(file), Counts(6, 2, 2, 80, 10))
        self.assertEqual(stackfilter.line(file), "6 2 2 80 10\n")

    def test_a_file_has_a_line_whatever_it_holds(self):
        self.assertEqual(stackfilter.line(FILE), "5 1 1 80 0\n")
        self.assertEqual(stackfilter.line(b""), "refused 15 0\n")
        self.assertEqual(stackfilter.line(FILE[1:]), "refused 18 15\n")
        self.assertEqual(stackfilter.line(FILE[10:16] + bytes.fromhex("12000000 12000000 0300 5346")), "refused 9 0\n")

    def test_the_longest_scan(self):
        scan = [number * 40503 % (TOP + 1) for number in range(MOST_SAMPLES)]
        self.assertEqual(stackfilter.clean([16], scan), scan)
        self.assertEqual(stackfilter.read(stackfilter.write([16], scan)).samples, scan)

    def test_the_longest_file(self):
        form = stackfilter.compile(recipe("signal", ("median", range(-4, 5))))
        self.assertEqual(len(form), MOST_TERMS)
        file = stackfilter.write(form, [TOP] * MOST_SAMPLES)
        self.assertEqual(len(file), LONGEST_FILE)
        self.assertEqual(stackfilter.read(file), ScanFile([TOP] * MOST_SAMPLES, form))


class Refusals(unittest.TestCase):
    def refused(self, number, place, call, *arguments):
        with self.assertRaises(Refusal) as caught:
            call(*arguments)
        refusal = caught.exception
        self.assertEqual((refusal.number, refusal.place), (number, place))
        self.assertEqual(str(refusal), f"refused {number} {place}: {refusal.sentence}")

    def test_recipes(self):
        self.refused(1, 0, stackfilter.compile, b"")
        longer = LONGEST_RECIPE + STEP_BYTES
        self.refused(1, longer, stackfilter.compile, bytes(longer))
        self.refused(2, 0, stackfilter.compile, [9, 0, 0, 0])
        self.refused(3, 1, stackfilter.compile, bytes.fromhex("00000000 01000000"))
        self.refused(4, 0, stackfilter.compile, recipe(("erode", (0, 1))))
        self.refused(4, 2, stackfilter.run_recipe, recipe("signal", "signal"), [])
        self.refused(5, 1, stackfilter.run_recipe, recipe("signal", ("open", range(-1, 5))), SCAN)

    def test_forms_and_scans(self):
        for call in (stackfilter.clean, stackfilter.residue, stackfilter.root, stackfilter.write):
            self.refused(7, 1, call, [24, 16], SCAN)
            self.refused(9, 0, call, MEDIAN, [])
            self.refused(9, MOST_SAMPLES + 1, call, MEDIAN, [7] * (MOST_SAMPLES + 1))
        self.refused(7, 1, stackfilter.form_to_table, [16, 24])
        self.refused(7, 0, stackfilter.form_to_table, [512])
        self.refused(7, 1, stackfilter.check, [24, 16])

    def test_tables_and_presets(self):
        self.refused(13, TABLE_BYTES - 1, stackfilter.table_to_form, bytes(TABLE_BYTES - 1))
        self.refused(12, 0, stackfilter.table_to_form, b"\x01" + bytes(TABLE_BYTES - 1))
        self.refused(14, 2 ** 32, stackfilter.preset, 2 ** 32)

    def test_a_form_is_judged_before_a_scan_that_is_too_long(self):
        for call in (stackfilter.clean, stackfilter.residue, stackfilter.root, stackfilter.write):
            self.refused(7, 1, call, [24, 16], [7] * (MOST_SAMPLES + 1))
        self.refused(4, 2, stackfilter.run_recipe, recipe("signal", "signal"), [7] * (MOST_SAMPLES + 1))


class Layouts(unittest.TestCase):
    """What is wrong with a scan file: the causes apart, together and in their order, each at its byte."""

    # A byte of FILE that may be spoilt, with the refusal that follows, in the order tested: in the mark, the term distance, the
    # number of terms, the sample distance, the first term.
    FAULTS = ((27, 16, 26), (20, 17, 20), (24, 17, 20), (16, 18, 16), (11, 7, 0))

    def refused(self, number, place, file):
        for call in (stackfilter.read, stackfilter.count):
            with self.assertRaises(Refusal) as caught:
                call(file)
            self.assertEqual((caught.exception.number, caught.exception.place), (number, place))
        self.assertEqual(stackfilter.line(file), f"refused {number} {place}\n")

    def test_the_first_fault_counts(self):
        for count in range(1, len(self.FAULTS) + 1):
            for faults in itertools.combinations(self.FAULTS, count):
                file = bytearray(FILE)
                for byte, _, _ in faults:
                    file[byte] ^= 2
                self.refused(*faults[0][1:], bytes(file))

    def test_the_length_comes_first(self):
        for length in range(12):
            self.refused(15, length, FILE[len(FILE) - length:])
            self.refused(15, length, bytes(length))
        self.refused(16, 10, bytes(12))
        self.refused(16, LONGEST_FILE - 2, bytes(LONGEST_FILE))
        self.refused(15, LONGEST_FILE + 1, bytes(LONGEST_FILE + 1))
        self.refused(15, LONGEST_FILE + 1, bytes(LONGEST_FILE + 1 - len(FILE)) + FILE)
        self.refused(15, 1_000_000, bytes(1_000_000))

    def test_a_file_that_is_cut(self):
        self.refused(18, 15, FILE[1:])
        self.refused(18, 14, FILE[2:])
        self.refused(16, 25, FILE[:-1])
        self.refused(16, 26, FILE[:-2] + b"FS")

    def test_every_byte_of_the_trailer(self):
        for byte in range(16, 28):
            for bit in range(8):
                file = bytearray(FILE)
                file[byte] ^= 1 << bit
                self.refused(*((18, 16) if byte < 20 else (17, 20) if byte < 26 else (16, 26)), bytes(file))

    def test_the_causes_of_a_sample_distance(self):
        other_length = bytes.fromhex("0A00 1E000000 0C000000 0000 5346")
        below_the_terms = bytes.fromhex("0C000000 0E000000 0100 5346")
        half_a_sample = bytes.fromhex("0A 0D000000 0C000000 0000 5346")
        for file, place in ((other_length, 2), (below_the_terms, 0), (half_a_sample, 1)):
            self.refused(18, place, file)

    def test_a_layout_comes_before_a_scan_without_samples(self):
        no_samples = FILE[10:16] + bytes.fromhex("12000000 12000000 0300 5346")
        self.refused(9, 0, no_samples)
        self.refused(18, 6, no_samples.replace(b"\x12", b"\x14", 1))
        self.refused(17, 10, FILE[10:16] + bytes.fromhex("12000000 12000000 0200 5346"))


class LongInputs(unittest.TestCase):
    """What is too long is refused before an output is made for it."""

    def most_memory(self, call, *arguments):
        tracemalloc.start()
        try:
            with self.assertRaises(Refusal) as caught:
                call(*arguments)
            return caught.exception, tracemalloc.get_traced_memory()[1]
        finally:
            tracemalloc.stop()

    @unittest.skipIf(numpy is None, "NumPy is not installed")
    def test_a_scan_of_ten_million_samples(self):
        scan = numpy.zeros(10_000_000, "uint16")
        steps = recipe("signal")
        for call, form in ((stackfilter.clean, MEDIAN), (stackfilter.residue, MEDIAN), (stackfilter.write, MEDIAN),
                           (stackfilter.root, MEDIAN), (stackfilter.run_recipe, steps)):
            refusal, memory = self.most_memory(call, form, scan)
            self.assertEqual((refusal.number, refusal.place), (9, scan.size))
            self.assertLess(memory, 1_000_000)

    def test_a_list_of_a_million_samples(self):
        scan = [7] * 1_000_000
        refusal, memory = self.most_memory(stackfilter.residue, MEDIAN, scan)
        self.assertEqual((refusal.number, refusal.place), (9, len(scan)))
        # The samples as they pass to the library have two bytes each, a residue would have four more.
        self.assertLess(memory, 3 * len(scan))

    def test_a_file_of_ten_million_bytes(self):
        file = bytes(10_000_000)
        refusal, memory = self.most_memory(stackfilter.read, file)
        self.assertEqual((refusal.number, refusal.place), (15, len(file)))
        self.assertLess(memory, 1.5 * len(file))
