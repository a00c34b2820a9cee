"""What the calls take, and what they say of anything else."""

import array
import collections
import contextlib
import ctypes
import decimal
import io
import pathlib
import unittest

import stackfilter
from stackfilter import ArgumentError, Offsets, Refusal, StackfilterError, arguments, memory, offsets, recipe

try:
    import numpy
except ImportError:
    numpy = None
try:
    import pandas
except ImportError:
    pandas = None

MEDIAN = [24, 40, 48]
SCAN = [10, 10, 90, 10, 10]
FILE = bytes.fromhex("0A000A005A000A000A00 180028003000 1C000000 12000000 0300 5346")
TOP = 65535
SAMPLE_RULE = ("a sample is a whole number from 0 to 65,535; round the readings, and shift or clip them into that range,"
               " first")


class Frame:
    """What looks like a data frame."""

    columns = ["time", "counts"]
    iloc = None
    ndim = 2


class ArgumentTest(unittest.TestCase):
    def bad(self, argument, index, sentence, call, *arguments):
        with self.assertRaises(ArgumentError) as caught:
            call(*arguments)
        error = caught.exception
        self.assertEqual((error.argument, error.index, str(error)), (argument, index, sentence))
        self.assertIsInstance(error, StackfilterError)
        self.assertIsInstance(error, ValueError)


class Rows(ArgumentTest):
    def bad_scan(self, sentence, scan):
        for call in (stackfilter.clean, stackfilter.residue, stackfilter.root, stackfilter.write):
            self.bad("scan", None, "scan " + sentence, call, MEDIAN, scan)
        self.bad("scan", None, "scan " + sentence, stackfilter.run_recipe, recipe("signal"), scan)

    def test_a_scan_is_any_sequence_of_numbers(self):
        for scan in (SCAN, tuple(SCAN), iter(SCAN), collections.deque(SCAN), array.array("H", SCAN), array.array("B", SCAN),
                     memoryview(array.array("H", SCAN))):
            self.assertEqual(stackfilter.clean(iter(MEDIAN), scan), [10] * 5)
        self.assertEqual(stackfilter.clean([16], range(3)), [0, 1, 2])

    def test_what_is_empty_has_an_address(self):
        for empty in (memory.give(arguments.SCAN, []), memory.give(arguments.FILE, b""), memory.lend("H", 0)):
            self.assertEqual(empty.length, 0)
            self.assertNotEqual(empty.address, 0)

    def test_bytes_may_be_any_bytes_or_a_list(self):
        steps = recipe("signal", ("median", (-1, 0, 1)))
        for given in (steps, bytearray(steps), memoryview(steps), list(steps)):
            self.assertEqual(stackfilter.compile(given), MEDIAN)
        self.assertEqual(stackfilter.count(list(FILE)).above, 80)
        self.bad("recipe", 0, 'recipe[0] is -1: a byte is a whole number from 0 to 255; recipe("signal", ("median", (-1, 0,'
                              ' 1))) makes the bytes', stackfilter.compile, memoryview(array.array("b", [-1, 0, 0, 0])))

    def test_frames(self):
        self.bad_scan("is a data frame: give one column of it, as scan['counts'].tolist() does", Frame())

    def test_dicts_and_sets(self):
        self.bad_scan("is a dict: give its numbers in their order, as list(scan.values()) does", {0: 10, 1: 10})
        self.bad_scan("is a set, which has no order: give its samples as a list of whole numbers", {10, 90})
        self.bad("terms", None, "terms is a set, which has no order: give its terms as a list", stackfilter.check, {24, 40})

    def test_text(self):
        self.bad_scan("is text: give its samples as a list of whole numbers", "10 10 90")
        self.bad("terms", None, "terms is text: give its terms as a list", stackfilter.check, "24")
        self.bad("recipe", None, 'recipe is text: give the bytes that recipe("signal", ("median", (-1, 0, 1))) makes',
                 stackfilter.compile, "signal")
        self.bad("table", None, "table is text: give the bytes of a truth table", stackfilter.table_to_form, "0" * 64)
        for call in (stackfilter.read, stackfilter.count, stackfilter.line):
            self.bad("file", None, "file is text: give the bytes of a scan file, as pathlib.Path(name).read_bytes() does",
                     call, "day.scan")

    def test_paths_and_open_files(self):
        with self.assertRaisesRegex(ArgumentError, r"^file is a value of type \w*Path: give the bytes of a scan file, as"):
            stackfilter.count(pathlib.Path("day.scan"))
        self.bad("file", None, "file is an open file: give what file.read() gives", stackfilter.count, io.BytesIO(FILE))

    def test_bytes_where_samples_or_terms_have_two(self):
        for scan in (bytes(SCAN), bytearray(SCAN), memoryview(bytes(SCAN))):
            self.bad_scan("is bytes, and a sample may be one or two of them: give list(scan) where it is one,"
                          " array.array('H', scan) where it is two, low byte first", scan)
        with self.assertRaisesRegex(ArgumentError, "^terms is bytes, and a term may be one or two of them"):
            stackfilter.check(bytes(MEDIAN))

    def test_what_the_sentence_about_bytes_says_works(self):
        two = bytes.fromhex("0A00 0A00 5A00 0A00 0A00")
        self.assertEqual(stackfilter.clean(MEDIAN, array.array("H", two)), [10] * 5)
        self.assertEqual(stackfilter.clean(MEDIAN, list(bytes(SCAN))), [10] * 5)

    def test_what_is_no_row(self):
        self.bad_scan("is 5: give its samples as a list of whole numbers", 5)
        self.bad_scan("is 1.5, of type float: give its samples as a list of whole numbers", 1.5)
        self.bad_scan("is a value of type NoneType: give its samples as a list of whole numbers", None)


class Elements(ArgumentTest):
    def bad_sample(self, index, shown, scan, rule=SAMPLE_RULE):
        for call in (stackfilter.clean, stackfilter.residue, stackfilter.root, stackfilter.write):
            self.bad("scan", index, f"scan[{index}] is {shown}: {rule}", call, MEDIAN, scan)

    def rows(self, values):
        """The same numbers as a list and as an array."""
        return [values] if numpy is None else [values, numpy.array(values)]

    def test_numbers_that_do_not_fit_are_never_cut(self):
        for number in (-1, TOP + 1, 2 ** 40, -2 ** 63):
            for scan in self.rows([7, 8, number, -5]):
                self.bad_sample(2, str(number), scan)
        for scan in self.rows([2 ** 64 - 1]):
            self.bad_sample(0, str(2 ** 64 - 1), scan)
        self.bad_sample(1, "a number of 16610 bits", [7, 10 ** 5000])

    def test_floats(self):
        for scan in self.rows([1.5, 2.0]):
            self.bad_sample(0, "1.5, of type float", scan)
        self.bad_sample(1, "2.0, of type float", [1, 2.0])
        self.bad_sample(1, "nan, of type float", [1, float("nan")])

    def test_truth_values(self):
        for scan in self.rows([True, False]):
            self.bad_sample(0, "True, of type bool", scan)

    def test_what_is_no_number(self):
        rule = "a sample is a whole number from 0 to 65,535; give its samples as a list of whole numbers"
        self.bad_sample(1, "'10', of type str", [10, "10"], rule)
        self.bad_sample(0, "a value of type list", [[10, 10], [90, 10]], rule)
        self.bad_sample(1, "a value of type NoneType", [10, None], rule)

    def test_terms_and_bytes(self):
        self.bad("terms", 1, "terms[1] is 65536: a term is a whole number from 0 to 511; compile, preset and offsets make"
                             " terms", stackfilter.check, [24, 65536])
        for given in self.rows([0, 256, 0, 0]):
            self.bad("recipe", 1, 'recipe[1] is 256: a byte is a whole number from 0 to 255; recipe("signal", ("median",'
                                  ' (-1, 0, 1))) makes the bytes', stackfilter.compile, given)
        self.bad("table", 0, "table[0] is -1: a byte is a whole number from 0 to 255; form_to_table makes the bytes",
                 stackfilter.table_to_form, [-1] * 64)
        self.bad("file", 2, "file[2] is 300: a byte is a whole number from 0 to 255; pathlib.Path(name).read_bytes() gives"
                            " the bytes of a scan file", stackfilter.count, [0, 0, 300])

    def test_presets(self):
        for number, shown in ((-1, "-1"), (2 ** 64, "a number of 65 bits"), (1.0, "1.0, of type float"),
                              (True, "True, of type bool"), ("10", "'10', of type str")):
            self.bad("number", None, f"number is {shown}: give the number of a preset, 0 to 19", stackfilter.preset, number)

    def test_sets_of_offsets_are_terms(self):
        self.assertEqual(stackfilter.clean([offsets(-1, 0), offsets(-1, 1), offsets(0, 1)], SCAN), [10] * 5)


class OneFamily(unittest.TestCase):
    """Whatever is given, it is an answer or a StackfilterError that comes back."""

    def odd_values(self):
        yield from (None, object(), 1.5, "x", "", b"\0", {}, set(), [[]], [None], [object()], Frame(), range(-1, 1), [2 ** 70],
                    [float("nan")], [True], iter([]), int, 1j, [1j], memoryview(b""), memoryview(b"abcd").cast("B", (2, 2)),
                    memoryview((ctypes.c_uint16 * 3)()), array.array("d", [1.0]), [b"a"], [decimal.Decimal(3)], Ellipsis)
        if numpy is not None:
            yield from (numpy.array(None), numpy.array([None]), numpy.array([[1]]), numpy.zeros(2, [("a", "i4")]),
                        numpy.array(["2026-01-01"], "datetime64[D]"), numpy.array([b"a"]), numpy.ma.masked, numpy.nan,
                        numpy.array([1j]), numpy.zeros((0, 3)), numpy.uint16(4), [numpy.bool_(True)])

    def calls(self, odd):
        one = (stackfilter.compile, stackfilter.check, stackfilter.table_to_form, stackfilter.form_to_table,
               stackfilter.preset, stackfilter.read, stackfilter.count, stackfilter.line, stackfilter.night, recipe, offsets,
               Offsets)
        yield from ((call, odd) for call in one)
        yield stackfilter.night, [odd]
        for call in (stackfilter.clean, stackfilter.residue, stackfilter.root, stackfilter.write):
            yield from ((call, MEDIAN, odd), (call, odd, SCAN))
        yield from ((stackfilter.run_recipe, recipe("signal"), odd), (stackfilter.run_recipe, odd, SCAN))
        steps = ((odd,), ("erode", odd), ("erode", [odd]), ("rank", odd, (0,)), ("rank", 1, odd))
        yield from ((recipe, step) for step in steps)

    def test_odd_values(self):
        for odd in self.odd_values():
            for call, *arguments in self.calls(odd):
                with self.subTest(call=call.__name__, arguments=repr(arguments)):
                    with contextlib.suppress(StackfilterError):
                        call(*arguments)


@unittest.skipIf(numpy is None, "NumPy is not installed")
class Arrays(ArgumentTest):
    def given(self, answer, kind, values):
        self.assertTrue(arguments.is_array(answer))
        self.assertEqual((answer.dtype, answer.tolist()), (numpy.dtype(kind), values))

    def test_an_array_gives_an_array(self):
        scan = numpy.array(SCAN, "uint16")
        self.given(stackfilter.clean(MEDIAN, scan), "uint16", [10] * 5)
        self.given(stackfilter.residue(MEDIAN, scan), "int32", [0, 0, 80, 0, 0])
        self.given(stackfilter.run_recipe(recipe("signal"), scan), "uint16", SCAN)
        self.assertEqual(stackfilter.root(MEDIAN, scan), 2)
        self.assertEqual(stackfilter.write(MEDIAN, scan), FILE)
        file = numpy.frombuffer(FILE, "uint8")
        self.given(stackfilter.read(file).samples, "uint16", SCAN)
        self.given(stackfilter.read(file).terms, "uint16", MEDIAN)
        self.given(stackfilter.compile(numpy.frombuffer(recipe("signal"), "uint8")), "uint16", [16])
        self.given(stackfilter.table_to_form(numpy.zeros(64, "uint8")), "uint16", [])

    def test_an_array_of_terms_does_not_make_the_answer_one(self):
        self.assertEqual(stackfilter.clean(numpy.array(MEDIAN), SCAN), [10] * 5)

    def test_any_layout_of_whole_numbers_is_taken(self):
        unaligned = numpy.frombuffer(b"\0" + numpy.array(SCAN, "<u2").tobytes(), "<u2", offset=1)
        for scan in (numpy.array(SCAN), numpy.array(SCAN, ">u2"), numpy.repeat(SCAN, 2)[::2], unaligned,
                     numpy.array(SCAN, "uint8"), numpy.array(SCAN, object)):
            self.given(stackfilter.clean(numpy.array(MEDIAN), scan), "uint16", [10] * 5)
        self.assertEqual(stackfilter.clean(list(numpy.array(MEDIAN)), list(numpy.array(SCAN))), [10] * 5)

    def test_what_passes_has_no_gaps_and_is_aligned(self):
        gaps = numpy.repeat(numpy.array(SCAN, "uint16"), 2)[::2]
        unaligned = numpy.frombuffer(b"\0" + numpy.array(SCAN, "uint16").tobytes(), "uint16", offset=1)
        for scan in (gaps, gaps[::-1], unaligned):
            self.assertEqual(stackfilter.clean([16], scan).tolist(), scan.tolist())
            passed = arguments.row(arguments.SCAN, scan)
            self.assertTrue(passed.flags.aligned and passed.flags.c_contiguous)

    def test_an_array_that_is_given_keeps_its_elements(self):
        scan = numpy.array(SCAN, "uint16")
        stackfilter.clean(MEDIAN, scan)
        self.assertEqual(scan.tolist(), SCAN)

    def test_axes(self):
        advice = "give one row of it, as scan[0] does, or all in one, as scan.ravel()"
        for scan, axes in ((numpy.array([SCAN, SCAN]), 2), (numpy.zeros((1, 2, 3), int), 3), (numpy.array(7), 0)):
            self.bad("scan", None, f"scan has {axes} axes: {advice}", stackfilter.clean, MEDIAN, scan)

    def test_masked_arrays(self):
        for mask in ([0, 0, 1, 0, 0], [0] * 5):
            self.bad("scan", None, "scan is a masked array: put a number where one is missing, as scan.filled(0) does",
                     stackfilter.clean, MEDIAN, numpy.ma.array(SCAN, mask=mask))

    def test_an_empty_array_is_refused_by_the_library(self):
        for kind in ("uint16", "float64"):
            with self.assertRaisesRegex(Refusal, "^refused 9 0: "):
                stackfilter.clean(MEDIAN, numpy.array([], kind))


@unittest.skipIf(pandas is None, "pandas is not installed")
class Frames(ArgumentTest):
    def test_a_column_is_taken_and_a_frame_is_not(self):
        frame = pandas.DataFrame({"counts": SCAN})
        self.assertEqual(stackfilter.clean(MEDIAN, frame["counts"]), [10] * 5)
        self.assertEqual(stackfilter.clean(MEDIAN, frame["counts"].tolist()), [10] * 5)
        self.bad("scan", None, "scan is a data frame: give one column of it, as scan['counts'].tolist() does",
                 stackfilter.clean, MEDIAN, frame)
