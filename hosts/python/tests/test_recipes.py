"""Sets of offsets, and recipes from steps that are given by name."""

import pickle
import unittest

import stackfilter
from stackfilter import ArgumentError, Offsets, offsets, recipe

MEDIAN_OF_THREE = bytes.fromhex("00000000 06003800")


class Sets(unittest.TestCase):
    def bad(self, index, sentence, *members):
        with self.assertRaises(ArgumentError) as caught:
            offsets(*members)
        self.assertEqual((caught.exception.argument, caught.exception.index), ("offsets", index))
        self.assertEqual(str(caught.exception), f"offsets[{index}] is {sentence}")

    def test_an_offset_is_worth_its_bit(self):
        self.assertEqual(offsets(-1, 0, 1), 56)
        self.assertEqual([offsets(offset) for offset in range(-4, 5)], [2 ** bit for bit in range(9)])
        self.assertEqual(offsets(), 0)
        self.assertEqual(offsets(4, -4), 257)

    def test_members_are_read_back(self):
        for number in range(stackfilter.PATTERNS):
            self.assertEqual(offsets(*Offsets(number).members()), number)

    def test_what_is_no_offset(self):
        rule = "an offset is a whole number from -4 to 4, as in offsets(-1, 0, 1)"
        self.bad(1, f"5: {rule}", 0, 5)
        self.bad(0, f"-5: {rule}", -5)
        self.bad(0, f"0.5, of type float: {rule}", 0.5)
        self.bad(0, f"a value of type list: {rule}", [-1, 0, 1])
        self.bad(2, "0 a second time: a set has an offset once, and a filter cannot weigh it; leave it out", -1, 0, 0)

    def test_a_number_that_is_no_set(self):
        for number in (-1, 512, 1.5):
            with self.assertRaisesRegex(ArgumentError, r"^number is .*: a set of offsets has a number from 0 to 511, which"):
                Offsets(number)

    def test_it_is_kept_by_pickle(self):
        self.assertIsInstance(pickle.loads(pickle.dumps(offsets(0, 1))), Offsets)


class Recipes(unittest.TestCase):
    def bad(self, sentence, step):
        with self.assertRaises(ArgumentError) as caught:
            recipe("signal", step)
        self.assertEqual((caught.exception.argument, caught.exception.index), ("steps", 1))
        self.assertEqual(str(caught.exception), "steps[1] " + sentence)

    def test_every_step(self):
        one_field = ("erode", "dilate", "open", "close", "median")
        for name, code in stackfilter.CODES.items():
            step = (name, 3, (-1, 0, 1)) if name == "rank" else (name, (-1, 0, 1)) if name in one_field else name
            fields = [3, 56, 0] if name == "rank" else [0, 56, 0] if name in one_field else [0, 0, 0]
            self.assertEqual(list(recipe(step)), [code, *fields])
        self.assertEqual(recipe(), b"")

    def test_offsets_are_a_collection_or_a_set_of_offsets(self):
        for members in (offsets(-1, 0, 1), (-1, 0, 1), [-1, 0, 1], {1, 0, -1}, frozenset((0, 1, -1)), range(-1, 2),
                        Offsets(56), iter((-1, 0, 1))):
            self.assertEqual(recipe("signal", ("median", members)), MEDIAN_OF_THREE)

    def test_a_step_may_be_a_list(self):
        self.assertEqual(recipe(["signal"], ["median", [-1, 0, 1]]), MEDIAN_OF_THREE)

    def test_a_plain_number_is_no_set_of_offsets(self):
        for number in (7, 56, 0, -1, 3.0):
            shown = f"{number}, of type float" if isinstance(number, float) else number
            self.bad(f"gives its offsets as {shown}: write them out, as (-1, 0, 1) or offsets(-1, 0, 1)", ("median", number))

    def test_offsets_of_another_kind(self):
        write = "write them out, as (-1, 0, 1) or offsets(-1, 0, 1)"
        self.bad(f"gives its offsets as '101', of type str: {write}", ("erode", "101"))
        self.bad(f"gives its offsets as a value of type dict: {write}", ("erode", {0: 1}))
        self.bad(f"gives its offsets as a value of type bytes: {write}", ("erode", b"\0\1"))
        self.bad(f"gives its offsets as a value of type NoneType: {write}", ("erode", None))
        self.bad("has no offsets: give one at least, as (0,)", ("erode", ()))
        self.bad("has no offsets: give one at least, as (0,)", ("erode", offsets()))
        self.bad("has bad offsets: offsets[1] is 5: an offset is a whole number from -4 to 4, as in offsets(-1, 0, 1)",
                 ("erode", (0, 5)))

    def test_unknown_steps(self):
        self.bad("is 'medain': a step is signal, erode, dilate, open, close, rank, median, larger or smaller", "medain")
        self.bad("is 'Median': a step is signal, erode, dilate, open, close, rank, median, larger or smaller",
                 ("Median", (0,)))
        begins = ('a step is a name or a tuple that begins with one, as in recipe("signal", ("median", (-1, 0, 1)))')
        self.bad(f"is 6: {begins}", 6)
        self.bad(f"is a value of type tuple: {begins}", ())
        self.bad(f"is a value of type tuple: {begins}", (6, (0,)))

    def test_an_even_median(self):
        self.bad('is the median of 2 offsets, and it takes an odd number of them: write ("rank", k, offsets) for the k-th'
                 ' largest', ("median", (0, 1)))

    def test_a_missing_rank(self):
        self.bad('is rank with 1 field, and it takes its number k, then its offsets: write ("rank", 2, (-1, 0, 1))',
                 ("rank", (-1, 0, 1)))

    def test_other_fields_than_a_step_has(self):
        self.bad('is erode with 0 fields, and it takes its offsets: write ("erode", (-1, 0, 1))', "erode")
        self.bad('is median with 2 fields, and it takes its offsets: write ("median", (-1, 0, 1))', ("median", 2, (0,)))
        self.bad('is larger with 1 field, and it takes no field: write "larger"', ("larger", (0,)))

    def test_a_rank_that_the_offsets_do_not_have(self):
        for rank, shown in ((0, "0"), (4, "4"), (256, "256"), (1.0, "1.0, of type float"), (True, "True, of type bool")):
            self.bad(f"asks for rank {shown}: a rank is 1, the largest, to the number of offsets, here 3",
                     ("rank", rank, (-1, 0, 1)))

    def test_what_is_made_is_never_refused_for_a_code_or_a_field(self):
        for members in ((0,), (-4, 4), range(-4, 5)):
            for step in (("erode", members), ("rank", len(members), members)):
                self.assertTrue(stackfilter.compile(recipe("signal", step)))
