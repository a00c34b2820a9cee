"""The table of refusals and the numbers, against the crates', and what a sentence tells."""

import pathlib
import pickle
import re
import unittest

import stackfilter
from stackfilter import Refusal, StackfilterError, calls, limits, recipe, refusals

ROOT = pathlib.Path(__file__).resolve().parents[3]


def numbers_in(module):
    return {name: value for name, value in vars(module).items() if name.isupper() and isinstance(value, int)}


class Tables(unittest.TestCase):
    def test_the_refusals_are_those_of_the_crate(self):
        source = (ROOT / "crates/refusals/src/lib.rt").read_text(encoding="utf-8")
        told = re.findall(r"Refusal::(\w+)\(\w+\) => \((\d+), \w+\),", source)
        of_crate = {re.sub(r"(?<=.)([A-Z])", r"_\1", name).upper(): int(number) for name, number in told}
        self.assertGreater(len(of_crate), 0)
        self.assertEqual(numbers_in(refusals), of_crate)
        self.assertEqual(sorted(refusals.SENTENCES), sorted(of_crate.values()))

    def test_the_refusals_are_those_of_the_rules(self):
        rules = (ROOT / "docs/RULES.md").read_text(encoding="utf-8").split("## Refusals")[1].split("\n## ")[0]
        rows = re.findall(r"^\| (\d+) \| ([^|]+) \| ([^|]+) \|$", rules, re.MULTILINE)
        self.assertEqual([int(number) for number, _, _ in rows], sorted(refusals.SENTENCES))
        for number, _, place in rows:
            # Where the place is always the same number the sentence has no room for it.
            self.assertEqual("{}" in refusals.SENTENCES[int(number)], not place.isdigit(), f"refusal {number}")

    def test_the_limits_are_those_of_the_crate(self):
        source = (ROOT / "crates/limits/src/lib.rt").read_text(encoding="utf-8")
        expressions = re.findall(r"pub const (\w+): \w+ = ([^;]+);", source)
        self.assertGreater(len(expressions), 0)
        of_crate = {}
        for name, expression in expressions:
            of_crate[name] = eval(expression.replace("/", "//"), {}, of_crate)
        ours = numbers_in(limits)
        ours["TRAILER"] = ours["TRAILER_BYTES"]
        self.assertEqual({name: ours.get(name) for name in of_crate}, of_crate)


class Sentences(unittest.TestCase):
    def sentence(self, call, *arguments):
        with self.assertRaises(Refusal) as caught:
            call(*arguments)
        return str(caught.exception)

    def test_a_sentence_names_the_place(self):
        self.assertEqual(self.sentence(stackfilter.clean, [24, 16], [7]),
                         "refused 7 1: term 1 is over 511, not above its predecessor, or contains an earlier one")

    def test_scan_files(self):
        file = stackfilter.write([24, 40, 48], [10, 10, 90, 10, 10])
        cases = [
            (b"", "15 0: a scan file has 12 to 33,032 bytes, and this has 0"),
            (bytes(40_000), "15 40000: a scan file has 12 to 33,032 bytes, and this has 40000"),
            (file[:-1], "16 25: the mark 53 46 hex, which ends a scan file, does not stand at byte 25"),
            (file[:24] + b"\4" + file[25:],
             "17 20: the scan file's term distance, at byte 20, is not 12 + 2 x the number of terms"),
            (file[1:],
             "18 15: the scan file's sample distance, at byte 15, is not the file's length, is below the term distance, or"
             " differs from it by an odd number"),
        ]
        for given, sentence in cases:
            for call in (stackfilter.read, stackfilter.count):
                self.assertEqual(self.sentence(call, given), "refused " + sentence)

    def test_lists_of_names(self):
        self.assertEqual(self.sentence(calls.night_list, b"day.scan\n\n"),
                         "refused 19 2: a name has 1 to 255 bytes, and line 2 of the list is empty or longer")
        self.assertEqual(self.sentence(calls.night_list, b"\n" * 251),
                         "refused 20 250: a list of names has at most 250 lines, and this has more")

    def test_the_three_causes_of_refusal_4(self):
        needs = "and fewer are held: put a signal step before it"
        cases = [
            (["signal", "signal"], "4 2: after the 2 steps more than one signal is left: join them by larger or smaller"),
            (["signal"] * 9, "4 8: step 8 adds a ninth signal, and at most 8 are held: join some before it"),
            ([("erode", (0, 1)), "signal"], f"4 0: step 0 (erode) needs a signal, {needs}"),
            (["signal", "larger"], f"4 1: step 1 (larger) needs two signals, {needs}"),
            (["smaller"], f"4 0: step 0 (smaller) needs two signals, {needs}"),
        ]
        for steps, sentence in cases:
            for given in (recipe(*steps), list(recipe(*steps))):
                self.assertEqual(self.sentence(stackfilter.compile, given), "refused " + sentence)
                self.assertEqual(self.sentence(stackfilter.run_recipe, given, [7]), "refused " + sentence)

    def test_a_refusal_can_be_made_and_kept(self):
        refusal = Refusal(9, 0)
        self.assertEqual(str(refusal), "refused 9 0: a scan has 1 to 16,384 samples, and this has 0")
        self.assertIsInstance(refusal, StackfilterError)
        self.assertIsInstance(refusal, ValueError)
        with self.assertRaises(Refusal) as caught:
            stackfilter.compile(recipe("signal", "signal"))
        kept = pickle.loads(pickle.dumps(caught.exception))
        self.assertEqual((kept.number, kept.place, str(kept)), (4, 2, str(caught.exception)))
