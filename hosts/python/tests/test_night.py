"""The night sheet: which names it takes, what it says of each file, and its totals."""

import collections
import contextlib
import io
import itertools
import os
import pathlib
import random
import resource
import signal
import socket
import tempfile
import threading
import unittest
from unittest import mock

import stackfilter
from stackfilter import (LONGEST_FILE, LONGEST_LIST, LONGEST_NAME, MOST_NAMES, MOST_SAMPLES, TOP, ArgumentError, StackfilterError,
                         sheets)

try:
    import numpy
except ImportError:
    numpy = None

MEDIAN = [24, 40, 48]
FILE = bytes.fromhex("0A000A005A000A000A00 180028003000 1C000000 12000000 0300 5346")
UNSORTED = bytes.fromhex("0100 1800 1000 12000000 10000000 0200 5346")
NO_SAMPLES = bytes.fromhex("180028003000 12000000 12000000 0300 5346")
NOTHING = "0 0 0 0 0 0 0 0 0 0 0 0 0 0\n"
# One file to each refusal of a layout: no bytes, the last byte cut off, one term too many, the first byte cut off.
DAMAGED = {"15": (b"", 0), "16": (FILE[:-1], 25), "17": (FILE[:24] + b"\4" + FILE[25:], 20), "18": (FILE[1:], 15)}
NOBODY = 65534

# So long a night may take before a test gives it up.
SECONDS = 60


class NightTest(unittest.TestCase):
    """A test in a folder of its own, which is the working folder."""

    def setUp(self):
        folder = tempfile.TemporaryDirectory()
        self.addCleanup(folder.cleanup)
        self.addCleanup(os.chdir, os.getcwd())
        os.chdir(folder.name)
        self.folder = pathlib.Path(folder.name)
        self.addCleanup(signal.signal, signal.SIGALRM, signal.signal(signal.SIGALRM, self.give_up))
        signal.alarm(SECONDS)
        self.addCleanup(signal.alarm, 0)

    def give_up(self, *_):
        self.fail(f"the night waits for {SECONDS} seconds")

    def file(self, name, content=FILE):
        with open(name, "wb") as file:
            file.write(content)
        return name

    def sheet(self, names, *lines):
        """The sheet must have these lines."""
        self.assertEqual(stackfilter.night(names).splitlines(keepends=True), [line + "\n" for line in lines])

    def refused(self, number, place, names):
        """The list must be refused, and no file opened."""
        with mock.patch.object(sheets, "_open", side_effect=AssertionError("a file is opened")):
            self.assertEqual(stackfilter.night(names), f"refused {number} {place}\n")


class Lines(NightTest):
    def test_the_worked_example(self):
        self.file("day.scan")
        self.file("damaged.scan", FILE[1:])
        self.sheet(["day.scan", "day.scan", "missing.scan", "damaged.scan"],
                   "5 1 1 80 0", "5 1 1 80 0", "unopened", "refused 18 15", "2 1 0 0 0 0 0 0 1 10 2 2 160 0")

    def test_an_empty_list(self):
        for names in ([], (), iter(()), range(0)):
            self.assertEqual(stackfilter.night(names), NOTHING)

    def test_every_refusal_that_a_file_can_have(self):
        self.file("7", UNSORTED)
        self.file("9", NO_SAMPLES)
        for number, (content, _) in DAMAGED.items():
            self.file(number, content)
        names = ["9", "18", "7", "17", "16", "18", "16", "15", "16", "7", "17", "18", "18"]
        places = {"9": 0, "7": 1, **{number: place for number, (_, place) in DAMAGED.items()}}
        self.sheet(names, *(f"refused {number} {places[number]}" for number in names), "0 0 2 0 1 1 3 2 4 0 0 0 0 0")

    def test_residues_of_both_signs(self):
        self.file("up", stackfilter.write([], [3, 0, 9]))
        self.file("down", stackfilter.write([0], [TOP, 0, TOP - 5]))
        self.file("both", stackfilter.write(MEDIAN, [10, 10, 90, 0, 10, 10]))
        self.sheet(["up", "down", "both"], "3 2 2 12 0", f"3 2 1 0 {TOP + 5}", "6 2 2 80 10",
                   f"3 0 0 0 0 0 0 0 0 12 6 5 92 {TOP + 15}")

    def test_the_largest_totals(self):
        self.file("all", stackfilter.write([], [TOP] * MOST_SAMPLES))
        line = f"{MOST_SAMPLES} {MOST_SAMPLES} 1 {MOST_SAMPLES * TOP} 0"
        self.sheet(["all"] * MOST_NAMES, *[line] * MOST_NAMES,
                   "250 0 0 0 0 0 0 0 0 4096000 4096000 250 268431360000 0")

    def test_each_line_is_the_report_of_its_file(self):
        contents = [FILE, UNSORTED, NO_SAMPLES, stackfilter.write(MEDIAN, range(0, TOP, 999)),
                    *(content for content, _ in DAMAGED.values())]
        names = [self.file(str(index), content) for index, content in enumerate(contents)]
        given = random.Random(7).choices(names, k=100)
        lines = stackfilter.night(given).splitlines(keepends=True)
        self.assertEqual(lines[:-1], [stackfilter.line(contents[int(name)]) for name in given])

    def test_the_totals_are_those_of_the_lines_above_them(self):
        for seed in range(8):
            names = self.any_files(random.Random(seed))
            lines = stackfilter.night(names).splitlines()
            self.assertEqual(len(lines), len(names) + 1)
            self.assertEqual([int(number) for number in lines[-1].split()], self.totals_of(lines[:-1]), seed)

    def any_files(self, rng):
        """Names in any order, each once, twice or often, of files of every sort."""
        for index in range(6):
            content = stackfilter.write(stackfilter.preset(rng.randrange(20)),
                                        [rng.randrange(TOP + 1) for _ in range(rng.randrange(1, 30))])
            self.file(f"sound{index}", content)
            self.file(f"damaged{index}", content[rng.randrange(len(content)):])
        self.file("7", UNSORTED)
        self.file("9", NO_SAMPLES)
        for number, (content, _) in DAMAGED.items():
            self.file(number, content)
        os.truncate(self.file("long"), 1 << 33)
        sorts = [*(f"sound{index}" for index in range(6)), *(f"damaged{index}" for index in range(6)), "7", "9", *DAMAGED,
                 "long", "none", "."]
        return rng.choices(sorts, k=rng.randrange(MOST_NAMES + 1))

    def totals_of(self, lines):
        counted = [[int(number) for number in line.split()] for line in lines if line[0].isdigit()]
        under = [sum(line.split()[:2] == ["refused", number] for line in lines) for number in ("7", "8", "9", *DAMAGED)]
        sums = [sum(column) for column in zip(*counted)] if counted else [0] * 5
        return [len(counted), lines.count("unopened"), *under, *sums]


class RefusedLists(NightTest):
    def test_250_names_are_taken_and_251_are_not(self):
        self.file("a")
        self.sheet(["a"] * MOST_NAMES, *["5 1 1 80 0"] * MOST_NAMES, "250 0 0 0 0 0 0 0 0 1250 250 250 20000 0")
        for names in (MOST_NAMES + 1, 1000):
            self.refused(20, MOST_NAMES, ["a"] * names)

    def test_an_endless_list_is_refused_after_name_251(self):
        taken = itertools.count(1)
        self.refused(20, MOST_NAMES, ("a" for _ in taken))
        self.assertEqual(next(taken), MOST_NAMES + 2)

    def test_empty_names(self):
        self.refused(19, 1, [""])
        self.refused(19, 1, [b"", ""])
        self.refused(19, 3, ["a", "b", "", "c", ""])
        self.refused(19, MOST_NAMES, ["a"] * (MOST_NAMES - 1) + [""])

    def test_too_long_names(self):
        self.sheet([self.file("n" * LONGEST_NAME)], "5 1 1 80 0", "1 0 0 0 0 0 0 0 0 5 1 1 80 0")
        self.refused(19, 1, ["n" * (LONGEST_NAME + 1)])
        self.refused(19, 2, ["a", "n" * (LONGEST_NAME + 1), ""])
        # 253 characters, three of which have two bytes.
        self.refused(19, 1, ["n" * 250 + "\xe9" * 3])

    def test_over_250_names_come_before_a_bad_one(self):
        self.refused(20, MOST_NAMES, [""] * (MOST_NAMES + 1))
        self.refused(20, MOST_NAMES, ["a"] * MOST_NAMES + [""])
        self.refused(20, MOST_NAMES, ["n" * 1000] + ["a"] * MOST_NAMES)

    def test_the_longest_list(self):
        names = ["n" * LONGEST_NAME] * MOST_NAMES
        self.assertEqual(sum(len(name) + 1 for name in names), LONGEST_LIST)
        self.sheet(names, *["unopened"] * MOST_NAMES, "0 250 0 0 0 0 0 0 0 0 0 0 0 0")

    def test_a_zero_byte_does_not_shorten_a_name(self):
        self.refused(19, 1, ["\0" * (LONGEST_NAME + 1)])


class Names(NightTest):
    CLEANED = ("5 1 1 80 0", "1 0 0 0 0 0 0 0 0 5 1 1 80 0")
    UNOPENED = ("unopened", "0 1 0 0 0 0 0 0 0 0 0 0 0 0")

    def bad(self, index, sentence, names):
        with mock.patch.object(sheets, "_open", side_effect=AssertionError("a file is opened")):
            with self.assertRaises(ArgumentError) as caught:
                stackfilter.night(names)
        error = caught.exception
        self.assertEqual((error.argument, error.index), ("names", index))
        self.assertEqual(str(error), ("names " if index is None else f"names[{index}] ") + sentence)
        self.assertIsInstance(error, StackfilterError)
        self.assertIsInstance(error, ValueError)

    def test_text_bytes_and_paths(self):
        self.file("a")
        for name in ("a", b"a", pathlib.Path("a"), pathlib.PurePath("a"), self.folder / "a", str(self.folder / "a")):
            self.sheet([name], *self.CLEANED)
        with os.scandir() as entries:
            self.sheet(entries, *self.CLEANED)

    def test_any_iterable(self):
        self.file("a")
        for names in (["a"], ("a",), iter(["a"]), (name for name in "a"), {"a": 1}.keys(), pathlib.Path(".").iterdir(),
                      sorted(pathlib.Path(".").glob("*"))):
            self.sheet(names, *self.CLEANED)

    @unittest.skipIf(numpy is None, "NumPy is not installed")
    def test_arrays_of_names(self):
        self.file("a")
        for kind in (str, bytes, object):
            self.sheet(numpy.array(["a"], kind), *self.CLEANED)

    def test_any_bytes_are_a_name(self):
        for name in (b"a name of words", b" a", b"a ", b"\t", b"day.scan\r", b"\r", b"\xff\xfe\x80", "\xe9t\xe9", "\u6674\u308c",
                     b"-", b"--help", b"*", b"$(exit)", b"\x01\x7f", b"\\n", b"\x0b\x0c\x1c\x85"):
            self.sheet([self.file(name)], *self.CLEANED)
            os.remove(name)

    def test_names_stand_as_they_are(self):
        self.file("day.scan")
        os.mkdir("sub")
        for name in ("./day.scan", "sub/../day.scan", f"{self.folder}//day.scan"):
            self.sheet([name], *self.CLEANED)
        for name in ("day.scan\r", "day.scan ", " day.scan", "DAY.SCAN", "day.scan/", "~/day.scan", "sub/day.scan", "day.*"):
            self.sheet([name], *self.UNOPENED)

    def test_the_working_folder_is_that_of_the_call(self):
        os.mkdir("sub")
        self.file("sub/a")
        self.sheet(["a"], *self.UNOPENED)
        os.chdir("sub")
        self.sheet(["a"], *self.CLEANED)

    def test_a_zero_byte(self):
        self.file("a")
        for name in ("a\0", "\0", b"\0a", "a\0b"):
            self.sheet([name], *self.UNOPENED)

    def test_text_that_was_bytes_is_those_bytes_again(self):
        self.file(b"\xff")
        self.sheet(["\udcff"], *self.CLEANED)
        self.sheet(os.listdir("."), *self.CLEANED)

    def test_line_feeds(self):
        sentence = "has a line feed, which ends a line of a list: take it off, or rename the file"
        for names, index in ((["\n"], 0), (["a", "b\n"], 1), ([b"a", b"a\nb", b"\n"], 1), ([pathlib.Path("a\nb")], 0),
                             (itertools.chain(["a"] * 250, itertools.repeat("\n")), 250)):
            self.bad(index, sentence, names)

    def test_what_is_no_name(self):
        rule = "a name is text, bytes or a path"
        self.bad(1, f"is 7: {rule}", ["a", 7])
        self.bad(0, f"is a value of type NoneType: {rule}", [None])
        self.bad(0, f"is a value of type list: {rule}", [["a"]])
        self.bad(0, f"is a value of type bytearray: {rule}", [bytearray(b"a")])
        self.bad(0, f"is 1.5, of type float: {rule}", [1.5])

    def test_text_that_is_no_name_here(self):
        self.bad(1, "has a character that no file's name has here: give the name's bytes", ["a", "\ud800"])

    def test_what_is_no_list_of_names(self):
        rule = 'give the names in a list, as ["day.scan", "night.scan"]'
        for name in ("day.scan", b"day.scan", bytearray(b"a"), memoryview(b"a"), pathlib.Path("day.scan")):
            self.bad(None, f"is one name: {rule}", name)
        for names in ({"a", "b"}, frozenset("a")):
            self.bad(None, f"is a set, which has no order: {rule}", names)
        self.bad(None, f"is a dict: {rule}", {"a": 1})
        self.bad(None, f"is an open file: {rule}", io.StringIO("a\nb\n"))
        self.bad(None, f"is 5: {rule}", 5)
        self.bad(None, f"is a value of type NoneType: {rule}", None)

    def test_what_goes_wrong_in_an_iterable_is_not_hidden(self):
        def names():
            yield "a"
            raise TypeError("mine")
        with self.assertRaisesRegex(TypeError, "^mine$"):
            stackfilter.night(names())


class Files(NightTest):
    def unopened(self, name):
        """The night must go on, and the next file be cleaned."""
        self.file("next")
        self.sheet([name, "next"], "unopened", "5 1 1 80 0", "1 1 0 0 0 0 0 0 0 5 1 1 80 0")

    def test_a_missing_file(self):
        self.unopened("none")
        self.file("a")
        self.unopened("a/none")

    def test_a_folder(self):
        os.mkdir("folder")
        for name in ("folder", "folder/", ".", "..", "/"):
            self.unopened(name)

    def test_a_pipe_without_a_writer(self):
        os.mkfifo("pipe")
        self.unopened("pipe")

    def test_a_pipe_with_a_writer_that_says_nothing(self):
        os.mkfifo("pipe")
        both = os.open("pipe", os.O_RDWR)
        self.addCleanup(os.close, both)
        self.unopened("pipe")

    def test_a_socket(self):
        with socket.socket(socket.AF_UNIX) as listening:
            listening.bind("socket")
            listening.listen()
            self.unopened("socket")

    def test_devices(self):
        for name in ("/dev/null", "/dev/zero", "/dev/full", "/dev/tty"):
            self.unopened(name)

    def test_links(self):
        self.file("a")
        os.mkdir("folder")
        os.mkfifo("pipe")
        for target in ("a", "folder", "pipe", "none", "round"):
            os.symlink("to-round" if target == "round" else target, "to-" + target)
        self.sheet(["to-a"], *Names.CLEANED)
        for target in ("folder", "pipe", "none", "round"):
            self.unopened("to-" + target)

    def test_a_file_that_may_not_be_read(self):
        self.file("a")
        self.file("next")
        os.chmod("a", 0)
        os.chmod(".", 0o755)
        with self.not_root():
            self.sheet(["a", "next"], "unopened", "5 1 1 80 0", "1 1 0 0 0 0 0 0 0 5 1 1 80 0")

    @contextlib.contextmanager
    def not_root(self):
        if os.geteuid() != 0:
            yield
            return
        os.seteuid(NOBODY)
        try:
            yield
        finally:
            os.seteuid(0)

    def test_a_file_that_opens_and_cannot_be_read(self):
        # The memory of this process, of which nothing stands at the address 0.
        with open("/proc/self/mem", "rb", buffering=0) as file, self.assertRaises(OSError):
            file.read(1)
        self.unopened("/proc/self/mem")

    def test_a_file_that_cannot_be_read_to_its_end(self):
        self.file("a")
        self.file("next")
        pieces = iter([FILE, OSError(5, "mine"), FILE, b""])

        class Half(io.RawIOBase):
            def read(self, size=-1):
                piece = next(pieces)
                if isinstance(piece, OSError):
                    raise piece
                return piece

        with mock.patch.object(sheets, "open", lambda *_, **__: Half(), create=True):
            self.sheet(["a", "next"], "unopened", "5 1 1 80 0", "1 1 0 0 0 0 0 0 0 5 1 1 80 0")

    def test_a_file_that_is_removed_meanwhile(self):
        self.file("a")
        look = os.stat

        def look_and_remove(name):
            found = look(name)
            if name == b"a":
                os.remove(name)
            return found

        with mock.patch.object(sheets.os, "stat", look_and_remove):
            self.unopened("a")

    def test_a_file_over_the_limit_is_refused(self):
        longest = stackfilter.write(stackfilter.compile(stackfilter.recipe("signal", ("median", range(-4, 5)))),
                                    [7] * MOST_SAMPLES)
        self.assertEqual(len(longest), LONGEST_FILE)
        self.file("longest", longest)
        self.file("longer", longest + b"\0")
        self.file("twice", longest + longest)
        self.sheet(["longest", "longer", "twice"], f"{MOST_SAMPLES} 0 0 0 0", f"refused 15 {LONGEST_FILE + 1}",
                   f"refused 15 {2 * LONGEST_FILE}", f"1 0 0 0 0 2 0 0 0 {MOST_SAMPLES} 0 0 0 0")

    def test_a_length_is_never_cut(self):
        lengths = [(1 << 32) + len(FILE), 5_000_000_000, 1 << 33, 10_000_000_000]
        for length in lengths:
            os.truncate(self.file(str(length)), length)
        self.sheet(map(str, lengths), *(f"refused 15 {length}" for length in lengths), "0 0 0 0 0 4 0 0 0 0 0 0 0 0")

    def test_no_more_is_read_of_a_huge_file(self):
        os.truncate(self.file("10 GB"), 10_000_000_000)
        read = []

        def watched(*arguments, **options):
            read.append(Watched(open(*arguments, **options)))
            return read[-1]

        with mock.patch.object(sheets, "open", watched, create=True):
            self.sheet(["10 GB"], "refused 15 10000000000", "0 0 0 0 0 1 0 0 0 0 0 0 0 0")
        self.assertEqual([file.given for file in read], [LONGEST_FILE + 1])

    def test_no_more_is_read_than_tells_that_a_file_is_too_long(self):
        for piece in (1, 1000, LONGEST_FILE, LONGEST_FILE + 1):
            endless = Endless(piece)
            self.assertEqual(sheets._read(endless), bytes(LONGEST_FILE + 1))
            self.assertEqual(endless.given, LONGEST_FILE + 1)

    def test_a_file_that_comes_in_pieces_is_read_whole(self):
        pieces = iter([FILE[:1], FILE[1:9], FILE[9:], b"", b"more"])
        self.assertEqual(sheets._read(mock.Mock(read=lambda size: next(pieces))), FILE)

    def test_each_file_is_closed_before_the_next_is_opened(self):
        self.file("a")
        opened = []

        def watched(*arguments, **options):
            self.assertTrue(all(file.closed for file in opened))
            opened.append(open(*arguments, **options))
            return opened[-1]

        with mock.patch.object(sheets, "open", watched, create=True):
            self.sheet(["a"] * 3, *["5 1 1 80 0"] * 3, "3 0 0 0 0 0 0 0 0 15 3 3 240 0")
        self.assertEqual([file.closed for file in opened], [True] * 3)

    def test_few_files_may_be_open_at_once(self):
        self.file("a")
        before = resource.getrlimit(resource.RLIMIT_NOFILE)
        free = os.open("a", os.O_RDONLY)
        os.close(free)
        resource.setrlimit(resource.RLIMIT_NOFILE, (free + 1, before[1]))
        try:
            last = stackfilter.night(["a"] * MOST_NAMES).splitlines()[-1]
        finally:
            resource.setrlimit(resource.RLIMIT_NOFILE, before)
        self.assertEqual(last, "250 0 0 0 0 0 0 0 0 1250 250 250 20000 0")


class FilesThatChange(NightTest):
    """A file that is cut or lengthened while the night reads it: it has one length, in its line and in the totals."""

    def after_reading(self, length):
        """The file is given this length between the reading of what tells that it is too long and the question for its length."""
        read = sheets._read

        def read_and_change(file):
            content = read(file)
            os.truncate("a", length)
            return content

        return mock.patch.object(sheets, "_read", read_and_change)

    def test_a_long_file_that_is_cut_is_as_long_as_what_was_read(self):
        for length in (0, len(FILE), LONGEST_FILE, LONGEST_FILE + 1):
            os.truncate(self.file("a"), 1 << 33)
            with self.after_reading(length):
                self.sheet(["a"], f"refused 15 {LONGEST_FILE + 1}", "0 0 0 0 0 1 0 0 0 0 0 0 0 0")

    def test_a_long_file_that_does_not_say_where_it_ends_is_read_to_its_end(self):
        os.truncate(self.file("a"), 1_000_000)
        with mock.patch.object(Watched, "seek", side_effect=OSError), \
                mock.patch.object(sheets, "open", lambda *given, **options: Watched(open(*given, **options)), create=True):
            self.sheet(["a"], "refused 15 1000000", "0 0 0 0 0 1 0 0 0 0 0 0 0 0")

    def test_a_long_file_that_grows_is_as_long_as_it_is_when_asked(self):
        os.truncate(self.file("a"), 40_000)
        with self.after_reading(5_000_000_000):
            self.sheet(["a"], "refused 15 5000000000", "0 0 0 0 0 1 0 0 0 0 0 0 0 0")

    def test_a_file_that_was_read_to_its_end_is_what_was_read(self):
        for length in (0, 10, 1 << 33):
            self.file("a")
            with self.after_reading(length):
                self.sheet(["a"], *Names.CLEANED)

    def test_a_file_that_is_cut_and_lengthened_all_the_time(self):
        long = 5_000_000_000
        self.change_for_ever(self.file("a"), (long, len(FILE)))
        met = collections.Counter()
        for _ in range(40):
            *lines, last = stackfilter.night(["a"] * 50).splitlines()
            numbers = [line.split()[1] if line.startswith("refused") else "cleaned" for line in lines]
            for line, number in zip(lines, numbers):
                # What is read of a file that is cut meanwhile may end anywhere, and then not with the mark.
                self.assertRegex(line, rf"^(5 1 1 80 0|refused 15 ({LONGEST_FILE + 1}|{long})|refused 16 \d{{1,5}})$")
                met[number] += 1
            under = [numbers.count(number) for number in DAMAGED]
            self.assertEqual([int(number) for number in last.split()[:9]], [numbers.count("cleaned"), 0, 0, 0, 0, *under])
            if met["cleaned"] and met["15"]:
                return
        self.fail(f"a sort of line was never met: {met}")

    def change_for_ever(self, name, lengths):
        """The file has these lengths in turn, until the test ends."""
        ended = threading.Event()

        def change():
            while not ended.is_set():
                for length in lengths:
                    os.truncate(name, length)

        writer = threading.Thread(target=change)
        writer.start()
        self.addCleanup(writer.join)
        self.addCleanup(ended.set)


class Watched:
    """An open file, and how many bytes were read of it."""

    def __init__(self, file):
        self.file = file
        self.given = 0

    def __enter__(self):
        return self

    def __exit__(self, *_):
        self.file.close()

    def read(self, size):
        piece = self.file.read(size)
        self.given += len(piece)
        return piece

    def seek(self, *place):
        return self.file.seek(*place)


class Endless:
    """A file of zeros that never ends, so many at a time, and how many it gave."""

    def __init__(self, piece):
        self.piece = piece
        self.given = 0

    def read(self, size):
        self.given += min(size, self.piece)
        return bytes(min(size, self.piece))
