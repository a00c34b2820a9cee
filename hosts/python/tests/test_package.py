"""The package as a whole: its names and version, how it finds the shared object, and the examples of its documentation."""

import contextlib
import doctest
import importlib
import inspect
import io
import os
import pathlib
import pkgutil
import runpy
import sys
import tempfile
import unittest
from unittest import mock

import stackfilter
from stackfilter import LibraryError, StackfilterError, library

HOST = pathlib.Path(__file__).resolve().parents[1]
ROOT = HOST.parents[1]
MODULES = [importlib.import_module(f"stackfilter.{module.name}") for module in pkgutil.iter_modules(stackfilter.__path__)]


class Names(unittest.TestCase):
    def test_all_has_every_public_name(self):
        modules = {module.__name__.split(".")[1] for module in MODULES}
        public = {name for name in vars(stackfilter) if not name.startswith("_")} - modules
        self.assertEqual(set(stackfilter.__all__), public | {"__version__"})
        self.assertEqual(len(stackfilter.__all__), len(set(stackfilter.__all__)))

    def test_the_version_is_that_of_the_product(self):
        self.assertEqual(stackfilter.__version__, (ROOT / "VERSION").read_text().strip())

    def test_type_checkers_are_told(self):
        self.assertTrue((pathlib.Path(stackfilter.__file__).parent / "py.typed").is_file())
        functions = [function for module in MODULES for function in functions_of(module, module.__name__)]
        self.assertGreater(len(functions), 40)
        for function in functions:
            signature = inspect.signature(function)
            hints = [given.annotation for given in signature.parameters.values() if given.name not in ("self", "cls")]
            self.assertNotIn(inspect.Signature.empty, [*hints, signature.return_annotation], function.__qualname__)


def functions_of(item, module):
    """The functions in a module or in one of its classes, those aside that come from elsewhere."""
    for part in map(inspect.unwrap, vars(item).values()):
        if inspect.isclass(part) and part.__module__ == module:
            yield from functions_of(part, module)
        elif inspect.isfunction(part) and part.__module__ == module:
            yield part


class SharedObject(unittest.TestCase):
    def setUp(self):
        self.forget()
        self.addCleanup(self.forget)
        self.folder = pathlib.Path(self.enter(tempfile.TemporaryDirectory()))

    def enter(self, manager):
        self.addCleanup(manager.__exit__, None, None, None)
        return manager.__enter__()

    def forget(self):
        library.load.cache_clear()
        library.function.cache_clear()

    def named(self, path):
        self.enter(mock.patch.dict(os.environ, {library.VARIABLE: str(path)}))

    def sentence(self):
        with self.assertRaises(LibraryError) as caught:
            stackfilter.preset(10)
        self.assertIsInstance(caught.exception, StackfilterError)
        return str(caught.exception)

    def test_it_is_found_where_the_variable_says(self):
        self.named(library.find())
        self.assertEqual(stackfilter.preset(10), [24, 40, 48])

    def test_it_is_found_in_the_package_and_then_in_the_checkout(self):
        self.enter(mock.patch.dict(os.environ))
        os.environ.pop(library.VARIABLE, None)
        self.assertEqual([str(place) for place in library.places()],
                         [str(library.PACKAGE / library.NAME), str(library.CHECKOUT / "build" / library.NAME)])

    def test_it_is_missing(self):
        self.enter(mock.patch.dict(os.environ))
        os.environ.pop(library.VARIABLE, None)
        self.enter(mock.patch.multiple(library, PACKAGE=self.folder / "package", CHECKOUT=self.folder))
        self.assertEqual(self.sentence(),
                         f"the shared object is not there, at {self.folder}/package/{library.NAME} or {self.folder}/build/"
                         f"{library.NAME}: run hosts/build in the checkout, which makes it, or set STACKFILTER_LIB to its path")

    def test_the_variable_names_no_file(self):
        self.named(self.folder / "none")
        self.assertTrue(self.sentence().startswith(f"the shared object is not there, at {self.folder}/none: run hosts/build"))

    def test_it_does_not_load(self):
        (self.folder / "text").write_text("no shared object")
        self.named(self.folder / "text")
        self.assertRegex(self.sentence(), "^the shared object does not load on this machine, .*; run hosts/build")

    def test_it_lacks_a_function(self):
        self.enter(mock.patch.object(library, "load", lambda: object()))
        self.assertRegex(self.sentence(), "has no sf_preset, so it is of another version: run hosts/build")

    def test_what_needs_no_call_works_without_it(self):
        self.named(self.folder / "none")
        self.assertEqual(len(stackfilter.recipe("signal", ("median", stackfilter.offsets(-1, 0, 1)))), 8)


class Examples(unittest.TestCase):
    def printed(self, name, *arguments):
        out = io.StringIO()
        with contextlib.redirect_stdout(out), mock.patch.object(sys, "argv", [name, *arguments]):
            runpy.run_path(str(HOST / name), run_name="__main__")
        return out.getvalue()

    def test_example(self):
        self.assertEqual(self.printed("example.py"), """\
the median of three has the terms [24, 40, 48]
[10, 10, 90, 10, 10] cleaned is [10, 10, 10, 10, 10]
its scan file counts as Counts(samples=5, changed=1, spikes=1, above=80, below=0)
refused 7 1: term 1 is over 511, not above its predecessor, or contains an earlier one
""")

    def test_scan_file(self):
        with tempfile.TemporaryDirectory() as folder:
            file = pathlib.Path(folder) / "scan"
            self.assertEqual(self.printed("scan_file.py", str(file)), """\
samples [10, 10, 90, 10, 10]
terms [24, 40, 48]
report 5 1 1 80 0
""")
            # The worked example of document 01.
            self.assertEqual(file.read_bytes(), bytes.fromhex("0A000A005A000A000A00 180028003000 1C000000 12000000 0300 5346"))

    def test_scan_file_says_what_is_refused(self):
        with mock.patch.object(stackfilter, "write", lambda terms, scan: b"damaged"), tempfile.TemporaryDirectory() as folder:
            with self.assertRaisesRegex(SystemExit, "/scan: refused 15 7: a scan file has 12 to 33,032 bytes, and this has 7$"):
                self.printed("scan_file.py", f"{folder}/scan")

    def test_night_sheet(self):
        with tempfile.TemporaryDirectory() as folder:
            self.assertEqual(self.printed("night_sheet.py", folder), """\
5 1 1 80 0
5 1 1 80 0
unopened
refused 18 15
2 1 0 0 0 0 0 0 1 10 2 2 160 0
""")

    def test_night_sheet_needs_a_folder(self):
        with self.assertRaisesRegex(SystemExit, "^usage: night_sheet.py FOLDER$"):
            self.printed("night_sheet.py")

    def test_scan_file_needs_a_name(self):
        with self.assertRaisesRegex(SystemExit, "^usage: scan_file.py FILE$"):
            self.printed("scan_file.py")


def load_tests(loader, tests, pattern):
    for module in [stackfilter, *MODULES]:
        tests.addTests(doctest.DocTestSuite(module))
    tests.addTests(doctest.DocFileSuite(str(HOST / "README.md"), module_relative=False))
    return tests
