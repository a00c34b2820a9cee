"""Runs the tests on the package in a folder: python3 hosts/python/tests/run.py FOLDER [unittest's options]

The folder is hosts/python for the checkout, or one that the wheel was installed into.
"""

import pathlib
import sys
import unittest

TESTS = pathlib.Path(__file__).resolve().parent


def main():
    folder = pathlib.Path(sys.argv[1]).resolve()
    sys.path.insert(0, str(folder))
    import stackfilter
    if pathlib.Path(stackfilter.__file__).resolve().parent.parent != folder:
        sys.exit(f"the package is not that of {folder} but {stackfilter.__file__}")
    print(f"the tests run on {folder}/stackfilter with {stackfilter.library.find()}", file=sys.stderr)
    unittest.main(module=None, argv=["run.py", "discover", "-s", str(TESTS), "-t", str(TESTS), *sys.argv[2:]])


main()
