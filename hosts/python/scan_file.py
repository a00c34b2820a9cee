"""Makes a scan file from a list of numbers and reads it back: python3 hosts/python/scan_file.py FILE"""

import pathlib
import sys

import stackfilter
from stackfilter import offsets, recipe

if len(sys.argv) != 2:
    sys.exit("usage: scan_file.py FILE")
path = pathlib.Path(sys.argv[1])

try:
    terms = stackfilter.compile(recipe("signal", ("median", offsets(-1, 0, 1))))
    path.write_bytes(stackfilter.write(terms, [10, 10, 90, 10, 10]))

    file = path.read_bytes()
    samples, terms = stackfilter.read(file)
except stackfilter.StackfilterError as error:
    sys.exit(f"{path}: {error}")

print("samples", samples)
print("terms", terms)
# A file that read refuses has a line too: `refused`, the number and the place.
print("report", stackfilter.line(file), end="")
