"""One sheet for several scan files: python3 hosts/python/night_sheet.py FOLDER

Puts two scan files into the folder, the second one damaged, and prints the sheet of four names: the first file twice, a
file that is missing, the damaged one.
"""

import pathlib
import sys

import stackfilter

if len(sys.argv) != 2:
    sys.exit("usage: night_sheet.py FOLDER")
folder = pathlib.Path(sys.argv[1])
day, missing, damaged = folder / "day.scan", folder / "missing.scan", folder / "damaged.scan"

file = stackfilter.write([24, 40, 48], [10, 10, 90, 10, 10])
day.write_bytes(file)
damaged.write_bytes(file[1:])

# The last line: files cleaned, not opened, refused under 7, 8, 9, 15, 16, 17 and 18, then what the cleaned files add up to.
print(stackfilter.night([day, day, missing, damaged]), end="")
