"""From steps to a form to a cleaned scan: python3 hosts/python/example.py"""

import stackfilter
from stackfilter import offsets, recipe

terms = stackfilter.compile(recipe("signal", ("median", offsets(-1, 0, 1))))
print("the median of three has the terms", terms)

scan = [10, 10, 90, 10, 10]
print(scan, "cleaned is", stackfilter.clean(terms, scan))
print("its scan file counts as", stackfilter.count(stackfilter.write(terms, scan)))

try:
    stackfilter.clean([24, 16], scan)
except stackfilter.Refusal as refusal:
    print(refusal)
