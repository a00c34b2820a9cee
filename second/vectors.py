"""Makes the vectors: calls with their inputs, and what the rules say of each.

    python3 second/vectors.py --write    writes stdin and stdout of crates/cases and crates/nightcases
    python3 second/vectors.py --check    says whether these four are what --write would write
    python3 second/vectors.py --show     prints each call and its line
"""

import pathlib
import sys

from chance import Chance
from groups import files, forms, lines, lists, nights, recipes, reports, scans
from wire import END, described, line, record

# The groups whose calls each program makes, in this order.
GROUPS = {"cases": [forms, scans, recipes, files, reports, lines], "nightcases": [lists, nights]}

CRATES = pathlib.Path(__file__).resolve().parent.parent / "crates"


def calls_of(program):
    """Each group has its own seed, so that a change in one leaves the vectors of the others."""
    for seed, group in enumerate(GROUPS[program]):
        yield from group.calls(Chance(seed))


def contents():
    """What the files hold."""
    for program in GROUPS:
        calls = list(calls_of(program))
        yield CRATES / program / "stdin", b"".join(map(record, calls)) + END
        yield CRATES / program / "stdout", "".join(line(a_call) + "\n" for a_call in calls).encode()


def write():
    for path, content in contents():
        path.parent.mkdir(parents=True, exist_ok=True)
        path.write_bytes(content)


def check():
    """Exits 1 where a stored file differs."""
    for path, content in contents():
        if not path.exists() or path.read_bytes() != content:
            sys.exit("%s is not what the second program makes" % path.relative_to(CRATES))
    print("the stored vectors are what the second program makes")


def show():
    for program in GROUPS:
        for a_call in calls_of(program):
            print(described(a_call))
            print("    " + line(a_call))


COMMANDS = {"--write": write, "--check": check, "--show": show}

if __name__ == "__main__":
    if len(sys.argv) != 2 or sys.argv[1] not in COMMANDS:
        sys.exit(__doc__)
    COMMANDS[sys.argv[1]]()
