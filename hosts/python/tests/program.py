"""Holds night to the program of that name, on the same lists in the same folder:
python3 hosts/python/tests/program.py FOLDER PROGRAM..

The folder is that of the package, as for run.py; the program is a command with its words apart.
"""

import os
import pathlib
import random
import subprocess
import sys
import tempfile

FOLDER = pathlib.Path(sys.argv[1]).resolve()
PROGRAM = sys.argv[2:]
SECONDS = 60
SEEDS = 3

sys.path.insert(0, str(FOLDER))
import stackfilter
from stackfilter import LONGEST_FILE, LONGEST_NAME, MOST_NAMES, MOST_SAMPLES, TOP


def make_files(rng):
    """Files of every sort in the working folder: their names, and names of what is no file."""
    file = bytes.fromhex("0A000A005A000A000A00 180028003000 1C000000 12000000 0300 5346")
    longest = stackfilter.write(stackfilter.compile(stackfilter.recipe("signal", ("median", range(-4, 5)))),
                                [rng.randrange(TOP + 1) for _ in range(MOST_SAMPLES)])
    contents = {
        b"7": bytes.fromhex("0100 1800 1000 12000000 10000000 0200 5346"),
        b"9": bytes.fromhex("1000 0E000000 0E000000 0100 5346"),
        b"15": b"",
        b"16": file[:-1],
        b"17": file[:24] + b"\4" + file[25:],
        b"18": file[1:],
        b"longest": longest,
        b"longer": longest + b"\0",
        b"n" * LONGEST_NAME: file,
        b" a name\r": file,
    }
    for index in range(8):
        sound = stackfilter.write(stackfilter.preset(rng.randrange(stackfilter.PRESETS)),
                                  [rng.randrange(TOP + 1) for _ in range(rng.randrange(1, 40))])
        contents[b"sound %d" % index] = sound
        contents[b"damaged %d" % index] = sound[rng.randrange(1, len(sound)):]
    for name, content in contents.items():
        with open(name, "wb") as opened:
            opened.write(content)
    for length in (LONGEST_FILE + 1, 5_000_000_000, 10_000_000_000):
        with open(f"of {length} bytes", "wb") as opened:
            opened.truncate(length)
    os.mkdir("folder")
    os.mkfifo("pipe")
    for target in ("7", "folder", "pipe", "none"):
        os.symlink(target, f"to {target}")
    others = (b"none", b"sound 0\r", b"./sound 0", b"sound 0/", b"folder/", b"nul\0", b"/dev/null", b"/dev/zero",
              b"/proc/self/mem", b"/proc/kallsyms", b" ")
    return [*sorted(os.listdir(b".")), *others]


def see_bytes():
    """A name that is not UTF-8, of a file that is there: night opens it, and the program cannot."""
    with open(b"\xff\xfe\x80", "wb") as opened:
        opened.write(bytes.fromhex("0A000A005A000A000A00 180028003000 1C000000 12000000 0300 5346"))
    ours, theirs = stackfilter.night([b"\xff\xfe\x80"]), printed([b"\xff\xfe\x80"])
    sheets = "5 1 1 80 0\n1 0 0 0 0 0 0 0 0 5 1 1 80 0\n", "unopened\n0 1 0 0 0 0 0 0 0 0 0 0 0 0\n"
    if (ours, theirs) != sheets:
        sys.exit(f"of a name that is not UTF-8 night gives {ours!r} and the program {theirs!r}")


def lists(rng, names):
    """Lists of these names, sound ones and such as are refused."""
    yield []
    yield names
    for length in (1, MOST_NAMES, MOST_NAMES + 1, 2 * MOST_NAMES):
        yield rng.choices(names, k=length)
    for bad in (b"", b"n" * (LONGEST_NAME + 1), b"\0" * 1000):
        given = rng.choices(names, k=rng.randrange(1, MOST_NAMES))
        given.insert(rng.randrange(len(given)), bad)
        yield given
        yield [bad] + rng.choices(names, k=MOST_NAMES)


def printed(names):
    """What the program prints for a list."""
    text = b"".join(name + b"\n" for name in names)
    program = subprocess.run(PROGRAM, input=text, stdout=subprocess.PIPE, stderr=subprocess.PIPE, timeout=SECONDS, check=False)
    if program.stderr:
        sys.exit(f"the program says {program.stderr!r} to {names!r}")
    return program.stdout.decode("ascii")


def main():
    met = dict.fromkeys(["cleaned", "unopened", *(f"refused {number}" for number in (7, 9, 15, 16, 17, 18))], 0)
    compared = 0
    for seed in range(SEEDS):
        rng = random.Random(seed)
        with tempfile.TemporaryDirectory() as folder:
            os.chdir(folder)
            for names in lists(rng, make_files(rng)):
                ours, theirs = stackfilter.night(names), printed(names)
                if ours != theirs:
                    sys.exit(f"seed {seed}, {names!r}:\nnight gives {ours!r}\nthe program {theirs!r}")
                compared += 1
                for line in ours.splitlines()[:-1]:
                    met["cleaned" if line[0].isdigit() else " ".join(line.split()[:2])] += 1
            see_bytes()
            os.chdir("/")
    if 0 in met.values():
        sys.exit(f"a sort of line was never met: {met}")
    print(f"night and the program gave the same on {compared} lists: {met}")


main()
