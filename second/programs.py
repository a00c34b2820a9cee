"""What the tests of the programs on whole files share."""

import contextlib
import itertools
import os
import pathlib
import subprocess
import sys
import tempfile
import threading
import time

from groups.files import WORKED_FILE
from rules.limits import LONGEST_FILE
from rules.lines import fields_of_long, line_of, text_of

LONGEST_RUN = 60
LONGEST_SHOWN = 1000


def shown(found):
    text = repr(found)
    return text if len(text) <= LONGEST_SHOWN else "%s .. (%d characters)" % (text[:LONGEST_SHOWN], len(text))


def expect(what, found, wanted):
    if found != wanted:
        sys.exit("%s: %s, and not %s" % (what, shown(found), shown(wanted)))


def run(command, status=0, **streams):
    """What the program printed, and what it said on standard error. It ends with this status."""
    streams.setdefault("stdout", subprocess.PIPE)
    done = subprocess.run(command, stderr=subprocess.PIPE, timeout=LONGEST_RUN, **streams)
    expect("the status, where %s was said" % shown(done.stderr), done.returncode, status)
    return done.stdout, done.stderr


def check_said(what, said, sentence, number):
    """One line on standard error: the sentence, the error's number and the system's words for it."""
    if not (said.startswith(sentence) and b"; error %d: " % number in said
            and said.count(b"\n") == 1 and said.endswith(b"\n")):
        sys.exit("%s: said %r" % (what, said))


# ---- files that are too long

# Over what 32 bits can say.
LONG = 5_000_000_000


def long_line(length):
    return text_of(fields_of_long(length)).encode()


def lengthen(path):
    """Makes a file so long that no program could read it to its end meanwhile, and answers its length."""
    for power in range(63, 40, -1):
        with contextlib.suppress(OSError):
            os.truncate(path, 2 ** power - 1)
            return 2 ** power - 1
    sys.exit("no file here can be as long as it has to be")


# A regular file in which the system keeps a place, but of which it tells no end.
SYSTEM_FILE = "/proc/kallsyms"


def system_file_length():
    """0 where there is no such file."""
    try:
        return len(pathlib.Path(SYSTEM_FILE).read_bytes())
    except OSError:
        return 0


# So many bytes are a process's arguments here.
LONG_ARGUMENTS = 60_000


@contextlib.contextmanager
def file_told_empty():
    """The path of a regular file with more bytes than any file may have, whose end the system tells as 0: a process's arguments. None
    where there is no /proc."""
    waiting = [sys.executable, "-c", "input()", *["a" * 999] * (LONG_ARGUMENTS // 1000)]
    with subprocess.Popen(waiting, stdin=subprocess.PIPE) as process:
        path = pathlib.Path("/proc/%d/cmdline" % process.pid)
        while path.exists() and len(path.read_bytes()) < LONG_ARGUMENTS:
            time.sleep(0.01)
        yield path if path.exists() else None
        process.communicate(b"\n")


# ---- a file that is cut and lengthened

WORKED = bytes(WORKED_FILE)
LENGTHS = [len(WORKED), len(WORKED) + 12, LONGEST_FILE, LONGEST_FILE + 1, 40_000, LONG]


@contextlib.contextmanager
def changing(path):
    """Makes the worked file, and gives it one of these lengths after another as long as this lasts."""
    with open(path, "wb") as file:
        file.write(WORKED)
    over = threading.Event()

    def change():
        for length in itertools.cycle(LENGTHS):
            if over.is_set():
                return
            os.truncate(path, length)

    thread = threading.Thread(target=change)
    thread.start()
    try:
        yield
    finally:
        over.set()
        thread.join()


def lines_of_changing():
    """What may be printed of it. Where its end is met, any number of bytes may have been read, since reads
    do not exclude a change; where it is too long, the length is one that it had."""
    met = {line_of(WORKED + bytes(more)).encode() for more in range(LONGEST_FILE + 2 - len(WORKED))}
    return met | {long_line(length) for length in LENGTHS if length > LONGEST_FILE}


# ---- interruptions

@contextlib.contextmanager
def interrupts():
    """The settings with which a program is interrupted. No signal can be made to interrupt a read
    from outside: interrupts.c says that one did."""
    source = pathlib.Path(__file__).with_name("interrupts.c")
    with tempfile.TemporaryDirectory() as folder:
        loaded = os.path.join(folder, "interrupts.so")
        subprocess.run([os.environ.get("CC", "cc"), "-shared", "-fPIC", "-o", loaded, source],
                       check=True)
        yield {**os.environ, "LD_PRELOAD": loaded}
