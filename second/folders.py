"""A folder that a night is run in: its files, what the rules say of them, and what the program opens there."""

import ctypes
import functools
import os
import signal
import struct
import subprocess
import sys
import tempfile
import time

from programs import LONGEST_RUN, expect, run
from rules import nights
from rules.lines import fields_of_long
from rules.nights import UNOPENED

LONGEST_CHECK = 5 * LONGEST_RUN


def listed(*names):
    return b"".join(name + b"\n" for name in names)


# ---- a folder, and what the rules say of a night in it

@functools.cache
def outcome_of(contents):
    return nights.outcome_of(contents)


class Folder:
    """A folder with files in it, and the outcome of each name that is opened there."""

    def __init__(self, command, path):
        self.command, self.path, self.outcomes, self.started = command, os.fsencode(path), {}, []
        os.chmod(path, 0o755)

    def at(self, name):
        return os.path.join(self.path, name)

    def put(self, name, contents):
        with open(self.at(name), "wb") as file:
            file.write(bytes(contents))
        self.outcomes[name] = outcome_of(bytes(contents))
        return name

    def put_long(self, name, length):
        """A file of so many bytes of 0, which take no room."""
        self.put(name, b"")
        os.truncate(self.at(name), length)
        self.outcomes[name] = fields_of_long(length)
        return name

    def alias(self, other, name):
        """Another name of the same file."""
        self.outcomes[other] = self.outcomes[name]
        return other

    def sheet(self, text):
        """What the program has to print of the list."""
        return nights.sheet(text, self.outcome).encode()

    def outcome(self, name):
        """What becomes of a name in the program: the toolchain opens none that is not UTF-8."""
        try:
            name.decode()
        except UnicodeDecodeError:
            return UNOPENED
        return self.outcomes.get(name, UNOPENED)

    def check(self, what, text, command=None, **streams):
        """The program prints the sheet, and says nothing. The list comes by a pipe."""
        given = streams if "stdin" in streams else {**streams, "input": text}
        expect(what, run(command or self.command, cwd=self.path, **given), (self.sheet(text), b""))

    def start(self, **streams):
        """The program as it runs, with a pipe at each end that is not given."""
        streams = {"stdin": subprocess.PIPE, "stdout": subprocess.PIPE, "stderr": subprocess.PIPE, **streams}
        self.started.append(subprocess.Popen(self.command, cwd=self.path, **streams))
        return self.started[-1]


def check_in_a_folder(command, check, *more):
    """In one of its own. Nothing may be waited for without end, neither by the program nor by its test."""
    with tempfile.TemporaryDirectory() as path:
        folder = Folder(command, path)

        def stop(*_):
            for program in folder.started:
                program.kill()
            sys.exit("%s did not end" % check.__name__)

        signal.signal(signal.SIGALRM, stop)
        signal.alarm(LONGEST_CHECK)
        check(folder, *more)
        signal.alarm(0)


# ---- what is opened

# As inotify(7) has them.
IN_CLOSE_WRITE, IN_CLOSE_NOWRITE, IN_OPEN = 0x08, 0x10, 0x20
libc = ctypes.CDLL(None, use_errno=True)


class Watch:
    """The files of a folder that are opened and closed, in order."""

    def __init__(self, folder):
        self.fd = libc.inotify_init1(os.O_NONBLOCK)
        mask = IN_OPEN | IN_CLOSE_NOWRITE | IN_CLOSE_WRITE
        if self.fd < 0 or libc.inotify_add_watch(self.fd, folder.path, mask) < 0:
            sys.exit("inotify does not work here: error %d" % ctypes.get_errno())

    def seen(self):
        """Each as `open NAME` or `close NAME`; the folder itself is none."""
        found = []
        try:
            while True:
                events, at = os.read(self.fd, 65536), 0
                while at < len(events):
                    _, mask, _, size = struct.unpack_from("iIII", events, at)
                    name = events[at + 16:at + 16 + size].rstrip(b"\0")
                    at += 16 + size
                    if name:
                        found.append((b"open " if mask & IN_OPEN else b"close ") + name)
        except BlockingIOError:
            return found

    def wait_for(self, event):
        while event not in self.seen():
            time.sleep(0.01)


def in_turn(names):
    """What is seen where each of these is closed before the next is opened."""
    return [word + name for name in names for word in (b"open ", b"close ")]
