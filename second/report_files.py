"""Runs the report program on whole files and compares what it prints with the rules.

    python3 second/report_files.py COMMAND..

The command is the program, behind its emulator where one is needed.

The files are those that the groups `reports` and `lines` count (sound, damaged, cut off, empty, the
longest and one byte longer), a large one and the two that README shows. Inputs that are too long have
a length that is printed: pipes are read to their end, however long and however late that is; of a
regular file, which may begin at any offset, the system knows the end, so one that nobody could read
whole is told at once; one may be cut and lengthened meanwhile. Then what is around the line: inputs
that cannot be read, outputs that cannot be written, arguments, a program that is stopped while it
reads, reads that are interrupted and writes that are cut short (by interrupts.c, on x86-64 alone,
where it can be loaded before the C library), and several at once that append to one file.
"""

import errno
import os
import pathlib
import platform
import signal
import subprocess
import sys
import tempfile
import time

from chance import Chance
from groups import lines, reports
from programs import (LONG, LONGEST_RUN, SYSTEM_FILE, WORKED, changing, check_said, expect, file_told_empty, interrupts,
                      lengthen, lines_of_changing, long_line, run, system_file_length)
from rules.limits import LONGEST_FILE
from rules.lines import line_of

CRATES = pathlib.Path(__file__).resolve().parent.parent / "crates"
WORKED_LINE = line_of(WORKED).encode()
AT_ONCE, EACH = 4, 25
# As many seconds a file is changed, and an input without end is read.
A_WHILE = 2


# ---- a run, and what it is to print

def check_unread(command, what, number, **streams):
    """No line is printed, and standard error says why."""
    printed, said = run(command, status=1, **streams)
    expect(what, printed, b"")
    check_said(what, said, b"report: no line is printed, since standard input could not be read", number)


def check_unwritten(command, what, number, **streams):
    _, said = run(command, status=1, input=WORKED, **streams)
    check_said(what, said, b"report: the line could not be written whole", number)


# ---- whole files

def whole_files():
    for group in (reports, lines):
        for a_call in group.calls(Chance(0)):
            yield a_call.arguments[0]
    yield [0] * 1_000_000


def check_file(command, file):
    expect("a file of %d bytes" % len(file), run(command, input=bytes(file)),
           (line_of(file).encode(), b""))


def check_stored_files(command):
    """The two files that README shows, with their lines as they are printed there."""
    for name, line in (("report/stdin", b"5 1 1 80 0\n"), ("night/data/two-spikes", b"6 2 2 80 10\n")):
        with open(CRATES / name, "rb") as file:
            expect("the file %s" % name, run(command, stdin=file), (line, b""))


# ---- inputs that are too long

def check_long_pipes(command):
    """They are read to their end; of one that is longer than 32 bits can say, too."""
    for length in (LONGEST_FILE + 1, LONGEST_FILE + 2, 65_536, 1_000_000, LONG):
        zeros = ["head", "-c", str(length), "/dev/zero"]
        with subprocess.Popen(zeros, stdout=subprocess.PIPE) as feeding:
            expect("a pipe of %d bytes" % length, run(command, stdin=feeding.stdout), (long_line(length), b""))


def start(command, **streams):
    return subprocess.Popen(command, stdout=subprocess.PIPE, stderr=subprocess.PIPE, **streams)


def check_open_pipe(command):
    """No line is printed before the end, however long that is in coming."""
    with start(command, stdin=subprocess.PIPE) as program:
        for part in (LONGEST_FILE, 1, 6_967, 10):
            program.stdin.write(bytes(part))
            program.stdin.flush()
            time.sleep(0.2)
            expect("a program whose input stays open", program.poll(), None)
        expect("a pipe that stays open", program.communicate(timeout=LONGEST_RUN), (b"refused 15 40010\n", b""))


def check_endless_input(command):
    """The program reads on: a device tells no end."""
    with open("/dev/zero", "rb") as zeros, start(command, stdin=zeros) as program:
        time.sleep(A_WHILE)
        expect("a program whose input has no end", program.poll(), None)
        program.kill()
        expect("an endless input", program.communicate(timeout=LONGEST_RUN), (b"", b""))


def check_offsets(command):
    """Of a regular file the bytes from its place on are the input."""
    with tempfile.TemporaryFile() as file:
        def check(what, at, line):
            os.lseek(file.fileno(), at, os.SEEK_SET)
            expect("%s, from %d on" % (what, at), run(command, stdin=file), (line, b""))

        contents = bytes(50_000) + WORKED
        os.write(file.fileno(), contents)
        size = len(contents)
        for at in (0, 1, size - LONGEST_FILE - 2, size - LONGEST_FILE - 1, size - LONGEST_FILE, 50_000 - 2, 50_000,
                   50_001, size - 12, size - 11, size, size + 1, LONG):
            check("a file", at, line_of(contents[at:]).encode())
        os.truncate(file.fileno(), LONG)
        for at in (0, 1, 1_000_000_000, LONG - LONGEST_FILE - 1):
            check("a long file", at, long_line(LONG - at))
        length = lengthen(file.fileno())
        check("a file that nobody could read whole", 0, long_line(length))
        check("a file that nobody could read whole", 1, long_line(length - 1))


def check_system_file(command):
    """A file whose end the system does not tell is read to it."""
    length = system_file_length()
    if length > LONGEST_FILE:
        with open(SYSTEM_FILE, "rb") as file:
            expect(SYSTEM_FILE, run(command, stdin=file), (long_line(length), b""))


def check_told_empty(command):
    """A file whose end lies before what was read of it, by the system's word, is what was read of it."""
    with file_told_empty() as path:
        if path:
            with open(path, "rb") as file:
                expect(str(path), run(command, stdin=file), (long_line(LONGEST_FILE + 1), b""))


def check_changing(command):
    """Whatever is met, the line is one of a file that there could have been, and one there is."""
    possible = lines_of_changing()
    with tempfile.NamedTemporaryFile() as named, changing(named.name):
        end = time.monotonic() + A_WHILE
        while time.monotonic() < end:
            with open(named.name, "rb") as file:
                line, said = run(command, stdin=file)
            if line not in possible or said:
                sys.exit("a file that is cut and lengthened: %r, %r" % (line, said))


# ---- inputs that cannot be read

def check_unread_inputs(command):
    folder = os.open("/", os.O_RDONLY)
    check_unread(command, "a folder", errno.EISDIR, stdin=folder)
    os.close(folder)
    check_unread(command, "a closed input", errno.EBADF, preexec_fn=lambda: os.close(0))
    reads, writes = os.pipe()
    os.set_blocking(reads, False)
    check_unread(command, "a pipe with nothing in it yet", errno.EAGAIN, stdin=reads)
    for length in (7, LONGEST_FILE, LONGEST_FILE + 1, 40_000):
        os.write(writes, bytes(length))
        check_unread(command, "a pipe with %d bytes in it and no end" % length, errno.EAGAIN, stdin=reads)
    os.close(reads)
    os.close(writes)


# ---- outputs that cannot be written

def check_unwritten_outputs(command):
    with open("/dev/full", "wb") as full:
        check_unwritten(command, "a full disk", errno.ENOSPC, stdout=full)
    check_unwritten(command, "a closed output", errno.EBADF, preexec_fn=lambda: os.close(1))


# ---- arguments

def check_arguments(command):
    for arguments in (["file"], ["--help"], [""], ["-", "x"]):
        expect("arguments %r" % arguments, run(command + arguments, input=WORKED),
               (b"", b"usage: report < FILE\n"))


# ---- a file that comes in parts, to a program that is stopped and goes on

def check_stopped(command):
    """Whether or not the kernel tells the program of the stop, its line is that of the file."""
    with subprocess.Popen(command, stdin=subprocess.PIPE, stdout=subprocess.PIPE,
                          stderr=subprocess.PIPE) as program:
        for at in range(0, len(WORKED), 5):
            program.stdin.write(WORKED[at:at + 5])
            program.stdin.flush()
            time.sleep(0.01)
            program.send_signal(signal.SIGSTOP)
            time.sleep(0.01)
            program.send_signal(signal.SIGCONT)
        expect("a stopped program", program.communicate(timeout=60), (WORKED_LINE, b""))


# ---- reads that are interrupted, writes that are cut short

def check_interrupted(command):
    with interrupts() as settings:
        for file in (WORKED, bytes(40_000)):
            expect("interrupted reads and short writes", run(command, input=file, env=settings),
                   (line_of(file).encode(), b""))


# ---- several at once

def check_one_write(command):
    """Lines that several programs append to one file never stand in each other."""
    with tempfile.TemporaryFile() as file:
        appended = os.open("/proc/self/fd/%d" % file.fileno(), os.O_WRONLY | os.O_APPEND)
        for _ in range(EACH):
            programs = [subprocess.Popen(command, stdin=subprocess.PIPE, stdout=appended)
                        for _ in range(AT_ONCE)]
            for program in programs:
                program.stdin.write(WORKED)
            for program in programs:
                program.stdin.close()
            for program in programs:
                program.wait(timeout=60)
        os.close(appended)
        file.seek(0)
        expect("several at once", file.read(), WORKED_LINE * (AT_ONCE * EACH))


def main(command):
    files = list(whole_files())
    for file in files:
        check_file(command, file)
    check_stored_files(command)
    print("the report program printed the right line for %d files" % (len(files) + 2))
    check_long_pipes(command)
    check_open_pipe(command)
    check_endless_input(command)
    check_offsets(command)
    check_system_file(command)
    check_told_empty(command)
    check_changing(command)
    print("it says how long an input is that is too long, and reads no more of a file than that needs")
    check_unread_inputs(command)
    check_unwritten_outputs(command)
    check_arguments(command)
    check_stopped(command)
    if platform.machine() == "x86_64":
        check_interrupted(command)
    check_one_write(command)
    print("it says what it cannot read or write, takes no arguments, and prints its line at once")


if __name__ == "__main__":
    if len(sys.argv) < 2:
        sys.exit(__doc__)
    main(sys.argv[1:])
