"""Runs the night program on whole nights, in folders of its own, and compares the sheet with the rules.

    python3 second/night_files.py COMMAND..

The command is the program, behind its emulator where one is needed.

The nights: every kind of file that the group `reports` has, doubles, no names, 250 and 251 of them, names
of all bytes, bad lines; what is no regular file, links, files that may not be opened or cannot be read,
files that come and go meanwhile or change their length, files over the limit up to one that nobody could
read whole; nights by chance. Then what is around the sheet:
lists that come in parts, stay open, are very long or cannot be read; outputs that cannot be written; one
write to a line; arguments; a small stack and few descriptors. What is opened, and that it is closed
before the next, is seen by way of inotify.
"""

import errno
import functools
import itertools
import os
import platform
import resource
import shutil
import signal
import socket
import sys
import tempfile
import threading
import time

from chance import Chance
from folders import Watch, check_in_a_folder, in_turn, listed
from groups import reports
from groups.forms import LONGEST_FORM
from programs import (LONG, LONGEST_RUN, SYSTEM_FILE, WORKED, changing, check_said, expect, file_told_empty, interrupts,
                      lengthen, lines_of_changing, run, system_file_length)
from rules.files import file_of
from rules.limits import LONGEST_FILE, LONGEST_NAME, MOST_NAMES, MOST_SAMPLES, TOP
from rules.lines import fields_of_long
from rules.lists import lines_of
from rules.nights import totals_of

NOBODY = 65534
STACK = 512 * 1024
MEGABYTE = 1_000_000
# As many seconds a file is changed.
A_WHILE = 2


# ---- files of every kind

def check_files(folder):
    """Sound and damaged files of every kind, in lists of 250 and fewer, each by a pipe and by a file."""
    contents = sorted({bytes(a_call.arguments[0]) for a_call in reports.calls(Chance(0))
                       if len(a_call.arguments[0]) < 2000})
    names = [folder.put(b"scan %d" % i, file) for i, file in enumerate(contents)]
    for name, file in {
            b"longest": file_of(LONGEST_FORM, [TOP, 0] * (MOST_SAMPLES // 2)),
            b"all up": file_of([], [TOP] * MOST_SAMPLES),
            b"all down": file_of([0], [0] * MOST_SAMPLES),
            b"too many samples": file_of([16], [1] * (MOST_SAMPLES + 1)),
            b"one byte over": [0] + file_of(LONGEST_FORM, [1] * MOST_SAMPLES),
            b"one byte more": file_of([], [0] * MOST_SAMPLES) + [0],
            b"no file, as long as one may be": bytes(LONGEST_FILE),
            b"a megabyte": bytes(MEGABYTE)}.items():
        names.append(folder.put(name, bytes(file)))
    expect("what is refused", {fields[1] for fields in folder.outcomes.values() if fields[0] == "refused"},
           {7, 9, 15, 16, 17, 18})
    for start in range(0, len(names), MOST_NAMES):
        folder.check("files from %d" % start, listed(*names[start:start + MOST_NAMES]))
    text = listed(*reversed(names[-MOST_NAMES:]))
    with tempfile.TemporaryFile() as file:
        file.write(text)
        file.seek(0)
        folder.check("a list in a file", text, stdin=file)


def check_long_files(folder):
    """Their lengths are printed, and nothing is read to tell them, whatever they are."""
    sound = folder.put(b"sound", WORKED)
    names = [folder.put_long(b"%d bytes" % length, length)
             for length in (LONGEST_FILE + 1, LONGEST_FILE + 2, 65_536, MEGABYTE, 2 ** 31, 2 ** 32 - 1, 2 ** 32,
                            2 ** 32 + len(WORKED), LONG)]
    names.append(folder.put(b"longest", b""))
    folder.outcomes[b"longest"] = fields_of_long(lengthen(folder.at(b"longest")))
    text = listed(sound, *names, sound, *reversed(names), b"none")
    expect("how many are too long", folder.sheet(text).splitlines()[-1], b"2 1 0 0 0 20 0 0 0 10 2 2 160 0")
    folder.check("long files", text)
    folder.check("250 long files", listed(*names * 25))
    # one whose end the system does not tell is read to it
    length = system_file_length()
    if length > LONGEST_FILE:
        name = os.fsencode(SYSTEM_FILE)
        folder.outcomes[name] = fields_of_long(length)
        folder.check("a file of the system's own", listed(name, sound, name))
    # one whose end lies before what was read of it, by the system's word, is what was read of it
    with file_told_empty() as path:
        if path:
            name = os.fsencode(path)
            folder.outcomes[name] = fields_of_long(LONGEST_FILE + 1)
            folder.check("a file that the system tells is empty", listed(name, sound, name))


def check_doubles(folder):
    a, b = folder.put(b"a", WORKED), folder.put(b"b", file_of([16], []))
    folder.check("doubles", listed(a, a, b, a, b"none", b, b"none", a))
    folder.check("250 times the same", listed(*[a] * MOST_NAMES))
    folder.put(b"all up", file_of([], [TOP] * MOST_SAMPLES))
    folder.put(b"all down", file_of([0], [0] * MOST_SAMPLES))
    for name, last in ((b"all up", b" 268431360000 0\n"), (b"all down", b" 0 268431360000\n")):
        text = listed(*[name] * MOST_NAMES)
        expect("the largest total", folder.sheet(text)[-len(last):], last)
        folder.check("the largest total", text)


# ---- lists

def check_lists(folder):
    """No names; about 250; bad lines; the last line end is optional."""
    a, b = folder.put(b"a", WORKED), folder.put(b"b", b"")
    for text in (b"", b"a", b"a\n", b"a\nb", b"a\nb\n", b"\n", b"\n\n", b"\na", b"a\n\n", b"a\n\nb\n",
                 b"a\nb\n\n", b"\r\n", b"a\r\nb\r\n", b" \n", b"a \n a\n", b"none", b"\0", b"\0\n",
                 b"a\0\nb\0a\n\0a\n"):
        folder.check("the list %r" % text, text)
    with open("/dev/null", "rb") as nothing:
        folder.check("nothing at all", b"", stdin=nothing)
    for lines in (MOST_NAMES - 1, MOST_NAMES, MOST_NAMES + 1, MOST_NAMES + 2):
        for end in (b"", b"a", b"\n", b"\0", b"a\n\n"):
            folder.check("%d lines and %r" % (lines, end), listed(*[a] * lines) + end)
        folder.check("%d empty lines" % lines, b"\n" * lines)
        for place in (0, 1, lines // 2, lines - 1):
            for bad in (b"", b"a" * (LONGEST_NAME + 1), b"\0" * (LONGEST_NAME + 1)):
                names = [b] * lines
                names[place] = bad
                folder.check("%d lines, of which %d is bad" % (lines, place + 1), listed(*names))
    for size in (LONGEST_NAME - 1, LONGEST_NAME, LONGEST_NAME + 1, LONGEST_NAME + 2):
        folder.check("a name of %d bytes" % size, listed(a, b"n" * size, a))
        folder.check("a name of %d bytes, not ended" % size, listed(a) + b"n" * size)
        folder.check("a name of %d bytes and a carriage return" % (size - 1), listed(b"n" * (size - 1) + b"\r"))
        folder.check("%d bytes of 0" % size, listed(b"\0" * size, a))


def check_names(folder):
    """Names of all bytes, of every length, and by way of other folders; as they stand."""
    names = []
    for byte in range(1, 256):
        if byte not in b"\n/":
            names.append(folder.put(b"x" + bytes([byte]), file_of([16], [byte])))
    for letter in [*map(chr, range(128, 256)), "\u0394", "\u20ac", "\u6f22", "\ufeff", "\U0001f52c"]:
        names.append(folder.put(("x" + letter).encode(), file_of([16], [ord(letter) % 2 ** 16])))
    for size in (1, 2, 100, LONGEST_NAME - 1, LONGEST_NAME):
        names.append(folder.put(b"n" * size, file_of([], [size])))
    for name in (b" ", b"  a  b ", b"c\r", b"-", b"--help", b"~", b"$HOME", b"*", b"'", b'"', b"\\", b"\t",
                 b"%s%n", "Höhe Å.sf".encode(), b"\xff\xfe", b"\x80", b"\xc3", b"...", b"#", b"a;b",
                 b"refused 19 1", b"0"):
        names.append(folder.put(name, file_of([0], [len(name)])))
    os.mkdir(folder.at(b"sub"))
    names.append(folder.put(b"sub/in it", WORKED))
    deep = b"/".join([b"d" * 50] * 4)
    os.makedirs(folder.at(deep))
    names.append(folder.put(deep + b"/" + b"e" * (LONGEST_NAME - len(deep) - 1), WORKED))
    expect("a path's length", len(names[-1]), LONGEST_NAME)
    for other in (b"./c\r", b".//./c\r", b"sub/../c\r", folder.at(b"c\r")):
        names.append(folder.alias(other, b"c\r"))
    # what is not there, or is a folder
    names += [b"c", b"c\r\r", b"C\r", b" c\r", b"c\r ", b"c\r/", b"c\r/.", b"sub/none", b"none/../c\r",
              b"../../none", b".", b"..", b"/", b"sub", b"sub/", b"sub/."]
    for start in range(0, len(names), MOST_NAMES):
        folder.check("names from %d" % start, listed(*names[start:start + MOST_NAMES]))
    folder.check("250 lines with line ends of two bytes", b"c\r\n" * MOST_NAMES)
    # from the working folder, wherever that is
    text = listed(b"../sub/in it", b"in it", b"sub/in it")
    folder.alias(b"../sub/in it", b"sub/in it")
    folder.alias(b"in it", b"sub/in it")
    del folder.outcomes[b"sub/in it"]
    expect("another working folder", run(folder.command, input=text, cwd=folder.at(b"sub")),
           (folder.sheet(text), b""))


def check_the_longest_list(folder):
    """250 names of 255 bytes each, all of them there, with and without the last line end."""
    names = [folder.put(b"%03d" % i + b"n" * (LONGEST_NAME - 3), file_of([16], [i])) for i in range(MOST_NAMES)]
    text = listed(*names)
    expect("its length", len(text), 64_000)
    folder.check("the longest list", text)
    folder.check("the longest list, not ended", text[:-1])
    folder.check("the longest list and a byte", text + b"a")
    folder.check("the longest list and an empty line", text + b"\n")
    folder.check("the longest list with a byte more in its last line", text[:-1] + b"a")
    folder.check("the longest list with a byte more in its first line", b"a" + text)


# ---- what is no file, or may not be opened, or cannot be read

def check_kinds(folder):
    """None of these is waited for, and none but the regular files is opened."""
    a = folder.put(b"a", WORKED)
    os.mkdir(folder.at(b"folder"))
    os.mkfifo(folder.at(b"pipe"))
    bound = socket.socket(socket.AF_UNIX)
    bound.bind(folder.at(b"socket"))
    bound.listen(1)
    for link, target in ((b"link", b"a"), (b"link to it", b"link"), (b"dangling", b"none"),
                         (b"round", b"round"), (b"to folder", b"folder"), (b"to pipe", b"pipe"),
                         (b"to zeros", b"/dev/zero")):
        os.symlink(target, folder.at(link))
    os.link(folder.at(b"a"), folder.at(b"hard"))
    for name in (b"link", b"link to it", b"hard"):
        folder.alias(name, a)
    names = [a, b"folder", b"pipe", b"socket", b"link", b"link to it", b"dangling", b"round", b"to folder",
             b"to pipe", b"to zeros", b"hard", b"/dev/zero", b"/dev/null", b"/dev/full", b"/dev/random",
             b"/dev/tty", b"/dev/stdin", b"/dev/stdout", b"/dev/fd/0", b"/proc/self/fd", b"/", b"/etc/none",
             b"a/b", a]
    watch = Watch(folder)
    folder.check("kinds of files", listed(*names))
    opened = [name for name in watch.seen() if name.startswith(b"open ")]
    expect("what is opened", opened, [b"open " + name for name in (b"a", b"a", b"a", b"hard", b"a")])
    bound.close()


def check_unread_files(folder):
    """A file that is there and opened, but of which no byte can be read."""
    a = folder.put(b"a", WORKED)
    # the program's own memory, at the address 0
    folder.check("a file that cannot be read", listed(a, b"/proc/self/mem", a))


def public_command(command, path):
    """The program where everyone may start it."""
    copy = os.path.join(path, "program")
    shutil.copy(command[-1], copy)
    os.chmod(copy, 0o755)
    return [*command[:-1], copy]


def check_forbidden(folder):
    """As a user who is not root: files and folders that may not be opened."""
    a = folder.put(b"a", WORKED)
    os.mkdir(folder.at(b"shut"))
    for name, mode in ((b"unreadable", 0o000), (b"write only", 0o222), (b"shut/in it", 0o644)):
        folder.put(name, WORKED)
        os.chmod(folder.at(name), mode)
        del folder.outcomes[name]
    os.chmod(folder.at(b"shut"), 0o000)
    os.chmod(folder.at(folder.put(b"readable", WORKED)), 0o444)
    who = {"user": NOBODY, "group": NOBODY, "extra_groups": []} if os.geteuid() == 0 else {}
    with tempfile.TemporaryDirectory() as path:
        os.chmod(path, 0o755)
        folder.check("files that may not be opened",
                     listed(a, b"unreadable", b"write only", b"shut/in it", b"readable", a),
                     public_command(folder.command, path), **who)
    os.chmod(folder.at(b"shut"), 0o755)


# ---- files that come and go meanwhile

def full_pipe():
    """A pipe into which not a byte goes, and how many it holds."""
    reads, writes = os.pipe()
    os.set_blocking(writes, False)
    held = 0
    for part in (bytes(4096), b"\0"):
        try:
            while True:
                held += os.write(writes, part)
        except BlockingIOError:
            pass
    os.set_blocking(writes, True)
    return reads, writes, held


def check_meanwhile(folder):
    """The program waits to print its first line, and the other files change before it comes to them."""
    a = folder.put(b"a", WORKED)
    for name in (b"removed", b"a folder now", b"a pipe now", b"other now", b"moved"):
        folder.put(name, WORKED)
    text = listed(a, b"removed", b"made", b"a folder now", b"a pipe now", b"other now", b"moved", b"moved to",
                  a)
    before = folder.sheet(text)
    reads, writes, held = full_pipe()
    watch = Watch(folder)
    program = folder.start(stdout=writes)
    os.close(writes)
    program.stdin.write(text)
    program.stdin.close()
    watch.wait_for(b"close a")
    for name in (b"removed", b"a folder now", b"a pipe now"):
        os.remove(folder.at(name))
        del folder.outcomes[name]
    os.mkdir(folder.at(b"a folder now"))
    os.mkfifo(folder.at(b"a pipe now"))
    folder.put(b"made", WORKED)
    folder.put(b"other now", file_of([16], [1, 2, 3]))
    os.rename(folder.at(b"moved"), folder.at(b"moved to"))
    folder.outcomes[b"moved to"] = folder.outcomes.pop(b"moved")
    if folder.sheet(text) == before:
        sys.exit("files that come and go make no difference")
    with open(reads, "rb") as output:
        sheet = output.read()[held:]
    said = program.stderr.read()
    program.wait(timeout=LONGEST_RUN)
    expect("files that come and go", (sheet, said), (folder.sheet(text), b""))


def outcome_in(line):
    """The outcome from its line."""
    return tuple(int(word) if word.isdigit() else word for word in line.decode().split())


def check_changing(folder):
    """Files that are cut and lengthened while they are read: each line is one of a file that there could
    have been, and the totals are those of the lines."""
    possible, other = lines_of_changing(), folder.put(b"other", file_of([16], [1, 2, 3]))
    with changing(folder.at(b"changing")):
        end = time.monotonic() + A_WHILE
        while time.monotonic() < end:
            sheet, said = run(folder.command, input=listed(b"changing", other) * (MOST_NAMES // 2), cwd=folder.path)
            *lines, last = sheet.splitlines(keepends=True)
            expect("what is said of files that change", said, b"")
            expect("the lines of files that change", [line for line in lines[::2] if line not in possible], [])
            expect("the lines between them", lines[1::2], [b"3 0 0 0 0\n"] * (MOST_NAMES // 2))
            expect("the totals of files that change", outcome_in(last), totals_of([outcome_in(line) for line in lines]))


# ---- what is opened, and when

def check_opened(folder):
    """Each file is closed before the next is opened; a refused list, or one that has not ended, opens none."""
    names = [folder.put(b"file %d" % i, WORKED if i % 2 else b"") for i in range(MOST_NAMES)]
    watch = Watch(folder)
    folder.check("what is opened", listed(*names))
    expect("what is opened", watch.seen(), in_turn(names))
    folder.check("what is opened twice", listed(*names[:3] * 2, b"none"))
    expect("what is opened twice", watch.seen(), in_turn(names[:3] * 2))
    for what, text in (("251 lines", listed(*names, names[0])), ("an empty line", listed(*names[1:], b"")),
                       ("a long line", listed(*names[1:], b"a" * (LONGEST_NAME + 1)))):
        folder.check(what, text)
        expect("what is opened of a list with " + what, watch.seen(), [])
    with folder.start() as program:
        program.stdin.write(listed(*names[:-1]) + names[-1])
        program.stdin.flush()
        time.sleep(0.3)
        expect("what is opened before the list's end", watch.seen(), [])
        expect("the program before the list's end", program.poll(), None)
        expect("the sheet after it", program.communicate(timeout=LONGEST_RUN),
               (folder.sheet(listed(*names)), b""))
    expect("what is opened after it", watch.seen(), in_turn(names))
    with open("/dev/full", "wb") as full:
        run(folder.command, status=1, input=listed(*names), cwd=folder.path, stdout=full)
    expect("what is opened where nothing can be written", watch.seen(), in_turn(names[:1]))


def check_few_descriptors(folder, is_emulated):
    """250 files with room for one more descriptor than the three that there are; an emulator has its own."""
    names = [folder.put(b"file %d" % i, file_of([16], [i])) for i in range(MOST_NAMES)]
    most = 64 if is_emulated else 4
    folder.check("few descriptors", listed(*names),
                 preexec_fn=lambda: resource.setrlimit(resource.RLIMIT_NOFILE, (most, most)))


def check_small_stack(folder, is_emulated):
    """512 KiB, for the largest files and the longest lists, accepted and refused. An emulator is told so."""
    command, limit = folder.command, None
    if is_emulated:
        command = [command[0], "-s", str(STACK), *command[1:]]
    else:
        limit = functools.partial(resource.setrlimit, resource.RLIMIT_STACK, (STACK, STACK))
    scan = [TOP, 0, 1] * (MOST_SAMPLES // 3) + [0]
    longest = folder.put(b"n" * LONGEST_NAME, file_of(LONGEST_FORM, scan))
    others = [b"%03d" % i + b"n" * (LONGEST_NAME - 3) for i in range(MOST_NAMES)]
    for text in (listed(longest, *others[2:], longest), listed(*others, longest), b"a" * (3 * MEGABYTE), b""):
        folder.check("a stack of 512 KiB", text, command, preexec_fn=limit, env={})


# ---- lists that come in parts, stay open, or are very long

def check_parts(folder):
    """A list that comes byte by byte, to a program that is stopped in between and goes on."""
    a, b = folder.put(b"a", WORKED), folder.put(b"b c", b"")
    text = listed(a, b, b"none", a, b"x\0") + b
    with folder.start() as program:
        for at in range(len(text)):
            program.stdin.write(text[at:at + 1])
            program.stdin.flush()
            time.sleep(0.005)
            if at % 5 == 0:
                program.send_signal(signal.SIGSTOP)
                time.sleep(0.005)
                program.send_signal(signal.SIGCONT)
        expect("a list in parts", program.communicate(timeout=LONGEST_RUN), (folder.sheet(text), b""))


def check_open_list(folder):
    """With the first byte of line 251 the program ends, though the list stays open; before it, it waits."""
    a = folder.put(b"a", WORKED)
    for names in ([a] * MOST_NAMES, [b""] * MOST_NAMES, [b"a" * MEGABYTE] + [a] * (MOST_NAMES - 1)):
        for last in (b"x", b"\n", b"\0"):
            with folder.start() as program:
                program.stdin.write(listed(*names))
                program.stdin.flush()
                time.sleep(0.05)
                expect("a list of 250 lines that stays open", program.poll(), None)
                program.stdin.write(last)
                program.stdin.flush()
                program.wait(timeout=LONGEST_RUN)
                expect("a list that stays open", (program.stdout.read(), program.stderr.read()),
                       (b"refused 20 250\n", b""))


def check_long_lists(folder):
    """Many megabytes, in one line or in many."""
    a = folder.put(b"a", WORKED)
    long = b"a" * (20 * MEGABYTE)
    for what, text in (("one line", long),
                       ("one line that is ended", long + b"\n"),
                       ("a line and others", long + b"\na\n\n"),
                       ("250 lines", listed(*[a] * (MOST_NAMES - 1)) + long),
                       ("251 lines", listed(*[a] * MOST_NAMES) + long),
                       ("an empty line before it", b"a\n\n" + long),
                       ("short lines", b"a\n" * (5 * MEGABYTE)),
                       ("empty lines", b"\n" * (5 * MEGABYTE)),
                       ("zeros", bytes(20 * MEGABYTE))):
        folder.check("a very long list: " + what, text)
    # about the size of the program's buffer, wherever a piece ends
    for size in range(63_990, 64_010):
        folder.check("a line of %d bytes" % size, b"b" * size)
        folder.check("a line of %d bytes and others" % size, b"b" * size + b"\na\n\nb")
        folder.check("an empty line, then one of %d bytes" % size, b"\n" + b"b" * size)


def check_unread_lists(folder):
    """No line is printed, and standard error says why."""
    folder.put(b"a", WORKED)

    def check_unread(what, number, **streams):
        printed, said = run(folder.command, status=1, cwd=folder.path, **streams)
        expect(what, printed, b"")
        check_said(what, said, b"night: no sheet is printed, since standard input could not be read", number)

    inside = os.open(folder.path, os.O_RDONLY)
    check_unread("a folder as the list", errno.EISDIR, stdin=inside)
    os.close(inside)
    check_unread("a closed input", errno.EBADF, preexec_fn=lambda: os.close(0))
    reads, writes = os.pipe()
    os.set_blocking(reads, False)
    for part in (b"", b"a", b"a\n", b"a\na\n\n", b"a" * 300):
        os.write(writes, part)
        check_unread("a list of which %d bytes are there" % len(part), errno.EAGAIN, stdin=reads)
    os.close(reads)
    os.close(writes)


# ---- the output

def check_unwritten(folder):
    """A sentence on standard error, once, and the sheet ends there."""
    a = folder.put(b"a", WORKED)
    text = listed(*[a] * 20)

    def check_one(what, number, text=text, **streams):
        _, said = run(folder.command, status=1, input=text, cwd=folder.path, **streams)
        check_said(what, said, b"night: the sheet could not be written whole", number)

    for what, a_list in (("a night", text), ("no names", b""), ("a refused list", b"\n")):
        with open("/dev/full", "wb") as full:
            check_one("a full disk, of " + what, errno.ENOSPC, a_list, stdout=full)
        check_one("a closed output, of " + what, errno.EBADF, a_list, preexec_fn=lambda: os.close(1))
    reads, writes = os.pipe()
    os.close(reads)
    check_one("a pipe that nobody reads", errno.EPIPE, stdout=writes, restore_signals=False)
    os.close(writes)
    # a disk that is full in the midst of a line, between two, and at the last
    sheet = folder.sheet(text)
    for room in (1, 5, 11, 22, 30, 220, 221, len(sheet) - 1):
        def little_room():
            signal.signal(signal.SIGXFSZ, signal.SIG_IGN)
            resource.setrlimit(resource.RLIMIT_FSIZE, (room, room))

        with tempfile.TemporaryFile() as file:
            check_one("room for %d bytes" % room, errno.EFBIG, stdout=file, preexec_fn=little_room)
            file.seek(0)
            expect("room for %d bytes" % room, file.read(), sheet[:room])


def check_one_write(folder):
    """Each line is one message where a write is one."""
    a = folder.put(b"a", WORKED)
    for text in (listed(a, b"none", b"\0", b"b", a), b"", b"\n", listed(*[a] * (MOST_NAMES + 1)),
                 listed(*[a] * MOST_NAMES)):
        ours, theirs = socket.socketpair(socket.AF_UNIX, socket.SOCK_SEQPACKET)
        program = folder.start(stdout=theirs)
        theirs.close()
        feeding = threading.Thread(target=feed, args=(program.stdin, text))
        feeding.start()
        messages = list(iter(lambda: ours.recv(65536), b""))
        said = program.stderr.read()
        program.wait(timeout=LONGEST_RUN)
        feeding.join()
        ours.close()
        expect("writes of a sheet", (messages, said), (folder.sheet(text).splitlines(keepends=True), b""))


def feed(stdin, text):
    try:
        stdin.write(text)
        stdin.close()
    except BrokenPipeError:
        pass


def check_interrupted(folder):
    """Reads that are interrupted and writes that are cut short."""
    a = folder.put(b"a", WORKED)
    with interrupts() as settings:
        long = folder.put_long(b"long", LONG)
        for text in (listed(a, long, b"none", a), b"", b"a\n\n", listed(*[a] * (MOST_NAMES + 1))):
            folder.check("interrupted reads and short writes", text, env=settings)


def check_arguments(folder):
    folder.put(b"a", WORKED)
    for arguments in (["a"], ["--help"], [""], ["-", "x"]):
        expect("arguments %r" % arguments, run(folder.command + arguments, input=b"a\n", cwd=folder.path),
               (b"", b"usage: night < LIST\n"))


# ---- nights by chance

NIGHTS = 60


def check_by_chance(folder, chance):
    """Some files, and lists of them and of what is not there, with a bad line now and then."""
    names = [folder.put(b"scan %d" % i, bytes(file)) for i, file in enumerate(itertools.islice(
        (a_call.arguments[0] for a_call in reports.calls(chance) if len(a_call.arguments[0]) < 500), 80))]
    os.mkdir(folder.at(b"folder"))
    os.mkfifo(folder.at(b"pipe"))
    others = [b"folder", b"pipe", b"none", b"scan 1\0", b"\0", b"scan 1\r", b"scan 1 ", b"\xff", b"/dev/zero",
              b"n" * LONGEST_NAME]
    for night in range(NIGHTS):
        lines = chance.one_of([0, 1, 2, 5, 20, MOST_NAMES - 1, MOST_NAMES, MOST_NAMES + 1])
        listing = [chance.one_of(names if chance.below(4) else others) for _ in range(lines)]
        if lines and chance.below(4) == 0:
            listing[chance.below(lines)] = chance.one_of([b"", b"n" * (LONGEST_NAME + 1), b"n" * 5000])
        text = listed(*listing)
        if text.endswith(b"\n") and chance.below(2):
            text = text[:-1]
        folder.check("night %d by chance, of %d lines" % (night, len(lines_of(text))), text)


# ---- all of it

def main(command):
    is_emulated = len(command) > 1
    command = [*command[:-1], os.path.abspath(command[-1])]
    def check(checked, *more):
        check_in_a_folder(command, checked, *more)

    for checked in (check_files, check_long_files, check_doubles, check_lists, check_names, check_the_longest_list,
                    check_kinds, check_unread_files, check_forbidden, check_meanwhile, check_changing, check_opened):
        check(checked)
    check(check_by_chance, Chance(11))
    print("the night program printed the right sheets")
    check(check_few_descriptors, is_emulated)
    check(check_small_stack, is_emulated)
    for checked in (check_parts, check_open_list, check_long_lists, check_unread_lists, check_unwritten,
                    check_one_write, check_arguments):
        check(checked)
    if platform.machine() == "x86_64":
        check(check_interrupted)
    print("it opens what it is to open and no more, needs little, says what it cannot read or write, and prints"
          " each line at once")


if __name__ == "__main__":
    if len(sys.argv) < 2:
        sys.exit(__doc__)
    main(sys.argv[1:])
