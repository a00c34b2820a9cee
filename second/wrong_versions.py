"""Wrong versions: the must-fail edits of crates/, each shown on calls on which it goes wrong.

    python3 second/wrong_versions.py --check        whether they can be made, and what they say is right is so
    python3 second/wrong_versions.py --run          makes the calls, on the code and on each edit
    python3 second/wrong_versions.py --run NAME..   those of some edits, as scans/always-a-root

An edit names in its first lines, after "# ", a call, its right line (as crates/cases/stdout or
crates/nightcases/stdout has it) and the line that the edited code gives. More calls may follow.

    call: clean 24 40 48; 10 10 90 10 10; lent 5
    right: clean 0 5 : 10 10 10 10 10
    gives: clean 0 5 : 10 10 90 10 10

The arguments stand in the order of wire.py, and a lent slice is its length. In a list of numbers
255*64 is 255 sixty-four times, and (97 10)*250 is 97 10 two hundred and fifty times; a recipe is its
steps: signal, rank 2 56, larger; an outcome is its line: 5 1 1 80 0, unopened, refused 9 0. A sheet
of the program `night` has / between its lines, and 250 unopened is so many lines in turn; sheet_of_length
40000 is that of one file, of so many bytes, each 0. An edit of a definition says "asks" in place of "gives": the
line that the definition would ask for.

An edit of `system`, what the programs ask of the system, or of `wire`, that no such call shows says instead when it goes
wrong. (No stream of calls asks `wire` for more than the room there is.)

    no call: the input is a pipe that gives a part of the file at a time

The calls of `cases` go through the C interface, so that its own edits are shown in the same way: a
small program of Rattle makes them. Those of `nightcases` and `night` are made by these. `rt try` runs
them with no proof, interpreted where it can, and compiled. An edited definition changes no code, so only
its right line is run. --run takes some seconds an edit; the gate has --check.
"""

import concurrent.futures
import os
import pathlib
import re
import shutil
import subprocess
import sys
import tempfile
from collections import namedtuple

from wire import (BYTES, END, FILLERS, KINDS, LENT_BYTES, LENT_RESIDUES, LENT_TOTALS, LENT_WORDS, NUMBER,
                  OUTCOME, OUTCOMES, SCAN, TERMS, TEXT, arguments_of, call, joined, line, record)

ROOT = pathlib.Path(__file__).resolve().parent.parent
PROMISES = ROOT / "docs" / "PROMISES.md"

# A call that an edit names: itself, as it is written, and its two lines.
Shown = namedtuple("Shown", "call text right wrong")
# Where an edit stands, whether it is of code, what it replaces, and the calls that it names.
Edit = namedtuple("Edit", "name crate of_code changes shown")


# The crates with edits that no call shows.
NOT_SHOWN = ("system", "wire")


# ---- what an edit says

SAYS = re.compile(r"# (call|right|gives|asks|no call): (.*)")
STEPS = "signal erode dilate open close rank median larger smaller".split()
GROUP = re.compile(r"\(([^()]*)\)\*(\d+)")


def numbers(text):
    """Whole numbers with spaces between them; N*K is K times N, and (N M ..)*K is K times the group."""
    found = []
    for word in GROUP.sub(lambda group: (group[1] + " ") * int(group[2]), text).split():
        number, _, times = word.partition("*")
        found += [int(number)] * int(times or 1)
    return found


def recipe(text):
    """The bytes of steps that are given by name, with a rank and a set where they have them."""
    found = []
    for step in text.split(","):
        name, *fields = step.split()
        rank, b = [0] * (2 - len(fields)) + [int(field) for field in fields]
        found += [STEPS.index(name), rank, b % 256, b // 256]
    return found


def outcome(text):
    """The fields of a file's line."""
    return tuple(int(word) if word.isdigit() else word for word in text.split())


def argument(kind, text):
    text = text.strip()
    if kind in FILLERS:
        return int(text.removeprefix("lent "))
    if kind == NUMBER:
        return int(text)
    if kind == TEXT:
        return [(numbers(text), 1)]
    if kind == OUTCOME:
        return outcome(text)
    if kind == OUTCOMES:
        return [outcome(part) for part in text.split(",") if part.strip()]
    return recipe(text) if text[:1].isalpha() else numbers(text)


def call_in(text):
    name, _, given = text.partition(" ")
    return call(name, *map(argument, KINDS[name].arguments, given.split(";")))


def edit_in(path):
    crate = path.parent.parent.name
    name = "%s/%s" % (crate, path.stem)
    says, changes = [], []
    for text in path.read_text().splitlines():
        said, (key, _, rest) = SAYS.fullmatch(text), text.partition(":")
        if said:
            says.append(said.groups())
        elif key == "file":
            file = rest[1:]
        elif key == "old":
            old = rest[1:]
        elif key == "new":
            changes.append((file, old, rest[1:]))
    of_code = file.startswith("src/")
    if crate in NOT_SHOWN and [key for key, _ in says] == ["no call"]:
        return Edit(name, crate, of_code, changes, [])
    wanted = ["call", "right", "gives" if of_code else "asks"]
    if not says or [key for key, _ in says] != wanted * (len(says) // len(wanted)):
        sys.exit("%s: its lines have to be %s" % (name, ", ".join(wanted)))
    texts = [text for _, text in says]
    shown = [Shown(call_in(texts[i]), *texts[i:i + 3]) for i in range(0, len(texts), 3)]
    return Edit(name, crate, of_code, changes, shown)


def all_edits():
    return [edit_in(path) for path in sorted(ROOT.glob("crates/*/must-fail/*.edit"))]


# ---- reading them

def row_end(edit, shown):
    """How the call's row ends in the tables of docs/PROMISES.md."""
    texts = [text.removeprefix(shown.call.name).strip() for text in shown[1:]]
    return "| `%s` | `%s` | `%s` | %s |" % (*texts, edit.name)


def edited(edit, crates):
    """The files of the edit's crate that it changes, with their new text. What it replaces stands once."""
    texts = {}
    for file, old, new in edit.changes:
        path = crates / edit.crate / file
        text = texts.get(path) or path.read_text()
        if text.count(old) != 1:
            sys.exit("%s: %s has not once %s" % (edit.name, file, old))
        texts[path] = text.replace(old, new)
    return texts


def check(edits):
    """Exits 1 where an edit cannot be made, a right line is not what the rules say, a wrong one is, or a row is missing."""
    promises = PROMISES.read_text()
    for edit in edits:
        edited(edit, ROOT / "crates")
        if not edit.shown and "| %s |" % edit.name not in promises:
            sys.exit("%s has no row of %s" % (PROMISES.name, edit.name))
        for shown in edit.shown:
            right = line(shown.call)
            if shown.right != right:
                sys.exit("%s: right is %s" % (edit.name, right))
            if shown.wrong == right:
                sys.exit("%s: what it says is wrong is right" % edit.name)
            if row_end(edit, shown) not in promises:
                sys.exit("%s has no row %s" % (PROMISES.name, row_end(edit, shown)))
    unshown = sum(not edit.shown for edit in edits)
    print("%d wrong versions: each%s says what is right, and stands in docs/PROMISES.md"
          % (len(edits), " but the %d that no call shows" % unshown if unshown else ""))


# ---- the program that makes the calls

TYPES = {TERMS: "u16", SCAN: "u16", BYTES: "u8",
         LENT_BYTES: "u8", LENT_WORDS: "u16", LENT_RESIDUES: "i32"}


def slice_of(kind, elements):
    if len(set(elements)) < 2:
        return "&[%d%s; %d]" % (elements[0] if elements else 0, TYPES[kind], len(elements))
    return "&[%s]" % ", ".join("%d%s" % (element, TYPES[kind]) for element in elements)


def function(place, a_call):
    """A function that makes the call by the C interface, and prints its line."""
    made, passed, printed, values = [], [], [], ["value as u64"]
    for i, (kind, given) in enumerate(arguments_of(a_call)):
        if kind in FILLERS:
            made.append("let mut lent%d = [%d%s; %d];" % (i, FILLERS[kind], TYPES[kind], given))
            passed.append("&mut lent%d" % i)
            printed.append("wire.elements(&lent%d);" % i)
        elif kind == LENT_TOTALS:
            made.append("let mut totals = [%s];" % ", ".join("%du64" % number for number in given))
            passed.append("&mut totals")
            printed.append('wire.print(b" :");')
            printed += ["wire.word(totals[%d]);" % k for k in range(len(given))]
        else:
            passed.append(str(given) if kind == NUMBER else slice_of(kind, given))
    if a_call.name == "count":
        made.append("let mut counts = [0u64; 5];")
        passed.append("&mut counts")
        values = ["counts[%d]" % i for i in range(5)]
    passed.append("&mut value")
    if a_call.name == "read":
        made.append("let mut terms_read: usize = 0;")
        passed.append("&mut terms_read")
        values.append("terms_read as u64")
    body = [
        'wire.print(b"%s");' % a_call.name,
        "let mut value: usize = 0;",
        *made,
        "let result = exports::sf_%s(%s);" % (a_call.name, ", ".join(passed)),
        "wire.word(result as u64);",
        "if result == 0 { %s } else { wire.word(value as u64); }"
        % " ".join("wire.word(%s);" % value for value in values),
        *printed,
        'wire.print(b"\\n");',
    ]
    return "fn call%d<R, W: Write>(wire: &mut Wire<R, W>) {\n%s\n}\n" % (place, "\n".join(body))


def program(calls):
    functions = [function(place, a_call) for place, a_call in enumerate(calls)]
    made = " ".join("call%d(&mut wire);" % place for place in range(len(calls)))
    main = "fn main(rt: HostRuntime) { let mut wire = Wire::new(rt.stdin(), rt.stdout()); %s }\n" % made
    return "".join(["#![tactic(auto)]\nuse std::io::Write;\nuse wire::Wire;\n", *functions, main])


# ---- running it

# So many at a time, as many as rt itself takes.
JOBS = int(os.environ.get("RT_JOBS") or min(os.cpu_count(), 4))


def as_shown(calls, crates):
    """Writes the crate that makes calls by the C interface; nothing is on its standard input, and it takes no file."""
    (crates / "shown" / "src").mkdir(parents=True)
    (crates / "shown" / "src" / "main.rt").write_text(program(calls))
    return b"", []


def as_nightcases(calls, crates):
    """What `nightcases` takes: the calls' records."""
    return b"".join(map(record, calls)) + END, []


def as_night(calls, crates):
    """What `night` takes: the list that its one call has, or one of a file with so many bytes, and that file."""
    (a_call,) = calls
    (given,) = a_call.arguments
    if a_call.name != "sheet_of_length":
        return joined(given), []
    (crates / "night" / "long").touch()
    os.truncate(crates / "night" / "long", given)
    return b"long", ["--data", "long=long"]


# By what the calls of each program are made.
MAKERS = {"cases": ("shown", as_shown), "C": ("shown", as_shown), "nightcases": ("nightcases", as_nightcases),
          "night": ("night", as_night)}


def printed(crate, text):
    """What the crate prints of a call, from the call's line."""
    if crate != "night":
        return text + "\n"
    found = re.findall(r"(?:(\d+) (?=unopened))?([^/]+)(?: / |$)", text.partition(" ")[2])
    return "".join((words + "\n") * int(times or 1) for times, words in found)


def run_by(crate, prepare, calls, lines, edit):
    """What `rt try` says where the crate, on the edited code, prints other lines of the calls."""
    with tempfile.TemporaryDirectory() as folder:
        crates = pathlib.Path(folder, "crates")
        for source in ROOT.glob("crates/*/src"):
            shutil.copytree(source, crates / source.parent.name / "src")
        if edit:
            for path, text in edited(edit, crates).items():
                path.write_text(text)
        given, files = prepare(calls, crates)
        # `shown` stands on `exports`, so that is a library here, and none for C.
        listed = (ROOT / "crates.txt").read_text().replace("exports staticlib:", "exports:")
        listed += "shown: exports wire\n" if (crates / "shown").exists() else ""
        pathlib.Path(folder, "crates.txt").write_text(listed)
        tried = subprocess.run(["rt", "try", *files], cwd=crates / crate, input=given, capture_output=True)
        is_so = tried.returncode == 0 and tried.stdout.decode() == "".join(printed(crate, text) for text in lines)
        return "" if is_so else (tried.stdout + tried.stderr).decode(errors="replace")


def run(calls, lines, edit=None):
    """What is amiss where the calls, on the edited code, print other lines; nothing where they don't."""
    amiss = ""
    for kind, maker in MAKERS.items():
        made = [(a_call, text) for a_call, text in zip(calls, lines) if KINDS[a_call.name].program == kind]
        # `night` is given one list, so each of its calls is a run of its own.
        for together in [[one] for one in made] if kind == "night" else [made] if made else []:
            amiss += run_by(*maker, *zip(*together), edit)
    return amiss


def run_edit(edit):
    amiss = run([s.call for s in edit.shown], [s.wrong for s in edit.shown], edit)
    print("%s: %s" % (edit.name, amiss or "; ".join(s.wrong for s in edit.shown)), flush=True)
    return amiss


def run_all(edits):
    """Exits 1 where the code does not give the right line, or an edit not the line that it names."""
    shown = [s for edit in edits for s in edit.shown]
    amiss = run([s.call for s in shown], [s.right for s in shown])
    if amiss:
        sys.exit("the code as it stands:\n" + amiss)
    print("the code as it stands gives the right line on each of %d calls" % len(shown))
    of_code = [edit for edit in edits if edit.of_code and edit.shown]
    with concurrent.futures.ThreadPoolExecutor(JOBS) as pool:
        faults = [amiss for amiss in pool.map(run_edit, of_code) if amiss]
    if faults:
        sys.exit("%d of %d edits of code do not give what they say" % (len(faults), len(of_code)))
    print("%d edits of code give what they say; %d are of definitions, or no call shows them, and have nothing to run"
          % (len(of_code), len(edits) - len(of_code)))


def main(command, *names):
    edits = [edit for edit in all_edits() if not names or edit.name in names]
    {"--check": check, "--run": run_all}[command](edits)


if __name__ == "__main__":
    if len(sys.argv) < 2 or sys.argv[1] not in ("--check", "--run"):
        sys.exit(__doc__)
    main(*sys.argv[1:])
