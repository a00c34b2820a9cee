#!/usr/bin/env python3
"""Lists the places in crates/*/src that docs/DESIGN-PASS.md counts, point by point.

    python3 tools/places.py            counts of this tree
    python3 tools/places.py --list     each place too
    python3 tools/places.py --at C     of the tree at commit C

It finds candidates by their shape alone. Which of them are places is said on the page.
"""

import argparse
import collections
import pathlib
import re
import subprocess
import sys

ROOT = pathlib.Path(__file__).resolve().parent.parent


def sources(commit):
    """Each source file's path and text, of the tree or of a commit."""
    if commit is None:
        for path in sorted(ROOT.glob("crates/*/src/**/*.rt")):
            yield str(path.relative_to(ROOT)), path.read_text()
        return
    git = ["git", "-C", str(ROOT)]
    names = subprocess.run(git + ["ls-tree", "-r", "--name-only", commit, "crates"], check=True, capture_output=True, text=True)
    for name in names.stdout.split():
        if re.fullmatch(r"crates/\w+/src/.*\.rt", name):
            shown = subprocess.run(git + ["show", f"{commit}:{name}"], check=True, capture_output=True, text=True)
            yield name, shown.stdout


def code_lines(text):
    """The numbered lines of code: no comment, no ghost line."""
    for number, line in enumerate(text.split("\n"), 1):
        stripped = line.split("//")[0].rstrip()
        if stripped and not stripped.lstrip().startswith("ghost "):
            yield number, stripped


HEAD = re.compile(r"^( *)(?:pub )?(?:extern \"C\" )?fn (\w+)(.*?)\n\1\}", re.M | re.S)


class Function:
    """A function: its place, name, parameters, clauses and body."""

    def __init__(self, path, text, match):
        self.path = path
        self.name = match.group(2)
        self.line = text.count("\n", 0, match.start()) + 1
        rest = match.group(3)
        head, _, self.body = rest.partition(f"\n{match.group(1)}{{\n")
        opening = head.find("(", len(re.match(r"(?:<[^(]*>)?", head).group(0)))
        depth = 0
        for end in range(opening, len(head)):
            depth += {"(": 1, ")": -1}.get(head[end], 0)
            if depth == 0:
                break
        inside = head[opening + 1:end]
        self.parameters = re.findall(r"(?:mut )?(\w+): ([^,(]*(?:\([^)]*\))?[^,]*)", inside)
        self.result, _, self.clauses = head[end + 1:].partition("\n")
        self.result = self.result.strip().removeprefix("-> ")

    @property
    def at(self):
        return f"{self.path}:{self.line} {self.name}"


def functions(files):
    for path, text in files:
        plain = "\n".join(line.split("//")[0].rstrip() for line in text.split("\n"))
        for match in HEAD.finditer(plain):
            yield Function(path, plain, match)


# ---- what each point looks for


def matching(pattern, files):
    look = re.compile(pattern)
    return [f"{path}:{number} {line.strip()}" for path, text in files for number, line in code_lines(text) if look.search(line)]


def own_enums(files, everything):
    return matching(r"^\s*(pub )?enum \w", files)


def numbered_kinds(files, everything):
    return matching(r"const \w+: u8 = \d+;|\b(kind|call|number): u(8|16|64)\b", files)


def truth_answers(files, everything):
    return [f.at for f in everything if f.result == "bool"
            and not re.match(r"(is|has|holds|keeps|loses|slips|points|passes|occurs|within|set|odd|no|rank|keeps)_?", f.name)]


def sentinels(files, everything):
    found = []
    for path, text in files:
        for number, line in enumerate(text.split("\n"), 1):
            if "//" in line and re.search(r"where (none|there is none|it has none|nothing)|; 0 where|0 where none", line):
                found.append(f"{path}:{number} {line.strip()}")
    return found


def twins(files, everything):
    """Functions of one shape: the same tokens but for names of types, numbers and of other functions."""
    shapes = collections.defaultdict(list)
    for f in everything:
        if f.path.endswith("tests.rt"):
            continue
        names = {name: f"p{i}" for i, (name, _) in enumerate(f.parameters)}
        tokens = re.findall(r"\w+|[^\w\s]", f.body)
        if len(tokens) < 8:
            continue
        shape = " ".join(names.get(t, "w" if re.match(r"\w", t) and t not in
                                   {"if", "else", "for", "in", "while", "let", "mut", "match", "return", "as"} else t) for t in tokens)
        shapes[len(f.parameters), shape].append(f.at)
    return [" = ".join(same) for same in shapes.values() if len(same) > 1]


def index_loops(files, everything):
    return matching(r"^\s*(while |loop \{|for \w+ in .*\.\.)", files)


def stepped_counters(files, everything):
    return matching(r"^\s*\w+ [+-]= 1;", files)


def by_hand(files, everything):
    return [f.at for f in everything if re.match(r"(smaller|larger|cap|min|max|eq|cmp|from_\w+|to_\w+|\w+_of|in_order|totals_in|decimal|digits|put_\w+|two_bytes|four_bytes|word|word_at|long_at|byte)$", f.name)]


def shared_facts(files, everything):
    """Conjuncts of `requires`, with parameters by their type alone, that stand in three functions or more."""
    facts = collections.defaultdict(set)
    for f in everything:
        types = {name: re.sub(r"&(mut )?", "", kind).strip() for name, kind in f.parameters}
        for clause in re.findall(r"requires (?:\w+ )?\{(.*?)\}\s*(?=requires|ensures|$)", f.clauses, re.S):
            for part in re.split(r" × |\n", clause):
                part = re.sub(r"^\((.*)\)$", r"\1", part.strip().strip("× ").strip())
                if not part:
                    continue
                fact = re.sub(r"\b(\w+)(\.(?:now|old|new))?\b", lambda m: f"<{types[m.group(1)]}>" if m.group(1) in types else m.group(0), part)
                facts[f.path.split("/")[1], fact].add(f.at)
    return [f"{crate}: {fact}: {len(where)} functions" for (crate, fact), where in sorted(facts.items()) if len(where) > 2]


def travelling(files, everything):
    """Groups of two parameters or more, by name and type, that stand together in three functions of a crate or more."""
    groups = collections.defaultdict(set)
    for f in everything:
        mine = sorted(set((n, k.strip()) for n, k in f.parameters if n != "self"))
        for i, a in enumerate(mine):
            for b in mine[i + 1:]:
                groups[f.path.split("/")[1], a, b].add(f.at)
    return [f"{crate}: {a[0]}: {a[1]}, {b[0]}: {b[1]}: {len(where)} functions"
            for (crate, a, b), where in sorted(groups.items()) if len(where) > 2]


def lengths_beside(files, everything):
    """A slice or an array, and a number that says how much of it or where."""
    return [f.at for f in everything
            if any(re.match(r"&(mut )?\[", kind.strip()) for _, kind in f.parameters)
            and any(name in {"n", "at", "i", "j", "h", "m", "k", "count", "end", "place", "from", "length", "bytes", "room", "first", "start", "steps"}
                    and kind.strip() == "usize" for name, kind in f.parameters)]


def switches(files, everything):
    return [f"{f.at}: {name}: {kind}" for f in everything for name, kind in f.parameters
            if (kind.strip() == "bool" and name not in {"test", "bit", "b", "ok", "kept", "is_whole", "condition"})
            or (name in {"call", "kind", "code", "work", "by"})]


POINTS = (
    ("1 own enums", own_enums),
    ("1 numbers for kinds or refusals", numbered_kinds),
    ("1 truth values that answer whether something was done", truth_answers),
    ("1 a value that stands for none", sentinels),
    ("2 functions of one shape", twins),
    ("3 loops by while or by an index", index_loops),
    ("3 counters stepped by hand", stepped_counters),
    ("4 order, conversion and printing by hand", by_hand),
    ("5 facts in three contracts or more", shared_facts),
    ("5 parameters that travel together", travelling),
    ("6 a slice with a number beside it", lengths_beside),
    ("7 switches on what to run", switches),
)


def proofs(commit):
    """Files and lines of answers and invariants."""
    if commit is None:
        texts = [p.read_text() for p in ROOT.glob("crates/*/proofs/**/*.antt") if p.name in {"Answers.antt", "Invariants.antt"}]
        laws = [p.read_text() for p in ROOT.glob("crates/*/proofs/*.antt")]
    else:
        git = ["git", "-C", str(ROOT)]
        names = subprocess.run(git + ["ls-tree", "-r", "--name-only", commit, "crates"], check=True, capture_output=True, text=True).stdout.split()
        show = lambda name: subprocess.run(git + ["show", f"{commit}:{name}"], check=True, capture_output=True, text=True).stdout
        texts = [show(n) for n in names if n.endswith(("/Answers.antt", "/Invariants.antt"))]
        laws = [show(n) for n in names if re.fullmatch(r"crates/\w+/proofs/\w+\.antt", n)]
    return len(texts), sum(t.count("\n") for t in texts), len(laws), sum(t.count("\n") for t in laws)


def main():
    parser = argparse.ArgumentParser(description=__doc__, formatter_class=argparse.RawDescriptionHelpFormatter)
    parser.add_argument("--list", action="store_true")
    parser.add_argument("--at", metavar="COMMIT")
    asked = parser.parse_args()
    files = list(sources(asked.at))
    everything = list(functions(files))
    for name, look in POINTS:
        found = look(files, everything)
        print(f"{name}: {len(found)}")
        if asked.list:
            for place in found:
                print(f"    {place}")
    files_of, lines_of, laws, law_lines = proofs(asked.at)
    print(f"8 answers and invariants: {files_of} files, {lines_of} lines; laws: {laws} files, {law_lines} lines")
    return 0


if __name__ == "__main__":
    sys.exit(main())
