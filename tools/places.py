#!/usr/bin/env python3
"""Lists places of the code that could be written in a newer form, point by point, and counts them.

    python3 tools/places.py [--list] [DIR]

DIR is the top of a checkout (default: this one). With --list each place is printed, otherwise only the counts.
The points are those of docs/DESIGN-PASS.md. What is found is a place to look at, not yet one to change.
"""
import glob
import itertools
import os
import re
import sys

args = [a for a in sys.argv[1:] if a != "--list"]
TOP = args[0] if args else os.path.join(os.path.dirname(os.path.abspath(__file__)), "..")
SHOW = "--list" in sys.argv


def sources():
    """Each file of src/, with its lines, comments taken out."""
    for path in sorted(glob.glob(os.path.join(TOP, "crates/*/src/*.rt"))):
        lines = [re.sub(r"\s*//.*$", "", line) for line in open(path).read().split("\n")]
        yield os.path.relpath(path, TOP), lines


def matching(pattern):
    """The lines that a pattern finds."""
    return [f"{path}:{n}: {line.strip()}" for path, lines in sources() for n, line in enumerate(lines, 1)
            if re.search(pattern, line)]


def functions():
    """Each function: its place, its name, its parameters, its clauses and its body's lines."""
    for path, lines in sources():
        text = "\n".join(lines)
        for m in re.finditer(r"\bfn (\w+)", text):
            at = text.find("(", m.end())
            depth, end = 0, at
            while True:
                depth += {"(": 1, ")": -1}.get(text[end], 0)
                end += 1
                if depth == 0:
                    break
            rest = text[end:]
            body = re.search(r"(?m)(^ *\{|\{)\s*\n", rest)
            declared = re.search(r"(?m);\s*$", rest)
            if declared and (not body or declared.start() < body.start()):
                body = None
            head = rest[:body.start()] if body else rest[:declared.start()] if declared else ""
            indent = len(text[:m.start()].split("\n")[-1]) - len(text[:m.start()].split("\n")[-1].lstrip())
            close = re.search(r"(?m)^ {%d}\}" % indent, rest[body.end():]) if body else None
            inner = rest[body.end():body.end() + close.start()] if close else ""
            params = [" ".join(p.split()) for p in split(text[at + 1:end - 1])]
            clauses = re.findall(r"(?:requires|ensures)\*? ?\w* ?\{ (.*) \}\s*$", head, re.M)
            line = text[:m.start()].count("\n") + 1
            yield f"{path}:{line}", m.group(1), params, clauses, [l for l in inner.split("\n") if l.strip()]


def split(text):
    """Splits at commas that stand in no bracket."""
    parts, depth, part = [], 0, ""
    for c in text:
        depth += (c in "([{<") - (c in ")]}>")
        if c == "," and depth == 0:
            parts.append(part)
            part = ""
        else:
            part += c
    return [p for p in parts + [part] if p.strip()]


def shape(lines):
    """A body with names, numbers and texts taken out."""
    text = " ".join(" ".join(lines).split())
    text = re.sub(r'"[^"]*"', "s", text)
    text = re.sub(r"\b(?!match\b|if\b|else\b|for\b|while\b|let\b|mut\b|return\b|in\b|as\b)\w+\b", "x", text)
    return re.sub(r"\bx(::x)+", "x", text)


def twins():
    """Groups of functions of two lines or more whose bodies differ in names, numbers and texts alone, for each that has a twin."""
    groups = {}
    for place, name, _, _, body in functions():
        if len(body) >= 2 and "tests.rt" not in place:
            groups.setdefault(shape(body), []).append(f"{place}: fn {name}")
    return [" ~ ".join(g) for g in groups.values() if len(g) > 1]


def travelling():
    """Sets of parameters that stand together in three or more functions of a crate."""
    crates = {}
    for place, name, params, _, _ in functions():
        own = frozenset(p for p in params if ":" in p)
        crates.setdefault(place.split("/")[1], []).append((f"{name}", own))
    found = []
    for crate, fns in sorted(crates.items()):
        sets = {}
        for (a, ps), (b, qs) in itertools.combinations(fns, 2):
            common = ps & qs
            if len(common) >= 2:
                sets[common] = sorted({n for n, rs in fns if common <= rs})
        kept = [(c, ns) for c, ns in sets.items() if len(ns) >= 3]
        kept = [(c, ns) for c, ns in kept if not any(c < d and len(ms) >= 3 for d, ms in kept)]
        found += [f"{crate}: ({', '.join(sorted(c))}) in {', '.join(ns)}" for c, ns in kept]
    return found


def repeated_clauses():
    """Clauses that stand in three or more functions of a crate."""
    seen = {}
    for place, name, _, clauses, _ in functions():
        for clause in clauses:
            seen.setdefault((place.split("/")[1], clause), []).append(name)
    return [f"{crate}: {clause} in {', '.join(ns)}" for (crate, clause), ns in sorted(seen.items()) if len(ns) >= 3]


def buffers():
    """Structs with an array and a length beside it, and with two arrays of one length."""
    found = []
    for path, lines in sources():
        for m in re.finditer(r"struct (\w+)[^;{]*\{(.*?)\n\}", "\n".join(lines), re.S):
            fields = re.findall(r"(\w+): ([^,\n]+(?:; \w+\])?),", m.group(2))
            arrays = [(n, t) for n, t in fields if re.match(r"\[.*; \w+\]$", t)]
            lengths = [n for n, t in fields if t in ("u8", "usize") and re.search(r"count|len|top", n)]
            sizes = [t.rsplit(";", 1)[1] for _, t in arrays]
            found += [f"{path}: {m.group(1)}.{n}, a length" for n in lengths if arrays]
            found += [f"{path}: {m.group(1)}, arrays of one length" for s in sorted(set(sizes)) if sizes.count(s) > 1]
    return found


def counting():
    """Loops that count an index by hand: down to 0, by a counter beside the loop, or over a range for an index of an array."""
    found = matching(r"\bwhile [a-z]+ > 0|= \w+\.saturating_add\(1\)|count \+= 1;")
    for path, lines in sources():
        for n, line in enumerate(lines, 1):
            m = re.match(r"( *)for (\w+) in \(?[\w.]+\.\.", line)
            if m:
                body = "\n".join(itertools.takewhile(lambda l: not l.startswith(m.group(1) + "}"), lines[n:]))
                if re.search(r"\[(usize::from\()?%s\)?\]" % m.group(2), body) or re.search(r"_at\(\w+, (usize::from\()?%s\b" % m.group(2), body):
                    found.append(f"{path}:{n}: {line.strip()}")
    return sorted(found)


def proofs():
    """The answers and lemmas of the proofs, by crate."""
    found = []
    for crate in sorted(glob.glob(os.path.join(TOP, "crates/*"))):
        text = "\n".join(open(f).read() for f in glob.glob(crate + "/proofs/**/*.antt", recursive=True))
        found += [f"{os.path.basename(crate)}: {n}" for n in re.findall(r"(?m)^ *(?:abbrev )?(?:pub )?([\w-]+) : ", text)]
    return found


POINTS = [
    ("1 enums of the library's shape, flags with a value beside, numbers for kinds", lambda: matching(
        r"enum Order\b|in_force: bool,$|^(pub )?const [A-Z]+: u8 = \d|^ +(pub )?(kind|class): u8,$|struct Fault\b|Faulted\(u8\)")),
    ("2 functions alike but for names, types and numbers", twins),
    ("3 loops that count an index by hand", counting),
    ("4 equality, order, conversion and printing by hand", lambda: matching(
        r"fn (number|fault|told|is_same|is_waiting|is_standing|is_class|by_number|then_by|one_if|difference|is_under|mark"
        r"|print_\w+)\(|number: (self|fault)\.number|None => \{\}")),
    ("5a parameters that travel together", travelling),
    ("5b clauses that stand three times", repeated_clauses),
    ("6 arrays with a length beside, and side by side", buffers),
    ("7 switches on a number, function tables", lambda: matching(r"^ +[A-Z][A-Z_]+ => [a-z_]+\(|: fn\(|\bdyn ")),
    ("8 lemmas and answers in proofs/", proofs),
]

for title, find in POINTS:
    places = find()
    print(f"{title}: {len(places)}")
    if SHOW:
        for place in places:
            print(f"    {place}")
