#!/usr/bin/env python3
"""Brings the repository's own definitions and lemmas to snake case, once, after the scripts of the toolchain's port.

usage: python3 tools/respell.py        at the top of the repository

It reads the names that specs/ and proofs/ declare, and rewrites those with a dash or a capital inside, as whole words, in
every .antt, .rt and .edit file. Names that the check makes (goals and what stands behind `c.`) and names of src/ stay.
"""

import collections
import glob
import re
import sys

# Names that would fall together with another, and one that is a reserved word now.
OWN = {
    "bit-and": "bit_of_and",
    "bit-or": "bit_of_or",
    "asked-at": "asked_at_lem",
    "flow-at": "flow_at_lem",
    "flow-of": "flow_of_lem",
    "if-known": "if_known_lem",
    "inForce": "rule_in_force",
    "held-rules": "held_listed",
}
DECLARED = re.compile(r"^ *(?:abbrev +|unfoldable +|data +|record +|pub +)*([A-Za-z_][\w'\-]*)(?= :| \(| \{)(?=[^=\n]*:)", re.M)
GOAL = re.compile(r"(?<![\w'\-])goal\.([\w'\-]+)")
MADE = re.compile(r"(?:\b(?:c|l|g|goal|given)\.(?:loop-[\w'\-]+\.|args\.)?)$")
NEVER = re.compile(r"(?!)")
TYPE_FIRST = re.compile(r"[A-Z]")
LETTER = "\\w'\\-"


def snake(name):
    name = name.replace("-", "_")
    return re.sub(r"(?<=[a-z0-9])([A-Z])", lambda m: "_" + m.group(1).lower(), name)


def turned(path, text, names):
    made = MADE if path.endswith(("/Answers.antt", "/Invariants.antt", "/Proof.antt")) else NEVER
    return "\n".join(line_turned(line, names, made) for line in text.split("\n"))


# In a comment only a name with a capital inside is surely a name.
def line_turned(text, names, made):
    comment = text.lstrip().startswith(("--", "//"))

    def one(m):
        if comment and "-" in m.group(0):
            return m.group(0)
        if made.search(text[max(0, m.start() - 60):m.start()]):
            return m.group(0)
        return names.get(m.group(0), m.group(0))

    return re.sub(rf"(?<![{LETTER}◌])[A-Za-z_][{LETTER}]*", one, text)


# The clauses of quantities.rt that the scripts leave: `result` is a reserved word, so the definition is `result_of`.
def quantities(path, text):
    if path.endswith(".antt"):
        word = re.compile(rf"(?<![{LETTER}.◌])result(?![{LETTER}])")
        return "\n".join(line if line.lstrip().startswith("--") else word.sub("result_of", line) for line in text.split("\n"))
    if path.endswith("quantities.rt"):
        text = text.replace("fault_number, result, quotient", "fault_number, result_of, quotient").replace("≡ result z", "≡ result_of z")
        clause = re.compile(r"ensures\*( \w+)? \{ λ r\. ⌜ (.*) ⌝ \}")
        return clause.sub(lambda m: "ensures" + (m.group(1) or "") + " { " + re.sub(r"\br\b", "result", m.group(2)) + " }", text)
    return text


def main():
    files = sorted(f for kind in ("antt", "rt", "edit") for f in glob.glob(f"crates/*/**/*.{kind}", recursive=True) if "/out/" not in f)
    texts = {f: open(f, encoding="utf-8").read() for f in files}
    made = {n for t in texts.values() for n in GOAL.findall(t)}
    declared = collections.defaultdict(set)
    for f, t in texts.items():
        if f.endswith(".antt"):
            for n in DECLARED.findall(t):
                declared[n].add(f)
    names = {n: OWN.get(n, snake(n)) for n in declared if not TYPE_FIRST.match(n) and n not in made and (snake(n) != n or n in OWN)}
    back = collections.defaultdict(set)
    for n in declared:
        back[names.get(n, n)].add(n)
    together = {k: v for k, v in back.items() if len(v) > 1}
    if together:
        print("these fall together:", together)
        sys.exit(1)
    for f, t in texts.items():
        new = turned(f, t, names)
        if "/calculators/" in f:
            new = quantities(f, new)
        if new != t:
            open(f, "w", encoding="utf-8").write(new)
    print(f"{len(names)} names respelled")


main()
