#!/usr/bin/env python3
"""Brings the repository's own ghost names to today's spelling, once, after /opt/rattle/port/port.py.

usage: python3 tools/respell.py            at the top of the repository

Definitions, lemmas, fields and constructors that were written with dashes become snake case, facts and records camel
case: `first-unsettled` is `first_unsettled`, `Means-rules` is `MeansRules`. Names that the checker makes (goals, steps)
keep their dashes. A new name that a function of src/ or another definition has too is printed: functions keep
their names, a definition beside one of that name is left to it, and TAKEN has another name where two definitions meet.
"""

import os
import re
import sys

# names that are bound in a proof, a module or a signature alone
LOCAL = """ahead-is closing-right e-branches e-clauses e-cubes f-means fault-number g-means in-it is-cnf is-k is-line is-p
now-used zero-th""".split()

# a name whose plain respelling another definition has
TAKEN = {"Node-means": "NodeMeansSo"}

WORD = r"[^\s(){}\[\],;.:∷λ→×⊎⊢↦|\"@`]+"
DECLARED = re.compile(r"(?:(?:abbrev|unfoldable)\s+)?(?:pub\s+)?(?:(?:record|data)\s+)?(" + WORD + r")(?:\s+[({].*[)}])?\s*:\s(.*)")
INNER = re.compile(r"\s+(?:(?:abbrev|unfoldable)\s+)?(?:pub\s+)?(?:(?:record|data)\s+)?(" + WORD + r")(?:\s+[({].*[)}])?\s*:\s(.*)")
TOKEN = re.compile(r"(?<![^\s(){}\[\],;.:λ|\"@`])(" + WORD + r")")


def files(*ends):
    for folder, dirs, names in os.walk("crates"):
        dirs[:] = sorted(d for d in dirs if d != "out" or os.path.dirname(folder) != "crates")
        for name in sorted(names):
            if name.endswith(ends):
                yield os.path.join(folder, name)


def code(line):
    """The line without its comment."""
    return re.split(r"(?:^|\s)--(?:\s|$)", line)[0]


def own_names():
    found, made = set(), set()
    for path in files(".antt"):
        answers = os.path.basename(path) in ("Answers.antt", "Invariants.antt", "Choices.antt", "Proof.antt")
        for line in open(path, encoding="utf-8"):
            m = DECLARED.match(code(line)) or (None if answers else INNER.match(code(line)))
            if not m:
                continue
            if re.match(r"(goal|Goals|Given)\.", m[2].strip()) or m[2].strip().startswith("goal."):
                made.add(m[1])
            else:
                found.add(m[1])
    return found - made


def respelt(name):
    if name[0].isupper():
        return "".join(p[:1].upper() + p[1:] for p in name.split("-"))
    return name.replace("-", "_").replace("getD", "get_or")


def turn(text, names):
    def one(m):
        return names.get(m[1], m[1])

    return TOKEN.sub(one, text)


def clauses(text, names):
    """A source file: ghost lines and clauses alone."""
    out = []
    for line in text.split("\n"):
        if re.match(r"\s*(ghost|requires|ensures|pub ghost)\b", line):
            line = turn(line, names)
        out.append(line)
    return "\n".join(out)


def page(text, names):
    return re.sub(r"`[^`\n]+`", lambda m: turn(m[0], names), text)


def main():
    own = own_names()
    dashed = sorted(n for n in own | set(LOCAL) if "-" in n and not re.search(r"[≤≡∷+*<]", n))
    used = set()
    for path in files(".antt", ".rt"):
        used |= set(TOKEN.findall(open(path, encoding="utf-8").read()))
    names = {}
    for name in dashed:
        new = TAKEN.get(name, respelt(name))
        if new in used or new in names.values():
            print("also a name of a function or of a definition:", new)
        names[name] = new
    print(len(names), "names respelt")
    if "--list" in sys.argv:
        for k, v in names.items():
            print(k, v)
        return
    for path in files(".antt"):
        text = open(path, encoding="utf-8").read()
        open(path, "w", encoding="utf-8").write(turn(text, names))
    for path in files(".rt"):
        text = open(path, encoding="utf-8").read()
        open(path, "w", encoding="utf-8").write(clauses(text, names))
    pages = ["README.md"] + ["docs/" + f for f in sorted(os.listdir("docs"))]
    for path in pages:
        text = open(path, encoding="utf-8").read()
        open(path, "w", encoding="utf-8").write(page(text, names))


main()
