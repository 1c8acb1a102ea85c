#!/usr/bin/env python3
"""Lists the places in crates/*/src where an older form may stand, one section for each kind of form.

usage: python3 tools/forms.py [COMMIT] [--count]
Without a commit it reads the work tree. A listed place is a candidate: whether it is an older form is for a reader to say.
"""
import collections
import pathlib
import re
import subprocess
import sys


def sources(commit):
    """Path and text of each source and proof file."""
    pattern = re.compile(r"crates/[^/]+/(src/.*\.rt|proofs/.*\.antt)$")
    if commit is None:
        for path in sorted(pathlib.Path(".").glob("crates/*/**/*")):
            if pattern.match(str(path)) and path.is_file():
                yield str(path), path.read_text()
        return
    listed = subprocess.run(["git", "ls-tree", "-r", "--name-only", commit], capture_output=True, text=True, check=True).stdout
    for path in listed.split("\n"):
        if pattern.match(path):
            shown = subprocess.run(["git", "show", f"{commit}:{path}"], capture_output=True, text=True, check=True)
            yield path, shown.stdout


# A section's lines: each line of src/ that one of its patterns fits.
LINES = {
    "1 own enums, flags in structs, numbers for nothing or for a refusal": [
        r"^(pub(\(crate\))? )?enum ",
        r"^    (pub(\(crate\))? )?\w+: (bool|u8),",
        r"return 0;|unwrap_or\(0\)|=> 0,|, or 0\b|\bor 0\.",
        r"^\s*(pub )?fn number\(",
        r"^\) -> bool|fn \w+.*&mut .*-> bool",
    ],
    "3 loops that count by hand": [
        r"\bwhile\b(?! let Some)",
        r"\bloop \{",
        r"\bfor \w+ in .*\.\.",
        r"^\s+\w+(\.\w+)? (\+=|-=) ",
    ],
    "4 equality, conversion, printing and matches by hand": [
        r"^\s*(pub )?fn (same|number\w*|letter\w*|\w+_of|put_\w+|\w*width)\b",
        r"None => None|Some\(\w+\) => Some|Ok\(\w+\) => Ok|return None;",
        r"=> true,|=> false,|\{ true \}|\{ false \}",
    ],
    "6 buffers with a length beside them": [
        r"^    (pub(\(crate\))? )?\w+: (&'a mut \[|\[\w+; )",
        r"^    (pub(\(crate\))? )?(len|used|count|top|size|at): ",
    ],
    "7 which step to run": [
        r"match self(\.kind)?( \{|$)|match kind|match word|match event",
        r"\bdyn\b|impl Fn|F: Fn",
    ],
}
FUNCTION = re.compile(r"fn ([a-z_0-9]+)(?:<[^>]*>)?\(([^)]*)\)(.*?)\n\s*\{", re.S)
FACTS = r"sound|Partial|Literal|has_end|allowed|Planned|open_fault|Marked|all_fresh|HoldsNumbers|HoldsText|length \w+\.(?:old|now)|free \w+\.(?:old|now)"


def functions(texts):
    for path, text in texts:
        crate = path.split("/")[1]
        if crate.endswith(("tests", "bench")):
            continue
        for name, parameters, clauses in FUNCTION.findall(text):
            yield crate, name, parameters, clauses


def twins(texts):
    """Names of functions and types that stand in more than one file."""
    places = collections.defaultdict(list)
    for path, text in texts:
        for name in re.findall(r"^\s*(?:pub(?:\(crate\))? )?(?:fn|enum|struct) (\w+)", text, re.M):
            places[name].append(path)
    return [f"{name}: {', '.join(paths)}" for name, paths in sorted(places.items()) if len(paths) > 1]


def together(texts):
    """Facts in the contracts, and pairs of parameters, of three or more functions of a crate."""
    found = collections.defaultdict(set)
    for crate, name, parameters, clauses in functions(texts):
        for fact in set(re.findall(FACTS, clauses)):
            found[f"{crate}: fact `{fact}`"].add(name)
        names = [p.split(":")[0].replace("mut ", "").strip() for p in parameters.split(",") if ":" in p]
        for i, first in enumerate(names):
            for second in names[i + 1:]:
                found[f"{crate}: parameters `{first}`, `{second}`"].add(name)
    return [f"{what}: {', '.join(sorted(names))}" for what, names in sorted(found.items()) if len(names) > 2]


def answers(files):
    """Answers in proofs/, by crate."""
    count = collections.Counter()
    for path, text in files:
        if path.endswith(("Answers.antt", "Invariants.antt")):
            count[path.split("/")[1]] += len(re.findall(r"^(?:abbrev )?pub [\w-]+ :", text, re.M))
    return [f"{crate}: {n}" for crate, n in sorted(count.items())]


def main():
    arguments = [a for a in sys.argv[1:] if a != "--count"]
    files = list(sources(arguments[0] if arguments else None))
    texts = [(path, text) for path, text in files if path.endswith(".rt")]
    sections = {}
    for title, patterns in LINES.items():
        sections[title] = [
            f"{path}:{number}: {line.strip()}"
            for path, text in texts
            for number, line in enumerate(text.split("\n"), 1)
            if any(re.search(p, line) for p in patterns)
        ]
    sections["2 names that stand in more than one file"] = twins(texts)
    sections["5 facts and pairs of parameters of three or more functions"] = together(texts)
    sections["8 answers and invariants in proofs"] = answers(files)
    for title in sorted(sections):
        print(f"== {title}: {len(sections[title])}")
        if "--count" not in sys.argv:
            print("\n".join(sections[title]))


main()
