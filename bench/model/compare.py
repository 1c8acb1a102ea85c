"""Runs `split` on generated inputs, well formed and damaged, and compares it with the model.

    python3 bench/model/compare.py crates/split/out/split SEED COUNT
"""

import collections
import random
import subprocess
import sys

from split_model import report

ODD_WORDS = "00 -0 +1 01 x c cnf p 1234567890 123456789 - --1 1. odd1 c1 \0 -5 999999999".split(" ")


def word():
    """A word that may or may not belong where it is put."""
    kind = random.random()
    if kind < 0.45:
        return str(random.choice([1, 2, 3, -1, -2, -3, 0, 0]))
    if kind < 0.6:
        return str(random.randint(-2050, 2050))
    return "odd" if kind < 0.75 else random.choice(ODD_WORDS)


def rule(variables):
    """The words of a rule within the limits."""
    named = random.sample(range(1, variables + 1), min(variables, random.randint(0, 3)))
    literals = [str(random.choice([1, -1]) * v) for v in named]
    return (["odd"] if random.random() < 0.3 else []) + literals + ["0"]


def gap():
    return random.choice([" ", "\n", "\t", "\r\n", "  ", "\nc 9 9\n"])


def text():
    """A rule file, mostly well formed."""
    before = [random.choice(["c hi\n", "\n", " \t\r\n", "c\n", "", "  c\n"]) for _ in range(random.choice([0, 0, 1, 2]))]
    variables = random.choice([0, 1, 2, 3, 3, 3, 5, 2048, 2049])
    rules = [rule(variables) for _ in range(random.randint(0, 6))]
    count = len(rules) if random.random() < 0.85 else random.randint(0, 7)
    head = "p cnf %d %d" % (variables, count) + random.choice(["\n", "\r\n", " \n"])
    tail = [word() for _ in range(random.randint(1, 3))] if random.random() < 0.3 else []
    return "".join(before) + head + "".join(w + gap() for r in rules for w in r) + "".join(w + gap() for w in tail)


def damaged(given):
    """The input with a byte or two changed, lost or added, or as it is."""
    given = bytearray(given)
    for _ in range(random.choice([0, 0, 0, 1, 2])):
        at, kind = random.randrange(len(given)), random.random()
        if kind < 0.4:
            given[at] = random.choice(b" \t\r\n0123-cpodnf\x00\xff")
        elif kind < 0.7 and len(given) > 1:
            del given[at]
        else:
            given.insert(at, random.choice(b" \n0-c1"))
    return bytes(given)


def main(program, seed, count):
    random.seed(seed)
    seen, different = collections.Counter(), 0
    for _ in range(count):
        first = random.choice(["depth,1\n"] * 8 + ["depth,0\n", "depth,2048\n", "depth,2049\n", "depth,1"])
        given = damaged((first + text()).encode("latin1"))
        wanted = report(given)
        printed = subprocess.run([program], input=given, capture_output=True, check=True).stdout
        seen[b",".join(wanted.split(b",")[: 2 if wanted.startswith(b"refused") else 1]).decode()] += 1
        if printed != wanted:
            different += 1
            print("input", given, "wanted", wanted, "printed", printed)
    print(count, "inputs,", different, "differences;", dict(sorted(seen.items())))
    return 1 if different else 0


if __name__ == "__main__":
    sys.exit(main(sys.argv[1], int(sys.argv[2]), int(sys.argv[3])))
