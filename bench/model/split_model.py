"""What `split` prints for an input: a second model, from the rules of the format, by the authors of the reader."""

import re

TABLE = 16384  # numbers in each of the program's two tables


def number(word):
    """0, or at most nine digits without a leading zero; None otherwise."""
    return int(word) if re.fullmatch(rb"0|[1-9][0-9]{0,8}", word) else None


def signed(word):
    """A number, or a minus before one that is not 0."""
    if not word.startswith(b"-"):
        return number(word)
    value = number(word[1:])
    return -value if value else None


def words(line, start):
    """The words of a line, each with its place."""
    return [(start + m.start(), m.group()) for m in re.finditer(rb"[^ \t\r\n]+", line)]


def lines(text):
    """The lines of a text, each with its place."""
    start = 0
    for line in text.split(b"\n"):
        yield start, line
        start += len(line) + 1


def header(line, start):
    """The two numbers of a header, or None."""
    found = [word for _, word in words(line, start)]
    if len(found) != 4 or found[:2] != [b"p", b"cnf"]:
        return None
    variables, rules = number(found[2]), number(found[3])
    if variables is None or rules is None or variables > 2048 or rules > 16384:
        return None
    return variables, rules


def scan(found, variables):
    """The clauses, the odd rules and whether a rule is left unended; or a reason and a place."""
    clauses, odds, rule, into = [], [], None, None
    for place, word in found:
        if rule is None:
            rule, into = [], odds if word == b"odd" else clauses
            if word == b"odd":
                continue
        value = signed(word)
        if value is None:
            return 12, place
        if value == 0:
            into.append(rule)
            rule = None
        elif abs(value) > variables:
            return 13, place
        elif abs(value) in map(abs, rule):
            return 14, place
        else:
            rule.append(value)
    return clauses, odds, rule is not None


def read(text):
    """(variables, clauses, odd rules), or (reason, place)."""
    rest = [(s, l) for s, l in lines(text) if not l.startswith(b"c") and words(l, s)]
    if not rest:
        return 11, len(text)
    (start, first), others = rest[0], rest[1:]
    limits = header(first, start)
    if limits is None:
        return 11, start
    scanned = scan([w for s, l in others for w in words(l, s)], limits[0])
    if len(scanned) == 2:
        return scanned
    clauses, odds, unended = scanned
    if unended:
        return 15, len(text)
    if len(clauses) + len(odds) != limits[1]:
        return 16, len(text)
    if any(sum(len(rule) + 1 for rule in table) > TABLE for table in (clauses, odds)):
        return 17, len(text)
    return limits[0], clauses, odds


def report(given):
    """The bytes that the program prints."""
    line, _, text = given.partition(b"\n")
    depth = number(line[6:]) if line.startswith(b"depth,") else None
    if len(given) > 65536 or depth is None or depth > 2048:
        return b"refused,10,0\n"
    answer = read(text)
    if len(answer) == 2:
        return b"refused,%d,%d\n" % answer
    return b"read,%d,%d,%d\n" % (answer[0], len(answer[1]), len(answer[2]))
