"""What a lookahead node comes to, by its rules alone; prints the rows of crates/lookahead_tests.

A rule is a pair (kind, literals), kind 'or' or 'odd'; clauses stand before odd rules. A branch's partial is a dict from
variables to truth values. Nothing here is taken from the code: sets and dicts, no bytes and no trail.
"""
import struct

LEAST, MOST = 0.001, 1e9
WEIGHTS = {2: 1000, 3: 200, 4: 50, 5: 10, 6: 3}


def look(rule, partial):
    """'yes', 'no', ('must', literal) or ('open', k)"""
    kind, literals = rule
    free = [l for l in literals if abs(l) not in partial]
    true = [l for l in literals if partial.get(abs(l)) == (l > 0)]
    if kind == 'or':
        if true:
            return 'yes'
        if not free:
            return 'no'
        return ('must', free[0]) if len(free) == 1 else ('open', len(free))
    odd = len(true) % 2 == 1
    if not free:
        return 'yes' if odd else 'no'
    if len(free) == 1:
        return ('must', -free[0] if odd else free[0])
    return ('open', len(free))


def close(rules, partial):
    """the closed partial, or None at a clash"""
    partial = dict(partial)
    while True:
        for rule in rules:
            said = look(rule, partial)
            if said == 'no':
                return None
            if said != 'yes' and said[0] == 'must':
                partial[abs(said[1])] = said[1] > 0
                break
        else:
            return partial


def gain(rules, before, side):
    total = 0
    for rule in rules:
        was, now = look(rule, before), look(rule, side)
        if was[0] == now[0] == 'open' and now[1] < was[1]:
            total += WEIGHTS.get(now[1], 1)
    return total


def lookahead(n, rules, partial):
    """the last partial and the scores by variable, or None where it is refuted"""
    partial = close(rules, partial)
    if partial is None:
        return None
    scores = {}
    for v in range(1, n + 1):
        if v in partial:
            continue
        sides = [close(rules, {**partial, v: value}) for value in (True, False)]
        if sides == [None, None]:
            return None
        if None in sides:
            partial = sides[0] or sides[1]
            continue
        yes, no = (gain(rules, partial, side) for side in sides)
        scores[v] = (1024 * yes * no + yes + no, v if yes <= no else -v)
        both = {w: b for w, b in sides[0].items() if sides[1].get(w) == b}
        partial = close(rules, {**partial, **both})
        if partial is None:
            return None
    return partial, scores


def held(theta):
    return min(max(theta, LEAST), MOST)


def ease(cutoff, factor):
    return (cutoff[0], held(cutoff[1] * factor)) if cutoff[0] == 'Easing' else cutoff


def cuts(cutoff, n, decisions, count):
    name, number = cutoff
    if name == 'Never':
        return False
    if name == 'Depth':
        return decisions >= number
    return float(decisions * count) > number * float(n)


def node(n, rules, cutoff, decisions, partial):
    """the outcome, the last partial (None where refuted), the next cutoff"""
    cutoff = ease(cutoff, 1.05)
    found = lookahead(n, rules, partial)
    if found is None:
        return 'Refuted', None, ease(cutoff, 0.7)
    partial, scores = found
    if decisions > 20:
        cutoff = ease(cutoff, 0.7)
    if all(look(rule, partial) == 'yes' for rule in rules):
        return 'Model', {v: partial.get(v, False) for v in range(1, n + 1)}, cutoff
    if cuts(cutoff, n, decisions, len(partial)):
        return 'Cube', partial, cutoff
    free = [(score, -v, first) for v, (score, first) in scores.items() if v not in partial]
    return 'Decided(%d)' % max(free)[2], partial, cutoff


def bytes_of(partial, width=7):
    return '[%s]' % ', '.join({True: '1', False: '2', None: '0'}[partial.get(v)] for v in range(1, width + 1))


def last(partial):
    return 'None' if partial is None else 'Some(%s)' % bytes_of(partial)


def kept(cutoff):
    name, number = cutoff
    bits = '0x' + struct.pack('>d', number).hex() if name in ('Share', 'Easing') else number
    return '(Kind::%s, %s)' % (name, bits)


def written(cutoff):
    name, number = cutoff
    return 'Cutoff::Never' if name == 'Never' else 'Cutoff::%s(%r)' % (name, number)


NEVER = ('Never', 0)


def ors(*clauses):
    return [('or', list(c)) for c in clauses]


def odds(*rules):
    return [('odd', list(r)) for r in rules]


# a name, the variables, the rules, and for each row the cutoff, the decisions and what is set before
QUESTIONS = [
    ('NO_RULES', 0, [], [(NEVER, 0, []), (('Depth', 0), 0, []), (('Easing', 2.5), 21, [])]),
    ('EMPTY_CLAUSE', 0, ors([]), [(NEVER, 0, []), (('Easing', 2.5), 0, [])]),
    ('FOUR', 2, ors([1, 2], [1, -2], [-1, 2], [-1, -2]),
     [(NEVER, 0, []), (('Depth', 0), 0, []), (('Easing', 2.5), 0, []), (('Easing', 2.5), 21, []), (('Share', 0.5), 3, [1])]),
    ('FALSE_FAILS', 2, ors([1, 2], [1, -2]), [(NEVER, 0, []), (NEVER, 1, [2]), (('Depth', 0), 0, [])]),
    ('TRUE_FAILS', 2, ors([-1, 2], [-1, -2]), [(NEVER, 0, []), (NEVER, 1, [-2])]),
    # the same beside an open clause, so that the branch is decided
    ('FALSE_FAILS_ASIDE', 5, ors([1, 2], [1, -2], [3, 4, 5]), [(NEVER, 0, []), (('Share', 0.5), 2, []), (('Share', 0.5), 3, [])]),
    ('TRUE_FAILS_ASIDE', 5, ors([-1, 2], [-1, -2], [3, 4, 5]), [(NEVER, 0, []), (('Depth', 1), 1, [])]),
    # after the turn of 1 fails on one side, what it leaves forces more
    ('FAILS_AND_FORCES', 5, ors([1, 2], [1, -2], [-1, 3], [3, 4], [-3, 4, 5]), [(NEVER, 0, [])]),
    ('NECESSARY', 3, ors([-1, 3], [1, 3]), [(NEVER, 0, [])]),
    # both sides of 1 set 3, which then sets 4
    ('NECESSARY_ASIDE', 5, ors([-1, 3], [1, 3], [1, 2, 5], [-3, 4]), [(NEVER, 0, []), (('Share', 0.5), 1, []), (('Share', 0.5), 2, [])]),
    ('ODD3', 3, odds([1, 2, 3]),
     [(NEVER, 0, []), (('Depth', 1), 0, []), (('Depth', 1), 1, [1]), (('Depth', 1), 1, [-1]), (('Depth', 0), 0, []),
      (('Easing', 2.5), 0, []), (('Easing', 2.5), 20, []), (('Easing', 2.5), 21, []), (('Easing', 2.5), 2048, []),
      (('Easing', 2.5), 20, [1]), (('Easing', 1.0), 3, [1]), (('Easing', 1.0), 4, [1]), (('Easing', 0.001), 21, []), (('Easing', 1000000000.0), 0, []),
      (('Share', 2.5), 21, []), (NEVER, 2, [1, 2])]),
    ('ODD_LATER', 4, odds([2, 3, 4]), [(NEVER, 0, []), (NEVER, 1, [-2]), (NEVER, 0, [1])]),
    ('ONE_CLAUSE', 3, ors([-1, 2, 3]), [(NEVER, 0, []), (NEVER, 1, [1]), (NEVER, 1, [-1])]),
    ('SETS_TWO', 4, ors([-1, 2], [3, 4]), [(('Share', 0.5), 1, [1]), (('Share', 0.5), 2, [1]), (NEVER, 0, [])]),
    ('ALL_BUT_ONE', 4, ors([-1, 2], [-1, 3]), [(('Share', 0.5), 1, [1])]),
    ('SETS_THREE', 5, ors([-1, 2], [-1, 3], [1, -2], [4, 5]), [(('Share', 0.5), 1, [-1]), (('Share', 0.5), 1, [1])]),
    # a later variable with a greater score, its false side first
    ('GREATEST', 5, ors([1, 2, 3], [3, 4], [-3, 5, 4]) + odds([3, 4, 5]), [(NEVER, 0, []), (('Depth', 3), 2, [-3]), (('Depth', 3), 3, [-3])]),
    # 1 is scored and set after that, by the turn of 2: it is not decided, though no score is greater and it is the lowest
    ('SCORED_THEN_SET', 7, ors([2, 5], [2, -5], [-2, 3], [-2, 4], [-3, -4, 1], [5, 6, 7]), [(NEVER, 0, [])]),
    ('SET_LATER', 5, ors([1, 2, 3], [4, -5], [4, 5]) + odds([1, 2, 4]), [(NEVER, 0, []), (NEVER, 1, [1])]),
]


def table(rules, kind):
    numbers = [x for k, literals in rules if k == kind for x in literals + [0]]
    return len(numbers), ', '.join(map(str, numbers))


def main():
    for name, n, rules, rows in QUESTIONS:
        print('const %s: Question = Question { variables: %d, clauses: &[%s], odds: &[%s] };' % (
            name, n, table(rules, 'or')[1], table(rules, 'odd')[1]))
        print('const %s_ROWS: [Row; %d] = [' % (name, len(rows)))
        for cutoff, decisions, literals in rows:
            before = {abs(l): l > 0 for l in literals}
            outcome, after, then = node(n, rules, cutoff, decisions, before)
            print('    Row { cutoff: %s, decisions: %d, before: %s, outcome: Outcome::%s, after: %s, kept: %s },' % (
                written(cutoff), decisions, bytes_of(before), outcome, last(after), kept(then)))
        print('];')


main()
