"""Cases of the searches and of rewriting."""

import itertools

from asked import ask, needed
from case_lines import case, nearest, plain, rewrite, search


def every(text, n, rules, row, limits, room=None):
    """A problem in each search: nearest, the wish search with some limits, and plain search."""
    room = n + 3 if room is None else room
    nearest(text, n, rules, row, room)
    for d in limits:
        search('%s, limit %d' % (text, d), n, rules, row, d, room)
    plain(text, n, rules, room)


def all_rules(n):
    """Every rule over n settings with all of them: no choice meets them all."""
    rules = []
    for signs in itertools.product((1, -1), repeat=n):
        rules += [sign * (index + 1) for index, sign in enumerate(signs)] + [0]
    return rules


def documented():
    every('rule 1 2, both wished off', 2, [1, 2, 0], [0, 0], (0, 1, 2, 64, 65))
    for value in (0, 1, 2):
        every('one empty rule, wish %d' % value, 1, [0], [value], (0, 1, 64))
        every('no rules, wish %d' % value, 1, [], [value], (0, 1, 64))


def shapes():
    every('a free setting that ends on', 2, [1, 0], [2, 1], (0, 1))
    every('free settings that end on', 4, [1, 2, 0, -1, 2, 0, 3, 0], [2, 2, 2, 0], (0, 1))
    for n in (1, 2, 3, 4, 5):
        for value in (0, 1, 2):
            every('all rules over %d, wishes %d' % (n, value), n, all_rules(n), [value] * n, (0, n, 64))
            every('all but the last over %d, wishes %d' % (n, value), n, all_rules(n)[: -n - 1], [value] * n, (0, n))
            every('all but the first over %d, wishes %d' % (n, value), n, all_rules(n)[n + 1 :], [value] * n, (0, n))
    apart = [number for setting in range(1, 65) for number in (-setting, 0)]
    pairs = [number for setting in range(1, 17, 2) for number in (-setting, -setting - 1, 0)]
    for text, rules in (('none kept', apart), ('one of each of 8 pairs kept', pairs), ('all kept', [])):
        for n in (64, 256):
            row = [1] * 64 + [2] * (n - 64)
            every('64 wishes of %d, %s' % (n, text), n, rules, row, (63, 64) if rules is apart else (0, 7, 8, 64))


def chain(n, back):
    """Each setting follows from its neighbour, the first from nothing."""
    order = list(range(1, n + 1))
    rules = [[order[0]]] + [[-a, b] for a, b in zip(order, order[1:])]
    return [number for rule in (reversed(rules) if back else rules) for number in rule + [0]]


def long_ones():
    for n in (256, 257, 640):
        for back in (False, True):
            plain('a chain of %d, %s' % (n, 'backward' if back else 'forward'), n, chain(n, back), n + 3)
        plain('a chain of %d and its last off' % n, n, chain(n, False) + [-n, 0], n + 3)
        plain('a chain of %d without its first' % n, n, chain(n, False)[2:], n)
        plain('%d settings without rules' % n, n, [], n)
        plain('%d settings and an empty rule' % n, n, [0], n)
    plain('9000 rules', 640, [640, 0] * 9000, 640)
    plain('31000 entries', 4, [1, -2, 3, -4, 0] * 7750, 4)
    every('a chain of 256 with wishes', 256, chain(256, False), [0] * 5 + [2] * 251, (4, 5))


def least(n, rules, row):
    """The least number of broken wishes, None if the rules can't be met."""
    word, *count = ask(case('nearest', n, rules, row, [0] * n))[0].split()
    return int(count[0]) if word == 'found' else None


def random_ones(draw, count):
    for index in range(count):
        n = draw.choice((1, 2, 3, 4, 5, 6, 6, 7, 7, 8, 8, 9, 10))
        width, rules = draw.choice((2, 3, 3)), []
        for _ in range(draw.randint(0, int(n * (2.2 if width == 2 else 4.8)))):
            settings = draw.sample(range(1, n + 1), min(n, width if draw.random() < 0.9 else draw.randint(1, 5)))
            rules += [draw.choice((-1, 1)) * setting for setting in settings] + [0]
        row = [draw.choice((0, 1, 2)) for _ in range(n)]
        fewest = least(n, rules, row)
        limits = (draw.randint(0, n),) if fewest is None else (max(fewest - 1, 0), fewest)
        every('random %d' % index, n, rules, row, limits)


def rooms():
    for n, rules in ((3, [1, 2, 0]), (3, [0]), (256, [256, 0])):
        for room in (0, n - 1, n, n + 1, n + 3):
            every('n = %d, room for %d' % (n, room), n, rules, [0] * 3 + [2] * (n - 3), (0, 64), room)
    for room in (639, 640, 643):
        plain('n = 640, room for %d' % room, 640, [-640, 0], room)


FAULTS = ('n', 'd', 'rules', 'wishes', 'row length', 'size', 'room')


def faults(*present):
    n = 641 if 'n' in present else 4
    d = 65 if 'd' in present else 64
    rules = ([-1, 2, 0] + [1, 0] * 4096 if 'size' in present else [-1, 2, 0]) + [1, 4, -3, 0]
    if 'rules' in present:
        rules[-2] = 1000
    row = [2] * n
    if 'wishes' in present:
        row[1] = 3
    if 'row length' in present:
        row.append(2)
    text = 'faults: %s' % (', '.join(present) or 'none')
    every(text, n, rules, row, (d,), n - 1 if 'room' in present else n)
    rewrite(text, n, rules, row, d, len(rules) - 1 if 'room' in present else len(rules))


def orders():
    """Every fault alone, every pair at once, and all of them."""
    faults()
    for fault in FAULTS:
        faults(fault)
    for pair in itertools.combinations(FAULTS, 2):
        faults(*pair)
    faults(*FAULTS)
    for n in (0, 1, 256, 257, 640, 641, 2**32 + 1, 2**64 - 1):
        row = [2] * min(n, 700)
        every('n = %d' % n, n, [], row, (0, 64, 65), min(n, 700))
        rewrite('n = %d' % n, n, [], row, 0, 0)
    for count in (64, 65):
        every('%d wishes of 100' % count, 100, [1, 0], [1] * count + [2] * (100 - count), (0,))
        rewrite('%d wishes of 100, limit 0' % count, 100, [1, 0], [1] * count + [2] * (100 - count), 0, 40000)


def rewritings():
    for count in (0, 1, 2, 3, 4, 5, 7, 64):
        for n in (max(count, 1), count + 3, 256):
            row = ([2, 2] if n > count + 1 else []) + [index % 3 % 2 for index in range(count)]
            row += [2] * (n - len(row))
            for d in sorted({0, max(count - 1, 0), count, 64}):
                rules = [1, -n, 0] if n > 1 else [1, 0]
                length = needed(case('rewrite', n, rules, row, d, []))
                for room in (length - 1, length, length + 3):
                    rewrite('%d wishes of %d, limit %d, room for %d' % (count, n, d, room), n, rules, row, d, room)
    rewrite("document 01's example", 2, [1, 2, 0], [0, 0], 1, 30)
    rewrite('an empty rule, no room', 1, [0], [0], 0, 0)


# Lines that are no case.
NO_CASES = (
    ('no limit for a search', 'search 1 0 1 2'),
    ('a search without a buffer', 'search 1 0 1 2 0'),
    ('plain search without a buffer', 'plain 1 0'),
    ('nearest with a limit', 'nearest 1 0 1 2 0 1 7'),
    ('rewriting without a buffer', 'rewrite 1 0 1 2 0'),
)


def add(draw):
    documented()
    shapes()
    long_ones()
    random_ones(draw, 200)
    rooms()
    orders()
    rewritings()
