"""Cases of the first nearest choice (document 02, L5): "off before on, compared from setting 1 upward"."""

import itertools

from asked import ask
from case_lines import case, nearest
from forks import book, ladder, wished


def first(text, n, rules, row):
    nearest(text, n, rules, row, n + 3)


def closed(rules):
    return [number for rule in rules for number in [*rule, 0]]


def exactly(count, settings):
    """So many of these settings are on."""
    groups = lambda size: itertools.combinations(settings, size)
    few = [[-setting for setting in group] for group in groups(count + 1)]
    return few + [list(group) for group in groups(len(settings) - count + 1)]


def ties():
    """Two choices are nearest that differ in settings p and q alone, for every p and q, whatever the others are."""
    for n in (2, 4):
        for p, q in itertools.combinations(range(1, n + 1), 2):
            for other, wish in itertools.product((0, 1, 2), repeat=2):
                row = [wish if setting in (p, q) else other for setting in range(1, n + 1)]
                first('%d or %d of %d, wishes %s' % (p, q, n, row), n, closed(exactly(1, [p, q])), row)
    for wishes in itertools.product((0, 1, 2), repeat=2):
        first('one of two, wishes %s' % (wishes,), 2, closed(exactly(1, [1, 2])), list(wishes))


def counts():
    """So many of n settings are on: the last ones, where nothing speaks for others. A buffer for 61 settings is shown
    whole, one for 62 is not."""
    for n in (3, 4, 5):
        for count in range(n + 1):
            for wish in (0, 1, 2):
                first('%d of %d, wishes %d' % (count, n, wish), n, closed(exactly(count, range(1, n + 1))), [wish] * n)
    for n, wishes in ((7, (0, 1, 2)), (61, (0, 1, 2)), (62, (0,)), (256, (0,))):
        for wish in wishes:
            row = [2] * (n - 6) + [wish] * 6
            first('some of %d on, the last wished %d' % (n, wish), n, [*range(1, n + 1), 0], row)
            first('some of %d off, the last wished %d' % (n, wish), n, [*range(-n, 0), 0], row)


def free_settings():
    """Nothing is wished: the first of all choices that the rules permit. The walk puts a setting on first."""
    for n in (2, 6, 20):
        needs = [[-setting, setting + 1] for setting in range(1, n)]
        pairs = [[setting, setting + 1] for setting in range(1, n)]
        for text, rules in (
            ('each needs the next, one end is on', needs + [[1, n]]),
            ('all alike', needs + [[-n, 1]]),
            ('one of each two neighbours', pairs),
            ('neighbours differ', pairs + [[-a, -b] for a, b in pairs]),
        ):
            first('%s, of %d' % (text, n), n, closed(rules), [2] * n)
            first('%s, of %d, the last wished on' % (text, n), n, closed(rules), [2] * (n - 1) + [1])
    for n, wish in ((12, 0), (12, 1), (12, 2), (40, 2)):
        first('a ladder of %d, wishes %d' % (n, wish), n, ladder(n), [wish] * n)


def pigeons():
    """Each of so many birds has a hole, and no hole has two."""
    for birds, holes in ((2, 3), (3, 3), (3, 4)):
        at = [[bird * holes + hole + 1 for hole in range(holes)] for bird in range(birds)]
        rules = closed(at + [[-a[hole], -b[hole]] for hole in range(holes) for a, b in itertools.combinations(at, 2)])
        for wish in (0, 1, 2):
            first('%d birds, %d holes, wishes %d' % (birds, holes, wish), birds * holes, rules, [wish] * birds * holes)


def parted(rules):
    """The rules of a closed list."""
    parts, rule = [], []
    for number in rules:
        if number:
            rule.append(number)
        else:
            parts, rule = [*parts, rule], []
    return parts


def twin(draw, n, rules):
    """A book that permits the same choices: a rule once more, one with a further entry, both senses of a setting, and
    all in another order."""
    rules = parted(rules)
    for rule in list(rules):
        entry = draw.choice((-1, 1)) * draw.randint(1, n)
        rules += draw.choice(([], [], [rule], [list(dict.fromkeys([*rule, entry]))], [[entry, -entry]]))
    draw.shuffle(rules)
    return closed(draw.sample(rule, len(rule)) for rule in rules)


def twins(draw, text, count, problem):
    """So many books with a twin each, which must have the same answer."""
    for index in range(count):
        n, rules, row = problem()
        other = twin(draw, n, rules)
        answer = lambda rules: ask(case('nearest', n, rules, row, [0] * n))
        assert answer(rules) == answer(other), (rules, other, row)
        first('%s %d' % (text, index), n, rules, row)
        first('%s %d, its twin' % (text, index), n, other, row)


def add(draw):
    ties()
    counts()
    free_settings()
    pigeons()

    def few():
        n = draw.randint(3, 8)
        return n, book(draw, n, draw.randint(n // 2, 2 * n), (2, 3)), wished(draw, n, draw.randint(0, n))

    def nothing_wished():
        n = draw.randint(8, 20)
        return n, book(draw, n, draw.randint(n, 3 * n), (2, 3, 3)), [2] * n

    def more():
        n = draw.randint(20, 40)
        return n, book(draw, n, draw.randint(n, 2 * n), (2, 3, 3, 4)), wished(draw, n, draw.randint(0, n))

    twins(draw, 'few settings', 25, few)
    twins(draw, 'nothing wished', 8, nothing_wished)
    twins(draw, 'more settings', 5, more)
