"""Cases of the forks that the walk of the wish search makes."""

from asked import ask
from case_lines import case, forks
from searches import all_rules, chain, least


def made(n, rules, row, d):
    """The forks by the reference."""
    return int(ask(case('forks', n, rules, row, d))[0].split()[-1])


def limits(n, rules, row):
    """The last limit at which there is none, and the first at which there is a choice."""
    fewest = least(n, rules, row)
    return (sum(wish != 2 for wish in row),) if fewest is None else (fewest - 1, fewest) if fewest else (0,)


def book(draw, n, count, widths):
    rules = []
    for _ in range(count):
        settings = draw.sample(range(1, n + 1), min(n, draw.choice(widths)))
        rules += [draw.choice((-1, 1)) * setting for setting in settings] + [0]
    return rules


def wished(draw, n, count):
    """A row of so many wishes."""
    settings = draw.sample(range(n), count)
    return [draw.choice((0, 1)) if setting in settings else 2 for setting in range(n)]


def ladder(n):
    """A book that forks n - 1 times on its first path, if nothing is wished: while setting i is picked and put
    on, it is the only one in four open rules of two entries."""
    rules = []
    for i in range(1, n):
        for j in range(i + 1, min(n, i + 4) + 1):
            rules += ([1 - i] if i > 1 else []) + [i, j, 0]
    return rules


def shapes():
    for row in ([0, 0], [0, 1], [1, 1], [2, 2]):
        for d in (0, 1, 2):
            forks('rule 1 2, wishes %s, limit %d' % (row, d), 2, [1, 2, 0], row, d)
            forks('rules 1 2 and -1 -2, wishes %s, limit %d' % (row, d), 2, [1, 2, 0, -1, -2, 0], row, d)
    forks('one empty rule', 1, [0], [1], 1)
    forks('no rules', 1, [], [1], 0)
    forks('a chain', 64, chain(64, True), [0] * 3 + [2] * 61, 3)
    for n in (2, 3, 4, 5):
        for wish in (0, 1, 2):
            for d in (n // 2, n):
                forks('all rules over %d, wishes %d, limit %d' % (n, wish, d), n, all_rules(n), [wish] * n, d)
    for wish, d in ((2, 0), (1, 0), (0, 3), (0, 20)):
        forks('a ladder, wishes %d, limit %d' % (wish, d), 20, ladder(20), [wish] * 20, d)


def refusals():
    for text, n, rules, row, d in (
        ('limit 65', 2, [1, 2, 0], [0, 0], 65),
        ('an unsound list', 2, [1, 3, 0], [0, 0], 1),
        ('a bad byte', 2, [1, 2, 0], [0, 3], 1),
        ('a short row', 2, [1, 2, 0], [0], 1),
        ('n = 257', 257, [1, 2, 0], [2] * 257, 1),
    ):
        forks(text, n, rules, row, d)


def random_ones(draw, text, count, fewest, problem):
    """So many books on which some limit makes so many forks, at that limit and its neighbour."""
    index = 0
    while index < count:
        n, rules, row = problem()
        ds = limits(n, rules, row)
        if max(made(n, rules, row, d) for d in ds) >= fewest:
            index += 1
            for d in ds:
                forks('%s %d, limit %d' % (text, index, d), n, rules, row, d)


# Lines that are no case.
NO_CASES = (
    ('forks without a limit', 'forks 1 0 1 2'),
    ('forks with a buffer', 'forks 1 0 1 2 0 1 7'),
)


def add(draw):
    shapes()
    refusals()

    def small():
        n = draw.randint(4, 7)
        return n, book(draw, n, draw.randint(2 * n, 4 * n), (2, 3, 3)), wished(draw, n, draw.randint(0, n))

    def many_wishes():
        n = draw.choice((48, 56, 64))
        return n, book(draw, n, n * draw.choice((25, 28, 32)) // 10, (3,)), wished(draw, n, n)

    def few_wishes():
        n = draw.choice((40, 50, 60))
        return n, book(draw, n, n * draw.choice((40, 43, 46)) // 10, (3,)), wished(draw, n, draw.randint(0, 6))

    # around ten entries, where the weights stop falling
    def long_rules():
        n = draw.randint(14, 17)
        rules = [abs(entry) if draw.random() < 0.9 else entry for entry in book(draw, n, n, (8, 9, 10, 11, 12))]
        return n, rules + book(draw, n, n // 2, (2, 3)), [draw.choice((0, 0, 2)) for _ in range(n)]

    random_ones(draw, 'small', 80, 2, small)
    random_ones(draw, 'many wishes', 4, 1_000, many_wishes)
    random_ones(draw, 'few wishes', 3, 40, few_wishes)
    random_ones(draw, 'long rules', 6, 3, long_rules)
