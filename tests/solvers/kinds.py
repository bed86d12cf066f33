"""Kinds of rule books. Each function gives a number of settings and a list of rules."""

import itertools


def signed(draw, settings):
    """A rule over these settings, each entry on or off by chance."""
    return [draw.choice((-1, 1)) * setting for setting in settings]


def clauses(draw, n, hundredths, width):
    """Rules of one width, in hundredths of the number of settings."""
    return n, [signed(draw, draw.sample(range(1, n + 1), width)) for _ in range(n * hundredths // 100)]


def mixed(draw, n, count, singles):
    """Rules of 2 to 6 entries, and some of one entry."""
    widths = [min(draw.between(2, 6), n) for _ in range(count)] + [1] * singles
    return n, draw.shuffled([signed(draw, draw.sample(range(1, n + 1), width)) for width in widths])


def horn(draw, n, count, facts, goals):
    """Rules with at most one entry on: implications, facts, and goals that forbid three settings together."""
    settings, rules = range(1, n + 1), []
    for _ in range(count):
        head, *body = draw.sample(settings, draw.between(2, 4))
        rules.append([-setting for setting in body] + [head])
    rules += [[setting] for setting in draw.sample(settings, facts)]
    rules += [[-setting for setting in draw.sample(settings, 3)] for _ in range(goals)]
    return n, draw.shuffled(rules)


def maker(draw, groups, size, needs, clashes):
    """A maker's terminal: groups of settings of which at most one is on, every other group with one on, and
    settings that need one of two of another group, or clash with one of it."""
    n = groups * size
    sets = [list(range(at, at + size)) for at in range(1, n + 1, size)]
    rules = [[-a, -b] for one in sets for a, b in itertools.combinations(one, 2)]
    rules += sets[::2]
    for _ in range(needs):
        one, other = draw.sample(sets, 2)
        rules.append([-draw.choice(one)] + draw.sample(other, 2))
    for _ in range(clashes):
        one, other = draw.sample(sets, 2)
        rules.append([-draw.choice(one), -draw.choice(other)])
    return n, rules


def pigeons(birds, holes):
    """Each bird has a hole, and no hole has two birds."""
    at = [[bird * holes + hole + 1 for hole in range(holes)] for bird in range(birds)]
    rules = list(at)
    for hole in range(holes):
        rules += [[-a[hole], -b[hole]] for a, b in itertools.combinations(at, 2)]
    return birds * holes, rules


def parity(draw, n, count):
    """Threes of settings of which an even number is on, or an odd one."""
    rules = []
    for _ in range(count):
        three, odd = draw.sample(range(1, n + 1), 3), draw.below(2)
        for signs in itertools.product((1, -1), repeat=3):
            if signs.count(-1) % 2 != odd:
                rules.append([sign * setting for sign, setting in zip(signs, three)])
    return n, rules


def chain(n, length):
    """Lines of some length in which each setting needs the next."""
    return n, [[-setting, setting + 1] for setting in range(1, n) if setting % length]


def ladder(first, n, entries=()):
    """A long path of forks: while a setting from `first` on is picked and put on, it is the only one in four open
    rules of two entries. Every rule has further entries."""
    path = [(i, j) for i in range(first, n) for j in range(i + 1, min(n, i + 4) + 1)]
    return n, [[*entries, *([1 - i] if i > first else []), i, j] for i, j in path]


def signs(n, left_out):
    """Every rule with all n settings, but some. Each one that is left out gives a choice."""
    rules = [[sign * (i + 1) for i, sign in enumerate(all_)] for all_ in itertools.product((1, -1), repeat=n)]
    return n, [rule for i, rule in enumerate(rules) if i not in left_out]


def forbidden(n, count):
    """The first settings off, each by a rule of its own."""
    return n, [[-setting] for setting in range(1, count + 1)]


def with_empty(draw, problem):
    """The same with an empty rule somewhere."""
    n, rules = problem
    at = draw.between(0, len(rules))
    return n, rules[:at] + [[]] + rules[at:]


def with_repeats(draw, problem, wishes):
    """The same with one or two entries of most rules again, anywhere behind their first place; those of wished settings
    where a rule has some."""
    n, rules = problem
    repeated = []
    for rule in rules:
        repeated.append(list(rule))
        places = [i for i, entry in enumerate(rule) if abs(entry) in wishes] or range(len(rule))
        for entry in [rule[draw.choice(places)] for _ in range(draw.between(0, 2)) if places]:
            first = repeated[-1].index(entry)
            repeated[-1].insert(draw.between(first + 1, len(repeated[-1])), entry)
    return n, repeated


def with_opposites(draw, problem):
    """The same with the opposite of an entry in every fifth rule, which is then always met."""
    n, rules = problem
    opposed = []
    for rule in rules:
        opposed.append(list(rule))
        if rule and draw.below(5) == 0:
            opposed[-1].insert(draw.between(0, len(rule)), -draw.choice(rule))
    return n, opposed


def with_senses(draw, problem, count):
    """The same with so many rules between the others that are both senses of a setting, every other one with a further
    entry: they ask nothing."""
    n, rules = problem
    rules = list(rules)
    for i in range(count):
        one, other = draw.choice(range(1, n + 1)), draw.choice(range(1, n + 1))
        rule = draw.shuffled([one, -one] + ([other] if i % 2 and one != other else []))
        rules.insert(draw.between(0, len(rules)), rule)
    return n, rules


def twin(draw, problem):
    """The same choices by another book: its rules and the entries of each are in another order, and about every fourth
    rule stands there again, about half of these with an entry more."""
    n, rules = problem
    again = []
    for rule in [rule for rule in rules if draw.below(4) == 0]:
        others = [setting for setting in range(1, n + 1) if setting not in map(abs, rule)]
        again.append(rule + signed(draw, draw.sample(others, min(draw.below(2), len(others)))))
    return n, [draw.shuffled(rule) for rule in draw.shuffled(rules + again)]
