"""Cases of repeated and opposite entries (document 02, L3): rule files that have them, and lent lists in every call."""

import itertools

from asked import ask
from case_lines import (
    NUMBERS, case, check, forks, pattern, plain, read_rules, rewrite, search, write_opb, write_rules,
)
from forks import random_ones, wished
from opb_files import ENOUGH
from rule_files import FOUR, header, read, round_trip
from searches import every, least


def files():
    """ "An equal entry is stored once, at its first place. Opposite entries are both stored" """
    for text in (
        '1 1 0 2 0;1 2 1 0 2 0;1 2 3 1 2 3 0 3 3 0;3 1 3 2 1 0 2 0;-1 -1 0 -2 0;-3 2 -3 -3 0 0;0 2 2 0;'
        '1 -1 0 2 0;-1 1 0 2 0;1 -1 1 -1 0 2 0;1 -1 -1 1 0 2 0;2 1 -2 0 2 0;-2 -2 2 2 0 1 0;3 -3 0 -3 3 0;'
        '1 -1 2 -2 3 -3 0 -3 3 -2 2 -1 1 0;1 2 0 2 1 0;1 1 0 1 1 0;1 0 -1 0;1\n1\n0\n2\n0\n;1\t1\r1 0\r\n2 2 0;'
        '1\nc 1\n1 0\n2 0\n;1 1\nc 0\n1 0 2 0;2 -2\nc -2 0\n-2 2 0 0'
    ).split(';'):
        read(header(3, 2) + text.encode('ascii'))
    for text in (
        '1 1 x 0 2 0;1 01 0 2 0;1 +1 0 2 0;-1 -01 0 2 0;-1 --1 0 2 0;1 1- 0 2 0;1 100000 0 2 0;1 -0 0 2 0;'
        '1 1 4 0 2 0;-1 -1 -4 0 2 0;4 4 0 2 0;-4 4 0 2 0;1 4 1 0 2 0;1 -1 4 0 2 0;1 1 4 x;1 1 x 4;'
        '1 1;1 1 ;1 -1;-1 -1 0 2 2;1 -1 0 2 -2;1 1 0;1 1 0 \n;1 1 0 2 2\nc 0;'
        '1 1 0 2 2 0 2;1 1 0 2 2 0 -2;1 1 0 2 2 0 0;1 1 0 2 2 0 4;1 1 0 2 2 0 x;1 -1 0 2 -2 0 -2 0'
    ).split(';'):
        read(header(3, 2) + text.encode('ascii'))
    for text in ('1 1 0', '-1 -1 0', '-1 1 0', '1 -1 -1 1 0', '1 1', '1 -1', '1 1 2 0', '1 -1 -2 0', '1 0 1 0'):
        read(header(1, 1) + text.encode('ascii'))
    for text in ('640 640 0', '640 -640 0', '-640 640 -640 0', '-640 640 641 0', '640 640 -641 0'):
        read(header(640, 1) + text.encode('ascii'))


def limits():
    """ "Entry counts are taken after dropping repeats." The causes of a token behind 31,000 entries, in an open rule
    and in a new one, before and after the last."""
    most = FOUR * 7750
    for token in b'1 4 -1 5 -8 9 -9 99999 01 -0 x 0'.split():
        for text, count, body in (
            ('in the open rule', 7750, most[:-2] + token),
            ('in the open rule, closed', 7750, most[:-2] + token + b' 0\n'),
            ('in a new rule', 7751, most + token + b' 0\n'),
            ('after the last rule', 7750, most + token + b' 0\n'),
        ):
            read_rules('31000 entries, then %s %s' % (token.decode('ascii'), text), header(8, count) + body)
    for text, body in (
        ('repeats', b'4 3 2 1 1 1 0\n'),
        ('a repeat and entry 31001', b'1 5 0\n'),
        ('a repeat and its other sense', b'1 -1 0\n'),
        ('a repeat and one above N', b'1 9 0\n'),
        ('a repeat and a bad token', b'1 x 0\n'),
        ('repeats, not closed', b'1 1 \n'),
        ('a repeat, then a token too many', b'1 0 1\n'),
    ):
        read_rules('31000 entries, then %s' % text, header(8, 7750) + most[:-2] + body)
    for text, count, body in (
        ('31000 entries, each twice', 7750, b'1 1 2 2 3 3 4 4 0\n' * 7750),
        ('31000 entries, each twice, and one more', 7750, (b'1 1 2 2 3 3 4 4 0\n' * 7750)[:-2] + b'5 0\n'),
        ('31000 tokens that are half as many entries, and one more', 7751, b'1 2 2 1 0\n' * 7750 + b'5 0\n'),
        ('31000 entries, both senses', 7750, b'1 -1 2 -2 0\n' * 7750),
        ('31001 entries, both senses', 7751, b'1 -1 2 -2 0\n' * 7750 + b'-1 0\n'),
        ('70000 repeats', 1, b'2 ' * 70000 + b'0\n'),
        ('70000 repeats in both senses, not closed', 1, b'2 -2 ' * 35000),
        ('9000 rules with repeats', 9000, b'-3 -3 3 0\n' * 9000),
        ('9000 rules with repeats and a token', 9000, b'-3 -3 3 0\n' * 9000 + b'3'),
    ):
        read_rules(text, header(8, count) + body)


def rooms():
    """The length that is asked for is that of the stored list."""
    file = header(3, 2) + b'1 -2 1 1 -2 0\n3 -3 3 0\n'
    for room in (0, 1, 5, 6, 7, 9, 10):
        read_rules('a list of 6 from 10 tokens, room for %d' % room, file, room)
    for body in (b'1 1 x', b'1 1 4', b'1 1', b'1 -1 0 2 2'):
        read_rules('no room for %s' % body.decode('ascii'), header(3, 2) + body, 0)
    longest = header(4, 9000) + b'1 2 3 4 4 1 0\n' * 7750 + b'0\n' * 1250
    for room in (39999, 40000):
        read_rules('a list of 40000 from 55500 tokens, room for %d' % room, longest, room)
    round_trip('both senses', 3, [1, -1, 0, -3, 2, 3, 0])
    round_trip('both senses of 12 settings', 12, [e for v in range(1, 13) for e in (-v, v)] + [0])


def text_of(n, rules):
    """The file of these rules."""
    return header(n, len(rules)) + b''.join(b' '.join(b'%d' % e for e in [*rule, 0]) + b'\n' for rule in rules)


def random_files(draw, count):
    """Files in which few settings come often. The reference must read each as the same file without its repeats."""
    for index in range(count):
        n = draw.choice((1, 2, 3, 12, 640))
        few = draw.sample(range(1, n + 1), min(n, 3))
        entry = lambda: draw.choice((-1, 1)) * draw.choice(few)
        rules = [[entry() for _ in range(draw.randint(0, 7))] for _ in range(draw.randint(0, 4))]
        once = [list(dict.fromkeys(rule)) for rule in rules]
        answer = lambda rules: ask(case('read_rules', text_of(n, rules), pattern(NUMBERS, 40)))
        assert answer(rules) == answer(once), rules
        read_rules('random with repeats %d' % index, text_of(n, rules))


def in_each_call(text, n, rules, row, d=1, room=None):
    """A list in every call that takes rules, by default with more room than a short one needs."""
    room = 250 if room is None else room
    check(text, n, rules, row, [1] * n)
    every(text, n, rules, row, (d,), room)
    forks(text, n, rules, row, d)
    write_rules(text, n, rules, room)
    rewrite(text, n, rules, row, d, min(room, 40000))
    write_opb(text, n, rules, row, d, room)


def lists():
    """ "Lent lists may hold opposite entries but not equal ones." """
    for rules in (
        [1, -1, 0], [-1, 1, 0], [3, -3, 0, -3, 3, 0], [1, -1, 2, -2, 3, -3, 0], [2, 1, -2, 0], [1, 2, 0, 1, 2, 0],
        [1, -1, 0, 1, -1, 0], [1, -1, 0, -1, 0], [0, 2, -2, 0],
        [1, 1, 0], [-1, -1, 0], [1, 2, 1, 0], [1, 2, 3, 1, 0], [-2, 1, -2, 0], [2, -2, 2, 0], [2, -2, -2, 0],
        [1, 0, 2, 3, 2, 0], [3, 3, 3, 0], [1, -1, 9, 0], [1, 1, 9, 0], [9, 1, 1, 0], [1, 1], [1, -1], [1, -1, 1],
    ):
        in_each_call('the list %s' % rules, 3, rules, [0, 1, 2])
    for length in (1, 2, 3):
        for rule in itertools.product((1, -1, 2, -2), repeat=length):
            check('the rule %s' % (rule,), 2, [*rule, 0], [0, 1], [1, 0])
    write_rules('both senses of the last setting', 640, [640, -640, 0, -640, 640, 0], 60)
    plain('both senses of the last setting', 640, [640, -640, 0, -640, 640, 0], 640)
    plain('the last setting twice', 640, [1, 640, -640, 640, 0], 640)
    plain('the last setting off twice', 640, [-640, 640, 1, -640, 0], 640)
    senses = [*range(1, 641), *range(-1, -641, -1)]
    write_rules('both senses of 640 settings', 640, senses + [0], 6000)
    plain('both senses of 640 settings, the last again', 640, senses + [-640, 0], 640)
    wide = [sense * v for v in range(1, 257) for sense in (-1, 1)] + [0]
    write_opb('both senses of 256 settings', 256, wide, [2] * 256, 0, ENOUGH)
    search('both senses of 256 settings', 256, wide + [-256, 0], [2] * 255 + [1], 1, 256)


def orders():
    """Equal entries beside every other cause, and lists of opposite entries at the limits."""
    equal, row = [1, 2, 0, 2, -1, 2, 0], [0, 1, 2]
    for text, values in (
        ('n = 641', dict(n=641, row=[2] * 641)),
        ('limit 65', dict(d=65)),
        ('a bad wish', dict(row=[3, 1, 2])),
        ('a long row', dict(row=row + [2])),
        ('4097 rules', dict(rules=equal + [1, 0] * 4096)),
        ('an empty rule', dict(rules=[0] + equal)),
        ('no room', dict(room=0)),
    ):
        in_each_call('equal entries, ' + text, **{'n': 3, 'rules': equal, 'row': row, **values})
    senses = [1, -1, 2, -2, 0]
    for text, rules in (
        ('4096 rules of both senses', senses * 4096),
        ('4097 rules of both senses', senses * 4096 + [0]),
        ('16385 entries of both senses', senses * 4095 + [1, -1, 2, -2, 3, 0]),
        ('31000 entries of both senses', senses * 7750),
        ('31001 entries of both senses', senses * 7750 + [-1, 0]),
        ('31000 entries and an equal one', senses * 7749 + [1, -1, 2, -2, 1, 0]),
    ):
        in_each_call(text, 3, rules, row, room=ENOUGH)


def random_rules(draw, n, count):
    """Rules in which an entry may meet its opposite."""
    senses = [sense * v for v in range(1, n + 1) for sense in (1, -1)]
    rules = [draw.sample(senses, min(2 * n, draw.choice((1, 2, 2, 3, 3, 3, 4)))) for _ in range(count)]
    return [number for rule in rules for number in [*rule, 0]]


def random_books(draw, count):
    for index in range(count):
        n = draw.randint(1, 7)
        rules, row = random_rules(draw, n, draw.randint(1, 5 * n)), [draw.choice((0, 1, 2)) for _ in range(n)]
        fewest, text = least(n, rules, row), 'random with both senses %d' % index
        every(text, n, rules, row, (n,) if fewest is None else (max(fewest - 1, 0), fewest))
        rewrite(text, n, rules, row, draw.randint(0, n), 300)
        write_opb(text, n, rules, row, draw.randint(0, n), 2000)


def walks(draw):
    """In step 4 a rule of both senses is open while its setting is unsettled, and counts for both."""
    for rules in ([1, 2, 0, 3, -3, 0], [1, 2, 0, 2, -2, 0], [3, 2, 0, 1, -1, 3, 0], [-1, 1, 0], [1, -1, 0, 1, 0]):
        for row in ([2, 2, 2], [0, 0, 0], [1, 0, 2]):
            for d in (0, 1, 3):
                forks('the list %s, wishes %s, limit %d' % (rules, row, d), 3, rules, row, d)

    def small():
        n = draw.randint(4, 7)
        return n, random_rules(draw, n, draw.randint(3 * n, 6 * n)), wished(draw, n, draw.randint(0, n))

    random_ones(draw, 'both senses', 25, 2, small)


def add(draw):
    files()
    limits()
    rooms()
    random_files(draw, 40)
    lists()
    orders()
    random_books(draw, 20)
    walks(draw)
