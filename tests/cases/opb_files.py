"""Cases of the export to OPB."""

import itertools

from asked import needed
from case_lines import case, write_opb

# Room for the longest file: include/powhanire.h has this number.
ENOUGH = 165306


def write(text, n, rules, row, d, rooms=None):
    """An export with such rooms; by default with three bytes more than it needs, of which the buffer keeps its own."""
    if rooms is None:
        length = needed(case('write_opb', n, rules, row, d, []))
        rooms = (6 if length is None else length + 3,)
    for room in rooms:
        write_opb(text if len(rooms) == 1 else '%s, room for %d' % (text, room), n, rules, row, d, room)


def with_rooms(text, n, rules, row, d):
    """The same with room as needed, more and less."""
    length = needed(case('write_opb', n, rules, row, d, []))
    write(text, n, rules, row, d, (0, length - 1, length, length + 1, length + 70))


def documented():
    """Document 01's examples, exported."""
    for d in (0, 1, 2, 64, 65):
        write('rule 1 2, both wished off, limit %d' % d, 2, [1, 2, 0], [0, 0], d)
    with_rooms('rule 1 2, both wished off, limit 1', 2, [1, 2, 0], [0, 0], 1)
    for value in (0, 1, 2):
        write('one empty rule, wish %d' % value, 1, [0], [value], 1)
        write('no rules, wish %d' % value, 1, [], [value], 0)
        write('no rules, wish %d, limit 1' % value, 1, [], [value], 1)


def signs():
    """K is 1 less the number of negative entries."""
    for length in (1, 2, 3):
        for sense in itertools.product((1, -1), repeat=length):
            rule = [sign * (7 - index) for index, sign in enumerate(sense)]
            write('the rule %s' % rule, 8, rule + [0], [2] * 8, 0)
    for count in (9, 10, 11, 12, 99, 100, 101, 102, 255, 256):
        write('%d negative entries' % count, 256, [-v for v in range(1, count + 1)] + [0], [2] * 256, 0)
        write('%d positive entries' % count, 256, list(range(1, count + 1)) + [0], [2] * 256, 0)
    write('entries that fall', 120, [120, -99, 9, -1, 0, 100, 0], [2] * 120, 0)


def wishes():
    """K is the number wished on less d."""
    for row in itertools.product((0, 1, 2), repeat=3):
        for d in (0, 1, 2, 4):
            write('wishes %d %d %d, limit %d' % (*row, d), 3, [-1, 2, 0], row, d)
    for count in (9, 10, 11, 63, 64):
        for mark in (0, 1):
            for d in (0, 1, 9, 10, count - 1, count, 64):
                row = [mark] * count + [2] * (100 - count)
                write('%d wishes, all %d, limit %d' % (count, mark, d), 100, [1, 0], row, d)
    mixed = ([1, 0, 2, 1] * 64)[:85] + [2] * 171
    for d in (0, 42, 43, 44, 64):
        write('64 wishes of 256, limit %d' % d, 256, [-256, 1, 0], mixed, d)
    write('64 wishes last', 256, [], [2] * 192 + [0, 1] * 32, 64)


def digits():
    """N, C and V of one to as many digits as there can be."""
    for n in (1, 9, 10, 99, 100, 255, 256):
        write('n = %d, its last setting' % n, n, [n, 0, -n, 0], [2] * (n - 1) + [1], 0)
    for count in (0, 1, 8, 9, 10, 98, 99, 100, 998, 999, 1000, 4095, 4096):
        for wish in (1, 2):
            write('%d rules, wish %d' % (count, wish), 3, [-2, 3, 0] * count, [2, wish, 2], 0, (ENOUGH,))


def empty_rules():
    for text, rules in (
        ('first', [0, 1, 0, 2, 0]),
        ('second', [1, 2, 0, 0, -1, 0]),
        ('last', [1, 2, 0, -1, 0, 0]),
        ('alone', [0]),
        ('two apart', [1, 0, 0, -2, 0, 0]),
        ('two together', [1, 2, 0, 0, 0]),
        ('first, and last', [0, 1, 0, 0]),
        ('after a rule of one entry', [-2, 0, 0]),
    ):
        for room in (0, 500):
            write('an empty rule, %s, room for %d' % (text, room), 2, rules, [0, 1], 1, (room,))
    four = [1, -2, 3, -4, 0]
    for text, rules in (
        ('4096 empty rules', [0] * 4096),
        ('4097 empty rules', [0] * 4097),
        ('9000 empty rules', [0] * 9000),
        ('9001 empty rules', [0] * 9001),
        ('an empty rule as the 4096th', four * 4095 + [0]),
        ('an empty rule as the 4097th', four * 4096 + [0]),
        ('an empty rule before an unsound one', [0, 9, 0]),
        ('an empty rule, the last not closed', [0, 1]),
    ):
        write(text, 4, rules, [2] * 4, 0)


def sizes():
    four = [-1, 2, -3, 4, 0]
    for text, rules in (
        ('4096 rules of four entries', four * 4096),
        ('4097 rules', four * 4095 + [1, 0, 2, 0]),
        ('16383 entries', four * 4095 + [1, 2, 3, 0]),
        ('16385 entries', four * 4095 + [1, 2, 3, 4, 5, 0]),
        ('4097 rules, 16385 entries', four * 4096 + [1, 0]),
        ('31000 entries', four * 7750),
        ('9000 rules', [1, 0] * 9000),
        ('9001 rules', [1, 0] * 9001),
    ):
        write(text, 5, rules, [2, 1, 0, 1, 2], 1, (ENOUGH,))
    for n in (256, 257, 640):
        write('n = %d without rules' % n, n, [], [2] * n, 0)
    # the longest file: a K of two places takes 2 negative entries, one of three takes 11
    elevens = [-100 - k for k in range(11)] + [0]
    longest = elevens * 910 + [-100, -101, -102, 0] * 2 + [-100, -101, 0] * 3184
    with_rooms('the longest file', 256, longest, [2] * 192 + [0] * 64, 64)
    write('the longest file, all the room', 256, longest, [2] * 192 + [0] * 64, 64, (ENOUGH,))


FAULTS = ('n', 'd', 'rules', 'wishes', 'row length', 'size', 'empty rule', 'room')


def faults(*present):
    n = 641 if 'n' in present else 4
    d = 65 if 'd' in present else 64
    rules = [-1, 2, 0] + [1, 0] * (4096 if 'size' in present else 1)
    if 'empty rule' in present:
        rules.append(0)
    rules += [1, 1000 if 'rules' in present else 4, -3, 0]
    row = [2] * n
    if 'wishes' in present:
        row[1] = 3
    if 'row length' in present:
        row.append(2)
    room = 60 if 'room' in present else 200
    write('faults: %s' % (', '.join(present) or 'none'), n, rules, row, d, (room,))


def orders():
    """Every fault alone, every pair at once, and all of them."""
    faults()
    for fault in FAULTS:
        faults(fault)
    for pair in itertools.combinations(FAULTS, 2):
        faults(*pair)
    faults(*FAULTS)
    for n in (0, 1, 256, 257, 640, 641, 2**32 + 1, 2**64 - 1):
        write('n = %d' % n, n, [1, 0], [2] * min(n, 700), 0, (40,))
    for d in (0, 63, 64, 65, 2**32, 2**64 - 1):
        write('d = %d' % d, 2, [1, 0], [1, 0], d, (80,))
    for length in (0, 1, 2, 4, 5):
        write('n = 3, a row of %d' % length, 3, [1, 0], [1] + [2] * (length - 1) if length else [], 0, (80,))
    for byte in (3, 128, 255):
        write('a byte of %d' % byte, 3, [1, 0], [0, 1, byte], 0, (80,))
    for count in (64, 65):
        write('%d wishes' % count, 100, [1, 0], [1] * count + [2] * (100 - count), 0, (1000,))


def random_ones(draw, count):
    for index in range(count):
        n = draw.choice((1, 2, 3, 5, 8, 12, 100, 256))
        rules = []
        for _ in range(draw.randint(0, 8)):
            settings = draw.sample(range(1, n + 1), draw.randint(1, min(n, 5)))
            rules += [draw.choice((-1, 1)) * setting for setting in settings] + [0]
        wished = draw.sample(range(n), draw.randint(0, min(n, 6)))
        row = [draw.choice((0, 1)) if setting in wished else 2 for setting in range(n)]
        write('random %d' % index, n, rules, row, draw.randint(0, 8))


# Lines that are no case.
NO_CASES = (
    ('OPB without a limit', 'write_opb 1 0 1 2'),
    ('OPB without a buffer', 'write_opb 1 0 1 2 0'),
    ('a buffer of numbers for OPB', 'write_opb 1 0 1 2 0 1 -1'),
    ('a row that is too long for OPB', 'write_opb 1 0 1025 2 @ 1024 1 0 0'),
)


def add(draw):
    documented()
    signs()
    wishes()
    digits()
    empty_rules()
    sizes()
    orders()
    random_ones(draw, 60)
