"""Cases of the rule file's reader and writer."""

import itertools

from asked import written
from case_lines import case, damaged, read_rules, shown, write_rules

LEAST, GREATEST = -(2**31), 2**31 - 1
FOUR = b'1 2 3 4 0\n'


def read(file, room=None):
    read_rules(shown(file), file, room)


def header(n, count):
    return b'p cnf %d %d\n' % (n, count)


def documented():
    """Document 01's examples."""
    for text in (b'p cnf 0 0', b'p cnf 640 0', b'p cnf 641 0', b'p cnf 1 1'):
        read(text + b'\n')
        read(text)
    read(b'')
    for text in (b'-0 0', b'2 0', b'1 -1 0', b'1'):
        read(header(1, 1) + text)
    read(b'p cnf 2 1\n1 2 0\n')
    read(b'p cnf 4 8\n1 2 0\n1 2 -3 0\n-2 3 0\n1 -4 0\n-1 3 0\n2 -4 0\n-1 -2 4 0\n-4 0\n')


def headers():
    for text in (
        'p cnf 1 0 ;p  cnf 1 0;p cnf  1 0;p cnf 1  0; p cnf 1 0;P cnf 1 0;p CNF 1 0;pcnf 1 0;q cnf 1 0;'
        'p dnf 1 0;p cnf\t1 0;p\tcnf 1 0;p cnf 1\t0;p cnf 1 0\t;p cnf 1 0\r;p cnf 1\r0;p cnf 01 0;'
        'p cnf 1 00;p cnf 00001 0;p cnf 000001 0;p cnf 0 0;p cnf 99999 0;p cnf 100000 0;p cnf 1 99999;'
        'p cnf 1 100000;p cnf 1 00000;p cnf -1 0;p cnf 1 -0;p cnf 1 -1;p cnf +1 0;p cnf 1;p cnf 1 ;p cnf ;'
        'p cnf;p;p ;;p cnf 1 0 0;p cnf 1 0x;'
        'p cnf 1x 0;p cnf x 0;p cnf 1 x;p cnf 1 0\x00;p cnf \xff 0;p cnf  0;p cnf 1,0;p cnf 640 9000;'
        'p cnf 639 0;p cnf 642 0;p cnf 1 8999;p cnf 1 9000;p cnf 1 9001;p cnf 0 9001;p cnf 641 9001;p cnf 0 1'
    ).split(';'):
        for before in ('', 'c\n', 'c a comment\nc\n'):
            read((before + text + '\n').encode('latin-1'))
    for n, count in itertools.product((0, 1, 640, 641), (0, 1, 9000, 9001)):
        read(header(n, count))
        read(header(n, count)[:-1])
        read_rules('N = %d, C = %d, as many empty rules' % (n, count), header(n, count) + b'0 ' * count)


def comments():
    for text in (
        'c;c\n;cc;c a;c a\n;c a\nc b;c a\nc b\n;c\nc;cp cnf 1 0\n;c p cnf 1 0\n;c\rp cnf 1 0\n;'
        'c\r\np cnf 1 0\n;c\n\np cnf 1 0\n;c\n p cnf 1 0\n;c\n c\np cnf 1 0\n; c\np cnf 1 0\n;'
        '\tc\np cnf 1 0\n;C\np cnf 1 0\n;x\n;\n;\r\n;\x00;\xff;c\x00\xff\t\np cnf 1 0\n;p cnf 1 0\nc\n;'
        'p cnf 1 0\nc a comment\n;p cnf 1 1\n1 0\nc\n;p cnf 1 1\nc\n1 0\n;p cnf 1 0\np cnf 1 0\n;'
        '\np cnf 1 0\n;\r\np cnf 1 0\n;c\np cnf 1 1\n1 0'
    ).split(';'):
        read(text.encode('latin-1'))
    read_rules('a long comment', b'c' * 70000 + b'\np cnf 1 1\n-1 0\n')
    read_rules('a long comment that ends with the file', b'c' * 70000)
    read_rules('many comments', b'c\n' * 30000 + b'p cnf 0 0\n')


def comments_after_header():
    """Document 02, L1: "A line beginning with `c` is now skipped anywhere after the header too. .. A `c` inside a
    line still makes a malformed token." """
    for text in (
        'c\n1 -2 0\n3 0\n;c a heading\n1 -2 0\n3 0\n;1 -2 0\nc a heading\n3 0\n;1 -2 0\nc\nc\n\nc\n3 0\n;'
        '1\nc\n-2 0\n3 0\n;1 -2\nc 0\n0 3 0\n;1\nc -2 0\n-2\nc 3\n0\n3\nc 0\n0;1 -2 0\n3 0\nc\n;'
        '1 -2 0\n3 0\nc;1 -2 0\n3 0\nc the end;1 -2 0\n3 0\nc the end\r;1 -2 0\n3 0\n\nc\n\n;'
        'cat 1 2 0\n1 -2 0\n3 0\n;1 -2 0\ncat 1 2 0\n3 0\n;cc\n1 -2 0\n3 0\n;c1\n1 -2 0\n3 0\n;'
        'c p cnf 3 1\n1 -2 0\n3 0\n;1 -2 0\nc p cnf 3 1\n3 0\n;cp cnf 3 1\n1 -2 0\n3 0\n;'
        'c\r\n1 -2 0\r\n3 0\r\n;1 -2 0\r\nc a heading\r\n3 0\r\n;1 -2 0\r\n3 0\r\nc\r\n;'
        '1 -2 0\n3 0\nc\x00\xff\t\x0b\n;c\r1 -2 0\n3 0\n;1 -2 0\nc\r3 0\n;1 -2 0\nc\r\r\n3 0\n;'
        ' c\n1 -2 0\n3 0\n;\tc\n1 -2 0\n3 0\n;\rc\n1 -2 0\n3 0\n;1 c\n-2 0\n3 0\n;1 -2 0 c x\n3 0\n;'
        '1 -2 0\rc x\n3 0\n;1 -2 0\n\rc x\n3 0\n;1 -2 0\n c x\n3 0\n;1 -2 0\n3 0 c;1 -2 0\n3 0c;1 -2 0\n3 c0;'
        '1 -2 0\n3 0\rc;C\n1 -2 0\n3 0\n;C a heading\n1 -2 0\n3 0\n;x\n1 -2 0\n3 0\n;p cnf 3 2\n1 -2 0\n3 0\n;'
        'c\n;c;c\nc\nc x;c x\n1 -2 0\n;1 -2 0\n3\nc 0;1 -2 0\n3\nc 0\n;c x\n01 0\n3 0\n;c x\n1 -4 0\n3 0\n;'
        'c x\n1 1 0\n3 0\n;1\nc x\n1 0\n3 0\n;1 -2 0\n3 0\nc x\n1;1 -2 0\n3 0\nc x\n0;1 -2 0\n3 0\nc x\nd'
    ).split(';'):
        read(header(3, 2) + text.encode('latin-1'))
    read(b'c x\r\np cnf 3 2\r\nc\r\n1 -2 0\r\n3 0\r\n')
    for text in ('', 'c', 'c\n', 'c x\nc\n', 'c\n0', 'c\n c', '\nc', '\n\nc\n', ' \nc'):
        read(header(3, 0) + text.encode('ascii'))
    for byte in (0, 8, 9, 10, 11, 12, 13, 14, 31, 32, 33, 45, 48, 67, 98, 99, 100, 112, 133, 227, 255):
        read(header(3, 1) + bytes([byte]) + b' x\n1 0\n')
        read(header(3, 1) + b'1 0' + bytes([byte]) + b'c\n')
        read(header(3, 1) + b'c' + bytes([byte]) + b'1 0\n1 0\n')
    file = b'c a\np cnf 3 2\nc b\n1\nc c\n-2 0\ncc\n3 0\nc d\n'
    for size in range(len(file) + 1):
        read(file[:size])
    for room in (4, 5, 6):
        read_rules('comments, room for %d' % room, file, room)
    long, many = b'c' * 70000 + b'\n', b'c 1 0\n' * 10000
    for text, gap in (('a long comment', long), ('many comments', many)):
        read_rules(text + ' after the header', header(3, 1) + gap + b'1 0\n')
        read_rules(text + ' in an open rule', header(3, 1) + b'1\n' + gap + b'-2 0\n')
        read_rules(text + ' before a bad token', header(3, 1) + b'1\n' + gap + b'x')
        read_rules(text + ' at the end', header(3, 1) + b'1 0\n' + gap[:-1])
        read_rules(text + ' at the end of an open rule', header(3, 1) + b'1\n' + gap)
    for text, count, body in (
        ('31000 entries', 7750, b''),
        ('entry 31001', 7751, b'1 0\n'),
        ('entry 31001 in a comment', 7750, b'c 1 0\n'),
    ):
        read_rules(text + ', with comments', header(8, count) + (FOUR + b'c\n') * 7750 + body)


def tokens():
    for text in (
        '- -- --1 +1 + 00 -00 -01 01 001 -0 1- 1-2 -1- 12345 -12345 99999 -99999 10000 123456 -123456 '
        '100000 000000 0000 1a a1 c c1 1c p 0x1 0c 1. 1,2 ~1 %0 3 -3 4 -4 0 1 -1 2 65535 65536 65537 65538 '
        '\x00 \xff 1\x00 \x001 1\xff \x0b 1\x0b2 \x0c 1\x0c2 \x85 \xa0 \xb2 1\x802'
    ).split(' '):
        token = text.encode('latin-1')
        read(header(3, 1) + token + b' 0\n')
        read(header(3, 1) + b'1 ' + token + b' 0\n')
        read(header(3, 1) + b'1 2 ' + token)
        read(header(3, 1) + b'1 0\n' + token)
    for byte in range(256):
        read(header(3, 1) + b'1' + bytes([byte]) + b'2 0\n')


def blanks():
    for text in (
        '1 -2 0\n3 0\n;1 -2 0\n3 0;1 -2 0 3 0;1\n-2\n0\n3\n0\n;1\t-2\t0\t3\t0\t;1 -2 0\r\n3 0\r\n;'
        '1\r-2\r0\r3\r0\r;  1  -2  0  3  0  ;\n\n1 -2 0\n\n3 0\n\n;\r\n1 -2 0\r\n\r\n3 0;'
        '\t 1\r\n-2\n\t0 3 0;1 -203 0\n;1 -20 3 0\n;1-2 0 3 0;0 0;0 0 ; 00'
    ).split(';'):
        read(header(3, 2) + text.encode('ascii'))


def causes():
    """Each cause of a token at the first and the last place, and the order of causes at one token."""
    rising = b' '.join(b'%d' % v for v in range(1, 641))
    for text, file in (
        ('above N, first', header(640, 1) + b'641 0'),
        ('above N, negative', header(640, 1) + b'-641 0'),
        ('N itself', header(640, 1) + b'640 0'),
        ('N itself, negative', header(640, 1) + b'-640 0'),
        ('640 entries', header(640, 1) + rising + b' 0'),
        ('640 entries and one above', header(640, 1) + rising + b' 641 0'),
        ('640 entries and the first again', header(640, 1) + rising + b' 1 0'),
        ('640 entries and the other sense of the last', header(640, 1) + rising + b' -640 0'),
        ('640 entries, not closed', header(640, 1) + rising),
        ('twice in succession', header(3, 2) + b'3 3 0 1 0'),
        ('both senses', header(3, 2) + b'3 0 -1 2 1 0'),
        ('the same in two rules', header(3, 2) + b'3 -1 0 1 -3 0'),
        ('above N twice', header(3, 1) + b'4 4 0'),
        ('twice before above N', header(3, 1) + b'1 1 4 x'),
        ('above N before malformed', header(3, 1) + b'4 x 0'),
        ('malformed before above N', header(3, 1) + b'x 4 0'),
        ('a token after no rules: 0', header(3, 0) + b'0'),
        ('a token after no rules: 1', header(3, 0) + b'1'),
        ('a token after no rules: 4', header(3, 0) + b'4'),
        ('a token after no rules: malformed', header(3, 0) + b'-0'),
        ('a token after the last rule: 0', header(3, 1) + b'1 0 0'),
        ('a token after the last rule: above N', header(3, 1) + b'1 0 4'),
        ('a token after the last rule: malformed', header(3, 1) + b'1 0 4x'),
        ('a rule too few', header(3, 2) + b'1 0\n'),
        ('a rule too few, one open', header(3, 3) + b'1 0 2'),
        ('the last rule open', header(3, 2) + b'1 0 2 '),
        ('an empty file body', header(3, 1)),
        ('blanks for a body', header(3, 1) + b' \n\t'),
    ):
        read_rules(text, file)


def sizes():
    for count in (8999, 9000, 9001):
        read_rules('%d rules of 9000' % count, header(4, 9000) + b'-3 0\n' * count)
        read_rules('%d rules of 8999' % count, header(4, 8999) + b'-3 0\n' * count)
    read_rules('9000 rules and a token', header(4, 9000) + b'-3 0\n' * 9000 + b'1')
    read_rules('9000 rules and a malformed token', header(4, 9000) + b'-3 0\n' * 9000 + b'\xff')
    read_rules('9000 rules and blanks', header(4, 9000) + b'-3 0\n' * 9000 + b' \t\r\n' * 9)
    read_rules('rule 9000 not closed', header(4, 9000) + b'-3 0\n' * 8999 + b'-3 \n')
    most = FOUR * 7750
    for text, count, body in (
        ('30999 entries', 7750, FOUR * 7749 + b'1 2 3 0\n'),
        ('31000 entries', 7750, most),
        ('31000 entries, not closed', 7750, most[:-3]),
        ('entry 31001 in a new rule', 7751, most + b'1 0\n'),
        ('entry 31001 in a new rule, negative', 7751, most + b'-1 0\n'),
        ('entry 31001 in the last rule', 7750, most[:-2] + b'5 0\n'),
        ('entry 31001 above N', 7751, most + b'9 0\n'),
        ('a repeat after entry 31000', 7750, most[:-2] + b'1 0\n'),
        ('entry 31001 malformed', 7751, most + b'01 0\n'),
        ('entry 31001 after the last rule', 7750, most + b'1 0\n'),
        ('entry 31001 after the last rule, malformed', 7750, most + b'-0\n'),
        ('entry 31002', 7751, most + b'1 2 0\n'),
        ('entry 31000 above N', 7750, most[:-4] + b'9 0\n'),
        ('a repeat after entry 30999', 7750, most[:-4] + b'1 0\n'),
        ('empty rules after entry 31000', 9000, most + b'0\n' * 1250),
        ('entry 31001 in rule 9000', 9000, most + b'0\n' * 1249 + b'1 0\n'),
        ('an empty rule too many after entry 31000', 9000, most + b'0\n' * 1251),
        ('an empty rule too few after entry 31000', 9000, most + b'0\n' * 1249),
    ):
        read_rules(text, header(8, count) + body)


def cut_and_damaged():
    file = b'c a\np cnf 13 2\n1 -12 0\n-13 0\n'
    for size in range(len(file) + 1):
        read(file[:size])
    for changed in damaged(b'p cnf 2 2\n-1 2 0\n0\n'):
        read(changed)


def rooms():
    file = b'p cnf 3 2\n1 -2 0\n3 0\n'
    for room in (0, 1, 4, 5, 6, 7, 64, 65, 1000, 40960):
        read_rules('a list of 5, room for %d' % room, file, room)
    read_rules('an empty list, no room', header(3, 0), 0)
    read_rules('an empty list, room', header(3, 0), 3)
    for text, body in (('3', b'1 x'), ('4', b'1 4'), ('6', b'1 0'), ('6, open', b'1 0 2')):
        read_rules('cause %s, no room' % text, header(3, 2) + body, 0)
    read_rules('cause 1, no room', b'p cnf 3', 0)
    read_rules('cause 2, no room', header(641, 0), 0)
    read_rules('cause 7, no room', header(4, 7751) + FOUR * 7750 + b'1 0', 0)
    for room in (39999, 40000, 40001):
        read_rules('a list of 40000, room for %d' % room, header(4, 9000) + FOUR * 7750 + b'0\n' * 1250, room)


def round_trip(text, n, numbers):
    """A list written, with room as needed, more and less, and its file read."""
    file = written(case('write_rules', n, numbers))
    for room in (len(file) - 1, len(file), len(file) + 1, len(file) + 70):
        write_rules('%s, room for %d' % (text, room), n, numbers, room)
    for room in (len(numbers) - 1, len(numbers), len(numbers) + 1):
        if room >= 0:
            read_rules('%s, written, room for %d' % (text, room), file, room)


def round_trips(draw):
    for n in (1, 9, 10, 99, 100, 640):
        round_trip('no rules, n = %d' % n, n, [])
        round_trip('one empty rule, n = %d' % n, n, [0])
        round_trip('the last setting, n = %d' % n, n, [n, 0, -n, 0])
    round_trip('the example', 2, [1, 2, 0])
    for count in (9, 10, 99, 100, 999, 1000, 8999, 9000):
        round_trip('%d empty rules' % count, 3, [0] * count)
        round_trip('%d rules of an entry' % count, 3, [-2, 0] * count)
    round_trip('31000 entries in 9000 rules', 4, [1, -2, 3, -4, 0] * 7750 + [0] * 1250)
    round_trip('the longest file', 640, [-640, -639, -638, -637, 0] * 7750 + [0] * 1250)
    round_trip('a rule of 640 entries', 640, list(range(1, 641)) + [0])
    for index in range(20):
        n = draw.choice((1, 2, 5, 12, 120, 640))
        numbers = []
        for _ in range(draw.randint(0, 6)):
            settings = draw.sample(range(1, n + 1), draw.randint(0, min(n, 5)))
            numbers += [draw.choice((-1, 1)) * setting for setting in settings] + [0]
        round_trip('random %d' % index, n, numbers)


def writer():
    for n in (0, 1, 640, 641, 65536, 2**32, 2**32 + 1, 2**64 - 1):
        write_rules('n = %d' % n, n, [1, 0], 20)
        write_rules('n = %d, no room' % n, n, [1, 0], 0)
        write_rules('n = %d, an unsound list' % n, n, [1, 1, 0], 20)
        write_rules('n = %d, its last setting' % n, n, [min(n, GREATEST), 0], 30)
    for numbers in (
        [1], [1, 0, 2, 3], [1, 0, 2, 2], [4, 0], [-4, 0], [1, 2, 0, 3, -4, 0], [LEAST, 0], [LEAST + 1, 0],
        [1, GREATEST, 0], [1, 0, GREATEST], [65537, 0], [1, 2, 1, 0], [2, 2, 0], [2, 1, -2, 0], [-2, 2, 0],
        [1, 2, 0, 3, 1, -3, 0], [1, 0, 1, 0], [1, 0, -1, 0], [1, -1, 9, 0], [9, 1, -1, 0], [9, 9, 0],
        [3, 0, -3, 0], [0, 0, 0], [1, 0, 0],
    ):
        write_rules('the list %s' % numbers, 3, numbers, 40)
        write_rules('the list %s, no room' % numbers, 3, numbers, 3)
    four = [1, 2, 3, 4, 0]
    for text, numbers in (
        ('9001 empty rules', [0] * 9001),
        ('9001 rules', [1, 0] * 9001),
        ('rule 9001 not closed', [1, 0] * 9000 + [1]),
        ('31001 entries', four * 7750 + [1, 0]),
        ('entry 31001 in the last rule', four * 7749 + [1, 2, 3, 4, 5, 0]),
        ('31000 entries, not closed', (four * 7750)[:-1]),
        ('entry 31001 outside', four * 7750 + [9, 0]),
        ('entry 31001 before rule 9001', four * 7750 + [0] * 1250 + [1, 0, 0]),
        ('rule 9001 before entry 31001', four * 7750 + [0] * 1251 + [1, 0]),
    ):
        write_rules(text, 8, numbers, 100)
        write_rules(text + ', no room', 8, numbers, 0)


# Lines that are no case.
NO_CASES = (
    ('a file that is too long', 'read_rules 262145 99 @ 262144 1 0'),
    ('a byte of 256 in a file', 'read_rules 1 256 0'),
    ('no buffer', 'read_rules 1 99'),
    ('a value after the buffer', 'read_rules 1 99 0 0'),
    ('no list', 'write_rules 1'),
    ('no buffer for rules', 'write_rules 1 2 1 0'),
    ('a buffer of numbers', 'write_rules 1 2 1 0 1 -1'),
)


def add(draw):
    documented()
    headers()
    comments()
    comments_after_header()
    tokens()
    blanks()
    causes()
    sizes()
    cut_and_damaged()
    rooms()
    round_trips(draw)
    writer()
