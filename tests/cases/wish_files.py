"""Cases of the wish file's reader and writer."""

import itertools

from asked import written
from case_lines import case, damaged, read_wishes, shown, write_wishes


def read(file, room=None):
    read_wishes(shown(file), file, room)


def line(*numbers):
    return b''.join(b'%5d' % number for number in numbers) + b'\n'


def wishes(*pairs):
    return b''.join(line(*pair) for pair in pairs)


def many(count, mark=1):
    return wishes(*((setting, mark) for setting in range(1, count + 1)))


def documented():
    read(line(2, 2, 1) + wishes((1, 0), (2, 0)))
    read((line(2, 2, 1) + wishes((1, 0), (2, 0)))[:15])
    read(line(2, 0, 1)[:15])
    read(b' ' * 15)
    read(b'')
    for d in (0, 1, 63, 64, 65, 66, 99999):
        read(line(2, 1, d) + wishes((1, 0)))


def headers():
    for n in (0, 1, 9, 10, 255, 256, 257, 640, 641, 65536, 65537, 99999):
        read(line(n, 0, 0))
        read(line(n, 1, 0) + wishes((1, 1)))
        read(line(n, 1, 64) + wishes((min(n, 99999), 0)))
    for n, m in (
        (1, 1), (1, 2), (2, 3), (5, 5), (5, 6), (63, 64), (64, 64), (65, 64), (65, 65), (256, 64), (256, 65),
        (100, 65536), (256, 65537),
    ):
        read_wishes('n = %d, m = %d' % (n, m), line(n, m, 3) + many(min(m, 66)))
        read_wishes('n = %d, m = %d, no lines' % (n, m), line(n, m, 3))
        read_wishes('n = %d, m = %d, an extra line' % (n, m), line(n, m, 3) + many(min(m, 66) + 1))
    for text in (
        '00002    1    0;    2   01    0;    2    1   00;2        1    0;   2     1    0;    2   1     0;'
        '    2    1   0 ;         1    0;    2         0;    2    1     ;               ;    2\t   1    0;'
        '\t   2    1    0;    2    1\t   0;   -1    0    0;   +1    0    0;    2   -0    0;    x    0    0;'
        '    2    x    0;    2    0    x;  1 2    0    0;10000    0    0;99999    0    0;    2    1    0 ; '
    ).split(';'):
        for ending in (b'\n', b'', b'\r', b' ', b'\r\n'):
            read(text.encode('ascii') + ending + wishes((1, 1)))


def lines():
    first = line(5, 2, 1)
    for setting in (0, 1, 2, 3, 4, 5, 6, 7, 256, 257, 65536, 65538, 99999):
        read(first + wishes((setting, 1), (5, 0)))
        read(first + wishes((2, 1), (setting, 0)))
    for mark in (0, 1, 2, 3, 10, 11, 256, 257, 65536, 65537, 99999):
        read(first + wishes((2, mark), (4, 0)))
        read(first + wishes((2, 1), (4, mark)))
    for text in (
        '00002    1;    2   01;    2   00;2        1;   2     1;    2   1 ;         1;    2     ;          ;'
        '\t   2    1;    2\t   1;   -2    1;   +2    1;    2   -1;    x    1;    2    x;  1 2    1;'
        '    2  1 1;    2    1 ;   2    1;    2   1;     2    1; '
    ).split(';'):
        for ending in (b'\n', b'', b'\r', b' '):
            read(first + text.encode('ascii') + ending + wishes((4, 0)))
            read(first + wishes((1, 0)) + text.encode('ascii') + ending)
    for text, body in (
        ('8 before 10 on a line', b'    0    1 '),
        ('10 on a line before 8 on the next', wishes((0, 1)) + b'x'),
        ('8 on a line before 10 on the next', b'    x    1\n' + wishes((0, 1))),
        ('10 before an extra byte', wishes((1, 1), (1, 0)) + b'x'),
        ('10 before a cut line', wishes((9, 1)) + b'    2'),
        ('two wrong settings', wishes((9, 1), (0, 1))),
    ):
        read_wishes(text, first + body)
    for n, m, d in ((0, 2, 1), (257, 2, 1), (1, 2, 1), (5, 2, 65)):
        read_wishes('9 before 8: %d %d %d' % (n, m, d), line(n, m, d) + b'x')
        read_wishes('9 before 10: %d %d %d' % (n, m, d), line(n, m, d) + wishes((0, 2), (0, 2)))
    read_wishes('8 before 9', b'    0    2   65 ' + wishes((0, 2)))
    last = many(64)[:-11]
    for text, end in (
        ('rising', line(256, 0)), ('equal', line(63, 0)), ('falling', line(1, 0)), ('above n', line(257, 0)),
        ('zero', line(0, 0)), ('mark 2', line(64, 2)), ('cut', line(64, 0)[:-1]), ('none', b''),
        ('followed by a byte', line(64, 0) + b'\n'),
    ):
        read_wishes('64 wishes, the last %s' % text, line(256, 64, 64) + last + end)


def cut_and_damaged():
    file = line(12, 2, 1) + wishes((3, 0), (12, 1))
    for size in range(len(file) + 1):
        read(file[:size])
    for extra in (b' ', b'\n', b'\x00', b'\xff', b'x', b'\r\n', line(12, 1)[:-1], line(12, 1), line(12, 1) * 3):
        read(file + extra)
    for changed in damaged(line(12, 1, 10) + wishes((10, 1))):
        read(changed)


def rooms():
    file = line(5, 2, 1) + wishes((2, 1), (5, 0))
    for room in (0, 1, 4, 5, 6, 7, 64, 65, 1000):
        read_wishes('a row of 5, room for %d' % room, file, room)
    for room in (255, 256, 257):
        read_wishes('a row of 256, room for %d' % room, line(256, 64, 0) + many(64, 0), room)
    for text, bad in (
        ('8', file[:-1]), ('8, extra', file + b' '), ('9', line(0, 0, 0)), ('10', line(5, 1, 0) + line(6, 1)),
    ):
        read_wishes('cause %s, no room' % text, bad, 0)


def round_trip(text, n, row, d):
    """A row written, with room as needed, more and less, and its file read."""
    file = written(case('write_wishes', n, row, d))
    for room in (len(file) - 1, len(file), len(file) + 1, len(file) + 70):
        write_wishes('%s, room for %d' % (text, room), n, row, d, room)
    for room in (n - 1, n, n + 1):
        read_wishes('%s, written, room for %d' % (text, room), file, room)


def round_trips(draw):
    for n in (1, 9, 10, 99, 100, 256):
        round_trip('no wishes, n = %d' % n, n, [2] * n, 0)
        round_trip('the first on, n = %d' % n, n, [1] + [2] * (n - 1), 64)
        round_trip('the last off, n = %d' % n, n, [2] * (n - 1) + [0], 9)
    for count in (9, 10, 63, 64):
        round_trip('%d wishes first' % count, 256, [0] * count + [2] * (256 - count), 64)
        round_trip('%d wishes last' % count, 256, [2] * (256 - count) + [1] * count, 10)
    for index in range(20):
        n = draw.choice((1, 2, 5, 12, 60))
        round_trip('random %d' % index, n, [draw.choice((0, 1, 2)) for _ in range(n)], draw.randint(0, 64))


FAULTS = ('n', 'd', 'byte', 'wish 65', 'row length', 'size', 'room')


def faults(*present):
    n = 641 if 'n' in present else 257 if 'size' in present else 100
    d = 65 if 'd' in present else 64
    row = [1, 0, 2] + [2] * (n - 3)
    if 'wish 65' in present:
        row[4:69] = [1] * 65
    if 'byte' in present:
        row[90] = 3
    if 'row length' in present:
        row.append(2)
    room = 37 if 'room' in present else 1000
    write_wishes('faults: %s' % (', '.join(present) or 'none'), n, row, d, room)


def writer():
    faults()
    for fault in FAULTS:
        faults(fault)
    for pair in itertools.combinations(FAULTS, 2):
        faults(*pair)
    faults(*FAULTS)
    for n in (0, 1, 255, 256, 257, 640, 641, 65537, 2**32 + 1, 2**64 - 1):
        write_wishes('n = %d' % n, n, [2] * min(n, 1000), 0, 30)
        write_wishes('n = %d, a row of one' % n, n, [1], 0, 30)
        write_wishes('n = %d, no row, no room' % n, n, [], 0, 0)
    for d in (0, 1, 9, 10, 63, 64, 65, 66, 2**32, 2**64 - 1):
        write_wishes('d = %d' % d, 2, [1, 2], d, 30)
    for length in (0, 1, 3, 4, 5, 6, 1000):
        write_wishes('n = 4, a row of %d' % length, 4, ([1] + [2] * 999)[:length], 1, 60)
    for byte in (3, 4, 128, 254, 255):
        write_wishes('a byte of %d, first' % byte, 3, [byte, 1, 0], 1, 60)
        write_wishes('a byte of %d, last' % byte, 3, [0, 1, byte], 1, 60)
        write_wishes('a byte of %d, past the row' % byte, 3, [0, 1, 2, byte], 1, 60)
    for count in (64, 65, 66):
        write_wishes('%d wishes' % count, 100, [1] * count + [2] * (100 - count), 1, 1000)
        write_wishes('%d wishes at the end' % count, 100, [2] * (100 - count) + [0] * count, 1, 1000)
    write_wishes('65 wishes before a bad byte', 100, [1] * 65 + [3] + [2] * 34, 1, 1000)
    write_wishes('a bad byte before 65 wishes', 100, [3] + [1] * 65 + [2] * 34, 1, 1000)
    write_wishes('no wishes, room for 15', 3, [2] * 3, 1, 15)
    write_wishes('no wishes, room for 16', 3, [2] * 3, 1, 16)


# Lines that are no case.
NO_CASES = (
    ('no buffer for a row', 'read_wishes 1 32'),
    ('a wish file that is too long', 'read_wishes 1025 32 @ 1024 1 0'),
    ('no limit', 'write_wishes 1 1 2'),
    ('no buffer for wishes', 'write_wishes 1 1 2 0'),
    ('a negative limit', 'write_wishes 1 1 2 -1 0'),
)


def add(draw):
    documented()
    headers()
    lines()
    cut_and_damaged()
    rooms()
    round_trips(draw)
    writer()
