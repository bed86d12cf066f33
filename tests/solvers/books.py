"""The rule books of the program `routes`: how its input holds them, and the two files of document 01."""

import collections
import functools
import pathlib

ROOT = pathlib.Path(__file__).resolve().parents[2]
STDIN = ROOT / 'crates' / 'routes' / 'stdin'
STDOUT = ROOT / 'crates' / 'routes' / 'stdout'
RESULTS = ROOT / 'tests' / 'solvers' / 'results.txt'

# The greatest limit.
GREATEST = 64

# A book with this after its name has the wishes of the book of that name, and the same choices meet its rules.
TWIN = '-twin'

# A book has a name, the number of limits at which both routes are run, and its two files.
Book = collections.namedtuple('Book', 'name limits rule_file wish_file')


def rule_file(n, rules):
    """ "The header is `p cnf N C` .. then each rule on a line: entries, then 0, single spaces, a line feed." """
    lines = ['p cnf %d %d' % (n, len(rules))]
    lines += [' '.join(str(entry) for entry in [*rule, 0]) for rule in rules]
    return ''.join(line + '\n' for line in lines).encode('ascii')


def wish_file(n, wishes, limit):
    """ "Decimal numbers right-justified in columns of 5 .. Line one: n, number of wishes m, limit d .. Then m
    lines: setting, 1 for on or 0 for off" """
    lines = ['%5d%5d%5d\n' % (n, len(wishes), limit)]
    lines += ['%5d%5d\n' % wish for wish in sorted(wishes.items())]
    return ''.join(lines).encode('ascii')


def parse_rules(file):
    """The number of settings and the rules of a rule file."""
    lines = [line for line in file.decode('ascii').splitlines() if not line.startswith('c')]
    n, count = map(int, lines[0].split()[2:])
    rules, rule = [], []
    for number in map(int, ' '.join(lines[1:]).split()):
        if number:
            rule.append(number)
        else:
            rules.append(rule)
            rule = []
    assert not rule and len(rules) == count
    return n, rules


def parse_wishes(file):
    """The number of settings, the wishes and the limit of a wish file."""
    head, *lines = [list(map(int, line.split())) for line in file.decode('ascii').splitlines()]
    n, count, limit = head
    wishes = dict(lines)
    assert len(wishes) == count
    return n, wishes, limit


def search_limits(least, limit):
    """The limits of the wish search and the export in a book's line: the least number of broken wishes, one below and
    0, or the greatest and 0 where the rules cannot be met; and the limit of the wish file."""
    near = [GREATEST, 0] if least is None else dict.fromkeys([least, max(least - 1, 0), 0])
    return [*near, limit]


def sum_of(file):
    """A sum in which the order of the bytes counts, as the programs `cases` and `routes` have it."""
    return functools.reduce(lambda total, byte: (total * 31 + byte) % 998244353, file, 0)


def frame(book):
    """A book as the program's input has it."""
    sizes = book.limits, len(book.rule_file), len(book.wish_file)
    return b'book %d %d %d %s\n' % (*sizes, book.name.encode('ascii')) + book.rule_file + book.wish_file + b'\n'


def read():
    """The books of the program's input."""
    text, books = STDIN.read_bytes(), []
    while text:
        head, text = text.split(b'\n', 1)
        word, limits, rules, wishes, name = head.split()
        rules, wishes = int(rules), int(wishes)
        assert word == b'book' and text[rules + wishes : rules + wishes + 1] == b'\n'
        files = text[:rules], text[rules : rules + wishes]
        books.append(Book(name.decode('ascii'), int(limits), *files))
        text = text[rules + wishes + 1 :]
    return books
