#!/usr/bin/env python3
"""Writes the rule books that the program `routes` is run on, to crates/routes/stdin: the same ones each time."""

import books
import kinds
from draw import Draw

# Every limit, 0 to 64; and the first few, for books that cost the second route too much at the others. A limit above
# the number of wishes asks for nothing, so most books have but one of these.
EVERY, FEW = 65, 4

# What may stand at the beginning of a line behind the header.
COMMENTS = b'', b'c\n', b'c a heading\n', b'cat 1 2 0\r\n', b'c p cnf 1 0\nc 1 0\n'


class Shelf:
    """The books of a kind, named by it and numbered. The kind is also the seed."""

    def __init__(self, kind):
        self.kind, self.draw, self.books = kind, Draw(kind), []

    def add(self, problem, wishes, limit, limits=EVERY):
        n, rules = problem
        name = '%s-%02d' % (self.kind, len(self.books) + 1)
        file = books.rule_file(n, rules)
        if len(self.books) % 4 == 1:
            file = self.loose(name, file)
        self.books.append(books.Book(name, limits, file, books.wish_file(n, wishes, limit)))

    def loose(self, name, file):
        """The same file with comments, and with other blanks after its header. Not every solver reads a comment inside
        a rule, so there is none."""
        header, body = file.split(b'\n', 1)
        blanks = b' ', b'  ', b'\t', b'\n', b'\r\n', b' \n'
        parts, chances = [header + b'\n'], Draw(name)
        for token in [b'', *body.split()]:
            blank = self.draw.choice(blanks) if token else b''
            parts.append(token + blank)
            if not token or token == b'0' and blank.endswith(b'\n'):
                parts.append(chances.choice(COMMENTS))
        return b'c %s\nc\n%s' % (name.encode('ascii'), b''.join(parts))

    def wishes(self, n, count, marks=(0, 1)):
        """So many wishes, their marks by chance."""
        settings = sorted(self.draw.sample(range(1, n + 1), count))
        return {setting: self.draw.choice(marks) for setting in settings}

    def turn(self, problem, most=14, changed=lambda problem, wishes: problem):
        """A book with as many wishes and such a limit as is its turn; its rules may be changed for its wishes."""
        turn, n, draw = len(self.books), problem[0], self.draw
        most = min(n, most)
        some = draw.between((most + 1) // 2, most)
        count = (0, some, 1, most, min(3, n), some, most)[turn % 7]
        marks = ((0, 1), (1,), (0, 1), (0,), (1,))[turn % 5]
        limit = (0, count // 2, count, count // 3, count + 1, draw.between(0, 64), 64, 1)[turn % 8]
        limits = EVERY if turn % 8 == 0 else count + 2
        wishes = self.wishes(n, count, marks)
        self.add(changed(problem, wishes), wishes, limit, limits)


def document():
    """The examples of document 01 that have rules and wishes."""
    shelf = Shelf('document')
    for limit in (0, 1, 64):
        shelf.add((2, [[1, 2]]), {1: 0, 2: 0}, limit)
        shelf.add((1, [[]]), {1: 1}, limit)
        shelf.add((1, []), {1: 1}, limit)
    return shelf


def three(kind, count, sizes, low, high):
    """Rules of three entries; about 4.26 rules for a setting are the threshold."""
    shelf = Shelf(kind)
    for _ in range(count):
        n, hundredths = shelf.draw.choice(sizes), shelf.draw.between(low, high)
        shelf.turn(kinds.clauses(shelf.draw, n, hundredths, 3))
    return shelf


def two():
    """Rules of two entries, around their threshold of 1 rule for a setting."""
    shelf = Shelf('two')
    for _ in range(30):
        n, hundredths = shelf.draw.choice((2, 4, 8, 16, 32, 64, 128, 256)), shelf.draw.between(60, 130)
        shelf.turn(kinds.clauses(shelf.draw, n, hundredths, 2))
    return shelf


def mixed():
    shelf = Shelf('mixed')
    for _ in range(40):
        n = shelf.draw.choice((1, 2, 3, 5, 8, 13, 21, 34, 55))
        count, singles = n * shelf.draw.between(5, 30) // 10, shelf.draw.between(0, 1 + n // 3)
        shelf.turn(kinds.mixed(shelf.draw, n, count, singles))
    return shelf


def empty():
    """Books with an empty rule."""
    shelf = Shelf('empty')
    for n in (1, 2, 5, 12, 40, 100, 200, 256):
        count, singles = n // 2, n // 8
        shelf.turn(kinds.with_empty(shelf.draw, kinds.mixed(shelf.draw, n, count, singles)))
    return shelf


def horn():
    shelf = Shelf('horn')
    for _ in range(30):
        n = shelf.draw.choice((4, 9, 16, 36, 64, 121, 256))
        facts, goals = shelf.draw.between(1, 1 + n // 8), shelf.draw.between(0, n // 2)
        shelf.turn(kinds.horn(shelf.draw, n, 2 * n, facts, goals))
    return shelf


def maker():
    shelf = Shelf('maker')
    for _ in range(40):
        groups, size = shelf.draw.choice(((2, 2), (4, 3), (6, 4), (8, 5), (10, 6), (12, 4), (16, 3)))
        needs, clashes = groups * shelf.draw.between(2, 4), groups * shelf.draw.between(3, 15)
        shelf.turn(kinds.maker(shelf.draw, groups, size, needs, clashes))
    return shelf


def pigeons():
    shelf = Shelf('pigeons')
    for birds, holes in ((2, 1), (3, 2), (4, 3), (5, 4), (3, 2), (4, 3)):
        shelf.turn(kinds.pigeons(birds, holes), most=6)
    for birds, holes in ((1, 1), (2, 2), (3, 3), (4, 4), (5, 5), (4, 5), (3, 6), (6, 6), (7, 7)):
        shelf.turn(kinds.pigeons(birds, holes))
    return shelf


def parity():
    shelf = Shelf('parity')
    for _ in range(12):
        n = shelf.draw.choice((5, 9, 12, 16, 20))
        shelf.turn(kinds.parity(shelf.draw, n, shelf.draw.between(n // 2, n)))
    return shelf


def signs():
    """Books in which every rule has every setting, met by none, one or two choices."""
    shelf = Shelf('signs')
    for _ in range(16):
        n = shelf.draw.between(1, 5)
        shelf.turn(kinds.signs(n, shelf.draw.sample(range(2**n), shelf.draw.below(3))))
    return shelf


def chain():
    shelf = Shelf('chain')
    for n, length in ((2, 2), (16, 4), (64, 64), (100, 5), (200, 10), (256, 256)):
        shelf.turn(kinds.chain(n, length))
    return shelf


def free():
    """Books without rules."""
    shelf = Shelf('free')
    for n in (1, 1, 2, 3, 16, 64, 100, 200, 255, 256):
        shelf.turn((n, []))
    return shelf


def sixty_four():
    """64 wishes, with every limit."""
    shelf = Shelf('wishes64')
    draw = shelf.draw
    on = {setting: 1 for setting in range(1, 65)}
    off = {setting: 0 for setting in range(1, 65)}
    shelf.add(kinds.forbidden(64, 64), on, 0)
    shelf.add(kinds.forbidden(64, 32), on, 64)
    shelf.add(kinds.forbidden(256, 7), on, 6)
    shelf.add((64, []), off, 0)
    shelf.add((256, []), shelf.wishes(256, 64), 0)
    shelf.add(kinds.with_empty(draw, (64, [])), on, 64)
    shelf.add((65, [[setting] for setting in range(1, 65)] + [[-1, -2, 65], [-65]]), off, 0)
    shelf.add(kinds.clauses(draw, 256, 25, 2), shelf.wishes(256, 64), 1)
    shelf.add(kinds.horn(draw, 100, 200, 12, 10), shelf.wishes(100, 64), 30)
    shelf.add(kinds.horn(draw, 64, 100, 20, 0), shelf.wishes(64, 64), 10)
    return shelf


def many():
    """Many wishes, with the first few limits."""
    shelf = Shelf('many')
    for n in (40, 64, 64, 100, 100, 200):
        problem = kinds.clauses(shelf.draw, n, shelf.draw.between(70, 100), 2)
        shelf.add(problem, shelf.wishes(n, min(n, 64)), shelf.draw.between(0, 64), FEW)
        problem = kinds.horn(shelf.draw, n, 2 * n, n // 8, n // 8)
        shelf.add(problem, shelf.wishes(n, min(n, 64)), shelf.draw.between(0, 64), FEW)
    return shelf


def repeats():
    """Books of several kinds with repeated entries: as they are, with both senses of a setting in some rules, and with
    rules that are nothing else."""
    shelf = Shelf('repeats')
    draw = shelf.draw
    again = lambda problem, wishes: kinds.with_repeats(draw, problem, wishes)
    shelf.add((2, [[1, 2, 1]]), {1: 0, 2: 0}, 1)
    shelf.add((1, [[1, -1]]), {1: 0}, 0)
    shelf.add((1, [[-1, 1, -1], [1, 1]]), {1: 0}, 0)
    shelf.add((3, [[1, 2, 2], [-3, 3], [-1, -1, -3, -1], [3, -2, 3]]), {1: 0, 2: 0, 3: 0}, 1)
    shelf.add((4, [[v, -v] for v in (1, 2, 3, 4)]), {2: 1, 4: 0}, 0)
    shelf.add((3, [[1, 1, -2, 1], [], [2, -2]]), {1: 1}, 1)
    for problem in (
        lambda: kinds.clauses(draw, 40, 300, 3),
        lambda: kinds.clauses(draw, 20, 430, 3),
        lambda: kinds.clauses(draw, 15, 600, 3),
        lambda: kinds.clauses(draw, 64, 100, 2),
        lambda: kinds.mixed(draw, 21, 50, 5),
        lambda: kinds.horn(draw, 64, 128, 8, 40),
        lambda: kinds.maker(draw, 6, 4, 18, 50),
        lambda: kinds.pigeons(4, 3),
        lambda: kinds.parity(draw, 12, 9),
        lambda: kinds.signs(4, draw.sample(range(16), len(shelf.books) % 2)),
    ):
        shelf.turn(problem(), changed=again)
        shelf.turn(kinds.with_opposites(draw, problem()), changed=again)
        shelf.turn(kinds.with_senses(draw, problem(), 12), changed=again)
    wide = [sense * setting for setting in range(1, 257) for sense in (1, -1)]
    shelf.add((256, [wide, [-256, -1, -256], [1, 1, 256]]), {1: 1, 100: 0, 256: 1}, 0, 5)
    return shelf


def twins(shelves):
    """For every third book of the kinds that have rules another one with the same choices and wishes, so that the same
    choice is the first nearest. The routes are run with the first few limits."""
    shelf = Shelf('twins')
    for book in [book for one in shelves if one.kind not in ('document', 'empty', 'free') for book in one.books[1::3]]:
        name = book.name + books.TWIN
        file = books.rule_file(*kinds.twin(Draw(name), books.parse_rules(book.rule_file)))
        shelf.books.append(books.Book(name, min(book.limits, FEW), file, book.wish_file))
    return shelf


def main():
    shelves = [
        document(),
        three('below', 36, (5, 10, 20, 30, 40, 50, 75, 100), 200, 350),
        three('near', 36, (5, 10, 15, 20, 25, 30, 35, 40), 400, 450),
        three('above', 30, (5, 10, 15, 20, 25, 30, 40), 500, 800),
        two(),
        mixed(),
        empty(),
        horn(),
        maker(),
        pigeons(),
        parity(),
        signs(),
        chain(),
        free(),
        sixty_four(),
        many(),
        repeats(),
    ]
    shelves.append(twins(shelves))
    text = b''.join(books.frame(book) for shelf in shelves for book in shelf.books)
    books.STDIN.write_bytes(text)
    for shelf in shelves:
        print('%-9s %3d' % (shelf.kind, len(shelf.books)))
    print('%-9s %3d, %d bytes' % ('all', sum(len(shelf.books) for shelf in shelves), len(text)))


if __name__ == '__main__':
    main()
