#!/usr/bin/env python3
"""Writes large.txt: large rule books, the same ones each time, with what the program `nearest` must print for each by
solvers that were written elsewhere. tests/programs/run runs it on them. On 21 of the 36 books document 01's walk, by
which the reference of tests/interface finds, makes more than 300,000 forks.

clasp gives the least number of broken wishes and the first choice that breaks so few, as in solve.py. cadical must say
that the given rules can be met or not, that the rewritten ones can with this number for the limit and cannot with one
less, and confirm the choice. The reference rewrites.

A book is a line of its name and the lengths of three texts, then these: its rule file, its wish file, what is printed.
The numbers below are such that `nearest` takes about a second at most; books that took it more than 3 s, as those of
256 settings and 700 rules of three entries sometimes do, were left out."""

import pathlib
import tempfile

import books
import kinds
import solve
from generate import Shelf, twins

LARGE = books.ROOT / 'tests' / 'solvers' / 'large.txt'


def add(shelf, problem, count, marks=(0, 1), changed=lambda problem, wishes: problem):
    """A book with so many wishes. Its limit does not count for nearest."""
    wishes = shelf.wishes(problem[0], count, marks)
    shelf.add(changed(problem, wishes), wishes, shelf.draw.between(0, books.GREATEST))


def three():
    """Rules of three entries, in hundredths of the number of settings."""
    shelf = Shelf('large-three')
    for n, hundredths in (
        (256, 118),
        (128, 250),
        (256, 196),
        (256, 235),
        (256, 255),
        (64, 282),
        (128, 250),
        (256, 274),
        (64, 282),
        (200, 300),
    ):
        add(shelf, kinds.clauses(shelf.draw, n, hundredths, 3), 64)
    return shelf


def above():
    """The same, with rules enough that no choice meets them all."""
    shelf = Shelf('large-above')
    for hundredths in (500, 520, 540):
        add(shelf, kinds.clauses(shelf.draw, 128, hundredths, 3), 64)
    return shelf


def maker():
    shelf = Shelf('large-maker')
    for groups, size, needs, clashes, count, marks in (
        (25, 6, 75, 420, 60, (1,)),
        (64, 4, 160, 350, 60, (1,)),
        (40, 4, 120, 620, 64, (0, 1)),
        (32, 8, 96, 400, 50, (1,)),
        (85, 3, 200, 300, 52, (0, 1)),
        (50, 5, 150, 700, 56, (1,)),
        (42, 6, 126, 640, 50, (1,)),
        (30, 8, 90, 200, 44, (1,)),
    ):
        add(shelf, kinds.maker(shelf.draw, groups, size, needs, clashes), count, marks)
    return shelf


def others():
    shelf = Shelf('large-others')
    draw = shelf.draw
    again = lambda problem, wishes: kinds.with_repeats(draw, problem, wishes)
    add(shelf, kinds.mixed(draw, 200, 700, 0), 64)
    add(shelf, kinds.parity(draw, 256, 195), 64)
    add(shelf, kinds.with_opposites(draw, kinds.maker(draw, 42, 4, 126, 420)), 60, (1,), again)
    add(shelf, kinds.mixed(draw, 256, 850, 0), 64)
    return shelf


def ladder():
    """Nearest's longest paths: 254 forks to the first choice, where setting 1 meets every rule; and 255 by the cores,
    where other rules have setting 1 picked before the ladder."""
    shelf = Shelf('large-ladder')
    shelf.add(kinds.ladder(2, 256, (1,)), {}, 0)
    n, rules = kinds.ladder(2, 256)
    shelf.add((n, rules + [[-1, setting] for setting in range(10, 80, 10)]), {1: 0, 255: 0, 256: 0}, 0)
    return shelf


def solved(book, folder):
    """The least number of broken wishes and the first choice that breaks so few, or none and none."""
    n, rules = books.parse_rules(book.rule_file)
    _, wishes, _ = books.parse_wishes(book.wish_file)
    least = solve.least_broken(book, folder, n, rules, wishes)
    limits = [] if least is None else range(max(least - 1, 0), least + 1)
    files = {d: solve.printed(solve.REWRITE, book, folder, n, wishes, d) for d in limits}
    found = solve.verdicts(book, 'cadical', folder, [book.rule_file, *files.values()])
    if found != solve.by_least(least, [books.GREATEST, *limits]):
        solve.fail(book, 'clasp', least, 'and cadical', found, 'disagree')
    return solve.nearest(book, folder, n, rules, wishes, least, files)


def printed(least, first):
    """What `nearest` prints, 16 values a line."""
    if least == 'none':
        return b's UNSATISFIABLE\n'
    values = [str(setting if digit == '1' else -setting) for setting, digit in enumerate(first, 1)]
    lines = [' '.join(['v', *values[at : at + 16]]) for at in range(0, len(values), 16)]
    return '\n'.join(['o %d' % least, 's OPTIMUM FOUND', *lines]).encode('ascii') + b' 0\n'


def main():
    shelves = [three(), above(), maker(), others(), ladder()]
    shelves.append(twins(shelves))
    head = '# What nearest prints on large books, by %s and %s. large.py writes this file.\n'
    parts, answers = [(head % (solve.version('clasp'), solve.version('cadical'))).encode('ascii')], {}
    with tempfile.TemporaryDirectory() as folder:
        for book in [book for shelf in shelves for book in shelf.books]:
            answers[book.name] = solved(book, pathlib.Path(folder))
            if answers[book.name] != answers[book.name.removesuffix(books.TWIN)]:
                solve.fail(book, 'is answered otherwise than its twin')
            texts = book.rule_file, book.wish_file, printed(*answers[book.name])
            parts += [b'%s %d %d %d\n' % (book.name.encode('ascii'), *map(len, texts)), *texts]
    LARGE.write_bytes(b''.join(parts))


if __name__ == '__main__':
    main()
