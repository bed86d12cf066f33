#!/usr/bin/env python3
"""Writes the cases of the program `cases` and the answers that it is held to.

    python3 tests/cases/generate.py

writes crates/cases/stdin, and crates/cases/stdout with what the reference of tests/interface answers, which
follows documents 01 and 02 and not the library. `rt ci cases` then runs the program and compares. The numbers are
drawn from a fixed seed, so a second run writes the same files.

A case is a line: the name of a call, then its values, single spaces between them. A list is its
length and its elements; among these `@ COUNT BACK` stands for COUNT further elements, each of them
the one that stands BACK places before it. A call that fills an output has the buffer for it as its last
list, and the last line of its answer says what the buffer then holds. Which choice the wish search and plain search
find is left open, so of a choice that they find the answer says what holds of it, and what the buffer holds past it. A
line that starts with # is a label."""

import itertools
import pathlib
import random

import first_choices
import forks
import opb_files
import repeats
import rule_files
import searches
import wish_files
from asked import all_answers
from case_lines import check, label, lines

# Each adds cases, drawn from a seed of its own: a new one stands at the end.
MODULES = (rule_files, wish_files, searches, forks, opb_files, repeats, first_choices)
CRATE = pathlib.Path(__file__).resolve().parents[2] / 'crates' / 'cases'
LEAST, GREATEST = -2**31, 2**31 - 1
MALFORMED, NO_CASE = 'bad case', 'no case: '


def documented():
    """Document 01's examples, as far as they speak of choices."""
    for choice in itertools.product((0, 1), repeat=2):
        check('rule 1 2, both wished off: %d %d' % choice, 2, [1, 2, 0], [0, 0], choice)
    for value in (0, 1):
        check('one empty rule: %d' % value, 1, [0], [1], [value])
        check('no rules, wished off: %d' % value, 1, [], [0], [value])
        check('no rules, wished on: %d' % value, 1, [], [1], [value])
        check('no rules, a free setting: %d' % value, 1, [], [2], [value])
    rewritten = [1, 2, 0, 1, 2, -3, 0, -2, 3, 0, 1, -4, 0, -1, 3, 0, 2, -4, 0, -1, -2, 4, 0, -4, 0]
    for choice in itertools.product((0, 1), repeat=4):
        check('the rewritten example: %d %d %d %d' % choice, 4, rewritten, [0, 0, 2, 2], choice)


def numbers_of_settings():
    for n in (0, 1, 255, 256, 257, 639, 640, 641, 642):
        check('n = %d' % n, n, [], [2] * n, [1] * n)
    for n in (0, 1, 256, 257, 640, 641):
        check('n = %d, its last setting' % n, n, [n, 0], [2] * n, [1] * n)
    for n in (1000, 2**16, 2**16 + 1, 2**31, 2**32, 2**32 + 1, 2**63, 2**64 - 1):
        check('n = %d' % n, n, [], [2], [1])


def lists():
    row, choice = [1, 0, 2], [1, 1, 0]
    for text, rules in (
        ('an empty list', []),
        ('an empty rule', [0]),
        ('an empty rule among others', [1, 0, 0, 3, 0]),
        ('an empty rule last', [1, 0, 0]),
        ('one entry, not closed', [1]),
        ('the last rule not closed', [1, 0, 2, 3]),
        ('not closed, with a fault before', [1, 0, 2, 2]),
        ('the last settings inside', [3, 0, -3, 0]),
        ('outside above', [4, 0]),
        ('outside below', [-4, 0]),
        ('outside, after a sound rule', [1, 2, 0, 3, -4, 0]),
        ('the least number', [LEAST, 0]),
        ('next to the least number', [LEAST + 1, 0]),
        ('the greatest number', [1, GREATEST, 0]),
        ('the greatest number, not closed', [1, 0, GREATEST]),
        ('2 to the power 16 and 1', [2**16 + 1, 0]),
        ('an entry twice', [1, 2, 1, 0]),
        ('an entry twice in succession', [2, 2, 0]),
        ('both senses', [2, 1, -2, 0]),
        ('both senses, off first', [-2, 2, 0]),
        ('both senses in a later rule', [1, 2, 0, 3, 1, -3, 0]),
        ('the same entry in two rules', [1, 0, 1, 0]),
        ('both senses in two rules', [1, 0, -1, 0]),
        ('both senses before an entry outside', [1, -1, 9, 0]),
        ('outside before both senses', [9, 1, -1, 0]),
        ('an entry twice before one outside', [1, 1, 9, 0]),
        ('outside before an entry twice', [9, 1, 1, 0]),
        ('outside twice', [9, 9, 0]),
    ):
        check(text, 3, rules, row, choice)


def long_list(entries, period):
    """Rules of `period` entries, and one rule for what is left over."""
    full, rest = divmod(entries, period)
    rules = (list(range(1, period + 1)) + [0]) * full
    return rules + (list(range(1, rest + 1)) + [0] if rest else [])


def sizes():
    row, choice = [2] * 4, [1] * 4
    for count in (4095, 4096, 4097, 8999, 9000, 9001, 9002):
        check('%d empty rules' % count, 4, [0] * count, row, choice)
        check('%d rules of an entry' % count, 4, [1, 0] * count, row, choice)
    check('9001 rules, one outside before', 4, [1, 0] * 8000 + [5, 0] + [1, 0] * 1000, row, choice)
    check('the 9001st rule not closed', 4, [1, 0] * 9000 + [1], row, choice)
    for count in (16383, 16384, 16385, 30999, 31000, 31001, 31002):
        check('%d entries' % count, 4, long_list(count, 4), row, choice)
    for count in (16384, 16385, 31000, 31001):
        check('%d entries in long rules' % count, 16, long_list(count, 16), [2] * 16, [1] * 16)
    check('16384 entries in 4096 rules', 4, [-1, -2, -3, -4, 0] * 4096, row, choice)
    check('16384 entries in 4097 rules', 4, [-1, -2, -3, -4, 0] * 4096 + [0], row, choice)
    check('31000 entries, not closed', 4, long_list(31000, 4)[:-1], row, choice)
    check('entry 31001 outside', 4, long_list(31000, 4) + [5, 0], row, choice)
    check('entry 31001 before rule 9001', 4, long_list(31000, 4) + [0] * 1250 + [1, 0, 0], row, choice)
    check('rule 9001 before entry 31001', 4, long_list(31000, 4) + [0] * 1251 + [1, 0], row, choice)
    check('31000 entries in 9000 rules', 4, long_list(31000, 4) + [0] * 1250, row, choice)


def wishes():
    rules, choice = [1, 0], [1] * 100
    for count in (63, 64, 65):
        for text, wish in (('on', [1]), ('off', [0]), ('on and off', [0, 1])):
            row = (wish * 65)[:count]
            check('%d wishes, %s' % (count, text), 100, rules, row + [2] * (100 - count), choice)
    check('65 wishes at the end', 100, rules, [2] * 35 + [1] * 65, choice)
    check('65 wishes, the last alone', 100, rules, [1] * 64 + [2] * 35 + [0], choice)
    check('66 wishes', 100, rules, [1] * 66 + [2] * 34, choice)
    check('64 wishes and a bad byte', 100, rules, [1] * 64 + [2] * 35 + [3], choice)
    check('a bad byte before 65 wishes', 100, rules, [2, 3] + [1] * 65 + [2] * 33, choice)
    check('65 wishes before a bad byte', 100, rules, [1] * 65 + [3] + [2] * 34, choice)
    check('256 free settings', 256, rules, [2] * 256, [1] * 256)


def bytes_and_lengths():
    rules, row, choice = [1, 0], [0, 1, 2, 1], [1, 1, 0, 0]
    for byte in (3, 4, 128, 254, 255):
        check('a wish byte of %d, first' % byte, 4, rules, [byte] + row[1:], choice)
        check('a wish byte of %d, last' % byte, 4, rules, row[:-1] + [byte], choice)
    for byte in (2, 3, 128, 254, 255):
        check('a choice byte of %d, first' % byte, 4, rules, row, [byte] + choice[1:])
        check('a choice byte of %d, last' % byte, 4, rules, row, choice[:-1] + [byte])
    check('two bad bytes in the row', 4, rules, [0, 3, 255, 1], choice)
    check('two bad bytes in the choice', 4, rules, row, [0, 2, 255, 1])
    rows = (('a row', row), ('a short row', row[:-1]), ('a long row', row + [2]), ('an empty row', []))
    choices = (
        ('a choice', choice),
        ('a short choice', choice[:-1]),
        ('a long choice', choice + [0]),
        ('an empty choice', []),
    )
    for (first, row_), (second, choice_) in itertools.product(rows, choices):
        check('%s and %s' % (first, second), 4, rules, row_, choice_)
    check('a bad byte past the row', 4, rules, row + [3], choice)
    check('a bad byte past the choice', 4, rules, row, choice + [2])
    check('a bad byte in a short choice', 4, rules, row, [0, 2])


FAULTS = ('n', 'rules', 'wishes', 'choice', 'row length', 'choice length', 'size')


def faults(*present):
    n = 641 if 'n' in present else 4
    rules = ([-1, 2, 0] + [0] * 4096 if 'size' in present else [-1, 2, 0]) + [1, 4, -3, 0]
    if 'rules' in present:
        rules[-2] = 1000
    row, choice = [2] * n, [1] * n
    if 'wishes' in present:
        row[1] = 3
    if 'choice' in present:
        choice[2] = 2
    if 'row length' in present:
        row.append(2)
    if 'choice length' in present:
        choice.append(0)
    check('faults: %s' % (', '.join(present) or 'none'), n, rules, row, choice)


def orders():
    """Every fault alone, every pair at once, and all of them."""
    faults()
    for fault in FAULTS:
        faults(fault)
    for pair in itertools.combinations(FAULTS, 2):
        faults(*pair)
    faults(*FAULTS)
    for n in (257, 640):
        check('n = %d, a long row' % n, n, [], [2] * (n + 1), [1] * n)
        check('n = %d, a bad choice' % n, n, [], [2] * n, [1] * (n - 1) + [2])


def rules_met(rules, choice):
    """How many rules of a list have an entry that holds."""
    met, holds = 0, False
    for entry in rules:
        if entry == 0:
            met, holds = met + holds, False
        else:
            holds = holds or choice[abs(entry) - 1] == (entry > 0)
    return met


def random_problems(draw, count):
    """Small problems. Every other choice is the best of all in its problem, so that many are met."""
    for index in range(count):
        n = draw.randint(1, 8)
        rules = []
        for _ in range(draw.randint(0, 12)):
            settings = draw.sample(range(1, n + 1), min(n, draw.choice((1, 2, 2, 3, 3, 3, 4, 5))))
            rules += [draw.choice((-1, 1)) * setting for setting in settings] + [0]
        if draw.random() < 0.05:
            rules.insert(draw.choice([i for i in range(len(rules) + 1) if i == 0 or rules[i - 1] == 0]), 0)
        row = [draw.choice((0, 1, 2)) for _ in range(n)]
        choice = tuple(draw.choice((0, 1)) for _ in range(n))
        if index % 2:
            choice = max(
                itertools.product((0, 1), repeat=n),
                key=lambda values: (
                    rules_met(rules, values),
                    -sum(wish != 2 and wish != value for wish, value in zip(row, values)),
                ),
            )
        check('random %d' % index, n, rules, row, choice)


def malformed():
    """Lines that are no case: the program says so, and goes on with the next line. The modules have those of their
    calls."""
    for text, line in (
        ('an empty line', ''),
        ('a blank', ' '),
        ('no such call', 'chec 1 0 1 2 1 1'),
        ('another call', 'checks 1 0 1 2 1 1'),
        ('nothing but the call', 'check'),
        ('no lists', 'check 1'),
        ('no choice', 'check 1 0 1 2'),
        ('no elements', 'check 1 0 1 2 1'),
        ('a value too many', 'check 1 0 1 2 1 1 1'),
        ('a blank before', ' check 1 0 1 2 1 1'),
        ('a blank after', 'check 1 0 1 2 1 1 '),
        ('two blanks', 'check  1 0 1 2 1 1'),
        ('a letter', 'check 1 0 1 x 1 1'),
        ('a letter after a number', 'check 1 0 1 2 1 1x'),
        ('a negative n', 'check -1 0 1 2 1 1'),
        ('n of 65 bits', 'check 18446744073709551616 0 1 2 1 1'),
        ('n of 66 bits', 'check 36893488147419103232 0 1 2 1 1'),
        ('a minus alone', 'check 1 2 - 0 1 2 1 1'),
        ('an entry of 33 bits', 'check 1 2 2147483648 0 1 2 1 1'),
        ('a negative entry of 33 bits', 'check 1 2 -2147483649 0 1 2 1 1'),
        ('a byte of 256', 'check 1 0 1 256 1 1'),
        ('a negative byte', 'check 1 0 1 -1 1 1'),
        ('a list that is too long', 'check 1 40961 0 @ 40960 1 1 2 1 1'),
        ('a row that is too long', 'check 1 0 1025 2 @ 1024 1 1 1'),
        ('a repeat past the end', 'check 1 3 0 @ 3 1 1 2 1 1'),
        ('a repeat that ends early', 'check 1 3 0 @ 1 1 1 2 1 1'),
        ('a repeat with nothing before it', 'check 1 3 @ 2 1 0 1 2 1 1'),
        ('a repeat from too far back', 'check 1 3 0 @ 2 2 1 2 1 1'),
        ('a repeat of itself', 'check 1 3 0 @ 2 0 1 2 1 1'),
        ('a repeat without its numbers', 'check 1 3 0 @'),
        *(no_case for module in MODULES for no_case in getattr(module, 'NO_CASES', ())),
    ):
        label(NO_CASE + text)
        lines.append(line)


def misjudged(answers):
    """The labels of lines that are meant to be no case and are not told to be none, or the other way round."""
    text, labels = '', []
    for line in answers:
        if line.startswith('#'):
            text = line
        elif (line == MALFORMED) != text.startswith('# ' + NO_CASE):
            labels.append(text)
    return labels


def main():
    documented()
    numbers_of_settings()
    lists()
    sizes()
    wishes()
    bytes_and_lengths()
    orders()
    random_problems(random.Random(1), 200)
    for seed, module in enumerate(MODULES, start=2):
        module.add(random.Random(seed))
    malformed()
    cases = '\n'.join(lines) + '\n'
    answers = all_answers(cases)
    assert not misjudged(answers.splitlines()), misjudged(answers.splitlines())
    (CRATE / 'stdin').write_text(cases, encoding='ascii')
    (CRATE / 'stdout').write_text(answers, encoding='ascii')


if __name__ == '__main__':
    main()
