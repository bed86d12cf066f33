#!/usr/bin/env python3
"""Runs solvers that were written elsewhere on the books of crates/routes/stdin, and writes what they answer to
results.txt. It stops where two of them disagree.

clasp gets the rules and the wishes as a pseudo-Boolean problem and gives the least number of broken wishes. With this
number as the limit it then gives the first nearest choice: it is asked for a choice with the settings before one as
they are known and this one off, for each setting in turn. cadical confirms that choice on the rewritten rules.
cadical and minisat get the given rule file, and the rewritten one for each limit from 0 to the number of wishes:
above that it is the same file. The reference of tests/interface rewrites. clasp and Sat4j get the very bytes that the
program `opb` of this repository prints (`rt run -- --version` in crates/opb builds it), for the limits at which
`routes` exports the book; the reference must print the same.
A book's rule file may repeat entries and have both senses of a setting in a rule, and the exported lines have the
latter too. PROBES says how the solvers must read such files, and is tried first.
Debian's packages clasp, cadical, minisat and sat4j have the four programs."""

import pathlib
import subprocess
import sys
import tempfile

sys.path.append(str(pathlib.Path(__file__).resolve().parents[1]))
import books
import reference

REWRITE, EXPORT = (reference.program('reference', name) for name in ('rewrite', 'opb'))
OPB = books.ROOT / 'crates' / 'opb' / 'out' / 'opb'
SATISFIABLE, UNSATISFIABLE = '+', '-'

# With which words each solver is run on a file.
COMMANDS = {
    'clasp': ['clasp', '--quiet=1,0'],
    'cadical': ['cadical', '-q', '-n'],
    'minisat': ['minisat', '-verb=0'],
    'sat4j': ['java', '-jar', '/usr/share/java/org.ow2.sat4j.pb.jar'],
}

# The exit statuses of the SAT competitions; clasp has 30 where it sees besides that the choice is the only one.
VERDICTS = {10: SATISFIABLE, 20: UNSATISFIABLE, 30: SATISFIABLE}

# A clause that has a literal twice asks what it asks without the second, and one with both senses of a variable asks
# nothing. In a line of OPB the terms of a variable are summed: x1 - x1 is 0, and x1 + x1 can be 2.
PROBES = {
    ('cadical', 'minisat'): [
        (b'p cnf 1 1\n1 -1 0\n', SATISFIABLE),
        (b'p cnf 1 2\n1 1 0\n-1 -1 0\n', UNSATISFIABLE),
        (b'p cnf 2 3\n1 -1 2 0\n-2 -2 0\n1 2 1 0\n', SATISFIABLE),
        (b'p cnf 2 4\n1 -1 2 0\n-2 -2 0\n1 2 1 0\n2 -1 -1 0\n', UNSATISFIABLE),
    ],
    ('clasp', 'sat4j'): [
        (b'* #variable= 1 #constraint= 1\n+1 x1 -1 x1 >= 0 ;\n', SATISFIABLE),
        (b'* #variable= 1 #constraint= 1\n+1 x1 -1 x1 >= 1 ;\n', UNSATISFIABLE),
        (b'* #variable= 1 #constraint= 1\n+1 x1 +1 x1 >= 2 ;\n', SATISFIABLE),
        (b'* #variable= 1 #constraint= 1\n+1 x1 +1 ~x1 >= 1 ;\n', SATISFIABLE),
        (b'* #variable= 1 #constraint= 1\n+1 x1 +1 ~x1 >= 2 ;\n', UNSATISFIABLE),
        (b'* #variable= 2 #constraint= 2\n+1 x1 -1 x1 -1 x2 >= -1 ;\n+1 x2 >= 1 ;\n', SATISFIABLE),
        (b'* #variable= 2 #constraint= 2\n+1 x1 -1 x1 -1 x2 >= 0 ;\n+1 x2 >= 1 ;\n', UNSATISFIABLE),
    ],
}


def fail(book, *words):
    sys.exit('%s: %s' % (book.name, ' '.join(map(str, words))))


def total(entries):
    return ' '.join('+1 %sx%d' % ('~' if entry < 0 else '', abs(entry)) for entry in entries)


def kept(wishes):
    """The entries that keep the wishes."""
    return [setting if mark else -setting for setting, mark in sorted(wishes.items())]


def pseudo_boolean(n, rules, lines, least=()):
    """A problem in the format OPB: each rule a sum of at least 1, further lines, and entries of which the fewest are to
    hold. An entry that stands twice in a rule stands twice in the sum. An empty rule is a sum that cannot be met."""
    text = ['* #variable= %d #constraint= %d' % (n, len(rules) + len(lines))]
    text += ['min: %s ;' % total(least)] if least else []
    text += ['%s >= 1 ;' % total(rule) if rule else '+1 x1 >= 2 ;' for rule in rules]
    return ''.join(line + '\n' for line in [*text, *lines]).encode('ascii')


def run(solver, folder, content):
    """A solver on a file."""
    path = folder / 'problem'
    path.write_bytes(content)
    return subprocess.run([*COMMANDS[solver], path], capture_output=True, text=True)


def least_broken(book, folder, n, rules, wishes):
    """clasp's answer: a number, or None where the rules cannot be met."""
    breaking = [-entry for entry in kept(wishes)]
    result = run('clasp', folder, pseudo_boolean(n, rules, [], breaking))
    lines = result.stdout.splitlines()
    if 's UNSATISFIABLE' in lines:
        return None
    if not wishes and 's SATISFIABLE' in lines:
        return 0
    if 's OPTIMUM FOUND' not in lines:
        fail(book, 'clasp gives no optimum:', result.stdout, result.stderr)
    return int([line for line in lines if line.startswith('o ')][-1].split()[1])


def choice_of(book, folder, n, content):
    """clasp's choice, an entry for each setting, or None where it says that there is none."""
    result = run('clasp', folder, content)
    if VERDICTS.get(result.returncode) == UNSATISFIABLE:
        return None
    lines = [line.split() for line in result.stdout.splitlines()]
    choice = [int(entry.replace('x', '')) for line in lines if line and line[0] == 'v' for entry in line[1:]]
    if [abs(entry) for entry in choice] != list(range(1, n + 1)):
        fail(book, 'clasp gives no choice:', result.stdout, result.stderr)
    return choice


def first_nearest(book, folder, n, rules, wishes, least):
    """The first choice that meets the rules and breaks no more than the least number of wishes, off before on, compared
    from setting 1 upward. A setting that the choice at hand has off needs no call."""
    limit = ['%s >= %d ;' % (total(kept(wishes)), len(wishes) - least)] if wishes else []
    within = lambda *fixed: choice_of(book, folder, n, pseudo_boolean(n, rules + [[entry] for entry in fixed], limit))
    choice = within()
    if choice is None:
        fail(book, 'clasp gives', least, 'and no choice within it')
    for i in range(n):
        if choice[i] > 0:
            choice = within(*choice[:i], -choice[i]) or choice
    return choice


def verdict(book, solver, folder, content):
    """Whether a solver says that a file can be satisfied."""
    result = run(solver, folder, content)
    if result.returncode not in VERDICTS:
        fail(book, solver, 'gives no verdict:', result.stdout, result.stderr)
    return VERDICTS[result.returncode]


def verdicts(book, solver, folder, files):
    return ''.join(verdict(book, solver, folder, file) for file in files)


def probe(folder):
    """Stops where a solver does not read repeated and opposite entries as it must."""
    for solvers, files in PROBES.items():
        for solver in solvers:
            for file, right in files:
                found = verdict(books.Book('probe', 0, b'', b''), solver, folder, file)
                if found != right:
                    sys.exit('%s says %s of %r' % (solver, found, file))


def by_least(least, limits):
    """The verdicts that the least number of broken wishes gives for some limits."""
    return ''.join(UNSATISFIABLE if least is None or least > d else SATISFIABLE for d in limits)


def printed(program, book, folder, n, wishes, d):
    """What a program prints for a book with a limit."""
    (folder / 'rules.cnf').write_bytes(book.rule_file)
    (folder / 'wish.txt').write_bytes(books.wish_file(n, wishes, d))
    return subprocess.run([program], cwd=folder, stdout=subprocess.PIPE, check=True).stdout


def rewritten_files(book, folder, n, wishes):
    """The rewritten rules, for each limit from 0 to the number of wishes."""
    files = [printed(REWRITE, book, folder, n, wishes, d) for d in range(len(wishes) + 1)]
    if not all(file.startswith(b'p cnf') for file in files):
        fail(book, 'rewriting gives', *files)
    return files


def rewritten(book, folder, files, least):
    """cadical's and minisat's verdicts on the given rules and on the rewritten ones."""
    limits, words = range(len(files)), []
    for solver in ('cadical', 'minisat'):
        given, found = verdict(book, solver, folder, book.rule_file), verdicts(book, solver, folder, files)
        if given != (UNSATISFIABLE if least is None else SATISFIABLE) or found != by_least(least, limits):
            fail(book, 'clasp', least, 'and', solver, given, found, 'disagree')
        words += [solver, given, found]
    return words


def with_singles(file, entries):
    """A rule file in the writer's form with further rules of one entry each."""
    head, rules = file.split(b'\n', 1)
    n, count = map(int, head.split()[2:])
    singles = b''.join(b'%d 0\n' % entry for entry in entries)
    return b'p cnf %d %d\n' % (n, count + len(entries)) + rules + singles


def confirm(book, folder, file, choice):
    """Stops where cadical says that the choice does not meet the rules of a file, or that one before it does: one with
    a setting off that the choice has on, and all settings before that the same."""
    before = [[*choice[: entry - 1], -entry] for entry in choice if entry > 0]
    found = verdicts(book, 'cadical', folder, [with_singles(file, entries) for entries in [choice, *before]])
    if found != SATISFIABLE + UNSATISFIABLE * len(before):
        fail(book, 'clasp gives the first choice', *choice, 'and cadical', found, 'on it and those before it')


def nearest(book, folder, n, rules, wishes, least, files):
    """The least number of broken wishes and the word of the first choice that breaks so few, 0 for off and 1 for on."""
    if least is None:
        return ['none', 'none']
    choice = first_nearest(book, folder, n, rules, wishes, least)
    confirm(book, folder, files[least], choice)
    return [least, ''.join('1' if entry > 0 else '0' for entry in choice)]


def empty_place(rules):
    """The place in the rule list of the first empty rule's closing zero, None where no rule is empty. In the list an
    equal entry is stored once."""
    lengths = [len(set(rule)) for rule in rules]
    return sum(length + 1 for length in lengths[: lengths.index(0)]) if 0 in lengths else None


def exported(book, folder, n, rules, wishes, least, limit):
    """The exported files, and clasp's and Sat4j's verdicts on them. An empty rule is refused: "16, a rule without
    entries, place the first such rule's closing zero"."""
    limits = list(dict.fromkeys(books.search_limits(least, limit)))
    files = [printed(OPB, book, folder, n, wishes, d) for d in limits]
    if files != [printed(EXPORT, book, folder, n, wishes, d) for d in limits]:
        fail(book, 'is exported otherwise by the reference, at one of the limits', *limits)
    place = empty_place(rules)
    if place is not None:
        if any(file != b'16 %d\n' % place for file in files):
            fail(book, 'has an empty rule at', place, 'and the export gives', *files)
        return ['opb', 'refused', 16, place]
    words = ['opb', *('%d:%d:%d' % (d, len(file), books.sum_of(file)) for d, file in zip(limits, files))]
    for solver in ('clasp', 'sat4j'):
        found = verdicts(book, solver, folder, files)
        if found != by_least(least, limits):
            fail(book, 'clasp', least, 'and', solver, 'on the exported files', *limits, found, 'disagree')
        words += [solver, found]
    return words


def solved(book, folder):
    """The words of a book's line."""
    n, rules = books.parse_rules(book.rule_file)
    m, wishes, limit = books.parse_wishes(book.wish_file)
    if n != m:
        fail(book, 'its two files differ in the number of settings')
    least, files = least_broken(book, folder, n, rules, wishes), rewritten_files(book, folder, n, wishes)
    words = [book.name, n, len(rules), len(wishes), limit, book.limits]
    words += ['clasp', *nearest(book, folder, n, rules, wishes, least, files)]
    words += rewritten(book, folder, files, least)
    words += exported(book, folder, n, rules, wishes, least, limit)
    return list(map(str, words))


def compare_twins(results):
    """Stops where a book and its twin, whose rules the same choices meet, are answered differently."""
    answers = {name: (least, first) for name, _, _, _, _, _, _, least, first, *_ in results}
    for name in answers:
        if name.endswith(books.TWIN) and answers[name] != answers[name.removesuffix(books.TWIN)]:
            sys.exit('%s is answered otherwise than its twin' % name)


def version(package):
    words = ['dpkg-query', '-W', '-f=${Package} ${Version}', package]
    return subprocess.run(words, capture_output=True, text=True, check=True).stdout


def main():
    if not OPB.exists():
        sys.exit('no %s: run `rt run -- --version` in crates/opb first' % OPB)
    lines = [
        '# What solvers from elsewhere answer on the rule books of crates/routes/stdin. solve.py writes this file.',
        '# The solvers are the Debian packages %s.' % ', '.join(map(version, COMMANDS)),
        '# A line: the book, its settings, rules, wishes, limit, and the number of limits for both routes; the least',
        '# number of broken wishes by clasp, or none, and the first choice that breaks so few, by clasp and confirmed',
        '# by cadical, or none: a digit for each setting from 1 upward, 0 for off and 1 for on, compared in this',
        '# order; then, by cadical and by minisat, whether the given rules can be met (+) or not (-), and the same of',
        '# the rewritten rules for each limit from 0 to the number of wishes; then the OPB files that the program',
        '# `opb` prints, LIMIT:LENGTH:SUM each, and by clasp and by sat4j whether each of them can be satisfied; or',
        '# the number and the place of their refusal.',
    ]
    with tempfile.TemporaryDirectory() as folder:
        probe(pathlib.Path(folder))
        results = [solved(book, pathlib.Path(folder)) for book in books.read()]
    compare_twins(results)
    lines += [' '.join(result) for result in results]
    books.RESULTS.write_text(''.join(line + '\n' for line in lines), encoding='ascii')


if __name__ == '__main__':
    main()
