#!/usr/bin/env python3
"""Writes what the program `routes` must write, to crates/routes/stdout, from the solvers' results alone.

In its lines `found, met` says that the checking call finds all rules met, as many wishes broken as the search
says, and no more than the limit. Behind that of nearest stands its choice, which must be the solvers' first nearest
one. Beside each answer of the wish search stands the OPB file of the same limit; the answer must be what the solvers
said of that file."""

import books


def word(found):
    return 'found, met' if found else 'none'


def span(low, below):
    return '%d..%d' % (low, below - 1) if low < below else 'nowhere'


def run_of(values, low, wanted):
    """The place after the wanted values that begin at a place."""
    return next((i for i in range(low, len(values)) if values[i] != wanted), len(values))


def exports(words):
    """For a limit, whether the solvers can satisfy the exported file, and what is printed of that file."""
    if words[0] == 'refused':
        return lambda d: (False, 'OPB refused %s at %s' % (words[1], words[2]))
    *files, _, verdicts, _, _ = words
    shown = {}
    for file, verdict in zip(files, verdicts):
        d, length, total = file.split(':')
        shown[int(d)] = verdict == '+', 'OPB of %s bytes, sum %s' % (length, total)
    return shown.__getitem__


def searches(least, first, limit, exported):
    """Nearest with its choice, and the wish search at some limits, with the exported file of each."""
    parts = ['nearest none' if least is None else 'nearest %d found, met, %s' % (least, first)]
    for d in books.search_limits(least, limit):
        found, file = exported(d)
        parts.append('limit %d %s, %s' % (d, word(found), file))
    return parts


def routes(least, rewritten, count):
    """Both routes at each limit: the first by clasp's number, the second by the verdict on the rewritten rules."""
    first = [least is not None and least <= d for d in range(count)]
    second = [rewritten[min(d, len(rewritten) - 1)] == '+' for d in range(count)]
    agreed = run_of([a == b for a, b in zip(first, second)], 0, True)
    both = [(a, b) for a, b in zip(first, second)]
    none = run_of(both, 0, (False, False))
    found = run_of(both, none, (True, True))
    return 'routes agree %s, none %s, found %s' % (span(0, agreed), span(0, none), span(none, found))


def line(result):
    """The line of a book. Its fields are named at the top of the results."""
    name, n, rules, wishes, limit, count, _, least, first, *others = result.split()
    _, given, rewritten, _, _, _, _, *exported = others
    least = None if least == 'none' else int(least)
    parts = ['%s: settings %s rules %s wishes %s limit %s' % (name, n, rules, wishes, limit)]
    parts += searches(least, first, int(limit), exports(exported))
    parts.append('plain ' + word(given == '+'))
    parts.append(routes(least, rewritten, int(count)))
    return '; '.join(parts) + '\n'


def main():
    results = books.RESULTS.read_text(encoding='ascii').splitlines()
    books.STDOUT.write_text(''.join(line(result) for result in results if result[0] != '#'), encoding='ascii')


if __name__ == '__main__':
    main()
