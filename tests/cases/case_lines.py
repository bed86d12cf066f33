"""The lines of the cases, and a function for each call that adds one: the line of that name below."""

from asked import needed

lines = []

# Elements of the buffers that are lent: no call writes any of them.
NUMBERS = (901, -902, 2**31 - 1, -(2**31), 905, -906, 907)
BYTES = (201, 202, 203, 204, 205, 206, 207)


def label(text):
    lines.append('# ' + text)


def encode(elements):
    """A list with its length, and the longest repeats in the short form."""
    words, i = [str(len(elements))], 0
    while i < len(elements):
        count, back = 0, 0
        for period in range(1, min(i, 32) + 1):
            run = 0
            while i + run < len(elements) and elements[i + run] == elements[i + run - period]:
                run += 1
            if run > count:
                count, back = run, period
        if count > 8:
            words += ['@', str(count), str(back)]
            i += count
        else:
            words.append(str(elements[i]))
            i += 1
    return ' '.join(words)


def pattern(elements, length):
    """A buffer of some length."""
    return [elements[index % len(elements)] for index in range(length)]


def case(name, *values):
    """The line of a call: a number as it is, a list with its length."""
    return ' '.join([name] + [str(value) if isinstance(value, int) else encode(value) for value in values])


def call(name, heading, elements=None):
    """What adds a case of a call, of a label and the values in the call's order. Where the call fills a buffer, of such
    elements, the last of them is its length."""

    def add(text, *values):
        if elements:
            values = [*values[:-1], pattern(elements, values[-1])]
        label(heading + text)
        lines.append(case(name, *values))

    return add


def reader(name, heading, elements):
    """The same of a file's reader, by default with a buffer that has room to spare."""
    add = call(name, heading, elements)

    def read(text, file, room=None):
        if room is None:
            length = needed(case(name, file, []))
            room = 6 if length is None else length + 3
        add(text, file, room)

    return read


check = call('check', '')
read_rules = reader('read_rules', 'read rules: ', NUMBERS)
write_rules = call('write_rules', 'write rules: ', BYTES)
read_wishes = reader('read_wishes', 'read wishes: ', BYTES)
write_wishes = call('write_wishes', 'write wishes: ', BYTES)
write_opb = call('write_opb', 'write OPB: ', BYTES)
search = call('search', 'search: ', BYTES)
plain = call('plain', 'plain: ', BYTES)
nearest = call('nearest', 'nearest: ', BYTES)
rewrite = call('rewrite', 'rewrite: ', NUMBERS)
forks = call('forks', 'forks: ')


def shown(file):
    """A short file for a label."""
    return repr(file)[1:]


def damaged(file):
    """A file with each of its bytes replaced in many ways, left out, and doubled."""
    for at in range(len(file)):
        for byte in b' 0129\t\n\r-+xc\x00\xff':
            if file[at] != byte:
                yield file[:at] + bytes([byte]) + file[at + 1 :]
        yield file[:at] + file[at + 1 :]
        yield file[:at] + file[at : at + 1] + file[at:]
