"""What the reference answers to a case, for cases whose values depend on it: the room that a call needs, a
file, the nearest count."""

import subprocess
import pathlib
import sys

sys.path.append(str(pathlib.Path(__file__).resolve().parents[1]))
import reference

ANSWERS = reference.program('answers', 'answers')
PIPE = subprocess.PIPE
program = subprocess.Popen([ANSWERS, 'whole'], stdin=PIPE, stdout=PIPE, text=True, encoding='ascii')


def ask(case):
    """The lines of the answer. A label comes back as it is, so one marks the end."""
    program.stdin.write(case + '\n#\n')
    program.stdin.flush()
    return [line.rstrip('\n') for line in iter(program.stdout.readline, '#\n')]


def needed(case):
    """The length of the output that a call asks for, if its last list is empty: "lent output too short | 15 |
    .. length needed"; None where it is refused for another cause."""
    words = ask(case)[0].split()
    if words[0] != 'refused':
        return 0
    return int(words[3]) if words[1] == '15' else None


def written(case):
    """What a writer leaves, asked for with the very room that it needs; the case lacks the buffer."""
    room = needed(case + ' 0')
    held = ask('%s %d 0 @ %d 1' % (case, room, room - 1))[1]
    return bytes(map(int, held.split()[1:]))


def all_answers(cases):
    """What the program `cases` is to write for its whole input."""
    return subprocess.run([ANSWERS], input=cases, stdout=PIPE, text=True, encoding='ascii', check=True).stdout
