"""Talks with the C driver (tests/c/driver.c): commands with the answers that are expected, run in one process and then compared."""

import itertools
import subprocess

from model import cells_needed

SECONDS = 300


class Wrong(Exception):
    """A difference between the driver's answers and what is expected."""


def answers_of(command, lines):
    """The driver's answer lines to these commands, and what went wrong after them, or None."""
    try:
        done = subprocess.run(command, input='\n'.join(lines) + '\n', capture_output=True, text=True, timeout=SECONDS)
    except subprocess.TimeoutExpired:
        return [], f'the driver ran for more than {SECONDS} s'
    got = done.stdout.splitlines()
    if got and got[-1].startswith('wrong:'):
        return got[:-1], got[-1]
    if done.returncode != 0:
        return got, f'the driver ended with {done.returncode}: {done.stderr.strip()}'
    return got, None


def cells_text(cells):
    """Cells as the driver reads and writes them."""
    return ' '.join(f'{cell:x}' for cell in cells)


def difference(expected, answer):
    """Two answers that differ, whole if they are short, else the first word in which they differ (word 1 of a dump is cell 0)."""
    answer = str(answer)
    if len(expected) + len(answer) < 1000:
        return f'expected {expected!r}, got {answer!r}'
    for at, (one, other) in enumerate(itertools.zip_longest(expected.split(), answer.split())):
        if one != other:
            return f'word {at}: expected {one!r}, got {other!r}'
    return 'other blanks than expected'


class Talk:
    """Commands and expected answers about one table after another."""

    def __init__(self):
        self.lines = []
        self.expected = []   # pairs: the answer line, a note for the message (a text or a function that makes it)

    def say(self, *words):
        """A command that has no answer."""
        self.lines.append(' '.join(map(str, words)))

    def ask(self, note, words, values):
        """A command with its answer: its first word and the values."""
        self.say(*words)
        self.expected.append((' '.join(map(str, (words[0], *values))), note))

    def ask_cells(self, note, cells):
        """The cells as they should be now."""
        self.say('dump')
        self.expected.append(('cells ' + cells_text(cells), note))

    def new_table(self, m, cells=None):
        """Memory for m, for as many cells as are needed or as given."""
        self.say('m', m)
        self.say('map', cells_needed(m) if cells is None else cells)

    def set_cells(self, first, cells):
        self.say('set', first, len(cells), cells_text(cells))

    def compare(self, command):
        """Run all commands and return how many answers there were; raise Wrong at the first that differs."""
        got, trouble = answers_of(command, self.lines)
        for at, (expected, note) in enumerate(self.expected):
            answer = got[at] if at < len(got) else trouble
            if answer != expected:
                raise Wrong(f'{note() if callable(note) else note}: {difference(expected, answer)}')
        if trouble or len(got) > len(self.expected):
            raise Wrong(trouble or f'an answer too many: {got[len(self.expected)]!r}')
        return len(got)
