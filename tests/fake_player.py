#!/usr/bin/env python3
"""A TEST DOUBLE, not the player: a tiny player over the model, only to test play.py itself.

Run: python3 tests/fake_player.py [FILE]

It has no table. Check-up judges the table that the model's live blocks would have, with the flipped bits turned over; all other
requests answer as if no bit had been flipped. The cost is made up.
"""

import re
import sys

from damage import flipped
from histories import answer
from model import Arena, cells_needed
from scripts import answer_text
from soundness import sound, table_of

FORMS = {'arena': 1, 'start': 0, 'take': 1, 'give': 1, 'which': 1, 'figures': 0, 'checkup': 0, 'flip': 2, 'cost': 0}


class Player:
    def __init__(self):
        self.short = False
        self.arena = Arena(0)
        self.flips = []
        self.cost = [0, 0, 0]

    def lent(self, m):
        """How many cells are lent for m. `arena` changes nothing of it, nor of the cost."""
        return cells_needed(m) - self.short

    def serve(self, words):
        """The answer to one request, or None if it has no answer line; ValueError if it is none."""
        if words in (['table', 'short'], ['table', 'whole']):
            self.short = words[1] == 'short'
            self.arena.cells = self.lent(self.arena.m)
            return None
        word, *numbers = words
        if FORMS.get(word) != len(numbers) or not all(re.fullmatch('[0-9]+', n) and int(n) < 2**64 for n in numbers):
            raise ValueError
        numbers = [int(n) for n in numbers]
        if word == 'arena':
            self.arena, self.flips = Arena(numbers[0], self.lent(numbers[0])), []
        elif word == 'flip':
            self.flips.append(numbers)
        elif word == 'cost':
            return ' '.join(map(str, self.cost))
        else:
            return self.request((word, *numbers))
        return None

    def request(self, request):
        values = answer(self.arena, request)
        if request[0] == 'start':
            self.flips = []
        if values == (0, 1) and request[0] == 'checkup' and self.flips:
            cells = flipped(table_of(self.arena.live, self.arena.m), *self.flips)
            values = (0, int(sound(cells, self.arena.m)))
        if request[0] in ('take', 'give', 'which') and values[0] < 5:
            at = ('take', 'give', 'which').index(request[0])
            self.cost[at] = max(self.cost[at], (3, 2, 1)[at] * (self.arena.m + 1))
        return answer_text(request, values)


def main(file):
    player = Player()
    for number, line in enumerate(file, 1):
        words = line.split('#')[0].split()
        if not words:
            continue
        try:
            text = player.serve(words)
        except ValueError:
            sys.exit(f'line {number}: no request: {line.strip()}')
        if text is not None:
            print(f"{' '.join(words)}: {text}")


if __name__ == '__main__':
    main(open(sys.argv[1]) if len(sys.argv) > 1 else sys.stdin)
