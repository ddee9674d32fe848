"""Faults: requests on damaged tables, and check-up's verdict against the independent test of soundness.

Run: python3 tests/faults.py DRIVER [ARGUMENT ..]     (DRIVER is tests/c/driver.c linked with the library)

The campaigns run in the driver, which checks there what must hold on any table, and counts the accesses that the machine makes to the table. The
verdicts are compared here. Prints one summary line; on a disagreement the seed and the cells, and exit 1.
"""

import itertools
import random
import re
import sys

from damage import WIDTH, flipped, some_damage, some_place
from histories import some_live
from model import M_MOST
from play import cost_bounds
from soundness import sound, table_of
from talk import Talk, Wrong, answers_of, cells_text

CAMPAIGNS = [(m, 100 + m, 60000) for m in range(4)] + [(m, 200 + m, 4000) for m in range(4, M_MOST)] + [(M_MOST, 300, 20000)]
ONE_IN = 50   # of the requests that touch each cell is watched where m is above 3
WATCHED = ('take', 'give', 'which')


def run_campaigns(command, campaigns, watched):
    """Random requests on damaged tables, with their accesses counted or not; returns how many requests and flips there were, and the most accesses."""
    requests = flips = 0
    for m, seed, count in campaigns:
        watch = (1 if m < 4 else ONE_IN) if watched else 0
        got, trouble = answers_of(command, [f'watch {watch}', f'campaign {seed} {count} {m}'])
        if trouble or len(got) != 1:
            raise Wrong(f'campaign {seed} {count} {m}: {trouble or got}')
        line = got[0]
        counts = {word: int(number) for word, number in re.findall(r'(\S+) ([0-9]+)', line)}
        kinds = [counts[f'refused-{number}'] for number in (1, 2, 3, 4)]
        if counts['requests'] < count or not all(kinds) or not counts['flips'] or not counts['answered']:
            raise Wrong(f'campaign {seed} {count} {m} tried too little: {line}')
        if watched and [counts[f'most-{word}'] for word in WATCHED] != list(cost_bounds(m)):
            raise Wrong(f'campaign {seed} {count} {m}: the most accesses are not the bounds {cost_bounds(m)}, which some request reaches: {line}')
        requests += counts['requests']
        flips += counts['flips']
    return requests, flips, [counts[f'most-{word}'] for word in WATCHED] if watched else []


class Verdicts:
    """Tables of one m, for each of which check-up's verdict is compared with the independent one."""

    def __init__(self, m):
        self.m = m
        self.talk = Talk()
        self.talk.new_table(m)
        self.tried = [0, 0]   # unsound, sound

    def judge(self, note, cells, places=()):
        """Check-up of the cells that the driver has now: these, with the bits of these places turned over."""
        verdict = int(sound(flipped(cells, *places), self.m))
        self.tried[verdict] += 1
        self.talk.ask(lambda: f'{note}, m {self.m}, cells {cells_text(cells[:96])}{" .." * (len(cells) > 96)},'
                              f' flipped (cell, bit) {places}', ('checkup',), (0, verdict))

    def judge_cells(self, note, cells):
        """Check-up of these cells."""
        self.talk.set_cells(0, cells)
        self.judge(note, cells)

    def judge_flips(self, note, cells, *places):
        """Check-up of the cells that the driver has now with these bits turned over; afterwards they are turned back."""
        for place in places:
            self.talk.say('flip', *place)
        self.judge(note, cells, places)
        for place in places:
            self.talk.say('flip', *place)


def every_place(cells):
    """Every bit of every cell."""
    return itertools.product(range(len(cells)), range(WIDTH))


def small_tables(m, tables, damaged):
    """Sound tables with every single flip and some double flips, and damaged tables; returns the two counts and the flips."""
    verdicts = Verdicts(m)
    flips = 0
    for seed in range(tables):
        rng = random.Random(seed)
        cells = table_of(some_live(rng, m), m)
        note = f'seed {seed}'
        verdicts.judge_cells(note, cells)
        for place in every_place(cells):
            verdicts.judge_flips(note, cells, place)
        for _ in range(400):
            verdicts.judge_flips(note, cells, some_place(rng, cells), some_place(rng, cells))
        flips += len(cells) * WIDTH + 2 * 400
    for seed in range(damaged):
        verdicts.judge_cells(f'damage seed {seed}', some_damage(random.Random(seed), m))
    return verdicts, flips


def pairs_of_flips(tables):
    """m = 0: sound tables with every pair of flips."""
    verdicts = Verdicts(0)
    flips = 0
    for seed in range(tables):
        cells = table_of(some_live(random.Random(seed), 0), 0)
        verdicts.judge_cells(f'seed {seed}', cells)
        for pair in itertools.combinations(every_place(cells), 2):
            verdicts.judge_flips(f'seed {seed}', cells, *pair)
            flips += 2
    return verdicts, flips


def large_tables(m, tables, count):
    """Sound tables of a larger arena with some flips, and damaged tables."""
    verdicts = Verdicts(m)
    for seed in range(tables):
        rng = random.Random(seed)
        cells = table_of(some_live(rng, m), m)
        verdicts.judge_cells(f'seed {seed}', cells)
        for _ in range(count):
            verdicts.judge_flips(f'seed {seed}', cells, some_place(rng, cells))
        verdicts.judge_cells(f'damage seed {seed}', some_damage(rng, m))
    return verdicts, tables * count


def all_verdicts():
    """All comparisons, made one after the other."""
    for m, tables in ((0, 120), (1, 80), (2, 50), (3, 40)):
        yield small_tables(m, tables, 4000)
    yield pairs_of_flips(6)
    for m in range(4, M_MOST):
        yield large_tables(m, 8, 12)
    yield large_tables(M_MOST, 4, 12)


def main(command):
    try:
        requests, flips, most = run_campaigns(command, CAMPAIGNS, watched=True)
        tried = [0, 0]
        for verdicts, more in all_verdicts():
            requests += verdicts.talk.compare(command)
            flips += more
            tried = [a + b for a, b in zip(tried, verdicts.tried)]
    except Wrong as wrong:
        print(f'faults: {wrong}')
        return 1
    accesses = ', '.join(f'{word} {number}' for word, number in zip(WATCHED, most))
    print(f'faults: {requests} requests, {flips} flips; accesses that the machine made at m = {M_MOST}, at most: {accesses};'
          f' check-up agrees on {tried[1]} sound and {tried[0]} other tables')
    return 0


if __name__ == '__main__':
    if len(sys.argv) < 2:
        sys.exit(__doc__)
    sys.exit(main(sys.argv[1:]))
