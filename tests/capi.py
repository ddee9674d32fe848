"""Compares the calls of the C interface with the model.

Run: python3 tests/capi.py DRIVER [ARGUMENT ..]     (DRIVER is tests/c/driver.c linked with the library)

Runs of requests from fixed seeds; on small arenas the cells after each request are compared too, with the one table that
docs/TABLE.md gives to the model's live blocks. Prints one summary line; on a difference the seed and the request, and exit 1.
"""

import random
import sys

from histories import HUGE, answer, history_to, some_live, some_request
from model import M_MOST, PAGE, Arena, cells_needed
from soundness import table_of
from talk import Talk, Wrong

WORDS_WITH_NUMBER = ('take', 'give', 'which')
WORDS = ('start', 'figures', 'checkup')


class Run:
    """A run of requests on one table, served by the driver and by the model.

    By default the table has as many cells as are needed and then those of `beyond`; `cells` is another number of cells. Until
    start or set_cells they are random.
    """

    def __init__(self, talk, name, m, cells=None, beyond=()):
        self.talk, self.name = talk, name
        self.beyond = list(beyond)
        lent = cells_needed(m) + len(self.beyond) if cells is None else cells
        self.arena = Arena(m, lent)
        talk.new_table(m, lent)
        talk.say('fill', len(talk.lines))
        if self.beyond:
            talk.set_cells(cells_needed(m), self.beyond)

    def lend(self, cells):
        """Tell the calls another number of cells than are mapped."""
        self.arena.cells = cells
        self.talk.say('lend', cells)

    def ask(self, *request):
        live = sorted(self.arena.live.items()) if self.arena.m < 2 else 'not shown'
        self.talk.ask(f'{self.name}, m {self.arena.m}, {request}, live before {live}', request, answer(self.arena, request))

    def ask_cells(self):
        """The needed cells are those of the live blocks, the ones beyond are as they were."""
        self.talk.ask_cells(f'{self.name}, cells', table_of(self.arena.live, self.arena.m) + self.beyond)


def needed_cells(talk):
    """ba_table_cells, also of an m that is refused."""
    for m in (*range(21), 52, 61, 62, 63, 64, 65, *HUGE):
        talk.ask(f'm {m}', ('needed', m), (cells_needed(m),))


def every_request(run, numbers):
    """Every request once, those with a number once for each number."""
    for word in WORDS:
        run.ask(word)
    for number in numbers:
        for word in WORDS_WITH_NUMBER:
            run.ask(word, number)


def short_tables(talk):
    """Refusal 5: a short table is refused, whatever the request, and is not touched."""
    for m in range(M_MOST + 1):
        needed = cells_needed(m)
        for cells in sorted({0, 1, needed // 2, needed - 1}):
            every_request(Run(talk, f'short table of {cells}', m, cells), (0, 1, PAGE << m, (PAGE << m) + 1, *HUGE))
        used = Run(talk, 'used table lent short', m)
        used.ask('start')
        used.ask('take', 100)
        used.lend(needed - 1)
        every_request(used, (0, 1, 16, PAGE << m))
        used.lend(needed)
        used.ask('take', 100)
        used.ask('figures')
        used.ask_cells()


def refused_m(talk):
    """Refusal 6 comes before refusal 5 and all others."""
    for m in (13, 14, 20, 58, 61, 62, 63, 64, 65, *HUGE):
        for cells in (0, 3, cells_needed(M_MOST), 2 * cells_needed(M_MOST)):
            every_request(Run(talk, f'refused m, {cells} cells', m, cells), (0, 1, PAGE << 13, *HUGE))


def random_run(talk, m, seed, count, cells_each):
    """A random run; the cells are compared after each request or at the end."""
    rng = random.Random(f'run-{m}-{seed}')
    run = Run(talk, f'random run, seed {seed}', m, beyond=[rng.getrandbits(64) for _ in range(seed % 3)])
    if seed % 4 == 3:
        run.lend(cells_needed(m) + len(run.beyond) + rng.choice((1, 1000)))
    run.ask('start')
    run.ask_cells()
    for filling in rng.sample((0.3, 0.5, 0.7, 0.9), 3):
        for _ in range(count // 3):
            run.ask(*some_request(rng, run.arena, filling))
            if cells_each:
                run.ask_cells()
    run.ask('checkup')
    run.ask('figures')
    run.ask_cells()


def twins(talk, m, seed):
    """Two histories that end in one set of live blocks leave the same cells, and so does the same tail."""
    rng = random.Random(f'twins-{m}-{seed}')
    live = some_live(rng, m)
    for which in range(2):
        run = Run(talk, f'twin {which}, seed {seed}', m)
        run.ask('start')
        for request in history_to(rng, live):
            run.ask(*request)
        assert run.arena.live == live
        run.ask_cells()
        tail = random.Random(seed)
        for _ in range(30):
            run.ask(*some_request(tail, run.arena))
        run.ask_cells()


def set_tables(talk, m, seed):
    """A sound table that was not made by requests but set cell by cell works as any other."""
    rng = random.Random(f'set-{m}-{seed}')
    run = Run(talk, f'set table, seed {seed}', m)
    run.arena.live = some_live(rng, m)
    talk.set_cells(0, table_of(run.arena.live, m))
    run.ask('checkup')
    run.ask('figures')
    for _ in range(30):
        run.ask(*some_request(rng, run.arena))
    run.ask_cells()


def numbers(talk, m):
    """Numbers at which sums and shifts go wrong, on an empty, a used and a full arena."""
    run = Run(talk, 'numbers', m)
    whole = PAGE << m
    near = sorted({0, 1, *HUGE, *(2**k + d for k in range(4, 64) for d in (-1, 0, 1)), *range(whole - 2, whole + 3)})
    run.ask('start')
    for setting in ('empty', 'used', 'full'):
        if setting == 'used':
            run.ask('take', 16)
        if setting == 'full':
            run.ask('give', 0)
            run.ask('take', whole)
        for number in near:
            for word in WORDS_WITH_NUMBER:
                before = dict(run.arena.live)
                if word == 'take' or number not in before:
                    run.ask(word, number)
                for offset in sorted(set(run.arena.live) - set(before)):
                    run.ask('which', offset)
                    run.ask('give', offset)
    run.ask('figures')
    run.ask_cells()


def general_talk():
    """What is not about one m."""
    talk = Talk()
    needed_cells(talk)
    short_tables(talk)
    refused_m(talk)
    return talk


def talk_about(m, runs, pairs, tables, cells_each):
    """What is about one m: so many random runs, pairs of twins and tables that are set."""
    talk = Talk()
    numbers(talk, m)
    for seed in range(runs):
        random_run(talk, m, seed, 120, cells_each)
    for seed in range(pairs):
        twins(talk, m, seed)
    for seed in range(tables):
        set_tables(talk, m, seed)
    return talk


def all_talks():
    """All comparisons, one driver process each."""
    yield general_talk()
    for m in range(4):
        yield talk_about(m, runs=80, pairs=40, tables=150, cells_each=True)
    for m in range(4, 9):
        yield talk_about(m, runs=5, pairs=2, tables=5, cells_each=False)
    for m in range(9, M_MOST + 1):
        yield talk_about(m, runs=5, pairs=0, tables=4, cells_each=False)
    talk = Talk()
    random_run(talk, M_MOST, 100, 5000, False)
    yield talk


def main(command):
    answers = 0
    try:
        for talk in all_talks():
            answers += talk.compare(command)
    except Wrong as wrong:
        print(f'capi: {wrong}')
        return 1
    print(f'capi: {answers} answers, no difference')
    return 0


if __name__ == '__main__':
    if len(sys.argv) < 2:
        sys.exit(__doc__)
    sys.exit(main(sys.argv[1:]))
