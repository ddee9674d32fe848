"""Scripts for the player with the answers that the model expects, from fixed seeds.

Run: python3 tests/scripts.py            lists the scripts by name
     python3 tests/scripts.py NAME       prints one, each expected answer as a comment below its line

After a fault (`flip`, or `arena` with no `start` yet) no answer is predicted: only its form is checked, until `start` repairs.
"""

import itertools
import random
import sys
from typing import NamedTuple

from histories import HUGE, MOST, answer, history_to, least_n, some_live, some_n, some_offset, some_request
from model import M_MOST, PAGE, SIZES, Arena, cells_needed, slots_in_page

ANY = 'any answer of the right form'
COST = 'a cost within the bounds'


class Line(NamedTuple):
    text: str        # the line as it stands in the script
    request: tuple   # its words, numbers as numbers
    expected: str    # the answer after the colon, or ANY or COST; None where there is no answer line
    m: int           # the arena's m at this line


def answer_text(request, values):
    """The answer as the player writes it after the colon."""
    refusal, *values = values
    if refusal:
        return f'refusal {refusal}'
    if request[0] in ('start', 'give'):
        return 'done'
    if request[0] == 'checkup':
        return 'sound' if values[0] else 'unsound'
    return ' '.join(map(str, values))


class Script:
    """A script under way: each request is written down with the model's answer."""

    def __init__(self, name, m, rng=None):
        self.name = name
        self.rng = rng or random.Random(name)
        self.lines = []
        self.short = False
        self.set_arena(m)

    def add(self, request, expected, text=None):
        self.lines.append(Line(text or ' '.join(map(str, request)), request, expected, self.arena.m))

    def lent(self, m):
        """How many cells are lent for m: as many as are needed, one less while the table is lent short."""
        return cells_needed(m) - self.short

    def set_arena(self, m):
        """`arena M`: the table holds garbage from here on. Lent short before, it is lent short still."""
        self.arena = Arena(m, self.lent(m))
        self.damaged = True
        self.add(('arena', m), None)

    def lend(self, how, text=None):
        """`table short` or `table whole`: from here on, over every `arena`."""
        self.short = how == 'short'
        self.arena.cells = self.lent(self.arena.m)
        self.add(('table', how), None, text)

    def flip(self, cell, bit):
        """`flip CELL BIT`."""
        self.damaged = True
        self.add(('flip', cell, bit), None)

    def ask(self, *request, text=None):
        """A request; the answer is the model's unless the table is damaged."""
        if self.damaged and request[0] != 'start' and not self.arena.table_refusal():
            self.add(request, ANY, text)
            return None
        values = answer(self.arena, request)
        if request == ('start',) and values == (0,):
            self.damaged = False
        self.add(request, answer_text(request, values), text)
        return values

    def ask_all(self, requests):
        for request in requests:
            self.ask(*request)

    def close(self):
        """What stands at the end of every script: the figures, check-up, the cost. The next script counts on a table lent whole."""
        assert not self.short
        self.ask('figures')
        self.ask('checkup')
        self.add(('cost',), COST)
        return self

    def run(self, count, filling=0.5):
        """So many random requests, some of the returns made a second time."""
        for _ in range(count):
            request = some_request(self.rng, self.arena, filling)
            self.ask(*request)
            if request[0] == 'give' and self.rng.random() < 0.15:
                self.ask(*request)


def started(name, m):
    """A script with a new arena."""
    script = Script(name, m)
    script.ask('start')
    return script


# Small arenas, thoroughly.

def mixed(m, seed):
    """Short runs of everything, some of them filling, some emptying."""
    script = started(f'mixed-m{m}-{seed}', m)
    for filling in script.rng.sample((0.3, 0.5, 0.6, 0.8, 1.0), 3):
        script.run(script.rng.randint(5, 30), filling)
    return script.close()


def sequences(m, length):
    """Every sequence of so many requests from a few that get in each other's way."""
    script = Script(f'sequences-m{m}', m)
    few = (('take', 300), ('take', 512), ('take', 600), ('take', 1025), ('give', 0), ('give', 512), ('give', 1024), ('which', 1100))
    for chosen in itertools.product(few, repeat=length):
        script.ask('start')
        script.ask_all(chosen)
        script.ask('figures')
    return script.close()


def every_offset(m, seed):
    """One set of live blocks; which at every byte and give back at every byte that starts no live block, then every start twice."""
    script = started(f'every-offset-m{m}-{seed}', m)
    live = some_live(script.rng, m)
    while not live:
        live = some_live(script.rng, m)
    script.ask_all(history_to(script.rng, live))
    beyond = script.arena.bytes + 3
    script.ask_all(('which', offset) for offset in range(beyond))
    script.ask_all(('give', offset) for offset in range(beyond) if offset not in live)
    script.ask('figures')
    for offset in script.rng.sample(sorted(live), len(live)):
        script.ask('give', offset)
        script.ask('give', offset)
        script.ask('which', offset)
    return script.close()


def every_n(m, seed):
    """Take of every number of bytes up to the arena's and a little more, each given back; in an empty arena if the seed is 0."""
    script = started(f'every-n-m{m}-{seed}', m)
    if seed:
        script.ask_all(history_to(script.rng, some_live(script.rng, m)))
    for n in range(script.arena.bytes + 3):
        refusal, offset = script.ask('take', n)
        if not refusal:
            script.ask('give', offset)
    return script.close()


# Large and full arenas.

def long_run(m, count):
    """A long run at a large m: filling, emptying, even, filling again."""
    script = started(f'long-m{m}', m)
    for filling in (0.9, 0.3, 0.5, 0.7):
        script.run(count // 4, filling)
    return script.close()


def many_blocks(m, count):
    """A long run of small blocks and blocks of one or two pages, so that very many are live."""
    script = started(f'many-blocks-m{m}', m)
    rng = script.rng
    for filling in (0.95, 0.6, 0.2):
        for _ in range(count // 3):
            if rng.random() < filling:
                script.ask('take', rng.choice((rng.randint(1, 512), rng.randint(1, 512), rng.randint(513, 2 * PAGE))))
            else:
                script.ask(rng.choice(('give', 'give', 'which')), some_offset(rng, script.arena))
    return script.close()


def nearly_full(m, count):
    """Fill the arena until even the least page is refused; then give back a little and take as much, again and again."""
    script = started(f'nearly-full-m{m}', m)
    rng, arena = script.rng, script.arena
    for most in (arena.bytes // 8, arena.bytes // 64, 8 * PAGE, 2 * PAGE, PAGE):
        refusals = 0
        while refusals < 3:
            refusals += script.ask('take', rng.randint(257, max(most, PAGE)))[0] == 3
    for _ in range(count):
        roll = rng.random()
        if roll < 0.35 and arena.live:
            offset = rng.choice(sorted(arena.live))
            size = arena.live[offset]
            script.ask('give', offset)
            if rng.random() < 0.3:
                script.ask('give', offset)
            if rng.random() < 0.5:
                script.ask('take', rng.choice((size, least_n(size), size + 1)))
        elif roll < 0.85:
            script.ask('take', rng.choice((*SIZES, 513, PAGE, PAGE + 1, 2 * PAGE, 4 * PAGE)))
        elif roll < 0.95:
            script.ask('which', some_offset(rng, arena))
        else:
            script.ask('figures' if roll < 0.98 else 'checkup')
    return script.close()


def full_pages(m):
    """For each small size: all slots of all pages, one more, then slots given back high and low and taken again."""
    script = Script(f'full-pages-m{m}', m)
    for size in SIZES:
        script.ask('start')
        slots = slots_in_page(size)
        for _ in range(slots << m):
            script.ask('take', size)
        script.ask('take', size)
        script.ask('figures')
        starts = [page * PAGE + slot * size for page in range(1 << m) for slot in range(slots)]
        for offset in script.rng.sample(starts, min(len(starts), 8)):
            script.ask('give', offset)
        script.ask_all([('take', size)] * 3 + [('take', PAGE), ('figures',)])
        for offset in reversed(starts):
            script.ask('give', offset)
        script.ask('take', PAGE << m)
    return script.close()


# Limits, refusals, the worked run.

def limits(m):
    """Both sides of every limit, in an empty arena and in one with a few live blocks."""
    script = Script(f'limits-m{m}', m)
    whole = PAGE << m
    sizes = [*SIZES, *(PAGE << k for k in range(m + 1))]
    numbers = sorted({0, 1, *HUGE, *(size + d for size in sizes for d in (-1, 0, 1))})
    for occupied in (False, True):
        for n in numbers:
            script.ask('start')
            if occupied:
                script.ask_all((('take', 16), ('take', 600)))
            values = script.ask('take', n)
            offset = values[1]
            script.ask('figures')
            for d in (0, 1, -1):
                script.ask('which', max(offset + d, 0))
            script.ask('which', min(offset + max(n, 1) - 1, MOST))
            script.ask('which', min(offset + n, MOST))
            for place in (offset + 1, whole - 1, whole, whole + 1, whole + offset, offset, offset):
                script.ask('give', place)
    script.ask_all(('give', number) for number in HUGE)
    script.ask_all(('which', number) for number in HUGE)
    return script.close()


def refused_requests(script, numbers):
    """Every request, while all are refused."""
    script.ask_all((('start',), ('figures',), ('checkup',)))
    for number in numbers:
        script.ask_all(((word, number) for word in ('take', 'give', 'which')))


def short_table(m):
    """Refusal 5 before all others, and a table lent whole again is what it was."""
    script = Script(f'short-table-m{m}', m)
    numbers = (0, 1, 16, 512, PAGE << m, (PAGE << m) + 1, *HUGE)
    script.lend('short')
    refused_requests(script, numbers)
    script.lend('whole')
    script.ask('start')
    script.run(12, 0.8)
    for _ in range(2):
        script.lend('short')
        refused_requests(script, numbers)
        script.lend('whole')
        script.ask_all((('figures',), ('checkup',)))
        script.run(6)
    return script.close()


def short_over_arenas(m):
    """A table lent short stays short over every `arena`, until `table whole`; one lent whole stays whole."""
    script = started(f'short-over-arenas-m{m}', m)
    numbers = (0, 1, 512, PAGE << m, (PAGE << m) + 1, MOST)
    for last in (m, 0, M_MOST + 1, m // 2, MOST, m):
        script.lend('short')
        for other in (m // 2, M_MOST + 1, m, last):
            script.set_arena(other)
            refused_requests(script, numbers)
        script.lend('whole')
        if last > M_MOST:
            refused_requests(script, numbers)
            script.set_arena(m)
        script.run(4)
        script.ask('start')
        script.run(12, 0.8)
        script.set_arena(m // 2)
        script.ask('start')
        script.run(12, 0.8)
    return script.close()


def refused_m(seed):
    """Refusal 6 before all others, also with a short table; afterwards a small arena works."""
    script = Script(f'refused-m-{seed}', 13)
    numbers = (0, 1, 1024, PAGE << 13, *HUGE)
    for m in (13, 14, 20, 52, 60, 63, 64, 65, 2**32, 2**32 + 3, 2**63, 2**64 - 12, MOST):
        script.set_arena(m)
        refused_requests(script, numbers)
        script.lend('short')
        refused_requests(script, numbers[:2])
        script.lend('whole')
    script.set_arena(seed)
    script.ask('start')
    script.run(20)
    return script.close()


def worked_run():
    """Document 01, section 6, with the figures after each line."""
    script = started('worked-run', 3)
    for request in ('take 100', 'take 1000', 'take 2000', 'take 100', 'take 4097', 'take 4096', 'take 16', 'give 1024', 'take 16',
                    'take 16', 'give 1040', 'give 1040', 'give 128', 'give 0', 'take 2000', 'give 1024', 'take 1025', 'give 2560',
                    'take 8192', 'take 8193', 'take 0'):
        word, number = request.split()
        script.ask(word, int(number))
        script.ask('figures')
    return script.close()


def wrong_allocators():
    """Document 01, section 7."""
    script = Script('wrong-allocators', 2)
    script.ask_all((('start',), *[('take', 1000)] * 4, ('give', 1024), ('give', 2048), ('take', 2000), ('figures',)))
    script.ask_all((('start',), ('take', 16), ('give', 0), ('take', 4096), ('figures',)))
    script.ask_all((('start',), ('take', 16), ('take', 16), ('give', 16), ('give', 16), ('figures',)))
    script.ask_all((('start',), ('take', 2000), ('take', 2000), ('give', 2560), ('figures',)))
    script.ask_all((('start',), *[('take', 64)] * 32, ('give', 64), ('give', 1088), ('take', 64), ('take', 64)))
    return script.close()


# Twins, faults, the way lines are written.

def twins(m, seed, tail):
    """Two histories that end in one set of live blocks and then share a tail; the answers to the tail are the same."""
    script = Script(f'twins-m{m}-{seed}', m)
    live = some_live(script.rng, m)
    if m > 6:
        live = {start: size for start, size in live.items() if start + size <= 96 * PAGE}
    tails = []
    for _ in range(2):
        script.ask('start')
        script.ask_all(history_to(script.rng, live))
        assert script.arena.live == live
        script.ask('checkup')
        shared = random.Random(seed)
        tails.append([(request, script.ask(*request)) for request in shared_tail(shared, script.arena, tail)])
    assert tails[0] == tails[1]
    return script.close()


def shared_tail(rng, arena, count):
    """Requests that depend on the set of live blocks alone; made one by one as they are served."""
    for _ in range(count):
        yield some_request(rng, arena)


def some_cell(rng, arena):
    """A cell to damage: any, or one that a walk passes to or from the page of a live block (docs/TABLE.md)."""
    pages = 1 << arena.m
    page = rng.choice(sorted(arena.live)) // PAGE if arena.live else 0
    return rng.choice((rng.randrange(3 * pages), (pages + page) >> rng.randint(0, arena.m), 2 * pages + page))


def faults(m, seed):
    """Flip bits of a used table and try all requests; then start, which repairs; then a run that is predicted again."""
    script = started(f'faults-m{m}-{seed}', m)
    rng = script.rng
    script.run(30, 0.8)
    for _ in range(rng.randint(1, 6)):
        for _ in range(rng.choice((1, 1, 2, 3))):
            script.flip(some_cell(rng, script.arena), rng.choice((rng.randrange(64), rng.randrange(24))))
        script.run(12)
        script.ask_all((('take', some_n(rng, script.arena)), ('give', some_offset(rng, script.arena)), ('figures',), ('checkup',)))
    script.ask('start')
    script.ask_all((('figures',), ('checkup',)))
    script.run(15, 0.7)
    return script.close()


def garbage(m):
    """Requests on the garbage that the table holds before start; then start."""
    script = Script(f'garbage-m{m}', m)
    for _ in range(5):
        script.set_arena(m)
        script.run(12)
    script.ask('start')
    script.run(12)
    return script.close()


def blanks(m, tabs):
    """Blanks, comments and empty lines: an answer line has the request with its blanks made single. Tabs are in scripts apart."""
    script = Script(f'tabs-m{m}' if tabs else f'blanks-m{m}', m)
    rng = script.rng
    wide = (' ', '  ', '     ', '\t', ' \t ') if tabs else (' ', '  ', '     ')

    def written(request):
        before = rng.choice(('', *wide))
        after = rng.choice(('', '', *wide, '# comment', ' # take 5', '   #', '#give 0 # which 1'))
        return before + rng.choice(wide).join(map(str, request)) + after

    script.ask('start', text=written(('start',)))
    for _ in range(150):
        if rng.random() < 0.3:
            script.add(('nothing',), None, rng.choice((' ', '    ', '#', '# take 100', '   # start', '#take 1')))
        request = some_request(rng, script.arena)
        script.ask(*request, text=written(request))
    script.lend('short', text='  table    short  # from here on')
    script.ask('take', 1, text='take   1')
    script.lend('whole', text='table  whole#')
    return script.close()


def all_scripts():
    """Every script, small arenas first."""
    yield worked_run()
    yield wrong_allocators()
    for m in range(4):
        yield from (mixed(m, seed) for seed in range(800))
        yield from (every_offset(m, seed) for seed in range(5))
        yield from (every_n(m, seed) for seed in range(3))
        yield from (twins(m, seed, 40) for seed in range(60))
        yield from (faults(m, seed) for seed in range(150))
        yield blanks(m, tabs=False)
        yield blanks(m, tabs=True)
        yield nearly_full(m, 1000)
        yield full_pages(m)
    for m in range(3):
        yield sequences(m, 4)
    for m in range(M_MOST + 1):
        yield from (limits(m), short_table(m), short_over_arenas(m), garbage(m))
    for m in range(4, M_MOST):
        yield from (mixed(m, seed) for seed in range(5))
        yield from (twins(m, seed, 40) for seed in range(2))
        yield from (faults(m, seed) for seed in range(5))
    yield nearly_full(6, 3000)
    yield nearly_full(M_MOST, 4000)
    yield long_run(M_MOST, 6000)
    yield many_blocks(M_MOST, 6000)
    yield from (twins(M_MOST, seed, 100) for seed in range(3))
    yield from (faults(M_MOST, seed) for seed in range(60))
    yield from (refused_m(seed) for seed in (0, 3))


def main(names):
    for script in all_scripts():
        if not names:
            print(script.name, len(script.lines))
        elif script.name in names:
            for line in script.lines:
                print(line.text)
                if line.expected is not None:
                    print(f'#     {line.expected}')


if __name__ == '__main__':
    main(sys.argv[1:])
