"""A test of the tests: doubles of the player and of the library with one deliberate fault each. Every fault must be caught.

Run: python3 tests/caught.py [-v]        (needs a C compiler: $CC or cc; -v shows what each fault is caught by)

The doubles as they stand (fake_player.py, c/fake.c) must pass. A fault is a piece of their text that is replaced.
"""

import os
import pathlib
import platform
import shutil
import subprocess
import sys
import tempfile

import capi
import faults
import play
import scripts
import talk
from model import M_MOST

HERE = pathlib.Path(__file__).resolve().parent
FEW_BAD_LINES = ('jump', 'take', 'take 18446744073709551616', 'take x', 'take -1', 'take 1 2')
SECONDS = 3   # of processor time that one command of the driver may take here

# What is wrong, the text, the text in its place.
MODEL_FAULTS = (
    ('neighbours that are not buddies', 'range(0, len(free), pages)', 'range(0, len(free) - pages + 1)'),
    ('the highest run', 'in range(0, len(free), pages)', 'in reversed(range(0, len(free), pages))'),
    ('the highest page first', 'if held == size}):', 'if held == size}, reverse=True):'),
    ('a second return is accepted', '            return (4,)\n', '            return (0,)\n'),
    ('an offset is rounded down',
     '        if offset not in self.live:',
     '        offset = self.which(offset)[1]\n        if offset not in self.live:'),
    ('512 is no small block', 'if n <= size:', 'if n < min(size, 512):'),
    ('sizes are exclusive', 'if n <= size:', 'if n < size:'),
    ('the whole arena is too much', 'if n > self.bytes:', 'if n >= self.bytes:'),
    ('too much is refused as full', 'return (2, 0)', 'return (3, 0)'),
    ('nothing is refused as too much', 'return (1, 0)', 'return (2, 0)'),
    ('12 is too much for m', 'if self.m > M_MOST:', 'if self.m >= M_MOST:'),
    ('m is taken modulo 2^32', 'self.m = m', 'self.m = m % 2**32'),
    ('a block ends one byte late', 'if start <= offset < start + size:', 'if start <= offset <= start + size:'),
    ('offsets are taken modulo 2^32',
     '        if offset not in self.live:',
     '        offset %= 2**32\n        if offset not in self.live:'),
    ('live is what is held', 'return (0, live, held, room)', 'return (0, held, held, room)'),
    ('room is rounded down', 'for k in range(self.m + 1):\n            if self', 'for k in range(self.m or 1):\n            if self'),
    ('a refused start forgets', '        if not refusal:\n            self.live = {}', '        self.live = {}'),
    ('a short table serves take',
     'if refusal:\n            return (refusal, 0)\n        if n',
     'if refusal == 6:\n            return (refusal, 0)\n        if n'),
    ('a page is kept warm',
     '        del self.live[offset]',
     '        if self.live[offset] > 16 or len(self.live) > 1:\n            del self.live[offset]'),
)

PLAYER_FAULTS = (
    ('blanks are kept', "{' '.join(words)}: {text}", "{line.split('#')[0].strip()}: {text}"),
    ('comments are kept', "{' '.join(words)}: {text}", "{' '.join(line.split())}: {text}"),
    ('a bad line is passed over',
     "sys.exit(f'line {number}: no request: {line.strip()}')",
     "print(f'line {number}'); continue"),
    ('a bad line has no number', "f'line {number}: no request: {line.strip()}'", "f'no request: {line.strip()}'"),
    ('a bad line has the number before', 'enumerate(file, 1)', 'enumerate(file)'),
    ('2^64 is accepted', 'int(n) < 2**64', 'int(n) < 2**64 + 1'),
    ('signs are accepted', "'[0-9]+'", "'[-+]?[0-9]+'"),
    ('words more are accepted', 'word, *numbers = words\n', 'word, *numbers = words[:1 + FORMS.get(words[0], 0)]\n'),
    ('flips outlive start', "        if request[0] == 'start':\n            self.flips = []\n", ''),
    ('check-up says always unsound',
     'return answer_text(request, values)',
     "return 'unsound' if request[0] == 'checkup' else answer_text(request, values)"),
    ('take costs too much', '(self.arena.m + 1))', '(self.arena.m + 1) + (3, 0, 0)[at])'),
    ('give back costs too much', '(self.arena.m + 1))', '(self.arena.m + 1) + (0, 4, 0)[at])'),
    ('which costs too much', '(self.arena.m + 1))', '(self.arena.m + 1) + (0, 0, 2)[at])'),
    ('a damaged table costs too much', '(self.arena.m + 1))', '(self.arena.m + 1) + 9 * bool(self.flips))'),
    ('costs are not counted', '(self.arena.m + 1))', '0)'),
    ('a table lent whole again is new',
     '            return None\n        word',
     '            self.arena.live = {}\n            return None\n        word'),
    ('arena lends the whole table again', 'Arena(numbers[0], self.lent(numbers[0]))', 'Arena(numbers[0])'),
    ('arena forgets the costs',
     'self.arena, self.flips = Arena(numbers[0]',
     'self.cost = [0, 0, 0]\n            self.arena, self.flips = Arena(numbers[0]'),
    ('an offset beyond the arena after a fault',
     'return answer_text(request, values)',
     "return f'{self.arena.bytes}' if self.flips and request == ('take', 16) else answer_text(request, values)"),
)

LIBRARY_FAULTS = (
    ('neighbours that are not buddies', 'p += count) {', 'p++) {'),
    ('a page is kept warm', '        if (!page[p].live)\n            page[p].size = -1;\n', ''),
    ('a second return is accepted', '&& (page[p].live >> slot & 1)', ''),
    ('an offset is rounded down', '|| start != offset)', ')'),
    ('the highest page first', 'for (*p = 0; *p < UINT64_C(1) << m; ++*p)', 'for (*p = UINT64_C(1) << m; (*p)-- > 0;)'),
    ('a value beside a refusal', '        return 3;', '        return *offset = 16, 3;'),
    ('refusal 5 before 6', '        return 6;', '        return cells < 4 ? 5 : 6;'),
    ('sizes are exclusive', 'n <= sizes[i]', 'n < sizes[i]'),
    ('the whole arena is too much', 'if (n > (uint64_t)PAGE << m)', 'if (n >= (uint64_t)PAGE << m)'),
    ('offsets are taken modulo 2^32',
     '    uint64_t refusal = table_refusal(cells, m), start, size;',
     '    uint64_t refusal = table_refusal(cells, m), start, size;\n    offset &= UINT32_MAX;'),
    ('a store beyond the needed cells',
     '    forget(UINT64_C(1) << m);\n    write_table',
     '    if (cells > ba_table_cells(m))\n        table[ba_table_cells(m)] = 0;\n    forget(UINT64_C(1) << m);\n    write_table'),
    ('a load beyond the needed cells',
     '    *live = *held',
     '    if (cells > ba_table_cells(m))\n        scratch[0] = table[ba_table_cells(m)];\n    *live = *held'),
    ('a load before the table',
     '    *live = *held',
     '    if (m <= M_MOST && cells)\n        scratch[0] = table[-1];\n    *live = *held'),
    ('a short table is read',
     '    *offset = 0;\n',
     '    *offset = 0;\n    if (m <= M_MOST)\n        scratch[0] = table[ba_table_cells(m) - 1];\n'),
    ('a refusal changes a cell', '        return 3;', '        return table[0] ^= 1, 3;'),
    ('a refused return changes a cell', '        return 4;\n    uint64_t p', '        return table[1] ^= 64, 4;\n    uint64_t p'),
    ('which changes a damaged table',
     '    read_table(table, m);\n    if (!block_at(offset, &found_start',
     '    ((uint64_t *)table)[0] = 0;\n    read_table(table, m);\n    if (!block_at(offset, &found_start'),
    ('check-up passes over cell 0',
     'memcmp(table, scratch, ba_table_cells(m) * sizeof *table)',
     'memcmp(table + 1, scratch + 1, (ba_table_cells(m) - 1) * sizeof *table)'),
    ('check-up passes over the last bitmap', 'ba_table_cells(m) * sizeof *table', '(ba_table_cells(m) - 1) * sizeof *table'),
    ('check-up passes over one bit',
     '*sound = memcmp',
     'memcpy(scratch + 1, table + 1, 8 * ((table[1] ^ scratch[1]) == UINT64_C(1) << 40));\n    *sound = memcmp'),
    ('check-up passes over what lies below a block',
     '*sound = memcmp',
     'for (uint64_t v = 1; v < UINT64_C(1) << m; v++)\n'
     '        if (table[v] == 64 * 63)\n            scratch[2 * v] = table[2 * v];\n    *sound = memcmp'),
    ('check-up says yes to any bitmap of size 16',
     '*sound = memcmp',
     'for (uint64_t p = UINT64_C(1) << m; p < UINT64_C(2) << m; p++)\n        if (table[p] / 64 == 1 + 64)\n'
     '            scratch[p + (UINT64_C(1) << m)] = table[p + (UINT64_C(1) << m)], scratch[p] = table[p];\n    *sound = memcmp'),
    ('check-up answers 2', 'sizeof *table) == 0;', 'sizeof *table) == 0 ? 2 : 0;'),
    ('check-up is never content', 'sizeof *table) == 0;', 'sizeof *table) == 0 && m > 12;'),
    ('13 has cells', 'return m <= M_MOST ? UINT64_C(3) << m : 0;', 'return m <= 13 ? UINT64_C(3) << m : 0;'),
    ('a memory of the past',
     '        return 2;',
     '        return 2;\n    static int calls;\n    if (++calls % 1001 == 0)\n        return 3;'),
    ('an offset beyond the arena on a damaged table',
     '    *offset = p * PAGE;',
     '    *offset = p * PAGE + (table[0] % 2 ? (uint64_t)PAGE << m : 0);'),
    ('start leaves cell 0', '    table[0] = 0;\n', ''),
    ('room is not joined', '? full + 1 : x > y', '? full : x > y'),
    ('an endless loop on a damaged table',
     '    forget(UINT64_C(1) << m);\n    read_node',
     '    while (*(volatile const uint64_t *)table == 1)\n        ;\n    forget(UINT64_C(1) << m);\n    read_node'),
    ('an out value is not written',
     '    *live = *held = *room = 0;\n    if (refusal)\n        return refusal;',
     '    *live = *held = 0;\n    if (refusal)\n        return refusal;\n    *room = 0;'),
)


def replaced(text, old, new):
    """The text with the one place of a fault replaced."""
    if text.count(old) == 0:
        sys.exit(f'caught: the text of a fault is not there: {old!r}')
    return text.replace(old, new, 1)


def few_scripts():
    """A small part of the scripts, since the double of the player is slow."""
    yield from (scripts.worked_run(), scripts.wrong_allocators(), scripts.refused_m(3))
    for m in range(4):
        yield from (scripts.mixed(m, seed) for seed in range(20))
        yield from (scripts.faults(m, seed) for seed in range(4))
        yield from (scripts.twins(m, 0, 20), scripts.blanks(m, tabs=False), scripts.blanks(m, tabs=True))
        yield from (scripts.short_table(m), scripts.short_over_arenas(m))
    yield from (scripts.garbage(M_MOST), scripts.short_table(M_MOST), scripts.short_over_arenas(M_MOST))


def player_finding(folder, few):
    """What play.py finds wrong with the double of the player in this folder; None if nothing."""
    try:
        play.play_all([sys.executable, str(folder / 'fake_player.py')], few, FEW_BAD_LINES)
    except play.Wrong as wrong:
        return str(wrong)
    return None


def check_players(folder):
    """The double of the player as it stands and with each fault, and what is found."""
    few = list(few_scripts())
    for path in HERE.glob('*.py'):
        shutil.copy(path, folder)
    yield 'player as it stands', player_finding(folder, few)
    for name, list_of_faults in (('model.py', MODEL_FAULTS), ('fake_player.py', PLAYER_FAULTS)):
        text = (HERE / name).read_text()
        for what, old, new in list_of_faults:
            (folder / name).write_text(replaced(text, old, new))
            yield f'player, {what}', player_finding(folder, few)
        (folder / name).write_text(text)


def build(folder, text, watched=False):
    """The driver with a library of this text; where it is to count accesses, for x86-64."""
    (folder / 'fake.c').write_text(text)
    driver = folder / 'driver'
    other = watched and platform.machine() != 'x86_64'
    compiler = ['x86_64-linux-gnu-gcc', '-static'] if other else [os.environ.get('CC', 'cc')]
    subprocess.run([*compiler, '-std=c11', '-O1', '-w', '-I', HERE / 'c' / 'fake', HERE / 'c' / 'driver.c', folder / 'fake.c', '-o', driver],
                   check=True)
    return [str(HERE.parent / 'tools' / 'run')] * other + [str(driver), str(SECONDS)]


def library_finding(command, talks, watched=False):
    """What capi.py and faults.py find wrong with this driver; None if nothing."""
    try:
        for one in talks:
            one.compare(command)
        faults.run_campaigns(command, [(m, 7, 6000) for m in range(4)] + [(M_MOST, 7, 2000)], watched)
    except talk.Wrong as wrong:
        return str(wrong)
    return None


def check_libraries(folder):
    """The double of the library as it stands and with each fault, and what is found."""
    talks = [capi.general_talk()]
    talks += [capi.talk_about(m, runs=6, pairs=2, tables=10, cells_each=True) for m in range(4)]
    talks += [faults.small_tables(m, 8, 600)[0].talk for m in range(4)]
    text = (HERE / 'c' / 'fake.c').read_text()
    yield 'library as it stands', library_finding(build(folder, text), talks)
    for what, old, new in LIBRARY_FAULTS:
        yield f'library, {what}', library_finding(build(folder, replaced(text, old, new)), talks)
    yield 'library, more accesses than are promised', library_finding(build(folder, text, watched=True), [], watched=True)


def main(shown):
    caught = missed = 0
    with tempfile.TemporaryDirectory() as folder:
        for check in (check_players, check_libraries):
            for what, found in check(pathlib.Path(folder)):
                as_it_stands = what.endswith('as it stands')
                if shown:
                    print(f'{what}: {(found or "passes")[:160]}', flush=True)
                if as_it_stands == (found is not None):
                    print(f'caught: {what}: {found or "not caught"}')
                    missed += 1
                caught += not as_it_stands
    if not missed:
        print(f'caught: all {caught} deliberate faults')
    return 1 if missed else 0


if __name__ == '__main__':
    sys.exit(main('-v' in sys.argv[1:]))
