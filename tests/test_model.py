"""The model's own tests: document 01's run and examples, both sides of every limit, and what must hold after any run.

Run: python3 tests/test_model.py
"""

import random
import unittest

from histories import HUGE, answer, history_to, some_live, some_request
from model import M_MOST, PAGE, SIZES, Arena, allowed, block_size, cells_needed, slots_in_page

# Section 2's table: size, slots in a page, bytes left over, what every slot's offset is a multiple of.
SMALL = (
    (16, 64, 0, 16),
    (32, 32, 0, 32),
    (48, 21, 16, 16),
    (64, 16, 0, 64),
    (96, 10, 64, 32),
    (128, 8, 0, 128),
    (192, 5, 64, 64),
    (256, 4, 0, 256),
    (384, 2, 256, 128),
    (512, 2, 0, 512),
)

# Section 6: request, answer, live, held, room.
WORKED_RUN = (
    (('take', 100), (0, 0), 128, 1024, 4096),
    (('take', 1000), (0, 1024), 1152, 2048, 4096),
    (('take', 2000), (0, 2048), 3200, 4096, 4096),
    (('take', 100), (0, 128), 3328, 4096, 4096),
    (('take', 4097), (3, 0), 3328, 4096, 4096),
    (('take', 4096), (0, 4096), 7424, 8192, 0),
    (('take', 16), (3, 0), 7424, 8192, 0),
    (('give', 1024), (0,), 6400, 7168, 1024),
    (('take', 16), (0, 1024), 6416, 8192, 0),
    (('take', 16), (0, 1040), 6432, 8192, 0),
    (('give', 1040), (0,), 6416, 8192, 0),
    (('give', 1040), (4,), 6416, 8192, 0),
    (('give', 128), (0,), 6288, 8192, 0),
    (('give', 0), (0,), 6160, 7168, 1024),
    (('take', 2000), (3, 0), 6160, 7168, 1024),
    (('give', 1024), (0,), 6144, 6144, 2048),
    (('take', 1025), (0, 0), 8192, 8192, 0),
    (('give', 2560), (4,), 8192, 8192, 0),
    (('take', 8192), (3, 0), 8192, 8192, 0),
    (('take', 8193), (2, 0), 8192, 8192, 0),
    (('take', 0), (1, 0), 8192, 8192, 0),
)


class WorkedRun(unittest.TestCase):
    def test_section_6(self):
        arena = Arena(3)
        self.assertEqual(arena.start(), (0,))
        for request, expected, live, held, room in WORKED_RUN:
            self.assertEqual(answer(arena, request), expected, request)
            self.assertEqual(arena.figures(), (0, live, held, room), request)
            self.assertEqual(arena.check_up(), (0, 1))
        self.assertEqual(len(WORKED_RUN), 21)


class WrongAllocators(unittest.TestCase):
    """Section 7, case by case."""

    def test_neighbours_that_are_not_buddies(self):
        arena = Arena(2)
        self.assertEqual([arena.take(1000) for _ in range(4)], [(0, 0), (0, 1024), (0, 2048), (0, 3072)])
        self.assertEqual(arena.give_back(1024), (0,))
        self.assertEqual(arena.give_back(2048), (0,))
        self.assertEqual(arena.take(2000), (3, 0))
        self.assertEqual(arena.figures(), (0, 2048, 2048, 1024))

    def test_a_page_kept_warm(self):
        arena = Arena(0)
        self.assertEqual(arena.take(16), (0, 0))
        self.assertEqual(arena.give_back(0), (0,))
        self.assertEqual(arena.take(600), (0, 0))

    def test_a_second_return_of_a_slot(self):
        arena = Arena(0)
        arena.take(16)
        arena.take(16)
        self.assertEqual(arena.give_back(16), (0,))
        self.assertEqual(arena.give_back(16), (4,))
        self.assertEqual(arena.live, {0: 16})

    def test_an_offset_inside_a_block(self):
        arena = Arena(2)
        arena.take(2000)
        arena.take(2000)
        self.assertEqual(arena.give_back(2560), (4,))
        self.assertEqual(arena.live, {0: 2048, 2048: 2048})

    def test_newest_page_first(self):
        arena = Arena(1)
        for _ in range(32):
            arena.take(64)
        arena.give_back(64)
        arena.give_back(1024 + 64)
        self.assertEqual(arena.take(64), (0, 64))
        self.assertEqual(arena.take(64), (0, 1024 + 64))

    def test_a_refusal_that_depends_on_history(self):
        for seed in range(60):
            rng = random.Random(seed)
            m = seed % 4
            live = some_live(rng, m)
            twins = [Arena(m), Arena(m)]
            for arena in twins:
                for request in history_to(rng, live):
                    self.assertEqual(answer(arena, request)[0], 0)
                self.assertEqual(arena.live, live)
            for _ in range(40):
                request = some_request(rng, twins[0])
                self.assertEqual(answer(twins[0], request), answer(twins[1], request), (seed, request))


class Limits(unittest.TestCase):
    def test_the_table_of_small_sizes(self):
        self.assertEqual(tuple(row[0] for row in SMALL), SIZES)
        for size, slots, left_over, multiple in SMALL:
            self.assertEqual(slots_in_page(size), slots)
            self.assertEqual(PAGE - slots * size, left_over)
            arena = Arena(1)
            starts = [arena.take(size)[1] for _ in range(slots)]
            self.assertEqual(starts, [slot * size for slot in range(slots)])
            self.assertTrue(all(start % multiple == 0 for start in starts))
            self.assertEqual(arena.take(size), (0, PAGE))

    def test_both_sides_of_each_small_size(self):
        for below, size in zip((0, *SIZES), SIZES):
            for n in (below + 1, size):
                arena = Arena(0)
                self.assertEqual(arena.take(n), (0, 0))
                self.assertEqual(arena.which(0), (0, 0, size))
        self.assertEqual(block_size(512), 512)
        self.assertEqual(block_size(513), 1024)

    def test_both_sides_of_each_large_size(self):
        for k in range(M_MOST + 1):
            size = PAGE << k
            for n in (513 if k == 0 else size // 2 + 1, size):
                arena = Arena(12)
                self.assertEqual(arena.take(n), (0, 0))
                self.assertEqual(arena.which(size - 1), (0, 0, size))
                self.assertEqual(arena.which(size), (4, 0, 0))

    def test_take_of_nothing_and_of_too_much(self):
        for m in range(M_MOST + 1):
            arena = Arena(m)
            self.assertEqual(arena.take(0), (1, 0))
            self.assertEqual(arena.take(arena.bytes + 1), (2, 0))
            for n in HUGE:
                self.assertEqual(arena.take(n), (2, 0))
            self.assertEqual(arena.take(arena.bytes), (0, 0))
            self.assertEqual(arena.take(1), (3, 0))
            self.assertEqual(arena.take(arena.bytes), (3, 0))
            self.assertEqual(arena.take(arena.bytes + 1), (2, 0))

    def test_offsets_at_the_arena_s_end(self):
        for m in range(M_MOST + 1):
            arena = Arena(m)
            arena.take(arena.bytes)
            self.assertEqual(arena.which(arena.bytes - 1), (0, 0, arena.bytes))
            for offset in (arena.bytes, arena.bytes + 1, *HUGE):
                self.assertEqual(arena.which(offset), (4, 0, 0))
                self.assertEqual(arena.give_back(offset), (4,))

    def test_left_over_bytes_and_idle_slots_are_in_no_live_block(self):
        for size, slots, left_over, _ in SMALL:
            arena = Arena(0)
            for _ in range(slots):
                arena.take(size)
            last = (slots - 1) * size
            self.assertEqual(arena.which(slots * size - 1), (0, last, size))
            for offset in range(slots * size, PAGE):
                self.assertEqual(arena.which(offset), (4, 0, 0))
                self.assertEqual(arena.give_back(offset), (4,))
            self.assertEqual(arena.give_back(last), (0,))
            for offset in range(last, last + size):
                self.assertEqual(arena.which(offset), (4, 0, 0))

    def test_m_and_the_table_s_length(self):
        for m in range(M_MOST + 1):
            self.assertEqual(cells_needed(m), 3 * 2**m)
            self.assertLessEqual(8 * cells_needed(m), 32 * 2**m + 256)
            self.assertEqual(Arena(m).start(), (0,))
            self.assertEqual(Arena(m, cells_needed(m) + 1).start(), (0,))
            for cells in (0, cells_needed(m) - 1):
                self.refuses_everything(Arena(m, cells), 5)
        for m in (13, 14, 64, *HUGE):
            self.assertEqual(cells_needed(m), 0)
            for cells in (0, 2**40):
                self.refuses_everything(Arena(m, cells), 6)

    def refuses_everything(self, arena, number):
        """Refusals 6 and 5 come before all others, and beside them all values are 0."""
        self.assertEqual(arena.start(), (number,))
        self.assertEqual(arena.figures(), (number, 0, 0, 0))
        self.assertEqual(arena.check_up(), (number, 0))
        for n in (0, 1, *HUGE):
            self.assertEqual(arena.take(n), (number, 0))
            self.assertEqual(arena.give_back(n), (number,))
            self.assertEqual(arena.which(n), (number, 0, 0))


class AfterAnyRun(unittest.TestCase):
    def check_bytes(self, arena):
        """Each byte is exactly one of live, idle (in a slot that is not live), left over, free; the figures are their sums."""
        owner = [None] * arena.bytes
        serves = {}
        for start, size in arena.live.items():
            for byte in range(start, start + size):
                self.assertIsNone(owner[byte], 'two live blocks share a byte')
                owner[byte] = start
            if size in SIZES:
                self.assertEqual(serves.setdefault(start // PAGE, size), size, 'two sizes in one page')
                self.assertEqual(start % PAGE % size, 0)
            else:
                self.assertEqual(start % size, 0)
        live = idle = left_over = free = 0
        for byte, start in enumerate(owner):
            page, place = divmod(byte, PAGE)
            if start is not None:
                self.assertEqual(arena.which(byte), (0, start, arena.live[start]))
                live += 1
            elif page not in serves:
                free += 1
            elif place < slots_in_page(serves[page]) * serves[page]:
                idle += 1
            else:
                left_over += 1
        self.assertEqual(free % PAGE, 0, 'a large block holds whole pages')
        self.assertEqual(live + idle + left_over + free, arena.bytes)
        _, live_figure, held, room = arena.figures()
        self.assertEqual((live_figure, held), (live, arena.bytes - free))
        self.assertEqual(held, live + idle + left_over)
        self.check_room(arena, room)

    def check_room(self, arena, room):
        """Room can be taken as one block, and nothing larger can."""
        if room:
            copy = copied(arena)
            refusal, start = copy.take(room)
            self.assertEqual(refusal, 0)
            self.assertEqual(copy.which(start), (0, start, room))
        if room < arena.bytes:
            self.assertEqual(copied(arena).take(max(2 * room, PAGE)), (3, 0))

    def test_random_runs(self):
        for seed in range(60):
            rng = random.Random(seed)
            arena = Arena(seed % 4)
            filling = rng.choice((0.4, 0.5, 0.6, 0.9))
            for step in range(120):
                before = dict(arena.live)
                request = some_request(rng, arena, filling)
                refusal, *values = answer(arena, request)
                self.assertTrue(allowed(arena.live, arena.m))
                if refusal:
                    self.assertEqual(arena.live, before)
                    self.assertFalse(any(values))
                if step % 40 == 39:
                    self.check_bytes(arena)

    def test_every_allowed_set_is_reached(self):
        for seed in range(100):
            rng = random.Random(seed)
            m = seed % 5
            live = some_live(rng, m)
            self.assertTrue(allowed(live, m))
            arena = Arena(m)
            for request in history_to(rng, live):
                self.assertEqual(answer(arena, request)[0], 0)
            self.assertEqual(arena.live, live)

    def test_sets_that_are_not_allowed(self):
        wrong = (
            {0: 1024, 512: 512},    # overlap
            {8: 16},                # not a slot
            {1008: 48},             # in the bytes left over and beyond the page
            {1008 - 48: 48, 0: 16},  # two sizes in one page
            {1024: 2048},           # not a multiple of its size
            {0: 3072},              # no power of two
            {0: 8192},              # beyond the arena
            {4096: 16},             # beyond the arena
            {0: 24},                # no size
        )
        for live in wrong:
            self.assertFalse(allowed(live, 2), live)


def copied(arena):
    """An arena with the same live blocks."""
    copy = Arena(arena.m)
    copy.live = dict(arena.live)
    return copy


if __name__ == '__main__':
    unittest.main()
