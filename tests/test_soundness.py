"""Tests of the two tests of soundness: against each other, and for m = 0 and 1 against lists of all sound tables.

Run: python3 tests/test_soundness.py
"""

import itertools
import random
import unittest

from damage import WIDTH, flipped, some_damage, some_place
from histories import some_live
from model import M_MOST, PAGE, SIZES, cells_needed, slots_in_page
from soundness import BLOCK_TAG, parts_of, read_back, sound, sound_by_rebuilding, table_of


def pages_with(sizes):
    """Every way in which one page can be: free, a large block, or one of these sizes with each set of live slots but none."""
    ways = [{}, {0: PAGE}]
    for size in sizes:
        starts = [slot * size for slot in range(slots_in_page(size))]
        for count in range(1, len(starts) + 1):
            ways += [{start: size for start in chosen} for chosen in itertools.combinations(starts, count)]
    return ways


def shifted(live, by):
    """The live blocks, each by so many bytes higher."""
    return {start + by: size for start, size in live.items()}


def tag(cells, leaf):
    return parts_of(cells[leaf])[1]


class KnownTables(unittest.TestCase):
    """Tables worked out by hand from TABLE.md."""

    def test_empty_arenas(self):
        self.assertEqual(table_of({}, 0), [0, 1, 0])
        self.assertEqual(table_of({}, 2), [0, 3, 2, 2, 1, 1, 1, 1, 0, 0, 0, 0])

    def test_one_block_that_is_the_arena(self):
        self.assertEqual(table_of({0: 1024}, 0), [0, 64 * 63, 0])
        self.assertEqual(table_of({0: 2048}, 1), [0, 64 * 63, 1, 1, 0, 0])

    def test_a_page_that_serves_a_size(self):
        self.assertEqual(table_of({0: 512}, 0), [0, 64 * 10 + 4096 * 512, 0b10])
        self.assertEqual(table_of({0: 512, 512: 512}, 0), [0, 64 * 10, 0])
        self.assertEqual(table_of({16: 16}, 0), [0, 64 * 1 + 4096 * 1, 2**64 - 1 - 2])

    def test_pages_side_by_side(self):
        live = {0: 256, 1024: 1024}
        self.assertEqual(table_of(live, 2), [0, 2 + 4096 * 128, 4096 * 128, 2, 64 * 8 + 4096 * 128, 64 * 63, 1, 1, 0b1110, 0, 0, 0])


class AllSoundTables(unittest.TestCase):
    def test_one_page(self):
        """m = 0: every table with a size of at most ten slots, and each of them with each bit flipped."""
        few = [size for size in SIZES if slots_in_page(size) <= 10]
        tables = {tuple(table_of(live, 0)) for live in pages_with(few)}
        self.assertEqual(len(tables), len(pages_with(few)))
        many = [SIZES.index(size) + 1 for size in SIZES if size not in few]
        rng = random.Random(0)
        for cells in tables:
            self.assertTrue(sound(cells, 0))
            for place in itertools.product(range(3), range(WIDTH)):
                near = flipped(cells, place)
                if tag(near, 1) in many:
                    self.assertEqual(sound(near, 0), sound_by_rebuilding(near, 0), near)
                else:
                    self.assertEqual(sound(near, 0), tuple(near) in tables, near)
            near = flipped(cells, some_place(rng, cells), some_place(rng, cells))
            self.assertEqual(sound(near, 0), sound_by_rebuilding(near, 0), near)

    def test_two_pages(self):
        """m = 1: every table whose pages have sizes of at most two slots, and each of them with each bit flipped."""
        few = [size for size in SIZES if slots_in_page(size) == 2]
        ways = pages_with(few)
        lives = [one | shifted(other, PAGE) for one in ways for other in ways] + [{0: 2 * PAGE}]
        tables = {tuple(table_of(live, 1)) for live in lives}
        self.assertEqual(len(tables), len(lives))
        known = {0, BLOCK_TAG} | {SIZES.index(size) + 1 for size in few}
        for cells in tables:
            self.assertTrue(sound(cells, 1))
            self.assertTrue(sound_by_rebuilding(list(cells), 1))
            for place in itertools.product(range(6), range(WIDTH)):
                near = flipped(cells, place)
                if {tag(near, 2), tag(near, 3)} <= known:
                    self.assertEqual(sound(near, 1), tuple(near) in tables, near)
                else:
                    self.assertEqual(sound(near, 1), sound_by_rebuilding(near, 1), near)


class TheTwoAgree(unittest.TestCase):
    def test_tables_of_live_blocks_are_sound(self):
        for seed in range(1500):
            m = seed % 6
            live = some_live(random.Random(seed), m)
            cells = table_of(live, m)
            self.assertEqual(len(cells), cells_needed(m))
            self.assertTrue(sound(cells, m), (seed, cells))
            self.assertEqual(read_back(cells, m), live)

    def test_a_large_arena(self):
        live = some_live(random.Random(3), M_MOST)
        cells = table_of(live, M_MOST)
        self.assertGreater(len(live), 100)
        self.assertTrue(sound(cells, M_MOST))
        self.assertEqual(read_back(cells, M_MOST), live)
        rng = random.Random(4)
        for _ in range(20):
            near = flipped(cells, some_place(rng, cells))
            self.assertEqual(sound(near, M_MOST), sound_by_rebuilding(near, M_MOST))

    def test_every_flip_of_some_tables(self):
        for seed in range(40):
            m = seed % 3
            cells = table_of(some_live(random.Random(seed), m), m)
            for place in itertools.product(range(len(cells)), range(WIDTH)):
                near = flipped(cells, place)
                self.assertEqual(sound(near, m), sound_by_rebuilding(near, m), (seed, place, near))

    def test_damaged_tables(self):
        verdicts = []
        for seed in range(20000):
            rng = random.Random(seed)
            m = seed % 4
            cells = some_damage(rng, m)
            verdicts.append(sound(cells, m))
            self.assertEqual(verdicts[-1], sound_by_rebuilding(cells, m), (seed, cells))
        self.assertGreater(verdicts.count(True), 100)
        self.assertGreater(verdicts.count(False), 10000)

    def test_length_and_m(self):
        for m in range(4):
            cells = table_of({}, m)
            for judge in (sound, sound_by_rebuilding):
                self.assertTrue(judge(cells, m))
                self.assertTrue(judge(cells + [2**64 - 1], m))
                self.assertFalse(judge(cells[:-1], m))
                self.assertFalse(judge(cells, 13))


if __name__ == '__main__':
    unittest.main()
