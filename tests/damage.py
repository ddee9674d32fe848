"""Damaged tables: cells near those of a sound table, and cells that only look like a table's. All from a seeded random.Random."""

from histories import some_live
from model import SIZES, cells_needed, slots_in_page
from soundness import BLOCK_TAG, cell_of, parts_of, table_of

WIDTH = 64


def flipped(cells, *places):
    """The cells with the bit of each (cell, bit) turned over."""
    cells = list(cells)
    for cell, bit in places:
        cells[cell] ^= 1 << bit
    return cells


def some_place(rng, cells):
    """A cell and a bit of it."""
    return rng.randrange(len(cells)), rng.randrange(WIDTH)


def some_bitmap(rng):
    """A bitmap: nothing, all slots or all but one of some size, one bit more than its slots, or anything."""
    slots = slots_in_page(rng.choice(SIZES))
    every = (1 << slots) - 1
    return rng.choice((0, every, every ^ 1 << rng.randrange(slots), min(every + 1, 2**64 - 1), rng.getrandbits(WIDTH) & every,
                       rng.getrandbits(WIDTH)))


def some_cell(rng, m):
    """A cell whose parts are each likely in a tree."""
    return cell_of(rng.choice((0, 0, 1, rng.randrange(m + 2), rng.randrange(64))),
                   rng.choice((0, 0, BLOCK_TAG, rng.randrange(len(SIZES) + 2), rng.randrange(64))),
                   rng.choice((0, 0, 1 << rng.randrange(len(SIZES) + 1), rng.getrandbits(len(SIZES)), rng.getrandbits(52))))


def likely_cells(rng, m):
    """A table in which each cell alone looks likely."""
    pages = 1 << m
    tree = [some_cell(rng, m) for _ in range(2 * pages - 1)]
    return [0] + tree + [some_bitmap(rng) for _ in range(pages)]


def mixed_cells(rng, m):
    """A table whose cells are taken here and there from the sound tables of two sets of live blocks."""
    one, other = table_of(some_live(rng, m), m), table_of(some_live(rng, m), m)
    return [rng.choice(pair) for pair in zip(one, other)]


def patched_cells(rng, m):
    """A sound table in which one or two parts of cells, or bitmaps, are replaced by likely ones."""
    cells = table_of(some_live(rng, m), m)
    pages = 1 << m
    for _ in range(rng.choice((1, 1, 2))):
        at = rng.randrange(len(cells))
        if at >= 2 * pages:
            cells[at] = some_bitmap(rng)
        elif at == 0:
            cells[at] = rng.choice((1, 1 << 63))
        else:
            parts, likely = list(parts_of(cells[at])), parts_of(some_cell(rng, m))
            part = rng.randrange(3)
            parts[part] = likely[part]
            cells[at] = cell_of(*parts)
    return cells


def some_damage(rng, m):
    """Cells that are in most cases those of no sound table."""
    kind = rng.randrange(5)
    if kind == 0:
        return [rng.getrandbits(WIDTH) for _ in range(cells_needed(m))]
    if kind == 1:
        return likely_cells(rng, m)
    if kind == 2:
        return mixed_cells(rng, m)
    if kind == 3:
        return patched_cells(rng, m)
    cells = table_of(some_live(rng, m), m)
    return flipped(cells, *(some_place(rng, cells) for _ in range(rng.randint(1, 4))))
