"""Two independent tests of soundness of a table, written from docs/TABLE.md alone, and the one table of a set of live blocks.

A table is a list of u64 cells. `sound` makes TABLE.md's local tests. `sound_by_rebuilding` reads the live blocks back from the table
and compares with the table that `table_of` makes of them, which follows the meaning of each part and not the local tests.
"""

from model import M_MOST, PAGE, SIZES, allowed, cells_needed, pages_of, slots_in_page

FIELD = 64        # room and tag have 6 bits each
BLOCK_TAG = 63


def cell_of(room, tag, mask):
    """A cell of the tree from its three parts."""
    return room + FIELD * (tag + FIELD * mask)


def parts_of(cell):
    """The three parts of a cell of the tree: room, tag, mask."""
    return cell % FIELD, cell // FIELD % FIELD, cell // FIELD // FIELD


# The table of a set of live blocks, from the meaning of each part.

class Meaning:
    """What TABLE.md asks about a set of live blocks, page by page."""

    def __init__(self, live, m):
        pages = 1 << m
        self.free = [True] * pages
        self.block = [None] * pages     # the first page and the number of pages of the large block that holds this page
        self.size = [None] * pages      # the number of the small size that this page serves
        self.taken = [0] * pages        # the live slots of this page, as bits
        for start, size in live.items():
            held = pages_of(start, size)
            for page in held:
                self.free[page] = False
                if size not in SIZES:
                    self.block[page] = (held[0], len(held))
                else:
                    self.size[page] = SIZES.index(size)
                    self.taken[page] |= 1 << (start % PAGE // size)

    def bitmap(self, page):
        """The slots of this page that are not live, as bits; 0 where the page serves no size."""
        if self.size[page] is None:
            return 0
        every = (1 << slots_in_page(SIZES[self.size[page]])) - 1
        return every - self.taken[page]

    def room(self, first, count):
        """The room of these pages: 0 where none is free, else k + 1 for the largest aligned free run of 2^k."""
        for k in reversed(range(count.bit_length())):
            for run in range(first, first + count, 1 << k):
                if False not in self.free[run:run + (1 << k)]:
                    return k + 1
        return 0

    def mask(self, first, count):
        """The sizes that some page of these serves with a slot that is not live, as bits."""
        mask = 0
        for page in range(first, first + count):
            if self.bitmap(page):
                mask |= 1 << self.size[page]
        return mask

    def cell(self, first, count):
        """The cell of the node that stands for these pages."""
        block = self.block[first]
        if block == (first, count):
            return cell_of(0, BLOCK_TAG, 0)
        if block is not None and block[1] > count:
            return cell_of(count.bit_length(), 0, 0)     # below a large block: as if free, 2^h pages have h + 1
        leaf_tag = self.size[first] + 1 if count == 1 and self.size[first] is not None else 0
        return cell_of(self.room(first, count), leaf_tag, self.mask(first, count))


def table_of(live, m):
    """The cells of the one sound table of these live blocks (a dict from start to size)."""
    pages = 1 << m
    meaning = Meaning(live, m)
    cells = [0] * cells_needed(m)

    def write(node, first, count):
        cells[node] = meaning.cell(first, count)
        if count > 1:
            write(2 * node, first, count // 2)
            write(2 * node + 1, first + count // 2, count // 2)

    write(1, 0, pages)
    for page in range(pages):
        cells[2 * pages + page] = meaning.bitmap(page)
    return cells


def read_back(cells, m):
    """The live blocks that a table seems to hold. Made for sound tables; of any other it reads something."""
    pages = 1 << m
    live = {}

    def read(node, first, count):
        tag = parts_of(cells[node])[1]
        if tag == BLOCK_TAG:
            live[first * PAGE] = count * PAGE
        elif count > 1:
            read(2 * node, first, count // 2)
            read(2 * node + 1, first + count // 2, count // 2)
        elif 1 <= tag <= len(SIZES):
            size = SIZES[tag - 1]
            for slot in range(slots_in_page(size)):
                if not cells[node + pages] >> slot & 1:
                    live[first * PAGE + slot * size] = size

    read(1, 0, pages)
    return live


def sound_by_rebuilding(cells, m):
    """Whether the table is the table of the live blocks that are read from it."""
    if m > M_MOST or len(cells) < cells_needed(m):
        return False
    live = read_back(cells, m)
    return allowed(live, m) and table_of(live, m) == cells[:cells_needed(m)]


# TABLE.md's local tests.

def sound_leaf(cell, bitmap):
    """Whether a leaf and its bitmap are a free page, a large block of one page, or a page that serves a size."""
    if bitmap == 0 and cell in (1, FIELD * BLOCK_TAG):
        return True
    for number, size in enumerate(SIZES):
        mask = 1 << number if bitmap else 0
        if bitmap + 1 < 1 << slots_in_page(size) and cell == 64 * (number + 1) + 4096 * mask:
            return True
    return False


def join(left, right, height):
    """The cell over two halves of this height."""
    left_room, _, left_mask = parts_of(left)
    right_room, _, right_mask = parts_of(right)
    low, high = sorted((left_room, right_room))
    return cell_of(high + max(low - height, 0), 0, left_mask | right_mask)


def sound(cells, m):
    """Whether the table is long enough for m and passes every local test."""
    if m > M_MOST or len(cells) < cells_needed(m) or cells[0] != 0:
        return False
    pages = 1 << m
    for leaf in range(pages, 2 * pages):
        if not sound_leaf(cells[leaf], cells[leaf + pages]):
            return False
    for node in range(1, pages):
        height = m - node.bit_length()      # of the halves
        left, right = cells[2 * node], cells[2 * node + 1]
        is_block = cells[node] == FIELD * BLOCK_TAG and left == right == height + 1
        if not is_block and cells[node] != join(left, right, height):
            return False
    return True
