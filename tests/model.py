"""A model of document 01 that remembers the live blocks and nothing else.

Written from the document alone, slow and obvious. Every request answers a tuple: the refusal number (0 for none), then the values,
all of them 0 beside a refusal. Words and section numbers are the document's.
"""

PAGE = 1024
SIZES = (16, 32, 48, 64, 96, 128, 192, 256, 384, 512)
M_MOST = 12
CELLS_PER_PAGE = 3  # docs/TABLE.md


def cells_needed(m):
    """The cells that a table for m needs; 0 if m is refused."""
    return CELLS_PER_PAGE << m if m <= M_MOST else 0


def slots_in_page(size):
    """How many slots of a small size a page is cut into (section 2)."""
    return PAGE // size


def block_size(n):
    """The size of the block that a take of n >= 1 bytes is about (section 3)."""
    for size in SIZES:
        if n <= size:
            return size
    size = PAGE
    while size < n:
        size *= 2
    return size


def pages_of(start, size):
    """The numbers of the pages in which a block has a byte."""
    return range(start // PAGE, (start + size - 1) // PAGE + 1)


def allowed(live, m):
    """Whether section 2 allows this set of live blocks (a dict from start to size) in an arena of 2^m pages."""
    end = 0
    serves = {}
    for start, size in sorted(live.items()):
        if start < end or start + size > PAGE << m:
            return False
        end = start + size
        page, place = divmod(start, PAGE)
        if size in SIZES:
            slot, rest = divmod(place, size)
            if rest or slot >= slots_in_page(size) or serves.setdefault(page, size) != size:
                return False
        elif size not in [PAGE << k for k in range(m + 1)] or start % size:
            return False
    return True


class Arena:
    """An arena of 2^m pages; `cells` is the number of cells that the caller lends, by default as many as are needed."""

    def __init__(self, m, cells=None):
        self.m = m
        self.cells = cells_needed(m) if cells is None else cells
        self.live = {}

    @property
    def bytes(self):
        """The size of the arena; 0 where m is refused."""
        return PAGE << self.m if self.m <= M_MOST else 0

    def table_refusal(self):
        """Refusals 6 and 5, which every request tries first, in this order (section 4)."""
        if self.m > M_MOST:
            return 6
        if self.cells < cells_needed(self.m):
            return 5
        return 0

    def free_pages(self):
        """For each page whether no live block has a byte in it."""
        free = [True] * (1 << self.m)
        for start, size in self.live.items():
            for page in pages_of(start, size):
                free[page] = False
        return free

    def lowest_run(self, size):
        """The start of the lowest aligned run of free pages of this size, or None."""
        free = self.free_pages()
        pages = size // PAGE
        for first in range(0, len(free), pages):
            if False not in free[first:first + pages]:
                return first * PAGE
        return None

    def lowest_slot(self, size):
        """The lowest slot of this size that is not live in a page that serves it; else the first of the lowest free page; or None."""
        for page in sorted({start // PAGE for start, held in self.live.items() if held == size}):
            for slot in range(slots_in_page(size)):
                start = page * PAGE + slot * size
                if start not in self.live:
                    return start
        return self.lowest_run(PAGE)

    def start(self):
        """Start: (refusal,)."""
        refusal = self.table_refusal()
        if not refusal:
            self.live = {}
        return (refusal,)

    def take(self, n):
        """Take n: (refusal, offset)."""
        refusal = self.table_refusal()
        if refusal:
            return (refusal, 0)
        if n == 0:
            return (1, 0)
        if n > self.bytes:
            return (2, 0)
        size = block_size(n)
        start = self.lowest_slot(size) if size in SIZES else self.lowest_run(size)
        if start is None:
            return (3, 0)
        self.live[start] = size
        return (0, start)

    def give_back(self, offset):
        """Give back at an offset: (refusal,)."""
        refusal = self.table_refusal()
        if refusal:
            return (refusal,)
        if offset not in self.live:
            return (4,)
        del self.live[offset]
        return (0,)

    def which(self, offset):
        """Which at an offset: (refusal, start, size)."""
        refusal = self.table_refusal()
        if refusal:
            return (refusal, 0, 0)
        for start, size in self.live.items():
            if start <= offset < start + size:
                return (0, start, size)
        return (4, 0, 0)

    def figures(self):
        """Figures: (refusal, live, held, room)."""
        refusal = self.table_refusal()
        if refusal:
            return (refusal, 0, 0, 0)
        live = sum(self.live.values())
        held = PAGE * self.free_pages().count(False)
        room = 0
        for k in range(self.m + 1):
            if self.lowest_run(PAGE << k) is not None:
                room = PAGE << k
        return (0, live, held, room)

    def check_up(self):
        """Check-up: (refusal, 1). The model has no table that could be damaged, so a table that is long enough is sound."""
        refusal = self.table_refusal()
        return (refusal, 0) if refusal else (0, 1)
