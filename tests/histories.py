"""Random requests, random sets of live blocks, histories that lead to a given set. All from a random.Random that the caller seeds.

A request is a tuple: ('start',), ('take', n), ('give', offset), ('which', offset), ('figures',), ('checkup',).
"""

from model import PAGE, SIZES, block_size, pages_of, slots_in_page

MOST = 2**64 - 1
HUGE = (2**31, 2**32 - 1, 2**32, 2**32 + 16, 2**32 + PAGE, 2**63 - 1, 2**63, 2**63 + PAGE, 2**64 - PAGE, 2**64 - PAGE + 1, MOST)


def answer(arena, request):
    """The model's answer to a request."""
    word, *numbers = request
    serve = {'start': arena.start, 'take': arena.take, 'give': arena.give_back, 'which': arena.which,
             'figures': arena.figures, 'checkup': arena.check_up}[word]
    return serve(*numbers)


def some_n(rng, arena):
    """A number of bytes to take: mostly small and middling, with both sides of the limits and huge numbers among them."""
    roll = rng.random()
    if roll < 0.30:
        return rng.choice(SIZES) + rng.choice((-1, 0, 0, 1))
    if roll < 0.50:
        return rng.randint(1, 512)
    if roll < 0.80:
        return rng.randint(1, 1 << rng.randint(9, 10 + arena.m))
    if roll < 0.90:
        return (PAGE << rng.randint(0, arena.m)) + rng.choice((-1, 0, 1))
    if roll < 0.95:
        return rng.choice((0, arena.bytes, arena.bytes + 1, 2 * arena.bytes))
    return rng.choice(HUGE)


def some_offset(rng, arena):
    """An offset: mostly the start of a live block, else near one, inside one, beside one, beyond the arena or huge."""
    roll = rng.random()
    if arena.live and roll < 0.80:
        start = rng.choice(sorted(arena.live))
        size = arena.live[start]
        if roll < 0.55:
            return start
        if roll < 0.65:
            return start + rng.randrange(size)
        if roll < 0.70:
            return start + size
        if roll < 0.73:
            return abs(start - 1)
        return start + rng.choice((arena.bytes, 2**32, 2**63))
    if roll < 0.90:
        return 16 * rng.randrange(arena.bytes // 16)
    if roll < 0.95:
        return rng.randrange(arena.bytes)
    if roll < 0.98:
        return arena.bytes + rng.choice((-1, 0, 1, PAGE))
    return rng.choice(HUGE)


def some_request(rng, arena, filling=0.5):
    """A request of any kind but start. `filling` is the share of takes among takes and gives."""
    roll = rng.random()
    if roll < 0.80:
        if rng.random() < filling:
            return ('take', some_n(rng, arena))
        return ('give', some_offset(rng, arena))
    if roll < 0.92:
        return ('which', some_offset(rng, arena))
    return ('figures',) if roll < 0.96 else ('checkup',)


def some_slots(rng, size):
    """A set of slots of a page, at least one: a single one, all, all but one, or any."""
    count = slots_in_page(size)
    one = rng.randrange(count)
    kind = rng.randrange(4)
    if kind == 0:
        return {one}
    if kind == 1:
        return set(range(count))
    if kind == 2:
        return set(range(count)) - {one}
    return {slot for slot in range(count) if rng.random() < 0.5} | {one}


def some_live(rng, m):
    """A set of live blocks that section 2 allows in an arena of 2^m pages, as a dict from start to size."""
    live = {}

    def fill(first, k):
        roll = rng.random()
        if k > 0 and roll < 0.75:
            fill(first, k - 1)
            fill(first + (1 << (k - 1)), k - 1)
        elif k == 0 and roll < 0.60:
            size = rng.choice(SIZES)
            for slot in some_slots(rng, size):
                live[first * PAGE + slot * size] = size
        elif roll < 0.85:
            live[first * PAGE] = PAGE << k

    fill(0, m)
    return live


def history_to(rng, live):
    """Requests that lead from an arena with no live block to exactly these live blocks.

    First every page up to the highest that is wanted is taken as a block of its own. Then, in a random order, room is made for each
    large block and each served page and it is taken, a served page with all its slots; at that time no other place is lower. At the
    end whatever is not wanted is given back, in a random order.
    """
    pages = 1 + max((pages_of(*block)[-1] for block in live.items()), default=-1)
    requests = [('take', rng.randint(513, PAGE)) for _ in range(pages)]
    unwanted = {page * PAGE for page in range(pages)}
    pieces = sorted({(start // PAGE * PAGE if size in SIZES else start, size) for start, size in live.items()})
    rng.shuffle(pieces)
    for start, size in pieces:
        fillers = [page * PAGE for page in pages_of(start, size)]
        rng.shuffle(fillers)
        requests += [('give', filler) for filler in fillers]
        unwanted -= set(fillers)
        slots = slots_in_page(size) if size in SIZES else 1
        for slot in range(slots):
            requests.append(('take', size if rng.random() < 0.5 else least_n(size)))
            if start + slot * size not in live:
                unwanted.add(start + slot * size)
    leaving = sorted(unwanted)
    rng.shuffle(leaving)
    return requests + [('give', offset) for offset in leaving]


def least_n(size):
    """The least number of bytes for which a take is about blocks of this size."""
    if size == SIZES[0]:
        return 1
    smaller = max(s for s in (*SIZES, size // 2) if s < size)
    assert block_size(smaller + 1) == size
    return smaller + 1
