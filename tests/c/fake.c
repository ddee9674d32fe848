/* A TEST DOUBLE, not the allocator: a slow and simple library with the same interface, only to test driver.c, capi.py and faults.py.
 *
 * Every call reads the pages from the whole table into static memory, does its work there, and writes the whole table anew. It keeps
 * none of the bounds on cost. tests/caught.py makes copies of this file with one fault each, which the tests must find.
 */
#include <string.h>

#include "breatharena.h"

enum { PAGE = 1024, M_MOST = 12, PAGES_MOST = 1 << M_MOST, SIZES = 10, FIELD = 64, BLOCK_TAG = 63 };
static const uint64_t sizes[SIZES] = {16, 32, 48, 64, 96, 128, 192, 256, 384, 512};

/* What a page is: free, in a large block, or cut into slots. */
static struct page {
    uint64_t block; /* bytes of the large block that starts here */
    int in_block;   /* some large block holds this page */
    int size;       /* number of the small size, -1 for none */
    uint64_t live;  /* live slots as bits */
} page[PAGES_MOST];

static uint64_t scratch[3 * PAGES_MOST];

uint64_t ba_table_cells(uint64_t m)
{
    return m <= M_MOST ? UINT64_C(3) << m : 0;
}

static uint64_t table_refusal(size_t cells, uint64_t m)
{
    if (m > M_MOST)
        return 6;
    if (cells < ba_table_cells(m))
        return 5;
    return 0;
}

static uint64_t every_slot(int size)
{
    uint64_t slots = PAGE / sizes[size];
    return slots == 64 ? UINT64_MAX : (UINT64_C(1) << slots) - 1;
}

static int is_free(uint64_t p)
{
    return !page[p].in_block && page[p].size < 0;
}

/* From the table to the pages. */

static void read_node(const uint64_t *table, uint64_t pages, uint64_t node, uint64_t first, uint64_t count)
{
    uint64_t tag = table[node] / FIELD % FIELD;
    if (tag == BLOCK_TAG) {
        page[first].block = count * PAGE;
        for (uint64_t p = first; p < first + count; p++)
            page[p].in_block = 1;
    } else if (count > 1) {
        read_node(table, pages, 2 * node, first, count / 2);
        read_node(table, pages, 2 * node + 1, first + count / 2, count / 2);
    } else if (tag >= 1 && tag <= SIZES) {
        page[first].live = ~table[node + pages] & every_slot((int)tag - 1);
        page[first].size = page[first].live ? (int)tag - 1 : -1;
    }
}

static void forget(uint64_t pages)
{
    for (uint64_t p = 0; p < pages; p++)
        page[p] = (struct page){.size = -1};
}

static void read_table(const uint64_t *table, uint64_t m)
{
    forget(UINT64_C(1) << m);
    read_node(table, UINT64_C(1) << m, 1, 0, UINT64_C(1) << m);
}

/* From the pages to the table. */

static uint64_t height_plus_1(uint64_t count)
{
    uint64_t h = 0;
    for (; count; count /= 2)
        h++;
    return h;
}

static void write_node(uint64_t *table, uint64_t pages, uint64_t node, uint64_t first, uint64_t count, int below_block)
{
    int is_block = !below_block && page[first].block == count * PAGE;
    if (count > 1) {
        uint64_t *left = &table[2 * node], *right = left + 1;
        write_node(table, pages, 2 * node, first, count / 2, below_block || is_block);
        write_node(table, pages, 2 * node + 1, first + count / 2, count / 2, below_block || is_block);
        uint64_t x = *left % FIELD, y = *right % FIELD, full = height_plus_1(count / 2);
        uint64_t room = x == full && y == full ? full + 1 : x > y ? x : y;
        table[node] = room + ((*left | *right) & ~UINT64_C(4095));
    } else {
        table[node + pages] = 0;
        table[node] = 1;
        if (page[first].size >= 0) {
            table[node + pages] = every_slot(page[first].size) & ~page[first].live;
            uint64_t mask = table[node + pages] ? UINT64_C(1) << page[first].size : 0;
            table[node] = FIELD * (uint64_t)(page[first].size + 1) + FIELD * FIELD * mask;
        }
    }
    if (is_block)
        table[node] = FIELD * BLOCK_TAG;
}

static void write_table(uint64_t *table, uint64_t m)
{
    table[0] = 0;
    write_node(table, UINT64_C(1) << m, 1, 0, UINT64_C(1) << m, 0);
}

/* Searches. */

static int size_number(uint64_t n)
{
    for (int i = 0; i < SIZES; i++)
        if (n <= sizes[i])
            return i;
    return -1;
}

static int lowest_run(uint64_t m, uint64_t count, uint64_t *first)
{
    for (uint64_t p = 0; p + count <= UINT64_C(1) << m; p += count) {
        uint64_t q = p;
        while (q < p + count && is_free(q))
            q++;
        if (q == p + count) {
            *first = p;
            return 1;
        }
    }
    return 0;
}

/* The page of the lowest slot: one that serves the size and is not full, else a free one. */
static int page_for_slot(uint64_t m, int size, uint64_t *p)
{
    for (*p = 0; *p < UINT64_C(1) << m; ++*p)
        if (page[*p].size == size && page[*p].live != every_slot(size))
            return 1;
    return lowest_run(m, 1, p);
}

/* The live block that holds a byte of the arena. */
static int block_at(uint64_t offset, uint64_t *start, uint64_t *size)
{
    uint64_t p = offset / PAGE;
    if (page[p].size >= 0) {
        *size = sizes[page[p].size];
        uint64_t slot = offset % PAGE / *size;
        *start = p * PAGE + slot * *size;
        return slot < PAGE / *size && (page[p].live >> slot & 1);
    }
    if (!page[p].in_block)
        return 0;
    while (!page[p].block)
        p--;
    *start = p * PAGE;
    *size = page[p].block;
    return 1;
}

/* The calls. */

uint64_t ba_start(uint64_t *table, size_t cells, uint64_t m)
{
    uint64_t refusal = table_refusal(cells, m);
    if (refusal)
        return refusal;
    forget(UINT64_C(1) << m);
    write_table(table, m);
    return 0;
}

uint64_t ba_take(uint64_t *table, size_t cells, uint64_t m, uint64_t n, uint64_t *offset)
{
    uint64_t refusal = table_refusal(cells, m), p, count = 1;
    *offset = 0;
    if (refusal)
        return refusal;
    if (n == 0)
        return 1;
    if (n > (uint64_t)PAGE << m)
        return 2;
    read_table(table, m);
    int size = size_number(n);
    while (PAGE * count < n)
        count *= 2;
    if (!(size >= 0 ? page_for_slot(m, size, &p) : lowest_run(m, count, &p)))
        return 3;
    *offset = p * PAGE;
    if (size >= 0) {
        uint64_t slot = 0;
        while (page[p].live >> slot & 1)
            slot++;
        page[p].size = size;
        page[p].live |= UINT64_C(1) << slot;
        *offset += slot * sizes[size];
    } else {
        page[p].block = count * PAGE;
        for (uint64_t q = p; q < p + count; q++)
            page[q].in_block = 1;
    }
    write_table(table, m);
    return 0;
}

uint64_t ba_give_back(uint64_t *table, size_t cells, uint64_t m, uint64_t offset)
{
    uint64_t refusal = table_refusal(cells, m), start, size;
    if (refusal)
        return refusal;
    if (offset >= (uint64_t)PAGE << m)
        return 4;
    read_table(table, m);
    if (!block_at(offset, &start, &size) || start != offset)
        return 4;
    uint64_t p = offset / PAGE;
    if (size < PAGE) {
        page[p].live &= ~(UINT64_C(1) << offset % PAGE / size);
        if (!page[p].live)
            page[p].size = -1;
    } else {
        for (uint64_t q = p; q < p + size / PAGE; q++)
            page[q] = (struct page){.size = -1};
    }
    write_table(table, m);
    return 0;
}

uint64_t ba_which(const uint64_t *table, size_t cells, uint64_t m, uint64_t offset, uint64_t *start, uint64_t *size)
{
    uint64_t refusal = table_refusal(cells, m), found_start, found_size;
    *start = *size = 0;
    if (refusal)
        return refusal;
    if (offset >= (uint64_t)PAGE << m)
        return 4;
    read_table(table, m);
    if (!block_at(offset, &found_start, &found_size))
        return 4;
    *start = found_start;
    *size = found_size;
    return 0;
}

uint64_t ba_figures(const uint64_t *table, size_t cells, uint64_t m, uint64_t *live, uint64_t *held, uint64_t *room)
{
    uint64_t refusal = table_refusal(cells, m), first;
    *live = *held = *room = 0;
    if (refusal)
        return refusal;
    read_table(table, m);
    for (uint64_t p = 0; p < UINT64_C(1) << m; p++) {
        *held += is_free(p) ? 0 : PAGE;
        *live += page[p].block;
        for (uint64_t bits = page[p].live; bits; bits &= bits - 1)
            *live += sizes[page[p].size];
    }
    for (uint64_t k = 0; k <= m; k++)
        if (lowest_run(m, UINT64_C(1) << k, &first))
            *room = (uint64_t)PAGE << k;
    return 0;
}

uint64_t ba_check_up(const uint64_t *table, size_t cells, uint64_t m, uint64_t *sound)
{
    uint64_t refusal = table_refusal(cells, m);
    *sound = 0;
    if (refusal)
        return refusal;
    read_table(table, m);
    write_table(scratch, m);
    *sound = memcmp(table, scratch, ba_table_cells(m) * sizeof *table) == 0;
    return 0;
}
