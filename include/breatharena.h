/* Breatharena: a memory allocator with a proof, for one arena on one processor.
 *
 * The arena is 2^m pages of 1,024 bytes, 0 <= m <= 12. The allocator never touches it: it deals in offsets from its first byte, and
 * the caller lends the arena aligned to its whole size. All that is remembered stands in a table of 64-bit cells that the caller
 * owns, keeps and lends to every call, with the m of its ba_start; `cells` is its length in cells, not in bytes. Needed are 3 * 2^m cells, which
 * ba_table_cells(m) says too. A table may be longer: what lies beyond is neither read nor written. A block taken is the taker's until it
 * is given back, and its bytes are as they were left.
 *
 * A table may hold anything, damaged cells too: every call is safe, ends within a fixed number of accesses and stays inside the table.
 * What the answers mean is promised for a sound table: the table of some set of live blocks, as is every table that ba_start made and that
 * only these functions have changed since. ba_check_up tells exactly this. Damage that leaves the table of other live blocks can't be seen.
 *
 * Every function but ba_table_cells returns 0 or a refusal number. After a refusal every cell is what it was, and every value handed back is 0.
 * No pointer may be null. A value handed back must not lie in the table, and no two of them at one address. One call at a time for one table.
 */
#ifndef BREATHARENA_H
#define BREATHARENA_H

#include <stddef.h>
#include <stdint.h>

#ifdef __cplusplus
extern "C" {
#endif

/* the refusal numbers, tried in the order 6, 5, 1, 2, 3 or 6, 5, 4 */
enum {
    BA_DONE = 0,
    BA_ZERO_BYTES = 1,      /* take of 0 bytes */
    BA_MORE_THAN_ARENA = 2, /* take of more bytes than the whole arena has */
    BA_NO_ROOM = 3,         /* take: no block of that kind is to be had now */
    BA_NOT_LIVE = 4,        /* give back: not the start of a live block; which: in no live block; an offset beyond the arena */
    BA_TABLE_SHORT = 5,     /* the table is too short for m */
    BA_M_TOO_LARGE = 6      /* m is more than 12 */
};

/* The cells that a table for m needs; 0 where m is refused. */
uint64_t ba_table_cells(uint64_t m);

/* The table stands for an arena with no live block from now on, whatever it held. Stores each needed cell once; the
 * bitmaps, a third of them, by memset, which the archive wants from whoever links it.
 */
uint64_t ba_start(uint64_t *table, size_t cells, uint64_t m);

/* Takes a block for n bytes, always the lowest that is to be had; its offset is handed back. At most 3(m + 1) + 2 accesses to the table. */
uint64_t ba_take(uint64_t *table, size_t cells, uint64_t m, uint64_t n, uint64_t *offset);

/* Gives back the block that starts exactly at the offset. At most 2(m + 1) + 2 accesses to the table. */
uint64_t ba_give_back(uint64_t *table, size_t cells, uint64_t m, uint64_t offset);

/* The start and the size of the live block that holds the byte at the offset. At most m + 1 accesses to the table, 2 for m = 0. */
uint64_t ba_which(const uint64_t *table, size_t cells, uint64_t m, uint64_t offset, uint64_t *start, uint64_t *size);

/* The bytes of the live blocks, the bytes of the pages that aren't free, and the size of the largest block of free pages. At most
 * 3 * 2^m accesses to the table.
 */
uint64_t ba_figures(const uint64_t *table, size_t cells, uint64_t m, uint64_t *live, uint64_t *held, uint64_t *room);

/* Whether the table is sound, as *sound: 1 or 0. At most 5 * 2^m - 2 accesses to the table. */
uint64_t ba_check_up(const uint64_t *table, size_t cells, uint64_t m, uint64_t *sound);

#ifdef __cplusplus
}
#endif

#endif
