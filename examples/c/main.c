/* How a firmware uses the allocator: a static table, start, a take, a refusal handled, a give back, a check-up. */
#include <inttypes.h>
#include <stdio.h>
#include <stdlib.h>

#include "breatharena.h"

enum { M = 3, CELLS = 3 << M }; /* eight pages; CELLS is what ba_table_cells(M) answers */

static uint64_t table[CELLS];
/* the arena itself, aligned to its whole size; the allocator never touches it */
static _Alignas(1024 << M) unsigned char arena[1024 << M];

/* Takes a buffer; NULL where it is refused. A real unit would raise its own fault here. */
static unsigned char *buffer_for(uint64_t bytes)
{
    uint64_t offset;
    uint64_t refusal = ba_take(table, CELLS, M, bytes, &offset);
    if (refusal != BA_DONE) {
        printf("take %" PRIu64 ": refusal %" PRIu64 "\n", bytes, refusal);
        return NULL;
    }
    printf("take %" PRIu64 ": offset %" PRIu64 "\n", bytes, offset);
    return arena + offset;
}

int main(void)
{
    if (ba_table_cells(M) != CELLS || ba_start(table, CELLS, M) != BA_DONE) {
        return EXIT_FAILURE;
    }
    unsigned char *record = buffer_for(100);  /* an alarm record: a slot of 128 bytes */
    unsigned char *screen = buffer_for(4096); /* a screen buffer: four pages */
    if (record == NULL || screen == NULL) {
        return EXIT_FAILURE;
    }
    if (buffer_for(5000) == NULL) { /* eight pages are not to be had any more */
        puts("the larger buffer has to wait");
    }
    uint64_t start, size;
    if (ba_which(table, CELLS, M, (uint64_t)(screen - arena) + 700, &start, &size) == BA_DONE) {
        printf("byte %" PRIu64 " is in the block at %" PRIu64 " of %" PRIu64 " bytes\n", (uint64_t)(screen - arena) + 700, start, size);
    }
    if (ba_give_back(table, CELLS, M, (uint64_t)(screen - arena)) != BA_DONE) {
        return EXIT_FAILURE;
    }
    uint64_t sound;
    if (ba_check_up(table, CELLS, M, &sound) != BA_DONE || sound != 1) {
        puts("the table is not sound: start again");
        return EXIT_FAILURE;
    }
    uint64_t live, held, room;
    if (ba_figures(table, CELLS, M, &live, &held, &room) == BA_DONE) {
        printf("live %" PRIu64 ", held %" PRIu64 ", room %" PRIu64 "\n", live, held, room);
    }
    return EXIT_SUCCESS;
}
