/* The C interface, only for building the test double fake.c. The project's is include/breatharena.h. */
#ifndef BREATHARENA_H
#define BREATHARENA_H
#include <stddef.h>
#include <stdint.h>

uint64_t ba_start(uint64_t *table, size_t cells, uint64_t m);
uint64_t ba_take(uint64_t *table, size_t cells, uint64_t m, uint64_t n, uint64_t *offset);
uint64_t ba_give_back(uint64_t *table, size_t cells, uint64_t m, uint64_t offset);
uint64_t ba_which(const uint64_t *table, size_t cells, uint64_t m, uint64_t offset, uint64_t *start, uint64_t *size);
uint64_t ba_figures(const uint64_t *table, size_t cells, uint64_t m, uint64_t *live, uint64_t *held, uint64_t *room);
uint64_t ba_check_up(const uint64_t *table, size_t cells, uint64_t m, uint64_t *sound);
uint64_t ba_table_cells(uint64_t m);

#endif
