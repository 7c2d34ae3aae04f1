/* The rows of the table: who answers. The same signature for all, so that calling costs all of them the same. */
#ifndef ROWS_H
#define ROWS_H

#include "cells.h"

typedef uint64_t ask_function(const uint8_t *map, size_t map_len, int32_t x, int32_t y, uint32_t k, uint32_t badge,
                              uint64_t after_dsq, uint32_t after_bay, uint8_t *room, size_t room_len);

/* A row that has no check has a load, and answers from the tree that was loaded last. */
struct row {
    const char *name;
    ask_function *ask;
    uint64_t (*check)(const uint8_t *map, size_t map_len);
    void (*load)(const uint8_t *map);
};

int row_count(void);
struct row row_at(int i);

#endif
