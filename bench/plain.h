/* The benchmark's own answer to the same question, in plain C: no proof, the same bytes. */
#ifndef PLAIN_H
#define PLAIN_H

#include <stddef.h>
#include <stdint.h>

/* As krylozhma_check. */
uint64_t plain_check(const uint8_t *map, size_t map_len);

/* As krylozhma_ask. */
uint64_t plain_ask(const uint8_t *map, size_t map_len, int32_t x, int32_t y, uint32_t k, uint32_t badge,
                   uint64_t after_dsq, uint32_t after_bay, uint8_t *room, size_t room_len);

#endif
