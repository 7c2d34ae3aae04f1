/* The bytes of a map, for the rivals of the benchmark. gcc makes one load, or one store, of each of these. */
#ifndef PLAIN_BYTES_H
#define PLAIN_BYTES_H

#include <stddef.h>
#include <stdint.h>

enum { HEADER = 8, NODE = 196, SLOT = 24, SLOTS = 8, MAX_NODES = 256 };

static inline uint32_t u16_at(const uint8_t *p) { return p[0] | (uint32_t)p[1] << 8; }
static inline uint32_t u32_at(const uint8_t *p) {
    return p[0] | (uint32_t)p[1] << 8 | (uint32_t)p[2] << 16 | (uint32_t)p[3] << 24;
}
static inline int32_t i32_at(const uint8_t *p) { return (int32_t)u32_at(p); }
static inline uint64_t u64_at(const uint8_t *p) { return u32_at(p) | (uint64_t)u32_at(p + 4) << 32; }

static inline void put_u64(uint8_t *p, uint64_t value) {
    p[0] = (uint8_t)value, p[1] = (uint8_t)(value >> 8), p[2] = (uint8_t)(value >> 16), p[3] = (uint8_t)(value >> 24);
    p[4] = (uint8_t)(value >> 32), p[5] = (uint8_t)(value >> 40), p[6] = (uint8_t)(value >> 48), p[7] = (uint8_t)(value >> 56);
}

static inline const uint8_t *node_at(const uint8_t *map, uint32_t node) { return map + HEADER + (size_t)NODE * node; }
static inline const uint8_t *slot_at(const uint8_t *node, int slot) { return node + 4 + SLOT * slot; }
static inline uint32_t level_of(const uint8_t *node) { return node[0]; }
static inline uint32_t occupancy_of(const uint8_t *node) { return node[1]; }
static inline uint32_t reference_of(const uint8_t *slot) { return u32_at(slot + 16); }

#endif
