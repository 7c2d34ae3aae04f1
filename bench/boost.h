/* The question answered by Boost.Geometry's R-tree, in several ways; a tree is loaded once and asked many times. */
#ifndef BOOST_ROW_H
#define BOOST_ROW_H

#include <stddef.h>
#include <stdint.h>

#ifdef __cplusplus
extern "C" {
#endif

/* As krylozhma_ask; the map's bytes are not looked at, and nothing is refused. */
typedef uint64_t boost_ask(const uint8_t *map, size_t map_len, int32_t x, int32_t y, uint32_t k, uint32_t badge,
                           uint64_t after_dsq, uint32_t after_bay, uint8_t *room, size_t room_len);

/* How ties are put right, which coordinates, which tree; load builds the tree from the bays of an accepted map. */
struct boost_way { const char *name; void (*load)(const uint8_t *map); boost_ask *ask; };
extern const struct boost_way boost_ways[];
extern const int boost_way_count;

#ifdef __cplusplus
}
#endif

#endif
