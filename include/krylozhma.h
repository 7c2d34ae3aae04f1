/* The station's library: checks floor maps, answers which bays are nearest, and measures. Link target/staticlib/libstation.a,
   which `tools/build station_c` proves and writes. Nothing is allocated, nothing is kept between calls, and every call ends,
   whatever it is given; each function's contract is in crates/station_c/src/lib.rt. docs/MAP.md has the map, the question and
   the reply. No pointer is null, even where its length is 0. One call takes at most 45 KB of stack. */
#ifndef KRYLOZHMA_H
#define KRYLOZHMA_H

#include <stddef.h>
#include <stdint.h>

#ifdef __cplusplus
extern "C" {
#endif

/* The map check: the first broken rule's number (11 to 16) in the upper 32 bits, the lowest node at fault in the lower; 0
   for a map that keeps every rule. */
uint64_t krylozhma_check(const uint8_t *map, size_t map_len);

/* A question: the first k bays of the badge's zones after the mark (after_dsq, after_bay), nearest first, as records of
   16 bytes in the room. The answer's number (0 to 5) is in the upper 32 bits, and how many bays were found in the lower.
   A refusal (1 to 5) finds 0 and changes no byte of the room. */
uint64_t krylozhma_ask(const uint8_t *map, size_t map_len, int32_t x, int32_t y, uint32_t k, uint32_t badge,
                       uint64_t after_dsq, uint32_t after_bay, uint8_t *room, size_t room_len);

/* Whether the two measures below are refused: 1 for a point out of range, 2 for a box out of range or with low > high, 0
   for neither. */
uint32_t krylozhma_measure_answer(int32_t x, int32_t y, int32_t xlow, int32_t xhigh, int32_t ylow, int32_t yhigh);

/* MINDIST of a point and a box, a squared distance; 0 when refused. */
uint64_t krylozhma_mindist(int32_t x, int32_t y, int32_t xlow, int32_t xhigh, int32_t ylow, int32_t yhigh);

/* MINMAXDIST of a point and a box, a squared distance; 0 when refused. */
uint64_t krylozhma_minmaxdist(int32_t x, int32_t y, int32_t xlow, int32_t xhigh, int32_t ylow, int32_t yhigh);

/* The plain distance of a squared one: the whole number r with r * r <= dsq < (r + 1) * (r + 1). */
uint64_t krylozhma_plain(uint64_t dsq);

/* ---- the pairs and the records, unpacked */

typedef struct { uint32_t rule, node; } krylozhma_verdict;
typedef struct { uint32_t answer, found; } krylozhma_reply;
typedef struct { uint32_t bay; uint8_t zone; uint64_t dsq; } krylozhma_record;

/* The rule and the node of a check. */
static inline krylozhma_verdict krylozhma_verdict_of(uint64_t pair) {
    krylozhma_verdict v = { (uint32_t)(pair >> 32), (uint32_t)pair };
    return v;
}

/* The answer and the found of a question. */
static inline krylozhma_reply krylozhma_reply_of(uint64_t pair) {
    krylozhma_reply r = { (uint32_t)(pair >> 32), (uint32_t)pair };
    return r;
}

/* Record i of a room; i is below found. */
static inline krylozhma_record krylozhma_record_at(const uint8_t *room, uint32_t i) {
    const uint8_t *p = room + 16 * (size_t)i;
    krylozhma_record r = { 0, p[4], 0 };
    for (int b = 3; b >= 0; b--) r.bay = r.bay << 8 | p[b];
    for (int b = 15; b >= 8; b--) r.dsq = r.dsq << 8 | p[b];
    return r;
}

#ifdef __cplusplus
}
#endif

#endif
