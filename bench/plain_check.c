/* The map check in plain C: one pass over the nodes for rules 12 to 15, a hash set for rule 16. */
#include "plain.h"
#include "plain_bytes.h"

#include <string.h>

enum { REACH = 1000000, NOBODY = MAX_NODES, TABLE = 4096 };

/* The lowest node at fault under each rule, NOBODY where there is none, and how often each node is named. */
struct faults {
    uint32_t fill, links, boxes;
    uint8_t named[MAX_NODES];
};

static uint64_t verdict(uint32_t rule, uint32_t node) { return (uint64_t)rule << 32 | node; }

static int header_ok(const uint8_t *map, size_t len) {
    if (len < HEADER) return 0;
    uint32_t count = u16_at(map);
    return count >= 1 && count <= MAX_NODES && u16_at(map + 2) < count && map[4] >= 1 && map[4] <= 6
        && (map[5] | map[6] | map[7]) == 0 && len == HEADER + (size_t)NODE * count;
}

static int in_reach(int32_t c) { return (uint32_t)c + REACH <= 2u * REACH; }

static int slot_ok(const uint8_t *slot, int is_leaf, uint32_t count) {
    int32_t x_low = i32_at(slot), x_high = i32_at(slot + 4), y_low = i32_at(slot + 8), y_high = i32_at(slot + 12);
    if (!in_reach(x_low) || !in_reach(x_high) || !in_reach(y_low) || !in_reach(y_high)) return 0;
    if (x_low > x_high || y_low > y_high) return 0;
    uint32_t reference = reference_of(slot), zone_and_zeros = u32_at(slot + 20);
    return is_leaf ? reference != 0 && zone_and_zeros < 32 : reference < count && zone_and_zeros == 0;
}

static int slot_blank(const uint8_t *slot) { return (u64_at(slot) | u64_at(slot + 8) | u64_at(slot + 16)) == 0; }

static int form_ok(const uint8_t *node, uint32_t count, uint32_t height) {
    uint32_t filled = occupancy_of(node);
    if (level_of(node) >= height || node[2] != 0 || node[3] != 0) return 0;
    for (int i = 0; i < SLOTS; i++, filled >>= 1)
        if (filled & 1 ? !slot_ok(slot_at(node, i), level_of(node) == 0, count) : !slot_blank(slot_at(node, i)))
            return 0;
    return 1;
}

static int fill_ok(const uint8_t *node, int is_root) {
    int filled = __builtin_popcount(occupancy_of(node));
    return filled >= (is_root ? (level_of(node) == 0 ? 0 : 2) : 3);
}

/* Whether a slot's box is the smallest one round the filled boxes of the node that it names. */
static int box_tight(const uint8_t *slot, const uint8_t *child) {
    int32_t x_low = INT32_MAX, x_high = INT32_MIN, y_low = INT32_MAX, y_high = INT32_MIN;
    for (uint32_t left = occupancy_of(child); left != 0; left &= left - 1) {
        const uint8_t *s = slot_at(child, __builtin_ctz(left));
        if (i32_at(s) < x_low) x_low = i32_at(s);
        if (i32_at(s + 4) > x_high) x_high = i32_at(s + 4);
        if (i32_at(s + 8) < y_low) y_low = i32_at(s + 8);
        if (i32_at(s + 12) > y_high) y_high = i32_at(s + 12);
    }
    return x_low == i32_at(slot) && x_high == i32_at(slot + 4) && y_low == i32_at(slot + 8) && y_high == i32_at(slot + 12);
}

/* Rules 14 and 15 as far as one inner node goes; its own form is known to be good. */
static void judge_children(const uint8_t *map, uint32_t n, struct faults *f) {
    const uint8_t *node = node_at(map, n);
    for (uint32_t left = occupancy_of(node); left != 0; left &= left - 1) {
        const uint8_t *slot = slot_at(node, __builtin_ctz(left));
        const uint8_t *child = node_at(map, reference_of(slot));
        if (f->named[reference_of(slot)] < 2) f->named[reference_of(slot)]++;
        if (f->links == NOBODY && level_of(child) + 1 != level_of(node)) f->links = n;
        if (f->boxes == NOBODY && !box_tight(slot, child)) f->boxes = n;
    }
}

/* The lowest node at fault under rule 14, with those that name wrongly already in f->links. */
static uint32_t links_fault(const uint8_t *map, uint32_t count, uint32_t root, uint32_t height, const struct faults *f) {
    for (uint32_t n = 0; n < count && n < f->links; n++) {
        if (f->named[n] != (n == root ? 0 : 1)) return n;
        if (n == root && level_of(node_at(map, n)) != height - 1) return n;
    }
    return f->links;
}

static uint32_t bay_in(const uint8_t *map, uint32_t slot) {
    return reference_of(slot_at(node_at(map, slot / SLOTS), slot % SLOTS));
}

/* The lowest node with a bay number that stands again. A bay is hashed to a place, which keeps its slot, and 0 for none. */
static uint32_t bays_fault(const uint8_t *map, uint32_t count) {
    uint16_t places[TABLE];
    uint32_t lowest = NOBODY;
    memset(places, 0, sizeof places);
    for (uint32_t n = 0; n < count; n++) {
        const uint8_t *node = node_at(map, n);
        if (level_of(node) != 0) continue;
        for (uint32_t left = occupancy_of(node); left != 0; left &= left - 1) {
            uint32_t i = (uint32_t)__builtin_ctz(left), bay = reference_of(slot_at(node, (int)i));
            uint32_t at = bay * 2654435769u >> 20;
            while (places[at] != 0 && bay_in(map, places[at] - 1u) != bay) at = (at + 1) % TABLE;
            if (places[at] == 0) places[at] = (uint16_t)(SLOTS * n + i + 1);
            else if ((places[at] - 1u) / SLOTS < lowest) lowest = (places[at] - 1u) / SLOTS;
        }
    }
    return lowest;
}

uint64_t plain_check(const uint8_t *map, size_t map_len) {
    if (!header_ok(map, map_len)) return verdict(11, 0);
    uint32_t count = u16_at(map), root = u16_at(map + 2), height = map[4];
    struct faults f = { NOBODY, NOBODY, NOBODY, { 0 } };
    for (uint32_t n = 0; n < count; n++) {
        const uint8_t *node = node_at(map, n);
        if (!form_ok(node, count, height)) return verdict(12, n);
        if (f.fill == NOBODY && !fill_ok(node, n == root)) f.fill = n;
        if (level_of(node) != 0) judge_children(map, n, &f);
    }
    if (f.fill != NOBODY) return verdict(13, f.fill);
    uint32_t fault = links_fault(map, count, root, height, &f);
    if (fault != NOBODY) return verdict(14, fault);
    if (f.boxes != NOBODY) return verdict(15, f.boxes);
    fault = bays_fault(map, count);
    return fault != NOBODY ? verdict(16, fault) : 0;
}
