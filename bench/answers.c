/* All rows against the reply by definition, and the two map checks against each other on damaged maps. */
#include "answers.h"
#include "krylozhma.h"
#include "plain.h"
#include "plain_bytes.h"
#include "rows.h"

#include <stdio.h>
#include <stdlib.h>
#include <string.h>

enum { FILLER = 0xa5, DAMAGED = 600 };
static struct hall hall;
static uint64_t seed = 20261115;

static uint32_t dice(uint32_t sides) {
    seed = seed * 6364136223846793005u + 1442695040888963407u;
    return (uint32_t)(seed >> 33) % sides;
}

static void fail(const char *what, const char *who) {
    fprintf(stderr, "answers differ: %s, %s, hall %s\n", who, what, hall.name);
    exit(1);
}

/* The room that a question must leave, and how many bays it must find. */
static uint32_t expect(const struct question *q, uint8_t room[ROOM_LEN]) {
    static struct near_bay list[MAX_BAYS];
    int count = list_by_definition(&hall, (int32_t[]){ q->x, q->y }, q->badge, list), at = 0;
    uint32_t found = 0;
    while (at < count && (list[at].dsq < q->after_dsq || (list[at].dsq == q->after_dsq && list[at].bay <= q->after_bay))) at++;
    memset(room, FILLER, ROOM_LEN);
    memset(room, 0, 16 * q->k);
    for (; at < count && found < q->k; at++, found++) {
        for (int b = 0; b < 4; b++) room[16 * found + b] = (uint8_t)(list[at].bay >> 8 * b);
        room[16 * found + 4] = (uint8_t)list[at].zone;
        for (int b = 0; b < 8; b++) room[16 * found + 8 + b] = (uint8_t)(list[at].dsq >> 8 * b);
    }
    return found;
}

static void compare_rows(const struct question *q) {
    uint8_t room[ROOM_LEN], expected[ROOM_LEN];
    uint32_t found = expect(q, expected);
    for (int r = 0; r < row_count(); r++) {
        struct row row = row_at(r);
        memset(room, FILLER, sizeof room);
        uint64_t reply = row.ask(hall.map, hall.len, q->x, q->y, q->k, q->badge, q->after_dsq, q->after_bay, room, ROOM_LEN);
        if (reply != found) fail("found", row.name);
        if (memcmp(room, expected, ROOM_LEN) != 0) fail("room", row.name);
    }
}

static int compare_cells(void) {
    struct question questions[POINTS];
    int asked = 0;
    for (int c = 0; c < cell_count; c++) {
        if (!questions_of(&hall, &cells[c], questions)) continue;
        for (int i = 0; i < POINTS; i++, asked++) compare_rows(&questions[i]);
    }
    return asked;
}

/* The refusals of the two rows that refuse, in all their mixtures, and the mark at its ends. */
static void compare_refusals(size_t len) {
    static const int32_t place[] = { 0, 1000000, 1000001, -1000001 };
    static const uint32_t count[] = { 1, 100, 0, 101 }, badge[] = { 1, 0xff, 0x1ff, 0, 0x7fffffff, 0xffffffff };
    static const size_t room_len[] = { 1600, 16, 15 };
    uint8_t ours[ROOM_LEN], plain[ROOM_LEN];
    for (int i = 0; i < 4 * 4 * 6 * 3 * 2; i++) {
        int32_t x = place[i % 4];
        uint32_t k = count[i / 4 % 4], zones = badge[i / 16 % 6], bay = i / 288 ? UINT32_MAX : 0;
        uint64_t dsq = i / 288 ? 4000000 : 0;
        memset(ours, FILLER, ROOM_LEN);
        memset(plain, FILLER, ROOM_LEN);
        if (krylozhma_ask(hall.map, len, x, 7, k, zones, dsq, bay, ours, room_len[i / 96 % 3])
                != plain_ask(hall.map, len, x, 7, k, zones, dsq, bay, plain, room_len[i / 96 % 3])
            || memcmp(ours, plain, ROOM_LEN) != 0)
            fail("a refusal", "plain");
    }
}

/* A node, above the leaves if that is wanted and a few throws find one; the header may be damaged and is not asked. */
static uint8_t *any_node(int inner) {
    uint32_t count = (uint32_t)(hall.len - HEADER) / NODE, n = dice(count);
    for (int throws = 0; throws < 200 && inner && hall.map[HEADER + NODE * n] == 0; throws++) n = dice(count);
    return hall.map + HEADER + NODE * n;
}

static uint8_t *any_slot(int inner) { return any_node(inner) + 4 + SLOT * dice(SLOTS); }

/* One fault of a kind that a rule is there for; some leave the map accepted. */
static void damage(void) {
    uint8_t *slot = any_slot(dice(2)), *node = any_node(dice(2));
    switch (dice(10)) {
    case 0: hall.map[dice(8)] ^= (uint8_t)(1u << dice(8)); break;
    case 1: hall.map[dice((uint32_t)hall.len)] = (uint8_t)dice(256); break;
    case 2: slot[4 * dice(4)] += (uint8_t)(dice(3) - 1); break;
    case 3: memset(any_slot(0), 0, SLOT); break;
    case 4: memcpy(any_slot(0) + 16, any_slot(0) + 16, 4); break;
    case 5: { uint8_t *inner = any_slot(1); memcpy(inner, any_slot(1), SLOT); break; }
    case 6: node[0] = (uint8_t)dice(4); break;
    case 7: { uint32_t s = dice(SLOTS); node[1] &= (uint8_t)~(1u << s); memset(node + 4 + SLOT * s, 0, SLOT); break; }
    case 8: node[1] &= 3, memset(node + 4 + 2 * SLOT, 0, 6 * SLOT); break;
    case 9: hall.len -= dice(2) ? 1 : NODE; break;
    }
}

static void compare_damaged(const char *folder, const char *name, int verdicts[17]) {
    for (int i = 0; i < DAMAGED; i++) {
        read_hall(&hall, folder, name);
        for (uint32_t faults = dice(3) + 1; faults > 0; faults--) damage();
        uint64_t ours = krylozhma_check(hall.map, hall.len);
        if (ours != plain_check(hall.map, hall.len)) fail("the check of a damaged map", "plain");
        verdicts[ours >> 32]++;
        if (ours != 0 && i % 100 == 0) compare_refusals(hall.len);
    }
}

int compare_answers(const char *folder) {
    static const char *const names[] = { "64", "512", "1784", "tied" };
    int asked = 0, verdicts[17] = { 0 };
    for (int h = 0; h < 4; h++) {
        read_hall(&hall, folder, names[h]);
        if (krylozhma_check(hall.map, hall.len) != 0 || plain_check(hall.map, hall.len) != 0) fail("the check", "both");
        for (int r = 0; r < row_count(); r++)
            if (row_at(r).load) row_at(r).load(hall.map);
        asked += compare_cells();
        compare_refusals(hall.len);
        compare_damaged(folder, names[h], verdicts);
    }
    printf("answers: %d rows agree with the definition on %d questions; both checks agree on %d damaged maps\n"
           "(rule 11: %d, 12: %d, 13: %d, 14: %d, 15: %d, 16: %d, still accepted: %d)\n", row_count(), asked, 4 * DAMAGED,
           verdicts[11], verdicts[12], verdicts[13], verdicts[14], verdicts[15], verdicts[16], verdicts[0]);
    return 0;
}
