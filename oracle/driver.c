/* Runs a batch of cases (README.md) through libstation.a, as a station's program would call it, and writes what trial writes,
   but for the texts, which the library does not have. It stops with an error if a call writes outside its room or into its
   map; a map ends where readable memory does, so that a read past its end is a crash. */
#include <stdio.h>
#include <stdlib.h>
#include <string.h>
#include <sys/mman.h>
#include "krylozhma.h"

enum { MAP = 65536, ROOM = 4096, GUARD = 64, HEAD = 32, WALL = 65536 };

static uint8_t held[4][MAP];
static size_t held_len[4];
static uint64_t mark_dsq;
static uint32_t mark_bay;

/* A map as it is lent: its last byte is the last before the wall. */
static uint8_t *fence;

static void stop(const char *why) {
    fprintf(stderr, "driver: %s\n", why);
    exit(1);
}

static uint32_t word(const uint8_t *head, int i) {
    const uint8_t *p = head + 4 + 4 * i;
    return p[0] | p[1] << 8 | p[2] << 16 | (uint32_t)p[3] << 24;
}

static uint64_t wide(const uint8_t *head) {
    return (uint64_t)word(head, 1) << 32 | word(head, 0);
}

static const uint8_t *lent(int m) {
    uint8_t *map = fence + MAP - held_len[m];
    memcpy(map, held[m], held_len[m]);
    return map;
}

static void unchanged(const uint8_t *map, int m) {
    if (memcmp(map, held[m], held_len[m]) != 0) stop("a call changed its map");
}

static uint64_t sum(const uint8_t *bytes) {
    uint64_t s = 1;
    for (int i = 0; i < ROOM; i++) s = (s * 524287 + bytes[i]) % 17592186044399u;
    return s;
}

static int store(int m, const uint8_t *head) {
    uint32_t place = word(head, 0), count = word(head, 1), length = word(head, 2);
    if (place > MAP || count > MAP - place || length > MAP) return 0;
    held_len[m] = length;
    return fread(held[m] + place, 1, count, stdin) == count;
}

static int skip_text(const uint8_t *head) {
    uint8_t text[ROOM];
    uint32_t count = word(head, 0);
    return count <= ROOM && fread(text, 1, count, stdin) == count;
}

static void check(int m) {
    const uint8_t *map = lent(m);
    krylozhma_verdict v = krylozhma_verdict_of(krylozhma_check(map, held_len[m]));
    unchanged(map, m);
    printf("check %u %u\n", v.rule, v.node);
}

static int ask(int m, uint8_t fill, const uint8_t *head) {
    uint8_t memory[GUARD + ROOM + GUARD], *room = memory + GUARD;
    uint32_t length = word(head, 4);
    if (length > ROOM) return 0;
    memset(memory, 0xA5, sizeof memory);
    for (int i = 0; i < ROOM; i++) room[i] = (uint8_t)(fill + 37 * i);
    const uint8_t *map = lent(m);
    krylozhma_reply r = krylozhma_reply_of(krylozhma_ask(map, held_len[m], (int32_t)word(head, 0), (int32_t)word(head, 1), word(head, 2),
                                                         word(head, 3), mark_dsq, mark_bay, room, length));
    unchanged(map, m);
    for (int i = 0; i < GUARD; i++)
        if (memory[i] != 0xA5 || room[ROOM + i] != 0xA5) stop("a call wrote outside its room");
    if (r.answer == 0 && r.found > 0) {
        krylozhma_record last = krylozhma_record_at(room, r.found - 1);
        mark_dsq = last.dsq;
        mark_bay = last.bay;
    }
    printf("ask %u %u %llu\n", r.answer, r.found, (unsigned long long)sum(room));
    return 1;
}

static void measure(const uint8_t *head) {
    int32_t v[6];
    for (int i = 0; i < 6; i++) v[i] = (int32_t)word(head, i);
    printf("measure %u %llu %llu\n", krylozhma_measure_answer(v[0], v[1], v[2], v[3], v[4], v[5]),
           (unsigned long long)krylozhma_mindist(v[0], v[1], v[2], v[3], v[4], v[5]),
           (unsigned long long)krylozhma_minmaxdist(v[0], v[1], v[2], v[3], v[4], v[5]));
}

static int command(const uint8_t *head) {
    int m = head[1] & 3;
    switch (head[0]) {
    case 'M': return store(m, head);
    case 'T': return skip_text(head);
    case 'A': return ask(m, head[2], head);
    case 'C': check(m); return 1;
    case 'D': measure(head); return 1;
    case 'K': mark_dsq = wide(head); mark_bay = word(head, 2); return 1;
    case 'R': printf("plain %llu\n", (unsigned long long)krylozhma_plain(wide(head))); return 1;
    default: return 0;
    }
}

int main(void) {
    uint8_t head[HEAD] = {0};
    fence = mmap(NULL, MAP + WALL, PROT_READ | PROT_WRITE, MAP_PRIVATE | MAP_ANONYMOUS, -1, 0);
    if (fence == MAP_FAILED || mprotect(fence + MAP, WALL, PROT_NONE) != 0) stop("no memory");
    if (fread(head + 4, 1, 4, stdin) != 4) stop("no batch");
    for (uint32_t left = word(head, 0); left > 0; left--)
        if (fread(head, 1, HEAD, stdin) != HEAD || !command(head)) stop("a batch that is not whole");
    return 0;
}
