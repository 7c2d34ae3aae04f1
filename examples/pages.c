/* Loads a map, checks it, and pages through what a badge sees from a point, ten bays at a time.
   Usage: pages FLOOR.MAP X Y BADGE */
#include "krylozhma.h"

#include <inttypes.h>
#include <stdio.h>
#include <stdlib.h>

int main(int argc, char **argv) {
    static uint8_t map[50185];
    uint8_t room[10 * 16];
    if (argc != 5) {
        fprintf(stderr, "usage: pages FLOOR.MAP X Y BADGE\n");
        return 2;
    }
    FILE *file = fopen(argv[1], "rb");
    size_t len = file ? fread(map, 1, sizeof map, file) : 0;
    if (file) fclose(file);

    krylozhma_verdict verdict = krylozhma_verdict_of(krylozhma_check(map, len));
    printf("check: rule %" PRIu32 ", node %" PRIu32 "\n", verdict.rule, verdict.node);

    krylozhma_record last = { 0, 0, 0 };
    for (int page = 1;; page++) {
        krylozhma_reply reply = krylozhma_reply_of(krylozhma_ask(map, len, atoi(argv[2]), atoi(argv[3]), 10,
            (uint32_t)strtoul(argv[4], NULL, 10), last.dsq, last.bay, room, sizeof room));
        printf("page %d: answer %" PRIu32 ", found %" PRIu32 "\n", page, reply.answer, reply.found);
        for (uint32_t i = 0; i < reply.found; i++) {
            last = krylozhma_record_at(room, i);
            printf("  bay %" PRIu32 ", zone %d, %" PRIu64 " mm\n", last.bay, last.zone, krylozhma_plain(last.dsq));
        }
        if (reply.answer != 0 || reply.found < 10) return reply.answer != 0;
    }
}
