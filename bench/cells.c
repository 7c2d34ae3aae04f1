/* The halls, the cells, and the reply by definition. */
#include "cells.h"
#include "plain_bytes.h"

#include <stdio.h>
#include <stdlib.h>
#include <string.h>

#define ALL_ZONES 0xffffffffu
#define ONE_ZONE (1u << 5)
#define PAGES(name, badge, k) { name, badge, k, 1 }, { name, badge, k, 5 }
#define COUNTS(name, badge) PAGES(name, badge, 1), PAGES(name, badge, 10), PAGES(name, badge, 100)
const struct cell cells[] = { COUNTS("all", ALL_ZONES), COUNTS("one", ONE_ZONE) };
const int cell_count = sizeof cells / sizeof *cells;

static size_t read_file(const char *folder, const char *name, const char *ending, void *bytes, size_t most) {
    char path[4096];
    snprintf(path, sizeof path, "%s/%s%s", folder, name, ending);
    FILE *file = fopen(path, "rb");
    if (!file) {
        fprintf(stderr, "cannot read %s\n", path);
        exit(2);
    }
    size_t len = fread(bytes, 1, most, file);
    fclose(file);
    return len;
}

void read_hall(struct hall *hall, const char *folder, const char *name) {
    hall->name = name;
    hall->len = read_file(folder, name, ".map", hall->map, MAX_MAP);
    if (read_file(folder, name, ".points", hall->points, sizeof hall->points) != sizeof hall->points) exit(2);
}

static int64_t beyond(int64_t p, int64_t low, int64_t high) { return p < low ? low - p : p > high ? p - high : 0; }

static int compare(const void *a, const void *b) {
    const struct near_bay *s = a, *t = b;
    if (s->dsq != t->dsq) return s->dsq < t->dsq ? -1 : 1;
    return s->bay < t->bay ? -1 : s->bay > t->bay;
}

int list_by_definition(const struct hall *hall, const int32_t point[2], uint32_t badge, struct near_bay list[MAX_BAYS]) {
    int count = 0;
    for (uint32_t n = 0; n < u16_at(hall->map); n++) {
        const uint8_t *node = node_at(hall->map, n);
        for (int i = 0; i < SLOTS; i++) {
            const uint8_t *s = slot_at(node, i);
            if (level_of(node) != 0 || !(occupancy_of(node) >> i & 1) || !(badge >> s[20] & 1)) continue;
            int64_t dx = beyond(point[0], i32_at(s), i32_at(s + 4)), dy = beyond(point[1], i32_at(s + 8), i32_at(s + 12));
            list[count++] = (struct near_bay){ (uint64_t)(dx * dx + dy * dy), reference_of(s), s[20] };
        }
    }
    qsort(list, (size_t)count, sizeof *list, compare);
    return count;
}

int questions_of(const struct hall *hall, const struct cell *cell, struct question questions[POINTS]) {
    static struct near_bay list[MAX_BAYS];
    int before = (cell->page - 1) * (int)cell->k;
    for (int i = 0; i < POINTS; i++) {
        struct question q = { hall->points[i][0], hall->points[i][1], cell->k, cell->badge, 0, 0 };
        int count = list_by_definition(hall, hall->points[i], cell->badge, list);
        if (before > 0) {
            if (count <= before) return 0;
            q.after_dsq = list[before - 1].dsq;
            q.after_bay = list[before - 1].bay;
        }
        questions[i] = q;
    }
    return 1;
}
