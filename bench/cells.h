/* What is asked: three halls, and for each of them the cells of the table with a question for every point. */
#ifndef CELLS_H
#define CELLS_H

#include <stddef.h>
#include <stdint.h>

/* The room is longer than a hundred records, so that a byte written beyond them is seen. */
enum { POINTS = 32, MAX_CELLS = 12, MAX_MAP = 50184, MAX_BAYS = 2048, ROOM_LEN = 1640 };

struct near_bay { uint64_t dsq; uint32_t bay, zone; };

struct hall {
    const char *name;
    uint8_t map[MAX_MAP];
    size_t len;
    int32_t points[POINTS][2];
};

struct question { int32_t x, y; uint32_t k, badge; uint64_t after_dsq; uint32_t after_bay; };

/* One cell of the table: who asks, how many at a time, which page. */
struct cell { const char *badge_name; uint32_t badge, k; int page; };
extern const struct cell cells[];
extern const int cell_count;

/* Reads FOLDER/NAME.map and FOLDER/NAME.points; stops the program where they are lacking. */
void read_hall(struct hall *hall, const char *folder, const char *name);

/* The bays that a badge may see, in the order of the reply, by definition: all of them, sorted. */
int list_by_definition(const struct hall *hall, const int32_t point[2], uint32_t badge, struct near_bay list[MAX_BAYS]);

/* The questions of a cell; no question where four pages already end the list, and then 0 is given. */
int questions_of(const struct hall *hall, const struct cell *cell, struct question questions[POINTS]);

#endif
