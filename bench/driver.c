/* Asks every question of every cell of every row: to compare the answers, to count instructions, or to take times.
   Usage: driver answers FOLDER
          driver count FOLDER [PART]            under callgrind: one dump for each cell, labelled
          driver time FOLDER [PART]             one line for each cell: its label and the nanoseconds of its fastest turn
   With PART, only the cells whose label has that text in it. */
#include "answers.h"
#include "cells.h"
#include "rows.h"

#include <stdio.h>
#include <stdlib.h>
#include <string.h>
#include <time.h>

#if __has_include(<valgrind/callgrind.h>)
#include <valgrind/callgrind.h>
#else
#define CALLGRIND_TOGGLE_COLLECT
#define CALLGRIND_ZERO_STATS
#define CALLGRIND_DUMP_STATS_AT(label) (void)(label)
#endif

enum { TIMED_NS = 5000000 };
static const char *const hall_names[] = { "64", "512", "1784" };
static struct hall hall;
static uint8_t room[ROOM_LEN];
static volatile uint64_t kept; /* so that no call is left out */

/* What is done with a cell: all its questions are there; no questions stand for the row's check. */
typedef void visit(const char *label, const struct row *row, const struct question *questions);

static void check_once(const struct row *row) { kept = row->check(hall.map, hall.len); }

static void ask_once(const struct row *row, const struct question *q) {
    kept = row->ask(hall.map, hall.len, q->x, q->y, q->k, q->badge, q->after_dsq, q->after_bay, room, ROOM_LEN);
}

static void turn(const struct row *row, const struct question *questions) {
    for (int i = 0; i < POINTS; i++) {
        if (questions) ask_once(row, &questions[i]);
        else check_once(row);
    }
}

static void count(const char *label, const struct row *row, const struct question *questions) {
    if (row->load) ask_once(row, questions); /* Boost's first question of a kind has to make room on the heap */
    CALLGRIND_ZERO_STATS;
    CALLGRIND_TOGGLE_COLLECT;
    turn(row, questions);
    CALLGRIND_TOGGLE_COLLECT;
    CALLGRIND_DUMP_STATS_AT(label);
}

static double now(void) {
    struct timespec t;
    clock_gettime(CLOCK_MONOTONIC, &t);
    return (double)t.tv_sec * 1e9 + (double)t.tv_nsec;
}

static void take_time(const char *label, const struct row *row, const struct question *questions) {
    double best = 1e18;
    for (double start = now(), before = start, after; before < start + TIMED_NS; before = now()) {
        turn(row, questions);
        after = now();
        if (after - before < best) best = after - before;
    }
    printf("%s\t%.0f\n", label, best);
}

/* Only the cells whose label has this in it; no label is part of another. */
static const char *part = "";

/* The questions of each cell of the hall, and whether it has any. */
static struct question asked[MAX_CELLS][POINTS];
static int is_asked[MAX_CELLS];

static void visit_row(const struct row *row, visit *measure) {
    char label[200];
    int loaded = row->load == NULL;
    snprintf(label, sizeof label, "check|%s|%s", row->name, hall.name);
    if (row->check && strstr(label, part)) measure(label, row, NULL);
    for (int c = 0; c < cell_count; c++) {
        snprintf(label, sizeof label, "ask|%s|%s|%s|%u|%d", row->name, hall.name, cells[c].badge_name, (unsigned)cells[c].k,
                 cells[c].page);
        if (!is_asked[c] || !strstr(label, part)) continue;
        if (!loaded) row->load(hall.map);
        loaded = 1;
        measure(label, row, asked[c]);
    }
}

static void visit_all(const char *folder, visit *measure) {
    for (size_t h = 0; h < sizeof hall_names / sizeof *hall_names; h++) {
        read_hall(&hall, folder, hall_names[h]);
        for (int c = 0; c < cell_count; c++) is_asked[c] = questions_of(&hall, &cells[c], asked[c]);
        for (int r = 0; r < row_count(); r++) {
            struct row row = row_at(r);
            visit_row(&row, measure);
        }
    }
}

int main(int argc, char **argv) {
    static const struct { const char *mode; visit *measure; } modes[] = {
        { "count", count }, { "time", take_time },
    };
    if (argc >= 3 && strcmp(argv[1], "answers") == 0) return compare_answers(argv[2]);
    if (argc >= 4) part = argv[3];
    for (size_t m = 0; m < sizeof modes / sizeof *modes; m++)
        if (argc >= 3 && strcmp(argv[1], modes[m].mode) == 0) return visit_all(argv[2], modes[m].measure), 0;
    fprintf(stderr, "usage: driver answers FOLDER, driver count|time FOLDER [PART]\n");
    return 2;
}
