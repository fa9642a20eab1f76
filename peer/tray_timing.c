/* Trays against their regions' own walks, over the library: eight regions A with the unit disk as B, all points, in hand-outs of 4,096 points; first points, where a
 * session's first hand-out asks the question first; and trays that list nothing against eight plain questions. Processor time, the least of several runs, in
 * milliseconds for whole walks and microseconds for the others. */
#define _POSIX_C_SOURCE 199309L
#include <stdio.h>
#include <stdlib.h>
#include <string.h>
#include <time.h>
#include "bowujita.h"

#define SPACE 4096

enum { DISK = 21, SLICE = 11 };

typedef struct {
    const char *name;
    uint8_t k;
    size_t each;
    uint8_t a[8 * DISK];
} tray;

static int32_t v[5 * SPACE];
static uint8_t unit[DISK];

static double seconds(void) {
    struct timespec t;
    clock_gettime(CLOCK_PROCESS_CPUTIME_ID, &t);
    return (double)t.tv_sec + (double)t.tv_nsec / 1e9;
}

static uint8_t *put(uint8_t *at, size_t bytes, int64_t n) {
    for (size_t i = 0; i < bytes; i++) at[i] = (uint8_t)((uint64_t)n >> (8 * i));
    return at + bytes;
}

/* |n u - x|^2 at most s */
static void disk(uint8_t *at, int n, int x, int s) {
    *at++ = 3;
    at = put(at, 2, n);
    at = put(at, 4, x);
    at = put(at, 4, 0);
    at = put(at, 2, 1);
    at = put(at, 2, 0);
    at = put(at, 2, 1);
    put(at, 4, s);
}

static void slice(uint8_t *at, int zx, int zy, int w) {
    *at++ = 5;
    at = put(at, 2, 100);
    at = put(at, 2, zx);
    at = put(at, 2, zy);
    put(at, 4, w);
}

static tray disks(const char *name, uint8_t k, int n, int apart) {
    tray t = {.name = name, .k = k, .each = DISK};
    for (int j = 0; j < 8; j++) disk(t.a + j * DISK, n, j * apart, n * n);
    return t;
}

static tray slices(const char *name, uint8_t k, const int (*z)[2], int w) {
    tray t = {.name = name, .k = k, .each = SLICE};
    for (int j = 0; j < 8; j++) slice(t.a + j * SLICE, z[j][0], z[j][1], w);
    return t;
}

static bowujita_session session_of(const tray *t, int j) {
    bowujita_session s = BOWUJITA_FRESH;
    uint8_t scale[2] = {1, t->k}, all[2] = {6, 1};
    size_t n;
    if (bowujita_session_read(&s, scale, 2, &n) || bowujita_session_read(&s, all, 2, &n) || bowujita_session_read(&s, t->a + (size_t)j * t->each, t->each, &n) ||
        bowujita_session_read(&s, unit, DISK, &n))
        exit(2);
    return s;
}

static bowujita_tray_session tray_of(const tray *t) {
    bowujita_tray_session s = BOWUJITA_NO_TRAY;
    size_t n;
    if (bowujita_tray_session_take(&s, t->k, 1, t->a, 8 * t->each, unit, DISK, &n) || n != 8) exit(2);
    return s;
}

/* what is timed: points, or yeses */
static size_t eight_walks(const tray *t, size_t space, bool whole) {
    size_t sum = 0, n;
    for (int j = 0; j < 8; j++) {
        bowujita_session s = session_of(t, j);
        bool ended = false;
        do {
            if (bowujita_session_hand_out(&s, v, 4 * space, &n, &ended)) exit(2);
            sum += n;
        } while (whole && !ended);
    }
    return sum;
}

static size_t one_tray(const tray *t, size_t space, bool whole) {
    size_t sum = 0, n;
    bowujita_tray_session s = tray_of(t);
    bool ended = false;
    do {
        if (bowujita_tray_session_hand_out(&s, v, 5 * space, &n, &ended)) exit(2);
        sum += n;
    } while (whole && !ended);
    return sum;
}

static size_t eight_questions(const tray *t, size_t space, bool whole) {
    size_t sum = 0;
    (void)space;
    (void)whole;
    for (int j = 0; j < 8; j++) {
        bowujita_session s = session_of(t, j);
        bool yes;
        if (bowujita_session_has_solution(&s, &yes)) exit(2);
        sum += yes;
    }
    return sum;
}

typedef size_t call(const tray *t, size_t space, bool whole);

/* the least of several runs, each of so many calls */
static double least(call *f, const tray *t, size_t space, bool whole, int runs, int calls, size_t *sum) {
    double shortest = 1e9;
    for (int i = 0; i < runs; i++) {
        double start = seconds();
        for (int c = 0; c < calls; c++) *sum = f(t, space, whole);
        double took = (seconds() - start) / calls;
        if (took < shortest) shortest = took;
    }
    return shortest;
}

static void row(const tray *t, call *theirs, size_t space, bool whole, int runs, int calls, double unit_of) {
    size_t listed, out;
    double a = least(theirs, t, space, whole, runs, calls, &listed);
    double b = least(one_tray, t, space, whole, runs, calls, &out);
    printf("%-28s %3d %10zu %10zu %9.1f %9.1f %6.2f\n", t->name, t->k, out, listed, a / unit_of, b / unit_of, b / a);
}

int main(void) {
    static const int round[8][2] = {{100, 0}, {71, 71}, {0, 100}, {-71, 71}, {-100, 0}, {-71, -71}, {0, -100}, {71, -71}};
    static const int oblique[8][2] = {{60, 80}, {80, 60}, {-60, 80}, {80, -60}, {28, 96}, {96, 28}, {-28, 96}, {96, -28}};
    disk(unit, 1, 0, 1);
    tray rows[] = {disks("alike", 8, 1, 0), disks("alike", 10, 1, 0), disks("moved by 1/10", 8, 10, 1), disks("moved by 1/10", 10, 10, 1),
        disks("moved by 3", 8, 1, 3), disks("moved by 3", 10, 1, 3), slices("slices, w = 9990", 12, round, 9990)};
    tray empty[] = {slices("slices, w = 9999", 4, oblique, 9999), slices("slices, w = 9999", 6, oblique, 9999)};
    printf("%-28s %3s %10s %10s %9s %9s %6s\n", "eight regions", "k", "points", "listed", "walks ms", "tray ms", "ratio");
    for (size_t i = 0; i < sizeof rows / sizeof *rows; i++) row(&rows[i], eight_walks, SPACE, true, rows[i].k == 10 ? 3 : 9, 1, 1e-3);
    printf("%-28s %3s %10s %10s %9s %9s %6s\n", "first points", "k", "points", "of eight", "walks us", "tray us", "ratio");
    for (size_t i = 0; i < sizeof rows / sizeof *rows; i++) row(&rows[i], eight_walks, 1, false, 9, 20, 1e-6);
    printf("%-28s %3s %10s %10s %9s %9s %6s\n", "nothing is listed", "k", "points", "yeses", "asked us", "tray us", "ratio");
    for (size_t i = 0; i < sizeof empty / sizeof *empty; i++) row(&empty[i], eight_questions, 1, false, 9, 20, 1e-6);
}
