/* What the library adds to a call: hand-outs of 1,024 points, and as many refused readings, which turn a session into numbers and back and do nothing else; and the same
 * for a tray of eight, with refused takes. Prints the share of the second in the first, in per cent. */
#define _POSIX_C_SOURCE 199309L
#include <stdio.h>
#include <string.h>
#include <time.h>
#include "bowujita.h"

static double seconds(void) {
    struct timespec t;
    clock_gettime(CLOCK_PROCESS_CPUTIME_ID, &t);
    return (double)t.tv_sec + (double)t.tv_nsec / 1e9;
}

static const uint8_t disk[21] = {3, 1, 0, 0, 0, 0, 0, 0, 0, 0, 0, 1, 0, 0, 0, 1, 0, 1, 0, 0, 0}, scale[2] = {1, 12};
static int32_t v[5 * 1024];

/* whether the second part took more than 3 % of the first */
static int told(const char *name, long calls, double first, double second) {
    printf("%ld hand-outs of 1,024 points of %s: %.2f us each, of which the library's numbers %.2f %%\n", calls, name, first / (double)calls * 1e6, second / first * 100);
    return second * 100 > first * 3;
}

static int job(void) {
    bowujita_session s = BOWUJITA_FRESH;
    size_t n;
    bool ended = false;
    if (bowujita_session_read(&s, scale, 2, &n) || bowujita_session_read(&s, disk, 21, &n) || bowujita_session_read(&s, disk, 21, &n)) return 1;
    long calls = 0, refused = 0;
    double start = seconds();
    while (!ended && !bowujita_session_hand_out(&s, v, 4 * 1024, &n, &ended)) calls++;
    double middle = seconds();
    for (long i = 0; i < calls; i++) refused += bowujita_session_read(&s, NULL, 0, &n);
    double end = seconds();
    if (refused != calls) return 1;
    return told("a job", calls, middle - start, end - middle);
}

static int tray(void) {
    uint8_t disks[8 * 21];
    bowujita_tray_session s = BOWUJITA_NO_TRAY;
    size_t n;
    bool ended = false;
    for (int j = 0; j < 8; j++) {
        memcpy(disks + 21 * j, disk, 21);
        disks[21 * j + 17] = (uint8_t)(j % 2);
    }
    if (bowujita_tray_session_take(&s, 9, 0, disks, sizeof disks, disk, 21, &n)) return 1;
    long calls = 0, refused = 0;
    double start = seconds();
    while (!ended && !bowujita_tray_session_hand_out(&s, v, 5 * 1024, &n, &ended)) calls++;
    double middle = seconds();
    for (long i = 0; i < calls; i++) refused += bowujita_tray_session_take(&s, 21, 0, NULL, 0, NULL, 0, &n);
    double end = seconds();
    if (refused != 4 * calls) return 1;
    return told("a tray", calls, middle - start, end - middle);
}

int main(void) {
    int slow = job();
    return tray() || slow;
}
