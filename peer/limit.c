/* limit LINES: the least that writing a list can take. Reads the lines that the
 * list program printed to the file LINES, keeps the points of the first million,
 * and then formats and writes these again to standard output. Nothing is searched
 * for. The processor time of that last part alone goes to standard error, in
 * nanoseconds a line. */
#include <stdio.h>
#include <stdlib.h>
#include <string.h>
#include <time.h>
#include <unistd.h>

enum { MOST = 1000000, SIDE = 4096, ROOM = 1 << 17 };

/* A number and the space after it, in the first bytes of eight. */
static struct {
    char text[8];
    int length;
} spelled[2 * SIDE + 1];

static int (*points)[6];
static char out[ROOM];

static char *put(char *at, int z) {
    if (z < -SIDE || SIDE < z)
        return at + sprintf(at, "%d ", z);
    memcpy(at, spelled[z + SIDE].text, 8);
    return at + spelled[z + SIDE].length;
}

static void flush(char *end) {
    for (char *from = out; from < end;) {
        ssize_t n = write(1, from, (size_t)(end - from));
        if (n <= 0)
            exit(1);
        from += n;
    }
}

int main(int argc, char **argv) {
    FILE *lines = argc == 2 ? fopen(argv[1], "r") : NULL;
    points = malloc(sizeof(*points) * MOST);
    if (!lines || !points) {
        fprintf(stderr, "usage: limit LINES\n");
        return 2;
    }
    for (int z = -SIDE; z <= SIDE; z++)
        spelled[z + SIDE].length = sprintf(spelled[z + SIDE].text, "%d ", z);
    size_t n = 0;
    while (n < MOST) {
        int *p = points[n];
        if (fscanf(lines, "%d %d %d %d %d %d", p, p + 1, p + 2, p + 3, p + 4, p + 5) != 6)
            break;
        n++;
    }
    if (n == 0)
        return 2;
    clock_t from = clock();
    char *at = out;
    for (size_t i = 0; i < n; i++) {
        if (out + ROOM - 128 < at) {
            flush(at);
            at = out;
        }
        for (int j = 0; j < 6; j++)
            at = put(at, points[i][j]);
        at[-1] = '\n';
    }
    flush(at);
    fprintf(stderr, "%.3f\n", (double)(clock() - from) / CLOCKS_PER_SEC * 1e9 / (double)n);
    return 0;
}
