/* The list program through the library: a job on standard input, its points on standard output.
 *     cc -Iinclude bindings/c/list.c target/staticlib/libbowujita.a -o list-c && ./list-c < samples/disks-k0.job */
#include <inttypes.h>
#include <stdio.h>
#include "bowujita.h"

int main(void) {
    static uint8_t input[65537];
    size_t length = fread(input, 1, sizeof input, stdin);
    if (ferror(stdin)) return perror("list"), 1;
    if (length > 65536) return puts("too long"), 1;
    bowujita_session s = BOWUJITA_FRESH;
    for (size_t at = 0; at < length;) {
        size_t taken;
        int refusal = bowujita_session_read(&s, input + at, length - at, &taken);
        if (refusal) return printf("refused %d at %zu\n", refusal, at), 1;
        at += taken;
    }
    uint64_t total = 0;
    bool ended = false;
    while (!ended) {
        int32_t v[4 * 256];
        size_t count;
        int refusal = bowujita_session_hand_out(&s, v, sizeof v / sizeof *v, &count, &ended);
        if (refusal) return printf("refused %d at %zu\n", refusal, length), 1;
        for (size_t i = 0; i < count; i++) {
            bowujita_point p = {v[4 * i], v[4 * i + 1], v[4 * i + 2], v[4 * i + 3]};
            uint32_t e = bowujita_exponent(p, s.k);
            printf("%" PRId32 " %" PRId32 " %" PRId32 " %" PRId32 " %" PRIu32 " %" PRIu64 "\n", p.a, p.b, p.c, p.d, e, bowujita_pulses(e));
        }
        total += count;
    }
    printf("end %" PRIu64 "\n", total);
    return fflush(stdout) ? (perror("list"), 1) : 0;
}
