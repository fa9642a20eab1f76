/* Bowujita: all grid points of a job or a tray, each once, in order; the shortest pattern; its words, texts, costs and sheets. docs/SPEC.md says what each call does.
 *
 * Link with target/staticlib/libbowujita.a (`tools/archive`). It needs memcpy and nothing else of a C library, keeps no memory and has no state: a session is
 * a plain value that you own, copy and compare as you like, and two threads may use two sessions at a time.
 *
 * Every value of bowujita_session is some session, and every value of bowujita_tray_session some session of trays, so no call is undefined whatever their bytes are; all zeros are the fresh ones. What a
 * caller owes is C's own: a pointer and a length that belong together (a null pointer with length 0 is fine), and no slice that is written to lent twice in one call.
 *
 * Numbers of refusals are those of docs/SPEC.md, "Refusals", 0 where a call is not refused. A refused call changes nothing and writes to no slice. Flags are 0 or 1. */
#ifndef BOWUJITA_H
#define BOWUJITA_H

#include <stdbool.h>
#include <stddef.h>
#include <stdint.h>

/* Moves whenever a struct or a call changes. */
#define BOWUJITA_ABI 2

#ifdef __cplusplus
extern "C" {
#endif

/* ---- structs */

/* v = a w^3 + b w^2 + c w + d, w = (1 + i)/sqrt 2; a point of a job is v/sqrt 2^k. */
typedef struct {
    int32_t a, b, c, d;
} bowujita_point;

typedef struct {
    int64_t a, b, c, d;
} bowujita_wide_point;

/* G(1) as a, b, c, d and G(i) as ai, bi, ci, di. */
typedef struct {
    int16_t a, b, c, d, ai, bi, ci, di;
} bowujita_operator;

/* A region: kind 2 a rectangle, 3 an ellipse, any other a slice; the fields of the other two do not count. */
typedef struct {
    uint8_t kind;
    uint16_t n;
    int32_t xl, xh, yl, yh;
    int32_t cx, cy;
    uint16_t p;
    int16_t q;
    uint16_t r;
    uint32_t s;
    int16_t zx, zy;
    int32_t w;
} bowujita_shape;

/* hi 2^64 + lo */
typedef struct {
    uint64_t hi, lo;
} bowujita_count;

/* A count for each exponent from 0 to 20. */
typedef struct {
    bowujita_count counts[21];
} bowujita_counts;

/* A session. Stage 1 has the scale, 2 a selection too, 3 region A too, 4 the whole job; any other has read nothing. */
typedef struct {
    uint8_t stage, k, all, ended;
    bowujita_shape a, b;
    bowujita_point spot;
    bowujita_operator op;
    bowujita_counts tally;
} bowujita_session;

/* A session of trays. Where `taken` is 0 there is no tray, and nothing else counts. A tray has the scale k, new points only or all, the first `count` regions of a, eight at most, and region b. */
typedef struct {
    uint8_t taken, k, all, ended;
    size_t count;
    bowujita_point spot;
    bowujita_shape b, a[8];
} bowujita_tray_session;

#ifdef __cplusplus
#define BOWUJITA_FRESH (bowujita_session{})
#define BOWUJITA_NO_TRAY (bowujita_tray_session{})
#else
#define BOWUJITA_FRESH ((bowujita_session){0})
#define BOWUJITA_NO_TRAY ((bowujita_tray_session){0})
#endif

enum { BOWUJITA_REFUSED, BOWUJITA_TAKEN, BOWUJITA_HANDED, BOWUJITA_DONE, BOWUJITA_SAYS, BOWUJITA_LEAST };

/* What a call on a session answers: its kind, of the six above; the number of a refusal; yes, or that the end is reached, in `flag`; bytes, points or regions in
 * `count`; a pattern's scale, u and t. What does not belong to an answer is 0. */
typedef struct {
    uint8_t kind, number, flag, scale;
    size_t count;
    bowujita_point u, t;
} bowujita_reply;

/* The session that a call leaves, and its answer. */
typedef struct {
    bowujita_session session;
    bowujita_reply reply;
} bowujita_left;

typedef struct {
    bowujita_tray_session session;
    bowujita_reply reply;
} bowujita_tray_left;

/* lo <= n z <= hi */
typedef struct {
    int32_t n, lo, hi;
} bowujita_interval;

/* hi 2^64 + lo, in two's complement */
typedef struct {
    int64_t hi;
    uint64_t lo;
} bowujita_wide;

/* The number of a refusal, whether the end is reached, and how many points or pairs were written. */
typedef struct {
    uint8_t number, ended;
    size_t count;
} bowujita_handed;

/* The number of a refusal; whether the second slice has the word with fewer T; how long that word is. */
typedef struct {
    uint8_t number, second;
    size_t length;
} bowujita_word;

/* The number of a refusal, and the inverse. */
typedef struct {
    uint8_t number;
    bowujita_operator op;
} bowujita_inverted;

/* The prices of the letters, in thousandths of a tick. */
typedef struct {
    uint32_t h, s, t, w;
} bowujita_tariff;

/* The number of a refusal, whether the cost fits the memory, and the cost in whole ticks. */
typedef struct {
    uint8_t number, fits;
    uint32_t ticks;
} bowujita_ticks;

/* The number of a refusal, and how many bytes were written. */
typedef struct {
    uint8_t number;
    size_t count;
} bowujita_wrote;

/* The number of a refusal, the bytes taken, and what the reader sees: the desk k, u, t and ticks, the line crew m and ticks. The rest is 0. */
typedef struct {
    uint8_t number, k;
    uint32_t ticks;
    size_t taken;
    uint64_t m;
    bowujita_point u, t;
} bowujita_seen;

/* All that is written on a pattern sheet. */
typedef struct {
    uint8_t k;
    bowujita_point u, t;
    uint32_t ticks;
} bowujita_sheet;

/* ---- calls on a session, by value */

/* BOWUJITA_ABI of the header that the archive was made with. */
uint32_t bowujita_abi(void);
/* One reading: a record from the front of the bytes joins the session. Answers the bytes taken. */
bowujita_left bowujita_read(bowujita_session s, const uint8_t *bytes, size_t length);
/* A hand-out: as many of the next points as there is space for, four numbers each. Answers how many, and whether the end is reached. */
bowujita_left bowujita_hand_out(bowujita_session s, int32_t *numbers, size_t length);
/* Back before the first point. */
bowujita_left bowujita_rewind(bowujita_session s);
/* A fresh session. */
bowujita_left bowujita_clear(bowujita_session s);
/* Whether the job lists a point. */
bowujita_reply bowujita_has_solution(bowujita_session s);
/* Whether w is what the remembered operator makes of a listed point. */
bowujita_reply bowujita_has_image(bowujita_session s, bowujita_point w);
/* The shortest pattern that the job allows. */
bowujita_reply bowujita_shortest(bowujita_session s);
/* How many of the points handed out since the last rewind or clearing have each exponent. */
bowujita_counts bowujita_tally(bowujita_session s);

/* ---- calls on a session of trays, by value */

/* A take: the scale k, the byte of a selection, one to eight region records back to back and that of region B replace the tray there. Answers how many regions. */
bowujita_tray_left bowujita_tray_take(bowujita_tray_session s, uint64_t k, uint64_t byte, const uint8_t *a, size_t a_length, const uint8_t *b, size_t b_length);
/* A hand-out: as many of the next points as there is space for, five numbers each: the point's four, and the sum of 2^j over the regions j that hold it. */
bowujita_tray_left bowujita_tray_hand_out(bowujita_tray_session s, int32_t *numbers, size_t length);
/* Back before the first point. */
bowujita_tray_left bowujita_tray_rewind(bowujita_tray_session s);
/* Without a tray again. */
bowujita_tray_left bowujita_tray_clear(bowujita_tray_session s);

/* ---- calls without a session */

/* The sign of p + q sqrt 2: -1, 0 or 1. */
int32_t bowujita_sign(int64_t p, int64_t q);
/* The same for numbers of two words. */
int32_t bowujita_wide_sign(bowujita_wide p, bowujita_wide q);
/* The exponent of v/sqrt 2^k. */
uint32_t bowujita_exponent(bowujita_point v, uint8_t k);
/* The pulse count of an exponent. */
uint64_t bowujita_pulses(uint32_t e);
/* The pairs of a line problem, two numbers each: all, or where `after` is not 0 those after (a, b). */
bowujita_handed bowujita_line(bowujita_interval first, bowujita_interval second, uint8_t after, int32_t a, int32_t b, int32_t *numbers, size_t length);
/* The t that make a first column with u, four numbers each: all, or where `after` is not 0 those after `place`. */
bowujita_handed bowujita_entry(uint8_t k, bowujita_point u, uint8_t after, bowujita_point place, int32_t *numbers, size_t length);
/* The words of U and of TUT*, each at the front of its slice. */
bowujita_word bowujita_words(uint8_t k, bowujita_point u, bowujita_point t, uint8_t *first, size_t first_length, uint8_t *second, size_t second_length);
/* The test of an operator: 0, or the number of its refusal. */
uint8_t bowujita_operator_test(bowujita_operator g);
/* What an operator makes of a point. */
bowujita_wide_point bowujita_image(bowujita_operator g, bowujita_point v);
/* The inverse of an operator. */
bowujita_inverted bowujita_inverse(bowujita_operator g);
/* What a word costs by a tariff, and whether that fits a memory. */
bowujita_ticks bowujita_cost(bowujita_tariff tariff, const uint8_t *word, size_t length, uint32_t memory);
/* The same for one to eight words together, each closed by a line feed. */
bowujita_ticks bowujita_tray_cost(bowujita_tariff tariff, const uint8_t *words, size_t length, uint32_t memory);
/* A word as lines of OpenQASM 2.0, eight bytes each. */
bowujita_wrote bowujita_qasm_write(const uint8_t *word, size_t word_length, uint8_t *text, size_t text_length);
/* Such lines as a word. */
bowujita_wrote bowujita_qasm_read(const uint8_t *text, size_t text_length, uint8_t *word, size_t word_length);
/* One pattern sheet from the front of the bytes, as reader 1, the desk, or 2, the line crew, sees it. */
bowujita_seen bowujita_sheet_read(uint8_t reader, const uint8_t *bytes, size_t length);
/* The 38 bytes of a pattern sheet at the front of a slice; one that the desk would be refused is not written. */
bowujita_wrote bowujita_sheet_write(bowujita_sheet sheet, uint8_t *bytes, size_t length);

/* ---- the calls on a session that they move on: 0, or the number of the refusal */

static inline int bowujita_session_read(bowujita_session *s, const uint8_t *bytes, size_t length, size_t *taken) {
    bowujita_left l = bowujita_read(*s, bytes, length);
    *s = l.session;
    *taken = l.reply.count;
    return l.reply.number;
}

static inline int bowujita_session_hand_out(bowujita_session *s, int32_t *numbers, size_t length, size_t *count, bool *ended) {
    bowujita_left l = bowujita_hand_out(*s, numbers, length);
    *s = l.session;
    *count = l.reply.count;
    *ended = l.reply.flag != 0;
    return l.reply.number;
}

static inline int bowujita_session_rewind(bowujita_session *s) {
    bowujita_left l = bowujita_rewind(*s);
    *s = l.session;
    return l.reply.number;
}

static inline void bowujita_session_clear(bowujita_session *s) {
    *s = bowujita_clear(*s).session;
}

static inline int bowujita_session_has_solution(const bowujita_session *s, bool *yes) {
    bowujita_reply r = bowujita_has_solution(*s);
    *yes = r.flag != 0;
    return r.number;
}

static inline int bowujita_session_has_image(const bowujita_session *s, bowujita_point w, bool *yes) {
    bowujita_reply r = bowujita_has_image(*s, w);
    *yes = r.flag != 0;
    return r.number;
}

static inline int bowujita_session_shortest(const bowujita_session *s, uint8_t *scale, bowujita_point *u, bowujita_point *t) {
    bowujita_reply r = bowujita_shortest(*s);
    *scale = r.scale;
    *u = r.u;
    *t = r.t;
    return r.number;
}

static inline int bowujita_tray_session_take(bowujita_tray_session *s, uint64_t k, uint64_t byte, const uint8_t *a, size_t a_length, const uint8_t *b, size_t b_length, size_t *count) {
    bowujita_tray_left l = bowujita_tray_take(*s, k, byte, a, a_length, b, b_length);
    *s = l.session;
    *count = l.reply.count;
    return l.reply.number;
}

static inline int bowujita_tray_session_hand_out(bowujita_tray_session *s, int32_t *numbers, size_t length, size_t *count, bool *ended) {
    bowujita_tray_left l = bowujita_tray_hand_out(*s, numbers, length);
    *s = l.session;
    *count = l.reply.count;
    *ended = l.reply.flag != 0;
    return l.reply.number;
}

static inline int bowujita_tray_session_rewind(bowujita_tray_session *s) {
    bowujita_tray_left l = bowujita_tray_rewind(*s);
    *s = l.session;
    return l.reply.number;
}

static inline void bowujita_tray_session_clear(bowujita_tray_session *s) {
    *s = bowujita_tray_clear(*s).session;
}

#ifdef __cplusplus
}
#endif
#endif
