/* Random bytes as sessions and as sessions of trays: no call crashes, and each answers what it answers of the session that the bytes mean, written plainly.
 *     noise COUNT
 * Stage, tags and flags are random bytes, and so is every field that does not count; the scale and the regions of a whole job are small, so that none takes long. */
#include <stdio.h>
#include <stdlib.h>
#include <string.h>
#include "bowujita.h"

static uint64_t state = 20261117;

static uint64_t next(void) {
    state ^= state << 13;
    state ^= state >> 7;
    state ^= state << 17;
    return state * 0x2545f4914f6cdd1du;
}

static void noise(void *to, size_t length) {
    for (size_t i = 0; i < length; i++) ((uint8_t *)to)[i] = (uint8_t)(next() >> 32);
}

static int32_t within(int32_t lo, int32_t hi) {
    return lo + (int32_t)((next() >> 33) % (uint64_t)(hi - lo + 1));
}

/* a small region, in fields that are noise else */
static void small(bowujita_shape *s) {
    s->kind = (uint8_t)within(0, 6);
    s->n = (uint16_t)within(1, 4);
    if (s->kind == 2) {
        s->xl = within(-4, 4), s->xh = within(-4, 4), s->yl = within(-4, 4), s->yh = within(-4, 4);
    } else if (s->kind == 3) {
        s->cx = within(-4, 4), s->cy = within(-4, 4), s->p = (uint16_t)within(2, 4), s->q = (int16_t)within(-1, 1), s->r = (uint16_t)within(2, 4), s->s = (uint32_t)within(0, 16);
    } else {
        s->zx = (int16_t)within(-3, 3), s->zy = (int16_t)within(1, 3), s->w = within(-4, 12);
    }
}

/* the same region with zeros where a field does not count */
static bowujita_shape plain_shape(bowujita_shape s) {
    bowujita_shape r;
    memset(&r, 0, sizeof r);
    r.n = s.n;
    if (s.kind == 2) {
        r.kind = 2, r.xl = s.xl, r.xh = s.xh, r.yl = s.yl, r.yh = s.yh;
    } else if (s.kind == 3) {
        r.kind = 3, r.cx = s.cx, r.cy = s.cy, r.p = s.p, r.q = s.q, r.r = s.r, r.s = s.s;
    } else {
        r.kind = 5, r.zx = s.zx, r.zy = s.zy, r.w = s.w;
    }
    return r;
}

/* the session that the bytes mean, as the library writes it */
static bowujita_session plain(bowujita_session s) {
    bowujita_session r;
    memset(&r, 0, sizeof r);
    memcpy(&r.tally, &s.tally, sizeof r.tally);
    if (s.stage < 1 || s.stage > 4) return r;
    r.stage = s.stage, r.k = s.k;
    if (s.stage > 1) r.all = s.all != 0;
    if (s.stage > 2) r.a = plain_shape(s.a);
    if (s.stage > 3) {
        r.b = plain_shape(s.b), r.ended = s.ended != 0, r.op = s.op;
        if (!r.ended) r.spot = s.spot;
    }
    return r;
}

/* the session of trays that the bytes mean */
static bowujita_tray_session plain_tray(const bowujita_tray_session *s) {
    bowujita_tray_session r;
    memset(&r, 0, sizeof r);
    if (s->taken == 0) return r;
    r.taken = 1, r.k = s->k, r.all = s->all != 0, r.ended = s->ended != 0, r.count = s->count, r.b = plain_shape(s->b);
    if (!r.ended) r.spot = s->spot;
    for (int j = 0; j < 8; j++) r.a[j] = plain_shape(s->a[j]);
    return r;
}

static void same(const void *a, const void *b, size_t length, const char *call) {
    if (memcmp(a, b, length) != 0) printf("noise: %s differs\n", call), exit(1);
}

static void same_shape(bowujita_shape a, bowujita_shape b, const char *call) {
    bowujita_shape x, y;
    memset(&x, 0, sizeof x), memset(&y, 0, sizeof y);
    x = plain_shape(a), y = plain_shape(b);
    same(&x, &y, sizeof x, call);
}

static void same_reply(bowujita_reply a, bowujita_reply b, const char *call) {
    if (a.kind != b.kind || a.number != b.number || a.flag != b.flag || a.scale != b.scale || a.count != b.count) printf("noise: %s answers differ\n", call), exit(1);
    same(&a.u, &b.u, sizeof a.u, call), same(&a.t, &b.t, sizeof a.t, call);
}

/* field by field: padding is not compared */
static void same_session(bowujita_session a, bowujita_session b, const char *call) {
    if (a.stage != b.stage || a.k != b.k || a.all != b.all || a.ended != b.ended) printf("noise: %s leaves another stage\n", call), exit(1);
    same_shape(a.a, b.a, call), same_shape(a.b, b.b, call);
    same(&a.spot, &b.spot, sizeof a.spot, call), same(&a.op, &b.op, sizeof a.op, call), same(&a.tally, &b.tally, sizeof a.tally, call);
}

static void same_trays(bowujita_tray_session a, bowujita_tray_session b, const char *call) {
    if (a.taken != b.taken || a.k != b.k || a.all != b.all || a.ended != b.ended || a.count != b.count) printf("noise: %s leaves another tray\n", call), exit(1);
    same(&a.spot, &b.spot, sizeof a.spot, call), same_shape(a.b, b.b, call);
    for (int j = 0; j < 8; j++) same_shape(a.a[j], b.a[j], call);
}

/* random bytes as a session of trays */
static void one_tray(void) {
    static const uint8_t regions[38] = {2, 1, 0, 0, 0, 0, 0, 1, 0, 0, 0, 0, 0, 0, 0, 1, 0, 0, 0, 2, 1, 0, 0, 0, 0, 0, 1, 0, 0, 0, 0, 0, 0, 0, 1, 0, 0, 0};
    bowujita_tray_session s;
    noise(&s, sizeof s);
    if (next() % 8 == 0) s.taken = 0;
    if (next() % 2 != 0) s.ended = 0;
    if (next() % 8 != 0) s.count = (size_t)within(0, 9);
    s.k = (uint8_t)within(0, 3);
    small(&s.b);
    for (int j = 0; j < 8; j++) small(&s.a[j]);
    bowujita_tray_session p = plain_tray(&s);
    int32_t mine[24], theirs[24];
    noise(mine, sizeof mine), memcpy(theirs, mine, sizeof mine);
    size_t length = (size_t)within(0, 24);
    bowujita_tray_left l = bowujita_tray_hand_out(s, length ? mine : NULL, length), m = bowujita_tray_hand_out(p, length ? theirs : NULL, length);
    same_trays(l.session, m.session, "tray_hand_out"), same_reply(l.reply, m.reply, "tray_hand_out"), same(mine, theirs, sizeof mine, "tray_hand_out");
    if (l.reply.number != 0) same_trays(l.session, p, "a refused tray_hand_out");
    size_t first = 19 * (size_t)within(0, 2), second = (size_t)within(18, 20);
    uint64_t k = next() % 4 == 0 ? next() : (uint64_t)within(0, 21), byte = next() % 4 == 0 ? next() : (uint64_t)within(0, 2);
    l = bowujita_tray_take(s, k, byte, first ? regions : NULL, first, regions, second), m = bowujita_tray_take(p, k, byte, first ? regions : NULL, first, regions, second);
    same_trays(l.session, m.session, "tray_take"), same_reply(l.reply, m.reply, "tray_take");
    if ((l.reply.number == 0) != (k <= 20 && byte <= 1 && first != 0 && second == 19)) printf("noise: tray_take is refused %d\n", l.reply.number), exit(1);
    if (l.reply.number != 0) same_trays(l.session, p, "a refused tray_take");
    l = bowujita_tray_rewind(s), m = bowujita_tray_rewind(p);
    same_trays(l.session, m.session, "tray_rewind"), same_reply(l.reply, m.reply, "tray_rewind");
    l = bowujita_tray_clear(s);
    same_trays(l.session, BOWUJITA_NO_TRAY, "tray_clear");
    for (int j = 0; j < 8; j++) if (l.session.b.kind != 0 || l.session.a[j].kind != 0) printf("noise: tray_clear leaves a region\n"), exit(1);
}

static void one_session(void) {
    static const uint8_t records[6][4] = {{1, 3}, {6, 1}, {2, 1, 0, 0}, {9}, {1, 21}, {4}};
    bowujita_session s;
    noise(&s, sizeof s);
    if (next() % 4 != 0) s.stage = (uint8_t)within(0, 5);
    if (next() % 2 != 0) s.ended = 0;
    s.k = (uint8_t)within(0, 3);
    small(&s.a), small(&s.b);
    bowujita_session p = plain(s);
    int32_t mine[24], theirs[24];
    noise(mine, sizeof mine), memcpy(theirs, mine, sizeof mine);
    size_t length = (size_t)within(0, 24);
    bowujita_left l = bowujita_hand_out(s, length ? mine : NULL, length), m = bowujita_hand_out(p, length ? theirs : NULL, length);
    same_session(l.session, m.session, "hand_out"), same_reply(l.reply, m.reply, "hand_out"), same(mine, theirs, sizeof mine, "hand_out");
    const uint8_t *record = records[next() % 6];
    length = (size_t)within(0, 4);
    l = bowujita_read(s, length ? record : NULL, length), m = bowujita_read(p, length ? record : NULL, length);
    same_session(l.session, m.session, "read"), same_reply(l.reply, m.reply, "read");
    if (l.reply.number != 0) same_session(l.session, p, "a refused read");
    l = bowujita_rewind(s), m = bowujita_rewind(p);
    same_session(l.session, m.session, "rewind"), same_reply(l.reply, m.reply, "rewind");
    l = bowujita_clear(s);
    same_session(l.session, BOWUJITA_FRESH, "clear");
    same_reply(bowujita_has_solution(s), bowujita_has_solution(p), "has_solution");
    bowujita_point w = {within(-3, 3), within(-3, 3), within(-3, 3), within(-3, 3)};
    same_reply(bowujita_has_image(s, w), bowujita_has_image(p, w), "has_image");
    same_reply(bowujita_shortest(s), bowujita_shortest(p), "shortest");
    bowujita_counts t = bowujita_tally(s);
    same(&t, &s.tally, sizeof t, "tally");
}

/* calls without a session, on random numbers and bytes */
static void others(void) {
    bowujita_point u, t;
    bowujita_operator g;
    bowujita_wide wide[2];
    bowujita_interval i[2];
    bowujita_tariff prices;
    uint8_t bytes[64], text[64];
    int32_t numbers[8];
    noise(&u, sizeof u), noise(&t, sizeof t), noise(&g, sizeof g), noise(wide, sizeof wide), noise(i, sizeof i), noise(&prices, sizeof prices), noise(bytes, sizeof bytes);
    uint8_t k = (uint8_t)next();
    int32_t sign = bowujita_sign((int64_t)next(), (int64_t)next()), other = bowujita_wide_sign(wide[0], wide[1]);
    if (sign < -1 || sign > 1 || other < -1 || other > 1) printf("noise: no sign\n"), exit(1);
    if (bowujita_exponent(u, k) > k) printf("noise: exponent\n"), exit(1);
    (void)bowujita_pulses((uint32_t)next());
    (void)bowujita_line(i[0], i[1], k, u.a, u.b, numbers, 8);
    (void)bowujita_entry((uint8_t)(k | 32), u, k, t, numbers, 8);
    (void)bowujita_words(k, u, t, bytes, 32, text, 32);
    (void)bowujita_operator_test(g), (void)bowujita_image(g, u), (void)bowujita_inverse(g);
    (void)bowujita_cost(prices, bytes, 64, (uint32_t)next()), (void)bowujita_tray_cost(prices, bytes, 64, (uint32_t)next());
    (void)bowujita_qasm_write(bytes, 64, text, 64), (void)bowujita_qasm_read(bytes, 64, text, 64);
    bytes[0] = 7, bytes[1] %= 24;
    (void)bowujita_sheet_read((uint8_t)(1 + next() % 3), bytes, 64);
    bowujita_sheet sheet;
    noise(&sheet, sizeof sheet);
    if (next() % 2 != 0) sheet = (bowujita_sheet){2, {0, -1, -1, 1}, {0, 1, 0, 0}, sheet.ticks};
    bowujita_wrote w = bowujita_sheet_write(sheet, bytes, (size_t)within(0, 64));
    if (w.number == 0 && bowujita_sheet_read(1, bytes, w.count).ticks != sheet.ticks) printf("noise: sheet\n"), exit(1);
}

int main(int argc, char **argv) {
    long count = argc > 1 ? strtol(argv[1], NULL, 10) : 1000000;
    for (long i = 0; i < count; i++) {
        one_session();
        others();
    }
    for (long i = 0; i < count / 8; i++) one_tray();
    printf("%ld sessions and %ld sessions of trays of random bytes: every call answers, as of the session they mean\n", count, count / 8);
    return 0;
}
