/* cbmc: each call of FARM-1, FOP-1 and the control word equals the reference, for every struct and argument. */
#include "reference.h"
struct sedge_farm nondet_farm(void);
struct sedge_fop nondet_fop(void);
struct sedge_clcw nondet_word(void);
uint8_t nondet_8(void);
uint16_t nondet_16(void);
size_t nondet_size(void);

static bool same_farm(struct sedge_farm a, struct sedge_farm b) {
    return a.width == b.width && a.vr == b.vr && a.lockout == b.lockout && a.wait == b.wait &&
           a.retransmit == b.retransmit && a.farm_b == b.farm_b;
}

static bool same_fop(struct sedge_fop a, struct sedge_fop b) {
    return a.timer == b.timer && a.ticks == b.ticks && a.room == b.room && a.state == b.state && a.vs == b.vs &&
           a.nn == b.nn && a.waiting == b.waiting && a.sent == b.sent && a.due == b.due && a.window == b.window &&
           a.limit == b.limit && a.count == b.count && a.control == b.control && a.vr == b.vr;
}

static bool same_word(struct sedge_clcw a, struct sedge_clcw b) {
    return a.status == b.status && a.vcid == b.vcid && a.flags == b.flags && a.farm_b == b.farm_b && a.value == b.value;
}

#define CHECK(x, what) __CPROVER_assert(x, what)

void farm_open(void) {
    struct sedge_farm a = nondet_farm(), b = a;
    uint8_t x = nondet_8(), y = nondet_8();
    CHECK(sedge_farm_open(&a, x, y) == ref_farm_open(&b, x, y), "answer");
    CHECK(same_farm(a, b), "struct");
}

void farm_ad(void) {
    struct sedge_farm a = nondet_farm(), b = a;
    uint8_t n = nondet_8();
    bool r = nondet_8() & 1;
    CHECK(sedge_farm_ad(&a, n, r) == ref_farm_ad(&b, n, r), "answer");
    CHECK(same_farm(a, b), "struct");
}

void farm_bd(void) {
    struct sedge_farm a = nondet_farm(), b = a;
    CHECK(sedge_farm_bd(&a) == ref_farm_bd(&b), "answer");
    CHECK(same_farm(a, b), "struct");
}

void farm_unlock(void) {
    struct sedge_farm a = nondet_farm(), b = a;
    CHECK(sedge_farm_unlock(&a) == ref_farm_unlock(&b), "answer");
    CHECK(same_farm(a, b), "struct");
}

void farm_set_vr(void) {
    struct sedge_farm a = nondet_farm(), b = a;
    uint8_t v = nondet_8();
    CHECK(sedge_farm_set_vr(&a, v) == ref_farm_set_vr(&b, v), "answer");
    CHECK(same_farm(a, b), "struct");
}

void farm_released(void) {
    struct sedge_farm a = nondet_farm(), b = a;
    CHECK(sedge_farm_released(&a) == ref_farm_released(&b), "answer");
    CHECK(same_farm(a, b), "struct");
}

void farm_state(void) {
    struct sedge_farm a = nondet_farm(), b = a;
    CHECK(sedge_farm_state(&a) == ref_farm_state(&b), "answer");
    CHECK(same_farm(a, b), "struct");
}

void farm_control_word(void) {
    struct sedge_farm a = nondet_farm(), b = a;
    struct sedge_clcw w = nondet_word(), x = w;
    uint8_t v = nondet_8();
    CHECK(sedge_farm_control_word(&a, v, &w) == ref_farm_control_word(&b, v, &x), "answer");
    CHECK(same_farm(a, b) && same_word(w, x), "struct");
}

void fop_open(void) {
    struct sedge_fop a = nondet_fop(), b = a;
    uint8_t x = nondet_8(), y = nondet_8(), z = nondet_8();
    uint16_t t = nondet_16();
    CHECK(sedge_fop_open(&a, x, y, z, t) == ref_fop_open(&b, x, y, z, t), "answer");
    CHECK(same_fop(a, b), "struct");
}

void fop_directive(void) {
    struct sedge_fop a = nondet_fop(), b = a;
    uint8_t d = nondet_8();
    uint16_t v = nondet_16();
    CHECK(sedge_fop_directive(&a, d, v) == ref_fop_directive(&b, d, v), "answer");
    CHECK(same_fop(a, b), "struct");
    CHECK(!ref_fop_good(&b) || ref_fop_good(&a), "kept");
}

void fop_submit(void) {
    struct sedge_fop a = nondet_fop(), b = a;
    CHECK(sedge_fop_submit(&a) == ref_fop_submit(&b), "answer");
    CHECK(same_fop(a, b), "struct");
}

void fop_next(void) {
    struct sedge_fop a = nondet_fop(), b = a;
    uint8_t n = nondet_8(), m = n;
    CHECK(sedge_fop_next(&a, &n) == ref_fop_next(&b, &m), "answer");
    CHECK(same_fop(a, b), "struct");
    CHECK(n == m, "number");
}

void fop_clcw(void) {
    struct sedge_fop a = nondet_fop(), b = a;
    uint8_t n = nondet_8(), m = n, v = nondet_8();
    struct sedge_clcw w = nondet_word();
    CHECK(sedge_fop_clcw(&a, v, &w, &n) == ref_fop_clcw(&b, v, &w, &m), "answer");
    CHECK(same_fop(a, b), "struct");
    CHECK(n == m, "released");
}

void fop_tick(void) {
    struct sedge_fop a = nondet_fop(), b = a;
    CHECK(sedge_fop_tick(&a) == ref_fop_tick(&b), "answer");
    CHECK(same_fop(a, b), "struct");
}

void fop_accepted_beyond(void) {
    struct sedge_fop a = nondet_fop(), b = a;
    uint8_t v = nondet_8(), n = nondet_8(), m = n;
    CHECK(sedge_fop_accepted_beyond(&a, v, &n) == ref_fop_accepted_beyond(&b, v, &m), "answer");
    CHECK(same_fop(a, b) && n == m, "struct");
}

void accepted_beyond(void) {
    uint8_t v = nondet_8(), x = nondet_8(), y = nondet_8(), n = nondet_8(), m = n;
    CHECK(sedge_accepted_beyond(x, y, v, &n) == ref_accepted_beyond(x, y, v, &m), "answer");
    CHECK(n == m, "count");
}

void clcw_decode(void) {
    uint8_t o[6], p[6];
    struct sedge_clcw w = nondet_word(), x = w;
    size_t c = nondet_size();
    __CPROVER_assume(c <= 6);
    for (int i = 0; i < 6; i++) o[i] = p[i] = nondet_8();
    CHECK(sedge_clcw_decode(o + 6 - c, c, &w) == ref_clcw_decode(p + 6 - c, c, &x), "answer");
    CHECK(same_word(w, x), "struct");
    for (int i = 0; i < 6; i++) CHECK(o[i] == p[i], "octets");
}

void clcw_encode(void) {
    uint8_t o[6], p[6];
    struct sedge_clcw w = nondet_word();
    size_t c = nondet_size();
    __CPROVER_assume(c <= 6);
    for (int i = 0; i < 6; i++) o[i] = p[i] = nondet_8();
    CHECK(sedge_clcw_encode(&w, o, c) == ref_clcw_encode(&w, p, c), "answer");
    for (int i = 0; i < 6; i++) CHECK(o[i] == p[i], "octets");
}
