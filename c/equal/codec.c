/* cbmc: the decoders of frames and packets equal the reference, for every octet and every count up to LONGEST, with the
 * FECF as any function of what it is given (MODEL.c of c/equal/model). Octets have just the length given. */
#include <stddef.h>
#include <stdint.h>
#include <stdlib.h>
static const unsigned char *checked_octets;
static size_t checked_count;
static unsigned short the_check;
unsigned nondet_u(void);

unsigned model_check(const unsigned char *octets, size_t count) {
    __CPROVER_assert(octets == checked_octets && count == checked_count, "the check is that of these octets");
    return (nondet_u() & 0xffff0000U) | the_check;
}

uint64_t model_quotient(uint64_t of, uint64_t by) {
    return of + by;
}

#define REF_CRC(o, n) the_check
#include "reference.h"
#ifndef LONGEST
#define LONGEST 1100
#endif
uint8_t nondet_8(void);
uint16_t nondet_16(void);
size_t nondet_size(void);
struct sedge_tc_frame nondet_tc(void);
struct sedge_tm_frame nondet_tm(void);
struct sedge_packet nondet_packet(void);
struct sedge_part nondet_part(void);
#define CHECK(x, what) __CPROVER_assert(x, what)

static uint8_t *some_octets(size_t count) {
    uint8_t *o;
    __CPROVER_assume(count <= LONGEST);
    o = malloc(count);
    __CPROVER_assume(o != NULL);
    checked_octets = o;
    checked_count = count - 2;
    the_check = nondet_16();
    return o;
}

static bool same_part(struct sedge_part a, struct sedge_part b) {
    return a.from == b.from && a.count == b.count;
}

void tc_decode(void) {
    size_t count = nondet_size();
    uint8_t *o = some_octets(count);
    bool checked = nondet_8() & 1;
    struct sedge_tc_frame a = nondet_tc(), b = a;
    struct sedge_part p = nondet_part(), q = p;
    CHECK(sedge_tc_decode(o, count, checked, &a, &p) == ref_tc_decode(o, count, checked, &b, &q), "answer");
    CHECK(a.scid == b.scid && a.vcid == b.vcid && a.kind == b.kind && a.n == b.n && a.flags == b.flags &&
              a.map == b.map && a.command == b.command && a.vr == b.vr,
          "frame");
    CHECK(same_part(p, q), "part");
}

void tc_declared(void) {
    size_t count = nondet_size(), t = nondet_size(), u = t;
    uint8_t *o = some_octets(count);
    bool checked = nondet_8() & 1;
    CHECK(sedge_tc_declared(o, count, checked, &t) == ref_tc_declared(o, count, checked, &u), "answer");
    CHECK(t == u, "total");
}

void packet_declared(void) {
    size_t count = nondet_size(), t = nondet_size(), u = t;
    uint8_t *o = some_octets(count);
    CHECK(sedge_packet_declared(o, count, &t) == ref_packet_declared(o, count, &u), "answer");
    CHECK(t == u, "total");
}

void packet_decode(void) {
    size_t count = nondet_size();
    uint8_t *o = some_octets(count);
    struct sedge_packet a = nondet_packet(), b = a;
    struct sedge_part p = nondet_part(), q = p;
    CHECK(sedge_packet_decode(o, count, &a, &p) == ref_packet_decode(o, count, &b, &q), "answer");
    CHECK(a.apid == b.apid && a.count == b.count && a.kind == b.kind && a.secondary == b.secondary &&
              a.flags == b.flags,
          "packet");
    CHECK(same_part(p, q), "part");
}

void map_packet(void) {
    size_t count = nondet_size();
    uint8_t *o = some_octets(count);
    struct sedge_part p = nondet_part(), q = p;
    CHECK(sedge_map_packet(o, count, &p) == ref_map_packet(o, count, &q), "answer");
    CHECK(same_part(p, q), "part");
}

void tm_decode(void) {
    size_t count = nondet_size(), length = nondet_size();
    uint8_t *o = some_octets(count);
    struct sedge_tm_frame a = nondet_tm(), b = a;
    struct sedge_part p = nondet_part(), q = p;
    CHECK(sedge_tm_decode(o, count, length, &a, &p) == ref_tm_decode(o, count, length, &b, &q), "answer");
    CHECK(a.scid == b.scid && a.pointer == b.pointer && a.vcid == b.vcid && a.mc_count == b.mc_count &&
              a.vc_count == b.vc_count,
          "frame");
    for (int i = 0; i < 4; i++) CHECK(a.ocf[i] == b.ocf[i], "ocf");
    CHECK(same_part(p, q), "part");
}
