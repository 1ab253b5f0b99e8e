/* cbmc: what writes octets equals the reference, with the FECF as any function of what it is given (MODEL.c of
 * c/equal/model), which is as many octets, as they are written in the end; for every struct, every octet of data, every
 * room up to 20 octets more than the data, and all numbers of octets of data from 0 to COUNT, or with -DFROM=n from that.
 * No octet after what is written changes, nor do the data, which end where their memory does. */
#include <stddef.h>
#include <stdint.h>
#include <stdlib.h>
static const unsigned char *checked_octets;
static size_t checked_count, reference_count, place;
static unsigned char checked;
static unsigned short the_check;
unsigned nondet_u(void);
#define CHECK(x, what) __CPROVER_assert(x, what)

unsigned model_check(const unsigned char *octets, size_t count) {
    CHECK(octets == checked_octets, "the check is that of these octets");
    checked_count = count;
    if (place < count) checked = octets[place];
    return (nondet_u() & 0xffff0000U) | the_check;
}

static unsigned short reference_check(size_t count) {
    reference_count = count;
    return the_check;
}

uint64_t model_quotient(uint64_t of, uint64_t by) {
    return of + by;
}

#define REF_CRC(o, n) reference_check(n)
#include "reference_encode.h"
#ifndef COUNT
#define COUNT 7
#endif
#ifndef FROM
#define FROM 0
#endif
#define ROOM (COUNT + 20)
uint8_t nondet_8(void);
uint16_t nondet_16(void);
size_t nondet_size(void);
struct sedge_tc_frame nondet_tc(void);
struct sedge_tm_frame nondet_tm(void);
struct sedge_packet nondet_packet(void);
static uint8_t data[COUNT], before[COUNT], out[ROOM], other[ROOM];
static size_t room, total, the_total;

static void begin(void) {
    __CPROVER_havoc_object(data);
    __CPROVER_array_copy(before, data);
    __CPROVER_havoc_object(out);
    __CPROVER_array_copy(other, out);
    room = nondet_size();
    __CPROVER_assume(room <= ROOM);
    total = the_total = nondet_size();
    checked_octets = out;
    checked_count = reference_count = SIZE_MAX;
    place = nondet_size();
    the_check = nondet_16();
}

static void end(void) {
    size_t k = nondet_size();
    CHECK(total == the_total, "total");
    if (k < ROOM) CHECK(out[k] == other[k], "octets");
    if (k < COUNT) CHECK(data[k] == before[k], "data");
    CHECK(checked_count == reference_count, "as many octets are checked");
    if (checked_count != SIZE_MAX && place < checked_count) {
        CHECK(checked_octets[place] == checked, "they are checked as written");
    }
}

static void tc(struct sedge_tc_frame f, size_t n, bool with_check) {
    begin();
    CHECK(sedge_tc_encode(&f, data + COUNT - n, n, with_check, out, room, &total) ==
              ref_tc_encode(&f, data + COUNT - n, n, with_check, other, room, &the_total),
          "answer");
    end();
}

static void tc_of(uint8_t kind, bool with_check) {
    for (size_t n = FROM; n <= COUNT; n++) {
        struct sedge_tc_frame f = nondet_tc();
        f.kind = kind;
        tc(f, n, with_check);
    }
}

void tc_encode_ad(void) {
    tc_of(SEDGE_TC_AD, false);
    tc_of(SEDGE_TC_AD, true);
}

void tc_encode_bd(void) {
    tc_of(SEDGE_TC_BD, false);
    tc_of(SEDGE_TC_BD, true);
}

void tc_encode_bc(void) {
    struct sedge_tc_frame f = nondet_tc();
    f.kind = SEDGE_TC_BC;
    f.command = SEDGE_UNLOCK;
    tc(f, COUNT, false);
    tc(f, COUNT, true);
    f.command = SEDGE_SET_VR;
    tc(f, COUNT, false);
    tc(f, COUNT, true);
}

void packet_encode(void) {
    for (size_t n = FROM; n <= COUNT; n++) {
        struct sedge_packet p = nondet_packet();
        begin();
        CHECK(sedge_packet_encode(&p, data + COUNT - n, n, out, room, &total) ==
                  ref_packet_encode(&p, data + COUNT - n, n, other, room, &the_total),
              "answer");
        end();
    }
}

void tm_encode(void) {
    for (size_t n = FROM; n <= COUNT; n++) {
        struct sedge_tm_frame f = nondet_tm();
        begin();
        CHECK(sedge_tm_encode(&f, data + COUNT - n, n, out, room, &total) ==
                  ref_tm_encode(&f, data + COUNT - n, n, other, room, &the_total),
              "answer");
        end();
    }
}

void check_append(void) {
    for (size_t n = FROM; n <= COUNT; n++) {
        begin();
        checked_octets = out + ROOM - n;
        CHECK(sedge_check_append(out + ROOM - n, n) == ref_check_append(other + ROOM - n, n), "answer");
        end();
    }
}

void check_holds(void) {
    for (size_t n = FROM; n <= COUNT; n++) {
        begin();
        checked_octets = out + ROOM - n;
        CHECK(sedge_check_holds(out + ROOM - n, n) == ref_check_holds(other + ROOM - n, n), "answer");
        end();
    }
}
