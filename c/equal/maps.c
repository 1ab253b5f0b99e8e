/* cbmc: packets in segments equal the reference, for every octet, number and struct, with each number of octets of data
 * from FROM to LONGEST, and MEMORY octets of memory. A quotient by any 32 bits is taken of a few bits here (MODEL.c of c/equal/model):
 * nothing that is divided has more octets than LONGEST. */
#include <stdlib.h>
#include <stddef.h>
#include <stdint.h>
#ifndef LONGEST
#define LONGEST 14
#define MEMORY 20
#endif
#ifndef FROM
#define FROM 0
#endif
#define CHECK(x, what) __CPROVER_assert(x, what)
typedef unsigned __CPROVER_bitvector[6] few_bits;

uint64_t model_quotient(uint64_t of, uint64_t by) {
    CHECK(of < 64 && LONGEST < 64 && by != 0, "what is divided has few octets");
    if (by > of) return 0;
    return (uint64_t)((few_bits)of / (few_bits)by);
}

#define REF_QUOTIENT(of, by) model_quotient(of, by)
#include "reference_maps.h"
uint8_t nondet_8(void);
size_t nondet_size(void);
struct sedge_map nondet_map(void);
struct sedge_taken nondet_taken(void);
struct sedge_limits nondet_limits(void);
struct sedge_part nondet_part(void);

unsigned model_check(const unsigned char *octets, size_t count) {
    (void)octets;
    return (unsigned)count;
}

/* The last octets of a place of LONGEST, or of MEMORY: nothing after them may be read. */
static uint8_t places[LONGEST], memory[MEMORY], before[MEMORY];

/* Each number of octets from 0 to LONGEST by itself, which CBMC takes far better than any. */
#define EACH(n) for (size_t n = FROM; n <= LONGEST; n++)

static const uint8_t *data_of(size_t n) {
    __CPROVER_havoc_object(places);
    return places + (LONGEST - n);
}

static void taken(size_t n, uint8_t flags) {
    struct sedge_map a = nondet_map(), b = a;
    struct sedge_taken t = nondet_taken(), u = t;
    size_t j = nondet_size();
    const uint8_t *d = data_of(n);
    __CPROVER_havoc_object(memory);
    __CPROVER_array_copy(before, memory);
    CHECK(sedge_map_take(&a, flags, d, n, memory, MEMORY, &t) == ref_map_take(&b, flags, d, n, before, MEMORY, &u),
          "answer");
    CHECK(a.count == b.count && a.open == b.open && a.blocking == b.blocking, "map");
    CHECK(t.count == u.count && t.where == u.where && t.dropped == u.dropped, "taken");
    if (j < MEMORY && (j < a.count || (t.where == SEDGE_IN_MEMORY && j < t.count))) CHECK(memory[j] == before[j], "memory");
}

void map_take_first(void) {
    EACH(n) taken(n, SEDGE_SEGMENT_FIRST);
}

void map_take_last(void) {
    EACH(n) taken(n, SEDGE_SEGMENT_LAST);
}

void map_take_alone(void) {
    EACH(n) taken(n, SEDGE_SEGMENT_ALONE);
}

void map_count(void) {
    EACH(n) {
        struct sedge_limits l = nondet_limits();
        size_t s = nondet_size(), t = s;
        const uint8_t *d = data_of(n);
        CHECK(sedge_map_count(d, n, &l, &s) == ref_map_count(d, n, &l, &t), "answer");
        CHECK(s == t, "segments");
    }
}
