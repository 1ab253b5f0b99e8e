/* cbmc: nothing is read or written outside of what a call is given, no number overflows that may not, no shift is too
 * far, and nothing is reached that is not to be, for every octet and struct: each of D octets of data and M of memory
 * (-DD=14 -DM=20). And the answers that the header names. */
#include <stdint.h>
#include <stdlib.h>
#include "sedgechisel.h"
#ifndef D
#define D 14
#define M 20
#endif
uint8_t nondet_8(void);
unsigned nondet_u(void);
size_t nondet_size(void);
struct sedge_tm_builder nondet_builder(void);
struct sedge_part nondet_part(void);

unsigned model_check(const unsigned char *octets, size_t count) {
    __CPROVER_assert(count == 0 || __CPROVER_r_ok(octets, count), "the check reads what it may");
    return nondet_u();
}

uint64_t model_quotient(uint64_t of, uint64_t by) {
    return of + by;
}

static uint8_t *place(size_t n) {
    uint8_t *o = malloc(n);
    __CPROVER_assume(o != NULL);
    return o;
}

void tm_packet(void) {
    struct sedge_part p = nondet_part();
    uint8_t *d = place(D);
    if (sedge_tm_packet(d, D, &p)) __CPROVER_assert(p.from <= D && p.count >= 7 && p.count <= D - p.from, "packet");
}

void builder_queue(void) {
    struct sedge_tm_builder b = nondet_builder();
    uint8_t *d = place(D), *m = place(M);
    (void)!sedge_tm_builder_queue(&b, d, D, m, M);
}

void builder_build(void) {
    struct sedge_tm_builder b = nondet_builder();
    size_t t;
    uint8_t *d = place(4), *m = place(M), *o = place(D + 12);
    b.length = D + 12;
    if (sedge_tm_builder_build(&b, d, 4, m, M, o, D + 12, &t) == 0) __CPROVER_assert(t == D + 12, "total");
}

unsigned open_check_itself(const uint8_t *o, size_t n);

void check_itself(void) {
    uint8_t *d = place(D);
    (void)open_check_itself(d, D);
}
