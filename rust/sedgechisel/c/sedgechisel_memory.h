/* The memory of libsedgechisel_nodes for programs in C: three functions that the program defines and the library calls.
 * malloc.c defines them with malloc, and static.c with static blocks (docs/FLIGHT.md); a program may define its own.
 * For C99 and later, and for C++.
 *
 * The proofs of the library assume that these functions do what is stated here. Each must return, and must not call the
 * library. If two threads use the library at once, both call the functions. */
#ifndef SEDGECHISEL_MEMORY_H
#define SEDGECHISEL_MEMORY_H

#include <stddef.h>
#ifndef __cplusplus
#include <stdbool.h>
#endif

#ifdef __cplusplus
extern "C" {
#endif

/* The answer to a request. */
struct sedge_place {
    bool found; /* whether a place was found */
    void *at;   /* where it begins; if none was found, any address except null, which is not used */
};

/* Finds a place of count octets that nothing else uses until it is released. It begins at a multiple of align, which is
 * 1, 2, 4, 8 or 16, so a multiple of 16 is always suitable; in portable C it may begin anywhere. A place for 0 octets
 * also has an address of its own. The values of its octets do not matter. */
struct sedge_place rattle_alloc(size_t count, size_t align);

/* Resizes the place at this address, which was found for the same align, to count octets, more or fewer; it may move.
 * Its first kept octets stay; kept is at most count and at most the size of the old place. If no place is found, the
 * old one stays with all its octets, and must still be released. */
struct sedge_place rattle_realloc(void *at, size_t kept, size_t count, size_t align);

/* Releases the place at this address, which one of these two functions found; the address is never null. */
void rattle_dealloc(void *at);

/* ---- What static.c also defines, for the program. ---- */

/* The places of one size: the octets of each, how many there are, and the maximum number used at once since the
 * start. */
struct sedge_static_places {
    size_t octets;
    size_t count;
    size_t most;
};

/* Writes the places of size k; sizes are counted from 0, the smallest first. Returns true; or returns false and writes
 * nothing if there are not that many sizes. */
bool sedge_static_size(size_t k, struct sedge_static_places *size);

/* Frees all places, as at the start; the maximum numbers used stay. The call needs no handle, so it helps if one was
 * overwritten. What the handles held is gone: set each to {0} before you use or close it. */
void sedge_static_reset(void);

#ifdef __cplusplus
}
#endif

#endif
