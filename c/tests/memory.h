/* Tells a test which allocations the library requested from a file of c/memory, and which were refused. The linker puts
 * these functions before those of that file, by -Wl,--wrap=rattle_alloc and likewise for the other two. A test that
 * includes this file decides in is_refused() whether the next allocation is refused. */
#ifndef MEMORY_H
#define MEMORY_H

#include <sedgechisel_memory.h>

struct sedge_place __real_rattle_alloc(size_t count, size_t align);
struct sedge_place __real_rattle_realloc(void *at, size_t kept, size_t count, size_t align);
void __real_rattle_dealloc(void *at);
struct sedge_place __wrap_rattle_alloc(size_t count, size_t align);
struct sedge_place __wrap_rattle_realloc(void *at, size_t kept, size_t count, size_t align);
void __wrap_rattle_dealloc(void *at);

static bool is_refused(void);

/* The octets that new places were asked for with, the places that there are now, and the allocations that were
 * refused, here or by the file. */
static size_t asked;
static long live, refused;

struct sedge_place __wrap_rattle_alloc(size_t count, size_t align) {
    struct sedge_place place = {false, &live};
    if (!is_refused()) place = __real_rattle_alloc(count, align);
    asked += count;
    live += place.found;
    refused += !place.found;
    return place;
}

struct sedge_place __wrap_rattle_realloc(void *at, size_t kept, size_t count, size_t align) {
    struct sedge_place place = {false, &live};
    if (!is_refused()) place = __real_rattle_realloc(at, kept, count, align);
    refused += !place.found;
    return place;
}

void __wrap_rattle_dealloc(void *at) {
    live--;
    __real_rattle_dealloc(at);
}

#endif
