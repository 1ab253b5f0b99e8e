/* The memory of libsedgechisel_nodes, over malloc: the three functions that the library calls, and all that it calls but
 * memcpy, memmove and memset. Each is asked for an alignment of at most 16, which malloc keeps to on the processors that
 * the library is built for. A place for 0 octets has an address of its own too. */
#include <sedgechisel_memory.h>
#include <stdlib.h>

static char nowhere;

static struct sedge_place place_at(void *at)
{
    struct sedge_place place = {at != NULL, at != NULL ? at : &nowhere};
    return place;
}

struct sedge_place rattle_alloc(size_t count, size_t align)
{
    return place_at(malloc(count > 0 ? count : align));
}

struct sedge_place rattle_realloc(void *at, size_t kept, size_t count, size_t align)
{
    (void)kept;
    return place_at(realloc(at, count > 0 ? count : align));
}

void rattle_dealloc(void *at)
{
    free(at);
}
