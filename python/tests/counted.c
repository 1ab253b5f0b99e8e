/* The memory of libsedgechisel_nodes for the tests of the package for Python: that of c/memory/malloc.c, counted, of
 * which one allocation may be refused. */
#include <stdbool.h>
#include <stddef.h>
#include <stdlib.h>

struct place {
    bool found;
    void *at;
};

/* The places that are not freed; the allocation that is refused, 1 for the next and 0 for none; and whether it was. */
long counted_live, counted_refuse, counted_refused;

static char nowhere;

static struct place place_at(void *at)
{
    struct place place = {at != NULL, at != NULL ? at : &nowhere};
    return place;
}

static bool is_refused(void)
{
    bool is = counted_refuse == 1;
    counted_refuse -= counted_refuse > 0;
    counted_refused += is;
    return is;
}

struct place rattle_alloc(size_t count, size_t align)
{
    struct place place = place_at(is_refused() ? NULL : malloc(count > 0 ? count : align));
    counted_live += place.found;
    return place;
}

struct place rattle_realloc(void *at, size_t kept, size_t count, size_t align)
{
    (void)kept;
    return place_at(is_refused() ? NULL : realloc(at, count > 0 ? count : align));
}

void rattle_dealloc(void *at)
{
    counted_live--;
    free(at);
}
