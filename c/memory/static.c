/* The memory of libsedgechisel_nodes in static places, for programs without malloc: the three functions that the
 * library calls. SEDGE_PLACES says how many places there are of each size in octets, the smallest first, each once and
 * a multiple of 16, or the file does not compile:
 *     -D'SEDGE_PLACES=PLACES(112, 40) PLACES(352, 1) PLACES(65552, 1)'
 * docs/FLIGHT.md says how many a node takes at most. What is asked for gets a free place of the first size that is enough,
 * so where there are as many of each size as are used at once, nothing is ever refused. Each call takes time in
 * proportion to the number of sizes; rattle_realloc besides to the octets that it keeps, where these get a larger place.
 * Nothing here is for two threads at once.
 *
 * A place begins at a multiple of what a long double does: 16 on the processors of the proved archives, which ask for
 * up to 16. Elsewhere it may be 8, 4 or 2, and portable C does with any address. */
#include <sedgechisel_memory.h>
#include <stdint.h>
#include <string.h>

/* A size that is no multiple of 16, or no more than the one before it, does not compile: above_N is the number after
 * the size before N. */
enum {
    none_before,
#define PLACES(octets, count) above_##octets, size_##octets = (octets),
    SEDGE_PLACES
#undef PLACES
};
#define PLACES(octets, count) \
    typedef char sizes_ascend_in_multiples_of_16_##octets \
        [((((octets) % 16) == 0) && ((octets) >= above_##octets)) ? 1 : -1];
SEDGE_PLACES
#undef PLACES

/* The places, each size a member of its own. */
static union {
    struct {
#define PLACES(octets, count) unsigned char of_##octets[(count)][(octets)];
        SEDGE_PLACES
#undef PLACES
    } all;
    long double align;
} memory;

/* The places of a size: where they begin, the first `used` that were used since all were free, the most that were used
 * at once since the start, and those of the used ones that are free, each of which begins with the address of the
 * next. */
static struct size {
    unsigned char *at;
    size_t octets;
    size_t count;
    size_t used;
    size_t most;
    void *free;
} sizes[] = {
#define PLACES(octets, count) {memory.all.of_##octets[0], (octets), (count), 0, 0, NULL},
    SEDGE_PLACES
#undef PLACES
};

#define SIZES (sizeof(sizes) / sizeof(sizes[0]))

/* A place of a size that has one. */
static void *place_of(struct size *size)
{
    void *at = size->free;
    if (at != NULL) {
        (void)memcpy(&size->free, at, sizeof(size->free));
    } else {
        at = &size->at[size->used * size->octets];
        size->used++;
        if (size->most < size->used) {
            size->most = size->used;
        }
    }
    return at;
}

struct sedge_place rattle_alloc(size_t count, size_t align)
{
    struct sedge_place place = {false, &memory};
    (void)align; /* at most 16 */
    for (size_t k = 0; (k < SIZES) && (!place.found); k++) {
        struct size *size = &sizes[k];
        if ((count <= size->octets) && ((size->free != NULL) || (size->used < size->count))) {
            place.found = true;
            place.at = place_of(size);
        }
    }
    return place;
}

/* The size of a place that is used. */
static struct size *size_at(const void *at)
{
    size_t k = 0;
    while ((k < (SIZES - 1U)) && (((uintptr_t)at - (uintptr_t)sizes[k].at) >= (sizes[k].count * sizes[k].octets))) {
        k++;
    }
    return &sizes[k];
}

void rattle_dealloc(void *at)
{
    struct size *size = size_at(at);
    (void)memcpy(at, &size->free, sizeof(size->free));
    size->free = at;
}

struct sedge_place rattle_realloc(void *at, size_t kept, size_t count, size_t align)
{
    struct sedge_place place = {true, at};
    if (count > size_at(at)->octets) {
        place = rattle_alloc(count, align);
        if (place.found) {
            (void)memcpy(place.at, at, kept);
            rattle_dealloc(at);
        }
    }
    return place;
}

bool sedge_static_size(size_t k, struct sedge_static_places *size)
{
    bool found = k < SIZES;
    if (found) {
        size->octets = sizes[k].octets;
        size->count = sizes[k].count;
        size->most = sizes[k].most;
    }
    return found;
}

void sedge_static_reset(void)
{
    for (size_t k = 0; k < SIZES; k++) {
        sizes[k].used = 0;
        sizes[k].free = NULL;
    }
}
