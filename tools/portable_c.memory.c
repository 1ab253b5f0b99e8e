/* A place that a function of sedgechisel_memory.h found, as wasm64 has it. */
static void put_place(uint64_t at, struct sedge_place place)
{
    put64(at, place.found);
    put64(at + 8, address(place.at));
}

/* No place has more octets than the machine has addresses. */
static void rattle_alloc_at(uint64_t result, uint64_t count, uint64_t align)
{
    struct sedge_place place = {false, OCTETS(align)};
    if ((size_t)count == count) place = rattle_alloc((size_t)count, (size_t)align);
    put_place(result, place);
}

static void rattle_realloc_at(uint64_t result, uint64_t at, uint64_t kept, uint64_t count, uint64_t align)
{
    struct sedge_place place = {false, OCTETS(align)};
    if ((size_t)count == count) place = rattle_realloc(OCTETS(at), (size_t)kept, (size_t)count, (size_t)align);
    put_place(result, place);
}

static void rattle_dealloc_at(uint64_t at)
{
    rattle_dealloc(OCTETS(at));
}
