#include "sedgechisel.h"

#include <limits.h>
#include <string.h>

/* What is never reached: the library is proved to end without it. */
#ifndef UNREACHABLE
#define UNREACHABLE for (;;) {}
#endif

/* Where the machine's numbers are little-endian, as they are in memory here, structs of numbers are used as they are. */
#if defined __BYTE_ORDER__ && defined __ORDER_LITTLE_ENDIAN__ && !defined SEDGE_BY_OCTETS
#if __BYTE_ORDER__ == __ORDER_LITTLE_ENDIAN__
#define LITTLE
#endif
#endif

/* On these processors a number may stand at any address, and is read and written whole, turned where they are
 * big-endian. Elsewhere memcpy would be called for each, so it is read and written octet by octet. */
#ifdef LITTLE
#if defined __x86_64__ || defined __i386__ || defined __ARM_FEATURE_UNALIGNED || defined __powerpc__ || defined __wasm__
#define WHOLE
#define TURNED(bits, number) (number)
#endif
#elif defined __powerpc__ && defined __GNUC__ && !defined SEDGE_BY_OCTETS
#define WHOLE
#define TURNED(bits, number) __builtin_bswap##bits(number)
#endif

typedef char octets_have_8_bits[CHAR_BIT == 8 ? 1 : -1];
typedef char an_int_has_at_least_32_bits[INT_MAX >= 2147483647 ? 1 : -1];
typedef char addresses_have_32_to_64_bits[sizeof(uintptr_t) >= 4 && sizeof(uintptr_t) <= 8 ? 1 : -1];
typedef char a_bool_is_an_octet[sizeof(bool) == 1 ? 1 : -1];
typedef char counts_have_the_bits_of_addresses[sizeof(size_t) == sizeof(uintptr_t) ? 1 : -1];

/* Memory from an address on. */
#define OCTETS(at) ((unsigned char *)(uintptr_t)(at))

/* The address of a place, as a number. */
static uint64_t address(const void *place)
{
    return (uint64_t)(uintptr_t)place;
}

/* The first address in some room that 16 divides, as it does each frame's and each struct's where this was compiled. */
static uint64_t aligned(void *room)
{
    return (address(room) + 15) & ~15ULL;
}

/* The address; and for a null pointer one that is not null. The compiler takes null for no slice at all, so the code of
 * a call keeps slices away from it. Nothing is read or written there: a null pointer is not given (sedgechisel.h). */
static uint64_t some(uint64_t at)
{
    return at + (at == 0 ? 0x1000 : 0);
}

static uint32_t get8_at(uintptr_t at)
{
    return *OCTETS(at);
}
/* (An address is made one of the machine before it is a sum: so one of 32 bits reckons with no more.) */
#define get8(at) get8_at((uintptr_t)(at))

static uint32_t get16_at(uintptr_t at)
{
#ifdef WHOLE
    uint16_t value;
    memcpy(&value, OCTETS(at), 2);
    return TURNED(16, value);
#else
    const unsigned char *o = OCTETS(at);
    return (uint32_t)o[0] | (uint32_t)o[1] << 8;
#endif
}
#define get16(at) get16_at((uintptr_t)(at))

static uint32_t get32_at(uintptr_t at)
{
#ifdef WHOLE
    uint32_t value;
    memcpy(&value, OCTETS(at), 4);
    return TURNED(32, value);
#else
    const unsigned char *o = OCTETS(at);
    return (uint32_t)o[0] | (uint32_t)o[1] << 8 | (uint32_t)o[2] << 16 | (uint32_t)o[3] << 24;
#endif
}
#define get32(at) get32_at((uintptr_t)(at))

static uint64_t get64_at(uintptr_t at)
{
#ifdef WHOLE
    uint64_t value;
    memcpy(&value, OCTETS(at), 8);
    return TURNED(64, value);
#else
    return (uint64_t)get32(at) | (uint64_t)get32(at + 4) << 32;
#endif
}
#define get64(at) get64_at((uintptr_t)(at))

/* The lowest 8 bits of a number are written. */
static void put8_at(uintptr_t at, uint32_t value)
{
    *OCTETS(at) = (unsigned char)(value & 255);
}
#define put8(at, value) put8_at((uintptr_t)(at), value)

/* The lowest 16 bits. */
static void put16_at(uintptr_t at, uint32_t value)
{
#ifdef WHOLE
    const uint16_t lowest = TURNED(16, (uint16_t)(value & 0xffff));
    memcpy(OCTETS(at), &lowest, 2);
#else
    unsigned char *o = OCTETS(at);
    o[0] = (unsigned char)(value & 255);
    o[1] = (unsigned char)(value >> 8 & 255);
#endif
}
#define put16(at, value) put16_at((uintptr_t)(at), value)

static void put32_at(uintptr_t at, uint32_t value)
{
#ifdef WHOLE
    const uint32_t whole = TURNED(32, value);
    memcpy(OCTETS(at), &whole, 4);
#else
    unsigned char *o = OCTETS(at);
    o[0] = (unsigned char)(value & 255);
    o[1] = (unsigned char)(value >> 8 & 255);
    o[2] = (unsigned char)(value >> 16 & 255);
    o[3] = (unsigned char)(value >> 24);
#endif
}
#define put32(at, value) put32_at((uintptr_t)(at), value)

static void put64_at(uintptr_t at, uint64_t value)
{
#ifdef WHOLE
    const uint64_t whole = TURNED(64, value);
    memcpy(OCTETS(at), &whole, 8);
#else
    put32(at, (uint32_t)(value & 0xffffffffU));
    put32(at + 4, (uint32_t)(value >> 32));
#endif
}
#define put64(at, value) put64_at((uintptr_t)(at), value)

/* A number of a type that has such numbers alone: it is in memory as the machine itself has it. */
static uint32_t own16_at(uintptr_t at)
{
    return *(const uint16_t *)(const void *)OCTETS(at);
}
#define own16(at) own16_at((uintptr_t)(at))

static uint32_t own32_at(uintptr_t at)
{
    return *(const uint32_t *)(const void *)OCTETS(at);
}
#define own32(at) own32_at((uintptr_t)(at))

/* The lowest 16 bits. */
static void put_own16_at(uintptr_t at, uint32_t value)
{
    *(uint16_t *)(void *)OCTETS(at) = (uint16_t)(value & 0xffff);
}
#define put_own16(at, value) put_own16_at((uintptr_t)(at), value)

static void put_own32_at(uintptr_t at, uint32_t value)
{
    *(uint32_t *)(void *)OCTETS(at) = value;
}
#define put_own32(at, value) put_own32_at((uintptr_t)(at), value)

/* Moves octets, which may overlap. */
static void copy_at(uintptr_t to, uintptr_t from, size_t count)
{
    if (count > 0) memmove(OCTETS(to), OCTETS(from), (size_t)count);
}
#define copy(to, from, count) copy_at((uintptr_t)(to), (uintptr_t)(from), (size_t)(count))

static void fill_at(uintptr_t to, uint32_t value, size_t count)
{
    if (count > 0) memset(OCTETS(to), (int)(value & 255), (size_t)count);
}
#define fill(to, value, count) fill_at((uintptr_t)(to), value, (size_t)(count))

static uint32_t rotl32(uint32_t x, uint32_t count)
{
    return x << count | x >> ((32 - count) & 31);
}

static uint64_t rotl64(uint64_t x, uint64_t count)
{
    return x << count | x >> ((64 - count) & 63);
}

/* A shift to the right that keeps the sign. */
static uint32_t sar32(uint32_t x, uint32_t count)
{
    return x >> 31 ? ~(~x >> count) : x >> count;
}

static uint64_t sar64(uint64_t x, uint64_t count)
{
    return x >> 63 ? ~(~x >> count) : x >> count;
}

/* A number of fewer bits, the highest of them this, made longer with its sign. */
static uint32_t extend32(uint32_t x, uint32_t highest)
{
    return ((x & (2 * highest - 1)) ^ highest) - highest;
}

static uint64_t extend64(uint64_t x, uint64_t highest)
{
    return ((x & (2 * highest - 1)) ^ highest) - highest;
}

/* What is compared without a sign as the number is with one. */
static uint32_t ordered32(uint32_t x)
{
    return x ^ 0x80000000U;
}

static uint64_t ordered64(uint64_t x)
{
    return x ^ 0x8000000000000000ULL;
}

/* How many of the highest bits are 0, of the lowest, and how many bits are 1. */
static uint32_t clz32(uint32_t x)
{
    uint32_t count = 32, left = x;
    for (; left != 0; left >>= 1) count--;
    return count;
}

static uint64_t clz64(uint64_t x)
{
    uint64_t count = 64, left = x;
    for (; left != 0; left >>= 1) count--;
    return count;
}

static uint32_t ones32(uint32_t x)
{
    uint32_t count = 0, left = x;
    for (; left != 0; left &= left - 1) count++;
    return count;
}

static uint64_t ones64(uint64_t x)
{
    uint64_t count = 0, left = x;
    for (; left != 0; left &= left - 1) count++;
    return count;
}

static uint32_t ctz32(uint32_t x)
{
    return ones32((x & (0 - x)) - 1);
}

static uint64_t ctz64(uint64_t x)
{
    return ones64((x & (0 - x)) - 1);
}
