#include <float.h>
#include <math.h>
#include <stdlib.h>

typedef char a_double_has_64_bits[sizeof(double) == 8 && DBL_MANT_DIG == 53 ? 1 : -1];

#ifdef __GNUC__
#define HELPER static inline __attribute__((unused))
#else
#define HELPER static inline
#endif
#ifndef PART
#define LOCAL static
#define ROOM static
#else
#define LOCAL
#if PART == 1
#define ROOM
#else
#define ROOM extern
#endif
#endif
#if PART > 8
#error there is no such part
#endif

/* Where the compiler has numbers at any address and beside any type, these do as the functions of their names below,
 * which compilers take longer over. */
#if defined __GNUC__ && defined LITTLE
typedef uint16_t __attribute__((may_alias, aligned(1))) any16;
typedef uint32_t __attribute__((may_alias, aligned(1))) any32;
typedef uint64_t __attribute__((may_alias, aligned(1))) any64;
#define get8(at) ((uint32_t)*OCTETS(at))
#define get16(at) ((uint32_t)*(const any16 *)OCTETS(at))
#define get32(at) ((uint32_t)*(const any32 *)OCTETS(at))
#define get64(at) ((uint64_t)*(const any64 *)OCTETS(at))
#define put8(at, value) (*OCTETS(at) = (unsigned char)(value))
#define put16(at, value) (*(any16 *)OCTETS(at) = (uint16_t)(value))
#define put32(at, value) (*(any32 *)OCTETS(at) = (value))
#define put64(at, value) (*(any64 *)OCTETS(at) = (value))
typedef uint8_t sixteen __attribute__((vector_size(16)));
typedef int8_t signed_sixteen __attribute__((vector_size(16)));
#ifdef __clang__
#define ZIPPED(a, b, ...) __builtin_shufflevector(a, b, __VA_ARGS__)
#else
#define ZIPPED(a, b, ...) __builtin_shuffle(a, b, (sixteen){__VA_ARGS__})
#endif
#endif

/* Numbers with a fraction, as in memory: those of IEEE 754 with 64 bits. */
static double get_fraction(uint64_t at)
{
    const uint64_t bits = get64(at);
    double value;
    memcpy(&value, &bits, 8);
    return value;
}

static void put_fraction(uint64_t at, double value)
{
    uint64_t bits;
    memcpy(&bits, &value, 8);
    put64(at, bits);
}

/* Numbers of 128 bits, in two halves, the lower one first. */
static void put128(uint64_t at, uint64_t low, uint64_t high)
{
    put64(at, low);
    put64(at + 8, high);
}

static void multi3_at(uint64_t result, uint64_t a, uint64_t a_high, uint64_t b, uint64_t b_high)
{
    const uint64_t a0 = a & 0xffffffffU, a1 = a >> 32, b0 = b & 0xffffffffU, b1 = b >> 32;
    const uint64_t middle = a1 * b0 + (a0 * b0 >> 32), other = a0 * b1 + (middle & 0xffffffffU);
    put128(result, a * b, a1 * b1 + (middle >> 32) + (other >> 32) + a * b_high + a_high * b);
}

static void lshrti3_at(uint64_t result, uint64_t low, uint64_t high, uint32_t count)
{
    if (count >= 64) put128(result, high >> (count & 63), 0);
    else if (count > 0) put128(result, low >> count | high << (64 - count), high >> count);
    else put128(result, low, high);
}

static void ashlti3_at(uint64_t result, uint64_t low, uint64_t high, uint32_t count)
{
    if (count >= 64) put128(result, 0, low << (count & 63));
    else if (count > 0) put128(result, low << count, high << count | low >> (64 - count));
    else put128(result, low, high);
}

/* Division bit by bit: the rest stays below the divisor. */
static void udivti3_at(uint64_t result, uint64_t a, uint64_t a_high, uint64_t b, uint64_t b_high)
{
    uint64_t low = 0, high = 0, rest = 0, rest_high = 0;
    if (a_high == 0 && b_high == 0) {
        put128(result, a / b, 0);
        return;
    }
    for (int k = 127; k >= 0; k--) {
        const uint64_t bit = k < 64 ? a >> k & 1 : a_high >> (k - 64) & 1, carry = rest_high >> 63;
        rest_high = rest_high << 1 | rest >> 63;
        rest = rest << 1 | bit;
        if (carry || rest_high > b_high || (rest_high == b_high && rest >= b)) {
            rest_high -= b_high + (rest < b);
            rest -= b;
            if (k < 64) low |= 1ULL << k;
            else high |= 1ULL << (k - 64);
        }
    }
    put128(result, low, high);
}

/* The hexadecimal digits of sixteen octets, of each the digit of its upper four bits first. The program has them by an
 * instruction of x86 (listings/src/parts.rt); here by vectors where the compiler has those, and else one by one. */
static void sixteen_digits_at(uint64_t to, uint64_t from)
{
#ifdef ZIPPED
    sixteen high, low, first, second;
    memcpy(&high, OCTETS(from), 16);
    low = high & 15;
    high = high >> 4;
    high += '0' + ((sixteen)((signed_sixteen)high > 9) & 7);
    low += '0' + ((sixteen)((signed_sixteen)low > 9) & 7);
    first = ZIPPED(high, low, 0, 16, 1, 17, 2, 18, 3, 19, 4, 20, 5, 21, 6, 22, 7, 23);
    second = ZIPPED(high, low, 8, 24, 9, 25, 10, 26, 11, 27, 12, 28, 13, 29, 14, 30, 15, 31);
    memcpy(OCTETS(to), &first, 16);
    memcpy(OCTETS(to + 16), &second, 16);
#else
    for (uint64_t k = 0; k < 16; k++) {
        const uint32_t octet = get8(from + k), high = octet >> 4, low = octet & 15;
        put8(to + 2 * k, high < 10 ? '0' + high : '7' + high);
        put8(to + 2 * k + 1, low < 10 ? '0' + low : '7' + low);
    }
#endif
}

/* Memory. No place has more octets than the machine has addresses. A place for 0 octets has an address too. */
static void put_place(uint64_t at, void *place, uint64_t align)
{
    put64(at, place != NULL);
    put64(at + 8, place != NULL ? address(place) : align);
}

static void rattle_alloc_at(uint64_t result, uint64_t count, uint64_t align)
{
    void *place = NULL;
    if ((size_t)count == count) place = malloc((size_t)(count > 0 ? count : align));
    put_place(result, place, align);
}

static void rattle_realloc_at(uint64_t result, uint64_t at, uint64_t kept, uint64_t count, uint64_t align)
{
    void *place = NULL;
    (void)kept;
    if ((size_t)count == count) place = realloc(OCTETS(at), (size_t)(count > 0 ? count : align));
    put_place(result, place, align);
}

static void rattle_dealloc_at(uint64_t at)
{
    free(OCTETS(at));
}

/* What the system does for the program (tctool_system.h). */
static uint64_t rattle_arg_at(uint64_t place, uint64_t at, uint64_t count)
{
    return (uint64_t)tctool_word(place, OCTETS(at), count);
}

static uint32_t rattle_errno_at(void)
{
    return tctool_error;
}

static void rattle_set_errno_at(uint32_t error)
{
    tctool_error = error;
}

static uint32_t open3_at(uint64_t name, uint32_t flags, uint32_t mode)
{
    (void)mode;
    return (uint32_t)tctool_open((const char *)OCTETS(name), flags);
}

static uint32_t close_at(uint32_t file)
{
    return (uint32_t)tctool_close((int)file);
}

static uint64_t read_at(uint32_t file, uint64_t at, uint64_t count)
{
    return (uint64_t)tctool_read((int)file, OCTETS(at), count);
}

static uint64_t write_at(uint32_t file, uint64_t at, uint64_t count)
{
    return (uint64_t)tctool_write((int)file, OCTETS(at), count);
}

/* (only the end of a file is gone to) */
static uint64_t lseek_at(uint32_t file, uint64_t offset, uint32_t whence)
{
    (void)offset;
    (void)whence;
    return (uint64_t)tctool_end((int)file);
}

static uint32_t isatty_at(uint32_t file)
{
    return (uint32_t)tctool_is_terminal((int)file);
}
