/* Tests the handwritten functions of c/portable/tctool.c: those for numbers of 128 bits and with a fraction, compared
 * with the compiler's, since no row needs most of them; and with SIXTEEN, if that function exists, the digits of each
 * octet at each of sixteen positions. If one fails, it prints which, and ends with status 1. */
#define PART 0
#include "../portable/tctool.c"

#include <stdio.h>

__extension__ typedef unsigned __int128 wide;

static uint64_t seed = 1;

/* A number whose bits are random, or few of them, at either end, or all. */
static uint64_t any(void)
{
    seed = seed * 6364136223846793005U + 1442695040888963407U;
    const unsigned count = (unsigned)(seed >> 33) % 64;
    switch (seed >> 60) {
    case 0: return 0;
    case 1: return ~0ULL;
    case 2: case 3: case 4: return 1ULL << count;
    case 5: case 6: case 7: return ~0ULL << count;
    case 8: case 9: return ~0ULL >> count;
    default: return (seed ^ seed >> 29) * 0x9e3779b97f4a7c15U >> (seed >> 59 & 1 ? count : 0);
    }
}

static wide got(uint64_t at)
{
    return (wide)get64(at + 8) << 64 | get64(at);
}

/* Says which function failed, and of what. */
static int failed(const char *name, wide a, wide b)
{
    printf("%s of %llx %llx and %llx %llx\n", name, (unsigned long long)(a >> 64), (unsigned long long)a,
        (unsigned long long)(b >> 64), (unsigned long long)b);
    return 1;
}

#ifdef SIXTEEN
/* Whether the digits of sixteen octets are right, and nothing beside them is written. */
static bool are_digits(void)
{
    for (unsigned first = 0; first < 256; first++) {
        unsigned char from[16], to[34] = {'x'}, wanted[34] = {'x'};
        for (unsigned k = 0; k < 16; k++) {
            from[k] = (unsigned char)(first + k);
            sprintf((char *)wanted + 1 + 2 * k, "%02X", (unsigned)from[k]);
        }
        sixteen_digits_at(address(to) + 1, address(from));
        if (memcmp(to, wanted, sizeof to) != 0) return false;
    }
    return true;
}
#endif

int main(void)
{
    unsigned char octets[16];
    const uint64_t at = address(octets);
    const double one = 1;
    for (int k = 0; k < 1000000; k++) {
        const uint64_t low = any(), high = any(), other = any(), other_high = any();
        const wide a = (wide)high << 64 | low, b = (wide)other_high << 64 | other;
        const uint32_t count = (uint32_t)k % 128;
        multi3_at(at, low, high, other, other_high);
        if (got(at) != a * b) return failed("multi3", a, b);
        lshrti3_at(at, low, high, count);
        if (got(at) != a >> count) return failed("lshrti3", a, count);
        ashlti3_at(at, low, high, count);
        if (got(at) != a << count) return failed("ashlti3", a, count);
        if (b == 0) continue;
        if (k % 16 == 0) udivti3_at(at, low, high, other, other_high);
        if (k % 16 == 0 && got(at) != a / b) return failed("udivti3", a, b);
    }
    put_fraction(at, one);
    if (get64(at) != 0x3ff0000000000000U || get_fraction(at) < 1 || get_fraction(at) > 1) return failed("fractions", 0, 0);
#ifdef SIXTEEN
    if (!are_digits()) return failed("digits", 0, 0);
#endif
    return 0;
}
