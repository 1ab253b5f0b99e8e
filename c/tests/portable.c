/* Tests how the portable C reads, writes and moves memory, by octets written by hand: numbers of each length at
 * unaligned addresses, lowest octet first on every machine; octets that overlap; signs; and the room of a frame. It
 * includes the text before the functions, tools/portable_c.head.c. Ends with 0 if all is as expected, and prints each
 * line that is not. */
#include "portable_c.head.c"
#include <stdio.h>

static int failures;

#define WANT(holds)                                                                                                    \
    do {                                                                                                               \
        if (!(holds)) {                                                                                                \
            printf("%s:%d: not so: %s\n", __FILE__, __LINE__, #holds);                                                 \
            failures++;                                                                                                \
        }                                                                                                              \
    } while (0)

static const unsigned char EIGHT[9] = {0, 0x81, 0x82, 0x83, 0x84, 0x85, 0x86, 0x87, 0x88};

static void reads(void) {
    const uint64_t at = address(EIGHT + 1);
    WANT(get8(at) == 0x81 && get16(at) == 0x8281 && get32(at) == 0x84838281U);
    WANT(get64(at) == 0x8887868584838281ULL);
}

static void writes(void) {
    unsigned char octets[9];
    memset(octets, 0xee, sizeof octets);
    put64(address(octets + 1), 0x8887868584838281ULL);
    WANT(memcmp(octets + 1, EIGHT + 1, 8) == 0 && octets[0] == 0xee);
    put32(address(octets + 1), 0x01020304U);
    WANT(memcmp(octets, "\xee\x04\x03\x02\x01\x85\x86\x87\x88", 9) == 0);
    put16(address(octets + 1), 0x99990506U);
    WANT(memcmp(octets, "\xee\x06\x05\x02\x01\x85\x86\x87\x88", 9) == 0);
    put8(address(octets + 1), 0x99999907U);
    WANT(memcmp(octets, "\xee\x07\x05\x02\x01\x85\x86\x87\x88", 9) == 0);
}

static void moves(void) {
    unsigned char octets[8];
    memcpy(octets, EIGHT + 1, 8);
    copy(address(octets + 2), address(octets), 6);
    WANT(memcmp(octets, "\x81\x82\x81\x82\x83\x84\x85\x86", 8) == 0);
    copy(address(octets), address(octets + 3), 5);
    WANT(memcmp(octets, "\x82\x83\x84\x85\x86\x84\x85\x86", 8) == 0);
    fill(address(octets + 1), 0x1ff, 3);
    WANT(memcmp(octets, "\x82\xff\xff\xff\x86\x84\x85\x86", 8) == 0);
    copy(0, 0, 0);
    fill(0, 0, 0);
}

static void numbers(void) {
    WANT(extend32(0x1234567f, 0x80) == 0x7f && extend32(0x12345680, 0x80) == 0xffffff80U);
    WANT(extend32(0x7fff, 0x8000) == 0x7fff && extend32(0x8000, 0x8000) == 0xffff8000U);
    WANT(extend64(0x7fffffff, 0x80000000U) == 0x7fffffff);
    WANT(extend64(0x80000000U, 0x80000000U) == 0xffffffff80000000ULL);
    WANT(ordered32(0xffffffffU) < ordered32(0) && ordered32(0) < ordered32(0x7fffffff));
    WANT(ordered64(0xffffffffffffffffULL) < ordered64(0) && ordered64(1) < ordered64(0x7fffffffffffffffULL));
    WANT(rotl32(0x80000001U, 4) == 0x18 && rotl32(5, 0) == 5);
    WANT(rotl64(0x8000000000000001ULL, 4) == 0x18 && rotl64(5, 0) == 5);
    WANT(sar32(0x80000000U, 4) == 0xf8000000U && sar32(0x70000000, 4) == 0x07000000);
    WANT(sar64(0x8000000000000000ULL, 4) == 0xf800000000000000ULL && sar64(16, 4) == 1);
}

static void counts(void) {
    WANT(clz32(0) == 32 && clz32(1) == 31 && clz32(0x80000000U) == 0 && clz32(0x00ffffff) == 8);
    WANT(clz64(0) == 64 && clz64(1) == 63 && clz64(0x8000000000000000ULL) == 0 && clz64(0xffffffffU) == 32);
    WANT(ctz32(0) == 32 && ctz32(1) == 0 && ctz32(0x80000000U) == 31 && ctz32(0xffffff00U) == 8);
    WANT(ctz64(0) == 64 && ctz64(1) == 0 && ctz64(0x8000000000000000ULL) == 63 && ctz64(0xffffffff00000000ULL) == 32);
    WANT(ones32(0) == 0 && ones32(0xffffffffU) == 32 && ones32(0x80000001U) == 2);
    WANT(ones64(0) == 0 && ones64(0xffffffffffffffffULL) == 64 && ones64(0x8000000000000001ULL) == 2);
}

static void frames(void) {
    static unsigned char room[32 + 15];
    int k;
    for (k = 0; k < 16; k++) {
        const uint64_t at = aligned(room + k);
        WANT(at % 16 == 0 && at >= address(room + k) && at < address(room + k) + 16);
    }
    WANT(some(0) == 0x1000 && some(address(room)) == address(room));
}

int main(void) {
    reads();
    writes();
    moves();
    numbers();
    counts();
    frames();
    printf(failures ? "%d failed\n" : "all as wanted\n", failures);
    return failures != 0;
}
