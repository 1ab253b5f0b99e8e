/* The FECF, for every octets of every length of a frame: sedge_check is affine over GF(2) in the octets where its
 * tables are linear (it is made of ^, of shifts and of look-ups by an octet alone), and so is the reference. Two affine
 * functions are equal for all octets where they are for none set and for each single bit set. So this compares, for each
 * length up to LONGEST, the zeros and each one bit; and that each table is linear. Ends with 1 where they differ.
 * c/check_equal gives the file of the library as SOURCE. */
#include SOURCE
#include <stdio.h>
#ifndef LONGEST
#define LONGEST 2046
#endif
static uint16_t step(uint16_t r, uint8_t o) {
    r = (uint16_t)(r ^ o << 8);
    for (int k = 0; k < 8; k++) r = (uint16_t)(r & 0x8000 ? r << 1 ^ 0x1021 : r << 1);
    return r;
}

int main(void) {
    static uint8_t o[LONGEST + 1];
    static uint16_t one[LONGEST + 1][8];
    unsigned long compared = 0;
    for (size_t t = 0; t < sizeof sedge_fecf_tables / 512; t++)
        for (int a = 0; a < 256; a++)
            for (int b = 0; b < 256; b++) {
                const unsigned char *T = sedge_fecf_tables + 512 * t;
                for (int k = 0; k < 2; k++)
                    if ((T[2 * a + k] ^ T[2 * b + k]) != T[2 * (a ^ b) + k])
                        return printf("table %zu is not linear\n", t), 1;
            }
    for (size_t n = 0; n <= LONGEST; n++) {
        uint16_t zeros = 0xffff;
        for (size_t i = 0; i < n; i++) zeros = step(zeros, 0);
        if (sedge_check(o, n) != zeros) return printf("%zu zeros\n", n), 1;
        /* The difference that bit b of octet n - 1 - j makes is that bit, stepped j + 1 times from nothing. */
        if (n > 0) {
            for (int b = 0; b < 8; b++) {
                one[n - 1][b] = n == 1 ? step(0, (uint8_t)(1 << b)) : step(one[n - 2][b], 0);
            }
        }
        for (size_t i = 0; i < n; i++)
            for (int b = 0; b < 8; b++) {
                o[i] = (uint8_t)(1 << b);
                if (sedge_check(o, n) != (zeros ^ one[n - 1 - i][b]))
                    return printf("%zu octets, bit %d of %zu\n", n, b, i), 1;
                o[i] = 0;
                compared++;
            }
    }
    printf("equal for all octets of 0 to %d: %lu single bits\n", LONGEST, compared);
    return 0;
}
