/* What the fuzz targets share: a reader of the fuzzer's octets, and octets in places of just their length. */
#ifndef OCTETS_H
#define OCTETS_H
#include <stdbool.h>
#include <stdint.h>
#include <stdio.h>
#include <stdlib.h>
#include <string.h>

#define WANT(holds)                                                                                                    \
    do {                                                                                                               \
        if (!(holds)) {                                                                                                \
            fprintf(stderr, "%s:%d: not so: %s\n", __FILE__, __LINE__, #holds);                                        \
            abort();                                                                                                   \
        }                                                                                                              \
    } while (0)

struct in {
    const uint8_t *at;
    size_t left;
};

/* The next octet, 0 after the last. */
static inline uint8_t in8(struct in *i) {
    if (i->left == 0) return 0;
    i->left--;
    return *i->at++;
}

static inline uint16_t in16(struct in *i) {
    uint8_t high = in8(i);
    return (uint16_t)(high << 8 | in8(i));
}

/* A place of just count octets. */
static inline uint8_t *room_of(size_t count, uint8_t with) {
    uint8_t *o = malloc(count ? count : 1);
    if (o == NULL) exit(0);
    memset(o, with, count);
    return o;
}

/* The next count octets, with zeros after the last. */
static inline uint8_t *in_octets(struct in *i, size_t count) {
    uint8_t *o = room_of(count, 0);
    size_t have = count < i->left ? count : i->left;
    memcpy(o, i->at, have);
    i->at += have;
    i->left -= have;
    return o;
}
#endif
