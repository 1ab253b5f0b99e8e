/* Writes random telecommand frames: Type-AD frames mostly in sequence, Type-BD frames and control commands among them,
 * and one in sixteen damaged after its length. The arguments are the number of frames, and whether they end with an
 * FECF, 0 or 1. The same arguments give the same frames. */
#include <sedgechisel.h>
#include <stdio.h>
#include <stdlib.h>
#include <string.h>

static uint64_t state = 0x9e3779b97f4a7c15u;

/* A number below the limit (xorshift64*, Marsaglia and Vigna). */
static unsigned below(unsigned limit) {
    state ^= state >> 12;
    state ^= state << 25;
    state ^= state >> 27;
    return (unsigned)((state * 2685821657736338717u) >> 33) % limit;
}

/* The number of a Type-AD frame after one with the number last: the next, or one near it, or any. */
static uint8_t number_behind(uint8_t last) {
    unsigned choice = below(64);
    if (choice < 55) return (uint8_t)(last + 1);
    if (choice < 59) return (uint8_t)(last - below(8));
    if (choice < 63) return (uint8_t)(last + below(8));
    return (uint8_t)below(256);
}

/* A frame after others, of which the last Type-AD frame had the number last. Set V(R) mostly brings the receiver to
 * the number that comes next. */
static struct sedge_tc_frame any_frame(uint8_t *last) {
    struct sedge_tc_frame frame;
    unsigned choice = below(32);
    memset(&frame, 0, sizeof frame);
    frame.scid = (uint16_t)below(1024);
    frame.vcid = (uint8_t)below(64);
    frame.flags = (uint8_t)below(4);
    frame.map = (uint8_t)below(64);
    frame.kind = choice < 24 ? SEDGE_TC_AD : choice < 26 ? SEDGE_TC_BD : SEDGE_TC_BC;
    frame.command = choice < 28 ? SEDGE_UNLOCK : SEDGE_SET_VR;
    if (frame.kind == SEDGE_TC_AD) {
        *last = frame.n = number_behind(*last);
    } else if (frame.kind == SEDGE_TC_BC && frame.command == SEDGE_SET_VR) {
        frame.vr = (uint8_t)(below(16) > 0 ? *last + 1u : below(256));
        *last = (uint8_t)(frame.vr - 1);
    }
    return frame;
}

int main(int count, char **words) {
    uint8_t octets[64], data[32], last = 255;
    unsigned long left;
    size_t total, i, place;
    bool checked = count == 3 && strcmp(words[2], "1") == 0;
    if (count != 3) return 2;
    for (left = strtoul(words[1], NULL, 10); left > 0; left--) {
        uint8_t before = last;
        struct sedge_tc_frame frame = any_frame(&last);
        for (i = 0; i < sizeof data; i++) data[i] = (uint8_t)below(256);
        if (sedge_tc_encode(&frame, data, 1 + below(sizeof data), checked, octets, sizeof octets, &total) != SEDGE_OK)
            return 1;
        if (below(16) == 0) {
            last = before;
            place = below((unsigned)total - 2);
            octets[place < 2 ? place : place + 2] ^= (uint8_t)(1u << below(8));
        }
        if (fwrite(octets, 1, total, stdout) != total) return 1;
    }
    return 0;
}
