/* The devices of the board as files, by the C library. */
#include "board.h"
#include <stdio.h>

static FILE *slots, *frames, *records;

bool open_devices(void) {
    slots = fopen("slots", "rb");
    frames = fopen("frames", "wb");
    records = fopen("executed", "wb");
    return slots && frames && records;
}

bool read_slot(uint8_t *octets, size_t count) {
    return fread(octets, 1, count, slots) == count;
}

bool write_frame(const uint8_t *octets, size_t count) {
    return fwrite(octets, 1, count, frames) == count && fflush(frames) == 0;
}

bool note(const uint8_t *record) {
    return fwrite(record, 1, RECORD, records) == RECORD && fflush(records) == 0;
}
