/* What the board of this folder and its ground have agreed on, and the devices of the board. A record of "slots" is a
 * slot of time: two octets with a count, the higher one first, and as many octets, as the decoder of the channel coding
 * hands them on. CRASH and RESET stand for a reset without and with warning. In each slot a telemetry frame goes to
 * "frames", and a record of RECORD octets to "executed" for each packet that is executed: BD or not, the MAP, whether its
 * octets are good, 0, and its serial number. */
#ifndef BOARD_H
#define BOARD_H
#include <sedgechisel_nodes.h>

enum { CRASH = 0xffff, RESET = 0xfffe, SLOT = 1030, RECORD = 8, MAPS = 2, SECOND_MAP = 5 };
/* A packet has its serial number in its first four octets of data, and then octets that follow from it. Telemetry has
 * the boot count and, for each MAP, the number of packets that were executed. */
enum { HEAD = 6, SERIAL = 4, TELEMETRY = 26, TELEMETRY_PACKETS = 6, FRAME = 192 };

static inline void agreed(struct sedge_config *config) {
    sedge_config_default(config);
    config->scid = 42;
    config->width = 32;
    config->window = 16;
    config->part = 249;
    config->max_packet = 1024;
    config->maps = 1u | 1u << SECOND_MAP;
    config->ready_slots = 4;
    config->bypass_slots = 2;
    config->queue_slots = 64;
    config->frame_length = FRAME;
    config->blocking = 1;
    config->limit = 4;
    config->timer = 24;
}

static inline void put_number(uint8_t *at, uint32_t number) {
    for (int k = 0; k < SERIAL; k++) at[k] = (uint8_t)(number >> (24 - 8 * k));
}

static inline uint32_t number_at(const uint8_t *at) {
    return (uint32_t)at[0] << 24 | (uint32_t)at[1] << 16 | (uint32_t)at[2] << 8 | at[3];
}

/* The octet at a place of the data of a packet with this serial number, after the number itself. */
static inline uint8_t octet_of(uint32_t serial, size_t at) {
    return (uint8_t)(serial * 7 + at);
}

/* The devices: files of these names, by the C library (host.c) or by semihosting (cortex_m.c). */
bool open_devices(void);
bool read_slot(uint8_t *octets, size_t count);
bool write_frame(const uint8_t *octets, size_t count);
bool note(const uint8_t *record);
#endif
