/* The places that c/tools/places.c prints, in memory/static.c, of a ground, or with BOARD of a spacecraft, with BLOCKED
 * of one with blocking: at full queues nothing is refused, on the ground all are used, and so again after a reset that
 * finds a node open; with one place less of the size LESS a call answers that there was no memory: the status is 2.
 * SEDGE_PLACES has BUT for each PLACES. */
#ifndef LESS
#define LESS 0
#endif
#define BUT(octets, count) PLACES(octets, (count) - (LESS == octets))
#include "../memory/static.c"
#include <sedgechisel_nodes.h>
#include <stdio.h>
#include <stdlib.h>

#ifdef BLOCKED
enum { LONG = 16, BLOCKING = 1 };
#else
enum { LONG = 200, BLOCKING = 0 };
#endif
enum { WIDTH = 8, PART = 100, READY = 2, BYPASS = 2, QUEUE = 8, SHORT = 7, MOST = 1016 / SHORT };

static struct sedge_config config;
static uint8_t packet[LONG] = {0x10, 0x05, 0xc0, 0x00, 0x00, LONG - 7}, octets[1024];

/* The answer is this one, or the program ends: by 2 where there was no memory. */
static void gives(size_t wanted, size_t answer) {
    if (answer != wanted) exit(answer == SEDGE_NODE_MEMORY || answer == 7 ? 2 : 1);
}

#if defined(BOARD) || defined(BLOCKED)
/* A frame arrives with these octets, and is accepted. */
static size_t arrives_as(struct sedge_spacecraft *spacecraft, uint8_t kind, uint8_t n, uint8_t flags, uint8_t map,
                         const uint8_t *data, size_t count) {
    struct sedge_tc_frame frame = {1, 2, kind, n, flags, map, 0, 0};
    struct sedge_received received;
    size_t total;
    gives(0, sedge_tc_encode(&frame, data, count, true, octets, sizeof octets, &total));
    gives(0, sedge_spacecraft_receive(spacecraft, octets, total, &received));
    if (kind == SEDGE_TC_AD) gives(SEDGE_ACCEPTED, received.verdict);
    return received.ready;
}

static size_t arrives(struct sedge_spacecraft *spacecraft, uint8_t n, uint8_t flags, uint8_t map, const uint8_t *data,
                      size_t count) {
    return arrives_as(spacecraft, SEDGE_TC_AD, n, flags, map, data, count);
}

/* The last segment of a packet, or with blocking one of as many packets as it may hold, from a ground whose `part` is
 * the greatest. */
static void is_last(struct sedge_spacecraft *spacecraft, uint8_t n) {
#ifdef BLOCKED
    static uint8_t packets[MOST][SHORT];
    size_t k;
    for (k = 0; k < MOST; k++) packets[k][0] = 0x10, packets[k][1] = 5, packets[k][2] = 0xc0;
    gives(MOST, arrives(spacecraft, n, SEDGE_SEGMENT_ALONE, 0, packets[0], sizeof packets));
#else
    gives(1, arrives(spacecraft, n, SEDGE_SEGMENT_LAST, 0, packet + LONG / 2, LONG - LONG / 2));
#endif
}

/* A packet of telemetry waits, a packet is ready, and on each MAP a part is open, when another packet becomes whole;
 * and then packets come past the sequence control, one more than are kept. */
static void fill(void) {
    struct sedge_spacecraft spacecraft = {0};
    size_t k;
    gives(0, sedge_spacecraft_open(&spacecraft, &config));
    gives(0, sedge_spacecraft_telemetry(&spacecraft, packet, LONG));
    gives(1, arrives(&spacecraft, 0, SEDGE_SEGMENT_ALONE, 0, packet, LONG));
    gives(0, arrives(&spacecraft, 1, SEDGE_SEGMENT_FIRST, 0, packet, LONG / 2));
    gives(0, arrives(&spacecraft, 2, SEDGE_SEGMENT_FIRST, 1, packet, LONG / 2));
    is_last(&spacecraft, 3);
    for (k = 0; k <= BYPASS; k++) arrives_as(&spacecraft, SEDGE_TC_BD, 0, SEDGE_SEGMENT_ALONE, 0, packet, LONG);
    sedge_spacecraft_close(&spacecraft);
}
#else
/* As many segments as there are queue slots wait, while half the window width is sent. */
static void fill(void) {
    struct sedge_ground ground = {0};
    size_t k, count;
    gives(0, sedge_ground_open(&ground, &config));
    gives(0, sedge_ground_init_without_check(&ground));
    for (k = 0; k < QUEUE / 2; k++) gives(0, sedge_ground_submit(&ground, 0, packet, LONG));
    gives(SEDGE_NODE_QUEUE_FULL, sedge_ground_submit(&ground, 0, packet, LONG));
    for (k = 0; k < WIDTH / 2; k++) gives(0, sedge_ground_pull(&ground, octets, sizeof octets, &count));
    for (k = 0; k < WIDTH / 4; k++) gives(0, sedge_ground_submit(&ground, 1, packet, LONG));
    gives(SEDGE_NODE_QUEUE_FULL, sedge_ground_submit(&ground, 1, packet, LONG));
    sedge_ground_close(&ground);
}
#endif

/* Two MAPs are open. */
static void set(void) {
    sedge_config_default(&config);
    config.width = WIDTH, config.window = WIDTH / 2, config.part = PART, config.max_packet = LONG, config.maps = 3;
    config.ready_slots = READY, config.bypass_slots = BYPASS, config.queue_slots = QUEUE, config.blocking = BLOCKING;
}

/* A node is open when the places are reset, and nothing holds it then. */
static void lose_one(void) {
#if defined(BOARD) || defined(BLOCKED)
    struct sedge_spacecraft lost = {0};
    gives(0, sedge_spacecraft_open(&lost, &config));
#else
    struct sedge_ground lost = {0};
    gives(0, sedge_ground_open(&lost, &config));
#endif
    sedge_static_reset();
}

int main(void) {
    struct sedge_static_places size;
    size_t k;
    set();
    fill();
    lose_one();
    fill();
    for (k = 0; sedge_static_size(k, &size); k++) {
        printf("%zu of %zu of %zu octets\n", size.most, size.count, size.octets);
#ifdef GROUND
        if (size.most != size.count) return 3;
#endif
    }
    return k == SIZES ? 0 : 1;
}
