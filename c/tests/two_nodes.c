/* Two spacecraft in static places: SEDGE_PLACES has each count that `places` prints for one of them twice. Random
 * frames, packets and telemetry come to both in turn, CALLS times; no call may be refused because memory runs out. The
 * configuration is that of CONFIG in c/check_nodes. */
#include <sedgechisel.h>
#include <sedgechisel_memory.h>
#include <sedgechisel_nodes.h>
#include <stdio.h>
#include <stdlib.h>
#include <string.h>

enum { NODES = 2, MAPS = 2, FIRST_MAP = 4, PART = 249, MAX_PACKET = 1024, FRAME = 223, WAITING = 10 };

static struct sedge_spacecraft nodes[NODES];
/* What is left of the open packet on each MAP, and the packets of telemetry that wait. */
static size_t left[NODES][MAPS];
static int waiting[NODES];
static long calls, refused;

static unsigned below(unsigned bound) {
    static uint64_t seed = 88172645463325252u;
    seed ^= seed << 13;
    seed ^= seed >> 7;
    seed ^= seed << 17;
    return (unsigned)(seed >> 33) % bound;
}

static void want(bool holds, const char *what) {
    if (!holds) {
        printf("%s\n", what);
        exit(1);
    }
}

/* Counts a call, of which 0 is the answer where memory was enough. */
static void answered(uint8_t answer) {
    calls++;
    refused += answer != 0;
}

static void put_head(uint8_t *at, size_t octets) {
    const uint8_t head[6] = {0x10, 5, 0xc0, 0, (uint8_t)((octets - 7) >> 8), (uint8_t)(octets - 7)};
    memcpy(at, head, sizeof head);
}

/* The next segment of a MAP in a Type-AD frame, with the number that is expected; or one packet in a Type-BD frame. */
static void receive(int k) {
    const int map = (int)below(MAPS);
    uint8_t octets[1100], data[1100] = {0};
    struct sedge_tc_frame frame = {42, (uint8_t)(2 + k), below(8) ? SEDGE_TC_AD : SEDGE_TC_BD, 0, SEDGE_SEGMENT_ALONE,
                                   (uint8_t)(FIRST_MAP + map), 0, 0};
    struct sedge_received received;
    struct sedge_spacecraft_reading now;
    size_t total, length = 7 + below(PART - 6), begun = 0;
    want(sedge_spacecraft_read(&nodes[k], &now) == 0, "read");
    if (frame.kind == SEDGE_TC_AD) {
        frame.n = now.value;
        if (left[k][map] > 0) {
            length = left[k][map] < PART ? left[k][map] : PART;
            frame.flags = left[k][map] <= PART ? SEDGE_SEGMENT_LAST : SEDGE_SEGMENT_CONTINUING;
        } else if (below(2)) {
            begun = PART + 1 + below(MAX_PACKET - PART);
            length = PART;
            frame.flags = SEDGE_SEGMENT_FIRST;
        }
    }
    if (left[k][map] == 0 || frame.kind == SEDGE_TC_BD) put_head(data, begun ? begun : length);
    want(sedge_tc_encode(&frame, data, length, true, octets, sizeof octets, &total) == 0, "encode");
    answered(sedge_spacecraft_receive(&nodes[k], octets, total, &received));
    if (frame.kind == SEDGE_TC_AD && received.verdict == SEDGE_ACCEPTED) {
        left[k][map] = begun ? begun - length : left[k][map] > 0 ? left[k][map] - length : 0;
    }
}

static void telemetry(int k) {
    struct sedge_packet packet = {7, 0, 0, 0, 3};
    uint8_t octets[100], data[12] = {1};
    size_t total;
    if (waiting[k] == WAITING) return;
    want(sedge_packet_encode(&packet, data, 1 + below(sizeof data), octets, sizeof octets, &total) == 0, "packet");
    answered(sedge_spacecraft_telemetry(&nodes[k], octets, total));
    waiting[k]++;
}

static void turn(int k) {
    uint8_t map, octets[MAX_PACKET];
    size_t count;
    switch (below(10)) {
    case 0: want(sedge_spacecraft_take(&nodes[k], &map, octets, sizeof octets, &count) == 0, "take"); break;
    case 1: want(sedge_spacecraft_take_bypass(&nodes[k], &map, octets, sizeof octets, &count) == 0, "take_bypass"); break;
    case 2: telemetry(k); break;
    case 3:
        want(sedge_spacecraft_telemetry_frame(&nodes[k], octets, sizeof octets, &count) == 0, "frame");
        waiting[k] = 0;
        break;
    default: receive(k); break;
    }
}

int main(int count, char **words) {
    const long turns = count > 1 ? strtol(words[1], NULL, 10) : 1000000;
    for (int k = 0; k < NODES; k++) {
        struct sedge_config config;
        sedge_config_default(&config);
        config.scid = 42;
        config.vcid = (uint8_t)(2 + k);
        config.tm_vcid = (uint8_t)k;
        config.width = 64;
        config.window = 32;
        config.part = PART;
        config.max_packet = MAX_PACKET;
        config.maps = 3u << FIRST_MAP;
        config.ready_slots = 8;
        config.bypass_slots = 2;
        config.frame_length = FRAME;
        want(sedge_spacecraft_open(&nodes[k], &config) == 0, "open");
    }
    for (long k = 0; k < turns; k++) turn((int)below(NODES));
    printf("%ld calls that may take memory, %ld refused\n", calls, refused);
    return refused != 0;
}
