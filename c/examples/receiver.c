/* A receiver on board, over the calls of the spacecraft: it cuts the octets of standard input into telecommand frames,
 * and writes the result of each and the CLCW after it. It is for files, since it waits for 1,024 octets. */
#include <sedgechisel_nodes.h>
#include <stdio.h>
#include <string.h>

typedef uint8_t take(struct sedge_spacecraft *, uint8_t *, uint8_t *, size_t, size_t *);

static void hand_on(struct sedge_spacecraft *spacecraft, take *take, const char *how) {
    static uint8_t packet[4096];
    uint8_t map;
    size_t count;
    while (take(spacecraft, &map, packet, sizeof packet, &count) == SEDGE_NODE_OK && count > 0) {
        printf("packet %s on MAP %d:", how, map);
        for (size_t i = 0; i < count; i++) printf(" %02X", packet[i]);
        puts("");
    }
}

static void tell(const char *what, struct sedge_text name) {
    printf("%s: %s\n", what, name.text);
}

/* Takes a frame, and writes what became of it and the CLCW. */
static int receive(struct sedge_spacecraft *spacecraft, const uint8_t *octets, size_t count) {
    struct sedge_received received;
    struct sedge_spacecraft_reading read;
    if (sedge_spacecraft_receive(spacecraft, octets, count, &received) != SEDGE_NODE_OK) return 1;
    if (received.kind == SEDGE_RECEIVED_INVALID) tell("no frame", sedge_tc_fault_name(received.fault));
    if (received.kind == SEDGE_RECEIVED_AD) tell("frame", sedge_verdict_name(received.verdict));
    if (received.dropped != SEDGE_NOT_DROPPED) tell("dropped", sedge_dropped_name(received.dropped));
    if (sedge_spacecraft_read(spacecraft, &read) != SEDGE_NODE_OK) return 1;
    printf("report: V(R) %d, flags %02X, FARM-B %d\n", read.value, read.flags, read.farm_b);
    return 0;
}

int main(void) {
    uint8_t octets[1024];
    size_t held = 0, more, total;
    struct sedge_spacecraft spacecraft = {0};
    struct sedge_config config;
    /* MAPs 4 and 5 are open. Only the ground uses the window, but it must be at most half the width here too. */
    sedge_config_default(&config);
    config.width = 10, config.window = 5, config.max_packet = 4096, config.maps = 3 << 4, config.ready_slots = 2;
    if (sedge_spacecraft_open(&spacecraft, &config) != SEDGE_NODE_OK) return 1;
    while ((more = fread(octets + held, 1, sizeof octets - held, stdin)) > 0) {
        size_t from = 0;
        held += more;
        while (sedge_tc_declared(octets + from, held - from, true, &total) == SEDGE_OK && total <= held - from) {
            if (receive(&spacecraft, octets + from, total) != 0) return 1;
            from += total;
        }
        held -= from;
        memmove(octets, octets + from, held);
        hand_on(&spacecraft, sedge_spacecraft_take, "in sequence");
        hand_on(&spacecraft, sedge_spacecraft_take_bypass, "past the sequence control");
    }
    sedge_spacecraft_close(&spacecraft);
    return held > 0;
}
