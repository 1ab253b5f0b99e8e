/* Tests the octets that nodes request, as docs/FLIGHT.md states them, over random configurations: `asked COUNT`. They
 * are requested when a node is opened, and at the first submission, the first packet sent by bypass, the first segment
 * of a packet on board, its last segment, and the first packet of telemetry. A simulated link requests those of both
 * nodes and a number that is the same for all configurations. When all is closed, no memory is held. Ends with 0 if all
 * of this holds, and writes the rows that docs/FLIGHT.md must contain. */
#include "memory.h"
#include <sedgechisel_nodes.h>
#include <stdint.h>
#include <stdio.h>
#include <stdlib.h>

/* The octets of a ground, a spacecraft and a commander, of a place in a list of segments, of packets or of open parts,
 * of one in the list of submissions and in that of commands, and of the extractor's packet; and how many segments may be
 * sent and not acknowledged. */
enum { GROUND = 400, SPACECRAFT = 344, COMMANDER = 672, PLACE = 32, NUMBER = 8, GIVEN = 40, EXTRACTOR = 65542 };
enum { FRAME = 1016, SENT = 127 };

static int failures;

#define WANT(holds)                                                                                                    \
    do {                                                                                                               \
        if (!(holds) && failures++ < 20) printf("%s:%d: not so: %s\n", __FILE__, __LINE__, #holds);                    \
    } while (0)

static bool is_refused(void) {
    return false;
}

static uint64_t state = 0x9e3779b97f4a7c15u;

/* A number below the limit (xorshift64*, Marsaglia and Vigna). */
static uint32_t below(uint32_t limit) {
    state ^= state >> 12;
    state ^= state << 25;
    state ^= state >> 27;
    return (uint32_t)((state * 2685821657736338717u) >> 33) % limit;
}

/* The octets that a call asked for, which has to answer 0. */
#define ASKED(call) (asked = 0, (call) == 0 ? asked : SIZE_MAX)

static struct sedge_config config;
/* The MAPs, all of which are open; the last of them is used. */
static uint32_t maps;
static struct sedge_ground ground;
static struct sedge_spacecraft spacecraft;
static struct sedge_commander commander;
static struct sedge_sim sim;
static uint8_t packet[65542], octets[1024];

/* Every parameter is anywhere in its range. */
static void any_config(void) {
    sedge_config_default(&config);
    config.width = 2 + 2 * below(127);
    config.window = 1 + below(config.width / 2);
    config.part = 1 + below(1016);
    config.max_packet = 7 + (below(2) ? below(65536) : below(2000));
    config.ready_slots = 1 + below(64);
    config.bypass_slots = 1 + below(64);
    config.queue_slots = 1 + (below(2) ? below(65535) : below(300));
    config.frame_length = 16 + below(2033);
    config.blocking = below(2);
    maps = 1 + below(64);
    config.maps = UINT64_MAX >> (64 - maps);
}

/* A packet of as many octets; its type is 1 for a command. */
static void make_packet(int type, size_t count) {
    packet[0] = (uint8_t)(type << 4);
    packet[1] = 5;
    packet[4] = (uint8_t)((count - 7) >> 8);
    packet[5] = (uint8_t)(count - 7);
}

/* The most octets that a packet may have in one segment of at most as many octets; 0 where no packet fits. */
static size_t most_alone(size_t part) {
    size_t most = config.max_packet < part ? config.max_packet : part;
    return most < 7 ? 0 : most;
}

/* The octets of a ground's lists. */
static size_t lists_of_ground(void) {
    return 16 * config.width + PLACE * config.queue_slots + NUMBER * (config.queue_slots + SENT) + EXTRACTOR;
}

static void asks_on_ground(void) {
    size_t most = most_alone(config.part), count = most == 0 ? 0 : 7 + below((uint32_t)most - 6);
    size_t list = config.blocking ? 4 * 16 : 0; /* of the packets of a submission */
    WANT(ASKED(sedge_ground_open(&ground, &config)) == GROUND + lists_of_ground());
    WANT(live == 5 && sedge_ground_init_without_check(&ground) == 0 && live == 5);
    if (count == 0) return;
    make_packet(1, count);
    WANT(ASKED(sedge_ground_submit(&ground, (uint8_t)(maps - 1), packet, count)) == count + list && live == 6);
    WANT(ASKED(sedge_ground_bypass(&ground, (uint8_t)(maps - 1), packet, count)) == count + 4 * PLACE && live == 8);
}

/* The next Type-AD frame arrives, with these octets of the packet. */
static uint8_t arrives(uint8_t n, uint8_t flags, size_t from, size_t count) {
    struct sedge_tc_frame frame = {1, 2, SEDGE_TC_AD, n, flags, (uint8_t)(maps - 1), 0, 0};
    struct sedge_received received;
    size_t total;
    if (sedge_tc_encode(&frame, packet + from, count, true, octets, sizeof octets, &total) != 0) return 1;
    if (sedge_spacecraft_receive(&spacecraft, octets, total, &received) != 0) return 2;
    return received.verdict != SEDGE_ACCEPTED || received.dropped != 0;
}

/* The octets of a spacecraft's lists. */
static size_t lists_of_spacecraft(void) {
    size_t ready = config.ready_slots + (config.blocking ? 144 : 0);
    return PLACE * ready + PLACE * config.bypass_slots;
}

static void asks_on_board(void) {
    size_t count = 7 + below((uint32_t)most_alone(FRAME) - 6), half = 1 + below((uint32_t)count - 1);
    WANT(ASKED(sedge_spacecraft_open(&spacecraft, &config)) == SPACECRAFT + lists_of_spacecraft());
    WANT(live == 3);
    make_packet(1, count);
    WANT(ASKED(arrives(0, SEDGE_SEGMENT_FIRST, 0, half)) == config.max_packet + PLACE * maps && live == 5);
    WANT(ASKED(arrives(1, SEDGE_SEGMENT_LAST, half, count - half)) == count && live == 5);
    make_packet(0, count = 7 + below(config.max_packet - 6));
    WANT(ASKED(sedge_spacecraft_telemetry(&spacecraft, packet, count)) == (count < 8 ? 8 : count) + 16 && live == 7);
}

/* A commander asks for the lists of its ground. The first command asks for its packet three times, for its entry twice,
 * and for a list of four; of these its packet, the entry that is due and the list stay. */
static void asks_of_commander(void) {
    const struct sedge_mission mission = {2, 6, 2, (uint8_t)(maps - 1), 0};
    size_t good, count, most = (size_t)config.part * config.queue_slots;
    uint32_t number;
    if (config.part < 23 || config.max_packet < 23) return;
    WANT(ASKED(sedge_commander_open(&commander, &config, &mission, octets, 0, &good)) == COMMANDER + lists_of_ground());
    WANT(live == 5);
    most = most < config.max_packet ? most : config.max_packet;
    count = below((uint32_t)most - 13 < 65529 ? (uint32_t)most - 13 : 65529);
    WANT(ASKED(sedge_commander_command(&commander, 7, (uint8_t)(maps - 1), 5, 0, packet, count, &number))
         == 2 * (count + 14) + 2 * (count + 32) + 4 * GIVEN);
    WANT(live == 8);
    sedge_commander_close(&commander);
}

/* What a link asks for beside its two nodes is the same for all. */
static void asks_of_link(void) {
    static size_t same;
    size_t nodes = lists_of_ground() + lists_of_spacecraft();
    size_t more = ASKED(sedge_sim_open(&sim, &config)) - nodes;
    if (same == 0) same = more;
    WANT(more == same && more < 65536);
}

int main(int count, char **words) {
    unsigned long left;
    if (count != 2) return 2;
    for (left = strtoul(words[1], NULL, 10); left > 0; left--) {
        any_config();
        asks_on_ground();
        sedge_ground_close(&ground);
        WANT(live == 0);
        asks_of_commander();
        WANT(live == 0);
        asks_on_board();
        sedge_spacecraft_close(&spacecraft);
        WANT(live == 0);
        asks_of_link();
        sedge_sim_close(&sim);
        WANT(live == 0);
    }
    WANT(refused == 0);
    printf("| ground | %d; 16 * `width`; %d * `queue_slots`; %d * (`queue_slots` + %d); 65,542 | 1 each |\n", GROUND,
           PLACE, NUMBER, SENT);
    printf("| spacecraft | %d; %d * `ready_slots`, and with `blocking` %d more; %d * `bypass_slots` | 1 each |\n",
           SPACECRAFT, PLACE, PLACE * 144, PLACE);
    if (failures > 0) printf("%d failed\n", failures);
    return failures != 0;
}
