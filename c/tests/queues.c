/* Tests queues of both nodes and records of the link that grow above 100 kB each. What goes in comes out, octet for
 * octet and in order, and no call answers that it is out of memory. It runs over each file of c/memory. Ends with 0 if
 * all of this holds, and prints what does not. */
#include "memory.h"
#include <sedgechisel_nodes.h>
#include <stdint.h>
#include <stdio.h>
#include <string.h>

enum { MANY = 5000, LONG = 5007, BLOCKED = 145, GROUPS = 40, RECORDS = 20000 };

static int failures;

#define WANT(holds)                                                                                                    \
    do {                                                                                                               \
        if (!(holds) && failures++ < 20) printf("%s:%d: not so: %s\n", __FILE__, __LINE__, #holds);                    \
    } while (0)

static bool is_refused(void) {
    return false;
}

static struct sedge_config config;
static struct sedge_ground ground;
static struct sedge_spacecraft spacecraft;
static uint8_t up[1024], down[2048], wanted[LONG], taken[LONG], packets[BLOCKED * GROUPS * 7];

/* Packet k of a type, with as many octets: some have a secondary header, and their data are of their number. */
static size_t make(uint8_t *at, int type, size_t k, size_t count) {
    size_t i;
    at[0] = (uint8_t)(type << 4 | (k % 3 == 0) << 3);
    at[1] = 5;
    at[2] = (uint8_t)(0xc0 | (k >> 8) % 64);
    at[3] = (uint8_t)k;
    at[4] = (uint8_t)((count - 7) >> 8);
    at[5] = (uint8_t)(count - 7);
    for (i = 6; i < count; i++) at[i] = (uint8_t)(k * 31 + i * 7 + (k >> 8));
    return count;
}

static size_t length_of(size_t k) {
    return 7 + k % 101;
}

/* The octets that were taken are packet k. */
static void is_packet(int type, size_t k, size_t length, size_t count) {
    WANT(count == make(wanted, type, k, length) && memcmp(wanted, taken, count) == 0);
}

static void open_nodes(void) {
    WANT(sedge_ground_open(&ground, &config) == 0 && sedge_spacecraft_open(&spacecraft, &config) == 0);
}

static void close_nodes(void) {
    sedge_ground_close(&ground);
    sedge_spacecraft_close(&spacecraft);
    WANT(live == 0 && refused == 0);
}

/* A telemetry frame comes down. */
static void comes_down(void) {
    struct sedge_heard heard = {0};
    size_t count;
    WANT(sedge_spacecraft_telemetry_frame(&spacecraft, down, sizeof down, &count) == 0);
    WANT(sedge_ground_telemetry(&ground, down, count, &heard) == 0 && heard.report == SEDGE_REPORT_USED &&
         heard.alert == 0);
}

/* Packets of telemetry wait on board, and then on the ground. */
static void telemetry(void) {
    size_t k, count = 1;
    open_nodes();
    for (k = 0; k < MANY; k++) {
        WANT(sedge_spacecraft_telemetry(&spacecraft, wanted, make(wanted, 0, k, length_of(k))) == 0);
        if (k == MANY / 2) comes_down();
    }
    for (k = 0; k < MANY * 57 / 2036 + 2; k++) comes_down();
    for (k = 0; k < MANY; k++) {
        WANT(sedge_ground_take_telemetry(&ground, taken, sizeof taken, &count) == 0);
        is_packet(0, k, length_of(k), count);
    }
    WANT(sedge_ground_next_telemetry(&ground, &count) == 0 && count == 0);
    close_nodes();
}

/* All that the ground sends goes up, and what is ready is taken: as many packets, each of this length or its own. */
static void goes_up(size_t all, size_t length) {
    struct sedge_received received;
    size_t k = 0, frames = 0, count = 1;
    uint8_t map;
    while (sedge_ground_pull(&ground, up, sizeof up, &count) == 0 && count > 0) {
        WANT(sedge_spacecraft_receive(&spacecraft, up, count, &received) == 0 && received.dropped == 0);
        while (sedge_spacecraft_take(&spacecraft, &map, taken, sizeof taken, &count) == 0 && count > 0) {
            is_packet(1, k, length ? length : length_of(k), count);
            k++;
        }
        if (++frames % 100 == 0) comes_down();
    }
    WANT(k == all);
}

/* One packet of as many segments as octets. */
static void segments(void) {
    config.part = 1;
    open_nodes();
    WANT(sedge_ground_init_without_check(&ground) == 0);
    WANT(sedge_ground_submit(&ground, 4, wanted, make(wanted, 1, 0, LONG)) == 0);
    goes_up(1, LONG);
    close_nodes();
    config.part = 1016;
}

/* A ground is closed with segments of one octet in its sent queue, some of which are back at the queue's beginning. */
static void closed_amid_segments(void) {
    struct sedge_received received;
    size_t k, count = 1;
    config.part = 1;
    open_nodes();
    WANT(sedge_ground_init_without_check(&ground) == 0);
    WANT(sedge_ground_submit(&ground, 4, wanted, make(wanted, 1, 0, LONG)) == 0);
    for (k = 0; k < 200; k++) {
        WANT(sedge_ground_pull(&ground, up, sizeof up, &count) == 0 && count > 0);
        WANT(sedge_spacecraft_receive(&spacecraft, up, count, &received) == 0 && received.dropped == 0);
        if (k == 100) comes_down();
    }
    close_nodes();
    config.part = 1016;
}

static void submissions(void) {
    size_t k;
    open_nodes();
    WANT(sedge_ground_init_without_check(&ground) == 0);
    for (k = 0; k < MANY; k++)
        WANT(sedge_ground_submit(&ground, 4, wanted, make(wanted, 1, k, length_of(k))) == 0);
    goes_up(MANY, 0);
    close_nodes();
}

/* One submission of many segments, with as many packets in each as a segment has at most. */
static void blocked(void) {
    size_t k;
    config.blocking = 1;
    open_nodes();
    WANT(sedge_ground_init_without_check(&ground) == 0);
    for (k = 0; k < BLOCKED * GROUPS; k++) make(packets + 7 * k, 1, k, 7);
    WANT(sedge_ground_submit(&ground, 4, packets, sizeof packets) == 0);
    goes_up(BLOCKED * GROUPS, 7);
    close_nodes();
    config.blocking = 0;
}

static void past_the_sequence_control(void) {
    struct sedge_received received;
    size_t k, count = 1;
    uint8_t map = 99;
    open_nodes();
    for (k = 0; k < MANY; k++)
        WANT(sedge_ground_bypass(&ground, 5, wanted, make(wanted, 1, k, length_of(k))) == 0);
    for (k = 0; k < MANY; k++) {
        WANT(sedge_ground_pull(&ground, up, sizeof up, &count) == 0);
        WANT(sedge_spacecraft_receive(&spacecraft, up, count, &received) == 0 && received.kept);
        WANT(sedge_spacecraft_take_bypass(&spacecraft, &map, taken, sizeof taken, &count) == 0 && map == 5);
        is_packet(1, k, length_of(k), count);
    }
    close_nodes();
}

/* What comes on a MAP that is closed on board, or is too long for it, takes no memory. */
static void dropped(void) {
    struct sedge_received received;
    size_t k, count;
    long held;
    open_nodes();
    config.maps = 1 << 4, config.max_packet = 20;
    WANT(sedge_spacecraft_open(&spacecraft, &config) == 0 && sedge_ground_init_without_check(&ground) == 0);
    config.maps = ~(uint64_t)0, config.max_packet = 65542;
    for (k = 0; k < MANY; k++) {
        held = live;
        WANT(sedge_ground_submit(&ground, (uint8_t)(4 + k % 2), wanted, make(wanted, 1, k, 30)) == 0);
        WANT(sedge_ground_pull(&ground, up, sizeof up, &count) == 0 && live == held + 1);
        WANT(sedge_spacecraft_receive(&spacecraft, up, count, &received) == 0 && received.verdict == SEDGE_ACCEPTED);
        WANT(received.dropped == (k % 2 ? SEDGE_DROPPED_CLOSED_MAP : SEDGE_DROPPED_TOO_LONG) && live == held + 1);
        comes_down();
        WANT(live == held);
    }
    close_nodes();
}

/* Entry k of a record of the link is the data field of packet k, or the packet. */
static void has_entry(struct sedge_sim *sim, uint8_t record, size_t k) {
    size_t count = 0, header = record == SEDGE_SENT || record == SEDGE_RECEIVED;
    WANT(sedge_sim_entry(sim, record, 4, k, up, sizeof up, &count) == 0 && (!header || up[0] == 0xc4));
    memcpy(taken, up + header, sizeof up - header);
    is_packet(1, k, length_of(k), count - header);
}

static void records(void) {
    struct sedge_sim sim = {0};
    struct sedge_reply reply;
    size_t k, count;
    uint8_t map;
    WANT(sedge_sim_open(&sim, &config) == 0 && sedge_sim_init_without_check(&sim, &reply) == 0);
    for (k = 0; k < RECORDS; k++) {
        WANT(sedge_sim_submit(&sim, 4, wanted, make(wanted, 1, k, length_of(k)), &reply) == 0);
        WANT(sedge_sim_send(&sim, &reply) == 0 && sedge_sim_up_deliver(&sim, &reply) == 0);
        WANT(sedge_sim_take(&sim, &reply) == 0 && reply.kind == SEDGE_REPLY_PACKET);
        if (k % 100 == 0) WANT(sedge_sim_report(&sim, &reply) == 0 && sedge_sim_down_deliver(&sim, &reply) == 0);
    }
    for (k = 0; k < RECORDS; k++) {
        for (map = SEDGE_SUBMITTED; map <= SEDGE_RECEIVED; map++) has_entry(&sim, map, k);
        WANT(sedge_sim_submission(&sim, k, &map, taken, sizeof taken, &count) == 0 && map == 4);
        is_packet(1, k, length_of(k), count);
    }
    sedge_sim_close(&sim);
    WANT(live == 0 && refused == 0);
}

int main(void) {
    sedge_config_default(&config);
    config.queue_slots = 60000, config.frame_length = 2048;
    telemetry();
    segments();
    closed_amid_segments();
    submissions();
    blocked();
    past_the_sequence_control();
    dropped();
    records();
    printf(failures ? "%d failed\n" : "all as wanted\n", failures);
    return failures != 0;
}
