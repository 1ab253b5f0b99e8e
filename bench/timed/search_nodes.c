/* The calls of both nodes over a link that loses frames, with random parameters, for `bench/time`: what takes more than
 * the rows of c/time.csv. */
#include "clock.h"
#include <sedgechisel.h>
#include <string.h>

static struct sedge_ground ground;
static struct sedge_spacecraft board;
static struct sedge_config config;
static uint8_t octets[70000], frame[2048], out[70000];
/* The octets of each MAP's open part; of the telemetry those that wait, those sent, and those of a packet that the
 * ground has begun. */
static size_t parts[64], waiting, sent, carried;

static size_t up_to(size_t most) {
    const size_t near = most < 16 ? most : 16;
    switch (below(4)) {
    case 0: return below((uint32_t)most + 1);
    case 1: return most - below((uint32_t)near + 1);
    default: return below((uint32_t)(most < 300 ? most : 300) + 1);
    }
}

static void open_nodes(void) {
    static struct sedge_spacecraft_reading kept;
    sedge_config_default(&config);
    config.width = 2 + 2 * (uint32_t)up_to(126);
    config.window = 1 + (uint32_t)up_to(config.width / 2 - 1);
    config.limit = 1 + below(below(2) ? 3 : 255);
    config.timer = 1 + below(below(2) ? 5 : 200);
    config.part = 1 + (uint32_t)up_to(1015);
    config.max_packet = 7 + (uint32_t)up_to(3000);
    config.maps = below(2) ? ~0ull : 0x31;
    config.ready_slots = 1 + below(64);
    config.bypass_slots = 1 + below(64);
    config.queue_slots = 1 + (uint32_t)up_to(500);
    config.frame_length = 16 + (uint32_t)up_to(below(3) ? 240 : 2032);
    config.blocking = below(2);
    sedge_ground_close(&ground);
    sedge_spacecraft_close(&board);
    TIMED("sedge_config_fault", 0, 0, 0, 0, want(sedge_config_fault(&config) == 0));
    TIMED("sedge_ground_open", 0, 0, 0, 0, want(sedge_ground_open(&ground, &config) == 0));
    TIMED("sedge_spacecraft_open", 0, 0, 0, 0, want(sedge_spacecraft_open(&board, &config) == 0));
    want(sedge_spacecraft_read(&board, &kept) == 0);
    if (below(2)) {
        sedge_spacecraft_close(&board);
        TIMED("sedge_spacecraft_open_kept", 0, 0, 0, 0, want(!sedge_spacecraft_open_kept(&board, &config, &kept)));
    }
    memset(parts, 0, sizeof parts);
    waiting = sent = carried = 0;
}

static struct sedge_ground_reading now(void) {
    struct sedge_ground_reading read;
    want(sedge_ground_read(&ground, &read) == SEDGE_NODE_OK);
    return read;
}

static void directive(void) {
    const size_t outstanding = now().outstanding;
    const uint8_t it = (uint8_t)(now().state == SEDGE_FOP_S6 ? 1 + below(4) : below(6) ? 6 + below(4) : below(11));
    const uint16_t value = (uint16_t)(it == SEDGE_SET_WINDOW ? 1 + below(config.width / 2) : 1 + below(255));
    TIMED("sedge_ground_directive", 0, 0, 0, outstanding - now().outstanding,
          (void)!sedge_ground_directive(&ground, it, value));
}

/* Packets one after another, with blocking or one; returns how many. */
static size_t put_packets(size_t *count) {
    const size_t most = config.blocking && below(2) ? 1 + below(40) : 1;
    const size_t longest = below(3) && config.max_packet > 40 ? 40 : config.max_packet;
    size_t many;
    *count = 0;
    for (many = 0; many < most && *count + longest < sizeof octets; many++) {
        *count += put_packet(octets + *count, 7 + up_to(longest - 7));
    }
    return many;
}

static void submit(void) {
    const struct sedge_limits limits = {config.part, config.max_packet, config.blocking > 0};
    size_t count, segments = 1;
    const size_t p = put_packets(&count);
    if (below(30) == 0) octets[below(6)] ^= (uint8_t)(1u << below(8));
    (void)!sedge_map_count(octets, count, &limits, &segments);
    if (below(4)) {
        TIMED("sedge_ground_submit", count, p, 0, segments,
              (void)!sedge_ground_submit(&ground, (uint8_t)(below(20) ? 4 : below(66)), octets, count));
    } else if (count <= 1016) {
        TIMED("sedge_ground_bypass", count, 0, 0, 0, (void)!sedge_ground_bypass(&ground, 4, octets, count));
    }
}

/* A frame goes up, or is lost. */
static void up(void) {
    struct sedge_received received = {0};
    struct sedge_tc_frame it;
    struct sedge_part data;
    size_t n = 0, joined = 0;
    TIMED("sedge_ground_next", 0, 0, 0, 0, want(sedge_ground_next(&ground, &n) == SEDGE_NODE_OK));
    if (n == 0) return;
    if (below(2)) {
        TIMED("sedge_ground_pull", n, 0, 0, 0, want(!sedge_ground_pull(&ground, frame, sizeof frame, &n)));
    } else {
        TIMED("sedge_ground_peek", n, 0, 0, 0, want(!sedge_ground_peek(&ground, frame, sizeof frame, &n)));
        TIMED("sedge_ground_advance", 0, 0, 0, 0, want(sedge_ground_advance(&ground) == SEDGE_NODE_OK));
    }
    if (below(20) == 0) return;
    if (below(40) == 0) frame[below((uint32_t)n)] ^= (uint8_t)(1u << below(8));
    if (sedge_tc_decode(frame, n, true, &it, &data) == SEDGE_OK && it.kind == SEDGE_TC_AD) {
        joined = it.flags == 2 || it.flags == 0 ? parts[it.map] + data.count : 0;
    }
    TIMED("sedge_spacecraft_receive", n, received.ready > 0 ? received.ready : 1, received.ready ? joined : 0, 0,
          (void)!sedge_spacecraft_receive(&board, frame, n, &received));
    if (received.kind == SEDGE_RECEIVED_AD && received.verdict == SEDGE_ACCEPTED) {
        parts[it.map] = it.flags == 1 ? data.count : it.flags == 0 ? joined : 0;
    }
}

static void taken(void) {
    uint8_t map;
    size_t count;
    TIMED("sedge_spacecraft_next", 0, 0, 0, 0, want(sedge_spacecraft_next(&board, &map, &count) == SEDGE_NODE_OK));
    TIMED("sedge_spacecraft_take", count, 0, 0, 0,
          want(sedge_spacecraft_take(&board, &map, out, sizeof out, &count) == SEDGE_NODE_OK));
    TIMED("sedge_spacecraft_next_bypass", 0, 0, 0, 0, want(sedge_spacecraft_next_bypass(&board, &map, &count) == 0));
    TIMED("sedge_spacecraft_take_bypass", count, 0, 0, 0,
          want(sedge_spacecraft_take_bypass(&board, &map, out, sizeof out, &count) == SEDGE_NODE_OK));
    TIMED("sedge_ground_next_telemetry", 0, 0, 0, 0, want(!sedge_ground_next_telemetry(&ground, &count)));
    TIMED("sedge_ground_take_telemetry", count, 0, 0, 0,
          want(sedge_ground_take_telemetry(&ground, out, sizeof out, &count) == SEDGE_NODE_OK));
}

static void queue(void) {
    const size_t length = 7 + up_to(below(4) ? 60 : 3000);
    const size_t moves = sent >= waiting ? waiting : 0;
    uint8_t fault;
    if (waiting > 30000) return;
    put_packet(octets, length);
    octets[0] = (uint8_t)(below(30) ? 0 : 0x20);
    TIMED("sedge_spacecraft_telemetry", length, 0, moves, 0,
          fault = sedge_spacecraft_telemetry(&board, octets, length));
    if (fault == SEDGE_NODE_OK) waiting += length;
}

/* How many packets the data field of a telemetry frame begins, and one that began before; what is left of the last. */
static size_t begun_in(size_t n, size_t *left) {
    size_t at = (size_t)(frame[4] & 7) << 8 | frame[5], found = 1, last = at;
    *left = 0;
    if (at >= n - 12) return 1;
    for (; at + 6 <= n - 12; found++) last = at, at += ((size_t)frame[6 + at + 4] << 8 | frame[6 + at + 5]) + 7;
    if (at > n - 12) *left = n - 12 - last;
    else *left = n - 12 - at;
    return found + (at < n - 12);
}

/* A frame of telemetry comes down, or is lost, or its CLCW comes by itself. */
static void down(void) {
    const struct sedge_ground_reading before = now();
    struct sedge_heard heard = {0};
    size_t n, p, left, gone, joined;
    TIMED("sedge_spacecraft_telemetry_frame", n, begun_in(n, &left), 0, 0,
          want(sedge_spacecraft_telemetry_frame(&board, frame, sizeof frame, &n) == SEDGE_NODE_OK));
    gone = waiting < n - 12 ? waiting : n - 12;
    waiting -= gone, sent += gone;
    if (below(20) == 0) return;
    p = begun_in(n, &left);
    if (below(5) == 0) {
        TIMED("sedge_ground_clcw", 0, 0, 0, before.outstanding - now().outstanding,
              want(sedge_ground_clcw(&ground, frame + n - 6, 4, &heard) == SEDGE_NODE_OK));
        carried = 0; /* (the next frame shows a gap) */
        return;
    }
    if (below(40) == 0) frame[below((uint32_t)n)] ^= (uint8_t)(1u << below(8));
    joined = carried + n - 12;
    TIMED("sedge_ground_telemetry", n, p, carried > 0 ? joined : 0, before.outstanding - now().outstanding,
          (void)!sedge_ground_telemetry(&ground, frame, n, &heard));
    if (heard.kind != SEDGE_HEARD_FRAME) return;
    carried = (frame[4] & 7) == 7 && frame[5] == 0xff ? joined : left;
}

static void tick(void) {
    const size_t outstanding = now().outstanding;
    TIMED("sedge_ground_tick", 0, 0, 0, outstanding - now().outstanding, (void)!sedge_ground_tick(&ground));
}

static void others(void) {
    struct sedge_ground_reading read = now();
    const uint8_t value = (uint8_t)(read.nn + below(12)), accepted = (uint8_t)(value - read.nn);
    const size_t all = (uint8_t)(read.vs - read.nn), s = accepted <= all ? accepted : all;
    struct sedge_spacecraft_reading its;
    struct sedge_clcw word;
    uint64_t whole;
    uint8_t number;
    TIMED("sedge_ground_accepted_beyond", 0, 0, 0, 0, (void)!sedge_ground_accepted_beyond(&ground, value, &number));
    TIMED("sedge_ground_known_on_board", 0, 0, 0, s, (void)!sedge_ground_known_on_board(&ground, value, &whole));
    TIMED("sedge_spacecraft_read", 0, 0, 0, 0, want(sedge_spacecraft_read(&board, &its) == SEDGE_NODE_OK));
    TIMED("sedge_ground_read", 0, 0, 0, all, want(!sedge_ground_read(&ground, &read)));
    TIMED("sedge_ground_clcw_in", config.frame_length, 0, 0, 0,
          (void)!sedge_ground_clcw_in(&ground, frame, config.frame_length, &word));
    if (below(30) == 0) TIMED("sedge_ground_resume", 0, 0, 0, s, (void)!sedge_ground_resume(&ground, value, &whole));
    if (below(30)) return;
    TIMED("sedge_ground_forget_telemetry", 0, 0, 0, 0, want(!sedge_ground_forget_telemetry(&ground)));
}

void measure(void) {
    static void (*const all[])(void) = {submit, submit, up, up, up, taken, queue, down, down, tick, others, directive};
    for (int k = 0; k < STATES; k++) {
        const size_t often = below(sizeof all / sizeof all[0]);
        if (k % 500 == 0) open_nodes();
        for (size_t it = 0; it < sizeof all / sizeof all[0]; it++) {
            if (all[it] != directive || now().state == SEDGE_FOP_S6 || below(20) == 0) all[it]();
            if (below(3) == 0) all[often]();
        }
    }
}
