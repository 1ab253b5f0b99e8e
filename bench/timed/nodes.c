/* The calls of both nodes, each with the inputs that take longest, in the memory of static.c. */
#include "clock.h"
#include <sedgechisel.h>
#include <string.h>

static struct sedge_ground ground;
static struct sedge_spacecraft board;
static struct sedge_config config;
static uint8_t octets[70000], frame[2048], out[70000];

/* Both nodes anew, with each managed parameter at its most, or as it is set here. */
static void open_nodes(uint32_t part, uint32_t length) {
    sedge_config_default(&config);
    config.part = part;
    config.frame_length = length;
    config.blocking = 1;
    config.bypass_slots = 64;
    config.queue_slots = 4000;
    config.limit = 255;
    if (part < 10) config.max_packet = 2000;
    sedge_ground_close(&ground);
    sedge_spacecraft_close(&board);
    want(sedge_ground_open(&ground, &config) == 0 && sedge_spacecraft_open(&board, &config) == 0);
    want(sedge_ground_init_without_check(&ground) == SEDGE_NODE_OK);
}

static size_t filled(uint8_t *at, size_t count, size_t each) {
    size_t put = 0;
    while (put + each <= count) put += put_packet(at + put, each);
    return put;
}

static void opens(void) {
    static const uint32_t widths[] = {2, 64, 254};
    struct sedge_spacecraft_reading kept;
    for (int k = 0; k < 3; k++) {
        sedge_config_default(&config);
        TIMED("sedge_config_default", 0, 0, 0, 0, sedge_config_default(&config));
        config.width = widths[k];
        config.window = widths[k] / 2;
        config.queue_slots = k == 2 ? 16000 : 100;
        TIMED("sedge_config_fault", 0, 0, 0, 0, want(sedge_config_fault(&config) == 0));
        TIMED("sedge_ground_open", 0, 0, 0, 0, want(sedge_ground_open(&ground, &config) == 0));
        TIMED("sedge_spacecraft_open", 0, 0, 0, 0, want(sedge_spacecraft_open(&board, &config) == 0));
        TIMED("sedge_spacecraft_read", 0, 0, 0, 0, want(sedge_spacecraft_read(&board, &kept) == SEDGE_NODE_OK));
        TIMED("sedge_spacecraft_close", 0, 0, 0, 0, sedge_spacecraft_close(&board));
        TIMED("sedge_spacecraft_open_kept", 0, 0, 0, 0, want(sedge_spacecraft_open_kept(&board, &config, &kept) == 0));
        TIMED("sedge_ground_close", 0, 0, 0, 0, sedge_ground_close(&ground));
        sedge_spacecraft_close(&board);
    }
}

/* Sends frames up to the board, whose packets have this many octets. */
static void sent_up(size_t frames, size_t part, size_t length) {
    struct sedge_received received;
    size_t k, n, next;
    for (k = 0; k < frames; k++) {
        TIMED("sedge_ground_next", 0, 0, 0, 0, want(sedge_ground_next(&ground, &next) == SEDGE_NODE_OK));
        want(next > 0);
        TIMED("sedge_ground_peek", next, 0, 0, 0, want(sedge_ground_peek(&ground, frame, sizeof frame, &n) == SEDGE_NODE_OK));
        TIMED("sedge_ground_advance", 0, 0, 0, 0, want(sedge_ground_advance(&ground) == SEDGE_NODE_OK));
        TIMED("sedge_spacecraft_receive", n, received.ready, received.ready && length > part ? length : 0, 0,
              want(sedge_spacecraft_receive(&board, frame, n, &received) == SEDGE_NODE_OK && received.verdict == 0));
    }
}

static void taken(size_t octets_each) {
    uint8_t map;
    size_t count;
    for (;;) {
        TIMED("sedge_spacecraft_next", 0, 0, 0, 0, want(sedge_spacecraft_next(&board, &map, &count) == SEDGE_NODE_OK));
        if (count == 0) break;
        TIMED("sedge_spacecraft_take", octets_each, 0, 0, 0,
              want(sedge_spacecraft_take(&board, &map, out, sizeof out, &count) == SEDGE_NODE_OK));
    }
}

/* A frame comes down that acknowledges this many segments, with packets of this many octets. */
static void reported(size_t acknowledged, size_t length) {
    struct sedge_heard heard;
    size_t n;
    TIMED("sedge_spacecraft_telemetry_frame", n, length ? (n - 12) / length + 1 : 0, 0, 0,
          want(sedge_spacecraft_telemetry_frame(&board, frame, sizeof frame, &n) == SEDGE_NODE_OK));
    TIMED("sedge_ground_telemetry", n, heard.packets, heard.packets && length > n - 12 ? length : 0, acknowledged,
          want(sedge_ground_telemetry(&ground, frame, n, &heard) == SEDGE_NODE_OK && heard.alert == 0));
}

static void acknowledged_by_word(size_t units) {
    struct sedge_spacecraft_reading read;
    struct sedge_heard heard;
    uint8_t word[4] = {1, 8, 0, 0};
    want(sedge_spacecraft_read(&board, &read) == SEDGE_NODE_OK);
    word[3] = read.value;
    TIMED("sedge_ground_clcw", 0, 0, 0, units,
          want(sedge_ground_clcw(&ground, word, 4, &heard) == SEDGE_NODE_OK && heard.alert == 0));
}

/* Packets of these lengths go up, one or several in a segment or one in several. */
static void goes_up(void) {
    static const size_t each[] = {7, 20, 200, 1016, 3000, 20000, 65542};
    /* (a window holds 127 segments) */
    for (int k = 0; k < 7 * 2 - 1; k++) {
        const size_t length = each[k % 7], part = k / 7 ? 249 : 1016;
        const size_t count = length < part ? filled(octets, part, length) : filled(octets, length, length);
        const size_t p = count / length, segments = (count + part - 1) / part;
        for (int turn = 0; turn < 3; turn++) {
            struct sedge_ground_reading read;
            open_nodes((uint32_t)part, 64);
            TIMED("sedge_ground_submit", count, p, 0, segments,
                  want(sedge_ground_submit(&ground, 4, octets, count) == SEDGE_NODE_OK));
            sent_up(turn == 1 ? segments - 1 : segments, part, length);
            TIMED("sedge_ground_read", 0, 0, 0, turn == 1 ? segments - 1 : segments,
                  want(sedge_ground_read(&ground, &read) == SEDGE_NODE_OK));
            if (turn == 1) {
                TIMED("sedge_spacecraft_close", 0, 0, 0, 0, sedge_spacecraft_close(&board));
                continue;
            }
            taken(length);
            if (turn == 0) reported(segments, 0);
            else acknowledged_by_word(segments);
        }
    }
}

/* A window of units, acknowledged at once, asked for again, or let go of by an alert, with others that wait. */
static void windows(void) {
    static const size_t waits[] = {1, 32, 127, 127 + 500, 127 + 2000};
    for (int k = 0; k < 5 * 7; k++) {
        const size_t u = waits[k % 5];
        const size_t sent = u < 127 ? u : 127;
        uint8_t word[4] = {1, 8, 0, 0}, accepted, alert;
        struct sedge_heard heard;
        uint64_t whole;
        int ticks = 0;
        open_nodes(1016, 64);
        put_packet(octets, 7);
        for (size_t j = 0; j < u; j++) want(sedge_ground_submit(&ground, 4, octets, 7) == SEDGE_NODE_OK);
        for (size_t j = 0; j < sent; j++) {
            size_t n;
            want(sedge_ground_pull(&ground, frame, sizeof frame, &n) == SEDGE_NODE_OK);
        }
        switch (k / 5) {
        case 0:
            word[3] = (uint8_t)sent;
            TIMED("sedge_ground_clcw", 0, 0, 0, sent, want(sedge_ground_clcw(&ground, word, 4, &heard) == SEDGE_NODE_OK));
            break;
        case 1:
            word[2] = 0x20;
            TIMED("sedge_ground_clcw", 0, 0, 0, u, want(sedge_ground_clcw(&ground, word, 4, &heard) == SEDGE_NODE_OK));
            break;
        case 2:
            TIMED("sedge_ground_directive", 0, 0, 0, u, want(sedge_ground_terminate(&ground) == SEDGE_NODE_OK));
            break;
        case 3:
            want(sedge_ground_set_limit(&ground, 1) == SEDGE_NODE_OK);
            do {
                TIMED("sedge_ground_tick", 0, 0, 0, ticks == 9 ? u : 0, alert = sedge_ground_tick(&ground));
            } while (++ticks < 10);
            want(alert == SEDGE_ALERT_TIMER);
            break;
        case 4:
            TIMED("sedge_ground_close", 0, 0, 0, u, sedge_ground_close(&ground));
            continue;
        case 5:
            word[2] = 0x08;
            TIMED("sedge_ground_clcw", 0, 0, 0, 0, want(sedge_ground_clcw(&ground, word, 4, &heard) == SEDGE_NODE_OK));
            for (size_t j = 0; j < sent; j++) {
                size_t n;
                TIMED("sedge_ground_pull", 15, 0, 0, 0, want(sedge_ground_pull(&ground, frame, sizeof frame, &n) == 0 && n == 15));
            }
            continue;
        default:
            break;
        }
        for (int j = 0; j < 2; j++) {
            const uint8_t value = (uint8_t)(j ? sent : sent / 2);
            if (k / 5 == 0) break;
            TIMED("sedge_ground_accepted_beyond", 0, 0, 0, 0, (void)!sedge_ground_accepted_beyond(&ground, value, &accepted));
            TIMED("sedge_ground_known_on_board", 0, 0, 0, j ? sent : sent / 2,
                  (void)!sedge_ground_known_on_board(&ground, value, &whole));
            if (j) TIMED("sedge_ground_resume", 0, 0, 0, sent, (void)!sedge_ground_resume(&ground, value, &whole));
        }
    }
}

/* Packets past the sequence control. */
static void bypasses(void) {
    static const size_t each[] = {7, 100, 1016};
    for (int k = 0; k < 3; k++) {
        struct sedge_received received;
        uint8_t map;
        size_t n;
        open_nodes(1016, 64);
        put_packet(octets, each[k]);
        for (int j = 0; j < 70; j++) {
            TIMED("sedge_ground_bypass", each[k], 0, 0, 0, want(sedge_ground_bypass(&ground, 4, octets, each[k]) == 0));
        }
        for (int j = 0; j < 70; j++) {
            TIMED("sedge_ground_pull", each[k] + 8, 0, 0, 0, want(sedge_ground_pull(&ground, frame, sizeof frame, &n) == 0));
            TIMED("sedge_spacecraft_receive", n, 1, 0, 0, want(sedge_spacecraft_receive(&board, frame, n, &received) == 0));
        }
        TIMED("sedge_spacecraft_close", 0, 64, 0, 0, sedge_spacecraft_close(&board));
        open_nodes(1016, 64);
        want(sedge_ground_bypass(&ground, 4, octets, each[k]) == 0 && sedge_ground_pull(&ground, frame, sizeof frame, &n) == 0);
        for (int j = 0; j < 64; j++) want(sedge_spacecraft_receive(&board, frame, n, &received) == 0);
        for (int j = 0; j < 64; j++) {
            TIMED("sedge_spacecraft_next_bypass", 0, 0, 0, 0, want(sedge_spacecraft_next_bypass(&board, &map, &n) == 0));
            TIMED("sedge_spacecraft_take_bypass", each[k], 0, 0, 0,
                  want(sedge_spacecraft_take_bypass(&board, &map, out, sizeof out, &n) == 0));
        }
    }
}

/* Octets that no node takes, and control commands. */
static void others(void) {
    static const uint8_t unlock[] = {0x30, 1, 8, 7, 0, 0, 0x8b, 0x9e};
    struct sedge_received received;
    struct sedge_heard heard;
    struct sedge_clcw word;
    open_nodes(1016, 64);
    memset(frame, 0, sizeof frame);
    frame[2] = 3, frame[3] = 0xff;
    TIMED("sedge_spacecraft_receive", 1024, 0, 0, 0, want(sedge_spacecraft_receive(&board, frame, 1024, &received) == 0));
    TIMED("sedge_spacecraft_receive", 8, 0, 0, 0, want(sedge_spacecraft_receive(&board, unlock, 8, &received) == 0));
    TIMED("sedge_ground_telemetry", 64, 0, 0, 0, want(sedge_ground_telemetry(&ground, frame, 64, &heard) == 0));
    memcpy(frame, "\x01\x08\x00\x00", 4);
    TIMED("sedge_ground_forget_telemetry", 0, 0, 0, 0, want(sedge_ground_forget_telemetry(&ground) == SEDGE_NODE_OK));
    for (uint8_t it = 1; it <= 9; it++) {
        TIMED("sedge_ground_directive", 0, 0, 0, 0, (void)!sedge_ground_directive(&ground, it, 5));
    }
    for (int k = 0; k < 4; k++) {
        static const uint32_t lengths[] = {16, 64, 500, 2048};
        size_t n;
        open_nodes(1016, lengths[k]);
        want(sedge_spacecraft_telemetry_frame(&board, frame, sizeof frame, &n) == SEDGE_NODE_OK);
        TIMED("sedge_ground_clcw_in", n, 0, 0, 0, want(sedge_ground_clcw_in(&ground, frame, n, &word) == SEDGE_NODE_OK));
    }
}

/* Telemetry of packets of these lengths, some of which wait, in frames of some lengths. */
static void telemetry(void) {
    static const size_t each[] = {7, 20, 200, 3000, 60000};
    static const uint32_t lengths[] = {16, 64, 500, 2048};
    for (int k = 0; k < 5 * 4; k++) {
        const size_t length = each[k / 4];
        const uint32_t n = lengths[k % 4];
        const size_t most = length > 3000 ? 1 : length == 3000 ? 4 : 40;
        size_t count;
        open_nodes(1016, n);
        put_packet(octets, length);
        octets[0] = 0;
        for (size_t j = 0; j < most; j++) {
            TIMED("sedge_spacecraft_telemetry", length, 0, 0, 0,
                  want(sedge_spacecraft_telemetry(&board, octets, length) == SEDGE_NODE_OK));
        }
        for (size_t j = 0; j < (most * length + n - 13) / (n - 12) + 1; j++) reported(0, length);
        for (;;) {
            TIMED("sedge_ground_next_telemetry", 0, 0, 0, 0, want(sedge_ground_next_telemetry(&ground, &count) == SEDGE_NODE_OK));
            if (count == 0) break;
            TIMED("sedge_ground_take_telemetry", length, 0, 0, 0,
                  want(sedge_ground_take_telemetry(&ground, out, sizeof out, &count) == SEDGE_NODE_OK));
        }
    }
}

/* Telemetry that is queued when half of what waited has gone down, so that the rest moves to the front: some lengths of
 * what moves, and the packets that follow. */
static void moves(void) {
    static const size_t waits[] = {1000, 4000, 10000, 40000};
    const size_t each = 200;
    for (int k = 0; k < 4 * 2; k++) {
        const size_t wait = waits[k / 2], next = k % 2 ? each : 7;
        size_t n;
        open_nodes(1016, (uint32_t)each + 12);
        put_packet(octets, each);
        octets[0] = 0;
        for (size_t j = 0; j < wait / each; j++) {
            want(sedge_spacecraft_telemetry(&board, octets, each) == SEDGE_NODE_OK);
        }
        for (size_t sent = 0; sent < wait / 2; sent += each) {
            want(sedge_spacecraft_telemetry_frame(&board, frame, sizeof frame, &n) == SEDGE_NODE_OK);
        }
        put_packet(octets, next);
        octets[0] = 0;
        TIMED("sedge_spacecraft_telemetry", next, 0, wait / 2, 0,
              want(sedge_spacecraft_telemetry(&board, octets, next) == SEDGE_NODE_OK));
        TIMED("sedge_spacecraft_telemetry", next, 0, 0, 0,
              want(sedge_spacecraft_telemetry(&board, octets, next) == SEDGE_NODE_OK));
    }
}

static struct sedge_text text;

static void names(void) {
    for (int k = 0; k < 256; k++) {
        TIMED("sedge_.._name", 0, 0, 0, 0, text = sedge_parameter_name((uint8_t)k));
        TIMED("sedge_.._name", 0, 0, 0, 0, text = sedge_link_fault_name((uint8_t)k));
    }
}

void measure(void) {
    opens();
    goes_up();
    windows();
    bypasses();
    others();
    telemetry();
    moves();
    names();
}
