/* The calls of the library without heap, each with the inputs that take longest. */
#include "clock.h"
#include <sedgechisel.h>
#include <string.h>

static uint8_t octets[140000], memory[140000], out[140000], packets[140000];

static void checks(void) {
    static const size_t counts[] = {2, 64, 500, 1024, 2048};
    for (size_t k = 0; k < sizeof counts / sizeof counts[0]; k++) {
        const size_t n = counts[k];
        TIMED("sedge_check", n, 0, 0, 0, (void)sedge_check(octets, n));
        TIMED("sedge_check_append", n, 0, 0, 0, want(sedge_check_append(octets, n)));
        TIMED("sedge_check_holds", n, 0, 0, 0, want(sedge_check_holds(octets, n)));
    }
}

static void control_words(void) {
    struct sedge_clcw word;
    for (int k = 0; k < 2000; k++) {
        uint8_t it[4] = {(uint8_t)below(256), (uint8_t)below(256), (uint8_t)below(256), (uint8_t)below(256)};
        if (below(2)) it[0] = 1, it[1] &= 0xfc, it[2] &= 0xfe;
        TIMED("sedge_clcw_decode", 0, 0, 0, 0, (void)!sedge_clcw_decode(it, 4, &word));
        word = (struct sedge_clcw){(uint8_t)below(9), (uint8_t)below(66), (uint8_t)(below(32) << 3), (uint8_t)below(5), 7};
        TIMED("sedge_clcw_encode", 0, 0, 0, 0, (void)!sedge_clcw_encode(&word, out, 4));
    }
}

static void receivers(void) {
    struct sedge_farm farm;
    struct sedge_clcw word;
    TIMED("sedge_farm_open", 0, 0, 0, 0, want(sedge_farm_open(&farm, 10, 3) == SEDGE_OK));
    for (int k = 0; k < 5000; k++) {
        const uint8_t vr = (uint8_t)(below(3) ? farm.vr + below(8) - 3 : below(256));
        const bool is_free = below(3) > 0;
        TIMED("sedge_farm_ad", 0, 0, 0, 0, (void)!sedge_farm_ad(&farm, vr, is_free));
        if (below(5) == 0) TIMED("sedge_farm_bd", 0, 0, 0, 0, (void)!sedge_farm_bd(&farm));
        if (below(9) == 0) TIMED("sedge_farm_unlock", 0, 0, 0, 0, (void)!sedge_farm_unlock(&farm));
        if (below(9) == 0) TIMED("sedge_farm_set_vr", 0, 0, 0, 0, (void)!sedge_farm_set_vr(&farm, vr));
        if (below(4) == 0) TIMED("sedge_farm_released", 0, 0, 0, 0, (void)!sedge_farm_released(&farm));
        TIMED("sedge_farm_control_word", 0, 0, 0, 0, (void)!sedge_farm_control_word(&farm, 2, &word));
        TIMED("sedge_farm_state", 0, 0, 0, 0, (void)!sedge_farm_state(&farm));
    }
}

static void senders(void) {
    struct sedge_fop fop;
    uint8_t number;
    TIMED("sedge_fop_open", 0, 0, 0, 0, want(sedge_fop_open(&fop, 254, 127, 3, 10) == SEDGE_OK));
    for (int k = 0; k < 30000; k++) {
        const uint8_t directive = (uint8_t)(1 + below(9));
        const struct sedge_clcw word = {0, 2, (uint8_t)(below(6) ? 0 : below(8) << 3), 0,
                                        (uint8_t)(below(9) ? fop.nn + below(fop.sent + 1u) : below(256))};
        if (below(40) == 0 || (fop.state == SEDGE_FOP_S6 && below(2))) {
            TIMED("sedge_fop_directive", 0, 0, 0, 0, (void)!sedge_fop_directive(&fop, directive, (uint16_t)(1 + below(127))));
        }
        TIMED("sedge_fop_submit", 0, 0, 0, 0, (void)!sedge_fop_submit(&fop));
        if (below(3)) TIMED("sedge_fop_next", 0, 0, 0, 0, (void)!sedge_fop_next(&fop, &number));
        if (below(4) == 0) TIMED("sedge_fop_clcw", 0, 0, 0, 0, (void)!sedge_fop_clcw(&fop, 2, &word, &number));
        if (below(6) == 0) TIMED("sedge_fop_tick", 0, 0, 0, 0, (void)!sedge_fop_tick(&fop));
        TIMED("sedge_fop_accepted_beyond", 0, 0, 0, 0, (void)!sedge_fop_accepted_beyond(&fop, word.value, &number));
        TIMED("sedge_accepted_beyond", 0, 0, 0, 0, (void)!sedge_accepted_beyond(fop.nn, fop.vs, word.value, &number));
    }
}

static const size_t frame_counts[] = {1, 2, 3, 100, 500, 1015, 1016};

static void frames(void) {
    struct sedge_tc_frame frame, read;
    struct sedge_part data;
    size_t total;
    for (int k = 0; k < 7 * 12; k++) {
        const size_t n = frame_counts[k % 7];
        frame = (struct sedge_tc_frame){1023, 63, (uint8_t)(k / 7 % 3), 255, 3, 63, (uint8_t)(k / 21 % 2), 7};
        if (frame.kind != SEDGE_TC_AD) frame.n = 0;
        TIMED("sedge_tc_encode", frame.kind == SEDGE_TC_BC ? 1 : n, 0, 0, 0,
              want(sedge_tc_encode(&frame, packets, n, true, octets, 1024, &total) == SEDGE_OK));
        TIMED("sedge_tc_declared", 0, 0, 0, 0, want(sedge_tc_declared(octets, total, true, &data.from) == SEDGE_OK));
        TIMED("sedge_tc_decode", total, 0, 0, 0, want(sedge_tc_decode(octets, total, true, &read, &data) == SEDGE_OK));
        octets[total - 1] ^= (uint8_t)below(2);
        TIMED("sedge_tc_decode", total, 0, 0, 0, (void)!sedge_tc_decode(octets, total, true, &read, &data));
    }
}

static void many_frames(void) {
    static const struct {
        size_t frames, data;
    } cases[] = {{1, 1}, {1, 1016}, {8, 1016}, {100, 1}, {100, 100}, {30, 500}};
    const struct sedge_tc_frame frame = {1, 2, SEDGE_TC_AD, 0, 3, 4, 0, 0};
    for (size_t k = 0; k < sizeof cases / sizeof cases[0]; k++) {
        size_t at = 0, total;
        for (size_t j = 0; j < cases[k].frames; j++, at += total) {
            want(sedge_tc_encode(&frame, packets, cases[k].data, true, octets + at, 1024, &total) == SEDGE_OK);
        }
        TIMED("sedge_tc_frames", at, 0, 0, cases[k].frames,
              want(sedge_tc_frames(octets, at, true, out, sizeof out, &total) == cases[k].frames));
    }
}

static void space_packets(void) {
    static const size_t counts[] = {1, 100, 1000, 10000, 65536};
    static struct sedge_gap_check check;
    const struct sedge_packet packet = {5, 6, 1, 0, 3};
    struct sedge_packet read;
    struct sedge_part data;
    uint16_t missing;
    for (int k = 0; k < 5; k++) {
        size_t total;
        TIMED("sedge_packet_encode", counts[k], 0, 0, 0,
              want(sedge_packet_encode(&packet, memory, counts[k], out, sizeof out, &total) == SEDGE_OK));
        TIMED("sedge_packet_decode", 0, 0, 0, 0, want(sedge_packet_decode(out, total, &read, &data) == SEDGE_OK));
        TIMED("sedge_packet_declared", 0, 0, 0, 0, want(sedge_packet_declared(out, total, &total) == SEDGE_OK));
    }
    TIMED("sedge_gap_check_open", 0, 0, 0, 0, sedge_gap_check_open(&check));
    for (int k = 0; k < 100; k++) {
        const uint16_t apid = (uint16_t)below(8), count = (uint16_t)below(16384);
        TIMED("sedge_gap_check_see", 0, 0, 0, 0, (void)!sedge_gap_check_see(&check, apid, count, &missing));
    }
}

static const size_t lengths[] = {16, 19, 64, 256, 1115, 2048};

/* Fills octets with packets of this length, up to a count. */
static size_t filled(uint8_t *at, size_t count, size_t each) {
    size_t put = 0;
    while (put + each <= count) put += put_packet(at + put, each);
    return put;
}

static void telemetry_frames(void) {
    struct sedge_tm_frame frame = {1, 0, 0, 1, 1, {1, 8, 0, 0}}, read;
    struct sedge_part data;
    for (int k = 0; k < 6; k++) {
        const size_t n = lengths[k];
        size_t total;
        TIMED("sedge_tm_encode", n - 12, 0, 0, 0,
              want(sedge_tm_encode(&frame, packets, n - 12, octets, n, &total) == SEDGE_OK));
        TIMED("sedge_tm_decode", n, 0, 0, 0, want(sedge_tm_decode(octets, n, n, &read, &data) == SEDGE_OK));
        octets[n - 1] ^= 1;
        TIMED("sedge_tm_decode", n, 0, 0, 0, (void)!sedge_tm_decode(octets, n, n, &read, &data));
    }
}

static void builders(void) {
    static const uint8_t ocf[4] = {1, 8, 0, 0};
    static const size_t each[] = {7, 8, 20, 200, 3000};
    static const size_t waits[] = {0, 7, 700, 7000};
    struct sedge_tm_builder builder;
    size_t total;
    TIMED("sedge_tm_builder_open", 0, 0, 0, 0, want(sedge_tm_builder_open(&builder, 1, 0, 2048) == SEDGE_OK));
    for (int k = 0; k < 20; k++) {
        const size_t n = each[k % 5], waiting = waits[k / 5];
        want(sedge_tm_builder_open(&builder, 1, 0, 64) == SEDGE_OK);
        /* (what waits stands at the end of the memory, so it is moved to the beginning) */
        builder.from = n;
        builder.count = filled(memory + n, waiting, 7);
        put_packet(packets, n);
        TIMED("sedge_tm_builder_queue", n, 0, builder.count, 0,
              want(sedge_tm_builder_queue(&builder, packets, n, memory, n + builder.count) == SEDGE_OK));
    }
    for (int k = 0; k < 6 * 5; k++) {
        const size_t n = lengths[k % 6], length = each[k / 6];
        want(sedge_tm_builder_open(&builder, 1, 0, n) == SEDGE_OK);
        builder.count = filled(memory, 20000, length);
        for (int turn = 0; turn < 12; turn++) {
            TIMED("sedge_tm_builder_build", n, (n - 12) / length + 1, 0, 0,
                  want(sedge_tm_builder_build(&builder, ocf, 4, memory, sizeof memory, out, n, &total) == SEDGE_OK));
        }
        builder.count = 0, builder.begun = 0;
        for (int turn = 0; turn < 3; turn++) {
            TIMED("sedge_tm_builder_build", n, (n - 12) / length + 1, 0, 0,
                  want(sedge_tm_builder_build(&builder, ocf, 4, memory, sizeof memory, out, n, &total) == SEDGE_OK));
        }
    }
}

/* Gives an extractor the frames of a builder with packets of one length, of which some are lost. */
static void extractors(void) {
    static const uint8_t ocf[4] = {1, 8, 0, 0};
    static const size_t each[] = {7, 8, 20, 200, 3000, 60000};
    for (int k = 0; k < 6 * 6; k++) {
        const size_t n = lengths[k % 6], length = each[k / 6];
        struct sedge_tm_extractor extractor = {0, 0, 0, 0};
        struct sedge_tm_builder builder;
        want(sedge_tm_builder_open(&builder, 1, 0, n) == SEDGE_OK);
        builder.count = filled(packets, length > 7000 ? 120000 : 14000, length);
        for (int turn = 0; turn < 100; turn++) {
            struct sedge_tm_frame frame;
            struct sedge_tm_extracted taken;
            struct sedge_part data, packet;
            size_t total;
            want(sedge_tm_builder_build(&builder, ocf, 4, packets, sizeof packets, out, n, &total) == SEDGE_OK);
            if (turn % 7 == 6 && length < 3000) continue;
            want(sedge_tm_decode(out, n, n, &frame, &data) == SEDGE_OK);
            TIMED("sedge_tm_extractor_frame", n - 12, (n - 12) / length + 1, taken.joined, 0,
                  want(sedge_tm_extractor_frame(&extractor, &frame, out + data.from, data.count, memory, sizeof memory,
                                                &taken) == SEDGE_OK));
            packet = taken.packets;
            TIMED("sedge_tm_packet", 0, 1, 0, 0, (void)!sedge_tm_packet(out + data.from, data.count, &packet));
        }
    }
    for (size_t idle = 0; idle <= 290; idle += 145) {
        struct sedge_part packet = {0, 0};
        for (size_t k = 0; k < idle; k++) memcpy(octets + 7 * k, "\x07\xff\xc0\0\0\0\x55", 7);
        TIMED("sedge_tm_packet", 0, idle + 1, 0, 0, want(!sedge_tm_packet(octets, 7 * idle, &packet)));
    }
}

static void many_telemetry_frames(void) {
    static const uint8_t ocf[4] = {1, 8, 0, 0};
    static const size_t each[] = {7, 100, 3000};
    for (int k = 0; k < 6 * 3 * 2; k++) {
        const size_t n = lengths[k % 6], length = each[k / 6 % 3], many = k / 18 ? 20 : 1;
        struct sedge_tm_extractor extractor = {0, 0, 0, 0};
        struct sedge_tm_builder builder;
        size_t total, room;
        want(sedge_tm_builder_open(&builder, 1, 0, n) == SEDGE_OK);
        builder.count = filled(packets, 45000, length);
        for (size_t j = 0; j < many; j++) {
            want(sedge_tm_builder_build(&builder, ocf, 4, packets, sizeof packets, octets + j * n, n, &room) == SEDGE_OK);
        }
        TIMED("sedge_tm_extractor_frames", n * many, 0, total, many,
              want(sedge_tm_extractor_frames(&extractor, octets, n * many, n, memory, 67578, out, 400, out + 400,
                                             sizeof out - 400, &total) == many));
    }
}

static void segments(void) {
    static const size_t counts[] = {1, 10, 100, 1000};
    uint8_t flags;
    size_t many;
    struct sedge_part data;
    for (int k = 0; k < 4; k++) {
        const size_t p = counts[k], count = filled(packets, 7 * p, 7);
        const struct sedge_limits limits = {7, 65542, 1}, plain = {1, 65542, 0};
        put_packet(out, 65542);
        TIMED("sedge_map_count", 0, p, 0, 0, want(sedge_map_count(packets, count, &limits, &many) == SEDGE_OK));
        TIMED("sedge_map_segment", 0, p, 0, 0,
              want(sedge_map_segment(packets, count, &limits, many - 1, &flags, &data) == SEDGE_OK));
        TIMED("sedge_map_count", 0, 1, 0, 0, want(sedge_map_count(out, 65542, &plain, &many) == SEDGE_OK));
        TIMED("sedge_map_segment", 0, 1, 0, 0,
              want(sedge_map_segment(out, 65542, &plain, many - 1, &flags, &data) == SEDGE_OK));
    }
}

static void maps(void) {
    static const size_t each[] = {7, 8, 20, 200, 1016};
    struct sedge_taken taken;
    struct sedge_part packet;
    for (int k = 0; k < 5 * 5; k++) {
        const size_t count = filled(packets, each[k / 5], each[k % 5] > each[k / 5] ? each[k / 5] : each[k % 5]);
        const size_t p = count / (each[k % 5] > each[k / 5] ? each[k / 5] : each[k % 5]);
        struct sedge_map map = {0, 0, 1};
        TIMED("sedge_map_take", count, p, 0, 0,
              want(sedge_map_take(&map, 3, packets, count, memory, 65542, &taken) == SEDGE_OK));
        packet = (struct sedge_part){0, 0};
        TIMED("sedge_map_packet", 0, 0, 0, 0, want(sedge_map_packet(packets, count, &packet)));
        for (uint8_t flags = 0; flags < 40; flags++) {
            const uint8_t it = (uint8_t)(flags == 0 ? 1 : flags % 13 == 0 ? 2 : below(8) ? 0 : below(4));
            TIMED("sedge_map_take", count, it == 3 ? p : 1, 0, 0,
                  (void)!sedge_map_take(&map, it, packets, count, memory, 3000, &taken));
        }
    }
}

/* Does what is due on board, until nothing is. */
static void act(struct sedge_log *log) {
    uint8_t action;
    uint32_t number;
    do {
        TIMED("sedge_log_next", 0, 0, 0, 0, action = sedge_log_next(log, memory, 50, &number));
        TIMED("sedge_log_done", 0, 0, 0, 0, want(sedge_log_done(log, action, number) == SEDGE_OK));
    } while (action != SEDGE_LOG_NOTHING && action != SEDGE_LOG_RESTART);
}

/* A board starts, executes commands of several lengths, and restarts; another one has lost its record. */
static void commands(void) {
    static const size_t counts[] = {0, 1, 50, 1000, 65528};
    struct sedge_log log;
    struct sedge_part content;
    struct sedge_board_status status;
    struct sedge_log_order order = {1, 0, 0, SEDGE_LOG_ORDER_RESTART};
    uint8_t place[50], told[27];
    uint32_t history = 0;
    size_t total;
    TIMED("sedge_log_new_record", 0, 0, 0, 0, want(sedge_log_new_record(place, 50) == SEDGE_OK));
    TIMED("sedge_log_start", 0, 0, 0, 0, sedge_log_start(&log, place, 50, place, 50, 7));
    act(&log);
    for (uint32_t k = 0; k < 5; k++) {
        const size_t n = counts[k];
        TIMED("sedge_log_command_encode", n, 0, 0, 0,
              want(sedge_log_command_encode(5, 44, k + 1, octets, n, out, sizeof out, &total) == SEDGE_OK));
        TIMED("sedge_log_offer", n, 0, 0, 0, want(sedge_log_offer(&log, out, total, &content) == SEDGE_OK));
        TIMED("sedge_log_history_after", 0, 0, 0, 0, history = sedge_log_history_after(history, out, total));
        act(&log);
        TIMED("sedge_log_status", 0, 0, 0, 0, want(sedge_log_status(&log, 3, told, 27) == SEDGE_OK));
        TIMED("sedge_log_status_decode", 0, 0, 0, 0, want(sedge_log_status_decode(told, 27, &status) == SEDGE_OK));
    }
    TIMED("sedge_log_order_encode", 0, 0, 0, 0,
          want(sedge_log_order_encode(&order, 6, 45, out, 23, &total) == SEDGE_OK));
    TIMED("sedge_log_obey", 0, 0, 0, 0, want(sedge_log_obey(&log, out, total) == SEDGE_OK));
    act(&log);
    place[49] ^= 1;
    TIMED("sedge_log_start", 0, 0, 0, 0, sedge_log_start(&log, place, 50, place, 50, 7));
    order = (struct sedge_log_order){1, 9, 7, SEDGE_LOG_ORDER_REBUILD};
    TIMED("sedge_log_order_encode", 0, 0, 0, 0,
          want(sedge_log_order_encode(&order, 6, 45, out, 23, &total) == SEDGE_OK));
    TIMED("sedge_log_obey", 0, 0, 0, 0, want(sedge_log_obey(&log, out, total) == SEDGE_OK));
    act(&log);
}

static struct sedge_text text;
static struct sedge_advice advice;

static void names(void) {
    TIMED("sedge_version", 0, 0, 0, 0, text = sedge_version());
    for (int k = 0; k < 256; k++) {
        const uint8_t n = (uint8_t)k;
        TIMED("sedge_.._name", 0, 0, 0, 0, text = sedge_clcw_fault_name(n));
        TIMED("sedge_.._name", 0, 0, 0, 0, text = sedge_cop_fault_name(n));
        TIMED("sedge_.._name", 0, 0, 0, 0, text = sedge_verdict_name(n));
        TIMED("sedge_.._name", 0, 0, 0, 0, text = sedge_alert_name(n));
        TIMED("sedge_.._name", 0, 0, 0, 0, text = sedge_tc_fault_name(n));
        TIMED("sedge_.._name", 0, 0, 0, 0, text = sedge_packet_fault_name(n));
        TIMED("sedge_.._name", 0, 0, 0, 0, text = sedge_tm_fault_name(n));
        TIMED("sedge_.._name", 0, 0, 0, 0, text = sedge_map_fault_name(n));
        TIMED("sedge_.._name", 0, 0, 0, 0, text = sedge_dropped_name(n));
        TIMED("sedge_.._name", 0, 0, 0, 0, text = sedge_log_fault_name(n));
        TIMED("sedge_alert_advice", 0, 0, 0, 0, advice = sedge_alert_advice(n));
        TIMED("sedge_alert_shows_broken_condition", 0, 0, 0, 0, (void)sedge_alert_shows_broken_condition(n));
    }
}

void measure(void) {
    memset(octets, 0x5a, sizeof octets);
    checks();
    control_words();
    receivers();
    senders();
    frames();
    many_frames();
    space_packets();
    telemetry_frames();
    builders();
    extractors();
    many_telemetry_frames();
    segments();
    commands();
    maps();
    names();
}
