/* The calls of the library without heap, each in random states with random inputs, for `bench/time`: what takes more
 * than the rows of c/time.csv. */
#include "clock.h"
#include <sedgechisel.h>
#include <string.h>

static uint8_t octets[70000], memory[70000], out[70000], packets[70000];
static const uint8_t ocf[4] = {1, 8, 0, 0};

/* A number up to a most: any, a small one, or nearly the most. */
static size_t up_to(size_t most) {
    const size_t near = most < 16 ? most : 16;
    switch (below(4)) {
    case 0: return below((uint32_t)most + 1);
    case 1: return most - below((uint32_t)near + 1);
    default: return below((uint32_t)(most < 300 ? most : 300) + 1);
    }
}

static uint8_t any(void) {
    return (uint8_t)below(256);
}

/* Sometimes damages one of these octets. */
static void damage(void *at, size_t count) {
    if (below(3) == 0 && count > 0) ((uint8_t *)at)[below((uint32_t)count)] ^= (uint8_t)(1u << below(8));
}

static void checks(void) {
    const size_t n = up_to(2048);
    TIMED("sedge_check", n, 0, 0, 0, (void)sedge_check(octets, n));
    TIMED("sedge_check_append", n, 0, 0, 0, (void)!sedge_check_append(octets, n));
    TIMED("sedge_check_holds", n, 0, 0, 0, (void)!sedge_check_holds(octets, n));
}

static void control_words(void) {
    struct sedge_clcw word = {(uint8_t)below(9), (uint8_t)below(66), any(), (uint8_t)below(5), any()};
    uint8_t it[4] = {1, (uint8_t)(any() & 0xfc), (uint8_t)(any() & 0xfe), any()};
    damage(it, 4);
    TIMED("sedge_clcw_decode", 0, 0, 0, 0, (void)!sedge_clcw_decode(it, 4, &word));
    TIMED("sedge_clcw_encode", 0, 0, 0, 0, (void)!sedge_clcw_encode(&word, out, 4));
}

static void receivers(void) {
    const struct sedge_farm any_one = {(uint8_t)(2 + 2 * below(127)), any(), (uint8_t)below(2), (uint8_t)below(2),
                                       (uint8_t)below(2), (uint8_t)below(4)};
    struct sedge_farm farm = any_one;
    struct sedge_clcw word;
    const uint8_t number = (uint8_t)(below(2) ? farm.vr + below(5) - 2 : below(256));
    const bool is_free = below(2) > 0;
    damage(&farm, sizeof farm);
    TIMED("sedge_farm_control_word", 0, 0, 0, 0, (void)!sedge_farm_control_word(&farm, 2, &word));
    TIMED("sedge_farm_state", 0, 0, 0, 0, (void)!sedge_farm_state(&farm));
    TIMED("sedge_farm_ad", 0, 0, 0, 0, (void)!sedge_farm_ad(&farm, number, is_free));
    farm = any_one;
    TIMED("sedge_farm_bd", 0, 0, 0, 0, (void)!sedge_farm_bd(&farm));
    farm = any_one;
    TIMED("sedge_farm_unlock", 0, 0, 0, 0, (void)!sedge_farm_unlock(&farm));
    farm = any_one;
    TIMED("sedge_farm_set_vr", 0, 0, 0, 0, (void)!sedge_farm_set_vr(&farm, number));
    farm = any_one;
    TIMED("sedge_farm_released", 0, 0, 0, 0, (void)!sedge_farm_released(&farm));
    TIMED("sedge_farm_open", 0, 0, 0, 0, (void)!sedge_farm_open(&farm, any(), number));
}

/* A sender in any state, with any numbers that it can have there. */
static struct sedge_fop sender(void) {
    struct sedge_fop fop = {0};
    uint8_t behind;
    fop.state = (uint8_t)(1 + below(6));
    fop.room = (uint8_t)(1 + below(127));
    fop.window = (uint8_t)(1 + below(fop.room));
    fop.limit = (uint8_t)(below(3) ? 1 + below(3) : 1 + below(255));
    fop.count = (uint8_t)(below(3) ? 1 + below(3) : 1 + below(255));
    fop.timer = (uint16_t)(1 + below(65535));
    fop.vs = any();
    behind = (uint8_t)(below(4) ? below(fop.room + 1u) : 0);
    if ((fop.state == 2 || fop.state == 3) && behind == 0) behind = 1;
    if (fop.state == 4 || fop.state == 5) behind = 0;
    fop.nn = (uint8_t)(fop.vs - behind);
    fop.sent = fop.state <= 3 ? behind : 0;
    fop.due = (uint8_t)below(fop.sent + 1u);
    fop.waiting = fop.state == 6 ? 0 : (uint8_t)below(2);
    fop.control = fop.state == 5 ? (uint8_t)(1 + below(4)) : 0;
    fop.vr = fop.control >= SEDGE_CONTROL_SET_VR_DUE ? fop.vs : 0;
    if (fop.state != 6 && (fop.state != 1 || fop.sent > 0)) fop.ticks = (uint16_t)(1 + below(below(2) ? 2 : 65535));
    if (fop.state == 5 && (fop.control == SEDGE_CONTROL_UNLOCK_DUE || fop.control == SEDGE_CONTROL_SET_VR_DUE)) {
        fop.ticks = (uint16_t)below(2);
    }
    return fop;
}

static void senders(void) {
    const struct sedge_fop any_one = sender();
    struct sedge_fop fop = any_one;
    const struct sedge_clcw word = {0, (uint8_t)(below(9) ? 2 : any()), (uint8_t)(below(8) << 3), 0,
                                    (uint8_t)(below(2) ? fop.nn + below(fop.sent + 3u) - 1 : below(256))};
    uint8_t number;
    TIMED("sedge_fop_clcw", 0, 0, 0, 0, (void)!sedge_fop_clcw(&fop, 2, &word, &number));
    TIMED("sedge_fop_accepted_beyond", 0, 0, 0, 0, (void)!sedge_fop_accepted_beyond(&fop, word.value, &number));
    TIMED("sedge_accepted_beyond", 0, 0, 0, 0, (void)!sedge_accepted_beyond(any(), any(), any(), &number));
    fop = any_one;
    TIMED("sedge_fop_tick", 0, 0, 0, 0, (void)!sedge_fop_tick(&fop));
    fop = any_one;
    TIMED("sedge_fop_next", 0, 0, 0, 0, (void)!sedge_fop_next(&fop, &number));
    fop = any_one;
    TIMED("sedge_fop_submit", 0, 0, 0, 0, (void)!sedge_fop_submit(&fop));
    fop = any_one;
    damage(&fop, sizeof fop);
    TIMED("sedge_fop_directive", 0, 0, 0, 0,
          (void)!sedge_fop_directive(&fop, (uint8_t)below(11), (uint16_t)below(300)));
    fop = any_one;
    damage(&fop, sizeof fop);
    TIMED("sedge_fop_clcw", 0, 0, 0, 0, (void)!sedge_fop_clcw(&fop, 2, &word, &number));
    TIMED("sedge_fop_open", 0, 0, 0, 0, (void)!sedge_fop_open(&fop, any(), any(), any(), (uint16_t)below(65536)));
}

/* Writes a random frame, and returns its octets. */
static size_t put_frame(uint8_t *at, bool is_timed) {
    const struct sedge_tc_frame frame = {(uint16_t)below(1024), (uint8_t)below(64), (uint8_t)below(3), any(),
                                         (uint8_t)below(4),     (uint8_t)below(64), (uint8_t)below(2), any()};
    const size_t n = 1 + up_to(1015);
    struct sedge_tc_frame it = frame;
    size_t total = 0;
    if (it.kind != SEDGE_TC_AD) it.n = 0;
    if (is_timed) {
        TIMED("sedge_tc_encode", it.kind == SEDGE_TC_BC ? 1 : n, 0, 0, 0,
              (void)!sedge_tc_encode(&it, packets, n, true, at, 1024, &total));
    } else {
        (void)!sedge_tc_encode(&it, packets, n, true, at, 1024, &total);
    }
    return total;
}

static void frames(void) {
    struct sedge_tc_frame read;
    struct sedge_part data;
    size_t total = put_frame(octets, true), count = 0, next;
    damage(octets, total < 12 ? total : 12);
    TIMED("sedge_tc_declared", 0, 0, 0, 0, (void)!sedge_tc_declared(octets, total, true, &next));
    TIMED("sedge_tc_decode", total, 0, 0, 0, (void)!sedge_tc_decode(octets, total, true, &read, &data));
    if (below(8)) return;
    for (total = 0; total < 8000 && below(20); total += count) count = put_frame(octets + total, false);
    damage(octets, total < 100 ? total : 100);
    TIMED("sedge_tc_frames", next, 0, 0, count, count = sedge_tc_frames(octets, total, true, out, sizeof out, &next));
}

static void space_packets(void) {
    static struct sedge_gap_check check;
    const size_t count = up_to(below(8) ? 2000 : 65536);
    const struct sedge_packet packet = {(uint16_t)below(2049), (uint16_t)below(16385), (uint8_t)below(2),
                                        (uint8_t)below(2), (uint8_t)below(5)};
    struct sedge_packet read;
    struct sedge_part data;
    size_t total = 0;
    uint16_t missing;
    TIMED("sedge_packet_encode", count, 0, 0, 0,
          (void)!sedge_packet_encode(&packet, memory, count, out, sizeof out, &total));
    damage(out, 6);
    total -= total > 0 && below(9) == 0;
    TIMED("sedge_packet_decode", 0, 0, 0, 0, (void)!sedge_packet_decode(out, total, &read, &data));
    TIMED("sedge_packet_declared", 0, 0, 0, 0, (void)!sedge_packet_declared(out, total, &total));
    TIMED("sedge_gap_check_see", 0, 0, 0, 0,
          (void)!sedge_gap_check_see(&check, (uint16_t)below(9), (uint16_t)below(16384), &missing));
}

/* Packets of random lengths one after another, some of them idle; how many there are is written. */
static size_t put_packets(uint8_t *at, size_t most, size_t longest, size_t *many) {
    size_t put = 0;
    for (*many = 0;; ++*many) {
        const size_t length = 7 + up_to(longest - 7);
        if (put + length > most) return put;
        put_packet(at + put, length);
        if (below(6) == 0) at[put] = 0x07, at[put + 1] = 0xff;
        put += length;
    }
}

/* How many packets the data field of a telemetry frame begins, and one that began before. */
static size_t begun_in(const uint8_t *frame, size_t n) {
    size_t at = (size_t)(frame[4] & 7) << 8 | frame[5], found = 1;
    if (at >= n - 12) return 1;
    for (; at + 6 <= n - 12; found++) at += ((size_t)frame[6 + at + 4] << 8 | frame[6 + at + 5]) + 7;
    return found + (at < n - 12);
}

static struct sedge_tm_builder builder;
static struct sedge_tm_extractor extractor;
static uint8_t waiting_octets[4000], joined[70000];
static size_t waiting_to, length_of_frames;

/* A frame of telemetry of a builder that is anew in some, and given to an extractor. */
static void telemetry(void) {
    struct sedge_tm_frame frame;
    struct sedge_tm_extracted taken = {0, {0, 0}, 0, 0};
    struct sedge_part data, packet;
    size_t n, total, many;
    if (length_of_frames == 0 || below(40) == 0) {
        length_of_frames = 16 + up_to(below(4) ? 240 : 2032);
        TIMED("sedge_tm_builder_open", 0, 0, 0, 0, want(!sedge_tm_builder_open(&builder, 1, 0, length_of_frames)));
        memset(&extractor, 0, sizeof extractor);
        waiting_to = 100 + up_to(3000);
    }
    n = length_of_frames;
    for (int k = 0; k < 3 && below(3); k++) {
        const size_t length = 7 + up_to(below(5) ? 60 : 2500), waiting = builder.count;
        put_packet(packets, length);
        damage(packets, 6);
        TIMED("sedge_tm_builder_queue", length, 0, waiting, 0,
              (void)!sedge_tm_builder_queue(&builder, packets, length, waiting_octets, waiting_to));
    }
    TIMED("sedge_tm_builder_build", n, begun_in(out, n), 0, 0,
          want(!sedge_tm_builder_build(&builder, ocf, 4, waiting_octets, waiting_to, out, n, &total)));
    if (below(9) == 0) damage(out, n);
    TIMED("sedge_tm_decode", n, 0, 0, 0, total = sedge_tm_decode(out, n, n, &frame, &data));
    if (total || below(9) == 0) return;
    many = begun_in(out, n);
    TIMED("sedge_tm_extractor_frame", n - 12, many, taken.joined, 0,
          (void)!sedge_tm_extractor_frame(&extractor, &frame, out + data.from, data.count, joined, sizeof joined,
                                          &taken));
    packet = taken.packets;
    while (sedge_tm_packet(out + data.from, data.count, &packet)) continue;
    packet = taken.packets;
    TIMED("sedge_tm_packet", 0, many, 0, 0, (void)!sedge_tm_packet(out + data.from, data.count, &packet));
    TIMED("sedge_tm_encode", n - 12, 0, 0, 0, (void)!sedge_tm_encode(&frame, packets, n - 12, octets, n, &total));
}

/* Several frames of telemetry, some of them damaged, in one call. */
static void many_telemetry_frames(void) {
    const size_t n = 16 + up_to(below(4) ? 240 : 2032), many = 1 + below(n < 300 ? 20 : 5);
    struct sedge_tm_extractor its = {0, 0, 0, 0};
    struct sedge_tm_builder its_builder;
    size_t total, k, packets_many, found;
    if (below(8)) return;
    want(sedge_tm_builder_open(&its_builder, 1, 0, n) == SEDGE_OK);
    its_builder.count = put_packets(packets, 20000, below(2) ? 30 : 3000, &packets_many);
    for (k = 0; k < many; k++) {
        (void)!sedge_tm_builder_build(&its_builder, ocf, 4, packets, sizeof packets, octets + k * n, n, &total);
    }
    damage(octets, n * many);
    TIMED("sedge_tm_extractor_frames", n * many, 0, total, many,
          found = sedge_tm_extractor_frames(&its, octets, n * many, n, memory, 67578, out, 400, out + 400,
                                            sizeof out - 400, &total));
    want(found <= many);
}

static void maps(void) {
    static struct sedge_map map;
    const struct sedge_limits limits = {1 + (uint32_t)up_to(1015), 7 + (uint32_t)up_to(65535), below(2) > 0};
    const size_t longest = 7 + up_to(below(3) ? 60 : 1009);
    struct sedge_taken taken;
    struct sedge_part packet = {0, 0}, data;
    uint8_t flags = (uint8_t)below(4);
    size_t p, many = 1, count = put_packets(packets, 1016, longest, &p);
    if (flags != 3) count = up_to(count);
    if (below(60) == 0) map = (struct sedge_map){0, 0, below(2) > 0};
    damage(packets, count < 30 ? count : 30);
    TIMED("sedge_map_take", count, flags == 3 ? p : 1, 0, 0,
          (void)!sedge_map_take(&map, flags, packets, count, memory, 3000, &taken));
    TIMED("sedge_map_packet", 0, 0, 0, 0, (void)!sedge_map_packet(packets, count, &packet));
    count = put_packets(packets, 2500, longest, &p);
    damage(packets, count < 30 ? count : 30);
    TIMED("sedge_map_count", 0, p, 0, 0, (void)!sedge_map_count(packets, count, &limits, &many));
    TIMED("sedge_map_segment", 0, p, 0, 0,
          (void)!sedge_map_segment(packets, count, &limits, below((uint32_t)many + 1), &flags, &data));
}

void measure(void) {
    static void (*const all[])(void) = {checks,        control_words, receivers,             senders, frames,
                                        space_packets, telemetry,     many_telemetry_frames, maps};
    memset(octets, 0x5a, sizeof octets);
    for (int k = 0; k < STATES; k++) {
        for (size_t it = 0; it < sizeof all / sizeof all[0]; it++) all[it]();
    }
}
