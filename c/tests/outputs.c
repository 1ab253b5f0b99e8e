/* A program that conforms to the headers: what a call only writes has not been written before, and is used only after
 * the call has answered that it is written. Each call of both headers that writes is here. gcc compiles it together
 * with the libraries (-flto -Wall -Wextra -Werror) in two ways, and has nothing to warn of: as it is; and with
 * -DAPART=, so that calls are compiled into it, and -DHIDDEN, so that gcc does not see where the program itself uses
 * something. What it warned of then would be a library that reads what is not written. Run, the program ends with 0. */
#include "sedgechisel_nodes.h"

#ifdef HIDDEN
#define USED(it) (hidden(&(it)), (size_t)(it))
#else
#define USED(it) ((size_t)(it))
#endif

#ifdef HIDDEN
/* For all that gcc sees, this writes what it is given. */
static void hidden(void *it) {
    __asm__ volatile("" : : "r"(it) : "memory");
}
#endif

static uint8_t packets[3000];

/* ---- The core. ---- */

static size_t words(const uint8_t *octets, size_t count, uint8_t n) {
    struct sedge_clcw word, own;
    struct sedge_farm farm;
    uint8_t out[4];
    size_t sum = 0;
    if (sedge_farm_open(&farm, 10, n) != SEDGE_OK) return 0;
    sum += USED(farm.vr);
    if (sedge_farm_control_word(&farm, 2, &own) != SEDGE_OK) return sum;
    sum += USED(own.value);
    if (sedge_clcw_encode(&own, out, sizeof out) == SEDGE_OK) sum += USED(out[3]);
    if (sedge_clcw_decode(octets, count, &word) == SEDGE_OK) sum += USED(word.value);
    return sum;
}

static size_t sender(const struct sedge_clcw *word, uint8_t value) {
    struct sedge_fop fop;
    uint8_t number, released, accepted, again;
    size_t sum = 0;
    if (sedge_fop_open(&fop, 10, 3, 3, 10) != SEDGE_OK) return 0;
    sum += USED(fop.vs);
    if (sedge_fop_directive(&fop, SEDGE_INIT_WITHOUT_CHECK, 0) != SEDGE_OK || sedge_fop_submit(&fop) != SEDGE_OK) return 0;
    if (sedge_fop_next(&fop, &number) == SEDGE_NEXT_FIRST) sum += USED(number);
    if (sedge_fop_clcw(&fop, 2, word, &released) == SEDGE_NO_ALERT) sum += USED(released);
    if (sedge_fop_accepted_beyond(&fop, value, &accepted) == SEDGE_OK) sum += USED(accepted);
    if (sedge_accepted_beyond(fop.nn, fop.vs, value, &again) == SEDGE_OK) sum += USED(again);
    return sum;
}

static size_t frames(const uint8_t *octets, size_t count) {
    struct sedge_tc_frame frame;
    struct sedge_part data;
    uint8_t out[1024];
    size_t total, declared, several, sum = 0;
    if (sedge_tc_declared(octets, count, true, &declared) == SEDGE_OK) sum += USED(declared);
    if (sedge_tc_frames(octets, count, true, out, sizeof out, &several) > 0) sum += USED(several) + USED(out[0]);
    if (sedge_tc_decode(octets, count, true, &frame, &data) != SEDGE_OK) return sum;
    sum += USED(frame.scid) + USED(data.from);
    if (sedge_tc_encode(&frame, octets + data.from, data.count, true, out, sizeof out, &total) == SEDGE_OK)
        sum += USED(total) + USED(out[0]);
    return sum;
}

static size_t of_packets(const uint8_t *octets, size_t count) {
    struct sedge_packet packet;
    struct sedge_part data, next = {0, 0};
    uint8_t out[64];
    size_t total, declared, sum = 0;
    if (sedge_packet_declared(octets, count, &declared) == SEDGE_OK) sum += USED(declared);
    while (sedge_map_packet(octets, count, &next)) sum += next.count;
    if (sedge_packet_decode(octets, count, &packet, &data) != SEDGE_OK) return sum;
    sum += USED(packet.apid) + USED(data.from);
    if (sedge_packet_encode(&packet, octets + data.from, data.count, out, sizeof out, &total) == SEDGE_OK)
        sum += USED(total) + USED(out[0]);
    return sum;
}

static size_t gaps(uint16_t apid, uint16_t count) {
    struct sedge_gap_check check;
    uint16_t missing;
    sedge_gap_check_open(&check);
    return sedge_gap_check_see(&check, apid, count, &missing) == SEDGE_OK ? USED(missing) : USED(check.last[0]);
}

static size_t told(const struct sedge_log *log) {
    uint8_t octets[27];
    struct sedge_board_status status;
    if (sedge_log_status(log, 3, octets, 27) != SEDGE_OK) return 0;
    if (sedge_log_status_decode(octets, 27, &status) != SEDGE_OK) return USED(octets[0]);
    return USED(octets[26]) + USED(status.kept.boot) + USED(status.mark) + USED(status.kind) + USED(status.waiting);
}

static size_t board(const uint8_t *data, size_t count) {
    const struct sedge_log_order order = {1, 0, 0, SEDGE_LOG_ORDER_RESTART};
    struct sedge_log log;
    struct sedge_part content;
    uint8_t place[50], octets[50], packet[64];
    uint32_t number;
    size_t total, sum = 0;
    uint8_t action;
    if (sedge_log_new_record(place, 50) != SEDGE_OK) return 0;
    sedge_log_start(&log, place, 50, place, 50, 7);
    while ((action = sedge_log_next(&log, octets, 50, &number)) != SEDGE_LOG_NOTHING && action < SEDGE_LOG_EXECUTE)
        if (sedge_log_done(&log, action, number) == SEDGE_OK) sum += USED(octets[0]) + USED(log.stage);
    sum += USED(number) + told(&log);
    if (sedge_log_command_encode(5, 6, 1, data, count, packet, sizeof packet, &total) != SEDGE_OK) return sum;
    sum += USED(total) + USED(packet[0]) + USED(log.kept.last);
    if (sedge_log_offer(&log, packet, total, &content) == SEDGE_OK) sum += USED(content.from) + USED(content.count);
    if (sedge_log_order_encode(&order, 5, 6, packet, sizeof packet, &total) == SEDGE_OK)
        sum += USED(total) + USED(packet[0]) + (size_t)sedge_log_obey(&log, packet, total);
    return sum + USED(log.kept.history) + USED(log.mark);
}

static size_t built(const uint8_t *packet, size_t count) {
    const uint8_t ocf[4] = {1, 0, 0, 0};
    struct sedge_tm_builder builder;
    uint8_t waiting[64], out[64];
    size_t total, sum = 0;
    if (sedge_tm_builder_open(&builder, 1, 1, sizeof out) != SEDGE_OK) return 0;
    sum += USED(builder.next_count);
    if (sedge_tm_builder_queue(&builder, packet, count, waiting, sizeof waiting) == SEDGE_OK) sum += USED(waiting[0]);
    if (sedge_tm_builder_build(&builder, ocf, 4, waiting, sizeof waiting, out, sizeof out, &total) == SEDGE_OK)
        sum += USED(total) + USED(out[0]);
    return sum;
}

static size_t telemetry(const uint8_t *octets, size_t count) {
    struct sedge_tm_frame frame;
    struct sedge_part data;
    uint8_t out[2048];
    size_t total, sum = 0;
    if (sedge_tm_decode(octets, count, count, &frame, &data) != SEDGE_OK) return 0;
    sum += USED(frame.scid) + USED(data.from);
    if (sedge_tm_encode(&frame, octets + data.from, data.count, out, sizeof out, &total) == SEDGE_OK)
        sum += USED(total) + USED(out[0]);
    return sum;
}

static size_t extracted(const struct sedge_tm_frame *frame, const uint8_t *data, size_t count) {
    struct sedge_tm_extractor extractor = {0, 0, 0, 0}, several = {0, 0, 0, 0};
    struct sedge_tm_extracted it;
    uint8_t part[3000], out[190];
    size_t total, sum = 0;
    if (sedge_tm_extractor_frame(&extractor, frame, data, count, part, sizeof part, &it) == SEDGE_OK) {
        struct sedge_part packet;
        sum += USED(it.joined);
        packet = it.packets;
        while (sedge_tm_packet(data, count, &packet)) sum += packet.count;
    }
    if (sedge_tm_extractor_frames(&several, data, count, 64, part, sizeof part, out, sizeof out, packets, sizeof packets,
                                  &total) > 0)
        sum += USED(out[0]);
    return sum + USED(total);
}

static size_t segments(const uint8_t *octets, size_t count, const struct sedge_limits *limits) {
    struct sedge_map map = {0, 0, 0};
    struct sedge_taken taken;
    struct sedge_part data;
    uint8_t flags, part[64];
    size_t many, sum = 0;
    if (sedge_map_count(octets, count, limits, &many) == SEDGE_OK) sum += USED(many);
    if (sedge_map_segment(octets, count, limits, 0, &flags, &data) != SEDGE_OK) return sum;
    sum += USED(flags) + USED(data.count);
    if (sedge_map_take(&map, flags, octets + data.from, data.count, part, sizeof part, &taken) == SEDGE_OK)
        sum += USED(taken.count);
    return sum;
}

/* ---- The nodes. ---- */

static size_t up(struct sedge_ground *ground, struct sedge_spacecraft *spacecraft) {
    struct sedge_received received;
    uint8_t first[1024], frame[1024], map, its_map, packet[300], its_next, second_map, second[300];
    size_t next, seen, count, ready, taken, bypassed, more, sum = 0;
    if (sedge_ground_next(ground, &next) == SEDGE_NODE_OK) sum += USED(next);
    if (sedge_ground_peek(ground, first, sizeof first, &seen) == SEDGE_NODE_OK && USED(seen) > 0) sum += USED(first[0]);
    if (sedge_ground_pull(ground, frame, sizeof frame, &count) != SEDGE_NODE_OK || USED(count) == 0) return sum;
    sum += USED(frame[0]);
    if (sedge_spacecraft_receive(spacecraft, frame, count, &received) == SEDGE_NODE_OK) sum += USED(received.ready);
    if (sedge_spacecraft_next(spacecraft, &map, &ready) == SEDGE_NODE_OK && USED(ready) > 0) sum += USED(map);
    if (sedge_spacecraft_take(spacecraft, &its_map, packet, sizeof packet, &taken) == SEDGE_NODE_OK && USED(taken) > 0)
        sum += USED(its_map) + USED(packet[0]);
    if (sedge_spacecraft_next_bypass(spacecraft, &its_next, &bypassed) == SEDGE_NODE_OK && USED(bypassed) > 0)
        sum += USED(its_next);
    if (sedge_spacecraft_take_bypass(spacecraft, &second_map, second, sizeof second, &more) == SEDGE_NODE_OK &&
        USED(more) > 0)
        sum += USED(second_map) + USED(second[0]);
    return sum;
}

static size_t down(struct sedge_ground *ground, struct sedge_spacecraft *spacecraft) {
    struct sedge_heard heard, word_heard;
    struct sedge_clcw word;
    uint8_t frame[2048], octets[4], packet[300];
    size_t count, next, taken, sum = 0;
    if (sedge_spacecraft_telemetry_frame(spacecraft, frame, sizeof frame, &count) != SEDGE_NODE_OK) return 0;
    sum += USED(count) + USED(frame[0]);
    if (sedge_ground_clcw_in(ground, frame, count, &word) == SEDGE_NODE_OK) {
        sum += USED(word.value);
        if (sedge_clcw_encode(&word, octets, sizeof octets) == SEDGE_OK) sum += USED(octets[0]);
        if (sedge_ground_clcw(ground, frame, 4, &word_heard) == SEDGE_NODE_OK) sum += USED(word_heard.report);
    }
    if (sedge_ground_telemetry(ground, frame, count, &heard) == SEDGE_NODE_OK) sum += USED(heard.packets);
    if (sedge_ground_next_telemetry(ground, &next) == SEDGE_NODE_OK) sum += USED(next);
    if (sedge_ground_take_telemetry(ground, packet, sizeof packet, &taken) == SEDGE_NODE_OK && USED(taken) > 0)
        sum += USED(packet[0]);
    return sum;
}

static size_t readings(struct sedge_ground *ground, struct sedge_spacecraft *spacecraft, uint8_t value) {
    struct sedge_ground_reading read;
    struct sedge_spacecraft_reading board;
    uint8_t accepted;
    uint64_t known, whole;
    size_t sum = 0;
    if (sedge_ground_read(ground, &read) == SEDGE_NODE_OK) sum += USED(read.outstanding);
    if (sedge_spacecraft_read(spacecraft, &board) == SEDGE_NODE_OK) sum += USED(board.ready);
    if (sedge_ground_accepted_beyond(ground, value, &accepted) == SEDGE_NODE_OK) sum += USED(accepted);
    if (sedge_ground_known_on_board(ground, value, &known) == SEDGE_NODE_OK) sum += USED(known);
    if (sedge_ground_resume(ground, value, &whole) == SEDGE_NODE_OK) sum += USED(whole);
    return sum;
}

static size_t linked(struct sedge_sim *sim, const struct sedge_event *event) {
    struct sedge_reply reply;
    struct sedge_sim_reading read;
    struct sedge_ground_reading ground;
    struct sedge_spacecraft_reading board;
    uint8_t octets[2048];
    size_t count, sum = 0;
    if (sedge_sim_step(sim, event, &reply) == SEDGE_NODE_OK) sum += USED(reply.kind);
    if (sedge_sim_octets(sim, octets, sizeof octets, &count) == SEDGE_NODE_OK && USED(count) > 0) sum += USED(octets[0]);
    if (sedge_sim_read(sim, &read) == SEDGE_NODE_OK) sum += USED(read.outstanding);
    if (sedge_sim_ground_read(sim, &ground) == SEDGE_NODE_OK) sum += USED(ground.outstanding);
    if (sedge_sim_spacecraft_read(sim, &board) == SEDGE_NODE_OK) sum += USED(board.ready);
    return sum;
}

static size_t records(struct sedge_sim *sim) {
    uint8_t map, its_map, submitted[300], entry[300];
    size_t many, length, total, entries, entry_length, entry_count, sum = 0;
    if (sedge_sim_submissions(sim, &many) == SEDGE_NODE_OK) sum += USED(many);
    if (sedge_sim_submission_length(sim, 0, &map, &length) == SEDGE_NODE_OK) sum += USED(map) + USED(length);
    if (sedge_sim_submission(sim, 0, &its_map, submitted, sizeof submitted, &total) == SEDGE_NODE_OK)
        sum += USED(its_map) + USED(total) + USED(submitted[0]);
    if (sedge_sim_count(sim, SEDGE_SUBMITTED, 4, &entries) == SEDGE_NODE_OK) sum += USED(entries);
    if (sedge_sim_entry_length(sim, SEDGE_SUBMITTED, 4, 0, &entry_length) == SEDGE_NODE_OK) sum += USED(entry_length);
    if (sedge_sim_entry(sim, SEDGE_SUBMITTED, 4, 0, entry, sizeof entry, &entry_count) == SEDGE_NODE_OK)
        sum += USED(entry_count) + USED(entry[0]);
    return sum;
}

/* What a commander's calls write, and a status that comes to it. */
static size_t commands(struct sedge_commander *commander, const uint8_t *status, size_t count) {
    struct sedge_commander_action action;
    struct sedge_commander_reading read;
    struct sedge_ground_reading ground;
    struct sedge_heard heard, word_heard;
    uint8_t frame[1024], octets[300], fresh[300], packet[300], progress;
    uint32_t number;
    size_t due, total, next, taken, sum = 0;
    if (sedge_commander_command(commander, 7, 4, 5, 6, status, count, &number) == 0) sum += USED(number);
    if (sedge_commander_next(commander, &action, frame, sizeof frame) == 0) sum += USED(action.kind) + USED(action.count);
    if (sedge_commander_unstored(commander, octets, sizeof octets, &due) == 0 && USED(due) > 0) sum += USED(octets[0]);
    if (sedge_commander_stored(commander, due) == 0) sum += due;
    if (sedge_commander_fresh(commander, fresh, sizeof fresh, &total) == 0) sum += USED(total) + USED(fresh[0]);
    if (sedge_commander_progress(commander, 1, &progress) == 0) sum += USED(progress);
    if (sedge_commander_telemetry(commander, status, count, &heard) == 0) sum += USED(heard.kind);
    if (sedge_commander_clcw(commander, status, 4, &word_heard) == 0) sum += USED(word_heard.report);
    if (sedge_commander_next_telemetry(commander, &next) == 0) sum += USED(next);
    if (sedge_commander_take_telemetry(commander, packet, sizeof packet, &taken) == 0 && USED(taken) > 0)
        sum += USED(packet[0]);
    if (sedge_commander_read(commander, &read) == 0) sum += USED(read.below) + USED(read.highest) + USED(read.worth);
    if (sedge_commander_read_ground(commander, &ground) == 0) sum += USED(ground.outstanding);
    return sum + (size_t)sedge_commander_status(commander, status, count);
}

static size_t nodes(const uint8_t *packet, size_t count) {
    struct sedge_config config;
    struct sedge_ground ground = {0};
    struct sedge_spacecraft spacecraft = {0};
    struct sedge_sim sim = {0};
    struct sedge_event event = {0, 0, 0, 0, 0, 0};
    struct sedge_commander commander = {0};
    const struct sedge_mission mission = {2, 6, 7, 0, 0};
    size_t good, sum = 0;
    sedge_config_default(&config);
    sum += USED(config.scid);
    event.kind = SEDGE_EVENT_SUBMIT;
    event.map = 4;
    event.octets = packet;
    event.count = count;
    if (sedge_ground_open(&ground, &config) == SEDGE_NODE_OK && sedge_spacecraft_open(&spacecraft, &config) == SEDGE_NODE_OK &&
        sedge_ground_init_without_check(&ground) == SEDGE_NODE_OK &&
        sedge_ground_submit(&ground, 4, packet, count) == SEDGE_NODE_OK)
        sum += up(&ground, &spacecraft) + down(&ground, &spacecraft) + readings(&ground, &spacecraft, 1);
    if (sedge_sim_open(&sim, &config) == SEDGE_NODE_OK) sum += linked(&sim, &event) + records(&sim);
    if (sedge_commander_open(&commander, &config, &mission, packet, count, &good) == 0)
        sum += USED(good) + commands(&commander, packet, count);
    sedge_commander_close(&commander);
    sedge_sim_close(&sim);
    sedge_spacecraft_close(&spacecraft);
    sedge_ground_close(&ground);
    return sum;
}

int main(int argc, char **argv) {
    const uint8_t packet[] = {0x18, 0x01, 0xc0, 0, 0, 0, (uint8_t)argc};
    const uint8_t frame[] = {0, 1, 8, 14, 0, 0xc4, 0x10, 5, 0xc0, 0, 0, 0, 0xaa, 0xe7, 0x5d};
    const struct sedge_limits limits = {249, 1024, 0};
    const struct sedge_clcw word = {0, 2, 0, 0, (uint8_t)argc};
    const struct sedge_tm_frame its = {1, 0, 1, 0, 0, {1, 0, 0, 0}};
    size_t sum = 0;
    (void)argv;
    sum += words(packet, 4, 3) + sender(&word, 1) + frames(frame, sizeof frame) + of_packets(packet, sizeof packet);
    sum += gaps(5, 6) + board(packet, sizeof packet) + built(packet, sizeof packet) + telemetry(frame, sizeof frame);
    sum += extracted(&its, packet, sizeof packet) + segments(packet, sizeof packet, &limits);
    sum += nodes(packet, sizeof packet);
    return sum > 0 ? 0 : 1;
}
