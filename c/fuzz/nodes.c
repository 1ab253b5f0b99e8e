/* libFuzzer: both nodes, the simulated link, and a commander with a board, by a list of calls in octets, with memory
 * refused where the input says. All memory is let go of at the end. A call that answers that there was no memory left
 * the node as it was, and none answers so unless memory was refused. What is delivered over the simulated link is no
 * more than what was submitted. */
#include "octets.h"
#include "sedgechisel_memory.h"
#include "sedgechisel_nodes.h"

/* ---- Memory, of which the next 32 requests are refused where their bit is set. ---- */

static long places;
static uint32_t refuse;
static bool refused;

static bool is_refused(void) {
    bool is = refuse & 1;
    refuse >>= 1;
    refused = refused || is;
    return is;
}

struct sedge_place rattle_alloc(size_t count, size_t align) {
    struct sedge_place place = {false, &places};
    WANT(align <= 8 && (align & (align - 1)) == 0);
    if (is_refused()) return place;
    place.at = room_of(count, 0xa5);
    place.found = true;
    places++;
    return place;
}

struct sedge_place rattle_realloc(void *at, size_t kept, size_t count, size_t align) {
    struct sedge_place place = rattle_alloc(count, align);
    WANT(kept <= count);
    if (!place.found) return place;
    memcpy(place.at, at, kept);
    rattle_dealloc(at);
    return place;
}

void rattle_dealloc(void *at) {
    WANT(at != NULL && at != (void *)&places);
    places--;
    free(at);
}

static void refuse_by(struct in *i, uint8_t op) {
    refused = false;
    refuse = op & 0x80 ? 1U << (in8(i) & 31) : 0;
}

/* ---- What calls are given. ---- */

static struct sedge_config config_of(struct in *i) {
    struct sedge_config c;
    uint8_t k = in8(i);
    sedge_config_default(&c);
    c.width = 2U + 2 * (in8(i) % 127);
    c.window = 1 + in8(i) % (c.width / 2);
    c.limit = 1 + in8(i) % 5;
    c.timer = 1 + in8(i) % 5;
    c.part = k & 1 ? 1 + in8(i) % 40 : 1016;
    c.max_packet = k & 2 ? 7 + in8(i) % 100 : 65542;
    c.maps = k & 4 ? in8(i) : ~0ULL;
    c.ready_slots = k & 16 ? 200 : 1 + in8(i) % 4;
    c.bypass_slots = 1 + in8(i) % 4;
    c.queue_slots = 1 + in8(i);
    c.frame_length = 16 + in8(i) % 80;
    c.blocking = k >> 3 & 1;
    if (k == 255) (void)sedge_config_set(&c, in8(i) % 17, in16(i));
    return c;
}

static void put_length(uint8_t *packet, size_t count) {
    packet[4] = (uint8_t)((count - 7) >> 8);
    packet[5] = (uint8_t)(count - 7);
}

/* One packet, or two, or any octets. */
static uint8_t *packets_of(struct in *i, size_t *count) {
    uint8_t k = in8(i);
    size_t n = 7 + (k & 0x40 ? in16(i) % 3000U : in8(i) % 60U), half;
    uint8_t *o = in_octets(i, n);
    if (k & 15) {
        o[0] &= 0x17;
        o[1] &= 0x7f;
        put_length(o, n);
    }
    if (!(k & 32)) o[0] |= 0x10;
    if ((k & 0x90) == 0x90 && n >= 14) {
        half = 7 + in8(i) % (n - 13);
        put_length(o, half);
        o[half] = 0x10;
        o[half + 1] = 1;
        put_length(o + half, n - half);
    }
    *count = n;
    return o;
}

/* A frame on its way: as it is, or with an octet changed, and then at times with its check set anew; none if it is lost. */
static uint8_t *on_its_way(struct in *i, const uint8_t *frame, size_t count) {
    uint8_t k = in8(i), *o;
    if (count == 0 || (k & 6) == 6) return NULL;
    o = room_of(count, 0);
    memcpy(o, frame, count);
    if ((k & 24) == 24) {
        o[in16(i) % count] ^= in8(i);
        if (k & 32) (void)!sedge_check_append(o, count);
    }
    return o;
}

/* ---- Both nodes. ---- */

struct link {
    struct sedge_config config;
    struct sedge_ground ground;
    struct sedge_spacecraft spacecraft;
};

static uint8_t out[65542];

/* Field by field, since a struct has octets between its fields. */
#define SAME(f) (a.f == b.f)

static void same_ground(struct sedge_ground_reading a, struct sedge_ground_reading b) {
    WANT(SAME(submitted) && SAME(sent_whole) && SAME(acknowledged_whole) && SAME(outstanding) && SAME(unsent));
    WANT(SAME(due) && SAME(bypassed) && SAME(ticks) && SAME(state) && SAME(vs) && SAME(nn) && SAME(count));
}

static void same_board(struct sedge_spacecraft_reading a, struct sedge_spacecraft_reading b) {
    WANT(SAME(ready) && SAME(bypassed) && SAME(flags) && SAME(farm_b) && SAME(value) && SAME(state));
    WANT(SAME(mc_count) && SAME(vc_count));
}

/* A packet is submitted, once or many times; the answer is that of a single one. */
static uint8_t submits(struct link *l, struct in *i) {
    uint8_t k = in8(i), answer = 0;
    size_t count, often = k & 0x80 ? in8(i) : 1;
    uint8_t *o = packets_of(i, &count);
    for (; often > 0 && answer == 0; often--)
        answer = k & 0x40 ? sedge_ground_bypass(&l->ground, k & 63, o, count)
                          : sedge_ground_submit(&l->ground, k & 63, o, count);
    free(o);
    return k & 0x80 ? 0 : answer;
}

static void directs(struct link *l, struct in *i) {
    uint8_t d = in8(i);
    (void)!sedge_ground_directive(&l->ground, d % 11, d & 0x80 ? in16(i) : in8(i));
}

/* Octets arrive on board, which says what they are or that there was no memory, and is as it was then. */
static void arrives(struct link *l, const uint8_t *octets, size_t count) {
    struct sedge_spacecraft_reading before, after;
    struct sedge_received received;
    WANT(sedge_spacecraft_read(&l->spacecraft, &before) == SEDGE_NODE_OK);
    if (sedge_spacecraft_receive(&l->spacecraft, octets, count, &received) != SEDGE_NODE_MEMORY) return;
    WANT(refused && sedge_spacecraft_read(&l->spacecraft, &after) == SEDGE_NODE_OK);
    same_board(before, after);
}

static void goes_up(struct link *l, struct in *i) {
    uint8_t k = in8(i), *o;
    size_t want, n;
    WANT(sedge_ground_next(&l->ground, &want) == SEDGE_NODE_OK);
    if (want > 0) WANT(sedge_ground_pull(&l->ground, out, want - 1, &n) == SEDGE_NODE_ROOM);
    if (k & 1) WANT(sedge_ground_pull(&l->ground, out, sizeof out, &n) == SEDGE_NODE_OK);
    else {
        WANT(sedge_ground_peek(&l->ground, out, sizeof out, &n) == SEDGE_NODE_OK);
        WANT(sedge_ground_advance(&l->ground) == SEDGE_NODE_OK);
    }
    WANT(n == want);
    o = on_its_way(i, out, n);
    if (o) arrives(l, o, n);
    free(o);
}

static void any_frame(struct link *l, struct in *i) {
    size_t n = in16(i) % 1030U;
    uint8_t *o = in_octets(i, n);
    if (n > 7 && in8(i) & 1) {
        o[0] &= 0x30;
        o[1] = 1;
        o[2] = (uint8_t)(2 << 2 | (n - 1) >> 8);
        o[3] = (uint8_t)(n - 1);
        (void)!sedge_check_append(o, n);
    }
    arrives(l, o, n);
    free(o);
}

static uint8_t comes_down(struct link *l, struct in *i) {
    struct sedge_heard heard;
    struct sedge_clcw word;
    size_t n;
    uint8_t *o, answer = 0;
    WANT(sedge_spacecraft_telemetry_frame(&l->spacecraft, out, sizeof out, &n) == SEDGE_NODE_OK);
    WANT(n == l->config.frame_length);
    o = on_its_way(i, out, n);
    if (o) {
        (void)!sedge_ground_clcw_in(&l->ground, o, n, &word);
        answer = sedge_ground_telemetry(&l->ground, o, n, &heard);
    }
    free(o);
    return answer;
}

static void any_word(struct link *l, struct in *i) {
    struct sedge_heard heard;
    size_t n = in8(i) % 6U;
    uint8_t *o = in_octets(i, n);
    if (n == 4 && in8(i) & 1) {
        o[0] = 1;
        o[1] = 8;
        o[2] &= 0x3e;
    }
    (void)!sedge_ground_clcw(&l->ground, o, n, &heard);
    free(o);
}

static void queues(struct link *l, struct in *i) {
    uint8_t k = in8(i);
    size_t n, often = k & 0x80 ? in8(i) : 1;
    uint8_t *o = packets_of(i, &n);
    for (; often > 0; often--) (void)!sedge_spacecraft_telemetry(&l->spacecraft, o, n);
    free(o);
}

static void takes(struct link *l, struct in *i) {
    size_t want, n;
    uint8_t k = in8(i), map;
    for (int many = k & 0x80 ? 200 : 1; many > 0; many--) {
        WANT(sedge_spacecraft_next(&l->spacecraft, &map, &want) == SEDGE_NODE_OK);
        WANT(sedge_spacecraft_take(&l->spacecraft, &map, out, sizeof out, &n) == SEDGE_NODE_OK && n == want);
        WANT(sedge_spacecraft_next_bypass(&l->spacecraft, &map, &want) == SEDGE_NODE_OK);
        WANT(sedge_spacecraft_take_bypass(&l->spacecraft, &map, out, sizeof out, &n) == SEDGE_NODE_OK && n == want);
        WANT(sedge_ground_next_telemetry(&l->ground, &want) == SEDGE_NODE_OK);
        WANT(sedge_ground_take_telemetry(&l->ground, out, sizeof out, &n) == SEDGE_NODE_OK && n == want);
    }
}

static void asks(struct link *l, struct in *i) {
    uint64_t whole;
    uint8_t value = in8(i), accepted;
    (void)!sedge_ground_known_on_board(&l->ground, value, &whole);
    (void)!sedge_ground_accepted_beyond(&l->ground, value, &accepted);
    (void)!sedge_ground_resume(&l->ground, value, &whole);
}

/* Another ground is opened at what was kept of this one, and the same is kept of it; or at a record with an octet changed,
 * which is refused, or is what is kept of the ground that it opens. */
static void fails_over(struct link *l, struct in *i, bool changed) {
    struct sedge_kept_ground kept, again;
    uint8_t answer;
    WANT(sedge_ground_kept(&l->ground, &kept) == SEDGE_NODE_OK);
    if (changed) ((uint8_t *)&kept)[in8(i) % offsetof(struct sedge_kept_ground, zeros)] ^= in8(i);
    answer = sedge_ground_open_kept(&l->ground, &l->config, &kept);
    WANT(answer == SEDGE_NODE_OK || (answer == SEDGE_NODE_MEMORY && refused) || changed);
    if (answer != SEDGE_NODE_OK) return;
    WANT(sedge_ground_kept(&l->ground, &again) == SEDGE_NODE_OK);
    WANT(memcmp(&kept, &again, offsetof(struct sedge_kept_ground, zeros)) == 0);
}

/* A node is opened anew: where there is no memory for it, the old one stays. */
static void reopens(struct link *l, struct in *i) {
    struct sedge_spacecraft_reading kept;
    uint8_t k = in8(i);
    WANT(sedge_spacecraft_read(&l->spacecraft, &kept) == SEDGE_NODE_OK);
    if (k & 1) (void)!sedge_spacecraft_open_kept(&l->spacecraft, &l->config, &kept);
    else if (k & 2) fails_over(l, i, (k & 12) == 0);
    else (void)!sedge_ground_open(&l->ground, &l->config);
}

static uint8_t step(struct link *l, struct in *i, uint8_t op) {
    switch (op % 16) {
    case 0: case 1: return submits(l, i);
    case 2: directs(l, i); return 0;
    case 3: case 4: case 5: goes_up(l, i); return 0;
    case 6: any_frame(l, i); return 0;
    case 7: case 8: return comes_down(l, i);
    case 9: any_word(l, i); return 0;
    case 10: (void)!sedge_ground_tick(&l->ground); return 0;
    case 11: queues(l, i); return 0;
    case 12: takes(l, i); return 0;
    case 13: asks(l, i); return 0;
    case 14: (void)!sedge_ground_forget_telemetry(&l->ground); return 0;
    default: reopens(l, i); return 0;
    }
}

static void nodes(struct in *i) {
    struct link l = {.ground = {0}, .spacecraft = {0}};
    struct sedge_ground_reading before, after;
    l.config = config_of(i);
    if (sedge_ground_open(&l.ground, &l.config) == SEDGE_NODE_OK &&
        sedge_spacecraft_open(&l.spacecraft, &l.config) == SEDGE_NODE_OK) {
        for (int left = 400; i->left && left > 0; left--) {
            uint8_t op = in8(i);
            WANT(sedge_ground_read(&l.ground, &before) == SEDGE_NODE_OK);
            refuse_by(i, op);
            if (step(&l, i, op) == SEDGE_NODE_MEMORY) {
                WANT(refused && sedge_ground_read(&l.ground, &after) == SEDGE_NODE_OK);
                same_ground(before, after);
            }
            refuse = 0;
        }
    }
    sedge_ground_close(&l.ground);
    sedge_spacecraft_close(&l.spacecraft);
}

/* ---- The simulated link. ---- */

/* Reads all that there is to read; what is delivered is a beginning of what was submitted, so no more than that. */
static void reads(struct sedge_sim *sim, uint8_t map, bool is_blocking) {
    struct sedge_sim_reading it;
    struct sedge_ground_reading ground;
    struct sedge_spacecraft_reading board;
    size_t submissions, entries[6] = {0}, n;
    WANT(sedge_sim_read(sim, &it) == SEDGE_NODE_OK && sedge_sim_ground_read(sim, &ground) == SEDGE_NODE_OK);
    WANT(sedge_sim_spacecraft_read(sim, &board) == SEDGE_NODE_OK);
    WANT(sedge_sim_submissions(sim, &submissions) == SEDGE_NODE_OK);
    for (size_t k = 0; k <= submissions && k < 4; k++) {
        (void)!sedge_sim_submission_length(sim, k, &map, &n);
        (void)!sedge_sim_submission(sim, k, &map, out, sizeof out, &n);
    }
    for (uint8_t record = 0; record < 6; record++) {
        (void)!sedge_sim_count(sim, record, map, &entries[record]);
        for (size_t k = 0; k <= entries[record] && k < 4; k++) {
            (void)!sedge_sim_entry_length(sim, record, map, k, &n);
            (void)!sedge_sim_entry(sim, record, map, k, out, sizeof out, &n);
        }
    }
    if (it.clean && !is_blocking) WANT(entries[SEDGE_DELIVERED] <= entries[SEDGE_SUBMITTED]);
}

static void happens(struct sedge_sim *sim, struct in *i, uint8_t k) {
    struct sedge_event event = {.kind = k % 20, .octets = NULL};
    struct sedge_reply reply;
    size_t n = 0;
    uint8_t *o, answer;
    if (event.kind == SEDGE_EVENT_DIRECTIVE) {
        event.directive = in8(i) % 11;
        event.value = in16(i) % 300;
    }
    if (event.kind == SEDGE_EVENT_RESUME) event.value = in8(i);
    if (event.kind == 1 || event.kind == 2 || event.kind == 15) {
        event.map = in8(i) & 3;
        o = packets_of(i, &n);
    } else {
        n = event.kind == 7 || event.kind == 11 ? in8(i) : 0;
        o = in_octets(i, n);
    }
    event.octets = o;
    event.count = n;
    refuse_by(i, k);
    answer = sedge_sim_step(sim, &event, &reply);
    if (answer == SEDGE_SIM_MEMORY) WANT(refused);
    refuse = 0;
    free(o);
    if (answer == SEDGE_NODE_OK && (reply.kind == SEDGE_REPLY_SENT || reply.kind == SEDGE_REPLY_PACKET))
        WANT(sedge_sim_octets(sim, out, sizeof out, &n) == SEDGE_NODE_OK && n == reply.count);
}

static void linked(struct in *i) {
    struct sedge_sim sim = {0};
    struct sedge_config config = config_of(i);
    if (sedge_sim_open(&sim, &config) != SEDGE_NODE_OK) return;
    for (int left = 400; i->left && left > 0; left--) {
        uint8_t k = in8(i);
        if (k == 19) reads(&sim, in8(i) & 3, config.blocking);
        else happens(&sim, i, k);
    }
    sedge_sim_close(&sim);
}

/* ---- A commander with a board. ---- */

struct commanded {
    struct link l;
    struct sedge_mission mission;
    struct sedge_commander commander;
    struct sedge_log log;
    uint8_t places[2][50], store[65536];
    size_t stored;
};

/* A call that may want memory: it answers so only if some was refused, and the commander is then as it was. */
static uint8_t asked(struct commanded *c, uint8_t answer, const struct sedge_commander_reading *before) {
    struct sedge_commander_reading a = *before, b;
    if (answer != SEDGE_LEDGER_MEMORY) return answer;
    WANT(refused && sedge_commander_read(&c->commander, &b) == SEDGE_NODE_OK);
    WANT(SAME(below) && SAME(highest) && SAME(worth));
    return answer;
}

/* The board's next action, of which nothing is cut off; a board that restarts has what is at its places. */
static void board_acts(struct commanded *c) {
    uint32_t number;
    uint8_t octets[50], action = sedge_log_next(&c->log, octets, sizeof octets, &number), map;
    struct sedge_part content;
    size_t n;
    if (action == SEDGE_LOG_NOTHING) {
        WANT(sedge_spacecraft_take_bypass(&c->l.spacecraft, &map, out, sizeof out, &n) == SEDGE_NODE_OK);
        if (n > 0) (void)!sedge_log_obey(&c->log, out, n);
        WANT(sedge_spacecraft_take(&c->l.spacecraft, &map, out, sizeof out, &n) == SEDGE_NODE_OK);
        if (n > 0) (void)!sedge_log_offer(&c->log, out, n, &content);
        return;
    }
    if (action == SEDGE_LOG_WRITE_FIRST || action == SEDGE_LOG_WRITE_SECOND)
        memcpy(c->places[action - SEDGE_LOG_WRITE_FIRST], octets, sizeof octets);
    if (action == SEDGE_LOG_RESTART) sedge_log_start(&c->log, c->places[0], 50, c->places[1], 50, 9);
    else WANT(sedge_log_done(&c->log, action, number) == SEDGE_OK);
}

static void restarts(struct commanded *c, struct in *i) {
    uint8_t k = in8(i);
    if (k & 1) c->places[0][(k >> 2) % 50] ^= 1;
    if (k & 2) c->places[1][k >> 2 & 31] ^= 1;
    sedge_log_start(&c->log, c->places[0], 50, c->places[1], 50, k);
}

static uint8_t says(struct commanded *c, struct in *i) {
    uint8_t packet[33] = {0, 2, 0xc0, 0, 0, 26}, k = in8(i);
    WANT(sedge_log_status(&c->log, k >> 4, packet + 6, 27) == SEDGE_OK);
    if (k & 1) return sedge_commander_status(&c->commander, packet + 6, k & 2 ? 27 : in8(i) % 28);
    (void)!sedge_spacecraft_telemetry(&c->l.spacecraft, packet, sizeof packet);
    return 0;
}

static uint8_t frame_comes(struct commanded *c, struct in *i) {
    struct sedge_heard heard;
    size_t n;
    uint8_t *o, answer = 0, word[4] = {1, 8, 0, 0};
    WANT(sedge_spacecraft_telemetry_frame(&c->l.spacecraft, out, sizeof out, &n) == SEDGE_NODE_OK);
    o = on_its_way(i, out, n);
    if (o) answer = sedge_commander_telemetry(&c->commander, o, n, &heard);
    else (void)!sedge_commander_clcw(&c->commander, word, in8(i) & 7 ? 4 : 3, &heard);
    free(o);
    return answer;
}

static uint8_t is_given(struct commanded *c, struct in *i) {
    uint32_t number;
    uint8_t k = in8(i);
    size_t n = k & 0x40 ? in16(i) % 3000U : in8(i) % 60U;
    uint8_t *o = in_octets(i, n);
    uint8_t answer = sedge_commander_command(&c->commander, n, k & 7, (uint16_t)(k << 3), k, o, n, &number);
    free(o);
    return answer;
}

/* The store has what is due; beyond its end nothing is stored. */
static uint8_t is_stored(struct commanded *c, size_t due) {
    size_t n = 0;
    if (due > sizeof c->store - c->stored) return 0;
    if (due > 0) WANT(sedge_commander_unstored(&c->commander, c->store + c->stored, due - 1, &n) == SEDGE_LEDGER_ROOM);
    WANT(sedge_commander_unstored(&c->commander, c->store + c->stored, due, &n) == SEDGE_NODE_OK && n == due);
    c->stored += n;
    return sedge_commander_stored(&c->commander, n);
}

static uint8_t ground_acts(struct commanded *c, struct in *i) {
    struct sedge_commander_action action;
    size_t n, want;
    uint8_t *o, answer;
    WANT(sedge_commander_next(&c->commander, &action, out, 1023) == SEDGE_LEDGER_ROOM);
    answer = sedge_commander_next(&c->commander, &action, out, sizeof out);
    if (answer != SEDGE_NODE_OK) return answer;
    switch (action.kind) {
    case SEDGE_COMMANDER_NOTHING: case SEDGE_COMMANDER_ALERT: return 0;
    case SEDGE_COMMANDER_STORE: return is_stored(c, action.count);
    case SEDGE_COMMANDER_TELEMETRY:
        WANT(sedge_commander_next_telemetry(&c->commander, &want) == SEDGE_NODE_OK && want > 0);
        WANT(sedge_commander_take_telemetry(&c->commander, out, want - 1, &n) == SEDGE_LEDGER_ROOM);
        return sedge_commander_take_telemetry(&c->commander, out, sizeof out, &n);
    case SEDGE_COMMANDER_SEND:
        o = on_its_way(i, out, action.count);
        if (o) arrives(&c->l, o, action.count);
        free(o);
        return 0;
    default: return sedge_commander_told(&c->commander, &action);
    }
}

/* The commander is opened at its store, or at one that is cut off or changed, of which a beginning is good. */
static uint8_t reopened(struct commanded *c, struct in *i) {
    uint8_t k = in8(i);
    size_t count = k & 1 ? in16(i) % (c->stored + 1) : c->stored, good = 0;
    uint8_t answer;
    if (k & 2 && count > 0) c->store[in16(i) % count] ^= in8(i);
    answer = sedge_commander_open(&c->commander, &c->l.config, &c->mission, c->store, count, &good);
    if (answer != SEDGE_NODE_OK) return answer;
    WANT(good <= count);
    c->stored = good;
    return 0;
}

static uint8_t renewed(struct commanded *c) {
    size_t n = 0;
    uint8_t answer = sedge_commander_fresh(&c->commander, out, sizeof out, &n);
    if (answer != SEDGE_NODE_OK) return answer;
    memcpy(c->store, out, c->stored = n);
    return sedge_commander_renewed(&c->commander, n);
}

static uint8_t operated(struct commanded *c, struct in *i) {
    struct sedge_ground_reading read;
    uint8_t k = in8(i), progress;
    (void)!sedge_commander_progress(&c->commander, k >> 3, &progress);
    WANT(sedge_commander_read_ground(&c->commander, &read) == SEDGE_NODE_OK);
    switch (k & 7) {
    case 0: return sedge_commander_pause(&c->commander);
    case 1: return sedge_commander_restart_board(&c->commander);
    case 2: return sedge_commander_rebuild(&c->commander);
    default: return sedge_commander_go_on(&c->commander);
    }
}

static uint8_t commander_step(struct commanded *c, struct in *i, uint8_t op) {
    switch (op % 16) {
    case 0: return is_given(c, i);
    case 1: return says(c, i);
    case 2: return frame_comes(c, i);
    case 3: case 4: case 5: case 6: return ground_acts(c, i);
    case 7: case 8: case 9: board_acts(c); return 0;
    case 10: case 11: return sedge_commander_tick(&c->commander);
    case 12: restarts(c, i); return 0;
    case 13: return reopened(c, i);
    case 14: return renewed(c);
    default: return operated(c, i);
    }
}

static void commands(struct in *i) {
    static struct commanded c;
    struct sedge_commander_reading before;
    memset(&c, 0, sizeof c);
    c.l.config = config_of(i);
    c.mission = (struct sedge_mission){in8(i) % 6, 6, 2, 0, in8(i) & 1};
    WANT(sedge_log_new_record(c.places[0], 50) == SEDGE_OK);
    memcpy(c.places[1], c.places[0], 50);
    sedge_log_start(&c.log, c.places[0], 50, c.places[1], 50, 8);
    if (sedge_spacecraft_open(&c.l.spacecraft, &c.l.config) == SEDGE_NODE_OK && reopened(&c, i) == SEDGE_NODE_OK) {
        for (int left = 600; i->left && left > 0; left--) {
            uint8_t op = in8(i);
            WANT(sedge_commander_read(&c.commander, &before) == SEDGE_NODE_OK);
            refuse_by(i, op);
            (void)asked(&c, commander_step(&c, i, op), &before);
            refuse = 0;
        }
    }
    sedge_commander_close(&c.commander);
    sedge_spacecraft_close(&c.l.spacecraft);
}

int LLVMFuzzerTestOneInput(const uint8_t *data, size_t size) {
    struct in i = {data, size};
    uint8_t k = in8(&i);
    places = 0;
    refuse_by(&i, (uint8_t)(k << 6));
    if (k >= 0xf0) commands(&i);
    else if (k & 1) nodes(&i);
    else linked(&i);
    refuse = 0;
    WANT(places == 0);
    return 0;
}
