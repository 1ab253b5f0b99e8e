/* Random calls of libsedgechisel_nodes: `random_nodes COUNT`. Each call answers with one of its numbers; one that
 * refuses has written nothing and left the node as it was, as far as it is read; and one that writes octets has written
 * those that it says. What is taken out was put in: packets past the sequence control and of telemetry, and on board
 * those of one segment; of the link each submission, and in a session with an idle start each packet delivered. What a
 * ground says of its submissions, and where a session goes on, is as it was counted. Octets end where a page begins
 * that may not be touched. One allocation in some is refused, and only a call during which one was answers that there
 * was no memory. Ends with 0 where all is as wanted and all memory is given back, and says what is not. */
#define _DEFAULT_SOURCE
#include "memory.h"
#include "none.h"
#include <sedgechisel_nodes.h>
#include <stdio.h>
#include <stdlib.h>
#include <string.h>
#include <sys/mman.h>
#include <unistd.h>

enum { MOST = 65536 + 4096, REGIONS = 2 };

static int failures;

#define WANT(holds)                                                                                                    \
    do {                                                                                                               \
        if (!(holds) && failures++ < 20) printf("%s:%d: not so: %s\n", __FILE__, __LINE__, #holds);                    \
    } while (0)

static uint64_t state = 0x9e3779b97f4a7c15u;

/* A number below the limit (xorshift64*, Marsaglia and Vigna). */
static uint32_t below(uint32_t limit) {
    state ^= state >> 12;
    state ^= state << 25;
    state ^= state >> 27;
    return (uint32_t)((state * 2685821657736338717u) >> 33) % limit;
}

/* ---- Memory. ---- */

static bool is_refused(void) {
    return below(64) == 0;
}

/* The allocations that were refused when the call began. */
static long before_call;

static uint8_t looked_at(uint8_t memory, uint8_t answer, int line) {
    if (answer == memory && refused == before_call && failures++ < 20)
        printf("%s:%d: no memory, and no allocation was refused\n", __FILE__, line);
    return answer;
}

/* A call, and which of its answers says that there was no memory. */
#define CALL(memory, call) (before_call = refused, looked_at((memory), (call), __LINE__))

/* ---- Octets. ---- */

/* The first page after each region may not be touched. */
static uint8_t *ends[REGIONS];

static int make_regions(void) {
    size_t page = (size_t)sysconf(_SC_PAGESIZE), size = (MOST + page - 1) / page * page;
    int i;
    for (i = 0; i < REGIONS; i++) {
        uint8_t *at = mmap(NULL, size + page, PROT_READ | PROT_WRITE, MAP_PRIVATE | MAP_ANONYMOUS, -1, 0);
        if (at == MAP_FAILED || mprotect(at + size, page, PROT_NONE) != 0) return 1;
        ends[i] = at + size;
    }
    return 0;
}

/* Octets of anything. */
static uint8_t *any_octets(size_t count) {
    uint8_t *at = ends[0] - count;
    size_t i;
    for (i = 0; i < count; i++) at[i] = (uint8_t)(below(4) == 0 ? below(256) : below(6));
    return at;
}

/* A packet, mostly, or several, or many short ones; rarely something else. Its type is 1 for a command. */
static uint8_t *any_packets(int type, size_t *count) {
    size_t many = below(8) == 0 ? 2 : 1, each = 7 + (below(64) == 0 ? below(3000) : below(60)), i;
    uint8_t *at;
    if (below(32) == 0) many = 30 + below(200), each = 7 + below(2);
    at = any_octets(*count = many * each);
    for (i = 0; i < many; i++) {
        at[i * each] = (uint8_t)(type << 4 | (below(4) == 0) << 3);
        at[i * each + 4] = (uint8_t)((each - 7) >> 8);
        at[i * each + 5] = (uint8_t)(each - 7);
    }
    if (below(16) == 0) at[below((uint32_t)*count)] ^= (uint8_t)(1 << below(8));
    return at;
}

/* The FNV-1a hash of octets. */
static uint64_t hash_of(const uint8_t *octets, size_t count) {
    uint64_t hash = 0xcbf29ce484222325u;
    while (count-- > 0) hash = (hash ^ *octets++) * 0x100000001b3u;
    return hash;
}

/* The packets that were put in, by bits of their hashes. */
static uint8_t put_in[1 << 24];

static void put(const uint8_t *octets, size_t count) {
    put_in[hash_of(octets, count) >> 40] = 1;
}

static bool was_put(const uint8_t *octets, size_t count) {
    return put_in[hash_of(octets, count) >> 40] != 0;
}

/* Room to be written, each octet 0x55 so far. */
static uint8_t *room_of(size_t room) {
    return memset(ends[1] - room, 0x55, room);
}

/* What a call answered that writes octets, of which `next` are next. */
static void look_at_written(uint8_t answer, size_t next, size_t room, size_t count, const uint8_t *out) {
    size_t i;
    WANT(answer == (next > room ? SEDGE_NODE_ROOM : SEDGE_NODE_OK));
    WANT(count == (answer == SEDGE_NODE_OK ? next : 99));
    for (i = answer == SEDGE_NODE_OK ? next : 0; i < room; i++) WANT(out[i] == 0x55);
}

static size_t any_room(size_t next) {
    return below(8) == 0 ? below((uint32_t)next + 1) : next + below(3);
}

/* ---- The nodes. ---- */

static struct sedge_config config;
static struct sedge_ground ground;
static struct sedge_spacecraft spacecraft;
static struct sedge_sim sim;
static uint8_t up[1024], down[2048];
static size_t up_count, down_count, ground_part;

/* The submissions of the link's session. */
static struct {
    size_t count;
    uint64_t hash;
    uint8_t map;
} submissions[1 << 16];
static size_t submitted;

/* How far the submissions of the ground's session have come: after how many segments each ends, and how many segments
 * are acknowledged; and whether V(S) and NN(R) are the session's. */
static struct {
    size_t count, acknowledged;
    size_t ends[1 << 16];
    bool kept;
} fates;

static void fates_begin(bool kept) {
    fates.count = fates.acknowledged = 0;
    fates.kept = kept;
}

/* How many are whole with so many segments more than those that are acknowledged. */
static uint64_t whole_with(size_t more) {
    uint64_t whole = 0;
    while (whole < fates.count && fates.ends[whole] <= fates.acknowledged + more) whole++;
    return whole;
}

static uint8_t nn_of_ground(void) {
    struct sedge_ground_reading read = {.nn = 0};
    sedge_ground_read(&ground, &read);
    return read.nn;
}

/* A report may have acknowledged segments since NN(R) was this, and have shown that a condition is broken. */
static void fates_hear(const struct sedge_heard *heard, uint8_t nn) {
    fates.acknowledged += (uint8_t)(nn_of_ground() - nn);
    if (heard->alert >= SEDGE_ALERT_LOCKOUT && heard->alert <= SEDGE_ALERT_SYNCH) fates.kept = false;
}

/* One of few MAPs, mostly, or of those below the limit. */
static uint8_t any_map(uint32_t limit) {
    return (uint8_t)below(below(8) == 0 ? limit : 4);
}

static uint64_t any_maps(void) {
    return below(2) ? ~(uint64_t)0 : (uint64_t)below(UINT32_MAX) << 32 | below(UINT32_MAX);
}

static void any_config(void) {
    sedge_config_default(&config);
    config.width = 20, config.window = 8, config.timer = 5, config.max_packet = 2000;
    config.ready_slots = 5, config.bypass_slots = 2, config.queue_slots = 30;
    config.blocking = below(2);
    config.part = 1 + below(below(2) ? 1016 : 30);
    config.maps = any_maps();
    if (below(4) == 0) config.max_packet = 7 + below(60);
    if (below(4) == 0) config.queue_slots = 1200;
    config.frame_length = below(4) == 0 ? 16 + below(2033) : 64;
    if (below(16) == 0) ((uint32_t *)(void *)&config)[below(sizeof config / 4)] = below(70000);
}

/* Each of the packets that octets are is put in. */
static void puts_all(const uint8_t *octets, size_t count) {
    struct sedge_part packet = {0, 0};
    while (sedge_map_packet(octets, count, &packet)) put(octets + packet.from, packet.count);
}

/* What a call answered that may be refused by numbers up to this one, and by a handle that holds none. */
static int is_answer(uint8_t answer, uint8_t most, const void *node) {
    return node == NULL ? answer == SEDGE_NODE_NONE : answer <= most;
}

/* A directive; submissions are counted anew where a session of the ground begins, or its V(S) is set. */
static uint8_t directs(struct sedge_reply *reply) {
    uint8_t own = (uint8_t)(1 + below(LAST_DIRECTIVE)), value = (uint8_t)(below(4) == 0 ? below(256) : below(12)), answer;
    const bool begins = own <= SEDGE_INIT_SET_VR;
    if (own == SEDGE_TERMINATE && below(16) != 0) return SEDGE_NODE_OK;
    answer = reply ? sedge_sim_directive(&sim, own, value, reply) : sedge_ground_directive(&ground, own, value);
    if (reply == NULL && answer == SEDGE_NODE_OK && (begins || own == SEDGE_SET_VS)) fates_begin(begins);
    return answer;
}

/* A new spacecraft, or one that goes on with any numbers. */
static uint8_t opens_spacecraft(void) {
    struct sedge_spacecraft_reading kept = {.value = (uint8_t)below(256), .vc_count = (uint8_t)below(256)};
    uint8_t answer;
    kept.farm_b = (uint8_t)below(5);
    if (below(2)) return CALL(SEDGE_NODE_MEMORY, sedge_spacecraft_open(&spacecraft, &config));
    answer = CALL(SEDGE_NODE_MEMORY, sedge_spacecraft_open_kept(&spacecraft, &config, &kept));
    if (kept.farm_b > 3) WANT(answer == SEDGE_NODE_OUT_OF_RANGE);
    return answer;
}

/* Opens a ground, and a spacecraft whose MAPs, longest packet and blocking may be others. */
static void opens_nodes(void) {
    uint8_t answer = CALL(SEDGE_NODE_MEMORY, sedge_ground_open(&ground, &config));
    WANT(is_answer(answer, SEDGE_NODE_OUT_OF_RANGE, &config));
    if (answer == SEDGE_NODE_OK) ground_part = config.part, fates_begin(false);
    if (below(4) == 0) config.maps = any_maps();
    if (below(4) == 0) config.max_packet = 7 + below(60);
    config.blocking ^= below(4) == 0;
    answer = opens_spacecraft();
    WANT(is_answer(answer, SEDGE_NODE_OUT_OF_RANGE, &config));
}

/* All is closed, and no memory is held. */
static void closes_all(void) {
    sedge_ground_close(&ground);
    sedge_spacecraft_close(&spacecraft);
    sedge_sim_close(&sim);
    submitted = 0;
    WANT(live == 0);
}

static void opens(void) {
    if (below(8) == 0) closes_all();
    any_config();
    if (below(2)) {
        opens_nodes();
    } else {
        uint8_t answer = CALL(SEDGE_NODE_MEMORY, sedge_sim_open(&sim, &config));
        WANT(answer == (sedge_config_fault(&config) ? SEDGE_NODE_OUT_OF_RANGE : 0) || answer == SEDGE_NODE_MEMORY);
        if (answer == SEDGE_NODE_OK) submitted = 0;
    }
    if (below(8) == 0) sedge_ground_close(&ground);
    if (below(8) == 0) sedge_spacecraft_close(&spacecraft);
    if (below(8) == 0) sedge_sim_close(&sim), submitted = 0;
}

static void submits(void) {
    struct sedge_ground_reading before = {0}, after = {0};
    size_t count, next = 0, later = 0;
    uint8_t *octets = any_packets(1, &count), map = any_map(256), answer;
    bool is_bypass = below(4) == 0;
    sedge_ground_read(&ground, &before);
    sedge_ground_next(&ground, &next);
    if (is_bypass) {
        answer = CALL(SEDGE_NODE_MEMORY, sedge_ground_bypass(&ground, map, octets, count));
    } else {
        answer = CALL(SEDGE_NODE_MEMORY, sedge_ground_submit(&ground, map, octets, count));
    }
    if (answer == SEDGE_NODE_OK) puts_all(octets, count);
    WANT(is_answer(answer, SEDGE_NODE_MEMORY, ground.node));
    sedge_ground_read(&ground, &after);
    sedge_ground_next(&ground, &later);
    WANT(answer == SEDGE_NODE_OK || (after.outstanding == before.outstanding && after.vs == before.vs));
    WANT(answer == SEDGE_NODE_OK || later == next);
    if (answer != SEDGE_NODE_OK || is_bypass) return;
    fates.ends[fates.count] = after.outstanding - before.outstanding;
    WANT(fates.ends[fates.count] > 0);
    if (fates.count > 0) fates.ends[fates.count] += fates.ends[fates.count - 1];
    fates.count++;
}

static void pulls(void) {
    size_t next = 0, count = 99, room;
    uint8_t *out, answer = sedge_ground_next(&ground, &next);
    WANT(is_answer(answer, SEDGE_NODE_OK, ground.node) && next <= 1024);
    if (answer != SEDGE_NODE_OK) return;
    out = room_of(room = any_room(next));
    if (below(2) == 0) {
        answer = sedge_ground_pull(&ground, out, room, &count);
    } else {
        answer = sedge_ground_peek(&ground, out, room, &count);
        if (answer == SEDGE_NODE_OK) WANT(sedge_ground_advance(&ground) == SEDGE_NODE_OK);
    }
    look_at_written(answer, next, room, count, out);
    if (answer == SEDGE_NODE_OK && count > 0) memcpy(up, out, up_count = count);
}

/* Why octets on a MAP were dropped, as it happened. */
static bool has_dropped[SEDGE_DROPPED_TOO_LONG + 1];

static void receives(void) {
    struct sedge_received received = {77, 77, 77, 77, 77, 77, false, 77, 77};
    uint8_t *octets, answer;
    if (below(8) == 0) up_count = below(60);
    octets = any_octets(up_count);
    if (below(8) != 0) memcpy(octets, up, up_count);
    answer = CALL(SEDGE_NODE_MEMORY, sedge_spacecraft_receive(&spacecraft, octets, up_count, &received));
    WANT(is_answer(answer, SEDGE_NODE_MEMORY, spacecraft.node) && (answer == 0 || answer >= SEDGE_NODE_MEMORY));
    WANT(answer == SEDGE_NODE_OK ? received.kind >= 1 && received.kind <= 5 && received.verdict <= 5
                                 : received.kind == 77 && received.ready == 77);
    if (answer != SEDGE_NODE_OK) return;
    WANT(received.dropped <= SEDGE_DROPPED_TOO_LONG);
    has_dropped[received.dropped] = true;
}

static void takes(void) {
    size_t next = 0, count = 99, room;
    uint8_t map = 99, later = 99, *out, answer, is_bypass = below(4) == 0;
    answer = (is_bypass ? sedge_spacecraft_next_bypass : sedge_spacecraft_next)(&spacecraft, &map, &next);
    WANT(is_answer(answer, SEDGE_NODE_OK, spacecraft.node) && next <= 65542 && (next > 0) == (map < 64));
    if (answer != SEDGE_NODE_OK) return;
    out = room_of(room = any_room(next));
    answer = (is_bypass ? sedge_spacecraft_take_bypass : sedge_spacecraft_take)(&spacecraft, &later, out, room, &count);
    look_at_written(answer, next, room, count, out);
    WANT(later == (answer == SEDGE_NODE_OK ? map : 99));
    if (answer == SEDGE_NODE_OK && (is_bypass || count <= ground_part)) WANT(count == 0 || was_put(out, count));
}

static void reports(void) {
    struct sedge_spacecraft_reading read = {99, 99, 99, 99, 99, 99, 99, 99, 99, 99, 99};
    size_t count = 99, room;
    uint8_t *out, answer = sedge_spacecraft_read(&spacecraft, &read);
    WANT(is_answer(answer, SEDGE_NODE_OK, spacecraft.node) && (answer == 0 || read.state == 99));
    if (answer != SEDGE_NODE_OK) return;
    WANT(read.ready <= 63 + 145 && read.bypassed <= 64); /* a segment brings up to 145 packets where one slot is free */
    WANT(read.frame_length >= 16 && read.frame_length <= 2048 && read.state <= 2 && read.farm_b <= 3);
    out = room_of(room = any_room(read.frame_length));
    answer = sedge_spacecraft_telemetry_frame(&spacecraft, out, room, &count);
    look_at_written(answer, read.frame_length, room, count, out);
    if (answer == SEDGE_NODE_OK) memcpy(down, out, down_count = count);
}

static void hears(void) {
    struct sedge_heard heard = {77, 77, 77, 77, 77, 77, 77, 77};
    struct sedge_clcw word = {77, 77, 77, 77, 77};
    uint8_t *octets, answer, nn = nn_of_ground();
    octets = any_octets(down_count);
    if (below(16) != 0) memcpy(octets, down, down_count);
    answer = sedge_ground_clcw_in(&ground, octets, down_count, &word);
    WANT(ground.node == NULL ? answer == SEDGE_NODE_NONE : answer == SEDGE_NODE_OK || answer == SEDGE_NODE_ABSENT);
    WANT(answer == SEDGE_NODE_OK ? word.vcid < 64 : word.vcid == 77);
    answer = CALL(SEDGE_NODE_MEMORY, sedge_ground_telemetry(&ground, octets, down_count, &heard));
    WANT(is_answer(answer, SEDGE_NODE_MEMORY, ground.node) && (answer == 0 || answer >= SEDGE_NODE_MEMORY));
    WANT(answer == SEDGE_NODE_OK ? heard.kind >= 1 && heard.kind <= 3 && heard.alert <= 7 : heard.kind == 77);
    fates_hear(&heard, nn);
}

static void hears_words(void) {
    struct sedge_heard heard = {77, 77, 77, 77, 77, 77, 77, 77};
    size_t count = 3 + below(3);
    uint8_t nn = nn_of_ground(), answer = sedge_ground_clcw(&ground, any_octets(count), count, &heard);
    WANT(ground.node == NULL ? answer == SEDGE_NODE_NONE : answer == (count == 4 ? SEDGE_NODE_OK : SEDGE_NODE_ABSENT));
    WANT(answer == SEDGE_NODE_OK ? heard.kind == SEDGE_HEARD_CLCW && heard.alert <= 7 : heard.kind == 77);
    fates_hear(&heard, nn);
    if (below(64) == 0) WANT(sedge_ground_forget_telemetry(&ground) == (ground.node == NULL ? SEDGE_NODE_NONE : 0));
}

static void telemetry(void) {
    size_t count, next = 0, room, given = 99;
    uint8_t *octets = any_packets(0, &count), *out, answer;
    answer = CALL(SEDGE_TM_MEMORY, sedge_spacecraft_telemetry(&spacecraft, octets, count));
    if (answer == SEDGE_NODE_OK) put(octets, count);
    WANT(is_answer(answer, SEDGE_TM_FIELD_RANGE, spacecraft.node) && (answer == 0 || answer >= 7));
    answer = sedge_ground_next_telemetry(&ground, &next);
    WANT(is_answer(answer, SEDGE_NODE_OK, ground.node) && (next == 0 || next >= 7));
    if (answer != SEDGE_NODE_OK) return;
    out = room_of(room = any_room(next));
    answer = sedge_ground_take_telemetry(&ground, out, room, &given);
    look_at_written(answer, next, room, given, out);
    WANT(answer != SEDGE_NODE_OK || given == 0 || was_put(out, given));
}

/* What waits is part of what is outstanding; the rest was sent, from NN(R) to V(S), and the timer runs for it. */
static bool is_sound(const struct sedge_ground_reading *read) {
    uint8_t sent = (uint8_t)(read->vs - read->nn);
    if (read->count < 1 || (read->state == SEDGE_FOP_S6 && (read->ticks > 0 || read->outstanding > 0))) return false;
    return read->state == SEDGE_FOP_S6 ||
           (read->outstanding == read->unsent + sent && read->due <= sent && (sent == 0 || read->ticks > 0));
}

static void clocks(void) {
    struct sedge_ground_reading read = {99, 99, 99, 99, 99, 99, 99, 99, 99, 99, 99, 99, 99};
    uint8_t accepted = 99, answer;
    WANT(is_answer(sedge_ground_tick(&ground), 7, ground.node));
    answer = sedge_ground_read(&ground, &read);
    WANT(is_answer(answer, SEDGE_NODE_OK, ground.node));
    WANT(answer == SEDGE_NODE_OK ? read.state >= 1 && read.state <= 6 : read.state == 99);
    WANT(answer != SEDGE_NODE_OK || is_sound(&read));
    answer = sedge_ground_accepted_beyond(&ground, (uint8_t)below(256), &accepted);
    WANT(ground.node == NULL ? answer == SEDGE_NODE_NONE : answer == SEDGE_NODE_OK || answer == SEDGE_NODE_ABSENT);
    WANT(answer == SEDGE_NODE_OK ? accepted <= 127 : accepted == 99);
    WANT(is_answer(directs(NULL), 8, ground.node) || ground.node == NULL);
}

/* Whether a session went on where one had come to whole submissions, and in the middle of one. */
static bool has_resumed, has_resumed_within;

/* A session goes on at a value where it may, and there alone; what is refused changes nothing. */
static void resumes_at(uint8_t value, const struct sedge_ground_reading *before) {
    uint8_t sent = (uint8_t)(before->vs - before->nn), answer;
    uint8_t accepted = (uint8_t)(sent == 0 ? 0 : value - before->nn);
    bool may = before->state == SEDGE_FOP_S6 && fates.kept && accepted <= sent;
    struct sedge_ground_reading after = {.nn = 0};
    uint64_t whole = 99;
    answer = sedge_ground_resume(&ground, value, &whole);
    WANT(answer == (may ? SEDGE_NODE_OK : SEDGE_NODE_NOT_KNOWN) && whole == (may ? whole_with(accepted) : 99));
    sedge_ground_read(&ground, &after);
    if (!may) {
        WANT(after.state == before->state && after.vs == before->vs && after.nn == before->nn);
        WANT(after.submitted == before->submitted && after.outstanding == before->outstanding);
        return;
    }
    WANT(after.state == SEDGE_FOP_S5 && after.vs == value && after.nn == value && after.submitted == 0);
    has_resumed |= whole > 0;
    has_resumed_within |= fates.acknowledged + accepted > (whole == 0 ? 0 : fates.ends[whole - 1]);
    fates_begin(true);
}

/* What the ground says of its submissions is as counted. */
static void resumes(void) {
    struct sedge_ground_reading read = {.nn = 0};
    uint64_t known = 99;
    uint8_t answer = sedge_ground_read(&ground, &read), sent = (uint8_t)(read.vs - read.nn), value, accepted;
    WANT(is_answer(answer, SEDGE_NODE_OK, ground.node));
    if (ground.node == NULL) {
        WANT(sedge_ground_known_on_board(&ground, 0, &known) == SEDGE_NODE_NONE && known == 99);
        WANT(sedge_ground_resume(&ground, 0, &known) == SEDGE_NODE_NONE && known == 99);
        return;
    }
    if (read.state <= SEDGE_FOP_S3 && sent > 0 && below(8) == 0) {
        WANT(sedge_ground_terminate(&ground) == 0 && sedge_ground_read(&ground, &read) == 0);
    }
    value = (uint8_t)(below(8) == 0 ? below(256) : read.nn + below(sent + 2u));
    accepted = (uint8_t)(sent == 0 ? 0 : value - read.nn);
    WANT(read.submitted == fates.count && read.acknowledged_whole == whole_with(0));
    WANT(read.sent_whole == whole_with(sent));
    answer = sedge_ground_known_on_board(&ground, value, &known);
    WANT(answer == (fates.kept && accepted <= sent ? SEDGE_NODE_OK : SEDGE_NODE_ABSENT));
    WANT(known == (answer == SEDGE_NODE_OK ? whole_with(accepted) : 99));
    if (below(4) == 0) resumes_at(value, &read);
}

/* ---- The link. ---- */

/* The link has another submission. */
static uint8_t submits_to_link(uint8_t map, const uint8_t *octets, size_t count, struct sedge_reply *reply) {
    uint8_t answer = sedge_sim_submit(&sim, map, octets, count, reply);
    if (answer != 0 || reply->kind != SEDGE_REPLY_DONE) return answer;
    submissions[submitted].count = count;
    submissions[submitted].hash = hash_of(octets, count);
    submissions[submitted++].map = map;
    return answer;
}

/* A directive to the link, or that it resumes; a session that begins has no submissions. */
static uint8_t directs_link(struct sedge_reply *reply) {
    struct sedge_sim_reading before = {.state = 0}, after = {.state = 0};
    uint8_t answer;
    struct sedge_spacecraft_reading on_board = {.value = 0};
    sedge_sim_read(&sim, &before);
    sedge_sim_spacecraft_read(&sim, &on_board);
    answer = below(4) ? directs(reply)
                      : sedge_sim_resume(&sim, (uint8_t)(below(4) ? on_board.value : below(256)), reply);
    sedge_sim_read(&sim, &after);
    if (before.state == SEDGE_FOP_S6 && after.state != SEDGE_FOP_S6) submitted = 0;
    return answer;
}

/* An event whose kind is none, or whose directive is. */
static uint8_t happens_not(const uint8_t *octets, size_t count, struct sedge_reply *reply) {
    struct sedge_event event = {0, 4, 0, 256, octets, count};
    uint8_t answer;
    event.kind = (uint8_t)(below(2) ? SEDGE_EVENT_DIRECTIVE : below(256 - LAST_EVENT) + LAST_EVENT + 1);
    event.directive = (uint8_t)(below(2) ? SEDGE_SET_VS : below(256 - LAST_DIRECTIVE) + LAST_DIRECTIVE + 1);
    if (below(4) == 0) event.kind = 0;
    answer = sedge_sim_step(&sim, &event, reply);
    WANT(answer == SEDGE_NODE_NONE && reply->kind == 77);
    return SEDGE_NODE_OK;
}

static uint8_t happens(struct sedge_reply *reply) {
    size_t count;
    uint8_t *octets = any_packets(1, &count), map = any_map(64);
    if (below(64) == 0) return happens_not(octets, count, reply);
    switch (below(17)) {
    case 0: return directs_link(reply);
    case 1: return submits_to_link(map, octets, count, reply);
    case 2: return sedge_sim_bypass(&sim, map, octets, count, reply);
    case 3: return sedge_sim_telemetry(&sim, octets, count, reply);
    case 4: case 5: return sedge_sim_send(&sim, reply);
    case 6: case 7: return sedge_sim_up_deliver(&sim, reply);
    case 8: return below(4) ? sedge_sim_up_deliver(&sim, reply) : sedge_sim_up_lose(&sim, reply);
    case 9: return sedge_sim_up_damage(&sim, octets, count, reply);
    case 10: return sedge_sim_report(&sim, reply);
    case 11: return sedge_sim_down_deliver(&sim, reply);
    case 12: return below(4) ? sedge_sim_down_deliver(&sim, reply) : sedge_sim_down_lose(&sim, reply);
    case 13: return below(4) ? sedge_sim_take(&sim, reply) : sedge_sim_down_damage(&sim, octets, count, reply);
    case 14: return sedge_sim_take_bypass(&sim, reply);
    case 15: return sedge_sim_down_clcw(&sim, reply);
    default: return sedge_sim_tick(&sim, reply);
    }
}

/* In a session with an idle start packet k delivered on a MAP is packet k submitted on it. */
static void look_at_delivered(uint8_t map, size_t k, const uint8_t *octets, size_t count) {
    static uint8_t packet[MOST];
    struct sedge_sim_reading read = {.state = 0};
    size_t given = 99;
    sedge_sim_read(&sim, &read);
    if (!read.idle) return;
    WANT(sedge_sim_entry(&sim, SEDGE_SUBMITTED, map, k, packet, sizeof packet, &given) == SEDGE_NODE_OK);
    WANT(given == count && memcmp(packet, octets, count) == 0);
}

static void look_at_records(void) {
    size_t entries = 99, next = 99, count = 99, room, k;
    uint8_t record = (uint8_t)below(6), map = (uint8_t)below(70), *out, answer;
    answer = sedge_sim_count(&sim, record, map, &entries);
    WANT(is_answer(answer, SEDGE_NODE_OK, sim.link));
    if (answer != SEDGE_NODE_OK) return;
    k = entries == 0 ? 0 : below((uint32_t)entries + 1);
    answer = sedge_sim_entry_length(&sim, record, map, k, &next);
    WANT(answer == (k < entries ? SEDGE_NODE_OK : SEDGE_NODE_ABSENT) && (answer == SEDGE_NODE_OK || next == 99));
    out = room_of(room = answer == SEDGE_NODE_OK ? any_room(next) : 20);
    answer = sedge_sim_entry(&sim, record, map, k, out, room, &count);
    if (k < entries) {
        look_at_written(answer, next, room, count, out);
    } else {
        WANT(answer == SEDGE_NODE_ABSENT && count == 99);
    }
    if (answer == SEDGE_NODE_OK && record == SEDGE_DELIVERED) look_at_delivered(map, k, out, count);
}

static void look_at_submissions(void) {
    size_t all = 99, next = 99, count = 99, room, k;
    uint8_t map = 99, *out, answer = sedge_sim_submissions(&sim, &all);
    WANT(is_answer(answer, SEDGE_NODE_OK, sim.link));
    if (answer != SEDGE_NODE_OK) return;
    WANT(all == submitted);
    k = all == 0 ? 0 : below((uint32_t)all + 1);
    answer = sedge_sim_submission_length(&sim, k, &map, &next);
    WANT(answer == (k < all ? SEDGE_NODE_OK : SEDGE_NODE_ABSENT));
    WANT(k < all ? map == submissions[k].map && next == submissions[k].count : map == 99 && next == 99);
    out = room_of(room = answer == SEDGE_NODE_OK ? any_room(next) : 20);
    answer = sedge_sim_submission(&sim, k, &map, out, room, &count);
    if (k < all) {
        look_at_written(answer, next, room, count, out);
    } else {
        WANT(answer == SEDGE_NODE_ABSENT && count == 99 && map == 99);
    }
    WANT(answer != SEDGE_NODE_OK || hash_of(out, count) == submissions[k].hash);
}

/* What a reply's kind does not have is 0. */
static void look_at_rest(const struct sedge_reply *reply) {
    const struct sedge_received *received = &reply->up;
    const struct sedge_heard *heard = &reply->down;
    const struct sedge_clcw *report = &reply->report;
    bool hears = reply->kind == SEDGE_REPLY_DOWN || reply->kind == SEDGE_REPLY_DOWN_CLCW;
    WANT(reply->kind == SEDGE_REPLY_RESUMED || reply->whole == 0);
    WANT(reply->kind == SEDGE_REPLY_UP ||
         (received->ready | received->kind | received->fault | received->n | received->verdict | received->dropped |
          received->kept | received->command | received->vr) == 0);
    WANT(hears || (heard->packets | heard->kind | heard->fault | heard->first | heard->missing | heard->report |
                   heard->word_fault | heard->alert) == 0);
    WANT(reply->kind == SEDGE_REPLY_REPORTED ||
         (report->status | report->vcid | report->flags | report->farm_b | report->value) == 0);
    WANT(reply->kind == SEDGE_REPLY_REFUSED || (reply->by | reply->fault) == 0);
    WANT(reply->kind == SEDGE_REPLY_ALERT || reply->alert == 0);
    WANT(reply->kind == SEDGE_REPLY_PACKET || reply->map == 0);
}

static void links(void) {
    struct sedge_reply reply = {.kind = 77};
    struct sedge_sim_reading read = {.state = 99};
    struct sedge_ground_reading of_ground = {.state = 99};
    struct sedge_spacecraft_reading on_board = {.state = 99};
    size_t count = 99, room;
    uint8_t answer = CALL(SEDGE_SIM_MEMORY, happens(&reply)), *out;
    WANT(sim.link == NULL ? answer == SEDGE_NODE_NONE || answer == 0
                          : answer == 0 || (answer >= SEDGE_SIM_MEMORY && answer <= SEDGE_SIM_NOT_DETECTABLE));
    WANT(reply.kind <= SEDGE_REPLY_RESUMED || reply.kind == 77);
    WANT(answer == 0 || reply.kind == 77);
    if (sim.link != NULL && answer == 0 && reply.kind != 77) {
        WANT((reply.count > 0) == (reply.kind == SEDGE_REPLY_SENT || reply.kind == SEDGE_REPLY_PACKET));
        look_at_rest(&reply);
        out = room_of(room = any_room(reply.count));
        answer = sedge_sim_octets(&sim, out, room, &count);
        look_at_written(answer, reply.count, room, count, out);
    }
    answer = sedge_sim_read(&sim, &read);
    WANT(is_answer(answer, SEDGE_NODE_OK, sim.link));
    WANT(answer == SEDGE_NODE_OK ? read.state >= 1 && read.state <= 6 : read.state == 99);
    WANT(sedge_sim_ground_read(&sim, &of_ground) == answer && of_ground.state == read.state);
    WANT(sedge_sim_spacecraft_read(&sim, &on_board) == answer && (on_board.state == 99) == (answer != SEDGE_NODE_OK));
    WANT(answer != SEDGE_NODE_OK || (is_sound(&of_ground) && of_ground.outstanding == read.outstanding));
    if (below(8) == 0) look_at_records(), look_at_submissions();
}

int main(int count, char **words) {
    static void (*const kinds[])(void) = {submits, submits, pulls, pulls, receives, receives, takes, takes,
                                          reports, hears, hears_words, telemetry, clocks, resumes, resumes, links,
                                          links, links, links};
    unsigned long left;
    uint32_t stay = 500;
    if (count != 2 || make_regions() != 0) return 2;
    for (left = strtoul(words[1], NULL, 10); left > 0; left--) {
        if (below(stay) == 0) opens(), stay = below(8) == 0 ? 20000 : 500;
        kinds[below(sizeof kinds / sizeof *kinds)]();
    }
    closes_all();
    WANT(refused > 0);
    WANT(has_dropped[SEDGE_DROPPED_CLOSED_MAP] && has_dropped[SEDGE_DROPPED_TOO_LONG]);
    WANT(has_resumed && has_resumed_within);
    printf(failures ? "%d failed\n" : "all as wanted\n", failures);
    return failures != 0;
}
