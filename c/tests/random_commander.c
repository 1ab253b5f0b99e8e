/* Random calls of a commander: `random_commander COUNT`. Each call answers with one of its numbers. One that refuses
 * has written nothing and left the commander as it was, as far as it is read; one that writes octets has written those
 * that it says, and no others. The store is what the commander gave; it is opened again now and then, also cut off or
 * with an octet changed, and what is good of it is never more than there is. Octets end where a page begins that may
 * not be touched. One allocation in some is refused, and only a call during which one was answers that there was no
 * memory. Ends with 0 where all is as wanted and all memory is given back, and says what is not. */
#define _DEFAULT_SOURCE
#include "memory.h"
#include <sedgechisel_nodes.h>
#include <stdio.h>
#include <stdlib.h>
#include <string.h>
#include <sys/mman.h>
#include <unistd.h>

enum { MOST = 65536 + 4096, STORE = 1 << 16, ENOUGH = 30000 };

static int failures;

#define WANT(holds)                                                                                                    \
    do {                                                                                                               \
        if (!(holds) && failures++ < 20) printf("%s:%d: not so: %s\n", __FILE__, __LINE__, #holds);                    \
    } while (0)

static uint64_t state = 0x9e3779b97f4a7c15u;

/* A number below the limit (xorshift64*, Marsaglia and Vigna). */
static uint32_t below(uint32_t limit) {
    state ^= state >> 12;
    state ^= state << 25;
    state ^= state >> 27;
    return (uint32_t)((state * 2685821657736338717u) >> 33) % limit;
}

static bool is_refused(void) {
    return below(64) == 0;
}

/* ---- Octets that end where a page begins that may not be touched. ---- */

static uint8_t *ends[2];

static int make_regions(void) {
    size_t page = (size_t)sysconf(_SC_PAGESIZE), size = (MOST + page - 1) / page * page;
    for (int i = 0; i < 2; i++) {
        uint8_t *at = mmap(NULL, size + page, PROT_READ | PROT_WRITE, MAP_PRIVATE | MAP_ANONYMOUS, -1, 0);
        if (at == MAP_FAILED || mprotect(at + size, page, PROT_NONE) != 0) return 1;
        ends[i] = at + size;
    }
    return 0;
}

static uint8_t *octets_of(const uint8_t *octets, size_t count) {
    return memcpy(ends[0] - count, octets, count);
}

/* Room to be written, each octet 0x55 so far. */
static uint8_t *room_of(size_t room) {
    return memset(ends[1] - room, 0x55, room);
}

static size_t any_room(size_t next) {
    return below(8) == 0 ? below((uint32_t)next + 1) : next + below(3);
}

/* The room from this octet on is as it was. */
static bool is_clear(const uint8_t *room, size_t from, size_t count) {
    while (from < count && room[from] == 0x55) from++;
    return from == count;
}

/* ---- The commander, and what is read of it. ---- */

static struct sedge_config config;
static struct sedge_mission mission;
static struct sedge_commander commander;
static struct sedge_spacecraft spacecraft;
static struct sedge_log board;
static uint8_t store[STORE], unstored[MOST], places[2][50], content[3000], packet[MOST];
static size_t stored;
static struct sedge_commander_action due;
/* How often each kind of action was met. */
static unsigned long met[SEDGE_COMMANDER_SEND + 1];

struct reading {
    struct sedge_commander_reading own;
    struct sedge_ground_reading of_ground;
    size_t unstored, telemetry;
    uint8_t progress;
};

static struct reading read_all(void) {
    struct reading it;
    size_t count = 0;
    memset(&it, 0, sizeof it);
    if (commander.node == NULL) return it;
    WANT(sedge_commander_read(&commander, &it.own) == 0 && sedge_commander_read_ground(&commander, &it.of_ground) == 0);
    WANT(it.own.below <= it.own.highest && it.own.worth <= 1);
    WANT(sedge_commander_unstored(&commander, unstored, MOST, &count) == 0);
    it.unstored = count;
    WANT(sedge_commander_next_telemetry(&commander, &it.telemetry) == 0);
    (void)!sedge_commander_progress(&commander, it.own.below + 1, &it.progress);
    return it;
}

static bool is_same(const struct reading *a, const struct reading *b) {
    return a->own.below == b->own.below && a->own.highest == b->own.highest && a->own.worth == b->own.worth
           && a->unstored == b->unstored && a->telemetry == b->telemetry && a->progress == b->progress
           && a->of_ground.state == b->of_ground.state && a->of_ground.vs == b->of_ground.vs
           && a->of_ground.nn == b->of_ground.nn && a->of_ground.outstanding == b->of_ground.outstanding
           && a->of_ground.bypassed == b->of_ground.bypassed && a->of_ground.ticks == b->of_ground.ticks
           && a->of_ground.submitted == b->of_ground.submitted;
}

static struct reading before;
static long refused_before;

/* What a call answered: 255 if the handle holds none, and otherwise 0 or one of the numbers. What is refused changes
 * nothing, and only a refused allocation is a want of memory. */
static uint8_t looked_at(uint8_t answer, const char *numbers, int line) {
    struct reading after = read_all();
    bool is_good = commander.node == NULL ? answer == SEDGE_NODE_NONE : answer == 0;
    for (; commander.node != NULL && *numbers; numbers++) is_good |= answer == (uint8_t)*numbers;
    if (answer == SEDGE_LEDGER_MEMORY) is_good &= refused > refused_before;
    if (answer != 0) is_good &= is_same(&before, &after);
    if (!is_good && failures++ < 20) printf("%s:%d: answered %d\n", __FILE__, line, answer);
    return answer;
}

/* Numbers of refusals, as octets of a text: Memory, Absent, Room, and others. */
#define CALL(numbers, call) (before = read_all(), refused_before = refused, looked_at((call), (numbers), __LINE__))

/* ---- Calls. ---- */

static void any_config(void) {
    sedge_config_default(&config);
    config.width = 20, config.window = 8, config.timer = 5, config.max_packet = 2000;
    config.queue_slots = below(4) ? 30 : 3;
    config.part = 20 + below(below(2) ? 996 : 30);
    config.maps = below(4) ? ~(uint64_t)0 : below(64);
    config.blocking = below(2);
    if (below(16) == 0) config.width = 3;
    mission.round_trip = below(4);
    mission.orders = (uint16_t)(below(16) ? 6 : below(4096));
    mission.status = 2;
    mission.map = (uint8_t)below(below(16) ? 3 : 256);
    mission.holds = (uint8_t)(below(16) ? below(2) : 2);
}

static void opens(void) {
    size_t count = below(4) ? stored : below((uint32_t)stored + 1), good = 99, at;
    uint8_t answer;
    any_config();
    if (below(8) == 0) sedge_commander_close(&commander);
    if (below(8) == 0 && count > 0) {
        at = below((uint32_t)count);
        store[at] ^= (uint8_t)(1 << below(8));
    }
    before = read_all();
    refused_before = refused;
    answer = sedge_commander_open(&commander, &config, &mission, octets_of(store, count), count, &good);
    if (answer == 0) {
        WANT(commander.node != NULL && good <= count);
        stored = good;
        return;
    }
    WANT(good == 99 && (answer == 3 || answer == 4 || answer == 9 || answer == 254));
    WANT(answer != SEDGE_LEDGER_MEMORY || refused > refused_before);
    struct reading after = read_all();
    WANT(is_same(&before, &after));
}

static void gives(void) {
    size_t count = below(below(8) ? 60 : 3000);
    uint32_t number = 99;
    uint8_t answer, map = (uint8_t)below(below(16) ? 4 : 256);
    uint16_t apid = (uint16_t)(below(16) ? 5 : below(4096)), sequence = (uint16_t)below(below(16) ? 16384 : 65536);
    if (read_all().unstored > ENOUGH) return;
    for (size_t k = 0; k < count; k++) content[k] = (uint8_t)below(256);
    answer = CALL("\3\4\5\11", sedge_commander_command(&commander, state, map, apid, sequence,
                                                       octets_of(content, count), count, &number));
    WANT(answer == 0 ? number == before.own.highest + 1 : number == 99);
}

static void acts(void) {
    size_t room = below(8) ? 1024 + below(3) : below(1024);
    struct sedge_commander_action action = {77, 77, 77, 77, 77, 77};
    uint8_t *out = room_of(room), answer;
    before = read_all();
    refused_before = refused;
    answer = sedge_commander_next(&commander, &action, out, room);
    if (answer != 0) {
        looked_at(answer, "\11\374", __LINE__);
        WANT(action.kind == 77 && is_clear(out, 0, room) && (answer != SEDGE_LEDGER_ROOM || room < 1024));
        return;
    }
    WANT(action.kind <= SEDGE_COMMANDER_SEND && room >= 1024);
    met[action.kind]++;
    WANT(is_clear(out, action.kind == SEDGE_COMMANDER_SEND ? action.count : 0, room));
    WANT(action.kind != SEDGE_COMMANDER_STORE || action.count == before.unstored);
    WANT(action.kind != SEDGE_COMMANDER_TELEMETRY || before.telemetry > 0);
    due = action;
    if (action.kind == SEDGE_COMMANDER_SEND && below(4) > 0) {
        struct sedge_received received;
        (void)!sedge_spacecraft_receive(&spacecraft, out, action.count, &received);
    }
}

static void stores(void) {
    size_t count = 99, wanted = read_all().unstored, room = any_room(wanted);
    uint8_t *out = room_of(room), answer = CALL("\374", sedge_commander_unstored(&commander, out, room, &count));
    WANT(answer == SEDGE_NODE_NONE || answer == (room < wanted ? SEDGE_LEDGER_ROOM : 0));
    WANT(answer == 0 ? count == wanted && is_clear(out, count, room) : count == 99 && is_clear(out, 0, room));
    if (answer != 0) return;
    if (stored + count > STORE - ENOUGH) { /* the store is long enough: another one begins */
        sedge_commander_close(&commander);
        stored = 0;
        return;
    }
    memcpy(store + stored, out, count);
    if (below(8) == 0) count++;
    answer = sedge_commander_stored(&commander, count);
    WANT(answer == (count == wanted ? 0 : SEDGE_LEDGER_ABSENT));
    if (count == wanted) stored += count;
}

static void tells(void) {
    struct sedge_commander_action action = due;
    if (below(8) == 0) action.kind = (uint8_t)below(12);
    if (below(8) == 0) action.tag++, action.number++, action.last++;
    CALL("\11\375", sedge_commander_told(&commander, &action));
}

/* A status of the board, or one that is cut off or changed. */
static void hears_status(void) {
    uint8_t status[27];
    size_t count = below(8) ? 27 : below(28);
    WANT(sedge_log_status(&board, below(3), status, 27) == SEDGE_OK);
    if (below(8) == 0) status[below(27)] ^= 1;
    CALL("\1\2\11", sedge_commander_status(&commander, octets_of(status, count), count));
}

static void hears_frame(void) {
    struct sedge_heard heard = {77, 77, 77, 77, 77, 77, 77, 77};
    uint8_t own[33] = {0, 2, 0xc0, 0, 0, 26}, frame[64], answer;
    size_t count = 0;
    WANT(sedge_log_status(&board, 0, own + 6, 27) == SEDGE_OK);
    own[1] = (uint8_t)(2 + below(2));
    (void)!sedge_spacecraft_telemetry(&spacecraft, own, sizeof own);
    if (sedge_spacecraft_telemetry_frame(&spacecraft, frame, sizeof frame, &count) != 0) return;
    if (below(8) == 0) frame[below(64)] ^= 1;
    answer = CALL("\11", sedge_commander_telemetry(&commander, octets_of(frame, count), count, &heard));
    WANT(answer == 0 ? heard.kind >= 1 && heard.kind <= 3 : heard.kind == 77);
    if (below(32) > 0) return;
    count = below(8) ? 4 : below(8);
    heard.kind = 77;
    frame[0] = 1, frame[1] = 8, frame[2] = (uint8_t)(below(4) ? 0 : below(256) & 0xf8), frame[3] = (uint8_t)below(10);
    answer = CALL("\375", sedge_commander_clcw(&commander, octets_of(frame, count), count, &heard));
    WANT(answer == 0 ? count == 4 && heard.kind == SEDGE_HEARD_CLCW : heard.kind == 77);
}

static void takes(void) {
    size_t count = 99, wanted = read_all().telemetry, room = any_room(wanted);
    uint8_t *out = room_of(room);
    uint8_t answer = CALL("\11\374", sedge_commander_take_telemetry(&commander, out, room, &count));
    WANT(answer == 0 ? count == wanted && is_clear(out, count, room) : count == 99 && is_clear(out, 0, room));
    WANT(answer != SEDGE_LEDGER_ROOM || room < wanted);
}

static void renews(void) {
    size_t count = 99, room = below(4) ? 30000 : below(400);
    uint8_t *out = room_of(room), answer = CALL("\10\11\374", sedge_commander_fresh(&commander, out, room, &count));
    WANT(answer == 0 ? count >= 57 && is_clear(out, count, room) : count == 99 && is_clear(out, 0, room));
    if (answer != 0) return;
    memcpy(store, out, count);
    stored = count;
    WANT(sedge_commander_renewed(&commander, count) == 0);
}

static void operates(void) {
    uint8_t progress = 77, answer = CALL("\375", sedge_commander_progress(&commander, below(60), &progress));
    WANT(answer == 0 ? progress <= SEDGE_PROGRESS_ON_BOARD : progress == 77);
    switch (below(24)) {
    case 0: CALL("", sedge_commander_pause(&commander)); break;
    case 1: CALL("", sedge_commander_restart_board(&commander)); break;
    case 2: CALL("\6\7\11", sedge_commander_rebuild(&commander)); break;
    default: CALL("", sedge_commander_go_on(&commander));
    }
    CALL("", sedge_commander_tick(&commander));
}

/* The board does something; at times it restarts, or loses its record. */
static void board_acts(void) {
    struct sedge_part where;
    uint8_t octets[50], map, action;
    uint32_t number;
    size_t count = 0;
    if (below(4000) == 0) places[0][0] ^= 1, places[1][0] ^= 1;
    if (below(1000) == 0) sedge_log_start(&board, places[0], 50, places[1], 50, below(UINT32_MAX));
    action = sedge_log_next(&board, octets, 50, &number);
    if (action == SEDGE_LOG_WRITE_FIRST || action == SEDGE_LOG_WRITE_SECOND)
        memcpy(places[action - SEDGE_LOG_WRITE_FIRST], octets, 50);
    if (action == SEDGE_LOG_RESTART) sedge_log_start(&board, places[0], 50, places[1], 50, below(UINT32_MAX));
    else if (action != SEDGE_LOG_NOTHING) WANT(sedge_log_done(&board, action, number) == SEDGE_OK);
    else if (sedge_spacecraft_take_bypass(&spacecraft, &map, packet, MOST, &count) == 0 && count > 0)
        (void)!sedge_log_obey(&board, packet, count);
    else if (sedge_spacecraft_take(&spacecraft, &map, packet, MOST, &count) == 0 && count > 0)
        (void)!sedge_log_offer(&board, packet, count, &where);
}

int main(int count, char **words) {
    static void (*const kinds[])(void) = {gives, acts, acts, acts, acts, stores, stores, tells, tells,
                                          hears_status, hears_frame, hears_frame, takes, takes, renews,
                                          operates, operates, board_acts, board_acts, board_acts};
    unsigned long left;
    if (count != 2 || make_regions() != 0) return 2;
    sedge_config_default(&config);
    while (sedge_spacecraft_open(&spacecraft, &config) != 0) {
    }
    WANT(sedge_log_new_record(places[0], 50) == SEDGE_OK && sedge_log_new_record(places[1], 50) == SEDGE_OK);
    sedge_log_start(&board, places[0], 50, places[1], 50, 1);
    for (left = strtoul(words[1], NULL, 10); left > 0; left--) {
        if (below(commander.node == NULL ? 20 : 5000) == 0) opens();
        if (below(100000) == 0) stored = 0, sedge_commander_close(&commander);
        kinds[below(sizeof kinds / sizeof *kinds)]();
    }
    sedge_commander_close(&commander);
    sedge_spacecraft_close(&spacecraft);
    WANT(live == 0 && refused > 0);
    for (int kind = 0; kind <= SEDGE_COMMANDER_SEND; kind++) WANT(met[kind] > 0);
    printf(failures ? "%d failed\n" : "all as wanted\n", failures);
    return failures != 0;
}
