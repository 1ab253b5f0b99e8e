/* A commander through libsedgechisel_nodes: the entries of its store and the frames that it sends, octet by octet, as
 * Python's struct and zlib work them out; each refusal by its number and in its order, with nothing written or
 * changed; handles that hold none; stores that are cut off at any octet; and a session with a board in which each of
 * both ends is killed at each of its actions in turn (commanding.h). Each allocation is refused in turn. The memory is
 * malloc's, counted, with one allocation refused; or, with OVER_MEMORY, that of a file of c/memory. */
#include "commanding.h"
#include <sedgechisel_memory.h>

/* ---- Memory, unless another is linked. ---- */

static long tried, refused_at = -1, live;

#ifndef OVER_MEMORY
static char nowhere;

struct sedge_place rattle_alloc(size_t count, size_t align) {
    struct sedge_place none = {false, &nowhere}, some = {true, NULL};
    if (tried++ == refused_at || (some.at = malloc(count > 0 ? count : align)) == NULL) return none;
    live++;
    return some;
}

struct sedge_place rattle_realloc(void *at, size_t kept, size_t count, size_t align) {
    struct sedge_place none = {false, &nowhere}, some = {true, NULL};
    (void)kept;
    if (tried++ == refused_at || (some.at = realloc(at, count > 0 ? count : align)) == NULL) return none;
    return some;
}

void rattle_dealloc(void *at) {
    live--;
    free(at);
}
#endif

/* ---- What Python's struct and zlib make. ---- */

/* Command 1 with this tag on MAP 3: APID 5, count 44, the octets 1, 2, 3. Its packet begins at octet 14. */
static const uint64_t TAG = 0x1122334455667788u;
static const uint8_t GIVEN[35] = {
    0x00, 0x00, 0x00, 0x23, 0x01, 0x11, 0x22, 0x33, 0x44, 0x55, 0x66, 0x77, 0x88, 0x03, 0x10, 0x05, 0xc0, 0x2c,
    0x00, 0x0a, 0x00, 0x00, 0x00, 0x01, 0x01, 0x02, 0x03, 0x54, 0x99, 0x7a, 0xc4, 0x13, 0x51, 0x92, 0xf6};
/* The status that it was executed, that of another history, and the entry of the first. */
static const uint8_t SAYS[27] = {0x00, 0x00, 0x00, 0x00, 0x01, 0x00, 0x00, 0x00, 0x01, 0x00, 0x00, 0x00, 0x00, 0x00,
                                 0x00, 0x00, 0x01, 0xde, 0x30, 0x53, 0x43, 0x00, 0x00, 0x98, 0xbf, 0x22, 0x4c};
static const uint8_t OTHER[27] = {0x00, 0x00, 0x00, 0x00, 0x01, 0x00, 0x00, 0x00, 0x01, 0x00, 0x00, 0x00, 0x00, 0x00,
                                  0x00, 0x00, 0x01, 0xde, 0x30, 0x53, 0x42, 0x00, 0x00, 0x99, 0x7d, 0x48, 0x7b};
static const uint8_t HEARD[30] = {0x00, 0x00, 0x00, 0x1e, 0x02, 0x00, 0x00, 0x00, 0x01, 0x00,
                                  0x00, 0x00, 0x01, 0x00, 0x00, 0x00, 0x00, 0x00, 0x00, 0x00,
                                  0x01, 0xde, 0x30, 0x53, 0x43, 0x00, 0xa7, 0xfc, 0xf1, 0x26};
/* The status of a loss with mark 12345678, its entry, that of the order, and the status of the record it brings. */
static const uint8_t LOST[27] = {0x03, 0x12, 0x34, 0x56, 0x78, 0x00, 0x00, 0x00, 0x00, 0x00, 0x00, 0x00, 0x00, 0x00,
                                 0x00, 0x00, 0x00, 0x00, 0x00, 0x00, 0x00, 0x00, 0xff, 0x40, 0x47, 0x68, 0xef};
static const uint8_t LOSS[13] = {0x00, 0x00, 0x00, 0x0d, 0x03, 0x12, 0x34, 0x56, 0x78, 0x76, 0x7a, 0xac, 0x24};
static const uint8_t ORDERED[21] = {0x00, 0x00, 0x00, 0x15, 0x04, 0x12, 0x34, 0x56, 0x78, 0x00, 0x01,
                                    0x00, 0x00, 0x00, 0x00, 0x00, 0x01, 0xbd, 0xd6, 0x2e, 0x37};
static const uint8_t BROUGHT[27] = {0x00, 0x00, 0x01, 0x00, 0x00, 0x00, 0x00, 0x00, 0x01, 0x00, 0x00, 0x00, 0x00, 0x00,
                                    0x00, 0x00, 0x00, 0x00, 0x00, 0x00, 0x00, 0x00, 0x00, 0x54, 0x81, 0x7c, 0x32};
/* The status of a new board. */
static const uint8_t STARTED[27] = {0x00, 0x00, 0x00, 0x00, 0x01, 0x00, 0x00, 0x00, 0x00, 0x00, 0x00, 0x00, 0x00, 0x00,
                                    0x00, 0x00, 0x00, 0x00, 0x00, 0x00, 0x00, 0x00, 0x00, 0xa5, 0x42, 0xa4, 0x1c};
/* Statuses while the record is written, and just after the start. */
static const uint8_t CHANGES[27] = {0x01, 0x00, 0x00, 0x00, 0x00, 0x00, 0x00, 0x00, 0x00, 0x00, 0x00, 0x00, 0x00, 0x00,
                                    0x00, 0x00, 0x00, 0x00, 0x00, 0x00, 0x00, 0x00, 0x00, 0xe9, 0xd3, 0xce, 0x90};
static const uint8_t STARTS[27] = {0x02, 0x00, 0x00, 0x00, 0x00, 0x00, 0x00, 0x00, 0x00, 0x00, 0x00, 0x00, 0x00, 0x00,
                                   0x00, 0x00, 0x00, 0x00, 0x00, 0x00, 0x00, 0x00, 0x00, 0x9f, 0x36, 0xf7, 0xad};
/* The entry that something was told, twice; and a fresh store after command 1. */
static const uint8_t TOLD[18] = {0x00, 0x00, 0x00, 0x09, 0x05, 0x67, 0x8a, 0xb8, 0xdb,
                                 0x00, 0x00, 0x00, 0x09, 0x05, 0x67, 0x8a, 0xb8, 0xdb};
static const uint8_t FRESH[57] = {
    0x00, 0x00, 0x00, 0x39, 0x06, 0x00, 0x00, 0x00, 0x01, 0x00, 0x00, 0x00, 0x01, 0x00, 0x00, 0x00, 0x01, 0x00, 0x00,
    0x00, 0x00, 0x00, 0x00, 0x00, 0x01, 0xde, 0x30, 0x53, 0x43, 0x00, 0x00, 0x00, 0x00, 0x00, 0x00, 0x00, 0x00, 0x00,
    0x00, 0x00, 0x00, 0x00, 0x00, 0x00, 0x00, 0x00, 0x00, 0x00, 0x00, 0x00, 0x00, 0x00, 0x00, 0x7c, 0x4e, 0x05, 0x68};
/* A store after all numbers, and the status of a board with boot count FFFF0000. */
static const uint8_t LAST_NUMBER[57] = {
    0x00, 0x00, 0x00, 0x39, 0x06, 0xff, 0xff, 0xff, 0xff, 0x00, 0x00, 0x00, 0x01, 0xff, 0xff, 0xff, 0xff, 0x00, 0x00,
    0x00, 0x00, 0x00, 0x00, 0x00, 0x00, 0x00, 0x00, 0x00, 0x00, 0x00, 0x00, 0x00, 0x00, 0x00, 0x00, 0x00, 0x00, 0x00,
    0x00, 0x00, 0x00, 0x00, 0x00, 0x00, 0x00, 0x00, 0x00, 0x00, 0x00, 0x00, 0x00, 0x00, 0x00, 0x73, 0x04, 0x92, 0x7b};
static const uint8_t LAST_BOOT[27] = {0x00, 0xff, 0xff, 0x00, 0x00, 0x00, 0x00, 0x00, 0x01, 0x00, 0x00, 0x00, 0x00, 0x00,
                                      0x00, 0x00, 0x01, 0xde, 0x30, 0x53, 0x43, 0x00, 0x00, 0x61, 0x67, 0x68, 0x96};
/* Frames: Unlock, command 1 with N(S) = 7, and two orders by bypass. */
static const uint8_t UNLOCK[8] = {0x30, 0x01, 0x08, 0x07, 0x00, 0x00, 0x8b, 0x9e};
static const uint8_t FIRST_FRAME[25] = {0x00, 0x01, 0x08, 0x18, 0x07, 0xc3, 0x10, 0x05, 0xc0, 0x2c, 0x00, 0x0a, 0x00,
                                        0x00, 0x00, 0x01, 0x01, 0x02, 0x03, 0x54, 0x99, 0x7a, 0xc4, 0xf7, 0x48};
static const uint8_t RESTART_FRAME[31] = {0x20, 0x01, 0x08, 0x1e, 0x00, 0xc0, 0x10, 0x06, 0xc0, 0x00, 0x00,
                                          0x10, 0x01, 0x00, 0x00, 0x00, 0x01, 0x00, 0x00, 0x00, 0x00, 0x00,
                                          0x00, 0x00, 0x00, 0x8c, 0xa3, 0x11, 0x56, 0x8f, 0x4c};
static const uint8_t REBUILD_FRAME[31] = {0x20, 0x01, 0x08, 0x1e, 0x00, 0xc0, 0x10, 0x06, 0xc0, 0x00, 0x00,
                                          0x10, 0x02, 0x00, 0x01, 0x00, 0x00, 0x00, 0x00, 0x00, 0x01, 0x12,
                                          0x34, 0x56, 0x78, 0xb1, 0xb1, 0x4e, 0x2f, 0xbf, 0x02};
/* CLCWs: V(R) = 7, Lockout; and V(R) = 7. A telemetry packet with the first status above. */
static const uint8_t LOCKED_WORD[4] = {0x01, 0x08, 0x20, 0x07};
static const uint8_t WORD[4] = {0x01, 0x08, 0x00, 0x07};
static const uint8_t PACKET[33] = {0x00, 0x02, 0xc0, 0x00, 0x00, 0x1a, 0x00, 0x00, 0x00, 0x00, 0x01,
                                   0x00, 0x00, 0x00, 0x01, 0x00, 0x00, 0x00, 0x00, 0x00, 0x00, 0x00,
                                   0x01, 0xde, 0x30, 0x53, 0x43, 0x00, 0x00, 0x98, 0xbf, 0x22, 0x4c};
static const uint8_t CONTENT[3] = {1, 2, 3};
static uint8_t many[65529];

/* ---- Calls that are looked at. ---- */

static struct sedge_commander commander;

static void opens(const uint8_t *store, size_t count, size_t wanted) {
    size_t good = 99;
    DONE(sedge_commander_open(&commander, &config, &mission, store, count, &good), SEDGE_LEDGER_MEMORY);
    WANT(good == wanted && commander.node != NULL);
}

static void gives(uint32_t wanted) {
    uint32_t number = 99;
    DONE(sedge_commander_command(&commander, TAG, 3, 5, 44, CONTENT, 3, &number), SEDGE_LEDGER_MEMORY);
    WANT(number == wanted);
}

static void hears(const uint8_t *octets) {
    DONE(sedge_commander_status(&commander, octets, STATUS), SEDGE_LEDGER_MEMORY);
}

/* The next action: a room that is one octet too short is refused, and changes nothing. What is not of its kind is 0. */
static struct sedge_commander_action acts(uint8_t kind) {
    struct sedge_commander_action action = {77, 77, 77, 77, 77, 77};
    memset(out, 0x55, 1100);
    WANT(sedge_commander_next(&commander, &action, out, 1023) == SEDGE_LEDGER_ROOM);
    WANT(action.tag == 77 && action.kind == 77 && action.count == 77 && out[0] == 0x55);
    DONE(sedge_commander_next(&commander, &action, out, 1024), SEDGE_LEDGER_MEMORY);
    WANT(action.kind == kind);
    WANT(kind == SEDGE_COMMANDER_EXECUTED || kind == SEDGE_COMMANDER_UNKNOWN || action.tag == 0);
    WANT((kind >= SEDGE_COMMANDER_RESTARTED && kind <= SEDGE_COMMANDER_FOREIGN) || action.number == 0);
    WANT(kind == SEDGE_COMMANDER_FOREIGN || action.last == 0);
    WANT(kind == SEDGE_COMMANDER_STORE || kind == SEDGE_COMMANDER_SEND || action.count == 0);
    WANT(kind == SEDGE_COMMANDER_ALERT || action.alert == 0);
    WANT(kind == SEDGE_COMMANDER_SEND || out[0] == 0x55);
    return action;
}

/* These octets are due to be stored; they are stored when the call is told their number. */
static void stores(const uint8_t *octets, size_t wanted) {
    size_t count = 99;
    WANT(acts(SEDGE_COMMANDER_STORE).count == wanted);
    memset(out, 0x55, 1100);
    WANT(sedge_commander_unstored(&commander, out, wanted - 1, &count) == SEDGE_LEDGER_ROOM && count == 99);
    WANT(out[0] == 0x55);
    WANT(sedge_commander_unstored(&commander, out, 1100, &count) == 0 && count == wanted && out[count] == 0x55);
    WANT(memcmp(out, octets, count) == 0);
    WANT(sedge_commander_stored(&commander, wanted - 1) == SEDGE_LEDGER_ABSENT);
    WANT(acts(SEDGE_COMMANDER_STORE).count == wanted);
    WANT(sedge_commander_stored(&commander, wanted) == 0);
}

/* This is due to be told. An action that differs in kind or value is not, and changes nothing. */
static void tells(uint8_t kind, uint64_t tag, uint32_t number, uint32_t last) {
    struct sedge_commander_action action = acts(kind), wrong = action;
    WANT(action.tag == tag && action.number == number && action.last == last);
    wrong.kind = SEDGE_COMMANDER_SEND;
    WANT(sedge_commander_told(&commander, &wrong) == SEDGE_LEDGER_ABSENT);
    wrong.kind = kind == SEDGE_COMMANDER_UNKNOWN ? SEDGE_COMMANDER_EXECUTED : SEDGE_COMMANDER_UNKNOWN;
    WANT(sedge_commander_told(&commander, &wrong) == SEDGE_LEDGER_ABSENT);
    wrong = action;
    wrong.tag++, wrong.number++;
    WANT(sedge_commander_told(&commander, &wrong) == SEDGE_LEDGER_ABSENT);
    DONE(sedge_commander_told(&commander, &action), SEDGE_LEDGER_MEMORY);
    WANT(sedge_commander_told(&commander, &action) == SEDGE_LEDGER_ABSENT);
}

/* This frame is sent, and the octets after it stay. */
static void sends(const uint8_t *octets, size_t count) {
    WANT(acts(SEDGE_COMMANDER_SEND).count == count && memcmp(out, octets, count) == 0 && out[count] == 0x55);
}

static void rests(void) {
    acts(SEDGE_COMMANDER_NOTHING);
    WANT(sedge_commander_stored(&commander, 35) == SEDGE_LEDGER_ABSENT);
}

static void is_read(uint32_t below, uint32_t highest, uint8_t worth) {
    struct sedge_commander_reading read = {99, 99, 99};
    WANT(sedge_commander_read(&commander, &read) == 0 && read.below == below && read.highest == highest);
    WANT(read.worth == worth);
}

static void has_progress(uint32_t number, uint8_t wanted) {
    uint8_t progress = 77;
    WANT(sedge_commander_progress(&commander, number, &progress) == 0 && progress == wanted);
}

static void has_no_progress(uint32_t number) {
    uint8_t progress = 77;
    WANT(sedge_commander_progress(&commander, number, &progress) == SEDGE_LEDGER_ABSENT && progress == 77);
}

static void passes(int ticks) {
    while (ticks-- > 0) WANT(sedge_commander_tick(&commander) == 0);
}

static void hears_word(const uint8_t *word) {
    struct sedge_heard heard = {77, 77, 77, 77, 77, 77, 77, 77};
    WANT(sedge_commander_clcw(&commander, word, 3, &heard) == SEDGE_LEDGER_ABSENT && heard.kind == 77);
    WANT(sedge_commander_clcw(&commander, word, 5, &heard) == SEDGE_LEDGER_ABSENT && heard.kind == 77);
    WANT(sedge_commander_clcw(&commander, word, 4, &heard) == 0 && heard.kind == SEDGE_HEARD_CLCW);
    WANT(heard.report == SEDGE_REPORT_USED && heard.packets == 0 && heard.word_fault == 0);
}

/* A commander whose only command is in the store. */
static void opens_with_command(void) {
    opens(many, 0, 0);
    is_read(0, 0, 0);
    rests();
    gives(1);
    has_progress(1, SEDGE_PROGRESS_WAITS);
    has_no_progress(0);
    has_no_progress(2);
    stores(GIVEN, sizeof GIVEN);
    is_read(0, 1, 0);
}

/* ---- Fates. ---- */

static void a_command_is_executed(void) {
    size_t count = 99;
    opens_with_command();
    WANT(sedge_commander_status(&commander, SAYS, 26) == SEDGE_LEDGER_LAYOUT);
    WANT(sedge_commander_status(&commander, many, 28) == SEDGE_LEDGER_LAYOUT);
    WANT(sedge_commander_status(&commander, many, 27) == SEDGE_LEDGER_CHECK);
    hears(CHANGES);
    hears(STARTS);
    rests();
    hears(SAYS);
    WANT(sedge_commander_fresh(&commander, out, 1100, &count) == SEDGE_LEDGER_OWING && count == 99);
    stores(HEARD, sizeof HEARD);
    WANT(sedge_commander_fresh(&commander, out, 0, &count) == SEDGE_LEDGER_OWING && count == 99);
    tells(SEDGE_COMMANDER_RESTARTED, 0, 1, 0);
    tells(SEDGE_COMMANDER_EXECUTED, TAG, 0, 0);
    stores(TOLD, sizeof TOLD);
    hears(SAYS);
    rests();
    has_no_progress(1);
    is_read(1, 1, 0);
    sedge_commander_close(&commander);
}

/* A fresh store has what the old one had, and is worth it when the old one has more than twice as many octets. */
static void a_store_is_renewed(void) {
    uint8_t store[83];
    size_t count = 99;
    uint8_t answer;
    memcpy(store, GIVEN, 35);
    memcpy(store + 35, HEARD, 30);
    memcpy(store + 65, TOLD, 18);
    opens(store, sizeof store, sizeof store);
    is_read(1, 1, 0);
    WANT(sedge_commander_renewed(&commander, 116) == 0);
    is_read(1, 1, 1);
    memset(out, 0x55, 1100);
    do answer = sedge_commander_fresh(&commander, out, sizeof FRESH - 1, &count);
    while (answer == SEDGE_LEDGER_MEMORY);
    WANT(answer == SEDGE_LEDGER_ROOM && count == 99 && out[0] == 0x55);
    DONE(sedge_commander_fresh(&commander, out, 58, &count), SEDGE_LEDGER_MEMORY);
    WANT(count == sizeof FRESH && memcmp(out, FRESH, count) == 0 && out[57] == 0x55);
    WANT(sedge_commander_renewed(&commander, count) == 0);
    is_read(1, 1, 0);
    opens(FRESH, sizeof FRESH, sizeof FRESH);
    is_read(1, 1, 0);
    gives(2);
    sedge_commander_close(&commander);
}

static void a_history_is_another(void) {
    opens_with_command();
    hears(OTHER);
    WANT(sedge_commander_stored(&commander, 30) == 0);
    tells(SEDGE_COMMANDER_RESTARTED, 0, 1, 0);
    tells(SEDGE_COMMANDER_FOREIGN, 0, 1, 1);
    tells(SEDGE_COMMANDER_UNKNOWN, TAG, 0, 0);
    sedge_commander_close(&commander);
}

static void a_record_is_lost(void) {
    opens_with_command();
    WANT(sedge_commander_rebuild(&commander) == SEDGE_LEDGER_NOT_LOST);
    hears(LOST);
    stores(LOSS, sizeof LOSS);
    tells(SEDGE_COMMANDER_RECORD_LOST, 0, 0x12345678, 0);
    WANT(sedge_commander_stored(&commander, 9) == 0);
    hears(LOST);
    rests();
    DONE(sedge_commander_rebuild(&commander), SEDGE_LEDGER_MEMORY);
    stores(ORDERED, sizeof ORDERED);
    sends(REBUILD_FRAME, sizeof REBUILD_FRAME);
    rests();
    passes(3);
    sends(REBUILD_FRAME, sizeof REBUILD_FRAME);
    WANT(sedge_commander_rebuild(&commander) == 0);
    hears(BROUGHT);
    WANT(sedge_commander_stored(&commander, 30) == 0);
    tells(SEDGE_COMMANDER_RESTARTED, 0, 65536, 0);
    tells(SEDGE_COMMANDER_UNKNOWN, TAG, 0, 0);
    WANT(sedge_commander_rebuild(&commander) == SEDGE_LEDGER_NOT_LOST);
    sedge_commander_close(&commander);
}

static void no_boot_count_is_left(void) {
    opens_with_command();
    hears(LAST_BOOT);
    WANT(sedge_commander_stored(&commander, 30) == 0);
    tells(SEDGE_COMMANDER_RESTARTED, 0, 0xffff0000, 0);
    tells(SEDGE_COMMANDER_EXECUTED, TAG, 0, 0);
    WANT(sedge_commander_stored(&commander, 18) == 0);
    hears(LOST);
    WANT(sedge_commander_stored(&commander, sizeof LOSS) == 0);
    tells(SEDGE_COMMANDER_RECORD_LOST, 0, 0x12345678, 0);
    WANT(sedge_commander_stored(&commander, 9) == 0);
    WANT(sedge_commander_rebuild(&commander) == SEDGE_LEDGER_NO_BOOT);
    rests();
    sedge_commander_close(&commander);
}

/* ---- Frames. ---- */

/* Nothing is sent before a silence has passed and a CLCW has come; then the session begins with an Unlock. */
static void begins(void) {
    opens_with_command();
    hears_word(LOCKED_WORD);
    rests();
    passes(2);
    hears_word(LOCKED_WORD);
    rests();
    passes(1);
    rests();
    hears_word(LOCKED_WORD);
    sends(UNLOCK, sizeof UNLOCK);
    has_progress(1, SEDGE_PROGRESS_WAITS);
}

static void a_command_is_sent(void) {
    struct sedge_ground_reading read;
    begins();
    WANT(sedge_commander_read_ground(&commander, &read) == 0 && read.state == SEDGE_FOP_S5 && read.vs == 7);
    rests();
    hears_word(WORD);
    sends(FIRST_FRAME, sizeof FIRST_FRAME);
    has_progress(1, SEDGE_PROGRESS_SENT);
    rests();
    hears_word((const uint8_t[4]){0x01, 0x08, 0x00, 0x08});
    has_progress(1, SEDGE_PROGRESS_ON_BOARD);
    WANT(sedge_commander_read_ground(&commander, &read) == 0 && read.state == SEDGE_FOP_S1 && read.nn == 8);
    WANT(read.submitted == 1 && read.acknowledged_whole == 1 && read.frame_length == 64);
    sedge_commander_close(&commander);
}

/* While sending is held nothing begins; a board that has just been heard of holds it, if the mission says so. */
static void sending_is_held(void) {
    mission.holds = 1;
    opens_with_command();
    mission.holds = 0;
    hears(STARTED);
    WANT(sedge_commander_stored(&commander, 30) == 0);
    tells(SEDGE_COMMANDER_RESTARTED, 0, 1, 0);
    WANT(sedge_commander_stored(&commander, 9) == 0);
    passes(3);
    hears_word(WORD);
    rests();
    WANT(sedge_commander_go_on(&commander) == 0 && sedge_commander_pause(&commander) == 0);
    rests();
    WANT(sedge_commander_go_on(&commander) == 0);
    sends(UNLOCK, sizeof UNLOCK);
    sedge_commander_close(&commander);
}

/* The order to restart has the known boot count, and is sent again a round trip later, until there is another. */
static void a_board_is_restarted(void) {
    uint8_t store[83];
    memcpy(store, GIVEN, 35);
    memcpy(store + 35, HEARD, 30);
    memcpy(store + 65, TOLD, 18);
    opens(store, sizeof store, sizeof store);
    WANT(sedge_commander_restart_board(&commander) == 0);
    sends(RESTART_FRAME, sizeof RESTART_FRAME);
    rests();
    passes(2);
    rests();
    passes(1);
    sends(RESTART_FRAME, sizeof RESTART_FRAME);
    passes(3);
    hears(LAST_BOOT);
    WANT(sedge_commander_stored(&commander, 30) == 0);
    tells(SEDGE_COMMANDER_RESTARTED, 0, 0xffff0000, 0);
    WANT(sedge_commander_stored(&commander, 9) == 0);
    rests();
    sedge_commander_close(&commander);
}

/* The timer raises an alert, which is the next action; and the commander begins again by itself. */
static void an_alert(void) {
    config.limit = 1;
    begins();
    config.limit = 3;
    rests();
    passes(10);
    WANT(acts(SEDGE_COMMANDER_ALERT).alert == SEDGE_ALERT_TIMER);
    rests();
    passes(3);
    hears_word(LOCKED_WORD);
    sends(UNLOCK, sizeof UNLOCK);
    sedge_commander_close(&commander);
}

/* ---- Telemetry. ---- */

/* A telemetry frame of a board arrives, with this packet. */
static void comes_down(const uint8_t *packet, size_t wanted) {
    struct sedge_spacecraft spacecraft = {0};
    struct sedge_heard heard = {77, 77, 77, 77, 77, 77, 77, 77};
    size_t count = 0;
    DONE(sedge_spacecraft_open(&spacecraft, &config), SEDGE_NODE_MEMORY);
    DONE(sedge_spacecraft_telemetry(&spacecraft, packet, wanted), SEDGE_TM_MEMORY);
    WANT(sedge_spacecraft_telemetry_frame(&spacecraft, out, 64, &count) == 0 && count == 64);
    DONE(sedge_commander_telemetry(&commander, out, 64, &heard), SEDGE_LEDGER_MEMORY);
    WANT(heard.kind == SEDGE_HEARD_FRAME && heard.packets == 1 && heard.report == SEDGE_REPORT_USED);
    sedge_spacecraft_close(&spacecraft);
}

/* The packet is taken; if it is a status, the commander has it too. */
static void is_taken(const uint8_t *packet, size_t wanted) {
    size_t count = 99;
    acts(SEDGE_COMMANDER_TELEMETRY);
    WANT(sedge_commander_next_telemetry(&commander, &count) == 0 && count == wanted);
    memset(out, 0x55, 1100);
    WANT(sedge_commander_take_telemetry(&commander, out, wanted - 1, &count) == SEDGE_LEDGER_ROOM);
    WANT(count == wanted && out[0] == 0x55);
    DONE(sedge_commander_take_telemetry(&commander, out, 1100, &count), SEDGE_LEDGER_MEMORY);
    WANT(count == wanted && memcmp(out, packet, count) == 0 && out[count] == 0x55);
    WANT(sedge_commander_next_telemetry(&commander, &count) == 0 && count == 0);
}

static void a_status_in_telemetry(void) {
    struct sedge_heard heard = {77, 77, 77, 77, 77, 77, 77, 77};
    uint8_t other[sizeof PACKET];
    size_t count = 99;
    opens_with_command();
    WANT(sedge_commander_next_telemetry(&commander, &count) == 0 && count == 0);
    count = 99;
    WANT(sedge_commander_take_telemetry(&commander, out, 0, &count) == 0 && count == 0);
    DONE(sedge_commander_telemetry(&commander, many, 64, &heard), SEDGE_LEDGER_MEMORY);
    WANT(heard.kind == SEDGE_HEARD_INVALID && heard.packets == 0);
    memcpy(other, PACKET, sizeof other);
    other[1] = 3; /* another APID */
    comes_down(other, sizeof other);
    is_taken(other, sizeof other);
    rests();
    other[1] = 2;
    other[32] ^= 1; /* a check that does not match */
    comes_down(other, sizeof other);
    is_taken(other, sizeof other);
    rests();
    comes_down(PACKET, sizeof PACKET);
    is_taken(PACKET, sizeof PACKET);
    stores(HEARD, sizeof HEARD);
    sedge_commander_close(&commander);
}

/* ---- Refusals. ---- */

/* Each refusal before those that come after it. */
static void commanders_that_do_not_open(void) {
    struct sedge_config usual = config;
    size_t good = 99;
#define OPENS sedge_commander_open(&commander, &config, &mission, GIVEN, sizeof GIVEN, &good)
    mission.orders = 2047, mission.holds = 2, config.part = 22;
    WANT(OPENS == SEDGE_LEDGER_OUT_OF_RANGE);
    mission.holds = 0, config.width = 3;
    WANT(OPENS == SEDGE_LEDGER_OUT_OF_RANGE);
    config.width = usual.width;
    WANT(OPENS == SEDGE_LEDGER_FIELD_RANGE);
    mission.orders = ORDERS, config.maps = ~(uint64_t)1;
    WANT(OPENS == SEDGE_LEDGER_FIELD_RANGE);
    config.maps = usual.maps, mission.map = 64;
    WANT(OPENS == SEDGE_LEDGER_FIELD_RANGE);
    mission.map = 0;
    WANT(OPENS == SEDGE_LEDGER_TOO_LONG);
    config.part = 23, config.max_packet = 22;
    WANT(OPENS == SEDGE_LEDGER_TOO_LONG && good == 99 && commander.node == NULL);
    config.max_packet = 23;
    opens(GIVEN, 0, 0);
    config.part = 22;
    WANT(OPENS == SEDGE_LEDGER_TOO_LONG && commander.node != NULL);
#undef OPENS
    config = usual;
    is_read(0, 0, 0);
    sedge_commander_close(&commander);
}

static uint8_t refused(uint8_t map, uint16_t apid, uint16_t sequence, size_t count) {
    uint32_t number = 99;
    uint8_t answer = sedge_commander_command(&commander, TAG, map, apid, sequence, many, count, &number);
    WANT(answer == 0 || number == 99);
    return answer;
}

static void commands_that_are_refused(void) {
    struct sedge_config usual = config;
    config.maps = 9, config.part = 23, config.queue_slots = 4, config.max_packet = 100;
    opens(LAST_NUMBER, sizeof LAST_NUMBER, sizeof LAST_NUMBER);
    is_read(0xffffffff, 0xffffffff, 0);
    WANT(refused(2, 5, 0, 79) == SEDGE_LEDGER_FIELD_RANGE && refused(64, 5, 0, 1) == SEDGE_LEDGER_FIELD_RANGE);
    WANT(refused(3, 2047, 0, 79) == SEDGE_LEDGER_FIELD_RANGE && refused(3, 2048, 0, 79) == SEDGE_LEDGER_FIELD_RANGE);
    WANT(refused(3, 5, 16384, 79) == SEDGE_LEDGER_FIELD_RANGE && refused(3, 5, 0, 65529) == SEDGE_LEDGER_FIELD_RANGE);
    WANT(refused(3, 5, 0, 65528) == SEDGE_LEDGER_TOO_LONG && refused(3, 2046, 16383, 79) == SEDGE_LEDGER_TOO_LONG);
    WANT(refused(3, 2046, 16383, 78) == SEDGE_LEDGER_NO_NUMBER && refused(3, 5, 0, 0) == SEDGE_LEDGER_NO_NUMBER);
    rests();
    config.queue_slots = 10; /* now the longest packet decides */
    opens(LAST_NUMBER, sizeof LAST_NUMBER, sizeof LAST_NUMBER);
    WANT(refused(3, 5, 0, 87) == SEDGE_LEDGER_TOO_LONG && refused(3, 5, 0, 86) == SEDGE_LEDGER_NO_NUMBER);
    config = usual;
    sedge_commander_close(&commander);
}

static struct sedge_ground_reading nothing_read(void) {
    struct sedge_ground_reading read;
    memset(&read, 77, sizeof read);
    return read;
}

static void commanders_that_are_none(void) {
    struct sedge_commander none = {0};
    struct sedge_commander_action action = {77, 77, 77, 77, SEDGE_COMMANDER_EXECUTED, 77};
    struct sedge_commander_reading read = {77, 77, 77};
    struct sedge_ground_reading ground_read = nothing_read(), unread = nothing_read();
    struct sedge_heard heard = {77, 77, 77, 77, 77, 77, 77, 77};
    uint32_t number = 77;
    size_t count = 77;
    uint8_t progress = 77;
    out[0] = 77;
    WANT(sedge_commander_command(&none, TAG, 3, 5, 44, CONTENT, 3, &number) == 255 && number == 77);
    WANT(sedge_commander_telemetry(&none, many, 64, &heard) == 255 && heard.kind == 77);
    WANT(sedge_commander_clcw(&none, WORD, 4, &heard) == 255 && sedge_commander_clcw(&none, WORD, 3, &heard) == 255);
    WANT(heard.kind == 77 && sedge_commander_status(&none, SAYS, 27) == 255);
    WANT(sedge_commander_status(&none, SAYS, 26) == 255 && sedge_commander_tick(&none) == 255);
    WANT(sedge_commander_next(&none, &action, out, 1024) == 255 && sedge_commander_next(&none, &action, out, 0) == 255);
    WANT(action.tag == 77 && action.kind == SEDGE_COMMANDER_EXECUTED);
    WANT(sedge_commander_unstored(&none, out, 1024, &count) == 255 && sedge_commander_stored(&none, 0) == 255);
    WANT(sedge_commander_told(&none, &action) == 255 && sedge_commander_next_telemetry(&none, &count) == 255);
    WANT(sedge_commander_take_telemetry(&none, out, 1024, &count) == 255);
    WANT(sedge_commander_progress(&none, 1, &progress) == 255 && progress == 77);
    WANT(sedge_commander_pause(&none) == 255 && sedge_commander_go_on(&none) == 255);
    WANT(sedge_commander_restart_board(&none) == 255 && sedge_commander_rebuild(&none) == 255);
    WANT(sedge_commander_read(&none, &read) == 255 && read.below == 77 && read.highest == 77 && read.worth == 77);
    WANT(sedge_commander_read_ground(&none, &ground_read) == 255);
    WANT(memcmp(&ground_read, &unread, sizeof unread) == 0);
    WANT(sedge_commander_fresh(&none, out, 1024, &count) == 255 && sedge_commander_renewed(&none, 0) == 255);
    WANT(count == 77 && out[0] == 77);
    sedge_commander_close(&none);
    WANT(none.node == NULL);
}

static void names(void) {
    WANT(strcmp(sedge_ledger_fault_name(SEDGE_LEDGER_LAYOUT).text, "Layout") == 0);
    WANT(strcmp(sedge_ledger_fault_name(SEDGE_LEDGER_MEMORY).text, "Memory") == 0);
    WANT(strcmp(sedge_ledger_fault_name(0).text, "?") == 0 && strcmp(sedge_ledger_fault_name(10).text, "?") == 0);
    WANT(strcmp(sedge_ledger_fault_name(SEDGE_LEDGER_ROOM).text, "?") == 0);
}

/* ---- Stores that are cut off. ---- */

/* Of a store that is cut off at any octet, the whole entries are good, and what they say is known. */
static void stores_that_are_cut_off(void) {
    uint8_t store[83];
    memcpy(store, GIVEN, 35);
    memcpy(store + 35, HEARD, 30);
    memcpy(store + 65, TOLD, 18);
    for (size_t count = 0; count <= sizeof store; count++) {
        size_t good = count < 35 ? 0 : count < 65 ? 35 : count < 74 ? 65 : count < 83 ? 74 : 83;
        opens(store, count, good);
        is_read(good >= 65, good >= 35, 0);
        if (good < 35) rests();
        if (good == 65) tells(SEDGE_COMMANDER_RESTARTED, 0, 1, 0);
        if (good == 74) tells(SEDGE_COMMANDER_EXECUTED, TAG, 0, 0);
        if (good == 83) rests();
    }
    for (size_t octet = 0; octet < 35; octet++) { /* an entry with a wrong octet ends the store */
        store[octet] ^= 1;
        opens(store, sizeof store, 0);
        is_read(0, 0, 0);
        store[octet] ^= 1;
    }
    opens(store + 35, 30, 30);
    gives(2); /* the board has reached number 1 */
    sedge_commander_close(&commander);
    WANT(commander.node == NULL);
}

/* A ground that is opened at an older store says whose the numbers are not, and gives none of them again. */
static void an_older_store(void) {
    opens(many, 0, 0);
    hears(SAYS);
    stores(HEARD, sizeof HEARD);
    tells(SEDGE_COMMANDER_RESTARTED, 0, 1, 0);
    tells(SEDGE_COMMANDER_FOREIGN, 0, 1, 1);
    stores(TOLD, sizeof TOLD);
    rests();
    is_read(1, 1, 0);
    gives(2);
    sedge_commander_close(&commander);
}

/* ---- A session in which an end is killed at each of its actions. ---- */

static uint32_t state;
static long points, cut_at = -1;
/* Whether a copy of the record is spoiled when the board is killed, or both are. */
static bool spoils, loses;

static uint32_t draw(uint32_t below) {
    state = state * 1664525 + 1013904223;
    return (state >> 16) % below;
}

static bool is_cut_off(enum end end) {
    (void)end;
    return points++ == cut_at;
}

static void starts_again(void) {
    sedge_spacecraft_close(&board.node);
    spoil(spoils && now > 1, loses && now > 1 && !has_lost);
    board_starts();
}

static void one_tick(uint32_t commands_wanted) {
    board_hears();
    for (int left = 5; left > 0; left--) {
        int done = board_acts();
        if (done == 0) break;
        if (done == 2) starts_again();
    }
    board_reports();
    ground_hears();
    if (!ground.is_open) ground_opens(false);
    if (given < commands_wanted && now % 3 == 0) ground_gives(20);
    if (ground.is_lost) {
        uint8_t answer;
        do answer = sedge_commander_rebuild(&ground.commander);
        while (answer == SEDGE_LEDGER_MEMORY);
        WANT(answer == 0 || answer == SEDGE_LEDGER_NOT_LOST);
        ground.is_lost = answer == 0;
    }
    if (now == 30) WANT(sedge_commander_restart_board(&ground.commander) == 0);
    while (ground_acts()) {
    }
    if (now % 20 == 19 && ground.is_open) ground_renews();
    if (ground.is_open) WANT(sedge_commander_tick(&ground.commander) == 0);
    now++;
}

/* Plays a session of so many commands, of which each gets its fate. */
static void plays(uint32_t commands_wanted) {
    begin_session();
    state = 7;
    points = 0;
    config.part = 30; /* so that commands have several segments */
    up.losses = down.losses = 3;
    board_starts();
    ground_opens(false);
    while (now < 40) one_tick(commands_wanted);
    up.losses = down.losses = 0;
    while (now < 300 && !(ground.is_open && is_all_told())) one_tick(commands_wanted);
    WANT(ground.is_open && is_all_told() && given == commands_wanted);
    WANT(cut_at >= 0 || ground.restarts == 2);
    end_session();
    if (has_cut || has_lost) return;
    for (uint32_t tag = 1; tag <= given; tag++) WANT(commands[tag].told == TOLD_EXECUTED || commands[tag].is_forgotten);
}

static void kills_at_each_action(void) {
    long all;
    plays(6);
    all = points;
    WANT(all > 100);
    for (cut_at = 0; cut_at < all; cut_at++) {
        spoils = loses = false;
        plays(6);
        spoils = true;
        plays(6);
        loses = true;
        plays(6);
    }
    cut_at = -1;
    spoils = loses = false;
}

static void with_memory(void) {
    begin_session();
    mission.round_trip = 2;
    a_command_is_executed();
    a_store_is_renewed();
    a_history_is_another();
    a_record_is_lost();
    no_boot_count_is_left();
    a_command_is_sent();
    sending_is_held();
    a_board_is_restarted();
    an_alert();
    a_status_in_telemetry();
    commanders_that_do_not_open();
    an_older_store();
    plays(3);
}

int main(void) {
    long all;
    commanders_that_are_none();
    names();
    WANT(tried == 0);
    with_memory();
    all = tried;
#ifndef OVER_MEMORY
    WANT(all > 0);
#endif
    for (refused_at = 0; refused_at < all; refused_at++) {
        tried = 0;
        with_memory();
        WANT(live == 0);
    }
    begin_session();
    commands_that_are_refused();
    stores_that_are_cut_off();
    kills_at_each_action();
    WANT(live == 0);
    printf(failures ? "%d failed\n" : "all as wanted, %d failed of %ld allocations\n", failures, all);
    return failures != 0;
}
