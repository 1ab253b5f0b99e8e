/* A ground with a commander, and a board with a node and a struct sedge_log, over a link. Each end is killed at any
 * point if is_cut_off() of the file that includes this one says so; what it writes then is cut off at any octet. What
 * must hold of commands is checked as it happens: the numbers that are executed increase; a command that is reported
 * as executed was executed, whole; one that is reported as unknown is not executed later; fates are reported in order;
 * and each command that was stored has a fate when the link is good again (is_all_told).
 *
 * With -DPLANT=K one of the two programs makes a mistake, which the checks must find:
 *  1 the board executes a command before it writes that it begins
 *  2 the board writes that a command is executed, and executes it afterwards
 *  3 the board executes a command whose number is behind
 *  4 the ground reports a command as executed when it is acknowledged
 *  5 the board keeps one copy of its record
 *  6 the ground sends before the store is written
 *  7 the ground does not truncate its store before it appends
 *  8 the ground reports a fate after the store says that it is reported
 *  9 the board has the same mark at each start
 * 10 the ground writes a fresh store over the old one
 * 11 the board writes both copies of its record at once
 * 12 the board writes no record
 * 13 the board does not repair a copy at its start */
#ifndef COMMANDING_H
#define COMMANDING_H

#include <sedgechisel_nodes.h>
#include <stdio.h>
#include <stdlib.h>
#include <string.h>

#ifndef PLANT
#define PLANT 0
#endif

enum { COMMANDS = 40, STORE = 16384, FRAME = 160, WAY = 64, TAPE = 32, STATUS = 27, ORDERS = 6, STATUSES = 2, MAP = 3 };
enum end { BOARD, GROUND };

static int failures;

#define WANT(holds)                                                                                                    \
    do {                                                                                                               \
        if (!(holds) && failures++ < 20) printf("%s:%d: not so: %s\n", __FILE__, __LINE__, #holds);                    \
    } while (0)

/* Of the file that includes this one: a number below the limit, and whether this end is killed now. */
static uint32_t draw(uint32_t below);
static bool is_cut_off(enum end end);

/* A call that was refused for want of memory changed nothing, and is made again; if that never ends, the test does. */
static bool again(uint8_t answer, uint8_t memory) {
    static unsigned long times;
    WANT(answer == 0 || answer == memory);
    times = answer == memory ? times + 1 : 0;
    if (times < 1000) return answer == memory;
    puts("there is no memory");
    exit(3);
}

#define DONE(call, memory)                                                                                             \
    do {                                                                                                               \
    } while (again((call), (memory)))

/* ---- The link. ---- */

struct frame {
    long arrives;
    size_t count;
    uint8_t octets[FRAME];
};

/* One direction: frames arrive within `delay` ticks, in order, or are lost, `losses` of 16. If the direction is wild,
 * they also overtake each other, and come again at once or much later. */
struct way {
    uint32_t delay, losses;
    bool is_wild;
    long last;
    size_t count, taped;
    struct frame frames[WAY], tape[TAPE];
};

static struct way up, down;
static long now;

static void put(struct way *way, const struct frame *frame, long arrives) {
    size_t at;
    if (way->count == WAY) return;
    for (at = way->count++; at > 0 && way->frames[at - 1].arrives > arrives; at--)
        way->frames[at] = way->frames[at - 1];
    way->frames[at] = *frame;
    way->frames[at].arrives = arrives;
}

static void send_on(struct way *way, const uint8_t *octets, size_t count) {
    struct frame frame;
    long soonest = now + 1 + (long)draw(way->delay);
    WANT(count <= FRAME);
    frame.count = count;
    memcpy(frame.octets, octets, count);
    way->last = soonest > way->last ? soonest : way->last;
    if (draw(16) >= way->losses) put(way, &frame, way->last + (way->is_wild && draw(4) == 0 ? (long)draw(6) : 0));
    if (!way->is_wild) return;
    way->tape[way->taped++ % TAPE] = frame;
    if (draw(5) == 0) put(way, &frame, way->last + (long)draw(3));
    if (draw(5) == 0) {
        uint32_t old = draw((uint32_t)(way->taped < TAPE ? way->taped : TAPE));
        put(way, &way->tape[old], way->last + (long)draw(3));
    }
}

/* Takes the next frame that has arrived; whether there is one. */
static bool arrived(struct way *way, struct frame *frame) {
    if (way->count == 0 || way->frames[0].arrives > now) return false;
    *frame = way->frames[0];
    memmove(way->frames, way->frames + 1, --way->count * sizeof *frame);
    return true;
}

/* ---- The commands, by their tags. ---- */

enum { TOLD_EXECUTED = 1, TOLD_UNKNOWN = 2 };

static struct command {
    uint32_t number;
    bool is_begun, is_executed; /* its execution has begun; and it has ended */
    bool is_forgotten;          /* it was not stored when the ground was killed, so it was never sent */
    uint8_t told;
} commands[COMMANDS + 1];
static uint32_t given;

static struct sedge_config config;
static struct sedge_mission mission;
/* Of this session: whether both copies of a record were spoiled, a store that is not the last one was opened, and a
 * board was killed. */
static bool has_lost, has_old, has_cut;
/* How often numbers were told that are not the ground's. */
static unsigned long foreign;

/* ---- The board. ---- */

static struct {
    struct sedge_spacecraft node;
    struct sedge_log log;
    uint8_t places[2][50];
    uint32_t last, tag, number, marks, deferred;
    bool is_spoiled, is_repairing;
} board;

/* What was said last, and before. */
static uint8_t statuses[16][STATUS];
static uint32_t said;

/* A board that starts finds what is at its places. A mark is not used again. */
static void board_starts(void) {
    DONE(sedge_spacecraft_open(&board.node, &config), SEDGE_NODE_MEMORY);
    board.marks += PLANT == 9 ? 0 : 1;
    board.deferred = 0;
    board.is_repairing = true;
    sedge_log_start(&board.log, board.places[0], 50, board.places[1], 50, 7 + board.marks);
}

static bool is_same(void) {
    return memcmp(board.places[0], board.places[1], 50) == 0;
}

/* While the board is off, memory may be spoiled: one copy of the record if both are good, and then the board is not
 * killed until both are good again; or both, and the record is lost. */
static void spoil(bool is_one, bool are_both) {
    size_t octet = draw(50), place = draw(2);
    if (are_both) {
        has_lost = true;
        board.places[0][octet] ^= 1;
        board.places[1][octet] ^= 1;
    } else if (is_one && is_same()) {
        board.is_spoiled = PLANT != 13;
        board.places[place][octet] ^= (uint8_t)(1u << draw(8));
    }
}

static bool is_board_cut(void) {
    if (board.is_spoiled || !is_cut_off(BOARD)) return false;
    has_cut = true;
    return true;
}

/* Writes the octets to a place; whether the board is still there. */
static bool board_writes(size_t place, const uint8_t *octets) {
    size_t many = 50;
    bool is_cut;
    if (PLANT == 12 || (PLANT == 5 && place == 1) || (PLANT == 11 && place == 1)) return true;
    if (PLANT == 13 && board.is_repairing) {
        board.is_repairing = false;
        if (memcmp(board.places[1 - place], octets, 50) == 0) return true;
    }
    is_cut = is_board_cut();
    if (is_cut) many = draw(51);
    memcpy(board.places[place], octets, many);
    if (PLANT == 11) memcpy(board.places[1], octets, many);
    if (is_same()) board.is_spoiled = false;
    return !is_cut && !is_board_cut();
}

/* Executes the command with this tag and number; whether the board is still there. */
static bool board_executes(uint32_t tag, uint32_t number) {
    struct command *it = &commands[tag];
    WANT(tag > 0 && tag <= given && number == it->number && number > board.last);
    WANT(!it->is_begun && !it->is_forgotten && (it->told & TOLD_UNKNOWN) == 0);
    it->is_begun = true;
    board.last = number;
    if (is_board_cut()) return false;
    it->is_executed = true;
    return !is_board_cut();
}

static bool board_offers(const uint8_t *packet, size_t count) {
    struct sedge_part content = {0, 0};
    uint8_t answer = sedge_log_offer(&board.log, packet, count, &content);
    bool is_behind = PLANT == 3 && answer == SEDGE_LOG_BEHIND;
    WANT(answer <= SEDGE_LOG_AHEAD);
    if (answer != SEDGE_OK && !is_behind) return true;
    if (is_behind) content.from = 10;
    board.tag = packet[content.from];
    board.number = (uint32_t)packet[8] << 8 | packet[9];
    if (PLANT == 1 || is_behind) return board_executes(board.tag, board.number);
    return true;
}

/* Takes an order or a command that waits on board. Returns 0 if none waits, 1, or 2 if the board is killed. */
static int board_takes(void) {
    static uint8_t packet[1024];
    uint8_t map = 99;
    size_t count = 0;
    WANT(sedge_spacecraft_take_bypass(&board.node, &map, packet, sizeof packet, &count) == 0);
    if (count > 0) {
        WANT(map == mission.map && sedge_log_obey(&board.log, packet, count) <= SEDGE_LOG_OTHER_MARK);
        return 1;
    }
    if (PLANT == 2 && board.deferred > 0) {
        uint32_t number = board.deferred;
        board.deferred = 0;
        return board_executes(board.tag, number) ? 1 : 2;
    }
    WANT(sedge_spacecraft_take(&board.node, &map, packet, sizeof packet, &count) == 0);
    if (count == 0) return 0;
    WANT(map == MAP);
    return board_offers(packet, count) ? 1 : 2;
}

/* Does the board's next action. Returns 0 if there is none, 1, or 2 if the board is killed or restarts. */
static int board_acts(void) {
    uint8_t octets[50];
    uint32_t number = 99;
    uint8_t action = sedge_log_next(&board.log, octets, sizeof octets, &number);
    bool is_there = true;
    WANT(action <= SEDGE_LOG_RESTART);
    switch (action) {
    case SEDGE_LOG_NOTHING: return board_takes();
    case SEDGE_LOG_WRITE_FIRST: is_there = board_writes(0, octets); break;
    case SEDGE_LOG_WRITE_SECOND: is_there = board_writes(1, octets); break;
    case SEDGE_LOG_EXECUTE:
        WANT(number == board.number);
        if (PLANT == 2) board.deferred = number;
        else if (PLANT != 1) is_there = board_executes(board.tag, number);
        break;
    default: is_there = false;
    }
    if (!is_there) return 2;
    WANT(sedge_log_done(&board.log, action, number) == SEDGE_OK);
    return 1;
}

/* The board says how it is, in a packet of a telemetry frame. */
static void board_reports(void) {
    static const uint8_t header[6] = {0, STATUSES, 0xc0, 0, 0, STATUS - 1};
    uint8_t packet[6 + STATUS], frame[FRAME];
    struct sedge_spacecraft_reading read;
    size_t count = 0;
    WANT(sedge_spacecraft_read(&board.node, &read) == 0);
    memcpy(packet, header, sizeof header);
    WANT(sedge_log_status(&board.log, read.ready, packet + 6, STATUS) == SEDGE_OK);
    memcpy(statuses[said++ % 16], packet + 6, STATUS);
    DONE(sedge_spacecraft_telemetry(&board.node, packet, sizeof packet), SEDGE_TM_MEMORY);
    WANT(sedge_spacecraft_telemetry_frame(&board.node, frame, sizeof frame, &count) == 0);
    send_on(&down, frame, count);
}

/* ---- The ground. ---- */

/* A store, and the tags of its commands by their numbers. */
struct kept {
    uint8_t octets[STORE];
    size_t count;
    uint8_t tags[COMMANDS + 2];
};

static struct {
    struct sedge_commander commander;
    struct kept kept;
    size_t whole;       /* the octets of the store that were appended whole */
    uint32_t told;      /* the last number whose fate was told since the commander was opened */
    bool is_open, is_lost;
    struct sedge_commander_action late[COMMANDS]; /* reports that are made too late */
    size_t lates;
    uint8_t unwritten[2048]; /* octets that are appended too late */
    size_t unwritten_count;
    unsigned long alerts, restarts, fresh;
} ground;

static uint8_t out[SEDGE_PACKET_LONGEST];

/* What was not stored is forgotten: nothing of it was ever sent. */
static void forget_from(uint32_t number, bool is_old) {
    for (; number < COMMANDS + 2; number++) {
        if (ground.kept.tags[number] > 0 && !is_old) commands[ground.kept.tags[number]].is_forgotten = true;
        ground.kept.tags[number] = 0;
    }
}

static void ground_opens(bool is_old) {
    struct sedge_commander_reading read = {99, 99, 99};
    size_t good = 0;
    DONE(sedge_commander_open(&ground.commander, &config, &mission, ground.kept.octets, ground.kept.count, &good),
         SEDGE_LEDGER_MEMORY);
    WANT(good <= ground.kept.count && (is_old || good >= ground.whole));
    if (PLANT != 7) ground.kept.count = good;
    ground.whole = ground.kept.count;
    ground.is_open = true;
    ground.told = 0;
    ground.lates = ground.unwritten_count = 0;
    WANT(sedge_commander_read(&ground.commander, &read) == 0);
    forget_from(read.highest + 1, is_old);
}

static bool ground_dies(void) {
    sedge_commander_close(&ground.commander);
    WANT(ground.commander.node == NULL);
    ground.is_open = false;
    return false;
}

/* Tells the user. */
static void report(const struct sedge_commander_action *action) {
    struct command *it = &commands[action->tag <= COMMANDS ? action->tag : 0];
    uint8_t told = action->kind == SEDGE_COMMANDER_EXECUTED ? TOLD_EXECUTED : TOLD_UNKNOWN;
    WANT(action->tag > 0 && action->tag <= given && ground.kept.tags[it->number] == action->tag);
    WANT(told == TOLD_UNKNOWN || it->is_executed);
    WANT(told == TOLD_EXECUTED || has_cut || has_lost || has_old);
    WANT(it->told == 0 || it->told == told || has_old);
    WANT(it->number > ground.told);
    for (uint32_t k = 1; k < it->number; k++) WANT(ground.kept.tags[k] == 0 || commands[ground.kept.tags[k]].told > 0);
    ground.told = it->number;
    it->told |= told;
}

static void tell(const struct sedge_commander_action *action) {
    switch (action->kind) {
    case SEDGE_COMMANDER_EXECUTED: case SEDGE_COMMANDER_UNKNOWN:
        if (PLANT == 8 && ground.lates < COMMANDS) ground.late[ground.lates++] = *action;
        else report(action);
        break;
    case SEDGE_COMMANDER_RESTARTED: ground.restarts++; break;
    case SEDGE_COMMANDER_RECORD_LOST:
        WANT(has_lost);
        ground.is_lost = true;
        break;
    default:
        WANT(action->kind == SEDGE_COMMANDER_FOREIGN && (has_lost || has_old) && action->last >= action->number);
        foreign++;
    }
}

/* Appends what is due to the store; whether the ground is still there. */
static bool ground_stores(size_t due) {
    size_t count = 0, free = STORE - ground.kept.count;
    uint8_t *end = ground.kept.octets + ground.kept.count;
    bool is_cut = PLANT != 6 && is_cut_off(GROUND);
    WANT(sedge_commander_unstored(&ground.commander, end, free, &count) == 0 && count == due);
    if (PLANT == 6) {
        memcpy(ground.unwritten + ground.unwritten_count, end, count);
        ground.unwritten_count += count;
    } else {
        ground.kept.count += is_cut ? draw((uint32_t)count + 1) : count;
    }
    if (is_cut) return ground_dies();
    if (PLANT != 6) ground.whole = ground.kept.count;
    if (is_cut_off(GROUND)) return ground_dies();
    WANT(sedge_commander_stored(&ground.commander, count) == 0);
    return true;
}

/* What the ground does too late. */
static void does_late(void) {
    for (size_t k = 0; k < ground.lates; k++) report(&ground.late[k]);
    memcpy(ground.kept.octets + ground.kept.count, ground.unwritten, ground.unwritten_count);
    ground.kept.count += ground.unwritten_count;
    ground.lates = ground.unwritten_count = 0;
}

/* Reports by what is acknowledged, as a ground must not. */
static void report_by_progress(void) {
    for (uint32_t k = 1; PLANT == 4 && k < COMMANDS + 2; k++) {
        struct sedge_commander_action action = {ground.kept.tags[k], 0, 0, 0, SEDGE_COMMANDER_EXECUTED, 0};
        uint8_t progress = 0;
        if (sedge_commander_progress(&ground.commander, k, &progress) == 0 && progress == SEDGE_PROGRESS_ON_BOARD
            && commands[action.tag].told == 0)
            report(&action);
    }
}

/* The ground's next action; whether there was one, and the ground is still there. */
static bool ground_acts(void) {
    struct sedge_commander_action action = {77, 77, 77, 77, 77, 77};
    size_t count = 0;
    DONE(sedge_commander_next(&ground.commander, &action, out, sizeof out), SEDGE_LEDGER_MEMORY);
    if (is_cut_off(GROUND)) return ground_dies();
    switch (action.kind) {
    case SEDGE_COMMANDER_NOTHING:
        report_by_progress();
        does_late();
        return false;
    case SEDGE_COMMANDER_STORE: return ground_stores(action.count);
    case SEDGE_COMMANDER_ALERT: ground.alerts++; return true;
    case SEDGE_COMMANDER_TELEMETRY:
        DONE(sedge_commander_take_telemetry(&ground.commander, out, sizeof out, &count), SEDGE_LEDGER_MEMORY);
        return true;
    case SEDGE_COMMANDER_SEND: send_on(&up, out, action.count); break;
    default:
        tell(&action);
        if (is_cut_off(GROUND)) return ground_dies();
        DONE(sedge_commander_told(&ground.commander, &action), SEDGE_LEDGER_MEMORY);
    }
    return is_cut_off(GROUND) ? ground_dies() : true;
}

static void ground_gives(size_t most) {
    uint8_t content[COMMANDS * 2] = {0};
    uint32_t number = 0;
    struct sedge_commander_reading read = {99, 99, 99};
    size_t count = 1 + draw((uint32_t)most);
    content[0] = (uint8_t)++given;
    memset(content + 1, (int)given, count - 1);
    WANT(sedge_commander_read(&ground.commander, &read) == 0);
    DONE(sedge_commander_command(&ground.commander, given, MAP, 5, (uint16_t)given, content, count, &number),
         SEDGE_LEDGER_MEMORY);
    WANT(number == read.highest + 1 && number < COMMANDS + 2 && ground.kept.tags[number] == 0);
    commands[given].number = number;
    ground.kept.tags[number] = (uint8_t)given;
}

/* Replaces the store by a fresh one, if there is nothing that must be stored or told first. */
static void ground_renews(void) {
    size_t count = 0;
    uint8_t answer;
    do answer = sedge_commander_fresh(&ground.commander, out, STORE, &count);
    while (answer == SEDGE_LEDGER_MEMORY);
    WANT(answer == 0 || answer == SEDGE_LEDGER_OWING);
    if (answer != 0) return;
    if (is_cut_off(GROUND)) {
        if (PLANT == 10) {
            memcpy(ground.kept.octets, out, ground.kept.count = draw((uint32_t)count));
            ground.whole = 0;
        }
        ground_dies();
        return;
    }
    memcpy(ground.kept.octets, out, count);
    ground.kept.count = ground.whole = count;
    ground.fresh++;
    WANT(sedge_commander_renewed(&ground.commander, count) == 0);
}

/* Frames arrive on the ground. */
static void ground_hears(void) {
    struct frame frame;
    struct sedge_heard heard;
    while (arrived(&down, &frame)) {
        if (!ground.is_open) continue;
        DONE(sedge_commander_telemetry(&ground.commander, frame.octets, frame.count, &heard), SEDGE_LEDGER_MEMORY);
        WANT(heard.kind == SEDGE_HEARD_FRAME && heard.report == SEDGE_REPORT_USED);
    }
}

/* Frames arrive on board. */
static void board_hears(void) {
    struct frame frame;
    struct sedge_received received;
    while (arrived(&up, &frame)) {
        DONE(sedge_spacecraft_receive(&board.node, frame.octets, frame.count, &received), SEDGE_NODE_MEMORY);
        WANT(received.kind >= SEDGE_RECEIVED_AD);
    }
}

/* ---- Sessions. ---- */

static void begin_session(void) {
    memset(&up, 0, sizeof up);
    memset(&down, 0, sizeof down);
    memset(commands, 0, sizeof commands);
    memset(&board, 0, sizeof board);
    memset(&ground, 0, sizeof ground);
    now = 0;
    given = said = 0;
    foreign = 0;
    has_lost = has_old = has_cut = false;
    up.delay = down.delay = 1;
    sedge_config_default(&config);
    mission.round_trip = 4;
    mission.orders = ORDERS;
    mission.status = STATUSES;
    mission.map = 0;
    mission.holds = 0;
    WANT(sedge_log_new_record(board.places[0], 50) == SEDGE_OK);
    if (PLANT != 5) memcpy(board.places[1], board.places[0], 50);
}

static void end_session(void) {
    sedge_commander_close(&ground.commander);
    sedge_spacecraft_close(&board.node);
}

/* Whether each command of the store has a fate, and all is at rest. */
static bool is_all_told(void) {
    struct sedge_commander_reading read = {99, 99, 99};
    WANT(sedge_commander_read(&ground.commander, &read) == 0);
    for (uint32_t k = 1; k <= read.highest && k < COMMANDS + 2; k++)
        if (ground.kept.tags[k] > 0 && commands[ground.kept.tags[k]].told == 0) return false;
    return read.below == read.highest;
}

#endif
