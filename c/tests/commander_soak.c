/* Plays random sessions of a commander with a board: `commander_soak SESSIONS [SEED]`. Either end is killed at any
 * action, and what it writes then is cut off at any octet. One copy of the board's record is spoiled while both are
 * good; in some sessions both are, and the record is rebuilt. In some the ground is opened at an older store, and
 * later again at the one that it left. In half of them the link not only loses frames: frames overtake each other and
 * come again, at once or much later, and so do statuses. The store is replaced by a fresh one at times, the operator
 * pauses, goes on and restarts the board, and in some sessions the round trip is set too short. At last the link is
 * good, and every command that is in the store must get its fate. commanding.h contains both ends and the checks.
 *
 * Writes how often what happened, and ends with 0 if all is as wanted. 10,000 sessions take some seconds. Compiled
 * with -DPLANT=K, one end makes the mistake K of commanding.h, and 3,000 sessions must find it: the program ends
 * with 1. */
#include "commanding.h"

static uint64_t state = 0x9e3779b97f4a7c15u;

/* A number below the limit (xorshift64*, Marsaglia and Vigna). */
static uint32_t draw(uint32_t below) {
    state ^= state >> 12;
    state ^= state << 25;
    state ^= state >> 27;
    return (uint32_t)((state * 2685821657736338717u) >> 33) % below;
}

/* Of a session: how rarely each end is killed, or 0 for never; whether the record is lost at times, a copy spoiled, an
 * older store opened, and the board restarted on purpose; and whether all this still goes on. */
static struct {
    uint32_t kills[2];
    bool loses, spoils, has_olds, restarts, is_hostile;
    struct kept left[2];
} session;

/* What happened in all sessions. */
static struct {
    unsigned long sessions, ticks, commands, executed, unknown, foreign, losses, cuts, deaths, olds, restarts;
    unsigned long alerts, fresh;
} all;

static bool is_cut_off(enum end end) {
    if (!session.is_hostile || session.kills[end] == 0 || draw(session.kills[end]) > 0) return false;
    if (end == BOARD) all.cuts++;
    else all.deaths++;
    return true;
}

static void any_config(void) {
    uint32_t delay = 1 + draw(4), window = 1 + draw(10);
    up.delay = down.delay = delay;
    up.losses = draw(6), down.losses = draw(6);
    up.is_wild = down.is_wild = draw(2) == 0;
    config.window = window;
    config.width = 2 * window + 2 * draw(4);
    config.limit = 1 + draw(4);
    config.timer = 2 * delay + 1 + draw(4);
    config.part = 23 + draw(60);
    config.ready_slots = 1 + draw(6);
    config.queue_slots = draw(2) == 0 ? 100 : 5;
    config.frame_length = 48 + draw(40);
    mission.round_trip = draw(4) == 0 ? draw(3) : 2 * delay + 2;
    mission.holds = draw(4) == 0;
    session.kills[BOARD] = draw(3) == 0 ? 0 : 10 + draw(300);
    session.kills[GROUND] = draw(3) == 0 ? 0 : 20 + draw(400);
    session.spoils = draw(2) == 0;
    session.has_olds = session.kills[GROUND] > 0 && draw(3) == 0;
    session.loses = session.kills[BOARD] > 0 && !session.has_olds && draw(2) == 0;
    session.restarts = draw(3) == 0;
    session.is_hostile = true;
}

/* ---- The board. ---- */

static void board_restarts(void) {
    bool is_lost = session.is_hostile && session.loses && draw(4) == 0;
    sedge_spacecraft_close(&board.node);
    spoil(session.is_hostile && session.spoils && draw(2) == 0, is_lost);
    all.restarts++;
    board_starts();
}

static void board_works(void) {
    board_hears();
    for (uint32_t left = 1 + draw(8); left > 0; left--) {
        int done = board_acts();
        if (done == 0) break;
        if (done == 2) board_restarts();
    }
    if (draw(16) > 0) board_reports();
}

/* ---- The ground. ---- */

/* A ground that was killed opens its store, or one that was kept before; then the one that it leaves is kept. */
static void ground_returns(void) {
    struct kept *left = &session.left[draw(2)];
    bool is_old = session.is_hostile && session.has_olds && left->count > 0 && draw(2) == 0;
    if (is_old) {
        static struct kept now_left;
        now_left = ground.kept;
        ground.kept = *left;
        *left = now_left;
        has_old = true;
        all.olds++;
    }
    ground_opens(is_old);
}

/* What comes without a packet: a status that was sent at some time, and the board's CLCW. */
static void hears_besides(void) {
    struct sedge_spacecraft_reading read;
    struct sedge_heard heard;
    uint8_t word[4];
    uint32_t many = said < 16 ? said : 16;
    if (up.is_wild && many > 0 && draw(4) == 0)
        DONE(sedge_commander_status(&ground.commander, statuses[draw(many)], STATUS), SEDGE_LEDGER_MEMORY);
    if (up.is_wild || draw(16) > 0) return;
    WANT(sedge_spacecraft_read(&board.node, &read) == 0);
    word[0] = (uint8_t)(read.status << 2 | 1);
    word[1] = (uint8_t)(read.vcid << 2);
    word[2] = (uint8_t)(read.flags | read.farm_b << 1);
    word[3] = read.value;
    if (down.count == 0) WANT(sedge_commander_clcw(&ground.commander, word, 4, &heard) == 0);
}

static void operates(void) {
    if (ground.is_lost && draw(10) == 0) {
        uint8_t answer;
        do answer = sedge_commander_rebuild(&ground.commander);
        while (answer == SEDGE_LEDGER_MEMORY);
        WANT(answer == 0 || answer == SEDGE_LEDGER_NOT_LOST);
        if (answer == SEDGE_LEDGER_NOT_LOST) ground.is_lost = false;
    }
    if (session.is_hostile && draw(60) == 0) WANT(sedge_commander_pause(&ground.commander) == 0);
    if (!session.is_hostile || draw(10) == 0) WANT(sedge_commander_go_on(&ground.commander) == 0);
    if (session.is_hostile && session.restarts && draw(60) == 0)
        WANT(sedge_commander_restart_board(&ground.commander) == 0);
    if (session.has_olds && ground.whole == ground.kept.count && draw(20) == 0) session.left[draw(2)] = ground.kept;
    if (session.is_hostile && given < COMMANDS && draw(6) == 0) ground_gives(70);
}

static void ground_works(void) {
    struct sedge_commander_reading read = {99, 99, 99};
    ground_hears();
    if (!ground.is_open) {
        if (session.is_hostile && draw(3) > 0) return;
        ground_returns();
    }
    hears_besides();
    operates();
    for (uint32_t left = 20; left > 0 && ground_acts(); left--) {
    }
    if (!ground.is_open) return;
    WANT(sedge_commander_read(&ground.commander, &read) == 0);
    if (read.worth || (session.is_hostile && draw(40) == 0)) ground_renews();
    if (ground.is_open) WANT(sedge_commander_tick(&ground.commander) == 0);
}

/* ---- Sessions. ---- */

static void play(long ticks) {
    for (long end = now + ticks; now < end && failures == 0; now++) {
        board_works();
        ground_works();
    }
}

/* Nothing more goes wrong. A loss may have no order for this mark any more (docs/PROFILE.md), so the board is restarted
 * where nothing else helps. */
static void play_to_end(void) {
    if (failures > 0) return;
    session.is_hostile = false;
    up.losses = down.losses = 0;
    up.is_wild = down.is_wild = false;
    up.delay = down.delay = 1;
    if (mission.round_trip < 4) mission.round_trip = 4;
    if (ground.is_open) ground_dies();
    for (int left = 47; left > 0 && failures == 0; left--) {
        play(20);
        if (is_all_told()) break;
        if (left % 8 > 0) continue;
        has_cut = true;
        board_restarts();
    }
    WANT(failures > 0 || is_all_told());
}

static void counted(void) {
    all.sessions++;
    all.ticks += (unsigned long)now;
    all.commands += given;
    for (uint32_t tag = 1; tag <= given; tag++) {
        all.executed += commands[tag].told == TOLD_EXECUTED;
        all.unknown += commands[tag].told == TOLD_UNKNOWN;
    }
    all.foreign += foreign;
    all.losses += has_lost;
    all.alerts += ground.alerts;
    all.fresh += ground.fresh;
}

static void play_session(void) {
    begin_session();
    session.left[0].count = session.left[1].count = 0;
    any_config();
    board_starts();
    ground_opens(false);
    play(100 + (long)draw(100));
    play_to_end();
    end_session();
    counted();
}

int main(int count, char **words) {
    unsigned long left;
    if (count < 2 || count > 3) return 2;
    if (count == 3) state += strtoull(words[2], NULL, 10) * 2;
    for (left = strtoul(words[1], NULL, 10); left > 0 && failures == 0; left--) play_session();
    printf("%lu sessions, %lu ticks, %lu commands: %lu executed, %lu unknown, %lu times foreign\n", all.sessions,
           all.ticks, all.commands, all.executed, all.unknown, all.foreign);
    printf("%lu times the board was killed and %lu times the ground, %lu starts, %lu older stores, %lu fresh ones, "
           "%lu sessions with a lost record, %lu alerts\n",
           all.cuts, all.deaths, all.restarts, all.olds, all.fresh, all.losses, all.alerts);
    if (all.sessions >= 1000 && failures == 0)
        WANT(all.unknown > 0 && all.foreign > 0 && all.cuts > 0 && all.deaths > 0 && all.olds > 0 && all.fresh > 0 &&
             all.losses > 0 && all.alerts > 0);
    return failures != 0;
}
