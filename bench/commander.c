/* Times the calls of a commander beside the calls of a ground that it makes, for bench/commander. A session with a board
 * is played once, and what comes down is kept. Then the commander plays its side of the same session again, and so does a
 * ground, with the same packets, frames and ticks; each frame that goes up is the same. Prints a line for each session:
 * what it is, the processor time of both for a command in nanoseconds, the least of some tries each, and how many times
 * as long the commander takes. Last it prints how many octets each of 100,000 commands without a fate takes beside its
 * packet, by what the commander asked for. It is linked with the libraries and not with a file of c/memory. */
#define _POSIX_C_SOURCE 199309L
#include <sedgechisel_memory.h>
#include <sedgechisel_nodes.h>
#include <stdio.h>
#include <stdlib.h>
#include <string.h>
#include <time.h>

enum { COMMANDS = 10000, TRIES = 9, LENGTH = 64, MAP = 4, STATUS = 27, MANY = 100000 };

/* Stops with a line where a call does not answer what it has to. */
static void want(int holds, int line) {
    if (holds) return;
    fprintf(stderr, "bench/commander.c:%d: not as wanted\n", line);
    exit(1);
}

#define WANT(holds) want((holds), __LINE__)

/* ---- Memory: malloc's, with the octets that are asked for now, and the most at once. ---- */

static size_t asked, most, blocks;

struct sedge_place rattle_alloc(size_t count, size_t align) {
    struct sedge_place place = {true, NULL};
    size_t *at = malloc(count + 16);
    WANT(at != NULL && align <= 16);
    *at = count;
    asked += count;
    blocks++;
    most = asked > most ? asked : most;
    place.at = (uint8_t *)at + 16;
    return place;
}

void rattle_dealloc(void *at) {
    size_t *begin = (size_t *)(void *)((uint8_t *)at - 16);
    asked -= *begin;
    blocks--;
    free(begin);
}

struct sedge_place rattle_realloc(void *at, size_t kept, size_t count, size_t align) {
    struct sedge_place place = rattle_alloc(count, align);
    memcpy(place.at, at, kept);
    rattle_dealloc(at);
    return place;
}

/* ---- What is played. ---- */

static struct sedge_config config;
static const struct sedge_mission mission = {2, 6, 2, 0, 0};
static struct sedge_commander commander;
static struct sedge_ground ground;
static struct sedge_spacecraft spacecraft;
static struct sedge_log board;
/* How many octets of the mission a command has, and after how many commands a telemetry frame comes. */
static size_t content_count, batch;
static uint8_t content[1024], out[SEDGE_PACKET_LONGEST], store[65536];
/* What came down, and the hash of what went up. */
static uint8_t down[COMMANDS + 16][LENGTH];
static size_t downs;
static uint64_t hash;
static uint8_t (*packets)[1024];
static size_t packet_count;

static void goes_up(const uint8_t *octets, size_t count) {
    while (count-- > 0) hash = (hash ^ *octets++) * 0x100000001b3u;
}

/* ---- The board, which executes at once. ---- */

static void board_works(void) {
    uint8_t octets[50], map, action;
    struct sedge_part where;
    uint32_t number;
    size_t count;
    for (;;) {
        while ((action = sedge_log_next(&board, octets, 50, &number)) != SEDGE_LOG_NOTHING)
            WANT(sedge_log_done(&board, action, number) == SEDGE_OK);
        WANT(sedge_spacecraft_take(&spacecraft, &map, out, sizeof out, &count) == 0);
        if (count == 0) return;
        WANT(sedge_log_offer(&board, out, count, &where) == SEDGE_OK);
    }
}

/* A frame goes up, if the board is there. */
static void sends(const uint8_t *octets, size_t count, bool is_first) {
    struct sedge_received received;
    if (is_first) WANT(sedge_spacecraft_receive(&spacecraft, octets, count, &received) == 0);
    else goes_up(octets, count);
}

static const uint8_t *comes_down(size_t k, bool is_first) {
    uint8_t packet[6 + STATUS] = {0, 2, 0xc0, 0, 0, STATUS - 1};
    size_t count;
    if (!is_first) return down[k];
    board_works();
    WANT(sedge_log_status(&board, 0, packet + 6, STATUS) == SEDGE_OK);
    WANT(sedge_spacecraft_telemetry(&spacecraft, packet, sizeof packet) == 0);
    WANT(sedge_spacecraft_telemetry_frame(&spacecraft, down[k], LENGTH, &count) == 0 && count == LENGTH);
    return down[k];
}

/* ---- The commander. ---- */

static void commander_works(bool is_first) {
    struct sedge_commander_action action;
    size_t count;
    while (sedge_commander_next(&commander, &action, out, sizeof out) == 0) {
        switch (action.kind) {
        case SEDGE_COMMANDER_NOTHING: return;
        case SEDGE_COMMANDER_STORE:
            WANT(sedge_commander_unstored(&commander, store, sizeof store, &count) == 0);
            WANT(sedge_commander_stored(&commander, count) == 0);
            break;
        case SEDGE_COMMANDER_SEND: sends(out, action.count, is_first); break;
        case SEDGE_COMMANDER_TELEMETRY:
            WANT(sedge_commander_take_telemetry(&commander, out, sizeof out, &count) == 0 && count == 6 + STATUS);
            break;
        default: WANT(action.kind != SEDGE_COMMANDER_UNKNOWN && sedge_commander_told(&commander, &action) == 0);
        }
    }
    WANT(false);
}

static void commander_hears(size_t k, bool is_first) {
    struct sedge_heard heard;
    WANT(sedge_commander_telemetry(&commander, comes_down(k, is_first), LENGTH, &heard) == 0);
    WANT(heard.kind == SEDGE_HEARD_FRAME && heard.alert == 0);
    commander_works(is_first);
    WANT(sedge_commander_tick(&commander) == 0);
}

/* The first frames, until the session has begun. */
enum { BEFORE = 6 };

static void commander_plays(bool is_first) {
    uint32_t number;
    size_t good, k, in_batch = 0;
    WANT(sedge_commander_open(&commander, &config, &mission, store, 0, &good) == 0);
    downs = 0;
    for (k = 0; k < COMMANDS; k++) {
        WANT(sedge_commander_command(&commander, k, MAP, 5, (uint16_t)(k & 16383), content, content_count, &number)
             == 0);
        if (k > 0) commander_works(is_first);
        for (size_t left = BEFORE; k == 0 && left > 0; left--) commander_hears(downs++, is_first);
        if (++in_batch == batch) in_batch = 0, commander_hears(downs++, is_first);
    }
    while (downs < COMMANDS / batch + BEFORE + 2) commander_hears(downs++, is_first);
}

/* ---- The ground, with the calls that the commander makes of its own. ---- */

/* As each call for the next action does: whether telemetry waits, and then the next frame. */
static bool ground_sends(void) {
    size_t waiting, count;
    WANT(sedge_ground_next_telemetry(&ground, &waiting) == 0);
    if (waiting > 0) {
        WANT(sedge_ground_take_telemetry(&ground, out, sizeof out, &count) == 0 && count == 6 + STATUS);
        return true;
    }
    WANT(sedge_ground_pull(&ground, out, sizeof out, &count) == 0);
    if (count > 0) sends(out, count, false);
    return count > 0;
}

static void ground_hears(size_t k) {
    struct sedge_heard heard;
    WANT(sedge_ground_telemetry(&ground, down[k], LENGTH, &heard) == 0 && heard.kind == SEDGE_HEARD_FRAME);
    while (ground_sends()) {
    }
    WANT(sedge_ground_tick(&ground) == 0);
}

/* The commander begins when the silence is over, with the CLCW of the frame that came last. */
static void ground_begins(void) {
    struct sedge_clcw word;
    size_t k;
    for (k = 0; k < BEFORE; k++) {
        struct sedge_heard heard;
        WANT(sedge_ground_telemetry(&ground, down[k], LENGTH, &heard) == 0);
        if (k == 3) {
            WANT(sedge_ground_clcw_in(&ground, down[k], LENGTH, &word) == 0);
            WANT(sedge_ground_set_vs(&ground, word.value) == 0 && sedge_ground_init_unlock(&ground) == 0);
        }
        if (k == 4) WANT(sedge_ground_submit(&ground, MAP, packets[0], packet_count) == 0);
        while (ground_sends()) {
        }
        WANT(sedge_ground_tick(&ground) == 0);
    }
}

static void ground_plays(void) {
    size_t k, in_batch = 0, heard = BEFORE;
    WANT(sedge_ground_open(&ground, &config) == 0);
    ground_begins();
    for (k = 0; k < COMMANDS; k++) {
        if (k > 0) {
            WANT(sedge_ground_submit(&ground, MAP, packets[k], packet_count) == 0);
            while (ground_sends()) {
            }
        }
        if (++in_batch == batch) in_batch = 0, ground_hears(heard++);
    }
    while (heard < COMMANDS / batch + BEFORE + 2) ground_hears(heard++);
}

/* ---- Times. ---- */

static double nanoseconds_now(void) {
    struct timespec now;
    clock_gettime(CLOCK_PROCESS_CPUTIME_ID, &now);
    return (double)now.tv_sec * 1e9 + (double)now.tv_nsec;
}

static void first_session(void) {
    uint8_t place[50];
    struct sedge_commander_reading read;
    WANT(sedge_spacecraft_open(&spacecraft, &config) == 0 && sedge_log_new_record(place, 50) == SEDGE_OK);
    sedge_log_start(&board, place, 50, place, 50, 1);
    commander_plays(true);
    WANT(sedge_commander_read(&commander, &read) == 0 && read.below == COMMANDS);
    for (size_t k = 0; k < COMMANDS; k++)
        WANT(sedge_log_command_encode(5, (uint16_t)(k & 16383), (uint32_t)k + 1, content, content_count, packets[k],
                                      1024, &packet_count) == SEDGE_OK);
}

static void compares(size_t count, size_t each) {
    double of_commander = 1e18, of_ground = 1e18, start, took;
    uint64_t wanted = 0;
    content_count = count, batch = each;
    first_session();
    for (int k = 0; k < TRIES; k++) {
        hash = 1;
        start = nanoseconds_now();
        commander_plays(false);
        took = nanoseconds_now() - start;
        of_commander = took < of_commander ? took : of_commander;
        wanted = hash, hash = 1;
        start = nanoseconds_now();
        ground_plays();
        took = nanoseconds_now() - start;
        of_ground = took < of_ground ? took : of_ground;
        WANT(hash == wanted);
    }
    printf("| %zu octets, a telemetry frame for each %zu commands | %.0f | %.0f | %.2f |\n", count, each,
           of_commander / COMMANDS, of_ground / COMMANDS, of_commander / of_ground);
}

/* Octets that a commander asked for, by each of these commands, beside its packet. */
static void memory(void) {
    uint32_t number;
    size_t good, before, count, due;
    sedge_commander_close(&commander);
    WANT(sedge_commander_open(&commander, &config, &mission, store, 0, &good) == 0);
    before = asked;
    for (size_t k = 0; k < MANY; k++) {
        struct sedge_commander_action action;
        WANT(sedge_commander_command(&commander, k, MAP, 5, 0, content, 20, &number) == 0);
        WANT(sedge_commander_next(&commander, &action, out, sizeof out) == 0 && action.kind == SEDGE_COMMANDER_STORE);
        WANT(sedge_commander_unstored(&commander, store, sizeof store, &due) == 0);
        WANT(sedge_commander_stored(&commander, due) == 0);
    }
    count = asked - before - (size_t)MANY * 34;
    printf("%.1f octets for each of %d commands without a fate, beside its packet\n", (double)count / MANY, MANY);
}

int main(void) {
    packets = malloc(sizeof *packets * COMMANDS);
    WANT(packets != NULL);
    sedge_config_default(&config);
    for (size_t k = 0; k < sizeof content; k++) content[k] = (uint8_t)(k * 7);
    puts("| Session | commander, ns for a command | ground, ns | times |\n|---|---|---|---|");
    compares(20, 1);
    compares(20, 8);
    compares(200, 1);
    compares(200, 8);
    compares(900, 8);
    memory();
    return 0;
}
