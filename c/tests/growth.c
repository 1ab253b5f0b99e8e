/* Tests that the time of calls does not grow with what waits. Each queue that a program can make long is filled to some
 * length and to ten times that, and the same 300 pairs of calls, one that adds and one that takes, are timed at both.
 * Ends with 0 if the longer queue takes at most four times as long, by the least of some tries each; a call that goes
 * over all that waits would take ten times as long. The time is processor time, since other programs run at the same
 * time. */
#define _POSIX_C_SOURCE 199309L
#include <sedgechisel_nodes.h>
#include <stdio.h>
#include <stdlib.h>
#include <time.h>

enum { PAIRS = 300, TRIES = 7, MOST_TIMES = 4 };

static struct sedge_config config;
static struct sedge_ground ground;
static struct sedge_spacecraft spacecraft;
static struct sedge_commander commander;
static struct sedge_log board;
static uint32_t executed;
static uint8_t octets[2048], packet[600] = {0x00, 5, 0xc0, 0, 593 >> 8, 593 & 0xff};
static uint8_t command[7] = {0x10, 5, 0xc0, 0, 0, 0, 0xaa}, small[7] = {0x00, 5, 0xc0, 0, 0, 0, 0xaa}, out[65542];
static size_t count;

/* A call has to answer 0. */
static void ends(uint8_t answer, int line) {
    if (answer == 0) return;
    printf("growth.c:%d: answered %d\n", line, answer);
    exit(3);
}

#define DONE(call) ends((call), __LINE__)

/* ---- Telemetry that waits on board. ---- */

static void waits_on_board(size_t length) {
    while (length-- > 0) DONE(sedge_spacecraft_telemetry(&spacecraft, packet, sizeof packet));
}

static void report_and_queue(void) {
    DONE(sedge_spacecraft_telemetry_frame(&spacecraft, octets, sizeof octets, &count));
    DONE(sedge_spacecraft_telemetry(&spacecraft, packet, sizeof packet));
}

/* ---- Telemetry that waits on the ground. ---- */

static void comes_down(void) {
    struct sedge_heard heard;
    DONE(sedge_spacecraft_telemetry_frame(&spacecraft, octets, sizeof octets, &count));
    DONE(sedge_ground_telemetry(&ground, octets, count, &heard));
    DONE(heard.kind != SEDGE_HEARD_FRAME || heard.alert != 0);
}

static void waits_on_ground(size_t length) {
    while (length-- > 0) {
        DONE(sedge_spacecraft_telemetry(&spacecraft, small, sizeof small));
        if (length % 200 == 0) comes_down();
    }
}

static void hear_and_take(void) {
    DONE(sedge_spacecraft_telemetry(&spacecraft, small, sizeof small));
    comes_down();
    DONE(sedge_ground_take_telemetry(&ground, out, sizeof out, &count));
    DONE(count != sizeof small);
}

/* ---- Segments that wait to be sent. ---- */

static void is_pending(size_t length) {
    DONE(sedge_ground_init_without_check(&ground));
    while (length-- > 0) DONE(sedge_ground_submit(&ground, 4, command, sizeof command));
}

static void pull_and_submit(void) {
    struct sedge_received received;
    uint8_t map;
    DONE(sedge_ground_pull(&ground, octets, sizeof octets, &count));
    DONE(sedge_spacecraft_receive(&spacecraft, octets, count, &received));
    DONE(sedge_spacecraft_take(&spacecraft, &map, out, sizeof out, &count));
    DONE(count != sizeof command);
    comes_down();
    DONE(sedge_ground_submit(&ground, 4, command, sizeof command));
}

/* ---- Packets past the sequence control that wait to be sent. ---- */

static void is_past(size_t length) {
    while (length-- > 0) DONE(sedge_ground_bypass(&ground, 4, command, sizeof command));
}

static void pull_and_bypass(void) {
    DONE(sedge_ground_pull(&ground, octets, sizeof octets, &count));
    DONE(count != 15);
    DONE(sedge_ground_bypass(&ground, 4, command, sizeof command));
}

/* ---- Commands without a fate. ---- */

/* What must be stored or reported is. */
static void is_stored(void) {
    struct sedge_commander_action action;
    do {
        DONE(sedge_commander_next(&commander, &action, out, sizeof out));
        if (action.kind == SEDGE_COMMANDER_STORE) {
            DONE(sedge_commander_unstored(&commander, out, sizeof out, &count));
            DONE(sedge_commander_stored(&commander, count));
        } else if (action.kind != SEDGE_COMMANDER_NOTHING) {
            DONE(sedge_commander_told(&commander, &action));
        }
    } while (action.kind != SEDGE_COMMANDER_NOTHING);
}

static void is_given(void) {
    uint32_t number;
    DONE(sedge_commander_command(&commander, 7, 4, 5, 0, command, sizeof command, &number));
    is_stored();
}

/* The board does what is to be done. */
static void is_done(void) {
    uint8_t action;
    uint32_t number;
    while ((action = sedge_log_next(&board, octets, 50, &number)) != SEDGE_LOG_NOTHING)
        DONE(sedge_log_done(&board, action, number));
}

static void has_no_fate(size_t length) {
    const struct sedge_mission mission = {2, 6, 2, 0, 0};
    sedge_commander_close(&commander);
    DONE(sedge_commander_open(&commander, &config, &mission, octets, 0, &count));
    DONE(sedge_log_new_record(octets, 50));
    sedge_log_start(&board, octets, 50, octets, 50, 1);
    is_done();
    executed = 0;
    while (length-- > 0) is_given();
}

static void execute_and_give(void) {
    struct sedge_part content;
    DONE(sedge_log_command_encode(5, 0, ++executed, command, sizeof command, out, sizeof out, &count));
    DONE(sedge_log_offer(&board, out, count, &content));
    is_done();
    DONE(sedge_log_status(&board, 0, octets, 27));
    DONE(sedge_commander_status(&commander, octets, 27));
    is_stored();
    is_given();
}

/* ---- Times. ---- */

static double seconds(void) {
    struct timespec now;
    clock_gettime(CLOCK_PROCESS_CPUTIME_ID, &now);
    return (double)now.tv_sec + (double)now.tv_nsec / 1e9;
}

static double time_of(void (*pair)(void)) {
    double before = seconds();
    int k;
    for (k = 0; k < PAIRS; k++) pair();
    return seconds() - before;
}

/* The least time of the pairs at a queue of this length. */
static double least_time(void (*fill)(size_t), void (*pair)(void), size_t length) {
    double least = 1e9;
    int k;
    DONE(sedge_ground_open(&ground, &config));
    DONE(sedge_spacecraft_open(&spacecraft, &config));
    fill(length);
    for (k = 0; k < TRIES; k++) {
        double time = time_of(pair);
        if (time < least) least = time;
    }
    sedge_ground_close(&ground);
    sedge_spacecraft_close(&spacecraft);
    sedge_commander_close(&commander);
    return least;
}

int main(void) {
    static const struct {
        const char *name;
        void (*fill)(size_t);
        void (*pair)(void);
        size_t length;
    } queues[] = {{"telemetry on board, 6 and 60 MB", waits_on_board, report_and_queue, 10000},
                  {"packets of telemetry on the ground, 20,000 and 200,000", waits_on_ground, hear_and_take, 20000},
                  {"segments pending, 6,500 and 65,000", is_pending, pull_and_submit, 6500},
                  {"packets past the sequence control, 6,500 and 65,000", is_past, pull_and_bypass, 6500},
                  {"commands without a fate, 6,500 and 65,000", has_no_fate, execute_and_give, 6500}};
    int failures = 0;
    size_t k;
    sedge_config_default(&config);
    config.queue_slots = 65535, config.frame_length = 2048;
    for (k = 0; k < sizeof queues / sizeof *queues; k++) {
        double one = least_time(queues[k].fill, queues[k].pair, queues[k].length);
        double ten = least_time(queues[k].fill, queues[k].pair, 10 * queues[k].length);
        int is_good = ten <= MOST_TIMES * one + 1e-3;
        printf("%s: %.2f and %.2f ms%s\n", queues[k].name, one * 1e3, ten * 1e3, is_good ? "" : ", which is too long");
        failures += !is_good;
    }
    return failures != 0;
}
