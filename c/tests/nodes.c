/* Both nodes and the simulated link through libsedgechisel_nodes: a session, rooms that are too short, handles that
 * hold none, and each allocation refused in turn. The memory is malloc's, counted, with one allocation refused; or,
 * with OVER_MEMORY, that of a file of c/memory. */
#include <sedgechisel_memory.h>
#include <sedgechisel_nodes.h>
#include <stdio.h>
#include <stdlib.h>
#include <string.h>

static int failures;

#define WANT(condition) \
    do { \
        if (!(condition)) { \
            failures++; \
            printf("%s:%d: not so: %s\n", __FILE__, __LINE__, #condition); \
        } \
    } while (0)

/* ---- Memory, unless another is linked. ---- */

static long tried, refused = -1, live;

#ifndef OVER_MEMORY
static char nowhere;

struct sedge_place rattle_alloc(size_t count, size_t align) {
    struct sedge_place none = {false, &nowhere}, some = {true, NULL};
    if (tried++ == refused || (some.at = malloc(count > 0 ? count : align)) == NULL) return none;
    live++;
    return some;
}

struct sedge_place rattle_realloc(void *at, size_t kept, size_t count, size_t align) {
    struct sedge_place none = {false, &nowhere}, some = {true, NULL};
    (void)kept;
    if (tried++ == refused || (some.at = realloc(at, count > 0 ? count : align)) == NULL) return none;
    return some;
}

void rattle_dealloc(void *at) {
    live--;
    free(at);
}
#endif

/* ---- The link. ---- */

static struct sedge_config config;
static const uint8_t packet[] = {0x10, 0x05, 0xc0, 0x00, 0x00, 0x00, 0xaa};
static uint8_t up[1024], down[2048], out[65542];

/* Below the caller's frame no octet of the stack is 0 then, so a call that reads what it has not written is found. */
static void fills(void) {
    volatile uint8_t octets[65536];
    size_t i;
    for (i = 0; i < sizeof octets; i++) octets[i] = 0x55;
}

/* Through a pointer, so that no compiler puts the octets into the caller's frame. */
static void (*volatile fill_stack)(void) = fills;

/* A call that was refused for want of memory changed nothing, and is made again once there is some. */
static int again(uint8_t answer) {
    WANT(answer == SEDGE_NODE_OK || answer == SEDGE_NODE_MEMORY);
    return answer == SEDGE_NODE_MEMORY;
}

static void goes_up(struct sedge_ground *ground, struct sedge_spacecraft *spacecraft, int kind) {
    struct sedge_received received = {0};
    size_t next = 0, count = 77;
    WANT(sedge_ground_next(ground, &next) == 0 && next >= 6);
    up[0] = 77;
    WANT(sedge_ground_pull(ground, up, next - 1, &count) == SEDGE_NODE_ROOM && count == 77 && up[0] == 77);
    WANT(sedge_ground_peek(ground, out, next - 1, &count) == SEDGE_NODE_ROOM && count == 77);
    WANT(sedge_ground_peek(ground, out, next, &count) == 0 && count == next);
    WANT(sedge_ground_pull(ground, up, next, &count) == 0 && count == next && memcmp(out, up, next) == 0);
    while (again(sedge_spacecraft_receive(spacecraft, up, count, &received)))
        ;
    WANT(received.kind == kind && received.verdict == 0 && received.dropped == 0);
}

typedef uint8_t describe(struct sedge_spacecraft *, uint8_t *, size_t *);
typedef uint8_t take(struct sedge_spacecraft *, uint8_t *, uint8_t *, size_t, size_t *);

static void comes_out(struct sedge_spacecraft *spacecraft, describe *next, take *take, int on_map) {
    uint8_t map = 99;
    size_t count = 77;
    WANT(next(spacecraft, &map, &count) == 0 && map == on_map && count == sizeof packet);
    map = 99, count = 77, out[0] = 77;
    WANT(take(spacecraft, &map, out, sizeof packet - 1, &count) == SEDGE_NODE_ROOM);
    WANT(map == 99 && count == 77 && out[0] == 77);
    WANT(take(spacecraft, &map, out, sizeof packet, &count) == 0);
    WANT(map == on_map && count == sizeof packet && memcmp(out, packet, count) == 0);
    map = 99;
    WANT(next(spacecraft, &map, &count) == 0 && map == 99 && count == 0);
    WANT(take(spacecraft, &map, out, 0, &count) == 0 && map == 99 && count == 0);
}

/* What waits in the ground, the ticks that are left, and the transmission count. */
static void waits(const struct sedge_ground_reading *read, size_t unsent, size_t due, size_t bypassed, int ticks,
                  int count) {
    WANT(read->unsent == unsent && read->due == due && read->bypassed == bypassed);
    WANT(read->ticks == ticks && read->count == count);
}

/* What waits on board. */
static void wait_on_board(const struct sedge_spacecraft_reading *read, size_t ready, size_t bypassed) {
    WANT(read->ready == ready && read->bypassed == bypassed);
}

static void session(void) {
    struct sedge_ground ground = {0};
    struct sedge_spacecraft spacecraft = {0};
    struct sedge_ground_reading read = {0};
    struct sedge_spacecraft_reading board = {0};
    struct sedge_heard heard = {0};
    struct sedge_clcw word = {0};
    size_t count = 0;
    uint8_t queued, accepted = 77;
    while (again(sedge_ground_open(&ground, &config)))
        ;
    while (again(sedge_spacecraft_open(&spacecraft, &config)))
        ;
    WANT(sedge_ground_submit(&ground, 4, packet, sizeof packet) == SEDGE_NODE_NOT_OPEN);
    WANT(sedge_ground_init_without_check(&ground) == 0 && sedge_ground_init_without_check(&ground) == 8);
    while (again(sedge_ground_submit(&ground, 4, packet, sizeof packet)))
        ;
    WANT(sedge_ground_bypass(&ground, 5, packet, 7) == SEDGE_NODE_TOO_LONG);
    WANT(sedge_ground_read(&ground, &read) == 0 && read.outstanding == 3 && read.state == 1 && read.vs == 0);
    waits(&read, 3, 0, 0, 0, 1);
    goes_up(&ground, &spacecraft, 3);
    WANT(sedge_ground_read(&ground, &read) == 0 && read.outstanding == 3);
    waits(&read, 2, 0, 0, 10, 1);
    goes_up(&ground, &spacecraft, 3);
    goes_up(&ground, &spacecraft, 3);
    WANT(sedge_ground_next(&ground, &count) == 0 && count == 0);
    WANT(sedge_ground_peek(&ground, up, 0, &count) == 0 && count == 0 && sedge_ground_advance(&ground) == 0);
    WANT(sedge_ground_pull(&ground, up, 0, &count) == 0 && count == 0);
    WANT(sedge_spacecraft_read(&spacecraft, &board) == 0);
    wait_on_board(&board, 1, 0);
    comes_out(&spacecraft, sedge_spacecraft_next, sedge_spacecraft_take, 4);
    WANT(sedge_ground_accepted_beyond(&ground, 2, &accepted) == 0 && accepted == 2);
    WANT(sedge_ground_accepted_beyond(&ground, 4, &accepted) == SEDGE_NODE_ABSENT && accepted == 2);
    WANT(sedge_spacecraft_telemetry(&spacecraft, packet, 6) == 8);
    while ((queued = sedge_spacecraft_telemetry(&spacecraft, packet, sizeof packet)) == 7)
        ;
    WANT(queued == 0);
    WANT(sedge_spacecraft_read(&spacecraft, &board) == 0 && board.frame_length == 64 && board.value == 3);
    WANT(board.vcid == 2 && board.flags == 0 && board.status == 0 && board.farm_b == 0);
    WANT(board.state == SEDGE_FARM_OPEN);
    wait_on_board(&board, 0, 0);
    count = 77, down[0] = 77;
    WANT(sedge_spacecraft_telemetry_frame(&spacecraft, down, 63, &count) == SEDGE_NODE_ROOM && count == 77 &&
         down[0] == 77);
    WANT(sedge_spacecraft_telemetry_frame(&spacecraft, down, 64, &count) == 0 && count == 64);
    while (again(sedge_ground_telemetry(&ground, down, count, &heard)))
        ;
    WANT(heard.kind == SEDGE_HEARD_FRAME && heard.first == 1 && heard.report == SEDGE_REPORT_USED &&
         heard.alert == 0 && heard.packets == 1);
    WANT(sedge_ground_clcw_in(&ground, down, 64, &word) == 0 && word.vcid == 2 && word.value == 3 && word.flags == 0);
    word.value = 77;
    WANT(sedge_ground_clcw_in(&ground, down, 63, &word) == SEDGE_NODE_ABSENT && word.value == 77);
    /* By the names of before 0.3. */
    WANT(sedge_ground_report(&ground, down, 63, &word) == SEDGE_NODE_ABSENT && word.value == 77);
    WANT(sedge_spacecraft_report(&spacecraft, down, 63, &count) == SEDGE_NODE_ROOM && count == 64);
    static const uint8_t control_word[4] = {0x01, 0x08, 0x00, 0x03};
    WANT(sedge_ground_clcw(&ground, control_word, 4, &heard) == 0 && heard.kind == SEDGE_HEARD_CLCW);
    WANT(heard.report == SEDGE_REPORT_USED && heard.word_fault == 0 && heard.alert == 0 && heard.packets == 0);
    heard.kind = 77;
    WANT(sedge_ground_clcw(&ground, control_word, 3, &heard) == SEDGE_NODE_ABSENT && heard.kind == 77);
    WANT(sedge_ground_forget_telemetry(&ground) == 0);
    WANT(sedge_ground_read(&ground, &read) == 0 && read.outstanding == 0 && read.vs == 3 && read.nn == 3);
    waits(&read, 0, 0, 0, 0, 1);
    WANT(sedge_ground_tick(&ground) == 0);
    WANT(sedge_ground_next_telemetry(&ground, &count) == 0 && count == 7);
    WANT(sedge_ground_take_telemetry(&ground, out, 6, &count) == SEDGE_NODE_ROOM && count == 7);
    WANT(sedge_ground_take_telemetry(&ground, out, 7, &count) == 0 && count == 7 && memcmp(out, packet, 7) == 0);
    WANT(sedge_ground_next_telemetry(&ground, &count) == 0 && count == 0);
    WANT(sedge_ground_take_telemetry(&ground, out, 0, &count) == 0 && count == 0);
    sedge_ground_close(&ground);
    sedge_spacecraft_close(&spacecraft);
    WANT(ground.node == NULL && spacecraft.node == NULL && live == 0);
}

/* An idle packet between two packets of a telemetry frame is dropped, and the packet after it comes out. */
static void telemetry_with_an_idle_packet(void) {
    static const uint8_t idle[] = {0x07, 0xff, 0xc0, 0x00, 0x00, 0x00, 0x00}, word[4] = {0x01, 0x08, 0x00, 0x00};
    struct sedge_tm_frame frame = {0};
    struct sedge_ground ground = {0};
    struct sedge_heard heard = {0};
    uint8_t data[52] = {0}, number;
    size_t count = 77;
    while (again(sedge_ground_open(&ground, &config)))
        ;
    frame.scid = (uint16_t)config.scid;
    frame.vcid = (uint8_t)config.tm_vcid;
    memcpy(frame.ocf, word, sizeof word);
    memcpy(data, packet, 7);
    memcpy(data + 7, idle, 7);
    memcpy(data + 14, packet, 7);
    memcpy(data + 21, idle, 7);
    data[25] = sizeof data - 21 - 7;
    WANT(sedge_tm_encode(&frame, data, sizeof data, down, sizeof down, &count) == SEDGE_OK && count == 64);
    while (again(sedge_ground_telemetry(&ground, down, count, &heard)))
        ;
    WANT(heard.kind == SEDGE_HEARD_FRAME && heard.packets == 2);
    for (number = 0; number < 2; number++) {
        WANT(sedge_ground_take_telemetry(&ground, out, 7, &count) == 0 && count == 7 && memcmp(out, packet, 7) == 0);
    }
    WANT(sedge_ground_next_telemetry(&ground, &count) == 0 && count == 0);
    sedge_ground_close(&ground);
}

static void past_the_sequence_control(void) {
    struct sedge_config whole = config;
    struct sedge_ground ground = {0};
    struct sedge_spacecraft spacecraft = {0};
    struct sedge_ground_reading read = {0};
    struct sedge_spacecraft_reading board = {0};
    whole.part = 1016;
    while (again(sedge_ground_open(&ground, &whole)))
        ;
    while (again(sedge_spacecraft_open(&spacecraft, &whole)))
        ;
    while (again(sedge_ground_bypass(&ground, 5, packet, sizeof packet)))
        ;
    WANT(sedge_ground_read(&ground, &read) == 0);
    waits(&read, 0, 0, 1, 0, 1);
    goes_up(&ground, &spacecraft, 4);
    WANT(sedge_spacecraft_read(&spacecraft, &board) == 0);
    wait_on_board(&board, 0, 1);
    comes_out(&spacecraft, sedge_spacecraft_next_bypass, sedge_spacecraft_take_bypass, 5);
    sedge_ground_close(&ground);
    sedge_spacecraft_close(&spacecraft);
    WANT(live == 0);
}

/* ---- A session goes on after an alert. ---- */

static struct sedge_ground_reading read_of(struct sedge_ground *ground) {
    struct sedge_ground_reading read = {77, 77, 77, 77, 77, 77, 77, 77, 77, 77, 77, 77, 77};
    WANT(sedge_ground_read(ground, &read) == 0);
    return read;
}

/* How many submissions there are, how many were sent whole, and how many are acknowledged whole. */
static void has_come(struct sedge_ground *ground, uint64_t submitted, uint64_t sent, uint64_t acknowledged) {
    struct sedge_ground_reading read = read_of(ground);
    WANT(read.submitted == submitted && read.sent_whole == sent && read.acknowledged_whole == acknowledged);
}

static void is_known(struct sedge_ground *ground, uint8_t value, uint64_t on_board) {
    uint64_t whole = 77;
    WANT(sedge_ground_known_on_board(ground, value, &whole) == 0 && whole == on_board);
}

static void is_not_known(struct sedge_ground *ground, uint8_t value) {
    uint64_t whole = 77;
    WANT(sedge_ground_known_on_board(ground, value, &whole) == SEDGE_NODE_ABSENT && whole == 77);
}

/* It does not go on at this value, and nothing has changed: neither what is read, nor what goes on the link next. */
static void does_not_resume(struct sedge_ground *ground, uint8_t value) {
    struct sedge_ground_reading before = read_of(ground), after;
    uint64_t whole = 77;
    size_t next = 77, later = 77;
    WANT(sedge_ground_next(ground, &next) == 0);
    WANT(sedge_ground_resume(ground, value, &whole) == SEDGE_NODE_NOT_KNOWN && whole == 77);
    after = read_of(ground);
    WANT(after.state == before.state && after.vs == before.vs && after.nn == before.nn);
    WANT(after.outstanding == before.outstanding && after.frame_length == before.frame_length);
    has_come(ground, before.submitted, before.sent_whole, before.acknowledged_whole);
    WANT(sedge_ground_next(ground, &later) == 0 && later == next);
}

/* It goes on at this value, where so many submissions are on board whole. */
static void resumes(struct sedge_ground *ground, uint8_t value, uint64_t on_board) {
    struct sedge_ground_reading read;
    uint64_t whole = 77;
    WANT(sedge_ground_resume(ground, value, &whole) == 0 && whole == on_board);
    read = read_of(ground);
    WANT(read.state == SEDGE_FOP_S5 && read.vs == value && read.nn == value && read.outstanding == 0);
    has_come(ground, 0, 0, 0);
    is_known(ground, value, 0);
}

/* Packet k goes into two segments of 4 and 3 octets. */
static void submits(struct sedge_ground *ground, uint8_t k) {
    const uint8_t octets[] = {0x10, 0x05, 0xc0, k, 0x00, 0x00, k};
    while (again(sedge_ground_submit(ground, 4, octets, sizeof octets)))
        ;
}

/* So many frames of segments are sent, and the first of them come on board; the first one ends an open part, where one
 * is dropped. */
static void sends(struct sedge_ground *ground, struct sedge_spacecraft *spacecraft, int all, int come, int dropped) {
    struct sedge_received received = {0};
    size_t count = 77;
    int k;
    for (k = 0; k < all; k++) {
        WANT(sedge_ground_pull(ground, up, sizeof up, &count) == 0 && count > 0);
        if (k >= come) continue;
        while (again(sedge_spacecraft_receive(spacecraft, up, count, &received)))
            ;
        WANT(received.kind == SEDGE_RECEIVED_AD && received.verdict == SEDGE_ACCEPTED &&
             received.dropped == (k == 0 ? dropped : 0));
    }
}

static void hears_of(struct sedge_ground *ground, struct sedge_spacecraft *spacecraft) {
    struct sedge_heard heard = {0};
    size_t count = 77;
    WANT(sedge_spacecraft_telemetry_frame(spacecraft, down, 64, &count) == 0 && count == 64);
    while (again(sedge_ground_telemetry(ground, down, count, &heard)))
        ;
    WANT(heard.kind == SEDGE_HEARD_FRAME && heard.report == SEDGE_REPORT_USED && heard.alert == 0);
}

/* Packets 0, 1 and so on are taken on board, each once. */
static void are_taken(struct sedge_spacecraft *spacecraft, uint8_t packets) {
    uint8_t k, map = 99;
    size_t count = 77;
    for (k = 0; k < packets; k++) {
        WANT(sedge_spacecraft_take(spacecraft, &map, out, sizeof out, &count) == 0);
        WANT(map == 4 && count == 7 && out[3] == k && out[6] == k);
    }
    WANT(sedge_spacecraft_take(spacecraft, &map, out, sizeof out, &count) == 0 && count == 0);
}

/* Of three submissions five segments are sent. Three are accepted on board, which are one submission and a half, and
 * one is acknowledged when the timer gives the alert. */
static void stops(struct sedge_ground *ground, struct sedge_spacecraft *spacecraft) {
    uint8_t k;
    for (k = 0; k < 3; k++) submits(ground, k), has_come(ground, k + 1, 0, 0);
    sends(ground, spacecraft, 1, 1, 0), has_come(ground, 3, 0, 0);
    hears_of(ground, spacecraft);
    WANT(read_of(ground).nn == 1 && read_of(ground).outstanding == 5);
    sends(ground, spacecraft, 1, 1, 0), has_come(ground, 3, 1, 0);
    sends(ground, spacecraft, 3, 1, 0), has_come(ground, 3, 2, 0);
    is_known(ground, 2, 1), does_not_resume(ground, 3);
    WANT(sedge_ground_tick(ground) == SEDGE_ALERT_TIMER);
    WANT(read_of(ground).state == SEDGE_FOP_S6 && read_of(ground).vs == 5 && read_of(ground).outstanding == 0);
    has_come(ground, 3, 2, 0);
}

/* A session, an alert, the session after it by the value of a report, and what stops that. */
static void after_an_alert(void) {
    static const uint8_t locked[] = {0x01, 0x08, 0x20, 99};
    struct sedge_heard heard = {0};
    struct sedge_config two = config;
    struct sedge_ground ground = {0};
    struct sedge_spacecraft spacecraft = {0};
    two.part = 4, two.limit = 1, two.timer = 1;
    while (again(sedge_ground_open(&ground, &two)))
        ;
    while (again(sedge_spacecraft_open(&spacecraft, &two)))
        ;
    is_not_known(&ground, 0), does_not_resume(&ground, 0); /* no session has begun */
    WANT(sedge_ground_init_without_check(&ground) == 0);
    is_known(&ground, 0, 0), does_not_resume(&ground, 0); /* the sender is in S1 */
    stops(&ground, &spacecraft);
    is_known(&ground, 1, 0), is_known(&ground, 2, 1), is_known(&ground, 3, 1), is_known(&ground, 4, 2);
    is_known(&ground, 5, 2), is_not_known(&ground, 6), is_not_known(&ground, 0);
    does_not_resume(&ground, 6), does_not_resume(&ground, 0); /* not from NN(R) = 1 to V(S) = 5 */
    resumes(&ground, 3, 1);
    does_not_resume(&ground, 3); /* S5 */
    goes_up(&ground, &spacecraft, 5);
    hears_of(&ground, &spacecraft);
    submits(&ground, 1), submits(&ground, 2);
    sends(&ground, &spacecraft, 4, 4, SEDGE_DROPPED_INTERRUPTED);
    hears_of(&ground, &spacecraft);
    are_taken(&spacecraft, 3);
    has_come(&ground, 2, 2, 2);
    WANT(sedge_ground_terminate(&ground) == 0);
    is_known(&ground, 7, 2), is_known(&ground, 99, 2); /* NN(R) = V(S) = 7 */
    resumes(&ground, 7, 2);
    WANT(sedge_ground_terminate(&ground) == 0);
    resumes(&ground, 99, 0); /* a session that was never confirmed goes on at any value */
    WANT(sedge_ground_terminate(&ground) == 0 && sedge_ground_init_with_check(&ground) == 0);
    WANT(sedge_ground_clcw(&ground, locked, sizeof locked, &heard) == 0 && heard.alert == SEDGE_ALERT_LOCKOUT);
    is_not_known(&ground, 99), does_not_resume(&ground, 99); /* the alert shows a broken condition */
    WANT(sedge_ground_init_unlock(&ground) == 0);
    is_known(&ground, 99, 0);
    WANT(sedge_ground_terminate(&ground) == 0 && sedge_ground_set_vs(&ground, 7) == 0);
    has_come(&ground, 0, 0, 0), is_not_known(&ground, 7), does_not_resume(&ground, 7); /* V(S) was set */
    sedge_ground_close(&ground);
    sedge_spacecraft_close(&spacecraft);
    WANT(live == 0);
}

/* The next telemetry frame comes down. */
static void comes_down(struct sedge_ground *ground, struct sedge_spacecraft *spacecraft, int first, int missing) {
    struct sedge_heard heard = {0};
    size_t count = 77;
    WANT(sedge_spacecraft_report(spacecraft, down, sizeof down, &count) == 0 && count == 64);
    while (again(sedge_ground_telemetry(ground, down, count, &heard)))
        ;
    WANT(heard.kind == 3 && heard.first == first && heard.missing == missing && heard.packets == 0);
}

/* A spacecraft is read and closed, and one that is opened at what was read goes on: its next frame is not taken for one
 * after a gap, and the session that the ground begins at the same number has what it needs. */
static void a_restart_on_purpose(void) {
    struct sedge_config whole = config, wrong;
    struct sedge_ground ground = {0};
    struct sedge_spacecraft spacecraft = {0};
    struct sedge_spacecraft_reading kept = {0}, read = {0};
    whole.part = 1016;
    while (again(sedge_ground_open(&ground, &whole)))
        ;
    while (again(sedge_spacecraft_open(&spacecraft, &whole)))
        ;
    WANT(sedge_ground_init_without_check(&ground) == 0);
    while (again(sedge_ground_submit(&ground, 5, packet, sizeof packet)))
        ;
    goes_up(&ground, &spacecraft, 3);
    while (again(sedge_ground_bypass(&ground, 5, packet, sizeof packet)))
        ;
    goes_up(&ground, &spacecraft, 4);
    comes_down(&ground, &spacecraft, 1, 0);
    WANT(sedge_spacecraft_read(&spacecraft, &kept) == 0 && kept.value == 1 && kept.farm_b == 1);
    WANT(kept.mc_count == 1 && kept.vc_count == 1);
    sedge_spacecraft_close(&spacecraft);
    wrong = whole;
    wrong.width = 253;
    WANT(sedge_spacecraft_open_kept(&spacecraft, &wrong, &kept) == SEDGE_NODE_OUT_OF_RANGE && spacecraft.node == NULL);
    kept.farm_b = 4;
    WANT(sedge_spacecraft_open_kept(&spacecraft, &whole, &kept) == SEDGE_NODE_OUT_OF_RANGE && spacecraft.node == NULL);
    kept.farm_b = 1;
    while (again(sedge_spacecraft_open_kept(&spacecraft, &whole, &kept)))
        ;
    WANT(sedge_spacecraft_read(&spacecraft, &read) == 0 && read.value == 1 && read.farm_b == 1 && read.flags == 0);
    WANT(read.mc_count == 1 && read.vc_count == 1 && read.state == SEDGE_FARM_OPEN);
    wait_on_board(&read, 0, 0);
    comes_down(&ground, &spacecraft, 0, 0);
    WANT(sedge_ground_terminate(&ground) == 0 && sedge_ground_init_without_check(&ground) == 0);
    while (again(sedge_ground_submit(&ground, 5, packet, sizeof packet)))
        ;
    goes_up(&ground, &spacecraft, 3);
    comes_out(&spacecraft, sedge_spacecraft_next, sedge_spacecraft_take, 5);
    sedge_ground_close(&ground);
    sedge_spacecraft_close(&spacecraft);
    WANT(live == 0);
}

/* Another ground goes on at what was kept of one that is lost: two packets were sent, and one was accepted. */
static void a_ground_that_fails_over(void) {
    struct sedge_config whole = config, wrong;
    struct sedge_ground ground = {0};
    struct sedge_spacecraft spacecraft = {0};
    struct sedge_kept_ground kept = {0}, read = {0};
    whole.part = 1016;
    WANT(sizeof kept == 144 && sedge_ground_kept(&ground, &kept) == SEDGE_NODE_NONE && kept.whole == 0);
    while (again(sedge_ground_open(&ground, &whole)))
        ;
    while (again(sedge_spacecraft_open(&spacecraft, &whole)))
        ;
    WANT(sedge_ground_init_without_check(&ground) == 0);
    while (again(sedge_ground_submit(&ground, 5, packet, sizeof packet)))
        ;
    while (again(sedge_ground_submit(&ground, 5, packet, sizeof packet)))
        ;
    goes_up(&ground, &spacecraft, 3);
    WANT(sedge_ground_advance(&ground) == 0); /* this frame is lost */
    WANT(sedge_ground_kept(&ground, &kept) == 0 && kept.acknowledged == 0 && kept.vs == 2 && kept.nn == 0);
    WANT(kept.known == 1 && kept.whole == 2 && kept.segments[0] == 1 && kept.segments[1] == 1 && kept.segments[2] == 0);
    sedge_ground_close(&ground);
    wrong = whole;
    wrong.limit = 0;
    WANT(sedge_ground_open_kept(&ground, &wrong, &kept) == SEDGE_NODE_OUT_OF_RANGE && ground.node == NULL);
    kept.known = 2;
    WANT(sedge_ground_open_kept(&ground, &whole, &kept) == SEDGE_NODE_OUT_OF_RANGE && ground.node == NULL);
    kept.known = 1, kept.whole = 3;
    WANT(sedge_ground_open_kept(&ground, &whole, &kept) == SEDGE_NODE_OUT_OF_RANGE && ground.node == NULL);
    kept.whole = 2, kept.zeros[0] = 7; /* which is not looked at */
    while (again(sedge_ground_open_kept(&ground, &whole, &kept)))
        ;
    kept.zeros[0] = 0;
    WANT(sedge_ground_kept(&ground, &read) == 0 && memcmp(&read, &kept, sizeof kept) == 0);
    has_come(&ground, 2, 2, 0);
    does_not_resume(&ground, 3);
    resumes(&ground, 1, 1);
    comes_out(&spacecraft, sedge_spacecraft_next, sedge_spacecraft_take, 5);
    sedge_ground_close(&ground);
    sedge_spacecraft_close(&spacecraft);
    WANT(live == 0);
}

/* A frame on a MAP that is closed on board is accepted, and its octets are dropped. */
static void on_a_closed_map(void) {
    struct sedge_config whole = config, board;
    struct sedge_ground ground = {0};
    struct sedge_spacecraft spacecraft = {0};
    struct sedge_received received = {0};
    struct sedge_spacecraft_reading read = {0};
    size_t count = 0;
    uint8_t map = 99;
    whole.part = 1016;
    board = whole;
    board.maps = 1 << 4;
    while (again(sedge_ground_open(&ground, &whole)))
        ;
    while (again(sedge_spacecraft_open(&spacecraft, &board)))
        ;
    WANT(sedge_ground_init_without_check(&ground) == 0);
    while (again(sedge_ground_submit(&ground, 5, packet, sizeof packet)))
        ;
    WANT(sedge_ground_pull(&ground, up, sizeof up, &count) == 0 && count == 15);
    WANT(sedge_spacecraft_receive(&spacecraft, up, count, &received) == 0);
    WANT(received.kind == SEDGE_RECEIVED_AD && received.n == 0 && received.verdict == SEDGE_ACCEPTED &&
         received.ready == 0);
    WANT(received.dropped == SEDGE_DROPPED_CLOSED_MAP);
    WANT(sedge_spacecraft_next(&spacecraft, &map, &count) == 0 && map == 99 && count == 0);
    WANT(sedge_spacecraft_read(&spacecraft, &read) == 0 && read.value == 1 && read.flags == 0);
    sedge_ground_close(&ground);
    sedge_spacecraft_close(&spacecraft);
    WANT(live == 0);
}

/* Each field is written: what is left of it is in no range. (python/check compares the values with docs/PROFILE.md.) */
static void the_defaults(void) {
    memset(&config, 77, sizeof config);
    sedge_config_default(&config);
    WANT(sedge_config_fault(&config) == 0 && config.maps == ~(uint64_t)0);
    config.part = 3;
}

static void handles_that_hold_none(void) {
    struct sedge_config wrong = config;
    struct sedge_ground ground = {0};
    struct sedge_spacecraft spacecraft = {0};
    struct sedge_heard heard;
    struct sedge_received received;
    struct sedge_ground_reading read = {77, 77, 77, 77, 77, 77, 77, 77, 77, 77, 77, 77, 77};
    struct sedge_spacecraft_reading board = {77, 77, 77, 77, 77, 77, 77, 77, 77, 77, 77};
    struct sedge_clcw word = {77, 77, 77, 77, 77};
    uint64_t whole = 77;
    size_t count = 77;
    uint8_t map = 77;
    WANT(sedge_config_fault(&config) == 0);
    wrong.blocking = 2;
    WANT(sedge_config_fault(&wrong) == 15);
    wrong.width = 253;
    WANT(sedge_config_fault(&wrong) == 4);
    WANT(sedge_ground_open(&ground, &wrong) == SEDGE_NODE_OUT_OF_RANGE && ground.node == NULL);
    WANT(sedge_spacecraft_open(&spacecraft, &wrong) == SEDGE_NODE_OUT_OF_RANGE && spacecraft.node == NULL);
    WANT(sedge_ground_init_unlock(&ground) == SEDGE_NODE_NONE && sedge_ground_tick(&ground) == SEDGE_NODE_NONE);
    WANT(sedge_ground_submit(&ground, 0, packet, 7) == 255 && sedge_ground_bypass(&ground, 0, packet, 7) == 255);
    WANT(sedge_ground_next(&ground, &count) == 255 && sedge_ground_pull(&ground, up, 1024, &count) == 255);
    WANT(sedge_ground_clcw_in(&ground, packet, 7, &word) == 255 &&
         sedge_ground_clcw(&ground, packet, 4, &heard) == 255);
    WANT(sedge_ground_forget_telemetry(&ground) == 255 && sedge_ground_advance(&ground) == 255);
    WANT(sedge_ground_peek(&ground, up, 1024, &count) == 255 && count == 77);
    WANT(count == 77 && word.value == 77);
    WANT(sedge_ground_next_telemetry(&ground, &count) == 255 && sedge_ground_accepted_beyond(&ground, 0, &map) == 255);
    WANT(sedge_ground_known_on_board(&ground, 0, &whole) == 255 && sedge_ground_resume(&ground, 0, &whole) == 255);
    WANT(sedge_ground_take_telemetry(&ground, out, sizeof out, &count) == 255 && whole == 77);
    WANT(sedge_ground_telemetry(&ground, down, 64, &heard) == 255 && sedge_ground_read(&ground, &read) == 255);
    WANT(sedge_spacecraft_receive(&spacecraft, up, 12, &received) == SEDGE_NODE_NONE);
    WANT(sedge_spacecraft_next(&spacecraft, &map, &count) == 255);
    WANT(sedge_spacecraft_next_bypass(&spacecraft, &map, &count) == 255);
    WANT(sedge_spacecraft_take(&spacecraft, &map, out, sizeof out, &count) == 255);
    WANT(sedge_spacecraft_take_bypass(&spacecraft, &map, out, sizeof out, &count) == 255);
    WANT(sedge_spacecraft_telemetry(&spacecraft, packet, 7) == 255);
    WANT(sedge_spacecraft_telemetry_frame(&spacecraft, down, 2048, &count) == 255);
    WANT(sedge_spacecraft_read(&spacecraft, &board) == SEDGE_NODE_NONE);
    WANT(count == 77 && map == 77 && read.state == 77 && read.submitted == 77);
    waits(&read, 77, 77, 77, 77, 77);
    wait_on_board(&board, 77, 77);
    sedge_ground_close(&ground);
    sedge_spacecraft_close(&spacecraft);
}

/* ---- The simulated link. ---- */

static void replies(uint8_t answer, const struct sedge_reply *reply, int kind) {
    WANT(answer == 0 && reply->kind == kind);
}

/* An event that may want memory, until it has some. */
#define HAPPENS(call, kind) \
    do { \
        uint8_t answer_; \
        while (again(answer_ = (call))) \
            ; \
        replies(answer_, &reply, kind); \
    } while (0)

static void has_entry(struct sedge_sim *sim, int record, int map, size_t k, const uint8_t *octets, size_t count) {
    size_t length = 77;
    WANT(sedge_sim_entry_length(sim, record, map, k, &length) == 0 && length == count);
    WANT(sedge_sim_entry(sim, record, map, k, out, count - 1, &length) == SEDGE_NODE_ROOM);
    WANT(sedge_sim_entry(sim, record, map, k, out, count, &length) == 0 && memcmp(out, octets, count) == 0);
    WANT(sedge_sim_entry(sim, record, map, k + 1, out, sizeof out, &length) == SEDGE_NODE_ABSENT && length == count);
}

static void has_submission(struct sedge_sim *sim) {
    size_t count = 77;
    uint8_t map = 77;
    WANT(sedge_sim_submissions(sim, &count) == 0 && count == 1);
    WANT(sedge_sim_submission_length(sim, 1, &map, &count) == SEDGE_NODE_ABSENT && map == 77 && count == 1);
    WANT(sedge_sim_submission(sim, 1, &map, out, sizeof out, &count) == SEDGE_NODE_ABSENT && map == 77);
    WANT(sedge_sim_submission_length(sim, 0, &map, &count) == 0 && map == 4 && count == 7);
    map = 77, out[0] = 77;
    WANT(sedge_sim_submission(sim, 0, &map, out, 6, &count) == SEDGE_NODE_ROOM && map == 77 && out[0] == 77);
    WANT(sedge_sim_submission(sim, 0, &map, out, 7, &count) == 0 && map == 4 && memcmp(out, packet, 7) == 0);
}

static void is_read(struct sedge_sim *sim, size_t outstanding, size_t acknowledged, int state) {
    struct sedge_sim_reading read;
    WANT(sedge_sim_read(sim, &read) == 0 && read.outstanding == outstanding && read.acknowledged == acknowledged);
    WANT(read.state == state && read.begun == SEDGE_BEGUN_SET_VR && read.vr == 7 && read.clean && read.idle);
}

/* What is read of the link's ground: V(S) and NN(R), and what waits there. */
static void has_ground(struct sedge_sim *sim, int vs, int nn, size_t unsent, size_t due, size_t bypassed, int ticks,
                       int count) {
    struct sedge_ground_reading read = {0};
    struct sedge_sim_reading link;
    WANT(sedge_sim_ground_read(sim, &read) == 0 && sedge_sim_read(sim, &link) == 0);
    WANT(read.state == link.state && read.outstanding == link.outstanding && read.frame_length == 64);
    WANT(read.vs == vs && read.nn == nn && read.submitted == 1);
    waits(&read, unsent, due, bypassed, ticks, count);
}

/* What is read of its spacecraft. */
static void has_spacecraft(struct sedge_sim *sim, int value, int farm_b, size_t ready, size_t bypassed) {
    struct sedge_spacecraft_reading read = {0};
    WANT(sedge_sim_spacecraft_read(sim, &read) == 0 && read.frame_length == 64);
    WANT(read.value == value && read.farm_b == farm_b && read.vcid == 2 && read.flags == 0 && read.status == 0);
    WANT(read.state == SEDGE_FARM_OPEN);
    wait_on_board(&read, ready, bypassed);
}

static void link(void) {
    struct sedge_config whole = config;
    struct sedge_sim sim = {0};
    struct sedge_reply reply;
    size_t count = 0;
    static const uint8_t field[] = {0xc4, 0x10, 0x05, 0xc0, 0x00, 0x00, 0x00, 0xaa}; /* the segment header first */
    whole.part = 1016;
    while (fill_stack(), again(sedge_sim_open(&sim, &whole)))
        ;
    HAPPENS(sedge_sim_submit(&sim, 4, packet, sizeof packet, &reply), SEDGE_REPLY_REFUSED);
    WANT(reply.by == SEDGE_BY_NODE && reply.fault == SEDGE_NODE_NOT_OPEN);
    HAPPENS(sedge_sim_terminate(&sim, &reply), SEDGE_REPLY_REFUSED);
    WANT(reply.by == SEDGE_BY_SENDER && reply.fault == SEDGE_COP_WRONG_STATE);
    HAPPENS(sedge_sim_init_set_vr(&sim, 7, &reply), SEDGE_REPLY_DONE);
    HAPPENS(sedge_sim_submit(&sim, 4, packet, sizeof packet, &reply), SEDGE_REPLY_DONE);
    HAPPENS(sedge_sim_bypass(&sim, 5, packet, sizeof packet, &reply), SEDGE_REPLY_DONE);
    has_ground(&sim, 7, 7, 1, 0, 1, 0, 1);
    has_spacecraft(&sim, 0, 0, 0, 0);
    HAPPENS(sedge_sim_send(&sim, &reply), SEDGE_REPLY_SENT);
    WANT(reply.count == 10 && sedge_sim_octets(&sim, out, 9, &count) == SEDGE_NODE_ROOM);
    WANT(sedge_sim_octets(&sim, out, sizeof out, &count) == 0 && count == 10 && out[0] == 0x30 && out[5] == 0x82);
    HAPPENS(sedge_sim_up_deliver(&sim, &reply), SEDGE_REPLY_UP);
    WANT(reply.up.kind == SEDGE_RECEIVED_BC && reply.up.command == SEDGE_SET_VR && reply.up.vr == 7 &&
         reply.count == 0);
    WANT(sedge_sim_octets(&sim, out, 0, &count) == 0 && count == 0);
    HAPPENS(sedge_sim_report(&sim, &reply), SEDGE_REPLY_REPORTED);
    WANT(reply.report.vcid == 2 && reply.report.value == 7 && reply.report.farm_b == 1);
    HAPPENS(sedge_sim_down_deliver(&sim, &reply), SEDGE_REPLY_DOWN);
    WANT(reply.down.kind == SEDGE_HEARD_FRAME && reply.down.first == 1 && reply.down.report == SEDGE_REPORT_USED &&
         reply.down.packets == 0);
    is_read(&sim, 1, 0, SEDGE_FOP_S1);
    HAPPENS(sedge_sim_send(&sim, &reply), SEDGE_REPLY_SENT);
    HAPPENS(sedge_sim_send(&sim, &reply), SEDGE_REPLY_SENT);
    HAPPENS(sedge_sim_send(&sim, &reply), SEDGE_REPLY_NOTHING);
    HAPPENS(sedge_sim_up_deliver(&sim, &reply), SEDGE_REPLY_UP);
    WANT(reply.up.kind == SEDGE_RECEIVED_BD && reply.up.kept);
    has_ground(&sim, 8, 7, 0, 0, 0, 10, 1);
    has_spacecraft(&sim, 7, 2, 0, 1);
    HAPPENS(sedge_sim_take_bypass(&sim, &reply), SEDGE_REPLY_PACKET);
    WANT(reply.map == 5 && reply.count == 7);
    WANT(sedge_sim_up_damage(&sim, packet, 7, &reply) == 0 && reply.kind == SEDGE_REPLY_UP &&
         reply.up.kind == SEDGE_RECEIVED_INVALID);
    WANT(sedge_sim_up_lose(&sim, &reply) == SEDGE_SIM_NOTHING_IN_TRANSIT);
    for (int i = 0; i < 9; i++) HAPPENS(sedge_sim_tick(&sim, &reply), SEDGE_REPLY_DONE);
    has_ground(&sim, 8, 7, 0, 0, 0, 1, 1);
    HAPPENS(sedge_sim_tick(&sim, &reply), SEDGE_REPLY_DONE);
    has_ground(&sim, 8, 7, 0, 1, 0, 10, 2);
    HAPPENS(sedge_sim_send(&sim, &reply), SEDGE_REPLY_SENT);
    has_ground(&sim, 8, 7, 0, 0, 0, 10, 2);
    WANT(sedge_sim_octets(&sim, out, sizeof out, &count) == 0);
    WANT(sedge_sim_up_damage(&sim, out, count, &reply) == SEDGE_SIM_NOT_DETECTABLE);
    HAPPENS(sedge_sim_up_deliver(&sim, &reply), SEDGE_REPLY_UP);
    WANT(reply.up.kind == SEDGE_RECEIVED_AD && reply.up.n == 7 && reply.up.verdict == SEDGE_ACCEPTED &&
         reply.up.ready == 1);
    has_spacecraft(&sim, 8, 2, 1, 0);
    HAPPENS(sedge_sim_telemetry(&sim, packet, 6, &reply), SEDGE_REPLY_REFUSED);
    WANT(reply.by == SEDGE_BY_TELEMETRY && reply.fault == 8);
    HAPPENS(sedge_sim_telemetry(&sim, packet, 7, &reply), SEDGE_REPLY_DONE);
    HAPPENS(sedge_sim_report(&sim, &reply), SEDGE_REPLY_REPORTED);
    HAPPENS(sedge_sim_report(&sim, &reply), SEDGE_REPLY_REPORTED);
    WANT(sedge_sim_down_damage(&sim, packet, 7, &reply) == 0 && reply.kind == SEDGE_REPLY_DOWN &&
         reply.down.kind == SEDGE_HEARD_INVALID);
    HAPPENS(sedge_sim_down_deliver(&sim, &reply), SEDGE_REPLY_DOWN);
    is_read(&sim, 0, 1, SEDGE_FOP_S1);
    has_ground(&sim, 8, 8, 0, 0, 0, 0, 1);
    HAPPENS(sedge_sim_report(&sim, &reply), SEDGE_REPLY_REPORTED);
    HAPPENS(sedge_sim_down_lose(&sim, &reply), SEDGE_REPLY_LOST);
    HAPPENS(sedge_sim_take(&sim, &reply), SEDGE_REPLY_PACKET);
    WANT(sedge_sim_octets(&sim, out, sizeof out, &count) == 0 && count == 7 && memcmp(out, packet, 7) == 0);
    HAPPENS(sedge_sim_take(&sim, &reply), SEDGE_REPLY_NOTHING);
    WANT(sedge_sim_count(&sim, SEDGE_SUBMITTED, 4, &count) == 0 && count == 1);
    WANT(sedge_sim_count(&sim, SEDGE_DELIVERED, 5, &count) == 0 && count == 0);
    WANT(sedge_sim_count(&sim, 5, 4, &count) == 0 && count == 0);
    has_submission(&sim);
    has_entry(&sim, SEDGE_SUBMITTED, 4, 0, packet, sizeof packet);
    has_entry(&sim, SEDGE_DELIVERED, 4, 0, packet, sizeof packet);
    has_entry(&sim, SEDGE_SENT, 0, 0, field, sizeof field);
    has_entry(&sim, SEDGE_RECEIVED, 0, 0, field, sizeof field);
    HAPPENS(sedge_sim_resume(&sim, 8, &reply), SEDGE_REPLY_REFUSED);
    WANT(reply.by == SEDGE_BY_NODE && reply.fault == SEDGE_NODE_NOT_KNOWN && reply.whole == 0);
    HAPPENS(sedge_sim_terminate(&sim, &reply), SEDGE_REPLY_ALERT);
    WANT(reply.alert == SEDGE_ALERT_TERMINATED);
    HAPPENS(sedge_sim_resume(&sim, 8, &reply), SEDGE_REPLY_RESUMED);
    WANT(reply.whole == 1 && reply.count == 0);
    HAPPENS(sedge_sim_report(&sim, &reply), SEDGE_REPLY_REPORTED);
    HAPPENS(sedge_sim_down_clcw(&sim, &reply), SEDGE_REPLY_DOWN_CLCW);
    WANT(reply.down.kind == 4 && reply.down.report == 0 && reply.down.packets == 0 && reply.whole == 0);
    WANT(sedge_sim_down_clcw(&sim, &reply) == SEDGE_SIM_NOTHING_IN_TRANSIT);
    sedge_sim_close(&sim);
    WANT(sim.link == NULL && live == 0);
}

/* By number and value: what names no directive or no event is refused, and changes nothing. */
static void events_by_number(void) {
    static const uint8_t none[] = {0, LAST_EVENT + 1, 255};
    struct sedge_ground ground = {0};
    struct sedge_sim sim = {0};
    struct sedge_reply reply = {0};
    struct sedge_event event = {SEDGE_EVENT_DIRECTIVE, 0, SEDGE_SET_VS, 256, packet, 0};
    while (again(sedge_ground_open(&ground, &config)))
        ;
    while (again(sedge_sim_open(&sim, &config)))
        ;
    reply.kind = 77;
    WANT(sedge_sim_step(&sim, &event, &reply) == SEDGE_NODE_NONE);
    for (size_t k = 0; k < sizeof none; k++) {
        WANT(sedge_ground_directive(&ground, none[k], 1) == SEDGE_NODE_NONE);
        event.directive = none[k];
        WANT(sedge_sim_step(&sim, &event, &reply) == SEDGE_NODE_NONE);
    }
    WANT(sedge_ground_directive(&ground, SEDGE_INIT_SET_VR, 256) == SEDGE_NODE_NONE);
    WANT(sedge_ground_directive(&ground, SEDGE_SET_WINDOW, 257) == SEDGE_COP_WINDOW);
    WANT(sedge_ground_directive(&ground, SEDGE_SET_LIMIT, 256) == SEDGE_COP_LIMIT);
    WANT(sedge_ground_directive(&ground, SEDGE_SET_TIMER, 65535) == 0);
    WANT(sedge_ground_directive(&ground, SEDGE_TERMINATE, 65535) == SEDGE_COP_WRONG_STATE);
    event.directive = SEDGE_SET_WINDOW;
    for (size_t k = 0; k < sizeof none; k++) {
        event.kind = none[k];
        WANT(sedge_sim_step(&sim, &event, &reply) == SEDGE_NODE_NONE && reply.kind == 77);
    }
    event.kind = SEDGE_EVENT_RESUME;
    WANT(sedge_sim_step(&sim, &event, &reply) == SEDGE_NODE_NONE && reply.kind == 77);
    event.kind = SEDGE_EVENT_DIRECTIVE;
    HAPPENS(sedge_sim_step(&sim, &event, &reply), SEDGE_REPLY_REFUSED);
    WANT(reply.by == SEDGE_BY_SENDER && reply.fault == SEDGE_COP_WINDOW);
    sedge_ground_close(&ground);
    sedge_sim_close(&sim);
}

static void links_that_are_none(void) {
    struct sedge_config wrong = config;
    struct sedge_sim sim = {0};
    struct sedge_reply reply = {0};
    struct sedge_sim_reading read;
    struct sedge_ground_reading ground = {77, 77, 77, 77, 77, 77, 77, 77, 77, 77, 77, 77, 77};
    struct sedge_spacecraft_reading board = {77, 77, 77, 77, 77, 77, 77, 77, 77, 77, 77};
    size_t count = 77;
    uint8_t map = 77;
    wrong.blocking = 2;
    reply.kind = 77;
    WANT(sedge_sim_open(&sim, &wrong) == SEDGE_NODE_OUT_OF_RANGE && sim.link == NULL);
    WANT(sedge_sim_send(&sim, &reply) == 255 && sedge_sim_submit(&sim, 4, packet, 7, &reply) == 255);
    WANT(reply.kind == 77);
    WANT(sedge_sim_octets(&sim, out, 1, &count) == 255 && sedge_sim_read(&sim, &read) == 255);
    WANT(sedge_sim_ground_read(&sim, &ground) == 255 && sedge_sim_spacecraft_read(&sim, &board) == 255);
    waits(&ground, 77, 77, 77, 77, 77);
    wait_on_board(&board, 77, 77);
    WANT(sedge_sim_count(&sim, SEDGE_SENT, 0, &count) == 255 && count == 77);
    WANT(sedge_sim_entry_length(&sim, SEDGE_SENT, 0, 0, &count) == 255);
    WANT(sedge_sim_entry(&sim, SEDGE_SENT, 0, 0, out, 1, &count) == 255 && count == 77);
    WANT(sedge_sim_submissions(&sim, &count) == 255 && count == 77);
    WANT(sedge_sim_submission_length(&sim, 0, &map, &count) == 255 && map == 77 && count == 77);
    WANT(sedge_sim_submission(&sim, 0, &map, out, 1, &count) == 255 && map == 77 && count == 77);
    sedge_sim_close(&sim);
}

static void is_named(struct sedge_text name, const char *word) {
    WANT(strcmp(name.text, word) == 0);
}

static void names(void) {
    is_named(sedge_parameter_name(1), "scid");
    is_named(sedge_parameter_name(SEDGE_PARAMETER_BLOCKING), "blocking");
    WANT(strcmp(sedge_parameter_name(LAST_PARAMETER).text, "?") != 0);
    is_named(sedge_parameter_name(LAST_PARAMETER + 1), "?");
    is_named(sedge_link_fault_name(SEDGE_NODE_QUEUE_FULL), "QueueFull");
    is_named(sedge_link_fault_name(SEDGE_NODE_NOT_KNOWN), "NotKnown");
    is_named(sedge_link_fault_name(8), "?");
    is_named(sedge_link_fault_name(SEDGE_NODE_ROOM), "?");
    is_named(sedge_sim_fault_name(SEDGE_SIM_NOT_DETECTABLE), "NotDetectable");
}

/* Octets that two segments join to no packet, of which the first is 0: it is said why they are dropped. */
static void joined_to_no_packet(void) {
    static const uint8_t octets[] = {0x00, 0x05, 0xc0, 0x00, 0x00, 0x07, 0xaa, 0xbb};
    struct sedge_config own;
    struct sedge_spacecraft spacecraft = {0};
    struct sedge_received received = {0};
    struct sedge_tc_frame frame = {0};
    size_t count = 0;
    uint8_t number;
    sedge_config_default(&own);
    while (again(sedge_spacecraft_open(&spacecraft, &own)))
        ;
    frame.scid = (uint16_t)own.scid;
    frame.vcid = (uint8_t)own.vcid;
    for (number = 0; number < 2; number++) {
        frame.n = number;
        frame.flags = number == 0 ? SEDGE_SEGMENT_FIRST : SEDGE_SEGMENT_LAST;
        WANT(sedge_tc_encode(&frame, octets + 4 * number, 4, true, up, sizeof up, &count) == SEDGE_OK);
        while (again(sedge_spacecraft_receive(&spacecraft, up, count, &received)))
            ;
        WANT(received.verdict == SEDGE_ACCEPTED && received.ready == 0);
    }
    WANT(received.dropped == SEDGE_DROPPED_NOT_A_PACKET);
    sedge_spacecraft_close(&spacecraft);
}

int main(void) {
    long all;
    the_defaults();
    handles_that_hold_none();
    links_that_are_none();
    names();
    WANT(tried == 0);
    session();
    telemetry_with_an_idle_packet();
    past_the_sequence_control();
    after_an_alert();
    on_a_closed_map();
    joined_to_no_packet();
    a_restart_on_purpose();
    a_ground_that_fails_over();
    link();
    events_by_number();
    all = tried;
#ifndef OVER_MEMORY
    WANT(all > 0);
#endif
    for (refused = 0; refused < all; refused++) {
        tried = 0;
        session();
        telemetry_with_an_idle_packet();
        past_the_sequence_control();
        after_an_alert();
        on_a_closed_map();
        joined_to_no_packet();
        a_restart_on_purpose();
        a_ground_that_fails_over();
        link();
        events_by_number();
    }
    printf(failures ? "%d failed\n" : "all as wanted, %d failed of %ld allocations\n", failures, all);
    return failures != 0;
}
