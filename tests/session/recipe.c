/* Recovers after alerts and resets (docs/CONTROL.md) over random links, until SESSIONS sessions have begun: `recipe
 * SESSIONS`. Frames are delayed and lost; in some runs they overtake each other, and in some the spacecraft restarts.
 * In some the ground is lost at times, and another continues from its record, or from an older one (docs/CONTROL.md,
 * "The ground fails over"). On board each packet must be the next one expected on its MAP: none twice, and none left
 * out that was stated to be on board. recipe.py and recipe.rs do the same, and write the same lines. A second argument
 * removes a step, and the fault is found. With `early` the program believes the first CLCW after an alert, whenever
 * that was made, and begins a session by it even if the ground refuses. With `numbers` it uses only the numbers of the
 * ground and of the CLCW, whatever the alert states, and whether or not the spacecraft has restarted. */
#include "sedgechisel_nodes.h"
#include <stdio.h>
#include <stdlib.h>
#include <string.h>

enum { PACKETS = 12, SLOWEST = 4, LONGEST = 30, ON_THEIR_WAY = 512, LONGEST_RUN = 600 };

struct frame {
    long arrives;
    size_t count;
    uint8_t octets[1024];
};

/* One direction: frames arrive within `delay` ticks, in order unless it swaps them, or are lost. */
struct way {
    uint32_t delay, losses;
    int swaps;
    long last;
    size_t count;
    struct frame frames[ON_THEIR_WAY];
};

struct packet {
    uint8_t map;
    size_t count;
    uint8_t octets[LONGEST];
};

/* What the spacecraft says of itself in a packet of each telemetry frame: how often it was started, the packets that
 * are on board, and of these those that were taken. */
struct board {
    uint8_t starts, whole, taken;
};

static uint32_t state, sessions;
static int is_early, by_numbers;
static unsigned long begun, alerts, taken_in_all, ticks;
static struct way up, down;
static struct sedge_ground ground;
static struct sedge_spacecraft spacecraft;
static struct sedge_config config;
/* The packets of a run; ticks between takes. */
static struct packet packets[PACKETS];
static uint32_t pause;
/* Whether the run has begun a session; whether a condition was broken since, so that nothing is known of it; the tick
 * from which nothing has gone up; packets submitted, and of them those that earlier sessions have brought on board.
 * Whether the spacecraft restarts at times; what it says of itself, and what of that has come; packets taken. */
static int has_begun, is_broken;
static long quiet;
static size_t submitted, done;
static int restarts;
static struct board board, heard_of;
static size_t taken[2];
/* Whether the ground is lost at times; what is kept of it, which in some runs is stored seldom; and whether the ground
 * was opened at such a record. */
static int fails, is_late, is_old;
static struct sedge_kept_ground stored;

static uint32_t draw(uint32_t below) {
    state = state * 1664525 + 1013904223;
    return (state >> 16) % below;
}

static void wrong(const char *what) {
    printf("after %lu sessions: %s\n", begun, what);
    exit(1);
}

static void expect(int holds, const char *call) {
    if (!holds) wrong(call);
}

static struct sedge_ground_reading read_ground(void) {
    struct sedge_ground_reading reading;
    expect(sedge_ground_read(&ground, &reading) == 0, "sedge_ground_read");
    return reading;
}

static void send(struct way *way, long now, const struct frame *frame) {
    long soonest = now + 1 + (long)draw(way->delay);
    size_t at;
    way->last = soonest > way->last || way->swaps ? soonest : way->last;
    if (draw(10) < way->losses) return;
    expect(way->count < ON_THEIR_WAY, "too many frames are on their way");
    for (at = way->count++; at > 0 && way->frames[at - 1].arrives > way->last; at--) way->frames[at] = way->frames[at - 1];
    way->frames[at] = *frame;
    way->frames[at].arrives = way->last;
}

/* Takes the next frame that has arrived; whether there is one. */
static int arrived(struct way *way, long now, struct frame *frame) {
    if (way->count == 0 || way->frames[0].arrives > now) return 0;
    *frame = way->frames[0];
    memmove(way->frames, way->frames + 1, --way->count * sizeof *frame);
    return 1;
}

static void begin_way(struct way *way, uint32_t delay) {
    way->delay = delay;
    way->losses = draw(5);
    way->swaps = draw(6) == 0;
    way->last = 0;
    way->count = 0;
}

static void begin_packets(void) {
    size_t k;
    for (k = 0; k < PACKETS; k++) {
        struct packet *it = &packets[k];
        size_t length;
        it->map = (uint8_t)(4 + draw(2));
        length = 1 + draw(24);
        it->count = 6 + length;
        memset(it->octets, (int)k, it->count);
        memcpy(it->octets, "\x10\x05\xc0", 3);
        it->octets[4] = 0;
        it->octets[5] = (uint8_t)(length - 1);
    }
}

/* Two new nodes over a link, and packets that are wanted on board. */
static void begin_run(void) {
    uint32_t delay;
    sedge_config_default(&config);
    config.queue_slots = 500, config.frame_length = 32;
    config.window = 1 + draw(8);
    config.width = 2 * config.window + 2 * draw(4);
    config.limit = 1 + draw(4);
    config.part = by_numbers ? LONGEST : 4 + draw(24);
    config.ready_slots = 1 + draw(4);
    delay = 1 + draw(SLOWEST);
    config.timer = 2 * delay + 1 + draw(3);
    begin_way(&up, delay);
    begin_way(&down, delay);
    pause = 1 + draw(3);
    restarts = draw(3) == 0;
    fails = draw(3) == 0;
    is_late = draw(3) == 0;
    begin_packets();
    quiet = -99;
    has_begun = is_broken = is_old = 0;
    memset(&board, 0, sizeof board);
    memset(&heard_of, 0, sizeof heard_of);
    submitted = done = taken[0] = taken[1] = 0;
    expect(sedge_ground_open(&ground, &config) == 0, "sedge_ground_open");
    expect(sedge_ground_kept(&ground, &stored) == 0, "sedge_ground_kept");
    expect(sedge_spacecraft_open(&spacecraft, &config) == 0, "sedge_spacecraft_open");
}

/* The packet of this number among those on a MAP, or none. */
static const struct packet *wanted(uint8_t map, size_t number) {
    size_t k;
    for (k = 0; k < PACKETS; k++) {
        if (packets[k].map == map && number-- == 0) return &packets[k];
    }
    return NULL;
}

/* Takes a packet on board, which has to be the next of its MAP; whether there was one. */
static int take(void) {
    uint8_t map, octets[LONGEST];
    size_t count;
    const struct packet *next;
    expect(sedge_spacecraft_take(&spacecraft, &map, octets, sizeof octets, &count) == 0, "sedge_spacecraft_take");
    if (count == 0) return 0;
    next = wanted(map, taken[map - 4]);
    if (next == NULL || next->count != count || memcmp(next->octets, octets, count) != 0) {
        wrong("a packet came that is not the next one");
    }
    taken[map - 4]++;
    taken_in_all++;
    return 1;
}

/* The spacecraft restarts: what was not taken is gone. It begins in Lockout, by a frame whose number is in neither
 * window, so that no report of the new receiver is believed. */
static void restart(void) {
    const struct sedge_tc_frame own = {1, 2, SEDGE_TC_AD, 128, SEDGE_SEGMENT_ALONE, 0, 0, 0};
    const uint8_t octet = 0;
    struct sedge_received received;
    uint8_t octets[16];
    size_t count;
    expect(sedge_spacecraft_open(&spacecraft, &config) == 0, "sedge_spacecraft_open");
    expect(sedge_tc_encode(&own, &octet, 1, true, octets, sizeof octets, &count) == 0, "sedge_tc_encode");
    expect(sedge_spacecraft_receive(&spacecraft, octets, count, &received) == 0, "sedge_spacecraft_receive");
    expect(received.verdict == SEDGE_OUTSIDE, "it begins in Lockout");
    board.starts++;
}

/* What is kept of the ground; in some runs an older record stays. */
static void store(void) {
    if (!is_late || draw(8) == 0) expect(sedge_ground_kept(&ground, &stored) == 0, "sedge_ground_kept");
}

/* The ground is lost, and another goes on; a round trip has to go by from now on. */
static void fail_over(long now) {
    sedge_ground_close(&ground);
    expect(sedge_ground_open_kept(&ground, &config, &stored) == 0, "sedge_ground_open_kept");
    is_old = is_late;
    quiet = now;
}

/* The next telemetry frame: a report, and beside it what the spacecraft says of itself. */
static void report(long now) {
    struct sedge_spacecraft_reading reading;
    uint8_t packet[] = {0, 1, 0xc0, 0, 0, 2, 0, 0, 0};
    struct frame frame;
    expect(sedge_spacecraft_read(&spacecraft, &reading) == 0, "sedge_spacecraft_read");
    board.taken = (uint8_t)(taken[0] + taken[1]);
    board.whole = (uint8_t)(board.taken + reading.ready);
    memcpy(packet + 6, &board, sizeof board);
    expect(sedge_spacecraft_telemetry(&spacecraft, packet, sizeof packet) == 0, "sedge_spacecraft_telemetry");
    expect(sedge_spacecraft_telemetry_frame(&spacecraft, frame.octets, sizeof frame.octets, &frame.count) == 0, "report");
    send(&down, now, &frame);
}

/* Begins a session by an initiation, where nothing is known of one before. Where frames overtake each other no number
 * is chosen, since a report of the one before might come later. */
static void begin_first(uint8_t value) {
    uint32_t how = draw(4);
    if (how == 0 && !down.swaps) {
        expect(sedge_ground_init_set_vr(&ground, (uint8_t)draw(256)) == 0, "sedge_ground_init_set_vr");
    } else {
        expect(sedge_ground_set_vs(&ground, value) == 0, "sedge_ground_set_vs");
        expect((how == 1 ? sedge_ground_init_with_check : sedge_ground_init_unlock)(&ground) == 0, "an initiation");
    }
}

/* Begins the next session where the last one has got to. */
static void resume(uint8_t value, const struct board *it) {
    uint64_t known = 0, whole = 0;
    int is_known = sedge_ground_known_on_board(&ground, value, &known) == 0;
    if (is_old && (!is_known || done + known != it->whole)) { /* the second way */
        begin_first(value);
        done = it->whole;
        return;
    }
    if (!is_known || sedge_ground_resume(&ground, value, &whole) != 0) {
        if (!is_early) wrong("nothing is known of how far the session has come");
        begin_first(value);
        return;
    }
    expect(whole == known, "sedge_ground_resume");
    done += (size_t)whole;
    if (!is_early && done != it->whole) wrong("it is not what the spacecraft says");
}

/* The same by the numbers alone: each packet is one segment. */
static void go_by_numbers(uint8_t value) {
    uint64_t whole = read_ground().acknowledged_whole;
    uint8_t accepted = 0;
    if (sedge_ground_accepted_beyond(&ground, value, &accepted) == 0) whole += accepted;
    done += (size_t)whole;
    begin_first(value);
}

/* Begins a session by a report, and by what the spacecraft said of itself beside it. */
static void begin(uint8_t value, const struct board *it) {
    if (by_numbers) {
        go_by_numbers(value);
    } else if (is_broken || !has_begun) {
        begin_first(value);
        done = it->whole;
    } else {
        resume(value, it);
    }
    has_begun = 1;
    is_broken = is_old = 0;
    submitted = done;
    begun++;
    if (begun % 1000 == 0) {
        printf("%lu sessions: %lu alerts, %lu packets, %lu ticks\n", begun, alerts, taken_in_all, ticks);
    }
}

/* An alert that shows a broken condition: nothing is known of the session from then on. */
static void see(uint8_t alert) {
    uint64_t whole;
    alerts += alert != SEDGE_NO_ALERT;
    if (!sedge_alert_shows_broken_condition(alert)) return;
    is_broken = 1;
    if (sedge_ground_resume(&ground, read_ground().nn, &whole) != SEDGE_NODE_NOT_KNOWN) wrong("it resumes after such an alert");
}

/* What the spacecraft says of itself. Where it was started again, the session ends, and nothing is known of it; a round
 * trip has to go by from now on. */
static struct board take_telemetry(long now) {
    struct board it;
    uint8_t packet[16];
    size_t count;
    expect(sedge_ground_take_telemetry(&ground, packet, sizeof packet, &count) == 0 && count == 9, "take_telemetry");
    memcpy(&it, packet + 6, sizeof it);
    if (it.starts > heard_of.starts && !by_numbers) {
        is_broken = 1;
        quiet = now;
        if (read_ground().state != SEDGE_FOP_S6) expect(sedge_ground_terminate(&ground) == 0, "sedge_ground_terminate");
    }
    if (it.starts > heard_of.starts || (it.starts == heard_of.starts && it.taken > heard_of.taken)) heard_of = it;
    return it;
}

static void hear(const struct frame *frame, long now) {
    struct sedge_heard heard;
    struct sedge_clcw report;
    struct board it;
    expect(sedge_ground_telemetry(&ground, frame->octets, frame->count, &heard) == 0, "sedge_ground_telemetry");
    see(heard.alert);
    it = take_telemetry(now);
    if (heard.alert != SEDGE_NO_ALERT || read_ground().state != SEDGE_FOP_S6) return;
    if (heard.kind != SEDGE_HEARD_FRAME || heard.report != SEDGE_REPORT_USED) return;
    expect(sedge_ground_clcw_in(&ground, frame->octets, frame->count, &report) == 0, "sedge_ground_clcw_in");
    if (is_early || now - quiet > 2 * (long)up.delay) begin(report.value, &it);
}

static void submit_and_send(long now) {
    struct frame frame;
    for (; submitted < PACKETS; submitted++) {
        const struct packet *it = &packets[submitted];
        expect(sedge_ground_submit(&ground, it->map, it->octets, it->count) == 0, "sedge_ground_submit");
    }
    for (;;) {
        expect(sedge_ground_pull(&ground, frame.octets, sizeof frame.octets, &frame.count) == 0, "pull");
        if (frame.count == 0) return;
        quiet = now;
        store();
        send(&up, now, &frame);
    }
}

static void tick(long now) {
    struct frame frame;
    struct sedge_received received;
    while (arrived(&up, now, &frame)) {
        expect(sedge_spacecraft_receive(&spacecraft, frame.octets, frame.count, &received) == 0, "receive");
    }
    while (draw(pause) == 0 && take()) continue;
    if (restarts && draw(60) == 0) restart();
    if (fails && draw(60) == 0) fail_over(now);
    report(now);
    while (arrived(&down, now, &frame)) {
        hear(&frame, now);
        store();
    }
    alerts += sedge_ground_tick(&ground) != 0;
    if (draw(50) == 0 && read_ground().state != SEDGE_FOP_S6) {
        expect(sedge_ground_terminate(&ground) == 0, "sedge_ground_terminate");
        alerts++;
    }
    if (read_ground().state != SEDGE_FOP_S6) submit_and_send(now);
}

/* Goes on until all packets were taken, as the spacecraft says, as long as a run may be. What was said to be on board
 * has come then, unless the spacecraft has restarted and not said so yet, or the ground is at an old record. */
static void play(void) {
    long now;
    begin_run();
    for (now = 0; now < LONGEST_RUN && heard_of.taken < PACKETS && begun < sessions; now++) {
        ticks++;
        tick(now);
    }
    while (take()) continue;
    if (!is_broken && !is_old && board.starts == heard_of.starts) done += (size_t)read_ground().acknowledged_whole;
    else done = heard_of.taken;
    if (taken[0] + taken[1] < done) wrong("a packet that was said to be on board did not come");
}

int main(int count, char **words) {
    if (count < 2) return 2;
    sessions = (uint32_t)strtoul(words[1], NULL, 10);
    is_early = count > 2 && strcmp(words[2], "early") == 0;
    by_numbers = count > 2 && strcmp(words[2], "numbers") == 0;
    while (begun < sessions) play();
    sedge_ground_close(&ground);
    sedge_spacecraft_close(&spacecraft);
    return 0;
}
