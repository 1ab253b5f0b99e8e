/* The ground of the board in this folder, over a link with a delay that loses and damages frames, and is interrupted
 * now and then: `ground SEED SLOTS`, in one folder with the board. It follows the steps of docs/CONTROL.md after an
 * alert and after a reset, and checks the boot count. In the end, each packet that was executed must be the next one on
 * its MAP. The last line states what happened; the status is 0 if all is as expected. */
#include "board.h"
#include <stdio.h>
#include <stdlib.h>
#include <string.h>

enum { DELAY = 4, ROUND_TRIP = 2 * DELAY + 4, MOST = 4096, PACKETS = 8 };

static struct sedge_ground ground;
static FILE *slots, *frames;
static uint64_t chance;

/* What is on its way: in each place what was sent DELAY slots ago, and nothing where the count is 0. */
static struct { uint8_t octets[SLOT]; size_t count; } up[DELAY];
static struct { uint8_t octets[FRAME]; bool comes; } down[DELAY];
static unsigned now, dark;

/* The submissions of the session: the MAP, the first serial number, and the number of packets. On each MAP, the number
 * of the next packet that is submitted. */
static struct { uint8_t map; uint32_t serial, packets; } given[MOST];
static size_t submitted;
static uint32_t next[MAPS];

/* Slots since a frame was pulled; whether nothing but the command of an initiation is pulled; whether the session that
 * ended says what is on board; a report that was made in silence; what telemetry said last. */
static unsigned silence;
static bool stopped = true, is_known, has_word;
static uint8_t word;
static uint32_t boots, boots_wanted, executed[MAPS];
static unsigned long alerts, broken, resumed, crashes, resets, bypassed;

static unsigned below(unsigned n) {
    chance = chance * 6364136223846793005u + 1442695040888963407u;
    return (unsigned)(chance >> 33) % n;
}

static void fail(const char *why) {
    fprintf(stderr, "slot %u: %s\n", now, why);
    exit(1);
}

/* The length of the data of a packet follows from its number. Most are short, and come several in a segment. */
static size_t length_of(uint32_t serial) {
    const uint32_t it = serial * 2654435761u >> 7;
    return SERIAL + (it % 4 ? it / 4 % 40 : it / 4 % (1024 - HEAD - SERIAL + 1));
}

static size_t write_packet(uint8_t *octets, size_t room, uint32_t serial, size_t length) {
    const struct sedge_packet header = {5, (uint16_t)(serial & 0x3fff), SEDGE_PACKET_TELECOMMAND, 0, SEDGE_SEQUENCE_UNSEGMENTED};
    uint8_t data[1024];
    size_t count;
    put_number(data, serial);
    for (size_t k = SERIAL; k < length; k++) data[k] = octet_of(serial, k);
    if (sedge_packet_encode(&header, data, length, octets, room, &count) != SEDGE_OK) fail("a packet is refused");
    return count;
}

/* Submits one packet, or some that fit in one segment together, on one of the MAPs. */
static bool submit(void) {
    static uint8_t octets[PACKETS * 1024];
    const unsigned k = below(MAPS);
    uint32_t serial = next[k], most = 1 + below(PACKETS);
    size_t count = write_packet(octets, sizeof octets, serial++, length_of(next[k]));
    while (serial < next[k] + most && count + HEAD + length_of(serial) <= 249) {
        count += write_packet(octets + count, sizeof octets - count, serial, length_of(serial));
        serial++;
    }
    const uint8_t map = k ? SECOND_MAP : 0, answer = sedge_ground_submit(&ground, map, octets, count);
    if (answer == SEDGE_NODE_QUEUE_FULL || answer == SEDGE_NODE_NOT_OPEN || submitted == MOST) return false;
    if (answer != SEDGE_NODE_OK) fail("a submission is refused");
    given[submitted].map = (uint8_t)k;
    given[submitted].serial = next[k];
    given[submitted++].packets = serial - next[k];
    next[k] = serial;
    return true;
}

static uint8_t state(void) {
    struct sedge_ground_reading read;
    sedge_ground_read(&ground, &read);
    return read.state;
}

/* Puts the next frame on its way up, with fill after it. */
static void pull(void) {
    uint8_t *octets = up[(now + DELAY - 1) % DELAY].octets;
    size_t count;
    if (sedge_ground_pull(&ground, octets, 1024, &count) != SEDGE_NODE_OK) fail("pull");
    if (count == 0) return;
    silence = 0;
    for (unsigned fill = below(7); fill > 0; fill--) octets[count++] = 0x55;
    if (below(15) == 0) octets[below((unsigned)count)] ^= (uint8_t)(1u << below(8));
    if (below(8) > 0 && dark == 0) up[(now + DELAY - 1) % DELAY].count = count;
}

static void stop(bool known) {
    stopped = true;
    is_known = is_known && known;
    has_word = false;
}

static void see(uint8_t alert) {
    if (alert == SEDGE_NO_ALERT) return;
    alerts++;
    broken += sedge_alert_shows_broken_condition(alert);
    stop(!sedge_alert_shows_broken_condition(alert));
}

/* Begins a session at a report that was made in silence, where telemetry after it says that the spacecraft did not
 * restart. What is submitted anew begins after what is on board: by `resume`, or by what was executed. */
static void begin(void) {
    uint64_t whole;
    if (is_known && sedge_ground_resume(&ground, word, &whole) == SEDGE_NODE_OK) {
        resumed++;
        for (size_t k = submitted; k-- > whole;) next[given[k].map] = given[k].serial;
    } else {
        if (sedge_ground_set_vs(&ground, word) != SEDGE_OK || sedge_ground_init_unlock(&ground) != SEDGE_OK) fail("begin");
        memcpy(next, executed, sizeof next);
    }
    submitted = 0;
    is_known = true;
    has_word = false;
    pull();
}

static void hear_packet(const uint8_t *packet) {
    const uint32_t said = number_at(packet + HEAD);
    if (said != boots && said != boots_wanted) {
        if (state() != SEDGE_FOP_S6 && sedge_ground_terminate(&ground) != SEDGE_NODE_OK) fail("terminate");
        stop(false);
    }
    if (said != boots) silence = 0;
    boots = said;
    for (size_t k = 0; k < MAPS; k++) executed[k] = number_at(packet + HEAD + SERIAL * (k + 1));
}

/* A telemetry frame: first its report, then its packets, which are from before the next report. */
static void hear(const uint8_t *octets) {
    static uint8_t packet[1024];
    struct sedge_heard heard;
    struct sedge_clcw said;
    size_t count;
    bool later = false;
    if (sedge_ground_telemetry(&ground, octets, FRAME, &heard) != SEDGE_NODE_OK) fail("telemetry");
    if (heard.kind != SEDGE_HEARD_FRAME) return;
    if (heard.report == SEDGE_REPORT_USED) see(heard.alert);
    while (sedge_ground_take_telemetry(&ground, packet, sizeof packet, &count) == SEDGE_NODE_OK && count > 0) {
        hear_packet(packet);
        later = true;
    }
    if (stopped && later && has_word) begin();
    if (stopped && later && state() == SEDGE_FOP_S1 && silence > ROUND_TRIP) stopped = false;
    if (state() == SEDGE_FOP_S6 && silence > ROUND_TRIP && heard.report == SEDGE_REPORT_USED &&
        sedge_ground_clcw_in(&ground, octets, FRAME, &said) == SEDGE_NODE_OK) {
        has_word = !(said.flags & SEDGE_CLCW_LOCKOUT) || !is_known;
        word = said.value;
    }
}

/* A slot of the board: what arrives there, or CRASH or RESET; then what arrives here. */
static void slot(size_t what) {
    const size_t at = now % DELAY, count = what ? what : up[at].count;
    const uint8_t head[2] = {(uint8_t)(count >> 8), (uint8_t)count};
    uint8_t frame[FRAME];
    if (fwrite(head, 1, 2, slots) != 2 || (!what && fwrite(up[at].octets, 1, count, slots) != count) || fflush(slots)) fail("slots");
    up[at].count = 0;
    if (fread(frame, 1, FRAME, frames) != FRAME) fail("the board has ended");
    if (down[at].comes) hear(down[at].octets);
    down[at].comes = below(10) > 0 && dark == 0;
    memcpy(down[at].octets, frame, FRAME);
    if (below(20) == 0) down[at].octets[below(FRAME)] ^= (uint8_t)(1u << below(8));
    if (dark > 0) dark--;
    silence++;
    now++;
}

/* A reset with warning: the session is ended, nothing is on its way, and what waits on board is taken before. */
static void planned_reset(void) {
    if (state() == SEDGE_FOP_S6 || stopped) return;
    if (sedge_ground_terminate(&ground) != SEDGE_NODE_OK) fail("terminate");
    see(SEDGE_ALERT_TERMINATED);
    for (int k = 0; k < 8 * ROUND_TRIP; k++) slot(0);
    boots_wanted = boots + 1;
    slot(RESET);
    has_word = false;
    silence = 0;
    resets++;
}

static void crash(void) {
    slot(CRASH);
    crashes++;
}

static void session(unsigned long count) {
    for (unsigned long k = 0; k < count; k++) {
        if (below(4000) == 0) dark = 150;
        if (!stopped) {
            while (below(3) > 0 && submit()) {}
            if (below(40) == 0) {
                uint8_t octets[40];
                bypassed += sedge_ground_bypass(&ground, SECOND_MAP, octets, write_packet(octets, sizeof octets, 7, 20)) == SEDGE_NODE_OK;
            }
        }
        if (!stopped || state() == SEDGE_FOP_S5) pull();
        slot(0);
        see(sedge_ground_tick(&ground));
        if (below(900) == 0) planned_reset();
        if (below(2000) == 0) crash();
    }
}

/* On each MAP each packet that was executed is the next one. */
static void judge(void) {
    uint32_t wanted[MAPS] = {0};
    uint8_t record[RECORD];
    unsigned long executions = 0;
    FILE *records = fopen("executed", "rb");
    while (records && fread(record, 1, RECORD, records) == RECORD) {
        const unsigned k = record[1] == SECOND_MAP;
        if (!record[2]) fail("a packet was changed");
        if (record[0]) continue;
        if (number_at(record + 4) != wanted[k]) fail("a packet is not the next one");
        wanted[k]++;
        executions++;
    }
    printf("%u slots, %lu packets executed, %lu sent past the sequence control, %lu alerts (%lu show a broken condition), "
           "%lu resumptions, %lu resets, %lu crashes\n", now, executions, bypassed, alerts, broken, resumed, resets, crashes);
    if (executions == 0) fail("nothing was executed");
}

int main(int argc, char **argv) {
    struct sedge_config config;
    if (argc != 3) return 2;
    chance = strtoull(argv[1], NULL, 10);
    agreed(&config);
    slots = fopen("slots", "wb");
    frames = fopen("frames", "rb");
    if (!slots || !frames || sedge_ground_open(&ground, &config) != SEDGE_NODE_OK) return 2;
    session(strtoul(argv[2], NULL, 10));
    fclose(slots);
    judge();
    return 0;
}
