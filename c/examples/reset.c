/* A spacecraft that restarts unexpectedly during a session, and a ground that recovers so that each command is executed
 * once and in sequence. The spacecraft begins in Lockout, so that the ground believes no CLCW of its new receiver. Each
 * telemetry frame has a packet with the boot count and the number of commands executed; all packets taken are executed.
 * Each session begins by the six steps of docs/CONTROL.md, "The steps". The program writes what happens, and ends with
 * 0 if all is as expected. */
#include <sedgechisel_nodes.h>
#include <stdio.h>

enum { SCID = 1, CHANNEL = 2, MAP = 4, COMMANDS = 8, ROUND_TRIP = 2, RESET_AT = 12, TURNS = 40 };

static struct sedge_config config;
static struct sedge_ground ground;
static struct sedge_spacecraft spacecraft;
/* What the spacecraft keeps over a restart, and states in telemetry. */
static uint8_t boots, executed;
/* On the ground: how many commands earlier sessions have brought on board, the turns since something was sent or the
 * session ended, the boot count that was last heard, and the value of a CLCW that was made in silence. */
static uint8_t done, quiet, boots_heard, value;
/* Whether there is such a value; whether the session that ended shows nothing of what is on board; and whether a CLCW
 * has shown, with the command of the session on board, that V(R) is V(S). */
static bool has_value, is_lost = true, is_open;

static void write_packet(uint8_t *packet, uint8_t type, uint8_t one, uint8_t two) {
    const uint8_t octets[8] = {type, 5, 0xc0, 0, 0, 1, one, two};
    for (size_t k = 0; k < sizeof octets; k++) packet[k] = octets[k];
}

/* ---- On board. ---- */

/* The numbers begin at 0 again, and what was not executed is lost. The spacecraft passes its receiver a frame of its
 * own, whose number is in neither window: this puts the receiver into Lockout. */
static bool restart(void) {
    const struct sedge_tc_frame own = {SCID, CHANNEL, SEDGE_TC_AD, 128, SEDGE_SEGMENT_ALONE, 0, 0, 0};
    const uint8_t data = 0;
    struct sedge_received received;
    uint8_t octets[16];
    size_t count;
    boots++;
    return sedge_spacecraft_open(&spacecraft, &config) == SEDGE_NODE_OK &&
           sedge_tc_encode(&own, &data, 1, true, octets, sizeof octets, &count) == SEDGE_OK &&
           sedge_spacecraft_receive(&spacecraft, octets, count, &received) == SEDGE_NODE_OK &&
           received.verdict == SEDGE_OUTSIDE;
}

/* Executes a command in each turn; each must be the next one in sequence. */
static bool execute(void) {
    uint8_t map, packet[16];
    size_t count;
    if (sedge_spacecraft_take(&spacecraft, &map, packet, sizeof packet, &count) != SEDGE_NODE_OK) return false;
    if (count == 0) return true;
    printf("executed: command %d\n", packet[6]);
    return packet[6] == executed++;
}

static bool telemetry(uint8_t *frame, size_t room, size_t *count) {
    uint8_t packet[8];
    write_packet(packet, 0, boots, executed);
    return sedge_spacecraft_telemetry(&spacecraft, packet, sizeof packet) == SEDGE_OK &&
           sedge_spacecraft_telemetry_frame(&spacecraft, frame, room, count) == SEDGE_NODE_OK;
}

/* ---- On the ground. ---- */

/* The session has ended: a silence begins. */
static void stop(void) {
    quiet = 0, has_value = false, is_open = false;
}

/* After an alert that shows a broken condition nothing is known of the session, and `sedge_ground_resume` refuses. */
static void see(uint8_t alert) {
    struct sedge_text name = sedge_alert_name(alert);
    struct sedge_advice advice = sedge_alert_advice(alert);
    uint64_t whole;
    if (alert == SEDGE_NO_ALERT) return;
    printf("alert %s: %s\n", name.text, advice.text);
    stop();
    if (!sedge_alert_shows_broken_condition(alert)) return;
    is_lost = true;
    printf("resume: %d\n", sedge_ground_resume(&ground, 0, &whole));
}

/* Begins a session with the value of a CLCW that was made after the silence, and with the count in later telemetry. If
 * both are about the session that ended, they agree. */
static bool begin(uint8_t said) {
    uint64_t whole;
    if (!is_lost) {
        if (sedge_ground_resume(&ground, value, &whole) != SEDGE_NODE_OK) return false;
        done += (uint8_t)whole;
        if (done != said) return false;
    } else {
        if (sedge_ground_set_vs(&ground, value) != SEDGE_OK || sedge_ground_init_unlock(&ground) != SEDGE_OK) return false;
        done = said;
    }
    printf("a session from V(R) %d, and from command %d\n", value, done);
    has_value = false, is_lost = false;
    return true;
}

/* Uses a CLCW that was made one round trip after the last frame was sent. In S6 it has the value for the next session;
 * otherwise it shows whether the session's command is on board. */
static void hear_report(const struct sedge_clcw *report, const struct sedge_ground_reading *reading) {
    const uint8_t flags = SEDGE_CLCW_LOCKOUT | SEDGE_CLCW_WAIT | SEDGE_CLCW_RETRANSMIT;
    if (reading->state != SEDGE_FOP_S6) {
        is_open = is_open || (report->value == reading->vs && (report->flags & flags) == 0);
    } else {
        value = report->value, has_value = true, is_lost = is_lost || (report->flags & SEDGE_CLCW_LOCKOUT) != 0;
    }
}

/* Takes a telemetry frame: its CLCW, and its packet. If the boot count has changed, the session ends. */
static bool hear(const uint8_t *frame, size_t count) {
    struct sedge_heard heard;
    struct sedge_ground_reading reading;
    struct sedge_clcw report;
    uint8_t packet[16];
    size_t octets;
    if (sedge_ground_telemetry(&ground, frame, count, &heard) != SEDGE_NODE_OK) return false;
    see(heard.alert);
    if (sedge_ground_take_telemetry(&ground, packet, sizeof packet, &octets) != SEDGE_NODE_OK || octets != 8) return false;
    if (sedge_ground_read(&ground, &reading) != SEDGE_NODE_OK) return false;
    if (packet[6] != boots_heard) {
        printf("boot count %d, executed %d\n", packet[6], packet[7]);
        boots_heard = packet[6], is_lost = true;
        stop();
        return reading.state == SEDGE_FOP_S6 || sedge_ground_terminate(&ground) == SEDGE_OK;
    }
    if (has_value) return begin(packet[7]); /* (this frame was made after that CLCW) */
    if (heard.report != SEDGE_REPORT_USED || quiet <= ROUND_TRIP) return true;
    if (sedge_ground_clcw_in(&ground, frame, count, &report) != SEDGE_NODE_OK) return false;
    hear_report(&report, &reading);
    return true;
}

/* Submits what is not yet submitted in this session, once the session's command is on board, and sends what may be
 * sent. During the silence, in S6, it sends nothing. */
static bool send(void) {
    struct sedge_ground_reading reading;
    struct sedge_received received;
    uint8_t packet[8], frame[SEDGE_TC_LONGEST];
    size_t count;
    quiet++;
    if (sedge_ground_read(&ground, &reading) != SEDGE_NODE_OK) return false;
    if (reading.state == SEDGE_FOP_S6) return true;
    for (uint8_t k = (uint8_t)(done + reading.submitted); is_open && k < COMMANDS; k++) {
        write_packet(packet, 0x10, k, 0);
        if (sedge_ground_submit(&ground, MAP, packet, sizeof packet) != SEDGE_NODE_OK) return false;
    }
    while (sedge_ground_pull(&ground, frame, sizeof frame, &count) == SEDGE_NODE_OK && count > 0) {
        quiet = 0;
        if (sedge_spacecraft_receive(&spacecraft, frame, count, &received) != SEDGE_NODE_OK) return false;
    }
    return true;
}

static bool turn(int number) {
    uint8_t frame[SEDGE_TM_LONGEST];
    size_t count;
    if (!send() || !execute()) return false;
    if (number == RESET_AT && !restart()) return false;
    if (!telemetry(frame, sizeof frame, &count) || !hear(frame, count)) return false;
    see(sedge_ground_tick(&ground));
    return true;
}

int main(void) {
    bool is_well;
    sedge_config_default(&config);
    config.frame_length = 32;
    is_well = sedge_ground_open(&ground, &config) == SEDGE_NODE_OK && restart();
    for (int number = 0; is_well && number < TURNS; number++) is_well = turn(number);
    sedge_ground_close(&ground);
    sedge_spacecraft_close(&spacecraft);
    return !(is_well && executed == COMMANDS);
}
