/* A whole board without heap, in static memory: the receiver of a telecommand link and the sender of its telemetry. It
 * has two MAPs with blocking, packets sent by bypass, room that runs out (Wait) and becomes free again, and a CLCW in
 * each telemetry frame.
 *
 * A record of standard input is a slot of time: two octets with a count, the higher one first, and as many octets, as
 * the decoder of the channel coding forwards them; the count is 0 if nothing arrived. In each slot a telemetry frame
 * goes to standard output, and a line for each packet that is executed to standard error. */
#include <sedgechisel.h>
#include <stdio.h>
#include <stdlib.h>
#include <string.h>

/* What is agreed with the ground, and what the board has room and time for. */
enum { SPACECRAFT = 42, TC_CHANNEL = 2, WIDTH = 32, TM_CHANNEL = 1, TM_LENGTH = 64, ANSWER_APID = 3 };
enum { MAPS = 2, UNITS = 3, SLOTS_OF_A_PACKET = 2 };

/* A slot contains a frame of at most 1,024 octets, and fill to the end of a code block of 7. Without its header, the
 * segment header and the FECF, the frame has at most 1,016 octets of data. A segment completes one packet, or contains
 * whole packets in its data. Either is a unit. */
enum {
    FRAME = 1024, SLOT = FRAME + 6, DATA = FRAME - 5 - 1 - 2, MAX_PACKET = 2048,
    UNIT = MAX_PACKET > DATA ? MAX_PACKET : DATA
};

/* The answer to a packet contains the packet's first four octets. At most two packets are executed in a slot; the
 * telemetry frame of the slot takes both answers whole, after at most 6 octets of an idle packet. */
enum { ANSWER = 6 + 4, ANSWERS = 2 * ANSWER };
typedef char a_frame_takes_the_answers[ANSWERS + 6 <= TM_LENGTH - 12 ? 1 : -1];

struct unit {
    size_t count;
    struct sedge_part packet; /* the packet that was executed last */
    uint8_t map;
    uint8_t octets[UNIT];
};

static const uint8_t map_ids[MAPS] = {0, 5};
static struct sedge_map maps[MAPS] = {{0, 0, 1}, {0, 0, 1}};
static uint8_t map_memory[MAPS][MAX_PACKET];
static struct unit units[UNITS]; /* a ring of those that wait */
static unsigned oldest, waiting;
static struct sedge_farm farm;
static struct sedge_tm_builder builder;
static uint8_t answers[ANSWERS];

/* A call that cannot be refused was refused: a struct is damaged, for example by a bit flip. Here a board restarts. */
static void sure(uint8_t fault) {
    if (fault != SEDGE_OK) abort();
}

/* Here a board passes the packet to the application of its APID. */
static void execute(const char *how, uint8_t map, const uint8_t *octets, size_t count) {
    static unsigned sequence;
    struct sedge_packet answer = {ANSWER_APID, (uint16_t)(sequence++ % 16384), SEDGE_PACKET_TELEMETRY, 0, 3};
    uint8_t packet[ANSWER];
    size_t total;
    fprintf(stderr, "%s on MAP %d: %d octets, check %04X\n", how, map, (int)count, sedge_check(octets, count));
    sure(sedge_packet_encode(&answer, octets, 4, packet, sizeof packet, &total));
    sure(sedge_tm_builder_queue(&builder, packet, total, answers, sizeof answers));
}

/* Returns the index of an open MAP, or MAPS for a closed one. */
static int place_of(uint8_t map) {
    int at = 0;
    while (at < MAPS && map_ids[at] != map) at++;
    return at;
}

/* Takes an accepted segment: what it completes waits. There is room, because otherwise it is not accepted. */
static void take_segment(const struct sedge_tc_frame *frame, const uint8_t *data, size_t count) {
    int at = place_of(frame->map);
    struct unit *unit = &units[(oldest + waiting) % UNITS];
    struct sedge_taken taken;
    if (at == MAPS) return;
    sure(sedge_map_take(&maps[at], frame->flags, data, count, map_memory[at], MAX_PACKET, &taken));
    if (taken.where == SEDGE_NO_PACKET) return;
    memcpy(unit->octets, taken.where == SEDGE_IN_MEMORY ? map_memory[at] : data, taken.count);
    unit->count = taken.count;
    unit->packet.from = unit->packet.count = 0;
    unit->map = frame->map;
    waiting++;
}

/* Data sent by bypass must be one packet in one segment, and are executed at once. */
static void take_bypass(const struct sedge_tc_frame *frame, const uint8_t *data, size_t count) {
    size_t total;
    if (place_of(frame->map) == MAPS || frame->flags != SEDGE_SEGMENT_ALONE) return;
    if (sedge_packet_declared(data, count, &total) != SEDGE_OK || total != count) return;
    execute("past the sequence control", frame->map, data, count);
}

/* Takes what arrived in a slot: a frame of this spacecraft and channel with fill after it, or anything else. */
static void receive(const uint8_t *octets, size_t count) {
    struct sedge_tc_frame frame;
    struct sedge_part data;
    uint8_t verdict;
    size_t total;
    if (sedge_tc_declared(octets, count, true, &total) != SEDGE_OK || total > count) return;
    if (sedge_tc_decode(octets, total, true, &frame, &data) != SEDGE_OK) return;
    if (frame.scid != SPACECRAFT || frame.vcid != TC_CHANNEL) return;
    if (frame.kind == SEDGE_TC_AD) {
        verdict = sedge_farm_ad(&farm, frame.n, waiting < UNITS);
        if (verdict == SEDGE_DAMAGED) sure(verdict);
        if (verdict == SEDGE_ACCEPTED) take_segment(&frame, octets + data.from, data.count);
    } else if (frame.kind == SEDGE_TC_BD) {
        sure(sedge_farm_bd(&farm));
        take_bypass(&frame, octets + data.from, data.count);
    } else {
        sure(frame.command == SEDGE_UNLOCK ? sedge_farm_unlock(&farm) : sedge_farm_set_vr(&farm, frame.vr));
    }
}

/* Executes the next packet; after the last one of a unit there is room for another unit. */
static void execute_next(void) {
    struct unit *unit = &units[oldest];
    if (waiting == 0 || !sedge_map_packet(unit->octets, unit->count, &unit->packet)) return;
    execute("in sequence", unit->map, unit->octets + unit->packet.from, unit->packet.count);
    if (unit->packet.from + unit->packet.count < unit->count) return;
    oldest = (oldest + 1) % UNITS;
    waiting--;
    sure(sedge_farm_released(&farm));
}

/* Sends the telemetry frame of a slot, with the CLCW. Here a board sets the flags of its radio in the CLCW. */
static void send_telemetry(void) {
    uint8_t word[4], frame[TM_LENGTH];
    struct sedge_clcw clcw;
    size_t total;
    sure(sedge_farm_control_word(&farm, TC_CHANNEL, &clcw));
    sure(sedge_clcw_encode(&clcw, word, sizeof word));
    sure(sedge_tm_builder_build(&builder, word, sizeof word, answers, sizeof answers, frame, sizeof frame, &total));
    fwrite(frame, 1, total, stdout);
    fflush(stdout);
}

/* Reads a record. Returns its number of octets, -1 at the end, or -2 if it is cut off or too long. */
static int read_record(uint8_t *octets) {
    int high = getchar(), low = getchar(), count = high * 256 + low;
    if (high == EOF) return -1;
    if (low == EOF || count > SLOT) return -2;
    return fread(octets, 1, (size_t)count, stdin) == (size_t)count ? count : -2;
}

int main(void) {
    static uint8_t octets[SLOT];
    unsigned slot;
    int count;
    sure(sedge_farm_open(&farm, WIDTH, 0));
    sure(sedge_tm_builder_open(&builder, SPACECRAFT, TM_CHANNEL, TM_LENGTH));
    for (slot = 0; (count = read_record(octets)) >= 0; slot++) {
        receive(octets, (size_t)count);
        if (slot % SLOTS_OF_A_PACKET == 0) execute_next();
        send_telemetry();
    }
    return count == -1 ? 0 : 1;
}
