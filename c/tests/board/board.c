/* A board without heap over a spacecraft node, with two MAPs, blocking, packets sent by bypass and telemetry. It has no
 * more memory than c/tools/places.c states for its configuration. A reset without warning erases all of it, and the
 * node then begins in Lockout. Only the boot count and what was executed survive; a reset with warning also keeps the
 * numbers of the node. The status is 0 if slots have ended and no call was refused, and otherwise states which was. */
#include "board.h"
#include <sedgechisel_memory.h>
#include <string.h>

enum { ENDED, NO_DEVICE, NO_NODE, NO_MEMORY, NO_TELEMETRY, NO_FRAME };

static struct sedge_spacecraft node;
static struct sedge_config config;
static uint32_t boots, executed[MAPS];
static uint8_t packet[1024];

/* Opens the node anew, in places of which none is taken. After a reset without warning a frame of the spacecraft's own,
 * whose number is in neither window, takes the receiver to Lockout. */
static bool start(const struct sedge_spacecraft_reading *kept) {
    static const uint8_t data = 0;
    const struct sedge_tc_frame own = {42, 2, SEDGE_TC_AD, 128, SEDGE_SEGMENT_ALONE, 0, 0, 0};
    struct sedge_received received;
    uint8_t octets[16];
    size_t count;
    boots++;
    sedge_static_reset();
    memset(&node, 0, sizeof node);
    if (kept) return sedge_spacecraft_open_kept(&node, &config, kept) == SEDGE_NODE_OK;
    return sedge_spacecraft_open(&node, &config) == SEDGE_NODE_OK &&
           sedge_tc_encode(&own, &data, 1, true, octets, sizeof octets, &count) == SEDGE_OK &&
           sedge_spacecraft_receive(&node, octets, count, &received) == SEDGE_NODE_OK &&
           received.verdict == SEDGE_OUTSIDE;
}

/* A packet of telemetry: the boot count, and what was executed. */
static bool say(void) {
    const struct sedge_packet header = {3, 0, SEDGE_PACKET_TELEMETRY, 0, SEDGE_SEQUENCE_UNSEGMENTED};
    uint8_t data[TELEMETRY - HEAD] = {0}, octets[TELEMETRY];
    size_t count;
    put_number(data, boots);
    for (size_t k = 0; k < MAPS; k++) put_number(data + SERIAL * (k + 1), executed[k]);
    return sedge_packet_encode(&header, data, sizeof data, octets, sizeof octets, &count) == SEDGE_OK &&
           sedge_spacecraft_telemetry(&node, octets, count) == SEDGE_OK;
}

static bool execute(uint8_t map, size_t count, bool is_bypass) {
    uint8_t record[RECORD] = {0};
    const uint32_t serial = number_at(packet + HEAD);
    bool good = count >= HEAD + SERIAL;
    for (size_t k = HEAD + SERIAL; k < count; k++) good = good && packet[k] == octet_of(serial, k - HEAD);
    record[0] = is_bypass;
    record[1] = map;
    record[2] = good;
    put_number(record + 4, serial);
    if (!is_bypass) executed[map == SECOND_MAP]++;
    return note(record) && say();
}

/* The oldest packet past the sequence control, and one of the others, where there are any. */
static bool work(void) {
    uint8_t map;
    size_t count;
    if (sedge_spacecraft_take_bypass(&node, &map, packet, sizeof packet, &count) != SEDGE_NODE_OK) return false;
    if (count && !execute(map, count, true)) return false;
    if (sedge_spacecraft_take(&node, &map, packet, sizeof packet, &count) != SEDGE_NODE_OK) return false;
    return !count || execute(map, count, false);
}

static bool reset(void) {
    struct sedge_spacecraft_reading kept;
    sedge_spacecraft_read(&node, &kept);
    return start(&kept);
}

/* What came in a slot: at most one frame, and fill after it. */
static bool receive(const uint8_t *octets, size_t count) {
    struct sedge_received received;
    size_t total;
    if (sedge_tc_declared(octets, count, true, &total) != SEDGE_OK || total > count) return true;
    return sedge_spacecraft_receive(&node, octets, total, &received) == SEDGE_NODE_OK;
}

int main(void) {
    static uint8_t octets[SLOT], frame[FRAME];
    uint8_t head[2];
    size_t total;
    agreed(&config);
    if (!open_devices()) return NO_DEVICE;
    if (!start(NULL)) return NO_NODE;
    for (uint32_t slot = 0; read_slot(head, sizeof head); slot++) {
        const size_t count = (size_t)head[0] << 8 | head[1];
        if (count == CRASH || count == RESET) {
            if (!(count == CRASH ? start(NULL) : reset())) return NO_NODE;
        } else if (count > sizeof octets || !read_slot(octets, count)) {
            return NO_DEVICE;
        } else if (!receive(octets, count)) {
            return NO_MEMORY;
        }
        if (!say() || (slot % 3 && !work())) return NO_TELEMETRY;
        if (sedge_spacecraft_telemetry_frame(&node, frame, sizeof frame, &total) != SEDGE_NODE_OK) return NO_FRAME;
        if (!write_frame(frame, total)) return NO_DEVICE;
    }
    return ENDED;
}
