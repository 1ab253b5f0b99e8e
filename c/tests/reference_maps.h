/* The second statement of the core in C, continued: packets in segments (232.0-B-4, 4.1.3.2.2). Written
 * apart from the crates, from docs/PROFILE.md and the header. */
#ifndef REFERENCE_MAPS_H
#define REFERENCE_MAPS_H
#include <string.h>
#include "reference.h"

/* A quotient; a harness may have it computed in another way. */
#ifndef REF_QUOTIENT
#define REF_QUOTIENT(of, by) ((of) / (by))
#endif

/* Whether the octets are whole packets, one or more, one after another; and the octets of the longest one. */
static bool ref_are_packets(const uint8_t *o, size_t count, size_t *longest) {
    size_t at = 0, total;
    *longest = 0;
    if (count == 0) return false;
    while (at < count) {
        if (ref_packet_declared(o + at, count - at, &total) != 0 || total > count - at) return false;
        if (total > *longest) *longest = total;
        at += total;
    }
    return true;
}

static bool ref_is_packet(const uint8_t *o, size_t count) {
    size_t total;
    return ref_packet_declared(o, count, &total) == 0 && total == count;
}

/* ---- Assembly. ---- */

static void ref_drop(struct sedge_map *map, struct sedge_taken *taken, uint8_t cause) {
    map->open = 0;
    map->count = 0;
    taken->dropped = cause;
}

static void ref_take_alone(struct sedge_map *map, const uint8_t *data, size_t count, size_t room,
                           struct sedge_taken *taken) {
    size_t longest;
    if (map->open) ref_drop(map, taken, SEDGE_DROPPED_INTERRUPTED);
    if (!map->blocking && count > room) ref_drop(map, taken, SEDGE_DROPPED_TOO_LONG);
    else if (map->blocking ? !ref_are_packets(data, count, &longest) : !ref_is_packet(data, count))
        ref_drop(map, taken, SEDGE_DROPPED_NOT_A_PACKET);
    else if (map->blocking && longest > room) ref_drop(map, taken, SEDGE_DROPPED_TOO_LONG);
    else {
        taken->where = SEDGE_IN_DATA;
        taken->count = count;
    }
}

/* The data are added to the open part; whether there is room for them. */
static bool ref_join(struct sedge_map *map, const uint8_t *data, size_t count, uint8_t *memory, size_t room) {
    if (count > room - map->count) return false;
    for (size_t i = 0; i < count; i++) memory[map->count + i] = data[i];
    map->count += count;
    return true;
}

static uint8_t ref_map_take(struct sedge_map *map, uint8_t flags, const uint8_t *data, size_t count, uint8_t *memory,
                            size_t room, struct sedge_taken *taken) {
    if (map->open > 1 || map->blocking > 1 || map->count > room || (map->count > 0 && !map->open) || flags > 3)
        return SEDGE_DAMAGED;
    taken->count = 0;
    taken->where = SEDGE_NO_PACKET;
    taken->dropped = SEDGE_NOT_DROPPED;
    if (flags == SEDGE_SEGMENT_ALONE) {
        ref_take_alone(map, data, count, room, taken);
        return 0;
    }
    if (flags == SEDGE_SEGMENT_FIRST) {
        if (map->open) ref_drop(map, taken, SEDGE_DROPPED_INTERRUPTED);
        map->open = 1;
    } else if (!map->open) {
        taken->dropped = SEDGE_DROPPED_NO_BEGINNING;
        return 0;
    }
    if (!ref_join(map, data, count, memory, room)) ref_drop(map, taken, SEDGE_DROPPED_TOO_LONG);
    else if (flags == SEDGE_SEGMENT_LAST) {
        if (ref_is_packet(memory, map->count)) {
            taken->where = SEDGE_IN_MEMORY;
            taken->count = map->count;
            map->open = 0;
            map->count = 0;
        } else
            ref_drop(map, taken, SEDGE_DROPPED_NOT_A_PACKET);
    }
    return 0;
}

/* ---- Cutting. ---- */

static uint8_t ref_cut_fault(const uint8_t *o, size_t count, const struct sedge_limits *limits) {
    size_t longest = count;
    if (limits->part == 0 || limits->blocking > 1) return SEDGE_DAMAGED;
    if (limits->blocking ? !ref_are_packets(o, count, &longest) : !ref_is_packet(o, count))
        return SEDGE_MAP_NOT_A_PACKET;
    return longest > limits->max_packet ? SEDGE_MAP_TOO_LONG : 0;
}

/* The octets of the group at the beginning of whole packets: one over `part`, or the longest run of at most `part`. */
static size_t ref_group(const uint8_t *o, size_t count, uint32_t part) {
    size_t at = 0, total = 0;
    while (at < count && ref_packet_declared(o + at, count - at, &total) == 0) {
        if (at > 0 && (at > part || total > part - at)) return at;
        at += total;
    }
    return at;
}

static uint8_t ref_map_count(const uint8_t *o, size_t count, const struct sedge_limits *limits, size_t *segments) {
    uint8_t fault = ref_cut_fault(o, count, limits);
    size_t sum = 0;
    if (fault) return fault;
    for (size_t at = 0; at < count;) {
        size_t group = ref_group(o + at, count - at, limits->part);
        sum += REF_QUOTIENT(group - 1, limits->part) + 1;
        at += group;
    }
    *segments = sum;
    return 0;
}
#endif
