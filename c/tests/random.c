/* Random structs and octets, given to every call that reads them: `random COUNT`. Each returns one of its numbers. A
 * call that refuses has written nothing, and one that writes octets has written as many as it states. Octets and
 * structs end where a page begins that must not be accessed. Ends with 0 if all is as expected, and prints what is
 * not. */
#define _DEFAULT_SOURCE
#include "none.h"
#include <stdio.h>
#include <stdlib.h>
#include <string.h>
#include <sys/mman.h>
#include <unistd.h>

enum { MOST = 4096, REGIONS = 4, KINDS = 15 };

static int failures;

#define WANT(holds)                                                                                                    \
    do {                                                                                                               \
        if (!(holds) && failures++ < 20) printf("%s:%d: not so: %s\n", __FILE__, __LINE__, #holds);                    \
    } while (0)

static uint64_t state = 0x9e3779b97f4a7c15u;

/* A number below the limit (xorshift64*, Marsaglia and Vigna). */
static uint32_t below(uint32_t limit) {
    state ^= state >> 12;
    state ^= state << 25;
    state ^= state >> 27;
    return (uint32_t)((state * 2685821657736338717u) >> 33) % limit;
}

/* The first page after each region may not be touched. */
static uint8_t *ends[REGIONS];

static int make_regions(void) {
    size_t page = (size_t)sysconf(_SC_PAGESIZE);
    size_t size = (MOST + page - 1) / page * page;
    for (int i = 0; i < REGIONS; i++) {
        uint8_t *at = mmap(NULL, size + page, PROT_READ | PROT_WRITE, MAP_PRIVATE | MAP_ANONYMOUS, -1, 0);
        if (at == MAP_FAILED || mprotect(at + size, page, PROT_NONE) != 0) return 1;
        ends[i] = at + size;
    }
    return 0;
}

static uint32_t any_count(void) {
    return below(8) == 0 ? below(2100) : below(40);
}

static void fill(uint8_t *at, size_t count) {
    uint32_t how = below(3);
    for (size_t i = 0; i < count; i++) at[i] = (uint8_t)(how == 0 || below(4) == 0 ? below(256) : below(6));
}

/* Random octets, at a region's end. */
static uint8_t *octets_of(int region, size_t count) {
    uint8_t *at = ends[region] - count;
    fill(at, count);
    return at;
}

/* Octets to be written, at the end of region 1, each 0x55 so far. */
static uint8_t *room_of(size_t room) {
    return memset(ends[1] - room, 0x55, room);
}

/* Whether the octets from a place to the end of region 1 are as they were. */
static int is_kept(const uint8_t *at) {
    while (at < ends[1] && *at == 0x55) at++;
    return at == ends[1];
}

/* A struct of anything, at the end of region 2. */
#define ANY(type) ((type *)(void *)octets_of(2, sizeof(type)))

/* Whether an answer is one that a call may give, and a refusal has left the struct as it was. */
static int is_answer(uint8_t answer, uint8_t most, const void *now, const void *kept, size_t size) {
    return (answer <= most || answer >= SEDGE_ABSENT) && (answer == SEDGE_OK || memcmp(now, kept, size) == 0);
}

/* What a call that writes octets answered and wrote. */
static void look_at_written(uint8_t answer, uint8_t most, const uint8_t *out, size_t room, size_t total) {
    WANT(answer <= most || answer == SEDGE_DAMAGED);
    WANT(answer == SEDGE_OK ? total > 0 && total <= room && is_kept(out + total) : total == 99 && is_kept(out));
}

static void checks(void) {
    size_t count = any_count();
    uint8_t *octets = octets_of(1, count);
    bool is_set = sedge_check_append(octets, count);
    WANT(is_set == (count > 1) && sedge_check_holds(octets, count) == is_set);
    WANT(!is_set || sedge_check(octets, count - 2) == (octets[count - 2] << 8 | octets[count - 1]));
}

static void control_words(void) {
    size_t count = below(4) == 0 ? below(8) : 4, room = below(4) == 0 ? below(8) : 4;
    uint8_t *octets = octets_of(0, count), *out = room_of(room), answer;
    struct sedge_clcw *word = ANY(struct sedge_clcw), kept = *word;
    answer = sedge_clcw_encode(word, out, room);
    WANT((answer == SEDGE_OK && room == 4) || (is_kept(out) && (answer == SEDGE_CLCW_RANGE || answer == SEDGE_WRONG_COUNT)));
    answer = sedge_clcw_decode(octets, count, word);
    WANT(is_answer(answer, SEDGE_CLCW_SPARE, word, &kept, sizeof kept));
}

/* A receiver of anything, or mostly one. */
static struct sedge_farm *any_receiver(void) {
    struct sedge_farm *farm = ANY(struct sedge_farm);
    if (below(4) == 0) return farm;
    farm->width = (uint8_t)(2 + 2 * below(127));
    farm->lockout = (uint8_t)below(2);
    farm->wait = (uint8_t)(below(4) == 0);
    farm->retransmit = (uint8_t)(farm->wait || below(2));
    farm->farm_b &= 3;
    return farm;
}

static void receivers(void) {
    struct sedge_farm *farm = any_receiver(), kept = *farm;
    struct sedge_clcw *word = (struct sedge_clcw *)(void *)room_of(sizeof *word);
    uint8_t is_damaged = sedge_farm_state(farm) == SEDGE_DAMAGED ? SEDGE_DAMAGED : 0, answer, which = (uint8_t)below(7);
    WANT(sedge_farm_state(farm) <= SEDGE_FARM_LOCKOUT || is_damaged);
    if (which == 0) {
        answer = sedge_farm_ad(farm, (uint8_t)(farm->vr + (below(2) ? 0 : below(256))), below(2));
        WANT(is_damaged ? answer == SEDGE_DAMAGED : answer <= SEDGE_DISCARDED);
    } else if (which == 1) {
        answer = sedge_farm_control_word(farm, (uint8_t)below(80), word);
        WANT(answer == SEDGE_OK || (is_kept((uint8_t *)word) && (answer == SEDGE_CLCW_RANGE || answer == is_damaged)));
    } else if (which == 2) {
        WANT(is_answer(sedge_farm_open(farm, (uint8_t)below(256), 0), SEDGE_COP_WIDTH, farm, &kept, sizeof kept));
        return;
    } else {
        answer = which == 3   ? sedge_farm_bd(farm)
                 : which == 4 ? sedge_farm_unlock(farm)
                 : which == 5 ? sedge_farm_set_vr(farm, (uint8_t)below(256))
                              : sedge_farm_released(farm);
        WANT(answer == is_damaged);
    }
    WANT(is_damaged ? memcmp(farm, &kept, sizeof kept) == 0 : sedge_farm_state(farm) <= SEDGE_FARM_LOCKOUT);
}

/* A sender of anything, or one that is like a sender. */
static struct sedge_fop *any_sender(void) {
    struct sedge_fop *fop = ANY(struct sedge_fop);
    if (below(2) == 0) return fop;
    fop->room = (uint8_t)(1 + below(127));
    fop->state = (uint8_t)(1 + below(6));
    fop->sent = fop->state <= SEDGE_FOP_S3 ? (uint8_t)below(fop->room + 1u) : 0;
    fop->vs = (uint8_t)(fop->nn + (fop->state == SEDGE_FOP_S6 ? below(fop->room + 2u) : fop->sent));
    fop->due = (uint8_t)below(fop->sent + 1u);
    fop->window = (uint8_t)(1 + below(fop->room));
    fop->waiting = fop->state == SEDGE_FOP_S6 ? 0 : (uint8_t)below(2);
    fop->limit = (uint8_t)(1 + below(255));
    fop->count = (uint8_t)(1 + below(3));
    fop->timer = (uint16_t)(1 + below(65535));
    fop->control = fop->state == SEDGE_FOP_S5 ? (uint8_t)(1 + below(4)) : SEDGE_CONTROL_IDLE;
    fop->vr = fop->control >= SEDGE_CONTROL_SET_VR_DUE ? (uint8_t)(fop->vs + (below(8) == 0)) : 0;
    fop->ticks = (uint16_t)(1 + below(fop->timer));
    if (fop->state == SEDGE_FOP_S6 || (fop->state <= SEDGE_FOP_S3 && fop->sent == 0) || below(8) == 0) fop->ticks = 0;
    return fop;
}

/* The numbers of a sender: what each of the profile's rules leaves of them. */
static int is_sender(const struct sedge_fop *fop) {
    const int between = (uint8_t)(fop->vs - fop->nn), runs = fop->ticks > 0, control = fop->control;
    const int sets = control == SEDGE_CONTROL_SET_VR_DUE || control == SEDGE_CONTROL_SET_VR_SENT;
    const int due = control == SEDGE_CONTROL_SET_VR_DUE || control == SEDGE_CONTROL_UNLOCK_DUE;
    if (fop->waiting > 1 || control > SEDGE_CONTROL_SET_VR_SENT || (!sets && fop->vr != 0)) return 0;
    if (fop->timer == 0 || fop->limit == 0 || fop->count == 0 || fop->window == 0) return 0;
    if (fop->room > 127 || fop->window > fop->room || between > fop->room || fop->due > fop->sent) return 0;
    if (fop->state != SEDGE_FOP_S5 && control != SEDGE_CONTROL_IDLE) return 0;
    switch (fop->state) {
    case SEDGE_FOP_S1: return between == fop->sent && runs == (fop->sent > 0);
    case SEDGE_FOP_S2: case SEDGE_FOP_S3: return between == fop->sent && runs && fop->sent > 0;
    case SEDGE_FOP_S4: return between == 0 && fop->sent == 0 && runs;
    case SEDGE_FOP_S5:
        return between == 0 && fop->sent == 0 && control != SEDGE_CONTROL_IDLE && (due || runs)
               && (!sets || fop->vr == fop->vs);
    case SEDGE_FOP_S6: return fop->sent == 0 && !fop->waiting && !runs;
    default: return 0;
    }
}

static void senders(void) {
    struct sedge_fop *fop = any_sender(), kept = *fop;
    struct sedge_clcw word;
    uint8_t *number = room_of(1), answer, which = (uint8_t)below(16), value = (uint8_t)below(256);
    uint8_t named = 0;
    uint16_t wide = (uint16_t)below(below(2) ? 300 : 65536);
    fill((uint8_t *)&word, sizeof word);
    const uint8_t vcid = value % 2 ? word.vcid : value;
    switch (which) {
    case 0: answer = sedge_fop_open(fop, value, (uint8_t)below(256), value, value); break;
    case 10: answer = sedge_fop_submit(fop); break;
    case 11: answer = sedge_fop_next(fop, number); break;
    case 12: answer = sedge_fop_clcw(fop, vcid, &word, number); break;
    case 13: answer = sedge_fop_accepted_beyond(fop, value, number); break;
    case 14: answer = sedge_fop_directive(fop, named = (uint8_t)below(LAST_DIRECTIVE + 3), wide); break;
    case 15: answer = sedge_fop_tick(fop); break;
    default: answer = sedge_fop_directive(fop, (uint8_t)(1 + below(LAST_DIRECTIVE)), value); break;
    }
    if (which == 14 && is_no_directive(named, wide)) {
        WANT(answer == SEDGE_DAMAGED && memcmp(fop, &kept, sizeof kept) == 0);
        return;
    }
    if (which < 11 || which == 14) {
        WANT(is_answer(answer, SEDGE_COP_WRONG_STATE, fop, &kept, sizeof kept));
    } else if (which == 13) {
        WANT(memcmp(fop, &kept, sizeof kept) == 0 && (answer == SEDGE_ABSENT || answer == SEDGE_DAMAGED || answer == SEDGE_OK));
        const uint8_t ahead = fop->vs == fop->nn ? 0 : (uint8_t)(value - fop->nn);
        WANT(answer == SEDGE_OK ? *number == ahead : is_kept(number));
        WANT(answer == SEDGE_DAMAGED || (answer == SEDGE_OK) == (ahead <= (uint8_t)(fop->vs - fop->nn)));
    } else if (which == 12 && word.vcid != vcid) {
        WANT(answer == SEDGE_ABSENT && memcmp(fop, &kept, sizeof kept) == 0 && is_kept(number));
        return;
    } else {
        WANT(answer <= SEDGE_ALERT_TERMINATED || answer == SEDGE_DAMAGED);
        WANT(answer != SEDGE_DAMAGED || (memcmp(fop, &kept, sizeof kept) == 0 && is_kept(number)));
    }
    WANT(which == 0 || (answer == SEDGE_DAMAGED) == !is_sender(&kept));
    WANT(answer == SEDGE_DAMAGED || (which == 0 && answer != SEDGE_OK) || is_sender(fop));
}

static void telecommand_frames(void) {
    size_t count = any_count(), room = any_count(), total = 99, found, whole = 0;
    uint8_t *octets = octets_of(0, count), *out = room_of(room), answer;
    struct sedge_tc_frame *frame = ANY(struct sedge_tc_frame), kept;
    struct sedge_part data = {11, 22};
    bool checked = below(2);
    if (count >= 5 && count <= 1024 && below(4) != 0) {
        octets[0] &= 0x23;
        octets[2] = (uint8_t)((octets[2] & 0xfc) | (count - 1) >> 8);
        octets[3] = (uint8_t)(count - 1);
        WANT(!checked || sedge_check_append(octets, count));
    }
    if (below(4) != 0) {
        frame->scid = (uint16_t)below(1024);
        frame->vcid = (uint8_t)below(65);
        frame->kind = (uint8_t)below(4);
        frame->flags = (uint8_t)below(4);
        frame->map = (uint8_t)below(65);
        frame->command = (uint8_t)below(3);
    }
    answer = sedge_tc_encode(frame, octets, count, checked, out, room, &total);
    look_at_written(answer, SEDGE_TC_FIELD_RANGE, out, room, total);
    kept = *frame;
    answer = sedge_tc_decode(octets, count, checked, frame, &data);
    WANT(is_answer(answer, SEDGE_TC_COMMAND, frame, &kept, sizeof kept));
    WANT(answer == SEDGE_OK ? data.from <= count && data.count <= count - data.from : data.from == 11 && data.count == 22);
    total = 99;
    answer = sedge_tc_declared(octets, count, checked, &total);
    WANT(answer == SEDGE_OK ? total <= 1024 : total == 99 && (answer == SEDGE_TC_SHORT || answer == SEDGE_TC_LENGTH));
    found = sedge_tc_frames(octets, count, checked, out, room, &total);
    WANT(found <= room / 12 && total <= count);
    for (; found > 0; found--, out += 12, octets += whole, count -= whole) {
        WANT(sedge_tc_declared(octets, count, checked, &whole) == SEDGE_OK && whole == out[0] + 256u * out[1]);
        WANT(whole <= count && sedge_tc_decode(octets, whole, checked, frame, &data) == out[2]);
    }
}

static void make_packet(uint8_t *octets, size_t count) {
    if (count < 7 || below(4) == 0) return;
    octets[0] &= 0x17;
    octets[4] = (uint8_t)((count - 7) >> 8);
    octets[5] = (uint8_t)(count - 7 - (below(4) == 0 ? below(3) : 0));
}

static void packets(void) {
    size_t count = any_count(), room = any_count(), total = 99;
    uint8_t *octets = octets_of(0, count), *out = room_of(room), answer;
    struct sedge_packet *packet = ANY(struct sedge_packet), kept;
    struct sedge_part data = {11, 22};
    make_packet(octets, count);
    if (below(4) != 0) {
        packet->apid = (uint16_t)below(2049);
        packet->count = (uint16_t)below(16384);
        packet->kind = (uint8_t)below(2);
        packet->secondary = (uint8_t)below(2);
        packet->flags = (uint8_t)below(4);
    }
    answer = sedge_packet_encode(packet, octets, count, out, room, &total);
    look_at_written(answer, SEDGE_PACKET_FIELD_RANGE, out, room, total);
    kept = *packet;
    answer = sedge_packet_decode(octets, count, packet, &data);
    WANT(is_answer(answer, SEDGE_PACKET_IDLE_WITH_SECONDARY, packet, &kept, sizeof kept));
    WANT(answer == SEDGE_OK ? data.from == 6 && data.count <= count - 6 : data.from == 11 && data.count == 22);
    total = 99;
    answer = sedge_packet_declared(octets, count, &total);
    WANT(answer == SEDGE_OK ? total >= 7 && total <= 65542 : total == 99 && answer <= SEDGE_PACKET_IDLE_WITH_SECONDARY);
}

static void counts_of_packets(void) {
    struct sedge_gap_check *check = ANY(struct sedge_gap_check), kept = *check;
    uint16_t apid = (uint16_t)below(2100), count = (uint16_t)below(17000), missing = 99;
    uint8_t answer = sedge_gap_check_see(check, apid, count, &missing);
    WANT((answer == SEDGE_PACKET_FIELD_RANGE) == (apid > 2047 || count > 16383));
    WANT(answer == SEDGE_OK ? missing < 16384 : missing == 99);
    if (answer != SEDGE_PACKET_FIELD_RANGE) {
        WANT((answer == SEDGE_ABSENT) == (kept.last[apid] > 16383) && check->last[apid] == count);
        kept.last[apid] = count;
    }
    WANT(memcmp(check, &kept, sizeof kept) == 0);
}

static void telemetry_frames(void) {
    size_t count = any_count(), room = any_count(), total = 99, length = below(4) == 0 ? any_count() : count;
    uint8_t *octets = octets_of(0, count), *out = room_of(room), answer;
    struct sedge_tm_frame *frame = ANY(struct sedge_tm_frame), kept;
    struct sedge_part data = {11, 22};
    if (count >= 16 && below(4) != 0) {
        octets[0] &= 0x3f;
        octets[1] |= below(8) != 0;
        octets[4] = (uint8_t)(0x18 | (octets[4] & 7));
        WANT(sedge_check_append(octets, count));
    }
    if (below(2)) frame->scid = (uint16_t)below(1024), frame->pointer = SEDGE_POINTER_ONLY_IDLE, frame->vcid &= 7;
    answer = sedge_tm_encode(frame, octets, count, out, room, &total);
    look_at_written(answer, SEDGE_TM_FIELD_RANGE, out, room, total);
    kept = *frame;
    answer = sedge_tm_decode(octets, count, length, frame, &data);
    WANT(is_answer(answer, SEDGE_TM_NO_OCF, frame, &kept, sizeof kept));
    WANT(answer == SEDGE_OK ? data.from == 6 && data.count == count - 12 : data.from == 11 && data.count == 22);
}

static void builders(void) {
    size_t count = any_count(), size = any_count(), room = any_count(), total = 99;
    uint8_t *octets = octets_of(0, count), *memory = octets_of(3, size), *out = room_of(room), answer;
    struct sedge_tm_builder *builder = ANY(struct sedge_tm_builder), kept;
    if (below(4) != 0) {
        builder->scid = (uint16_t)below(1025);
        builder->vcid = (uint8_t)below(9);
        builder->length = (uint16_t)(below(8) == 0 ? below(2100) : 16 + below(40));
        builder->idle_left = (uint8_t)below(8);
        builder->from = below((uint32_t)size + 1);
        builder->count = size - builder->from;
        builder->begun = below(4) == 0 ? below((uint32_t)size + 1) : builder->count;
        if (below(2)) {
            make_packet(memory, size);
            builder->from = builder->begun = 0;
            builder->count = size;
        }
    }
    kept = *builder;
    if (count >= 4 && below(4) != 0) count = 4;
    answer = sedge_tm_builder_build(builder, octets, count, memory, size, out, room, &total);
    WANT(is_answer(answer, SEDGE_TM_ROOM, builder, &kept, sizeof kept) && (answer != SEDGE_WRONG_COUNT || count != 4));
    look_at_written(answer == SEDGE_WRONG_COUNT ? SEDGE_DAMAGED : answer, SEDGE_TM_ROOM, out, room, total);
    WANT(answer != SEDGE_OK || (total == kept.length && sedge_check_holds(out, total) && builder->idle_left <= 6));
    count = any_count();
    octets = octets_of(0, count);
    make_packet(octets, count);
    kept = *builder;
    answer = sedge_tm_builder_queue(builder, octets, count, memory, size);
    WANT(is_answer(answer, SEDGE_TM_NOT_A_PACKET, builder, &kept, sizeof kept));
    WANT(answer != SEDGE_OK || (builder->from + builder->count <= size && builder->count == kept.count + count));
}

static void extractors(void) {
    size_t count = any_count(), size = any_count();
    uint8_t *octets = octets_of(0, count), *memory = octets_of(3, size), answer;
    struct sedge_tm_frame *frame = ANY(struct sedge_tm_frame);
    struct sedge_tm_extractor extractor, kept;
    struct sedge_tm_extracted extracted = {77, {7, 7}, 7, 7};
    make_packet(octets, count);
    fill((uint8_t *)&extractor, sizeof extractor);
    if (below(4) != 0) {
        frame->pointer = (uint16_t)(below(2) ? below((uint32_t)count + 1) : SEDGE_POINTER_ONLY_IDLE + below(2));
        extractor.seen = (uint8_t)below(2);
        extractor.from = below((uint32_t)size + 1);
        extractor.count = extractor.seen ? below((uint32_t)(size - extractor.from) + 2) : 0;
        if (below(2)) extractor.last = (uint8_t)(frame->vc_count - 1);
        if (extractor.count >= 6 && extractor.count <= size - extractor.from) {
            const size_t whole = extractor.count + (frame->pointer < count ? frame->pointer : count);
            memory[extractor.from] &= 0x17;
            memory[extractor.from + 4] = (uint8_t)((whole - 7) >> 8);
            memory[extractor.from + 5] = (uint8_t)(whole - 7);
        }
    }
    kept = extractor;
    answer = sedge_tm_extractor_frame(&extractor, frame, octets, count, memory, size, &extracted);
    WANT(is_answer(answer, SEDGE_TM_FIELD_RANGE, &extractor, &kept, sizeof kept));
    WANT(answer == SEDGE_OK || (extracted.joined == 77 && extracted.packets.from == 7 && extracted.lost == 7));
    if (answer != SEDGE_OK) return;
    WANT(extracted.joined <= size && extractor.from + extractor.count <= size && extracted.packets.count == 0);
    WANT(extractor.seen == 1 && extractor.last == frame->vc_count && extracted.first == (kept.seen == 0));
    while (sedge_tm_packet(octets, count, &extracted.packets)) {
        WANT(extracted.packets.count >= 7 && extracted.packets.from + extracted.packets.count <= count);
    }
}

static void many_frames(void) {
    const size_t length = below(4) == 0 ? any_count() : 16 + below(40);
    size_t count = below(1000), size = any_count(), room = below(4) == 0 ? any_count() : size + length + below(200);
    size_t total = 99, found, at;
    uint8_t *octets = octets_of(0, count), *memory = octets_of(3, size), *packets = room_of(room < MOST ? room : MOST);
    uint8_t out[19 * 8];
    struct sedge_tm_extractor extractor = {0, 0, 0, 0};
    struct sedge_part packet = {0, 0};
    if (below(4) == 0) fill((uint8_t *)&extractor, sizeof extractor);
    for (at = 0; length >= 16 && at + length <= count; at += length) {
        octets[at] &= 0x3f;
        octets[at + 1] |= 1;
        octets[at + 4] = (uint8_t)(0x18 | (octets[at + 4] & 7));
        octets[at + 3] = (uint8_t)(at / length);
        if (below(2)) octets[at + 4] = 0x18, octets[at + 5] = 0;
        if (below(2)) make_packet(octets + at + 6, length - 12);
        WANT(sedge_check_append(octets + at, length));
    }
    room = room < MOST ? room : MOST;
    found = sedge_tm_extractor_frames(&extractor, octets, count, length, memory, size, out, sizeof out, packets, room,
                                      &total);
    WANT(found <= 8 && found * length <= count && total <= room && is_kept(packets + total));
    while (sedge_map_packet(packets, total, &packet)) WANT(packet.count >= 7);
    WANT(packet.from + packet.count == total);
}

static void maps(void) {
    size_t count = any_count(), room = any_count();
    uint8_t *octets = octets_of(0, count), *memory = octets_of(3, room), answer, flags = (uint8_t)below(5);
    struct sedge_map *map = ANY(struct sedge_map), kept;
    struct sedge_taken taken = {77, 7, 7};
    struct sedge_part packet = {0, 0};
    make_packet(octets, count);
    if (below(4) != 0) {
        map->open = (uint8_t)below(2);
        map->count = map->open ? below((uint32_t)room + 2) : 0;
        map->blocking = (uint8_t)below(2);
    }
    kept = *map;
    answer = sedge_map_take(map, flags, octets, count, memory, room, &taken);
    WANT(answer == SEDGE_OK || (answer == SEDGE_DAMAGED && memcmp(map, &kept, sizeof kept) == 0 && taken.count == 77));
    WANT(answer == SEDGE_DAMAGED || (map->count <= room && taken.where <= SEDGE_IN_DATA && taken.dropped <= SEDGE_DROPPED_TOO_LONG));
    if (answer == SEDGE_OK) {
        WANT(map->blocking == kept.blocking);
        WANT(taken.where == SEDGE_IN_MEMORY ? taken.count <= room : taken.count == (taken.where ? count : 0));
    }
    while (sedge_map_packet(octets, count, &packet)) WANT(packet.count >= 7 && packet.from + packet.count <= count);
}

static void cuttings(void) {
    size_t count = any_count(), segments = 99, joined = 0, k;
    uint8_t *octets = octets_of(0, count), answer, flags = 99;
    struct sedge_limits *limits = ANY(struct sedge_limits);
    struct sedge_part data = {11, 22};
    make_packet(octets, count);
    if (below(4) != 0) {
        limits->part = below(300);
        limits->max_packet = any_count();
        limits->blocking = (uint8_t)below(2);
    }
    answer = sedge_map_count(octets, count, limits, &segments);
    WANT(answer == SEDGE_OK || (segments == 99 && (answer <= SEDGE_MAP_TOO_LONG || answer == SEDGE_DAMAGED)));
    for (k = 0; answer == SEDGE_OK && k < segments; k++) {
        WANT(sedge_map_segment(octets, count, limits, k, &flags, &data) == SEDGE_OK && flags <= SEDGE_SEGMENT_ALONE);
        WANT(data.from == joined && data.count > 0 && data.count <= limits->part);
        joined += data.count;
    }
    WANT(answer != SEDGE_OK || joined == count);
    data.from = flags = 99;
    if (answer == SEDGE_OK) answer = SEDGE_ABSENT;
    WANT(sedge_map_segment(octets, count, limits, segments, &flags, &data) == answer && flags == 99 && data.from == 99);
}

/* Any state of a board's commands, mostly one that a board has: whether it is one. */
static int make_log(struct sedge_log *log) {
    if (below(8) != 0) {
        log->stage = (uint8_t)(1 + below(8));
        log->kept.begun = (uint8_t)below(2);
    }
    return log->stage >= 1 && log->stage <= 8 && log->kept.begun <= 1;
}

/* What is due on board, its status, and octets that are no packet or the next command. */
static void boards(void) {
    struct sedge_log *log = ANY(struct sedge_log), kept;
    int is_whole = make_log(log);
    size_t room = below(3) == 0 ? below(60) : 50, count = 14 + below(90), total = 0;
    uint8_t *out = room_of(room), *octets, answer;
    uint32_t number = 99;
    struct sedge_part content = {11, 22};
    kept = *log;
    answer = sedge_log_next(log, out, room, &number);
    WANT(room != 50 ? answer == SEDGE_WRONG_COUNT : is_whole ? answer <= SEDGE_LOG_RESTART : answer == SEDGE_DAMAGED);
    WANT(answer == SEDGE_LOG_WRITE_FIRST || answer == SEDGE_LOG_WRITE_SECOND || is_kept(out));
    WANT(answer <= SEDGE_LOG_RESTART ? (number != 0) == (answer == SEDGE_LOG_EXECUTE) : number == 99);
    WANT(sedge_log_done(log, 5, number) == (is_whole ? SEDGE_ABSENT : SEDGE_DAMAGED));
    WANT(memcmp(log, &kept, sizeof kept) == 0);
    if (answer <= SEDGE_LOG_RESTART) {
        WANT(sedge_log_done(log, answer, number) == SEDGE_OK && log->stage >= 1 && log->stage <= 8);
    }
    room = below(3) == 0 ? below(40) : 27;
    out = room_of(room);
    answer = sedge_log_status(log, below(300), out, room);
    WANT(answer == (room != 27 ? SEDGE_WRONG_COUNT : is_whole ? SEDGE_OK : SEDGE_DAMAGED));
    WANT(answer == SEDGE_OK || is_kept(out));
    octets = octets_of(0, count);
    if (below(4) != 0) {
        const uint32_t next = log->kept.last + 1 + (below(4) == 0);
        answer = sedge_log_command_encode(5, 6, next, out, 0, octets, count, &total);
        WANT(answer == (next == 0 ? SEDGE_LOG_FIELD_RANGE : SEDGE_OK));
        count = next == 0 ? count : total;
    }
    kept = *log;
    answer = sedge_log_offer(log, octets, count, &content);
    WANT(answer == SEDGE_OK ? content.from == 10 && content.count == count - 14 : content.from == 11);
    WANT(answer == SEDGE_OK ? log->kept.begun == 1 && log->stage == 4 : memcmp(log, &kept, sizeof kept) == 0);
    WANT(is_whole ? answer <= SEDGE_LOG_AHEAD : answer == SEDGE_DAMAGED);
}

/* Places and statuses of any octets, and packets that are written for a board and taken by it. */
static void commands(void) {
    struct sedge_log *log = ANY(struct sedge_log);
    struct sedge_log_order order = {below(9), below(9), below(9), (uint8_t)below(4)};
    struct sedge_board_status status = {{0, 0, 0, 0, 0}, 0, 99, 0};
    size_t count = below(3) == 0 ? any_count() : 50, room = below(60), total = 99;
    uint8_t *octets = octets_of(0, count), *out = room_of(room), answer;
    sedge_log_start(log, octets, count, octets, count, order.mark);
    WANT(log->stage == 1 && log->mark == order.mark); /* none of these has a check that holds */
    answer = sedge_log_status_decode(octets, count, &status);
    WANT(answer == (count == 27 ? SEDGE_LOG_CHECK : SEDGE_LOG_LAYOUT) && status.kind == 99);
    answer = sedge_log_order_encode(&order, (uint16_t)below(2100), 7, out, room, &total);
    WANT(answer == SEDGE_OK ? total == 23 && is_kept(out + 23) : total == 99 && is_kept(out));
    if (answer == SEDGE_OK) {
        answer = sedge_log_obey(log, out, 23);
        WANT(answer == (order.kind == SEDGE_LOG_ORDER_RESTART ? SEDGE_LOG_LOST : SEDGE_OK));
        WANT(answer == SEDGE_LOG_LOST || (log->stage == 4 && log->kept.last == order.last));
    }
    total = 99;
    out = room_of(room);
    answer = sedge_log_command_encode((uint16_t)below(2100), 7, below(9), octets, count, out, room, &total);
    WANT(answer == SEDGE_OK ? total == count + 14 && is_kept(out + total) : total == 99 && is_kept(out));
    WANT(answer == SEDGE_OK || answer == SEDGE_LOG_FIELD_RANGE || answer == SEDGE_LOG_ROOM);
    if (answer == SEDGE_OK) {
        const uint32_t history = sedge_log_history_after(below(9), out, total);
        WANT(sedge_log_history_after(history, out, 0) == history);
    }
}

int main(int count, char **words) {
    static void (*const kinds[KINDS])(void) = {checks, control_words, receivers, senders, telecommand_frames,
                                               packets, counts_of_packets, telemetry_frames, builders, extractors,
                                               many_frames, maps, cuttings, boards, commands};
    if (count != 2 || make_regions() != 0) return 2;
    for (unsigned long left = strtoul(words[1], NULL, 10); left > 0; left--) kinds[below(KINDS)]();
    printf(failures ? "%d failed\n" : "all as wanted\n", failures);
    return failures != 0;
}
