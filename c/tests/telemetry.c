/* Packets in telemetry frames as a program in C builds and extracts them, with no heap: rows worked by hand, packets
 * over many frames, lost frames, each refusal with nothing changed, and damaged structs and memory. Ends with 0 if
 * all is as expected, and prints each line that is not. */
#include <sedgechisel.h>
#include <stdio.h>
#include <string.h>

static int failures;

#define WANT(holds)                                                                                                    \
    do {                                                                                                               \
        if (!(holds)) {                                                                                                \
            printf("%s:%d: not so: %s\n", __FILE__, __LINE__, #holds);                                                 \
            failures++;                                                                                                \
        }                                                                                                              \
    } while (0)

static const uint8_t OCF[4] = {0x01, 0x08, 0x00, 0x00};

/* Packets of 7 octets, with the sequence counts 0 to 3, an idle one, and one of 16 octets. */
static const uint8_t FOUR[4][7] = {{0x00, 0x05, 0xc0, 0x00, 0x00, 0x00, 0xaa},
                                   {0x00, 0x05, 0xc0, 0x01, 0x00, 0x00, 0xbb},
                                   {0x00, 0x05, 0xc0, 0x02, 0x00, 0x00, 0xcc},
                                   {0x00, 0x05, 0xc0, 0x03, 0x00, 0x00, 0xdd}};
static const uint8_t IDLE[7] = {0x07, 0xff, 0xc0, 0x00, 0x00, 0x00, 0x55};
static const uint8_t LONG[16] = {0x00, 0x05, 0xc0, 0x00, 0x00, 0x09, 0xaa, 0xab,
                                 0xac, 0xad, 0xae, 0xaf, 0xb0, 0xb1, 0xb2, 0xb3};

/* ---- Building. ---- */

static uint8_t queue(struct sedge_tm_builder *builder, const uint8_t *packet, size_t count, uint8_t *memory,
                     size_t room) {
    const struct sedge_tm_builder was = *builder;
    static uint8_t kept[1000];
    uint8_t answer;
    memcpy(kept, memory, room);
    answer = sedge_tm_builder_queue(builder, packet, count, memory, room);
    if (answer == SEDGE_OK) {
        WANT(builder->count == was.count + count && builder->from + builder->count <= room);
        WANT(memcmp(memory + builder->from, kept + was.from, was.count) == 0);
        WANT(memcmp(memory + builder->from + was.count, packet, count) == 0);
    } else {
        WANT(memcmp(builder, &was, sizeof was) == 0 && memcmp(memory, kept, room) == 0);
    }
    return answer;
}

/* Builds a frame of 20 octets, and compares its data, its pointer and its count. */
static void builds(struct sedge_tm_builder *builder, const uint8_t *memory, size_t room, const char *data,
                   uint16_t pointer, uint8_t count) {
    struct sedge_tm_frame frame;
    struct sedge_part part;
    uint8_t out[21];
    size_t total = 99;
    memset(out, 0xee, sizeof out);
    WANT(sedge_tm_builder_build(builder, OCF, 4, memory, room, out, sizeof out, &total) == SEDGE_OK && total == 20);
    WANT(out[20] == 0xee && sedge_tm_decode(out, 20, 20, &frame, &part) == SEDGE_OK);
    WANT(frame.scid == 1 && frame.vcid == 0 && frame.mc_count == count && frame.vc_count == count);
    WANT(frame.pointer == pointer && memcmp(frame.ocf, OCF, 4) == 0);
    WANT(part.from == 6 && part.count == 8 && memcmp(out + 6, data, 8) == 0);
}

static void packets_in_frames(void) {
    struct sedge_tm_builder builder;
    uint8_t memory[28];
    int i;
    memset(&builder, 0x55, sizeof builder);
    WANT(sedge_tm_builder_open(&builder, 1, 0, 20) == SEDGE_OK);
    for (i = 0; i < 4; i++) WANT(queue(&builder, FOUR[i], 7, memory, 28) == SEDGE_OK);
    WANT(queue(&builder, FOUR[0], 7, memory, 28) == SEDGE_TM_MEMORY);
    builds(&builder, memory, 28, "\x00\x05\xc0\x00\x00\x00\xaa\x00", 0, 0);
    builds(&builder, memory, 28, "\x05\xc0\x01\x00\x00\xbb\x00\x05", 6, 1);
    builds(&builder, memory, 28, "\xc0\x02\x00\x00\xcc\x00\x05\xc0", 5, 2);
    builds(&builder, memory, 28, "\x03\x00\x00\xdd\x07\xff\xc0\x00", 4, 3);
    WANT(builder.count == 0 && builder.idle_left == 3);
}

/* Where a packet fits only after the octets that wait are moved to the front of the memory, they are moved so, though
 * the places overlap: 8 octets of 23 are sent, 15 wait from place 8 on, and 7 more need the place from 15 on. */
static void moves_overlapping_octets(void) {
    struct sedge_tm_builder builder;
    uint8_t memory[23];
    WANT(sedge_tm_builder_open(&builder, 1, 0, 20) == SEDGE_OK);
    WANT(queue(&builder, LONG, 16, memory, 23) == SEDGE_OK && queue(&builder, FOUR[0], 7, memory, 23) == SEDGE_OK);
    builds(&builder, memory, 23, "\x00\x05\xc0\x00\x00\x09\xaa\xab", 0, 0);
    WANT(builder.from == 8 && builder.count == 15);
    WANT(queue(&builder, FOUR[1], 7, memory, 23) == SEDGE_OK && builder.from + builder.count == 22);
    WANT(memcmp(memory + builder.from, LONG + 8, 8) == 0);
    WANT(memcmp(memory + builder.from + 8, FOUR[0], 7) == 0 && memcmp(memory + builder.from + 15, FOUR[1], 7) == 0);
    builds(&builder, memory, 23, "\xac\xad\xae\xaf\xb0\xb1\xb2\xb3", SEDGE_POINTER_NO_START, 1);
    builds(&builder, memory, 23, "\x00\x05\xc0\x00\x00\x00\xaa\x00", 0, 2);
}

static void idle_packets_in_frames(void) {
    struct sedge_tm_builder builder;
    uint8_t memory[7];
    WANT(sedge_tm_builder_open(&builder, 1, 0, 20) == SEDGE_OK);
    WANT(queue(&builder, FOUR[0], 7, memory, 7) == SEDGE_OK);
    builds(&builder, memory, 7, "\x00\x05\xc0\x00\x00\x00\xaa\x07", 0, 0);
    builds(&builder, memory, 7, "\xff\xc0\x00\x00\x00\x55\x07\xff", 6, 1);
    builds(&builder, memory, 7, "\xc0\x00\x00\x00\x55\x07\xff\xc0", 5, 2);
    builds(&builder, memory, 7, "\x00\x00\x00\x55\x07\xff\xc0\x00", 4, 3);
    builds(&builder, memory, 7, "\x00\x00\x55\x07\xff\xc0\x00\x00", 3, 4);
    builds(&builder, memory, 7, "\x00\x55\x07\xff\xc0\x00\x00\x00", 2, 5);
    builds(&builder, memory, 7, "\x55\x07\xff\xc0\x00\x00\x00\x55", 1, 6);
    builds(&builder, memory, 7, "\x55\x55\x55\x55\x55\x55\x55\x55", SEDGE_POINTER_ONLY_IDLE, 7);
    builder.next_count = 255;
    builds(&builder, memory, 7, "\x55\x55\x55\x55\x55\x55\x55\x55", SEDGE_POINTER_ONLY_IDLE, 255);
    builds(&builder, memory, 7, "\x55\x55\x55\x55\x55\x55\x55\x55", SEDGE_POINTER_ONLY_IDLE, 0);
}

static uint8_t opened(uint16_t scid, uint8_t vcid, size_t length) {
    struct sedge_tm_builder builder, was;
    uint8_t answer;
    memset(&builder, 0x55, sizeof builder);
    was = builder;
    answer = sedge_tm_builder_open(&builder, scid, vcid, length);
    WANT(answer == SEDGE_OK || memcmp(&builder, &was, sizeof was) == 0);
    return answer;
}

static void refusals_of_a_builder(void) {
    struct sedge_tm_builder builder, was;
    uint8_t memory[20], two[14], out[20];
    size_t total = 99;
    WANT(opened(1023, 7, 16) == SEDGE_OK && opened(0, 0, 2048) == SEDGE_OK);
    WANT(opened(1024, 0, 20) == SEDGE_TM_FIELD_RANGE && opened(0, 8, 20) == SEDGE_TM_FIELD_RANGE);
    WANT(opened(0, 0, 15) == SEDGE_TM_FIELD_RANGE && opened(0, 0, 2049) == SEDGE_TM_FIELD_RANGE
         && opened(0, 0, 65536 + 20) == SEDGE_TM_FIELD_RANGE);
    WANT(sedge_tm_builder_open(&builder, 1, 0, 20) == SEDGE_OK);
    memset(memory, 0, sizeof memory);
    memcpy(two, FOUR[0], 7);
    memcpy(two + 7, FOUR[1], 7);
    WANT(queue(&builder, IDLE, 7, memory, 20) == SEDGE_TM_NOT_A_PACKET);
    WANT(queue(&builder, two, 14, memory, 20) == SEDGE_TM_NOT_A_PACKET);
    WANT(queue(&builder, FOUR[0], 6, memory, 20) == SEDGE_TM_NOT_A_PACKET);
    WANT(queue(&builder, IDLE, 7, memory, 6) == SEDGE_TM_NOT_A_PACKET);
    WANT(queue(&builder, LONG, 16, memory, 15) == SEDGE_TM_MEMORY);
    WANT(queue(&builder, LONG, 16, memory, 16) == SEDGE_OK);
    was = builder;
    memset(out, 0xee, sizeof out);
    WANT(sedge_tm_builder_build(&builder, OCF, 3, memory, 20, out, 0, &total) == SEDGE_WRONG_COUNT);
    WANT(sedge_tm_builder_build(&builder, two, 5, memory, 20, out, 20, &total) == SEDGE_WRONG_COUNT);
    WANT(sedge_tm_builder_build(&builder, OCF, 4, memory, 20, out, 19, &total) == SEDGE_TM_ROOM);
    WANT(memcmp(&builder, &was, sizeof was) == 0 && total == 99 && out[0] == 0xee && memcmp(out, out + 1, 19) == 0);
}

/* Whether the next frame is refused, with nothing changed. */
static int is_unsent(struct sedge_tm_builder builder, const uint8_t *memory, size_t room) {
    const struct sedge_tm_builder was = builder;
    uint8_t out[2048];
    size_t total = 99;
    memset(out, 0xee, sizeof out);
    if (sedge_tm_builder_build(&builder, OCF, 4, memory, room, out, sizeof out, &total) != SEDGE_DAMAGED) return 0;
    WANT(memcmp(&builder, &was, sizeof was) == 0 && total == 99 && memcmp(out, out + 1, sizeof out - 1) == 0);
    return 1;
}

/* Whether the builder, or its memory, is refused by both calls, with nothing changed. */
static int is_damaged(struct sedge_tm_builder builder, uint8_t *memory, size_t room) {
    return is_unsent(builder, memory, room) && queue(&builder, FOUR[0], 7, memory, room) == SEDGE_DAMAGED;
}

/* Octets that are no packets are refused by the frame that comes to them, with a packet queued after them or not, and
 * not before. */
static void octets_of_no_packet(struct sedge_tm_builder builder, uint8_t *memory, size_t room, int queued, int frames) {
    uint8_t out[20];
    size_t total;
    int i;
    if (queued) WANT(queue(&builder, FOUR[0], 7, memory, room) == SEDGE_OK);
    for (i = 0; i < frames; i++)
        WANT(sedge_tm_builder_build(&builder, OCF, 4, memory, room, out, 20, &total) == SEDGE_OK);
    WANT(is_unsent(builder, memory, room));
}

static void damaged_builders(void) {
    struct sedge_tm_builder good, bad;
    uint8_t memory[40], out[20];
    size_t total;
    WANT(sedge_tm_builder_open(&good, 1, 0, 20) == SEDGE_OK);
    WANT(queue(&good, LONG, 16, memory, 40) == SEDGE_OK && queue(&good, FOUR[1], 7, memory, 40) == SEDGE_OK);
    WANT(sedge_tm_builder_build(&good, OCF, 4, memory, 40, out, 20, &total) == SEDGE_OK);
    WANT(good.from == 8 && good.count == 15 && good.begun == 8);
    WANT(!is_damaged(good, memory, 40) && is_damaged(good, memory, 22));
    bad = good;
    bad.scid = 1024;
    WANT(is_damaged(bad, memory, 40));
    bad = good;
    bad.vcid = 8;
    WANT(is_damaged(bad, memory, 40));
    bad = good;
    bad.length = 15;
    WANT(is_damaged(bad, memory, 40));
    bad = good;
    bad.length = 2049;
    WANT(is_damaged(bad, memory, 40));
    bad = good;
    bad.idle_left = 7;
    WANT(is_damaged(bad, memory, 40));
    bad = good;
    bad.begun = 16;
    WANT(is_damaged(bad, memory, 40));
    bad = good;
    bad.begun = 7;
    octets_of_no_packet(bad, memory, 40, 0, 0);
    octets_of_no_packet(bad, memory, 40, 1, 0);
    bad = good;
    bad.count = 14;
    octets_of_no_packet(bad, memory, 40, 0, 1);
    octets_of_no_packet(bad, memory, 40, 1, 1);
    memcpy(memory + 16, FOUR[1], 7);
    bad = good;
    bad.from = (size_t)-1;
    WANT(is_damaged(bad, memory, 40));
    bad = good;
    bad.from = 41;
    WANT(is_damaged(bad, memory, 40));
    bad = good;
    bad.count = (size_t)-1;
    WANT(is_damaged(bad, memory, 40));
    memory[16 + 5] = 1; /* the length that the second packet declares: it has one octet of the packet after it */
    octets_of_no_packet(good, memory, 40, 0, 1);
    octets_of_no_packet(good, memory, 40, 1, 2);
}

/* ---- Extracting. ---- */

struct found {
    struct sedge_tm_extractor extractor;
    uint8_t memory[100];
    uint8_t packets[8][100];
    size_t counts[8];
    size_t number;
};

static void found_one(struct found *found, const uint8_t *octets, size_t count) {
    WANT(found->number < 8 && count <= 100);
    memcpy(found->packets[found->number], octets, count);
    found->counts[found->number++] = count;
}

/* Takes a frame of these data, and all its packets; returns the number of frames missing before it, or 256. */
static int take(struct found *found, uint8_t count, uint16_t pointer, const uint8_t *data, size_t data_count) {
    struct sedge_tm_frame frame = {1, 0, 0, 0, 0, {0, 0, 0, 0}};
    struct sedge_tm_extracted extracted;
    struct sedge_part packet;
    uint8_t answer;
    frame.pointer = pointer;
    frame.vc_count = count;
    memset(&extracted, 0x55, sizeof extracted);
    answer = sedge_tm_extractor_frame(&found->extractor, &frame, data, data_count, found->memory, sizeof found->memory,
                                      &extracted);
    WANT(answer == SEDGE_OK);
    WANT(extracted.first < 2 && (extracted.first == 0 || extracted.lost == 0));
    if (extracted.joined > 0) found_one(found, found->memory, extracted.joined);
    packet = extracted.packets;
    while (sedge_tm_packet(data, data_count, &packet)) found_one(found, data + packet.from, packet.count);
    return extracted.first ? 256 : extracted.lost;
}

static int has_found(const struct found *found, size_t k, const uint8_t *octets, size_t count) {
    return k < found->number && found->counts[k] == count && memcmp(found->packets[k], octets, count) == 0;
}

static void a_lost_frame(void) {
    struct found found;
    memset(&found, 0, sizeof found);
    WANT(take(&found, 0, 0, (const uint8_t *)"\x00\x05\xc0\x00\x00\x00\xaa\x00", 8) == 256 && found.number == 1);
    WANT(found.extractor.count == 1);
    WANT(take(&found, 2, 5, (const uint8_t *)"\xc0\x02\x00\x00\xcc\x00\x05\xc0", 8) == 1 && found.number == 1);
    WANT(take(&found, 3, 4, (const uint8_t *)"\x03\x00\x00\xdd\x07\xff\xc0\x00", 8) == 0 && found.number == 2);
    WANT(has_found(&found, 0, FOUR[0], 7) && has_found(&found, 1, FOUR[3], 7));
}

static void idle_packets_are_not_handed_out(void) {
    struct found found;
    uint8_t data[28];
    memset(&found, 0, sizeof found);
    memcpy(data, IDLE, 7);
    memcpy(data + 7, FOUR[1], 7);
    memcpy(data + 14, IDLE, 7);
    memcpy(data + 21, FOUR[2], 7);
    WANT(take(&found, 9, 0, data, 28) == 256 && found.number == 2);
    WANT(has_found(&found, 0, FOUR[1], 7) && has_found(&found, 1, FOUR[2], 7));
    WANT(take(&found, 10, 0, IDLE, 4) == 0 && found.extractor.count == 4);
    WANT(take(&found, 11, SEDGE_POINTER_NO_START, IDLE + 4, 3) == 0 && found.number == 2 && found.extractor.count == 0);
}

/* A packet over many frames, and what a frame of only idle data and a gap do to a part. */
static void a_packet_over_many_frames(void) {
    struct found found;
    int turn;
    memset(&found, 0, sizeof found);
    WANT(take(&found, 254, 0, LONG, 5) == 256 && take(&found, 255, SEDGE_POINTER_NO_START, LONG + 5, 1) == 0);
    WANT(take(&found, 0, SEDGE_POINTER_NO_START, LONG + 6, 9) == 0 && found.number == 0 && found.extractor.count == 15);
    WANT(take(&found, 1, SEDGE_POINTER_NO_START, LONG + 15, 1) == 0 && found.number == 1);
    WANT(has_found(&found, 0, LONG, 16) && found.extractor.count == 0);
    for (turn = 0; turn < 2; turn++) {
        WANT(take(&found, 2, 0, LONG, 8) == (turn ? 253 : 0) && found.extractor.count == 8);
        if (turn) {
            WANT(take(&found, 3, SEDGE_POINTER_ONLY_IDLE, FOUR[0], 7) == 0 && found.extractor.count == 0);
        }
        WANT(take(&found, 4, SEDGE_POINTER_NO_START, LONG + 8, 8) == (turn ? 0 : 1) && found.number == 1);
    }
}

/* A frame that ends a packet and leaves a part: both are in the memory, until the next frame ends that part. */
static void a_frame_that_ends_and_begins(void) {
    struct found found;
    uint8_t data[16];
    memset(&found, 0, sizeof found);
    WANT(take(&found, 0, 0, LONG, 12) == 256 && found.number == 0);
    memcpy(data, LONG + 12, 4);
    memcpy(data + 4, FOUR[1], 7);
    memcpy(data + 11, FOUR[2], 5);
    WANT(take(&found, 1, 4, data, 16) == 0 && found.number == 2);
    WANT(has_found(&found, 0, LONG, 16) && has_found(&found, 1, FOUR[1], 7));
    WANT(found.extractor.from == 16 && found.extractor.count == 5);
    WANT(take(&found, 2, SEDGE_POINTER_NO_START, FOUR[2] + 5, 2) == 0 && found.number == 3);
    WANT(has_found(&found, 2, FOUR[2], 7));
}

static uint8_t untaken(struct sedge_tm_extractor extractor, uint16_t pointer, const uint8_t *data, size_t data_count,
                       size_t room) {
    const struct sedge_tm_extractor was = extractor;
    struct sedge_tm_frame frame = {1, 0, 0, 0, 1, {0, 0, 0, 0}};
    struct sedge_tm_extracted extracted, kept;
    uint8_t memory[100], before[100], answer;
    frame.pointer = pointer;
    memset(&extracted, 0x55, sizeof extracted);
    kept = extracted;
    memcpy(memory, LONG, 16);
    memset(memory + 16, 0xee, 84);
    memcpy(before, memory, 100);
    answer = sedge_tm_extractor_frame(&extractor, &frame, data, data_count, memory, room, &extracted);
    WANT(answer == SEDGE_OK
         || (memcmp(&extractor, &was, sizeof was) == 0 && memcmp(&extracted, &kept, sizeof kept) == 0
             && memcmp(memory, before, 100) == 0));
    return answer;
}

static void refusals_of_an_extractor(void) {
    static const struct sedge_tm_extractor good = {0, 12, 0, 1};
    struct sedge_tm_extractor bad = good;
    uint8_t data[16];
    memcpy(data, LONG + 12, 4);
    memcpy(data + 4, FOUR[1], 7);
    memcpy(data + 11, FOUR[2], 5);
    WANT(untaken(good, 4, data, 16, 21) == SEDGE_OK && untaken(good, 4, data, 16, 20) == SEDGE_TM_MEMORY);
    WANT(untaken(good, SEDGE_POINTER_NO_START, data, 3, 15) == SEDGE_OK
         && untaken(good, SEDGE_POINTER_NO_START, data, 3, 14) == SEDGE_TM_MEMORY);
    WANT(untaken(good, 16, data, 16, 0) == SEDGE_DAMAGED && untaken(good, 16, data, 16, 12) == SEDGE_TM_FIELD_RANGE);
    WANT(untaken(good, 0, data, 0, 100) == SEDGE_TM_FIELD_RANGE
         && untaken(good, 65535, data, 16, 100) == SEDGE_TM_FIELD_RANGE);
    bad.seen = 2;
    WANT(untaken(bad, 4, data, 16, 100) == SEDGE_DAMAGED);
    bad = good;
    bad.seen = 0;
    WANT(untaken(bad, 4, data, 16, 100) == SEDGE_DAMAGED);
    bad = good;
    bad.from = 89;
    WANT(untaken(bad, 4, data, 16, 100) == SEDGE_DAMAGED);
    bad = good;
    bad.from = (size_t)-1;
    WANT(untaken(bad, 4, data, 16, 100) == SEDGE_DAMAGED);
    bad = good;
    bad.count = (size_t)-1;
    WANT(untaken(bad, 4, data, 16, 100) == SEDGE_DAMAGED);
}

/* A frame that is refused counts as missing: the part is dropped, and the next packet is found. */
static void a_packet_that_is_too_long(void) {
    struct sedge_tm_extractor extractor = {0, 0, 0, 0};
    struct sedge_tm_frame frame = {1, 0, 0, 0, 0, {0, 0, 0, 0}};
    struct sedge_tm_extracted extracted;
    struct sedge_part packet;
    uint8_t memory[10];
    WANT(sedge_tm_extractor_frame(&extractor, &frame, LONG, 8, memory, 10, &extracted) == SEDGE_OK);
    WANT(extractor.count == 8);
    frame.pointer = SEDGE_POINTER_NO_START;
    frame.vc_count = 1;
    WANT(sedge_tm_extractor_frame(&extractor, &frame, LONG + 8, 4, memory, 10, &extracted) == SEDGE_TM_MEMORY);
    frame.pointer = 0;
    frame.vc_count = 2;
    WANT(sedge_tm_extractor_frame(&extractor, &frame, FOUR[0], 7, memory, 10, &extracted) == SEDGE_OK);
    WANT(extracted.first == 0 && extracted.lost == 1 && extracted.joined == 0 && extractor.count == 0);
    packet = extracted.packets;
    WANT(sedge_tm_packet(FOUR[0], 7, &packet) && packet.from == 0 && packet.count == 7);
    WANT(!sedge_tm_packet(FOUR[0], 7, &packet) && packet.from == 0 && packet.count == 7);
}

/* What is told of the packet that a frame began with these octets, and that is dropped at the next frame, of this pointer
 * and count, whose data begin with these octets. */
static unsigned dropped_by(const uint8_t *begun, size_t kept, uint16_t pointer, uint8_t count, const uint8_t *next,
                           size_t given) {
    struct sedge_tm_extractor extractor = {0, 0, 0, 0};
    struct sedge_tm_frame frame = {42, 0, 1, 0, 0, {0, 0, 0, 0}};
    uint8_t data[52] = {0x00, 0x05, 0xc0, 0, 0, 0}, octets[128], memory[200], out[38], packets[400];
    size_t total = 0, n = 0;
    data[5] = (uint8_t)(52 - kept - 7);
    memcpy(data + 52 - kept, begun, kept);
    WANT(sedge_tm_encode(&frame, data, 52, octets, 64, &n) == SEDGE_OK && n == 64);
    memset(data, 0, sizeof data);
    memcpy(data, next, given);
    frame.pointer = pointer;
    frame.mc_count = frame.vc_count = count;
    WANT(sedge_tm_encode(&frame, data, 52, octets + 64, 64, &n) == SEDGE_OK && n == 64);
    WANT(sedge_tm_extractor_frames(&extractor, octets, 128, 64, memory, 200, out, 38, packets, 400, &total) == 2);
    WANT(out[19 + 4] == SEDGE_OK);
    return out[19 + 7];
}

/* A packet is dropped, of which a part was in the frame before: the idle one is not told of, another is. Its number is in
 * two frames where its first octet alone was in the first. */
static void a_dropped_packet_in_two_frames(void) {
    static const uint8_t idle[] = {0x07, 0xff}, other[] = {0x07, 0xfe};
    static const uint8_t whole[] = {0x00, 0x05, 0xc0, 0x01, 0x00, 0x2d};
    uint8_t before[] = {0xff, 0x00, 0x05, 0xc0, 0x01, 0x00, 0x2c}, none[] = {0xff, 0xc0, 0x00, 0x00, 0x00};
    WANT(dropped_by(idle, 1, 1, 1, before, 7) == 0);
    WANT(dropped_by(idle, 1, SEDGE_POINTER_NO_START, 1, none, 5) == 0);
    before[0] = none[0] = 0xfe;
    WANT(dropped_by(other, 1, 1, 1, before, 7) == 1);
    WANT(dropped_by(other, 1, SEDGE_POINTER_NO_START, 1, none, 5) == 1);
    WANT(dropped_by(idle, 2, 0, 2, whole, 6) == 0);
    WANT(dropped_by(other, 2, 0, 2, whole, 6) == 1);
    WANT(dropped_by(idle, 2, SEDGE_POINTER_ONLY_IDLE, 1, whole, 0) == 0);
    WANT(dropped_by(other, 2, SEDGE_POINTER_ONLY_IDLE, 1, whole, 0) == 1);
}

static void places_past_the_data(void) {
    struct sedge_part packet = {8, 0};
    WANT(!sedge_tm_packet(FOUR[0], 7, &packet) && packet.from == 8 && packet.count == 0);
    packet.from = 3;
    packet.count = (size_t)-1;
    WANT(!sedge_tm_packet(FOUR[0], 7, &packet) && packet.from == 3 && packet.count == (size_t)-1);
}

/* ---- From one to the other. ---- */

/* A packet of this many octets, whose data begin with its number. */
static void make(uint8_t *packet, size_t count, uint32_t number) {
    memset(packet, 0xab, count);
    packet[0] = 0;
    packet[1] = 5;
    packet[2] = (uint8_t)(0xc0 | (number >> 8 & 0x3f));
    packet[3] = (uint8_t)number;
    packet[4] = (uint8_t)((count - 7) >> 8);
    packet[5] = (uint8_t)(count - 7);
}

enum { MANY = 2000 };

static size_t length_of(uint32_t number) {
    return 7 + number * 31 % 290;
}

/* The packets of a frame follow those before it, which end before this number; returns the number after them. */
static uint32_t look_at(const uint8_t *octets, size_t count, uint32_t next, int losing) {
    static uint8_t packet[300];
    const uint32_t number = (uint32_t)(octets[2] & 0x3f) << 8 | octets[3];
    WANT(number >= next && number < MANY && (losing || number == next));
    make(packet, length_of(number), number);
    WANT(count == length_of(number) && memcmp(octets, packet, count) == 0);
    return number + 1;
}

/* Packets through frames of this length, of which none or each third is lost: without losses all come, in order; with
 * losses those that come are packets that were queued, in order. */
static void packets_through_frames(uint16_t length, int losing) {
    static uint8_t sending[700], receiving[3000], packet[300], out[2048];
    struct sedge_tm_builder builder;
    struct sedge_tm_extractor extractor = {0, 0, 0, 0};
    struct sedge_tm_extracted extracted;
    struct sedge_tm_frame frame;
    struct sedge_part data, place;
    uint32_t queued = 0, found = 0, next = 0, frames = 0;
    size_t total;
    WANT(sedge_tm_builder_open(&builder, 1, 0, length) == SEDGE_OK);
    while (queued < MANY || builder.count > 0) {
        for (; queued < MANY; queued++) {
            make(packet, length_of(queued), queued);
            if (sedge_tm_builder_queue(&builder, packet, length_of(queued), sending, sizeof sending) != SEDGE_OK) break;
        }
        WANT(sedge_tm_builder_build(&builder, OCF, 4, sending, sizeof sending, out, sizeof out, &total) == SEDGE_OK);
        WANT(total == length);
        if (losing && frames++ % 3 == 2) continue;
        WANT(sedge_tm_decode(out, total, length, &frame, &data) == SEDGE_OK && data.from == 6);
        WANT(sedge_tm_extractor_frame(&extractor, &frame, out + 6, data.count, receiving, sizeof receiving, &extracted)
             == SEDGE_OK);
        if (extracted.joined > 0) next = look_at(receiving, extracted.joined, next, losing), found++;
        for (place = extracted.packets; sedge_tm_packet(out + 6, data.count, &place); found++) {
            next = look_at(out + 6 + place.from, place.count, next, losing);
        }
    }
    WANT(losing ? found < MANY : found == MANY);
}

/* ---- Many frames in one call. ---- */

/* The places of a call: those for records and packets have this much room, and octets after it stay as they are. */
struct places {
    uint8_t memory[400], out[19 * 40 + 1], packets[2000];
    size_t room, out_room, packets_room;
};

/* Whether the frame drops a packet that was begun and is not idle; these are its first octets, two at most, and how
 * many there were before the frame. */
static int drops(const uint8_t *begun, size_t count, const struct sedge_tm_extractor *extractor,
                 const struct sedge_tm_frame *frame, const uint8_t *data, const struct sedge_tm_extracted *extracted) {
    const int continues = frame->pointer == SEDGE_POINTER_NO_START;
    const int has_front = extracted->lost == 0 && (continues || (frame->pointer > 0 && frame->pointer < 2046));
    const uint8_t second = count > 1 ? begun[1] : data[0];
    if (count == 0 || extracted->joined > 0 || (continues && extractor->count > 0)) return 0;
    return (count < 2 && !has_front) || (begun[0] & 7) != 7 || second != 255;
}

/* What the call for many frames writes of one, by the calls for one frame: its record, and its packets, of which it
 * gives the number of octets. */
static size_t taken_alone(struct sedge_tm_extractor *extractor, const uint8_t *octets, size_t length,
                          struct places *places, uint8_t *record, uint8_t *packets) {
    const size_t before = extractor->count;
    const uint8_t begun[2] = {places->memory[extractor->from], places->memory[extractor->from + 1]};
    struct sedge_tm_frame frame;
    struct sedge_tm_extracted extracted;
    struct sedge_part data, packet;
    size_t count = 0;
    memset(record, 0, 19);
    record[4] = sedge_tm_decode(octets, length, length, &frame, &data);
    if (record[4] != SEDGE_OK) return 0;
    record[8] = (uint8_t)frame.scid, record[9] = (uint8_t)(frame.scid >> 8);
    record[10] = (uint8_t)frame.pointer, record[11] = (uint8_t)(frame.pointer >> 8);
    record[12] = frame.vcid, record[13] = frame.mc_count, record[14] = frame.vc_count;
    memcpy(record + 15, frame.ocf, 4);
    record[4] = sedge_tm_extractor_frame(extractor, &frame, octets + 6, data.count, places->memory, places->room,
                                         &extracted);
    if (record[4] != SEDGE_OK) return 0;
    record[5] = extracted.first, record[6] = extracted.lost;
    record[7] = (uint8_t)drops(begun, before, extractor, &frame, octets + 6, &extracted);
    memcpy(packets, places->memory, count = extracted.joined);
    for (packet = extracted.packets; sedge_tm_packet(octets + 6, data.count, &packet); count += packet.count) {
        memcpy(packets + count, octets + 6 + packet.from, packet.count);
    }
    record[0] = (uint8_t)count, record[1] = (uint8_t)(count >> 8);
    return count;
}

/* Takes frames that stand one after another by both calls, and compares: what is written, and where they stop. Gives
 * the number of packets that are dropped. */
static unsigned taken_both(const uint8_t *octets, size_t count, size_t length, size_t room, size_t out_room,
                           size_t packets_room) {
    static struct places many, alone;
    struct sedge_tm_extractor one = {0, 0, 0, 0}, other = {0, 0, 0, 0};
    size_t from = 0, frames, total, found, end, k;
    unsigned dropped = 0;
    do {
        memset(many.out, 0x55, sizeof many.out), memset(alone.out, 0x55, sizeof alone.out);
        memset(many.packets, 0x55, sizeof many.packets), memset(alone.packets, 0x55, sizeof alone.packets);
        many.room = alone.room = room, total = 99;
        frames = sedge_tm_extractor_frames(&one, octets + from, count - from, length, many.memory, room, many.out,
                                           out_room, many.packets, packets_room, &total);
        for (found = end = 0; found < out_room / 19 && (found + 1) * length <= count - from; found++) {
            if (packets_room - end < room + length) break;
            end += taken_alone(&other, octets + from + found * length, length, &alone, alone.out + 19 * found,
                               alone.packets + end);
        }
        WANT(frames == found && total == end && one.from == other.from && one.count == other.count);
        WANT(one.last == other.last && one.seen == other.seen);
        WANT(memcmp(many.out, alone.out, sizeof many.out) == 0);
        WANT(memcmp(many.packets, alone.packets, sizeof many.packets) == 0);
        WANT(memcmp(many.memory + one.from, alone.memory + one.from, one.count) == 0);
        for (k = 0; k < frames; k++) dropped += many.out[19 * k + 7];
        from += frames * length;
    } while (frames > 0);
    WANT(from + length > count || packets_room < room + length || out_room < 19);
    return dropped;
}

/* Frames of 24 octets with packets of 7 to 66, some of them damaged, some lost. */
static void many_frames(void) {
    static uint8_t octets[24 * 300], memory[400], packet[80];
    struct sedge_tm_builder builder;
    struct sedge_tm_extractor extractor = {0, 0, 0, 2};
    static struct places places;
    uint32_t queued = 0, frames;
    size_t count = 0, total, length;
    WANT(sedge_tm_builder_open(&builder, 1, 0, 24) == SEDGE_OK);
    for (frames = 0; frames < 310; frames++) {
        for (; frames % 20 < 18 && builder.count < 100; queued++) {
            length = 7 + queued * 37 % 60;
            make(packet, length, queued);
            WANT(sedge_tm_builder_queue(&builder, packet, length, memory, sizeof memory) == SEDGE_OK);
        }
        if (count + 24 > sizeof octets) break;
        WANT(sedge_tm_builder_build(&builder, OCF, 4, memory, sizeof memory, octets + count, 24, &total) == SEDGE_OK);
        if (frames % 7 == 3) octets[count + frames % 24] ^= 4;
        count += frames % 9 == 8 ? 0 : 24;
    }
    WANT(taken_both(octets, count, 24, 100, 19 * 40, 2000) > 10 && taken_both(octets, count, 24, 100, 19, 124) > 10);
    WANT(taken_both(octets, count - 1, 24, 100, 56, 200) > 10 && taken_both(octets, count, 24, 40, 19 * 40, 500) > 10);
    (void)taken_both(octets, count, 24, 0, 19 * 40, 100), (void)taken_both(octets, count, 16, 100, 19 * 40, 500);
    (void)taken_both(octets, count, 24, 100, 18, 500), (void)taken_both(octets, count, 24, 100, 19 * 40, 123);
    (void)taken_both(octets, 23, 24, 100, 19 * 40, 500), (void)taken_both(octets, 0, 24, 100, 19 * 40, 500);
    total = 99;
    WANT(sedge_tm_extractor_frames(&extractor, octets, count, 0, places.memory, 100, places.out, 19 * 40,
                                   places.packets, 2000, &total) == 0);
    WANT(total == 0);
    WANT(sedge_tm_extractor_frames(&extractor, octets, 24, 24, places.memory, 100, places.out, 19 * 40,
                                   places.packets, 2000, &total) == 1);
    WANT(places.out[4] == SEDGE_DAMAGED && extractor.seen == 2 && places.out[8] == 1);
}

int main(void) {
    packets_in_frames();
    moves_overlapping_octets();
    idle_packets_in_frames();
    refusals_of_a_builder();
    damaged_builders();
    a_lost_frame();
    idle_packets_are_not_handed_out();
    a_packet_over_many_frames();
    a_frame_that_ends_and_begins();
    refusals_of_an_extractor();
    a_packet_that_is_too_long();
    a_dropped_packet_in_two_frames();
    places_past_the_data();
    packets_through_frames(16, 0);
    packets_through_frames(20, 1);
    packets_through_frames(223, 0);
    packets_through_frames(223, 1);
    packets_through_frames(2048, 0);
    packets_through_frames(2048, 1);
    many_frames();
    printf(failures ? "%d failed\n" : "all as wanted\n", failures);
    return failures != 0;
}
