/* Tests that nothing is refused in the places that c/tools/places.c lists for a configuration: `listed COUNT`, for
 * COUNT random configurations. A ground and a spacecraft are filled with the longest packets, in places of
 * memory/static.c; the program prints how many were used. Then packets of any length arrive at a spacecraft, also the
 * first of telemetry, in these places and in a tenth less of each size. The program prints how often a call was refused
 * in the latter, which must happen sometimes. */
#define main main_of_places
#include "../tools/places.c"
#undef main
/* As many sizes as a list may have here; their places are set before each node. */
#define SEDGE_PLACES                                                                                                   \
    PLACES(16, 1) PLACES(32, 1) PLACES(48, 1) PLACES(64, 1) PLACES(80, 1) PLACES(96, 1) PLACES(112, 1) PLACES(128, 1)  \
    PLACES(144, 1) PLACES(160, 1) PLACES(176, 1) PLACES(192, 1) PLACES(208, 1) PLACES(224, 1) PLACES(240, 1)           \
    PLACES(256, 1) PLACES(272, 1) PLACES(288, 1) PLACES(304, 1) PLACES(320, 1) PLACES(336, 1) PLACES(352, 1)           \
    PLACES(368, 1) PLACES(384, 1) PLACES(400, 1) PLACES(416, 1) PLACES(432, 1) PLACES(448, 1) PLACES(464, 1)           \
    PLACES(480, 1) PLACES(496, 1) PLACES(512, 1) PLACES(528, 1) PLACES(544, 1) PLACES(560, 1) PLACES(576, 1)
#include "../memory/static.c"

static struct sedge_config config;
static struct traffic traffic;
static uint8_t packet[4096], octets[2048];
static size_t used, listed, without;

/* The answer is this one, or the program ends. */
static void gives(size_t wanted, size_t answer, const char *call) {
    if (answer == wanted) return;
    printf("%s: %zu\n", call, answer);
    exit(1);
}
#define GIVES(wanted, call) gives(wanted, call, #call)

static uint64_t state = 0x9e3779b97f4a7c15u;

/* A number below the limit (xorshift64*, Marsaglia and Vigna). */
static uint32_t below(uint32_t limit) {
    state ^= state >> 12;
    state ^= state << 25;
    state ^= state >> 27;
    return (uint32_t)((state * 2685821657736338717u) >> 33) % limit;
}

static void any_config(void) {
    sedge_config_default(&config);
    config.width = 2 + 2 * below(20);
    config.window = config.width / 2;
    config.part = 1 + below(below(2) ? 1016 : 100);
    config.max_packet = 7 + below(below(2) ? 2000 : 200);
    config.maps = 1 + below(255);
    config.ready_slots = 1 + below(16);
    config.bypass_slots = 1 + below(8);
    config.queue_slots = 1 + below(300);
    config.frame_length = 32 + below(500);
    config.blocking = below(2);
    traffic.packets = 1 + below(20);
    traffic.segments = 1 + below(20);
    traffic.bypass = config.part < 7 ? 0 : below(10);
    if (traffic.bypass > config.queue_slots) traffic.bypass = config.queue_slots;
    traffic.telemetry = below(20);
    traffic.telemetry_octets = 7 + below(below(2) ? 300 : 30);
}

/* The places are those of the list, and all are free. */
static void set_places(void) {
    static unsigned char *all;
    size_t at, sum = 0;
    if (rows_count > sizeof sizes / sizeof *sizes) exit(3);
    for (at = 0; at < rows_count; at++) sum += rows[at].octets * rows[at].count;
    free(all);
    if ((all = malloc(sum)) == NULL) exit(3);
    memset(sizes, 0, sizeof sizes);
    for (at = sum = 0; at < rows_count; at++) {
        sizes[at] = (struct size){all + sum, rows[at].octets, rows[at].count, 0, 0, NULL};
        sum += rows[at].octets * rows[at].count;
    }
}

static void count_places(void) {
    const struct size *size;
    for (size = sizes; size < sizes + SIZES; size++) used += size->used, listed += size->count;
}

static void make_packet(uint8_t *at, int type, size_t count) {
    memset(at, 0, count);
    at[0] = (uint8_t)(type << 4);
    at[1] = 5;
    at[2] = 0xc0;
    at[4] = (uint8_t)((count - 7) >> 8);
    at[5] = (uint8_t)(count - 7);
}

/* ---- The ground. ---- */

static uint8_t an_open_map(void) {
    uint8_t map = 0;
    while ((config.maps >> map & 1) == 0) map++;
    return map;
}

/* Submits packets of as many octets until the queue is full. */
static void submit_all(struct sedge_ground *ground, size_t count) {
    uint8_t answer;
    make_packet(packet, 1, count);
    while ((answer = sedge_ground_submit(ground, an_open_map(), packet, count)) == 0) continue;
    GIVES(SEDGE_NODE_QUEUE_FULL, answer);
}

/* Several packets in one submission, as long together as fits the segments. */
static void submit_several(struct sedge_ground *ground) {
    static uint8_t several[20 * 7];
    size_t k, count = traffic.packets;
    uint8_t answer;
    if (config.blocking == 0 || config.part < 7) return;
    while (count > 1 && (count + config.part / 7 - 1) / (config.part / 7) > most_segments(&config, &traffic)) count--;
    for (k = 0; k < count; k++) make_packet(several + 7 * k, 1, 7);
    answer = sedge_ground_submit(ground, an_open_map(), several, 7 * count);
    if (answer != SEDGE_NODE_QUEUE_FULL) GIVES(0, answer);
}

/* As many packets of telemetry as may wait come down. */
static void fill_telemetry(struct sedge_ground *ground) {
    static uint8_t memory[20 * 307];
    struct sedge_tm_builder builder;
    struct sedge_heard heard;
    size_t k, total, wait = 0, taken;
    uint8_t ocf[4] = {0x01, 0x08, 0, 0};
    GIVES(0, sedge_tm_builder_open(&builder, 1, 0, config.frame_length));
    make_packet(packet, 0, traffic.telemetry_octets);
    for (k = 0; k < traffic.telemetry; k++)
        GIVES(0, sedge_tm_builder_queue(&builder, packet, traffic.telemetry_octets, memory, sizeof memory));
    while (wait < traffic.telemetry) {
        GIVES(0, sedge_tm_builder_build(&builder, ocf, 4, memory, sizeof memory, octets, sizeof octets, &total));
        GIVES(0, sedge_ground_telemetry(ground, octets, total, &heard));
        wait += heard.packets;
        if (wait == 0 || below(4) > 0 || k == 0) continue;
        GIVES(0, sedge_ground_take_telemetry(ground, packet, sizeof packet, &taken));
        make_packet(packet, 0, traffic.telemetry_octets);
        if (builder.count + traffic.telemetry_octets > sizeof memory) continue;
        GIVES(0, sedge_tm_builder_queue(&builder, packet, traffic.telemetry_octets, memory, sizeof memory));
        wait--, k--;
    }
}

static void fill_ground(void) {
    struct sedge_ground ground = {0};
    size_t k, count, alone = config.max_packet < config.part ? config.max_packet : config.part;
    rows_count = 0;
    places_of_ground(&config, &traffic);
    set_places();
    GIVES(0, sedge_ground_open(&ground, &config));
    GIVES(0, sedge_ground_init_without_check(&ground));
    submit_all(&ground, config.max_packet);
    for (k = 0; k < config.width / 2; k++) GIVES(0, sedge_ground_pull(&ground, octets, sizeof octets, &count));
    submit_several(&ground);
    submit_all(&ground, config.max_packet);
    if (alone >= 7) submit_all(&ground, alone);
    for (k = 0; k < traffic.bypass; k++) {
        make_packet(packet, 1, alone);
        GIVES(0, sedge_ground_bypass(&ground, an_open_map(), packet, alone));
    }
    fill_telemetry(&ground);
    sedge_ground_close(&ground);
    count_places();
}

/* ---- The spacecraft. ---- */

static uint8_t next_number;

/* A frame arrives with these octets; says how many packets are ready with it. */
static size_t arrives(struct sedge_spacecraft *spacecraft, uint8_t kind, uint8_t flags, uint8_t map,
                      const uint8_t *data, size_t count) {
    struct sedge_tc_frame frame = {1, 2, kind, kind == SEDGE_TC_AD ? next_number++ : 0, flags, map, 0, 0};
    struct sedge_received received;
    size_t total;
    GIVES(0, sedge_tc_encode(&frame, data, count, true, octets, sizeof octets, &total));
    GIVES(0, sedge_spacecraft_receive(spacecraft, octets, total, &received));
    if (kind == SEDGE_TC_AD) GIVES(SEDGE_ACCEPTED, received.verdict);
    return received.ready;
}

/* The longest packet arrives, in two segments at least, or all of it but its last octet. */
static void arrives_long(struct sedge_spacecraft *spacecraft, uint8_t map, bool whole) {
    size_t from = 0, last = config.max_packet - 1;
    make_packet(packet, 1, config.max_packet);
    for (; from < last; from += 1016)
        arrives(spacecraft, SEDGE_TC_AD, from == 0 ? SEDGE_SEGMENT_FIRST : SEDGE_SEGMENT_CONTINUING, map, packet + from,
                last - from < 1016 ? last - from : 1016);
    if (whole) GIVES(1, arrives(spacecraft, SEDGE_TC_AD, SEDGE_SEGMENT_LAST, map, packet + last, 1));
}

/* Telemetry is queued as it may be while frames go down; a builder of the same frames says how much waits. */
static void send_telemetry(struct sedge_spacecraft *spacecraft, unsigned turns) {
    static uint8_t memory[20 * 307];
    struct sedge_tm_builder builder;
    uint8_t ocf[4] = {0x01, 0x08, 0, 0};
    size_t total, most = (size_t)traffic.telemetry * traffic.telemetry_octets;
    GIVES(0, sedge_tm_builder_open(&builder, 1, 0, config.frame_length));
    make_packet(packet, 0, traffic.telemetry_octets);
    while (turns-- > 0) {
        while (builder.count + traffic.telemetry_octets <= most && below(4) > 0) {
            GIVES(0, sedge_tm_builder_queue(&builder, packet, traffic.telemetry_octets, memory, sizeof memory));
            GIVES(0, sedge_spacecraft_telemetry(spacecraft, packet, traffic.telemetry_octets));
        }
        GIVES(0, sedge_tm_builder_build(&builder, ocf, 4, memory, sizeof memory, octets, sizeof octets, &total));
        GIVES(0, sedge_spacecraft_telemetry_frame(spacecraft, octets, sizeof octets, &total));
    }
}

static void fill_spacecraft(void) {
    struct sedge_spacecraft spacecraft = {0};
    static uint8_t packets[MOST][7];
    uint8_t map, k;
    size_t alone = config.max_packet < DATA ? config.max_packet : DATA;
    rows_count = 0;
    next_number = 0;
    places_of_spacecraft(&config, &traffic);
    set_places();
    GIVES(0, sedge_spacecraft_open(&spacecraft, &config));
    send_telemetry(&spacecraft, 100);
    for (k = 1; k < config.ready_slots; k++) arrives_long(&spacecraft, an_open_map(), true);
    for (map = 0; map < 64; map++)
        if (config.maps >> map & 1) arrives_long(&spacecraft, map, false);
    make_packet(packet, 1, alone);
    for (k = 0; k <= config.bypass_slots; k++)
        arrives(&spacecraft, SEDGE_TC_BD, SEDGE_SEGMENT_ALONE, an_open_map(), packet, alone);
    for (k = 0; k < MOST; k++) make_packet(packets[k], 1, 7);
    map = an_open_map();
    if (config.blocking == 0) arrives(&spacecraft, SEDGE_TC_AD, SEDGE_SEGMENT_LAST, map, packets[0], 1);
    else GIVES(MOST, arrives(&spacecraft, SEDGE_TC_AD, SEDGE_SEGMENT_ALONE, map, packets[0], sizeof packets));
    sedge_spacecraft_close(&spacecraft);
    count_places();
}

/* ---- Packets of any length. ---- */

/* What comes is short for a while, and then as long as may be; and of a packet on each MAP how many octets have come. */
static bool is_short;
static uint32_t lengths[64], come[64];

static uint32_t any_length(uint32_t most) {
    if (below(10) == 0) return 7 + below(most - 6);
    return is_short ? 7 + below(most < 16 ? most - 6 : 10) : most;
}

/* The next segment of a MAP arrives, with its packet's beginning, middle or end, or with whole packets. */
static bool segment_comes(struct sedge_spacecraft *spacecraft, uint8_t map) {
    uint32_t length = lengths[map], from = come[map], count;
    uint8_t flags = from == 0 ? SEDGE_SEGMENT_FIRST : SEDGE_SEGMENT_CONTINUING, answer;
    struct sedge_received received;
    struct sedge_tc_frame frame = {1, 2, SEDGE_TC_AD, next_number, 0, map, 0, 0};
    size_t total;
    if (from == 0) length = any_length(config.max_packet);
    make_packet(packet, 1, length);
    count = 1 + below(length - from < 1016 ? length - from : 1016);
    if (below(4) == 0 && length - from <= 1016) count = length - from;
    if (from + count == length) flags = from == 0 ? SEDGE_SEGMENT_ALONE : SEDGE_SEGMENT_LAST;
    if (flags == SEDGE_SEGMENT_ALONE && config.blocking == 1)
        for (; count + 7 <= 1016 && below(20) > 0; count += 7) make_packet(packet + count, 1, 7);
    frame.flags = flags;
    GIVES(0, sedge_tc_encode(&frame, packet + from, count, true, octets, sizeof octets, &total));
    if ((answer = sedge_spacecraft_receive(spacecraft, octets, total, &received)) == SEDGE_NODE_MEMORY) return false;
    gives(0, answer, "sedge_spacecraft_receive");
    if (received.verdict != SEDGE_ACCEPTED) return true;
    next_number++;
    lengths[map] = length;
    come[map] = flags == SEDGE_SEGMENT_ALONE || flags == SEDGE_SEGMENT_LAST ? 0 : from + count;
    return true;
}

static bool bypass_comes(struct sedge_spacecraft *spacecraft) {
    uint32_t length = any_length(config.max_packet < DATA ? config.max_packet : DATA);
    struct sedge_tc_frame frame = {1, 2, SEDGE_TC_BD, 0, SEDGE_SEGMENT_ALONE, an_open_map(), 0, 0};
    struct sedge_received received;
    size_t total;
    make_packet(packet, 1, length);
    GIVES(0, sedge_tc_encode(&frame, packet, length, true, octets, sizeof octets, &total));
    return sedge_spacecraft_receive(spacecraft, octets, total, &received) == 0;
}

/* The packets of telemetry that wait: a builder of the same frames says how many of their octets. */
static struct sedge_tm_builder builder;
static uint8_t builder_memory[20 * 307];
static uint32_t waiting[20], waiting_count, waiting_octets;

static bool telemetry_comes(struct sedge_spacecraft *spacecraft, uint32_t length) {
    for (; waiting_count > 0 && waiting_octets - waiting[0] >= builder.count; waiting_count--) {
        waiting_octets -= waiting[0];
        memmove(waiting, waiting + 1, sizeof waiting - sizeof *waiting);
    }
    if (waiting_count == traffic.telemetry) return true;
    waiting[waiting_count++] = length;
    waiting_octets += length;
    make_packet(packet, 0, length);
    GIVES(0, sedge_tm_builder_queue(&builder, packet, length, builder_memory, sizeof builder_memory));
    return sedge_spacecraft_telemetry(spacecraft, packet, length) == 0;
}

static bool something_comes(struct sedge_spacecraft *spacecraft) {
    uint8_t map, ocf[4] = {0x01, 0x08, 0, 0};
    size_t count;
    if (below(40) == 0) is_short = !is_short;
    switch (below(30)) {
    case 0: return bypass_comes(spacecraft);
    case 1:
    case 2: return traffic.telemetry == 0 || telemetry_comes(spacecraft, any_length(traffic.telemetry_octets));
    case 3:
        GIVES(0, sedge_tm_builder_build(&builder, ocf, 4, builder_memory, sizeof builder_memory, octets, sizeof octets,
                                        &count));
        GIVES(0, sedge_spacecraft_telemetry_frame(spacecraft, octets, sizeof octets, &count));
        return true;
    case 4: GIVES(0, sedge_spacecraft_take(spacecraft, &map, packet, sizeof packet, &count)); return true;
    case 5: GIVES(0, sedge_spacecraft_take_bypass(spacecraft, &map, packet, sizeof packet, &count)); return true;
    default:
        for (map = (uint8_t)below(8); (config.maps >> map & 1) == 0; map = (uint8_t)below(8)) continue;
        return segment_comes(spacecraft, map);
    }
}

/* Whether nothing is refused while packets of any length come, where so many hundredths of the places are left out. */
static bool is_served(size_t less) {
    struct sedge_spacecraft spacecraft = {0};
    bool served = true;
    unsigned left;
    uint8_t opened;
    size_t at;
    rows_count = next_number = 0;
    waiting_count = waiting_octets = 0;
    memset(come, 0, sizeof come);
    places_of_spacecraft(&config, &traffic);
    for (at = 0; at < rows_count; at++) rows[at].count -= (rows[at].count * less + 99) / 100 * (rows[at].count > 1);
    set_places();
    opened = sedge_spacecraft_open(&spacecraft, &config);
    if (less > 0 && opened == SEDGE_NODE_MEMORY) return false;
    gives(0, opened, "sedge_spacecraft_open");
    GIVES(0, sedge_tm_builder_open(&builder, 1, 0, config.frame_length));
    for (left = 1000; left > 0 && served; left--) served = something_comes(&spacecraft);
    sedge_spacecraft_close(&spacecraft);
    return served;
}

int main(int count, char **words) {
    unsigned long left;
    if (count != 2) return 2;
    for (left = strtoul(words[1], NULL, 10); left > 0; left--) {
        any_config();
        fill_ground();
        fill_spacecraft();
        gives(true, is_served(0), "nothing is refused");
        without += !is_served(10);
    }
    printf("%zu of %zu places were used; %zu times refused in a tenth less\n", used, listed, without);
    return without == 0;
}
