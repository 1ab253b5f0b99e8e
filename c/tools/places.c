/* Prints the static places that a configuration takes, as docs/FLIGHT.md lists them: `places NODE NAME=VALUE ..`.
 *
 * NODE is `ground` or `spacecraft`, over c/memory/static.c: the value of SEDGE_PLACES is printed in one line. Or it is
 * `board`, a receiver on board over the library without heap: a line for each place, with its octets, its alignment,
 * how many there are, and what it is.
 *
 * NAME is a managed parameter; a missing one has its default. Or it is one of these, by default 0 except the first
 * two, which are 1:
 *     packets           the most packets of a submission of the ground
 *     segments          the most segments of a submission; at least as many as the longest packet has
 *     bypass            the most bypass segments that wait on the ground
 *     telemetry         the most packets of telemetry that wait
 *     telemetry_octets  the octets of the longest of these */
#include <sedgechisel_nodes.h>
#include <errno.h>
#include <stdio.h>
#include <stdlib.h>
#include <string.h>

/* The octets of a node, and of what it keeps for each packet, segment or number of a list. */
enum { GROUND = 400, SPACECRAFT = 344 };
enum { UNIT = 16, PLACE = 32, COUNT = 8, CUT = 24, SLICE = 16, PACKET = 24, NUMBER = 4 };
/* The longest packet; the most segments that are sent and not acknowledged; the most data of a frame, and packets in
 * them; and the sizes that a list of places may have. */
enum { LONGEST = 65542, SHORTEST = 7, SENT = 127, DATA = 1016, MOST = DATA / SHORTEST, SIZES = 512 };
enum { KINDS = 32 };

struct traffic {
    uint32_t packets, segments, bypass, telemetry, telemetry_octets;
};

/* What takes memory: blocks of `least` to `most` octets, of which `count` are there at once, whatever their lengths.
 * PACKETS: beside them those of one segment, one or, where several may be in its data, as many as these have room for;
 * `parts` that have room for the longest; and `past` that came past the sequence control, in one frame each, and one
 * more while it comes. (Where a packet is ready for each ready slot, some open MAP has no part: that of the last one.
 * So of all lengths together there is none more.) LIST: the places of a list, of `least` octets and then twice as many,
 * to the first that has `most`. GROWS: the room of octets, which is at least doubled whenever it grows. Of these two
 * the old one is let go of when the new one is found. */
enum form { ANY, PACKETS, LIST, GROWS };
struct kind {
    enum form form;
    size_t least, most, count, data, past, parts;
};

/* Places of a size, and how many. */
struct row {
    size_t octets, count;
};

static struct kind kinds[KINDS];
static size_t kinds_count;
static struct row rows[SIZES];
static size_t rows_count;

static struct kind *add_kind(enum form form, size_t least, size_t most, size_t count) {
    if (kinds_count == KINDS) exit(3);
    kinds[kinds_count] = (struct kind){form, least, most, count, 0, 0, 0};
    return &kinds[kinds_count++];
}

/* So many places more of as many octets, in ascending order. */
static void add_row(size_t octets, size_t count) {
    size_t at = 0, k;
    octets = (octets + 15) / 16 * 16;
    if (octets == 0 || count == 0) return;
    while (at < rows_count && rows[at].octets < octets) at++;
    if (at == rows_count || rows[at].octets != octets) {
        if (rows_count == SIZES) exit(3);
        for (k = rows_count++; k > at; k--) rows[k] = rows[k - 1];
        rows[at].octets = octets;
        rows[at].count = 0;
    }
    rows[at].count += count;
}

/* A block that a node takes when it is opened, while all places are free, and keeps: it gets the place of its size. */
static void add(size_t octets) { add_row(octets, 1); }

/* A list of as many things grows to 4, 8, .. places. */
static void add_list(size_t octets, size_t most) {
    size_t count = 4;
    while (count < most) count *= 2;
    if (most > 0) (void)add_kind(LIST, 4 * octets, count * octets, 2);
}

static size_t smaller(size_t a, size_t b) { return a < b ? a : b; }

/* How many blocks of a kind there may be at once of more than `from` and at most `to` octets. */
static size_t at_once(const struct kind *kind, size_t from, size_t to) {
    size_t least = from < kind->least ? kind->least : from + 1, most = smaller(to, kind->most), octets, count = 0;
    if (least > most) return 0;
    switch (kind->form) {
    case PACKETS:
        count = kind->data / least;
        count = kind->count + (count < 1 ? 1 : count) + (most < kind->most ? 0 : kind->parts);
        if (least <= DATA) count += kind->past + (most < kind->most);
        return count;
    case LIST:
        for (octets = kind->least; octets <= most; octets *= 2) count += octets >= least;
        return smaller(count, kind->count);
    case GROWS: return 2 * least <= most ? 2 : 1;
    default: return kind->count;
    }
}

/* The sizes that places may have, in ascending order: multiples of 16. */
static size_t sizes_of[SIZES], sizes_count;

static void add_size(size_t octets) {
    size_t at = 0, k;
    octets = (octets + 15) / 16 * 16;
    while (at < sizes_count && sizes_of[at] < octets) at++;
    if (octets == 0 || (at < sizes_count && sizes_of[at] == octets)) return;
    if (sizes_count == SIZES) exit(3);
    for (k = sizes_count++; k > at; k--) sizes_of[k] = sizes_of[k - 1];
    sizes_of[at] = octets;
}

static void add_sizes(const struct kind *kind) {
    size_t octets;
    add_size(kind->most);
    if (kind->form == PACKETS)
        for (octets = 16; octets < kind->most && octets <= DATA + 15; octets += 16) add_size(octets);
    if (kind->form == LIST)
        for (octets = kind->least; octets < kind->most; octets *= 2) add_size(octets);
    if (kind->form == GROWS)
        for (octets = kind->most; octets > kind->least; octets /= 2) add_size(octets);
}

/* The places of some of these sizes that take the fewest octets. Each block goes to a place of the first size that is
 * enough, so where each size has as many places as there may be blocks at once that are longer than the size before and
 * no longer than this one, such a place is always free, and none goes to a longer one. */
static void list_places(void) {
    static size_t least[SIZES + 1], before[SIZES + 1], counts[SIZES + 1];
    size_t k, to, from, count, sum;
    for (k = sizes_count = 0; k < kinds_count; k++) add_sizes(&kinds[k]);
    for (to = 1; to <= sizes_count; to++) {
        least[to] = SIZE_MAX;
        for (from = 0; from < to; from++) {
            for (k = count = 0; k < kinds_count; k++)
                count += at_once(&kinds[k], from == 0 ? 0 : sizes_of[from - 1], sizes_of[to - 1]);
            sum = least[from] + count * sizes_of[to - 1];
            if (sum < least[to]) least[to] = sum, before[to] = from, counts[to] = count;
        }
    }
    for (to = sizes_count; to > 0; to = before[to]) add_row(sizes_of[to - 1], counts[to]);
}

static size_t most_segments(const struct sedge_config *config, const struct traffic *traffic) {
    size_t longest = (config->max_packet + config->part - 1) / config->part;
    return traffic->segments > longest ? traffic->segments : longest;
}

static void places_of_ground(const struct sedge_config *config, const struct traffic *traffic) {
    size_t segments = most_segments(config, traffic), list;
    kinds_count = rows_count = 0;
    add(GROUND), add(UNIT * config->width), add(PLACE * config->queue_slots), add(COUNT * (config->queue_slots + SENT));
    add(LONGEST);
    add_kind(ANY, 1, config->part, config->queue_slots + config->width / 2 + traffic->bypass);
    if (config->blocking == 1) add_list(SLICE, traffic->packets);
    if (segments > 1) add_list(CUT, segments), (void)add_kind(ANY, 2 * PLACE, PLACE * segments, 1);
    add_list(PLACE, traffic->bypass);
    add_kind(ANY, SHORTEST, traffic->telemetry_octets, traffic->telemetry);
    add_list(PACKET, traffic->telemetry);
    for (list = 0; list < 2; list++) add_list(PACKET, 2 * (size_t)traffic->telemetry);
    list_places();
}

static size_t open_maps(const struct sedge_config *config) {
    size_t count = 0, map;
    for (map = 0; map < 64; map++) count += config->maps >> map & 1;
    return count;
}

/* The places of the list of the parts: one of each MAP up to the highest that is open. */
static size_t part_places(const struct sedge_config *config) {
    size_t count = 64;
    while (count > 0 && (config->maps >> (count - 1) & 1) == 0) count--;
    return count;
}

/* The octets that wait stand after some that were sent, which are fewer than they were before the last packet. */
static void add_telemetry(const struct traffic *traffic) {
    size_t most = (2 * (size_t)traffic->telemetry - 1) * traffic->telemetry_octets;
    if (traffic->telemetry == 0) return;
    add_kind(GROWS, 8, traffic->telemetry == 1 && most < 9 ? 8 : 2 * most - 2, 2);
    add_list(NUMBER, traffic->telemetry);
}

/* The packets that are ready are fewer than the ready slots when a frame comes, and then those of its segment more;
 * those past the sequence control are one more while one comes. The part that is open on each MAP has room for the
 * longest. The first segment that opens a part brings the list of the parts. */
static void places_of_spacecraft(const struct sedge_config *config, const struct traffic *traffic) {
    size_t parts = PLACE * part_places(config), ready = config->ready_slots + (config->blocking == 1 ? MOST - 1 : 0);
    struct kind *packets;
    kinds_count = rows_count = 0;
    packets = add_kind(PACKETS, SHORTEST, config->max_packet, config->ready_slots - 1);
    packets->data = config->blocking == 1 ? DATA : 0, packets->past = config->bypass_slots;
    packets->parts = open_maps(config);
    add(SPACECRAFT), add(PLACE * ready), add(PLACE * config->bypass_slots);
    if (parts > 0) (void)add_kind(ANY, parts, parts, 1);
    add_telemetry(traffic);
    list_places();
}

static void print_places(void) {
    size_t at, sum = 0;
    for (at = 0; at < rows_count; at++) {
        printf("%sPLACES(%zu, %zu)", at > 0 ? " " : "", rows[at].octets, rows[at].count);
        sum += rows[at].octets * rows[at].count;
    }
    puts("");
    fprintf(stderr, "%zu octets, each place at a multiple of 16\n", sum);
}

/* What has to stand at a multiple of what. */
#define ALIGN(type) offsetof(struct { char first; type it; }, it)

static void print_place(size_t octets, size_t align, size_t count, const char *what) {
    if (count > 0) printf("%zu %zu %zu %s\n", octets, align, count, what);
}

static void print_board(const struct sedge_config *config, const struct traffic *traffic) {
    size_t unit = config->blocking == 1 && config->max_packet < DATA ? DATA : config->max_packet;
    size_t maps = open_maps(config), telemetry = (size_t)traffic->telemetry * traffic->telemetry_octets;
    print_place(sizeof(struct sedge_farm), ALIGN(struct sedge_farm), 1, "struct sedge_farm");
    print_place(1024 + 6, 1, 1, "a telecommand frame and the fill after it");
    print_place(sizeof(struct sedge_map), ALIGN(struct sedge_map), maps, "struct sedge_map, of an open MAP");
    print_place(config->max_packet, 1, maps, "the memory of an open MAP");
    print_place(unit, 1, config->ready_slots, "a unit that waits");
    print_place(sizeof(struct sedge_tm_builder), ALIGN(struct sedge_tm_builder), 1, "struct sedge_tm_builder");
    print_place(telemetry, 1, telemetry > 0, "packets of telemetry that wait");
    print_place(config->frame_length, 1, 1, "a telemetry frame");
}

/* Sets what a word names. */
static bool set(struct sedge_config *config, struct traffic *traffic, const char *word) {
    uint32_t *others[] = {&traffic->packets, &traffic->segments, &traffic->bypass, &traffic->telemetry,
                          &traffic->telemetry_octets};
    static const char *const names[] = {"packets", "segments", "bypass", "telemetry", "telemetry_octets"};
    const char *at = strchr(word, '=');
    size_t count = at == NULL ? 0 : (size_t)(at - word), k;
    struct sedge_text name;
    uint8_t number;
    char *end;
    unsigned long long value;
    if (at == NULL || at[1] < '0' || at[1] > '9') return false;
    errno = 0;
    value = strtoull(at + 1, &end, 0);
    if (errno != 0 || *end != 0) return false;
    for (number = 1; *(name = sedge_parameter_name(number)).text != '?'; number++)
        if (strlen(name.text) == count && strncmp(name.text, word, count) == 0)
            return sedge_config_set(config, number, value);
    for (k = 0; k < sizeof names / sizeof *names; k++)
        if (strlen(names[k]) == count && strncmp(names[k], word, count) == 0 && value < 65536) {
            *others[k] = (uint32_t)value;
            return true;
        }
    return false;
}

static int refuse(const char *what, const char *word) {
    fprintf(stderr, "%s%s\n", what, word);
    return 2;
}

int main(int count, char **words) {
    struct sedge_config config;
    struct traffic traffic = {1, 1, 0, 0, 0};
    struct sedge_text name;
    const char *node = count > 1 ? words[1] : "";
    int at;
    sedge_config_default(&config);
    for (at = 2; at < count; at++)
        if (!set(&config, &traffic, words[at])) return refuse("no parameter with a value: ", words[at]);
    name = sedge_parameter_name(sedge_config_fault(&config));
    if (sedge_config_fault(&config) != 0) return refuse("out of its range: ", name.text);
    if (traffic.telemetry > 0 && traffic.telemetry_octets < 7) return refuse("out of its range: ", "telemetry_octets");
    if (strcmp(node, "ground") == 0) places_of_ground(&config, &traffic);
    else if (strcmp(node, "spacecraft") == 0) places_of_spacecraft(&config, &traffic);
    else if (strcmp(node, "board") != 0) return refuse("usage: places ground|spacecraft|board NAME=VALUE ..", "");
    if (rows_count > 0) print_places();
    else print_board(&config, &traffic);
    return 0;
}
