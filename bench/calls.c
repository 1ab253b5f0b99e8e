/* Times calls of both libraries, for bench/portable, which links it with the proved archives and with the portable C.
 * It prints a line for each row: its name, the processor time of a call in nanoseconds, and a sum of the answers, which
 * is the same for each build. */
#define _POSIX_C_SOURCE 199309L
#include <sedgechisel_nodes.h>
#include <stdio.h>
#include <stdlib.h>
#include <string.h>
#include <time.h>

enum { FRAMES = 64, DECODED = 30000000, RECEIVED = 5000000, SENT = 2000000, PACKETS = 100000, WINDOW = 127, MAP = 4 };

static uint64_t sum;

static void told(uint64_t value)
{
    sum = sum * 31 + value;
}

static double nanoseconds_now(void)
{
    struct timespec now;
    clock_gettime(CLOCK_PROCESS_CPUTIME_ID, &now);
    return (double)now.tv_sec * 1e9 + (double)now.tv_nsec;
}

/* Stops with a line where a call does not answer what it has to. */
static void want(int holds, const char *what)
{
    if (!holds) {
        fprintf(stderr, "not as wanted: %s\n", what);
        exit(1);
    }
}

/* Frames with their check are read, of which one in 16 is damaged. */
static double reads(size_t count)
{
    static uint8_t frames[FRAMES][1024], payload[1024];
    struct sedge_tc_frame frame = {1, 2, SEDGE_TC_AD, 0, SEDGE_SEGMENT_ALONE, MAP, 0, 0};
    struct sedge_part data;
    size_t calls = DECODED / count, total, k;
    double start;
    for (k = 0; k < FRAMES; k++) {
        memset(payload, (int)k, sizeof payload);
        frame.n = (uint8_t)k;
        want(sedge_tc_encode(&frame, payload, count - 8, true, frames[k], count, &total) == SEDGE_OK, "a frame");
        frames[k][count - 3] ^= k % 16 == 15;
    }
    start = nanoseconds_now();
    for (k = 0; k < calls; k++) {
        told(sedge_tc_decode(frames[k % FRAMES], count, true, &frame, &data));
        told(data.count + frame.n);
    }
    return (nanoseconds_now() - start) / (double)calls;
}

static double reads_1024(void)
{
    return reads(1024);
}

static double reads_33(void)
{
    return reads(33);
}

/* Frames come in sequence to a receiver. */
static double receives(void)
{
    struct sedge_farm farm;
    double start;
    int k;
    want(sedge_farm_open(&farm, 254, 0) == SEDGE_OK, "a receiver");
    start = nanoseconds_now();
    for (k = 0; k < RECEIVED; k++) told(sedge_farm_ad(&farm, (uint8_t)k, true));
    return (nanoseconds_now() - start) / RECEIVED;
}

/* A sender submits and sends a unit, and then a tick passes, or a report acknowledges all. */
static double sends(void)
{
    struct sedge_clcw word = {0, 0, 0, 0, 0};
    struct sedge_fop fop;
    uint8_t number = 0, released = 0;
    double start;
    int k;
    want(sedge_fop_open(&fop, 254, 127, 10, 100) == SEDGE_OK, "a sender");
    want(sedge_fop_init_without_check(&fop) == SEDGE_OK, "a session");
    start = nanoseconds_now();
    for (k = 0; k < SENT; k++) {
        told(sedge_fop_submit(&fop));
        told((uint64_t)sedge_fop_next(&fop, &number) + number);
        word.value = fop.vs;
        told(k % 4 == 3 ? sedge_fop_clcw(&fop, 0, &word, &released) : sedge_fop_tick(&fop));
    }
    told(released);
    return (nanoseconds_now() - start) / (3.0 * SENT);
}

/* A frame of the ground comes on board, and its packet is taken. */
static void goes_up(struct sedge_ground *ground, struct sedge_spacecraft *spacecraft)
{
    static uint8_t frame[1024], packet[100];
    struct sedge_received received;
    size_t count;
    uint8_t map;
    want(sedge_ground_pull(ground, frame, sizeof frame, &count) == SEDGE_NODE_OK && count > 0, "a frame");
    want(sedge_spacecraft_receive(spacecraft, frame, count, &received) == SEDGE_NODE_OK, "it is received");
    want(sedge_spacecraft_take(spacecraft, &map, packet, sizeof packet, &count) == SEDGE_NODE_OK, "a packet");
    told(received.verdict + count + packet[98] + packet[99]);
}

/* Packets of 100 octets go from the ground to the spacecraft, a window of them before each report, as in bench/link. */
static double carries(void)
{
    struct sedge_ground ground = {0};
    struct sedge_spacecraft spacecraft = {0};
    struct sedge_config config;
    struct sedge_heard heard;
    uint8_t packet[100] = {0x10, 5, 0xc0, 0, 0, 93}, down[64];
    double start;
    size_t count;
    int at, k;
    sedge_config_default(&config);
    want(sedge_ground_open(&ground, &config) == 0 && sedge_spacecraft_open(&spacecraft, &config) == 0, "two nodes");
    want(sedge_ground_init_without_check(&ground) == SEDGE_NODE_OK, "a session");
    start = nanoseconds_now();
    for (at = 0; at < PACKETS; at += WINDOW) {
        for (k = at; k < at + WINDOW; k++) {
            packet[98] = (uint8_t)(k >> 8);
            packet[99] = (uint8_t)k;
            want(sedge_ground_submit(&ground, MAP, packet, sizeof packet) == SEDGE_NODE_OK, "a submission");
        }
        for (k = at; k < at + WINDOW; k++) goes_up(&ground, &spacecraft);
        want(sedge_spacecraft_telemetry_frame(&spacecraft, down, sizeof down, &count) == SEDGE_NODE_OK, "a report");
        want(sedge_ground_telemetry(&ground, down, count, &heard) == SEDGE_NODE_OK && heard.alert == 0, "it is heard");
    }
    start = (nanoseconds_now() - start) / at;
    sedge_ground_close(&ground);
    sedge_spacecraft_close(&spacecraft);
    return start;
}

int main(void)
{
    static const struct {
        const char *name;
        double (*times)(void);
    } rows[] = {
        {"`sedge_tc_decode`, 1,024 octets with the check", reads_1024},
        {"`sedge_tc_decode`, 33 octets with the check", reads_33},
        {"`sedge_farm_ad`, numbers in sequence", receives},
        {"`sedge_fop_submit`, `next`, `report` and `tick`", sends},
        {"both nodes, a packet of 100 octets", carries},
    };
    size_t k;
    for (k = 0; k < sizeof rows / sizeof *rows; k++) {
        double took = rows[k].times();
        printf("%s|%.2f|%llx\n", rows[k].name, took, (unsigned long long)sum);
    }
    return 0;
}
