/* Compares the speed of sedge_tc_decode with plain C, each in turn, on frames of 1,024 and of 33 octets with and
 * without FECF. Prints a row for each, and fails if the two do not answer the same, or if the library takes more than
 * 1.3 times as long on 1,024 octets with the FECF. */
#define _POSIX_C_SOURCE 199309L
#include "plain.h"
#include <stdio.h>
#include <string.h>
#include <time.h>

enum { OCTETS = 100000000, FRAMES = 64, TURNS = 9 };

#define MOST 1.3

typedef uint8_t decode_call(const uint8_t *, size_t, bool, struct sedge_tc_frame *, struct sedge_part *);

static uint8_t frames[FRAMES][1024];

/* What a run answered, and the processor's seconds. */
struct run {
    uint64_t sum;
    double seconds;
};

static double seconds_now(void)
{
    struct timespec now;
    clock_gettime(CLOCK_PROCESS_CPUTIME_ID, &now);
    return (double)now.tv_sec + (double)now.tv_nsec * 1e-9;
}

/* The calls of both are made through a pointer, so that neither is inlined. */
static struct run run_of(decode_call *volatile decode, size_t count, bool checked, int calls)
{
    struct sedge_tc_frame frame;
    struct sedge_part data;
    struct run run = {0, 0};
    decode_call *call = decode;
    double start = seconds_now();
    memset(&frame, 0, sizeof frame);
    for (int i = 0; i < calls; i++) {
        uint8_t fault = call(frames[i % FRAMES], count, checked, &frame, &data);
        run.sum = run.sum * 31 + fault + frame.n + frame.map + data.count;
    }
    run.seconds = seconds_now() - start;
    return run;
}

/* Frames of this number of octets, of which one in 16 is damaged. */
static int make_frames(size_t count, bool checked)
{
    struct sedge_tc_frame frame = {1, 2, SEDGE_TC_AD, 0, SEDGE_SEGMENT_ALONE, 4, 0, 0};
    static uint8_t data[1024];
    uint32_t state = 1;
    size_t total;
    for (int k = 0; k < FRAMES; k++) {
        for (size_t i = 0; i < sizeof data; i++) {
            state ^= state << 13;
            state ^= state >> 17;
            state ^= state << 5;
            data[i] = (uint8_t)(state >> 24);
        }
        frame.n = (uint8_t)k;
        if (sedge_tc_encode(&frame, data, count - (checked ? 8 : 6), checked, frames[k], count, &total) != SEDGE_OK)
            return 1;
        if (k % 16 == 15)
            frames[k][count - 3] ^= 1;
    }
    return 0;
}

/* The least seconds of each over the turns; 1 where their answers differ. */
static int row(size_t count, bool checked, double *ratio)
{
    double library = 1e9, plain = 1e9;
    int calls = OCTETS / (int)(checked ? count : 33);
    if (make_frames(count, checked))
        return 1;
    for (int turn = 0; turn < TURNS; turn++) {
        struct run one = run_of(sedge_tc_decode, count, checked, calls);
        struct run other = run_of(plain_tc_decode, count, checked, calls);
        if (one.sum != other.sum) {
            fprintf(stderr, "%zu octets: the answers differ\n", count);
            return 1;
        }
        library = one.seconds < library ? one.seconds : library;
        plain = other.seconds < plain ? other.seconds : plain;
    }
    *ratio = library / plain;
    printf("| %zu octets%s | %.1f | %.1f | %.2f |\n", count, checked ? " with the check" : "", plain * 1e9 / calls,
           library * 1e9 / calls, *ratio);
    return 0;
}

int main(void)
{
    double ratio, most;
    plain_begin();
    puts("| frames | plain C, ns a call | sedge_tc_decode, ns a call | ratio |\n|---|---|---|---|");
    if (row(1024, true, &most) || row(33, true, &ratio) || row(1024, false, &ratio))
        return 1;
    return most > MOST;
}
