/* Compares the speed of sedge_farm_ad with the same state table in plain C, with and without the test of the fields
 * that the header promises, each in turn: 10^7 calls with numbers in sequence, and 10^7 with random numbers, after
 * which a receiver in Lockout is unlocked. Prints a row for each, and fails if they do not answer the same, or if the
 * library takes more than 1.3 times as long as plain C that tests. */
#define _POSIX_C_SOURCE 199309L
#include "plain.h"
#include <stdint.h>
#include <stdio.h>
#include <stdlib.h>
#include <string.h>
#include <time.h>

enum { CALLS = 10000000, TURNS = 15 };

#define MOST 1.3

static uint8_t numbers[CALLS];

/* What a run answered, and the processor's seconds. */
struct run {
    uint64_t sum;
    double seconds;
};

static double seconds_now(void)
{
    struct timespec now;
    clock_gettime(CLOCK_PROCESS_CPUTIME_ID, &now);
    return (double)now.tv_sec + (double)now.tv_nsec * 1e-9;
}

typedef uint8_t ad_call(struct sedge_farm *, uint8_t, bool);

typedef uint8_t unlock_call(struct sedge_farm *);

/* The calls of both are made through pointers, so that neither is inlined. */
static struct run run_of(ad_call *volatile ad, unlock_call *volatile unlock)
{
    struct sedge_farm farm;
    struct run run = {0, 0};
    uint64_t sum = sedge_farm_open(&farm, 254, 0);
    ad_call *call = ad;
    double start = seconds_now();
    for (int i = 0; i < CALLS; i++) {
        uint8_t verdict = call(&farm, numbers[i], true);
        sum = sum * 31 + verdict;
        if (verdict == SEDGE_OUTSIDE)
            unlock(&farm);
    }
    run.seconds = seconds_now() - start;
    run.sum = sum * 31 + farm.vr + farm.farm_b;
    return run;
}

/* The least seconds of each over the turns; 1 where their answers differ, or where the ratio is too high. */
static int row(const char *what)
{
    ad_call *const ads[3] = {sedge_farm_ad, tested_farm_ad, plain_farm_ad};
    unlock_call *const unlocks[3] = {sedge_farm_unlock, tested_farm_unlock, plain_farm_unlock};
    double least[3] = {1e9, 1e9, 1e9};
    for (int turn = 0; turn < TURNS; turn++) {
        uint64_t sum = 0;
        for (int i = 0; i < 3; i++) {
            struct run run = run_of(ads[i], unlocks[i]);
            if (i > 0 && run.sum != sum) {
                fprintf(stderr, "%s: the answers differ\n", what);
                return 1;
            }
            sum = run.sum;
            least[i] = run.seconds < least[i] ? run.seconds : least[i];
        }
    }
    printf("| %s | %.1f | %.1f | %.1f | %.2f | %.2f |\n", what, least[2] * 1e9 / CALLS, least[1] * 1e9 / CALLS,
           least[0] * 1e9 / CALLS, least[0] / least[2], least[0] / least[1]);
    return least[0] > MOST * least[1];
}

int main(void)
{
    int failed;
    uint32_t state = 1;
    puts("| calls | plain C, ns a call | with the test | sedge_farm_ad | to plain C | to that with the test |\n|---|---|---|---|---|---|");
    for (int i = 0; i < CALLS; i++)
        numbers[i] = (uint8_t)i;
    failed = row("numbers in sequence");
    for (int i = 0; i < CALLS; i++) {
        state ^= state << 13;
        state ^= state >> 17;
        state ^= state << 5;
        numbers[i] = (uint8_t)(state >> 24);
    }
    failed |= row("random numbers");
    return failed;
}
