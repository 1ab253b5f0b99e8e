/* Compares the speed of the calls of sedge_fop with the same rules in plain C, with and without the test of the fields
 * that the header promises, each in turn: 4 * 10^6 rounds of submit, next, and a tick or a CLCW. In the first row each
 * CLCW acknowledges all that was sent; in the second some request retransmission, and some are delayed. Prints a row
 * for each, and fails if they do not answer the same, or if the library takes more than 1.3 times as long as plain C
 * that tests. */
#define _POSIX_C_SOURCE 199309L
#include "plain.h"
#include <stdint.h>
#include <stdio.h>
#include <time.h>

enum { ROUNDS = 4000000, TURNS = 9 };

#define MOST 1.3

/* The calls of the library, or those in plain C. */
struct calls {
    uint8_t (*submit)(struct sedge_fop *);
    uint8_t (*next)(struct sedge_fop *, uint8_t *);
    uint8_t (*report)(struct sedge_fop *, uint8_t, const struct sedge_clcw *, uint8_t *);
    uint8_t (*tick)(struct sedge_fop *);
};

static const struct calls library_calls = {sedge_fop_submit, sedge_fop_next, sedge_fop_clcw, sedge_fop_tick};
static const struct calls plain_calls = {plain_fop_submit, plain_fop_next, plain_fop_report, plain_fop_tick};
static const struct calls tested_calls = {tested_fop_submit, tested_fop_next, tested_fop_report, tested_fop_tick};

static uint8_t chances[ROUNDS];

/* What a run answered, and the processor's seconds. */
struct run {
    uint64_t sum;
    double seconds;
};

static double seconds_now(void)
{
    struct timespec now;
    clock_gettime(CLOCK_PROCESS_CPUTIME_ID, &now);
    return (double)now.tv_sec + (double)now.tv_nsec * 1e-9;
}

/* A report of what was sent, all of it or less, with or without the flag for a retransmission. */
static struct sedge_clcw word_of(const struct sedge_fop *fop, uint8_t chance)
{
    struct sedge_clcw word = {0, 0, 0, 0, fop->vs};
    if (chance >= 224 && fop->sent > 0) {
        word.value = (uint8_t)(fop->vs - 1);
        word.flags = chance >= 240 ? SEDGE_CLCW_RETRANSMIT : 0;
    }
    return word;
}

/* The calls of both are made through pointers, so that none is inlined. */
static struct run run_of(const struct calls *volatile which)
{
    const struct calls *calls = which;
    struct sedge_fop fop;
    struct run run = {0, 0};
    uint64_t sum = sedge_fop_open(&fop, 254, 127, 10, 100);
    double start = seconds_now();
    for (int i = 0; i < ROUNDS; i++) {
        uint8_t number, released = 0, alert;
        if (fop.state == SEDGE_FOP_S6)
            sum += sedge_fop_init_without_check(&fop);
        sum = sum * 31 + calls->submit(&fop);
        sum = sum * 31 + calls->next(&fop, &number) + number;
        if (i % 4 == 3) {
            struct sedge_clcw word = word_of(&fop, chances[i]);
            alert = calls->report(&fop, word.vcid, &word, &released);
        } else {
            alert = calls->tick(&fop);
        }
        sum = sum * 31 + alert + released;
    }
    run.seconds = seconds_now() - start;
    run.sum = sum * 31 + fop.vs + fop.nn;
    return run;
}

/* The least seconds of each over the turns; 1 where their answers differ, or where the ratio is too high. */
static int row(const char *what)
{
    const struct calls *all[3] = {&library_calls, &tested_calls, &plain_calls};
    double least[3] = {1e9, 1e9, 1e9}, calls = 3.0 * ROUNDS;
    for (int turn = 0; turn < TURNS; turn++) {
        uint64_t sum = 0;
        for (int i = 0; i < 3; i++) {
            struct run run = run_of(all[i]);
            if (i > 0 && run.sum != sum) {
                fprintf(stderr, "%s: the answers differ\n", what);
                return 1;
            }
            sum = run.sum;
            least[i] = run.seconds < least[i] ? run.seconds : least[i];
        }
    }
    printf("| %s | %.1f | %.1f | %.1f | %.2f | %.2f |\n", what, least[2] * 1e9 / calls, least[1] * 1e9 / calls,
           least[0] * 1e9 / calls, least[0] / least[2], least[0] / least[1]);
    return least[0] > MOST * least[1];
}

int main(void)
{
    int failed;
    uint32_t state = 1;
    puts("| calls | plain C, ns a call | with the test | sedge_fop | to plain C | to that with the test |\n|---|---|---|---|---|---|");
    failed = row("all acknowledged in time");
    for (int i = 0; i < ROUNDS; i++) {
        state ^= state << 13;
        state ^= state >> 17;
        state ^= state << 5;
        chances[i] = (uint8_t)(state >> 24);
    }
    failed |= row("some asked for again");
    return failed;
}
