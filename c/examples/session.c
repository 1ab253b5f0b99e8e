/* A sender and a receiver, and between them a link that loses a third of all frames and CLCWs. A hundred units of one
 * octet are sent, and the program ends when all are acknowledged. It writes how much this took, and ends with 0 if each
 * unit has arrived once and in sequence. */
#include <sedgechisel.h>
#include <stdio.h>

enum { UNITS = 100, CHANNEL = 2, WIDTH = 20, WINDOW = 10, LIMIT = 255, TIMER = 8 };

static struct sedge_fop fop;
static struct sedge_farm farm;
static uint8_t waiting, sent[256];
static unsigned submitted, frames, lost, handed_on, acknowledged;

/* Returns whether the link loses what is in transit now (a Lehmer generator of numbers of 31 bits). */
static bool is_lost(void) {
    static uint64_t state = 1;
    state = state * 48271 % 2147483647;
    lost += state % 3 == 0;
    return state % 3 == 0;
}

/* Carries a frame up the link, and gives it to the receiver if it arrives. */
static int carry_up(uint8_t n, uint8_t unit) {
    struct sedge_tc_frame frame = {1, CHANNEL, SEDGE_TC_AD, n, SEDGE_SEGMENT_ALONE, 4, 0, 0};
    struct sedge_part data;
    uint8_t octets[16];
    size_t total;
    frames++;
    if (sedge_tc_encode(&frame, &unit, 1, true, octets, sizeof octets, &total) != SEDGE_OK) return 1;
    if (is_lost()) return 0;
    if (sedge_tc_decode(octets, total, true, &frame, &data) != SEDGE_OK) return 1;
    if (sedge_farm_ad(&farm, frame.n, true) != SEDGE_ACCEPTED) return 0;
    return octets[data.from] != handed_on++;
}

/* Carries a CLCW down the link, and gives it to the sender if it arrives. */
static int carry_down(void) {
    struct sedge_clcw word;
    uint8_t octets[4], released;
    if (sedge_farm_control_word(&farm, CHANNEL, &word) != SEDGE_OK || sedge_clcw_encode(&word, octets, 4) != SEDGE_OK) return 1;
    if (is_lost()) return 0;
    if (sedge_clcw_decode(octets, 4, &word) != SEDGE_OK) return 1;
    if (sedge_fop_clcw(&fop, CHANNEL, &word, &released) != SEDGE_NO_ALERT) return 1;
    acknowledged += released;
    return 0;
}

int main(void) {
    uint8_t n;
    if (sedge_farm_open(&farm, WIDTH, 0) != SEDGE_OK || sedge_fop_open(&fop, WIDTH, WINDOW, LIMIT, TIMER) != SEDGE_OK) return 1;
    if (sedge_fop_init_without_check(&fop) != SEDGE_OK) return 1;
    while (acknowledged < UNITS) {
        if (submitted < UNITS && sedge_fop_submit(&fop) == SEDGE_OK) waiting = (uint8_t)submitted++;
        uint8_t what = sedge_fop_next(&fop, &n);
        if (what == SEDGE_NEXT_FIRST) sent[n] = waiting;
        if ((what == SEDGE_NEXT_FIRST || what == SEDGE_NEXT_AGAIN) && carry_up(n, sent[n]) != 0) return 1;
        if (carry_down() != 0 || sedge_fop_tick(&fop) != SEDGE_NO_ALERT) return 1;
    }
    printf("%u units, %u frames, %u lost on both ways, %u handed on in sequence\n", submitted, frames, lost, handed_on);
    return handed_on != UNITS;
}
