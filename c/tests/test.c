/* Tests the library as a C program uses it: rows worked by hand, vectors from other sources, the receiver's table, each
 * refusal by its number, and damaged structs. Ends with 0 if all is as expected, and prints each line that is not. */
#include "none.h"
#include <stdio.h>
#include <string.h>

static int failures;

#define WANT(holds)                                                                                                    \
    do {                                                                                                               \
        if (!(holds)) {                                                                                                \
            printf("%s:%d: not so: %s\n", __FILE__, __LINE__, #holds);                                                 \
            failures++;                                                                                                \
        }                                                                                                              \
    } while (0)

/* ---- The version, and names. ---- */

static int is_named(struct sedge_text name, const char *word) {
    return strlen(name.text) < sizeof name.text && strcmp(name.text, word) == 0;
}

static void the_version(void) {
    char version[20];
    sprintf(version, "%d.%d.%d", SEDGE_VERSION_MAJOR, SEDGE_VERSION_MINOR, SEDGE_VERSION_PATCH);
    WANT(is_named(sedge_version(), version));
}

/* What an alert says: of the four that show a broken condition, of the others, and of a number that is none. */
static void advice(void) {
    int number;
    for (number = 0; number < 256; number++) {
        bool is_broken = number >= SEDGE_ALERT_LOCKOUT && number <= SEDGE_ALERT_SYNCH;
        bool is_alert = number >= SEDGE_ALERT_LOCKOUT && number <= SEDGE_ALERT_TERMINATED;
        bool gives_up = number == SEDGE_ALERT_LIMIT || number == SEDGE_ALERT_TIMER;
        struct sedge_advice it = sedge_alert_advice((uint8_t)number);
        WANT(sedge_alert_shows_broken_condition((uint8_t)number) == is_broken);
        WANT(strlen(it.text) < sizeof it.text && (strcmp(it.text, "?") == 0) == !is_alert);
        WANT((strstr(it.text, "restart on board") != NULL) == is_broken);
        WANT((strstr(it.text, "the board has no room") != NULL) == gives_up);
        WANT((strstr(it.text, "resume by a newer CLCW") != NULL) == (is_alert && !is_broken));
    }
}

static void names(void) {
    int number;
    WANT(is_named(sedge_clcw_fault_name(SEDGE_CLCW_RANGE), "Range"));
    WANT(is_named(sedge_cop_fault_name(SEDGE_COP_WRONG_STATE), "WrongState"));
    WANT(is_named(sedge_verdict_name(SEDGE_NO_BUFFER), "nobuffer"));
    WANT(is_named(sedge_alert_name(SEDGE_ALERT_NNR), "NnR"));
    WANT(is_named(sedge_tc_fault_name(SEDGE_TC_BYPASS_NUMBER), "BypassNumber"));
    WANT(is_named(sedge_packet_fault_name(SEDGE_PACKET_IDLE_WITH_SECONDARY), "IdleWithSecondary"));
    WANT(is_named(sedge_tm_fault_name(SEDGE_TM_NO_OCF), "NoOcf"));
    WANT(is_named(sedge_map_fault_name(SEDGE_MAP_TOO_LONG), "TooLong"));
    WANT(is_named(sedge_dropped_name(SEDGE_DROPPED_INTERRUPTED), "Interrupted"));
    WANT(is_named(sedge_alert_name(SEDGE_NO_ALERT), "?") && is_named(sedge_tc_fault_name(SEDGE_OK), "?"));
    for (number = 13; number < 256; number++) {
        WANT(is_named(sedge_verdict_name((uint8_t)number), "?") && is_named(sedge_tc_fault_name((uint8_t)number), "?"));
    }
}

/* ---- The check. The vectors of CCSDS and of ECSS-E-ST-70-41C, annex B. ---- */

static void known_checks(void) {
    static const uint8_t zeros[3] = {0, 0, 0};
    static const uint8_t four[] = {0xab, 0xcd, 0xef, 0x01};
    static const uint8_t six[] = {0x14, 0x56, 0xf8, 0x9a, 0x00, 0x01};
    const uint8_t *digits = (const uint8_t *)"123456789";
    WANT(sedge_check(digits, 9) == 0x29b1);
    WANT(sedge_check(zeros, 0) == 0xffff);
    WANT(sedge_check(zeros, 2) == 0x1d0f);
    WANT(sedge_check(zeros, 3) == 0xcc9c);
    WANT(sedge_check(four, 4) == 0x04a2);
    WANT(sedge_check(six, 6) == 0x7fd5);
}

static void a_check_is_set_and_holds(void) {
    uint8_t octets[12] = "123456789\x01\x02";
    octets[11] = 0x77;
    WANT(!sedge_check_holds(octets, 11));
    WANT(sedge_check_append(octets, 11));
    WANT(octets[9] == 0x29 && octets[10] == 0xb1 && octets[11] == 0x77);
    WANT(sedge_check_holds(octets, 11));
    WANT(!sedge_check_holds(octets, 10) && !sedge_check_holds(octets, 1) && !sedge_check_holds(octets, 0));
    WANT(!sedge_check_append(octets, 1) && octets[0] == '1');
    WANT(!sedge_check_append(octets, 0));
}

/* ---- Control words. ---- */

static int is_word(const struct sedge_clcw *w, int status, int vcid, int flags, int farm_b, int value) {
    return w->status == status && w->vcid == vcid && w->flags == flags && w->farm_b == farm_b && w->value == value;
}

static void control_words(void) {
    static const uint8_t octets[4] = {0x01, 0x08, 0x0a, 0x07};
    struct sedge_clcw word, largest = {7, 63, 0xf8, 3, 255};
    uint8_t out[4], turn[4];
    int bit;
    memset(&word, 0x55, sizeof word);
    WANT(sedge_clcw_decode(octets, 3, &word) == SEDGE_WRONG_COUNT && sedge_clcw_decode(octets, 0, &word) == 254);
    WANT(is_word(&word, 0x55, 0x55, 0x55, 0x55, 0x55));
    WANT(sedge_clcw_decode(octets, 4, &word) == SEDGE_OK && is_word(&word, 0, 2, SEDGE_CLCW_RETRANSMIT, 1, 7));
    WANT(sedge_clcw_encode(&word, out, 4) == SEDGE_OK && memcmp(out, octets, 4) == 0);
    WANT(sedge_clcw_encode(&largest, out, 4) == SEDGE_OK);
    WANT(sedge_clcw_decode(out, 4, &word) == SEDGE_OK && is_word(&word, 7, 63, 0xf8, 3, 255));
    for (bit = 0; bit < 32; bit++) {
        uint8_t want = SEDGE_OK;
        if (bit < 1)
            want = SEDGE_CLCW_KIND;
        else if (bit < 3)
            want = SEDGE_CLCW_VERSION;
        else if (bit == 6 || bit == 7)
            want = SEDGE_CLCW_COP;
        else if (bit == 14 || bit == 15 || bit == 23)
            want = SEDGE_CLCW_SPARE;
        memcpy(turn, octets, 4);
        turn[bit / 8] ^= (uint8_t)(0x80 >> bit % 8);
        WANT(sedge_clcw_decode(turn, 4, &word) == want);
        WANT(want != SEDGE_OK || (sedge_clcw_encode(&word, out, 4) == SEDGE_OK && memcmp(out, turn, 4) == 0));
    }
}

static void control_words_without_octets(void) {
    static const struct sedge_clcw wrong[] = {
        {8, 2, 8, 1, 7}, {0, 64, 8, 1, 7}, {0, 2, 9, 1, 7}, {0, 2, 4, 1, 7}, {0, 2, 8, 4, 7}};
    static const uint8_t blank[5] = {0x55, 0x55, 0x55, 0x55, 0x55};
    struct sedge_clcw word = {0, 2, 8, 1, 7};
    uint8_t out[5];
    size_t i;
    memcpy(out, blank, 5);
    for (i = 0; i < sizeof wrong / sizeof *wrong; i++) WANT(sedge_clcw_encode(&wrong[i], out, 4) == SEDGE_CLCW_RANGE);
    WANT(sedge_clcw_encode(&word, out, 3) == SEDGE_WRONG_COUNT
         && sedge_clcw_encode(&word, out, 5) == SEDGE_WRONG_COUNT);
    WANT(memcmp(out, blank, 5) == 0);
}

/* ---- The receiver. ---- */

static int is_farm(const struct sedge_farm *f, int width, int vr, int lockout, int wait, int retransmit, int farm_b) {
    return f->width == width && f->vr == vr && f->lockout == lockout && f->wait == wait && f->retransmit == retransmit
           && f->farm_b == farm_b;
}

/* A width of 10 has a positive and a negative window of 5 each. */
static void a_receiver_locks_and_opens(void) {
    struct sedge_farm farm;
    WANT(sedge_farm_open(&farm, 10, 0) == SEDGE_OK && is_farm(&farm, 10, 0, 0, 0, 0, 0));
    WANT(sedge_farm_ad(&farm, 4, true) == SEDGE_AHEAD && is_farm(&farm, 10, 0, 0, 0, 1, 0));
    WANT(sedge_farm_ad(&farm, 251, true) == SEDGE_BEHIND && is_farm(&farm, 10, 0, 0, 0, 1, 0));
    WANT(sedge_farm_ad(&farm, 5, true) == SEDGE_OUTSIDE && is_farm(&farm, 10, 0, 1, 0, 1, 0));
    WANT(sedge_farm_ad(&farm, 0, true) == SEDGE_DISCARDED);
    WANT(sedge_farm_set_vr(&farm, 7) == SEDGE_OK && is_farm(&farm, 10, 0, 1, 0, 1, 1));
    WANT(sedge_farm_state(&farm) == SEDGE_FARM_LOCKOUT);
    WANT(sedge_farm_unlock(&farm) == SEDGE_OK && is_farm(&farm, 10, 0, 0, 0, 0, 2));
    WANT(sedge_farm_state(&farm) == SEDGE_FARM_OPEN);
    WANT(sedge_farm_ad(&farm, 0, true) == SEDGE_ACCEPTED && is_farm(&farm, 10, 1, 0, 0, 0, 2));
}

static void a_receiver_waits_for_a_buffer(void) {
    struct sedge_farm farm;
    WANT(sedge_farm_open(&farm, 10, 255) == SEDGE_OK);
    WANT(sedge_farm_ad(&farm, 255, true) == SEDGE_ACCEPTED && farm.vr == 0);
    WANT(sedge_farm_ad(&farm, 255, true) == SEDGE_BEHIND);
    WANT(sedge_farm_ad(&farm, 0, false) == SEDGE_NO_BUFFER && is_farm(&farm, 10, 0, 0, 1, 1, 0));
    WANT(sedge_farm_state(&farm) == SEDGE_FARM_WAIT && sedge_farm_ad(&farm, 0, true) == SEDGE_DISCARDED);
    WANT(sedge_farm_released(&farm) == SEDGE_OK && is_farm(&farm, 10, 0, 0, 0, 1, 0));
    WANT(sedge_farm_bd(&farm) == SEDGE_OK && sedge_farm_set_vr(&farm, 9) == SEDGE_OK);
    WANT(sedge_farm_ad(&farm, 9, true) == SEDGE_ACCEPTED && is_farm(&farm, 10, 10, 0, 0, 0, 2));
}

static int reports(const struct sedge_farm *farm, const char *octets) {
    struct sedge_clcw word;
    uint8_t out[4];
    return sedge_farm_control_word(farm, 2, &word) == SEDGE_OK && sedge_clcw_encode(&word, out, 4) == SEDGE_OK
           && memcmp(out, octets, 4) == 0;
}

static void a_receiver_reports(void) {
    struct sedge_farm farm;
    WANT(sedge_farm_open(&farm, 10, 0) == SEDGE_OK && sedge_farm_ad(&farm, 0, false) == SEDGE_NO_BUFFER);
    WANT(reports(&farm, "\x01\x08\x18\x00"));
    WANT(sedge_farm_unlock(&farm) == SEDGE_OK && reports(&farm, "\x01\x08\x02\x00"));
    WANT(sedge_farm_open(&farm, 10, 0) == SEDGE_OK && sedge_farm_ad(&farm, 0, false) == SEDGE_NO_BUFFER);
    WANT(sedge_farm_ad(&farm, 5, true) == SEDGE_OUTSIDE && reports(&farm, "\x01\x08\x38\x00"));
    WANT(sedge_farm_released(&farm) == SEDGE_OK && reports(&farm, "\x01\x08\x28\x00"));
    WANT(sedge_farm_set_vr(&farm, 9) == SEDGE_OK && reports(&farm, "\x01\x08\x2a\x00"));
}

/* The receiver's table (docs/PROFILE.md), cell by cell: the state, the event, and what is wanted. Each receiver has
 * the width 10, V(R) 100 and FARM-B 3. */
enum event {
    AD_100_FREE,
    AD_100_FULL,
    AD_101,
    AD_104,
    AD_105,
    AD_94,
    AD_95,
    AD_99,
    BD,
    UNLOCK,
    SET_7,
    RELEASED,
    EVENTS
};

struct cell {
    uint8_t answer;
    struct sedge_farm after;
};

static uint8_t give(struct sedge_farm *farm, int event) {
    switch (event) {
    case AD_100_FREE: return sedge_farm_ad(farm, 100, true);
    case AD_100_FULL: return sedge_farm_ad(farm, 100, false);
    case AD_101: return sedge_farm_ad(farm, 101, true);
    case AD_104: return sedge_farm_ad(farm, 104, false);
    case AD_105: return sedge_farm_ad(farm, 105, true);
    case AD_94: return sedge_farm_ad(farm, 94, true);
    case AD_95: return sedge_farm_ad(farm, 95, true);
    case AD_99: return sedge_farm_ad(farm, 99, false);
    case BD: return sedge_farm_bd(farm);
    case UNLOCK: return sedge_farm_unlock(farm);
    case SET_7: return sedge_farm_set_vr(farm, 7);
    default: return sedge_farm_released(farm);
    }
}

static void the_table(void) {
    static const struct sedge_farm before[4] = {
        {10, 100, 0, 0, 1, 3}, {10, 100, 0, 1, 1, 3}, {10, 100, 1, 0, 1, 3}, {10, 100, 1, 1, 1, 3}};
    static const struct cell cells[EVENTS][4] = {
        /* Open, Wait, Lockout, Lockout with the wait flag */
        {{0, {10, 101, 0, 0, 0, 3}},
         {5, {10, 100, 0, 1, 1, 3}},
         {5, {10, 100, 1, 0, 1, 3}},
         {5, {10, 100, 1, 1, 1, 3}}},
        {{2, {10, 100, 0, 1, 1, 3}},
         {5, {10, 100, 0, 1, 1, 3}},
         {5, {10, 100, 1, 0, 1, 3}},
         {5, {10, 100, 1, 1, 1, 3}}},
        {{1, {10, 100, 0, 0, 1, 3}},
         {5, {10, 100, 0, 1, 1, 3}},
         {5, {10, 100, 1, 0, 1, 3}},
         {5, {10, 100, 1, 1, 1, 3}}},
        {{1, {10, 100, 0, 0, 1, 3}},
         {5, {10, 100, 0, 1, 1, 3}},
         {5, {10, 100, 1, 0, 1, 3}},
         {5, {10, 100, 1, 1, 1, 3}}},
        {{4, {10, 100, 1, 0, 1, 3}},
         {4, {10, 100, 1, 1, 1, 3}},
         {5, {10, 100, 1, 0, 1, 3}},
         {5, {10, 100, 1, 1, 1, 3}}},
        {{4, {10, 100, 1, 0, 1, 3}},
         {4, {10, 100, 1, 1, 1, 3}},
         {5, {10, 100, 1, 0, 1, 3}},
         {5, {10, 100, 1, 1, 1, 3}}},
        {{3, {10, 100, 0, 0, 1, 3}},
         {5, {10, 100, 0, 1, 1, 3}},
         {5, {10, 100, 1, 0, 1, 3}},
         {5, {10, 100, 1, 1, 1, 3}}},
        {{3, {10, 100, 0, 0, 1, 3}},
         {5, {10, 100, 0, 1, 1, 3}},
         {5, {10, 100, 1, 0, 1, 3}},
         {5, {10, 100, 1, 1, 1, 3}}},
        {{0, {10, 100, 0, 0, 1, 0}},
         {0, {10, 100, 0, 1, 1, 0}},
         {0, {10, 100, 1, 0, 1, 0}},
         {0, {10, 100, 1, 1, 1, 0}}},
        {{0, {10, 100, 0, 0, 0, 0}},
         {0, {10, 100, 0, 0, 0, 0}},
         {0, {10, 100, 0, 0, 0, 0}},
         {0, {10, 100, 0, 0, 0, 0}}},
        {{0, {10, 7, 0, 0, 0, 0}}, {0, {10, 7, 0, 0, 0, 0}}, {0, {10, 100, 1, 0, 1, 0}}, {0, {10, 100, 1, 1, 1, 0}}},
        {{0, {10, 100, 0, 0, 1, 3}},
         {0, {10, 100, 0, 0, 1, 3}},
         {0, {10, 100, 1, 0, 1, 3}},
         {0, {10, 100, 1, 0, 1, 3}}}};
    int event, state;
    for (event = 0; event < EVENTS; event++) {
        for (state = 0; state < 4; state++) {
            struct sedge_farm farm = before[state];
            uint8_t answer = give(&farm, event);
            if (answer != cells[event][state].answer || memcmp(&farm, &cells[event][state].after, sizeof farm) != 0) {
                printf("event %d, state %d: answer %d\n", event, state, answer);
                failures++;
            }
        }
    }
}

/* Whether the fields are a receiver's. */
static int is_whole(const struct sedge_farm *f) {
    return f->width >= 2 && f->width <= 254 && f->width % 2 == 0 && f->lockout < 2 && f->wait < 2 && f->retransmit < 2
           && f->farm_b < 4 && (!f->wait || f->retransmit);
}

static void judge_fields(struct sedge_farm farm) {
    struct sedge_farm kept = farm;
    struct sedge_clcw word, blank;
    int event, damaged = !is_whole(&farm);
    memset(&word, 0x55, sizeof word);
    blank = word;
    WANT((sedge_farm_state(&farm) == SEDGE_DAMAGED) == damaged);
    WANT(sedge_farm_control_word(&farm, 2, &word) == (damaged ? SEDGE_DAMAGED : SEDGE_OK));
    WANT(!damaged || memcmp(&word, &blank, sizeof word) == 0);
    for (event = 0; event < EVENTS; event++) {
        farm = kept;
        WANT((give(&farm, event) == SEDGE_DAMAGED) == damaged);
        WANT(damaged ? memcmp(&farm, &kept, sizeof farm) == 0 : is_whole(&farm) && farm.width == kept.width);
    }
}

/* Each value of each field of a receiver, and all values of its flags and FARM-B up to 4. */
static void damaged_receivers(void) {
    static const struct sedge_farm whole = {10, 100, 1, 1, 1, 2};
    struct sedge_farm farm;
    int field, value;
    for (field = 0; field < 6; field++) {
        for (value = 0; value < 256; value++) {
            farm = whole;
            ((uint8_t *)&farm)[field] = (uint8_t)value;
            judge_fields(farm);
        }
    }
    for (value = 0; value < 625; value++) {
        farm = whole;
        farm.lockout = (uint8_t)(value % 5);
        farm.wait = (uint8_t)(value / 5 % 5);
        farm.retransmit = (uint8_t)(value / 25 % 5);
        farm.farm_b = (uint8_t)(value / 125);
        judge_fields(farm);
    }
}

static void refusals_of_a_receiver(void) {
    struct sedge_farm farm = {10, 100, 1, 1, 1, 2};
    struct sedge_clcw word = {1, 2, 8, 3, 4};
    int width;
    for (width = 0; width < 256; width++) {
        int is_width = width >= 2 && width % 2 == 0;
        farm.width = 77;
        WANT(sedge_farm_open(&farm, (uint8_t)width, 3) == (is_width ? 0 : 1));
        WANT(farm.width == (is_width ? width : 77));
    }
    WANT(sedge_farm_open(&farm, 254, 3) == SEDGE_OK);
    WANT(sedge_farm_control_word(&farm, 64, &word) == SEDGE_CLCW_RANGE && is_word(&word, 1, 2, 8, 3, 4));
    WANT(sedge_farm_control_word(&farm, 63, &word) == SEDGE_OK && is_word(&word, 0, 63, 0, 0, 3));
    /* By the name of before 0.3. */
    WANT(sedge_farm_report(&farm, 62, &word) == SEDGE_OK && is_word(&word, 0, 62, 0, 0, 3));
}

/* ---- The sender. ---- */

static struct sedge_fop opened_sender(void) {
    struct sedge_fop fop;
    memset(&fop, 0x55, sizeof fop);
    WANT(sedge_fop_open(&fop, 254, 127, 3, 10) == SEDGE_OK);
    WANT(fop.state == SEDGE_FOP_S6 && fop.room == 127 && fop.window == 127 && fop.limit == 3 && fop.timer == 10);
    WANT(fop.vs == 0 && fop.nn == 0 && fop.waiting == 0 && fop.sent == 0 && fop.due == 0 && fop.ticks == 0);
    WANT(fop.count == 1 && fop.control == SEDGE_CONTROL_IDLE && fop.vr == 0);
    return fop;
}

static void send_first(struct sedge_fop *fop, uint8_t number) {
    uint8_t found = 99;
    WANT(sedge_fop_submit(fop) == SEDGE_OK && fop->waiting == 1 && sedge_fop_submit(fop) == SEDGE_COP_BUSY);
    WANT(sedge_fop_next(fop, &found) == SEDGE_NEXT_FIRST && found == number && fop->waiting == 0);
}

/* Three units, of which the second is lost: one is acknowledged, and two are sent again. */
static void a_sender_sends_again(void) {
    struct sedge_fop fop = opened_sender();
    struct sedge_clcw word = {0, 0, SEDGE_CLCW_RETRANSMIT, 0, 1};
    uint8_t number, released = 99;
    WANT(sedge_fop_init_without_check(&fop) == SEDGE_OK && fop.state == SEDGE_FOP_S1);
    WANT(sedge_fop_next(&fop, &number) == SEDGE_NEXT_NOTHING && number == 0);
    for (number = 0; number < 3; number++) send_first(&fop, number);
    WANT(fop.vs == 3 && fop.nn == 0 && fop.sent == 3 && fop.ticks == 10);
    released = 99;
    WANT(sedge_fop_clcw(&fop, word.vcid + 1, &word, &released) == SEDGE_ABSENT && released == 99 && fop.nn == 0);
    WANT(sedge_fop_clcw(&fop, word.vcid, &word, &released) == SEDGE_NO_ALERT && released == 1);
    WANT(fop.state == SEDGE_FOP_S2 && fop.nn == 1 && fop.sent == 2 && fop.due == 2);
    WANT(sedge_fop_next(&fop, &number) == SEDGE_NEXT_AGAIN && number == 1 && fop.due == 1);
    WANT(sedge_fop_next(&fop, &number) == SEDGE_NEXT_AGAIN && number == 2 && fop.due == 0);
    word.flags = 0;
    word.value = 3;
    WANT(sedge_fop_report(&fop, word.vcid, &word, &released) == SEDGE_NO_ALERT &&
         released == 2); /* the name of before 0.3 */
    WANT(fop.state == SEDGE_FOP_S1 && fop.sent == 0 && fop.ticks == 0);
    word.value = 4;
    WANT(sedge_fop_clcw(&fop, word.vcid, &word, &released) == SEDGE_ALERT_NNR && released == 0 &&
         fop.state == SEDGE_FOP_S6);
}

/* The timer ends three times, and then the sender gives up. */
static void a_sender_gives_up(void) {
    struct sedge_fop fop = opened_sender();
    int tick, alert = SEDGE_NO_ALERT;
    WANT(sedge_fop_init_without_check(&fop) == SEDGE_OK);
    send_first(&fop, 0);
    for (tick = 1; tick < 100 && alert == SEDGE_NO_ALERT; tick++) alert = sedge_fop_tick(&fop);
    WANT(alert == SEDGE_ALERT_TIMER && tick == 31 && fop.state == SEDGE_FOP_S6 && fop.sent == 0);
}

/* Three units are sent, and the sender gives up: a report that comes later says how many of them were accepted. */
static void what_was_accepted(void) {
    struct sedge_fop fop = opened_sender();
    uint8_t number, accepted = 99, same;
    int value;
    WANT(sedge_fop_set_vs(&fop, 254) == SEDGE_OK && sedge_fop_init_without_check(&fop) == SEDGE_OK);
    for (number = 254; number != 1; number++) send_first(&fop, number);
    WANT(sedge_fop_terminate(&fop) == SEDGE_OK && fop.sent == 0 && fop.nn == 254 && fop.vs == 1);
    WANT(sedge_fop_accepted_beyond(&fop, 253, &accepted) == SEDGE_ABSENT);
    WANT(sedge_fop_accepted_beyond(&fop, 2, &accepted) == SEDGE_ABSENT && accepted == 99);
    WANT(sedge_fop_accepted_beyond(&fop, 254, &accepted) == SEDGE_OK && accepted == 0);
    WANT(sedge_fop_accepted_beyond(&fop, 0, &accepted) == SEDGE_OK && accepted == 2);
    WANT(sedge_fop_accepted_beyond(&fop, 1, &accepted) == SEDGE_OK && accepted == 3);
    for (value = 0; value < 256; value++) {
        accepted = same = 99;
        WANT(sedge_accepted_beyond(254, 1, (uint8_t)value, &same)
             == sedge_fop_accepted_beyond(&fop, (uint8_t)value, &accepted));
        WANT(same == accepted);
    }
    WANT(sedge_fop_init_without_check(&fop) == SEDGE_OK);
    for (value = 0; value < 256; value++) {
        accepted = same = 99;
        WANT(sedge_fop_accepted_beyond(&fop, (uint8_t)value, &accepted) == SEDGE_OK && accepted == 0);
        WANT(sedge_accepted_beyond(7, 7, (uint8_t)value, &same) == SEDGE_OK && same == 0);
    }
}

static void the_directives(void) {
    struct sedge_fop fop = opened_sender();
    struct sedge_clcw word = {0, 0, 0, 0, 7};
    uint8_t number, released;
    WANT(sedge_fop_submit(&fop) == SEDGE_COP_NOT_OPEN && sedge_fop_terminate(&fop) == SEDGE_COP_WRONG_STATE);
    WANT(sedge_fop_set_window(&fop, 5) == SEDGE_OK && fop.window == 5);
    WANT(sedge_fop_set_window(&fop, 128) == SEDGE_COP_WINDOW && sedge_fop_set_window(&fop, 0) == SEDGE_COP_WINDOW);
    WANT(sedge_fop_set_limit(&fop, 9) == SEDGE_OK && fop.limit == 9 && sedge_fop_set_limit(&fop, 0) == SEDGE_COP_LIMIT);
    WANT(sedge_fop_set_timer(&fop, 300) == SEDGE_OK && fop.timer == 300);
    WANT(sedge_fop_set_timer(&fop, 0) == SEDGE_COP_TIMER && fop.window == 5 && fop.timer == 300);
    WANT(sedge_fop_set_vs(&fop, 7) == SEDGE_OK && fop.vs == 7 && fop.nn == 7);
    WANT(sedge_fop_init_with_check(&fop) == SEDGE_OK && fop.state == SEDGE_FOP_S4 && fop.ticks == 300);
    WANT(sedge_fop_clcw(&fop, word.vcid, &word, &released) == SEDGE_NO_ALERT && fop.state == SEDGE_FOP_S1);
    WANT(sedge_fop_set_vs(&fop, 8) == SEDGE_COP_WRONG_STATE && sedge_fop_init_unlock(&fop) == SEDGE_COP_WRONG_STATE);
    WANT(sedge_fop_terminate(&fop) == SEDGE_OK && fop.state == SEDGE_FOP_S6);
    WANT(sedge_fop_init_unlock(&fop) == SEDGE_OK && fop.state == SEDGE_FOP_S5);
    WANT(fop.control == SEDGE_CONTROL_UNLOCK_DUE && sedge_fop_next(&fop, &number) == SEDGE_NEXT_UNLOCK);
    WANT(fop.control == SEDGE_CONTROL_UNLOCK_SENT && sedge_fop_next(&fop, &number) == SEDGE_NEXT_NOTHING);
    WANT(sedge_fop_terminate(&fop) == SEDGE_OK && sedge_fop_init_set_vr(&fop, 200) == SEDGE_OK);
    WANT(fop.control == SEDGE_CONTROL_SET_VR_DUE && fop.vr == 200 && fop.vs == 200 && fop.nn == 200);
    WANT(sedge_fop_next(&fop, &number) == SEDGE_NEXT_SET_VR && number == 200);
    word.value = 200;
    WANT(sedge_fop_clcw(&fop, word.vcid, &word, &released) == SEDGE_NO_ALERT && fop.state == SEDGE_FOP_S1 &&
         fop.vr == 0);
}

/* By number and value: what names no directive, and a value out of its range, is refused, and changes nothing. */
static void directives_by_number(void) {
    struct sedge_fop fop = opened_sender(), kept = fop;
    static const uint8_t none[] = {0, LAST_DIRECTIVE + 1, 255};
    size_t k;
    for (k = 0; k < sizeof none; k++) WANT(sedge_fop_directive(&fop, none[k], 1) == SEDGE_DAMAGED);
    WANT(sedge_fop_directive(&fop, SEDGE_INIT_SET_VR, 256) == SEDGE_DAMAGED);
    WANT(sedge_fop_directive(&fop, SEDGE_SET_VS, 65535) == SEDGE_DAMAGED);
    WANT(sedge_fop_directive(&fop, SEDGE_SET_WINDOW, 257) == SEDGE_COP_WINDOW);
    WANT(sedge_fop_directive(&fop, SEDGE_SET_LIMIT, 256) == SEDGE_COP_LIMIT);
    WANT(memcmp(&fop, &kept, sizeof fop) == 0);
    WANT(sedge_fop_directive(&fop, SEDGE_SET_LIMIT, 255) == SEDGE_OK && fop.limit == 255);
    WANT(sedge_fop_directive(&fop, SEDGE_SET_TIMER, 65535) == SEDGE_OK && fop.timer == 65535);
    WANT(sedge_fop_directive(&fop, SEDGE_SET_VS, 255) == SEDGE_OK && fop.vs == 255);
    WANT(sedge_fop_directive(&fop, SEDGE_INIT_UNLOCK, 999) == SEDGE_OK && fop.state == SEDGE_FOP_S5);
}

static void refusals_of_a_sender(void) {
    struct sedge_fop fop, kept;
    memset(&fop, 0x55, sizeof fop);
    kept = fop;
    WANT(sedge_fop_open(&fop, 253, 1, 1, 1) == SEDGE_COP_WIDTH && sedge_fop_open(&fop, 0, 0, 0, 0) == SEDGE_COP_WIDTH);
    WANT(sedge_fop_open(&fop, 10, 6, 1, 1) == SEDGE_COP_WINDOW);
    WANT(sedge_fop_open(&fop, 10, 0, 0, 0) == SEDGE_COP_WINDOW);
    WANT(sedge_fop_open(&fop, 10, 5, 0, 0) == SEDGE_COP_LIMIT && sedge_fop_open(&fop, 10, 5, 1, 0) == SEDGE_COP_TIMER);
    WANT(memcmp(&fop, &kept, sizeof fop) == 0);
}

/* Each call refuses the sender, and writes nothing. */
static void is_damaged_sender(struct sedge_fop fop) {
    static const struct sedge_clcw word = {0, 0, 0, 0, 0};
    const struct sedge_fop kept = fop;
    uint8_t own, number = 99;
    for (own = 1; own <= LAST_DIRECTIVE; own++) WANT(sedge_fop_directive(&fop, own, 1) == SEDGE_DAMAGED);
    WANT(sedge_fop_submit(&fop) == SEDGE_DAMAGED && sedge_fop_tick(&fop) == SEDGE_DAMAGED);
    WANT(sedge_fop_next(&fop, &number) == SEDGE_DAMAGED);
    WANT(sedge_fop_clcw(&fop, word.vcid, &word, &number) == SEDGE_DAMAGED && number == 99);
    WANT(sedge_fop_accepted_beyond(&fop, 0, &number) == SEDGE_DAMAGED && number == 99);
    WANT(memcmp(&fop, &kept, sizeof fop) == 0);
}

#define DAMAGED(field, value)                                                                                          \
    fop = good;                                                                                                        \
    fop.field = value;                                                                                                 \
    is_damaged_sender(fop)

static void damaged_senders(void) {
    static const struct sedge_fop good = {10, 4, 5, SEDGE_FOP_S3, 7, 5, 1, 2, 1, 5, 3, 1, SEDGE_CONTROL_IDLE, 0};
    struct sedge_fop fop = good;
    WANT(sedge_fop_tick(&fop) == SEDGE_NO_ALERT && fop.ticks == 3);
    DAMAGED(timer, 0);
    DAMAGED(ticks, 0);
    DAMAGED(room, 128);
    DAMAGED(room, 4);
    DAMAGED(state, 0);
    DAMAGED(state, 7);
    DAMAGED(state, SEDGE_FOP_S4);
    DAMAGED(state, SEDGE_FOP_S5);
    DAMAGED(state, SEDGE_FOP_S6);
    DAMAGED(vs, 8);
    DAMAGED(waiting, 2);
    DAMAGED(sent, 3);
    DAMAGED(due, 3);
    DAMAGED(window, 0);
    DAMAGED(limit, 0);
    DAMAGED(count, 0);
    DAMAGED(control, 5);
    DAMAGED(control, SEDGE_CONTROL_UNLOCK_SENT);
    DAMAGED(vr, 1);
}

/* In S1 with nothing sent, in S4 and S6, and in S5 with the command on its way. */
static void damaged_senders_without_units(void) {
    struct sedge_fop good = {10, 4, 5, SEDGE_FOP_S5, 7, 7, 1, 0, 0, 5, 3, 1, SEDGE_CONTROL_SET_VR_SENT, 7}, fop = good;
    WANT(sedge_fop_tick(&fop) == SEDGE_NO_ALERT && fop.ticks == 3);
    DAMAGED(ticks, 0);
    DAMAGED(nn, 6);
    DAMAGED(vr, 8);
    DAMAGED(control, SEDGE_CONTROL_UNLOCK_SENT);
    good.vr = good.control = SEDGE_CONTROL_IDLE;
    is_damaged_sender(good);
    good.state = SEDGE_FOP_S4;
    WANT((fop = good, sedge_fop_tick(&fop)) == SEDGE_NO_ALERT && fop.ticks == 3);
    DAMAGED(ticks, 0);
    DAMAGED(state, SEDGE_FOP_S1);
    good.state = SEDGE_FOP_S1;
    good.ticks = 0;
    WANT((fop = good, sedge_fop_tick(&fop)) == SEDGE_NO_ALERT && fop.ticks == 0);
    DAMAGED(state, SEDGE_FOP_S2);
    DAMAGED(state, SEDGE_FOP_S6);
    good.state = SEDGE_FOP_S6;
    good.waiting = 0;
    good.nn = 2;
    WANT((fop = good, sedge_fop_tick(&fop)) == SEDGE_NO_ALERT && fop.state == SEDGE_FOP_S6);
    DAMAGED(nn, 1);
}

/* ---- Telecommand frames. ---- */

static const uint8_t DATA[13] = {0x00, 0x01, 0x08, 0x0c, 0x03, 0xc4, 0x10, 0x05, 0xc0, 0x00, 0x00, 0x00, 0xaa};
static const uint8_t UNLOCK_FRAME[6] = {0x30, 0x01, 0x08, 0x05, 0x00, 0x00};
static const uint8_t UNLOCK_CHECKED[8] = {0x30, 0x01, 0x08, 0x07, 0x00, 0x00, 0x8b, 0x9e};
static const uint8_t SET_SEVEN[8] = {0x30, 0x01, 0x08, 0x07, 0x00, 0x82, 0x00, 0x07};

static int is_frame(const struct sedge_tc_frame *f, int kind, int n, int flags, int map, int command, int vr) {
    return f->scid == 1 && f->vcid == 2 && f->kind == kind && f->n == n && f->flags == flags && f->map == map
           && f->command == command && f->vr == vr;
}

/* The octets are read as a frame, and written again of it, and octets after it stay. */
static int is_spelled(const uint8_t *octets, size_t count, bool checked, struct sedge_tc_frame *frame,
                      struct sedge_part *data) {
    uint8_t out[16];
    size_t total = 99, i;
    memset(out, 0x55, sizeof out);
    if (sedge_tc_decode(octets, count, checked, frame, data) != SEDGE_OK) return 0;
    if (sedge_tc_encode(frame, octets + data->from, data->count, checked, out, sizeof out, &total) != SEDGE_OK)
        return 0;
    if (total != count || memcmp(out, octets, count) != 0) return 0;
    for (i = count; i < sizeof out; i++) {
        if (out[i] != 0x55) return 0;
    }
    return sedge_tc_declared(octets, 5, checked, &total) == SEDGE_OK && total == count;
}

static void telecommand_frames(void) {
    struct sedge_tc_frame frame;
    struct sedge_part data;
    uint8_t bypass[13];
    WANT(is_spelled(DATA, 13, false, &frame, &data) && is_frame(&frame, SEDGE_TC_AD, 3, SEDGE_SEGMENT_ALONE, 4, 0, 0));
    WANT(data.from == 6 && data.count == 7);
    memcpy(bypass, DATA, 13);
    bypass[0] = 0x20;
    bypass[4] = 0x00;
    WANT(is_spelled(bypass, 13, false, &frame, &data)
         && is_frame(&frame, SEDGE_TC_BD, 0, SEDGE_SEGMENT_ALONE, 4, 0, 0));
    WANT(data.from == 6 && data.count == 7);
    WANT(is_spelled(SET_SEVEN, 8, false, &frame, &data) && is_frame(&frame, SEDGE_TC_BC, 0, 0, 0, SEDGE_SET_VR, 7));
    WANT(data.from == 0 && data.count == 0);
    WANT(is_spelled(UNLOCK_FRAME, 6, false, &frame, &data) && is_frame(&frame, SEDGE_TC_BC, 0, 0, 0, SEDGE_UNLOCK, 0));
    WANT(is_spelled(UNLOCK_CHECKED, 8, true, &frame, &data) && is_frame(&frame, SEDGE_TC_BC, 0, 0, 0, SEDGE_UNLOCK, 0));
}

static uint8_t refused(const uint8_t *octets, size_t count, bool checked) {
    struct sedge_tc_frame frame, kept;
    struct sedge_part data = {11, 22};
    uint8_t answer;
    memset(&frame, 0x55, sizeof frame);
    kept = frame;
    answer = sedge_tc_decode(octets, count, checked, &frame, &data);
    WANT(answer == SEDGE_OK || (memcmp(&frame, &kept, sizeof frame) == 0 && data.from == 11 && data.count == 22));
    return answer;
}

static void refused_telecommand_frames(void) {
    static const uint8_t more[7] = {0x30, 0x01, 0x08, 0x05, 0x00, 0x00, 0x00};
    static const uint8_t number[6] = {0x30, 0x01, 0x08, 0x05, 0x01, 0x00},
                         lone[6] = {0x00, 0x01, 0x08, 0x05, 0x03, 0xc4};
    static const uint8_t none[5] = {0x00, 0x01, 0x08, 0x04, 0x03}, command[6] = {0x30, 0x01, 0x08, 0x05, 0x00, 0x01};
    uint8_t octets[13];
    size_t total = 99;
    memcpy(octets, DATA, 13);
    WANT(refused(UNLOCK_FRAME, 4, false) == SEDGE_TC_SHORT && refused(UNLOCK_FRAME, 0, false) == SEDGE_TC_SHORT);
    octets[0] = 0x40;
    WANT(refused(octets, 13, false) == SEDGE_TC_VERSION);
    octets[0] = 0x10;
    WANT(refused(octets, 13, false) == SEDGE_TC_RESERVED_TYPE);
    octets[0] = 0x04;
    WANT(refused(octets, 13, false) == SEDGE_TC_SPARE);
    WANT(refused(more, 7, false) == SEDGE_TC_LENGTH && refused(UNLOCK_FRAME, 6, true) == SEDGE_TC_LENGTH);
    memcpy(octets, UNLOCK_CHECKED, 8);
    octets[7] = 0x9f;
    WANT(refused(octets, 8, true) == SEDGE_TC_CHECK);
    WANT(refused(number, 6, false) == SEDGE_TC_BYPASS_NUMBER && refused(lone, 6, false) == SEDGE_TC_EMPTY_DATA);
    WANT(refused(none, 5, false) == SEDGE_TC_EMPTY_DATA && refused(command, 6, false) == SEDGE_TC_COMMAND);
    WANT(sedge_tc_declared(DATA, 4, false, &total) == SEDGE_TC_SHORT
         && sedge_tc_declared(DATA, 0, true, &total) == SEDGE_TC_SHORT);
    WANT(sedge_tc_declared(UNLOCK_FRAME, 6, true, &total) == SEDGE_TC_LENGTH && total == 99);
    octets[2] = 0x08;
    octets[3] = 0x03;
    WANT(sedge_tc_declared(octets, 8, false, &total) == SEDGE_TC_LENGTH && total == 99);
}

/* Each frame that differs from one in one octet is refused. */
static void a_wrong_octet(void) {
    static const uint8_t whole[15] = {0x00, 0x01, 0x08, 0x0e, 0x00, 0xc4, 0x10, 0x05,
                                      0xc0, 0x00, 0x00, 0x00, 0xaa, 0xe7, 0x5d};
    uint8_t octets[15];
    int place, value, accepted = 0;
    for (place = 0; place < 15; place++) {
        for (value = 0; value < 256; value++) {
            memcpy(octets, whole, 15);
            octets[place] = (uint8_t)value;
            accepted += refused(octets, 15, true) == SEDGE_OK;
        }
    }
    WANT(accepted == 15);
}

/* Frames that stand one after another: what is written of each, where there is room for it, and octets after it stay. */
static void many_telecommand_frames(void) {
    static const uint8_t octets[42] = {
        0x00, 0x01, 0x08, 0x0e, 0x00, 0xc4, 0x10, 0x05, 0xc0, 0x00, 0x00, 0x00, 0xaa, 0xe7, 0x5d, /* Type-AD */
        0x30, 0x01, 0x08, 0x07, 0x00, 0x00, 0x8b, 0x9f,                                           /* a wrong check */
        0x33, 0xff, 0x08, 0x09, 0x00, 0x82, 0x00, 0x07, 0x9a, 0x05,                               /* Set V(R) to 7 */
        0x30, 0x01, 0x08, 0x07, 0x00, 0x00, 0x8b, 0x9e, 0x00};                                    /* Unlock, and one more */
    static const uint8_t wanted[48] = {15, 0, 0, 0x01, 0x00, 2, 0, 0, 3, 4, 0, 0,
                                       8,  0, 6, 0x00, 0x00, 0, 0, 0, 0, 0, 0, 0,
                                       10, 0, 0, 0xff, 0x03, 2, 2, 0, 0, 0, 1, 7,
                                       8,  0, 0, 0x01, 0x00, 2, 2, 0, 0, 0, 0, 0};
    static const size_t ends[5] = {0, 15, 23, 33, 41};
    uint8_t out[64];
    size_t room, count, total, frames, i;
    for (room = 0; room <= sizeof out; room++) {
        memset(out, 0x55, sizeof out);
        total = 99;
        frames = sedge_tc_frames(octets, 42, true, out, room, &total);
        WANT(frames == (room / 12 < 4 ? room / 12 : 4) && total == ends[frames]);
        WANT(memcmp(out, wanted, 12 * frames) == 0);
        for (i = 12 * frames; i < sizeof out; i++) WANT(out[i] == 0x55);
    }
    for (count = 0; count <= 42; count++) {
        frames = sedge_tc_frames(octets, count, true, out, sizeof out, &total);
        WANT(total == ends[frames] && total <= count && (frames == 4 || ends[frames + 1] > count));
    }
    WANT(sedge_tc_frames(UNLOCK_FRAME, 6, false, out, 12, &total) == 1 && total == 6 && out[2] == SEDGE_OK);
    WANT(sedge_tc_frames(UNLOCK_FRAME, 6, true, out, 12, &total) == 0 && total == 0);
}

static uint8_t unwritten(struct sedge_tc_frame frame, size_t data_count, size_t room) {
    static const uint8_t data[1100] = {0};
    uint8_t out[1100];
    size_t total = 99, i;
    uint8_t answer;
    memset(out, 0x55, sizeof out);
    answer = sedge_tc_encode(&frame, data, data_count, true, out, room, &total);
    for (i = 0; answer != SEDGE_OK && i < sizeof out; i++) WANT(out[i] == 0x55);
    WANT(answer == SEDGE_OK ? total <= room : total == 99);
    return answer;
}

static void unwritten_telecommand_frames(void) {
    static const struct sedge_tc_frame good = {1023, 63, SEDGE_TC_AD, 255, SEDGE_SEGMENT_LAST, 63, 9, 9};
    struct sedge_tc_frame frame = good;
    int value;
    WANT(unwritten(good, 1, 9) == SEDGE_OK && unwritten(good, 1016, 1024) == SEDGE_OK);
    WANT(unwritten(good, 1, 8) == SEDGE_TC_ROOM && unwritten(good, 1016, 1023) == SEDGE_TC_ROOM);
    WANT(unwritten(good, 0, 1024) == SEDGE_TC_FIELD_RANGE && unwritten(good, 1017, 1100) == SEDGE_TC_FIELD_RANGE);
    frame.scid = 1024;
    WANT(unwritten(frame, 1, 0) == SEDGE_TC_FIELD_RANGE);
    frame = good;
    frame.vcid = 64;
    WANT(unwritten(frame, 1, 1024) == SEDGE_TC_FIELD_RANGE);
    frame = good;
    frame.map = 64;
    WANT(unwritten(frame, 1, 1024) == SEDGE_TC_FIELD_RANGE);
    for (value = 0; value < 256; value++) {
        frame = good;
        frame.flags = (uint8_t)value;
        WANT(unwritten(frame, 1, 1024) == (value < 4 ? SEDGE_OK : SEDGE_DAMAGED));
        frame.kind = SEDGE_TC_BD;
        WANT(unwritten(frame, 1, 1024) == (value < 4 ? SEDGE_OK : SEDGE_DAMAGED));
        frame.kind = SEDGE_TC_BC;
        frame.command = (uint8_t)value;
        WANT(unwritten(frame, 0, 1024) == (value < 2 ? SEDGE_OK : SEDGE_DAMAGED));
        frame = good;
        frame.kind = (uint8_t)value;
        WANT(unwritten(frame, 1, 1024) == (value < 2 ? SEDGE_OK : SEDGE_DAMAGED));
    }
}

/* ---- Space packets. ---- */

static const uint8_t PACKET[7] = {0x10, 0x05, 0xc0, 0x00, 0x00, 0x00, 0xaa};

static uint8_t long_octets[65543], long_out[65543];

static void space_packets(void) {
    struct sedge_packet packet;
    struct sedge_part data;
    uint8_t out[9];
    size_t total = 99;
    memset(out, 0x55, 9);
    WANT(sedge_packet_decode(PACKET, 7, &packet, &data) == SEDGE_OK && data.from == 6 && data.count == 1);
    WANT(packet.kind == SEDGE_PACKET_TELECOMMAND && packet.secondary == 0 && packet.apid == 5 && packet.flags == 3
         && packet.count == 0);
    WANT(sedge_packet_encode(&packet, PACKET + 6, 1, out, 9, &total) == SEDGE_OK && total == 7);
    WANT(memcmp(out, PACKET, 7) == 0 && out[7] == 0x55 && out[8] == 0x55);
    WANT(sedge_packet_declared(PACKET, 6, &total) == SEDGE_OK && total == 7);
    memset(long_octets, 0x5a, sizeof long_octets);
    memcpy(long_octets, "\x08\x05\x7f\xff\xff\xff", 6);
    WANT(sedge_packet_decode(long_octets, 65543, &packet, &data) == SEDGE_OK && data.from == 6 && data.count == 65536);
    WANT(packet.kind == SEDGE_PACKET_TELEMETRY && packet.secondary == 1 && packet.flags == 1 && packet.count == 16383);
    WANT(sedge_packet_encode(&packet, long_octets + 6, 65536, long_out, 65542, &total) == SEDGE_OK && total == 65542);
    WANT(memcmp(long_out, long_octets, 65542) == 0);
    WANT(sedge_packet_decode(long_octets, 65541, &packet, &data) == SEDGE_PACKET_TRUNCATED);
}

static void refused_packets(void) {
    static const uint8_t version[7] = {0x20, 0x05, 0xc0, 0, 0, 0, 0xaa}, idle[7] = {0x0f, 0xff, 0xc0, 0, 0, 0, 0x55};
    struct sedge_packet packet, kept;
    struct sedge_part data = {11, 22};
    size_t total = 99;
    memset(&packet, 0x55, sizeof packet);
    kept = packet;
    WANT(sedge_packet_decode(PACKET, 5, &packet, &data) == SEDGE_PACKET_TRUNCATED);
    WANT(sedge_packet_decode(PACKET, 6, &packet, &data) == SEDGE_PACKET_TRUNCATED);
    WANT(sedge_packet_decode(version, 7, &packet, &data) == SEDGE_PACKET_VERSION);
    WANT(sedge_packet_decode(idle, 6, &packet, &data) == SEDGE_PACKET_IDLE_WITH_SECONDARY);
    WANT(memcmp(&packet, &kept, sizeof packet) == 0 && data.from == 11 && data.count == 22);
    WANT(sedge_packet_declared(PACKET, 5, &total) == SEDGE_PACKET_TRUNCATED);
    WANT(sedge_packet_declared(version, 7, &total) == SEDGE_PACKET_VERSION);
    WANT(sedge_packet_declared(idle, 7, &total) == SEDGE_PACKET_IDLE_WITH_SECONDARY && total == 99);
}

static void packets_that_are_missing(void) {
    static struct sedge_gap_check check;
    uint16_t missing = 99;
    sedge_gap_check_open(&check);
    WANT(check.last[5] > 16383 && check.last[2047] > 16383);
    WANT(sedge_gap_check_see(&check, 5, 0, &missing) == SEDGE_ABSENT && missing == 99);
    WANT(sedge_gap_check_see(&check, 5, 1, &missing) == SEDGE_OK && missing == 0);
    WANT(sedge_gap_check_see(&check, 5, 3, &missing) == SEDGE_OK && missing == 1);
    WANT(sedge_gap_check_see(&check, 5, 3, &missing) == SEDGE_OK && missing == 16383);
    missing = 99;
    WANT(sedge_gap_check_see(&check, 2047, 16383, &missing) == SEDGE_ABSENT);
    WANT(sedge_gap_check_see(&check, 2048, 0, &missing) == SEDGE_PACKET_FIELD_RANGE);
    WANT(sedge_gap_check_see(&check, 2047, 16384, &missing) == SEDGE_PACKET_FIELD_RANGE && missing == 99);
    WANT(sedge_gap_check_see(&check, 2047, 0, &missing) == SEDGE_OK && missing == 0);
}

static uint8_t packet_unwritten(struct sedge_packet packet, size_t data_count, size_t room) {
    size_t total = 99;
    uint8_t answer = sedge_packet_encode(&packet, long_octets, data_count, long_out, room, &total);
    WANT(answer == SEDGE_OK || total == 99);
    return answer;
}

static void unwritten_packets(void) {
    static const struct sedge_packet good = {2047, 16383, SEDGE_PACKET_TELECOMMAND, 0, 3};
    struct sedge_packet packet = good;
    int value;
    WANT(packet_unwritten(good, 1, 7) == SEDGE_OK && packet_unwritten(good, 1, 6) == SEDGE_PACKET_ROOM);
    WANT(packet_unwritten(good, 0, 100) == SEDGE_PACKET_FIELD_RANGE
         && packet_unwritten(good, 65537, 65543) == SEDGE_PACKET_FIELD_RANGE);
    packet.secondary = 1;
    WANT(packet_unwritten(packet, 1, 0) == SEDGE_PACKET_FIELD_RANGE);
    packet = good;
    packet.apid = 2048;
    WANT(packet_unwritten(packet, 1, 100) == SEDGE_PACKET_FIELD_RANGE);
    packet = good;
    packet.count = 16384;
    WANT(packet_unwritten(packet, 1, 100) == SEDGE_PACKET_FIELD_RANGE);
    packet = good;
    packet.flags = 4;
    WANT(packet_unwritten(packet, 1, 100) == SEDGE_PACKET_FIELD_RANGE);
    for (value = 0; value < 256; value++) {
        packet = good;
        packet.apid = 5;
        packet.kind = (uint8_t)value;
        WANT(packet_unwritten(packet, 1, 100) == (value < 2 ? SEDGE_OK : SEDGE_DAMAGED));
        packet.kind = 0;
        packet.secondary = (uint8_t)value;
        WANT(packet_unwritten(packet, 1, 100) == (value < 2 ? SEDGE_OK : SEDGE_DAMAGED));
    }
}

/* ---- Telemetry frames. ---- */

static const uint8_t IDLE[14] = {0x00, 0x11, 0x00, 0x00, 0x1f, 0xfe, 0x55, 0x55, 0x55, 0x55, 0x01, 0x08, 0x00, 0x00};

static void telemetry_frames(void) {
    static const struct sedge_tm_frame idle = {1, SEDGE_POINTER_ONLY_IDLE, 0, 0, 0, {0x01, 0x08, 0x00, 0x00}};
    static const uint16_t pointers[] = {0, 3, SEDGE_POINTER_ONLY_IDLE, SEDGE_POINTER_NO_START};
    static const uint8_t lasts[][2] = {{0x18, 0x00}, {0x18, 0x03}, {0x1f, 0xfe}, {0x1f, 0xff}};
    struct sedge_tm_frame frame, found;
    struct sedge_part data;
    struct sedge_clcw word;
    uint8_t out[20];
    size_t i, total = 99;
    for (i = 0; i < 4; i++) {
        memset(out, 0xee, 20);
        frame = idle;
        frame.pointer = pointers[i];
        WANT(sedge_tm_encode(&frame, IDLE + 6, 4, out, 20, &total) == SEDGE_OK && total == 16);
        WANT(memcmp(out, IDLE, 4) == 0 && memcmp(out + 4, lasts[i], 2) == 0 && memcmp(out + 6, IDLE + 6, 8) == 0);
        WANT(sedge_check_holds(out, 16) && out[16] == 0xee && out[19] == 0xee);
        WANT(sedge_tm_decode(out, 16, 16, &found, &data) == SEDGE_OK && data.from == 6 && data.count == 4);
        WANT(found.scid == 1 && found.pointer == pointers[i] && found.vcid == 0 && found.mc_count == 0
             && found.vc_count == 0);
        WANT(sedge_clcw_decode(found.ocf, 4, &word) == SEDGE_OK && is_word(&word, 0, 2, 0, 0, 0));
    }
    frame.scid = 1023;
    frame.vcid = 7;
    frame.mc_count = 254;
    frame.vc_count = 253;
    WANT(sedge_tm_encode(&frame, long_octets, 2036, long_out, 2048, &total) == SEDGE_OK && total == 2048);
    WANT(sedge_tm_decode(long_out, 2048, 2048, &found, &data) == SEDGE_OK && data.from == 6 && data.count == 2036);
    WANT(found.scid == 1023 && found.vcid == 7 && found.mc_count == 254 && found.vc_count == 253);
    WANT(memcmp(long_out + 6, long_octets, 2036) == 0 && memcmp(found.ocf, "\x01\x08\x00\x00", 4) == 0);
}

static uint8_t telemetry_refused(const uint8_t *octets, size_t count, size_t length) {
    struct sedge_tm_frame frame, kept;
    struct sedge_part data = {11, 22};
    uint8_t answer;
    memset(&frame, 0x55, sizeof frame);
    kept = frame;
    answer = sedge_tm_decode(octets, count, length, &frame, &data);
    WANT(answer == SEDGE_OK || (memcmp(&frame, &kept, sizeof frame) == 0 && data.from == 11 && data.count == 22));
    return answer;
}

static void refused_telemetry_frames(void) {
    static const struct {
        uint8_t place, octet, fault;
    } damages[] = {{0, 0x40, SEDGE_TM_VERSION},
                   {4, 0x98, SEDGE_TM_STATUS},
                   {4, 0x10, SEDGE_TM_STATUS},
                   {5, 0x04, SEDGE_TM_POINTER},
                   {1, 0x10, SEDGE_TM_NO_OCF}};
    uint8_t octets[16], damaged[16];
    size_t i;
    memcpy(octets, IDLE, 14);
    octets[4] = 0x18;
    octets[5] = 0x00;
    WANT(sedge_check_append(octets, 16) && telemetry_refused(octets, 16, 16) == SEDGE_OK);
    WANT(telemetry_refused(octets, 16, 17) == SEDGE_TM_LENGTH && telemetry_refused(octets, 15, 15) == SEDGE_TM_LENGTH);
    WANT(telemetry_refused(octets, 0, 16) == SEDGE_TM_LENGTH
         && telemetry_refused(long_octets, 2049, 2049) == SEDGE_TM_LENGTH);
    for (i = 0; i < sizeof damages / sizeof *damages; i++) {
        memcpy(damaged, octets, 16);
        damaged[damages[i].place] = damages[i].octet;
        WANT(telemetry_refused(damaged, 16, 16) == (i == 0 ? SEDGE_TM_VERSION : SEDGE_TM_CHECK));
        WANT(sedge_check_append(damaged, 16) && telemetry_refused(damaged, 16, 16) == damages[i].fault);
    }
}

static uint8_t telemetry_unwritten(struct sedge_tm_frame frame, size_t data_count, size_t room) {
    size_t total = 99;
    uint8_t answer;
    memset(long_out, 0x55, sizeof long_out);
    answer = sedge_tm_encode(&frame, long_octets, data_count, long_out, room, &total);
    WANT(answer == SEDGE_OK
         || (total == 99 && long_out[0] == 0x55 && memcmp(long_out, long_out + 1, sizeof long_out - 1) == 0));
    return answer;
}

static void unwritten_telemetry_frames(void) {
    static const struct sedge_tm_frame good = {1023, 3, 7, 255, 255, {1, 2, 3, 4}};
    struct sedge_tm_frame frame = good;
    WANT(telemetry_unwritten(good, 4, 16) == SEDGE_OK && telemetry_unwritten(good, 4, 15) == SEDGE_TM_ROOM);
    WANT(telemetry_unwritten(good, 3, 100) == SEDGE_TM_FIELD_RANGE
         && telemetry_unwritten(good, 2037, 3000) == SEDGE_TM_FIELD_RANGE);
    frame.scid = 1024;
    WANT(telemetry_unwritten(frame, 4, 0) == SEDGE_TM_FIELD_RANGE);
    frame = good;
    frame.vcid = 8;
    WANT(telemetry_unwritten(frame, 4, 100) == SEDGE_TM_FIELD_RANGE);
    frame = good;
    frame.pointer = 4;
    WANT(telemetry_unwritten(frame, 4, 100) == SEDGE_TM_FIELD_RANGE && telemetry_unwritten(frame, 5, 100) == SEDGE_OK);
    frame.pointer = 2048;
    WANT(telemetry_unwritten(frame, 2036, 3000) == SEDGE_TM_FIELD_RANGE);
    frame.pointer = 65535;
    WANT(telemetry_unwritten(frame, 2036, 3000) == SEDGE_TM_FIELD_RANGE);
}

/* ---- Packets in segments. ---- */

static const uint8_t FIRST_HALF[4] = {0x10, 0x05, 0xc0, 0x00}, LAST_HALF[3] = {0x00, 0x00, 0xaa};
static const uint8_t TWO[15] = {0x10, 0x05, 0xc0, 0x00, 0x00, 0x00, 0xaa, 0x10,
                                0x05, 0xc0, 0x01, 0x00, 0x01, 0xbb, 0xcc};
/* An idle packet with a secondary header, which it may not have. */
static const uint8_t IDLE_PACKET[7] = {0x0f, 0xff, 0xc0, 0x00, 0x00, 0x00, 0xaa};

static struct sedge_taken take(struct sedge_map *map, uint8_t flags, const uint8_t *data, size_t count, uint8_t *memory,
                               size_t room) {
    const uint8_t blocking = map->blocking;
    struct sedge_taken taken;
    memset(&taken, 0x55, sizeof taken);
    WANT(sedge_map_take(map, flags, data, count, memory, room, &taken) == SEDGE_OK && map->blocking == blocking);
    return taken;
}

static int is_taken(struct sedge_taken taken, size_t count, int where, int dropped) {
    return taken.count == count && taken.where == where && taken.dropped == dropped;
}

static void packets_from_segments(void) {
    struct sedge_map map = {0, 0, 0};
    uint8_t memory[9];
    memset(memory, 0x55, 9);
    WANT(is_taken(take(&map, SEDGE_SEGMENT_ALONE, TWO, 7, memory, 8), 7, SEDGE_IN_DATA, SEDGE_NOT_DROPPED));
    WANT(is_taken(take(&map, SEDGE_SEGMENT_LAST, TWO, 7, memory, 8), 0, SEDGE_NO_PACKET, SEDGE_DROPPED_NO_BEGINNING));
    WANT(is_taken(take(&map, SEDGE_SEGMENT_FIRST, FIRST_HALF, 4, memory, 8), 0, SEDGE_NO_PACKET, SEDGE_NOT_DROPPED));
    WANT(map.open == 1 && map.count == 4 && memcmp(memory, FIRST_HALF, 4) == 0 && memory[4] == 0x55);
    WANT(is_taken(take(&map, SEDGE_SEGMENT_CONTINUING, LAST_HALF, 1, memory, 8), 0, SEDGE_NO_PACKET, 0));
    WANT(is_taken(take(&map, SEDGE_SEGMENT_LAST, LAST_HALF + 1, 2, memory, 8), 7, SEDGE_IN_MEMORY, SEDGE_NOT_DROPPED));
    WANT(map.open == 0 && map.count == 0 && memcmp(memory, TWO, 7) == 0 && memory[8] == 0x55);
    WANT(is_taken(take(&map, SEDGE_SEGMENT_FIRST, FIRST_HALF, 4, memory, 8), 0, SEDGE_NO_PACKET, SEDGE_NOT_DROPPED));
    WANT(is_taken(take(&map, SEDGE_SEGMENT_ALONE, TWO, 7, memory, 8), 7, SEDGE_IN_DATA, SEDGE_DROPPED_INTERRUPTED));
    WANT(is_taken(take(&map, SEDGE_SEGMENT_FIRST, TWO, 9, memory, 8), 0, SEDGE_NO_PACKET, SEDGE_DROPPED_TOO_LONG));
    WANT(is_taken(take(&map, SEDGE_SEGMENT_ALONE, TWO, 15, memory, 9), 0, SEDGE_NO_PACKET, SEDGE_DROPPED_TOO_LONG));
    WANT(is_taken(take(&map, SEDGE_SEGMENT_ALONE, TWO, 6, memory, 8), 0, SEDGE_NO_PACKET, SEDGE_DROPPED_NOT_A_PACKET));
    WANT(is_taken(take(&map, SEDGE_SEGMENT_ALONE, IDLE_PACKET, 7, memory, 8), 0, SEDGE_NO_PACKET,
                  SEDGE_DROPPED_NOT_A_PACKET));
}

static void packets_in_blocks(void) {
    struct sedge_map map = {0, 0, 1};
    struct sedge_part packet = {0, 0};
    uint8_t memory[8];
    WANT(is_taken(take(&map, SEDGE_SEGMENT_ALONE, TWO, 15, memory, 8), 15, SEDGE_IN_DATA, SEDGE_NOT_DROPPED));
    WANT(sedge_map_packet(TWO, 15, &packet) && packet.from == 0 && packet.count == 7);
    WANT(sedge_map_packet(TWO, 15, &packet) && packet.from == 7 && packet.count == 8);
    WANT(!sedge_map_packet(TWO, 15, &packet) && packet.from == 7 && packet.count == 8);
    packet.from = SIZE_MAX;
    WANT(!sedge_map_packet(TWO, 15, &packet) && !sedge_map_packet(TWO, 0, &packet));
    WANT(is_taken(take(&map, SEDGE_SEGMENT_FIRST, FIRST_HALF, 4, memory, 8), 0, SEDGE_NO_PACKET, SEDGE_NOT_DROPPED));
    WANT(is_taken(take(&map, SEDGE_SEGMENT_ALONE, TWO, 15, memory, 8), 15, SEDGE_IN_DATA, SEDGE_DROPPED_INTERRUPTED));
    WANT(is_taken(take(&map, SEDGE_SEGMENT_ALONE, TWO, 15, memory, 7), 0, SEDGE_NO_PACKET, SEDGE_DROPPED_TOO_LONG));
    WANT(is_taken(take(&map, SEDGE_SEGMENT_ALONE, TWO, 0, memory, 8), 0, SEDGE_NO_PACKET, SEDGE_DROPPED_NOT_A_PACKET));
}

static uint8_t untaken(struct sedge_map map, uint8_t flags) {
    const struct sedge_map kept = map;
    struct sedge_taken taken = {77, 88, 99};
    uint8_t memory[8], answer;
    memset(memory, 0x55, 8);
    answer = sedge_map_take(&map, flags, TWO, 7, memory, 8, &taken);
    WANT(answer == SEDGE_OK || (map.count == kept.count && map.open == kept.open && map.blocking == kept.blocking));
    WANT(answer == SEDGE_OK || (is_taken(taken, 77, 88, 99) && memory[0] == 0x55 && memory[7] == 0x55));
    return answer;
}

static void damaged_maps(void) {
    static const struct sedge_map good = {8, 1, 1};
    static const struct sedge_map damages[] = {{9, 1, 1}, {8, 2, 1}, {8, 1, 2}, {1, 0, 0}, {SIZE_MAX, 1, 0}};
    size_t i;
    WANT(untaken(good, SEDGE_SEGMENT_LAST) == SEDGE_OK);
    WANT(untaken(good, 4) == SEDGE_DAMAGED && untaken(good, 255) == SEDGE_DAMAGED);
    for (i = 0; i < sizeof damages / sizeof *damages; i++) {
        WANT(untaken(damages[i], SEDGE_SEGMENT_FIRST) == SEDGE_DAMAGED);
    }
}

static int is_cut(const uint8_t *octets, size_t count, struct sedge_limits limits, size_t k, int flags, size_t from,
                  size_t length) {
    struct sedge_part data;
    uint8_t found;
    return sedge_map_segment(octets, count, &limits, k, &found, &data) == SEDGE_OK && found == flags
           && data.from == from && data.count == length;
}

static void segments_of_packets(void) {
    static const struct sedge_limits thirds = {3, 8, 0}, fifteen = {15, 8, 1}, eight = {8, 8, 1}, four = {4, 8, 1};
    size_t segments = 99;
    WANT(sedge_map_count(TWO, 7, &thirds, &segments) == SEDGE_OK && segments == 3);
    WANT(is_cut(TWO, 7, thirds, 0, SEDGE_SEGMENT_FIRST, 0, 3) && is_cut(TWO, 7, thirds, 2, SEDGE_SEGMENT_LAST, 6, 1));
    WANT(is_cut(TWO, 7, thirds, 1, SEDGE_SEGMENT_CONTINUING, 3, 3));
    WANT(sedge_map_count(TWO, 15, &fifteen, &segments) == SEDGE_OK && segments == 1);
    WANT(is_cut(TWO, 15, fifteen, 0, SEDGE_SEGMENT_ALONE, 0, 15));
    WANT(sedge_map_count(TWO, 15, &eight, &segments) == SEDGE_OK && segments == 2);
    WANT(is_cut(TWO, 15, eight, 0, SEDGE_SEGMENT_ALONE, 0, 7) && is_cut(TWO, 15, eight, 1, SEDGE_SEGMENT_ALONE, 7, 8));
    WANT(sedge_map_count(TWO, 15, &four, &segments) == SEDGE_OK && segments == 4);
    WANT(is_cut(TWO, 15, four, 1, SEDGE_SEGMENT_LAST, 4, 3) && is_cut(TWO, 15, four, 3, SEDGE_SEGMENT_LAST, 11, 4));
}

static uint8_t uncut(size_t count, struct sedge_limits limits, size_t k) {
    struct sedge_part data = {11, 22};
    uint8_t flags = 77, answer = sedge_map_segment(TWO, count, &limits, k, &flags, &data);
    size_t segments = 99;
    uint8_t counted = sedge_map_count(TWO, count, &limits, &segments);
    WANT(answer == SEDGE_ABSENT ? counted == SEDGE_OK : counted == answer && segments == 99);
    WANT(flags == 77 && data.from == 11 && data.count == 22);
    return answer;
}

static void octets_that_are_not_cut(void) {
    static const struct sedge_limits good = {3, 8, 0}, block = {3, 7, 1}, none = {0, 8, 0}, flag = {3, 8, 2};
    WANT(uncut(7, good, 3) == SEDGE_ABSENT && uncut(7, good, SIZE_MAX) == SEDGE_ABSENT);
    WANT(uncut(6, good, 0) == SEDGE_MAP_NOT_A_PACKET && uncut(15, good, 0) == SEDGE_MAP_NOT_A_PACKET);
    WANT(uncut(0, block, 0) == SEDGE_MAP_NOT_A_PACKET && uncut(15, block, 0) == SEDGE_MAP_TOO_LONG);
    WANT(uncut(7, none, 0) == SEDGE_DAMAGED && uncut(7, flag, 0) == SEDGE_DAMAGED);
}

/* The data that a control frame is given are ignored. */
static void control_frames_without_data(void) {
    static const uint8_t data[300] = {1};
    static const uint8_t *const wanted[] = {UNLOCK_FRAME, SET_SEVEN};
    for (uint8_t command = SEDGE_UNLOCK; command <= SEDGE_SET_VR; command++) {
        struct sedge_tc_frame frame;
        struct sedge_tc_frame read;
        struct sedge_part part;
        uint8_t octets[400];
        size_t total = 0;
        WANT(sedge_tc_decode(wanted[command], command == SEDGE_UNLOCK ? 6 : 8, false, &frame, &part) == SEDGE_OK);
        WANT(frame.command == command);
        WANT(sedge_tc_encode(&frame, data, sizeof data, false, octets, sizeof octets, &total) == SEDGE_OK);
        WANT(total == (command == SEDGE_UNLOCK ? 6 : 8) && memcmp(octets, wanted[command], total) == 0);
        WANT(sedge_tc_decode(octets, total, false, &read, &part) == SEDGE_OK && read.command == command);
    }
}

int main(void) {
    the_version();
    names();
    advice();
    known_checks();
    a_check_is_set_and_holds();
    control_words();
    control_words_without_octets();
    a_receiver_locks_and_opens();
    a_receiver_waits_for_a_buffer();
    a_receiver_reports();
    the_table();
    control_frames_without_data();
    damaged_receivers();
    refusals_of_a_receiver();
    a_sender_sends_again();
    a_sender_gives_up();
    what_was_accepted();
    the_directives();
    directives_by_number();
    refusals_of_a_sender();
    damaged_senders();
    damaged_senders_without_units();
    telecommand_frames();
    refused_telecommand_frames();
    a_wrong_octet();
    many_telecommand_frames();
    unwritten_telecommand_frames();
    space_packets();
    refused_packets();
    packets_that_are_missing();
    unwritten_packets();
    telemetry_frames();
    refused_telemetry_frames();
    unwritten_telemetry_frames();
    packets_from_segments();
    packets_in_blocks();
    damaged_maps();
    segments_of_packets();
    octets_that_are_not_cut();
    printf(failures ? "%d failed\n" : "all as wanted\n", failures);
    return failures != 0;
}
