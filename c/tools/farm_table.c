/* Writes the table of the receiver FARM-1, tables/farm.csv, from what the calls of the library do: with each width, in
 * each state with all flags that it can have, for each number of a frame (CCSDS 232.1-B-2, 6 and table 6-1). */
#include <sedgechisel.h>
#include "table.h"

enum { AD_FREE, AD_FULL, AD_AHEAD, AD_BEHIND, AD_OUTSIDE, BD, UNLOCK, SET_VR, INVALID, RELEASED, REPORT, KINDS };
enum { VR, LOCKOUT, WAIT, RETRANSMIT, FARM_B, COLUMNS };
enum { TAKEN = 100, REPORTED, DONE };

static const struct kind kinds[KINDS] = {
    {"E1", "Type-AD; N(S) = V(R); a buffer is free", "", {0}, "1"},
    {"E2", "Type-AD; N(S) = V(R); no buffer is free", "", {0}, ""},
    {"E3", "Type-AD; N(S) in the positive window; above V(R)", "", {0}, ""},
    {"E4", "Type-AD; N(S) in the negative window", "", {0}, ""},
    {"E5", "Type-AD; N(S) in neither window", "", {0}, ""},
    {"E6", "Type-BD", "", {0}, ""},
    {"E7", "Type-BC; Unlock", "", {0}, ""},
    {"E8", "Type-BC; Set V(R) to x", "", {0}, ""},
    {"E9", "an invalid frame", "", {0}, ""},
    {"E10", "a buffer is released", "", {0}, ""},
    {"E11", "a report is due", "", {0}, ""},
};

static const struct field fields[COLUMNS] = {
    {"vr", {"stays", "V(R)+1", "x"}},
    {"lockout", {"stays", "0", "1"}},
    {"wait", {"stays", "0", "1"}},
    {"retransmit", {"stays", "0", "1"}},
    {"farm_b", {"stays", "FARM-B+1"}},
};

static const char *const modes[] = {"Open", "Wait", "Lockout"};
static struct cell cells[KINDS][3];

static unsigned flag(uint8_t before, uint8_t after) {
    return bit(after == before, 0) | bit(after == 0, 1) | bit(after == 1, 2);
}

/* A call was made of this receiver, with this number, and left the other. */
static void keep(int kind, const struct sedge_farm *before, const struct sedge_farm *after, uint8_t x, int answer) {
    unsigned fits[FIELDS] = {0};
    note(kind, sedge_farm_state(before) + 1);
    if (answer == SEDGE_DAMAGED || after->width != before->width) fail(kinds[kind].what, "no call of a receiver");
    fits[VR] = bit(after->vr == before->vr, 0) | bit(after->vr == (uint8_t)(before->vr + 1), 1)
               | bit(after->vr == x, 2);
    fits[LOCKOUT] = flag(before->lockout, after->lockout);
    fits[WAIT] = flag(before->wait, after->wait);
    fits[RETRANSMIT] = flag(before->retransmit, after->retransmit);
    fits[FARM_B] = bit(after->farm_b == before->farm_b, 0) | bit(after->farm_b == (before->farm_b + 1) % 4, 1);
    see(&cells[kind][sedge_farm_state(before)], kinds[kind].what, sedge_farm_state(after), answer, fits);
}

/* Where the number of a frame is; half is each of both windows. */
static int place_of(const struct sedge_farm *farm, uint8_t n, bool buffer_free) {
    uint8_t ahead = (uint8_t)(n - farm->vr), half = farm->width / 2;
    if (ahead == 0) return buffer_free ? AD_FREE : AD_FULL;
    if (ahead < half) return AD_AHEAD;
    return ahead >= 256 - half ? AD_BEHIND : AD_OUTSIDE;
}

static void try_numbers(const struct sedge_farm *before) {
    unsigned k;
    for (k = 0; k < 512; k++) {
        struct sedge_farm after = *before;
        uint8_t n = (uint8_t)(k / 2);
        bool buffer_free = k % 2 == 0;
        keep(place_of(before, n, buffer_free), before, &after, n, sedge_farm_ad(&after, n, buffer_free));
        after = *before;
        keep(SET_VR, before, &after, n, sedge_farm_set_vr(&after, n) == SEDGE_OK ? DONE : SEDGE_DAMAGED);
    }
}

/* A frame whose FECF is wrong is refused before the receiver is asked. */
static void try_invalid(const struct sedge_farm *before) {
    static const uint8_t octets[] = {0x30, 0x01, 0x08, 0x07, 0x00, 0x00, 0x7D, 0x86};
    struct sedge_tc_frame frame;
    struct sedge_part data;
    struct sedge_farm after = *before;
    if (sedge_tc_decode(octets, sizeof octets, true, &frame, &data) != SEDGE_TC_CHECK) sedge_farm_unlock(&after);
    keep(INVALID, before, &after, 0, DONE);
}

static void try_report(const struct sedge_farm *before) {
    struct sedge_farm after = *before;
    struct sedge_clcw word;
    int flags = before->lockout * SEDGE_CLCW_LOCKOUT + before->wait * SEDGE_CLCW_WAIT
                + before->retransmit * SEDGE_CLCW_RETRANSMIT;
    if (sedge_farm_control_word(&after, 2, &word) != SEDGE_OK || word.value != before->vr || word.flags != flags
        || word.farm_b != before->farm_b || word.vcid != 2 || word.status != 0)
        fail(kinds[REPORT].what, "not the receiver's V(R), flags and FARM-B");
    keep(REPORT, before, &after, 0, REPORTED);
}

static void try_others(const struct sedge_farm *before) {
    struct sedge_farm after = *before;
    keep(BD, before, &after, 0, sedge_farm_bd(&after) == SEDGE_OK ? TAKEN : SEDGE_DAMAGED);
    after = *before;
    keep(UNLOCK, before, &after, 0, sedge_farm_unlock(&after) == SEDGE_OK ? DONE : SEDGE_DAMAGED);
    after = *before;
    keep(RELEASED, before, &after, 0, sedge_farm_released(&after) == SEDGE_OK ? DONE : SEDGE_DAMAGED);
    try_invalid(before);
    try_report(before);
}

/* All receivers with each of these numbers for V(R); the library says which fields are those of a receiver. */
static void try_all(void) {
    static const uint8_t numbers[] = {0, 1, 100, 255};
    unsigned width, flags, farm_b, k;
    for (width = 2; width <= 254; width += 2)
        for (flags = 0; flags < 8; flags++)
            for (farm_b = 0; farm_b < 4; farm_b++)
                for (k = 0; k < sizeof numbers; k++) {
                    struct sedge_farm farm = {(uint8_t)width,           numbers[k],           (uint8_t)(flags >> 2),
                                              (uint8_t)(flags >> 1 & 1), (uint8_t)(flags & 1), (uint8_t)farm_b};
                    if (sedge_farm_state(&farm) == SEDGE_DAMAGED) continue;
                    try_numbers(&farm);
                    try_others(&farm);
                }
}

static const char *answer_of(int answer) {
    static struct sedge_text name;
    if (answer == TAKEN) return "accepted";
    if (answer == REPORTED) return "V(R); flags; FARM-B";
    if (answer == DONE) return "-";
    name = sedge_verdict_name((uint8_t)answer);
    return name.text;
}

int main(void) {
    int kind, state;
    try_all();
    if (writes_marks(kinds, KINDS)) return fflush(stdout) == 0 ? 0 : 3;
    printf("event,what,before,after,answer");
    write_names(fields, COLUMNS);
    printf(",profile_says\n");
    for (kind = 0; kind < KINDS; kind++)
        for (state = 0; state < 3; state++) {
            const struct cell *cell = &cells[kind][state];
            if (cell->seen == 0) continue;
            printf("%s,%s,%s,%s,%s", kinds[kind].event, kinds[kind].what, modes[state], modes[cell->after],
                   answer_of(cell->answer));
            write_fields(cell, kinds[kind].what, fields, COLUMNS);
            printf(",%s\n", profile_says(&kinds[kind], state));
        }
    return fflush(stdout) == 0 ? 0 : 3;
}
