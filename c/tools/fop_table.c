/* Writes the table of the sender FOP-1, tables/fop.csv, from what the calls of the library do: in each state, with many
 * values of each number, for each event of docs/PROFILE.md (CCSDS 232.1-B-2, 5 and table 5-1). */
#include <sedgechisel.h>
#include "table.h"

enum {
    E1, E2, E3, E4, E5, E6, E7, E101, E102, E8, E9, E10, E11, E12, E103, E13, E14, E15,
    OFF, RUNNING, E16, E17, E19, E20, E23, E24, E25, E27, E29, E35, E36, E36_OUT, E37, E37_OUT, E38, E38_OUT,
    PULL_UNLOCK, PULL_SET_VR, PULL_AGAIN, PULL_FIRST, PULL_NOTHING, KINDS
};
enum { VS, NN, SENT, DUE, WAITING, CONTROL, TIMER, COUNT, VALUES, COLUMNS };
enum { DONE = 0, ALERT = 100, REFUSED = 200, NEXT = 300, NOT_ASKED = 400, LAST_STATE = SEDGE_FOP_S6 };

static const struct kind kinds[KINDS] = {
    {"E1", "report: no flag; N(R) = V(S) = NN(R)", "report", {5, 0, 0, 13, 14, 16}, ""},
    {"E2", "report: no flag; N(R) = V(S); above NN(R)", "report", {6, 6, 6, 0, 0, 16}, ""},
    {"E3", "report: wait without retransmit; N(R) = V(S)", "report", {3, 3, 3, 12, 15, 16}, ""},
    {"E4", "report: retransmit; N(R) = V(S)", "report", {4, 4, 4, 11, 15, 16}, ""},
    {"E5", "report: no flag; N(R) = NN(R); below V(S)", "report", {5, 5, 5, 0, 0, 16}, ""},
    {"E6", "report: no flag; N(R) above NN(R) and below V(S)", "report", {6, 6, 6, 0, 0, 16}, "123"},
    {"E7", "report: wait without retransmit; N(R) below V(S)", "report", {3, 3, 3, 0, 0, 16}, ""},
    {"E101", "report: retransmit; limit 1; some are acknowledged", "report", {7, 7, 7, 0, 0, 16}, ""},
    {"E102", "report: retransmit; limit 1; none are acknowledged", "report", {8, 8, 8, 0, 0, 16}, ""},
    {"E8", "report: retransmit without wait; some are acknowledged", "report", {7, 7, 7, 0, 0, 16}, ""},
    {"E9", "report: retransmit and wait; some are acknowledged", "report", {7, 7, 7, 0, 0, 16}, ""},
    {"E10", "report: retransmit without wait; none are acknowledged; count below the limit", "report",
     {8, 8, 8, 0, 0, 16}, ""},
    {"E11", "report: retransmit and wait; none are acknowledged; count below the limit", "report",
     {8, 8, 8, 0, 0, 16}, ""},
    {"E12", "report: retransmit without wait; none are acknowledged; count at the limit", "report",
     {8, 8, 8, 0, 0, 16}, ""},
    {"E103", "report: retransmit and wait; none are acknowledged; count at the limit", "report",
     {8, 8, 8, 0, 0, 16}, ""},
    {"E13", "report: N(R) below NN(R) or above V(S)", "report", {2, 2, 2, 10, 15, 16}, ""},
    {"E14", "report: lockout", "report", {1, 1, 1, 9, 15, 16}, ""},
    {"E15", "report: not valid", "report", {0, 0, 0, 0, 0, 0}, "123456"},
    {"-", "tick: the timer is off", "tick", {0, 0, 0, 0, 0, 0}, "156"},
    {"-", "tick: ticks are left after it", "tick", {0, 0, 0, 0, 0, 0}, "12345"},
    {"E16", "tick: the timer ends; count below the limit", "tick", {1, 1, 2, 4, 3, 0}, "3"},
    {"E17", "tick: the timer ends; count at the limit", "tick", {4, 4, 4, 4, 4, 0}, ""},
    {"E19", "a unit of Type-AD; the wait queue is empty", "submission", {3, 3, 3, 3, 3, 1}, "45"},
    {"E20", "a unit of Type-AD; the wait queue holds one", "submission", {2, 2, 2, 2, 2, 0}, ""},
    {"E23", "Initiate AD Service without CLCW check", "directive", {1, 1, 1, 1, 1, 1}, "6"},
    {"E24", "Initiate AD Service with CLCW check", "directive", {2, 2, 2, 2, 2, 2}, "6"},
    {"E25", "Initiate AD Service with Unlock", "directive", {3, 3, 3, 3, 3, 3}, "6"},
    {"E27", "Initiate AD Service with Set V(R) to x", "directive", {4, 4, 4, 4, 4, 4}, "6"},
    {"E29", "Terminate AD Service", "directive", {5, 5, 5, 5, 5, 5}, "6"},
    {"E35", "Set V(S) to x", "directive", {6, 6, 6, 6, 6, 6}, ""},
    {"E36", "Set FOP_Sliding_Window_Width to x", "directive", {7, 7, 7, 7, 7, 7}, ""},
    {"E36", "Set FOP_Sliding_Window_Width to x; out of its range", "directive", {7, 7, 7, 7, 7, 7}, "123456"},
    {"E37", "Set T1_Initial to x", "directive", {9, 9, 9, 9, 9, 9}, ""},
    {"E37", "Set T1_Initial to 0", "directive", {9, 9, 9, 9, 9, 9}, "123456"},
    {"E38", "Set Transmission_Limit to x", "directive", {8, 8, 8, 8, 8, 8}, ""},
    {"E38", "Set Transmission_Limit to 0", "directive", {8, 8, 8, 8, 8, 8}, "123456"},
    {"-", "pull: Unlock is due", "pull", {0, 0, 0, 0, 1, 0}, "5"},
    {"-", "pull: Set V(R) is due", "pull", {0, 0, 0, 0, 1, 0}, "5"},
    {"-", "pull: a unit is due to be sent again", "pull", {3, 3, 0, 0, 0, 0}, ""},
    {"-", "pull: a unit waits; within the window; none is due", "pull", {4, 4, 0, 0, 0, 0}, ""},
    {"-", "pull: nothing of these", "pull", {5, 5, 5, 5, 5, 5}, "123456"},
};

static const struct field fields[COLUMNS] = {
    {"vs", {"stays", "V(S)+1", "x"}},
    {"nn", {"stays", "N(R)", "V(S)", "x"}},
    {"sent", {"stays", "0", "those not acknowledged", "one more"}},
    {"due", {"stays", "0", "all sent", "those of them not acknowledged", "one less"}},
    {"waiting", {"stays", "0", "1"}},
    {"control", {"stays", "none", "Unlock due", "Set V(R) due", "due", "sent"}},
    {"timer", {"stays", "off", "restarts", "one tick less"}},
    {"count", {"stays", "1", "2", "count+1", "1 if none was sent; else stays"}},
    {"values", {"stay", "window = x", "limit = x", "timer = x"}},
};

static struct cell cells[KINDS][STATES];

static unsigned values_set(const struct sedge_fop *a, const struct sedge_fop *b, uint16_t x) {
    bool window = a->window == b->window, limit = a->limit == b->limit, timer = a->timer == b->timer;
    return bit(window && limit && timer, 0) | bit(b->window == x && limit && timer, 1)
           | bit(window && b->limit == x && timer, 2) | bit(window && limit && b->timer == x, 3);
}

static unsigned control_set(const struct sedge_fop *a, const struct sedge_fop *b) {
    bool unlock = a->control == SEDGE_CONTROL_UNLOCK_DUE || a->control == SEDGE_CONTROL_UNLOCK_SENT;
    bool command = a->control != SEDGE_CONTROL_IDLE && a->vr == b->vr;
    return bit(a->control == b->control && a->vr == b->vr, 0) | bit(b->control == SEDGE_CONTROL_IDLE && b->vr == 0, 1)
           | bit(b->control == SEDGE_CONTROL_UNLOCK_DUE && b->vr == 0, 2)
           | bit(b->control == SEDGE_CONTROL_SET_VR_DUE && b->vr == b->vs, 3)
           | bit(command && b->control == (unlock ? SEDGE_CONTROL_UNLOCK_DUE : SEDGE_CONTROL_SET_VR_DUE), 4)
           | bit(command && b->control == (unlock ? SEDGE_CONTROL_UNLOCK_SENT : SEDGE_CONTROL_SET_VR_SENT), 5);
}

/* The words that are true of the numbers, and of the units: a is before and b after. */
static void units_set(unsigned *fits, const struct sedge_fop *a, const struct sedge_fop *b, uint16_t x, uint8_t value) {
    uint8_t left = (uint8_t)(b->vs - b->nn);
    fits[VS] = bit(b->vs == a->vs, 0) | bit(b->vs == (uint8_t)(a->vs + 1), 1) | bit(b->vs == x, 2);
    fits[NN] = bit(b->nn == a->nn, 0) | bit(b->nn == value, 1) | bit(b->nn == a->vs, 2) | bit(b->nn == x, 3);
    fits[SENT] = bit(b->sent == a->sent, 0) | bit(b->sent == 0, 1)
                 | bit(b->sent == left && (uint8_t)(b->nn - a->nn) + b->sent == a->sent, 2)
                 | bit(b->sent == a->sent + 1, 3);
    fits[DUE] = bit(b->due == a->due, 0) | bit(b->due == 0, 1) | bit(b->due == b->sent, 2)
                | bit(b->due == (a->due < b->sent ? a->due : b->sent), 3) | bit(b->due + 1 == a->due, 4);
    fits[WAITING] = bit(b->waiting == a->waiting, 0) | bit(b->waiting == 0, 1) | bit(b->waiting == 1, 2);
}

/* A call was made of sender a with the number x, or with a report of this value, and left b. */
static void keep(int kind, const struct sedge_fop *a, const struct sedge_fop *b, uint16_t x, uint8_t value,
                 int answer) {
    unsigned fits[FIELDS] = {0};
    note(kind, a->state);
    if (b->room != a->room) fail(kinds[kind].what, "another receiver");
    units_set(fits, a, b, x, value);
    fits[CONTROL] = control_set(a, b);
    fits[TIMER] = bit(b->ticks == a->ticks, 0) | bit(b->ticks == 0, 1) | bit(b->ticks == b->timer, 2)
                  | bit(b->ticks + 1 == a->ticks, 3);
    fits[COUNT] = bit(b->count == a->count, 0) | bit(b->count == 1, 1) | bit(b->count == 2, 2)
                  | bit(b->count == a->count + 1, 3) | bit(b->count == (a->sent == 0 ? 1 : a->count), 4);
    fits[VALUES] = values_set(a, b, x);
    see(&cells[kind][a->state - 1], kinds[kind].what, b->state, answer, fits);
}

/* The event of the book that a report is to this sender. */
static int report_kind(const struct sedge_fop *fop, const struct sedge_clcw *word) {
    uint8_t some = (uint8_t)(word->value - fop->nn), all = (uint8_t)(fop->vs - fop->nn);
    bool retransmit = word->flags & SEDGE_CLCW_RETRANSMIT, wait = word->flags & SEDGE_CLCW_WAIT;
    if (word->flags & SEDGE_CLCW_LOCKOUT) return E14;
    if (some > all) return E13;
    if (some == all && retransmit) return E4;
    if (some == all && wait) return E3;
    if (some == all) return all == 0 ? E1 : E2;
    if (!retransmit && wait) return E7;
    if (!retransmit) return some == 0 ? E5 : E6;
    if (fop->limit == 1) return some > 0 ? E101 : E102;
    if (some > 0) return wait ? E9 : E8;
    if (fop->count < fop->limit) return wait ? E11 : E10;
    return wait ? E103 : E12;
}

static void try_reports(const struct sedge_fop *before) {
    static const int beyond[] = {-1, 0, 1, 2, 3, 126, 127, 128};
    unsigned k, flags;
    for (k = 0; k < 16; k++)
        for (flags = 0; flags < 8; flags++) {
            struct sedge_fop after = *before;
            struct sedge_clcw word = {0, 2, (uint8_t)(flags << 3), 0, 0};
            uint8_t released = 0, alert;
            word.value = (uint8_t)((k < 8 ? before->nn : before->vs) + beyond[k % 8]);
            alert = sedge_fop_clcw(&after, 2, &word, &released);
            if (alert > SEDGE_ALERT_TERMINATED) fail("report", "refused");
            if (released != (uint8_t)(after.nn - before->nn)) fail("report", "not what NN(R) says is acknowledged");
            keep(report_kind(before, &word), before, &after, 256, word.value, alert ? ALERT + alert : DONE);
        }
}

/* Octets that are no control word are refused before the sender is asked. */
static void try_invalid(const struct sedge_fop *before) {
    static const uint8_t octets[] = {0x81, 0x08, 0x20, 0x00};
    struct sedge_clcw word = {0, 2, SEDGE_CLCW_LOCKOUT, 0, 0};
    struct sedge_fop after = *before;
    uint8_t released;
    if (sedge_clcw_decode(octets, sizeof octets, &word) != SEDGE_CLCW_KIND &&
        sedge_fop_clcw(&after, 2, &word, &released) == SEDGE_DAMAGED)
        after = *before;
    keep(E15, before, &after, 256, before->nn, NOT_ASKED);
}

static void try_tick(const struct sedge_fop *before) {
    struct sedge_fop after = *before;
    uint8_t alert = sedge_fop_tick(&after);
    int kind = before->ticks == 0 ? OFF : before->ticks > 1 ? RUNNING : before->count < before->limit ? E16 : E17;
    keep(kind, before, &after, 256, before->nn, alert ? ALERT + alert : DONE);
}

static void try_submission(const struct sedge_fop *before) {
    struct sedge_fop after = *before;
    uint8_t fault = sedge_fop_submit(&after);
    keep(before->waiting ? E20 : E19, before, &after, 256, before->nn, fault ? REFUSED + fault : DONE);
}

static void try_pull(const struct sedge_fop *before) {
    struct sedge_fop after = *before;
    static const int kind_of[] = {PULL_NOTHING, PULL_UNLOCK, PULL_SET_VR, PULL_FIRST, PULL_AGAIN};
    uint8_t number, next = sedge_fop_next(&after, &number);
    const uint8_t numbers[] = {0, 0, before->vr, before->vs, (uint8_t)(before->vs - before->due)};
    if (next > SEDGE_NEXT_AGAIN || number != numbers[next]) fail("pull", "another number");
    keep(kind_of[next], before, &after, 256, before->nn, NEXT + next);
}

static void try_directive(int kind, const struct sedge_fop *before, uint8_t directive, uint16_t x) {
    struct sedge_fop after = *before;
    uint8_t fault = sedge_fop_directive(&after, directive, x);
    int answer = fault ? REFUSED + fault : directive == SEDGE_TERMINATE ? ALERT + SEDGE_ALERT_TERMINATED : DONE;
    keep(kind, before, &after, x, before->nn, answer);
}

static void try_directives(const struct sedge_fop *before) {
    static const uint16_t numbers[] = {0, 1, 2, 5, 127, 128, 255};
    unsigned k;
    try_directive(E23, before, SEDGE_INIT_WITHOUT_CHECK, 256);
    try_directive(E24, before, SEDGE_INIT_WITH_CHECK, 256);
    try_directive(E25, before, SEDGE_INIT_UNLOCK, 256);
    try_directive(E29, before, SEDGE_TERMINATE, 256);
    for (k = 0; k < sizeof numbers / sizeof *numbers; k++) {
        uint16_t x = numbers[k];
        try_directive(E27, before, SEDGE_INIT_SET_VR, x);
        try_directive(E35, before, SEDGE_SET_VS, x);
        try_directive(x > 0 && x <= before->room ? E36 : E36_OUT, before, SEDGE_SET_WINDOW, x);
        try_directive(x > 0 ? E37 : E37_OUT, before, SEDGE_SET_TIMER, x);
        try_directive(x > 0 ? E38 : E38_OUT, before, SEDGE_SET_LIMIT, x);
    }
    try_directive(E37, before, SEDGE_SET_TIMER, 65535);
}

/* Takes a choice off the front of a number, which says which of many senders is meant. */
static uint8_t choose(unsigned long *which, const uint8_t *from, size_t count) {
    size_t place = *which % count;
    *which /= count;
    return from[place];
}

#define CHOOSE(...) choose(&which, (const uint8_t[]){__VA_ARGS__}, sizeof((const uint8_t[]){__VA_ARGS__}))

/* The choice of that number, whether there is such a sender or not; and what is left of the number, which is 0 as long
 * as there are choices. */
static struct sedge_fop choice(unsigned long which, unsigned long *left) {
    struct sedge_fop fop = {0};
    uint8_t behind;
    fop.state = CHOOSE(1, 2, 3, 4, 5, 6);
    fop.room = CHOOSE(1, 2, 3, 127);
    fop.window = CHOOSE(1, 2, 127);
    fop.limit = CHOOSE(1, 2, 255);
    fop.count = CHOOSE(1, 2, 254, 255);
    fop.timer = CHOOSE(1, 7);
    fop.ticks = CHOOSE(0, 1, 2, 7, 9);
    fop.vs = CHOOSE(0, 5, 255);
    behind = CHOOSE(0, 1, 2, 3, 127);
    fop.due = CHOOSE(0, 1, 2, 127);
    fop.waiting = CHOOSE(0, 1);
    fop.control = CHOOSE(0, 1, 2, 3, 4);
    fop.nn = (uint8_t)(fop.vs - behind);
    fop.sent = fop.state <= SEDGE_FOP_S3 ? behind : 0;
    fop.vr = fop.control >= SEDGE_CONTROL_SET_VR_DUE ? fop.vs : 0;
    *left = which;
    return fop;
}

/* All senders of these choices; the library says which fields are those of a sender. */
static void try_all(void) {
    unsigned long which, left = 0;
    for (which = 0; left == 0; which++) {
        struct sedge_fop fop = choice(which, &left), copy = fop;
        if (left != 0 || sedge_fop_tick(&copy) == SEDGE_DAMAGED) continue;
        try_reports(&fop);
        try_invalid(&fop);
        try_tick(&fop);
        try_submission(&fop);
        try_pull(&fop);
        try_directives(&fop);
    }
}

static void write_answer(int answer) {
    static const char *const nexts[] = {"nothing", "sends Unlock", "sends Set V(R)", "sends the waiting unit as V(S)",
                                        "sends the oldest due unit"};
    struct sedge_text name;
    if (answer == NOT_ASKED) {
        printf("-");
    } else if (answer >= NEXT) {
        printf("%s", nexts[answer - NEXT]);
    } else if (answer >= REFUSED) {
        name = sedge_cop_fault_name((uint8_t)(answer - REFUSED));
        printf("refused %d %s", answer - REFUSED, name.text);
    } else if (answer >= ALERT) {
        name = sedge_alert_name((uint8_t)(answer - ALERT));
        printf("alert %s", name.text);
    } else {
        printf("ok");
    }
}

int main(void) {
    int kind, state;
    try_all();
    if (writes_marks(kinds, KINDS)) return fflush(stdout) == 0 ? 0 : 3;
    printf("event,what,before,after,answer");
    write_names(fields, COLUMNS);
    printf(",rule,profile_says\n");
    for (kind = 0; kind < KINDS; kind++)
        for (state = 1; state <= LAST_STATE; state++) {
            const struct cell *cell = &cells[kind][state - 1];
            if (cell->seen == 0) continue;
            printf("%s,%s,S%d,S%d,", kinds[kind].event, kinds[kind].what, state, cell->after);
            write_answer(cell->answer);
            write_fields(cell, kinds[kind].what, fields, COLUMNS);
            if (kinds[kind].rules[state - 1] == 0)
                printf(",%s", kinds[kind].subject);
            else
                printf(",%s %d", kinds[kind].subject, kinds[kind].rules[state - 1]);
            printf(",%s\n", profile_says(&kinds[kind], state));
        }
    return fflush(stdout) == 0 ? 0 : 3;
}
