/* The rules of FOP-1 in plain C (docs/PROFILE.md), over the struct of the library, for a sender in S1 to S6. With
 * TESTED each call first tests, as the header states, that the fields are those of a sender; without, it does not test
 * them. */
#include "plain.h"

#ifdef TESTED
#define CALL(name) tested_fop_##name
#define TEST(fop) if (!is_sender(fop)) return SEDGE_DAMAGED

static bool has_ranges(const struct sedge_fop *fop)
{
    if (fop->state < SEDGE_FOP_S1 || fop->state > SEDGE_FOP_S6 || fop->waiting > 1 || fop->control > SEDGE_CONTROL_SET_VR_SENT)
        return false;
    if (fop->room > 127 || fop->sent > fop->room || fop->due > fop->sent || fop->window < 1 || fop->window > fop->room)
        return false;
    if (fop->limit < 1 || fop->timer < 1 || fop->count < 1 || (uint8_t)(fop->vs - fop->nn) > fop->room)
        return false;
    return fop->control >= SEDGE_CONTROL_SET_VR_DUE || fop->vr == 0;
}

static bool is_commanding(const struct sedge_fop *fop)
{
    if (fop->control == SEDGE_CONTROL_IDLE || (fop->control >= SEDGE_CONTROL_SET_VR_DUE && fop->vr != fop->vs))
        return false;
    return fop->control == SEDGE_CONTROL_UNLOCK_DUE || fop->control == SEDGE_CONTROL_SET_VR_DUE || fop->ticks != 0;
}

static bool is_sender(const struct sedge_fop *fop)
{
    const bool runs = fop->ticks != 0, is_idle = fop->control == SEDGE_CONTROL_IDLE;
    const bool is_numbered = (uint8_t)(fop->vs - fop->nn) == fop->sent;
    if (!has_ranges(fop))
        return false;
    switch (fop->state) {
    case SEDGE_FOP_S1:
        return is_numbered && is_idle && runs == (fop->sent > 0);
    case SEDGE_FOP_S2:
    case SEDGE_FOP_S3:
        return is_numbered && is_idle && runs && fop->sent > 0;
    case SEDGE_FOP_S4:
        return is_numbered && is_idle && runs && fop->sent == 0;
    case SEDGE_FOP_S5:
        return is_numbered && fop->sent == 0 && is_commanding(fop);
    default:
        return fop->sent == 0 && fop->waiting == 0 && is_idle && !runs;
    }
}
#else
#define CALL(name) plain_fop_##name
#define TEST(fop)
#endif

static void restart(struct sedge_fop *fop)
{
    fop->ticks = fop->timer;
}

static uint8_t give_up(struct sedge_fop *fop, uint8_t alert)
{
    fop->state = SEDGE_FOP_S6;
    fop->ticks = 0;
    fop->waiting = 0;
    fop->sent = 0;
    fop->due = 0;
    fop->control = SEDGE_CONTROL_IDLE;
    fop->vr = 0;
    return alert;
}

/* All units sent are due again. */
static void repeat(struct sedge_fop *fop)
{
    fop->due = fop->sent;
    fop->count++;
    restart(fop);
}

uint8_t CALL(submit)(struct sedge_fop *fop)
{
    TEST(fop);
    if (fop->state == SEDGE_FOP_S6)
        return SEDGE_COP_NOT_OPEN;
    if (fop->waiting)
        return SEDGE_COP_BUSY;
    fop->waiting = 1;
    return SEDGE_OK;
}

uint8_t CALL(next)(struct sedge_fop *fop, uint8_t *number)
{
    TEST(fop);
    *number = 0;
    if (fop->control == SEDGE_CONTROL_UNLOCK_DUE) {
        fop->control = SEDGE_CONTROL_UNLOCK_SENT;
        restart(fop);
        return SEDGE_NEXT_UNLOCK;
    }
    if (fop->control == SEDGE_CONTROL_SET_VR_DUE) {
        fop->control = SEDGE_CONTROL_SET_VR_SENT;
        restart(fop);
        *number = fop->vr;
        return SEDGE_NEXT_SET_VR;
    }
    if (fop->state != SEDGE_FOP_S1 && fop->state != SEDGE_FOP_S2)
        return SEDGE_NEXT_NOTHING;
    if (fop->due != 0) {
        *number = (uint8_t)(fop->nn + (fop->sent - fop->due));
        fop->due--;
        restart(fop);
        return SEDGE_NEXT_AGAIN;
    }
    if (!fop->waiting || fop->sent >= fop->window)
        return SEDGE_NEXT_NOTHING;
    *number = fop->vs;
    if (fop->sent == 0)
        fop->count = 1;
    fop->waiting = 0;
    fop->sent++;
    fop->vs++;
    restart(fop);
    return SEDGE_NEXT_FIRST;
}

/* Units are asked for again. */
static uint8_t ask_again(struct sedge_fop *fop, bool waits, bool repeats)
{
    if (fop->limit == 1)
        return give_up(fop, SEDGE_ALERT_LIMIT);
    if (waits) {
        fop->state = SEDGE_FOP_S3;
        return SEDGE_NO_ALERT;
    }
    if (repeats)
        repeat(fop);
    fop->state = SEDGE_FOP_S2;
    return SEDGE_NO_ALERT;
}

/* The units before the number are acknowledged. */
static uint8_t acknowledge(struct sedge_fop *fop, uint8_t value)
{
    uint8_t gone = (uint8_t)(value - fop->nn);
    fop->sent -= gone;
    if (fop->due > fop->sent)
        fop->due = fop->sent;
    fop->nn = value;
    fop->count = 1;
    return gone;
}

static uint8_t report_while_active(struct sedge_fop *fop, const struct sedge_clcw *word, uint8_t *released)
{
    bool asks = word->flags & SEDGE_CLCW_RETRANSMIT, waits = word->flags & SEDGE_CLCW_WAIT;
    if (word->flags & SEDGE_CLCW_LOCKOUT)
        return give_up(fop, SEDGE_ALERT_LOCKOUT);
    if ((uint8_t)(word->value - fop->nn) > (uint8_t)(fop->vs - fop->nn))
        return give_up(fop, SEDGE_ALERT_NNR);
    if (!asks && waits)
        return give_up(fop, SEDGE_ALERT_CLCW);
    if (asks && word->value == fop->vs)
        return give_up(fop, SEDGE_ALERT_SYNCH);
    if (!asks && word->value == fop->nn)
        return fop->state == SEDGE_FOP_S1 ? SEDGE_NO_ALERT : give_up(fop, SEDGE_ALERT_SYNCH);
    if (!asks) {
        *released = acknowledge(fop, word->value);
        fop->ticks = fop->sent == 0 ? 0 : fop->timer;
        fop->state = SEDGE_FOP_S1;
        return SEDGE_NO_ALERT;
    }
    if (word->value != fop->nn) {
        *released = acknowledge(fop, word->value);
        return ask_again(fop, waits, true);
    }
    return ask_again(fop, waits, fop->state != SEDGE_FOP_S2 && fop->count < fop->limit);
}

static uint8_t report_in_s4(struct sedge_fop *fop, const struct sedge_clcw *word)
{
    if (word->flags & SEDGE_CLCW_LOCKOUT)
        return give_up(fop, SEDGE_ALERT_LOCKOUT);
    if (word->value != fop->vs)
        return give_up(fop, SEDGE_ALERT_NNR);
    if (word->flags & SEDGE_CLCW_RETRANSMIT)
        return give_up(fop, SEDGE_ALERT_SYNCH);
    if (word->flags & SEDGE_CLCW_WAIT)
        return give_up(fop, SEDGE_ALERT_CLCW);
    fop->state = SEDGE_FOP_S1;
    fop->ticks = 0;
    return SEDGE_NO_ALERT;
}

uint8_t CALL(report)(struct sedge_fop *fop, uint8_t vcid, const struct sedge_clcw *word, uint8_t *released)
{
    if (word->vcid != vcid)
        return SEDGE_ABSENT;
    TEST(fop);
    *released = 0;
    switch (fop->state) {
    case SEDGE_FOP_S1:
    case SEDGE_FOP_S2:
    case SEDGE_FOP_S3:
        return report_while_active(fop, word, released);
    case SEDGE_FOP_S4:
        return report_in_s4(fop, word);
    case SEDGE_FOP_S5:
        if (!(word->flags & (SEDGE_CLCW_LOCKOUT | SEDGE_CLCW_WAIT | SEDGE_CLCW_RETRANSMIT)) && word->value == fop->vs) {
            fop->state = SEDGE_FOP_S1;
            fop->ticks = 0;
            fop->control = SEDGE_CONTROL_IDLE;
            fop->vr = 0;
        }
    }
    return SEDGE_NO_ALERT;
}

uint8_t CALL(tick)(struct sedge_fop *fop)
{
    TEST(fop);
    if (fop->ticks == 0)
        return SEDGE_NO_ALERT;
    if (--fop->ticks > 0)
        return SEDGE_NO_ALERT;
    if (fop->state == SEDGE_FOP_S4 || fop->count >= fop->limit)
        return give_up(fop, SEDGE_ALERT_TIMER);
    if (fop->state == SEDGE_FOP_S1 || fop->state == SEDGE_FOP_S2) {
        repeat(fop);
        return SEDGE_NO_ALERT;
    }
    if (fop->control == SEDGE_CONTROL_UNLOCK_SENT)
        fop->control = SEDGE_CONTROL_UNLOCK_DUE;
    if (fop->control == SEDGE_CONTROL_SET_VR_SENT)
        fop->control = SEDGE_CONTROL_SET_VR_DUE;
    fop->count++;
    restart(fop);
    return SEDGE_NO_ALERT;
}
