/* A second statement of the core in C: FARM-1, FOP-1, the CLCW and the decoders, written independently of the crates
 * and as plainly as possible. c/check_equal and c/fuzz compare the portable C with it. */
#ifndef REFERENCE_H
#define REFERENCE_H
#include "sedgechisel.h"
#define R8(x) ((uint8_t)(x))

/* ---- FARM-1 (232.1-B-2, section 6). ---- */
static bool ref_farm_good(const struct sedge_farm *f) {
    return f->width >= 2 && f->width % 2 == 0 && f->lockout <= 1 && f->wait <= 1 && f->retransmit <= 1 &&
           (f->wait == 0 || f->retransmit == 1) && f->farm_b <= 3;
}

static uint8_t ref_farm_mode(const struct sedge_farm *f) {
    return f->lockout ? SEDGE_FARM_LOCKOUT : f->wait ? SEDGE_FARM_WAIT : SEDGE_FARM_OPEN;
}

static uint8_t ref_farm_open(struct sedge_farm *f, uint8_t width, uint8_t vr) {
    if (width < 2 || width % 2 != 0) return SEDGE_COP_WIDTH;
    *f = (struct sedge_farm){width, vr, 0, 0, 0, 0};
    return 0;
}

static uint8_t ref_farm_ad(struct sedge_farm *f, uint8_t n, bool buffer_free) {
    if (!ref_farm_good(f)) return SEDGE_DAMAGED;
    uint8_t d = R8(n - f->vr), half = f->width / 2, mode = ref_farm_mode(f);
    if (mode == SEDGE_FARM_LOCKOUT) return SEDGE_DISCARDED;
    if (d >= half && d < 256 - half) {
        f->lockout = 1;
        return SEDGE_OUTSIDE;
    }
    if (mode == SEDGE_FARM_WAIT) return SEDGE_DISCARDED;
    if (d >= half) return SEDGE_BEHIND;
    if (d > 0) {
        f->retransmit = 1;
        return SEDGE_AHEAD;
    }
    if (!buffer_free) {
        f->retransmit = 1;
        f->wait = 1;
        return SEDGE_NO_BUFFER;
    }
    f->vr = R8(f->vr + 1);
    f->retransmit = 0;
    return SEDGE_ACCEPTED;
}

static uint8_t ref_farm_bd(struct sedge_farm *f) {
    if (!ref_farm_good(f)) return SEDGE_DAMAGED;
    f->farm_b = (f->farm_b + 1) % 4;
    return 0;
}

static uint8_t ref_farm_unlock(struct sedge_farm *f) {
    if (!ref_farm_good(f)) return SEDGE_DAMAGED;
    f->farm_b = (f->farm_b + 1) % 4;
    f->retransmit = f->wait = f->lockout = 0;
    return 0;
}

static uint8_t ref_farm_set_vr(struct sedge_farm *f, uint8_t vr) {
    if (!ref_farm_good(f)) return SEDGE_DAMAGED;
    f->farm_b = (f->farm_b + 1) % 4;
    if (f->lockout) return 0;
    f->retransmit = f->wait = 0;
    f->vr = vr;
    return 0;
}

static uint8_t ref_farm_released(struct sedge_farm *f) {
    if (!ref_farm_good(f)) return SEDGE_DAMAGED;
    f->wait = 0;
    return 0;
}

static uint8_t ref_farm_control_word(const struct sedge_farm *f, uint8_t vcid, struct sedge_clcw *w) {
    if (!ref_farm_good(f)) return SEDGE_DAMAGED;
    if (vcid > 63) return SEDGE_CLCW_RANGE;
    *w = (struct sedge_clcw){0, vcid, R8(f->lockout * 32 + f->wait * 16 + f->retransmit * 8), f->farm_b, f->vr};
    return 0;
}

static uint8_t ref_farm_state(const struct sedge_farm *f) {
    return ref_farm_good(f) ? ref_farm_mode(f) : SEDGE_DAMAGED;
}

/* ---- FOP-1 (232.1-B-2, section 5; sedgechisel.h at struct sedge_fop). ---- */
static bool ref_fop_good(const struct sedge_fop *f) {
    uint8_t s = f->state, ahead = R8(f->vs - f->nn);
    bool runs = f->ticks > 0;
    if (f->timer < 1 || f->room < 1 || f->room > 127 || s < 1 || s > 6 || f->waiting > 1 || f->sent > f->room ||
        f->due > f->sent || f->window < 1 || f->window > f->room || f->limit < 1 || f->count < 1 || f->control > 4)
        return false;
    if (ahead > f->room || (s <= 5 && f->sent != ahead)) return false;
    if ((s >= 4 && f->sent != 0) || ((s == 2 || s == 3) && f->sent == 0) || (s == 6 && f->waiting)) return false;
    if (s <= 3 && runs != (f->sent > 0)) return false;
    if (s == 4 && !runs) return false;
    if (s == 6 && runs) return false;
    if (s == 5 && (f->control == SEDGE_CONTROL_UNLOCK_SENT || f->control == SEDGE_CONTROL_SET_VR_SENT) && !runs)
        return false;
    if ((s == 5) != (f->control != SEDGE_CONTROL_IDLE)) return false;
    return f->vr == (f->control >= SEDGE_CONTROL_SET_VR_DUE ? f->vs : 0);
}

static uint8_t ref_alert(struct sedge_fop *f, uint8_t alert) {
    f->sent = f->due = f->waiting = f->control = f->vr = 0;
    f->ticks = 0;
    f->state = 6;
    return alert;
}

static void ref_repeat(struct sedge_fop *f) {
    f->due = f->sent;
    f->count++;
    f->ticks = f->timer;
}

static uint8_t ref_ack(struct sedge_fop *f, uint8_t v) {
    uint8_t gone = R8(v - f->nn);
    f->sent = R8(f->sent - gone);
    if (f->due > f->sent) f->due = f->sent;
    f->nn = v;
    return gone;
}

static uint8_t ref_fop_clcw(struct sedge_fop *f, uint8_t vcid, const struct sedge_clcw *word, uint8_t *released) {
    if (word->vcid != vcid) return SEDGE_ABSENT;
    if (!ref_fop_good(f)) return SEDGE_DAMAGED;
    bool L = (word->flags & SEDGE_CLCW_LOCKOUT) != 0, w = (word->flags & SEDGE_CLCW_WAIT) != 0,
         t = (word->flags & SEDGE_CLCW_RETRANSMIT) != 0;
    uint8_t v = word->value;
    *released = 0;
    if (f->state == 6) return 0;
    if (f->state == 5) {
        if (!L && !w && !t && v == f->vs) {
            f->ticks = 0;
            f->control = f->vr = 0;
            f->state = 1;
        }
        return 0;
    }
    if (f->state == 4) {
        if (L) return ref_alert(f, SEDGE_ALERT_LOCKOUT);
        if (v != f->vs) return ref_alert(f, SEDGE_ALERT_NNR);
        if (t) return ref_alert(f, SEDGE_ALERT_SYNCH);
        if (w) return ref_alert(f, SEDGE_ALERT_CLCW);
        f->ticks = 0;
        f->state = 1;
        return 0;
    }
    if (L) return ref_alert(f, SEDGE_ALERT_LOCKOUT);
    if (R8(v - f->nn) > R8(f->vs - f->nn)) return ref_alert(f, SEDGE_ALERT_NNR);
    if (!t && w) return ref_alert(f, SEDGE_ALERT_CLCW);
    if (t && v == f->vs) return ref_alert(f, SEDGE_ALERT_SYNCH);
    if (!t && v == f->nn) return f->state == 1 ? 0 : ref_alert(f, SEDGE_ALERT_SYNCH);
    if (!t) {
        *released = ref_ack(f, v);
        f->count = 1;
        f->ticks = f->sent == 0 ? 0 : f->timer;
        f->state = 1;
        return 0;
    }
    if (v != f->nn) {
        *released = ref_ack(f, v);
        f->count = 1;
        if (f->limit == 1) return ref_alert(f, SEDGE_ALERT_LIMIT);
        if (w)
            f->state = 3;
        else {
            ref_repeat(f);
            f->state = 2;
        }
        return 0;
    }
    if (f->limit == 1) return ref_alert(f, SEDGE_ALERT_LIMIT);
    if (w)
        f->state = 3;
    else if (f->state != 2) {
        if (f->count < f->limit) ref_repeat(f);
        f->state = 2;
    }
    return 0;
}

static uint8_t ref_fop_tick(struct sedge_fop *f) {
    if (!ref_fop_good(f)) return SEDGE_DAMAGED;
    if (f->ticks == 0) return 0;
    f->ticks--;
    if (f->ticks > 0) return 0;
    if (f->state == 4 || f->count >= f->limit) return ref_alert(f, SEDGE_ALERT_TIMER);
    if (f->state <= 2)
        ref_repeat(f);
    else {
        if (f->control == SEDGE_CONTROL_UNLOCK_SENT) f->control = SEDGE_CONTROL_UNLOCK_DUE;
        if (f->control == SEDGE_CONTROL_SET_VR_SENT) f->control = SEDGE_CONTROL_SET_VR_DUE;
        f->count++;
        f->ticks = f->timer;
    }
    return 0;
}

static uint8_t ref_fop_directive(struct sedge_fop *f, uint8_t directive, uint16_t value) {
    if (!ref_fop_good(f) || directive < 1 || directive > 9) return SEDGE_DAMAGED;
    if ((directive == SEDGE_INIT_SET_VR || directive == SEDGE_SET_VS) && value > 255) return SEDGE_DAMAGED;
    if (directive <= 4 || directive == SEDGE_SET_VS) {
        if (f->state != 6) return SEDGE_COP_WRONG_STATE;
    }
    if (directive == SEDGE_TERMINATE && f->state == 6) return SEDGE_COP_WRONG_STATE;
    if (directive == SEDGE_SET_WINDOW && (value < 1 || value > f->room)) return SEDGE_COP_WINDOW;
    if (directive == SEDGE_SET_LIMIT && (value < 1 || value > 255)) return SEDGE_COP_LIMIT;
    if (directive == SEDGE_SET_TIMER && value < 1) return SEDGE_COP_TIMER;
    if (directive <= 4) {
        f->count = 1;
        f->nn = f->vs;
    }
    switch (directive) {
    case SEDGE_INIT_WITHOUT_CHECK: f->state = 1; break;
    case SEDGE_INIT_WITH_CHECK:
        f->ticks = f->timer;
        f->state = 4;
        break;
    case SEDGE_INIT_UNLOCK:
        f->control = SEDGE_CONTROL_UNLOCK_DUE;
        f->state = 5;
        break;
    case SEDGE_INIT_SET_VR:
        f->vs = f->nn = f->vr = R8(value);
        f->control = SEDGE_CONTROL_SET_VR_DUE;
        f->state = 5;
        break;
    case SEDGE_TERMINATE: (void)ref_alert(f, 0); break;
    case SEDGE_SET_VS: f->vs = f->nn = R8(value); break;
    case SEDGE_SET_WINDOW: f->window = R8(value); break;
    case SEDGE_SET_LIMIT: f->limit = R8(value); break;
    default: f->timer = value; break;
    }
    return 0;
}

static uint8_t ref_fop_submit(struct sedge_fop *f) {
    if (!ref_fop_good(f)) return SEDGE_DAMAGED;
    if (f->state == 6) return SEDGE_COP_NOT_OPEN;
    if (f->waiting) return SEDGE_COP_BUSY;
    f->waiting = 1;
    return 0;
}

static uint8_t ref_fop_next(struct sedge_fop *f, uint8_t *number) {
    if (!ref_fop_good(f)) return SEDGE_DAMAGED;
    *number = 0;
    if (f->control == SEDGE_CONTROL_UNLOCK_DUE) {
        f->control = SEDGE_CONTROL_UNLOCK_SENT;
        f->ticks = f->timer;
        return SEDGE_NEXT_UNLOCK;
    }
    if (f->control == SEDGE_CONTROL_SET_VR_DUE) {
        f->control = SEDGE_CONTROL_SET_VR_SENT;
        f->ticks = f->timer;
        *number = f->vr;
        return SEDGE_NEXT_SET_VR;
    }
    if (f->state > 2) return SEDGE_NEXT_NOTHING;
    if (f->due > 0) {
        *number = R8(f->vs - f->due);
        f->due--;
        f->ticks = f->timer;
        return SEDGE_NEXT_AGAIN;
    }
    if (f->waiting && R8(f->vs - f->nn) < f->window) {
        if (f->sent == 0) f->count = 1;
        *number = f->vs;
        f->vs++;
        f->sent++;
        f->waiting = 0;
        f->ticks = f->timer;
        return SEDGE_NEXT_FIRST;
    }
    return SEDGE_NEXT_NOTHING;
}

static uint8_t ref_fop_open(struct sedge_fop *f, uint8_t width, uint8_t window, uint8_t limit, uint16_t timer) {
    if (width < 2 || width % 2 != 0) return SEDGE_COP_WIDTH;
    if (window < 1 || window > width / 2) return SEDGE_COP_WINDOW;
    if (limit < 1) return SEDGE_COP_LIMIT;
    if (timer < 1) return SEDGE_COP_TIMER;
    *f =
        (struct sedge_fop){.timer = timer, .room = width / 2, .state = 6, .window = window, .limit = limit, .count = 1};
    return 0;
}

static uint8_t ref_accepted_beyond(uint8_t nn, uint8_t vs, uint8_t value, uint8_t *accepted) {
    if (nn == vs) {
        *accepted = 0;
        return 0;
    }
    if (R8(value - nn) > R8(vs - nn)) return SEDGE_ABSENT;
    *accepted = R8(value - nn);
    return 0;
}

static uint8_t ref_fop_accepted_beyond(const struct sedge_fop *f, uint8_t value, uint8_t *accepted) {
    if (!ref_fop_good(f)) return SEDGE_DAMAGED;
    return ref_accepted_beyond(f->nn, f->vs, value, accepted);
}

/* ---- The control word (232.0-B-4, 4.2). ---- */
static uint8_t ref_clcw_decode(const uint8_t *o, size_t count, struct sedge_clcw *w) {
    if (count != 4) return SEDGE_WRONG_COUNT;
    uint32_t x = (uint32_t)o[0] << 24 | (uint32_t)o[1] << 16 | (uint32_t)o[2] << 8 | o[3];
    if (x >> 31 != 0) return SEDGE_CLCW_KIND;
    if ((x >> 29 & 3) != 0) return SEDGE_CLCW_VERSION;
    if ((x >> 24 & 3) != 1) return SEDGE_CLCW_COP;
    if ((x >> 16 & 3) != 0 || (x >> 8 & 1) != 0) return SEDGE_CLCW_SPARE;
    *w = (struct sedge_clcw){R8(x >> 26 & 7), R8(x >> 18 & 63), R8(x >> 8 & 0xf8), R8(x >> 9 & 3), R8(x)};
    return 0;
}

static uint8_t ref_clcw_encode(const struct sedge_clcw *w, uint8_t *out, size_t room) {
    if (room != 4) return SEDGE_WRONG_COUNT;
    if (w->status > 7 || w->vcid > 63 || (w->flags & 7) != 0 || w->farm_b > 3) return SEDGE_CLCW_RANGE;
    out[0] = R8(w->status << 2 | 1);
    out[1] = R8(w->vcid << 2);
    out[2] = R8(w->flags | w->farm_b << 1);
    out[3] = w->value;
    return 0;
}

/* ---- The FECF; a model of it may stand in its place. ---- */
#ifndef REF_CRC
static uint16_t ref_crc(const uint8_t *o, size_t count) {
    uint16_t r = 0xffff;
    for (size_t i = 0; i < count; i++) {
        r = (uint16_t)(r ^ o[i] << 8);
        for (int k = 0; k < 8; k++) r = (uint16_t)(r & 0x8000 ? r << 1 ^ 0x1021 : r << 1);
    }
    return r;
}

#define REF_CRC ref_crc
#endif

/* ---- Telecommand frames (232.0-B-4, 4.1). ---- */
static uint8_t ref_tc_declared(const uint8_t *o, size_t count, bool checked, size_t *total) {
    if (count < 5) return SEDGE_TC_SHORT;
    size_t n = ((size_t)(o[2] & 3) << 8 | o[3]) + 1;
    if (n < 5 || (checked && n < 7)) return SEDGE_TC_LENGTH;
    *total = n;
    return 0;
}

static uint8_t ref_tc_decode(const uint8_t *o, size_t count, bool checked, struct sedge_tc_frame *f,
                             struct sedge_part *data) {
    if (count < 5) return SEDGE_TC_SHORT;
    if (o[0] >> 6 != 0) return SEDGE_TC_VERSION;
    bool bypass = o[0] >> 5 & 1, control = o[0] >> 4 & 1;
    if (control && !bypass) return SEDGE_TC_RESERVED_TYPE;
    if ((o[0] >> 2 & 3) != 0) return SEDGE_TC_SPARE;
    size_t n = ((size_t)(o[2] & 3) << 8 | o[3]) + 1, tail = checked ? 2 : 0;
    if (n != count || n < 5 + tail) return SEDGE_TC_LENGTH;
    if (checked && REF_CRC(o, count - 2) != (uint16_t)(o[count - 2] << 8 | o[count - 1])) return SEDGE_TC_CHECK;
    if (bypass && o[4] != 0) return SEDGE_TC_BYPASS_NUMBER;
    size_t field = count - 5 - tail;
    struct sedge_tc_frame g = {.scid = (uint16_t)((o[0] & 3) << 8 | o[1]), .vcid = R8(o[2] >> 2)};
    if (control) {
        g.kind = SEDGE_TC_BC;
        if (field == 0) return SEDGE_TC_EMPTY_DATA;
        if (field == 1 && o[5] == 0)
            g.command = SEDGE_UNLOCK;
        else if (field == 3 && o[5] == 0x82 && o[6] == 0) {
            g.command = SEDGE_SET_VR;
            g.vr = o[7];
        } else
            return SEDGE_TC_COMMAND;
        *data = (struct sedge_part){0, 0};
    } else {
        if (field < 2) return SEDGE_TC_EMPTY_DATA;
        g.kind = bypass ? SEDGE_TC_BD : SEDGE_TC_AD;
        g.n = o[4];
        g.flags = R8(o[5] >> 6);
        g.map = o[5] & 63;
        *data = (struct sedge_part){6, field - 1};
    }
    *f = g;
    return 0;
}

/* ---- Space packets (133.0-B-2, 4.1). ---- */
static uint8_t ref_packet_declared(const uint8_t *o, size_t count, size_t *total) {
    if (count < 6) return SEDGE_PACKET_TRUNCATED;
    if (o[0] >> 5 != 0) return SEDGE_PACKET_VERSION;
    if ((o[0] & 8) && ((o[0] & 7) << 8 | o[1]) == 2047) return SEDGE_PACKET_IDLE_WITH_SECONDARY;
    *total = ((size_t)o[4] << 8 | o[5]) + 7;
    return 0;
}

static uint8_t ref_packet_decode(const uint8_t *o, size_t count, struct sedge_packet *p, struct sedge_part *data) {
    size_t total;
    uint8_t fault = ref_packet_declared(o, count, &total);
    if (fault) return fault;
    if (count < total) return SEDGE_PACKET_TRUNCATED;
    *p = (struct sedge_packet){.apid = (uint16_t)((o[0] & 7) << 8 | o[1]),
                               .kind = o[0] >> 4 & 1,
                               .secondary = o[0] >> 3 & 1,
                               .flags = R8(o[2] >> 6),
                               .count = (uint16_t)((o[2] & 63) << 8 | o[3])};
    *data = (struct sedge_part){6, total - 6};
    return 0;
}

/* The part is where the last packet was; it goes on to the next (map: any packet; tm: the next that is not idle). */
static bool ref_map_packet(const uint8_t *o, size_t count, struct sedge_part *part) {
    if (part->from > count || part->count > count - part->from) return false;
    size_t at = part->from + part->count, total;
    if (ref_packet_declared(o + at, count - at, &total) || total > count - at) return false;
    *part = (struct sedge_part){at, total};
    return true;
}

static bool ref_tm_packet(const uint8_t *o, size_t count, struct sedge_part *part) {
    struct sedge_part p = *part;
    while (ref_map_packet(o, count, &p))
        if (((o[p.from] & 7) << 8 | o[p.from + 1]) != 2047) {
            *part = p;
            return true;
        }
    return false;
}

/* ---- Telemetry frames (132.0-B-3, 4.1). ---- */
static uint8_t ref_tm_decode(const uint8_t *o, size_t count, size_t length, struct sedge_tm_frame *f,
                             struct sedge_part *data) {
    if (length < 16 || length > 2048 || count != length) return SEDGE_TM_LENGTH;
    if (o[0] >> 6 != 0) return SEDGE_TM_VERSION;
    if (REF_CRC(o, count - 2) != (uint16_t)(o[count - 2] << 8 | o[count - 1])) return SEDGE_TM_CHECK;
    if (o[4] >> 3 != 3) return SEDGE_TM_STATUS;
    uint16_t pointer = (uint16_t)((o[4] & 7) << 8 | o[5]);
    if (pointer < 2046 && pointer >= length - 12) return SEDGE_TM_POINTER;
    if ((o[1] & 1) == 0) return SEDGE_TM_NO_OCF;
    *f = (struct sedge_tm_frame){.scid = (uint16_t)((o[0] & 63) << 4 | o[1] >> 4),
                                 .pointer = pointer,
                                 .vcid = o[1] >> 1 & 7,
                                 .mc_count = o[2],
                                 .vc_count = o[3]};
    for (int i = 0; i < 4; i++) f->ocf[i] = o[length - 6 + i];
    *data = (struct sedge_part){6, length - 12};
    return 0;
}
#endif
