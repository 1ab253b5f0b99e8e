/* The second statement of the core in C, continued: what writes frames and packets (232.0-B-4, 4.1; 133.0-B-2, 4.1;
 * 132.0-B-3, 4.1), and the FECF of octets. Written apart from the crates, from docs/PROFILE.md and the header. */
#ifndef REFERENCE_ENCODE_H
#define REFERENCE_ENCODE_H
#include "reference.h"

static void ref_put16(uint8_t *out, size_t value) {
    out[0] = R8(value >> 8);
    out[1] = R8(value);
}

static uint8_t ref_tc_refused(const struct sedge_tc_frame *f, size_t count, size_t total) {
    bool control = f->kind == SEDGE_TC_BC;
    if (f->kind > 2 || (!control && f->flags > 3) || (control && f->command > 1)) return SEDGE_DAMAGED;
    if (f->scid > 1023 || f->vcid > 63) return SEDGE_TC_FIELD_RANGE;
    if (!control && (f->map > 63 || count == 0 || total > 1024)) return SEDGE_TC_FIELD_RANGE;
    return 0;
}

static uint8_t ref_tc_encode(const struct sedge_tc_frame *f, const uint8_t *data, size_t count, bool checked,
                             uint8_t *out, size_t room, size_t *total) {
    bool control = f->kind == SEDGE_TC_BC, sets = f->command == SEDGE_SET_VR;
    size_t n = (control ? (sets ? 8U : 6U) : count + 6) + (checked ? 2U : 0U);
    uint8_t fault = ref_tc_refused(f, count, n);
    if (fault) return fault;
    if (room < n) return SEDGE_TC_ROOM;
    ref_put16(out, (size_t)(f->kind == SEDGE_TC_AD ? 0 : control ? 0x3000 : 0x2000) + f->scid);
    ref_put16(out + 2, (size_t)f->vcid << 10 | (n - 1));
    out[4] = f->kind == SEDGE_TC_AD ? f->n : 0;
    if (control) {
        out[5] = sets ? 0x82 : 0;
        if (sets) {
            out[6] = 0;
            out[7] = f->vr;
        }
    } else {
        out[5] = R8(f->flags << 6 | f->map);
        for (size_t i = 0; i < count; i++) out[6 + i] = data[i];
    }
    if (checked) ref_put16(out + n - 2, REF_CRC(out, n - 2));
    *total = n;
    return 0;
}

static uint8_t ref_packet_encode(const struct sedge_packet *p, const uint8_t *data, size_t count, uint8_t *out,
                                 size_t room, size_t *total) {
    if (p->kind > 1 || p->secondary > 1) return SEDGE_DAMAGED;
    if (p->apid > 2047 || p->flags > 3 || p->count > 16383 || count < 1 || count > 65536)
        return SEDGE_PACKET_FIELD_RANGE;
    if (p->apid == 2047 && p->secondary) return SEDGE_PACKET_FIELD_RANGE;
    if (room < count + 6) return SEDGE_PACKET_ROOM;
    ref_put16(out, (size_t)p->kind << 12 | (size_t)p->secondary << 11 | p->apid);
    ref_put16(out + 2, (size_t)p->flags << 14 | p->count);
    ref_put16(out + 4, count - 1);
    for (size_t i = 0; i < count; i++) out[6 + i] = data[i];
    *total = count + 6;
    return 0;
}

static uint8_t ref_tm_encode(const struct sedge_tm_frame *f, const uint8_t *data, size_t count, uint8_t *out,
                             size_t room, size_t *total) {
    if (f->scid > 1023 || f->vcid > 7 || count < 4 || count > 2036) return SEDGE_TM_FIELD_RANGE;
    if (f->pointer >= count && f->pointer != 2046 && f->pointer != 2047) return SEDGE_TM_FIELD_RANGE;
    if (room < count + 12) return SEDGE_TM_ROOM;
    ref_put16(out, (size_t)f->scid << 4 | (size_t)f->vcid << 1 | 1);
    out[2] = f->mc_count;
    out[3] = f->vc_count;
    ref_put16(out + 4, 0x1800U | f->pointer);
    for (size_t i = 0; i < count; i++) out[6 + i] = data[i];
    for (size_t i = 0; i < 4; i++) out[6 + count + i] = f->ocf[i];
    ref_put16(out + count + 10, REF_CRC(out, count + 10));
    *total = count + 12;
    return 0;
}

static bool ref_check_append(uint8_t *o, size_t count) {
    if (count < 2) return false;
    ref_put16(o + count - 2, REF_CRC(o, count - 2));
    return true;
}

static bool ref_check_holds(const uint8_t *o, size_t count) {
    return count >= 2 && REF_CRC(o, count - 2) == (uint16_t)(o[count - 2] << 8 | o[count - 1]);
}
#endif
