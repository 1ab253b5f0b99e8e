/* Decodes a telecommand frame with its FECF in plain C (CCSDS 232.0-B-4, 4.1), over the structs of the library. The
 * FECF takes eight octets in each iteration by eight tables ("slicing by eight"). */
#include "plain.h"
#include <string.h>

static uint16_t tables[8][256];

void plain_begin(void)
{
    for (unsigned i = 0; i < 256; i++) {
        uint16_t sum = (uint16_t)(i << 8);
        for (int bit = 0; bit < 8; bit++)
            sum = (uint16_t)(sum << 1 ^ (sum & 0x8000 ? 0x1021 : 0));
        tables[0][i] = sum;
    }
    for (unsigned k = 1; k < 8; k++)
        for (unsigned i = 0; i < 256; i++)
            tables[k][i] = (uint16_t)(tables[k - 1][i] << 8 ^ tables[0][tables[k - 1][i] >> 8]);
}

static uint16_t check_of(const uint8_t *at, size_t left)
{
    uint16_t sum = 0xffff;
    for (; left >= 8; at += 8, left -= 8)
        sum = tables[7][at[0] ^ sum >> 8] ^ tables[6][at[1] ^ (sum & 0xff)] ^ tables[5][at[2]] ^ tables[4][at[3]]
              ^ tables[3][at[4]] ^ tables[2][at[5]] ^ tables[1][at[6]] ^ tables[0][at[7]];
    for (; left > 0; at++, left--)
        sum = (uint16_t)(sum << 8 ^ tables[0][at[0] ^ sum >> 8]);
    return sum;
}

/* Whether the data field of a control frame is a command (4.1.3.3). */
static int is_command(const uint8_t *field, size_t count, struct sedge_tc_frame *frame)
{
    if (count == 1 && field[0] == 0) {
        frame->command = SEDGE_UNLOCK;
        return 1;
    }
    if (count == 3 && field[0] == 0x82 && field[1] == 0) {
        frame->command = SEDGE_SET_VR;
        frame->vr = field[2];
        return 1;
    }
    return 0;
}

uint8_t plain_tc_decode(const uint8_t *octets, size_t count, bool checked, struct sedge_tc_frame *frame,
                        struct sedge_part *data)
{
    struct sedge_tc_frame found = {0};
    size_t end = checked ? count - 2 : count;
    if (count < 5)
        return SEDGE_TC_SHORT;
    if (octets[0] & 0xc0)
        return SEDGE_TC_VERSION;
    if ((octets[0] & 0x30) == 0x10)
        return SEDGE_TC_RESERVED_TYPE;
    if (octets[0] & 0x0c)
        return SEDGE_TC_SPARE;
    if ((size_t)((octets[2] & 3) << 8 | octets[3]) + 1 != count || (checked && count < 7))
        return SEDGE_TC_LENGTH;
    if (checked && check_of(octets, end) != (octets[end] << 8 | octets[end + 1]))
        return SEDGE_TC_CHECK;
    found.scid = (uint16_t)((octets[0] & 3) << 8 | octets[1]);
    found.vcid = octets[2] >> 2;
    found.kind = octets[0] & 0x10 ? SEDGE_TC_BC : octets[0] & 0x20 ? SEDGE_TC_BD : SEDGE_TC_AD;
    if (found.kind != SEDGE_TC_AD && octets[4] != 0)
        return SEDGE_TC_BYPASS_NUMBER;
    found.n = octets[4];
    if (found.kind == SEDGE_TC_BC) {
        if (end == 5)
            return SEDGE_TC_EMPTY_DATA;
        if (!is_command(octets + 5, end - 5, &found))
            return SEDGE_TC_COMMAND;
        data->from = data->count = 0;
    } else {
        if (end <= 6)
            return SEDGE_TC_EMPTY_DATA;
        found.flags = octets[5] >> 6;
        found.map = octets[5] & 0x3f;
        data->from = 6;
        data->count = end - 6;
    }
    *frame = found;
    return SEDGE_OK;
}
