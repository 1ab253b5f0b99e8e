/* Writes the lines of `tctool farm`, by the library: what a receiver does with each frame of standard input, and its
 * state after it. The arguments are the window width, the first V(R), and whether frames end with an FECF, 0 or 1. */
#include <sedgechisel.h>
#include <stdio.h>
#include <stdlib.h>
#include <string.h>

static const char *const FAULTS[] = {"",       "Short", "Version",      "ReservedType", "Spare",
                                     "Length", "Check", "BypassNumber", "EmptyData",    "Command"};
static const char *const VERDICTS[] = {"accepted", "ahead", "nobuffer", "behind", "outside", "discarded"};
static const char *const MODES[] = {"Open", "Wait", "Lockout"};

static void write_refusal(unsigned long index, uint8_t fault) {
    printf("%lu invalid %d %s\n", index, fault, FAULTS[fault]);
}

/* Gives the receiver a frame, and writes what it made of it. */
static void write_body(struct sedge_farm *farm, const struct sedge_tc_frame *frame) {
    if (frame->kind == SEDGE_TC_AD) {
        printf("AD %d %s ", frame->n, VERDICTS[sedge_farm_ad(farm, frame->n, true)]);
    } else if (frame->kind == SEDGE_TC_BD) {
        sedge_farm_bd(farm);
        printf("BD ");
    } else if (frame->command == SEDGE_UNLOCK) {
        sedge_farm_unlock(farm);
        printf("BC unlock ");
    } else {
        sedge_farm_set_vr(farm, frame->vr);
        printf("BC set %d ", frame->vr);
    }
}

static void write_line(unsigned long index, struct sedge_farm *farm, const uint8_t *octets, size_t count,
                       bool checked) {
    struct sedge_tc_frame frame;
    struct sedge_part data;
    uint8_t fault = sedge_tc_decode(octets, count, checked, &frame, &data);
    if (fault != SEDGE_OK) {
        write_refusal(index, fault);
        return;
    }
    printf("%lu ", index);
    write_body(farm, &frame);
    printf("%s vr=%d l=%d w=%d t=%d b=%d\n", MODES[sedge_farm_state(farm)], farm->vr, farm->lockout, farm->wait,
           farm->retransmit, farm->farm_b);
}

int main(int count, char **words) {
    static uint8_t octets[65536];
    struct sedge_farm farm;
    size_t held = 0, from, total, more;
    unsigned long index = 0;
    uint8_t fault = SEDGE_OK;
    bool checked = count == 4 && strcmp(words[3], "1") == 0;
    if (count != 4 || sedge_farm_open(&farm, (uint8_t)atoi(words[1]), (uint8_t)atoi(words[2])) != SEDGE_OK) return 2;
    while ((more = fread(octets + held, 1, sizeof octets - held, stdin)) > 0) {
        held += more;
        from = 0;
        while ((fault = sedge_tc_declared(octets + from, held - from, checked, &total)) == SEDGE_OK
               && total <= held - from) {
            write_line(++index, &farm, octets + from, total, checked);
            from += total;
        }
        if (fault == SEDGE_TC_LENGTH) break;
        memmove(octets, octets + from, held - from);
        held -= from;
    }
    if (fault == SEDGE_TC_LENGTH)
        write_refusal(index + 1, SEDGE_TC_LENGTH);
    else if (held > 0)
        write_refusal(index + 1, SEDGE_TC_SHORT);
    return 0;
}
