/* What bench/library measures in plain C: the decoding of frames, the receiver and the sender. The last two also exist
 * with the test of their fields (tested_). */
#ifndef PLAIN_H
#define PLAIN_H

#include "sedgechisel.h"

/* Makes the tables of the check; call it before plain_tc_decode. */
void plain_begin(void);

uint8_t plain_tc_decode(const uint8_t *octets, size_t count, bool checked, struct sedge_tc_frame *frame,
                        struct sedge_part *data);

uint8_t plain_farm_ad(struct sedge_farm *farm, uint8_t n, bool buffer_free);

uint8_t plain_farm_unlock(struct sedge_farm *farm);

uint8_t tested_farm_ad(struct sedge_farm *farm, uint8_t n, bool buffer_free);

uint8_t tested_farm_unlock(struct sedge_farm *farm);

uint8_t plain_fop_submit(struct sedge_fop *fop);

uint8_t plain_fop_next(struct sedge_fop *fop, uint8_t *number);

uint8_t plain_fop_report(struct sedge_fop *fop, uint8_t vcid, const struct sedge_clcw *word, uint8_t *released);

uint8_t plain_fop_tick(struct sedge_fop *fop);

uint8_t tested_fop_submit(struct sedge_fop *fop);

uint8_t tested_fop_next(struct sedge_fop *fop, uint8_t *number);

uint8_t tested_fop_report(struct sedge_fop *fop, uint8_t vcid, const struct sedge_clcw *word, uint8_t *released);

uint8_t tested_fop_tick(struct sedge_fop *fop);

#endif
