/* The state table of FARM-1 in plain C (CCSDS 232.1-B-2, table 6-1), over the struct of the library. With TESTED each
 * call first tests, as the header states, that the fields are those of a receiver; without, it does not test them. */
#include "plain.h"

#ifdef TESTED
#define CALL(name) tested_farm_##name
#define TEST(farm) if (!is_receiver(farm)) return SEDGE_DAMAGED

static bool is_receiver(const struct sedge_farm *farm)
{
    return farm->width % 2 == 0 && farm->width >= 2 && farm->lockout <= 1 && farm->wait <= 1 && farm->retransmit <= 1
           && farm->wait <= farm->retransmit && farm->farm_b <= 3;
}
#else
#define CALL(name) plain_farm_##name
#define TEST(farm)
#endif

uint8_t CALL(ad)(struct sedge_farm *farm, uint8_t n, bool buffer_free)
{
    TEST(farm);
    uint8_t half = farm->width / 2;
    uint8_t ahead = (uint8_t)(n - farm->vr);
    if (farm->lockout)
        return SEDGE_DISCARDED;
    if (ahead >= half && ahead <= 255 - half) {
        farm->lockout = 1;
        return SEDGE_OUTSIDE;
    }
    if (farm->wait)
        return SEDGE_DISCARDED;
    if (ahead == 0) {
        if (!buffer_free) {
            farm->retransmit = 1;
            farm->wait = 1;
            return SEDGE_NO_BUFFER;
        }
        farm->vr++;
        farm->retransmit = 0;
        return SEDGE_ACCEPTED;
    }
    if (ahead < half) {
        farm->retransmit = 1;
        return SEDGE_AHEAD;
    }
    return SEDGE_BEHIND;
}

uint8_t CALL(unlock)(struct sedge_farm *farm)
{
    TEST(farm);
    farm->farm_b = (farm->farm_b + 1) & 3;
    farm->lockout = 0;
    farm->wait = 0;
    farm->retransmit = 0;
    return 0;
}
