/* Which numbers name no directive: those above the last one, which c/tests/last finds in the header. */
#ifndef NONE_H
#define NONE_H

#include <sedgechisel.h>

/* Some directives carry an octet, and a value that is none names no directive of that number either. */
static inline int is_no_directive(uint8_t number, uint16_t value) {
    return number < 1 || number > LAST_DIRECTIVE
           || (value > 255 && (number == SEDGE_INIT_SET_VR || number == SEDGE_SET_VS));
}

#endif
