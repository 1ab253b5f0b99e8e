/* The timer, the rows, and the memory of the nodes, whose ticks are not those of a call. */
#include "clock.h"
#include <sedgechisel.h>
#include <sedgechisel_memory.h>
#include <string.h>

uint32_t outside, asked;
static struct row {
    const char *name;
    size_t numbers[4];
    uint32_t ticks, asked;
} rows[400];
static int many;

#ifndef STATES
void keep(const char *name, size_t n, size_t p, size_t m, size_t s, uint32_t ticks) {
    int k;
    for (k = 0; k < many; k++) {
        const size_t *it = rows[k].numbers;
        if (strcmp(rows[k].name, name) == 0 && it[0] == n && it[1] == p && it[2] == m && it[3] == s) break;
    }
    want(k < (int)(sizeof rows / sizeof rows[0]));
    if (k == many) many++;
    if (ticks >= rows[k].ticks) rows[k] = (struct row){name, {n, p, m, s}, ticks, asked};
}
#else
/* The sums of c/time.csv, in hundredths of a tick; and how far above its sum a call was at most. Of a search only the
 * inputs of that one are kept. */
static const struct sum {
    const char *name;
    uint32_t ticks[5];
} sums[] = {SUMS};
static int64_t above[sizeof sums / sizeof sums[0]];

void keep(const char *name, size_t n, size_t p, size_t m, size_t s, uint32_t ticks) {
    const size_t numbers[5] = {1, n, p, m, s};
    int64_t over = 100 * (int64_t)ticks;
    size_t k;
    for (k = 0; k < sizeof sums / sizeof sums[0] && strcmp(sums[k].name, name) != 0; k++) continue;
    want(k < sizeof sums / sizeof sums[0]);
    for (int j = 0; j < 5; j++) over -= (int64_t)sums[k].ticks[j] * (int64_t)numbers[j];
    if (rows[k].name != NULL && over <= above[k]) return;
    if (k >= (size_t)many) many = (int)k + 1;
    above[k] = over;
    rows[k] = (struct row){name, {n, p, m, s}, ticks, asked};
}
#endif

/* Writes a number in decimal before this place, and returns where it begins. */
static char *put_decimal(char *end, uint32_t number) {
    do *--end = (char)('0' + number % 10);
    while ((number /= 10) > 0);
    return end;
}

static void tell(const char *text) {
    want(write_frame((const uint8_t *)text, strlen(text)));
}

static void tell_row(const struct row *row) {
    tell(row->name);
    for (int k = 0; k < 6; k++) {
        char text[12] = {0};
        tell(" ");
        tell(put_decimal(text + 11, k < 4 ? row->numbers[k] : k == 4 ? row->ticks : row->asked));
    }
    tell("\n");
}

void want(bool holds) {
    if (!holds) __builtin_trap();
}

uint32_t below(uint32_t bound) {
    static uint32_t state = 1;
    state = state * 1664525u + 1013904223u;
    return (uint32_t)(((uint64_t)state * bound) >> 32);
}

size_t put_packet(uint8_t *at, size_t octets) {
    const uint8_t head[6] = {0x10, 5, 0xc0, 0, (uint8_t)((octets - 7) >> 8), (uint8_t)(octets - 7)};
    memcpy(at, head, sizeof head);
    memset(at + sizeof head, 0x5a, octets - sizeof head);
    return octets;
}

/* static.c has these by other names here. */
struct sedge_place place_alloc(size_t count, size_t align);
struct sedge_place place_realloc(void *at, size_t kept, size_t count, size_t align);
void place_dealloc(void *at);

struct sedge_place rattle_alloc(size_t count, size_t align) {
    const uint32_t begun = TIMER_VALUE;
    const struct sedge_place place = place_alloc(count, align);
    asked++;
    outside += begun - TIMER_VALUE;
    return place;
}

struct sedge_place rattle_realloc(void *at, size_t kept, size_t count, size_t align) {
    const uint32_t begun = TIMER_VALUE;
    const struct sedge_place place = place_realloc(at, kept, count, align);
    asked++;
    outside += begun - TIMER_VALUE;
    return place;
}

void rattle_dealloc(void *at) {
    const uint32_t begun = TIMER_VALUE;
    place_dealloc(at);
    asked++;
    outside += begun - TIMER_VALUE;
}

int main(void) {
    want(open_devices());
    TIMER_RELOAD = 0xffffffffu;
    TIMER_VALUE = 0xffffffffu;
    TIMER_CONTROL = 1;
    for (int k = 0; k < 10; k++) TIMED("nothing", 0, 0, 0, 0, (void)0);
    measure();
    for (int k = 0; k < many; k++) {
        if (rows[k].name != NULL) tell_row(&rows[k]);
    }
    return 0;
}
